/* bench_cases PROGRAM [ARGUMENT...]: stacks made by hand, and what a program
 * that answers runs writes for them, worked out by hand from request Eleven. It
 * is given each stack on standard input. */
#include <stdio.h>
#include <string.h>

#include "bytes.h"
#include "script.h"
#include "trial.h"

#define ZEROS "0000000000000000000000000000"
#define NO_IAD ZEROS ZEROS "00000000\n"

/* An IAD of key 01 and profile 1: CVR, accumulator, counters. */
#define IAD(cvr, accumulator, counters)                                        \
    "0FA501" cvr accumulator counters "0F01" ZEROS "\n"

/* The 36 bytes of an answer. */
#define REFUSED(number) number "000000" NO_IAD
#define STARTED(atc) "0000" atc NO_IAD
#define WRITTEN "00000000" NO_IAD
#define GIVEN(cid, atc, cvr, accumulator, counters)                            \
    "00" cid atc IAD(cvr, accumulator, counters)

enum { ANSWER = 36, ROOM = 65536, RUN = 65536, STACK = 1 << 20 };

static char **program;
static uint8_t stack[STACK];
static size_t length; /* of the stack */
static char expected[1 << 20];
static size_t said; /* of what is expected */
static unsigned cases, wrong;

/* What the program must write next. */
static void say(const char *text)
{
    strcpy(expected + said, text);
    said += strlen(text);
}

/* So many bytes of a room that nothing was written to. */
static void say_untouched(size_t size)
{
    for (size_t i = 0; i < size; i++)
        say((i + 1) % ANSWER == 0 || i + 1 == size ? "AA\n" : "AA");
}

static void say_refused(const char *line, size_t size)
{
    say(line);
    say_untouched(size);
}

static void expect(const char *name)
{
    size_t written;
    const char *got = try_program(program, stack, length, &written);

    cases++;
    if (written != said || memcmp(got, expected, said) != 0) {
        wrong++;
        printf("%s: expected\n%sbut got\n%s\n", name, expected, got);
    }
    length = 0;
    said = 0;
    expected[0] = '\0';
}

static void add(const void *bytes, size_t count)
{
    if (count > 0)
        memcpy(stack + length, bytes, count);
    length += count;
}

static void add_number(uint32_t number)
{
    uint8_t bytes[4];

    put32(bytes, number);
    add(bytes, sizeof bytes);
}

static void add_zeros(size_t count)
{
    memset(stack + length, 0, count);
    length += count;
}

/* The paper at hand becomes block 1; the commands that follow are of runs. */
static void hand_in(void)
{
    add_number((uint32_t)draft->length);
    add(draft->bytes, draft->length);
    draft_begin(draft);
}

/* The commands since the last block become a run, with so much room. */
static void run(uint32_t size)
{
    add_number((uint32_t)(4 + draft->length - 1));
    add_number(size);
    add(draft->bytes + 1, draft->length - 1);
    draft_begin(draft);
}

/* Bytes among the commands that are none. */
static void stray(const uint8_t *bytes, size_t count)
{
    draft_insert(draft, draft->length, bytes, count);
}

/* The printed set-up alone in block 1. */
static void printed_card(void)
{
    draft_printed_setup(&setup);
    begin();
    hand_in();
    say("0 0\n");
}

static void printed_block(void)
{
    static const uint8_t left_over = 0;

    draft_printed_setup(&setup);
    begin();
    start(1);
    hand_in();
    first(TC, 5000);
    start(1);
    run(72);
    first(TC, 1);
    stray(&left_over, 1);
    run(30);
    first(TC, 1);
    second(TC, Y3, ABSENT, 0);
    run(36);
    first(TC, 1);
    run(41);
    run(0);
    say("0 0\n"
        "1 0 1\n"
        "run 0 2\n"
        "004000010FA501903000000000000000500001000F01" ZEROS "\n"
        "000000020000000000000000000000000000000000000000000000000000000000000"
        "000\n"
        "run 9 0\n"
        "AAAAAAAAAAAAAAAAAAAAAAAAAAAAAAAAAAAAAAAAAAAAAAAAAAAAAAAAAAAA\n"
        "run 17 0\n"
        "AAAAAAAAAAAAAAAAAAAAAAAAAAAAAAAAAAAAAAAAAAAAAAAAAAAAAAAAAAAAAAAAAAAAA"
        "AAA\n"
        "run 0 1\n"
        "008000020FA501A03020000000000000500001000F01" ZEROS "\n"
        "AAAAAAAAAA\n"
        "run 0 0\n");
    expect("the printed stack");
}

/* The printed sitting's commands. */
static void eight(void)
{
    start(1);
    first(TC, 5000);
    start(1);
    first(TC, 1);
    second(TC, Y3, ABSENT, 0);
    start(1);
    first(TC, 5000);
    second(TC, Y3, ABSENT, 0);
}

static void say_eight(void)
{
    say("run 0 8\n"
        STARTED("0001")
        GIVEN("40", "0001", "9030000000", "000000005000", "0100")
        STARTED("0002")
        GIVEN("80", "0002", "A030200000", "000000005000", "0100")
        GIVEN("40", "0002", "6230200100", "000000005001", "0200")
        STARTED("0003")
        GIVEN("00", "0003", "8231300000", "000000005001", "0200")
        REFUSED("02"));
}

static void eight_at_once(void)
{
    printed_card();
    eight();
    run(288);
    say_eight();
    expect("eight commands, room 288");

    printed_card();
    eight();
    run(287);
    eight();
    run(288);
    say_refused("run 17 0\n", 287);
    say_eight();
    expect("eight commands, room 287, and again");
}

/* A refused command takes its place, and the run goes on. */
static void refused_commands(void)
{
    printed_card();
    second(TC, Y3, ABSENT, 0);
    start(1);
    first(3, 1);
    first(TC, 5000);
    first(TC, 5000);
    start(9);
    start(1);
    first(TC, MOST + 1);
    run(8 * ANSWER);
    say("run 0 8\n"
        REFUSED("02")
        STARTED("0001")
        REFUSED("05")
        GIVEN("40", "0001", "9030000000", "000000005000", "0100")
        REFUSED("02")
        REFUSED("03")
        STARTED("0002")
        REFUSED("06"));
    expect("refused commands");

    draft_printed_setup(&setup);
    setup.atc = 65534;
    begin();
    hand_in();
    start(1);
    start(1);
    first(AAC, 1);
    run(3 * ANSWER);
    say("0 0\n"
        "run 0 3\n"
        STARTED("FFFF")
        REFUSED("04")
        GIVEN("00", "FFFF", "8030000000", "000000000000", "0000"));
    expect("the last ATC");
}

/* The ATC's high byte comes first. */
static void high_byte_first(void)
{
    draft_printed_setup(&setup);
    setup.atc = 0x0101;
    begin();
    hand_in();
    start(1);
    first(ARQC, 5000);
    run(2 * ANSWER);
    say("0 0\n"
        "run 0 2\n"
        STARTED("0102")
        GIVEN("80", "0102", "A030000000", "000000000000", "0000"));
    expect("high byte first");
}

/* The card stays between blocks: what is open stays open. */
static void goes_on(void)
{
    printed_sitting();
    draft->length = draft->start[2]; /* the set-up and a Start */
    hand_in();
    first(ARQC, 5000);
    run(ANSWER);
    run(0);
    second(TC, Y3, ABSENT, 0);
    run(ANSWER);
    second(TC, Y3, ABSENT, 0);
    run(ANSWER);
    start(1);
    run(ANSWER);
    first(TC, 1);
    run(ANSWER);
    say("0 0\n"
        "1 0 1\n"
        "run 0 1\n"
        GIVEN("80", "0001", "A030000000", "000000000000", "0000")
        "run 0 0\n"
        "run 0 1\n"
        GIVEN("40", "0001", "6230000100", "000000005000", "0100")
        "run 0 1\n"
        REFUSED("02")
        "run 0 1\n"
        STARTED("0002")
        "run 0 1\n"
        GIVEN("80", "0002", "A231200000", "000000005000", "0100"));
    expect("what is open stays open");
}

/* Room beyond the answers keeps its bytes; an empty run wants none. */
static void rooms(void)
{
    static const size_t sizes[] = {0, 1, 35, 36, 37, 71, 72, 73, 100};

    for (size_t i = 0; i < sizeof sizes / sizeof *sizes; i++) {
        const size_t size = sizes[i];
        printed_card();
        run((uint32_t)size);
        start(1);
        run((uint32_t)size);
        run((uint32_t)size);
        say_refused("run 0 0\n", size);
        if (size < ANSWER)
            say_refused("run 17 0\n", size);
        else
            say_refused("run 0 1\n" STARTED("0001"), size - ANSWER);
        say_refused("run 0 0\n", size);
        expect("rooms");
    }
}

/* Of two Starts neither is run where the room is for one, or what is between,
 * before or behind them cannot be read: 9 whatever the room is. */
static void unreadable_case(const char *name, const uint8_t *bytes,
                            size_t count)
{
    static struct draft bad;

    for (unsigned place = 0; place < 3; place++) {
        printed_card();
        for (unsigned i = 0; i < 3; i++) {
            if (i == place)
                stray(bytes, count);
            if (i < 2)
                start(1);
        }
        bad = *draft;
        run(3 * ANSWER);
        *draft = bad;
        run(2 * ANSWER - 1);
        *draft = bad;
        run(0);
        first(TC, 1);
        start(1);
        run(2 * ANSWER);
        say_refused("run 9 0\n", 3 * ANSWER);
        say_refused("run 9 0\n", 2 * ANSWER - 1);
        say("run 9 0\n");
        say("run 0 2\n" REFUSED("02") STARTED("0001"));
        expect(name);
    }
}

static void unreadable(void)
{
    static const struct {
        const char *name;
        size_t count;
        uint8_t bytes[16];
    } bad[] = {
        {"a byte", 1, {0}},
        {"length 0", 2, {0, 0}},
        {"kind 0", 3, {0, 1, 0}},
        {"kind 6", 4, {0, 2, 6, 1}},
        {"kind 5, scripts off", 4, {0, 2, 5, 1}},
        {"kind 255", 4, {0, 2, 255, 1}},
        {"cut behind its length", 2, {0x7F, 0xFF}},
        {"cut in its body", 4, {0x7F, 0xFF, 2, 1}},
        {"a set-up without a body", 3, {0, 1, 1}},
        {"a version byte", 1, {1}},
        {"Start without a profile", 3, {0, 1, 2}},
        {"Start of two bytes", 5, {0, 3, 2, 1, 1}},
        {"First of 11 bytes", 14, {0, 12, 3, 1}},
        {"First of 13 bytes", 16, {0, 14, 3, 1}},
        {"Second of 7 bytes", 10, {0, 8, 4, 1}},
        {"Second of 9 bytes", 12, {0, 10, 4, 1}}};
    static struct draft again;

    for (size_t i = 0; i < sizeof bad / sizeof *bad; i++)
        unreadable_case(bad[i].name, bad[i].bytes, bad[i].count);

    draft_printed_setup(&setup);
    draft_begin(&again);
    draft_setup(&again, &setup);
    unreadable_case("the set-up", again.bytes + 1, again.length - 1);
}

/* Room for the first of two answers is not room for both. */
static void too_small(void)
{
    printed_card();
    start(1);
    first(TC, 1);
    run(ANSWER);
    first(TC, 1);
    start(1);
    run(2 * ANSWER);
    say_refused("run 17 0\n", ANSWER);
    say("run 0 2\n" REFUSED("02") STARTED("0001"));
    expect("nothing is run for 17");
}

/* As many answers as the largest room has. */
static void many_answers(void)
{
    enum { MANY = ROOM / ANSWER };

    printed_card();
    for (unsigned i = 0; i < MANY + 1; i++)
        second(TC, Y3, ABSENT, 0);
    run(UINT32_MAX);
    for (unsigned i = 0; i < MANY; i++)
        second(TC, Y3, ABSENT, 0);
    run(MANY * ANSWER - 1);
    for (unsigned i = 0; i < MANY; i++)
        second(TC, Y3, ABSENT, 0);
    run(ROOM + 1);
    say_refused("run 17 0\n", ROOM);
    say_refused("run 17 0\n", MANY * ANSWER - 1);
    say("run 0 1820\n");
    for (unsigned i = 0; i < MANY; i++)
        say(REFUSED("02"));
    say_untouched(ROOM - MANY * ANSWER);
    expect("as many answers as fit");
}

/* The shapes of commands in later versions; visits have no place. */
static void versions(void)
{
    static const uint8_t data[] = {9, 1};

    draft_printed_setup(&setup);
    setup.version = 2;
    simple_entry(0xFF, 0x09, 0, 0x81, 1);
    simple_entry(0xFF, 0x00, 0, 1, 1);
    begin();
    hand_in();
    draft_data(draft, NULL, 0);
    start(9);
    draft_data(draft, data, sizeof data);
    first(TC, 5000);
    run(4 * ANSWER);
    say("0 0\n"
        "run 0 4\n"
        REFUSED("0C")
        STARTED("0001")
        STARTED("0002")
        GIVEN("40", "0002", "9030000000", "000000005000", "0100"));
    expect("selection");

    draft_printed_setup(&setup);
    cyclic(0x050715, DAYS, FRI, MONTHS, FRI);
    begin();
    hand_in();
    start(1);
    draft_first(draft, TC, 1, EUR, ONLINE_TERMINAL);
    run(2 * ANSWER);
    start(1);
    first_on(0x050732, TC, 1);
    first_on(0x050714, TC, 1);
    run(3 * ANSWER);
    say("0 0\n");
    say_refused("run 9 0\n", 2 * ANSWER);
    say("run 0 3\n"
        STARTED("0001")
        REFUSED("0D")
        GIVEN("40", "0001", "9030020000", "000000000001", "0100"));
    expect("dated");

    draft_printed_setup(&setup);
    cpace();
    begin();
    hand_in();
    draft_start(draft, 1);
    run(ANSWER);
    interface = 2;
    start(1);
    interface = CONTACTLESS;
    start(1);
    first(TC, 5000);
    run(3 * ANSWER);
    say("0 0\n");
    say_refused("run 9 0\n", ANSWER);
    say("run 0 3\n"
        REFUSED("06")
        STARTED("0001")
        GIVEN("40", "0001", "9030000000", "000000005000", "0100"));
    expect("CPACE");
}

/* A script's answer is its refusal and zeros; what it writes stays. */
static void by_script(void)
{
    static const char value[] =
        "711886160CDABF30118109DF01060000000060008E0411223344";
    static const char limits[] =
        "711E861C0CDABF3017810FDF110C0000000060010000000060028E0411223344";

    draft_printed_setup(&setup);
    scripts();
    begin();
    start(1);
    hand_in();
    script(value);
    first(AAC, 0);
    script(value);
    script("710186");
    script("7109A507BF0C047102E100");
    script_by(2, value);
    run(6 * ANSWER);
    draft_record(draft, KIND_SCRIPT, NULL, 0);
    start(1);
    run(2 * ANSWER);
    script(limits);
    run(ANSWER);
    start(1);
    first(TC, 1);
    start(1);
    first(TC, 1);
    run(4 * ANSWER);
    say("0 0\n"
        "1 0 1\n"
        "run 0 6\n"
        REFUSED("02")
        GIVEN("00", "0001", "8030000000", "000000000000", "0000")
        WRITTEN
        REFUSED("12")
        REFUSED("13")
        REFUSED("06"));
    say_refused("run 9 0\n", 2 * ANSWER);
    say("run 0 1\n"
        WRITTEN
        "run 0 4\n"
        STARTED("0002")
        GIVEN("40", "0002", "9030002000", "000000006001", "0100")
        STARTED("0003")
        GIVEN("80", "0003", "A030202000", "000000006001", "0100"));
    expect("scripts");

    draft_printed_setup(&setup);
    setup.version = 6;
    begin();
    hand_in();
    script(value);
    run(ANSWER);
    say("0 0\n");
    say_refused("run 9 0\n", ANSWER);
    expect("scripts off");
}

/* A refusal that ends the paper ends all, whatever follows. */
static void refused_papers(void)
{
    draft_printed_setup(&setup);
    setup.pin = 16;
    begin();
    hand_in();
    start(1);
    run(ANSWER);
    say("0 1\n");
    expect("a set-up out of range");

    printed_sitting();
    draft->length = 0;
    hand_in();
    start(1);
    run(ANSWER);
    say("0 9\n");
    expect("an empty paper");

    draft_printed_setup(&setup);
    begin();
    start(1);
    start(9);
    draft_record(draft, 6, NULL, 0);
    start(1);
    hand_in();
    start(1);
    run(ANSWER);
    add_number(5); /* cut short */
    say("0 0\n1 0 1\n2 3\n3 9\n");
    expect("a paper that ends in 9");

    draft_printed_setup(&setup);
    begin();
    start(9);
    hand_in();
    start(1);
    run(ANSWER);
    say("0 0\n1 3\nrun 0 1\n" STARTED("0001"));
    expect("a paper whose last command is refused");
}

/* Block 1 over a paper's length is a paper too long. */
static void long_papers(void)
{
    static const size_t sizes[] = {65537, 65540, 65541, 300000};

    for (size_t i = 0; i < sizeof sizes / sizeof *sizes; i++) {
        printed_sitting();
        const size_t size = sizes[i];
        add_number((uint32_t)size);
        add(draft->bytes, draft->length);
        add_zeros(size - draft->length);
        draft_begin(draft);
        start(1);
        run(ANSWER);
        say("0 9\n");
        expect("a paper too long");

        printed_sitting();
        add_number((uint32_t)size);
        add(draft->bytes, draft->length);
        add_zeros(size - draft->length - 1);
        say("cut short\n");
        expect("a paper too long and cut short");
    }
}

/* Of the size of a room what is missing is zero. */
static void heads(void)
{
    static const struct {
        size_t count, size;
        uint8_t bytes[4];
    } parts[] = {{0, 0, {0}},
                 {1, 0, {0}},
                 {1, ROOM, {1}},
                 {2, 0, {0, 0}},
                 {2, ROOM, {0, 1}},
                 {3, 256, {0, 0, 1}},
                 {3, 65280, {0, 0, 0xFF}},
                 {3, ROOM, {0, 1, 0}},
                 {4, 255, {0, 0, 0, 0xFF}},
                 {4, 65535, {0, 0, 0xFF, 0xFF}},
                 {4, ROOM, {0, 1, 0, 0}},
                 {4, ROOM, {0, 1, 0, 1}},
                 {4, ROOM, {0xFF, 0xFF, 0xFF, 0xFF}}};

    for (size_t i = 0; i < sizeof parts / sizeof *parts; i++) {
        printed_card();
        add_number((uint32_t)parts[i].count);
        add(parts[i].bytes, parts[i].count);
        draft_begin(draft);
        start(1);
        run(ANSWER);
        say_refused("run 0 0\n", parts[i].size);
        say("run 0 1\n" STARTED("0001"));
        expect("the size of a room");
    }
}

/* The longest run, and blocks that are longer: these are passed over, though
 * they begin as runs do. The card's file is still in its paper. */
static void long_runs(void)
{
    static const size_t over[] = {1, 2, 300000};
    static uint8_t data[RUN - 3];

    draft_printed_setup(&setup);
    setup.version = 2;
    simple_entry(0xFF, 0x00, 0, 1, 1);
    begin();
    hand_in();
    say("0 0\n");
    draft_data(draft, data, sizeof data);
    run(ANSWER);
    say("run 0 1\n" STARTED("0001"));
    for (size_t i = 0; i < sizeof over / sizeof *over; i++) {
        start(1);
        add_number((uint32_t)(4 + RUN + over[i]));
        add_number(ANSWER);
        add(draft->bytes + 1, draft->length - 1);
        add_zeros(RUN + over[i] - (draft->length - 1));
        draft_begin(draft);
        say("too long\n");
    }
    start(1);
    run(ANSWER);
    say("run 0 1\n" STARTED("0002"));
    expect("the longest run, and longer ones");

    printed_card();
    for (unsigned i = 0; i < RUN / 4; i++)
        start(1);
    run(UINT32_MAX);
    say_refused("run 17 0\n", ROOM);
    expect("16,384 Starts");

    printed_card();
    add_number(4 + RUN + 1);
    add_zeros(4 + RUN + 1);
    say("too long\n");
    expect("too long at the end");
}

/* A stack that ends inside a block, or inside its length. */
static void cut_short(void)
{
    static const uint8_t bytes[] = {0, 0, 0, 8, 0, 0, 0, 36, 0, 2, 2, 1};

    expect("an empty stack");
    for (size_t count = 1; count < 4; count++) {
        add_zeros(count);
        say("cut short\n");
        expect("cut short in the first length");
    }
    for (size_t less = 1; less < 200; less += 33) {
        draft_printed_setup(&setup);
        begin();
        start(1);
        first(TC, 1);
        first(TC, 1);
        hand_in();
        length -= less < length ? less : length;
        say("cut short\n");
        expect("cut short in the paper");
    }
    for (size_t count = 1; count < sizeof bytes; count++) {
        printed_card();
        start(1);
        run(ANSWER);
        add(bytes, count);
        say("run 0 1\n" STARTED("0001") "cut short\n");
        expect("cut short in a run");
    }
    printed_card();
    add_number(4 + RUN + 1);
    add_zeros(4 + RUN);
    say("cut short\n");
    expect("too long and cut short");
    printed_card();
    add_number(UINT32_MAX);
    say("cut short\n");
    expect("far too long and cut short");
}

/* The log is not shown; the card answers as it does without one. A table past
 * its data ends the paper, and all behind it. */
static void with_log(void)
{
    draft_printed_setup(&setup);
    logs(2, DECLINED | APPROVED | WITH_CVR);
    at_second(FROM_SECOND, 1, 8);
    begin();
    start(1);
    first(TC, 5000);
    start(1);
    first(TC, 1);
    hand_in();
    second(TC, Y3, ABSENT, 0);
    run(ANSWER);
    start(1);
    first(TC, 5000);
    second(TC, Y3, ABSENT, 0);
    run(3 * ANSWER);
    say("0 0\n"
        "1 0 1\n"
        "2 0 40 1 " IAD("9030000000", "000000005000", "0100")
        "3 0 2\n"
        "4 0 80 2 " IAD("A030200000", "000000005000", "0100")
        "run 0 1\n"
        GIVEN("40", "0002", "6230200100", "000000005001", "0200")
        "run 0 3\n"
        STARTED("0003")
        GIVEN("00", "0003", "8231300000", "000000005001", "0200")
        REFUSED("02"));
    expect("a log");

    at_second(FROM_SECOND, 8, 2);
    begin();
    start(1);
    hand_in();
    start(1);
    run(ANSWER);
    say("0 14\n");
    expect("a table past its data");
}

int main(int argc, char **argv)
{
    if (argc < 2) {
        fprintf(stderr, "usage: bench_cases PROGRAM [ARGUMENT...]\n");
        return 2;
    }
    program = argv + 1;
    printed_block();
    eight_at_once();
    refused_commands();
    high_byte_first();
    goes_on();
    rooms();
    unreadable();
    too_small();
    many_answers();
    versions();
    if (LATEST > 5)
        by_script();
    if (LATEST > 6)
        with_log();
    refused_papers();
    long_papers();
    heads();
    long_runs();
    cut_short();
    printf("%u cases of bench, %u wrong\n", cases, wrong);
    return wrong > 0;
}
