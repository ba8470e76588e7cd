/* display_cases PROGRAM [ARGUMENT...]: papers made by hand, and what a program
 * that shows the room left writes for them, worked out by hand from request
 * Seven. It is given each paper on standard input. */
#include <stdio.h>
#include <string.h>

#include "examples.h"
#include "script.h"
#include "trial.h"

/* An IAD of key 01: CVR, accumulator, counters, profile. */
#define IAD(cvr, accumulator, counters, profile)                               \
    "0FA501" cvr accumulator counters "0F" profile                             \
    "0000000000000000000000000000\n"

static char **program;
static struct draft_profile *const profile = &setup.profile[0];
static char expected[1 << 20];
static size_t length; /* of what is expected */
static unsigned cases, wrong;

static void judge(const char *name, const char *shown)
{
    cases++;
    if (strcmp(shown, expected) != 0) {
        wrong++;
        printf("%s: expected\n%sbut got\n%s\n", name, expected, shown);
    }
    length = 0;
    expected[0] = '\0';
}

static const char *shown(void)
{
    size_t written;

    return try_program(program, draft->bytes, draft->length, &written);
}

/* So many times the same lines. */
static void say(unsigned times, const char *lines)
{
    for (; times > 0; times--, length += strlen(lines))
        strcpy(expected + length, lines);
}

/* All that is shown of the paper at hand. */
static void expect(const char *name, const char *lines)
{
    say(1, lines);
    judge(name, shown());
}

/* Of what is shown the lines of rooms. */
static void expect_rooms(const char *name)
{
    static char rooms[1 << 20];
    size_t size = 0;

    for (const char *line = shown(); *line != '\0';) {
        size_t count = strcspn(line, "\n");
        count += line[count] == '\n';
        if (strncmp(line, "room", 4) == 0) {
            memcpy(rooms + size, line, count);
            size += count;
        }
        line += count;
    }
    rooms[size] = '\0';
    judge(name, rooms);
}

/* The printed set-up with all masks zero: nothing declines or goes online. */
static void lenient(void)
{
    draft_printed_setup(&setup);
    profile->online = 0;
    profile->decline = 0;
    profile->by_default = 0;
}

static void printed(void)
{
    printed_sitting();
    expect("the printed sitting",
           "0 0\n"
           "room 1 10000 0 0 0\n"
           "1 0 1\n"
           "room 1 10000 0 0 0\n"
           "2 0 40 1 " IAD("9030000000", "000000005000", "0100", "01")
           "room 1 5000 0 0 0\n"
           "3 0 2\n"
           "room 1 5000 0 0 0\n"
           "4 0 80 2 " IAD("A030200000", "000000005000", "0100", "01")
           "room 1 5000 0 0 0\n"
           "5 0 40 2 " IAD("6230200100", "000000005001", "0200", "01")
           "room 1 4999 0 0 0\n"
           "6 0 3\n"
           "room 1 4999 0 0 0\n"
           "7 0 00 3 " IAD("8231300000", "000000005001", "0200", "01")
           "room 1 4999 0 0 0\n"
           "8 2\n"
           "room 1 4999 0 0 0\n");
}

/* Profiles 7 and 3. In the second accumulator 1 is not active, accumulator 2 in
 * neither. */
static void two_profiles(void)
{
    draft_printed_setup(&setup);
    profiles_alike(2);
    setup.accumulator[1].value = 200;
    for (unsigned i = 0; i < 2; i++) {
        setup.profile[i].counter_sent[0] = 0;
        setup.profile[i].accumulator[0].lower = 10000;
    }
    setup.profile[0].number = 7;
    setup.profile[0].accumulator[1].upper = 500;
    setup.profile[1].number = 3;
    setup.profile[1].accumulator[0].switches = 6;
    setup.profile[1].accumulator[0].upper = 8000;
    begin();
    start(7);
    first(TC, 9000);
    start(9);
    expect("profiles 7 and 3",
           "0 0\n"
           "room 7 10000 300 0 0\n"
           "room 3 8000 0 0 0\n"
           "1 0 1\n"
           "room 7 10000 300 0 0\n"
           "room 3 8000 0 0 0\n"
           "2 0 40 1 " IAD("9030000000", "000000009000", "0000", "07")
           "room 7 1000 300 0 0\n"
           "room 3 0 0 0 0\n"
           "3 3\n"
           "room 7 1000 300 0 0\n"
           "room 3 0 0 0 0\n");
}

/* A set-up alone: what its values and upper limits leave. */
static void bounds_case(const uint64_t values[4], const uint64_t uppers[4],
                        const char *rooms)
{
    lenient();
    for (unsigned i = 0; i < 4; i++) {
        setup.accumulator[i].value = values[i];
        profile->accumulator[i].lower = 7;
        profile->accumulator[i].upper = uppers[i];
    }
    begin();
    say(1, "0 0\n");
    expect("bounds", rooms);
}

static void bounds(void)
{
    bounds_case((const uint64_t[]){10001, 5, MOST - 1, 0},
                (const uint64_t[]){10000, 5, MOST, MOST},
                "room 1 0 0 1 999999999999\n");
    bounds_case((const uint64_t[]){MOST, 1, 0, 0},
                (const uint64_t[]){0, 0, 0, 1}, "room 1 0 0 0 1\n");
    bounds_case((const uint64_t[]){1, 9, 4294967296, 99},
                (const uint64_t[]){10, 100, 8589934593, 199},
                "room 1 9 91 4294967297 100\n");
}

/* Lines in the set-up's order, whatever the numbers are. */
static void four_profiles(void)
{
    static const uint8_t numbers[] = {124, 1, 50, 2};

    lenient();
    profiles_alike(4);
    for (unsigned i = 0; i < 4; i++) {
        setup.profile[i].number = numbers[i];
        setup.profile[i].accumulator[i].upper = 20 + i;
    }
    begin();
    expect("four profiles",
           "0 0\n"
           "room 124 20 0 0 0\n"
           "room 1 10000 21 0 0\n"
           "room 50 10000 0 22 0\n"
           "room 2 10000 0 0 23\n");
}

static void open_with(uint8_t number, uint8_t type, uint64_t amount)
{
    start(number);
    first(type, amount);
}

/* What moves the room and what does not. */
static void moves(void)
{
    lenient();
    begin();
    open_with(1, TC, 1000);
    open_with(1, AAC, 1000);
    open_with(1, ARQC, 1000);
    second(TC, Y3, ABSENT, 0);
    open_with(1, ARQC, 1000);
    second(AAC, Z3, ABSENT, 0);
    start(1);
    first_in(TC, 1000, USD);
    open_with(1, TC, 8001);
    open_with(1, TC, MOST);
    say(2, "room 1 10000 0 0 0\n");
    say(5, "room 1 9000 0 0 0\n"); /* TC at First, AAC, ARQC */
    say(7, "room 1 8000 0 0 0\n"); /* TC after Y3, AAC after Z3, no entry */
    say(3, "room 1 0 0 0 0\n");    /* above the limit, and at MAX */
    expect_rooms("what moves it");

    lenient();
    profile->accumulator[0].switches = 5;
    begin();
    open_with(1, TC, 1000);
    say(3, "room 1 10000 0 0 0\n");
    expect_rooms("accumulation not allowed");

    lenient();
    setup.conversions = 1;
    rate(0, USD, 25, 8);
    begin();
    start(1);
    first_in(TC, 1001, USD);
    say(2, "room 1 10000 0 0 0\n");
    say(1, "room 1 7498 0 0 0\n"); /* 2502, its fraction dropped */
    expect_rooms("converted");

    setup.version = 3;
    setup.syllabus = 1;
    begin();
    start(1);
    first_in(TC, 1001, USD);
    say(2, "room 1 10000 0 0 0\n");
    say(1, "room 1 7497 0 0 0\n");
    expect_rooms("converted, rounded up");

    lenient();
    profile->accumulator[0].upper = MOST;
    setup.conversions = 1;
    rate(0, USD, 9999, 12);
    begin();
    start(1);
    first_in(TC, MOST, USD);
    say(2, "room 1 999999999999 0 0 0\n");
    say(1, "room 1 0 0 0 0\n");
    expect_rooms("over");
}

/* The issuer's orders, in two profiles of different upper limits. */
static void orders(void)
{
    lenient();
    profiles_alike(2);
    setup.accumulator[0].value = 600;
    setup.profile[1].accumulator[0].upper = 700;
    begin();
    open_with(1, ARQC, 50);
    second(TC, OTHER, VERIFIED, 0x81);
    open_with(1, ARQC, 50);
    second(AAC, OTHER, VERIFIED, 0x02);
    open_with(1, ARQC, 50);
    second(TC, OTHER, VERIFIED, 0x83);
    open_with(1, ARQC, 50);
    second(TC, OTHER, VERIFIED, 0x80);
    open_with(1, ARQC, 50);
    second(TC, OTHER, ABSENT, 0x83);
    open_with(1, ARQC, 50);
    second(TC, OTHER, FAILED, 0x83);
    open_with(2, ARQC, 50);
    second(TC, OTHER, VERIFIED, 0x81);
    open_with(2, TC, 50);
    say(3, "room 1 9400 0 0 0\nroom 2 100 0 0 0\n");
    say(3, "room 1 0 0 0 0\nroom 2 0 0 0 0\n");        /* 01: 10000 */
    say(3, "room 1 10000 0 0 0\nroom 2 700 0 0 0\n");  /* 10: 0 */
    say(12, "room 1 9950 0 0 0\nroom 2 650 0 0 0\n");  /* 11: 50 */
    say(2, "room 1 9300 0 0 0\nroom 2 0 0 0 0\n");     /* 01: 700 */
    say(1, "room 1 9250 0 0 0\nroom 2 0 0 0 0\n");
    expect_rooms("orders");
}

/* A refusal keeps the rooms, and they are shown behind it. */
static void refusals(void)
{
    lenient();
    begin();
    first(TC, 5);
    second(TC, Y3, ABSENT, 0);
    start(2);
    open_with(1, TC, 400);
    first(TC, 5);
    open_with(1, 3, 5);
    first(TC, MOST + 1);
    draft_record(draft, 6, NULL, 0);
    expect("refusals",
           "0 0\n"
           "room 1 10000 0 0 0\n"
           "1 2\n"
           "room 1 10000 0 0 0\n"
           "2 2\n"
           "room 1 10000 0 0 0\n"
           "3 3\n"
           "room 1 10000 0 0 0\n"
           "4 0 1\n"
           "room 1 10000 0 0 0\n"
           "5 0 40 1 " IAD("9030000000", "000000000400", "0100", "01")
           "room 1 9600 0 0 0\n"
           "6 2\n"
           "room 1 9600 0 0 0\n"
           "7 0 2\n"
           "room 1 9600 0 0 0\n"
           "8 5\n"
           "room 1 9600 0 0 0\n"
           "9 6\n"
           "room 1 9600 0 0 0\n"
           "10 9\n"
           "room 1 9600 0 0 0\n");
}

/* What ends a paper: without a card no room, with one the rooms it has. */
static void ends(void)
{
    static const uint8_t left_over = 0;

    printed_sitting();
    draft->length = 0;
    expect("empty", "0 9\n");
    printed_sitting();
    draft->bytes[0] = LATEST + 1;
    expect("no such version", "0 9\n");
    draft_begin(draft);
    start(1);
    expect("no set-up", "0 9\n");
    draft_printed_setup(&setup);
    setup.pin = 16;
    begin();
    start(1);
    expect("a set-up out of range", "0 1\n");

    draft_printed_setup(&setup);
    begin();
    expect("a set-up alone", "0 0\nroom 1 10000 0 0 0\n");
    draft_setup(draft, &setup);
    start(1);
    expect("the set-up again",
           "0 0\nroom 1 10000 0 0 0\n1 9\nroom 1 10000 0 0 0\n");
    begin();
    draft_insert(draft, draft->length, &left_over, 1);
    expect("a byte left over",
           "0 0\nroom 1 10000 0 0 0\n1 9\nroom 1 10000 0 0 0\n");
    begin();
    draft_record(draft, KIND_START, NULL, 0);
    start(1);
    expect("no profile in a Start",
           "0 0\nroom 1 10000 0 0 0\n1 9\nroom 1 10000 0 0 0\n");
}

/* As long as a paper may be, the last byte left over; and a byte more. */
static void largest(void)
{
    static const uint8_t left_over = 0;
    char line[64];
    unsigned number = 1;

    draft_printed_setup(&setup);
    begin();
    say(1, "0 0\nroom 1 10000 0 0 0\n");
    for (; draft->length + 4 < PAPER; number++) {
        start(1);
        snprintf(line, sizeof line, "%u 0 %u\nroom 1 10000 0 0 0\n", number,
                 number);
        say(1, line);
    }
    while (draft->length < PAPER)
        draft_insert(draft, draft->length, &left_over, 1);
    snprintf(line, sizeof line, "%u 9\nroom 1 10000 0 0 0\n", number);
    expect("65,536 bytes", line);
    draft_insert(draft, draft->length, &left_over, 1);
    expect("65,537 bytes", "0 9\n");
}

/* What later versions add has no room of its own. */
static void versions(void)
{
    lenient();
    setup.version = 2;
    simple_entry(0x00, 0x00, 0, 1, 1);
    begin();
    start(5);
    expect("selection",
           "0 0\nroom 1 10000 0 0 0\n1 0 1 1\nroom 1 10000 0 0 0\n");

    lenient();
    cyclic(0x050715, DAYS, FRI, MONTHS, FRI);
    profile->cyclic[0].switches = 7;
    profile->cyclic[0].limit = 90;
    begin();
    start(1);
    first(TC, 30);
    start(1);
    first_on(0x050716, TC, 20);
    say(2, "room 1 10000 0 0 0\n");
    say(2, "room 1 9970 0 0 0\n");
    say(1, "room 1 9950 0 0 0\n");
    expect_rooms("cyclic accumulators");

    lenient();
    cpace();
    setup.control[0] = FOR_NOTHING;
    begin();
    start(1);
    first(TC, 30);
    cvm = BY_PIN;
    start(1);
    first(TC, 20);
    say(4, "room 1 10000 0 0 0\n");
    say(1, "room 1 9980 0 0 0\n");
    expect_rooms("closed to no CVM");
}

/* What a script writes shows at once, in every profile. */
static void by_script(void)
{
    draft_printed_setup(&setup);
    scripts();
    profiles_alike(2);
    setup.profile[1].accumulator[0].upper = 8000;
    begin();
    script("7118"
           "86160CDABF30118109DF01060000000090008E0411223344");
    script("711E"
           "861C0CDABF3017810FDF110C0000002000000000003000008E0411223344");
    script("710186");
    script_by(0, "7118"
              "86160CDABF30118109DF01060000000000018E0411223344");
    say(1, "room 1 10000 0 0 0\nroom 2 8000 0 0 0\n");
    say(1, "room 1 1000 0 0 0\nroom 2 0 0 0 0\n");
    say(3, "room 1 291000 0 0 0\nroom 2 291000 0 0 0\n");
    expect_rooms("value, limits, 18, not verified");

    script_fails();
    say(1, "room 1 10000 0 0 0\n");
    say(7, "room 1 6000 0 0 0\n");
    expect_rooms("a command that fails");

    script_between();
    say(3, "room 1 5000 0 0 0\n");
    say(1, "room 1 10000 0 0 0\n");
    say(3, "room 1 4000 0 0 0\n");
    say(4, "room 1 3999 0 0 0\n");
    expect_rooms("between First and Second");

    script_refusals();
    say(10, "room 1 10000 0 0 0\n");
    expect_rooms("refused scripts");
}

/* The log is shown behind all rooms, and not where a refusal ends the paper. */
static void with_log(void)
{
    static const uint8_t left_over = 0;

    lenient();
    logs(2, DECLINED | APPROVED | WITH_CID);
    begin();
    open_with(1, TC, 400);
    open_with(1, AAC, 500);
    open_with(1, TC, 600);
    start(2);
    say(1,
        "0 0\n"
        "room 1 10000 0 0 0\n"
        "1 0 1\n"
        "room 1 10000 0 0 0\n"
        "2 0 40 1 " IAD("9030000000", "000000000400", "0100", "01")
        "room 1 9600 0 0 0\n"
        "3 0 2\n"
        "room 1 9600 0 0 0\n"
        "4 0 00 2 " IAD("8030000000", "000000000400", "0100", "01")
        "room 1 9600 0 0 0\n"
        "5 0 3\n"
        "room 1 9600 0 0 0\n"
        "6 0 40 3 " IAD("9030000000", "000000001000", "0200", "01")
        "room 1 9000 0 0 0\n"
        "7 3\n"
        "room 1 9000 0 0 0\n");
    expect("a log",
           "log 1 000000000600097800000040\n"
           "log 2 000000000500097800000000\n");

    begin();
    open_with(1, AAC, 500);
    draft_insert(draft, draft->length, &left_over, 1);
    expect("a log, and a byte left over",
           "0 0\n"
           "room 1 10000 0 0 0\n"
           "1 0 1\n"
           "room 1 10000 0 0 0\n"
           "2 0 00 1 " IAD("8030000000", "000000000000", "0000", "01")
           "room 1 10000 0 0 0\n"
           "3 9\n"
           "room 1 10000 0 0 0\n");
    log_past_data();
    expect("a table past its data", "0 14\n");
}

int main(int argc, char **argv)
{
    if (argc < 2) {
        fprintf(stderr, "usage: display_cases PROGRAM [ARGUMENT...]\n");
        return 2;
    }
    program = argv + 1;
    printed();
    two_profiles();
    bounds();
    four_profiles();
    moves();
    orders();
    refusals();
    ends();
    largest();
    versions();
    if (LATEST > 5)
        by_script();
    if (LATEST > 6)
        with_log();
    printf("%u cases of display, %u wrong\n", cases, wrong);
    return wrong > 0;
}
