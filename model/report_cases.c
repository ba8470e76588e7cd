/* report_cases REPORT TALLY: stacks made by hand, and what two programs that
 * make the sheet of a class write for them, worked out by hand from request
 * Ten. Each is given each stack on standard input; the first that it answers
 * otherwise ends all. */
#include <inttypes.h>
#include <stdarg.h>
#include <stdio.h>
#include <stdlib.h>
#include <string.h>

#include "bytes.h"
#include "examples.h"
#include "script.h"
#include "trial.h"

enum { PROFILES = 124, REFUSALS = 19, STACK = 14 << 20, TEXT = 1 << 16 };

/* What is expected of one of the programs. */
struct side {
    char *program[2];
    char before[TEXT]; /* the lines before the sheet */
    char profiles[TEXT], refusals[TEXT], currencies[TEXT];
};

static struct side report, tally;
static unsigned taken;
static unsigned next_profile = 1, next_refusal = 1; /* of tally's lines */
static uint8_t stack[STACK];
static size_t length; /* of the stack */
static unsigned cases;

static void add(char *text, const char *format, ...)
{
    va_list values;

    va_start(values, format);
    vsprintf(text + strlen(text), format, values);
    va_end(values);
}

/* The sheet that must come, each call in its order: papers refused, profiles
 * with a count, refusals, currencies. */
static void refused(unsigned refusal, unsigned paper)
{
    add(report.before, "refused %u paper %20u\n", refusal, paper);
    add(tally.before, "refused %u %u\n", refusal, paper);
}

static void cut_short(void)
{
    add(report.before, "cut short\n");
    add(tally.before, "cut short\n");
}

static void no_profiles_below(unsigned number)
{
    for (; next_profile < number; next_profile++)
        add(tally.profiles, "profile %u 0 0 0\n", next_profile);
}

static void profile(unsigned number, unsigned tc, unsigned aac, unsigned arqc)
{
    no_profiles_below(number);
    next_profile++;
    add(report.profiles, "profile %4u TC %8u AAC %8u ARQC %8u\n", number, tc,
        aac, arqc);
    add(tally.profiles, "profile %u %u %u %u\n", number, tc, aac, arqc);
}

static void no_refusals_below(unsigned number)
{
    for (; next_refusal < number; next_refusal++)
        add(tally.refusals, "refusal %u 0\n", next_refusal);
}

static void refusal(unsigned number, unsigned count)
{
    no_refusals_below(number);
    next_refusal++;
    add(report.refusals, "refusal %4u %8u\n", number, count);
    add(tally.refusals, "refusal %u %u\n", number, count);
}

static void currency(unsigned code, uint64_t sum)
{
    add(report.currencies, "currency %04X %20" PRIu64 "\n", code, sum);
    add(tally.currencies, "currency %04X %" PRIu64 "\n", code, sum);
}

static void judge(const char *name, const char *expected, const char *got)
{
    cases++;
    if (strcmp(got, expected) == 0)
        return;
    printf("%s: expected\n%sbut got\n%s\n", name, expected, got);
    exit(1);
}

static const char *said(struct side *side)
{
    size_t written;

    return try_program(side->program, stack, length, &written);
}

static void expect_side(const char *name, struct side *side,
                        const char *papers)
{
    static char text[4 * TEXT];

    text[0] = '\0';
    add(text, "%s", side->before);
    add(text, papers, taken);
    add(text, "%s%s%s", side->profiles, side->refusals, side->currencies);
    judge(name, text, said(side));
    side->before[0] = '\0';
    side->profiles[0] = '\0';
    side->refusals[0] = '\0';
    side->currencies[0] = '\0';
}

/* The stack at hand, of which so many papers are taken, gives that sheet. */
static void expect(const char *name, unsigned papers)
{
    no_profiles_below(PROFILES + 1);
    no_refusals_below(REFUSALS + 1);
    add(report.profiles, "profile rest TC %8u AAC %8u ARQC %8u\n", 0, 0, 0);
    add(report.refusals, "refusal rest %8u\n", 0);
    taken = papers;
    expect_side(name, &report, "papers %4u\n");
    expect_side(name, &tally, "papers %u\n");
    next_profile = 1;
    next_refusal = 1;
    length = 0;
}

static void put(const void *bytes, size_t count)
{
    if (count > 0)
        memcpy(stack + length, bytes, count);
    length += count;
}

static void put_number(uint32_t number)
{
    uint8_t bytes[4];

    put32(bytes, number);
    put(bytes, sizeof bytes);
}

static void put_zeros(size_t count)
{
    memset(stack + length, 0, count);
    length += count;
}

/* The paper at hand goes to the stack. */
static void hand_in(void)
{
    put_number((uint32_t)draft->length);
    put(draft->bytes, draft->length);
}

static void hand_in_empty(unsigned times)
{
    for (; times > 0; times--)
        put_number(0);
}

/* A card that declines nothing: profiles numbered from 1, all of zeros. */
static void lenient(unsigned profiles)
{
    draft_printed_setup(&setup);
    profiles_blank(profiles);
}

/* The currency of this number, three digits. */
static uint16_t code(unsigned number)
{
    return (uint16_t)(number / 100 << 8 | number / 10 % 10 << 4 | number % 10);
}

/* A paper that buys for so much in each of some currencies, the last first. */
static void buy_in(unsigned from, unsigned count, uint64_t amount)
{
    lenient(1);
    begin();
    for (unsigned i = count; i > 0; i--) {
        start(1);
        first_in(TC, amount, code(from + i - 1));
    }
    hand_in();
}

static void currencies(unsigned from, unsigned count, uint64_t sum)
{
    for (unsigned i = 0; i < count; i++)
        currency(code(from + i), sum);
}

static void printed_three(void)
{
    printed_sitting();
    hand_in();
    class_paper();
    hand_in();
    hand_in_empty(1);
    judge("the printed sheet",
          "papers    3\n"
          "profile    1 TC        2 AAC        1 ARQC        1\n"
          "profile    3 TC        2 AAC        0 ARQC        2\n"
          "profile    7 TC        1 AAC        0 ARQC        0\n"
          "profile rest TC        0 AAC        0 ARQC        0\n"
          "refusal    2        1\n"
          "refusal    3        1\n"
          "refusal    9        2\n"
          "refusal rest        0\n"
          "currency 0840                    0\n"
          "currency 0978                 5701\n",
          said(&report));
    profile(1, 2, 1, 1);
    profile(3, 2, 0, 2);
    profile(7, 1, 0, 0);
    refusal(2, 1);
    refusal(3, 1);
    refusal(9, 2);
    currency(USD, 0);
    currency(EUR, 5701);
    expect("the printed sheet, and its tally", 3);
}

static void printed_many(void)
{
    printed_sitting();
    for (unsigned i = 0; i < 201; i++)
        hand_in();
    judge("the printed sitting 201 times",
          "refused 16 paper                  201\n"
          "papers  200\n"
          "profile    1 TC      400 AAC      200 ARQC      200\n"
          "profile rest TC        0 AAC        0 ARQC        0\n"
          "refusal    2      200\n"
          "refusal rest        0\n"
          "currency 0978              1000200\n",
          said(&report));
    refused(16, 201);
    profile(1, 400, 200, 200);
    refusal(2, 200);
    currency(EUR, 1000200);
    expect("the printed sitting 201 times, and its tally", 200);
}

static void blank(void)
{
    judge("a blank sheet",
          "papers    0\n"
          "profile rest TC        0 AAC        0 ARQC        0\n"
          "refusal rest        0\n",
          said(&report));
    expect("a blank sheet, and its tally", 0);
}

/* Tally's lines as the readings print them. */
static void printed_tally(void)
{
    static const char *const lines[] = {"refused 16 201\npapers 200\n",
                                        "\nprofile 1 400 200 200\n",
                                        "\nprofile 124 0 0 0\nrefusal 1 0\n",
                                        "\nrefusal 2 200\n",
                                        "\nrefusal 19 0\n"
                                        "currency 0978 1000200\n"};

    printed_sitting();
    for (unsigned i = 0; i < 201; i++)
        hand_in();
    const char *got = said(&tally);
    for (size_t i = 0; i < sizeof lines / sizeof *lines; i++) {
        const char *found = strstr(got, lines[i]);
        judge("tally's lines", lines[i], found ? lines[i] : got);
    }
    length = 0;
}

/* A stack that ends inside a paper or inside its length: what is not there is
 * no paper. */
static void ends(void)
{
    printed_sitting();
    const size_t whole = draft->length;
    for (size_t left = 0; left < 4; left++) {
        hand_in();
        put_number((uint32_t)whole);
        put(draft->bytes, whole);
        length -= left == 0 ? 1 : whole + 4 - left;
        cut_short();
        profile(1, 2, 1, 1);
        refusal(2, 1);
        currency(EUR, 5001);
        expect("cut short", 1);
    }
    put_number(65537);
    put_zeros(65536);
    cut_short();
    expect("too long and cut short", 0);
    hand_in_empty(202);
    put_number(1);
    refused(16, 201);
    refused(16, 202);
    cut_short();
    refusal(9, 200);
    expect("cut short behind 200", 200);
}

/* Papers that end early are taken with the lines that stand. */
static void early(void)
{
    lenient(1);
    setup.pin = 16;
    begin();
    start(1);
    first(TC, 1);
    hand_in();
    refusal(1, 1);
    expect("a set-up out of range", 1);

    lenient(1);
    begin();
    start(1);
    first(TC, 8);
    draft_record(draft, KIND_SETUP, NULL, 0);
    start(1);
    first(TC, 1);
    hand_in();
    profile(1, 1, 0, 0);
    refusal(9, 1);
    currency(EUR, 8);
    expect("a set-up again", 1);
}

static void past_data(void)
{
    lenient(1);
    logs(0, 0);
    at_first(13, 1);
    begin();
    start(1);
    first(TC, 1);
    hand_in();
    refusal(14, 1);
    expect("a table past its data", 1);
}

/* As many approvals of MAX as fit a paper, 3,440, and a byte that is no record
 * at its end; with one more it is too long. */
static void longest(void)
{
    static const uint8_t stray[] = {0, 0};

    lenient(1);
    begin();
    for (unsigned i = 0; i < 3440; i++) {
        start(1);
        first(TC, MOST);
    }
    for (unsigned i = 0; i < 3; i++)
        start(1);
    draft_insert(draft, draft->length, stray, 1);
    hand_in();
    profile(1, 3440, 0, 0);
    refusal(9, 1);
    currency(EUR, UINT64_C(3439999999996560));
    expect("the longest paper", 1);

    for (unsigned i = 0; i < 200; i++)
        hand_in();
    profile(1, 688000, 0, 0);
    refusal(9, 200);
    currency(EUR, UINT64_C(687999999999312000));
    expect("the largest sum", 200);

    draft_insert(draft, draft->length, stray, 1);
    hand_in();
    buy_in(978, 1, 1);
    profile(1, 1, 0, 0);
    refusal(9, 1);
    currency(EUR, 1);
    expect("a paper too long", 2);
}

/* Which answers are offline approvals, and of what. */
static void approvals(void)
{
    lenient(1);
    rate(0, USD, 2, 9); /* a dollar is two euros */
    setup.conversions = 1;
    setup.profile[0].accumulator[0].switches = 3;
    setup.profile[0].accumulator[0].upper = MOST;
    begin();
    start(1);
    first_in(TC, 100, USD);
    hand_in();
    profile(1, 1, 0, 0);
    currency(USD, 100);
    expect("what is spent, not what is counted", 1);

    lenient(1);
    begin();
    start(1);
    first_in(ARQC, 1, code(1));
    second(TC, Y3, ABSENT, 0);
    start(1);
    first_in(ARQC, 2, code(2));
    second(TC, Z3, FAILED, 0);
    start(1);
    first_in(ARQC, 4, code(3));
    second(AAC, Y3, ABSENT, 0);
    start(1);
    first_in(ARQC, 8, code(4));
    second(AAC, Z3, ABSENT, 0);
    start(1);
    first_in(ARQC, 16, code(5));
    second(TC, OTHER, VERIFIED, 0x83); /* which adds */
    start(1);
    first_in(ARQC, 32, code(6));
    second(TC, OTHER, ABSENT, 0);
    start(1);
    first_in(ARQC, 64, code(7));
    second(TC, OTHER, FAILED, 0);
    start(1);
    first_in(AAC, 128, code(8));
    start(1);
    first_in(ARQC, 256, code(9));
    hand_in();
    profile(1, 4, 4, 8);
    currency(code(1), 1);
    currency(code(2), 2);
    expect("Y3 and Z3 alone", 1);

    lenient(1);
    begin();
    start(1);
    first(ARQC, 700);
    first_in(TC, 5, USD); /* not open */
    start(9);
    second(3, Z3, ABSENT, 0);
    second(TC, Z3, ABSENT, 0);
    second(TC, Z3, ABSENT, 0);
    hand_in();
    profile(1, 1, 0, 1);
    refusal(2, 2);
    refusal(3, 1);
    refusal(5, 1);
    currency(EUR, 700);
    expect("what is refused in between", 1);

    lenient(1);
    begin();
    for (unsigned i = 0; i < 3; i++) {
        start(1);
        first(TC, MOST);
        first(TC, 1);
    }
    hand_in();
    profile(1, 3, 0, 0);
    refusal(2, 3);
    currency(EUR, 3 * MOST);
    expect("a sum above MAX", 1);
}

/* Every refusal that a line can have, but those that end a paper. */
static void refusals(void)
{
    lenient(1);
    cyclic(0x050715, DAYS, FRI, MONTHS, FRI);
    scripts();
    setup.atc = 65534;
    begin();
    script_by(2, "");
    script("710186");
    script("7109A507BF0C047102E100");
    script("7100");
    start(1);
    start(1);
    start(9);
    first(3, 1);
    first(TC, MOST + 1);
    first_in(TC, 1, 0x000A);
    first_on(0x050732, TC, 1);
    second(TC, Y3, ABSENT, 0);
    hand_in();
    lenient(1);
    setup.version = 2;
    simple_entry(0xFF, 0x01, 0, 1, 0x81);
    simple_entry(0xFF, 0x02, 0, 9, 0);
    begin();
    start(1);
    start(2);
    start(3);
    draft_data(draft, NULL, 0);
    hand_in();
    refusal(2, 1);
    refusal(3, 2);
    refusal(4, 1);
    refusal(5, 1);
    refusal(6, 3);
    refusal(12, 2);
    refusal(13, 1);
    refusal(18, 1);
    refusal(19, 1);
    expect("every refusal", 2);
}

/* Profiles by their number, wherever it stands in the set-up. */
static void profiles(void)
{
    lenient(4);
    setup.profile[0].number = 124;
    setup.profile[1].number = 2;
    setup.profile[2].number = 1;
    setup.profile[3].number = 99;
    begin();
    start(124);
    first(TC, 1);
    start(124);
    first(AAC, 1);
    start(2);
    first(ARQC, 1);
    start(1);
    first(AAC, 1);
    first(AAC, 1);
    start(99);
    start(1);
    hand_in();
    profile(1, 0, 1, 0);
    profile(2, 0, 0, 1);
    profile(124, 1, 1, 0);
    refusal(2, 1);
    currency(EUR, 1);
    expect("profiles by their number", 1);

    for (unsigned number = 1; number <= PROFILES; number++) {
        lenient(1);
        setup.profile[0].number = (uint8_t)(PROFILES + 1 - number);
        begin();
        start(setup.profile[0].number);
        first(AAC, 1);
        hand_in();
        profile(number, 0, 1, 0);
    }
    expect("every profile", PROFILES);

    lenient(2);
    setup.version = 2;
    simple_entry(0xFF, 0x01, 0, 2, 1);
    begin();
    start(1);
    first(TC, 1);
    hand_in();
    profile(2, 1, 0, 0);
    currency(EUR, 1);
    expect("a profile that the file gives", 1);

    lenient(1);
    cpace();
    setup.profile[0].number = 5;
    begin();
    interface = CONTACTLESS;
    start(5);
    first(TC, 0);
    hand_in();
    profile(5, 1, 0, 0);
    currency(EUR, 0);
    expect("a CPACE card", 1);
}

/* 32 currencies, and a thirty-third. A paper that is refused leaves nothing,
 * and is none of the 200. */
static void many_currencies(void)
{
    buy_in(0, 32, 3);
    profile(1, 32, 0, 0);
    currencies(0, 32, 3);
    expect("32 currencies", 1);

    buy_in(0, 33, 3);
    buy_in(967, 33, 3);
    refused(15, 1);
    refused(15, 2);
    expect("33 currencies in a paper", 0);

    buy_in(100, 31, 0);
    buy_in(99, 1, 0);
    buy_in(131, 1, 0);
    buy_in(98, 33, 5);
    buy_in(99, 32, 5);
    refused(15, 3);
    refused(15, 4);
    profile(1, 64, 0, 0);
    currencies(99, 32, 5);
    expect("zero amounts, and a thirty-third", 3);

    buy_in(900, 32, 1);
    class_paper(); /* 0840, 0978, a refusal 3 and a 9 */
    hand_in();
    lenient(1);
    begin();
    start(1);
    first(AAC, 1);
    start(1);
    first_in(ARQC, 1, USD);
    second(TC, OTHER, VERIFIED, 0x80);
    hand_in();
    refused(15, 2);
    profile(1, 33, 1, 1);
    currencies(900, 32, 1);
    expect("nothing of a paper refused", 2);
}

/* 16 comes before 15, and what 15 refuses is none of the 200. */
static void both_refusals(void)
{
    buy_in(0, 32, 1);
    buy_in(32, 1, 1);
    hand_in_empty(199);
    buy_in(32, 1, 1);
    buy_in(0, 1, 1);
    refused(15, 2);
    refused(16, 202);
    refused(16, 203);
    profile(1, 32, 0, 0);
    refusal(9, 199);
    currencies(0, 32, 1);
    expect("15, then 16", 200);

    hand_in_empty(199);
    buy_in(0, 33, 1);
    buy_in(7, 1, 1);
    buy_in(0, 33, 1);
    refused(15, 200);
    refused(16, 202);
    profile(1, 1, 0, 0);
    refusal(9, 199);
    currency(code(7), 1);
    expect("16 before 15", 200);
}

/* Papers in this order. */
static void hand_in_order(const char *order)
{
    for (; *order != '\0'; order++) {
        switch (*order) {
        case 'a':
            printed_sitting();
            hand_in();
            break;
        case 'b':
            class_paper();
            hand_in();
            break;
        case 'c':
            hand_in_empty(1);
            break;
        default:
            buy_in(970, 30, 2); /* with USD 31 currencies, 0978 among them */
            break;
        }
    }
}

static void any_order(void)
{
    static const char *const orders[] = {"abcd", "dcba", "badc", "cdab",
                                         "dbca", "acbd"};

    for (size_t i = 0; i < sizeof orders / sizeof *orders; i++) {
        hand_in_order(orders[i]);
        profile(1, 32, 1, 1);
        profile(3, 2, 0, 2);
        profile(7, 1, 0, 0);
        refusal(2, 1);
        refusal(3, 1);
        refusal(9, 2);
        currency(USD, 0);
        currencies(970, 8, 2);
        currency(EUR, 5703);
        currencies(979, 21, 2);
        expect("any order", 4);
    }
}

/* With a refusal the order does matter: the second is refused, whichever. */
static void order_matters(void)
{
    buy_in(10, 32, 1);
    buy_in(9, 1, 1);
    refused(15, 2);
    profile(1, 32, 0, 0);
    currencies(10, 32, 1);
    expect("32 and one more", 1);

    buy_in(9, 1, 1);
    buy_in(10, 32, 1);
    refused(15, 2);
    profile(1, 1, 0, 0);
    currency(code(9), 1);
    expect("one and 32 more", 1);
}

int main(int argc, char **argv)
{
    if (argc != 3) {
        fprintf(stderr, "usage: report_cases REPORT TALLY\n");
        return 2;
    }
    report.program[0] = argv[1];
    tally.program[0] = argv[2];
    printed_three();
    printed_many();
    blank();
    printed_tally();
    ends();
    early();
    approvals();
    if (LATEST > 5)
        refusals();
    if (LATEST > 6)
        past_data();
    profiles();
    many_currencies();
    both_refusals();
    any_order();
    order_matters();
    longest();
    printf("%u cases of the class report, 0 wrong\n", cases);
    return 0;
}
