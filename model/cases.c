/* Papers made by hand, their lines worked out by hand from documents 01 and
 * 02: the printed sitting, the edges a) to l), CPA's examples of selection and
 * of cyclic accumulators, CPACE's rules, issuer scripts, the transaction log,
 * and what surrounds them. */
#include <stdio.h>
#include <string.h>

#include "answers.h"
#include "examples.h"
#include "script.h"

/* An IAD of key 01 and profile 1: CVR, accumulator, counters. */
#define IAD(cvr, accumulator, counters)                                        \
    "0FA501" cvr accumulator counters "0F01" ZEROS "\n"
#define ZEROS "0000000000000000000000000000"

static struct draft_profile *const profile = &setup.profile[0];
static char lines[1 << 18];
static unsigned cases, wrong;

static void expect(const char *name, const char *expected)
{
    answers(draft->bytes, draft->length, lines);
    cases++;
    if (strcmp(lines, expected) != 0) {
        wrong++;
        printf("%s: expected\n%sbut got\n%s\n", name, expected, lines);
    }
}

static void printed(void)
{
    draft_printed_setup(&setup);
}

/* The printed set-up with all masks zero: nothing declines or goes online. */
static void lenient(void)
{
    printed();
    profile->online = 0;
    profile->decline = 0;
    profile->by_default = 0;
}

static void sitting_in_full(void)
{
    printed_sitting();
    if (draft->length != 242) {
        wrong++;
        printf("the printed paper has %zu bytes\n", draft->length);
    }
    expect("printed",
           "0 0\n"
           "1 0 1\n"
           "2 0 40 1 "
           "0FA501903000000000000000500001000F010000000000000000000000000000\n"
           "3 0 2\n"
           "4 0 80 2 "
           "0FA501A03020000000000000500001000F010000000000000000000000000000\n"
           "5 0 40 2 "
           "0FA501623020010000000000500102000F010000000000000000000000000000\n"
           "6 0 3\n"
           "7 0 00 3 "
           "0FA501823130000000000000500102000F010000000000000000000000000000\n"
           "8 2\n");
}

/* Of the papers that at_rate makes; without one, -1, they are version 01. */
static int syllabus = -1;

/* Nothing declines, and limits at MAX, an amount in USD at this rate. */
static void at_rate(uint16_t digits, int shift)
{
    lenient();
    if (syllabus >= 0) {
        setup.version = 3;
        setup.syllabus = (uint8_t)syllabus;
    }
    profile->accumulator[0].lower = MOST;
    profile->accumulator[0].upper = MOST;
    setup.conversions = 1;
    setup.conversion[0].from = USD;
    setup.conversion[0].to = EUR;
    setup.conversion[0].digits = digits;
    setup.conversion[0].shift = (uint8_t)(shift + 9);
}

/* Accumulator 1 after one TC of an amount in USD. */
static void conversion(const char *name, uint64_t amount, uint16_t digits,
                       int shift, const char *expected)
{
    char lines[200];

    at_rate(digits, shift);
    begin();
    start(1);
    first_in(TC, amount, USD);
    snprintf(lines, sizeof lines,
             "0 0\n1 0 1\n2 0 40 1 0FA5019030000000%s01000F01" ZEROS "\n",
             expected);
    expect(name, lines);
}

/* Over: the limits are exceeded though they are MAX, and MAX is stored. */
static void conversion_over(const char *name, uint64_t amount, uint16_t digits,
                            int shift)
{
    at_rate(digits, shift);
    begin();
    start(1);
    first_in(TC, amount, USD);
    expect(name, "0 0\n1 0 1\n2 0 40 1 "
                 IAD("9030300000", "999999999999", "0100"));
}

static void edges(void)
{
    printed();
    begin();
    start(1);
    first(TC, 5000);
    expect("a and l", "0 0\n1 0 1\n2 0 40 1 "
                      IAD("9030000000", "000000005000", "0100"));
    begin();
    start(1);
    first(TC, 5001);
    expect("b", "0 0\n1 0 1\n2 0 80 1 "
                IAD("A030200000", "000000000000", "0000"));

    conversion("c", 12345, 1234, -3, "000000015233");
    conversion_over("d", MOST, 9999, 3);
    conversion("e", 1, 4, -1, "000000000000");

    printed();
    setup.counter[0] = 255;
    begin();
    start(1);
    first(TC, 1);
    expect("f", "0 0\n1 0 1\n2 0 40 1 "
                IAD("9030000000", "000000000001", "FF00"));

    printed();
    setup.accumulator[0].value = MOST;
    profile->accumulator[0].switches = 3;
    profile->accumulator[0].lower = MOST;
    profile->accumulator[0].upper = MOST;
    begin();
    start(1);
    first(TC, 1);
    expect("g", "0 0\n1 0 1\n2 0 40 1 "
                IAD("9030000000", "999999999999", "0100"));
    profile->accumulator[0].switches = 7;
    begin();
    start(1);
    first(TC, 1);
    expect("h", "0 0\n1 0 1\n2 0 00 1 "
                IAD("8030300000", "999999999999", "0000"));

    printed();
    begin();
    start(1);
    first(TC, 10001);
    expect("i", "0 0\n1 0 1\n2 0 00 1 "
                IAD("8030300000", "000000000000", "0000"));

    lenient();
    profile->by_default = UPPER_1;
    begin();
    start(1);
    first_offline(TC, 10001);
    expect("j", "0 0\n1 0 1\n2 0 00 1 "
                IAD("8030300000", "000000000000", "0000"));
    begin();
    start(1);
    first(TC, 10001);
    expect("k", "0 0\n1 0 1\n2 0 40 1 "
                IAD("9030300000", "000000010001", "0100"));
}

/* Examples of CPA, by document 01's rule of the dropped fraction. */
static void rates(void)
{
    conversion("55,555 at 0.85", 55555, 85, -2, "000000047221");
    conversion("125 at 1.8", 125, 18, -1, "000000000225");
    conversion("35,000 at 0.82", 35000, 82, -2, "000000028700");
    conversion("445,500 at 0.67", 445500, 67, -2, "000000298485");
    conversion("65,000 at 0.028", 65000, 28, -3, "000000001820");
    conversion("MAX at 1", MOST, 1, 0, "999999999999");
    conversion("MAX at a billionth", MOST, 1, -9, "000000000999");
    conversion("MAX at 9,999 billionths", MOST, 9999, -9, "000009998999");
    conversion("MAX by 3", 333333333333, 3, 0, "999999999999");
    conversion_over("two more than MAX", 333333333334, 3, 0);
    conversion("thousands", 999999999, 1, 3, "999999999000");
    conversion_over("a thousand times too much", 1000000000, 1, 3);
    conversion_over("MAX + 1, divided", 625000000000, 16, -1);
    conversion("a fraction more than MAX", 833333333333, 12, -1,
               "999999999999");
}

/* Request Nine: the same by both rules, and where they part. */
static void roundings(void)
{
    static const struct {
        uint64_t amount;
        uint16_t digits;
        int shift;
        const char *dropped, *rounded; /* NULL: over */
    } cases[] = {
        {12345, 1234, -3, "000000015233", "000000015234"},
        {1, 4, -1, "000000000000", "000000000001"},
        {55555, 85, -2, "000000047221", "000000047222"},
        {125, 18, -1, "000000000225", "000000000225"},
        {MOST, 1, -1, "099999999999", "100000000000"},
        {MOST, 1, -9, "000000000999", "000000001000"},
        {1, 1, -9, "000000000000", "000000000001"},
        {0, 9999, -9, "000000000000", "000000000000"},
        {77, 1, 0, "000000000077", "000000000077"},
        {77, 1, 3, "000000077000", "000000077000"},
        {833333333332, 12, -1, "999999999998", "999999999999"},
        {909090909090, 11, -1, "999999999999", "999999999999"},
        {833333333333, 12, -1, "999999999999", NULL},
        {625000000000, 16, -1, NULL, NULL}};

    for (size_t i = 0; i < sizeof cases / sizeof *cases; i++)
        for (syllabus = 0; syllabus < 2; syllabus++) {
            const char *expected =
                syllabus ? cases[i].rounded : cases[i].dropped;
            if (expected)
                conversion("rounding", cases[i].amount, cases[i].digits,
                           cases[i].shift, expected);
            else
                conversion_over("rounding, over", cases[i].amount,
                                cases[i].digits, cases[i].shift);
        }

    for (syllabus = 0; syllabus < 2; syllabus++) { /* the MTA's conversion */
        at_rate(1234, -3);
        profile->mta_on = 1;
        profile->mta_currency = EUR;
        profile->mta = 15233;
        profile->decline = MTA_EXCEEDED;
        begin();
        start(1);
        first_in(TC, 12345, USD);
        if (syllabus)
            expect("rounded above the MTA",
                   "0 0\n1 0 1\n2 0 00 1 "
                   IAD("8030000000", "000000000000", "0000"));
        else
            expect("dropped to the MTA",
                   "0 0\n1 0 1\n2 0 40 1 "
                   IAD("9030000000", "000000015233", "0100"));
    }
    syllabus = -1;
}

/* Which history each kind of Second leaves, seen in the CVRs after it. */
static void history(void)
{
    lenient();
    begin();
    start(1);
    first(ARQC, 7);
    second(TC, OTHER, FAILED, 0x83);
    start(1);
    first(TC, 7);
    start(1);
    first(ARQC, 7);
    second(TC, OTHER, ABSENT, 0x83);
    start(1);
    first(ARQC, 7);
    second(TC, OTHER, VERIFIED, 0x8B);
    start(1);
    first(AAC, 7);
    start(1);
    first(ARQC, 0);
    second(AAC, Z3, VERIFIED, 0x83);
    expect("history",
           "0 0\n"
           "1 0 1\n"
           "2 0 80 1 " IAD("A030000000", "000000000000", "0000")
           "3 0 00 1 " IAD("2130000000", "000000000000", "0000")
           "4 0 2\n"
           "5 0 40 2 " IAD("9131000000", "000000000007", "0100")
           "6 0 3\n"
           "7 0 80 3 " IAD("A131000000", "000000000007", "0100")
           "8 0 40 3 " IAD("6331000000", "000000000007", "0100")
           "9 0 4\n"
           "10 0 80 4 " IAD("A330000000", "000000000007", "0100")
           "11 0 40 4 " IAD("6030000000", "000000000014", "0200")
           "12 0 5\n"
           "13 0 00 5 " IAD("8030000200", "000000000014", "0200")
           "14 0 6\n"
           "15 0 80 6 " IAD("A030000200", "000000000014", "0200")
           "16 0 00 6 " IAD("2230000300", "000000000014", "0200"));

    lenient(); /* required: AAC, and the last online stays not completed */
    setup.required = 1;
    begin();
    start(1);
    first(ARQC, 7);
    second(TC, OTHER, ABSENT, 0);
    start(1);
    first(AAC, 7);
    expect("absent, required",
           "0 0\n"
           "1 0 1\n"
           "2 0 80 1 " IAD("A030000000", "000000000000", "0000")
           "3 0 00 1 " IAD("2230000000", "000000000000", "0000")
           "4 0 2\n"
           "5 0 00 2 " IAD("8231000000", "000000000000", "0000"));
}

/* The issuer's orders hold whatever the answer; inactive ones stay, and are
 * sent if named. */
static void orders(void)
{
    lenient();
    setup.counter[1] = 9;
    profile->counter_sent[1] = 2;
    begin();
    start(1);
    first(ARQC, 7);
    second(TC, OTHER, VERIFIED, 0x01);
    start(1);
    first(ARQC, 7);
    second(AAC, OTHER, VERIFIED, 0x82);
    start(1);
    first(ARQC, 7);
    second(TC, OTHER, VERIFIED, 0x03);
    start(1);
    first(ARQC, 7);
    second(TC, OTHER, VERIFIED, 0x80);
    expect("orders",
           "0 0\n"
           "1 0 1\n"
           "2 0 80 1 " IAD("A030000000", "000000000000", "0009")
           "3 0 00 1 " IAD("2030000000", "000000010000", "FF09")
           "4 0 2\n"
           "5 0 80 2 " IAD("A030300000", "000000010000", "FF09")
           "6 0 00 2 " IAD("2030300000", "000000000000", "0009")
           "7 0 3\n"
           "8 0 80 3 " IAD("A030000000", "000000000000", "0009")
           "9 0 00 3 " IAD("2030000000", "000000000007", "0109")
           "10 0 4\n"
           "11 0 80 4 " IAD("A030000000", "000000000007", "0109")
           "12 0 40 4 " IAD("6030000000", "000000000007", "0109"));
}

/* After Y3: Default decides, bit 3 included; declines count where both
 * switches say so, here and at First; nothing accumulates on an AAC. */
static void unable(void)
{
    lenient();
    profile->by_default = UNABLE;
    profile->counter[0].switches = 11;
    begin();
    start(1);
    first(ARQC, 7);
    second(TC, Y3, VERIFIED, 0x80);
    start(1);
    draft_first(draft, 1, 7, EUR, 0x36);
    expect("unable, Default has bit 3",
           "0 0\n"
           "1 0 1\n"
           "2 0 80 1 " IAD("A030000000", "000000000000", "0000")
           "3 0 00 1 " IAD("2230000100", "000000000000", "0100")
           "4 0 2\n"
           "5 0 00 2 " IAD("8231000000", "000000000000", "0200"));

    profile->by_default = 0;
    profile->counter[0].switches = 9; /* not allowed */
    begin();
    start(1);
    first(ARQC, 7);
    second(AAC, Y3, ABSENT, 0);
    start(1);
    first(ARQC, 7);
    second(TC, Z3, FAILED, 0);
    expect("unable, counting not allowed",
           "0 0\n"
           "1 0 1\n"
           "2 0 80 1 " IAD("A030000000", "000000000000", "0000")
           "3 0 00 1 " IAD("2230000100", "000000000000", "0000")
           "4 0 2\n"
           "5 0 80 2 " IAD("A231000000", "000000000000", "0000")
           "6 0 40 2 " IAD("6231000100", "000000000007", "0000"));
}

/* One counter from a value on, an AAC at First for each of its reasons. */
static void declined(uint8_t switches, uint8_t value, uint8_t expected)
{
    static const char *const reasons[] = {"requested", "Decline", "Default"};
    char lines[200];

    for (unsigned i = 0; i < 3; i++) {
        lenient();
        setup.counter[0] = value;
        setup.go_online = 1;
        profile->counter[0].switches = switches;
        profile->decline = i == 1 ? GO_ONLINE : 0;
        profile->by_default = i == 2 ? GO_ONLINE : 0;
        begin();
        start(1);
        draft_first(draft, i > 0, 7, EUR, i == 2 ? 0x23 : 0x22);
        snprintf(lines, sizeof lines,
                 "0 0\n1 0 1\n2 0 00 1 "
                 "0FA5018030000200000000000000%02X000F01" ZEROS "\n",
                 expected);
        expect(reasons[i], lines);
    }
}

/* Request One. */
static void declines(void)
{
    declined(11, 4, 5);
    declined(11, 253, 254);
    declined(11, 254, 255);
    declined(11, 255, 255);
    declined(3, 4, 4);
    declined(9, 4, 4);
    declined(10, 4, 4);
    declined(0, 4, 4);

    lenient(); /* the test has the old value, the IAD the new one */
    setup.counter[0] = 4;
    profile->counter[0].switches = 11;
    profile->counter[0].lower = 4;
    begin();
    start(1);
    first(AAC, 7);
    start(1);
    first(AAC, 7);
    expect("declines and a limit",
           "0 0\n"
           "1 0 1\n"
           "2 0 00 1 " IAD("8030000000", "000000000000", "0500")
           "3 0 2\n"
           "4 0 00 2 " IAD("8030800000", "000000000000", "0600"));

    lenient(); /* an AAC after going online is no offline decline */
    profile->counter[0].switches = 15;
    begin();
    start(1);
    first(ARQC, 7);
    second(TC, OTHER, FAILED, 0);
    start(1);
    first(ARQC, 7);
    second(AAC, OTHER, ABSENT, 0);
    start(1);
    first(ARQC, 7);
    second(AAC, OTHER, VERIFIED, 0x80);
    expect("declined online",
           "0 0\n"
           "1 0 1\n"
           "2 0 80 1 " IAD("A030000000", "000000000000", "0000")
           "3 0 00 1 " IAD("2130000000", "000000000000", "0000")
           "4 0 2\n"
           "5 0 80 2 " IAD("A131000000", "000000000000", "0000")
           "6 0 00 2 " IAD("2331000000", "000000000000", "0000")
           "7 0 3\n"
           "8 0 80 3 " IAD("A330000000", "000000000000", "0000")
           "9 0 00 3 " IAD("2030000000", "000000000000", "0000"));
}

/* No conversion: the amount does not count, the value still does. */
static void unconverted(void)
{
    lenient();
    profile->decline = UPPER_1 | MTA_EXCEEDED;
    profile->mta_on = 1;
    profile->mta_currency = EUR;
    setup.accumulator[0].value = 10000;
    begin();
    start(1);
    first_in(TC, MOST, USD);
    expect("no conversion, value at the limit",
           "0 0\n1 0 1\n2 0 40 1 "
           IAD("9030200000", "000000010000", "0100"));
    setup.accumulator[0].value = 10001;
    begin();
    start(1);
    first_in(TC, 0, USD);
    expect("no conversion, value above it",
           "0 0\n1 0 1\n2 0 00 1 "
           IAD("8030300000", "000000010001", "0000"));
    profile->accumulator[0].switches = 6;
    begin();
    start(1);
    first_in(TC, 0, USD);
    expect("inactive",
           "0 0\n1 0 1\n2 0 40 1 "
           IAD("9030000000", "000000010001", "0100"));
    begin();
    start(1);
    first(TC, 1);
    expect("MTA exceeded",
           "0 0\n1 0 1\n2 0 00 1 "
           IAD("8030000000", "000000010001", "0000"));
    profile->mta = 1;
    begin();
    start(1);
    first(TC, 1);
    expect("MTA met",
           "0 0\n1 0 1\n2 0 40 1 "
           IAD("9030000000", "000000010001", "0100"));
}

/* Request Four, beyond the edge d. */
static void over(void)
{
    at_rate(1, 3);
    profile->mta_on = 1;
    profile->mta_currency = EUR;
    profile->mta = MOST;
    profile->decline = MTA_EXCEEDED;
    profile->accumulator[0].switches = 0;
    begin();
    start(1);
    first_in(TC, 1000000000, USD);
    start(1);
    first_in(TC, 999999999, USD);
    expect("over, MTA at MAX",
           "0 0\n"
           "1 0 1\n"
           "2 0 00 1 " IAD("8030000000", "000000000000", "0000")
           "3 0 2\n"
           "4 0 40 2 " IAD("9030000000", "000000000000", "0100"));

    at_rate(1, 3); /* not included: the value alone is tested, MAX stored */
    profile->accumulator[0].switches = 3;
    profile->accumulator[0].lower = 0;
    begin();
    start(1);
    first_in(TC, 1000000000, USD);
    start(1);
    first_in(TC, 1000000000, USD);
    expect("over, not included",
           "0 0\n"
           "1 0 1\n"
           "2 0 40 1 " IAD("9030000000", "999999999999", "0100")
           "3 0 2\n"
           "4 0 40 2 " IAD("9030200000", "999999999999", "0200"));

    at_rate(1, 3); /* not allowed: tested, and kept */
    profile->accumulator[0].switches = 5;
    profile->decline = UPPER_1;
    setup.accumulator[0].value = 5;
    begin();
    start(1);
    first_in(TC, 1000000000, USD);
    start(1);
    first_in(TC, 999999999, USD);
    expect("over, not allowed",
           "0 0\n"
           "1 0 1\n"
           "2 0 00 1 " IAD("8030300000", "000000000005", "0000")
           "3 0 2\n"
           "4 0 40 2 " IAD("9030000000", "000000000005", "0100"));

    at_rate(1, 3); /* by the issuer's order */
    profile->accumulator[0].upper = 7;
    begin();
    start(1);
    first_in(ARQC, 1000000000, USD);
    second(AAC, OTHER, VERIFIED, 0x03);
    expect("over, added by order",
           "0 0\n"
           "1 0 1\n"
           "2 0 80 1 " IAD("A030300000", "000000000000", "0000")
           "3 0 00 1 " IAD("2030300000", "999999999999", "0100"));
}

/* A counter at 255 with a limit of 255, this transaction included. */
static void counters(void)
{
    lenient();
    setup.pin = 0;
    setup.counter[0] = 255;
    profile->counter[0].switches = 5;
    begin();
    start(1);
    first(TC, 1);
    expect("counter at 255, included",
           "0 0\n1 0 1\n2 0 40 1 "
           IAD("9002C00000", "000000000001", "FF00"));
    profile->counter[0].switches = 3;
    profile->counter[0].lower = 254;
    begin();
    start(1);
    first(TC, 1);
    expect("counter above lower",
           "0 0\n1 0 1\n2 0 40 1 "
           IAD("9002800000", "000000000001", "FF00"));
}

/* Bytes in hex, blanks between as one likes. */
struct hex {
    size_t length;
    uint8_t at[255];
};

static struct hex hex(const char *text)
{
    struct hex hex = {0};
    unsigned value;
    int used;

    while (sscanf(text, " %2x%n", &value, &used) == 1) {
        hex.at[hex.length++] = (uint8_t)value;
        text += used;
    }
    return hex;
}

/* The printed set-up at version 02, selection on, profiles as named; entries
 * are written with their length before them. */
static void selecting(const char *numbers, const char *const *entries,
                      size_t count)
{
    const struct hex profiles = hex(numbers);

    lenient();
    setup.version = 2;
    setup.profiles = (uint8_t)profiles.length;
    for (size_t i = 0; i < profiles.length; i++) {
        setup.profile[i] = setup.profile[0];
        setup.profile[i].number = profiles.at[i];
    }
    setup.file.on = 1;
    for (size_t i = 0; i < count; i++) {
        const struct hex entry = hex(entries[i]);
        draft_entry(&setup.file, entry.at + 1, entry.length - 1);
        setup.file.bytes[setup.file.length - entry.length] = entry.at[0];
    }
}

/* The profile and visits that these data give; the profile is read off the
 * IAD of a First. Refusal 0 is none. */
static void select_case(const char *data, unsigned refusal, unsigned number,
                        unsigned visits)
{
    const struct hex bytes = hex(data);
    char lines[200];

    begin();
    draft_data(draft, bytes.at, bytes.length);
    first(TC, 7);
    if (refusal > 0)
        snprintf(lines, sizeof lines, "0 0\n1 %u\n2 2\n", refusal);
    else
        snprintf(lines, sizeof lines,
                 "0 0\n1 0 1 %u\n"
                 "2 0 40 1 0FA501903000000000000000000701000F%02X" ZEROS "\n",
                 visits, number);
    expect(data, lines);
}

static void selection(void)
{
    static const char *const simple[] = {"0A 02 02 02 FFFF 0056 00 04 01"};
    static const char *const complex[] = {
        "08 01 01 02 FF 02 00 02 81",
        "08 02 01 02 FF 34 00 81 82",
        "0A 03 02 02 FFFF 0000 00 7E 81",
        "08 02 01 02 F0 10 00 81 82",
        "08 03 01 02 80 80 00 04 81",
        "0A 05 02 02 FFFF 0056 00 81 85",
        "0C 07 03 02 000040 000040 00 81 84",
        "0A 02 01 04 FF 22 25 35 00 05 81",
        "09 02 01 03 FF 12 15 00 81 82",
        "08 03 01 02 80 80 00 81 05",
        "0A 02 01 04 FF 23 26 36 00 06 81",
        "09 02 01 03 FF 13 16 00 81 07",
        "08 03 01 02 80 80 00 07 06"};
    static const char *const less[] = {"08 01 01 02 FF 10 01 03 04"};
    static const char *const greater[] = {"08 01 01 02 FF 10 02 03 04"};
    static const char *const masked[] = {"0A 01 02 02 FFF0 1230 00 03 04"};
    static const char *const unmasked[] = {"0A 01 02 02 FFF0 123F 00 03 04"};
    static const char *const refused[] = {
        "08 01 01 02 FF 10 00 00 01", "08 01 01 02 FF 10 00 80 01",
        "08 01 01 02 FF 10 00 7F 01", "08 01 01 02 FF 10 00 81 01",
        "08 01 01 02 FF 10 03 01 01", "08 00 01 02 FF 10 00 01 01",
        "08 02 01 02 FF 10 00 01 01", "07 01 01 01 FF 00 01 01",
        "06 01 00 02 00 01 01",       "05 01 01 02 FF 10",
        "06 01 80 02 00 01 01",       "00"};

    selecting("01 04", simple, 1);
    select_case("01 0056", 0, 4, 1);
    select_case("01 0840", 0, 1, 1);
    select_case("0056", 12, 0, 0);
    select_case("", 12, 0, 0);

    selecting("02 04 05 07", complex, 13);
    select_case("022200000056000040", 0, 2, 1);
    select_case("013400000056000000", 3, 0, 0);
    select_case("013480000056000040", 0, 7, 10);
    select_case("011480000840000000", 0, 4, 4);
    select_case("0113E0000840E0F0C8", 0, 4, 4);
    select_case("011260000056E0F0C8", 0, 5, 9);
    select_case("012260000056E0F0C8", 0, 5, 6);
    select_case("012560000056E0F0C8", 0, 5, 6);
    select_case("012260000056E0F088", 0, 7, 7);
    select_case("012260000840E0F0C8", 0, 7, 6);
    select_case("012160000056E0F0C8", 0, 7, 9);
    select_case("011160000056E0F0C8", 0, 7, 10);
    select_case("012360000056E0F0C8", 3, 0, 0);
    selecting("06", complex, 13);
    select_case("012360000056E0F0C8", 0, 6, 8);
    select_case("012360000840E0F0C8", 0, 6, 5);
    select_case("012660000840E0F0C8", 0, 6, 5);
    select_case("011360000840E0F0C8", 0, 6, 8);
    setup.profile[0].number = 0x7E - 2; /* 124: 7E is never in a set-up */
    select_case("013400000056000000", 3, 0, 0);

    selecting("03 04", less, 1);
    select_case("0F", 0, 3, 1);
    select_case("10", 0, 4, 1);
    select_case("11", 0, 4, 1);
    selecting("03 04", greater, 1);
    select_case("0F", 0, 4, 1);
    select_case("10", 0, 4, 1);
    select_case("11", 0, 3, 1);
    selecting("03 04", masked, 1);
    select_case("123F", 0, 3, 1);
    selecting("03 04", unmasked, 1);
    select_case("123F", 0, 4, 1);

    for (size_t i = 0; i < sizeof refused / sizeof *refused; i++) {
        selecting("01", &refused[i], 1);
        select_case("10", 12, 0, 0);
        setup.atc = 65535;
        select_case("10", 12, 0, 0);
    }
    selecting("01", NULL, 0);
    select_case("10", 12, 0, 0);

    /* Refused, so nothing changes: what is open stays open. */
    selecting("01", less, 1);
    profile->number = 3;
    setup.atc = 65533;
    begin();
    draft_data(draft, (const uint8_t[]){0x0F, 1, 2}, 3);
    draft_data(draft, NULL, 0);
    first(ARQC, 7);
    draft_data(draft, NULL, 0);
    start(0x10);
    second(TC, OTHER, VERIFIED, 0x83);
    start(0x0F);
    start(0x0F);
    start(0x10);
    draft_data(draft, NULL, 0);
    expect("12, 3, 4",
           "0 0\n"
           "1 0 65534 1\n"
           "2 12\n"
           "3 0 80 65534 0FA501A03000000000000000000000000F03" ZEROS "\n"
           "4 12\n"
           "5 3\n"
           "6 0 40 65534 0FA501603000000000000000000701000F03" ZEROS "\n"
           "7 0 65535 1\n"
           "8 4\n"
           "9 3\n"
           "10 12\n");
}

/* Request Five ------------------------------------------------------------- */

/* The sittings of examples/. */
static void cyclic_sittings(void)
{
    day_and_month();
    expect("day and month",
           "0 0\n"
           "1 0 1\n"
           "2 0 40 1 " IAD("9030000000", "000000006000", "0000")
           "3 0 2\n"
           "4 0 00 2 " IAD("8030000000", "000000006000", "0000")
           "5 0 3\n"
           "6 0 40 3 " IAD("9030000000", "000000010000", "0000")
           "7 0 4\n"
           "8 0 00 4 " IAD("8030000000", "000000010000", "0000")
           "9 0 5\n"
           "10 0 40 5 " IAD("9030000000", "000000015000", "0000")
           "11 0 6\n"
           "12 0 40 6 " IAD("9030000000", "000000025000", "0000"));
    weeks();
    expect("weeks",
           "0 0\n"
           "1 0 1\n"
           "2 0 00 1 " IAD("8030000000", "000000000000", "0000")
           "3 0 2\n"
           "4 0 00 2 " IAD("8030000000", "000000000000", "0000")
           "5 0 3\n"
           "6 0 40 3 " IAD("9030000000", "000000000001", "0000")
           "7 0 4\n"
           "8 0 00 4 " IAD("8030000000", "000000000001", "0000")
           "9 0 5\n"
           "10 0 40 5 " IAD("9030000000", "000000000100", "0000")
           "11 0 6\n"
           "12 0 80 6 " IAD("A030000000", "000000000100", "0000"));
    date_error();
    expect("date error",
           "0 0\n"
           "1 0 1\n"
           "2 0 80 1 " IAD("A030020000", "000000000000", "0000")
           "3 0 40 1 " IAD("6030020000", "000000000000", "0000")
           "4 0 2\n"
           "5 0 00 2 " IAD("8030000000", "000000000000", "0000")
           "6 0 3\n"
           "7 0 40 3 " IAD("9030000000", "000000000400", "0000")
           "8 0 4\n"
           "9 0 80 4 " IAD("A030020000", "000000000400", "0000")
           "10 0 40 4 " IAD("6230020100", "000000000401", "0000")
           "11 0 5\n"
           "12 0 80 5 " IAD("A231020000", "000000000401", "0000")
           "13 0 40 5 " IAD("6031020000", "000001000000", "0000")
           "14 0 6\n"
           "15 0 40 6 " IAD("9030000000", "000001000000", "0000")
           "16 0 7\n"
           "17 0 00 7 " IAD("8030000000", "000001000000", "0000"));
    refused_dates();
    expect("refused dates",
           "0 0\n"
           "1 2\n"
           "2 0 1\n"
           "3 5\n"
           "4 6\n"
           "5 13\n"
           "6 5\n"
           "7 0 00 1 " IAD("8030000000", "000000000000", "0000")
           "8 0 2\n"
           "9 0 40 2 " IAD("9030000000", "000000000009", "0000")
           "10 0 3\n"
           "11 9\n");
}

/* Request Thirteen --------------------------------------------------------- */

/* These three bytes close accumulator 1 and counter 1, which have the same
 * control, exactly if that has the bit. */
static void cvm_case(uint32_t results, uint8_t bit)
{
    for (uint8_t control = 1; control <= 8; control <<= 1) {
        lenient();
        cpace();
        setup.control[0] = control;
        setup.control[4] = control;
        begin();
        cvm = results;
        start(1);
        first(TC, 7);
        expect("a CVM", control == bit
               ? "0 0\n1 0 1\n2 0 40 1 "
                 IAD("9030000000", "000000000000", "0000")
               : "0 0\n1 0 1\n2 0 40 1 "
                 IAD("9030000000", "000000000007", "0100"));
    }
}

static void cvms(void)
{
    static const uint32_t pin[] = {0x020000, 0x420300, 0xC20300};
    static const uint32_t signature[] = {0x1E0300, 0xDE0000};
    static const uint32_t none[] = {0x1F0300, 0x420302, 0x1E0001, 0x010302,
                                    0x220000, 0x3E0000, 0x000000};

    for (size_t i = 0; i < sizeof pin / sizeof *pin; i++)
        cvm_case(pin[i], 4);
    for (size_t i = 0; i < sizeof signature / sizeof *signature; i++)
        cvm_case(signature[i], 2);
    for (size_t i = 0; i < sizeof none / sizeof *none; i++)
        cvm_case(none[i], 1);
}

static void cashbacks(void)
{
    static const uint64_t bytes[] = {0x000000000000, 0x000000000001,
                                     0x010000000000, 0xFFFFFFFFFFFF};

    for (size_t i = 0; i < sizeof bytes / sizeof *bytes; i++)
        for (uint8_t checked = 0; checked < 2; checked++) {
            lenient();
            cpace();
            profile->cashback = checked;
            profile->decline = WITH_CASHBACK;
            begin();
            cashback = bytes[i];
            start(1);
            first(TC, 7);
            expect("cashback", checked && i > 0
                   ? "0 0\n1 0 1\n2 0 00 1 "
                     IAD("8030000000", "000000000000", "0000")
                   : "0 0\n1 0 1\n2 0 40 1 "
                     IAD("9030000000", "000000000007", "0100"));
        }

    static const uint8_t data[256] = {CONTACT, 1};
    lenient(); /* six bytes and no more: a long record stands behind them */
    cpace();
    simple_entry(0xFF, 0x00, 0, 1, 1);
    profile->cashback = 1;
    profile->decline = WITH_CASHBACK;
    begin();
    start(1);
    first(TC, 7);
    draft_data(draft, data, sizeof data);
    expect("no cashback before a long record",
           "0 0\n"
           "1 0 1 1\n"
           "2 0 40 1 " IAD("9030000000", "000000000007", "0100")
           "3 0 2 1\n");

    lenient(); /* checked again after Y3, by First's bytes */
    cpace();
    profile->cashback = 1;
    profile->by_default = WITH_CASHBACK;
    begin();
    cashback = 0x000100000000;
    start(1);
    first(TC, 7);
    start(1);
    first_offline(TC, 7);
    start(1);
    first(ARQC, 7);
    second(TC, Y3, ABSENT, 0);
    cashback = 0;
    start(1);
    first(ARQC, 7);
    second(TC, Z3, ABSENT, 0);
    expect("cashback and Default",
           "0 0\n"
           "1 0 1\n"
           "2 0 40 1 " IAD("9030000000", "000000000007", "0100")
           "3 0 2\n"
           "4 0 00 2 " IAD("8030000000", "000000000007", "0100")
           "5 0 3\n"
           "6 0 80 3 " IAD("A030000000", "000000000007", "0100")
           "7 0 00 3 " IAD("2230000100", "000000000007", "0100")
           "8 0 4\n"
           "9 0 80 4 " IAD("A231000000", "000000000007", "0100")
           "10 0 40 4 " IAD("6231000100", "000000000014", "0200"));
}

/* Everything is closed to the transaction: what is left out of it, and what is
 * not. */
static void closed(void)
{
    lenient();
    cpace();
    memset(setup.control, 15, sizeof setup.control);
    setup.accumulator[0].value = 5000;
    setup.counter[0] = 4;
    profile->counter[0].switches = 15;
    profile->counter[0].lower = 4;
    profile->counter[0].upper = 9;
    begin();
    start(1);
    first(TC, 6000); /* neither in the tests nor added */
    start(1);
    first(AAC, 6000); /* a decline counts */
    start(1);
    first(ARQC, 6000); /* 5 is above 4 */
    second(TC, Y3, ABSENT, 0);
    start(1);
    first(ARQC, 6000);
    second(TC, OTHER, VERIFIED, 0x83);
    start(1);
    first(ARQC, 6000);
    second(AAC, OTHER, VERIFIED, 0x01);
    start(1);
    first(ARQC, 6000); /* the values exceed, closed or not */
    second(AAC, OTHER, VERIFIED, 0x02);
    expect("closed",
           "0 0\n"
           "1 0 1\n"
           "2 0 40 1 " IAD("9030000000", "000000005000", "0400")
           "3 0 2\n"
           "4 0 00 2 " IAD("8030000000", "000000005000", "0500")
           "5 0 3\n"
           "6 0 80 3 " IAD("A030800000", "000000005000", "0500")
           "7 0 40 3 " IAD("6230800100", "000000005000", "0500")
           "8 0 4\n"
           "9 0 80 4 " IAD("A231800000", "000000005000", "0500")
           "10 0 40 4 " IAD("6031800000", "000000005000", "0500")
           "11 0 5\n"
           "12 0 80 5 " IAD("A030800000", "000000005000", "0500")
           "13 0 00 5 " IAD("2030800000", "000000010000", "0900")
           "14 0 6\n"
           "15 0 80 6 " IAD("A030A00000", "000000010000", "0900")
           "16 0 00 6 " IAD("2030A00000", "000000000000", "0000"));

    at_rate(1, 3); /* over: neither exceeds nor stored */
    cpace();
    setup.control[0] = 1;
    begin();
    start(1);
    first_in(TC, 1000000000, USD);
    cvm = 0x020000;
    start(1);
    first_in(TC, 1000000000, USD);
    expect("over, closed and open",
           "0 0\n"
           "1 0 1\n"
           "2 0 40 1 " IAD("9030000000", "000000000000", "0100")
           "3 0 2\n"
           "4 0 40 2 " IAD("9030300000", "999999999999", "0200"));

    lenient(); /* cyclic accumulators and the MTA have no control */
    cyclic(0x050715, DAYS, FRI, DAYS, FRI);
    cpace();
    memset(setup.control, 15, sizeof setup.control);
    profile->cyclic[0].switches = 7;
    profile->cyclic[0].limit = 10;
    profile->decline = CYCLIC_1 | MTA_EXCEEDED;
    profile->mta_on = 1;
    profile->mta_currency = EUR;
    profile->mta = 8;
    begin();
    start(1);
    first(TC, 9);
    start(1);
    first(TC, 8);
    start(1);
    first(TC, 3);
    start(1);
    first(TC, 2);
    expect("closed, cyclic",
           "0 0\n"
           "1 0 1\n"
           "2 0 00 1 " IAD("8030000000", "000000000000", "0000")
           "3 0 2\n"
           "4 0 40 2 " IAD("9030000000", "000000000000", "0000")
           "5 0 3\n"
           "6 0 00 3 " IAD("8030000000", "000000000000", "0000")
           "7 0 4\n"
           "8 0 40 4 " IAD("9030000000", "000000000000", "0000"));
}

/* A CPACE card's Start and First have their own lengths, with dates too. */
static void cpace_lengths(void)
{
    static const uint8_t body[25] = {1, 0, 0, 0, 0, 0, 0, 0, 7, 9, 0x78, 0x22,
                                     5, 7, 0x15};

    for (unsigned dated = 0; dated < 2; dated++)
        for (unsigned family = 0; family < 2; family++)
            for (size_t length = 11; length <= 25; length++) {
                lenient();
                if (dated)
                    cyclic(0x050715, DAYS, FRI, DAYS, FRI);
                cpace();
                setup.family = (uint8_t)family;
                begin();
                start(1);
                draft_record(draft, 3, body, length);
                expect("a First's length",
                       length == 12 + 3 * dated + 9 * family
                       ? "0 0\n1 0 1\n2 0 40 1 "
                         IAD("9030000000", "000000000007", "0100")
                       : "0 0\n1 0 1\n2 9\n");
            }
    for (unsigned family = 0; family < 2; family++)
        for (size_t length = 0; length <= 3; length++) {
            lenient();
            cpace();
            setup.family = (uint8_t)family;
            begin();
            draft_data(draft, (const uint8_t[]){!family, 1, 1}, length);
            expect("a Start's length", length == 1 + family
                   ? "0 0\n1 0 1\n" : "0 0\n1 9\n");
        }
}

/* The interface comes before the profile, and its refusal before 3 and 4. */
static void interfaces(void)
{
    lenient();
    cpace();
    profile->number = 2;
    setup.atc = 65534;
    begin();
    for (interface = 0; interface < 4; interface++) {
        start(2);
        start(1);
    }
    start(2);
    expect("interfaces",
           "0 0\n"
           "1 0 65535\n"
           "2 3\n"
           "3 4\n"
           "4 3\n"
           "5 6\n"
           "6 6\n"
           "7 6\n"
           "8 6\n"
           "9 6\n");
}

/* Entries that test a slot: accumulators 1000, 2000, 3000, 4000, counters 10,
 * 20, 30, 255; positive is profile 2, negative profile 1. */
static void slot_case(const char *entry, const char *data, unsigned refusal,
                      bool positive)
{
    for (unsigned family = 0; family < 2; family++) {
        selecting("01 02", &entry, 1);
        cpace();
        setup.family = (uint8_t)family;
        for (unsigned p = 0; p < 2; p++) {
            setup.profile[p].accumulator_sent = 0;
            setup.profile[p].counter_sent[0] = 0;
        }
        for (unsigned i = 0; i < 4; i++) {
            setup.accumulator[i].value = 1000 * (i + 1);
            setup.counter[i] = (uint8_t)(i == 3 ? 255 : 10 * (i + 1));
        }
        const struct hex bytes = hex(data);
        char lines[200];
        begin();
        draft_data(draft, bytes.at, bytes.length);
        first(AAC, 0);
        if (family == 0 || refusal > 0)
            snprintf(lines, sizeof lines, "0 0\n1 %u\n2 2\n",
                     family == 0 ? 12 : refusal);
        else
            snprintf(lines, sizeof lines,
                     "0 0\n1 0 1 1\n2 0 00 1 "
                     "0FA501803000000000000000000000000F%02d" ZEROS "\n",
                     positive ? 2 : 1);
        expect(entry, lines);
    }
}

static void slot_tests(void)
{
    static const struct {
        const char *entry;
        unsigned refusal;
        bool positive;
    } cases[] = {
        {"0C 00 06 01 000000000999 D1 02 01", 0, true}, /* greater */
        {"0C 00 06 01 000000001000 D1 02 01", 0, false},
        {"0C 00 06 01 000000001001 D0 02 01", 0, true}, /* less */
        {"0C 00 06 01 000000001000 D0 02 01", 0, false},
        {"0C FF 06 01 000000001999 E1 02 01", 0, true}, /* accumulators 2, 3 */
        {"0C 09 06 01 000000003001 FC 02 01", 0, true},
        {"0C 02 06 01 000000001004 D3 02 01", 0, true}, /* 1000 + 5 */
        {"0C 02 06 01 000000001005 D3 02 01", 0, false},
        {"0C 02 06 01 000000001006 D2 02 01", 0, true},
        {"0C 02 06 01 000000001005 DE 02 01", 0, false},
        {"0C 02 06 01 999999999999 F2 02 01", 0, true},
        {"0C 03 06 01 000000001499 D3 02 01", 0, true}, /* 1000 + 500 */
        {"0C 01 06 01 010000001000 D3 02 01", 0, false},
        {"07 00 01 01 09 91 02 01", 0, true}, /* counters */
        {"07 00 01 01 0A 91 02 01", 0, false},
        {"07 00 01 01 0A 93 02 01", 0, true},
        {"07 FF 01 01 15 A2 02 01", 0, false},
        {"07 FF 01 01 16 A2 02 01", 0, true},
        {"07 00 01 01 1F BC 02 01", 0, true},
        {"07 00 01 01 FE 81 02 01", 0, true}, /* counter 4, stopped */
        {"07 00 01 01 FF 83 02 01", 0, false},
        {"07 00 01 01 FF 80 02 01", 0, false},
        {"0C 00 06 01 000000001000 C1 02 01", 12, 0}, /* accumulator 0 */
        {"06 00 06 00 D1 02 01", 12, 0},              /* n */
        {"06 00 01 00 91 02 01", 12, 0},
        {"08 00 01 02 09 09 91 02 01", 12, 0},
        {"12 02 06 02 000000000000 000000000000 D1 02 01", 12, 0},
        {"0B 00 06 01 0000000009 D1 02 01", 12, 0}, /* E */
        {"0D 00 06 01 00000000000900 D1 02 01", 12, 0},
        {"0B 00 05 01 0000000999 D1 02 01", 12, 0}, /* L */
        {"0D 00 07 01 00000000000999 D1 02 01", 12, 0},
        {"08 00 02 01 0009 91 02 01", 12, 0},
        {"06 00 00 01 91 02 01", 12, 0},
        {"0C 00 06 01 00000000099A D1 02 01", 12, 0}, /* digits */
        {"0C 00 06 01 A00000000999 D0 02 01", 12, 0},
        {"0C 00 06 01 000000000999 D3 02 01", 12, 0}, /* P */
        {"0C 04 06 01 000000000999 D3 02 01", 12, 0},
        {"0C FF 06 01 000000000999 D3 02 01", 12, 0},
        {"07 00 01 01 09 7F 02 01", 12, 0}, /* below 80 */
        {"0C 02 06 01 000000000000 7F 02 01", 12, 0},
        {"07 01 01 01 09 00 02 01", 12, 0}};

    for (size_t i = 0; i < sizeof cases / sizeof *cases; i++)
        slot_case(cases[i].entry, "01 000000000005 00", cases[i].refusal,
                  cases[i].positive);
    slot_case("0C 02 06 01 000000000000 D3 02 01", "01 00000000000A", 12, 0);
    slot_case("0C 02 06 01 000000000000 D3 02 01", "01 A00000000000", 12, 0);
    slot_case("0C 02 06 01 000000000000 D3 02 01", "01 0000000000", 12, 0);
    slot_case("0C 02 06 01 999999999999 F3 02 01", "01 999999999999", 0, 0);
    slot_case("0C 02 06 01 999999999998 F3 02 01", "01 999999999999", 0, 1);
    slot_case("0C 02 06 01 000000000000 D3 02 01", "02 00", 6, 0);
    slot_case("08 01 01 02 FF 01 03 02 01", "01", 12, 0);
}

/* Request Thirteen's sittings of examples/. */
static void cpace_sittings(void)
{
    cpace_sitting();
    expect("CPACE",
           "0 0\n"
           "1 0 1\n"
           "2 0 80 1 " IAD("A030000000", "000000000000", "0000")
           "3 0 00 1 " IAD("2230000100", "000000000000", "0000")
           "4 0 2\n"
           "5 0 40 2 " IAD("9231000000", "000000000000", "0100")
           "6 0 3\n"
           "7 0 80 3 " IAD("A231200000", "000000000000", "0100")
           "8 0 40 3 " IAD("6231200100", "000000006000", "0100")
           "9 0 4\n"
           "10 0 00 4 " IAD("8231300000", "000000006000", "0100")
           "11 0 5\n"
           "12 0 80 5 " IAD("A231200000", "000000006000", "0100")
           "13 0 40 5 " IAD("6031200000", "000000006000", "0200")
           "14 6\n");
    interface_selection();
    expect("interface and selection",
           "0 0\n"
           "1 0 1 1\n"
           "2 0 40 1 " IAD("9030000000", "000000000600", "0100")
           "3 0 2 3\n"
           "4 0 40 2 " IAD("9030000000", "000000001000", "0200")
           "5 0 3 2\n"
           "6 0 40 3 0FA501903000000000000000100002000F02" ZEROS "\n"
           "7 0 4 1\n"
           "8 0 40 4 " IAD("9030000000", "000000001001", "0300")
           "9 0 5 1\n"
           "10 0 40 5 " IAD("9030000000", "000000001002", "0400")
           "11 0 6 2\n"
           "12 12\n"
           "13 12\n"
           "14 6\n"
           "15 9\n");
}

/* CPA Annex I: what one purchase makes of the first cyclic accumulator. Profile
 * 2 declines above what it is to be, profile 3 above one less. */
struct annex {
    const char *name;
    uint8_t kind, first_day, switches;
    uint64_t amount, limit;
    uint32_t last, date;
    uint64_t paid;
    uint16_t currency, digits;
    int shift;
    bool exceeds;
    uint64_t after;
};

static void annex_case(const struct annex *annex)
{
    char expected[400];

    for (unsigned declines = 0; declines < 2; declines++) {
        lenient();
        profiles_blank(3);
        profile->accumulator_sent = 0;
        cyclic(annex->last, annex->kind, annex->first_day, DAYS, FRI);
        setup.cyclic[0].amount = annex->amount;
        setup.conversions = annex->digits > 0;
        rate(0, annex->currency, annex->digits, (uint8_t)(annex->shift + 9));
        profile->cyclic[0].switches = annex->switches;
        profile->cyclic[0].limit = annex->limit;
        profile->decline = declines ? CYCLIC_1 : 0;
        for (unsigned i = 1; i < 3; i++) {
            setup.profile[i].cyclic[0].switches = 1;
            setup.profile[i].cyclic[0].limit = annex->after - (i == 2);
            setup.profile[i].decline = CYCLIC_1;
        }
        begin();
        today = annex->date;
        start(1);
        first_in(TC, annex->paid, annex->currency);
        const bool declined = declines && annex->exceeds;
        if (declines) {
            snprintf(expected, sizeof expected,
                     "0 0\n1 0 1\n2 0 %s 1 0FA501%s30000000%s0F01" ZEROS "\n",
                     declined ? "00" : "40", declined ? "80" : "90",
                     "0000000000000000");
        } else {
            start(2);
            first(TC, 0);
            start(3);
            first(TC, 0);
            snprintf(expected, sizeof expected,
                     "0 0\n1 0 1\n2 0 40 1 0FA5019030000000%s0F01" ZEROS "\n"
                     "3 0 2\n4 0 40 2 0FA5019030000000%s0F02" ZEROS "\n"
                     "5 0 3\n6 0 00 3 0FA5018030000000%s0F03" ZEROS "\n",
                     "0000000000000000", "0000000000000000",
                     "0000000000000000");
        }
        expect(annex->name, expected);
    }
}

static void annex_i(void)
{
    static const struct annex cases[] = {
        {"Annex I, 1", DAYS, FRI, 7, 85400, 100000, 0x050715, 0x050715, 35000,
         USD, 82, -2, true, 114100},
        {"Annex I, 2", WEEKS, MON, 7, 286950, 300000, 0x050711, 0x050721,
         445500, 0x0124, 67, -2, false, 298485},
        {"Annex I, 3", MONTHS, FRI, 7, 1510945, 1500000, 0x050715, 0x050725,
         35000, 0x0414, 0, 0, true, 1510945},
        {"Annex I, 4", MONTHS, FRI, 7, 1498945, 1500000, 0x050715, 0x050725,
         65000, 0x0810, 28, -3, true, 1500765},
        {"Annex I, 5", DAYS, FRI, 1, 85400, 100000, 0x050715, 0x050715, 15000,
         EUR, 0, 0, false, 85400}};

    for (size_t i = 0; i < sizeof cases / sizeof *cases; i++)
        annex_case(&cases[i]);
}

/* 5 of 5 are spent, of the second accumulator: whether a purchase of 1 on this
 * date begins a cycle, and so is approved. In error it is not tested. */
static void begun(uint8_t kind, uint8_t first_day, uint32_t last, uint32_t date,
                  bool begins)
{
    const bool in_error = date < last;
    const bool approved = begins || in_error;
    char expected[200];

    lenient();
    profiles_blank(1);
    cyclic(last, DAYS, FRI, kind, first_day);
    setup.cyclic[1].amount = 5;
    profile->cyclic[1].switches = 7;
    profile->cyclic[1].limit = 5;
    profile->decline = CYCLIC_2;
    begin();
    start(1);
    first_on(date, TC, 1);
    snprintf(expected, sizeof expected,
             "0 0\n1 0 1\n2 0 %s 1 0FA501%s30%s0000%s0F01" ZEROS "\n",
             approved ? "40" : "00", approved ? "90" : "80",
             in_error ? "02" : "00", "0000000000000000");
    expect("a cycle", expected);
}

static void cycles(void)
{
    begun(DAYS, FRI, 0x050715, 0x050715, false);
    begun(DAYS, FRI, 0x050715, 0x050716, true);
    begun(DAYS, FRI, 0x050715, 0x050714, false);
    begun(WEEKS, MON, 0x051231, 0x060101, false);
    begun(WEEKS, SUN, 0x051231, 0x060101, true);
    begun(WEEKS, MON, 0x060101, 0x060102, true);
    begun(WEEKS, MON, 0x000101, 0x000102, false); /* not dropped toward zero */
    begun(WEEKS, MON, 0x000102, 0x000103, true);
    begun(WEEKS, THU, 0x000101, 0x000105, false);
    begun(WEEKS, THU, 0x000105, 0x000106, true);
    begun(WEEKS, FRI, 0x080228, 0x080229, true);
    begun(WEEKS, SAT, 0x080228, 0x080229, false);
    begun(WEEKS, MON, 0x050713, 0x050718, true); /* less than seven days */
    begun(WEEKS, MON, 0x050711, 0x050717, false);
    begun(WEEKS, MON, 0x050718, 0x050724, false);
    begun(WEEKS, THU, 0x991230, 0x991231, true);
    begun(MONTHS, FRI, 0x000229, 0x000301, true);
    begun(MONTHS, FRI, 0x000228, 0x000229, false);
    begun(MONTHS, FRI, 0x050701, 0x050731, false);
    begun(MONTHS, FRI, 0x050715, 0x060715, true);
    begun(MONTHS, FRI, 0x041231, 0x050101, true);
    begun(MONTHS, FRI, 0x050715, 0x050701, false);
    begun(MONTHS, FRI, 0x991231, 0x000101, false); /* no window */
}

/* Dates that are none, refused in a First and in a set-up. */
static void no_days(void)
{
    static const uint32_t dates[] = {0x000230, 0x010229, 0x100229, 0x050431,
                                     0x051301, 0x050001, 0x050100, 0x050732,
                                     0x0A0101, 0x00010A, 0x001F01, 0x990229};
    static const uint32_t days[] = {0x120229, 0x160229, 0x960229, 0x000229,
                                    0x991231};

    for (size_t i = 0; i < sizeof dates / sizeof *dates; i++) {
        lenient();
        cyclic(0x000101, DAYS, FRI, DAYS, FRI);
        begin();
        start(1);
        first_on(dates[i], TC, 1);
        expect("no day", "0 0\n1 0 1\n2 13\n");
        setup.last = dates[i];
        begin();
        start(1);
        expect("no last day", "0 1\n");
    }
    for (size_t i = 0; i < sizeof days / sizeof *days; i++) {
        lenient();
        cyclic(days[i], DAYS, FRI, DAYS, FRI);
        begin();
        start(1);
        first_on(days[i], TC, 1);
        expect("a day", "0 0\n1 0 1\n2 0 40 1 "
                        IAD("9030000000", "000000000001", "0100"));
    }
}

/* A First is as long as the set-up has it. */
static void first_lengths(void)
{
    lenient();
    setup.version = 4;
    begin();
    start(1);
    first(TC, 1);
    expect("04, undated", "0 0\n1 0 1\n2 0 40 1 "
                          IAD("9030000000", "000000000001", "0100"));
    for (uint8_t version = 1; version <= 5; version++) {
        setup.version = version;
        begin();
        start(1);
        draft_dated_first(draft, TC, 1, EUR, ONLINE_TERMINAL, 0x050715);
        start(1);
        expect("undated, 15 bytes", "0 0\n1 0 1\n2 9\n");
    }
    cyclic(0x050715, DAYS, FRI, DAYS, FRI);
    begin();
    start(1);
    draft_first(draft, TC, 1, EUR, ONLINE_TERMINAL);
    start(1);
    expect("dated, 12 bytes", "0 0\n1 0 1\n2 9\n");
}

/* Masks name bits 22 to 24 from version 04 on, and 25 from version 05 on. */
static void mask_bits(void)
{
    for (uint8_t version = 1; version <= 5; version++)
        for (unsigned bit = 21; bit < 28; bit++) {
            const bool named = bit < 22 || (version >= 4 && bit < 25)
                || (version == 5 && bit == 25);
            lenient();
            setup.version = version;
            profile->decline = UINT32_C(1) << bit;
            begin();
            start(1);
            expect("a mask's bit", named ? "0 0\n1 0 1\n" : "0 1\n");
        }
}

/* The body of the printed set-up, the tail, and so many bytes more. */
static void tail_case(uint8_t version, const char *tail, const char *more,
                      const char *lines)
{
    const struct hex bytes = hex(tail);
    const struct hex last = hex(more);
    uint8_t body[SETUP_ROOM];

    printed();
    size_t length = draft_setup_body(&setup, body);
    memcpy(body + length, bytes.at, bytes.length);
    length += bytes.length;
    memcpy(body + length, last.at, last.length);
    length += last.length;
    draft_begin(draft);
    draft_record(draft, KIND_SETUP, body, length);
    draft->bytes[0] = version;
    start(1);
    expect(tail, lines);
}

/* Of version 04, behind selection off and syllabus 0. */
static void dated_tails(void)
{
#define DATE "05 07 15"
#define FIRST_SLOT "09 78 000000E8D4A50FFF 01 00"
#define SECOND_SLOT "00 00 0000000000000000 03 06"
#define ONE_RULE "07 000000E8D4A50FFF"
#define ALL DATE FIRST_SLOT SECOND_SLOT ONE_RULE ONE_RULE
    static const struct {
        const char *tail;
        bool taken;
    } cases[] = {
        {"00", true},
        {"", false},
        {"02", false},
        {"FF", false},
        {"00 00", false},
        {"01", false},
        {"02" ALL, false},
        {"00" ALL, false},
        {"01" ALL, true},
        {"01" ALL "00", false},
        {"01" ALL ONE_RULE ONE_RULE, false},
        {"01" DATE FIRST_SLOT SECOND_SLOT ONE_RULE, false},
        {"01" DATE FIRST_SLOT SECOND_SLOT ONE_RULE "07 000000E8D4A50F", false},
        {"01" DATE FIRST_SLOT SECOND_SLOT, false},
        {"01" DATE FIRST_SLOT, false},
        {"01" "05 02 29" FIRST_SLOT SECOND_SLOT ONE_RULE ONE_RULE, false},
        {"01" DATE "09 7A 0000000000000000 01 00" SECOND_SLOT ONE_RULE ONE_RULE,
         false},
        {"01" DATE "09 78 000000E8D4A51000 01 00" SECOND_SLOT ONE_RULE ONE_RULE,
         false},
        {"01" DATE "09 78 0000000000000000 00 00" SECOND_SLOT ONE_RULE ONE_RULE,
         false},
        {"01" DATE "09 78 0000000000000000 04 00" SECOND_SLOT ONE_RULE ONE_RULE,
         false},
        {"01" DATE "09 78 0000000000000000 01 07" SECOND_SLOT ONE_RULE ONE_RULE,
         false},
        {"01" DATE FIRST_SLOT SECOND_SLOT "08 0000000000000000" ONE_RULE,
         false},
        {"01" DATE FIRST_SLOT SECOND_SLOT ONE_RULE "00 000000E8D4A51000",
         false}};

    for (size_t i = 0; i < sizeof cases / sizeof *cases; i++) {
        char tail[400];
        snprintf(tail, sizeof tail, "00 00 %s", cases[i].tail);
        tail_case(4, tail, "", cases[i].taken ? "0 0\n1 0 1\n" : "0 1\n");
        if (*cases[i].tail)
            tail_case(3, tail, "", "0 1\n");
    }
#undef DATE
#undef FIRST_SLOT
#undef SECOND_SLOT
#undef ONE_RULE
#undef ALL
}

/* Of the printed set-up with version 05's tail; a CPACE card's Start of one
 * byte is 9. */
static void family_tails(void)
{
    static const char *const cpa = "0 0\n1 0 1\n";
    static const char *const cpace = "0 0\n1 9\n";
    static const char *const refused = "0 1\n";
    const struct {
        const char *tail, *lines;
    } cases[] = {
        {"00", cpa},
        {"", refused},
        {"02", refused},
        {"FF", refused},
        {"00 00", refused},
        {"01", refused},
        {"00 00000000 00000000 00", refused},
        {"01 00000000 00000000 00", cpace},
        {"01 0F0F0F0F 0F0F0F0F 01", cpace},
        {"02 00000000 00000000 00", refused},
        {"01 00000000 00000000", refused},
        {"01 00000000 00000000 00 00", refused},
        {"01 10000000 00000000 00", refused},
        {"01 00100000 00000000 00", refused},
        {"01 00001000 00000000 00", refused},
        {"01 00000010 00000000 00", refused},
        {"01 00000000 10000000 00", refused},
        {"01 00000000 00100000 00", refused},
        {"01 00000000 00001000 00", refused},
        {"01 00000000 00000010 00", refused},
        {"01 00000000 00000000 02", refused},
        {"01 00000000 00000000 FF", refused}};

    for (size_t i = 0; i < sizeof cases / sizeof *cases; i++) {
        char tail[100];
        snprintf(tail, sizeof tail, "00 00 00 %s", cases[i].tail);
        tail_case(5, tail, "", cases[i].lines);
        if (*cases[i].tail)
            tail_case(4, tail, "", refused);
        tail_case(LATEST + 1, tail, "", "0 9\n");
        if (LATEST < 6)
            continue;
        tail_case(6, tail, "", *cases[i].tail == '\0' ? refused
                  : strcmp(cases[i].tail, "00 00") == 0 ? cpa
                  : strcmp(cases[i].tail, "01 00000000 00000000 00 00") == 0
                  ? cpace : refused);
        tail_case(6, tail, "00", cases[i].lines);
        tail_case(6, tail, "01", cases[i].lines);
        tail_case(6, tail, "02", refused);
        tail_case(6, tail, "FF", refused);
        tail_case(6, tail, "01 00 00", refused);
    }
}

static void tails(void)
{
    static const struct {
        const char *tail, *lines;
    } cases[] = {
        {"", "0 1\n"},
        {"00", "0 0\n1 0 1\n"},
        {"02", "0 1\n"},
        {"00 00", "0 1\n"},
        {"01", "0 1\n"},
        {"01 00", "0 0\n1 12\n"},
        {"01 00 00", "0 1\n"},
        {"01 01", "0 1\n"},
        {"01 01 00", "0 0\n1 12\n"},
        {"01 01 01", "0 1\n"},
        {"01 02 00", "0 1\n"},
        {"01 02 00 01 00", "0 0\n1 12\n"},
        {"01 01 08 01 01 02 FF 01 00 01 02", "0 0\n1 0 1 1\n"},
        {"01 01 08 01 01 02 FF 01 00 01", "0 1\n"},
        {"01 01 08 01 01 02 FF 01 00 01 02 00", "0 1\n"},
        {"01 02 08 01 01 02 FF 01 00 01 02", "0 1\n"},
        {"01 02 08 01 01 02 FF 01 00 01 02 00", "0 0\n1 0 1 1\n"}};

    for (size_t i = 0; i < sizeof cases / sizeof *cases; i++) {
        const char *tail = cases[i].tail;
        tail_case(1, tail, "", *tail ? "0 1\n" : "0 0\n1 0 1\n");
        tail_case(2, tail, "", cases[i].lines);
        tail_case(3, tail, "00", cases[i].lines);
        tail_case(3, tail, "01", cases[i].lines);
        tail_case(3, tail, "02", "0 1\n");
    }
    tail_case(3, "", "", "0 1\n");
    tail_case(3, "00", "", "0 1\n");
    tail_case(3, "01 00", "", "0 1\n");
    tail_case(3, "00 FF", "", "0 1\n");
    dated_tails();
    family_tails();
}

static void refusals(void)
{
    printed();
    setup.atc = 65534;
    begin();
    first(TC, 1);
    second(TC, Y3, ABSENT, 0);
    start(2);
    start(1);
    second(TC, Y3, ABSENT, 0);
    start(1);
    start(0);
    first(3, MOST + 1);
    first(TC, MOST + 1);
    first_in(TC, 1, 0x097A);
    first_in(TC, 1, 0x1978);
    first(ARQC, 1);
    first(9, MOST + 1);
    second(ARQC, Y3, 3, 0);
    second(TC, Y3, 3, 0);
    start(1);
    second(TC, OTHER, VERIFIED, 0x83);
    second(TC, OTHER, VERIFIED, 0x83);
    expect("refusals",
           "0 0\n"
           "1 2\n"
           "2 2\n"
           "3 3\n"
           "4 0 65535\n"
           "5 2\n"
           "6 4\n"
           "7 3\n"
           "8 5\n"
           "9 6\n"
           "10 6\n"
           "11 6\n"
           "12 0 80 65535 " IAD("A030000000", "000000000000", "0000")
           "13 2\n"
           "14 5\n"
           "15 6\n"
           "16 4\n"
           "17 0 40 65535 " IAD("6030000000", "000000000001", "0100")
           "18 2\n");

    setup.atc = 0;
    begin();
    start(1);
    start(1);
    first(ARQC, 1);
    start(1);
    second(TC, OTHER, VERIFIED, 0x80);
    first(AAC, 0);
    first(AAC, 0);
    expect("Start drops",
           "0 0\n"
           "1 0 1\n"
           "2 0 2\n"
           "3 0 80 2 " IAD("A030000000", "000000000000", "0000")
           "4 0 3\n"
           "5 2\n"
           "6 0 00 3 " IAD("8031000000", "000000000000", "0000")
           "7 2\n");
}

/* The paper is these bytes, in hex. */
static void expect_bytes(const char *name, const char *expected)
{
    char hex[2048];

    for (size_t i = 0; i < draft->length; i++)
        snprintf(hex + 2 * i, 3, "%02X", draft->bytes[i]);
    cases++;
    if (strcmp(hex, expected) != 0) {
        wrong++;
        printf("%s: expected\n%s\nbut got\n%s\n", name, expected, hex);
    }
}

/* Request Twelve: its four sittings, byte for byte. */
static void script_sittings(void)
{
    script_done();
    expect_bytes("script done",
                 "0600A5010103000100000000097800000000000000000000000000000000"
                 "000000000000000000000000000000000000000000000000000001000000"
                 "400000040000000400000000000000000000000007000000000000138800"
                 "000000000027100000000000000000000000000000000000000000000000"
                 "0000000000000000000000000000000000000000000000000000000003FF"
                 "FF0000000000000000000101000000000001004E0501714A86160CDABF30"
                 "118109DF01060000001234568E0411223344861C0CDABF3017810FDF110C"
                 "0000002000000000003000008E041122334486120CDABF350D8105DF1102"
                 "07098E041122334400020201000D03010000000000001388097822");
    expect("script done",
           "0 0\n"
           "1 0\n"
           "2 0 1\n"
           "3 0 40 1 " IAD("9030003000", "000000128456", "0100"));
    script_fails();
    expect_bytes("script fails",
                 "0600A5010103000100000000097800000000000000000000000000000000"
                 "000000000000000000000000000000000000000000000000000001000000"
                 "400000040000000400000000000000000000000007000000000000138800"
                 "000000000027100000000000000000000000000000000000000000000000"
                 "0000000000000000000000000000000000000000000000000000000003FF"
                 "FF000000000000000000010100000000000100550501715186160CDABF30"
                 "118109DF01060000000040008E0411223344861F0CDABF301A8112DF0106"
                 "000000000007DF020600000000000A8E041122334486160CDABF30118109"
                 "DF01060000000000098E0411223344001C0501711886160CDABF30118109"
                 "DF01060000000000018E041122334400020201000D030200000000000000"
                 "01097822000904013030010080000000020201000D030200000000000000"
                 "01097822");
    expect("script fails",
           "0 0\n"
           "1 0\n"
           "2 0\n"
           "3 0 1\n"
           "4 0 80 1 " IAD("A030001800", "000000004000", "0000")
           "5 0 40 1 " IAD("6030001800", "000000004000", "0000")
           "6 0 2\n"
           "7 0 80 2 " IAD("A030001000", "000000004000", "0000"));
    script_between();
    expect_bytes("script between",
                 "0600A5010103000100000000097800000000000013880000000000000000"
                 "000000000000000000000000000000000000000000000000000001000000"
                 "400000000000000400000000000000000000000007000000000000138800"
                 "000000000027100000000000000000000000000000000000000000000000"
                 "0000000000000000000000000000000000000000000000000000000003FF"
                 "FF000000000000000000010100000000000100020201000D030200000000"
                 "00001770097822001C0501711886160CDABF30118109DF01060000000000"
                 "008E0411223344000904015933000000000000020201000D030200000000"
                 "00000FA009782200220501721E861C0CDABF3017810FDF110C0000000000"
                 "000000000099998E0411223344000904015A33000000000000020201000D"
                 "03000000000000000000097822");
    expect("script between",
           "0 0\n"
           "1 0 1\n"
           "2 0 80 1 " IAD("A030300000", "000000005000", "0000")
           "3 0\n"
           "4 0 40 1 " IAD("6230300100", "000000006000", "0100")
           "5 0 2\n"
           "6 0 80 2 " IAD("A231201000", "000000006000", "0100")
           "7 0\n"
           "8 0 00 2 " IAD("2231201100", "000000006000", "0100")
           "9 0 3\n"
           "10 0 00 3 " IAD("8231202000", "000000006000", "0100"));
    script_refusals();
    expect_bytes("script refusals",
                 "0600A5010103000100000000097800000000000000000000000000000000"
                 "000000000000000000000000000000000000000000000000000001000000"
                 "400000040000000400000000000000000000000007000000000000138800"
                 "000000000027100000000000000000000000000000000000000000000000"
                 "0000000000000000000000000000000000000000000000000000000003FF"
                 "FF0000000000000000000101000000000001000205020002050100050501"
                 "710186000D05017109A507BF0C047102E100000D05017109BF0C067104E1"
                 "02860000020201000D05027109A507BF0C047102E100000D030000000000"
                 "0000000009782200010500020201");
    expect("script refusals",
           "0 0\n"
           "1 6\n"
           "2 18\n"
           "3 18\n"
           "4 19\n"
           "5 0\n"
           "6 0 1\n"
           "7 2\n"
           "8 0 00 1 " IAD("8030000800", "000000000000", "0000")
           "9 9\n");
}

/* A template on a fresh card, 5 of accumulator 1 spent: its refusal, and what
 * First shows: CVR byte 4, accumulator 1. */
static void template_case(const char *template, unsigned refusal,
                          const char *shown, const char *accumulator)
{
    char expected[200];

    lenient();
    scripts();
    setup.accumulator[0].value = 5;
    profile->accumulator[0].lower = MOST;
    profile->accumulator[0].upper = MOST;
    begin();
    script(template);
    start(1);
    first(AAC, 0);
    snprintf(expected, sizeof expected,
             "0 0\n1 %u\n2 0 1\n3 0 00 1 0FA501803000%s00%s00000F01" ZEROS
             "\n",
             refusal, shown, accumulator);
    expect(template, expected);
}

static void templates(void)
{
    static const char *const none[] = {
        "7100", "7200", "710100", "718100", "71820000", "71039F0600",
        "7103FF0100", "710650009F180000"};
    static const char *const fails[] = {
        "71028600", "7104A6028600", "710471028600", "7109BF0C067104E1028600",
        "710486008600"};
    static const char *const value[] = {
        "711886160CDABF30118109DF01060000001234568E0411223344",
        "7182001886160CDABF30118109DF01060000001234568E0411223344"};
    static const char *const limits[] = {
        "721E861C0CDABF3017810FDF120C0000000050000000000100008E0411223344",
        "711486120CDABF350D8105DF110207098E0411223344"};
    static const char *const malformed[] = {
        "", "71", "7000", "7300", "7F7100", "5100", "00", "007100", "710000",
        "71007200", "710186", "71028601", "71028681", "7103868200",
        "71800000", "7183000000", "710486800000", "7181", "718200", "7101FF",
        "7102FFFF", "71019F", "71029F18", "71049F810100",
        "7106E10286015000", "710A86807106710471027100",
        "7108710671047102E101"};
    static const char *const too_deep[] = {
        "7108710671047102E100", "7109710671047102710086",
        "710A710871067104E1028605"};

    for (size_t i = 0; i < sizeof none / sizeof *none; i++)
        template_case(none[i], 0, "00", "000000000005");
    for (size_t i = 0; i < sizeof fails / sizeof *fails; i++)
        template_case(fails[i], 0, "08", "000000000005");
    for (size_t i = 0; i < sizeof value / sizeof *value; i++)
        template_case(value[i], 0, "10", "000000123456");
    for (size_t i = 0; i < sizeof limits / sizeof *limits; i++)
        template_case(limits[i], 0, "10", "000000000005");
    for (size_t i = 0; i < sizeof malformed / sizeof *malformed; i++)
        template_case(malformed[i], 18, "00", "000000000005");
    for (size_t i = 0; i < sizeof too_deep / sizeof *too_deep; i++)
        template_case(too_deep[i], 19, "00", "000000000005");
}

/* The command in a template alone: it is done, and accumulator 1 is this, or
 * it fails. */
static void command_case(const char *command, const char *accumulator)
{
    char template[600];
    const unsigned size = (unsigned)strlen(command) / 2;

    snprintf(template, sizeof template, "7182%04X8682%04X%s", size + 4, size,
             command);
    template_case(template, 0, accumulator ? "10" : "08",
                  accumulator ? accumulator : "000000000005");
}

#define MAC "8E0411223344"

static void commands(void)
{
    static const char *const fails[] = {
        "0CDABF30118109DF010600000000000A" MAC,
        "8CDABF30118109DF0106000000000007" MAC,
        "00DABF30118109DF0106000000000007" MAC,
        "0CDBBF30118109DF0106000000000007" MAC,
        "0C18BF30118109DF0106000000000007" MAC,
        "0CDABF31118109DF0106000000000007" MAC,
        "0CDABF37118109DF0106000000000007" MAC,
        "0CDABF3C118109DF0106000000000007" MAC,
        "0CDABF42118109DF0106000000000007" MAC,
        "0CDABF30118109DF0006000000000007" MAC,
        "0CDABF30118109DF0506000000000007" MAC,
        "0CDABF3017810FDF150C000000000007000000000009" MAC,
        "0CDABF3017810FDF210C000000000007000000000009" MAC,
        "0CDABF350C8104DF010107" MAC,
        "0CDABF35118109DF0106000000000007" MAC,
        "0CDABF300B8103DF0100" MAC,
        "0CDABF30108108DF01050000000007" MAC,
        "0CDABF3012810ADF010700000000000007" MAC,
        "0CDABF3017810FDF010C000000000007000000000009" MAC,
        "0CDABF30118109DF1106000000000007" MAC,
        "0CDABF3023811BDF1118000000000007000000000009000000000007000000000009"
        MAC,
        "0CDABF350C8104DF110107" MAC,
        "0CDABF350F8107DF110407090709" MAC,
        "0CDABF3517810FDF110C000000000007000000000009" MAC,
        "0CDABF3013820009DF0106000000000007" MAC,
        "0CDABF3013810BDF01820006000000000007" MAC,
        "0CDABF30108109DF0106000000000007" MAC,
        "0CDABF30128109DF0106000000000007" MAC,
        "0CDABF30118109DF0106000000000007" MAC "00",
        "0CDABF30118009DF0106000000000007" MAC,
        "0CDABF30118709DF0106000000000007" MAC,
        "0CDABF300B8109DF0106000000000007",
        "0CDABF3011" MAC "8109DF0106000000000007",
        "0CDABF30118109DF01060000000000078F0411223344",
        "0CDABF30108109DF01060000000000078E03112233",
        "0CDABF30128109DF01060000000000078E051122334455",
        "0CDABF30158109DF01060000000000078E081122334455667788",
        "0CDABF30128109DF01060000000000078E810411223344",
        "",
        "0CDABF30",
        "0CDABF3014810CBF3009DF0106000000000007" MAC};

    command_case("0CDABF300881008E0411223344", "000000000005");
    command_case("0CDABF3012810ADF0106000000000006008E0411223344",
                 "000000000006");
    command_case("0CDABF3012818109DF01060000000000078E0411223344",
                 "000000000007");
    command_case("0CDABF3012810ADF0181060000000000088E0411223344",
                 "000000000008");
    for (size_t i = 0; i < sizeof fails / sizeof *fails; i++)
        command_case(fails[i], NULL);
}

/* An empty template ends where it begins, whatever stands behind it: here a
 * Start whose length, 7102, and kind would serve as one. */
static void empty_template(void)
{
    static const uint8_t data[0x7101];

    lenient();
    scripts();
    simple_entry(0xFF, 0x00, 0, 1, 1);
    begin();
    script("");
    draft_data(draft, data, sizeof data);
    expect("an empty template", "0 0\n1 18\n2 0 1 1\n");
}

/* So many commands done, and then one that fails or not. */
static void script_counts(void)
{
    static const struct {
        unsigned done;
        bool fails;
        const char *shown;
    } counts[] = {{1, false, "10"}, {15, false, "F0"}, {16, false, "00"},
                  {17, false, "10"}, {15, true, "F8"}};

    for (size_t i = 0; i < sizeof counts / sizeof *counts; i++) {
        char template[2048];
        const unsigned size = 15 * counts[i].done + 2 * counts[i].fails;
        size_t at = (size_t)snprintf(template, sizeof template, "7182%04X",
                                     size);
        for (unsigned j = 0; j < counts[i].done; j++)
            at += (size_t)snprintf(template + at, sizeof template - at,
                                   "860D0CDABF30088100" MAC);
        if (counts[i].fails)
            snprintf(template + at, sizeof template - at, "8600");
        template_case(template, 0, counts[i].shown, "000000000005");
    }
}

/* A log table with this entry alone, on a card whose First has 12 bytes. */
static void entry_case(unsigned whose, uint8_t source, uint8_t position,
                       uint8_t length, const char *lines)
{
    char name[64];

    printed();
    logs(1, 0);
    draft_log_entry(&setup.table[whose], source, position, length);
    begin();
    start(1);
    snprintf(name, sizeof name, "table %u: (%u, %u, %u)", whose, source,
             position, length);
    expect(name, lines);
}

static void log_entries(void)
{
    static const uint8_t taken[][3] = {{0, 1, 12}, {0, 12, 1}, {0, 13, 0},
                                       {0, 0, 255}, {0, 9, 4}, {1, 1, 8},
                                       {1, 9, 0}, {1, 0, 255}};
    static const uint8_t past[][3] = {{0, 1, 13}, {0, 12, 2}, {0, 13, 1},
                                      {0, 14, 0}, {0, 2, 255}, {1, 1, 9},
                                      {1, 8, 2}, {1, 9, 1}, {1, 10, 0},
                                      {1, 9, 4}, {1, 2, 255}};

    for (size_t i = 0; i < sizeof taken / sizeof *taken; i++)
        for (unsigned whose = taken[i][0]; whose < 2; whose++)
            entry_case(whose, taken[i][0], taken[i][1], taken[i][2],
                       "0 0\n1 0 1\n");
    for (size_t i = 0; i < sizeof past / sizeof *past; i++)
        for (unsigned whose = past[i][0]; whose < 2; whose++)
            entry_case(whose, past[i][0], past[i][1], past[i][2], "0 14\n");
    entry_case(0, 1, 1, 1, "0 1\n");
    entry_case(0, 1, 0, 0, "0 1\n");
    entry_case(1, 2, 1, 1, "0 1\n");
    entry_case(1, 0xFF, 0, 0, "0 1\n");
}

/* With dates First has 3 bytes more, on a CPACE card 9. */
static void log_data_lengths(void)
{
    for (unsigned kind = 0; kind < 4; kind++) {
        for (unsigned by = 0; by < 2; by++) {
            printed();
            if (kind & 1)
                cyclic(0x050715, DAYS, FRI, DAYS, FRI);
            if (kind & 2)
                cpace();
            logs(1, 0);
            at_first(1, (uint8_t)(12 + 3 * (kind & 1) + 9 * (kind >> 1) + by));
            begin();
            expect("as long as First's data, and longer",
                   by ? "0 14\n" : "0 0\n");
        }
    }
}

/* The tail of version 07, behind those of all others, off. */
static void log_tails(void)
{
    static const char *const taken = "0 0\n1 0 1\n";
    static const char *const refused = "0 1\n";
    const struct {
        const char *tail, *lines;
    } cases[] = {
        {"00", taken},
        {"", refused},
        {"02", refused},
        {"FF", refused},
        {"00 00", refused},
        {"00 00 00 00 00 00", refused},
        {"01", refused},
        {"01 00 00 00 00 00", taken},
        {"01 14 FC 01 00 00", taken},
        {"02 14 FC 01 00 00", refused},
        {"01 15 FC 01 00 00", refused},
        {"01 FF FC 01 00 00", refused},
        {"01 14 FD 01 00 00", refused},
        {"01 14 FE 01 00 00", refused},
        {"01 14 FC 02 00 00", refused},
        {"01 14 FC 01 00", refused},
        {"01 14 FC 01", refused},
        {"01 14 FC", refused},
        {"01 14", refused},
        {"01 14 FC 01 00 00 00", refused},
        {"01 14 FC 01 01 00 0C 01 00", taken},
        {"01 14 FC 01 01 00 0C 01", refused},
        {"01 14 FC 01 01 00 0C 00", refused},
        {"01 14 FC 01 00 01 01 08 01", taken},
        {"01 14 FC 01 00 01 01 08", refused},
        {"01 14 FC 01 00 01 01 08 01 00", refused},
        {"01 14 FC 01 00 01 01 08 02", "0 14\n"},
        {"01 14 FC 01 00 01 01 08 02 00", refused},
        {"01 15 FC 01 00 01 01 08 02", refused},
        {"01 14 FD 01 00 01 01 08 02", refused},
        {"01 14 FC 02 00 01 01 08 02", refused},
        {"01 14 FC 01 00 02 01 08 02 02 01 01", refused},
        {"01 14 FC 01 01 00 0D 01 01 02 01 01", refused},
        {"01 14 FC 01 01 00 0D 01 01 01 01 01", "0 14\n"}};

    for (size_t i = 0; i < sizeof cases / sizeof *cases; i++) {
        tail_case(7, "00 00 00 00 00", cases[i].tail, cases[i].lines);
        if (*cases[i].tail)
            tail_case(6, "00 00 00 00 00", cases[i].tail, refused);
    }
}

/* What is refused makes no record; Second closes the First that was taken. */
static void log_refusals(void)
{
    lenient();
    logs(3, DECLINED | APPROVED | WITH_ATC);
    at_first(12, 1);
    at_second(FROM_FIRST, 12, 1);
    at_second(FROM_SECOND, 5, 4);
    begin();
    start(1);
    first(3, 7);
    first_offline(ARQC, 9);
    first(TC, 8);
    start(2);
    second(TC, Y3, 3, 0);
    draft_second(draft, TC, Z3, ABSENT, 0x12345678);
    second(TC, Y3, ABSENT, 0);
    expect("log, refused commands",
           "0 0\n"
           "1 0 1\n"
           "2 5\n"
           "3 0 80 1 " IAD("A030000000", "000000000000", "0000")
           "4 2\n"
           "5 3\n"
           "6 6\n"
           "7 0 40 1 " IAD("6230000100", "000000000009", "0100")
           "8 2\n"
           "log 1 0000000000090978000000" "0001" "23" "12345678\n");

    begin(); /* what a Start drops, and an ARQC that stays open */
    start(1);
    first(ARQC, 5);
    start(1);
    first(AAC, 6);
    start(1);
    first(ARQC, 7);
    expect("log, ARQCs",
           "0 0\n"
           "1 0 1\n"
           "2 0 80 1 " IAD("A030000000", "000000000000", "0000")
           "3 0 2\n"
           "4 0 00 2 " IAD("8031000000", "000000000000", "0000")
           "5 0 3\n"
           "6 0 80 3 " IAD("A031000000", "000000000000", "0000")
           "log 1 0000000000060978000000" "0002" "22\n");
}

/* A paper that a refusal ends shows no log, and a fresh one has none. */
static void log_ends(void)
{
    lenient();
    logs(1, DECLINED);
    begin();
    expect("log, a set-up alone", "0 0\n");
    start(1);
    first(AAC, 5);
    expect("log, one record",
           "0 0\n"
           "1 0 1\n"
           "2 0 00 1 " IAD("8030000000", "000000000000", "0000")
           "log 1 0000000000050978000000\n");
    draft_insert(draft, draft->length, (const uint8_t[]){0}, 1);
    expect("log, 9 behind it",
           "0 0\n"
           "1 0 1\n"
           "2 0 00 1 " IAD("8030000000", "000000000000", "0000")
           "3 9\n");
    setup.log_size = 0;
    begin();
    start(1);
    first(AAC, 5);
    expect("log, a ring of size 0",
           "0 0\n"
           "1 0 1\n"
           "2 0 00 1 " IAD("8030000000", "000000000000", "0000"));
    logs(1, APPROVED);
    setup.log = 0;
    begin();
    start(1);
    first(AAC, 5);
    expect("log off",
           "0 0\n"
           "1 0 1\n"
           "2 0 00 1 " IAD("8030000000", "000000000000", "0000"));
}

/* Of three profiles the second logs; its record stays when others are used. */
static void log_profiles(void)
{
    lenient();
    profiles_alike(3);
    for (unsigned i = 0; i < 3; i++) {
        setup.profile[i].accumulator_sent = 0;
        setup.profile[i].counter_sent[0] = 0;
    }
    logs(2, APPROVED | WITH_CID | WITH_ATC);
    setup.profile[0].log = 0;
    setup.profile[2].log = 0;
    begin();
    for (uint8_t i = 1; i <= 3; i++) {
        start(i);
        first(TC, 40u + i);
    }
    expect("log, profiles",
           "0 0\n"
           "1 0 1\n2 0 40 1 0FA50190300000000000000000000000" "0F01" ZEROS "\n"
           "3 0 2\n4 0 40 2 0FA50190300000000000000000000000" "0F02" ZEROS "\n"
           "5 0 3\n6 0 40 3 0FA50190300000000000000000000000" "0F03" ZEROS "\n"
           "log 1 0000000000420978000000" "000240\n");
}

/* Dates, CVM results and cashback, as a CPACE card's First carries them. */
static void log_of_cpace(void)
{
    lenient();
    cyclic(0x050715, DAYS, FRI, DAYS, FRI);
    cpace();
    logs(4, DECLINED | WITH_CVR);
    at_first(13, 3);
    at_first(16, 3);
    at_first(19, 6);
    at_second(FROM_FIRST, 24, 1);
    at_second(FROM_SECOND, 1, 4);
    begin();
    cvm = BY_SIGNATURE;
    cashback = 0xA1A2A3A4A5A6;
    start(1);
    first_on(0x050716, AAC, MOST);
    start(1);
    first_on(0x050717, ARQC, 0);
    second(AAC, OTHER, VERIFIED, 0);
    expect("log, CPACE and dated",
           "0 0\n"
           "1 0 1\n"
           "2 0 00 1 " IAD("8030300000", "000000000000", "0000")
           "3 0 2\n"
           "4 0 80 2 " IAD("A030000000", "000000000000", "0000")
           "5 0 00 2 " IAD("2030000000", "000000000000", "0000")
           "log 1 0000000000000978050717" "2030000000" "A6" "00303001\n"
           "log 2 9999999999990978050716" "8030300000" "050716" "1E0300"
           "A1A2A3A4A5A6\n");
}

/* Request Eight: its three sittings, byte for byte. */
static void log_sittings(void)
{
    log_ring();
    expect_bytes("log, a ring of two",
                 "0700B7010103000100000000097800000000000000000000000000000000"
                 "000000000000000000000000000000000000000000000000000001000000"
                 "400000040000000400000000000000000000000007000000000000138800"
                 "000000000027100000000000000000000000000000000000000000000000"
                 "0000000000000000000000000000000000000000000000000000000003FF"
                 "FF00000000000000000001010000000000000102DC0101000C0103000C01"
                 "01020201000900020201000D030100000000000013880978220002020100"
                 "0D0301000000000000000109782200090401593300000000000002020100"
                 "0D030100000000000013880978220009040159330000000000");
    expect("log, a ring of two",
           "0 0\n"
           "1 0 1\n"
           "2 0 40 1 " IAD("9030000000", "000000005000", "0100")
           "3 0 2\n"
           "4 0 80 2 " IAD("A030200000", "000000005000", "0100")
           "5 0 40 2 " IAD("6230200100", "000000005001", "0200")
           "6 0 3\n"
           "7 0 00 3 " IAD("8231300000", "000000005001", "0200")
           "8 2\n"
           "log 1 0000000050000978000000823130000000030022\n"
           "log 2 00000000000109780000006230200100000240225933\n");
    log_offline_only();
    expect_bytes("log, offline only",
                 "0700AE010103000100000000097800000000000000000000000000000000"
                 "000000000000000000000000000000000000000000000000000001000000"
                 "400000040000000400000000000000000000000007000000000000138800"
                 "000000000027100000000000000000000000000000000000000000000000"
                 "0000000000000000000000000000000000000000000000000000000003FF"
                 "FF0000000000000000000101000000000000011478010001010504000202"
                 "01000D0301000000000000006409782200020201000D0302000000000000"
                 "00C8097822000904013030010080000000020201000D0302000000000000"
                 "012C097822000904015A33021234567800020201000D0300000000000000"
                 "0190097822");
    expect("log, offline only",
           "0 0\n"
           "1 0 1\n"
           "2 0 40 1 " IAD("9030000000", "000000000100", "0100")
           "3 0 2\n"
           "4 0 80 2 " IAD("A030000000", "000000000100", "0100")
           "5 0 40 2 " IAD("6030000000", "000000000100", "0100")
           "6 0 3\n"
           "7 0 80 3 " IAD("A030000000", "000000000100", "0100")
           "8 0 40 3 " IAD("6230000100", "000000000400", "0200")
           "9 0 4\n"
           "10 0 00 4 " IAD("8231000000", "000000000400", "0200")
           "log 1 000000000300097800000000034012345678\n"
           "log 2 0000000001000978000000000140\n");
    log_past_data();
    expect_bytes("log, past the data",
                 "0700B1010103000100000000097800000000000000000000000000000000"
                 "000000000000000000000000000000000000000000000000000001000000"
                 "400000040000000400000000000000000000000007000000000000138800"
                 "000000000027100000000000000000000000000000000000000000000000"
                 "0000000000000000000000000000000000000000000000000000000003FF"
                 "FF0000000000000000000101000000000000010000000002010900010802"
                 "00020201");
    expect("log, past the data",
           "0 14\n");
}

static void papers(void)
{
    printed();
    draft->length = 0;
    expect("empty", "0 9\n");
    draft_begin(draft);
    expect("bare", "0 9\n");
    start(1);
    expect("no set-up", "0 9\n");
    begin();
    expect("a set-up alone", "0 0\n");
    draft->bytes[0] = 0;
    expect("version 00", "0 9\n");
    draft->bytes[0] = 2;
    expect("version 02 without a tail", "0 1\n");
    draft->bytes[0] = 3;
    expect("version 03 without a tail", "0 1\n");
    draft->bytes[0] = 4;
    expect("version 04 without a tail", "0 1\n");
    draft->bytes[0] = 5;
    expect("version 05 without a tail", "0 1\n");
    draft->bytes[0] = 6;
    expect("version 06, without a tail", LATEST < 6 ? "0 9\n" : "0 1\n");
    draft->bytes[0] = 7;
    expect("version 07, without a tail", LATEST < 7 ? "0 9\n" : "0 1\n");
    draft->bytes[0] = 8;
    expect("version 08", "0 9\n");
    begin();
    draft->length--;
    expect("set-up cut short", "0 9\n");
    begin();
    draft->bytes[2]--;
    expect("set-up a byte short", "0 1\n");
    setup.pin = 16;
    begin();
    start(1);
    expect("set-up out of range", "0 1\n");
    setup.pin = 15;
    begin();
    start(1);
    draft_insert(draft, draft->length, (const uint8_t[]){0}, 1);
    expect("one byte more", "0 0\n1 0 1\n2 9\n");
    begin();
    draft_record(draft, 2, (const uint8_t[]){1, 1}, 2);
    start(1);
    expect("Start too long", "0 0\n1 9\n");
    setup.version = 2;
    begin();
    start(1);
    draft_data(draft, NULL, 0);
    start(1);
    expect("Start too short, selection off", "0 0\n1 0 1\n2 9\n");
    setup.version = 1;
    begin();
    start(1);
    draft_setup(draft, &setup);
    start(1);
    expect("set-up again", "0 0\n1 0 1\n2 9\n");
    begin();
    draft_insert(draft, draft->length, (const uint8_t[]){0, 0}, 2);
    start(1);
    expect("length 0", "0 0\n1 9\n");

    begin(); /* Starts of profile 0 to the full length, then one byte more */
    while (draft->length + 4 <= PAPER)
        start(0);
    const size_t starts = draft->records - 1;
    draft->bytes[draft->length] = 0;
    draft->length = PAPER;
    answers(draft->bytes, draft->length, lines);
    char end[32];
    const int length = snprintf(end, sizeof end, "\n%zu 9\n", starts + 1);
    const char *last = lines + strlen(lines) - length;
    cases++;
    if (strcmp(last, end) != 0) {
        wrong++;
        printf("a full paper ends in %s", last);
    }
    draft->length = PAPER + 1;
    expect("over 65,536 bytes", "0 9\n");
}

int main(void)
{
    sitting_in_full();
    edges();
    rates();
    roundings();
    history();
    orders();
    unable();
    declines();
    unconverted();
    over();
    counters();
    cyclic_sittings();
    cpace_sittings();
    cvms();
    cashbacks();
    closed();
    cpace_lengths();
    interfaces();
    slot_tests();
    if (LATEST > 5) {
        script_sittings();
        templates();
        commands();
        empty_template();
        script_counts();
    }
    if (LATEST > 6) {
        log_sittings();
        log_entries();
        log_data_lengths();
        log_tails();
        log_refusals();
        log_ends();
        log_profiles();
        log_of_cpace();
    }
    annex_i();
    cycles();
    no_days();
    first_lengths();
    mask_bits();
    selection();
    tails();
    refusals();
    papers();
    printf("%u cases, %u wrong\n", cases, wrong);
    return wrong > 0;
}
