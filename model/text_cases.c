/* text_cases TEXT PAPER: papers as text, cases made by hand, for the programs
 * that print a paper and that read a text: target/model/text and
 * target/model/paper, or those of bin/. */
#include <stdio.h>
#include <stdlib.h>
#include <string.h>

#include "grown.h"
#include "script.h"
#include "trial.h"

static char *text_program[2], *paper_program[2];
static unsigned cases, wrong;

static void show(const char *what, const char *bytes, size_t length)
{
    printf("%s:\n%.*s\n", what, (int)length, bytes);
}

static void show_hex(const char *what, const char *bytes, size_t length)
{
    printf("%s: ", what);
    for (size_t i = 0; i < length; i++)
        printf("%02X", (unsigned)(uint8_t)bytes[i]);
    printf("\n");
}

/* Whether a program answers with these bytes, and says this. */
static void expect(const char *name, char *const *program, const void *input,
                   size_t size, const void *bytes, size_t length,
                   const char *said)
{
    const bool prints = program == text_program;
    const struct told told =
        tell_program(program, prints ? "text" : "paper", input, size);

    cases++;
    if (told.length == length && strcmp(told.said, said) == 0
        && (length == 0 || memcmp(told.wrote, bytes, length) == 0))
        return;
    wrong++;
    printf("%s: %s is wrong\n", name, program[0]);
    (prints ? show : show_hex)("expected", bytes, length);
    (prints ? show : show_hex)("but got", told.wrote, told.length);
    printf("expected to be said: %s\nbut was: %s\n", said, told.said);
}

/* The paper at hand prints as this text, which says it. */
static void both(const char *name, const char *text)
{
    const size_t size = strlen(text);

    expect(name, text_program, draft->bytes, draft->length, text, size, "");
    expect(name, paper_program, text, size, draft->bytes, draft->length, "");
}

/* This text says the paper at hand, too. */
static void also(const char *name, const char *text)
{
    expect(name, paper_program, text, strlen(text), draft->bytes,
           draft->length, "");
}

static void refuses(const char *text, const char *line)
{
    char said[512];

    snprintf(said, sizeof said, "%s\n", line);
    expect(text, paper_program, text, strlen(text), "", 0, said);
}

/* The paper at hand is these bytes, in hex, blanks between. */
static void is(const char *hex)
{
    unsigned byte;
    int size;

    for (draft->length = 0; sscanf(hex, "%2x%n", &byte, &size) == 1;
         hex += size)
        draft->bytes[draft->length++] = (uint8_t)byte;
}

static void is_text(const char *hex, const char *text)
{
    is(hex);
    both(hex, text);
}

/* ---- the printed sitting */

static void printed(void)
{
    printed_sitting();
    both("printed",
         "paper 01\n"
         "setup\n"
         "  key 01\n"
         "  pin 3\n"
         "  a1 in 0978 from 0\n"
         "  profile 1\n"
         "    online a1-lower\n"
         "    decline a1-upper\n"
         "    default a1-upper\n"
         "    a1 active allow include lower 5000 upper 10000\n"
         "    c1 active allow lower 255 upper 255\n"
         "    send accumulator 1 counters 1 0\n"
         "start 1\n"
         "first TC 5000 in 0978 at 22\n"
         "start 1\n"
         "first TC 1 in 0978 at 22\n"
         "second TC Y3\n"
         "start 1\n"
         "first TC 5000 in 0978 at 22\n"
         "second TC Y3\n");
    also("printed, by hand",
         "# Document 01, \"A sitting in full\"\n"
         "\n"
         "paper 01\r\n"
         "setup# online above 5,000, declined above 10,000\n"
         "key 01\n"
         "\tpin\t003 \n"
         " authentication off\n"
         "  atc 0\n"
         "  a1 in 0978 from 00\n"
         "  a3 in 0000 from 0\n"
         "profile 01\n"
         "    online a1-lower\n"
         "    decline bits 00000400\n"
         "    default a1-upper\n"
         "    mta off in 0000 above 0\n"
         "    a1 bits 07 lower 5000 upper 10000\n"
         "    c1 active allow lower 255 upper 255\n"
         "    send accumulator 1 counters 1 0\n"
         "start 1\n"
         "first TC 5000 in 0978 at 22       # 40: approved offline\n"
         "    start 01\n"
         "first 1 1 in 0978 at 22          # 80: 5,001 is above 5,000\n"
         "second TC 5933\n"
         "\n"
         "record 02 01\n"
         "record 03 01 0000000000001388 0978 22\n"
         "bytes 0009 04\n"
         "bytes 01 5933 00\n"
         "bytes 00000000");
}

/* ---- every field and every tail, each value another one */

static void blank_profile(struct draft_profile *some, unsigned number)
{
    memset(some, 0, sizeof *some);
    some->number = (uint8_t)number;
}

/* Version 01 with all it has. */
static void fill_base(void)
{
    memset(&setup, 0, sizeof setup);
    setup.version = 1;
    setup.key = 0xAB;
    setup.pin = 16;
    setup.required = 1;
    setup.profiles = 2;
    setup.conversions = 3;
    setup.atc = 65535;
    setup.go_online = 1;
    for (unsigned i = 0; i < 4; i++) {
        setup.accumulator[i].currency = (uint16_t)(0x0970 + i);
        setup.accumulator[i].value = 100 + i;
        setup.counter[i] = (uint8_t)(200 + i);
    }
    blank_profile(&setup.profile[0], 7);
    blank_profile(&setup.profile[1], 0);
    struct draft_profile *some = &setup.profile[0];
    some->online = 0x0000003F;
    some->decline = 0x03FFFFC0;
    some->by_default = 0x04000001;
    some->mta_on = 1;
    some->mta_currency = 0x0840;
    some->mta = UINT64_MAX;
    for (unsigned i = 0; i < 4; i++) {
        some->accumulator[i].switches = (uint8_t)(1 << i);
        some->accumulator[i].lower = 10 + i;
        some->accumulator[i].upper = 20 + i;
        some->counter[i].switches = (uint8_t)(2 << i);
        some->counter[i].lower = (uint8_t)(30 + i);
        some->counter[i].upper = (uint8_t)(40 + i);
    }
    some->accumulator_sent = 1;
    some->counter_sent[0] = 2;
    some->counter_sent[1] = 3;
    for (unsigned i = 0; i < 3; i++) {
        setup.conversion[i].from = (uint16_t)(0x0100 + i);
        setup.conversion[i].to = (uint16_t)(0x0200 + i);
        setup.conversion[i].digits = (uint16_t)(9999 + i);
    }
    setup.conversion[1].shift = 12;
    setup.conversion[2].shift = 13;
}

#define BASE                                                                   \
    "setup\n"                                                                  \
    "  key AB\n"                                                               \
    "  pin 16\n"                                                               \
    "  authentication required\n"                                              \
    "  atc 65535\n"                                                            \
    "  go-online next\n"                                                       \
    "  a1 in 0970 from 100\n"                                                  \
    "  a2 in 0971 from 101\n"                                                  \
    "  a3 in 0972 from 102\n"                                                  \
    "  a4 in 0973 from 103\n"                                                  \
    "  c1 from 200\n"                                                          \
    "  c2 from 201\n"                                                          \
    "  c3 from 202\n"                                                          \
    "  c4 from 203\n"                                                          \
    "  profile 7\n"                                                            \
    "    online not-completed go-online auth-failed unable no-data mta\n"      \
    "    decline a1-lower a2-lower a3-lower a4-lower"                          \
    " a1-upper a2-upper a3-upper a4-upper"                                     \
    " c1-lower c2-lower c3-lower c4-lower"                                     \
    " c1-upper c2-upper c3-upper c4-upper y1 y2 date-error cashback\n"         \
    "    default bits 04000001\n"                                              \
    "    mta on in 0840 above 18446744073709551615\n"                          \
    "    a1 active lower 10 upper 20\n"                                        \
    "    a2 allow lower 11 upper 21\n"                                         \
    "    a3 include lower 12 upper 22\n"                                       \
    "    a4 bits 08 lower 13 upper 23\n"                                       \
    "    c1 allow lower 30 upper 40\n"                                         \
    "    c2 include lower 31 upper 41\n"                                       \
    "    c3 declines lower 32 upper 42\n"                                      \
    "    c4 bits 10 lower 33 upper 43\n"                                       \
    "    send accumulator 1 counters 2 3\n"                                    \
    "  profile 0\n"                                                            \
    "  conversion 0100 to 0200 by 9999 e-9\n"                                  \
    "  conversion 0101 to 0201 by 10000 e3\n"                                  \
    "  conversion 0102 to 0202 by 10001 13\n"

static void tails(void)
{
    static const uint8_t bytes[] = {0xDE, 0xAD};

    fill_base();
    begin();
    both("version 01", "paper 01\n" BASE);
    setup.version = 2;
    begin();
    both("version 02, off", "paper 02\n" BASE);
    setup.file.on = 1;
    begin();
    both("version 02, no entry", "paper 02\n" BASE "  selection\n");
    draft_entry(&setup.file, bytes, 2);
    draft_entry(&setup.file, bytes, 0);
    draft_entry(&setup.file, bytes, 1);
    begin();
    both("version 02",
         "paper 02\n" BASE
         "  selection\n"
         "    entry DEAD\n"
         "    entry\n"
         "    entry DE\n");
    also("an entry of some words",
         "paper 02\n" BASE "selection\nentry de ad\nentry\nentry dE\n");

    setup.file = (struct draft_file){0};
    setup.version = 3;
    begin();
    both("version 03, off", "paper 03\n" BASE);
    setup.syllabus = 2;
    begin();
    both("version 03", "paper 03\n" BASE "  syllabus 2\n");

    setup.version = 4;
    begin();
    both("version 04, off", "paper 04\n" BASE "  syllabus 2\n");
    setup.dated = 1;
    begin();
    both("version 04, all zeros",
         "paper 04\n" BASE
         "  syllabus 2\n"
         "  dated\n"
         "    profile\n"
         "    profile\n");
    also("no profile said", "paper 04\n" BASE "syllabus 2\ndated\n");
    also("one profile said", "paper 04\n" BASE "syllabus 2\ndated\nprofile\n");
    setup.last = 0x240131;
    setup.cyclic[0].currency = 0x0978;
    setup.cyclic[0].amount = 5;
    setup.cyclic[0].kind = 3;
    setup.cyclic[0].first_day = 6;
    setup.cyclic[1].kind = 4;
    setup.cyclic[1].first_day = 7;
    setup.profile[0].cyclic[1].switches = 7;
    setup.profile[0].cyclic[1].limit = 9;
    setup.profile[1].cyclic[0].switches = 8;
    begin();
    both("version 04",
         "paper 04\n" BASE
         "  syllabus 2\n"
         "  dated\n"
         "    last 2024-01-31\n"
         "    y1 in 0978 from 5 each month week Thursday\n"
         "    y2 in 0000 from 0 each 4 week 7\n"
         "    profile\n"
         "      y2 active allow include limit 9\n"
         "    profile\n"
         "      y1 bits 08 limit 0\n");
    setup.last = 0x24013A;
    setup.cyclic[0].kind = 0;
    setup.cyclic[0].first_day = 0;
    setup.cyclic[1].kind = 0;
    setup.cyclic[1].first_day = 0;
    setup.profile[0].cyclic[1].switches = 0;
    setup.profile[1].cyclic[0].switches = 0;
    begin();
    both("a last date that is none",
         "paper 04\n" BASE
         "  syllabus 2\n"
         "  dated\n"
         "    last 24013A\n"
         "    y1 in 0978 from 5 each none week Friday\n"
         "    profile\n"
         "      y2 limit 9\n"
         "    profile\n");
    setup.dated = 0;
    setup.syllabus = 0;

    setup.version = 5;
    begin();
    both("version 05, off", "paper 05\n" BASE);
    setup.family = 1;
    begin();
    both("version 05, all zeros",
         "paper 05\n" BASE
         "  cpace\n"
         "    cashback unchecked\n"
         "    cashback unchecked\n");
    also("no cashback said", "paper 05\n" BASE "cpace\n");
    for (unsigned i = 0; i < 8; i++)
        setup.control[i] = (uint8_t)(1 << i % 5);
    setup.control[6] = 0;
    setup.profile[0].cashback = 1;
    setup.profile[1].cashback = 2;
    begin();
    both("version 05",
         "paper 05\n" BASE
         "  cpace\n"
         "    a1 closed no-cvm\n"
         "    a2 closed signature\n"
         "    a3 closed online-pin\n"
         "    a4 closed offline-pin\n"
         "    c1 closed bits 10\n"
         "    c2 closed no-cvm\n"
         "    c4 closed online-pin\n"
         "    cashback checked\n"
         "    cashback 2\n");
    setup.family = 0;

    setup.version = 6;
    begin();
    both("version 06, off", "paper 06\n" BASE);
    setup.scripts = 1;
    begin();
    both("version 06", "paper 06\n" BASE "  scripts on\n");
    setup.scripts = 2;
    begin();
    both("version 06, no switch", "paper 06\n" BASE "  scripts 2\n");
    setup.scripts = 0;

    setup.version = 7;
    begin();
    both("version 07, off", "paper 07\n" BASE);
    setup.log = 1;
    begin();
    both("version 07, all zeros",
         "paper 07\n" BASE
         "  log\n"
         "    logged no\n"
         "    logged no\n");
    also("nothing logged said", "paper 07\n" BASE "log\n");
    setup.log_size = 20;
    setup.log_switches = 0xFF;
    setup.profile[0].log = 2;
    setup.profile[1].log = 1;
    draft_log_entry(&setup.table[0], 0, 1, 2);
    draft_log_entry(&setup.table[0], 1, 3, 4);
    draft_log_entry(&setup.table[1], 2, 255, 0);
    begin();
    both("version 07",
         "paper 07\n" BASE
         "  log\n"
         "    ring 20\n"
         "    keeps bit-1 bit-2 cvr cid atc offline-only approved declined\n"
         "    logged 2\n"
         "    logged yes\n"
         "    first-field from first at 1 length 2\n"
         "    first-field from second at 3 length 4\n"
         "    second-field from 2 at 255 length 0\n");
    also("switches in hex",
         "paper 07\n" BASE
         "log\nring 20\nkeeps bits ff\nlogged 2\nlogged 1\n"
         "first-field from 0 at 1 length 2\n"
         "first-field from 1 at 3 length 4\n"
         "second-field from 2 at 255 length 0\n");
    setup.log_switches = 0xA4;
    setup.table[1].entries = 0;
    setup.scripts = 1;
    setup.syllabus = 1;
    setup.file.on = 1;
    setup.dated = 1;
    setup.family = 1;
    setup.profiles = 0;
    setup.conversions = 0;
    begin();
    start(3);
    both("all that is on, and no profile",
         "paper 07\n"
         "setup\n"
         "  key AB\n"
         "  pin 16\n"
         "  authentication required\n"
         "  atc 65535\n"
         "  go-online next\n"
         "  a1 in 0970 from 100\n"
         "  a2 in 0971 from 101\n"
         "  a3 in 0972 from 102\n"
         "  a4 in 0973 from 103\n"
         "  c1 from 200\n"
         "  c2 from 201\n"
         "  c3 from 202\n"
         "  c4 from 203\n"
         "  selection\n"
         "  syllabus 1\n"
         "  dated\n"
         "    last 24013A\n"
         "    y1 in 0978 from 5 each none week Friday\n"
         "  cpace\n"
         "    a1 closed no-cvm\n"
         "    a2 closed signature\n"
         "    a3 closed online-pin\n"
         "    a4 closed offline-pin\n"
         "    c1 closed bits 10\n"
         "    c2 closed no-cvm\n"
         "    c4 closed online-pin\n"
         "  scripts on\n"
         "  log\n"
         "    ring 20\n"
         "    keeps cvr offline-only declined\n"
         "    first-field from first at 1 length 2\n"
         "    first-field from second at 3 length 4\n"
         "start-contact 3\n");
}

/* ---- set-ups that words cannot say */

#define ZEROS_8 "00 00 00 00 00 00 00 00 "
#define HEAD "00 00 00 00 00 00 00 00 " ZEROS_8 ZEROS_8 ZEROS_8 ZEROS_8         \
    ZEROS_8 "00 00 00 00 "
#define HEAD_WORD "00000000000000000000000000000000000000000000000000000000"   \
    "000000000000000000000000000000000000000000000000"

static void unworded(void)
{
    is_text("01 0035 01 " HEAD, "paper 01\nsetup\n");
    is_text("01 0034 01 " ZEROS_8 ZEROS_8 ZEROS_8 ZEROS_8 ZEROS_8 ZEROS_8
            "00 00 00",
            "paper 01\nrecord 01 00000000000000000000000000000000000000000000"
            "0000000000000000000000000000000000000000000000000000000000\n");
    is_text("01 0036 01 " HEAD "00", "paper 01\nrecord 01 " HEAD_WORD "00\n");
    is_text("01 0001 01", "paper 01\nrecord 01\n");
    is_text("00 0035 01 " HEAD, "paper 00\nrecord 01 " HEAD_WORD "\n");
    is_text("08 003B 01 " HEAD "00 00 00 00 00 00",
            "paper 08\nrecord 01 " HEAD_WORD "000000000000\n");
    is_text("02 0036 01 " HEAD "00", "paper 02\nsetup\n");
    is_text("02 0035 01 " HEAD, "paper 02\nrecord 01 " HEAD_WORD "\n");
    is_text("02 0036 01 " HEAD "02", "paper 02\nrecord 01 " HEAD_WORD "02\n");
    is_text("02 0036 01 " HEAD "01", "paper 02\nrecord 01 " HEAD_WORD "01\n");
    is_text("02 0038 01 " HEAD "01 01 01",
            "paper 02\nrecord 01 " HEAD_WORD "010101\n");
    is_text("04 0038 01 " HEAD "00 00 02",
            "paper 04\nrecord 01 " HEAD_WORD "000002\n");
    is_text("04 0038 01 " HEAD "00 02 00", "paper 04\nsetup\n  syllabus 2\n");
    is_text("05 0039 01 " HEAD "00 00 00 02",
            "paper 05\nrecord 01 " HEAD_WORD "00000002\n");
    is_text("07 003B 01 " HEAD "00 00 00 00 03 00",
            "paper 07\nsetup\n  scripts 3\n");
    is_text("07 003B 01 " HEAD "00 00 00 00 00 02",
            "paper 07\nrecord 01 " HEAD_WORD "000000000002\n");
    is_text("07 003F 01 " HEAD "00 00 00 00 00 01 00 00 00 01",
            "paper 07\nrecord 01 " HEAD_WORD "00000000000100000001\n");
    is_text("07 003F 01 " HEAD "00 00 00 00 00 01 00 00 00 00",
            "paper 07\nsetup\n  log\n");

    /* Bodies that end before a tail does. */
    is_text("03 0036 01 " HEAD "00", "paper 03\nrecord 01 " HEAD_WORD "00\n");
    is_text("04 0037 01 " HEAD "00 00",
            "paper 04\nrecord 01 " HEAD_WORD "0000\n");
    is_text("05 0038 01 " HEAD "00 00 00",
            "paper 05\nrecord 01 " HEAD_WORD "000000\n");
    is_text("06 0039 01 " HEAD "00 00 00 00",
            "paper 06\nrecord 01 " HEAD_WORD "00000000\n");
    is_text("07 003A 01 " HEAD "00 00 00 00 00",
            "paper 07\nrecord 01 " HEAD_WORD "0000000000\n");
    is_text("07 003D 01 " HEAD "00 00 00 00 00 01 00 00",
            "paper 07\nrecord 01 " HEAD_WORD "0000000000010000\n");
    is_text("07 003E 01 " HEAD "00 00 00 00 00 01 00 00 00",
            "paper 07\nrecord 01 " HEAD_WORD "000000000001000000\n");

    /* A version without words is read by those that it would have. */
    is("00 0035 01 " HEAD);
    also("version 00", "paper 00\nsetup\n");
    is("08 003B 01 " HEAD "00 00 00 00 01 00");
    also("version 08", "paper 08\nsetup\nscripts on\n");
    is("FF 003B 01 " HEAD "00 00 00 00 01 00");
    also("version FF", "paper FF\nsetup\nscripts on\n");
}

/* ---- the other records */

static void records(void)
{
    static const char *const nothing[] = {"", "\n", " \t\r", "# 1", "\n#\n \n"};

    is_text("", "");
    for (size_t i = 0; i < sizeof nothing / sizeof *nothing; i++)
        also("nothing", nothing[i]);
    is_text("00", "paper 00\n");
    is_text("FF", "paper FF\n");
    also("no line feed", "paper ff");

    is_text("01 0002 02 00", "paper 01\nstart 0\n");
    is_text("01 0002 02 FF", "paper 01\nstart 255\n");
    is_text("05 0003 02 00 07", "paper 05\nstart-contact 7\n");
    is_text("01 0003 02 01 FF", "paper 01\nstart-contactless 255\n");
    is_text("01 0003 02 02 07", "paper 01\ndata 0207\n");
    is_text("01 0001 02", "paper 01\ndata\n");
    is_text("01 0004 02 00 07 09", "paper 01\ndata 000709\n");

    is_text("01 000D 03 00 0000000000000000 0000 00",
            "paper 01\nfirst AAC 0 in 0000 at 00\n");
    is_text("01 000D 03 02 FFFFFFFFFFFFFFFF ABCD EF",
            "paper 01\nfirst ARQC 18446744073709551615 in ABCD at EF\n");
    is_text("01 000D 03 03 0000000000000100 0978 22",
            "paper 01\nfirst 3 256 in 0978 at 22\n");
    is_text("01 0010 03 01 0000000000000001 0978 22 991231",
            "paper 01\nfirst TC 1 in 0978 at 22 on 2099-12-31\n");
    also("a date in hex", "paper 01\nfirst TC 1 in 0978 at 22 on 991231\n");
    is_text("01 0010 03 01 0000000000000001 0978 22 000000",
            "paper 01\nfirst TC 1 in 0978 at 22 on 2000-00-00\n");
    is_text("01 0010 03 01 0000000000000001 0978 22 A01231",
            "paper 01\nfirst TC 1 in 0978 at 22 on A01231\n");
    is_text("01 0010 03 01 0000000000000001 0978 22 201A31",
            "paper 01\nfirst TC 1 in 0978 at 22 on 201A31\n");
    is_text("01 0010 03 01 0000000000000001 0978 22 2A0131",
            "paper 01\nfirst TC 1 in 0978 at 22 on 2A0131\n");
    is_text("01 0010 03 01 0000000000000001 0978 22 20A131",
            "paper 01\nfirst TC 1 in 0978 at 22 on 20A131\n");
    is_text("01 0010 03 01 0000000000000001 0978 22 2001A1",
            "paper 01\nfirst TC 1 in 0978 at 22 on 2001A1\n");
    is_text("01 0016 03 01 0000000000000001 0978 22 1F0300 000000001000",
            "paper 01\n"
            "first TC 1 in 0978 at 22 cvm 1F0300 cashback 000000001000\n");
    is_text("01 0019 03 01 0000000000000001 0978 22 240131 000000 00000000000A",
            "paper 01\nfirst TC 1 in 0978 at 22 on 2024-01-31"
            " cvm 000000 cashback 00000000000A\n");
    is_text("01 000C 03 01 0000000000000001 0978",
            "paper 01\nrecord 03 0100000000000000010978\n");
    is_text("01 000E 03 01 0000000000000001 0978 22 00",
            "paper 01\nrecord 03 01000000000000000109782200\n");
    is_text("01 0001 03", "paper 01\nrecord 03\n");

    is_text("01 0009 04 00 3030 00 00000000", "paper 01\nsecond AAC 00\n");
    also("more than is needed", "paper 01\nsecond AAC 00 absent\n");
    also("all of it", "paper 01\nsecond 0 3030 00 00000000\n");
    is_text("01 0009 04 01 5A33 01 00000000",
            "paper 01\nsecond TC Z3 verified\n");
    is_text("01 0009 04 02 7A39 02 00820000",
            "paper 01\nsecond ARQC z9 failed 00820000\n");
    is_text("01 0009 04 01 415A 00 00000000", "paper 01\nsecond TC AZ\n");
    is_text("01 0009 04 01 617A 00 00000000", "paper 01\nsecond TC az\n");
    is_text("01 0009 04 01 3039 00 00000000", "paper 01\nsecond TC 09\n");
    is_text("01 0009 04 01 2F30 00 00000000", "paper 01\nsecond TC 2F30\n");
    is_text("01 0009 04 01 393A 00 00000000", "paper 01\nsecond TC 393A\n");
    is_text("01 0009 04 01 4041 00 00000000", "paper 01\nsecond TC 4041\n");
    is_text("01 0009 04 01 5A5B 00 00000000", "paper 01\nsecond TC 5A5B\n");
    is_text("01 0009 04 01 6061 00 00000000", "paper 01\nsecond TC 6061\n");
    is_text("01 0009 04 01 7A7B 00 00000000", "paper 01\nsecond TC 7A7B\n");
    is_text("01 0009 04 03 7A2F 03 00000001",
            "paper 01\nsecond 3 7A2F 3 00000001\n");
    is_text("01 0009 04 01 4061 00 00000001",
            "paper 01\nsecond TC 4061 absent 00000001\n");
    is_text("01 0008 04 01 5A33 01 000000",
            "paper 01\nrecord 04 015A3301000000\n");
    is_text("01 000A 04 01 5A33 01 0000000000",
            "paper 01\nrecord 04 015A33010000000000\n");

    is_text("06 0002 05 00", "paper 06\nscript failed\n");
    is_text("01 0004 05 01 7100", "paper 01\nscript verified 7100\n");
    also("words of a template", "paper 01\nscript 1 71 00\n");
    is_text("01 0003 05 02 AB", "paper 01\nscript 2 AB\n");
    is_text("01 0001 05", "paper 01\nrecord 05\n");

    is_text("01 0001 00", "paper 01\nrecord 00\n");
    is_text("01 0002 06 00", "paper 01\nrecord 06 00\n");
    is_text("01 0003 FF 01 02", "paper 01\nrecord FF 0102\n");
    also("words of a record", "paper 01\nrecord ff 01\t02 # 03\n");

    is_text("01 00", "paper 01\nbytes 00\n");
    is_text("01 0002 02 01 AB", "paper 01\nstart 1\nbytes AB\n");
    is_text("01 0000", "paper 01\nbytes 0000\n");
    is_text("01 0000 0002 02 01", "paper 01\nbytes 000000020201\n");
    is_text("01 0003 02 01", "paper 01\nbytes 00030201\n");
    is_text("01 FFFF", "paper 01\nbytes FFFF\n");
    also("bytes in pieces", "paper 01\nbytes\nbytes FF\nbytes\nbytes ff\n");
    is("01 0002 02 01 0002 02 02");
    also("bytes before a record", "paper 01\nbytes 00 02 02 01\nstart 2\n");
}

/* ---- offences */

#define NUMBER_1 "a number that fits 1 byte expected"
#define TYPE "`AAC`, `TC`, `ARQC` or " NUMBER_1
#define ISSUER "`absent`, `verified`, `failed` or " NUMBER_1
#define RECORD "a record or a later field expected"
#define END "the line's end found"

static void offences(void)
{
    refuses("start 1\n", "1:1: `paper` expected, \"start\" found");
    refuses("\n # \n\t papers 01\n", "3:3: `paper` expected, \"papers\" found");
    refuses("Paper 01\n", "1:1: `paper` expected, \"Paper\" found");
    refuses("paper\n", "1:6: 1 byte in hex expected, " END);
    refuses("paper   # version?\nstart 1\n",
            "1:6: 1 byte in hex expected, " END);
    refuses("paper#01\n", "1:6: 1 byte in hex expected, " END);
    refuses("paper", "1:6: 1 byte in hex expected, " END);
    refuses(" paper \r", "1:7: 1 byte in hex expected, " END);
    refuses("paper 1\n", "1:7: 1 byte in hex expected, \"1\" found");
    refuses("paper 0G\n", "1:7: 1 byte in hex expected, \"0G\" found");
    refuses("paper G0\n", "1:7: 1 byte in hex expected, \"G0\" found");
    refuses("paper :0\n", "1:7: 1 byte in hex expected, \":0\" found");
    refuses("paper 0@\n", "1:7: 1 byte in hex expected, \"0@\" found");
    refuses("paper /0\n", "1:7: 1 byte in hex expected, \"/0\" found");
    refuses("paper 0`\n", "1:7: 1 byte in hex expected, \"0`\" found");
    refuses("paper g0\n", "1:7: 1 byte in hex expected, \"g0\" found");
    refuses("paper 001\n", "1:7: 1 byte in hex expected, \"001\" found");
    refuses("paper 0101\n", "1:7: 1 byte in hex expected, \"0101\" found");
    refuses("paper 01 02\n", "1:10: the line's end expected, \"02\" found");
    refuses("paper 01\npaper 01\n", "2:1: " RECORD ", \"paper\" found");

    refuses("paper 01\n  stop 1\n", "2:3: " RECORD ", \"stop\" found");
    refuses("paper 01\n\xFF\xFE!\n", "2:1: " RECORD ", \"\xFF\xFE!\" found");
    refuses("paper 01\nx\n", "2:1: " RECORD ", \"x\" found");
    refuses("paper 01\nkey 01\n", "2:1: " RECORD ", \"key\" found");
    refuses("paper 01\nsetup\n  pin 3\n  key 01\n",
            "4:3: " RECORD ", \"key\" found");
    refuses("paper 01\nsetup\n  pin 3\n  pin 3\n",
            "4:3: " RECORD ", \"pin\" found");
    refuses("paper 01\nsetup\n  online mta\n",
            "3:3: " RECORD ", \"online\" found");
    refuses("paper 01\nsetup\n  profile 1\n  pin 3\n",
            "4:3: " RECORD ", \"pin\" found");
    refuses("paper 01\nsetup\nprofile 1\nsend accumulator 1 counters 0 0\n"
            "c1 lower 1 upper 2\n",
            "5:1: " RECORD ", \"c1\" found");
    refuses("paper 01\nsetup\nconversion 0001 to 0002 by 1 e0\nprofile 1\n",
            "4:1: " RECORD ", \"profile\" found");
    refuses("paper 01\nsetup\nselection\n",
            "3:1: " RECORD ", \"selection\" found");
    refuses("paper 02\nsetup\nentry\n", "3:1: " RECORD ", \"entry\" found");
    refuses("paper 02\nsetup\nsyllabus 1\n",
            "3:1: " RECORD ", \"syllabus\" found");
    refuses("paper 03\nsetup\ndated\n", "3:1: " RECORD ", \"dated\" found");
    refuses("paper 04\nsetup\ncpace\n", "3:1: " RECORD ", \"cpace\" found");
    refuses("paper 05\nsetup\nscripts on\n",
            "3:1: " RECORD ", \"scripts\" found");
    refuses("paper 06\nsetup\nlog\n", "3:1: " RECORD ", \"log\" found");
    refuses("paper 07\nsetup\nscripts on\ncpace\n",
            "4:1: " RECORD ", \"cpace\" found");
    refuses("paper 04\nsetup\nprofile 1\ndated\nprofile\nprofile\n",
            "6:1: " RECORD ", \"profile\" found");
    refuses("paper 05\nsetup\ncpace\ncashback 1\n",
            "4:1: " RECORD ", \"cashback\" found");
    refuses("paper 07\nsetup\nprofile 1\nlog\nlogged 1\nlogged 1\n",
            "6:1: " RECORD ", \"logged\" found");
    refuses("paper 07\nsetup\nlog\nkeeps cid\nring 1\n",
            "5:1: " RECORD ", \"ring\" found");
    refuses("paper 07\nsetup\nlog\nsecond-field from 0 at 0 length 0\n"
            "first-field from 0 at 0 length 0\n",
            "5:1: " RECORD ", \"first-field\" found");
    refuses("paper 00\nsetup\nsyllabus 1\n",
            "3:1: " RECORD ", \"syllabus\" found");

    refuses("paper 01\nsetup 1\n",
            "2:7: the line's end expected, \"1\" found");
    refuses("paper 02\nsetup\nselection on # so\n",
            "3:11: the line's end expected, \"on\" found");
    refuses("paper 04\nsetup\nprofile 1\ndated\n  profile 1\n",
            "5:11: the line's end expected, \"1\" found");
    refuses("paper 01\nsetup\nkey 01 02\n",
            "3:8: the line's end expected, \"02\" found");
    refuses("paper 01\nsetup\nprofile 1\nonline a1-upper a1-lower\n",
            "4:17: the line's end expected, \"a1-lower\" found");
    refuses("paper 01\nsetup\nprofile 1\nonline mta mta\n",
            "4:12: the line's end expected, \"mta\" found");
    refuses("paper 01\nsetup\nprofile 1\nonline bits 00000000 mta\n",
            "4:22: the line's end expected, \"mta\" found");
    refuses("paper 01\nfirst TC 1 in 0978 at 22 23\n",
            "2:26: the line's end expected, \"23\" found");
    refuses("paper 01\nfirst TC 1 in 0978 at 22 cvm 000000 cashback"
            " 000000000000 on 240131\n",
            "2:59: the line's end expected, \"on\" found");
    refuses("paper 01\nsecond TC Y3 absent 00000000 0\n",
            "2:30: the line's end expected, \"0\" found");

    refuses("paper 01\n start 1   # go\nfirst TC 50x0 in 0978 at 22\n",
            "3:10: a number that fits 8 bytes expected, \"50x0\" found");
    refuses("paper 01\nfirst TC 18446744073709551616 in 0978 at 22\n",
            "2:10: a number that fits 8 bytes expected,"
            " \"18446744073709551616\" found");
    refuses("paper 01\nfirst TC\n",
            "2:9: a number that fits 8 bytes expected, " END);
    refuses("paper 01\nfirst TC -1 in 0978 at 22\n",
            "2:10: a number that fits 8 bytes expected, \"-1\" found");
    refuses("paper 01\nstart 256\n", "2:7: " NUMBER_1 ", \"256\" found");
    refuses("paper 01\nstart 0256", "2:7: " NUMBER_1 ", \"0256\" found");
    refuses("paper 01\nstart#\nstart 1\n", "2:6: " NUMBER_1 ", " END);
    refuses("paper 01\nstart-contact x\n", "2:15: " NUMBER_1 ", \"x\" found");
    refuses("paper 01\nstart-contactless\n", "2:18: " NUMBER_1 ", " END);
    refuses("paper 01\nsetup\natc 65536\n",
            "3:5: a number that fits 2 bytes expected, \"65536\" found");
    refuses("paper 01\nsetup\nprofile 1\nsend accumulator 1 counters 1\n",
            "4:30: " NUMBER_1 ", " END);

    refuses("paper 01\nfirst TC 1 on 0978 at 22\n",
            "2:12: `in` expected, \"on\" found");
    refuses("paper 01\nfirst TC 1", "2:11: `in` expected, " END);
    refuses("paper 01\nfirst TC 1 in 978 at 22\n",
            "2:15: 2 bytes in hex expected, \"978\" found");
    refuses("paper 01\nfirst TC 1 in 0978 at\n",
            "2:22: 1 byte in hex expected, " END);
    refuses("paper 01\nfirst TC 1 in 0978 at 22 on 2024-1-31\n",
            "2:29: a date expected, \"2024-1-31\" found");
    refuses("paper 01\nfirst TC 1 in 0978 at 22 on 1999-01-31\n",
            "2:29: a date expected, \"1999-01-31\" found");
    for (size_t i = 0; i < 10; i++) {
        char text[] = "paper 01\nfirst TC 1 in 0978 at 22 on 2024-01-31\n";
        char line[] = "2:29: a date expected, \"2024-01-31\" found";
        text[37 + i] = line[24 + i] = i % 2 ? '/' : 'a';
        refuses(text, line);
    }
    refuses("paper 01\nfirst TC 1 in 0978 at 22 on 24013G\n",
            "2:29: a date expected, \"24013G\" found");
    refuses("paper 01\nfirst TC 1 in 0978 at 22 on\n",
            "2:28: a date expected, " END);
    refuses("paper 01\nfirst TC 1 in 0978 at 22 on 20240131\n",
            "2:29: a date expected, \"20240131\" found");
    refuses("paper 01\nfirst TC 1 in 0978 at 22 cvm 00000\n",
            "2:30: 3 bytes in hex expected, \"00000\" found");
    refuses("paper 01\nfirst TC 1 in 0978 at 22 cvm 000000\n",
            "2:36: `cashback` expected, " END);
    refuses("paper 01\nfirst TC 1 in 0978 at 22 cvm 000000 cashback 1\n",
            "2:46: 6 bytes in hex expected, \"1\" found");
    refuses("paper 01\nfirst tc 1 in 0978 at 22\n",
            "2:7: " TYPE ", \"tc\" found");
    refuses("paper 01\nfirst\n", "2:6: " TYPE ", " END);
    refuses("paper 01\nfirst 256 1 in 0978 at 22\n",
            "2:7: " TYPE ", \"256\" found");

    refuses("paper 01\n\n second TC  # code?\nstart 1",
            "3:11: a response code expected, " END);
    refuses("paper 01\nsecond TC Y\n",
            "2:11: a response code expected, \"Y\" found");
    refuses("paper 01\nsecond TC Y-\n",
            "2:11: a response code expected, \"Y-\" found");
    refuses("paper 01\nsecond TC -Y\n",
            "2:11: a response code expected, \"-Y\" found");
    refuses("paper 01\nsecond TC :A\n",
            "2:11: a response code expected, \":A\" found");
    refuses("paper 01\nsecond TC [z\n",
            "2:11: a response code expected, \"[z\" found");
    refuses("paper 01\nsecond TC {0\n",
            "2:11: a response code expected, \"{0\" found");
    refuses("paper 01\nsecond TC 593G\n",
            "2:11: a response code expected, \"593G\" found");
    refuses("paper 01\nsecond TC Y3 x\n", "2:14: " ISSUER ", \"x\" found");
    refuses("paper 01\nsecond TC Y3 00820000\n",
            "2:14: " ISSUER ", \"00820000\" found");
    refuses("paper 01\nsecond TC Y3 verified 008200\n",
            "2:23: 4 bytes in hex expected, \"008200\" found");
    refuses("paper 01\nscript\n",
            "2:7: `failed`, `verified` or " NUMBER_1 ", " END);
    refuses("paper 01\nscript verified 71 0\n",
            "2:20: pairs of hex digits expected, \"0\" found");
    refuses("paper 01\ndata 00 0x\n",
            "2:9: pairs of hex digits expected, \"0x\" found");
    refuses("paper 01\nrecord\n", "2:7: 1 byte in hex expected, " END);
    refuses("paper 01\nrecord 0102\n",
            "2:8: 1 byte in hex expected, \"0102\" found");
    refuses("paper 01\nrecord 07 ABC\n",
            "2:11: pairs of hex digits expected, \"ABC\" found");
    refuses("paper 01\nbytes 0 1\n",
            "2:7: pairs of hex digits expected, \"0\" found");
    refuses("paper 01\nbytes 0102030405060708090A0B0C0D0E0F101112131Z\n",
            "2:7: pairs of hex digits expected,"
            " \"0102030405060708090A0B0C0D0E0F101112131Z\" found");
    refuses("paper 01\nbytes 0102030405060708090A0B0C0D0E0F1011121314Z\n",
            "2:7: pairs of hex digits expected,"
            " \"0102030405060708090A0B0C0D0E0F1011121314..\" found");
}

/* The offences of a set-up's lines. */
static void setup_offences(void)
{
    refuses("paper 01\nsetup\nkey 1\n",
            "3:5: 1 byte in hex expected, \"1\" found");
    refuses("paper 01\nsetup\nauthentication on\n",
            "3:16: `off`, `required` or " NUMBER_1 ", \"on\" found");
    refuses("paper 01\nsetup\ngo-online\n",
            "3:10: `off`, `next` or " NUMBER_1 ", " END);
    refuses("paper 01\nsetup\na1 0978 from 0\n",
            "3:4: `in` expected, \"0978\" found");
    refuses("paper 01\nsetup\na1 in 0978\n", "3:11: `from` expected, " END);
    refuses("paper 01\nsetup\nc1 1\n", "3:4: `from` expected, \"1\" found");
    refuses("paper 01\nsetup\nprofile\n", "3:8: " NUMBER_1 ", " END);
    refuses("paper 01\nsetup\nprofile 1\ndecline bits 0400\n",
            "4:14: 4 bytes in hex expected, \"0400\" found");
    refuses("paper 01\nsetup\nprofile 1\nmta 5 in 0978 over 1\n",
            "4:15: `above` expected, \"over\" found");
    refuses("paper 01\nsetup\nprofile 1\na1 active declines lower 1 upper 2\n",
            "4:11: `lower` expected, \"declines\" found");
    refuses("paper 01\nsetup\nprofile 1\na1 allow active lower 1 upper 2\n",
            "4:10: `lower` expected, \"active\" found");
    refuses("paper 01\nsetup\nprofile 1\na1 bits 7 lower 1 upper 2\n",
            "4:9: 1 byte in hex expected, \"7\" found");
    refuses("paper 01\nsetup\nprofile 1\nc4 lower 256 upper 2\n",
            "4:10: " NUMBER_1 ", \"256\" found");
    refuses("paper 01\nsetup\nprofile 1\nc4 lower 1\n",
            "4:11: `upper` expected, " END);
    refuses("paper 01\nsetup\nprofile 1\nsend counters 1 1\n",
            "4:6: `accumulator` expected, \"counters\" found");
    refuses("paper 01\nsetup\nconversion 0978 0840 by 1 e0\n",
            "3:17: `to` expected, \"0840\" found");
    refuses("paper 01\nsetup\nconversion 0978 to 0840 by 1 e4\n",
            "3:30: `e-9`, `e-8`, `e-7`, `e-6`, `e-5`, `e-4`, `e-3`, `e-2`,"
            " `e-1`, `e0`, `e1`, `e2`, `e3` or " NUMBER_1 ", \"e4\" found");
    refuses("paper 02\nsetup\nselection\nentry 1\n",
            "4:7: pairs of hex digits expected, \"1\" found");
    refuses("paper 03\nsetup\nsyllabus on\n",
            "3:10: " NUMBER_1 ", \"on\" found");
    refuses("paper 04\nsetup\ndated\nlast 2024\n",
            "4:6: a date expected, \"2024\" found");
    refuses("paper 04\nsetup\ndated\ny1 in 0978 from 0 each year week 0\n",
            "4:24: `none`, `day`, `week`, `month` or " NUMBER_1
            ", \"year\" found");
    refuses("paper 04\nsetup\ndated\ny2 in 0978 from 0 each day\n",
            "4:27: `week` expected, " END);
    refuses("paper 04\nsetup\ndated\ny2 in 0978 from 0 each week week monday\n",
            "4:34: `Friday`, `Saturday`, `Sunday`, `Monday`, `Tuesday`,"
            " `Wednesday`, `Thursday` or " NUMBER_1 ", \"monday\" found");
    refuses("paper 04\nsetup\nprofile 1\ndated\nprofile\ny1 active 5\n",
            "6:11: `limit` expected, \"5\" found");
    refuses("paper 05\nsetup\ncpace\na1 no-cvm\n",
            "4:4: `closed` expected, \"no-cvm\" found");
    refuses("paper 05\nsetup\ncpace\nc4 closed online-pin signature\n",
            "4:22: the line's end expected, \"signature\" found");
    refuses("paper 05\nsetup\nprofile 1\ncpace\ncashback\n",
            "5:9: `unchecked`, `checked` or " NUMBER_1 ", " END);
    refuses("paper 06\nsetup\nscripts yes\n",
            "3:9: `off`, `on` or " NUMBER_1 ", \"yes\" found");
    refuses("paper 07\nsetup\nlog\nkeeps bit-3\n",
            "4:7: the line's end expected, \"bit-3\" found");
    refuses("paper 07\nsetup\nprofile 1\nlog\nlogged on\n",
            "5:8: `no`, `yes` or " NUMBER_1 ", \"on\" found");
    refuses("paper 07\nsetup\nlog\nfirst-field first at 1 length 1\n",
            "4:13: `from` expected, \"first\" found");
    refuses("paper 07\nsetup\nlog\nsecond-field from third at 1 length 1\n",
            "4:19: `first`, `second` or " NUMBER_1 ", \"third\" found");
}

/* ---- the largest of everything */

static struct grown large;

static void add(const char *words)
{
    grow(&large, words, strlen(words));
}

static void add_times(size_t count, const char *words)
{
    while (count-- > 0)
        add(words);
}

/* The text at hand is read, or refused by this line. */
static void says(const char *name, size_t length)
{
    const struct told told =
        tell_program(paper_program, "paper", large.bytes, large.length);

    cases++;
    if (told.length != length || *told.said) {
        wrong++;
        printf("%s: expected %zu bytes, but got %zu, and: %s\n", name, length,
               told.length, told.said);
    }
    large.length = 0;
}

static void says_not(const char *name, const char *line)
{
    char said[128];

    snprintf(said, sizeof said, "%s\n", line);
    expect(name, paper_program, large.bytes, large.length, "", 0, said);
    large.length = 0;
}

static void bounds(void)
{
    add("paper 02\nsetup\nselection\nentry ");
    add_times(255, "00");
    says("an entry of 255 bytes", 1 + 3 + 52 + 2 + 256);
    add("paper 02\nsetup\nselection\n entry ");
    add_times(255, "00");
    add(" 00\nwrong\n");
    says_not("an entry of 256 bytes",
             "4:2: fewer bytes expected, \"entry\" found");
    add("paper 02\nsetup\nselection\n entry ");
    add_times(256, "00");
    add(" wrong\n");
    says_not("an entry of 256 bytes, and something wrong",
             "4:521: pairs of hex digits expected, \"wrong\" found");
    add("paper 02\nsetup\nselection\n");
    add_times(255, "entry\n");
    says("255 entries", 1 + 3 + 52 + 2 + 255);
    add("paper 02\nsetup\nselection\n");
    add_times(256, "entry\n");
    says_not("256 entries", "259:1: " RECORD ", \"entry\" found");
    add("paper 01\nsetup\n");
    add_times(255, "profile 1\n");
    add_times(255, "conversion 0978 to 0840 by 1 e0\n");
    says("255 profiles and conversions", 1 + 3 + 52 + 255 * 114);
    add("paper 01\nsetup\n");
    add_times(256, "profile 1\n");
    says_not("256 profiles", "258:1: " RECORD ", \"profile\" found");
    add("paper 01\nsetup\n");
    add_times(256, "conversion 0978 to 0840 by 1 e0\n");
    says_not("256 conversions", "258:1: " RECORD ", \"conversion\" found");
    add("paper 07\nsetup\nlog\n");
    add_times(255, "first-field from first at 1 length 1\n");
    add_times(255, "second-field from first at 1 length 1\n");
    says("255 fields", 1 + 3 + 52 + 5 + 5 + 2 * 3 * 255);
    add("paper 07\nsetup\nlog\n");
    add_times(255, "first-field from first at 1 length 1\n");
    add_times(256, "second-field from first at 1 length 1\n");
    says_not("256 fields", "514:1: " RECORD ", \"second-field\" found");

    add("paper 01\n  record 07 ");
    add_times(65532, "00");
    add("\n");
    says("a record of 65,533 bytes", 65536);
    add("paper 01\n  record 07 ");
    add_times(65533, "00");
    add("\nwrong\n");
    says_not("a record of 65,534 bytes",
             "2:3: fewer bytes expected, \"record\" found");
    add("paper 01\nrecord 07 ");
    add_times(70000, "00");
    add(" 0\n");
    says_not("a longer record, and something wrong",
             "2:140012: pairs of hex digits expected, \"0\" found");
    add("paper 01\nstart 1\nbytes ");
    add_times(65530, "00");
    add("\nbytes FF\nbytes\n");
    says("65,536 bytes", 65536);
    add("paper 01\nstart 1\nbytes ");
    add_times(65531, "00");
    add("\nbytes\nbytes 00\n");
    says_not("65,537 bytes", "5:1: fewer bytes expected, \"bytes\" found");
    add("paper 01\n");
    add_times(16383, "start 1\n");
    add("bytes 000000\n");
    says("Starts", 65536);
    add("paper 01\n");
    add_times(16384, "start 1\n");
    says_not("a Start more", "16385:1: fewer bytes expected, \"start\" found");
    add("paper 02\nstart 1\nsetup\nselection\n");
    for (unsigned i = 0; i < 255; i++) {
        add("entry ");
        add_times(255, "00");
        add("\n");
    }
    add_times(2, "start 1\n");
    says("a large set-up", 1 + 4 + 3 + 52 + 2 + 255 * 256 + 8);
    add("paper 02\n setup\nprofile 1\nprofile 2\nselection\n");
    for (unsigned i = 0; i < 255; i++) {
        add("entry ");
        add_times(255, "00");
        add("\n");
    }
    add("wrong\n");
    says_not("a set-up that is too large",
             "2:2: fewer bytes expected, \"setup\" found");
}

int main(int argc, char **argv)
{
    if (argc != 3) {
        fprintf(stderr, "usage: text_cases TEXT PAPER\n");
        return 2;
    }
    text_program[0] = argv[1];
    paper_program[0] = argv[2];
    printed();
    tails();
    unworded();
    records();
    offences();
    setup_offences();
    bounds();
    free(large.bytes);
    printf("%u cases of text, %u wrong\n", cases, wrong);
    return wrong > 0;
}
