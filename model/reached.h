/* Which causes of refusal and which branches a stack of papers reaches.
 *
 * The model says the cause where it refuses with 1, 9, 12, 14, 18 or 19 and
 * where a command of a script fails; observe.c, observe_scripts.c and
 * observe_log.c see all the rest.
 * Only the program `reached` is compiled with REACHED and counts; everywhere
 * else the call is nothing at all.
 *
 * The list: name, how many of it, part, text, and what to call each: names
 * with bars between, or # and the number of the first. */
#ifndef MODEL_REACHED_H
#define MODEL_REACHED_H

#include <stdbool.h>
#include <stddef.h>
#include <stdint.h>

#include "latest.h"

/* The ways a transaction closes, as observe.c numbers them. */
#define CLOSED_WAYS                                                            \
    "First TC|First TC, offline-only|First AAC, requested|"                    \
    "First AAC by Decline|First AAC by Default|"                               \
    "Y3 TC|Y3 AAC, requested|Y3 AAC by Default|"                               \
    "Z3 TC|Z3 AAC, requested|Z3 AAC by Default|"                               \
    "verified TC 00|verified TC 01|verified TC 10|verified TC 11|"             \
    "verified AAC 00|verified AAC 01|verified AAC 10|verified AAC 11|"         \
    "failed|absent, required|absent AAC|absent TC"

/* How three bytes fail to be a day: by a digit of theirs, or else so. */
#define NOT_DAYS                                                               \
    "digit 1|digit 2|digit 3|digit 4|digit 5|digit 6|month 00|month above 12|" \
    "day 00|day above 31|31 in a month of 30|30 or 31 February|"               \
    "29 February"

#define KINDS "1 day|1 week|1 month|2 day|2 week|2 month"
#define FIRST_DAYS                                                             \
    "1 Fri|1 Sat|1 Sun|1 Mon|1 Tue|1 Wed|1 Thu|"                               \
    "2 Fri|2 Sat|2 Sun|2 Mon|2 Tue|2 Wed|2 Thu"

/* Accumulators 1 to 4 and counters 1 to 4 of a CPACE card. */
#define GATED_SLOTS "accumulator 1|2|3|4|counter 1|2|3|4"
#define CLOSED_SLOTS                                                           \
    "accumulator 1 none|1 signature|1 PIN|2 none|2 signature|2 PIN|"           \
    "3 none|3 signature|3 PIN|4 none|4 signature|4 PIN|"                       \
    "counter 1 none|1 signature|1 PIN|2 none|2 signature|2 PIN|"               \
    "3 none|3 signature|3 PIN|4 none|4 signature|4 PIN"
#define GATED_LIMITS                                                           \
    "accumulator 1 lower|2 lower|3 lower|4 lower|"                             \
    "1 upper|2 upper|3 upper|4 upper|"                                         \
    "counter 1 lower|2 lower|3 lower|4 lower|"                                 \
    "1 upper|2 upper|3 upper|4 upper"
#define GATED_GROWTH                                                           \
    "accumulator 1 First|1 Y3 or Z3|1 order 11|2 First|2 Y3 or Z3|"            \
    "2 order 11|3 First|3 Y3 or Z3|3 order 11|4 First|4 Y3 or Z3|"             \
    "4 order 11|counter 1 First|1 Y3 or Z3|1 order 11|2 First|"                \
    "2 Y3 or Z3|2 order 11|3 First|3 Y3 or Z3|3 order 11|4 First|"             \
    "4 Y3 or Z3|4 order 11"
#define GATED_ORDERS                                                           \
    "accumulator 1 order 01|1 order 10|2 order 01|2 order 10|"                 \
    "3 order 01|3 order 10|4 order 01|4 order 10|"                             \
    "counter 1 order 01|1 order 10|2 order 01|2 order 10|"                     \
    "3 order 01|3 order 10|4 order 01|4 order 10"

/* What an entry can test, and how that stands to its block. */
#define SLOT_ORDERS                                                            \
    "accumulator 1 below|1 equal|1 above|2 below|2 equal|2 above|"             \
    "3 below|3 equal|3 above|counter 1 below|1 equal|1 above|"                 \
    "2 below|2 equal|2 above|3 below|3 equal|3 above|"                         \
    "4 below|4 equal|4 above"

/* What the latest version adds to rows that older ones have. */
#if LATEST > 6
#define ABOVE_LATEST "00|above 07"
#define MASK_VERSIONS "01 to 03|04|05 to 07"
#define SCRIPT_VERSIONS "01 to 05|06 and 07, off|06 and 07, record 0"
#define LOG_SETUP_KINDS                                                        \
    "|07 CPA|07 CPA, dated|07 CPACE|07 CPACE, dated|"                          \
    "07 log, CPA|07 log, CPA, dated|07 log, CPACE|07 log, CPACE, dated"
#define LOG_SYLLABI "|0 in 07|1 in 07"
enum { SETUP_KINDS_COUNT = 40, SYLLABI_COUNT = 10 };
#elif LATEST > 5
#define ABOVE_LATEST "00|above 06"
#define MASK_VERSIONS "01 to 03|04|05 and 06"
#define SCRIPT_VERSIONS "01 to 05|06, off|06, record 0"
#define LOG_SETUP_KINDS ""
#define LOG_SYLLABI ""
enum { SETUP_KINDS_COUNT = 32, SYLLABI_COUNT = 8 };
#endif

#if LATEST > 5
#define SCRIPT_SETUP_KINDS                                                     \
    "|06 CPA off|06 CPA on|06 CPA off, dated|06 CPA on, dated|"                \
    "06 CPACE off|06 CPACE on|06 CPACE off, dated|06 CPACE on, dated|"         \
    "06 scripts, CPA off|06 scripts, CPA on|06 scripts, CPA off, dated|"       \
    "06 scripts, CPA on, dated|06 scripts, CPACE off|"                         \
    "06 scripts, CPACE on|06 scripts, CPACE off, dated|"                       \
    "06 scripts, CPACE on, dated"
#define SCRIPT_SYLLABI "|0 in 06|1 in 06"
#else
#define ABOVE_LATEST "00|above 05"
#define MASK_VERSIONS "01 to 03|04|05"
#define SCRIPT_VERSIONS ""
#define SCRIPT_SETUP_KINDS ""
#define SCRIPT_SYLLABI ""
#define LOG_SETUP_KINDS ""
#define LOG_SYLLABI ""
enum { SETUP_KINDS_COUNT = 16, SYLLABI_COUNT = 6 };
#endif

/* In the order of setup_kind. */
#define SETUP_KINDS                                                            \
    "02 off|02 on|03 off|03 on|"                                               \
    "04 off|04 on|04 off, dated|04 on, dated|"                                 \
    "05 CPA off|05 CPA on|05 CPA off, dated|05 CPA on, dated|"                 \
    "05 CPACE off|05 CPACE on|05 CPACE off, dated|05 CPACE on, dated"          \
    SCRIPT_SETUP_KINDS LOG_SETUP_KINDS

/* What has a value and grows by amounts, and its limits. */
#define SLOTS "1|2|3|4|cyclic 1|cyclic 2"
#define LIMITS                                                                 \
    "1 lower|2 lower|3 lower|4 lower|1 upper|2 upper|3 upper|4 upper|"         \
    "cyclic 1|cyclic 2"

#define REACHED_LIST(X)                                                        \
    X(PAPER_EMPTY, 1, "refusal 9", "paper empty", "")                          \
    X(PAPER_LONG, 1, "refusal 9", "paper over 65,536 bytes", "")               \
    X(PAPER_VERSION, 2, "refusal 9", "version unknown", ABOVE_LATEST)          \
    X(PAPER_BARE, 1, "refusal 9", "set-up missing: no record at all", "")      \
    X(SETUP_MISSING, 3, "refusal 9",                                           \
      "set-up missing, first record of another kind",                          \
      "#2")                                                                    \
    X(SETUP_REPEATED, 1, "refusal 9", "set-up repeated", "")                   \
    X(CUT_IN_LENGTH, 2, "refusal 9", "record cut short in its length",         \
      "record 0|later")                                                        \
    X(CUT_AFTER_LENGTH, 2, "refusal 9", "record cut short after its length",   \
      "record 0|later")                                                        \
    X(CUT_IN_BODY, 2, "refusal 9", "record cut short after its kind",          \
      "record 0|later")                                                        \
    X(KIND_NONE, 2, "refusal 9", "no kind (length 0)", "record 0|later")       \
    X(KIND_ZERO, 2, "refusal 9", "kind 0", "record 0|later")                   \
    X(KIND_ABOVE, 2, "refusal 9", "kind above 4", "record 0|later")            \
    X(START_LENGTH, 6, "refusal 9", "Start's body length",                     \
      "off, 0|off, above 1|CPACE off, 0|CPACE off, 1|CPACE off, above 2|"      \
      "CPACE on, 0")                                                           \
    X(FIRST_LENGTH, 20, "refusal 9", "First's body length",                    \
      "12: 15|12: 21|12: 24|12: below|12: another|"                            \
      "15: 12|15: 21|15: 24|15: below|15: another|"                            \
      "21: 12|21: 15|21: 24|21: below|21: another|"                            \
      "24: 12|24: 15|24: 21|24: below|24: another")                            \
    X(SECOND_LENGTH, 2, "refusal 9", "Second's body length", "short|long")     \
                                                                               \
    X(BODY_HEAD, 1, "refusal 1", "body under 52 bytes", "")                    \
    X(BODY_SHORT, 1, "refusal 1", "body shorter than 52 + 107p + 7c", "")      \
    X(BODY_LONG, 1, "refusal 1",                                               \
      "version 01, body longer than 52 + 107p + 7c",                           \
      "")                                                                      \
    X(BAD_PIN_TRIES, 1, "refusal 1", "PIN tries above 15", "")                 \
    X(BAD_REQUIRED, 1, "refusal 1", "issuer authentication required above 1",  \
      "")                                                                      \
    X(BAD_PROFILES, 2, "refusal 1", "p", "0|above 4")                          \
    X(BAD_CONVERSIONS, 1, "refusal 1", "c above 5", "")                        \
    X(BAD_GO_ONLINE, 1, "refusal 1", "go online next above 1", "")             \
    X(BAD_CURRENCY, 16, "refusal 1", "currency of accumulator, its digit",     \
      "1.1|1.2|1.3|1.4|2.1|2.2|2.3|2.4|3.1|3.2|3.3|3.4|4.1|4.2|4.3|4.4")       \
    X(BAD_VALUE, 4, "refusal 1", "value of accumulator above MAX", "#1")       \
    X(BAD_NUMBER, 2, "refusal 1", "profile number", "0|above 124")             \
    X(BAD_NUMBER_TWICE, 1, "refusal 1", "profile number twice", "")            \
    X(BAD_ONLINE, 3, "refusal 1", "Online mask has an unnamed bit",            \
      MASK_VERSIONS)                                                           \
    X(BAD_DECLINE, 3, "refusal 1", "Decline mask has an unnamed bit",          \
      MASK_VERSIONS)                                                           \
    X(BAD_DEFAULT, 3, "refusal 1", "Default mask has an unnamed bit",          \
      MASK_VERSIONS)                                                           \
    X(BAD_MTA_ON, 1, "refusal 1", "MTA on above 1", "")                        \
    X(BAD_MTA_CURRENCY, 4, "refusal 1", "MTA's currency, digit", "#1")         \
    X(BAD_MTA, 1, "refusal 1", "MTA above MAX", "")                            \
    X(BAD_SWITCHES, 4, "refusal 1", "accumulator has an unnamed switch",       \
      "#1")                                                                    \
    X(BAD_LOWER, 4, "refusal 1", "lower of accumulator above MAX", "#1")       \
    X(BAD_UPPER, 4, "refusal 1", "upper of accumulator above MAX", "#1")       \
    X(BAD_COUNTER_SWITCHES, 4, "refusal 1", "counter has an unnamed switch",   \
      "#1")                                                                    \
    X(BAD_SENT, 1, "refusal 1", "accumulator sent above 4", "")                \
    X(BAD_COUNTER_SENT, 2, "refusal 1", "counter sent above 4",                \
      "first|second")                                                          \
    X(BAD_PROFILE_AT, 4, "refusal 1", "the fault is in profile", "#1")         \
    X(BAD_FROM, 4, "refusal 1", "from currency, digit", "#1")                  \
    X(BAD_TO, 4, "refusal 1", "to currency, digit", "#1")                      \
    X(BAD_DIGITS, 2, "refusal 1", "d", "0|above 9,999")                        \
    X(BAD_SHIFT, 1, "refusal 1", "s + 9 above 12", "")                         \
    X(BAD_PAIR, 1, "refusal 1", "from equals to", "")                          \
    X(BAD_PAIR_TWICE, 1, "refusal 1", "a pair twice", "")                      \
    X(BAD_CONVERSION_AT, 5, "refusal 1", "the fault is in conversion", "#1")   \
    X(TAIL_MISSING, 1, "refusal 1", "selection: no switch", "")                \
    X(BAD_SELECTION, 1, "refusal 1", "selection: switch above 1", "")          \
    X(ENTRIES_MISSING, 1, "refusal 1", "selection on, no number of entries",   \
      "")                                                                      \
    X(ENTRY_MISSING, 2, "refusal 1",                                           \
      "selection on, fewer entries than their number says",                    \
      "all missing|a later one")                                               \
    X(ENTRY_CUT, 2, "refusal 1", "selection on, entry cut short",              \
      "the first|a later one")                                                 \
    X(SYLLABUS_MISSING, 1, "refusal 1", "no syllabus", "")                     \
    X(BAD_SYLLABUS, 2, "refusal 1", "syllabus", "2|above")                     \
    X(DATED_MISSING, 1, "refusal 1", "dated: no switch", "")                   \
    X(BAD_DATED, 2, "refusal 1", "dated: switch", "2|above")                   \
    X(CYCLES_SHORT, 2, "refusal 1", "dated, the tail ends too early",          \
      "before the limits|within them")                                         \
    X(BAD_LAST, 13, "refusal 1", "last date is no day", NOT_DAYS)              \
    X(BAD_CYCLIC_CURRENCY, 8, "refusal 1",                                     \
      "currency of cyclic accumulator, its digit",                             \
      "1.1|1.2|1.3|1.4|2.1|2.2|2.3|2.4")                                       \
    X(BAD_CYCLIC_VALUE, 2, "refusal 1",                                        \
      "amount of cyclic accumulator above MAX",                                \
      "#1")                                                                    \
    X(BAD_KIND, 4, "refusal 1", "kind of cyclic accumulator",                  \
      "0 in 1|above 3 in 1|0 in 2|above 3 in 2")                               \
    X(BAD_FIRST_DAY, 4, "refusal 1", "first day of cyclic accumulator",        \
      "7 in 1|above 7 in 1|7 in 2|above 7 in 2")                               \
    X(BAD_CYCLIC_SWITCHES, 2, "refusal 1",                                     \
      "cyclic accumulator has an unnamed switch",                              \
      "#1")                                                                    \
    X(BAD_LIMIT, 2, "refusal 1", "limit of cyclic accumulator above MAX",      \
      "#1")                                                                    \
    X(BAD_LIMITS_AT, 4, "refusal 1", "the fault is in the limits of profile",  \
      "#1")                                                                    \
    X(FAMILY_MISSING, 1, "refusal 1", "no family", "")                         \
    X(BAD_FAMILY, 2, "refusal 1", "family", "2|above")                         \
    X(FAMILY_SHORT, 2, "refusal 1", "CPACE, the tail ends too early",          \
      "within the controls|within the switches")                               \
    X(BAD_CONTROL, 8, "refusal 1", "control above 15",                         \
      "accumulator 1|2|3|4|counter 1|2|3|4")                                   \
    X(BAD_CASHBACK, 4, "refusal 1", "cashback check above 1, profile", "#1")   \
    X(TAIL_LONG, SETUP_KINDS_COUNT, "refusal 1",                               \
      "bytes left over behind the tail, selection",                            \
      SETUP_KINDS)                                                             \
                                                                               \
    X(SETUP_TAKEN, 1 + SETUP_KINDS_COUNT, "set-up",                            \
      "taken, of version, selection",                                          \
      "01|" SETUP_KINDS)                                                       \
    X(SYLLABUS_TAKEN, SYLLABI_COUNT, "set-up", "taken, syllabus",              \
      "0 in 03|1 in 03|0 in 04|1 in 04|0 in 05|1 in 05" SCRIPT_SYLLABI         \
      LOG_SYLLABI)                                                             \
    X(DAY_TAKEN, 14, "set-up", "taken, days from, cyclic accumulator",         \
      FIRST_DAYS)                                                              \
    X(WEEK_TAKEN, 14, "set-up", "taken, weeks from, cyclic accumulator",       \
      FIRST_DAYS)                                                              \
    X(MONTH_TAKEN, 14, "set-up", "taken, months from, cyclic accumulator",     \
      FIRST_DAYS)                                                              \
                                                                               \
    X(LARGEST, 4, "paper", "the largest",                                      \
      "65,536 bytes|21,000 records and more|255 entries of 255 bytes|"         \
      "terminal's data over 64,000 bytes")                                     \
                                                                               \
    X(FILE_EMPTY, 1, "refusal 12", "empty file", "")                           \
    X(ENTRY_SHORT, 2, "refusal 12", "E under 6", "0|1 to 5")                   \
    X(ENTRY_BLOCKS, 2, "refusal 12", "n under 2", "#0")                        \
    X(ENTRY_WIDTH, 1, "refusal 12", "L is 0", "")                              \
    X(ENTRY_MISMATCH, 2, "refusal 12", "E is not nL + 6", "less|more")         \
    X(ENTRY_TYPE, 3, "refusal 12", "check type", "3|4 to 7F|80 and above")     \
    X(ENTRY_POSITION, 1, "refusal 12", "P is 0", "")                           \
    X(ENTRY_PAST, 2, "refusal 12", "reaches past the data", "no data|some")    \
    X(FAULT_VISITED, 2, "refusal 12", "the fault is in the entry visited",     \
      "first|later")                                                           \
    X(ACTION_00, 2, "refusal 12", "action 00", "positive|negative")            \
    X(ACTION_80, 2, "refusal 12", "action 80", "positive|negative")            \
    X(ACTION_7F, 2, "refusal 12", "action 7F", "positive|negative")            \
    X(MOVE_PAST, 2, "refusal 12", "move past the end", "by one|by more")       \
    X(START_REFUSED_12_OF_4, 1, "refusal 12", "where 4 applies too", "")       \
    X(START_REFUSED_12_OPEN, 2, "refusal 12", "the transaction stays open",    \
      "First due|Second due")                                                  \
                                                                               \
    X(DATA_LENGTH, 4, "selection", "length of the terminal's data",            \
      "0|1|2 to 255|256 and more")                                             \
    X(INTERFACE_READ, 2, "selection", "the stretch begins with the interface", \
      "contact|contactless")                                                   \
    X(DATA_TO_END, 1, "selection", "the stretch ends with the data", "")       \
    X(MATCH_WITH, 3, "selection", "match", "the first value|a later one|none") \
    X(LESS_THAN, 3, "selection", "less than", "less|equal|greater")            \
    X(GREATER_THAN, 3, "selection", "greater than", "less|equal|greater")      \
    X(LATER_BYTE, 1, "selection", "decided after the first byte", "")          \
    X(BLOCKS, 6, "selection",                                                  \
      "four and more values, check and width",                                 \
      "0 and 3|0 and 8|1 and 3|1 and 8|2 and 3|2 and 8")                       \
    X(DECIDED_BY, 6, "selection", "three and more bytes, decided by",          \
      "less: the first|less: a middle one|less: the last|"                     \
      "greater: the first|greater: a middle one|greater: the last")            \
    X(FURTHER_VALUE, 1, "selection",                                           \
      "less or greater than, further values have no effect",                   \
      "")                                                                      \
    X(MASKED_MATCH, 1, "selection", "match only because masked", "")           \
    X(VALUE_UNMASKED, 1, "selection",                                          \
      "no match, though the value masked would",                               \
      "")                                                                      \
    X(MOVES, 4, "selection", "moves down", "1|2|3 to 126|127")                 \
    X(MOVE_TO_LAST, 1, "selection", "moves to the last entry", "")             \
    X(UNVISITED_BAD, 2, "selection", "ill-formed and not visited",             \
      "passed over|below the last visited")                                    \
    X(ACTION_UNTAKEN, 4, "selection",                                          \
      "profile found, the other action would be refused",                      \
      "00|80|7F|a move past the end")                                          \
    X(VISITS, 5, "selection", "profile found, entries visited",                \
      "1|2|3 to 9|10 to 254|255")                                              \
    X(UNKNOWN_SELECTED, 3, "selection",                                        \
      "3: the profile found is not in the set-up",                             \
      "7D|7E|another")                                                         \
                                                                               \
    X(SLOT_BLOCKS, 2, "slot tests", "12: n is not 1", "0|above")               \
    X(SLOT_NONE, 1, "slot tests", "12: accumulator 0", "")                     \
    X(SLOT_WIDTH, 4, "slot tests", "12: L",                                    \
      "accumulator, under 6|accumulator, above|counter, 0|counter, above 1")   \
    X(SLOT_BLOCK, 1, "slot tests", "12: the block is not of digits", "")       \
    X(SLOT_POSITION, 1, "slot tests", "12: an amount at P 0", "")              \
    X(SLOT_PAST, 1, "slot tests", "12: an amount that reaches past the data",  \
      "")                                                                      \
    X(SLOT_AMOUNT, 1, "slot tests", "12: an amount that is not of digits", "") \
    X(SLOT_LESS, 21, "slot tests", "less than the block, value", SLOT_ORDERS)  \
    X(SLOT_GREATER, 21, "slot tests", "greater than the block, value",         \
      SLOT_ORDERS)                                                             \
    X(SLOT_SUM_LESS, 21, "slot tests",                                         \
      "less than the block, with this transaction",                            \
      SLOT_ORDERS)                                                             \
    X(SLOT_SUM_GREATER, 21, "slot tests",                                      \
      "greater than the block, with this transaction",                         \
      SLOT_ORDERS)                                                             \
    X(SLOT_STOPPED, 7, "slot tests", "the sum is stopped",                     \
      "accumulator 1|2|3|counter 1|2|3|4")                                     \
    X(SLOT_UNASKED, 3, "slot tests", "b4 and b3 have no effect", "01|10|11")   \
    X(SLOT_P, 4, "slot tests", "P has no effect",                              \
      "accumulator, 0|accumulator, past the data|counter, 0|"                  \
      "counter, past the data")                                                \
    X(SLOT_TO_END, 1, "slot tests", "the amount ends with the data", "")       \
    X(SLOT_INTERFACE, 1, "slot tests", "the amount begins with the interface", \
      "")                                                                      \
                                                                               \
    X(START_REFUSED_6, 2, "Start", "6: interface", "2|above")                  \
    X(START_REFUSED_6_OF, 3, "Start", "6 where another applies too", "12|3|4") \
    X(START_REFUSED_6_OPEN, 2, "Start", "6, the transaction stays open",       \
      "First due|Second due")                                                  \
    X(START_INTERFACE, 4, "Start", "done, CPACE",                              \
      "contact, selection off|contactless, off|contact, on|contactless, on")   \
    X(START_REFUSED_3, 1, "Start", "3: profile not in the set-up", "")         \
    X(START_REFUSED_4, 1, "Start", "4: ATC 65,535", "")                        \
    X(START_REFUSED_3_OF_4, 1, "Start", "3 where 4 applies too", "")           \
    X(START_REFUSED_OPEN, 2, "Start",                                          \
      "refused and the transaction stays open",                                \
      "First due|Second due")                                                  \
    X(START_DONE, 3, "Start", "done",                                          \
      "none open|drops First due|drops Second due")                            \
    X(START_LAST, 1, "Start", "done, ATC becomes 65,535", "")                  \
    X(START_PROFILE, 4, "Start", "done, the profile is in place", "#1")        \
                                                                               \
    X(CONVERT_SAME, 1, "convert", "same currency", "")                         \
    X(CONVERT_NONE, 1, "convert", "no entry", "")                              \
    X(CONVERT_SHIFT, 13, "convert", "entry with s",                            \
      "-9|-8|-7|-6|-5|-4|-3|-2|-1|0|1|2|3")                                    \
    X(CONVERT_EXACT, 2, "convert", "divided, no fraction, syllabus", "#0")     \
    X(CONVERT_FRACTION, 2, "convert", "divided, a fraction",                   \
      "dropped|rounded up")                                                    \
    X(CONVERT_UNDER_1, 2, "convert", "divided, more than 0 and under 1",       \
      "becomes 0|becomes 1")                                                   \
    X(CONVERT_RIM, 4, "convert", "divided, at the rim of MAX",                 \
      "below, dropped|below, up to MAX|above, dropped to MAX|above, up: over") \
    X(CONVERT_MAX, 1, "convert", "exactly MAX", "")                            \
    X(CONVERT_OVER, 2, "convert", "over", "MAX + 1|more")                      \
    X(CONVERT_WIDE, 1, "convert", "product of 2^63 or more", "")               \
    X(CONVERT_AT, 5, "convert", "entry in place", "#1")                        \
                                                                               \
    X(FIRST_REFUSED_2, 2, "First", "refused 2", "none open|Second due")        \
    X(FIRST_REFUSED_5, 2, "First", "refused 5", "type 3|above")                \
    X(FIRST_REFUSED_6_AMOUNT, 1, "First", "refused 6: amount above MAX", "")   \
    X(FIRST_REFUSED_6_CURRENCY, 4, "First", "refused 6: currency, digit",      \
      "#1")                                                                    \
    X(FIRST_REFUSED_13, 13, "First", "refused 13: no day", NOT_DAYS)           \
    X(FIRST_REFUSED_2_OF, 3, "First", "refused 2 where another applies too",   \
      "5|6|13")                                                                \
    X(FIRST_REFUSED_5_OF, 2, "First", "refused 5 where another applies too",   \
      "6|13")                                                                  \
    X(FIRST_REFUSED_6_OF_13, 1, "First", "refused 6 where 13 applies too", "") \
    X(FIRST_REFUSED_NEW, 3, "First", "refused where a cycle would begin",      \
      "2|5|6")                                                                 \
    X(FIRST_REFUSED_PAST, 3, "First", "refused where the date is in error",    \
      "2|5|6")                                                                 \
    X(MTA_IS_OFF, 1, "First", "MTA off", "")                                   \
    X(MTA_UNCONVERTED, 1, "First", "MTA on, no conversion: bit 5 clear", "")   \
    X(MTA_KEPT, 2, "First", "MTA on, not exceeded", "under|equal")             \
    X(MTA_BROKEN, 1, "First", "MTA on, exceeded", "")                          \
    X(MTA_OVER, 2, "First", "MTA on, exceeded as the amount is over",          \
      "MTA under MAX|MTA is MAX")                                              \
    X(ADR_SET, 26, "First", "ADR bit set", "#0")                               \
    X(FIRST_AAC_ASKED, 1, "First", "AAC: requested", "")                       \
    X(FIRST_AAC_DECLINE, 2, "First", "AAC, ADR meets Decline",                 \
      "TC requested|ARQC requested")                                           \
    X(FIRST_AAC_BOTH, 1, "First",                                              \
      "AAC: ADR meets Decline and Online, TC requested",                       \
      "")                                                                      \
    X(FIRST_ARQC_ASKED, 1, "First", "ARQC: requested", "")                     \
    X(FIRST_ARQC_DEFAULT, 1, "First",                                          \
      "ARQC: requested, offline-only terminal, ADR meets Default",             \
      "")                                                                      \
    X(FIRST_OFFLINE_AAC, 5, "First",                                           \
      "AAC, offline-only terminal, ADR meets Default",                         \
      "13|16|23|26|36")                                                        \
    X(FIRST_OFFLINE_TC, 5, "First", "TC, offline-only terminal",               \
      "13|16|23|26|36")                                                        \
    X(FIRST_OFFLINE_ONLINE, 1, "First",                                        \
      "TC: offline-only terminal, though ADR meets Online",                    \
      "")                                                                      \
    X(FIRST_ONLINE_ARQC, 1, "First", "ARQC: ADR meets Online", "")             \
    X(FIRST_ONLINE_TC, 1, "First", "TC: any other terminal", "")               \
    X(FIRST_ONLINE_DEFAULT, 1, "First",                                        \
      "TC: any other terminal, though ADR meets Default",                      \
      "")                                                                      \
    X(BY_DECLINE, 26, "First", "AAC by Decline, by one bit alone", "#0")       \
    X(BY_ONLINE, 26, "First", "ARQC by Online, by one bit alone", "#0")        \
    X(BY_DEFAULT, 26, "First", "AAC by Default, by one bit alone", "#0")       \
                                                                               \
    X(DATE_IS, 4, "date", "against the last one",                              \
      "before|the same|the next day|later")                                    \
    X(DATE_FIRST_OF, 4, "date", "a cycle begins on",                           \
      "the week's first day|another|the month's first day|another")            \
    X(DATE_SPAN, 6, "date", "later, in the same cycle",                        \
      "a week over a month's end|a week over a year's end|"                    \
      "the last day of a week|the last day of a month|"                        \
      "six days, in a week|29 and more days, in a month")                      \
    X(DATE_LEAP, 4, "date", "29 February",                                     \
      "from the 28th|to the 1st of March|of 00|of another year")               \
    X(DATE_MONTH_AGAIN, 2, "date",                                             \
      "the same month of another year, cyclic accumulator",                    \
      "#1")                                                                    \
    X(DATE_WEEK_AGAIN, 2, "date",                                              \
      "less than a week later, another week, cyclic accumulator",              \
      "#1")                                                                    \
    X(CYCLE_BEGINS, 6, "date", "a cycle begins, cyclic accumulator",           \
      KINDS)                                                                   \
    X(CYCLE_GOES_ON, 4, "date", "later, the cycle goes on",                    \
      "1 week|1 month|2 week|2 month")                                         \
    X(CYCLE_ONE, 3, "date", "a cycle begins, of",                              \
      "the first alone|the second alone|both")                                 \
    X(CYCLE_CLEARS, 6, "date", "an amount becomes 0, cyclic accumulator",      \
      "1 active|1 not allowed|1 inactive|2 active|2 not allowed|2 inactive")   \
    X(CYCLE_CLEARS_AT, 8, "date", "an amount becomes 0, First gives",          \
      "1 AAC, requested|1 AAC|1 ARQC|1 TC|"                                    \
      "2 AAC, requested|2 AAC|2 ARQC|2 TC")                                    \
    X(CYCLE_BEFORE_TEST, 2, "date",                                            \
      "kept would exceed, begun does not, cyclic accumulator",                 \
      "#1")                                                                    \
    X(CYCLE_AND_OVER_LIMIT, 2, "date",                                         \
      "begun, and exceeded by this transaction, cyclic accumulator",           \
      "#1")                                                                    \
    X(CYCLE_DROPPED, 1, "date", "begun, and a Start drops the transaction",    \
      "")                                                                      \
    X(LAST_MOVES, 4, "date", "the last date moves, First gives",               \
      "AAC|TC|ARQC|no cycle begins")                                           \
                                                                               \
    X(ERROR_IN, 6, "date error", "in the cycle of the last date or before it", \
      "1 in its week|1 in its month|1 before|"                                 \
      "2 in its week|2 in its month|2 before")                                 \
    X(ERROR_GIVES, 4, "date error", "First gives",                             \
      "AAC, requested|AAC|ARQC|TC")                                            \
    X(ERROR_INACTIVE, 1, "date error", "no cyclic accumulator active", "")     \
    X(ERROR_UNTESTED, 4, "date error", "not tested though it would exceed",    \
      "1 amount|1 sum|2 amount|2 sum")                                         \
    X(ERROR_UNCOUNTED, 6, "date error", "approved, not counted",               \
      "1 First|1 Y3 or Z3|1 order 11|2 First|2 Y3 or Z3|2 order 11")           \
    X(ERROR_ORDER, 4, "date error", "ordered all the same",                    \
      "1 order 01|1 order 10|2 order 01|2 order 10")                           \
    X(ERROR_GROWS, 3, "date error", "accumulators 1 to 4 grow",                \
      "First|Y3 or Z3|order 11")                                               \
    X(ERROR_UNABLE, 2, "date error", "after Y3 or Z3", "TC|AAC")               \
    X(RECOVERY, 4, "date error", "recovery, the last date falls",              \
      "verified|absent|none active|amount not 0")                              \
    X(NO_RECOVERY, 7, "date error", "no recovery",                             \
      "verified, not approved|verified, AAC requested|failed|"                 \
      "absent, required|absent, AAC requested|Y3 or Z3, TC|Y3 or Z3, AAC")     \
    X(ERROR_AGAIN, 2, "date error", "the same date next time",                 \
      "recovered, so in order|not recovered, so in error")                     \
                                                                               \
    X(CVM_IS, 8, "CVM", "by the results",                                      \
      "online PIN|signature|no CVM: 1F|PIN, r3 not 00|"                        \
      "signature, r3 not 00|offline PIN|22 or 3E|another")                     \
    X(CVM_UNASKED, 6, "CVM", "results that are not asked",                     \
      "PIN, b8|PIN, b7|PIN, r2|signature, b8|signature, b7|signature, r2")     \
    X(GATE_CLOSED, 24, "CVM", "closed, active slot", CLOSED_SLOTS)             \
    X(GATE_OPEN, 8, "CVM", "open though closed to another CVM", GATED_SLOTS)   \
    X(GATE_OFFLINE, 8, "CVM", "open though closed to offline PIN",             \
      GATED_SLOTS)                                                             \
    X(GATE_SUM, 16, "CVM", "closed, the sum alone would exceed", GATED_LIMITS) \
    X(GATE_VALUE, 16, "CVM", "closed, the value exceeds all the same",         \
      GATED_LIMITS)                                                            \
    X(GATE_OVER, 8, "CVM", "closed, over would exceed",                        \
      "1 lower|2 lower|3 lower|4 lower|1 upper|2 upper|3 upper|4 upper")       \
    X(GATE_ADDS, 24, "CVM", "closed, so not added", GATED_GROWTH)              \
    X(GATE_ORDER_11, 2, "CVM", "closed, order 11, answered", "AAC|TC")         \
    X(GATE_ORDERED, 16, "CVM", "closed, ordered all the same", GATED_ORDERS)   \
    X(GATE_DECLINES, 8, "CVM", "closed, the decline is counted, counter",      \
      "First 1|First 2|First 3|First 4|Second 1|Second 2|Second 3|Second 4")   \
    X(GATE_MTA, 1, "CVM", "all closed, the MTA is exceeded", "")               \
    X(GATE_CYCLIC, 4, "CVM", "all closed, cyclic accumulator",                 \
      "1 exceeds by its sum|1 grows|2 exceeds by its sum|2 grows")             \
                                                                               \
    X(CASHBACK_IS, 7, "cashback", "checked, bytes",                            \
      "none|the last alone|the first alone|another alone|several|not digits|"  \
      "b8 of the first")                                                       \
    X(CASHBACK_UNCHECKED, 1, "cashback", "the profile does not check it", "")  \
    X(CASHBACK_GIVES, 4, "cashback", "checked, First gives",                   \
      "AAC, requested|AAC|ARQC|TC")                                            \
    X(CASHBACK_UNABLE, 2, "cashback", "checked again after Y3 or Z3",          \
      "TC|AAC")                                                                \
    X(CASHBACK_ERROR, 1, "cashback", "with a date error", "")                  \
                                                                               \
    X(TEST_INACTIVE, 10, "tests",                                              \
      "inactive though value exceeds, accumulator",                            \
      LIMITS)                                                                  \
    X(TEST_EQUAL, 10, "tests", "included, sum equals the limit, accumulator",  \
      LIMITS)                                                                  \
    X(TEST_SUM, 10, "tests", "only the sum exceeds, accumulator",              \
      LIMITS)                                                                  \
    X(TEST_SUM_OVER, 10, "tests",                                              \
      "only the sum exceeds, limit MAX, accumulator",                          \
      LIMITS)                                                                  \
    X(TEST_VALUE, 10, "tests", "value exceeds, accumulator",                   \
      LIMITS)                                                                  \
    X(TEST_UNCONVERTED, 10, "tests",                                           \
      "value exceeds, included, no conversion, accumulator",                   \
      LIMITS)                                                                  \
    X(TEST_LEFT_OUT, 10, "tests",                                              \
      "not included though the sum exceeds, accumulator",                      \
      LIMITS)                                                                  \
    X(TEST_NOT_ALLOWED, 10, "tests",                                           \
      "only the sum exceeds, not allowed, accumulator",                        \
      LIMITS)                                                                  \
    X(TEST_OVER, 10, "tests",                                                  \
      "included, over, value does not exceed, accumulator",                    \
      LIMITS)                                                                  \
    X(TEST_OVER_AT_MAX, 10, "tests",                                           \
      "included, over, value 0, limit MAX, accumulator",                       \
      LIMITS)                                                                  \
    X(TEST_OVER_NOT_ALLOWED, 10, "tests",                                      \
      "included, over, not allowed, accumulator",                              \
      LIMITS)                                                                  \
    X(TEST_OVER_LEFT_OUT, 10, "tests",                                         \
      "over, not included, value alone, accumulator",                          \
      LIMITS)                                                                  \
    X(COUNT_INACTIVE, 8, "tests", "inactive though value exceeds, counter",    \
      "1 lower|2 lower|3 lower|4 lower|1 upper|2 upper|3 upper|4 upper")       \
    X(COUNT_EQUAL, 8, "tests",                                                 \
      "included, value + 1 equals the limit, counter",                         \
      "1 lower|2 lower|3 lower|4 lower|1 upper|2 upper|3 upper|4 upper")       \
    X(COUNT_SUM, 8, "tests", "only value + 1 exceeds, counter",                \
      "1 lower|2 lower|3 lower|4 lower|1 upper|2 upper|3 upper|4 upper")       \
    X(COUNT_256, 8, "tests", "only value + 1 exceeds, limit 255, counter",     \
      "1 lower|2 lower|3 lower|4 lower|1 upper|2 upper|3 upper|4 upper")       \
    X(COUNT_VALUE, 8, "tests", "value exceeds, counter",                       \
      "1 lower|2 lower|3 lower|4 lower|1 upper|2 upper|3 upper|4 upper")       \
    X(COUNT_LEFT_OUT, 8, "tests",                                              \
      "not included though value + 1 exceeds, counter",                        \
      "1 lower|2 lower|3 lower|4 lower|1 upper|2 upper|3 upper|4 upper")       \
    X(COUNT_NOT_ALLOWED, 8, "tests",                                           \
      "only value + 1 exceeds, not allowed, counter",                          \
      "1 lower|2 lower|3 lower|4 lower|1 upper|2 upper|3 upper|4 upper")       \
                                                                               \
    X(GROW_ADDED, 6, "approval", "grows, accumulator", SLOTS)                  \
    X(GROW_STOPPED, 6, "approval", "stopped at MAX, accumulator", SLOTS)       \
    X(GROW_OVER, 6, "approval", "over, MAX stored, accumulator", SLOTS)        \
    X(GROW_INACTIVE, 6, "approval", "inactive, accumulator", SLOTS)            \
    X(GROW_NOT_ALLOWED, 6, "approval", "active, not allowed, accumulator",     \
      SLOTS)                                                                   \
    X(GROW_UNCONVERTED, 6, "approval",                                         \
      "active, allowed, no conversion, accumulator",                           \
      SLOTS)                                                                   \
    X(COUNT_ADDED, 4, "approval", "grows, counter", "#1")                      \
    X(COUNT_STOPPED, 4, "approval", "stopped at 255, counter", "#1")           \
    X(COUNT_UNTOUCHED, 4, "approval", "inactive, counter", "#1")               \
    X(COUNT_KEPT, 4, "approval", "active, not allowed, counter", "#1")         \
                                                                               \
    X(DECLINE_ADDED, 8, "decline", "counted, counter",                         \
      "First 1|First 2|First 3|First 4|Second 1|Second 2|Second 3|Second 4")   \
    X(DECLINE_TO_255, 8, "decline", "counted at 254, counter",                 \
      "First 1|First 2|First 3|First 4|Second 1|Second 2|Second 3|Second 4")   \
    X(DECLINE_STOPPED, 8, "decline", "stopped at 255, counter",                \
      "First 1|First 2|First 3|First 4|Second 1|Second 2|Second 3|Second 4")   \
    X(DECLINE_INACTIVE, 8, "decline", "inactive, counter",                     \
      "First 1|First 2|First 3|First 4|Second 1|Second 2|Second 3|Second 4")   \
    X(DECLINE_NOT_ALLOWED, 8, "decline", "included, not allowed, counter",     \
      "First 1|First 2|First 3|First 4|Second 1|Second 2|Second 3|Second 4")   \
    X(DECLINE_LEFT_OUT, 8, "decline", "allowed, not included, counter",        \
      "First 1|First 2|First 3|First 4|Second 1|Second 2|Second 3|Second 4")   \
    X(DECLINE_PASSES, 2, "decline",                                            \
      "counted at First, so above a limit, not in the CVR",                    \
      "lower|upper")                                                           \
    X(DECLINE_BY, 3, "decline", "counted at First, AAC",                       \
      "requested|by Decline|by Default")                                       \
    X(DECLINE_ONLINE, 3, "decline", "AAC after going online, not counted",     \
      "absent|verified|failed")                                                \
                                                                               \
    X(SECOND_REFUSED_2, 2, "Second", "refused 2", "none open|First due")       \
    X(SECOND_REFUSED_5, 2, "Second", "refused 5", "type 2|above")              \
    X(SECOND_REFUSED_6, 2, "Second", "refused 6: issuer data above 2",         \
      "Y3 or Z3|any other code")                                               \
    X(SECOND_REFUSED_2_OF, 2, "Second",                                        \
      "refused 2 where another applies too",                                   \
      "5|6")                                                                   \
    X(SECOND_REFUSED_5_OF_6, 1, "Second", "refused 5 where 6 applies too",     \
      "")                                                                      \
    X(UNABLE, 6, "Second", "unable, issuer data has no effect",                \
      "Y3 0|Y3 1|Y3 2|Z3 0|Z3 1|Z3 2")                                         \
    X(UNABLE_CSU, 1, "Second", "unable, CSU not zero has no effect", "")       \
    X(UNABLE_AAC_ASKED, 1, "Second", "unable, AAC: requested", "")             \
    X(UNABLE_AAC_DEFAULT, 1, "Second", "unable, AAC: ADR meets Default", "")   \
    X(UNABLE_BY_DEFAULT, 26, "Second",                                         \
      "unable, AAC by Default, by one bit alone",                              \
      "#0")                                                                    \
    X(UNABLE_TC, 1, "Second", "unable, TC", "")                                \
    X(UNABLE_TC_DECLINE, 1, "Second",                                          \
      "unable, TC though ADR meets Decline now",                               \
      "")                                                                      \
    X(VERIFIED_CLEARS, 5, "Second", "verified, clears history bit", "#0")      \
    X(VERIFIED_GO_ONLINE, 2, "Second", "verified, go online next becomes",     \
      "0|1")                                                                   \
    X(VERIFIED_TC, 4, "Second", "verified, TC, CSU byte 2 b2-b1",              \
      "00|01|10|11")                                                           \
    X(VERIFIED_NOT_APPROVED, 4, "Second",                                      \
      "verified, AAC, b8 clear, CSU byte 2 b2-b1",                             \
      "00|01|10|11")                                                           \
    X(VERIFIED_AAC_ASKED, 4, "Second",                                         \
      "verified, AAC requested, CSU byte 2 b2-b1",                             \
      "00|01|10|11")                                                           \
    X(VERIFIED_OTHER_BITS, 1, "Second",                                        \
      "verified, other CSU bits have no effect",                               \
      "")                                                                      \
    X(ORDER_UPPER, 6, "Second", "order 01, accumulator", SLOTS)                \
    X(ORDER_UPPER_INACTIVE, 6, "Second", "order 01, inactive, accumulator",    \
      SLOTS)                                                                   \
    X(ORDER_ZERO, 6, "Second", "order 10, accumulator", SLOTS)                 \
    X(ORDER_ZERO_INACTIVE, 6, "Second", "order 10, inactive, accumulator",     \
      SLOTS)                                                                   \
    X(ORDER_UPPER_COUNTER, 4, "Second", "order 01, counter", "#1")             \
    X(ORDER_UPPER_COUNTER_INACTIVE, 4, "Second",                               \
      "order 01, inactive, counter",                                           \
      "#1")                                                                    \
    X(ORDER_ZERO_COUNTER, 4, "Second", "order 10, counter", "#1")              \
    X(ORDER_ZERO_COUNTER_INACTIVE, 4, "Second",                                \
      "order 10, inactive, counter",                                           \
      "#1")                                                                    \
    X(FAILED_ASKED, 2, "Second", "failed, AAC", "AAC requested|TC requested")  \
    X(FAILED_KEEPS, 5, "Second", "failed, keeps history bit", "#0")            \
    X(ABSENT_REQUIRED, 2, "Second", "absent, required, AAC",                   \
      "AAC requested|TC requested")                                            \
    X(ABSENT_AAC_ASKED, 1, "Second", "absent, not required, AAC: requested",   \
      "")                                                                      \
    X(ABSENT_TC, 1, "Second", "absent, not required, TC", "")                  \
    X(ABSENT_KEEPS, 5, "Second",                                               \
      "absent, keeps history bit (bit 0: required)",                           \
      "#0")                                                                    \
                                                                               \
    X(CLOSED_FIRST, 23, "closed", "then a First: refused 2", CLOSED_WAYS)      \
    X(CLOSED_SECOND, 23, "closed", "then a Second: refused 2", CLOSED_WAYS)    \
                                                                               \
    X(IAD_SENT, 5, "IAD", "accumulator sent", "#0")                            \
    X(IAD_SENT_INACTIVE, 4, "IAD", "inactive, not 0 and sent, accumulator",    \
      "#1")                                                                    \
    X(IAD_SENT_FIRST, 5, "IAD", "first counter sent", "#0")                    \
    X(IAD_SENT_SECOND, 5, "IAD", "second counter sent", "#0")                  \
    X(IAD_SENT_SAME, 1, "IAD", "the same counter sent twice", "")              \
    X(IAD_COUNTER_INACTIVE, 4, "IAD", "inactive, not 0 and sent, counter",     \
      "#1")

/* What scripts add. */
#define REACHED_SCRIPTS(X)                                                     \
    X(KIND_OFF, 3, "refusal 9", "kind 5 without scripts", SCRIPT_VERSIONS)     \
    X(SCRIPT_LENGTH, 1, "refusal 9", "Script's body empty", "")                \
    X(SCRIPTS_MISSING, 1, "refusal 1", "scripts: no switch", "")               \
    X(BAD_SCRIPTS, 2, "refusal 1", "scripts: switch", "2|above")               \
                                                                               \
    X(SCRIPT_REFUSED_2, 1, "Script", "refused 2: First is due", "")            \
    X(SCRIPT_REFUSED_2_OF, 3, "Script",                                        \
      "refused 2 where another applies too",                                   \
      "6|18|19")                                                               \
    X(SCRIPT_REFUSED_6, 2, "Script", "refused 6: result", "2|above")           \
    X(SCRIPT_REFUSED_6_OF, 2, "Script", "refused 6 where another applies too", \
      "18|19")                                                                 \
    X(SCRIPT_REFUSED_IN, 6, "Script", "refused and nothing changes",           \
      "6, none open|18, none open|19, none open|"                              \
      "6, Second due|18, Second due|19, Second due")                           \
    X(SCRIPT_DONE, 6, "Script", "done",                                        \
      "CPA, fresh|CPA, closed|CPA, Second due|"                                \
      "CPACE, fresh|CPACE, closed|CPACE, Second due")                          \
    X(SCRIPT_NO_COMMAND, 2, "Script",                                          \
      "no command, so nothing changes, result",                                \
      "#0")                                                                    \
                                                                               \
    X(TEMPLATE_EMPTY, 1, "template", "18: none", "")                           \
    X(TEMPLATE_TAG, 2, "template", "18: neither 71 nor 72",                    \
      "primitive|constructed")                                                 \
    X(TEMPLATE_FOLLOWED, 1, "template", "18: bytes behind it", "")             \
    X(TAG_CUT, 2, "template", "18: tag cut short", "template|object")          \
    X(TAG_OF_THREE, 2, "template", "18: tag of three bytes",                   \
      "template|object")                                                       \
    X(LENGTH_MISSING, 2, "template", "18: no length", "template|object")       \
    X(LENGTH_FORM, 4, "template", "18: length",                                \
      "80, template|80, object|83 and above, template|83 and above, object")   \
    X(LENGTH_CUT, 4, "template", "18: length cut short",                       \
      "81, template|81, object|82, template|82, object")                       \
    X(VALUE_PAST, 2, "template", "18: value past the end",                     \
      "template|object")                                                       \
    X(VALUE_PAST_PARENT, 1, "template",                                        \
      "18: value past its list's end, not past the template's",                \
      "")                                                                      \
    X(DEPTH_OVER, 2, "template", "19: depth 5", "empty|not empty")             \
    X(FAULT_ORDER, 3, "template", "the first fault",                           \
      "18: the head of what is too deep|19, a fault in it|"                    \
      "19, a fault behind it")                                                 \
    X(READ_AS, 2, "template", "read", "71|72")                                 \
    X(READ_LENGTH, 6, "template", "length of",                                 \
      "template, one byte|template, 81|template, 82|"                          \
      "object, one byte|object, 81|object, 82")                                \
    X(READ_LONGER, 2, "template", "a longer length than needed", "81|82")      \
    X(READ_FILLER, 3, "template", "filler",                                    \
      "before the first object|between|behind the last")                       \
    X(READ_LISTS, 4, "template", "list of depth", "#1")                        \
    X(READ_EMPTY, 4, "template", "empty list of depth", "#1")                  \
    X(READ_COMMANDS, 4, "template", "command in a list of depth", "#1")        \
    X(READ_OTHERS, 4, "template",                                              \
      "primitive object passed over in a list of depth",                       \
      "#1")                                                                    \
    X(READ_TWO_BYTES, 2, "template", "tag of two bytes",                       \
      "primitive|constructed")                                                 \
    X(READ_A6, 1, "template", "A6, which is no command", "")                   \
    X(READ_BEHIND, 1, "template", "an object behind a constructed one", "")    \
                                                                               \
    X(COMMAND_SHORT, 2, "command", "fails: too short", "empty|under 5 bytes")  \
    X(COMMAND_CLASS, 1, "command", "fails: CLA", "")                           \
    X(COMMAND_INS, 1, "command", "fails: INS", "")                             \
    X(COMMAND_OF, 1, "command", "fails: P1 P2", "")                            \
    X(COMMAND_LC, 2, "command", "fails: Lc", "too high|too low")               \
    X(DATA_TAG, 2, "command", "fails: data", "none|another tag than 81")       \
    X(DATA_L, 1, "command", "fails: L is none", "")                            \
    X(DATA_SIZE, 2, "command", "fails: L", "too high|too low")                 \
    X(MAC_TAG, 1, "command", "fails: MAC, another tag than 8E", "")            \
    X(MAC_LENGTH, 1, "command", "fails: MAC, another length than 4", "")       \
    X(SIZE_MISSING, 2, "command", "fails: no length", "at all|81 alone")       \
    X(SIZE_FORM, 2, "command", "fails: length", "80|82 and above")             \
    X(ELEMENT_CUT, 3, "command", "fails: element cut short",                   \
      "tag|length|value")                                                      \
    X(ELEMENT_TAG, 2, "command", "fails: element unknown",                     \
      "accumulators|counters")                                                 \
    X(ELEMENT_SIZE, 6, "command", "fails: element's length",                   \
      "value, short|value, long|limits, short|limits, long|"                   \
      "counter's limits, short|counter's limits, long")                        \
    X(ELEMENT_DIGITS, 3, "command", "fails: no digit",                         \
      "value|lower|upper")                                                     \
    X(COMMAND_UNDONE, 1, "command", "fails: what precedes is not written", "") \
    X(COMMAND_FAILS, 4, "command", "fails",                                    \
      "the first one|a later one|result 0|failed in this transaction")         \
    X(COMMANDS_LEFT, 1, "command", "not tried after one that fails", "")       \
    X(COMMAND_KEPT, 1, "command", "what was done before one that fails stays", \
      "")                                                                      \
    X(COMMAND_DONE, 3, "command", "done, in a template",                       \
      "alone|the first|a later one")                                           \
    X(WRITE_VALUE, 4, "command", "value written, accumulator", "#1")           \
    X(WRITE_LIMITS, 4, "command", "limits written, accumulator", "#1")         \
    X(WRITE_COUNTER, 4, "command", "limits written, counter", "#1")            \
    X(WRITE_IN, 4, "command", "limits written into so many profiles", "#1")    \
    X(WRITE_INACTIVE, 3, "command", "written, inactive in the open profile",   \
      "value|limits|counter's limits")                                         \
    X(WRITE_CROSSED, 2, "command", "lower above upper",                        \
      "accumulator|counter")                                                   \
    X(WRITE_TWICE, 3, "command", "given twice, the last counts",               \
      "value|limits|counter's limits")                                         \
    X(WRITE_NOTHING, 1, "command", "done without elements", "")                \
    X(WRITE_SEVERAL, 1, "command", "done, several elements", "")               \
    X(WRITE_FILLER, 3, "command", "filler",                                    \
      "before the first element|between|behind the last")                      \
    X(WRITE_FORM, 2, "command", "81 and one byte",                             \
      "length of the data|length of an element")                               \
                                                                               \
    X(COUNT_SHOWN, 16, "script bits", "First shows count", "#0")               \
    X(COUNT_AGAIN, 1, "script bits", "count from 15 to 0", "")                 \
    X(FAILED_SHOWN, 4, "script bits", "First shows failed, given",             \
      "AAC|TC|ARQC|again")                                                     \
    X(SECOND_KEEPS, 4, "script bits", "Second keeps First's",                  \
      "count, after Y3 or Z3|count, any other code|"                           \
      "failed, after Y3 or Z3|failed, any other code")                         \
    X(FAILED_TOLD, 4, "script bits", "failed becomes clear",                   \
      "verified AAC|verified TC|absent AAC|absent TC")                         \
    X(FAILED_STAYS, 6, "script bits", "failed stays",                          \
      "verified, failed here|absent, failed here|failed data|"                 \
      "absent, required|Y3|Z3")                                                \
    X(FAILED_HERE, 4, "script bits", "failed in this transaction",             \
      "Start makes it none|a refused Start does not|"                          \
      "still behind First's answer|still behind Second's")                     \
    X(BIT_GONE, 16, "script bits", "set at First, clear after Y3 or Z3",       \
      GATED_LIMITS)                                                            \
    X(BIT_NEW, 16, "script bits", "clear at First, set after Y3 or Z3",        \
      GATED_LIMITS)                                                            \
    X(ORDER_NEW, 8, "script bits", "order 01, limit written since First",      \
      GATED_SLOTS)                                                             \
    X(IAD_NEW, 2, "script bits", "value written since First is sent",          \
      "after Y3 or Z3|any other code")                                         \
    X(SLOT_NEW, 3, "script bits", "entry tests a written accumulator", "#1")

/* The lengths of First's data, and whose data the entries of a table mean. */
#define DATA_LENGTHS "12|15|21|24"
#define ENTRIES_OF                                                             \
    "First's 0|1|2 to 254|255|Second's 0|1|2 to 254|255"
#define FIELDS_OF(of)                                                          \
    of " position 0|position 0, length above the data|empty|"                  \
    "empty, behind the data|one byte|to the end|all"

/* What the log adds. */
#define REACHED_LOG(X)                                                         \
    X(LOG_MISSING, 1, "refusal 1", "log: no switch", "")                       \
    X(BAD_LOG, 2, "refusal 1", "log: switch", "2|above")                       \
    X(LOG_SHORT, 2, "refusal 1", "log on, the tail ends too early",            \
      "before the profiles' switches|within them")                             \
    X(BAD_SIZE, 2, "refusal 1", "ring's size", "21|above")                     \
    X(BAD_LOG_SWITCHES, 3, "refusal 1", "log: unnamed switch",                 \
      "01|02|both")                                                            \
    X(BAD_LOG_ON, 4, "refusal 1", "log above 1, profile", "#1")                \
    X(TABLE_MISSING, 2, "refusal 1", "log on, no table", "First's|Second's")   \
    X(TABLE_SHORT, 2, "refusal 1", "log table cut short",                      \
      "First's|Second's")                                                      \
    X(BAD_SOURCE, 4, "refusal 1", "source of an entry",                        \
      "First's table, the first|First's, a later one|"                         \
      "Second's table, the first|Second's, a later one")                       \
                                                                               \
    X(PAST_DATA, 9, "refusal 14", "past the data, so long",                    \
      "First's table, " DATA_LENGTHS "|"                                       \
      "Second's, First's data, " DATA_LENGTHS "|Second's, its data")           \
    X(PAST_AT, 6, "refusal 14", "past the data, the entry",                    \
      "First's table, the first|First's, a later one|First's, the 255th|"      \
      "Second's table, the first|Second's, a later one|Second's, the 255th")   \
    X(PAST_BY, 5, "refusal 14", "past the data",                               \
      "by one byte|by more|behind the last byte|an empty field|"               \
      "a sum above 255")                                                       \
    X(PAST_OTHER, 1, "refusal 14", "past Second's data, within First's", "")   \
    X(PAST_UNUSED, 3, "refusal 14", "though nothing would be logged",          \
      "size 0|neither declined nor approved|no profile")                       \
                                                                               \
    X(RING_TAKEN, 4, "log", "taken, ring's size", "0|1|2 to 19|20")            \
    X(LOG_SWITCH, 12, "log", "taken, switch",                                  \
      "CVR off|on|CID off|on|ATC off|on|offline only off|on|"                  \
      "approved off|on|declined off|on")                                       \
    X(LOG_ON, 8, "log", "taken, profile logs",                                 \
      "1 not|1|2 not|2|3 not|3|4 not|4")                                       \
    X(TABLE_TAKEN, 8, "log", "taken, entries of a table", ENTRIES_OF)          \
    X(FIELD_TAKEN, 21, "log", "taken, an entry",                               \
      FIELDS_OF("First's table") "|" FIELDS_OF("Second's, First's data") "|"   \
      FIELDS_OF("Second's, its data"))                                         \
                                                                               \
    X(LOGGED_AS, 23, "log", "logged, closed by", CLOSED_WAYS)                  \
    X(LEFT_OUT_AS, 23, "log", "not logged, closed by", CLOSED_WAYS)            \
    X(LEFT_OUT_BY, 5, "log", "not logged for this alone",                      \
      "size 0|the profile|declined off|approved off|offline only")             \
    X(OFFLINE_KEEPS, 6, "log", "offline only, logged all the same",            \
      "First TC|Y3 TC|Z3 TC|First AAC|Y3 or Z3 AAC|AAC, online")               \
    X(NO_RECORD, 8, "log", "no record where all is logged",                    \
      "ARQC|Start|Start over Second due|Script|refused First|"                 \
      "refused Second|refused Start|refused Script")                           \
    X(BETWEEN, 4, "log", "logged at Second, since its First came",             \
      "a refused First|a refused Second|a refused Start|a Script")             \
                                                                               \
    X(LOG_LINES, 4, "log", "lines of a paper", "0|1|2 to 19|20")               \
    X(RING_AT_END, 5, "log", "ring at the end of a paper",                     \
      "empty|not full|just full|the oldest gone|all taken twice or more")      \
    X(ENDED, 1, "log", "9 ends a paper with records: none shown", "")          \
    X(SHOWN_OF, 8, "log", "shown, a record of",                                \
      "First, " DATA_LENGTHS "|Second, " DATA_LENGTHS)                         \
    X(SHOWN_DATE, 2, "log", "shown, date", "as First's|in error")              \
    X(SHOWN_ATC, 1, "log", "shown, ATC above 255", "")                         \
    X(SHOWN_AMOUNT, 2, "log", "shown, amount", "0|MAX")                        \
    X(SHOWN_FIELD, 11, "log", "shown, a field from",                           \
      "type|amount|currency|terminal|date|CVM results|cashback|"               \
      "Second's type|code|issuer data|CSU")                                    \
    X(SHOWN_LONGEST, 1, "log", "shown, 255 fields of 24 bytes", "")

#define REACHED_NAME(name, count, part, text, labels)                          \
    name, name##_END = name + (count) - 1,
enum {
    REACHED_LIST(REACHED_NAME) REACHED_SCRIPTS(REACHED_NAME)
    REACHED_LOG(REACHED_NAME) REACHED_ALL
};
#undef REACHED_NAME

#ifdef REACHED
extern uint64_t reached_count[REACHED_ALL];

static inline void reached(unsigned cause)
{
    reached_count[cause]++;
}
#else
static inline void reached(unsigned cause)
{
    (void)cause;
}
#endif

/* For a check that fails: counted, and false. */
static inline bool fault(unsigned cause)
{
    reached(cause);
    return false;
}

/* Which kind of set-up this is: versions 02 and 03 with selection off or on,
 * version 04 with that and dated or not, version 05 with all that, and CPA or
 * CPACE, version 06 with all that, and scripts or not; version 07 dated or not,
 * CPA or CPACE, and with a log or not. */
static inline unsigned setup_kind(unsigned version, bool on, bool dated,
                                  bool cpace, bool scripts, bool log)
{
    const unsigned from = version < 5 ? 2 * (version - 2) : 8 * (version - 4);

    if (version > 6)
        return 32u + dated + 2 * cpace + 4 * log;
    return from + on + 2 * dated + 4 * cpace + 8 * scripts;
}

/* How a Start's length is wrong. */
static inline unsigned bad_start(size_t length, bool on, bool cpace)
{
    if (on)
        return 5;
    if (cpace)
        return length > 1 ? 4 : 2 + (unsigned)length;
    return length > 0;
}

/* How a First's length is wrong: that of another set-up, below or above. */
static inline unsigned bad_first(size_t length, bool dated, bool cpace)
{
    static const uint8_t lengths[] = {12, 15, 21, 24};
    const unsigned right = dated + 2u * cpace;
    unsigned other = 0;

    for (unsigned i = 0; i < 4; i++) {
        if (length == lengths[i])
            return 5 * right + other;
        other += i != right;
    }
    return 5 * right + 3 + (length > lengths[right]);
}

/* Which table has an entry past its data, and how long these are. */
static inline unsigned past_data(unsigned whose, unsigned source,
                                 size_t length)
{
    const bool dated = length == 15 || length == 24;

    if (source > 0)
        return 8;
    return 4 * whose + dated + (length > 15 ? 2 : 0);
}

/* How three bytes that are no day fail, in the order of NOT_DAYS. */
static inline unsigned bad_date(const uint8_t *at)
{
    for (unsigned i = 0; i < 6; i++)
        if ((i % 2 == 0 ? at[i / 2] >> 4 : at[i / 2] & 15) > 9)
            return i;
    if (at[1] == 0x00 || at[1] > 0x12)
        return 6 + (at[1] > 0x12);
    if (at[2] == 0x00 || at[2] > 0x31)
        return 8 + (at[2] > 0x31);
    if (at[1] != 0x02)
        return 10;
    return 11 + (at[2] == 0x29);
}

/* Which of a currency's four digits, from 0, is the first at fault. */
static inline unsigned bad_digit(uint16_t currency)
{
    if (currency >> 12 > 0)
        return 0;
    if ((currency >> 8 & 15) > 9)
        return 1;
    return (currency >> 4 & 15) > 9 ? 2 : 3;
}

#endif
