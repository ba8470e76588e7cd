/* Writing papers: a set-up as its author thinks of it, and the bytes of a
 * paper under construction. Used by the generator and by the tests; shares
 * nothing with the model that reads them. */
#ifndef MODEL_DRAFT_H
#define MODEL_DRAFT_H

#include <stdbool.h>
#include <stddef.h>
#include <stdint.h>

#include "latest.h"

#define MOST UINT64_C(999999999999)

enum { PAPER = 65536 };

enum {
    KIND_SETUP = 1,
    KIND_START = 2,
    KIND_FIRST = 3,
    KIND_SECOND = 4,
    KIND_SCRIPT = 5
};
enum { AAC = 0, TC = 1, ARQC = 2 };
enum { EUR = 0x0978, USD = 0x0840 };
enum { ONLINE_TERMINAL = 0x22, OFFLINE_TERMINAL = 0x23 };
enum { Y3 = 0x5933, Z3 = 0x5A33, OTHER = 0x3030 };
enum { ABSENT = 0, VERIFIED = 1, FAILED = 2 };
enum { CPA = 0, CPACE = 1 };
enum { CONTACT = 0, CONTACTLESS = 1 };

/* CVM results of the three bytes that a CPACE First carries, as a terminal
 * has them, and the bits of a control that they ask. */
enum { BY_PIN = 0x420300, BY_SIGNATURE = 0x1E0300, BY_NOTHING = 0x1F0300 };
enum { FOR_NOTHING = 1, FOR_SIGNATURE = 2, FOR_PIN = 4, FOR_OFFLINE_PIN = 8 };

/* Bits of a mask: those that are asked for by name. */
enum {
    GO_ONLINE = 1 << 1,
    UNABLE = 1 << 3,
    MTA_EXCEEDED = 1 << 5,
    LOWER_1 = 1 << 6, /* of accumulator 1 */
    UPPER_1 = 1 << 10,
    CYCLIC_1 = 1 << 22, /* the limit of cyclic accumulator 1 */
    CYCLIC_2 = 1 << 23,
    PAST_DATE = 1 << 24,
    WITH_CASHBACK = 1 << 25,

    BITS = 22,
    ALL_BITS = (1 << BITS) - 1,
    BITS_04 = 25, /* in version 04 */
    ALL_BITS_04 = (1 << BITS_04) - 1,
    BITS_05 = 26, /* from version 05 on */
    ALL_BITS_05 = (1 << BITS_05) - 1
};

/* Kinds of cycle, and days that a week begins with. */
enum { DAYS = 1, WEEKS = 2, MONTHS = 3 };
enum { FRI, SAT, SUN, MON, TUE, WED, THU };

/* Switches of a log, and whose data an entry of its tables means. */
enum {
    DECLINED = 0x80,
    APPROVED = 0x40,
    OFFLINE_ONLY = 0x20,
    WITH_ATC = 0x10,
    WITH_CID = 0x08,
    WITH_CVR = 0x04
};
enum { FROM_FIRST = 0, FROM_SECOND = 1 };

enum {
    DRAFT_BYTES = 1 << 17,
    DRAFT_RECORDS = 1 << 15,
    SETUP_BODY = 4, /* where the set-up's body begins in a whole paper */
    SETUP_HEAD = 52,
    SETUP_PROFILE = 107,
    SETUP_CONVERSION = 7,
    SETUP_BASE = SETUP_HEAD + 5 * SETUP_PROFILE + 6 * SETUP_CONVERSION,
    FILE_ROOM = 8192,
    SETUP_CYCLES = 28, /* the tail of version 04, dated, without its limits */
    SETUP_LIMITS = 18, /* of a profile in it */
    SETUP_FAMILY = 9,  /* the tail of version 05, CPACE, without its switches */
    SETUP_LOG = 3,     /* of version 07, with a log, before the profiles' */
    LOG_ENTRY = 3,
    LOG_ENTRIES = 255,
    SETUP_TABLE = 1 + LOG_ENTRY * LOG_ENTRIES,
    SETUP_ROOM = SETUP_BASE + 2 + FILE_ROOM + 1 + SETUP_CYCLES
        + 5 * SETUP_LIMITS + SETUP_FAMILY + 5 + 1 + SETUP_LOG + 5
        + 2 * SETUP_TABLE
};

struct draft_profile {
    uint8_t number;
    uint32_t online, decline, by_default;
    uint8_t mta_on;
    uint16_t mta_currency;
    uint64_t mta;
    struct {
        uint8_t switches;
        uint64_t lower, upper;
    } accumulator[4];
    struct {
        uint8_t switches, lower, upper;
    } counter[4];
    uint8_t accumulator_sent, counter_sent[2];
    struct {
        uint8_t switches;
        uint64_t limit;
    } cyclic[2];
    uint8_t cashback; /* is checked */
    uint8_t log;      /* is on in this profile */
};

/* Profile selection: a switch, the number of entries, and the entries, each
 * behind its length. */
struct draft_file {
    uint8_t on, entries;
    size_t length;
    uint8_t bytes[FILE_ROOM];
};

/* First's log table or Second's: entries of source, position and length. */
struct draft_table {
    uint8_t entries;
    uint8_t entry[LOG_ENTRIES][LOG_ENTRY];
};

/* One profile and one conversion more than a set-up may have. */
struct draft_setup {
    uint8_t version;
    uint8_t key, pin, required;
    uint8_t profiles, conversions;
    uint16_t atc;
    uint8_t go_online;
    struct {
        uint16_t currency;
        uint64_t value;
    } accumulator[4];
    uint8_t counter[4];
    struct draft_profile profile[5];
    struct {
        uint16_t from, to, digits;
        uint8_t shift; /* s + 9 */
    } conversion[6];
    struct draft_file file; /* written from version 02 on */
    uint8_t syllabus;       /* from version 03 on */
    uint8_t dated;          /* from version 04 on, and if it is 1: */
    uint32_t last;          /* as 0x050715 */
    struct {
        uint16_t currency;
        uint64_t amount;
        uint8_t kind, first_day;
    } cyclic[2];
    uint8_t family;         /* from version 05 on, and if it is CPACE: */
    uint8_t control[8];     /* of the accumulators, then of the counters */
    uint8_t scripts;        /* from version 06 on */
    uint8_t log;            /* from version 07 on, and if it is 1: */
    uint8_t log_size, log_switches;
    struct draft_table table[2];
};

/* What a First has behind its terminal type, where the set-up asks for it. */
struct draft_more {
    uint32_t date;
    uint32_t cvm; /* as 0x1F0300 */
    uint64_t cashback;
};

struct draft {
    size_t length;
    size_t records;
    size_t start[DRAFT_RECORDS]; /* where each record begins */
    uint8_t bytes[DRAFT_BYTES];
};

/* The version byte, 01 unless a set-up changes it, and no record yet. */
void draft_begin(struct draft *draft);
void draft_record(struct draft *draft, uint8_t kind, const uint8_t *body,
                  size_t length);
void draft_setup(struct draft *draft, const struct draft_setup *setup);
void draft_start(struct draft *draft, uint8_t profile);
void draft_data(struct draft *draft, const uint8_t *data, size_t length);
void draft_first(struct draft *draft, uint8_t type, uint64_t amount,
                 uint16_t currency, uint8_t terminal);
void draft_dated_first(struct draft *draft, uint8_t type, uint64_t amount,
                       uint16_t currency, uint8_t terminal, uint32_t date);
void draft_first_for(struct draft *draft, const struct draft_setup *setup,
                     uint8_t type, uint64_t amount, uint16_t currency,
                     uint8_t terminal, const struct draft_more *more);
void draft_second(struct draft *draft, uint8_t type, uint16_t code,
                  uint8_t issuer_data, uint32_t csu);
void draft_script(struct draft *draft, uint8_t result, const uint8_t *template,
                  size_t length);

/* Whether its Firsts carry a date, whether it is a CPACE card's, and whether it
 * takes scripts. */
bool draft_is_dated(const struct draft_setup *setup);
bool draft_is_cpace(const struct draft_setup *setup);
bool draft_has_scripts(const struct draft_setup *setup);

/* How long First's or Second's data are, in a paper with this set-up. */
size_t draft_data_length(const struct draft_setup *setup, unsigned source);

/* The body alone, and where its tails, that of version 04, that of 05, that of
 * 06 and that of 07 begin; all return a length. */
size_t draft_setup_body(const struct draft_setup *setup, uint8_t *body);
size_t draft_setup_base(const struct draft_setup *setup);
size_t draft_setup_cycles(const struct draft_setup *setup);
size_t draft_setup_family(const struct draft_setup *setup);
size_t draft_setup_scripts(const struct draft_setup *setup);
size_t draft_setup_log(const struct draft_setup *setup);

/* The next entry of a file, its length before it; it may be ill-formed. */
void draft_entry(struct draft_file *file, const uint8_t *entry, size_t length);

/* The next entry of a log table; it may be anything. */
void draft_log_entry(struct draft_table *table, uint8_t source,
                     uint8_t position, uint8_t length);

/* Puts bytes before place, or takes them away; what follows moves. */
void draft_insert(struct draft *draft, size_t place, const uint8_t *bytes,
                  size_t count);
void draft_remove(struct draft *draft, size_t place, size_t count);

/* The set-up of document 01's "A sitting in full". */
void draft_printed_setup(struct draft_setup *setup);

#endif
