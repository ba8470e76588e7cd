/* The card of documents 01 and 02: what a set-up says, what the card
 * remembers, and its commands. A command returns its refusal number, 0
 * when done; a refused command has changed nothing. */
#ifndef MODEL_CARD_H
#define MODEL_CARD_H

#include <stdbool.h>
#include <stddef.h>
#include <stdint.h>

#include "calendar.h"
#include "latest.h"

#define AMOUNT_MAX UINT64_C(999999999999)

enum {
    ACCUMULATORS = 4,
    COUNTERS = 4,
    CYCLICS = 2, /* cyclic accumulators, where a set-up has them */
    PROFILES_MAX = 4,
    CONVERSIONS_MAX = 5,
    COUNTER_MAX = 255,
    ATC_MAX = 65535,
    IAD_BYTES = 32,
    SCRIPT_COUNTS = 16,

    VERSION_SELECTION = 2, /* papers from this version on have it */
    VERSION_SYLLABUS = 3,
    VERSION_CYCLES = 4,
    VERSION_FAMILY = 5,
    VERSION_SCRIPTS = 6,
    VERSION_LOG = 7,
    VERSION_MAX = LATEST
};

/* The decision bits (ADR) in house order; bits 0 to 4 are the history. */
enum {
    LAST_ONLINE_NOT_COMPLETED = 1 << 0,
    GO_ONLINE_NEXT = 1 << 1,
    AUTHENTICATION_FAILED = 1 << 2,
    UNABLE_TO_GO_ONLINE = 1 << 3,
    DATA_NOT_RECEIVED = 1 << 4,
    MTA_EXCEEDED = 1 << 5,
    ACCUMULATOR_LOWER = 1 << 6, /* accumulator 1; 2 to 4 follow */
    ACCUMULATOR_UPPER = 1 << 10,
    COUNTER_LOWER = 1 << 14,
    COUNTER_UPPER = 1 << 18,
    CYCLIC_LIMIT = 1 << 22, /* cyclic accumulator 1; 2 follows */
    DATE_ERROR = 1 << 24,
    CASHBACK = 1 << 25,

    ACCUMULATORS_LOWER = 15 * ACCUMULATOR_LOWER, /* all four */
    ACCUMULATORS_UPPER = 15 * ACCUMULATOR_UPPER,
    COUNTERS_LOWER = 15 * COUNTER_LOWER,
    COUNTERS_UPPER = 15 * COUNTER_UPPER,

    HISTORY = 5, /* how many bits */
    OLD_DECISIONS = 22, /* named in papers before VERSION_CYCLES */
    CYCLES_DECISIONS = 25, /* in those of VERSION_CYCLES */
    DECISIONS = 26,
    HISTORY_BITS = (1 << HISTORY) - 1,
    OLD_ADR_BITS = (1 << OLD_DECISIONS) - 1,
    CYCLES_ADR_BITS = (1 << CYCLES_DECISIONS) - 1,
    ADR_BITS = (1 << DECISIONS) - 1
};

/* Switches of an accumulator or a counter in a profile. */
enum {
    ACTIVE = 1,
    ALLOW = 2,            /* accumulation, counting */
    INCLUDE = 4,          /* this transaction, in the tests */
    INCLUDE_DECLINES = 8, /* counters only */

    ACCUMULATOR_SWITCHES = 7,
    COUNTER_SWITCHES = 15
};

/* The card families (request Thirteen), and the interfaces of the second. */
enum { FAMILY_CPA = 0, FAMILY_CPACE = 1 };
enum { CONTACT = 0, CONTACTLESS = 1 };

/* How the cardholder was verified: a bit in the control of an accumulator or a
 * counter, which is closed to a transaction whose bit it has. No command of
 * ours verifies a PIN offline, so that bit is never asked for. */
enum {
    NO_CVM = 1,
    SIGNATURE = 2,
    ONLINE_PIN = 4,

    CONTROL_BITS = 15
};

/* What is logged (request Eight) and what a record has of the answer, as CPA
 * Table L-10 numbers it. */
enum {
    LOG_DECLINED = 0x80,
    LOG_APPROVED = 0x40,
    LOG_OFFLINE_ONLY = 0x20, /* of the approved ones */
    LOG_ATC = 0x10,
    LOG_CID = 0x08,
    LOG_CVR = 0x04,

    LOG_SWITCHES = 0xFC,
    LOG_RECORDS = 20
};

/* Whose table it is, and whose data an entry means. */
enum { OF_FIRST = 0, OF_SECOND = 1 };

/* Kinds of record. */
enum {
    KIND_SETUP = 1,
    KIND_START = 2,
    KIND_FIRST = 3,
    KIND_SECOND = 4,
    KIND_SCRIPT = 5 /* where scripts are on */
};

/* Type of a cryptogram, as requested and as given. */
enum { AAC = 0, TC = 1, ARQC = 2 };

/* Codes of a Second: the terminal could not reach the issuer. */
enum { UNABLE_Y3 = 0x5933, UNABLE_Z3 = 0x5A33 };

/* Issuer data of a Second. */
enum { ISSUER_ABSENT = 0, ISSUER_VERIFIED = 1, ISSUER_FAILED = 2 };

/* The secure messaging result of a Script. */
enum { MESSAGING_FAILED = 0, MESSAGING_VERIFIED = 1 };

struct accumulator_rule {
    uint64_t lower, upper;
    uint8_t switches;
};

struct counter_rule {
    uint8_t switches, lower, upper;
};

struct cyclic_rule {
    uint64_t limit;
    uint8_t switches;
};

struct profile {
    struct accumulator_rule accumulator[ACCUMULATORS];
    struct counter_rule counter[COUNTERS];
    struct cyclic_rule cyclic[CYCLICS];
    uint64_t mta;
    uint32_t online_mask, decline_mask, default_mask;
    uint16_t mta_currency;
    bool mta_on;
    bool cashback_check;
    bool log; /* its transactions are logged */
    uint8_t number;
    uint8_t accumulator_sent; /* 0 for none, else 1 to 4 */
    uint8_t counter_sent[2];
};

struct conversion {
    uint16_t from, to;
    uint16_t digits;
    int8_t shift;
};

/* The Profile Selection File: entries one after the other, each behind its
 * length in one byte. It stays where it stands in the paper. */
struct selection {
    const uint8_t *file;
    uint8_t entries;
    bool on;
};

/* What becomes of a converted fraction. */
enum { SYLLABUS_DROPS = 0, SYLLABUS_ROUNDS_UP = 1 };

/* A cyclic accumulator in every profile. */
struct cyclic {
    uint16_t currency;
    uint8_t kind;
    uint8_t first_day; /* of a week */
};

/* A log table: entries of three bytes, source, position and length. They stay
 * where they stand in the paper. */
struct log_table {
    const uint8_t *entry;
    uint8_t entries;
};

/* The log; off, its ring has no record and its tables no entry. */
struct log_rule {
    struct log_table table[2];
    uint8_t size; /* of the ring */
    uint8_t switches;
    bool on;
};

/* What a set-up fixes for the whole paper; scripts change its limits. */
struct setup {
    struct profile profile[PROFILES_MAX];
    struct conversion conversion[CONVERSIONS_MAX];
    struct selection selection;
    struct cyclic cyclic[CYCLICS];
    struct log_rule log;
    uint16_t currency[ACCUMULATORS];
    uint8_t profiles, conversions;
    uint8_t cyclics; /* none, or all: then First carries the date */
    uint8_t syllabus;
    uint8_t family;
    uint8_t accumulator_control[ACCUMULATORS]; /* of a CPACE card */
    uint8_t counter_control[COUNTERS];
    uint8_t key_index;
    uint8_t pin_tries;
    bool authentication_required;
    bool scripts;
};

/* What an amount is in another currency: nothing without an entry, an amount,
 * or over, which is more than MAX. */
struct converted {
    enum { NO_ENTRY, CONVERTED, OVER } how;
    uint64_t amount; /* of CONVERTED */
};

/* The open transaction. Only `profile` is set before First. */
struct transaction {
    const struct profile *profile;
    struct converted for_mta;
    struct converted for_accumulator[ACCUMULATORS];
    struct converted for_cyclic[CYCLICS];
    uint32_t adr;
    struct date date;
    bool date_error; /* it was earlier than the last date */
    uint8_t cvm;     /* its bit in a control, 0 on a CPA card */
    bool cashback;   /* and this profile checks it */
    uint8_t cvr[5];
};

struct card {
    struct setup setup;
    uint64_t accumulator[ACCUMULATORS];
    uint64_t cyclic[CYCLICS]; /* of the present cycle */
    uint8_t counter[COUNTERS];
    uint32_t history;
    uint16_t atc;
    struct date last; /* First's last date without error */
    uint8_t script_count; /* commands done, from 0 again after 15 */
    bool script_failed;   /* since the issuer was last heard of */
    bool script_failed_here; /* since the last accepted Start */
    enum { NOTHING_DUE, FIRST_DUE, SECOND_DUE } due;
    struct transaction open; /* points into `setup`: a card stays where it is */
};

/* The terminal's data; with selection off, the profile's number alone. On a
 * CPACE card the interface comes before either. */
struct start {
    const uint8_t *data;
    size_t length;
};

struct first {
    uint64_t amount;
    uint16_t currency;
    uint8_t type;
    uint8_t terminal;
    const uint8_t *date; /* 3 bytes, where it carries one */
    const uint8_t *cvm_results; /* 3 bytes, and */
    const uint8_t *cashback;    /* 6 bytes, on a CPACE card */
};

struct second {
    uint8_t type;
    uint16_t code;
    uint8_t issuer_data;
    const uint8_t *csu; /* 4 bytes */
};

struct script {
    uint8_t messaging;
    const uint8_t *template;
    size_t length; /* of the template */
};

struct answer {
    uint8_t cid;
    uint8_t iad[IAD_BYTES];
};

/* Three decimal digits in two bytes, as 0978. */
static inline bool is_currency(uint16_t code)
{
    return code <= 0x0999 && (code & 0xF0) <= 0x90 && (code & 0x0F) <= 9;
}

static inline bool is_unable(uint16_t code)
{
    return code == UNABLE_Y3 || code == UNABLE_Z3;
}

static inline bool is_cpace(const struct setup *setup)
{
    return setup->family == FAMILY_CPACE;
}

/* Whether a check type of the file means an accumulator or a counter. */
static inline bool tests_slot(const struct setup *setup, uint8_t type)
{
    return is_cpace(setup) && type >= 0x80;
}

static inline bool has_all(uint8_t switches, unsigned wanted)
{
    return (switches & wanted) == wanted;
}

static inline bool counts_approvals(uint8_t switches)
{
    return has_all(switches, ACTIVE | ALLOW);
}

/* The switches that hold for this transaction: closed to its CVM, a slot
 * neither includes nor allows it. Declines are counted all the same. */
static inline uint8_t gated(uint8_t switches, uint8_t control, uint8_t cvm)
{
    return (uint8_t)(control & cvm ? switches & ~(ALLOW | INCLUDE) : switches);
}

static inline bool counts_declines(uint8_t switches)
{
    return has_all(switches, ACTIVE | ALLOW | INCLUDE_DECLINES);
}

/* Reads the set-up's body of a paper of a known version into a fresh card;
 * false is refusal 1, after which the card is not to be used. The body must
 * stay in place. */
bool card_set_up(struct card *card, unsigned version, const uint8_t *body,
                 size_t length);

/* Twelve digits in six bytes; false if one of them is none. */
bool read_digits(uint64_t *value, const uint8_t *at);

/* The profile that the file gives for the terminal's data, the interface among
 * them, and how many entries were visited; false is refusal 12. */
bool select_profile(const struct card *card, const struct start *start,
                    uint8_t *profile, unsigned *visits);

/* With selection on it also says how many entries were visited. */
unsigned card_start(struct card *card, const struct start *start,
                    unsigned *visits);
unsigned card_first(struct card *card, const struct first *first,
                    struct answer *answer);
unsigned card_second(struct card *card, const struct second *second,
                     struct answer *answer);
unsigned card_script(struct card *card, const struct script *script);

#endif
