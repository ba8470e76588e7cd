#include "observe.h"

#include <assert.h>
#include <inttypes.h>
#include <stdio.h>
#include <string.h>

#include "bytes.h"
#include "observe_log.h"
#include "observe_scripts.h"
#include "reached.h"

static void reached_if(bool holds, unsigned cause)
{
    if (holds)
        reached(cause);
}

/* Counts each of these bits, from this one on, at its place in a row. */
static void reached_bits(uint32_t bits, unsigned from, unsigned count,
                         unsigned row)
{
    for (unsigned i = from; i < count; i++)
        reached_if(bits >> i & 1, row + i);
}

/* Counts the bit at its place in a row, if it is one alone. */
static void reached_alone(uint32_t bits, unsigned row)
{
    for (unsigned i = 0; i < DECISIONS; i++)
        reached_if(bits == UINT32_C(1) << i, row + i);
}

/* How the last transaction closed, in the order of CLOSED_WAYS. */
enum {
    BY_FIRST_TC,
    BY_FIRST_AAC = 2,
    BY_UNABLE = 5,
    BY_VERIFIED = 11,
    BY_FAILED = 19,
    BY_ABSENT_REQUIRED,
    BY_ABSENT,
    NOT_CLOSED = 23
};
static unsigned closed_by;

/* Whether the open transaction's First began a cycle; the last date that was in
 * error, 0 for none, and whether a Second recovered it. */
static bool begun_open;
static unsigned error_date;
static bool recovered;

/* The set-up ------------------------------------------------------------ */

static void observe_setup(const struct setup *setup, unsigned version)
{
    const unsigned on = setup->selection.on;
    const uint8_t *at = setup->selection.file;
    unsigned long_entries = 0;

    closed_by = NOT_CLOSED;
    error_date = 0;
    observe_scripts_setup(version);
    for (unsigned i = 0; on && i < setup->selection.entries; i++) {
        long_entries += *at == 255;
        at += 1 + *at;
    }
    reached_if(long_entries == 255, LARGEST + 2);
    if (version < VERSION_SELECTION)
        reached(SETUP_TAKEN + 0);
    else
        reached(SETUP_TAKEN + 1
                + setup_kind(version, on, setup->cyclics > 0, is_cpace(setup),
                             setup->scripts, setup->log.on));
    reached_if(version >= VERSION_SYLLABUS,
               SYLLABUS_TAKEN + 2 * (version - VERSION_SYLLABUS)
                   + setup->syllabus);
    for (unsigned i = 0; i < setup->cyclics; i++) {
        const struct cyclic *cyclic = &setup->cyclic[i];
        const unsigned place = 7 * i + cyclic->first_day;
        reached_if(cyclic->kind == CYCLE_DAY, DAY_TAKEN + place);
        reached_if(cyclic->kind == CYCLE_WEEK, WEEK_TAKEN + place);
        reached_if(cyclic->kind == CYCLE_MONTH, MONTH_TAKEN + place);
    }
}

/* The selection --------------------------------------------------------- */

static void observe_data(size_t length)
{
    reached_if(length > 64000, LARGEST + 3);
    if (length < 2)
        reached(DATA_LENGTH + (unsigned)length);
    else
        reached(DATA_LENGTH + (length < 256 ? 2 : 3));
}

/* Less or greater than the first value. */
static bool observe_order(unsigned type, unsigned values, size_t width,
                          const uint8_t *masked, const uint8_t *value)
{
    const int order = memcmp(masked, value, width);

    reached((type == 1 ? LESS_THAN : GREATER_THAN)
            + (order < 0 ? 0 : 1 + (order > 0)));
    reached_if(masked[0] == value[0] && order != 0, LATER_BYTE);
    reached_if(values > 1, FURTHER_VALUE);
    if (order != 0 && width > 2) {
        size_t by = 0;
        while (masked[by] == value[by])
            by++;
        reached(DECIDED_BY + (order < 0 ? 0 : 3)
                + (by == 0 ? 0 : 1 + (by == width - 1)));
    }
    return type == 1 ? order < 0 : order > 0;
}

static bool observe_match(unsigned values, size_t width, const uint8_t *data,
                          const uint8_t *mask, const uint8_t *masked,
                          const uint8_t *value)
{
    uint8_t masked_value[255];
    unsigned match = 0;
    bool bare = false, loose = false;

    while (match < values
           && memcmp(masked, value + match * width, width) != 0)
        match++;
    reached(MATCH_WITH + (match == values ? 2 : match > 0));
    for (unsigned v = 0; v < values; v++) {
        for (size_t i = 0; i < width; i++)
            masked_value[i] = value[v * width + i] & mask[i];
        bare = bare || memcmp(data, value + v * width, width) == 0;
        loose = loose || memcmp(masked, masked_value, width) == 0;
    }
    reached_if(match < values && !bare, MASKED_MATCH);
    reached_if(match == values && loose, VALUE_UNMASKED);
    return match < values;
}

/* An entry's test of the bytes that it extracts, and whether they meet it. */
static bool observe_test(const uint8_t *entry, const uint8_t *data)
{
    const size_t width = entry[2];
    const unsigned values = entry[3] - 1u;
    const uint8_t *mask = entry + 4;
    const uint8_t *value = mask + width;
    const unsigned type = value[values * width];
    uint8_t masked[255];

    reached_if(values > 3 && width == 3, BLOCKS + 2 * type);
    reached_if(values > 3 && width == 8, BLOCKS + 2 * type + 1);
    for (size_t i = 0; i < width; i++)
        masked[i] = data[i] & mask[i];
    if (type == 0)
        return observe_match(values, width, data, mask, masked, value);
    return observe_order(type, values, width, masked, value);
}

/* Twelve digits, as text reads them; false if one is none. */
static bool observe_digits(const uint8_t *at, uint64_t *value)
{
    char text[13];
    int used = 0;

    for (unsigned i = 0; i < 6; i++)
        snprintf(text + 2 * i, 3, "%02X", at[i]);
    return sscanf(text, "%12" SCNu64 "%n", value, &used) == 1 && used == 12;
}

/* Which slot a check type from 80 on means: accumulators 0 to 3, of which it
 * cannot name the last, counters 4 to 7; none, 8. */
static unsigned slot_of(uint8_t type)
{
    static const uint8_t counters[] = {7, 4, 5, 6};
    static const uint8_t accumulators[] = {8, 0, 1, 2};

    return (type & 0x40 ? accumulators : counters)[(type & 0x30) / 0x10];
}

/* An entry that tests a slot, sound but for what it takes from the data. */
static bool ill_formed_slot(const uint8_t *at)
{
    uint64_t block;
    const unsigned slot = slot_of(at[4 + at[2]]);

    if (slot == 8)
        return true;
    return slot < 4 ? at[2] != 6 || !observe_digits(at + 4, &block)
                    : at[2] != 1;
}

static bool ill_formed(const struct setup *setup, const uint8_t *at)
{
    const unsigned blocks = at[0] < 6 ? 0 : (unsigned)at[2] * at[3];

    if (at[0] != blocks + 6)
        return true;
    if (tests_slot(setup, at[4 + blocks]))
        return at[3] != 1 || ill_formed_slot(at);
    return blocks == 0 || at[3] < 2 || at[1] == 0 || at[4 + blocks] > 2;
}

/* At an entry with so many left, itself included. */
static void observe_move(const struct setup *setup, const uint8_t *at,
                         unsigned left, unsigned move)
{
    static const unsigned place[] = {0, 0, 1};

    reached(MOVES + (move < 3 ? place[move] : 2 + (move == 127)));
    reached_if(move + 1 == left, MOVE_TO_LAST);
    for (unsigned i = 1; i < move; i++) {
        at += 1 + at[0];
        reached_if(ill_formed(setup, at), UNVISITED_BAD + 0);
    }
}

static void observe_selected(const struct setup *setup, const uint8_t *at,
                             unsigned left, unsigned visits, uint8_t untaken)
{
    if (visits < 3)
        reached(VISITS + visits - 1);
    else
        reached(VISITS + (visits < 10 ? 2 : 3 + (visits == 255)));
    reached_if(untaken == 0x00, ACTION_UNTAKEN + 0);
    reached_if(untaken == 0x80, ACTION_UNTAKEN + 1);
    reached_if(untaken == 0x7F, ACTION_UNTAKEN + 2);
    reached_if(untaken > 0x80 && untaken - 0x80u >= left, ACTION_UNTAKEN + 3);
    for (; left > 1; left--) {
        at += 1 + at[0];
        reached_if(ill_formed(setup, at), UNVISITED_BAD + 1);
    }
}

/* What a slot is worth in the test; false for refusal 12. */
static bool observe_value(const struct card *before, const uint8_t *at,
                          const struct start *start, uint64_t *value)
{
    const uint8_t type = at[4 + at[2]];
    const unsigned slot = slot_of(type);
    const uint64_t most = slot < 4 ? AMOUNT_MAX : COUNTER_MAX;
    uint64_t added = type >> 1 & 1;

    if (slot < 4 && added > 0)
        if (at[1] == 0 || at[1] + 5u > start->length
            || !observe_digits(start->data + at[1] - 1, &added))
            return false;
    *value = slot < 4 ? before->accumulator[slot] : before->counter[slot - 4];
    reached_if(added > most - *value,
               SLOT_STOPPED + (slot < 4 ? slot : slot - 1));
    *value = added > most - *value ? most : *value + added;
    return true;
}

/* An entry that tests a slot; false for refusal 12. */
static bool observe_slot(const struct card *before, const uint8_t *at,
                         const struct start *start, bool *positive)
{
    static const unsigned rows[] = {SLOT_LESS, SLOT_GREATER, SLOT_SUM_LESS,
                                    SLOT_SUM_GREATER};
    const uint8_t type = at[4 + at[2]];
    const unsigned slot = slot_of(type);
    const unsigned place = slot < 4 ? slot : slot - 1; /* 4 has no name */
    const size_t position = at[1], end = position + at[2] - 1u;
    const bool reads = slot < 4 && type & 2;
    uint64_t value, block = at[4];

    if (!observe_value(before, at, start, &value))
        return false;
    if (slot < 4)
        observe_digits(at + 4, &block);
    reached(rows[type & 3] + 3 * place
            + (value < block ? 0 : 1 + (value > block)));
    reached_if(slot < 3 && script_wrote(slot), SLOT_NEW + slot);
    reached_if(type & 0x0C, SLOT_UNASKED + (type >> 2 & 3u) - 1);
    if (reads) {
        reached_if(end == start->length, SLOT_TO_END);
        reached_if(position == 1, SLOT_INTERFACE);
    } else {
        reached_if(position == 0, SLOT_P + (slot < 4 ? 0 : 2));
        reached_if(position > 0 && end > start->length,
                   SLOT_P + (slot < 4 ? 1 : 3));
    }
    *positive = type & 1 ? block < value : value < block;
    return true;
}

/* Walks the file; the number that it gives, 0 for refusal 12. */
static uint8_t observe_file(const struct card *before,
                            const struct start *start)
{
    const struct setup *setup = &before->setup;
    const uint8_t *at = setup->selection.file;
    unsigned left = setup->selection.entries;

    if (left == 0)
        return 0;
    observe_data(start->length);
    for (unsigned visits = 1;; visits++) {
        if (ill_formed(setup, at))
            return 0;
        const size_t from = at[1] - 1u, width = at[2];
        const uint8_t *actions = at + 5 + width * at[3];
        bool positive;
        if (tests_slot(setup, actions[-1])) {
            if (!observe_slot(before, at, start, &positive))
                return 0;
        } else {
            if (from + width > start->length)
                return 0;
            reached_if(from + width == start->length, DATA_TO_END);
            reached_if(is_cpace(setup) && from == 0,
                       INTERFACE_READ + start->data[0]);
            positive = observe_test(at, start->data + from);
        }
        const uint8_t action = actions[!positive];
        if (action == 0x00 || action == 0x80 || action == 0x7F)
            return 0;
        if (action < 0x80) {
            observe_selected(setup, at, left, visits, actions[positive]);
            return action;
        }
        const unsigned move = action & 0x7F;
        if (move >= left)
            return 0;
        observe_move(setup, at, left, move);
        left -= move;
        for (unsigned i = 0; i < move; i++)
            at += 1 + at[0];
    }
}

static bool has_profile(const struct setup *setup, uint8_t number)
{
    for (unsigned i = 0; i < setup->profiles; i++)
        if (setup->profile[i].number == number)
            return true;
    return false;
}

/* An interface that is none, and what a card would say that did not look at
 * it; of that nothing is counted. */
static void observe_interface(const struct card *before,
                              const struct start *start)
{
    static uint64_t counts[REACHED_ALL];
    const struct setup *setup = &before->setup;
    const bool selects = setup->selection.on;
    uint8_t number = selects ? 0 : start->data[1];

    reached(START_REFUSED_6 + (start->data[0] > 2));
    reached_if(before->due != NOTHING_DUE,
               START_REFUSED_6_OPEN + (unsigned)before->due - 1);
    if (selects) {
        memcpy(counts, reached_count, sizeof counts);
        number = observe_file(before, start);
        memcpy(reached_count, counts, sizeof counts);
    }
    if (selects && number == 0)
        reached(START_REFUSED_6_OF + 0);
    else if (!has_profile(setup, number))
        reached(START_REFUSED_6_OF + 1);
    else
        reached_if(before->atc == ATC_MAX, START_REFUSED_6_OF + 2);
}

static void observe_start(const struct card *before, const struct card *after,
                          const struct start *start, unsigned refusal)
{
    const struct setup *setup = &before->setup;
    const bool selects = setup->selection.on;
    const bool last = before->atc == ATC_MAX;
    const bool open = before->due != NOTHING_DUE;
    const unsigned due = (unsigned)before->due;
    uint8_t number = 0;

    if (is_cpace(setup) && start->data[0] > CONTACTLESS) {
        assert(refusal == 6);
        observe_interface(before, start);
        return;
    }
    if (selects)
        number = observe_file(before, start);
    assert((selects && number == 0) == (refusal == 12));
    switch (refusal) {
    case 12:
        reached_if(last, START_REFUSED_12_OF_4);
        reached_if(open, START_REFUSED_12_OPEN + due - 1);
        break;
    case 3:
        reached(START_REFUSED_3);
        reached_if(selects, UNKNOWN_SELECTED
                   + (number == 0x7D || number == 0x7E ? number - 0x7Du : 2));
        reached_if(last, START_REFUSED_3_OF_4);
        reached_if(open, START_REFUSED_OPEN + due - 1);
        break;
    case 4:
        reached(START_REFUSED_4);
        reached_if(open, START_REFUSED_OPEN + due - 1);
        break;
    default:
        reached(START_DONE + due);
        reached_if(is_cpace(setup),
                   START_INTERFACE + start->data[0] + 2 * selects);
        reached(START_PROFILE
                + (unsigned)(after->open.profile - after->setup.profile));
        reached_if(after->atc == ATC_MAX, START_LAST);
        reached_if(due == SECOND_DUE && begun_open, CYCLE_DROPPED);
        closed_by = NOT_CLOSED;
        break;
    }
}

/* The amount ------------------------------------------------------------ */

/* A division, its fraction by the syllabus. */
static uint64_t observe_fraction(unsigned syllabus, uint64_t product,
                                 uint64_t divisor)
{
    const uint64_t whole = product / divisor;

    if (product % divisor == 0) {
        reached(CONVERT_EXACT + syllabus);
        return whole;
    }
    reached(CONVERT_FRACTION + syllabus);
    reached_if(whole == 0, CONVERT_UNDER_1 + syllabus);
    reached_if(whole == AMOUNT_MAX - 1, CONVERT_RIM + syllabus);
    reached_if(whole == AMOUNT_MAX, CONVERT_RIM + 2 + syllabus);
    return whole + (syllabus == SYLLABUS_ROUNDS_UP);
}

static void observe_conversion(const struct setup *setup,
                               const struct first *first, uint16_t to)
{
    const struct conversion *entry = setup->conversion;
    const struct conversion *end = entry + setup->conversions;
    uint64_t power = 1;

    if (first->currency == to) {
        reached(CONVERT_SAME);
        return;
    }
    while (entry < end && (entry->from != first->currency || entry->to != to))
        entry++;
    if (entry == end) {
        reached(CONVERT_NONE);
        return;
    }
    reached(CONVERT_AT + (unsigned)(entry - setup->conversion));
    reached(CONVERT_SHIFT + (unsigned)(entry->shift + 9));
    for (int i = entry->shift; i != 0; i += i < 0 ? 1 : -1)
        power *= 10;
    uint64_t result = first->amount * entry->digits;
    if (entry->shift < 0)
        result = observe_fraction(setup->syllabus, result, power);
    else
        result *= power;
    reached_if(result == AMOUNT_MAX, CONVERT_MAX);
    reached_if(result > AMOUNT_MAX, CONVERT_OVER + (result > AMOUNT_MAX + 1));
    reached_if(result >> 63, CONVERT_WIDE);
}

static void observe_amount(const struct setup *setup,
                           const struct profile *profile,
                           const struct first *first)
{
    if (profile->mta_on)
        observe_conversion(setup, first, profile->mta_currency);
    for (unsigned i = 0; i < ACCUMULATORS; i++)
        if (profile->accumulator[i].switches & ACTIVE)
            observe_conversion(setup, first, setup->currency[i]);
    for (unsigned i = 0; i < setup->cyclics; i++)
        if (profile->cyclic[i].switches & ACTIVE)
            observe_conversion(setup, first, setup->cyclic[i].currency);
}

/* The tests, and what changes the values: the card before, the transaction
 * after ---------------------------------------------------------------- */

/* One limit of one accumulator; row counts from the lower ones on. */
static void observe_limit(unsigned row, unsigned switches, uint64_t value,
                          struct converted added, uint64_t limit)
{
    const bool included = switches & INCLUDE;

    if (!(switches & ACTIVE)) {
        reached_if(value > limit, TEST_INACTIVE + row);
        return;
    }
    if (value > limit) {
        reached(TEST_VALUE + row);
        reached_if(included && added.how == NO_ENTRY, TEST_UNCONVERTED + row);
        return;
    }
    if (added.how == NO_ENTRY)
        return;
    if (added.how == OVER) {
        reached((included ? TEST_OVER : TEST_OVER_LEFT_OUT) + row);
        reached_if(included && value == 0 && limit == AMOUNT_MAX,
                   TEST_OVER_AT_MAX + row);
        reached_if(included && !(switches & ALLOW),
                   TEST_OVER_NOT_ALLOWED + row);
        return;
    }
    const bool exceeds = value + added.amount > limit;
    reached_if(included && exceeds, TEST_SUM + row);
    reached_if(included && exceeds && limit == AMOUNT_MAX,
               TEST_SUM_OVER + row);
    reached_if(included && exceeds && !(switches & ALLOW),
               TEST_NOT_ALLOWED + row);
    reached_if(included && value + added.amount == limit, TEST_EQUAL + row);
    reached_if(!included && exceeds, TEST_LEFT_OUT + row);
}

static void observe_count(unsigned row, unsigned switches, unsigned value,
                          unsigned limit)
{
    const bool included = switches & INCLUDE;

    if (!(switches & ACTIVE)) {
        reached_if(value > limit, COUNT_INACTIVE + row);
        return;
    }
    if (value > limit) {
        reached(COUNT_VALUE + row);
        return;
    }
    const bool exceeds = value + 1 > limit;
    reached_if(included && exceeds, COUNT_SUM + row);
    reached_if(included && exceeds && limit == COUNTER_MAX, COUNT_256 + row);
    reached_if(included && exceeds && !(switches & ALLOW),
               COUNT_NOT_ALLOWED + row);
    reached_if(included && value + 1 == limit, COUNT_EQUAL + row);
    reached_if(!included && exceeds, COUNT_LEFT_OUT + row);
}

/* Whether a slot, accumulators 0 to 3, counters 4 to 7, is closed to the
 * transaction. */
static bool is_closed(const struct setup *setup, const struct transaction *open,
                      unsigned slot)
{
    if (!is_cpace(setup))
        return false;
    return (slot < 4 ? setup->accumulator_control[slot]
                     : setup->counter_control[slot - 4]) & open->cvm;
}

/* Its switches, less those that the gate takes away. */
static unsigned switches_of(const struct card *before,
                            const struct transaction *open, unsigned slot)
{
    const struct profile *profile = open->profile;
    unsigned on = slot < 4 ? profile->accumulator[slot].switches
                           : profile->counter[slot - 4].switches;

    if (is_closed(&before->setup, open, slot))
        on &= ACTIVE | INCLUDE_DECLINES;
    return on;
}

static bool all_closed(const struct setup *setup,
                       const struct transaction *open)
{
    bool all = true;

    for (unsigned slot = 0; slot < 8; slot++)
        all = all && is_closed(setup, open, slot);
    return all;
}

/* What a closed slot's tests leave out, and what they do not. */
static void observe_closed_tests(const struct card *before,
                                 const struct transaction *open)
{
    for (unsigned i = 0; i < ACCUMULATORS; i++) {
        const struct accumulator_rule *rule = &open->profile->accumulator[i];
        const struct converted added = open->for_accumulator[i];
        const uint64_t value = before->accumulator[i];
        const uint64_t limits[] = {rule->lower, rule->upper};
        if (!is_closed(&before->setup, open, i) || !(rule->switches & ACTIVE))
            continue;
        for (unsigned j = 0; j < 2; j++) {
            const unsigned row = 4 * j + i;
            const bool included = rule->switches & INCLUDE
                && value <= limits[j];
            reached_if(value > limits[j], GATE_VALUE + row);
            reached_if(included && added.how == OVER, GATE_OVER + row);
            reached_if(included && added.how == CONVERTED
                       && value + added.amount > limits[j], GATE_SUM + row);
        }
    }
    for (unsigned i = 0; i < COUNTERS; i++) {
        const struct counter_rule *rule = &open->profile->counter[i];
        const unsigned value = before->counter[i];
        const unsigned limits[] = {rule->lower, rule->upper};
        if (!is_closed(&before->setup, open, 4 + i)
            || !(rule->switches & ACTIVE))
            continue;
        for (unsigned j = 0; j < 2; j++) {
            const unsigned row = 8 + 4 * j + i;
            reached_if(value > limits[j], GATE_VALUE + row);
            reached_if(rule->switches & INCLUDE && value == limits[j],
                       GATE_SUM + row);
        }
    }
    reached_if(all_closed(&before->setup, open) && open->adr & MTA_EXCEEDED,
               GATE_MTA);
}

/* Slots that do not take an approval or order 11 up as they are closed, and
 * cyclic accumulators that do all the same. */
static void observe_closed_growth(const struct card *before,
                                  const struct transaction *open,
                                  unsigned where)
{
    for (unsigned i = 0; i < 8; i++) {
        const unsigned on = i < 4 ? open->profile->accumulator[i].switches
                                  : open->profile->counter[i - 4].switches;
        const struct converted one = {CONVERTED, 1};
        const struct converted added = i < 4 ? open->for_accumulator[i] : one;
        const bool full = i < 4 ? before->accumulator[i] == AMOUNT_MAX
                                : before->counter[i - 4] == COUNTER_MAX;
        if (!is_closed(&before->setup, open, i))
            continue;
        reached_if(counts_approvals((uint8_t)on) && !full
                   && (added.how == OVER
                       || (added.how == CONVERTED && added.amount > 0)),
                   GATE_ADDS + 3 * i + where);
    }
    for (unsigned i = 0; i < before->setup.cyclics; i++)
        reached_if(all_closed(&before->setup, open) && !open->date_error
                   && counts_approvals(open->profile->cyclic[i].switches)
                   && open->for_cyclic[i].how == CONVERTED
                   && open->for_cyclic[i].amount > 0,
                   GATE_CYCLIC + 2 * i + 1);
}

/* The CVM of the results, as C.80 lists them, and the slots that it meets. */
static void observe_cvm(const struct card *before,
                        const struct transaction *open,
                        const struct first *first)
{
    const uint8_t *results = first->cvm_results;
    const unsigned low = results[0] % 0x40u;
    const bool done = results[2] == 0;
    const bool pin = low == 0x02, signature = low == 0x1E;
    const unsigned is = done && pin ? 2 : done && signature ? 1 : 0;

    assert(open->cvm == 1u << is);
    if (is > 0) {
        const unsigned row = CVM_UNASKED + (is == 2 ? 0 : 3);
        reached(CVM_IS + (is == 1));
        reached_if(results[0] & 0x80, row + 0);
        reached_if(results[0] & 0x40, row + 1);
        reached_if(results[1] > 0, row + 2);
    } else if (pin || signature) {
        reached(CVM_IS + 3 + signature);
    } else if (low == 0x01 || (low >= 0x03 && low <= 0x05)) {
        reached(CVM_IS + 5); /* by the terminal's word */
    } else if (low == 0x22 || low == 0x3E) {
        reached(CVM_IS + 6);
    } else {
        reached(CVM_IS + (low == 0x1F ? 2 : 7));
    }
    for (unsigned i = 0; i < 8; i++) {
        const unsigned control = i < 4
            ? before->setup.accumulator_control[i]
            : before->setup.counter_control[i - 4];
        const unsigned on = i < 4 ? open->profile->accumulator[i].switches
                                  : open->profile->counter[i - 4].switches;
        if (!(on & ACTIVE))
            continue;
        if (control >> is & 1)
            reached(GATE_CLOSED + 3 * i + is);
        else
            reached_if(control & 7, GATE_OPEN + i);
        reached_if(control == 8, GATE_OFFLINE + i);
    }
}

static void observe_cashback(const struct transaction *open,
                             const struct first *first, unsigned gives)
{
    const uint8_t *bytes = first->cashback;
    unsigned some = 0;
    bool digits = true;

    for (unsigned i = 0; i < 6; i++) {
        some += bytes[i] > 0;
        digits = digits && bytes[i] % 16 < 10 && bytes[i] < 0xA0;
    }
    assert(!(open->adr & CASHBACK)
           == (some == 0 || !open->profile->cashback_check));
    if (!open->profile->cashback_check) {
        reached_if(some > 0, CASHBACK_UNCHECKED);
        return;
    }
    if (some == 0) {
        reached(CASHBACK_IS + 0);
        return;
    }
    if (some == 1)
        reached(CASHBACK_IS + (bytes[5] > 0 ? 1 : bytes[0] > 0 ? 2 : 3));
    else
        reached(CASHBACK_IS + 4);
    reached_if(!digits, CASHBACK_IS + 5);
    reached_if(bytes[0] & 0x80, CASHBACK_IS + 6);
    reached(CASHBACK_GIVES + gives);
    reached_if(open->date_error, CASHBACK_ERROR);
}

/* The cyclic amounts are those that are tested. */
static void observe_checks(const struct card *before,
                           const struct transaction *open,
                           const uint64_t *cyclic)
{
    const struct profile *profile = open->profile;

    observe_closed_tests(before, open);
    if (!profile->mta_on)
        reached(MTA_IS_OFF);
    else if (open->for_mta.how == NO_ENTRY)
        reached(MTA_UNCONVERTED);
    else if (open->for_mta.how == OVER)
        reached(MTA_OVER + (profile->mta == AMOUNT_MAX));
    else if (open->for_mta.amount > profile->mta)
        reached(MTA_BROKEN);
    else
        reached(MTA_KEPT + (open->for_mta.amount == profile->mta));
    for (unsigned i = 0; i < ACCUMULATORS; i++) {
        const struct accumulator_rule *rule = &profile->accumulator[i];
        const unsigned on = switches_of(before, open, i);
        observe_limit(i, on, before->accumulator[i], open->for_accumulator[i],
                      rule->lower);
        observe_limit(i + 4, on, before->accumulator[i],
                      open->for_accumulator[i], rule->upper);
    }
    for (unsigned i = 0; i < COUNTERS; i++) {
        const struct counter_rule *rule = &profile->counter[i];
        const unsigned on = switches_of(before, open, 4 + i);
        observe_count(i, on, before->counter[i], rule->lower);
        observe_count(i + 4, on, before->counter[i], rule->upper);
    }
    for (unsigned i = 0; i < before->setup.cyclics && !open->date_error; i++) {
        const struct cyclic_rule *rule = &profile->cyclic[i];
        observe_limit(8 + i, rule->switches, cyclic[i], open->for_cyclic[i],
                      rule->limit);
        reached_if(all_closed(&before->setup, open) && cyclic[i] <= rule->limit
                   && open->adr & (uint32_t)CYCLIC_LIMIT << i,
                   GATE_CYCLIC + 2 * i);
    }
}

/* What grows by an amount; true if it does. */
static bool observe_growth(unsigned row, unsigned on, uint64_t value,
                           struct converted added)
{
    if (!(on & ACTIVE))
        reached(GROW_INACTIVE + row);
    else if (!(on & ALLOW))
        reached(GROW_NOT_ALLOWED + row);
    else if (added.how == NO_ENTRY)
        reached(GROW_UNCONVERTED + row);
    else if (added.how == OVER)
        reached(GROW_OVER + row);
    else if (value + added.amount > AMOUNT_MAX)
        reached(GROW_STOPPED + row);
    else
        reached_if(added.amount > 0, GROW_ADDED + row);
    return counts_approvals((uint8_t)on) && added.how != NO_ENTRY
        && (added.how == OVER || added.amount > 0) && value < AMOUNT_MAX;
}

/* At First, after Y3 or Z3, or by order 11. */
enum where { AT_FIRST, AT_UNABLE, AT_ORDER };

static void observe_approval(const struct card *before,
                             const struct transaction *open,
                             const uint64_t *cyclic, enum where where)
{
    bool grows = false;

    observe_closed_growth(before, open, where);
    for (unsigned i = 0; i < ACCUMULATORS; i++)
        if (observe_growth(i, switches_of(before, open, i),
                           before->accumulator[i], open->for_accumulator[i]))
            grows = true;
    reached_if(open->date_error && grows, ERROR_GROWS + where);
    for (unsigned i = 0; i < before->setup.cyclics; i++) {
        const unsigned on = open->profile->cyclic[i].switches;
        const struct converted added = open->for_cyclic[i];
        if (!open->date_error)
            observe_growth(4 + i, on, cyclic[i], added);
        else
            reached_if(counts_approvals((uint8_t)on)
                       && (added.how == OVER
                           || (added.how == CONVERTED && added.amount > 0)),
                       ERROR_UNCOUNTED + 3 * i + where);
    }
    for (unsigned i = 0; i < COUNTERS; i++) {
        const unsigned on = switches_of(before, open, 4 + i);
        if (!(on & ACTIVE))
            reached(COUNT_UNTOUCHED + i);
        else if (!(on & ALLOW))
            reached(COUNT_KEPT + i);
        else if (before->counter[i] == COUNTER_MAX)
            reached(COUNT_STOPPED + i);
        else
            reached(COUNT_ADDED + i);
    }
}

static bool counts_any_decline(const struct profile *profile)
{
    bool any = false;

    for (unsigned i = 0; i < COUNTERS; i++)
        any = any || counts_declines(profile->counter[i].switches);
    return any;
}

static void observe_decline(const struct card *before,
                            const struct transaction *open)
{
    const bool second = before->due == SECOND_DUE;

    for (unsigned i = 0; i < COUNTERS; i++) {
        const struct counter_rule *rule = &open->profile->counter[i];
        const unsigned row = i + 4 * second;
        const unsigned value = before->counter[i];
        if (!(rule->switches & ACTIVE)) {
            reached(DECLINE_INACTIVE + row);
        } else if (!(rule->switches & ALLOW)) {
            reached_if(rule->switches & INCLUDE_DECLINES,
                       DECLINE_NOT_ALLOWED + row);
        } else if (!(rule->switches & INCLUDE_DECLINES)) {
            reached(DECLINE_LEFT_OUT + row);
        } else if (value == COUNTER_MAX) {
            reached(DECLINE_STOPPED + row);
        } else {
            reached(DECLINE_ADDED + row);
            reached_if(is_closed(&before->setup, open, 4 + i),
                       GATE_DECLINES + row);
            reached_if(value == COUNTER_MAX - 1, DECLINE_TO_255 + row);
            reached_if(!second && value == rule->lower
                       && !(open->adr & COUNTERS_LOWER), DECLINE_PASSES + 0);
            reached_if(!second && value == rule->upper
                       && !(open->adr & COUNTERS_UPPER), DECLINE_PASSES + 1);
        }
    }
}

/* CSU byte 2 b2-b1. */
static void observe_update(const struct card *before,
                           const struct transaction *open, unsigned order)
{
    const struct profile *profile = open->profile;

    if (order == 3)
        observe_approval(before, open, before->cyclic, AT_ORDER);
    for (unsigned i = 0; i < before->setup.cyclics; i++) {
        const bool active = profile->cyclic[i].switches & ACTIVE;
        const bool to_limit = order == 1
            && before->cyclic[i] != profile->cyclic[i].limit;
        const bool to_zero = order == 2 && before->cyclic[i] != 0;
        const bool error = active && open->date_error;
        reached_if(to_limit,
                   (active ? ORDER_UPPER : ORDER_UPPER_INACTIVE) + 4 + i);
        reached_if(to_zero,
                   (active ? ORDER_ZERO : ORDER_ZERO_INACTIVE) + 4 + i);
        reached_if(error && to_limit, ERROR_ORDER + 2 * i);
        reached_if(error && to_zero, ERROR_ORDER + 2 * i + 1);
    }
    for (unsigned i = 0; i < ACCUMULATORS; i++) {
        const bool active = profile->accumulator[i].switches & ACTIVE;
        const uint64_t value = before->accumulator[i];
        const uint64_t upper = profile->accumulator[i].upper;
        const bool closed = active && is_closed(&before->setup, open, i);
        if (order == 1 && value != upper)
            reached((active ? ORDER_UPPER : ORDER_UPPER_INACTIVE) + i);
        if (order == 2 && value != 0)
            reached((active ? ORDER_ZERO : ORDER_ZERO_INACTIVE) + i);
        reached_if(closed && order == 1 && value != upper,
                   GATE_ORDERED + 2 * i);
        reached_if(closed && order == 2 && value != 0,
                   GATE_ORDERED + 2 * i + 1);
    }
    for (unsigned i = 0; i < COUNTERS; i++) {
        const bool active = profile->counter[i].switches & ACTIVE;
        const uint8_t value = before->counter[i];
        const uint8_t upper = profile->counter[i].upper;
        const bool closed = active && is_closed(&before->setup, open, 4 + i);
        reached_if(closed && order == 1 && value != upper,
                   GATE_ORDERED + 8 + 2 * i);
        reached_if(closed && order == 2 && value != 0,
                   GATE_ORDERED + 8 + 2 * i + 1);
        if (order == 1 && value != upper)
            reached((active ? ORDER_UPPER_COUNTER
                            : ORDER_UPPER_COUNTER_INACTIVE) + i);
        if (order == 2 && value != 0)
            reached((active ? ORDER_ZERO_COUNTER
                            : ORDER_ZERO_COUNTER_INACTIVE) + i);
    }
}

/* The values as they are after the step. */
static void observe_sent(const struct card *after)
{
    const struct profile *profile = after->open.profile;
    const unsigned sent = profile->accumulator_sent;

    reached(IAD_SENT + sent);
    if (sent > 0 && after->accumulator[sent - 1] > 0
        && !(profile->accumulator[sent - 1].switches & ACTIVE))
        reached(IAD_SENT_INACTIVE + sent - 1);
    reached(IAD_SENT_FIRST + profile->counter_sent[0]);
    reached(IAD_SENT_SECOND + profile->counter_sent[1]);
    reached_if(profile->counter_sent[0] > 0
               && profile->counter_sent[0] == profile->counter_sent[1],
               IAD_SENT_SAME);
    for (unsigned i = 0; i < 2; i++) {
        const unsigned counter = profile->counter_sent[i];
        if (counter > 0 && after->counter[counter - 1] > 0
            && !(profile->counter[counter - 1].switches & ACTIVE))
            reached(IAD_COUNTER_INACTIVE + counter - 1);
    }
}

/* First ----------------------------------------------------------------- */

/* Its place among those that are offline-only, 5 for none. */
static unsigned terminal_place(uint8_t terminal)
{
    static const uint8_t offline[] = {0x13, 0x16, 0x23, 0x26, 0x36};
    unsigned i = 0;

    while (i < 5 && offline[i] != terminal)
        i++;
    return i;
}

/* The number of the cycle in which a day falls (CPA Annex E). */
static unsigned cycle_of(const struct cyclic *cyclic, const struct date *date)
{
    switch (cyclic->kind) {
    case CYCLE_DAY:
        return date->number;
    case CYCLE_WEEK:
        return (date->number + WEEK - cyclic->first_day) / WEEK;
    default:
        return 12u * date->year + date->month;
    }
}

static bool same_cycle(const struct cyclic *cyclic, const struct date *one,
                       const struct date *other)
{
    return cycle_of(cyclic, one) == cycle_of(cyclic, other);
}

/* What a refused First's date would have done; the refusals 2, 5, 6 are
 * numbered from 0. */
static void observe_refused_date(const struct card *before,
                                 const uint8_t *bytes, unsigned refusal)
{
    struct date date;
    bool begins = false;

    if (!read_date(&date, bytes))
        return;
    for (unsigned i = 0; i < CYCLICS; i++)
        if (!same_cycle(&before->setup.cyclic[i], &before->last, &date))
            begins = true;
    if (date.number < before->last.number)
        reached(FIRST_REFUSED_PAST + refusal);
    else
        reached_if(begins, FIRST_REFUSED_NEW + refusal);
}

static void observe_first_refusal(const struct card *before,
                                  const struct first *first)
{
    const bool type = first->type > ARQC;
    const bool amount = first->amount > AMOUNT_MAX;
    const bool currency = !is_currency(first->currency);
    const bool dated = before->setup.cyclics > 0;
    struct date any;
    const bool no_day = dated && !read_date(&any, first->date);
    const unsigned refusal = before->due != FIRST_DUE ? 0 : type ? 1 : 2;

    if (before->due != FIRST_DUE) {
        reached_if(closed_by < NOT_CLOSED, CLOSED_FIRST + closed_by);
        reached(FIRST_REFUSED_2 + (before->due == SECOND_DUE));
        reached_if(type, FIRST_REFUSED_2_OF + 0);
        reached_if(amount || currency, FIRST_REFUSED_2_OF + 1);
        reached_if(no_day, FIRST_REFUSED_2_OF + 2);
    } else if (type) {
        reached(FIRST_REFUSED_5 + (first->type > 3));
        reached_if(amount || currency, FIRST_REFUSED_5_OF + 0);
        reached_if(no_day, FIRST_REFUSED_5_OF + 1);
    } else if (amount || currency) {
        reached_if(amount, FIRST_REFUSED_6_AMOUNT);
        reached_if(currency,
                   FIRST_REFUSED_6_CURRENCY + bad_digit(first->currency));
        reached_if(no_day, FIRST_REFUSED_6_OF_13);
    } else {
        reached_if(no_day, FIRST_REFUSED_13 + bad_date(first->date));
        return;
    }
    if (dated)
        observe_refused_date(before, first->date, refusal);
}

/* Why this type was given. */
static void observe_decision(const struct transaction *open,
                             const struct first *first, unsigned given)
{
    const struct profile *profile = open->profile;
    const uint32_t adr = open->adr;
    const bool online = adr & profile->online_mask;
    const bool by_default = adr & profile->default_mask;
    const unsigned offline = terminal_place(first->terminal);

    if (given == TC)
        closed_by = BY_FIRST_TC + (offline < 5);
    else if (given == AAC && first->type == AAC)
        closed_by = BY_FIRST_AAC;
    else if (given == AAC)
        closed_by = BY_FIRST_AAC + (adr & profile->decline_mask ? 1 : 2);
    reached_bits(adr, 0, DECISIONS, ADR_SET);
    if (given == AAC && counts_any_decline(profile)) {
        if (first->type == AAC)
            reached(DECLINE_BY + 0);
        else
            reached(DECLINE_BY + (adr & profile->decline_mask ? 1 : 2));
    }
    if (first->type == AAC) {
        reached(FIRST_AAC_ASKED);
    } else if (adr & profile->decline_mask) {
        reached(FIRST_AAC_DECLINE + first->type - 1);
        reached_if(online && first->type == TC, FIRST_AAC_BOTH);
        reached_alone(adr & profile->decline_mask, BY_DECLINE);
    } else if (first->type == ARQC) {
        reached(FIRST_ARQC_ASKED);
        reached_if(offline < 5 && by_default, FIRST_ARQC_DEFAULT);
    } else if (offline < 5 && given == AAC) {
        reached(FIRST_OFFLINE_AAC + offline);
        reached_alone(adr & profile->default_mask, BY_DEFAULT);
    } else if (offline < 5) {
        reached(FIRST_OFFLINE_TC + offline);
        reached_if(online, FIRST_OFFLINE_ONLINE);
    } else if (given == ARQC) {
        reached(FIRST_ONLINE_ARQC);
        reached_alone(adr & profile->online_mask, BY_ONLINE);
    } else {
        reached(FIRST_ONLINE_TC);
        reached_if(by_default, FIRST_ONLINE_DEFAULT);
    }
}

/* The date ---------------------------------------------------------------- */

/* A date's last day of the month, by its bytes. */
static bool ends_month(const uint8_t *date, unsigned year)
{
    switch (date[1]) {
    case 0x02:
        return date[2] == (year % 4 == 0 ? 0x29 : 0x28);
    case 0x04:
    case 0x06:
    case 0x09:
    case 0x11:
        return date[2] == 0x30;
    default:
        return date[2] == 0x31;
    }
}

/* A later date in the same cycle. */
static void observe_span(const struct cyclic *cyclic, const struct date *last,
                         const struct date *now, const uint8_t *date)
{
    const unsigned days = (unsigned)now->number - last->number;

    if (cyclic->kind == CYCLE_WEEK) {
        reached_if(now->month != last->month, DATE_SPAN + 0);
        reached_if(now->year != last->year, DATE_SPAN + 1);
        reached_if((now->number + 1) % WEEK == cyclic->first_day,
                   DATE_SPAN + 2);
        reached_if(days == 6, DATE_SPAN + 4);
    } else {
        reached_if(ends_month(date, now->year), DATE_SPAN + 3);
        reached_if(days > 28, DATE_SPAN + 5);
    }
}

static void observe_begun(unsigned place, const struct cyclic *cyclic,
                          const struct date *last, const struct date *now,
                          const uint8_t *date)
{
    reached(CYCLE_BEGINS + 3 * place + cyclic->kind - 1);
    if (cyclic->kind == CYCLE_WEEK) {
        reached(DATE_FIRST_OF + (now->number % WEEK != cyclic->first_day));
        reached_if(now->number - last->number < WEEK, DATE_WEEK_AGAIN + place);
    }
    if (cyclic->kind == CYCLE_MONTH) {
        reached(DATE_FIRST_OF + 2 + (date[2] != 0x01));
        reached_if(now->month == last->month, DATE_MONTH_AGAIN + place);
    }
}

/* By the First's type and what it gave: AAC requested, AAC, ARQC, TC. */
static unsigned gives(const struct first *first, unsigned given)
{
    if (given == AAC)
        return first->type != AAC;
    return given == ARQC ? 2 : 3;
}

/* An amount that was not 0 when its cycle began. */
static void observe_cleared(unsigned place, const struct card *before,
                            const struct transaction *open,
                            const struct first *first, unsigned given)
{
    const struct cyclic_rule *rule = &open->profile->cyclic[place];
    const struct converted added = open->for_cyclic[place];
    const bool active = rule->switches & ACTIVE;
    const bool exceeds = open->adr & (uint32_t)CYCLIC_LIMIT << place;
    uint64_t kept = before->cyclic[place];

    reached(CYCLE_CLEARS + 3 * place
            + (active ? !(rule->switches & ALLOW) : 2));
    reached(CYCLE_CLEARS_AT + 4 * place + gives(first, given));
    if (rule->switches & INCLUDE && added.how == CONVERTED)
        kept += added.amount;
    reached_if(active && kept > rule->limit && !exceeds,
               CYCLE_BEFORE_TEST + place);
    reached_if(exceeds, CYCLE_AND_OVER_LIMIT + place);
}

static void observe_error(const struct card *before,
                          const struct transaction *open,
                          const struct first *first, unsigned given)
{
    bool active = false;

    for (unsigned i = 0; i < CYCLICS; i++) {
        const struct cyclic *cyclic = &before->setup.cyclic[i];
        const struct cyclic_rule *rule = &open->profile->cyclic[i];
        const struct converted added = open->for_cyclic[i];
        const uint64_t value = before->cyclic[i];
        if (!same_cycle(cyclic, &open->date, &before->last))
            reached(ERROR_IN + 3 * i + 2);
        else
            reached(ERROR_IN + 3 * i + (cyclic->kind == CYCLE_MONTH));
        if (!(rule->switches & ACTIVE))
            continue;
        active = true;
        if (value > rule->limit)
            reached(ERROR_UNTESTED + 2 * i);
        else
            reached_if(rule->switches & INCLUDE
                       && (added.how == OVER
                           || (added.how == CONVERTED
                               && value + added.amount > rule->limit)),
                       ERROR_UNTESTED + 2 * i + 1);
    }
    reached_if(!active, ERROR_INACTIVE);
    reached(ERROR_GIVES + gives(first, given));
}

/* What the date of an accepted First did; the amounts that are tested. */
static void observe_date(const struct card *before, const struct card *after,
                         const struct first *first, unsigned given,
                         uint64_t *tested)
{
    const struct transaction *open = &after->open;
    const struct date *last = &before->last, *now = &open->date;
    const int days = (int)now->number - last->number;
    const bool leap = first->date[1] == 0x02 && first->date[2] == 0x29;
    bool begun[CYCLICS];

    assert(open->date_error == (days < 0));
    reached(DATE_IS + (days < 0 ? 0 : days < 2 ? 1 + (unsigned)days : 3));
    if (now->number == error_date)
        reached_if(recovered != (days < 0), ERROR_AGAIN + !recovered);
    error_date = 0;
    begun_open = false;
    if (days < 0) {
        assert(after->last.number == last->number);
        error_date = now->number;
        recovered = false;
        observe_error(before, open, first, given);
        return;
    }
    assert(after->last.number == now->number);
    reached_if(leap && days == 1, DATE_LEAP + 0);
    reached_if(now->year % 4 == 0 && first->date[1] == 0x03
               && first->date[2] == 0x01 && days == 1, DATE_LEAP + 1);
    reached_if(leap, DATE_LEAP + 2 + (now->year > 0));
    for (unsigned i = 0; i < CYCLICS; i++) {
        const struct cyclic *cyclic = &before->setup.cyclic[i];
        begun[i] = !same_cycle(cyclic, last, now);
        if (begun[i]) {
            observe_begun(i, cyclic, last, now, first->date);
            if (before->cyclic[i] > 0)
                observe_cleared(i, before, open, first, given);
            tested[i] = 0;
            begun_open = true;
        } else if (days > 0) {
            reached(CYCLE_GOES_ON + 2 * i + (cyclic->kind == CYCLE_MONTH));
            observe_span(cyclic, last, now, first->date);
        }
    }
    if (begun_open)
        reached(CYCLE_ONE + (begun[0] ? begun[1] ? 2 : 0 : 1));
    reached_if(days > 0, LAST_MOVES + given);
    reached_if(days > 0 && !begun_open, LAST_MOVES + 3);
}

static void observe_first(const struct card *before, const struct card *after,
                          const struct first *first, unsigned refusal)
{
    const struct transaction *open = &after->open;
    const unsigned given = open->cvr[0] >> 4 & 3;
    uint64_t cyclic[CYCLICS];

    observe_first_refusal(before, first);
    if (refusal != 0)
        return;
    observe_scripts_first(before, after, given);
    memcpy(cyclic, before->cyclic, sizeof cyclic);
    if (before->setup.cyclics > 0)
        observe_date(before, after, first, given, cyclic);
    for (unsigned i = 0; i < CYCLICS && given != TC; i++)
        assert(after->cyclic[i] == cyclic[i]);
    observe_amount(&before->setup, open->profile, first);
    if (is_cpace(&before->setup)) {
        observe_cvm(before, open, first);
        observe_cashback(open, first, gives(first, given));
    } else {
        assert(!(open->adr & CASHBACK));
    }
    observe_checks(before, open, cyclic);
    observe_decision(open, first, given);
    if (given == AAC)
        observe_decline(before, open);
    if (given == TC)
        observe_approval(before, open, cyclic, AT_FIRST);
    observe_sent(after);
}

/* Second ---------------------------------------------------------------- */

static void observe_second_refusal(const struct card *before,
                                   const struct second *second)
{
    const bool type = second->type > TC;
    const bool data = second->issuer_data > ISSUER_FAILED;

    if (before->due != SECOND_DUE) {
        reached_if(closed_by < NOT_CLOSED, CLOSED_SECOND + closed_by);
        reached(SECOND_REFUSED_2 + (before->due == FIRST_DUE));
        reached_if(type, SECOND_REFUSED_2_OF + 0);
        reached_if(data, SECOND_REFUSED_2_OF + 1);
    } else if (type) {
        reached(SECOND_REFUSED_5 + (second->type > 2));
        reached_if(data, SECOND_REFUSED_5_OF_6);
    } else {
        reached_if(data, SECOND_REFUSED_6 + !is_unable(second->code));
    }
}

/* What the issuer said, and the history that it meets. */
static void observe_issuer(const struct card *before,
                           const struct second *second)
{
    const uint32_t history = before->history;
    const unsigned status = second->csu[1];

    if (is_unable(second->code)) {
        reached(UNABLE + second->issuer_data
                + (second->code == UNABLE_Z3 ? 3u : 0u));
        reached_if(get32(second->csu) != 0, UNABLE_CSU);
    } else if (second->issuer_data == ISSUER_VERIFIED) {
        const unsigned order = status & 3;
        const uint32_t kept = status & 8 ? GO_ONLINE_NEXT : 0;
        reached_bits(history & ~kept, 0, HISTORY, VERIFIED_CLEARS);
        reached(VERIFIED_GO_ONLINE + (status >> 3 & 1));
        if (second->type == AAC)
            reached(VERIFIED_AAC_ASKED + order);
        else if (status & 0x80)
            reached(VERIFIED_TC + order);
        else
            reached(VERIFIED_NOT_APPROVED + order);
        reached_if(get32(second->csu) & 0xFF74FFFF, VERIFIED_OTHER_BITS);
    } else if (second->issuer_data == ISSUER_FAILED) {
        reached(FAILED_ASKED + second->type);
        reached_bits(history, 0, HISTORY, FAILED_KEEPS);
    } else {
        const bool required = before->setup.authentication_required;
        if (required)
            reached(ABSENT_REQUIRED + second->type);
        else
            reached(second->type == TC ? ABSENT_TC : ABSENT_AAC_ASKED);
        reached_bits(history, required ? 0 : 1, HISTORY, ABSENT_KEEPS);
    }
}

static unsigned way_of(const struct setup *setup, const struct second *second,
                       unsigned given)
{
    if (is_unable(second->code))
        return BY_UNABLE + (second->code == UNABLE_Z3 ? 3 : 0)
            + (given == TC ? 0 : 1 + (second->type == TC));
    if (second->issuer_data == ISSUER_VERIFIED)
        return BY_VERIFIED + (given == TC ? 0 : 4) + (second->csu[1] & 3);
    if (second->issuer_data == ISSUER_FAILED)
        return BY_FAILED;
    if (setup->authentication_required)
        return BY_ABSENT_REQUIRED;
    return BY_ABSENT + (given == TC);
}

/* After Y3 or Z3. */
static void observe_unable(const struct card *before,
                           const struct transaction *open,
                           const struct second *second, unsigned given)
{
    const struct profile *profile = open->profile;

    observe_checks(before, open, before->cyclic);
    reached_if(open->adr & CASHBACK, CASHBACK_UNABLE + (given == AAC));
    reached_if(open->date_error, ERROR_UNABLE + (given == AAC));
    if (given == TC) {
        observe_approval(before, open, before->cyclic, AT_UNABLE);
        reached(UNABLE_TC);
        reached_if(open->adr & profile->decline_mask, UNABLE_TC_DECLINE);
        return;
    }
    observe_decline(before, open);
    if (second->type == AAC) {
        reached(UNABLE_AAC_ASKED);
    } else {
        reached(UNABLE_AAC_DEFAULT);
        reached_alone(open->adr & profile->default_mask, UNABLE_BY_DEFAULT);
    }
}

/* The end of a transaction whose date was in error. */
static void observe_recovery(const struct card *before,
                             const struct transaction *open,
                             const struct second *second, unsigned given)
{
    const bool required = before->setup.authentication_required;
    bool active = false, amount = false;

    if (is_unable(second->code)) {
        reached(NO_RECOVERY + (given == TC ? 5 : 6));
        return;
    }
    if (given == AAC) {
        if (second->issuer_data == ISSUER_VERIFIED)
            reached(NO_RECOVERY + (second->type == AAC));
        else if (second->issuer_data == ISSUER_FAILED)
            reached(NO_RECOVERY + 2);
        else
            reached(NO_RECOVERY + (required ? 3 : 4));
        return;
    }
    for (unsigned i = 0; i < CYCLICS; i++) {
        active = active || open->profile->cyclic[i].switches & ACTIVE;
        amount = amount || before->cyclic[i] > 0;
    }
    reached(RECOVERY + (second->issuer_data == ISSUER_ABSENT));
    reached_if(!active, RECOVERY + 2);
    reached_if(amount, RECOVERY + 3);
    recovered = true;
}

static void observe_second(const struct card *before, const struct card *after,
                           const struct second *second, unsigned refusal)
{
    const struct transaction *open = &after->open;
    const unsigned given = open->cvr[0] >> 6;

    observe_second_refusal(before, second);
    if (refusal != 0)
        return;
    observe_scripts_second(before, after, second, given);
    observe_issuer(before, second);
    if (is_unable(second->code))
        observe_unable(before, open, second, given);
    else
        reached_if(given == AAC && counts_any_decline(open->profile),
                   DECLINE_ONLINE + second->issuer_data);
    if (!is_unable(second->code) && second->issuer_data == ISSUER_VERIFIED) {
        observe_update(before, open, second->csu[1] & 3);
        reached_if((second->csu[1] & 3) == 3
                   && all_closed(&before->setup, open),
                   GATE_ORDER_11 + (given == TC));
    }
    if (open->date_error)
        observe_recovery(before, open, second, given);
    assert(after->last.number
           == (open->date_error && recovered ? open->date : before->last)
                  .number);
    closed_by = way_of(&before->setup, second, given);
    observe_sent(after);
}

void observe(const struct sitting *before, const struct sitting *after,
             unsigned refusal)
{
    const struct card *was = &before->card, *is = &after->card;
    struct record record;

    if (refusal == 9)
        observe_unreadable_script(before);
    if (refusal == 14)
        observe_log_past(&is->setup);
    if (refusal == 1 || refusal == 9 || refusal == 14)
        return;
    if (before->record == 0) {
        observe_setup(&is->setup, before->at[0]);
        observe_log_setup(&is->setup);
        return;
    }
    record = record_at(before->at);
    observe_log_command(before, &record, refusal);
    switch (record.kind) {
    case KIND_START: {
        const struct start start = read_start(&record);
        observe_scripts_start(was, is, refusal);
        observe_start(was, is, &start, refusal);
        break;
    }
    case KIND_FIRST: {
        const struct first first = read_first(&record);
        observe_first(was, is, &first, refusal);
        if (refusal == 0)
            observe_log_answer(is, &record, closed_by,
                               is->open.cvr[0] >> 4 & 3);
        break;
    }
    case KIND_SECOND: {
        const struct second second = read_second(&record);
        observe_second(was, is, &second, refusal);
        if (refusal == 0)
            observe_log_answer(is, &record, closed_by, is->open.cvr[0] >> 6);
        break;
    }
    default: {
        const struct script script = read_script(&record);
        observe_script(was, is, &script, refusal);
        break;
    }
    }
    observe_log_line(after);
}

void observe_end(const struct sitting *sitting)
{
    observe_log_end(sitting);
}
