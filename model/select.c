/* The Profile Selection File of CPA Annex A. An entry, behind its length E:
 * position P, block length L, number of blocks n, a bit mask of L bytes, n - 1
 * values of L bytes, check type, positive action, negative action.
 *
 * On a CPACE card (its C.45) a check type from 80 on tests an accumulator or a
 * counter against the one block there is, which then is no mask. */
#include <string.h>

#include "card.h"
#include "reached.h"

enum { ENTRY_MIN = 6 }; /* E without any block */
enum { AMOUNT_BYTES = 6, COUNT_BYTES = 1 };

struct entry {
    const uint8_t *blocks_at; /* the mask, and behind it the values */
    uint8_t position, width, blocks;
    uint8_t type, positive, negative;
};

enum { MATCH = 0, LESS = 1, GREATER = 2 };

/* Bits of a check type that tests a slot; which one is in b6 and b5. */
enum { OF_ACCUMULATOR = 0x40, ADDS = 0x02, GREATER_THAN_BLOCK = 0x01 };

/* False if its lengths do not fit each other. */
static bool read_entry(struct entry *entry, const uint8_t *at)
{
    const unsigned length = at[0];

    if (length < ENTRY_MIN)
        return fault(ENTRY_SHORT + (length > 0));
    entry->position = at[1];
    entry->width = at[2];
    entry->blocks = at[3];
    const unsigned blocks = (unsigned)entry->width * entry->blocks;
    if (length != blocks + ENTRY_MIN)
        return fault(ENTRY_MISMATCH + (length > blocks + ENTRY_MIN));
    entry->blocks_at = at + 4;
    entry->type = at[4 + blocks];
    entry->positive = at[5 + blocks];
    entry->negative = at[6 + blocks];
    return true;
}

/* Whether the stretch of data lies within them. */
static bool reaches(const struct entry *entry, const struct start *start)
{
    return (size_t)entry->position - 1 + entry->width <= start->length;
}

bool read_digits(uint64_t *value, const uint8_t *at)
{
    *value = 0;
    for (unsigned i = 0; i < AMOUNT_BYTES; i++) {
        const unsigned tens = at[i] >> 4, ones = at[i] & 15;
        if (tens > 9 || ones > 9)
            return false;
        *value = 100 * *value + 10 * tens + ones;
    }
    return true;
}

/* The amount that an entry adds to an accumulator stands at P. */
static bool read_added(const struct entry *entry, const struct start *start,
                       uint64_t *added)
{
    if (entry->position == 0)
        return fault(SLOT_POSITION);
    if (!reaches(entry, start))
        return fault(SLOT_PAST);
    if (!read_digits(added, start->data + entry->position - 1))
        return fault(SLOT_AMOUNT);
    return true;
}

/* Whether the accumulator or counter, with this transaction or without, is
 * greater or less than the block; false if the entry is not sound. Sums are
 * stopped as those are that the card stores. */
static bool test_slot(const struct card *card, const struct entry *entry,
                      const struct start *start, bool *positive)
{
    const unsigned slot = entry->type >> 4 & 3;
    uint64_t value, block, added = 0;

    if (entry->blocks != 1)
        return fault(SLOT_BLOCKS + (entry->blocks > 1));
    if (entry->type & OF_ACCUMULATOR) {
        if (slot == 0)
            return fault(SLOT_NONE);
        if (entry->width != AMOUNT_BYTES)
            return fault(SLOT_WIDTH + (entry->width > AMOUNT_BYTES));
        if (!read_digits(&block, entry->blocks_at))
            return fault(SLOT_BLOCK);
        if (entry->type & ADDS && !read_added(entry, start, &added))
            return false;
        value = card->accumulator[slot - 1] + added;
        if (value > AMOUNT_MAX)
            value = AMOUNT_MAX;
    } else {
        if (entry->width != COUNT_BYTES)
            return fault(SLOT_WIDTH + 2 + (entry->width > COUNT_BYTES));
        block = entry->blocks_at[0];
        value = card->counter[slot == 0 ? COUNTERS - 1 : slot - 1];
        if (entry->type & ADDS && value < COUNTER_MAX)
            value++;
    }
    *positive = entry->type & GREATER_THAN_BLOCK ? value > block
                                                 : value < block;
    return true;
}

/* The extracted bytes are masked, the values are not. Blocks are compared as
 * big-endian numbers of one width. */
static bool compare(const struct entry *entry, const uint8_t *data)
{
    const uint8_t *mask = entry->blocks_at;
    const uint8_t *value = mask + entry->width;
    const size_t width = entry->width;
    uint8_t masked[255];

    for (size_t i = 0; i < width; i++)
        masked[i] = data[entry->position - 1 + i] & mask[i];
    switch (entry->type) {
    case LESS:
        return memcmp(masked, value, width) < 0;
    case GREATER:
        return memcmp(masked, value, width) > 0;
    default:
        for (unsigned i = 1; i < entry->blocks; i++, value += width)
            if (memcmp(masked, value, width) == 0)
                return true;
        return false;
    }
}

/* Whether these data meet the entry; false if it is ill-formed or reaches past
 * them. */
static bool test_data(const struct entry *entry, const struct start *start,
                      bool *positive)
{
    if (entry->blocks < 2)
        return fault(ENTRY_BLOCKS + entry->blocks);
    if (entry->width == 0)
        return fault(ENTRY_WIDTH);
    if (entry->type > GREATER)
        return fault(ENTRY_TYPE + (entry->type > 3) + (entry->type >= 0x80));
    if (entry->position == 0)
        return fault(ENTRY_POSITION);
    if (!reaches(entry, start))
        return fault(ENTRY_PAST + (start->length > 0));
    *positive = compare(entry, start->data);
    return true;
}

static bool visit(const struct card *card, const struct start *start,
                  const uint8_t *at, struct entry *entry, bool *positive)
{
    if (!read_entry(entry, at))
        return false;
    return tests_slot(&card->setup, entry->type)
        ? test_slot(card, entry, start, positive)
        : test_data(entry, start, positive);
}

bool select_profile(const struct card *card, const struct start *start,
                    uint8_t *profile, unsigned *visits)
{
    const uint8_t *at = card->setup.selection.file;
    unsigned left = card->setup.selection.entries; /* this one and all below */
    struct entry entry;
    bool positive;

    if (left == 0)
        return fault(FILE_EMPTY);
    for (*visits = 1;; ++*visits) {
        if (!visit(card, start, at, &entry, &positive))
            return fault(FAULT_VISITED + (*visits > 1));
        const uint8_t action = positive ? entry.positive : entry.negative;
        if (action == 0x00)
            return fault(ACTION_00 + !positive);
        if (action == 0x80)
            return fault(ACTION_80 + !positive);
        if (action == 0x7F)
            return fault(ACTION_7F + !positive);
        if (action < 0x80) {
            *profile = action;
            return true;
        }
        const unsigned move = action & 0x7F;
        if (move >= left)
            return fault(MOVE_PAST + (move > left));
        left -= move;
        for (unsigned i = 0; i < move; i++)
            at += 1 + at[0];
    }
}
