#include "fields.h"

#include <assert.h>

#include "dates.h"
#include "draft.h"
#include "invent.h"

static struct field table[FIELDS];
static size_t filled;

static void add(int part, size_t offset, unsigned width, uint64_t low,
                uint64_t high)
{
    assert(filled < FIELDS);
    table[filled].part = part;
    table[filled].offset = offset;
    table[filled].width = width;
    table[filled].kind = NUMBER;
    table[filled].low = low;
    table[filled].high = high;
    filled++;
}

static void add_currency(int part, size_t offset)
{
    add(part, offset, 2, 0, 0x999);
    table[filled - 1].kind = CURRENCY;
}

static void add_mask(size_t offset)
{
    add(IN_PROFILE, offset, 4, 0, ALL_BITS);
    table[filled - 1].kind = MASK;
}

const struct field *fields(void)
{
    if (filled > 0)
        return table;

    add(IN_HEAD, 1, 1, 0, 15); /* PIN tries */
    add(IN_HEAD, 2, 1, 0, 1);  /* authentication required */
    add(IN_HEAD, 7, 1, 0, 1);  /* go online next */
    for (size_t i = 0; i < 4; i++) {
        add_currency(IN_HEAD, 8 + 10 * i);
        add(IN_HEAD, 10 + 10 * i, 8, 0, MOST);
    }

    add(IN_PROFILE, 0, 1, 1, 124);
    for (size_t i = 0; i < 3; i++)
        add_mask(1 + 4 * i);
    add(IN_PROFILE, 13, 1, 0, 1); /* MTA */
    add_currency(IN_PROFILE, 14);
    add(IN_PROFILE, 16, 8, 0, MOST);
    for (size_t i = 0; i < 4; i++) {
        add(IN_PROFILE, 24 + 17 * i, 1, 0, 7);
        add(IN_PROFILE, 25 + 17 * i, 8, 0, MOST);
        add(IN_PROFILE, 33 + 17 * i, 8, 0, MOST);
    }
    for (size_t i = 0; i < 4; i++)
        add(IN_PROFILE, 92 + 3 * i, 1, 0, 15);
    for (size_t i = 0; i < 3; i++) /* what is sent */
        add(IN_PROFILE, 104 + i, 1, 0, 4);

    add_currency(IN_CONVERSION, 0);
    add_currency(IN_CONVERSION, 2);
    add(IN_CONVERSION, 4, 2, 1, 9999);
    add(IN_CONVERSION, 6, 1, 0, 12);

    assert(filled == BASE_FIELDS);
    add(IN_CYCLES, 0, 1, 0, 1);               /* dated */
    add(IN_CYCLES, 1, 3, 0x000101, 0x991231); /* the last date */
    table[filled - 1].kind = DATE;
    for (size_t i = 0; i < 2; i++) {
        add_currency(IN_CYCLES, 4 + 12 * i);
        add(IN_CYCLES, 6 + 12 * i, 8, 0, MOST);
        add(IN_CYCLES, 14 + 12 * i, 1, 1, 3); /* kind */
        add(IN_CYCLES, 15 + 12 * i, 1, 0, 6); /* first day */
        add(IN_LIMITS, 9 * i, 1, 0, 7);
        add(IN_LIMITS, 9 * i + 1, 8, 0, MOST);
    }

    assert(filled == BASE_FIELDS + CYCLES_FIELDS);
    add(IN_FAMILY, 0, 1, 0, 1);
    for (size_t i = 0; i < 8; i++) /* controls */
        add(IN_FAMILY, 1 + i, 1, 0, 15);
    add(IN_CHECKS, 0, 1, 0, 1); /* cashback */
    if (SCRIPTS_FIELDS > 0)
        add(IN_SCRIPTS, 0, 1, 0, 1);
    if (LOG_FIELDS > 0) {
        add(IN_LOG, 0, 1, 0, 1);
        add(IN_LOG, 1, 1, 0, 20); /* the ring's size */
        add(IN_LOGS, 0, 1, 0, 1);
    }
    assert(filled == FIELDS);
    return table;
}

bool has_field(const struct draft_setup *setup, const struct field *field)
{
    switch (field->part) {
    case IN_CYCLES:
    case IN_LIMITS:
        return draft_is_dated(setup);
    case IN_FAMILY:
    case IN_CHECKS:
        return draft_is_cpace(setup);
    case IN_SCRIPTS:
        return setup->version > 5;
    case IN_LOG:
    case IN_LOGS:
        return setup->version > 6 && setup->log;
    default:
        return true;
    }
}

bool is_of_profile(const struct field *field)
{
    return field->part == IN_PROFILE || field->part == IN_LIMITS
        || field->part == IN_CHECKS || field->part == IN_LOGS;
}

unsigned bad_values(const struct field *field)
{
    switch (field->kind) {
    case CURRENCY:
        return 4;
    case DATE:
        return NOT_DAYS;
    default:
        return field->low > 0 ? 3 : 2;
    }
}

/* The highest mask of a version. */
static uint64_t named_bits(unsigned version)
{
    if (version < 4)
        return ALL_BITS;
    return version < 5 ? ALL_BITS_04 : ALL_BITS_05;
}

uint64_t bad_value(struct chance *chance, const struct field *field,
                   unsigned version, unsigned which)
{
    if (field->kind == CURRENCY)
        return bad_currency(chance, which);
    if (field->kind == DATE)
        return not_day[which];
    switch (which) {
    case 0:
        return 1 + (field->kind == MASK ? named_bits(version) : field->high);
    case 1:
        return field->width == 8 ? UINT64_MAX
                                 : (UINT64_C(1) << 8 * field->width) - 1;
    default:
        return field->low - 1;
    }
}

size_t field_offset(const struct field *field, const struct draft_setup *setup,
                    unsigned place)
{
    const size_t offset = SETUP_BODY + field->offset;

    switch (field->part) {
    case IN_HEAD:
        return offset;
    case IN_PROFILE:
        return offset + SETUP_HEAD + (size_t)SETUP_PROFILE * place;
    case IN_CONVERSION:
        return offset + SETUP_HEAD + (size_t)SETUP_PROFILE * setup->profiles
            + (size_t)SETUP_CONVERSION * place;
    case IN_CYCLES:
        return offset + draft_setup_cycles(setup);
    case IN_LIMITS:
        return offset + draft_setup_cycles(setup) + SETUP_CYCLES
            + (size_t)SETUP_LIMITS * place;
    case IN_FAMILY:
        return offset + draft_setup_family(setup);
    case IN_CHECKS:
        return offset + draft_setup_family(setup) + SETUP_FAMILY + place;
    case IN_SCRIPTS:
        return offset + draft_setup_scripts(setup);
    case IN_LOG:
        return offset + draft_setup_log(setup);
    default:
        return offset + draft_setup_log(setup) + SETUP_LOG + place;
    }
}

void put_field(uint8_t *at, unsigned width, uint64_t value)
{
    for (unsigned i = width; i > 0; i--) {
        at[i - 1] = (uint8_t)value;
        value >>= 8;
    }
}
