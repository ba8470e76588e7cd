#include "damage.h"

#include <assert.h>
#include <string.h>

#include "bytes.h"
#include "fields.h"
#include "invent_log.h"

/* One field out of its range. */
static void damage_field(struct chance *chance, const struct draft_setup *setup,
                         struct draft *draft)
{
    const struct field *field;
    unsigned place = 0;

    do {
        field = &fields()[below(chance, FIELDS)];
    } while (!has_field(setup, field));
    if (is_of_profile(field))
        place = (unsigned)below(chance, setup->profiles);
    if (field->part == IN_CONVERSION) {
        if (setup->conversions == 0)
            return;
        place = (unsigned)below(chance, setup->conversions);
    }
    const unsigned which = (unsigned)below(chance, bad_values(field));
    uint64_t value = bad_value(chance, field, setup->version, which);
    if (field->width == 8 && percent(chance, 50))
        value = MOST + 1 + below(chance, UINT64_MAX - MOST);
    put_field(draft->bytes + field_offset(field, setup, place),
              field->width, value);
}

/* Two profiles or two pairs alike, or a pair of one currency. */
static void damage_twin(struct chance *chance, const struct draft_setup *setup,
                        struct draft *draft)
{
    uint8_t *body = draft->bytes + SETUP_BODY;
    uint8_t *conversions = body + SETUP_HEAD
        + (size_t)SETUP_PROFILE * setup->profiles;
    const size_t one = below(chance, 5);
    const size_t other = below(chance, 5);

    switch (below(chance, 3)) {
    case 0:
        if (one < setup->profiles && other < setup->profiles && one != other)
            body[SETUP_HEAD + SETUP_PROFILE * one] =
                body[SETUP_HEAD + SETUP_PROFILE * other];
        break;
    case 1:
        if (one < setup->conversions && other < setup->conversions
            && one != other)
            for (size_t i = 0; i < 4; i++)
                conversions[SETUP_CONVERSION * one + i] =
                    conversions[SETUP_CONVERSION * other + i];
        break;
    default:
        if (one < setup->conversions)
            for (size_t i = 0; i < 2; i++)
                conversions[SETUP_CONVERSION * one + 2 + i] =
                    conversions[SETUP_CONVERSION * one + i];
        break;
    }
}

/* A set-up body longer or shorter than p and c say, its record in order. */
static void damage_setup_length(struct chance *chance, struct draft *draft)
{
    uint8_t bytes[200] = {0};
    const size_t length = get16(draft->bytes + 1);
    const size_t count = 1 + below(chance, percent(chance, 50) ? 1 : 200);
    const size_t place = SETUP_BODY + length - 1;

    if (percent(chance, 50)) {
        draft_insert(draft, place, bytes, count);
        put16(draft->bytes + 1, (unsigned)(length + count));
    } else if (count < length) {
        draft_remove(draft, place - count, count);
        put16(draft->bytes + 1, (unsigned)(length - count));
    }
}

/* The set-up's record becomes so many bytes longer or shorter, at its end. */
static void resize_setup(struct draft *draft, int more)
{
    static const uint8_t bytes[64];
    const size_t length = get16(draft->bytes + 1);
    const size_t place = SETUP_BODY + length - 1;

    if (more > 0)
        draft_insert(draft, place, bytes, (size_t)more);
    else
        draft_remove(draft, place - (size_t)-more, (size_t)-more);
    put16(draft->bytes + 1, (unsigned)((int)length + more));
}

/* One of so many fields from this one on out of its range. */
static void damage_one_of(struct chance *chance,
                          const struct draft_setup *setup, struct draft *draft,
                          size_t from, size_t count)
{
    const size_t which = below(chance, count);
    const struct field *field = &fields()[from + which];
    const unsigned any = (unsigned)below(chance, setup->profiles);
    const unsigned place = is_of_profile(field) ? any : 0;
    const unsigned bad = (unsigned)below(chance, bad_values(field));
    const uint64_t out = bad_value(chance, field, setup->version, bad);

    put_field(draft->bytes + field_offset(field, setup, place), field->width,
              out);
}

/* The tail of version 04: its switch, one field out of range, or its length,
 * off by a field, by an accumulator or by a profile. */
static void damage_cycles(struct chance *chance,
                          const struct draft_setup *setup, struct draft *draft)
{
    static const int sizes[] = {1, -1, 3, -3, 9, -9, 12, -12, 18, -18, 28, -28};
    uint8_t *at = draft->bytes + SETUP_BODY + draft_setup_cycles(setup);
    const uint8_t value = any_byte(chance);

    if (percent(chance, 25) || !setup->dated) {
        *at = percent(chance, 50) ? 2 : value;
        if (percent(chance, 50))
            *at = !setup->dated;
        return;
    }
    if (percent(chance, 40)) {
        resize_setup(draft, PICK(chance, sizes));
        return;
    }
    damage_one_of(chance, setup, draft, BASE_FIELDS, CYCLES_FIELDS);
}

/* The tail of version 05: its family, one field out of range, or its length,
 * off by a field, by the controls or by the switches. */
static void damage_family(struct chance *chance,
                          const struct draft_setup *setup, struct draft *draft)
{
    static const int sizes[] = {1, -1, 2, -2, 4, -4, 8, -8, 9, -9};
    uint8_t *at = draft->bytes + SETUP_BODY + draft_setup_family(setup);
    const uint8_t value = any_byte(chance);

    if (percent(chance, 25) || !setup->family) {
        *at = percent(chance, 50) ? 2 : value;
        if (percent(chance, 50))
            *at = !setup->family;
    } else if (percent(chance, 40)) {
        resize_setup(draft, PICK(chance, sizes));
    } else {
        damage_one_of(chance, setup, draft, BASE_FIELDS + CYCLES_FIELDS,
                      FAMILY_FIELDS);
    }
}

/* The tail of version 06: its switch, or a byte more or less. */
static void damage_scripts(struct chance *chance,
                           const struct draft_setup *setup, struct draft *draft)
{
    uint8_t *at = draft->bytes + SETUP_BODY + draft_setup_scripts(setup);
    const uint8_t value = any_byte(chance);

    switch (below(chance, 4)) {
    case 0:
        *at = !setup->scripts;
        break;
    case 1:
        *at = percent(chance, 50) ? 2 : value;
        break;
    default:
        resize_setup(draft, percent(chance, 50) ? 1 : -1);
        break;
    }
}

/* The tail of version 07: its switch, or a byte more or less, or three; a byte
 * of what it has if it is on. */
static void damage_log_tail(struct chance *chance,
                            const struct draft_setup *setup,
                            struct draft *draft)
{
    static const int sizes[] = {1, -1, 1, -1, 3, -3};
    uint8_t *at = draft->bytes + SETUP_BODY + draft_setup_log(setup);
    const uint8_t value = any_byte(chance);

    if (setup->log && percent(chance, 70))
        damage_log(chance, setup, draft);
    else if (percent(chance, 60))
        resize_setup(draft, PICK(chance, sizes));
    else
        *at = percent(chance, 50) ? !setup->log : value;
}

/* One byte of the tails that has a range or delimits: the syllabus, the switch,
 * the number of entries, or the length of one of them. */
static void damage_tail(struct chance *chance, const struct draft_setup *setup,
                        struct draft *draft)
{
    uint8_t *at = draft->bytes + SETUP_BODY + draft_setup_base(setup);
    const uint8_t value = any_byte(chance);

    if (setup->version < 2)
        return;
    if (setup->version > 6 && percent(chance, 75)) {
        damage_log_tail(chance, setup, draft);
        return;
    }
    if (setup->version > 5 && percent(chance, 50)) {
        damage_scripts(chance, setup, draft);
        return;
    }
    if (setup->version > 4 && percent(chance, 60)) {
        damage_family(chance, setup, draft);
        return;
    }
    if (setup->version > 3 && percent(chance, 60)) {
        damage_cycles(chance, setup, draft);
        return;
    }
    if (setup->version > 2 && percent(chance, 50)) {
        at = draft->bytes + SETUP_BODY + draft_setup_cycles(setup) - 1;
        *at = percent(chance, 50) ? 2 : value;
        return;
    }
    if (percent(chance, 20) || !setup->file.on) {
        *at = percent(chance, 50) ? 2 : value;
        return;
    }
    at++;
    if (percent(chance, 40) || setup->file.entries == 0) {
        *at = percent(chance, 50) ? (uint8_t)(*at + 1) : (uint8_t)(*at - 1);
        return;
    }
    at++;
    for (uint64_t i = below(chance, setup->file.entries); i > 0; i--)
        at += 1 + at[0];
    *at = percent(chance, 50) ? value : (uint8_t)(*at + 1);
}

void damage_record(struct chance *chance, const struct draft_setup *setup,
                   struct draft *draft)
{
    const bool dated = draft_is_dated(setup), cpace = draft_is_cpace(setup);
    const uint8_t sizes[] = {cpace ? 2 : 1,
                             (uint8_t)(12 + (dated ? 3 : 0) + (cpace ? 9 : 0)),
                             8};
    uint8_t bytes[64];
    const size_t which = below(chance, draft->records + 1);
    const size_t place =
        which < draft->records ? draft->start[which] : draft->length;
    const size_t kind = below(chance, 3);
    size_t length = sizes[kind];

    for (size_t i = 0; i < sizeof bytes; i++)
        bytes[i] = any_byte(chance);
    bytes[2] = (uint8_t)(kind + 2);
    if (setup->version > 5 && percent(chance, 20)) { /* a Script's body */
        put16(bytes, percent(chance, 50) ? 1 : 2);
        bytes[2] = KIND_SCRIPT;
        draft_insert(draft, place, bytes, 2 + (size_t)get16(bytes));
        return;
    }
    switch (below(chance, 5)) {
    case 0: /* no kind */
        put16(bytes, 0);
        draft_insert(draft, place, bytes, 2);
        return;
    case 1: /* no such kind */
        bytes[2] = percent(chance, 50) ? 0 : (uint8_t)(5 + below(chance, 251));
        break;
    case 2: /* a body too short or too long */
        if (kind == 1 && percent(chance, 50))
            length -= cpace && percent(chance, 70) ? 9 : 3;
        else
            length -= kind == 0 && percent(chance, 30) ? length : 1;
        break;
    case 3:
        length += 1 + below(chance, percent(chance, 50) ? 1 : 30);
        if (kind == 1 && percent(chance, 50))
            length = (size_t)sizes[kind] + (percent(chance, 60) ? 3 : 9);
        break;
    default: /* a second set-up, of any length */
        bytes[2] = 1;
        break;
    }
    put16(bytes, (unsigned)(length + 1));
    draft_insert(draft, place, bytes, 3 + length);
}

void damage_length(struct chance *chance, struct draft *draft)
{
    const size_t start = draft->start[below(chance, draft->records)];
    const unsigned length = get16(draft->bytes + start);

    switch (below(chance, 4)) {
    case 0:
        put16(draft->bytes + start, length + 1);
        break;
    case 1:
        put16(draft->bytes + start, length - 1);
        break;
    case 2:
        put16(draft->bytes + start, 0xFFFF);
        break;
    default:
        put16(draft->bytes + start, (unsigned)below(chance, 0x10000));
        break;
    }
}

static void damage_bytes(struct chance *chance, struct draft *draft)
{
    for (uint64_t i = 1 + below(chance, 3); i > 0; i--) {
        const size_t place = below(chance, draft->length);
        const bool bit = percent(chance, 50);
        const uint8_t value = any_byte(chance);
        if (bit)
            draft->bytes[place] ^= (uint8_t)(1 << (value & 7));
        else
            draft->bytes[place] = value;
    }
}

void fill_up(struct draft *draft, const struct draft_setup *setup,
             size_t length)
{
    static const uint8_t start[] = {CONTACT, 0};
    const bool cpace = draft_is_cpace(setup);
    const bool longer = draft_is_dated(setup) || cpace;
    const size_t size = longer ? 11 : 15;

    assert(length >= draft->length + 56);
    while ((length - draft->length) % size != 0)
        draft_data(draft, start, cpace ? 2 : 1);
    while (draft->length < length)
        if (longer)
            draft_second(draft, TC, Y3, ABSENT, 0);
        else
            draft_first(draft, TC, 1, EUR, ONLINE_TERMINAL);
}

/* About as long as a paper may be: just so, or over. */
static void damage_size(struct chance *chance, const struct draft_setup *setup,
                        struct draft *draft)
{
    const size_t more = below(chance, 3);

    fill_up(draft, setup, PAPER + (more == 1));
    if (more == 2) {
        const size_t count = 1 + below(chance, 40000);
        memset(draft->bytes + draft->length, 0, count);
        draft->length += count;
    }
}

void damage(struct chance *chance, const struct draft_setup *setup,
            struct draft *draft)
{
    static const uint8_t versions[] = {
#if LATEST > 6
        7,
#endif
#if LATEST > 5
        6,
#endif
        0, 1, 2, 3, 4, 5, LATEST + 1, 0x10, 0x80, 0x81, 0xFF};
    uint8_t tail[4];
    size_t place;

    if (below(chance, 400) == 0) {
        damage_size(chance, setup, draft);
        return;
    }
    switch (below(chance, 22)) {
    case 0:
        draft->bytes[0] = PICK(chance, versions);
        break;
    case 1: /* cut at any place */
        draft->length = below(chance, draft->length);
        break;
    case 2: /* cut within the first bytes */
        draft->length = below(chance, 6);
        break;
    case 3: /* something left over at the end */
        for (size_t i = 0; i < sizeof tail; i++)
            tail[i] = percent(chance, 50) ? 0 : any_byte(chance);
        draft_insert(draft, draft->length, tail, 1 + below(chance, 4));
        break;
    case 4: /* no set-up */
        draft_remove(draft, 1, 2 + (size_t)get16(draft->bytes + 1));
        break;
    case 5: /* another p or c */
        place = SETUP_BODY + 3 + below(chance, 2);
        draft->bytes[place] = (uint8_t)below(chance, 8);
        break;
    case 6:
    case 7:
        damage_setup_length(chance, draft);
        break;
    case 8:
    case 9:
    case 10:
        damage_record(chance, setup, draft);
        break;
    case 11:
        damage_length(chance, draft);
        break;
    case 12:
    case 13:
        damage_twin(chance, setup, draft);
        break;
    case 14:
    case 15:
        damage_bytes(chance, draft);
        break;
    case 16:
    case 17:
        damage_tail(chance, setup, draft);
        break;
    default:
        damage_field(chance, setup, draft);
        break;
    }
}
