#include "draft.h"

#include <assert.h>
#include <string.h>

#include "bytes.h"

void draft_begin(struct draft *draft)
{
    draft->bytes[0] = 1;
    draft->length = 1;
    draft->records = 0;
}

void draft_record(struct draft *draft, uint8_t kind, const uint8_t *body,
                  size_t length)
{
    uint8_t *at = draft->bytes + draft->length;

    assert(draft->length + 3 + length <= DRAFT_BYTES);
    assert(draft->records < DRAFT_RECORDS);
    draft->start[draft->records++] = draft->length;
    put16(at, (unsigned)(length + 1));
    at[2] = kind;
    if (length > 0)
        memcpy(at + 3, body, length);
    draft->length += 3 + length;
}

static void put24(uint8_t *at, uint32_t value)
{
    at[0] = (uint8_t)(value >> 16);
    put16(at + 1, value & 0xFFFF);
}

/* Where they end. */
static uint8_t *put_cycles(const struct draft_setup *setup, uint8_t *at)
{
    *at++ = setup->dated;
    if (!setup->dated)
        return at;
    put24(at, setup->last);
    at += 3;
    for (int i = 0; i < 2; i++, at += 12) {
        put16(at, setup->cyclic[i].currency);
        put64(at + 2, setup->cyclic[i].amount);
        at[10] = setup->cyclic[i].kind;
        at[11] = setup->cyclic[i].first_day;
    }
    for (int p = 0; p < setup->profiles; p++)
        for (int i = 0; i < 2; i++, at += 9) {
            at[0] = setup->profile[p].cyclic[i].switches;
            put64(at + 1, setup->profile[p].cyclic[i].limit);
        }
    return at;
}

static uint8_t *put_family(const struct draft_setup *setup, uint8_t *at)
{
    *at++ = setup->family;
    if (!setup->family)
        return at;
    memcpy(at, setup->control, sizeof setup->control);
    at += sizeof setup->control;
    for (int p = 0; p < setup->profiles; p++)
        *at++ = setup->profile[p].cashback;
    return at;
}

static uint8_t *put_log(const struct draft_setup *setup, uint8_t *at)
{
    *at++ = setup->log;
    if (!setup->log)
        return at;
    *at++ = setup->log_size;
    *at++ = setup->log_switches;
    for (int p = 0; p < setup->profiles; p++)
        *at++ = setup->profile[p].log;
    for (int i = 0; i < 2; i++) {
        const struct draft_table *table = &setup->table[i];
        const size_t length = (size_t)LOG_ENTRY * table->entries;
        *at++ = table->entries;
        memcpy(at, table->entry, length);
        at += length;
    }
    return at;
}

bool draft_is_dated(const struct draft_setup *setup)
{
    return setup->version > 3 && setup->dated;
}

bool draft_is_cpace(const struct draft_setup *setup)
{
    return setup->version > 4 && setup->family == CPACE;
}

bool draft_has_scripts(const struct draft_setup *setup)
{
    return setup->version > 5 && setup->scripts;
}

size_t draft_setup_body(const struct draft_setup *setup, uint8_t *body)
{
    uint8_t *at = body;

    at[0] = setup->key;
    at[1] = setup->pin;
    at[2] = setup->required;
    at[3] = setup->profiles;
    at[4] = setup->conversions;
    put16(at + 5, setup->atc);
    at[7] = setup->go_online;
    at += 8;
    for (int i = 0; i < 4; i++, at += 10) {
        put16(at, setup->accumulator[i].currency);
        put64(at + 2, setup->accumulator[i].value);
    }
    for (int i = 0; i < 4; i++)
        *at++ = setup->counter[i];
    for (int p = 0; p < setup->profiles; p++) {
        const struct draft_profile *profile = &setup->profile[p];
        at[0] = profile->number;
        put32(at + 1, profile->online);
        put32(at + 5, profile->decline);
        put32(at + 9, profile->by_default);
        at[13] = profile->mta_on;
        put16(at + 14, profile->mta_currency);
        put64(at + 16, profile->mta);
        at += 24;
        for (int i = 0; i < 4; i++, at += 17) {
            at[0] = profile->accumulator[i].switches;
            put64(at + 1, profile->accumulator[i].lower);
            put64(at + 9, profile->accumulator[i].upper);
        }
        for (int i = 0; i < 4; i++, at += 3) {
            at[0] = profile->counter[i].switches;
            at[1] = profile->counter[i].lower;
            at[2] = profile->counter[i].upper;
        }
        *at++ = profile->accumulator_sent;
        *at++ = profile->counter_sent[0];
        *at++ = profile->counter_sent[1];
    }
    for (int c = 0; c < setup->conversions; c++, at += 7) {
        put16(at, setup->conversion[c].from);
        put16(at + 2, setup->conversion[c].to);
        put16(at + 4, setup->conversion[c].digits);
        at[6] = setup->conversion[c].shift;
    }
    if (setup->version < 2)
        return (size_t)(at - body);

    *at++ = setup->file.on;
    if (setup->file.on) {
        *at++ = setup->file.entries;
        memcpy(at, setup->file.bytes, setup->file.length);
        at += setup->file.length;
    }
    if (setup->version > 2)
        *at++ = setup->syllabus;
    if (setup->version > 3)
        at = put_cycles(setup, at);
    if (setup->version > 4)
        at = put_family(setup, at);
    if (setup->version > 5)
        *at++ = setup->scripts;
    if (setup->version > 6)
        at = put_log(setup, at);
    return (size_t)(at - body);
}

size_t draft_setup_base(const struct draft_setup *setup)
{
    return SETUP_HEAD + (size_t)SETUP_PROFILE * setup->profiles
        + (size_t)SETUP_CONVERSION * setup->conversions;
}

size_t draft_setup_cycles(const struct draft_setup *setup)
{
    const size_t file = setup->file.on ? 2 + setup->file.length : 1;

    return draft_setup_base(setup) + file + 1;
}

size_t draft_setup_family(const struct draft_setup *setup)
{
    const size_t limits = (size_t)SETUP_LIMITS * setup->profiles;

    return draft_setup_cycles(setup)
        + (setup->dated ? SETUP_CYCLES + limits : 1);
}

size_t draft_setup_scripts(const struct draft_setup *setup)
{
    const size_t family = (size_t)SETUP_FAMILY + setup->profiles;

    return draft_setup_family(setup) + (setup->family ? family : 1);
}

size_t draft_setup_log(const struct draft_setup *setup)
{
    return draft_setup_scripts(setup) + 1;
}

size_t draft_data_length(const struct draft_setup *setup, unsigned source)
{
    if (source == FROM_SECOND)
        return 8;
    return 12 + (draft_is_dated(setup) ? 3 : 0)
        + (draft_is_cpace(setup) ? 9 : 0);
}

void draft_log_entry(struct draft_table *table, uint8_t source,
                     uint8_t position, uint8_t length)
{
    assert(table->entries < LOG_ENTRIES);
    uint8_t *entry = table->entry[table->entries++];
    entry[0] = source;
    entry[1] = position;
    entry[2] = length;
}

void draft_entry(struct draft_file *file, const uint8_t *entry, size_t length)
{
    assert(length < 256 && file->length + 1 + length <= FILE_ROOM);
    assert(file->entries < 255);
    file->on = 1;
    file->entries++;
    file->bytes[file->length++] = (uint8_t)length;
    if (length > 0)
        memcpy(file->bytes + file->length, entry, length);
    file->length += length;
}

void draft_setup(struct draft *draft, const struct draft_setup *setup)
{
    uint8_t body[SETUP_ROOM];
    const size_t length = draft_setup_body(setup, body);

    draft_record(draft, KIND_SETUP, body, length);
    draft->bytes[0] = setup->version;
}

void draft_start(struct draft *draft, uint8_t profile)
{
    draft_record(draft, KIND_START, &profile, 1);
}

void draft_data(struct draft *draft, const uint8_t *data, size_t length)
{
    draft_record(draft, KIND_START, data, length);
}

static void put_first(struct draft *draft, uint8_t type, uint64_t amount,
                      uint16_t currency, uint8_t terminal,
                      const struct draft_more *more, bool dated, bool cpace)
{
    uint8_t body[24];
    uint8_t *at = body + 12;

    body[0] = type;
    put64(body + 1, amount);
    put16(body + 9, currency);
    body[11] = terminal;
    if (dated) {
        put24(at, more->date);
        at += 3;
    }
    if (cpace) {
        put24(at, more->cvm);
        put16(at + 3, more->cashback >> 32 & 0xFFFF);
        put32(at + 5, more->cashback & 0xFFFFFFFF);
        at += 9;
    }
    draft_record(draft, KIND_FIRST, body, (size_t)(at - body));
}

void draft_first(struct draft *draft, uint8_t type, uint64_t amount,
                 uint16_t currency, uint8_t terminal)
{
    put_first(draft, type, amount, currency, terminal, NULL, false, false);
}

void draft_dated_first(struct draft *draft, uint8_t type, uint64_t amount,
                       uint16_t currency, uint8_t terminal, uint32_t date)
{
    const struct draft_more more = {.date = date};

    put_first(draft, type, amount, currency, terminal, &more, true, false);
}

void draft_first_for(struct draft *draft, const struct draft_setup *setup,
                     uint8_t type, uint64_t amount, uint16_t currency,
                     uint8_t terminal, const struct draft_more *more)
{
    put_first(draft, type, amount, currency, terminal, more,
              draft_is_dated(setup), draft_is_cpace(setup));
}

void draft_second(struct draft *draft, uint8_t type, uint16_t code,
                  uint8_t issuer_data, uint32_t csu)
{
    uint8_t body[8];

    body[0] = type;
    put16(body + 1, code);
    body[3] = issuer_data;
    put32(body + 4, csu);
    draft_record(draft, KIND_SECOND, body, sizeof body);
}

void draft_script(struct draft *draft, uint8_t result, const uint8_t *template,
                  size_t length)
{
    static uint8_t body[DRAFT_BYTES];

    assert(length < sizeof body);
    body[0] = result;
    if (length > 0)
        memcpy(body + 1, template, length);
    draft_record(draft, KIND_SCRIPT, body, 1 + length);
}

void draft_insert(struct draft *draft, size_t place, const uint8_t *bytes,
                  size_t count)
{
    assert(draft->length + count <= DRAFT_BYTES);
    memmove(draft->bytes + place + count, draft->bytes + place,
            draft->length - place);
    memcpy(draft->bytes + place, bytes, count);
    draft->length += count;
}

void draft_remove(struct draft *draft, size_t place, size_t count)
{
    memmove(draft->bytes + place, draft->bytes + place + count,
            draft->length - place - count);
    draft->length -= count;
}

void draft_printed_setup(struct draft_setup *setup)
{
    struct draft_profile *profile = &setup->profile[0];

    memset(setup, 0, sizeof *setup);
    setup->version = 1;
    setup->key = 1;
    setup->pin = 3;
    setup->profiles = 1;
    setup->accumulator[0].currency = EUR;
    profile->number = 1;
    profile->online = LOWER_1;
    profile->decline = UPPER_1;
    profile->by_default = UPPER_1;
    profile->accumulator[0].switches = 7;
    profile->accumulator[0].lower = 5000;
    profile->accumulator[0].upper = 10000;
    profile->counter[0].switches = 3;
    profile->counter[0].lower = 255;
    profile->counter[0].upper = 255;
    profile->accumulator_sent = 1;
    profile->counter_sent[0] = 1;
}
