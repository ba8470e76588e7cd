/* A command: 0C DA, what it is for, Lc and so many bytes: 81, a length and the
 * elements; 8E 04 and the MAC, which is the caller's business. An element: a
 * tag of two bytes, a length, a value. A length has one byte, or is 81 and one
 * byte. */
#include "put.h"

#include <string.h>

#include "bytes.h"
#include "reached.h"

enum {
    CLA = 0x0C,
    INS_PUT_DATA = 0xDA,
    OF_ACCUMULATORS = 0xBF30, /* P1 P2 */
    OF_COUNTERS = 0xBF35,
    HEADER_BYTES = 5,

    TAG_DATA = 0x81,
    TAG_MAC = 0x8E,
    MAC_VALUE = 4,
    MAC_BYTES = 2 + MAC_VALUE,

    FILLER = 0x00,
    TAG_VALUE = 0xDF01, /* of slot 1; the others follow */
    TAG_LIMITS = 0xDF11,

    AMOUNT_BYTES = 6,
    AMOUNT_LIMITS_BYTES = 12,
    COUNT_LIMITS_BYTES = 2
};

static bool read_length(size_t *length, const uint8_t **at, const uint8_t *end)
{
    if (*at == end)
        return fault(SIZE_MISSING + 0);
    *length = *(*at)++;
    if (*length < 0x80)
        return true;
    if (*length != 0x81)
        return fault(SIZE_FORM + (*length > 0x81));
    if (*at == end)
        return fault(SIZE_MISSING + 1);
    *length = *(*at)++;
    return true;
}

static bool read_value(struct put *put, unsigned slot, const uint8_t *at,
                       size_t length)
{
    if (length != AMOUNT_BYTES)
        return fault(ELEMENT_SIZE + 0 + (length > AMOUNT_BYTES));
    if (!read_digits(&put->accumulator[slot].value, at))
        return fault(ELEMENT_DIGITS + 0);
    put->accumulator[slot].written = true;
    return true;
}

static bool read_limits(struct put_limits *limits, const uint8_t *at,
                        size_t length)
{
    if (length != AMOUNT_LIMITS_BYTES)
        return fault(ELEMENT_SIZE + 2 + (length > AMOUNT_LIMITS_BYTES));
    if (!read_digits(&limits->lower, at))
        return fault(ELEMENT_DIGITS + 1);
    if (!read_digits(&limits->upper, at + AMOUNT_BYTES))
        return fault(ELEMENT_DIGITS + 2);
    limits->written = true;
    return true;
}

static bool read_counter_limits(struct put_limits *limits, const uint8_t *at,
                                size_t length)
{
    if (length != COUNT_LIMITS_BYTES)
        return fault(ELEMENT_SIZE + 4 + (length > COUNT_LIMITS_BYTES));
    limits->lower = at[0];
    limits->upper = at[1];
    limits->written = true;
    return true;
}

static bool read_element(struct put *put, unsigned of, unsigned tag,
                         const uint8_t *at, size_t length)
{
    const bool counters = of == OF_COUNTERS;

    if (!counters && tag >= TAG_VALUE && tag < TAG_VALUE + ACCUMULATORS)
        return read_value(put, tag - TAG_VALUE, at, length);
    if (tag < TAG_LIMITS || tag >= TAG_LIMITS + 4)
        return fault(ELEMENT_TAG + counters);
    if (counters)
        return read_counter_limits(&put->counter_limits[tag - TAG_LIMITS], at,
                                   length);
    return read_limits(&put->accumulator_limits[tag - TAG_LIMITS], at, length);
}

/* Of an element given twice the last counts. */
static bool read_elements(struct put *put, unsigned of, const uint8_t *at,
                          const uint8_t *end)
{
    while (at < end) {
        size_t length;
        if (*at == FILLER) {
            at++;
            continue;
        }
        if (end - at < 2)
            return fault(ELEMENT_CUT + 0);
        const unsigned tag = get16(at);
        at += 2;
        if (!read_length(&length, &at, end))
            return fault(ELEMENT_CUT + 1);
        if (length > (size_t)(end - at))
            return fault(ELEMENT_CUT + 2);
        if (!read_element(put, of, tag, at, length))
            return false;
        at += length;
    }
    return true;
}

bool put_read(struct put *put, const uint8_t *command, size_t length)
{
    size_t size;

    memset(put, 0, sizeof *put);
    if (length < HEADER_BYTES)
        return fault(COMMAND_SHORT + (length > 0));
    if (command[0] != CLA)
        return fault(COMMAND_CLASS);
    if (command[1] != INS_PUT_DATA)
        return fault(COMMAND_INS);
    const unsigned of = get16(command + 2);
    if (of != OF_ACCUMULATORS && of != OF_COUNTERS)
        return fault(COMMAND_OF);
    if (length != HEADER_BYTES + (size_t)command[4])
        return fault(COMMAND_LC
                     + (length > HEADER_BYTES + (size_t)command[4]));

    const uint8_t *at = command + HEADER_BYTES, *end = command + length;
    if (at == end || *at++ != TAG_DATA)
        return fault(DATA_TAG + (length > HEADER_BYTES));
    if (!read_length(&size, &at, end))
        return fault(DATA_L);
    if ((size_t)(end - at) != size + MAC_BYTES)
        return fault(DATA_SIZE + ((size_t)(end - at) > size + MAC_BYTES));
    const uint8_t *mac = at + size;
    if (mac[0] != TAG_MAC)
        return fault(MAC_TAG);
    if (mac[1] != MAC_VALUE)
        return fault(MAC_LENGTH);
    return read_elements(put, of, at, mac);
}

void put_write(struct card *card, const struct put *put)
{
    struct setup *setup = &card->setup;

    for (unsigned i = 0; i < ACCUMULATORS; i++)
        if (put->accumulator[i].written)
            card->accumulator[i] = put->accumulator[i].value;
    for (unsigned p = 0; p < setup->profiles; p++) {
        struct profile *profile = &setup->profile[p];
        for (unsigned i = 0; i < ACCUMULATORS; i++) {
            const struct put_limits *limits = &put->accumulator_limits[i];
            if (!limits->written)
                continue;
            profile->accumulator[i].lower = limits->lower;
            profile->accumulator[i].upper = limits->upper;
        }
        for (unsigned i = 0; i < COUNTERS; i++) {
            const struct put_limits *limits = &put->counter_limits[i];
            if (!limits->written)
                continue;
            profile->counter[i].lower = (uint8_t)limits->lower;
            profile->counter[i].upper = (uint8_t)limits->upper;
        }
    }
}
