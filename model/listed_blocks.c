#include <string.h>

#include "listed.h"
#include "script.h"

enum { WIDTH_MAX = 9, DATA = WIDTH_MAX + 2 };

/* How a block is masked: not at all, or at its first byte, a middle one, or
 * half of its last. */
enum { MASK_NONE, MASK_FIRST, MASK_MIDDLE, MASK_LAST, MASKS };

static unsigned width, values;
static uint8_t mask[WIDTH_MAX];

/* Value k is the first one but for a byte, each byte in turn. */
static void put_value(uint8_t *at, unsigned k)
{
    for (unsigned i = 0; i < width; i++)
        at[i] = (uint8_t)(0x50 + (i == k % width ? k : 0)) & mask[i];
}

static void set_mask(unsigned which)
{
    memset(mask, 0xFF, sizeof mask);
    if (which == MASK_FIRST)
        mask[0] = 0x00;
    if (which == MASK_MIDDLE)
        mask[width / 2] = 0x00;
    if (which == MASK_LAST)
        mask[width - 1] = 0xF0;
}

/* A Start whose data have the block from their second byte on. */
static void start_by(const uint8_t *block)
{
    uint8_t data[DATA] = {0x50};

    memcpy(data + 1, block, width);
    data[1 + width] = 0x50;
    draft_data(draft, data, width + 2);
}

/* Value k itself, and with one byte other: one less, one more, the least and
 * the most; then with two bytes that pull apart. */
static void starts_around(unsigned k)
{
    const unsigned places[] = {0, width / 2, width - 1};
    uint8_t value[WIDTH_MAX], block[WIDTH_MAX];

    put_value(value, k);
    start_by(value);
    for (unsigned p = 0; p < 3; p++) {
        const unsigned at = places[p];
        const uint8_t other[] = {(uint8_t)(value[at] - 1),
                                 (uint8_t)(value[at] + 1), 0x00, 0xFF};
        for (unsigned i = 0; i < sizeof other; i++) {
            memcpy(block, value, sizeof block);
            block[at] = other[i];
            start_by(block);
        }
        for (unsigned q = p + 1; q < 3; q++)
            for (unsigned up = 0; up < 2; up++) {
                memcpy(block, value, sizeof block);
                block[at] = (uint8_t)(value[at] + (up ? 1 : -1));
                block[places[q]] =
                    (uint8_t)(value[places[q]] + (up ? -1 : 1));
                start_by(block);
            }
    }
}

/* Whether the test is met shows in how many entries are visited. */
static void blocks(unsigned check, unsigned masked)
{
    const unsigned some[] = {0, 1, values / 2, values - 1};
    uint8_t entry[255] = {2, (uint8_t)width, (uint8_t)(values + 1)};
    uint8_t *at = entry + 3;

    draft_printed_setup(&setup);
    setup.version = 2;
    set_mask(masked);
    memcpy(at, mask, width);
    for (unsigned k = 0; k < values; k++)
        put_value(at += width, k);
    at += width;
    *at++ = (uint8_t)check;
    *at++ = 1;
    *at++ = 0x81;
    draft_entry(&setup.file, entry, (size_t)(at - entry));
    simple_entry(0x00, 0x00, 0, 1, 1);
    begin();
    for (unsigned i = 0; i < 4; i++)
        starts_around(some[i]);
    first(TC, 1);
    emit();
}

void listed_blocks(void)
{
    static const uint8_t widths[] = {3, 8, 9};

    for (unsigned w = 0; w < sizeof widths; w++)
        for (unsigned check = 0; check < 3; check++) {
            width = widths[w];
            for (values = 4; values <= 5; values++)
                blocks(check, MASK_NONE);
            values = 249 / width - 1; /* as many as an entry holds */
            blocks(check, MASK_NONE);
            values = 4;
            for (unsigned masked = MASK_FIRST; masked < MASKS; masked++)
                blocks(check, masked);
        }
}
