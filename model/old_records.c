/* old_records COUNT SEED: so many old records on standard output, the same for
 * the same seed: first listed ones, then by chance, on and beside every rate
 * and MTA that is taken. Behind them a record cut short, of as many bytes as
 * the seed is over a multiple of 20. */
#include <errno.h>
#include <stdio.h>
#include <stdlib.h>
#include <string.h>

#include "bytes.h"
#include "chance.h"

enum { RECORD = 20 };

static const uint64_t rates[] = {
    0x3FEB333333333333, 0x3FFCCCCCCCCCCCCD, 0x3F816872B020C49C,
    0x3F9CAC083126E979, 0x3FEA3D70A3D70A3D, 0x3FE570A3D70A3D71,
    0x3FD3333333333333, 0x3FD3333333333334, 0x3FD3333333333332,
    0x3FF0000000000000, 0x4024000000000000, 0x40C3878000000000,
    0x40C3880000000000, 0x40C81A0000000000, 0x40C81C8000000000,
    0x40F8696000000000, 0x4163125300000000, 0x4163129180000000,
    0x416312D000000000, 0x3E112E0BE826D695, 0x3EE4F82C188427BA,
    0x3DDB7CDFD9D7BDBB, 0x3FD5555555555555, 0x0000000000000000,
    0x8000000000000000, 0x7FF8000000000000, 0x7FF0000000000000,
    0x0000000000000001, 0xFFF0000000000000, 0xFFFFFFFFFFFFFFFF,
    0xBFEB333333333333, 0xBFF0000000000000, 0x000FFFFFFFFFFFFF,
    0x0010000000000000, 0x7FEFFFFFFFFFFFFF, 0x3FE0000000000000};

static const uint64_t mtas[] = {
    0x0000000000000000, 0x40C81C8000000000, 0x426D1A94A1FFE000,
    0x426D1A94A1FFC000, 0x426D1A94A1FFF000, 0x426D1A94A2000000,
    0x40C81CC000000000, 0x8000000000000000, 0xBFF0000000000000,
    0x7FF8000000000000, 0x7FF0000000000000, 0xFFF0000000000000,
    0x3FF0000000000000, 0x3FE0000000000000, 0x3FEFFFFFFFFFFFFF,
    0x3FF0000000000001, 0x0000000000000001, 0x4330000000000000,
    0x4340000000000000, 0x7FEFFFFFFFFFFFFF};

enum {
    RATES = sizeof rates / sizeof *rates,
    MTAS = sizeof mtas / sizeof *mtas
};

static uint64_t written, count;

static void put(uint16_t from, uint16_t to, uint64_t rate, uint64_t mta)
{
    uint8_t record[RECORD];

    if (written == count)
        return;
    put16(record, from);
    put16(record + 2, to);
    put64(record + 4, rate);
    put64(record + 12, mta);
    if (fwrite(record, 1, RECORD, stdout) != RECORD) {
        perror("standard output");
        exit(1);
    }
    written++;
}

static uint64_t bits(double value)
{
    uint64_t bits;

    memcpy(&bits, &value, sizeof bits);
    return bits;
}

static double power(uint64_t exponent)
{
    double power = 1; /* exact up to 10^22 */

    while (exponent-- > 0)
        power *= 10;
    return power;
}

/* Every rate and MTA above, and currencies at fault, alone and with others. */
static void listed(void)
{
    static const uint16_t bad[] = {0x1978, 0x0A78, 0x09A8, 0x097A, 0xFFFF};

    for (unsigned i = 0; i < RATES; i++)
        put(0x0840, 0x0978, rates[i], mtas[0]);
    for (unsigned i = 0; i < MTAS; i++)
        put(0x0000, 0x0999, rates[0], mtas[i]);
    for (unsigned i = 0; i < 5; i++)
        for (unsigned both = 0; both < 2; both++) {
            put(bad[i], 0x0978, rates[both ? 7 : 0], mtas[both ? 6 : 0]);
            put(0x0978, bad[i], rates[both ? 7 : 0], mtas[both ? 6 : 0]);
        }
    put(0x0978, 0x0978, rates[0], mtas[0]);
    put(0x0978, 0x0978, rates[7], mtas[6]);
    put(0x0000, 0x0000, rates[0], mtas[0]);
    put(0x0840, 0x0978, rates[7], mtas[6]);
}

/* A rate that is taken, or its neighbour, or nearly one. */
static uint64_t invent_rate(struct chance *chance)
{
    static const unsigned special[] = {1, 2, 5, 10, 100, 999, 1000, 1024,
                                       4096, 8192, 9998, 9999, 10000};
    const unsigned any = 1 + (unsigned)below(chance, 10001);
    const unsigned usual = PICK(chance, special);
    const double digits = percent(chance, 30) ? usual : any;
    const double scale = power(below(chance, 12));
    const uint64_t least = 1 + below(chance, 3);
    uint64_t rate = bits(digits / scale);

    if (percent(chance, 20))
        rate = bits(digits * power(below(chance, 5)));
    if (percent(chance, 25))
        rate += least;
    else if (percent(chance, 25))
        rate -= least;
    if (percent(chance, 3))
        rate ^= UINT64_C(1) << 63;
    if (percent(chance, 3))
        rate = draw(chance);
    if (percent(chance, 5))
        rate = PICK(chance, rates);
    if (percent(chance, 3)) /* a power of 2: its neighbours are unlike */
        rate = (1023 - 30 + below(chance, 54)) << 52;
    return rate;
}

static uint64_t invent_mta(struct chance *chance)
{
    static const double steps[] = {0, 0.5, 0.25, 1, -1, -0.5};
    uint64_t whole = below(chance, UINT64_C(1000000000000));
    const unsigned places = (unsigned)below(chance, 40);
    const double step = PICK(chance, steps);

    if (percent(chance, 50))
        whole >>= places;
    if (percent(chance, 10))
        whole = UINT64_C(999999999999);
    uint64_t mta = bits((double)whole + (percent(chance, 40) ? step : 0));
    if (percent(chance, 5))
        mta++;
    if (percent(chance, 5))
        mta = PICK(chance, mtas);
    if (percent(chance, 3))
        mta = draw(chance);
    return mta;
}

static uint16_t invent_currency(struct chance *chance)
{
    static const uint16_t codes[] = {0x0978, 0x0840, 0x0826, 0x0392, 0x0000,
                                     0x0999};
    const uint16_t any = (uint16_t)draw(chance);

    if (percent(chance, 3))
        return any;
    return PICK(chance, codes);
}

static uint64_t number(const char *text)
{
    char *end;

    errno = 0;
    const unsigned long long value = strtoull(text, &end, 10);
    if (*text < '0' || *text > '9' || *end != '\0' || errno != 0) {
        fprintf(stderr, "old_records: not a number: %s\n", text);
        exit(1);
    }
    return value;
}

int main(int argc, char **argv)
{
    if (argc != 3) {
        fprintf(stderr, "usage: old_records COUNT SEED\n");
        return 1;
    }
    count = number(argv[1]);
    const uint64_t seed = number(argv[2]);
    listed();
    while (written < count) {
        struct chance chance = chance_of(seed, written);
        const uint16_t from = invent_currency(&chance);
        const uint16_t to = invent_currency(&chance);
        const uint64_t rate = invent_rate(&chance);
        const uint64_t mta = invent_mta(&chance);
        put(from, to, rate, mta);
    }
    for (uint64_t i = seed % RECORD; i > 0; i--)
        putchar(0);
    if (fflush(stdout) != 0) {
        perror("standard output");
        return 1;
    }
    return 0;
}
