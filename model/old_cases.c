/* Cases of the importer: rates and MTAs worked out by hand, and every rate
 * that is taken, made here by one division or product. */
#include <stdio.h>
#include <string.h>

#include "bytes.h"
#include "import.h"

static unsigned cases, wrong;

static void fill(uint8_t *old, uint64_t rate, uint64_t mta)
{
    put16(old, 0x0840);
    put16(old + 2, 0x0978);
    put64(old + 4, rate);
    put64(old + 12, mta);
}

/* Refused, it writes nothing; done, it writes what is expected. */
static void expect(const uint8_t *old, size_t length, unsigned refusal,
                   unsigned digits, int shift, uint64_t mta)
{
    uint8_t expected[IMPORTED_BYTES + 1], imported[IMPORTED_BYTES + 1];

    memset(imported, 0xEE, sizeof imported);
    memset(expected, 0xEE, sizeof expected);
    if (refusal == 0) {
        memcpy(expected, old, 4);
        put16(expected + 4, digits);
        expected[6] = (uint8_t)(shift + 9);
        put64(expected + 7, mta);
    }
    const unsigned given = import_record(old, length, imported);
    cases++;
    if (given == refusal && memcmp(imported, expected, sizeof expected) == 0)
        return;
    wrong++;
    printf("rate %016llX, MTA %016llX: %u, expected %u %u %d\n",
           (unsigned long long)get64(old + 4),
           (unsigned long long)get64(old + 12), given, refusal, digits, shift);
}

static void vectors(void)
{
    static const struct {
        uint64_t rate;
        unsigned digits; /* 0: refused */
        int shift;
    } rates[] = {
        {0x3FEB333333333333, 85, -2},   {0xBFEB333333333333, 0, 0},
        {0x3FFCCCCCCCCCCCCD, 18, -1},   {0x0010000000000000, 0, 0},
        {0x3ED0106E623350E6, 0, 0},     {0x3EB0C2AC1DBBE3D7, 0, 0},
        {0x4360000000000000, 0, 0},     {0x518A2A31023557C8, 0, 0},
        {0x3F816872B020C49C, 85, -4},   {0x3F9CAC083126E979, 28, -3},
        {0x3FEA3D70A3D70A3D, 82, -2},   {0x3FE570A3D70A3D71, 67, -2},
        {0x3FD3333333333333, 3, -1},    {0x3FD3333333333334, 0, 0},
        {0x3FF0000000000000, 1, 0},     {0x4024000000000000, 10, 0},
        {0x40C3878000000000, 9999, 0},  {0x40C3880000000000, 1000, 1},
        {0x40C81A0000000000, 1234, 1},  {0x40C81C8000000000, 0, 0},
        {0x40F8696000000000, 9999, 1},  {0x4163125300000000, 9999, 3},
        {0x4163129180000000, 0, 0},     {0x416312D000000000, 0, 0},
        {0x3E112E0BE826D695, 1, -9},    {0x3EE4F82C188427BA, 9999, -9},
        {0x3DDB7CDFD9D7BDBB, 0, 0},     {0x3FD5555555555555, 0, 0},
        {0x0000000000000000, 0, 0},     {0x8000000000000000, 0, 0},
        {0x7FF8000000000000, 0, 0},     {0x7FF0000000000000, 0, 0},
        {0x0000000000000001, 0, 0},     {0xFFF0000000000000, 0, 0},
        {0x3FE0000000000000, 5, -1}};
    static const struct {
        uint64_t mta, whole;
        unsigned refusal;
    } mtas[] = {
        {0x0000000000000000, 0, 0},
        {0x40C81C8000000000, 12345, 0},
        {0xC0C81C8000000000, 0, 11},
        {0x0010000000000000, 0, 11},
        {0x426D1A94A1FFE000, UINT64_C(999999999999), 0},
        {0x426D1A94A2000000, 0, 11},
        {0x426D1A94A1FFF000, 0, 11},
        {0x40C81CC000000000, 0, 11},
        {0x8000000000000000, 0, 11},
        {0xBFF0000000000000, 0, 11},
        {0x7FF8000000000000, 0, 11},
        {0x7FF0000000000000, 0, 11},
        {0x3FF0000000000000, 1, 0},
        {0x3FEFFFFFFFFFFFFF, 0, 11},
        {0x0000000000000001, 0, 11},
        {0x4330000000000000, 0, 11}};
    uint8_t old[OLD_BYTES + 1] = {0};

    for (size_t i = 0; i < sizeof rates / sizeof *rates; i++) {
        fill(old, rates[i].rate, 0);
        expect(old, OLD_BYTES, rates[i].digits ? 0 : 10, rates[i].digits,
               rates[i].shift, 0);
    }
    for (size_t i = 0; i < sizeof mtas / sizeof *mtas; i++) {
        fill(old, rates[0].rate, mtas[i].mta);
        expect(old, OLD_BYTES, mtas[i].refusal, 85, -2, mtas[i].whole);
    }

    /* 9, 6, 10, 11 in this order. */
    fill(old, rates[1].rate, mtas[2].mta);
    expect(old, OLD_BYTES, 10, 0, 0, 0);
    put16(old, 0x0978);
    expect(old, OLD_BYTES, 6, 0, 0, 0);
    put16(old, 0x097A);
    expect(old, OLD_BYTES, 6, 0, 0, 0);
    expect(old, OLD_BYTES - 1, 9, 0, 0, 0);
    expect(old, OLD_BYTES + 1, 9, 0, 0, 0);
    expect(old, 0, 9, 0, 0, 0);
    put16(old, 0x0978);
    put16(old + 2, 0x1840);
    expect(old, OLD_BYTES, 6, 0, 0, 0);
}

static void expect_rate(double rate, unsigned digits, int shift)
{
    uint8_t old[OLD_BYTES];
    uint64_t bits;

    memcpy(&bits, &rate, sizeof bits);
    fill(old, bits, 0);
    expect(old, OLD_BYTES, 0, digits, shift, 0);
}

/* As few decimal places, and then as few zeros, as there can be. */
static void every_rate(void)
{
    double power = 1;

    for (int e = 0; e <= 9; e++, power *= 10)
        for (unsigned d = 1; d <= 9999; d++) {
            unsigned digits = d;
            int places = e;
            for (; places > 0 && digits % 10 == 0; places--)
                digits /= 10;
            expect_rate(d / power, digits, -places);
        }
    for (unsigned times = 10; times <= 1000; times *= 10)
        for (unsigned d = 1; d <= 9999; d++) {
            unsigned digits = d * times;
            int zeros = 0;
            for (; digits > 9999; zeros++)
                digits /= 10;
            expect_rate((double)d * times, digits, zeros);
        }
}

int main(void)
{
    vectors();
    every_rate();
    printf("%u cases of the importer, %u wrong\n", cases, wrong);
    return wrong > 0;
}
