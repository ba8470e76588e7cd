/* The floats are taken apart and all is decided in whole numbers: no float is
 * computed with. */
#include "import.h"

#include <stdbool.h>
#include <string.h>

#include "bytes.h"
#include "card.h"

__extension__ typedef unsigned __int128 wide;

/* A finite float, not negative: mantissa x 2^exponent. */
struct binary {
    uint64_t mantissa; /* below 2^53 */
    int exponent;
    bool even;         /* where a tie goes */
    bool closer_below; /* the next float below is half as far as that above */
};

enum { MANTISSA_BITS = 52, LEAST_EXPONENT = -1074 };

static bool take_apart(uint64_t bits, struct binary *x)
{
    const uint64_t fraction = bits & ((UINT64_C(1) << MANTISSA_BITS) - 1);
    const unsigned field = bits >> MANTISSA_BITS & 0x7FF;

    if (bits >> 63 || field == 0x7FF)
        return false;
    x->mantissa = field > 0 ? fraction | UINT64_C(1) << MANTISSA_BITS
                            : fraction;
    x->exponent = LEAST_EXPONENT + (field > 0 ? (int)field - 1 : 0);
    x->even = !(bits & 1);
    x->closer_below = fraction == 0 && field > 1;
    return true;
}

static wide ten_to(unsigned exponent)
{
    wide power = 1;

    while (exponent-- > 0)
        power *= 10;
    return power;
}

/* Compares whole / 10^e with quarters x 2^(exponent - 2): -1, 0 or 1. whole is
 * below 2^24, e is 9 at most, quarters is below 2^56. */
static int compare(uint64_t whole, unsigned e, uint64_t quarters, int exponent)
{
    const int shift = 2 - exponent;

    if (shift < 0) /* quarters is above 2^53 then */
        return -1;
    if (shift > 100) /* quarters x 10^e is below 2^86 */
        return 1;
    const wide left = (wide)whole << shift;
    const wide right = (wide)quarters * ten_to(e);
    return (left > right) - (left < right);
}

/* Where whole / 10^e lies: 0 if x is the float nearest to it, ties to even;
 * -1 if it is too small for that, 1 if too large. The bounds are the points
 * halfway to the floats next to x. */
static int side(uint64_t whole, unsigned e, const struct binary *x)
{
    const uint64_t quarters = 4 * x->mantissa;
    const uint64_t below = quarters - (x->closer_below ? 1 : 2);
    const uint64_t above = quarters + 2;
    const int from_below = compare(whole, e, below, x->exponent);
    const int from_above = compare(whole, e, above, x->exponent);

    if (from_below < 0 || (from_below == 0 && !x->even))
        return -1;
    if (from_above > 0 || (from_above == 0 && !x->even))
        return 1;
    return 0;
}

/* The digits, 1 to 9,999, for which digits x times / 10^e gives x; 0 if none
 * do. The side never falls as the digits grow. */
static unsigned find_digits(unsigned times, unsigned e, const struct binary *x)
{
    unsigned low = 1, high = 9999; /* the least that is not too small */

    while (low < high) {
        const unsigned middle = (low + high) / 2;
        if (side((uint64_t)middle * times, e, x) < 0)
            low = middle + 1;
        else
            high = middle;
    }
    return side((uint64_t)low * times, e, x) == 0 ? low : 0;
}

/* Digits and s + 9. */
static bool import_rate(uint64_t bits, unsigned *digits, unsigned *shift)
{
    struct binary x;

    if (!take_apart(bits, &x) || x.mantissa == 0)
        return false;
    for (unsigned e = 0; e <= 9; e++)
        if ((*digits = find_digits(1, e, &x)) > 0) {
            *shift = 9 - e;
            return true;
        }
    for (unsigned k = 1, times = 10; k <= 3; k++, times *= 10)
        if ((*digits = find_digits(times, 0, &x)) > 0) {
            *shift = 9 + k;
            return true;
        }
    return false;
}

/* A whole number from 0 to MAX. */
static bool import_mta(uint64_t bits, uint64_t *mta)
{
    struct binary x;

    if (!take_apart(bits, &x))
        return false;
    if (x.mantissa == 0) {
        *mta = 0;
        return true;
    }
    if (x.exponent >= 0 || x.exponent < -MANTISSA_BITS) /* 2^52 on; below 1 */
        return false;
    *mta = x.mantissa >> -x.exponent;
    return *mta << -x.exponent == x.mantissa && *mta <= AMOUNT_MAX;
}

unsigned import_record(const uint8_t *old, size_t length, uint8_t *imported)
{
    unsigned digits, shift;
    uint64_t mta;

    if (length != OLD_BYTES)
        return 9;
    const uint16_t from = get16(old);
    const uint16_t to = get16(old + 2);
    if (!is_currency(from) || !is_currency(to) || from == to)
        return 6;
    if (!import_rate(get64(old + 4), &digits, &shift))
        return 10;
    if (!import_mta(get64(old + 12), &mta))
        return 11;

    memcpy(imported, old, 4);
    put16(imported + 4, digits);
    imported[6] = (uint8_t)shift;
    put64(imported + 7, mta);
    return 0;
}
