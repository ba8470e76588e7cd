/* The calendar, day by day: every three bytes are a day or none, each day is
 * one more than the one before, and what cycles begin between any two of a few
 * hundred is what one meets on the way. */
#include <stdio.h>
#include <string.h>

#include "calendar.h"
#include "dates.h"

enum { ALL = 36525, SOME = 400 };

static bool is_day[1 << 24];
static uint32_t day[ALL + 1]; /* from 1 */
static unsigned wrong;

static void expect(bool holds, const char *what, uint32_t date)
{
    if (holds)
        return;
    wrong++;
    printf("%s: %06X\n", what, (unsigned)date);
}

static bool read(struct date *date, uint32_t coded)
{
    const uint8_t at[] = {(uint8_t)(coded >> 16), (uint8_t)(coded >> 8),
                          (uint8_t)coded};

    return read_date(date, at);
}

/* Whether a day on the way, the last one included, begins a cycle. The first
 * day is a Saturday, 1. */
static bool met(unsigned kind, unsigned first_day, unsigned from, unsigned to)
{
    for (unsigned i = from + 1; i <= to; i++)
        if (kind == CYCLE_DAY || (kind == CYCLE_WEEK && i % 7 == first_day)
            || (kind == CYCLE_MONTH && (day[i] & 0xFF) == 0x01))
            return true;
    return false;
}

static void cycles(unsigned from, unsigned to)
{
    struct date last, now;

    read(&last, day[from]);
    read(&now, day[to]);
    for (unsigned kind = CYCLE_DAY; kind <= CYCLE_MONTH; kind++)
        for (unsigned first_day = 0; first_day < 7; first_day++)
            expect(cycle_began(kind, first_day, &last, &now)
                       == met(kind, first_day, from, to),
                   "cycle", day[to]);
}

int main(void)
{
    struct date date;
    unsigned count = 0;

    for (uint32_t coded = FIRST_DATE;; coded = next_day(coded)) {
        is_day[coded] = true;
        day[++count] = coded;
        expect(read(&date, coded) && date.number == count, "number", coded);
        expect(count == 1 || day_before(coded) == day[count - 1], "before",
               coded);
        if (coded == LAST_DATE)
            break;
    }
    expect(count == ALL, "last", LAST_DATE);
    for (uint32_t coded = 0; coded < 1 << 24; coded++)
        expect(read(&date, coded) == is_day[coded], "day", coded);
    for (unsigned i = 1; i <= ALL; i++)
        for (unsigned later = 0; later < 40 && i + later <= ALL; later++)
            cycles(i, i + later);
    for (unsigned i = 1; i <= ALL; i += 1 + ALL / SOME)
        for (unsigned j = i; j <= ALL; j += 1 + ALL / SOME)
            cycles(i, j);
    printf("%u days, %u wrong\n", count, wrong);
    return wrong > 0;
}
