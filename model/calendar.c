/* Days counted by walking through the years and the months. */
#include "calendar.h"

static unsigned year_length(unsigned year)
{
    return year % 4 == 0 ? 366 : 365;
}

static unsigned month_length(unsigned year, unsigned month)
{
    switch (month) {
    case 2:
        return year % 4 == 0 ? 29 : 28;
    case 4:
    case 6:
    case 9:
    case 11:
        return 30;
    default:
        return 31;
    }
}

static bool read_digits(unsigned *value, uint8_t byte)
{
    const unsigned tens = byte >> 4, ones = byte & 15;

    *value = 10 * tens + ones;
    return tens <= 9 && ones <= 9;
}

bool read_date(struct date *date, const uint8_t *at)
{
    unsigned year, month, day;

    if (!read_digits(&year, at[0]) || !read_digits(&month, at[1])
        || !read_digits(&day, at[2]))
        return false;
    if (month < 1 || month > 12)
        return false;
    if (day < 1 || day > month_length(year, month))
        return false;

    date->year = (uint8_t)year;
    date->month = (uint8_t)month;
    while (year > 0)
        day += year_length(--year);
    while (--month > 0)
        day += month_length(date->year, month);
    date->number = (uint16_t)day;
    return true;
}

bool cycle_began(unsigned kind, unsigned first_day, const struct date *last,
                 const struct date *now)
{
    switch (kind) {
    case CYCLE_DAY:
        return now->number > last->number;
    case CYCLE_WEEK: {
        const int into_week = (now->number + WEEK - (int)first_day) % WEEK;
        return now->number - into_week > last->number;
    }
    default:
        return now->month != last->month || now->year != last->year;
    }
}
