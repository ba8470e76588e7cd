#include "dates.h"

const uint32_t not_day[NOT_DAYS] = {
    0xA00715, 0x0A0715, 0x05A115, 0x050A15, 0x0507A1, 0x05070A, /* digits */
    0x001F01, 0x1A0A1A, 0xFFFFFF, 0x050001, 0x000000,           /* months */
    0x051301, 0x052001, 0x050100, 0x050732, 0x050740,           /* days */
    0x050431, 0x051131, 0x990631, 0x000230, 0x040231,
    0x010229, 0x100229, 0x990229};

/* Two decimal digits as they are coded, one more and one less. */
static uint32_t more(uint32_t coded)
{
    return (coded & 15) == 9 ? (coded & ~UINT32_C(15)) + 16 : coded + 1;
}

static uint32_t less(uint32_t coded)
{
    return (coded & 15) == 0 ? coded - 16 + 9 : coded - 1;
}

static uint32_t join(uint32_t year, uint32_t month, uint32_t day)
{
    return year << 16 | month << 8 | day;
}

/* The last day of each month, as it is coded. */
static uint32_t last_day(uint32_t year, uint32_t month)
{
    static const uint8_t last[] = {0x31, 0x28, 0x31, 0x30, 0x31, 0x30, 0x31,
                                   0x31, 0x30, 0x31, 0x30, 0x31};
    const uint32_t number = 10 * (month >> 4) + (month & 15);
    const uint32_t years = 10 * (year >> 4) + (year & 15);

    return month == 0x02 && (years & 3) == 0 ? 0x29 : last[number - 1];
}

uint32_t next_month(uint32_t date)
{
    const uint32_t year = date >> 16, month = date >> 8 & 0xFF;

    if (month < 0x12)
        return join(year, more(month), 0x01);
    return year < 0x99 ? join(more(year), 0x01, 0x01) : date;
}

uint32_t next_day(uint32_t date)
{
    const uint32_t year = date >> 16, month = date >> 8 & 0xFF;
    const uint32_t day = date & 0xFF;

    if (day < last_day(year, month))
        return join(year, month, more(day));
    return next_month(date);
}

uint32_t day_before(uint32_t date)
{
    const uint32_t year = date >> 16, month = date >> 8 & 0xFF;
    const uint32_t day = date & 0xFF;

    if (day > 0x01)
        return join(year, month, less(day));
    if (month > 0x01)
        return join(year, less(month), last_day(year, less(month)));
    return year > 0x00 ? join(less(year), 0x12, 0x31) : date;
}

uint32_t days_later(uint32_t date, unsigned days)
{
    while (days-- > 0)
        date = next_day(date);
    return date;
}
