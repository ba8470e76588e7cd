/* Dates one after the other: which of them begin a cycle, and which are no
 * days. */
#include "dates.h"
#include "listed.h"
#include "script.h"

/* Profile 1 looks at cyclic accumulator 1, profile 2 at the other. A purchase
 * is declined while a cycle lasts, as the unit there was to spend is spent. */
static void fresh(uint32_t last, uint8_t kind_1, uint8_t first_day_1,
                  uint8_t kind_2, uint8_t first_day_2)
{
    draft_printed_setup(&setup);
    profiles_blank(2);
    cyclic(last, kind_1, first_day_1, kind_2, first_day_2);
    for (unsigned i = 0; i < 2; i++) {
        setup.cyclic[i].amount = 1;
        setup.profile[i].decline = i == 0 ? CYCLIC_1 : CYCLIC_2;
        setup.profile[i].cyclic[i].switches = 3;
    }
    begin();
}

/* Both accumulators on this date. */
static void see(uint32_t date)
{
    for (uint8_t profile = 1; profile <= 2; profile++) {
        start(profile);
        first_on(date, TC, 1);
    }
}

/* Day by day. */
static void walk(uint32_t from, unsigned days, uint8_t kind_1,
                 uint8_t first_day_1, uint8_t kind_2, uint8_t first_day_2)
{
    fresh(from, kind_1, first_day_1, kind_2, first_day_2);
    for (; days > 0; days--) {
        see(from);
        from = next_day(from);
    }
    emit();
}

static void walks(void)
{
    static const uint32_t from[] = {0x000101, 0x040215, 0x051224, 0x120220};

    for (unsigned i = 0; i < 4; i++)
        for (uint8_t day = 0; day < 7; day += 2)
            walk(from[i], 30, WEEKS, day, WEEKS, (uint8_t)((day + 1) % 7));
    walk(0x000101, 430, DAYS, THU, MONTHS, FRI);
    walk(0x030220, 380, MONTHS, MON, DAYS, SUN);
    walk(0x991201, 31, WEEKS, MON, MONTHS, FRI);
}

/* The days around the turns of the year and of February, to the end. */
static void century(uint8_t kind_1, uint8_t first_day_1, uint8_t kind_2,
                    uint8_t first_day_2)
{
    fresh(FIRST_DATE, kind_1, first_day_1, kind_2, first_day_2);
    for (uint32_t year = 0; year < 100; year++) {
        const uint32_t coded = (year / 10 << 4 | year % 10) << 16;
        uint32_t date = coded | 0x0101;
        see(date);
        see(next_day(date));
        for (date = coded | 0x0228; date <= (coded | 0x0301);
             date = next_day(date))
            see(date);
        see(coded | 0x1230);
        see(coded | 0x1231);
    }
    emit();
}

/* Later by more and more days, and by whole weeks, months and years. */
static void gaps(uint8_t kind_1, uint8_t first_day_1, uint8_t kind_2,
                 uint8_t first_day_2)
{
    static const unsigned some[] = {59, 60, 61, 62, 91, 92, 182, 183,
                                    364, 365, 366, 367, 730, 731, 1460, 1461};
    uint32_t date = 0x050701;

    fresh(date, kind_1, first_day_1, kind_2, first_day_2);
    for (unsigned days = 0; days <= 40; days++) {
        date = days_later(date, days);
        see(date);
    }
    for (unsigned i = 0; i < sizeof some / sizeof *some; i++) {
        date = days_later(date, some[i]);
        see(date);
    }
    emit();
}

/* Every month and day byte of interest, in a leap year and in another: a day is
 * taken, as an AAC, what is none is refused and leaves the Start open. */
static void days(uint32_t year)
{
    static const uint8_t odd[] = {0x0A, 0x0F, 0x1A, 0x1F, 0xA1, 0xF0, 0xFF};
    static const uint8_t ends[] = {0x00, 0x01, 0x28, 0x29, 0x30, 0x31, 0x32,
                                   0x33, 0x39, 0x40, 0x0A, 0x2A, 0x3A, 0xA1};
    uint32_t months[32];
    unsigned count = 0;

    for (uint32_t month = 0; month < 0x14; month++)
        if ((month & 15) < 10)
            months[count++] = month;
    months[count++] = 0x20;
    months[count++] = 0x90;
    for (unsigned i = 0; i < sizeof odd; i++)
        months[count++] = odd[i];

    fresh(FIRST_DATE, DAYS, FRI, MONTHS, FRI);
    start(1);
    for (unsigned i = 0; i < count; i++)
        for (unsigned j = 0; j < sizeof ends; j++) {
            first_on(year << 16 | months[i] << 8 | ends[j], AAC, 0);
            start(1);
        }
    see(LAST_DATE);
    emit();
}

/* Every year byte with 29 February and with New Year's Eve. */
static void years(void)
{
    fresh(FIRST_DATE, DAYS, FRI, MONTHS, FRI);
    for (uint32_t year = 0; year < 256; year++) {
        start(1);
        first_on(year << 16 | 0x0229, TC, 1);
        start(2);
        first_on(year << 16 | 0x1231, TC, 1);
    }
    emit();
}

/* Bytes that are no day, as a set-up's last date and as a First's. */
static void not_days(void)
{
    fresh(0x050714, DAYS, FRI, WEEKS, MON);
    start(1);
    for (unsigned i = 0; i < NOT_DAYS; i++)
        first_on(not_day[i], TC, 1);
    first_on(0x050715, TC, 1);
    see(0x050715);
    emit();
    for (unsigned i = 0; i < NOT_DAYS; i++) {
        fresh(not_day[i], DAYS, FRI, WEEKS, MON);
        see(0x050715);
        emit();
    }
}

void listed_dates(void)
{
    walks();
    century(WEEKS, MON, MONTHS, FRI);
    century(DAYS, MON, WEEKS, SUN);
    gaps(WEEKS, MON, WEEKS, SAT);
    gaps(MONTHS, MON, DAYS, FRI);
    gaps(WEEKS, FRI, WEEKS, THU);
    days(0x04);
    days(0x05);
    days(0x00);
    days(0x9A);
    years();
    not_days();
}
