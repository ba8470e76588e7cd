/* Dates as papers have them, 0x050715, from day to day. Used by the generator
 * and by the tests. */
#ifndef MODEL_DATES_H
#define MODEL_DATES_H

#include <stdbool.h>
#include <stdint.h>

enum { FIRST_DATE = 0x000101, LAST_DATE = 0x991231 };

/* Three bytes that are no day, each for its own reason or nearly so. */
enum { NOT_DAYS = 24 };
extern const uint32_t not_day[NOT_DAYS];

/* The next day, the day before, the first day of the next month; the last and
 * the first date stay what they are. */
uint32_t next_day(uint32_t date);
uint32_t day_before(uint32_t date);
uint32_t next_month(uint32_t date);

/* So many days later. */
uint32_t days_later(uint32_t date, unsigned days);

#endif
