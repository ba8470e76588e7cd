/* Calendar days of the years 2000 to 2099, as CPA codes them: YYMMDD in
 * decimal digits. */
#ifndef MODEL_CALENDAR_H
#define MODEL_CALENDAR_H

#include <stdbool.h>
#include <stdint.h>

/* The 31st of December 1999, a Friday, has the number 0. */
struct date {
    uint16_t number;
    uint8_t year, month;
};

/* Kinds of cycle. */
enum { CYCLE_DAY = 1, CYCLE_WEEK = 2, CYCLE_MONTH = 3 };

enum { WEEK = 7 }; /* its days, from 0: Friday */

/* The day that three bytes name; false if they name none. */
bool read_date(struct date *date, const uint8_t *at);

/* Whether a cycle began after `last`, on `now` or before it; `now` is not
 * earlier. A week begins on its first day. */
bool cycle_began(unsigned kind, unsigned first_day, const struct date *last,
                 const struct date *now);

#endif
