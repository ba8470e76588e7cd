/* The names that a text of a paper has for numbers, from 0 on, and for bits,
 * from the lowest on. */
#ifndef MODEL_NAMES_H
#define MODEL_NAMES_H

#include <stddef.h>

struct names {
    size_t count;
    const char *const *word;
};

/* Of numbers. */
extern const struct names name_switch, name_required, name_next, name_power,
    name_cycle, name_day, name_check, name_logged, name_source, name_type,
    name_issuer, name_messaging;

/* Of bits. */
extern const struct names name_decision, name_accumulator, name_counter,
    name_closed, name_kept;

#endif
