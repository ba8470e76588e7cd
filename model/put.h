/* PUT DATA (CPA 18.8), as a command of the issuer's template brings it. */
#ifndef MODEL_PUT_H
#define MODEL_PUT_H

#include "card.h"

/* What a command writes: of each slot whether it does. */
struct put {
    struct {
        uint64_t value;
        bool written;
    } accumulator[ACCUMULATORS];
    struct put_limits {
        uint64_t lower, upper;
        bool written;
    } accumulator_limits[ACCUMULATORS], counter_limits[COUNTERS];
};

/* False if the command fails. */
bool put_read(struct put *put, const uint8_t *command, size_t length);

/* The limits go into every profile. */
void put_write(struct card *card, const struct put *put);

#endif
