/* A small generator of chance (splitmix64): the same seed gives the same
 * papers everywhere. Each draw stands in a statement of its own, since C
 * leaves the order within an expression to the compiler. */
#ifndef MODEL_CHANCE_H
#define MODEL_CHANCE_H

#include <stdbool.h>
#include <stddef.h>
#include <stdint.h>

struct chance {
    uint64_t state;
};

static inline uint64_t draw(struct chance *chance)
{
    uint64_t z = chance->state += UINT64_C(0x9E3779B97F4A7C15);
    z = (z ^ z >> 30) * UINT64_C(0xBF58476D1CE4E5B9);
    z = (z ^ z >> 27) * UINT64_C(0x94D049BB133111EB);
    return z ^ z >> 31;
}

/* 0 to count - 1. */
static inline uint64_t below(struct chance *chance, uint64_t count)
{
    return draw(chance) % count;
}

static inline bool percent(struct chance *chance, unsigned share)
{
    return below(chance, 100) < share;
}

static inline uint8_t any_byte(struct chance *chance)
{
    return (uint8_t)draw(chance);
}

/* One of an array. */
#define PICK(chance, array)                                                    \
    ((array)[below((chance), sizeof(array) / sizeof *(array))])

/* The chance of one paper of a stack, whatever was drawn for the others. */
static inline struct chance chance_of(uint64_t seed, uint64_t paper)
{
    struct chance chance = {seed};
    chance.state = draw(&chance) ^ paper * UINT64_C(0xD1342543DE82EF95);
    chance.state = draw(&chance);
    return chance;
}

#endif
