/* Set-ups and commands by chance, biased to where cards go wrong. */
#ifndef MODEL_INVENT_H
#define MODEL_INVENT_H

#include "chance.h"
#include "draft.h"

enum { POOL = 4 };

/* What one paper's amounts, currencies and terminal's data look like. */
struct world {
    enum { SMALL, THOUSANDS, TOP, WIDE, WORLDS } amounts;
    uint16_t currency[POOL]; /* all different */
    size_t data;             /* how long, as a rule */
    uint32_t last;           /* the card's last date, about */
    uint32_t past;           /* the last date in error, or 0 */
    bool in_error;           /* the last First's date was */
};

/* A set-up of version 01 in range; 0 profiles: as many as chance gives; 6
 * conversions: likewise. */
void invent_setup(struct chance *chance, struct world *world,
                  struct draft_setup *setup, unsigned profiles,
                  unsigned conversions);

/* Another version by chance, with what it adds. */
void invent_version(struct chance *chance, struct world *world,
                    struct draft_setup *setup);

/* Version 04, dated. */
void invent_cycles(struct chance *chance, struct world *world,
                   struct draft_setup *setup);

/* Version 05, CPACE; behind invent_cycles, if that is asked for. */
void invent_family(struct chance *chance, struct draft_setup *setup);

/* So many commands. Tidy ones are in range and in turn as far as the card
 * decides so; the others stray now and then. */
void invent_commands(struct chance *chance, struct world *world,
                     const struct draft_setup *setup, struct draft *draft,
                     size_t count, bool tidy);

/* A stored value or a limit, of an accumulator and of a counter. */
uint64_t invent_value(struct chance *chance, const struct world *world);
uint8_t invent_count(struct chance *chance);

/* Twelve digits in six bytes. */
void put_amount(uint8_t *at, uint64_t amount);

/* Two bytes with one digit that is none, the first, second, third or fourth. */
uint16_t bad_currency(struct chance *chance, unsigned digit);

#endif
