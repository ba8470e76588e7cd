/* Damage by chance to a good paper: every way a paper or a set-up can be
 * wrong, and some that leave it right. */
#ifndef MODEL_DAMAGE_H
#define MODEL_DAMAGE_H

#include "chance.h"
#include "draft.h"

void damage(struct chance *chance, const struct draft_setup *setup,
            struct draft *draft);

/* A record that cannot be read, before any record or after the last. */
void damage_record(struct chance *chance, const struct draft_setup *setup,
                   struct draft *draft);

/* The length of one of its records, not its bytes, so that all that follows
 * slips. */
void damage_length(struct chance *chance, struct draft *draft);

/* Makes the paper with this set-up exactly so long by records that can be read:
 * Firsts, where these carry more than in version 01 Seconds, and Starts of
 * profile 0. Needs 56 bytes or more to fill. */
void fill_up(struct draft *draft, const struct draft_setup *setup,
             size_t length);

#endif
