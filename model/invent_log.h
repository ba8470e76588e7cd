/* Logs by chance: rings, switches and tables, and damage to them. */
#ifndef MODEL_INVENT_LOG_H
#define MODEL_INVENT_LOG_H

#include "chance.h"
#include "draft.h"

/* Version 07; behind all that older versions add. Now and then a table reaches
 * past its data. */
void invent_log(struct chance *chance, struct draft_setup *setup);

/* One byte of its tail in a paper with this set-up, which has a log, or the
 * length of the tail. */
void damage_log(struct chance *chance, const struct draft_setup *setup,
                struct draft *draft);

#endif
