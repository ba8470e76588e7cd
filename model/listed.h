/* The papers that every stack begins with: each cause of refusals 1, 9, 12 and
 * 14, field by field, and each branch of First and Second, whatever the
 * seed. */
#ifndef MODEL_LISTED_H
#define MODEL_LISTED_H

#include "chance.h"
#include "draft.h"

/* Writes them one after the other, calling emit at the end of each. The seed
 * chooses what they say where it does not matter to what they are for. */
void listed_papers(uint64_t seed, void (*emit)(struct draft *draft));

/* Those about profile selection and the tails of a set-up, the same for any
 * seed. */
void listed_selection(void);

/* Its blocks of some bytes and its many values, each check. */
void listed_blocks(void);

/* Every way a transaction closes, what closed it sent again, and Starts over
 * what is open. */
void listed_closing(void);

/* Cyclic accumulators, and dates one after the other. */
void listed_cycles(void);
void listed_dates(void);

/* CPACE cards. */
void listed_cpace(void);

/* Issuer scripts, where version 06 is read. */
void listed_scripts(void);

/* The transaction log, where version 07 is read. */
void listed_log(void);

/* Every version and kind that is none, and the largest of everything. */
void listed_bounds(void);

#endif
