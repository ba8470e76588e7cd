/* What the program `reached` sees of a paper: before a record was taken, and
 * after. */
#ifndef MODEL_OBSERVE_H
#define MODEL_OBSERVE_H

#include "sitting.h"

/* Counts what the record at which `before` stands has reached, by the line that
 * answered it: its refusal, 0 for none. The model itself counts the causes of
 * refusals 1, 9, 12 and 14, where it finds them. */
void observe(const struct sitting *before, const struct sitting *after,
             unsigned refusal);

/* The same of a paper's end, behind its last line. */
void observe_end(const struct sitting *sitting);

#endif
