/* What report and tally share: a class's stack is read, and its sheet made. How
 * they say it is their own. */
#ifndef MODEL_CLASS_H
#define MODEL_CLASS_H

#include <stdint.h>

#include "sheet.h"

/* A paper of the stack, numbered from 1, was not taken. */
void say_refused(unsigned refusal, uint64_t paper);

void say_sheet(const struct sheet *sheet);

#endif
