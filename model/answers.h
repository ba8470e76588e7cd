/* The model's lines for a paper, as one text. */
#ifndef MODEL_ANSWERS_H
#define MODEL_ANSWERS_H

#include <stddef.h>
#include <stdint.h>

/* The room must be enough for all lines and a zero. */
void answers(const uint8_t *paper, size_t length, char *lines);

#endif
