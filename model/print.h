/* A paper as text: the canonical one, of any bytes that a paper can have. */
#ifndef MODEL_PRINT_H
#define MODEL_PRINT_H

#include "grown.h"

void print_paper(struct grown *text, const uint8_t *paper, size_t length);

#endif
