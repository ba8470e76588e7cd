/* The paper that a text says. */
#ifndef MODEL_READ_H
#define MODEL_READ_H

#include "grown.h"

/* A word, and where it begins: line and column, in bytes, from 1. Where a line
 * has no more, of no bytes, and behind the line's last word. */
struct spot {
    size_t line, column;
    const uint8_t *word;
    size_t size;
};

struct offence {
    struct spot found;
    char want[256];
};

/* Whether the text names bytes; these go to the paper, which is empty. If not,
 * the offence is the first that a reader meets, and the paper is nothing. */
bool read_text(struct grown *paper, struct offence *offence,
               const uint8_t *text, size_t length);

/* LINE:COLUMN: WANT expected, FOUND found. */
enum { OFFENCE_LINE = 400 };
size_t offence_line(const struct offence *offence, char *line);

#endif
