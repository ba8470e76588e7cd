/* A stack of papers, each behind its length of four bytes, read from a file
 * of any size. */
#ifndef MODEL_BUNDLE_H
#define MODEL_BUNDLE_H

#include <stddef.h>
#include <stdint.h>
#include <stdio.h>

enum bundle_next {
    BUNDLE_PAPER,
    BUNDLE_TOO_LONG,  /* over the longest, skipped */
    BUNDLE_END,
    BUNDLE_CUT_SHORT, /* the next paper, or its length, is not whole */
    BUNDLE_FAILED     /* the file could not be read */
};

struct bundle {
    FILE *file;
    size_t longest;  /* that is not skipped: PAPER_MAX, or what is put here */
    size_t at, have; /* in the buffer */
    uint8_t buffer[1 << 18];
};

void bundle_open(struct bundle *bundle, FILE *file);

/* The next paper, which stays in place until the next call. */
enum bundle_next bundle_next(struct bundle *bundle, const uint8_t **paper,
                             size_t *length);

#endif
