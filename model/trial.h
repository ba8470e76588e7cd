/* A program tried on some bytes: it is given them on standard input, and what
 * it writes is kept. */
#ifndef MODEL_TRIAL_H
#define MODEL_TRIAL_H

#include <stddef.h>
#include <stdint.h>

/* What it wrote, of so many bytes, a zero behind them; in place until the next
 * call. A program that fails has not answered, and this is said among its
 * lines. That a stack is cut short it may say with status 1, too. */
const char *try_program(char *const *program, const uint8_t *input,
                        size_t length, size_t *written);

/* What it wrote, and the lines that it said on standard error and, how it
 * ended, on descriptor 3: without the word that it is done, and without NAME and
 * a colon before a line. If it said nothing, a status that is not 0 is said.
 * In place until the next call. */
struct told {
    const char *wrote;
    size_t length;
    const char *said;
};
struct told tell_program(char *const *program, const char *name,
                         const uint8_t *input, size_t length);

#endif
