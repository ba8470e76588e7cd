#include "class.h"

#include <stdio.h>
#include <stdlib.h>

#include "bundle.h"
#include "sitting.h"

static struct bundle bundle;
static struct sheet sheet;

static void fail(const char *what)
{
    perror(what);
    exit(1);
}

/* Takes the papers one after the other, and says which are refused. */
static enum bundle_next take_papers(void)
{
    static const uint8_t too_long[PAPER_MAX + 1]; /* whatever it says */
    const uint8_t *paper;
    size_t length;

    for (uint64_t number = 1;; number++) {
        const enum bundle_next next = bundle_next(&bundle, &paper, &length);
        if (next == BUNDLE_TOO_LONG) {
            paper = too_long;
            length = sizeof too_long;
        } else if (next != BUNDLE_PAPER) {
            return next;
        }
        const unsigned refusal = take_paper(&sheet, paper, length);
        if (refusal > 0)
            say_refused(refusal, number);
    }
}

int main(int argc, char **argv)
{
    const char *name = argc == 2 ? argv[1] : "standard input";
    FILE *file = stdin;

    if (argc > 2) {
        fprintf(stderr, "usage: %s [FILE]\n", argv[0]);
        return 1;
    }
    if (argc == 2 && !(file = fopen(name, "rb")))
        fail(name);
    bundle_open(&bundle, file);

    const enum bundle_next end = take_papers();
    if (end == BUNDLE_FAILED)
        fail(name);
    if (end == BUNDLE_CUT_SHORT)
        printf("cut short\n");
    say_sheet(&sheet);
    if (fflush(stdout) != 0 || ferror(stdout))
        fail("standard output");
    return 0;
}
