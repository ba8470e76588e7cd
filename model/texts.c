/* texts STACK PAPERS: writes to the file PAPERS those papers of a stack that
 * are not too long, and to standard output the text of each of them, behind its
 * length in 4 bytes. */
#include <stdlib.h>

#include "bundle.h"
#include "print.h"

static struct bundle bundle;

static void fail(const char *what)
{
    perror(what);
    exit(2);
}

int main(int argc, char **argv)
{
    const uint8_t *paper;
    size_t length;
    struct grown kept = {0}, text = {0};
    enum bundle_next next;

    if (argc != 3) {
        fprintf(stderr, "usage: texts STACK PAPERS\n");
        return 2;
    }
    FILE *stack = fopen(argv[1], "rb");
    if (!stack)
        fail(argv[1]);
    FILE *papers = fopen(argv[2], "wb");
    if (!papers)
        fail(argv[2]);
    bundle_open(&bundle, stack);
    while ((next = bundle_next(&bundle, &paper, &length)) == BUNDLE_PAPER
           || next == BUNDLE_TOO_LONG) {
        if (next == BUNDLE_TOO_LONG)
            continue;
        kept.length = 0;
        text.length = 0;
        grow(&kept, paper, length);
        print_paper(&text, paper, length);
        if (!write_grown_block(&kept, papers)
            || !write_grown_block(&text, stdout))
            fail("a stack");
    }
    free(kept.bytes);
    free(text.bytes);
    if (next != BUNDLE_END || fclose(papers) != 0 || fflush(stdout) != 0) {
        fprintf(stderr, "texts: not whole, or not written\n");
        return 2;
    }
    return 0;
}
