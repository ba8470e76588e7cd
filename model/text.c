/* text [FILE]: the text of a paper, from the file or standard input. A paper
 * that is too long has none: status 1. */
#include <stdlib.h>

#include "print.h"

enum { PAPER_MOST = 65536 };

static struct grown paper, text;

static void fail(const char *what)
{
    perror(what);
    exit(2);
}

int main(int argc, char **argv)
{
    const char *name = argc == 2 ? argv[1] : "standard input";
    FILE *file = stdin;

    if (argc > 2) {
        fprintf(stderr, "usage: text [FILE]\n");
        return 2;
    }
    if (argc == 2 && !(file = fopen(name, "rb")))
        fail(name);
    grow_file(&paper, file);
    if (ferror(file))
        fail(name);
    if (paper.length > PAPER_MOST) {
        fprintf(stderr, "a paper of at most 65,536 bytes expected\n");
        return 1;
    }
    print_paper(&text, paper.bytes, paper.length);
    if (!write_grown(&text, stdout) || fflush(stdout) != 0)
        fail("standard output");
    free(paper.bytes);
    free(text.bytes);
    return 0;
}
