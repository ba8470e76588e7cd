/* paper [FILE]: the paper that a text says, from the file or standard input. A
 * text that names no bytes: one line on standard error, status 1. */
#include <stdlib.h>

#include "read.h"

static struct grown text, paper;

static void fail(const char *what)
{
    perror(what);
    exit(2);
}

int main(int argc, char **argv)
{
    const char *name = argc == 2 ? argv[1] : "standard input";
    FILE *file = stdin;
    struct offence offence;
    char line[OFFENCE_LINE];

    if (argc > 2) {
        fprintf(stderr, "usage: paper [FILE]\n");
        return 2;
    }
    if (argc == 2 && !(file = fopen(name, "rb")))
        fail(name);
    grow_file(&text, file);
    if (ferror(file))
        fail(name);
    const bool said = read_text(&paper, &offence, text.bytes, text.length);
    if (!said)
        fwrite(line, 1, offence_line(&offence, line), stderr);
    if (!write_grown(&paper, stdout) || fflush(stdout) != 0)
        fail("standard output");
    free(text.bytes);
    free(paper.bytes);
    return said ? 0 : 1;
}
