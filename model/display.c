/* display [FILE]: the lines of a paper, from the file or standard input, with
 * the room left behind each, and then its log. */
#include <stdio.h>
#include <stdlib.h>

#include "rooms.h"

static uint8_t paper[PAPER_MAX + 1]; /* a byte more tells that it is too long */
static struct display display;

static void fail(const char *what)
{
    perror(what);
    exit(1);
}

int main(int argc, char **argv)
{
    const char *name = argc == 2 ? argv[1] : "standard input";
    FILE *file = stdin;
    char line[LOG_LINE_MAX_BYTES];

    if (argc > 2) {
        fprintf(stderr, "usage: display [FILE]\n");
        return 1;
    }
    if (argc == 2 && !(file = fopen(name, "rb")))
        fail(name);
    const size_t length = fread(paper, 1, sizeof paper, file);
    if (ferror(file))
        fail(name);

    display_open(&display, paper, length);
    for (size_t size; (size = display_line(&display, line)) > 0;)
        if (fwrite(line, 1, size, stdout) != size)
            fail("standard output");
    if (fflush(stdout) != 0)
        fail("standard output");
    return 0;
}
