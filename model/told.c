/* told STACK NAME PROGRAM [ARGUMENT...]: gives each block of a stack to the
 * program on standard input, and writes what that wrote, in hex, on a line of
 * its own, then the lines that it said, without its NAME, and an empty line. */
#include <stdlib.h>

#include "bytes.h"
#include "grown.h"
#include "trial.h"

static void fail(const char *what)
{
    perror(what);
    exit(2);
}

static void write_told(const struct told *told)
{
    for (size_t i = 0; i < told->length; i++)
        printf("%02X", (unsigned)(uint8_t)told->wrote[i]);
    if (told->length > 0)
        printf("\n");
    printf("%s\n", told->length > 0 || *told->said ? told->said : "-\n");
}

int main(int argc, char **argv)
{
    static struct grown stack;
    size_t at = 0;

    if (argc < 4) {
        fprintf(stderr, "usage: told STACK NAME PROGRAM [ARGUMENT...]\n");
        return 2;
    }
    FILE *file = fopen(argv[1], "rb");
    if (!file)
        fail(argv[1]);
    grow_file(&stack, file);
    if (ferror(file))
        fail(argv[1]);
    while (stack.length - at >= 4) {
        const size_t length = get32(stack.bytes + at);
        if (stack.length - at - 4 < length)
            break;
        const struct told told = tell_program(argv + 3, argv[2],
                                              stack.bytes + at + 4, length);
        write_told(&told);
        at += 4 + length;
    }
    if (at < stack.length) {
        fprintf(stderr, "told: %s is not whole\n", argv[1]);
        return 2;
    }
    free(stack.bytes);
    if (fflush(stdout) != 0)
        fail("standard output");
    return 0;
}
