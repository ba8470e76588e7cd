/* each STACK PROGRAM [ARGUMENT...]: gives each block of a stack to the program
 * on standard input, and writes what it answers and then an empty line. */
#include <stdio.h>
#include <stdlib.h>

#include "bytes.h"
#include "trial.h"

static void fail(const char *what)
{
    perror(what);
    exit(2);
}

static void not_whole(const char *name)
{
    fprintf(stderr, "each: %s is not whole\n", name);
    exit(2);
}

int main(int argc, char **argv)
{
    uint8_t head[4], *block = NULL;
    size_t size, written;

    if (argc < 3) {
        fprintf(stderr, "usage: each STACK PROGRAM [ARGUMENT...]\n");
        return 2;
    }
    FILE *stack = fopen(argv[1], "rb");
    if (!stack)
        fail(argv[1]);
    while ((size = fread(head, 1, sizeof head, stack)) == sizeof head) {
        const size_t length = get32(head);
        block = realloc(block, length + 1);
        if (!block)
            fail("memory");
        if (fread(block, 1, length, stack) != length)
            not_whole(argv[1]);
        const char *answer = try_program(argv + 2, block, length, &written);
        if (fwrite(answer, 1, written, stdout) != written
            || putchar('\n') == EOF)
            fail("standard output");
    }
    if (size > 0 || ferror(stack))
        not_whole(argv[1]);
    free(block);
    if (fflush(stdout) != 0)
        fail("standard output");
    return 0;
}
