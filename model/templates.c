/* templates [FILE]: reads templates, each behind its length in 4 bytes, and
 * prints one line for each: 0, 18 or 19, and behind a 0 three words for each
 * command: where it starts, how long it is, and what it writes: v1=5 is a
 * value, a1=5-6 and c1=5-6 are limits of an accumulator and of a counter, with
 * commas between; + is nothing at all, and - a command that fails. */
#include <inttypes.h>
#include <stdio.h>
#include <stdlib.h>

#include "bundle.h"
#include "put.h"
#include "template.h"

static struct bundle bundle;

static void print_limits(const struct put_limits *limits, char what,
                         unsigned slot, const char **between)
{
    if (!limits->written)
        return;
    printf("%s%c%u=%" PRIu64 "-%" PRIu64, *between, what, slot + 1,
           limits->lower, limits->upper);
    *between = ",";
}

static bool print_command(void *with, const uint8_t *command, size_t length)
{
    const uint8_t *template = with;
    const char *between = "";
    struct put put;

    printf(" %zu %zu ", (size_t)(command - template), length);
    if (!put_read(&put, command, length)) {
        printf("-");
        return true;
    }
    for (unsigned i = 0; i < ACCUMULATORS; i++)
        if (put.accumulator[i].written) {
            printf("%sv%u=%" PRIu64, between, i + 1, put.accumulator[i].value);
            between = ",";
        }
    for (unsigned i = 0; i < ACCUMULATORS; i++)
        print_limits(&put.accumulator_limits[i], 'a', i, &between);
    for (unsigned i = 0; i < COUNTERS; i++)
        print_limits(&put.counter_limits[i], 'c', i, &between);
    if (*between == '\0')
        printf("+");
    return true;
}

int main(int argc, char **argv)
{
    FILE *file = stdin;
    const uint8_t *template;
    size_t length;
    enum bundle_next next;

    if (argc > 2) {
        fprintf(stderr, "usage: templates [FILE]\n");
        return 1;
    }
    if (argc == 2 && !(file = fopen(argv[1], "rb"))) {
        perror(argv[1]);
        return 1;
    }
    bundle_open(&bundle, file);
    while ((next = bundle_next(&bundle, &template, &length)) == BUNDLE_PAPER) {
        const unsigned refusal = template_read(template, length, NULL, NULL);
        printf("%u", refusal);
        if (refusal == 0)
            template_read(template, length, print_command, (void *)template);
        printf("\n");
    }
    if (next != BUNDLE_END || fflush(stdout) != 0) {
        fprintf(stderr, "templates: not whole, or too long\n");
        return 1;
    }
    return 0;
}
