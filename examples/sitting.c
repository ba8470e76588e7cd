/* sitting PAPER [PROFILE ACCUMULATOR]: the lines of a paper, through the card's
 * functions for C, and last, where it is asked for, the room left. What a
 * selection visited has no place in an answer, and is not shown. */
#include <stdio.h>
#include <stdlib.h>

#include "comblattice.h"

enum { LENGTH_BYTES = 2, START = 2, SCRIPT = 5, IAD_BYTES = 32 };

static uint8_t paper[65537]; /* a byte more than the longest has */
static uint64_t seat[COMBLATTICE_SEAT];

static size_t read_paper(const char *name)
{
    FILE *file = fopen(name, "rb");

    if (!file) {
        perror(name);
        exit(2);
    }
    const size_t size = fread(paper, 1, sizeof paper, file);
    if (ferror(file)) {
        perror(name);
        exit(2);
    }
    fclose(file);
    return size;
}

/* Where the record at a place ends; past the paper if it is cut short. */
static size_t record_end(size_t at, size_t size)
{
    if (size - at < LENGTH_BYTES)
        return size + 1;
    return at + LENGTH_BYTES + (size_t)(paper[at] << 8 | paper[at + 1]);
}

static void print_answer(unsigned number, uint8_t kind, const uint8_t *answer)
{
    const unsigned atc = (unsigned)(answer[2] << 8 | answer[3]);

    printf("%u %u", number, answer[0]);
    if (answer[0] == 0 && kind == START)
        printf(" %u", atc);
    else if (answer[0] == 0 && kind != SCRIPT) {
        printf(" %02X %u ", answer[1], atc);
        for (size_t i = 0; i < IAD_BYTES; i++)
            printf("%02X", answer[4 + i]);
    }
    putchar('\n');
}

/* Every record behind the set-up, as a run of its own; 9 ends the paper. */
static void sit(size_t at, size_t size)
{
    uint8_t answer[COMBLATTICE_ANSWER];

    for (unsigned number = 1; at < size; number++) {
        const size_t end = record_end(at, size);
        const size_t length = (end < size ? end : size) - at;
        const uint8_t refusal =
            comblattice_run(paper, size, seat, COMBLATTICE_SEAT, paper + at,
                            length, answer, sizeof answer);
        if (refusal != 0) {
            printf("%u %u\n", number, refusal);
            return;
        }
        print_answer(number, paper[at + LENGTH_BYTES], answer);
        at = end;
    }
}

static void print_room(const char *profile, const char *accumulator)
{
    uint64_t left;
    const uint8_t refusal = comblattice_room(
        seat, COMBLATTICE_SEAT, (uint8_t)atoi(profile),
        (uint8_t)atoi(accumulator), &left);

    if (refusal == 0)
        printf("room %s %s %llu\n", profile, accumulator,
               (unsigned long long)left);
    else
        printf("room %s %s refused %u\n", profile, accumulator, refusal);
}

int main(int argc, char **argv)
{
    if (argc != 2 && argc != 4) {
        fprintf(stderr, "usage: sitting PAPER [PROFILE ACCUMULATOR]\n");
        return 2;
    }
    const size_t size = read_paper(argv[1]);
    const uint8_t refusal =
        comblattice_open(paper, size, seat, COMBLATTICE_SEAT);

    printf("0 %u\n", refusal);
    if (refusal == 0) {
        sit(record_end(1, size), size); /* behind the version and the set-up */
        if (argc == 4)
            print_room(argv[2], argv[3]);
    }
    return fflush(stdout) != 0;
}
