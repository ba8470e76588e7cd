/* seat: the runs of a stack for `bench` on standard input, answered by the
 * proved card through its functions for C. What is printed is `bench`'s output
 * but for the lines of block 1: the records of the paper are sent as one run,
 * and what a selection visited has no place in an answer. */
#include <stdbool.h>
#include <stdio.h>
#include <stdlib.h>
#include <string.h>

#include "bundle.h"
#include "bytes.h"
#include "comblattice.h"
#include "sitting.h"

enum {
    HEAD_BYTES = 4, /* the size of the room, before the records */
    ROOM_MAX = 65536,
    BLOCK_MAX = HEAD_BYTES + 65536,
    RECORD_LEAST = 3,
    BEHIND = 4, /* more than is lent, which must stay */
    UNTOUCHED = 0xAA
};

static struct bundle bundle;
static uint8_t paper[PAPER_MAX];
static size_t paper_bytes;
static uint64_t seat[COMBLATTICE_SEAT + BEHIND];
static uint8_t room[PAPER_MAX / RECORD_LEAST * COMBLATTICE_ANSWER + BEHIND];

static void fail(const char *what)
{
    perror(what);
    exit(1);
}

/* The records of a run that is taken. */
static size_t count_records(const uint8_t *records, size_t length)
{
    size_t count = 0;

    for (size_t at = 0; at < length; at += 2u + get16(records + at))
        count++;
    return count;
}

/* A run in a room of so many bytes. What a refusal changes, and what is changed
 * behind the room or the card, is said. */
static unsigned run(const uint8_t *records, size_t length, size_t size)
{
    static uint64_t seat_before[COMBLATTICE_SEAT + BEHIND];
    static uint8_t room_before[sizeof room];

    memset(room, UNTOUCHED, size + BEHIND);
    memcpy(room_before, room, size + BEHIND);
    memcpy(seat_before, seat, sizeof seat);
    const unsigned refusal =
        comblattice_run(paper, paper_bytes, seat, COMBLATTICE_SEAT + BEHIND / 2,
                        records, length, room, size);
    const size_t cells = refusal == 0 ? COMBLATTICE_SEAT : 0;
    const size_t bytes = refusal == 0 ? size : 0;
    if (memcmp(seat + cells, seat_before + cells,
               sizeof seat - cells * sizeof *seat) != 0)
        puts("seat changed");
    if (memcmp(room + bytes, room_before + bytes, size + BEHIND - bytes) != 0)
        puts("room changed");
    return refusal;
}

static void put_room(size_t size)
{
    for (size_t at = 0; at < size; at++)
        printf("%02X%s", room[at],
               at + 1 == size || (at + 1) % COMBLATTICE_ANSWER == 0 ? "\n"
                                                                     : "");
}

/* The paper's set-up, and its records as one run: whether there is a card. */
static bool open_paper(const uint8_t *block, size_t length)
{
    memcpy(paper, block, length);
    paper_bytes = length;
    memset(seat, UNTOUCHED, sizeof seat);
    if (comblattice_open(paper, length, seat, COMBLATTICE_SEAT) != 0)
        return false;
    const size_t first = 1 + 2u + get16(paper + 1);
    return run(paper + first, length - first, sizeof room - BEHIND) == 0;
}

/* The size of the room: of the block's first bytes, those missing zero. */
static void answer_run(const uint8_t *block, size_t length)
{
    const size_t head = length < HEAD_BYTES ? length : HEAD_BYTES;
    uint8_t first[HEAD_BYTES] = {0};

    memcpy(first, block, head);
    const size_t asked = get32(first);
    const size_t size = asked < ROOM_MAX ? asked : ROOM_MAX;
    const unsigned refusal = run(block + head, length - head, size);
    printf("run %u %zu\n", refusal,
           refusal == 0 ? count_records(block + head, length - head) : 0);
    put_room(size);
}

static enum bundle_next answer_stack(void)
{
    const uint8_t *block;
    size_t length;
    enum bundle_next next = bundle_next(&bundle, &block, &length);

    if (next == BUNDLE_TOO_LONG)
        return BUNDLE_END;
    if (next != BUNDLE_PAPER)
        return next;
    if (!open_paper(block, length))
        return BUNDLE_END;
    bundle.longest = BLOCK_MAX;
    for (;;) {
        next = bundle_next(&bundle, &block, &length);
        if (next == BUNDLE_PAPER)
            answer_run(block, length);
        else if (next == BUNDLE_TOO_LONG)
            puts("too long");
        else
            return next;
    }
}

int main(void)
{
    bundle_open(&bundle, stdin);
    const enum bundle_next end = answer_stack();
    if (end == BUNDLE_CUT_SHORT)
        puts("cut short");
    if (end == BUNDLE_FAILED)
        fail("standard input");
    if (fflush(stdout) != 0)
        fail("standard output");
    return 0;
}
