/* bench [FILE]: answers a stack, from the file or standard input, whose first
 * block is a paper and each later one a run for its card. */
#include <stdio.h>
#include <stdlib.h>
#include <string.h>

#include "bundle.h"
#include "bytes.h"
#include "run.h"
#include "sitting.h"

enum {
    HEAD_BYTES = 4, /* the size of the room, before the records */
    ROOM_MAX = 65536,
    BLOCK_MAX = HEAD_BYTES + 65536,
    UNTOUCHED = 0xAA
};

_Static_assert(sizeof ((struct bundle *)0)->buffer >= 4 + BLOCK_MAX,
               "a run fits the buffer");

static struct bundle bundle;
static struct sitting sitting;
static uint8_t paper[PAPER_MAX]; /* the card reads its file there */
static uint8_t room[ROOM_MAX];

static void fail(const char *what)
{
    perror(what);
    exit(1);
}

static void put(const char *text, size_t length)
{
    if (fwrite(text, 1, length, stdout) != length)
        fail("standard output");
}

static void say(const char *text)
{
    put(text, strlen(text));
}

/* The lines of block 1. Its log is not shown: when it could be, behind the last
 * run, the data of the runs are gone. */
static void answer_paper(const uint8_t *block, size_t length)
{
    char line[LINE_MAX_BYTES];

    memcpy(paper, block, length);
    sitting_open(&sitting, paper, length);
    for (size_t size; (size = sitting_line(&sitting, line)) > 0;)
        put(line, size);
}

static void put_room(size_t size)
{
    char line[2 * ANSWER_BYTES + 1];

    for (size_t at = 0; at < size; at += ANSWER_BYTES) {
        const size_t left = size - at;
        char *end = put_hex(line, room + at,
                            left < ANSWER_BYTES ? left : ANSWER_BYTES);
        *end++ = '\n';
        put(line, (size_t)(end - line));
    }
}

/* The size of the room: of the block's first bytes, those missing zero. */
static size_t room_asked(const uint8_t *block, size_t length)
{
    uint8_t head[HEAD_BYTES] = {0};

    memcpy(head, block, length < HEAD_BYTES ? length : HEAD_BYTES);
    const uint32_t size = get32(head);
    return size < ROOM_MAX ? size : ROOM_MAX;
}

static void answer_run(const uint8_t *block, size_t length)
{
    const size_t size = room_asked(block, length);
    const size_t head = length < HEAD_BYTES ? length : HEAD_BYTES;
    size_t answers;
    char line[LINE_MAX_BYTES];

    memset(room, UNTOUCHED, size);
    const unsigned refusal = run(&sitting.card, &sitting.log, block + head,
                                 length - head, room, size, &answers);
    put(line, (size_t)sprintf(line, "run %u %zu\n", refusal, answers));
    put_room(size);
}

/* Block 1, then the runs; a refusal that ends the paper ends all. */
static enum bundle_next answer_stack(void)
{
    const uint8_t *block;
    size_t length;
    enum bundle_next next = bundle_next(&bundle, &block, &length);

    if (next == BUNDLE_TOO_LONG) {
        say("0 9\n");
        return BUNDLE_END;
    }
    if (next != BUNDLE_PAPER)
        return next;
    answer_paper(block, length);
    if (sitting.over)
        return BUNDLE_END;

    bundle.longest = BLOCK_MAX;
    for (;;) {
        next = bundle_next(&bundle, &block, &length);
        if (next == BUNDLE_PAPER)
            answer_run(block, length);
        else if (next == BUNDLE_TOO_LONG)
            say("too long\n");
        else
            return next;
    }
}

int main(int argc, char **argv)
{
    const char *name = argc == 2 ? argv[1] : "standard input";
    FILE *file = stdin;

    if (argc > 2) {
        fprintf(stderr, "usage: bench [FILE]\n");
        return 1;
    }
    if (argc == 2 && !(file = fopen(name, "rb")))
        fail(name);
    bundle_open(&bundle, file);

    const enum bundle_next end = answer_stack();
    if (end == BUNDLE_CUT_SHORT)
        say("cut short\n");
    if (fflush(stdout) != 0)
        fail("standard output");
    if (end == BUNDLE_FAILED)
        fail(name);
    return 0;
}
