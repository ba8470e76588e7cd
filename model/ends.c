/* ends WHICH: what a program is given on standard input that its other papers
 * do not show: a paper that is too long, and stacks that have one or are cut
 * short. */
#include <stdio.h>
#include <string.h>

#include "bytes.h"
#include "script.h"

enum { TOO_LONG = PAPER + 1, FAR_TOO_LONG = 0x2FFFF };

/* The printed sitting with commands behind it, good but for its size. */
static void too_long(void)
{
    printed_sitting();
    while ((TOO_LONG - draft->length) % 15 != 0)
        start(1);
    while (draft->length < TOO_LONG)
        first(TC, 1);
}

static void put(const uint8_t *bytes, size_t count)
{
    fwrite(bytes, 1, count, stdout);
}

/* So many bytes of the paper, behind its length. */
static void put_paper(size_t count)
{
    uint8_t length[4];

    put32(length, (uint32_t)draft->length);
    put(length, sizeof length);
    put(draft->bytes, count);
}

static void put_printed(void)
{
    printed_sitting();
    put_paper(draft->length);
}

static void put_too_long(void)
{
    too_long();
    put_paper(draft->length);
}

/* Selection on, and behind a Start one byte that is no record. The length of
 * the paper behind it would serve as the rest of a Start. */
static void put_stray_byte(void)
{
    draft_printed_setup(&setup);
    setup.version = 2;
    simple_entry(0x00, 0x00, 0, 1, 1);
    begin();
    start(1);
    draft_insert(draft, draft->length, (const uint8_t[]){0x0A}, 1);
    put_paper(draft->length);
}

/* What is to be skipped looks like a stack itself, and goes on beyond what a
 * buffer of 262,144 bytes holds. */
static void put_far_too_long(void)
{
    uint8_t length[4];

    printed_sitting();
    put32(length, FAR_TOO_LONG);
    put(length, sizeof length);
    for (size_t left = FAR_TOO_LONG; left > 0;) {
        const size_t size = 4 + draft->length;
        uint8_t bytes[4 + 1024];
        put32(bytes, (uint32_t)draft->length);
        memcpy(bytes + 4, draft->bytes, draft->length);
        put(bytes, size < left ? size : left);
        left -= size < left ? size : left;
    }
}

/* An empty paper, and of a paper far too long no more than its beginning: its
 * length, 0100A001, and what follows would serve as a paper themselves. */
static void put_empty_and_cut(void)
{
    printed_sitting();
    put((const uint8_t[]){0, 0, 0, 0}, 4);
    put((const uint8_t[]){1, 0}, 2);
    put(draft->bytes + 2, draft->length - 2);
}

int main(int argc, char **argv)
{
    const char *which = argc == 2 ? argv[1] : "";

    if (strcmp(which, "sitting_long") == 0) {
        too_long();
        put(draft->bytes, draft->length);
    } else if (strcmp(which, "stack_long") == 0) {
        put_printed();
        put_too_long();
        put_stray_byte();
        put_far_too_long();
        put_printed();
        put_empty_and_cut();
    } else if (strcmp(which, "stack_cut") == 0) {
        put_printed();
        printed_sitting(); /* not whole */
        put_paper(draft->length - 1);
    } else {
        fprintf(stderr, "usage: ends sitting_long|stack_long|stack_cut\n");
        return 2;
    }
    return fflush(stdout) != 0;
}
