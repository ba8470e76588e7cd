/* stack [FILE]: answers a stack of papers, from the file or standard input.
 * For each paper its lines and then an empty line. */
#include <stdio.h>
#include <stdlib.h>
#include <string.h>

#include "bundle.h"
#include "sitting.h"

enum { OUT_BYTES = 1 << 18 };

static struct bundle bundle;
static struct sitting sitting;
static char out[OUT_BYTES];
static size_t used;

static void fail(const char *what)
{
    perror(what);
    exit(1);
}

static void write_out(void)
{
    if (fwrite(out, 1, used, stdout) != used)
        fail("standard output");
    used = 0;
}

/* Room for one more line, which may be so long. */
static char *room(size_t longest)
{
    if (OUT_BYTES - used < longest)
        write_out();
    return out + used;
}

static void put(const char *text)
{
    const size_t length = strlen(text);
    memcpy(room(length), text, length);
    used += length;
}

static void answer(const uint8_t *paper, size_t length)
{
    size_t line;

    sitting_open(&sitting, paper, length);
    while ((line = sitting_line(&sitting, room(LINE_MAX_BYTES))) > 0)
        used += line;
    while ((line = sitting_log_line(&sitting, room(LOG_LINE_MAX_BYTES))) > 0)
        used += line;
    put("\n");
}

int main(int argc, char **argv)
{
    FILE *file = stdin;
    const uint8_t *paper;
    size_t length;

    if (argc > 2) {
        fprintf(stderr, "usage: stack [FILE]\n");
        return 1;
    }
    if (argc == 2 && !(file = fopen(argv[1], "rb")))
        fail(argv[1]);
    setvbuf(stdout, NULL, _IONBF, 0); /* the buffer is here */
    bundle_open(&bundle, file);

    for (;;) {
        switch (bundle_next(&bundle, &paper, &length)) {
        case BUNDLE_PAPER:
            answer(paper, length);
            break;
        case BUNDLE_TOO_LONG:
            put("0 9\n\n");
            break;
        case BUNDLE_CUT_SHORT:
            put("cut short\n");
            /* fall through */
        case BUNDLE_END:
            write_out();
            return 0;
        default:
            write_out();
            fail(argc == 2 ? argv[1] : "standard input");
        }
    }
}
