/* differ STACK MODEL PROVED NAME [WHAT]: compares the lines that two programs
 * gave for a stack, paper by paper, and ends in 'N papers, M differ'. The first
 * paper that differs is shown on standard error, with NAME for the second
 * program; WHAT is another word for a paper. Status 0 exactly when none
 * differs, 1 when one does, 2 when a file cannot be read. */
#include <inttypes.h>
#include <stdio.h>
#include <stdlib.h>
#include <string.h>

#include "bundle.h"
#include "bytes.h"
#include "sitting.h"

/* One paper's lines, up to and with the empty one. */
struct lines {
    FILE *file;
    char *text;
    size_t length, room;
};

static struct bundle bundle;
static const char *what_it_is = "paper";

static void fail(const char *what)
{
    perror(what);
    exit(2);
}

static void open_lines(struct lines *lines, const char *name)
{
    memset(lines, 0, sizeof *lines);
    lines->file = fopen(name, "rb");
    if (!lines->file)
        fail(name);
}

static void add(struct lines *lines, int c)
{
    if (lines->length == lines->room) {
        lines->room = 2 * lines->room + 4096;
        lines->text = realloc(lines->text, lines->room);
        if (!lines->text)
            fail("memory");
    }
    lines->text[lines->length++] = (char)c;
}

/* Takes the next paper's lines, or with `rest` all that is left. */
static void take_lines(struct lines *lines, int rest)
{
    int c, before = '\n';

    while ((c = getc(lines->file)) != EOF) {
        add(lines, c);
        if (!rest && c == '\n' && before == '\n')
            return;
        before = c;
    }
    if (ferror(lines->file))
        fail("lines");
}

static int same(const struct lines *one, const struct lines *other)
{
    return one->length == other->length
        && (one->length == 0
            || memcmp(one->text, other->text, one->length) == 0);
}

static void show_lines(const char *name, const struct lines *lines)
{
    fprintf(stderr, "%s:\n", name);
    if (lines->length > 0)
        fwrite(lines->text, 1, lines->length, stderr);
    if (lines->length == 0 || lines->text[lines->length - 1] != '\n')
        fprintf(stderr, "(no line feed)\n");
}

static void show(uint64_t number, const uint8_t *paper, size_t length,
                 const struct lines *model, const struct lines *proved,
                 const char *name)
{
    fprintf(stderr, "%s %" PRIu64 " differs, its bytes:\n", what_it_is,
            number);
    if (length > PAPER_MAX)
        fprintf(stderr, "(over 65,536 bytes)");
    else
        for (size_t i = 0; i < length; i++)
            fprintf(stderr, "%02X", (unsigned)paper[i]);
    fprintf(stderr, "\n");
    show_lines("model", model);
    show_lines(name, proved);
}

int main(int argc, char **argv)
{
    struct lines model, proved;
    uint64_t papers = 0, differ = 0;
    static uint8_t kept[PAPER_MAX]; /* the paper at hand */
    size_t kept_length = 0;

    if (argc != 5 && argc != 6) {
        fprintf(stderr, "usage: differ STACK MODEL PROVED NAME [WHAT]\n");
        return 2;
    }
    if (argc == 6)
        what_it_is = argv[5];
    FILE *file = fopen(argv[1], "rb");
    if (!file)
        fail(argv[1]);
    bundle_open(&bundle, file);
    open_lines(&model, argv[2]);
    open_lines(&proved, argv[3]);

    const uint8_t *paper;
    size_t length;
    enum bundle_next next = bundle_next(&bundle, &paper, &length);
    while (next == BUNDLE_PAPER || next == BUNDLE_TOO_LONG) {
        kept_length = next == BUNDLE_PAPER ? length : PAPER_MAX + 1;
        if (next == BUNDLE_PAPER)
            memcpy(kept, paper, length);
        papers++;
        next = bundle_next(&bundle, &paper, &length);

        /* Whatever follows the last paper's lines counts as its own. */
        const int last = next != BUNDLE_PAPER && next != BUNDLE_TOO_LONG;
        model.length = 0;
        proved.length = 0;
        take_lines(&model, last);
        take_lines(&proved, last);
        if (same(&model, &proved))
            continue;
        if (differ++ == 0)
            show(papers, kept, kept_length, &model, &proved, argv[4]);
    }
    if (next != BUNDLE_END || papers == 0) {
        fprintf(stderr, "differ: the stack is %s\n",
                next == BUNDLE_END ? "empty" : "not whole");
        return 2;
    }
    free(model.text);
    free(proved.text);
    printf("%" PRIu64 " %ss, %" PRIu64 " differ\n", papers, what_it_is, differ);
    return differ > 0;
}
