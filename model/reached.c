/* reached [FILE]: reads a stack and prints how often each cause and branch
 * of reached.h, and each bit of the CVR, was reached. Status 1 when one never
 * was. Compiled, with the model, under REACHED. */
#include <inttypes.h>
#include <stdio.h>
#include <string.h>

#include "bundle.h"
#include "observe.h"
#include "reached.h"

uint64_t reached_count[REACHED_ALL];

static const struct row {
    const char *part, *text, *labels;
    unsigned at, count;
} rows[] = {
#define ROW(name, count, part, text, labels) {part, text, labels, name, count},
    REACHED_LIST(ROW)
#if LATEST > 5
    REACHED_SCRIPTS(ROW)
#endif
#if LATEST > 6
    REACHED_LOG(ROW)
#endif
#undef ROW
};

/* Of CVR byte 4. */
enum { SCRIPT_BITS = LATEST > 5 ? 0xF8 : 0x00 };

/* The named bits of the CVR at First and at Second: those that are both set
 * and clear at times, those always set. All others are always clear. */
static const uint8_t cvr_varies[2][5] = {
    {0x33, 0xF3, 0xF2, SCRIPT_BITS | 0x02, 0x00},
    {0x43, 0xF3, 0xF2, SCRIPT_BITS | 0x03, 0x00}};
static const uint8_t cvr_always[2][5] = {{0x80}, {0x20}};
static uint64_t cvr_set[2][40], cvr_clear[2][40];

static struct bundle bundle;
static struct sitting sitting;
static uint64_t missed, total;

/* The second number of a line. */
static unsigned refusal_of(const char *line)
{
    unsigned refusal = 0;

    sscanf(line, "%*u %u", &refusal);
    return refusal;
}

static void see_cvr(const char *line, size_t length)
{
    /* "n 0 CID ATC IAD": only an answer to First or Second is so long. */
    if (length < 64)
        return;
    const char *iad = line + length - 65;
    uint8_t cvr[5];
    for (unsigned i = 0; i < 5; i++) {
        unsigned value;
        sscanf(iad + 6 + 2 * i, "%2X", &value);
        cvr[i] = (uint8_t)value;
    }
    const unsigned second = cvr[0] >> 6 != 2;
    for (unsigned i = 0; i < 40; i++)
        if (cvr[i / 8] >> i % 8 & 1)
            cvr_set[second][i]++;
        else
            cvr_clear[second][i]++;
}

/* Every line of a paper, each with the sitting before it and after. */
static void see_paper(const uint8_t *paper, size_t length)
{
    char line[LINE_MAX_BYTES + 1];

    sitting_open(&sitting, paper, length);
    for (;;) {
        const struct sitting before = sitting;
        const size_t count = sitting_line(&sitting, line);
        if (count == 0)
            break;
        line[count] = '\0';
        observe(&before, &sitting, refusal_of(line));
        see_cvr(line, count);
    }
    observe_end(&sitting);
    reached_count[LARGEST + 0] += length == PAPER_MAX;
    reached_count[LARGEST + 1] += sitting.record > 21000;
}

static void print_count(uint64_t count)
{
    printf("%" PRIu64, count);
    total++;
    missed += count == 0;
}

/* Each of the row's counts behind its label. */
static void print_row(const struct row *row)
{
    const char *label = row->labels;

    printf("| %s | %s | ", row->part, row->text);
    for (unsigned i = 0; i < row->count; i++) {
        printf("%s", i > 0 ? ", " : "");
        if (*row->labels == '#') {
            printf("%u: ", (unsigned)(row->labels[1] - '0') + i);
        } else if (*label != '\0') {
            const int length = (int)strcspn(label, "|");
            printf("%.*s: ", length, label);
            label += label[length] == '|' ? length + 1 : length;
        }
        print_count(reached_count[row->at + i]);
    }
    printf(" |\n");
}

static void print_cvr(unsigned second)
{
    for (unsigned i = 0; i < 40; i++) {
        const unsigned byte = i / 8;
        const unsigned place = 7 - i % 8;
        const unsigned bit = 8 * byte + place;
        const bool varies = cvr_varies[second][byte] >> place & 1;
        const bool always = cvr_always[second][byte] >> place & 1;
        const bool wrong = always ? cvr_clear[second][bit] > 0
                                  : !varies && cvr_set[second][bit] > 0;
        if (!varies && !always && !wrong)
            continue;
        printf("| CVR | %s, byte %u b%u | ", second ? "Second" : "First",
               byte + 1, place + 1);
        if (varies) {
            printf("clear: ");
            print_count(cvr_clear[second][bit]);
            printf(", ");
        }
        if (varies || always) {
            printf("set: ");
            print_count(cvr_set[second][bit]);
        }
        if (wrong) {
            printf(" and not what it always is: ");
            print_count(0);
        }
        printf(" |\n");
    }
}

int main(int argc, char **argv)
{
    FILE *file = stdin;
    const uint8_t *paper;
    size_t length;
    uint64_t papers = 0;
    enum bundle_next next;

    if (argc > 2) {
        fprintf(stderr, "usage: reached [FILE]\n");
        return 2;
    }
    if (argc == 2 && !(file = fopen(argv[1], "rb"))) {
        perror(argv[1]);
        return 2;
    }
    bundle_open(&bundle, file);
    for (;; papers++) {
        next = bundle_next(&bundle, &paper, &length);
        if (next == BUNDLE_TOO_LONG) {
            reached(PAPER_LONG);
            continue;
        }
        if (next != BUNDLE_PAPER)
            break;
        see_paper(paper, length);
    }
    if (next != BUNDLE_END) {
        fprintf(stderr, "reached: the stack is not whole\n");
        return 2;
    }

    printf("| part | cause or branch | times reached |\n|---|---|---|\n");
    for (size_t i = 0; i < sizeof rows / sizeof *rows; i++)
        print_row(&rows[i]);
    print_cvr(0);
    print_cvr(1);
    printf("\n%" PRIu64 " papers, %" PRIu64 " of %" PRIu64 " reached\n", papers,
           total - missed, total);
    return missed > 0;
}
