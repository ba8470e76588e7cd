/* back STACK: prints each paper of a stack and reads the text, ending in 'N
 * papers, M do not come back'. A paper that is too long is left out.
 * back STACK texts: reads each text of a stack: its bytes, printed, must say
 * the same; an offence must stand at the first place from which as many lines
 * and words are left as from there. The last line is 'N texts, K refused, M
 * wrong'. Status 0 exactly when M is 0. */
#include <inttypes.h>
#include <stdlib.h>
#include <string.h>

#include "bytes.h"
#include "print.h"
#include "read.h"

enum { PAPER_MOST = 65536 };

static struct grown stack, paper, text, again;

/* What is left from each place of a text on, found from its end: the words of
 * the line, whether one begins or goes on here, and the lines below. */
struct left {
    size_t words, below;
    bool in_word;
};

static void step(struct left *here, const struct left *next, uint8_t byte)
{
    *here = *next;
    here->in_word = byte > ' ' && byte != '#';
    if (here->in_word)
        here->words += !next->in_word;
    else if (byte == '\n' || byte == '#')
        here->words = 0;
    if (byte == '\n')
        here->below += next->words > 0;
}

/* Whether so many lines and words are left, with a word that begins. */
static bool is_here(const struct left *here, const struct left *wanted)
{
    return here->below == wanted->below && here->words == wanted->words
        && (wanted->words == 0 || here->in_word);
}

static size_t place_of(const uint8_t *said, size_t length, size_t line,
                       size_t column)
{
    size_t place = 0;

    for (; line > 1 && place < length; place++)
        line -= said[place] == '\n';
    return place + column - 1;
}

/* Whether the offence is where its line and column say, and first there. */
static bool is_in_place(const struct offence *offence, const uint8_t *said,
                        size_t length)
{
    const struct spot *found = &offence->found;
    const size_t place = place_of(said, length, found->line, found->column);
    bool first = place <= length;
    struct left *left = calloc(length + 1, sizeof *left);

    if (!left) {
        perror("memory");
        exit(2);
    }
    for (size_t i = length; i-- > 0;)
        step(&left[i], &left[i + 1], said[i]);
    if (found->size > 0)
        first = first && left[place].in_word && found->word == said + place;
    else
        first = first && left[place].words == 0;
    for (size_t i = 0; first && i < place; i++)
        first = !is_here(&left[i], &left[place]);
    free(left);
    return first;
}

static bool same(const struct grown *one, const uint8_t *bytes, size_t length)
{
    return one->length == length
        && (length == 0 || memcmp(one->bytes, bytes, length) == 0);
}

/* Whether the bytes, printed, are read as they are. */
static bool comes_back(const uint8_t *bytes, size_t length)
{
    struct offence offence;

    text.length = 0;
    again.length = 0;
    print_paper(&text, bytes, length);
    return read_text(&again, &offence, text.bytes, text.length)
        && same(&again, bytes, length);
}

static bool is_sound(const uint8_t *said, size_t length, bool *refused)
{
    struct offence offence;

    paper.length = 0;
    *refused = !read_text(&paper, &offence, said, length);
    if (*refused)
        return paper.length == 0 && is_in_place(&offence, said, length);
    return paper.length <= PAPER_MOST
        && comes_back(paper.bytes, paper.length);
}

int main(int argc, char **argv)
{
    const bool texts = argc == 3 && strcmp(argv[2], "texts") == 0;
    uint64_t blocks = 0, refusals = 0, wrong = 0;
    size_t at = 0;

    if (argc != 2 && !texts) {
        fprintf(stderr, "usage: back STACK [texts]\n");
        return 2;
    }
    FILE *file = fopen(argv[1], "rb");
    if (!file) {
        perror(argv[1]);
        return 2;
    }
    grow_file(&stack, file);
    while (stack.length - at >= 4) {
        const uint8_t *block = stack.bytes + at + 4;
        const size_t length = get32(stack.bytes + at);
        bool refused = false;
        if (stack.length - at - 4 < length)
            break;
        at += 4 + length;
        if (!texts && length > PAPER_MOST)
            continue;
        const bool sound = texts ? is_sound(block, length, &refused)
                                 : comes_back(block, length);
        blocks++;
        refusals += refused;
        wrong += !sound;
        if (!sound && wrong == 1)
            fprintf(stderr, "%s %" PRIu64 " is wrong:\n%.*s",
                    texts ? "text" : "paper", blocks,
                    (int)(texts ? length : text.length),
                    (const char *)(texts ? block : text.bytes));
    }
    if (at < stack.length || ferror(file)) {
        fprintf(stderr, "back: %s is not whole\n", argv[1]);
        return 2;
    }
    if (texts)
        printf("%" PRIu64 " texts, %" PRIu64 " refused, %" PRIu64 " wrong\n",
               blocks, refusals, wrong);
    else
        printf("%" PRIu64 " papers, %" PRIu64 " do not come back\n", blocks,
               wrong);
    free(stack.bytes);
    free(paper.bytes);
    free(text.bytes);
    free(again.bytes);
    return wrong > 0;
}
