/* papers COUNT SEED: a stack of papers on standard output, the same for the
 * same seed: first those of listed.h, then by chance, good ones and damaged.
 * papers COUNT SEED COMMANDS: good papers of version 01 only, so many commands
 * in each. */
#include <errno.h>
#include <stdio.h>
#include <stdlib.h>

#include "bytes.h"
#include "damage.h"
#include "invent.h"
#include "listed.h"
#include "script.h"

/* So that the longest set-up and so many Firsts still make a paper. */
enum { COMMANDS_MAX = 4000 };

static uint64_t count, seed, written;

static void fail(const char *what)
{
    perror(what);
    exit(1);
}

static void write_paper(struct draft *paper)
{
    uint8_t length[4];

    put32(length, (uint32_t)paper->length);
    if (fwrite(length, 1, 4, stdout) != 4
        || fwrite(paper->bytes, 1, paper->length, stdout) != paper->length)
        fail("standard output");
    written++;
}

static void finish(void)
{
    if (fflush(stdout) != 0)
        fail("standard output");
    exit(0);
}

static void write_listed(struct draft *paper)
{
    write_paper(paper);
    if (written == count)
        finish();
}

static void write_invented(void)
{
    struct chance chance = chance_of(seed, written);
    struct world world;

    invent_setup(&chance, &world, &setup, 0, 6);
    invent_version(&chance, &world, &setup);
    begin();
    const size_t most = percent(&chance, 80) ? 12 : 40;
    const size_t commands = below(&chance, most + 1);
    invent_commands(&chance, &world, &setup, draft, commands, false);
    if (percent(&chance, 30))
        damage(&chance, &setup, draft);
    write_paper(draft);
}

/* No paper runs out of transactions. */
static void write_timed(size_t commands)
{
    struct chance chance = chance_of(seed, written);
    struct world world;

    invent_setup(&chance, &world, &setup, 0, 6);
    setup.atc %= 60000;
    begin();
    invent_commands(&chance, &world, &setup, draft, commands, true);
    write_paper(draft);
}

static uint64_t number(const char *text)
{
    char *end;

    errno = 0;
    const unsigned long long value = strtoull(text, &end, 10);
    if (*text < '0' || *text > '9' || *end != '\0' || errno != 0) {
        fprintf(stderr, "papers: not a number: %s\n", text);
        exit(1);
    }
    return value;
}

int main(int argc, char **argv)
{
    if (argc != 3 && argc != 4) {
        fprintf(stderr, "usage: papers COUNT SEED [COMMANDS]\n");
        return 1;
    }
    count = number(argv[1]);
    seed = number(argv[2]);
    if (argc == 4) {
        const uint64_t commands = number(argv[3]);
        if (commands > COMMANDS_MAX) {
            fprintf(stderr, "papers: no more than %d commands fit a paper\n",
                    COMMANDS_MAX);
            return 1;
        }
        while (written < count)
            write_timed((size_t)commands);
        finish();
    }
    if (count > 0)
        listed_papers(seed, write_listed);
    while (written < count)
        write_invented();
    finish();
}
