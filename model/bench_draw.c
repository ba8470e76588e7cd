/* bench_draw COUNT SEED: so many stacks for bench on standard output, each
 * behind its length in 4 bytes, the same for the same seed: papers, and behind
 * each runs of its commands, whole and damaged, with rooms of all sizes. */
#include <assert.h>
#include <stdio.h>
#include <stdlib.h>
#include <string.h>

#include "bytes.h"
#include "damage.h"
#include "invent.h"
#include "script.h"

enum {
    ANSWER = 36,  /* bytes */
    HEAD = 4,     /* of a block: its length; of a run: the size of its room */
    ROOM = 65536, /* the largest */
    RUN = 65536,  /* the longest, without its head */
    RUNS = 8,     /* the most in a stack */
    FAR = 300000, /* beyond any buffer */
    STACK = 1 << 22
};

static struct draft part; /* the paper or the run that goes to the stack */
static uint8_t stack[HEAD + STACK];
static size_t length; /* of the stack, without its own head */

static void add(const void *bytes, size_t count)
{
    assert(length + count <= STACK);
    memcpy(stack + HEAD + length, bytes, count);
    length += count;
}

static void add_number(uint32_t number)
{
    uint8_t bytes[4];

    put32(bytes, number);
    add(bytes, sizeof bytes);
}

/* So many bytes, zeros behind these. */
static void add_padded(const uint8_t *bytes, size_t count, size_t size)
{
    static const uint8_t zeros[FAR];
    const size_t some = count < size ? count : size;

    add(bytes, some);
    add(zeros, size - some);
}

/* Some records of the paper at hand, with their version byte before them. */
static void take_records(size_t from, size_t count)
{
    draft_begin(&part);
    part.bytes[0] = draft->bytes[0];
    for (size_t i = from; i < from + count; i++) {
        const uint8_t *record = draft->bytes + draft->start[i];
        draft_record(&part, record[2], record + 3, get16(record) - 1u);
    }
}

/* The paper: so many of its records, now and then damaged or too long. */
static void add_paper(struct chance *chance, size_t records)
{
    static const size_t over[] = {1, 4, 5, 1000, FAR - PAPER};

    take_records(0, records);
    if (percent(chance, 9))
        damage(chance, &setup, &part);
    if (below(chance, 250) > 0) {
        add_number((uint32_t)part.length);
        add(part.bytes, part.length);
        return;
    }
    const size_t size = PAPER + PICK(chance, over);
    add_number((uint32_t)size);
    add_padded(part.bytes, part.length, size);
}

/* The run becomes one that cannot be read; now and then it still can. */
static void spoil(struct chance *chance)
{
    uint8_t some[3];
    const size_t which = below(chance, part.records + 1);
    const size_t place =
        which < part.records ? part.start[which] : part.length;

    for (size_t i = 0; i < sizeof some; i++)
        some[i] = percent(chance, 50) ? 0 : any_byte(chance);
    switch (below(chance, 8)) {
    case 0: /* cut short */
        part.length -= below(chance, part.length);
        break;
    case 1: /* something left over */
        draft_insert(&part, part.length, some, 1 + below(chance, 3));
        break;
    case 2: /* the set-up again */
        draft_insert(&part, place, draft->bytes + 1,
                     2 + (size_t)get16(draft->bytes + 1));
        break;
    case 3: /* the version before it */
        draft_insert(&part, 1, draft->bytes, 1);
        break;
    case 4:
        if (part.records > 0)
            damage_length(chance, &part);
        break;
    default:
        damage_record(chance, &setup, &part);
        break;
    }
}

/* The size of a room for so many answers: exact as a rule. */
static uint32_t draw_size(struct chance *chance, size_t answers)
{
    static const uint32_t large[] = {ROOM - 1, ROOM,       ROOM + 1,
                                     1 << 17,  0x01000000, UINT32_MAX};
    const size_t exact = ANSWER * answers;
    const size_t some = below(chance, 100);

    if (below(chance, 150) == 0)
        return PICK(chance, large);
    switch (below(chance, 20)) {
    case 0:
    case 1:
        return (uint32_t)(exact > 0 ? exact - 1 : 0);
    case 2:
        return (uint32_t)(exact > ANSWER ? exact - ANSWER : some);
    case 3:
        return 0;
    case 4:
        return (uint32_t)answers;
    case 5:
        return (uint32_t)below(chance, exact + 1);
    case 6:
        return (uint32_t)(exact + 1);
    case 7:
        return (uint32_t)(exact + ANSWER - 1);
    case 8:
        return (uint32_t)(exact + ANSWER);
    case 9:
    case 10:
        return (uint32_t)(exact + some);
    default:
        return (uint32_t)exact;
    }
}

static void add_run(uint32_t size)
{
    add_number((uint32_t)(HEAD + part.length - 1));
    add_number(size);
    add(part.bytes + 1, part.length - 1);
}

/* No more of a run than a part of its head. */
static void add_head(struct chance *chance)
{
    const uint8_t first = below(chance, 20) == 0;
    const uint8_t third = (uint8_t)below(chance, 3);
    const uint8_t head[] = {first, 0, third};
    const size_t count = below(chance, sizeof head + 1);

    add_number((uint32_t)count);
    add(head, count);
}

/* So many answers as the largest room has, or one more or less. */
static void add_many(struct chance *chance)
{
    static const uint32_t sizes[] = {ROOM / ANSWER * ANSWER,
                                     ROOM / ANSWER * ANSWER - 1, ROOM};
    const size_t count = ROOM / ANSWER - 1 + below(chance, 3);

    draft_begin(&part);
    while (part.records < count)
        draft_second(&part, TC, OTHER, VERIFIED, 0x00820000);
    add_run(PICK(chance, sizes));
}

/* As long as a block may be, or longer; what is passed over is a run at its
 * beginning. */
static void add_long(struct chance *chance)
{
    static const size_t over[] = {1, 2, FAR - RUN};
    const size_t answers = part.records;

    if (percent(chance, 30)) {
        if (part.length + 56 <= 1 + RUN)
            fill_up(&part, &setup, 1 + RUN);
        add_run((uint32_t)(ANSWER * answers));
        return;
    }
    const size_t size = RUN + PICK(chance, over);
    add_number((uint32_t)(HEAD + size));
    add_number((uint32_t)(ANSWER * answers));
    add_padded(part.bytes + 1, part.length - 1, size);
}

/* A run of so many commands from this one on. Returns whether the next one goes
 * on behind them: what was refused is sent again, in the main. */
static bool draw_run(struct chance *chance, size_t from, size_t count)
{
    take_records(from, count);
    switch (below(chance, 300)) {
    case 0:
        add_many(chance);
        return false;
    case 1:
    case 2:
        add_long(chance);
        return percent(chance, 50);
    case 3:
    case 4:
    case 5:
    case 6:
    case 7:
        add_head(chance);
        return false;
    default:
        break;
    }
    const bool spoilt = percent(chance, 18);
    const uint32_t size = draw_size(chance, count);
    if (spoilt)
        spoil(chance);
    add_run(size);
    return (!spoilt && size >= ANSWER * count) || percent(chance, 40);
}

/* The commands behind the paper's, in runs; none is a run too. */
static void draw_runs(struct chance *chance, size_t next)
{
    for (unsigned i = 0; i < RUNS; i++) {
        const size_t left = draft->records - next;
        size_t count = below(chance, left + 1);
        if (left == 0 && percent(chance, 70))
            return;
        if (percent(chance, 30))
            count = left;
        if (percent(chance, 10))
            count = 0;
        if (draw_run(chance, next, count))
            next += count;
    }
}

/* Now and then the stack ends inside a block. */
static void cut(struct chance *chance)
{
    static const uint8_t more[] = {0, 0, 0, 5, 0, 0};
    const size_t few = 1 + below(chance, 5);

    switch (below(chance, 60)) {
    case 0: /* anywhere */
        length = below(chance, length);
        break;
    case 1:
        length -= few < length ? few : length;
        break;
    case 2: /* in a length, behind it, or in a head */
        add(more, 1 + below(chance, sizeof more));
        break;
    case 3: /* in a block far too long */
        add_number(percent(chance, 50) ? RUN + HEAD + 1 : UINT32_MAX);
        add(more, below(chance, sizeof more));
        break;
    default:
        break;
    }
}

static void draw_stack(struct chance *chance)
{
    struct world world;
    const bool tidy = percent(chance, 30);

    invent_setup(chance, &world, &setup, 0, 6);
    invent_version(chance, &world, &setup);
    begin();
    const size_t most = percent(chance, 85) ? 16 : 30;
    const size_t commands = below(chance, most + 1);
    invent_commands(chance, &world, &setup, draft, commands, tidy);
    length = 0;
    size_t records = 1 + below(chance, draft->records);
    if (percent(chance, 60))
        records = 1 + below(chance, records < 4 ? records : 4);
    add_paper(chance, records);
    draw_runs(chance, records);
    cut(chance);
}

int main(int argc, char **argv)
{
    if (argc != 3) {
        fprintf(stderr, "usage: bench_draw COUNT SEED\n");
        return 1;
    }
    const uint64_t count = strtoull(argv[1], NULL, 10);
    const uint64_t seed = strtoull(argv[2], NULL, 10);
    for (uint64_t i = 0; i < count; i++) {
        struct chance chance = chance_of(seed, i);
        draw_stack(&chance);
        put32(stack, (uint32_t)length);
        if (fwrite(stack, 1, HEAD + length, stdout) != HEAD + length) {
            perror("standard output");
            return 1;
        }
    }
    return fflush(stdout) != 0;
}
