/* report_draw COUNT SEED: so many stacks for report and tally on standard
 * output, each behind its length in 4 bytes, the same for the same seed: papers
 * of every version, good and damaged, empty and too long; now and then about
 * 200 of them, or currencies about 32, or both; stacks cut short. */
#include <assert.h>
#include <stdio.h>
#include <stdlib.h>
#include <string.h>

#include "bytes.h"
#include "damage.h"
#include "invent.h"
#include "script.h"

enum {
    HEAD = 4, /* the length of a block */
    TAKEN = 200,
    LISTED = 32,    /* currencies */
    POOL_MAX = 45,  /* that a stack's papers spend */
    FAR = 300000,   /* beyond any buffer */
    STACK = 1 << 23
};

static uint8_t stack[HEAD + STACK];
static size_t length; /* of the stack, without its own head */
static uint16_t pool[POOL_MAX];
static size_t pooled;

static void add(const void *bytes, size_t count)
{
    assert(length + count <= STACK);
    memcpy(stack + HEAD + length, bytes, count);
    length += count;
}

static void add_number(uint32_t number)
{
    uint8_t bytes[4];

    put32(bytes, number);
    add(bytes, sizeof bytes);
}

/* The paper at hand. */
static void add_paper(void)
{
    add_number((uint32_t)draft->length);
    add(draft->bytes, draft->length);
}

/* The paper at hand and zeros behind it, so long. */
static void add_padded(size_t size)
{
    static const uint8_t zeros[FAR];

    add_number((uint32_t)size);
    add(draft->bytes, draft->length);
    add(zeros, size - draft->length);
}

/* So many currencies, all different. */
static void draw_pool(struct chance *chance, size_t count)
{
    for (pooled = 0; pooled < count;) {
        uint64_t number = below(chance, 1000);
        bool fresh = true;
        if (percent(chance, 10))
            number = percent(chance, 50) ? 0 : 999;
        pool[pooled] = (uint16_t)(number / 100 << 8 | number / 10 % 10 << 4
                                  | number % 10);
        for (size_t i = 0; i < pooled; i++)
            fresh = fresh && pool[i] != pool[pooled];
        pooled += fresh;
    }
}

static uint64_t draw_amount(struct chance *chance)
{
    static const uint64_t some[] = {0, 0, 0, 1, 1, 99, 100, 5000, MOST, MOST};

    if (percent(chance, 30))
        return below(chance, MOST + 1);
    return PICK(chance, some);
}

/* Profiles that decline nothing, a number as a rule small or large. */
static void draw_profiles(struct chance *chance)
{
    const uint8_t from = (uint8_t)(percent(chance, 50) ? 1 : 121);
    const uint8_t any = (uint8_t)(1 + below(chance, 121));

    profiles_blank(1 + (unsigned)below(chance, 4));
    const uint8_t number = percent(chance, 30) ? any : from;
    for (unsigned i = 0; i < setup.profiles; i++)
        setup.profile[i].number = (uint8_t)(number + setup.profiles - 1 - i);
}

/* A card of any version that declines nothing. */
static void draw_card(struct chance *chance)
{
    draft_printed_setup(&setup);
    draw_profiles(chance);
    setup.version = (uint8_t)(1 + below(chance, LATEST));
    if (percent(chance, 15))
        cyclic(0x050715, DAYS, FRI, WEEKS, MON);
    if (percent(chance, 15))
        cpace();
    if (LATEST > 5 && percent(chance, 15))
        scripts();
    if (LATEST > 6 && percent(chance, 15))
        logs((uint8_t)below(chance, 21), APPROVED);
    if (LATEST > 6 && percent(chance, 3)) {
        logs(1, DECLINED);
        at_second(FROM_SECOND, 8, (uint8_t)below(chance, 3));
    }
    begin();
}

/* How an ARQC is answered. */
static void draw_second(struct chance *chance)
{
    static const uint16_t codes[] = {Y3, Y3, Z3, Z3, OTHER, OTHER, 0x5A32};
    const uint8_t type = percent(chance, 80) ? TC : AAC;
    const uint16_t code = PICK(chance, codes);
    const uint8_t data = (uint8_t)below(chance, 3);
    const unsigned status = percent(chance, 70) ? 0x83 : any_byte(chance);

    second(type, code, data, status);
}

/* One that is refused as a rule. */
static void draw_stray(struct chance *chance)
{
    switch (below(chance, 6)) {
    case 0:
        start((uint8_t)below(chance, 256));
        break;
    case 1:
        first(3, 1);
        break;
    case 2:
        first_in(TC, MOST + 1, pool[0]);
        break;
    case 3:
        first_in(TC, 1, 0x09A9);
        break;
    case 4:
        if (draft_has_scripts(&setup))
            script(percent(chance, 50) ? "710186" : "7100");
        break;
    default:
        second(TC, Z3, ABSENT, 0);
        break;
    }
}

/* A transaction in this currency. */
static void draw_transaction(struct chance *chance, uint16_t currency)
{
    const size_t place = below(chance, setup.profiles);
    const uint64_t amount = draw_amount(chance);
    const uint64_t how = below(chance, 20);

    start(setup.profile[place].number);
    if (percent(chance, 5))
        draw_stray(chance);
    if (how == 0) {
        first_in(AAC, amount, currency);
    } else if (how < 6) {
        first_in(ARQC, amount, currency);
        if (percent(chance, 5))
            draw_stray(chance);
        if (percent(chance, 95))
            draw_second(chance);
    } else {
        first_in(TC, amount, currency);
    }
}

/* A paper that spends in currencies of the pool, one after the other. */
static void draw_spending(struct chance *chance, size_t transactions)
{
    const size_t from = below(chance, pooled);

    draw_card(chance);
    for (size_t i = 0; i < transactions; i++)
        draw_transaction(chance, pool[(from + i) % pooled]);
    if (percent(chance, 5))
        damage_record(chance, &setup, draft);
}

/* A paper as `papers` draws it. */
static void draw_sitting(struct chance *chance, size_t most)
{
    struct world world;

    invent_setup(chance, &world, &setup, 0, 6);
    invent_version(chance, &world, &setup);
    begin();
    const size_t commands = below(chance, most + 1);
    const bool tidy = percent(chance, 50);
    invent_commands(chance, &world, &setup, draft, commands, tidy);
    if (percent(chance, 20))
        damage(chance, &setup, draft);
}

/* As long as a paper may be, or longer. */
static void add_long(struct chance *chance)
{
    static const size_t over[] = {1, 2, 1000, FAR - PAPER};

    draw_spending(chance, 3);
    if (percent(chance, 50)) {
        fill_up(draft, &setup, PAPER);
        add_paper();
        return;
    }
    add_padded(PAPER + PICK(chance, over));
}

/* No more than a version: 9. */
static void draw_bare(struct chance *chance)
{
    draft_begin(draft);
    draft->length = below(chance, 2);
}

/* One of so many papers. */
static void draw_paper(struct chance *chance, bool spends, size_t papers)
{
    static const size_t turns[] = {1, 2, 3, 5, 31, 32, 33, 34, 40};
    const bool many = papers > TAKEN / 2;
    const size_t about = many ? 1 + below(chance, 2) : PICK(chance, turns);
    const uint64_t which = below(chance, 100);

    if (which < (many ? 40 : 4))
        draw_bare(chance);
    else if (which < (spends ? 95 : many ? 80 : 45))
        draw_spending(chance, spends || many ? about : 1 + below(chance, 4));
    else
        draw_sitting(chance, many ? 3 : 12);
    add_paper();
}

static void draw_papers(struct chance *chance)
{
    static const size_t about[] = {30, 31, LISTED, 33, 34, POOL_MAX};
    const bool spends = percent(chance, 20);
    const bool many = percent(chance, 8);
    const size_t few = below(chance, percent(chance, 70) ? 6 : 13);
    const size_t papers = many ? TAKEN - 4 + below(chance, 12) : few;
    const size_t more = PICK(chance, about);
    const size_t less = 1 + below(chance, 5);

    draw_pool(chance, spends ? more : less);
    if (spends && many) { /* full from the first papers on, or nearly */
        draw_spending(chance, more);
        add_paper();
    }
    for (size_t i = 0; i < papers; i++) {
        if (i > 0 && percent(chance, 6))
            add_paper(); /* the last one again */
        else
            draw_paper(chance, spends, papers);
        if (below(chance, 1500) == 0)
            add_long(chance);
    }
}

/* Now and then the stack ends inside a paper. */
static void cut(struct chance *chance)
{
    static const uint8_t more[] = {0, 0, 0, 5, 1, 0};
    const size_t few = 1 + below(chance, 5);

    switch (below(chance, 60)) {
    case 0: /* anywhere */
        length = below(chance, length + 1);
        break;
    case 1:
        length -= few < length ? few : length;
        break;
    case 2: /* in a length, or behind it */
        add(more, 1 + below(chance, sizeof more));
        break;
    case 3: /* in a paper far too long */
        add_number(percent(chance, 50) ? PAPER + 1 : UINT32_MAX);
        add(more, below(chance, sizeof more));
        break;
    default:
        break;
    }
}

int main(int argc, char **argv)
{
    if (argc != 3) {
        fprintf(stderr, "usage: report_draw COUNT SEED\n");
        return 1;
    }
    const uint64_t count = strtoull(argv[1], NULL, 10);
    const uint64_t seed = strtoull(argv[2], NULL, 10);
    for (uint64_t i = 0; i < count; i++) {
        struct chance chance = chance_of(seed, i);
        length = 0;
        draw_papers(&chance);
        cut(&chance);
        put32(stack, (uint32_t)length);
        if (fwrite(stack, 1, HEAD + length, stdout) != HEAD + length) {
            perror("standard output");
            return 1;
        }
    }
    return fflush(stdout) != 0;
}
