#include "invent_script.h"

#include <assert.h>
#include <string.h>

#include "bytes.h"

enum { OF_ACCUMULATORS = 0xBF30, OF_COUNTERS = 0xBF35 };

/* A command --------------------------------------------------------------- */

struct command {
    size_t length;
    uint8_t bytes[256];
};

static void add(struct command *to, unsigned byte)
{
    assert(to->length < sizeof to->bytes);
    to->bytes[to->length++] = (uint8_t)byte;
}

/* A length, in one byte or as 81 and one byte; now and then as neither. */
static void add_length(struct chance *chance, struct command *to, size_t length,
                       bool bad)
{
    if (bad && percent(chance, 8)) {
        add(to, percent(chance, 50) ? 0x80 : 0x82);
        add(to, 0);
    } else if (length > 0x7F || percent(chance, 5)) {
        add(to, 0x81);
    }
    add(to, (unsigned)length);
}

static void add_amount(struct chance *chance, struct command *to,
                       uint64_t amount, bool bad)
{
    const unsigned digit = (unsigned)below(chance, 12);
    const unsigned over = 10 + (unsigned)below(chance, 6);
    const bool spoilt = bad && percent(chance, 12);

    assert(to->length + 6 <= sizeof to->bytes);
    put_amount(to->bytes + to->length, amount);
    if (spoilt) {
        uint8_t *at = to->bytes + to->length + digit / 2;
        *at = (uint8_t)(digit % 2 == 0 ? (*at & 0x0F) | over << 4
                                       : (*at & 0xF0) | over);
    }
    to->length += 6;
}

/* A slot that there is, or just beside. */
static unsigned invent_slot(struct chance *chance, bool bad)
{
    const unsigned any = (unsigned)below(chance, 16);

    return bad && percent(chance, 10) ? any : 1 + any % 4;
}

/* One element; bad ones are so now and then. */
static void add_element(struct chance *chance, const struct world *world,
                        struct command *to, unsigned of, bool bad)
{
    const unsigned slot = invent_slot(chance, bad);
    const bool value = of == OF_COUNTERS ? bad && percent(chance, 10)
                                         : percent(chance, 50);
    const bool wide = bad && percent(chance, 5);
    const bool digits = value || wide || of != OF_COUNTERS;
    const unsigned amounts = value ? 1 : 2;
    const size_t start = to->length;

    add(to, 0xDF);
    add(to, (value ? 0x00 : 0x10) + slot);
    add_length(chance, to, digits ? 6 * amounts : 2, bad);
    if (digits) {
        for (unsigned i = 0; i < amounts; i++) {
            const uint64_t amount = invent_value(chance, world);
            add_amount(chance, to, amount, bad);
        }
    } else {
        for (unsigned i = 0; i < 2; i++)
            add(to, invent_count(chance));
    }
    if (bad && percent(chance, 10)) /* longer or shorter, and says so */
        switch (below(chance, 4)) {
        case 0:
            add(to, 0);
            to->bytes[start + 2]++;
            break;
        case 1:
            to->length--;
            to->bytes[start + 2]--;
            break;
        case 2: /* and does not say so */
            to->length--;
            break;
        default:
            to->bytes[start] = any_byte(chance);
            break;
        }
}

/* A change to the bytes around the elements. */
static void spoil_command(struct chance *chance, struct command *to)
{
    const size_t place = below(chance, to->length);
    const uint8_t any = any_byte(chance);
    const uint8_t step = percent(chance, 50) ? 1 : 0xFF;

    switch (below(chance, 12)) {
    case 0:
        to->bytes[0] = percent(chance, 50) ? 0x8C : any;
        break;
    case 1:
        to->bytes[1] = percent(chance, 50) ? 0xDB : any;
        break;
    case 2:
        to->bytes[3] = percent(chance, 50) ? 0x3C : any;
        break;
    case 3:
        to->bytes[4] += step;
        break;
    case 4: /* an Le */
        add(to, 0);
        break;
    case 5:
        to->bytes[5] = percent(chance, 50) ? 0x87 : any;
        break;
    case 6:
        to->bytes[6] += step;
        break;
    case 7: /* the MAC's tag, its length */
        to->bytes[to->length - 6] = percent(chance, 50) ? 0x8F : any;
        break;
    case 8:
        to->bytes[to->length - 5] += step;
        break;
    case 9: /* one byte more or less in the MAC, and Lc says so */
        if (step == 1)
            add(to, any);
        else
            to->length--;
        to->bytes[4] = (uint8_t)(to->length - 5);
        break;
    case 10: /* cut */
        to->length = place;
        break;
    default:
        to->bytes[place] = any;
        break;
    }
}

static void invent_command(struct chance *chance, const struct world *world,
                           struct command *to)
{
    static const uint8_t counts[] = {0, 1, 1, 1, 1, 1, 2, 2, 3, 4};
    const bool bad = percent(chance, 20);
    const unsigned of =
        percent(chance, 70) ? OF_ACCUMULATORS : OF_COUNTERS;
    const unsigned count = PICK(chance, counts);
    struct command elements = {0};

    for (unsigned i = 0; i < count; i++) {
        if (percent(chance, 4))
            add(&elements, 0);
        add_element(chance, world, &elements, of, bad);
    }
    if (percent(chance, 4))
        add(&elements, 0);

    to->length = 0;
    add(to, 0x0C);
    add(to, 0xDA);
    add(to, of >> 8);
    add(to, of & 0xFF);
    add(to, 0);
    add(to, 0x81);
    add_length(chance, to, elements.length, bad);
    for (size_t i = 0; i < elements.length; i++)
        add(to, elements.bytes[i]);
    add(to, 0x8E);
    add(to, 4);
    for (unsigned i = 0; i < 4; i++)
        add(to, any_byte(chance));
    to->bytes[4] = (uint8_t)(to->length - 5);
    if (bad && percent(chance, 50))
        spoil_command(chance, to);
}

/* Objects, written from the last byte to the first ------------------------ */

struct tail {
    uint8_t *at, *begin; /* what is written; where the room begins */
};

/* Room that is kept for the heads around what is being written. */
enum { HEADS = 32 };

static bool has_room(const struct tail *tail, size_t count)
{
    return (size_t)(tail->at - tail->begin) >= count + HEADS;
}

static void before(struct tail *tail, unsigned byte)
{
    *--tail->at = (uint8_t)byte;
}

/* The head of what begins here and is so long, its length now and then in more
 * bytes than needed. */
static void before_head(struct chance *chance, struct tail *tail, unsigned tag,
                        size_t length)
{
    const unsigned more = (unsigned)below(chance, 24);

    before(tail, (unsigned)length);
    if (length > 0xFF || more == 0) {
        before(tail, (unsigned)(length >> 8));
        before(tail, 0x82);
    } else if (length > 0x7F || more == 1) {
        before(tail, 0x81);
    }
    before(tail, tag);
    if (tag > 0xFF)
        before(tail, tag >> 8);
}

/* A primitive object that is no command. */
static void before_other(struct chance *chance, struct tail *tail)
{
    static const uint16_t tags[] = {0x9F18, 0x9F18, 0x9F06, 0x50, 0x5F2D,
                                    0x06,   0x46,   0xC6,   0x87, 0x1F00};
    const unsigned tag = PICK(chance, tags);
    size_t length = below(chance, 6);

    if (percent(chance, 4))
        length = below(chance, 300);
    if (!has_room(tail, length))
        length = 0;
    for (size_t i = 0; i < length; i++)
        before(tail, any_byte(chance));
    before_head(chance, tail, tag, length);
}

/* How many objects in a hundred are constructed, and how deep they go. */
struct shape {
    unsigned constructed, deepest;
};

static void before_list(struct chance *chance, const struct world *world,
                        struct tail *tail, const struct shape *shape,
                        unsigned depth);

static void before_object(struct chance *chance, const struct world *world,
                          struct tail *tail, const struct shape *shape,
                          unsigned depth)
{
    static const uint16_t tags[] = {0x71, 0x72, 0xE1,   0xA5,   0xBF0C,
                                    0xA6, 0x70, 0xFF01, 0x3F00, 0x20};
    const uint64_t which = below(chance, 100);

    if (which < shape->constructed) {
        const unsigned tag = PICK(chance, tags);
        const uint8_t *end = tail->at;
        if (depth == shape->deepest)
            return;
        before_list(chance, world, tail, shape, depth + 1);
        before_head(chance, tail, tag, (size_t)(end - tail->at));
    } else if (which < 86) {
        struct command command;
        invent_command(chance, world, &command);
        if (!has_room(tail, command.length))
            return;
        for (size_t i = command.length; i > 0; i--)
            before(tail, command.bytes[i - 1]);
        before_head(chance, tail, 0x86, command.length);
    } else if (which < 92) {
        if (has_room(tail, 1))
            before(tail, 0);
    } else {
        if (has_room(tail, 0))
            before_other(chance, tail);
    }
}

static void before_list(struct chance *chance, const struct world *world,
                        struct tail *tail, const struct shape *shape,
                        unsigned depth)
{
    static const uint8_t counts[] = {0, 1, 1, 1, 1, 2, 2, 2, 3, 4};
    unsigned count = PICK(chance, counts);

    if (depth > 2 && count > 2)
        count = 2;
    for (; count > 0; count--)
        before_object(chance, world, tail, shape, depth);
}

size_t invent_template(struct chance *chance, const struct world *world,
                       uint8_t *bytes)
{
    uint8_t room[TEMPLATE_ROOM];
    struct tail tail = {room + sizeof room, room};
    static const struct shape shapes[] = {{5, 4}, {5, 4}, {5, 4}, {45, 4},
                                          {45, 4}, {75, 4}, {75, 5}};
    const struct shape shape = PICK(chance, shapes);
    const unsigned tag = percent(chance, 60) ? 0x71 : 0x72;

    before_list(chance, world, &tail, &shape, 1);
    before_head(chance, &tail, tag, (size_t)(room + sizeof room - tail.at));
    const size_t length = (size_t)(room + sizeof room - tail.at);
    memcpy(bytes, tail.at, length);
    return length;
}

/* Damage ------------------------------------------------------------------ */

/* Bytes that mean something in a head. */
static uint8_t invent_meaning(struct chance *chance)
{
    static const uint8_t some[] = {0x71, 0x72, 0x86, 0x00, 0x80, 0x81,
                                   0x82, 0x83, 0xE1, 0xFF, 0x9F, 0x1F,
                                   0x01, 0x02, 0x03, 0x04, 0x06, 0x08,
                                   0x7F, 0x20};

    if (percent(chance, 10))
        return any_byte(chance);
    return PICK(chance, some);
}

size_t invent_heads(struct chance *chance, uint8_t *bytes)
{
    const size_t length = below(chance, percent(chance, 70) ? 14 : 60);

    for (size_t i = 0; i < length; i++)
        bytes[i] = invent_meaning(chance);
    if (length > 0 && percent(chance, 80))
        bytes[0] = percent(chance, 50) ? 0x71 : 0x72;
    if (length > 1 && length < 130 && percent(chance, 80))
        bytes[1] = (uint8_t)(length - 2);
    return length;
}

/* Within the first bytes, in the main. */
static size_t invent_place(struct chance *chance, size_t length)
{
    const size_t any = below(chance, length);
    const size_t early = below(chance, length < 12 ? length : 12);

    return percent(chance, 60) ? early : any;
}

size_t damage_template(struct chance *chance, uint8_t *bytes, size_t length)
{
    const uint8_t value = invent_meaning(chance);
    const bool up = percent(chance, 50);

    if (length == 0 || length + 1 >= TEMPLATE_ROOM)
        return length;
    const size_t place = invent_place(chance, length);
    switch (below(chance, 8)) {
    case 0: /* cut */
        return place;
    case 1: /* a byte behind it */
        bytes[length] = value;
        return length + 1;
    case 2: /* a byte more, and the template's length fits it or not */
        memmove(bytes + place + 1, bytes + place, length - place);
        bytes[place] = value;
        if (bytes[1] < 0x7F)
            bytes[1]++;
        return length + 1;
    case 3: /* a byte less */
        memmove(bytes + place, bytes + place + 1, length - place - 1);
        if (bytes[1] > 0 && bytes[1] < 0x80)
            bytes[1]--;
        return length - 1;
    case 4:
        bytes[place] = (uint8_t)(bytes[place] + (up ? 1 : 0xFF));
        return length;
    case 5:
        bytes[place] ^= (uint8_t)(1 << below(chance, 8));
        return length;
    default:
        bytes[place] = value;
        return length;
    }
}

void invent_script(struct chance *chance, const struct world *world,
                   struct draft *draft)
{
    static const uint8_t above[] = {2, 2, 3, 0x80, 0xFF};
    uint8_t bytes[TEMPLATE_ROOM];
    const uint8_t bad = PICK(chance, above);
    size_t length = invent_template(chance, world, bytes);
    uint8_t result = 1;

    if (percent(chance, 7))
        result = 0;
    if (percent(chance, 4))
        result = bad;
    if (percent(chance, 3))
        length = invent_heads(chance, bytes);
    if (percent(chance, 12))
        length = damage_template(chance, bytes, length);
    draft_script(draft, result, bytes, length);
}
