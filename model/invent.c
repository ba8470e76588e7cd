#include "invent.h"

#include <string.h>

#include "dates.h"
#include "invent_log.h"
#include "invent_script.h"

static uint64_t around_thousands(struct chance *chance)
{
    const uint64_t base = 1 + below(chance, 12);
    const uint64_t off = below(chance, 3);

    return base * 1000 + off - 1;
}

/* Numbers that matter in any world. */
static uint64_t special(struct chance *chance)
{
    uint64_t power = 1;

    switch (below(chance, 6)) {
    case 0:
        return 0;
    case 1:
        return 1;
    case 2:
        return MOST;
    case 3:
        return MOST - 1;
    case 4:
        for (uint64_t i = below(chance, 12); i > 0; i--)
            power *= 10;
        return power;
    default:
        return below(chance, MOST + 1);
    }
}

uint64_t invent_value(struct chance *chance, const struct world *world)
{
    if (percent(chance, 12))
        return special(chance);
    switch (world->amounts) {
    case SMALL:
        return below(chance, 16);
    case THOUSANDS:
        return around_thousands(chance);
    case TOP:
        return MOST - below(chance, 16);
    default:
        return below(chance, MOST + 1);
    }
}

static uint64_t invent_amount(struct chance *chance, const struct world *world)
{
    if (percent(chance, 12))
        return special(chance);
    switch (world->amounts) {
    case SMALL:
        return below(chance, 8);
    case THOUSANDS:
        return around_thousands(chance);
    case TOP:
        if (percent(chance, 70))
            return below(chance, 8);
        return MOST - below(chance, 16);
    default:
        return below(chance, MOST + 1);
    }
}

uint8_t invent_count(struct chance *chance)
{
    static const uint8_t counts[] = {0, 0, 1, 1, 2, 3, 253, 254, 255, 255};

    if (percent(chance, 20))
        return any_byte(chance);
    return PICK(chance, counts);
}

static uint32_t one_bit(struct chance *chance, unsigned bits)
{
    return UINT32_C(1) << below(chance, bits);
}

static uint32_t invent_mask(struct chance *chance, unsigned bits, unsigned none)
{
    const uint32_t all = (UINT32_C(1) << bits) - 1;
    uint32_t mask;

    if (percent(chance, none))
        return 0;
    switch (below(chance, 8)) {
    case 0:
        return all;
    case 1:
        return (uint32_t)draw(chance) & all;
    case 2:
        mask = one_bit(chance, bits);
        return all & ~mask;
    case 3:
    case 4:
        mask = one_bit(chance, bits);
        mask |= one_bit(chance, bits);
        mask |= one_bit(chance, bits);
        return mask;
    default:
        return one_bit(chance, bits);
    }
}

static void invent_world(struct chance *chance, struct world *world)
{
    static const uint16_t codes[] = {0x0978, 0x0840, 0x0826, 0x0392, 0x0756,
                                     0x0000, 0x0999, 0x0001, 0x0100, 0x0010};

    world->amounts = below(chance, WORLDS);
    for (unsigned i = 0; i < POOL;) {
        bool fresh = true;
        world->currency[i] = PICK(chance, codes);
        for (unsigned j = 0; j < i; j++)
            fresh = fresh && world->currency[j] != world->currency[i];
        i += fresh;
    }
}

static void invent_profile(struct chance *chance, const struct world *world,
                           struct draft_profile *profile)
{
    profile->online = invent_mask(chance, BITS, 30);
    profile->decline = invent_mask(chance, BITS, 60);
    profile->by_default = invent_mask(chance, BITS, 40);
    profile->mta_on = percent(chance, 60);
    profile->mta_currency = PICK(chance, world->currency);
    profile->mta = invent_value(chance, world);
    for (int i = 0; i < 4; i++) {
        const bool plain = percent(chance, 50);
        const uint8_t switches = any_byte(chance) & 7;
        profile->accumulator[i].switches = plain ? 7 : switches;
        profile->accumulator[i].lower = invent_value(chance, world);
        profile->accumulator[i].upper = invent_value(chance, world);
        if (percent(chance, 20))
            profile->accumulator[i].lower = profile->accumulator[i].upper;
    }
    for (int i = 0; i < 4; i++) {
        const bool plain = percent(chance, 40);
        const uint8_t switches = any_byte(chance) & 15;
        profile->counter[i].switches = plain ? 15 : switches;
        profile->counter[i].lower = invent_count(chance);
        profile->counter[i].upper = invent_count(chance);
    }
    profile->accumulator_sent = (uint8_t)below(chance, 5);
    profile->counter_sent[0] = (uint8_t)below(chance, 5);
    profile->counter_sent[1] = (uint8_t)below(chance, 5);
}

static void invent_numbers(struct chance *chance, struct draft_setup *setup)
{
    for (unsigned i = 0; i < setup->profiles;) {
        static const uint8_t usual[] = {1, 2, 3, 123, 124};
        bool fresh = true;
        uint8_t number = (uint8_t)(1 + below(chance, 124));
        if (percent(chance, 60))
            number = PICK(chance, usual);
        for (unsigned j = 0; j < i; j++)
            fresh = fresh && setup->profile[j].number != number;
        setup->profile[i].number = number;
        i += fresh;
    }
}

static void invent_rate(struct chance *chance, const struct world *world,
                        struct draft_setup *setup, unsigned place)
{
    static const uint16_t digits[] = {1, 2, 3, 4, 5, 10, 9, 85, 1234, 9998,
                                      9999};
    static const uint8_t shifts[] = {0, 12, 9, 8, 10, 11, 7, 1};
    const bool everyday = percent(chance, 60);

    if (everyday && world->amounts != WIDE) {
        setup->conversion[place].digits = (uint16_t)(1 + below(chance, 20));
        setup->conversion[place].shift = (uint8_t)(8 + below(chance, 2));
        return;
    }
    setup->conversion[place].digits = PICK(chance, digits);
    if (percent(chance, 30))
        setup->conversion[place].digits = (uint16_t)(1 + below(chance, 9999));
    setup->conversion[place].shift = PICK(chance, shifts);
    if (percent(chance, 30))
        setup->conversion[place].shift = (uint8_t)below(chance, 13);
}

static void invent_conversions(struct chance *chance, const struct world *world,
                               struct draft_setup *setup)
{
    for (unsigned i = 0; i < setup->conversions;) {
        const uint16_t from = PICK(chance, world->currency);
        const uint16_t to = PICK(chance, world->currency);
        bool fresh = from != to;
        for (unsigned j = 0; j < i; j++)
            fresh = fresh && (setup->conversion[j].from != from
                              || setup->conversion[j].to != to);
        if (!fresh)
            continue;
        setup->conversion[i].from = from;
        setup->conversion[i].to = to;
        invent_rate(chance, world, setup, i);
        i++;
    }
}

void invent_setup(struct chance *chance, struct world *world,
                  struct draft_setup *setup, unsigned profiles,
                  unsigned conversions)
{
    static const uint16_t atcs[] = {0, 0, 1, 255, 256, 9999, 32767, 32768,
                                    65520, 65532, 65533, 65534, 65535};
    static const uint8_t tries[] = {0, 1, 3, 9, 10, 15};

    invent_world(chance, world);
    world->last = 0;
    world->past = 0;
    world->in_error = false;
    memset(setup, 0, sizeof *setup);
    setup->version = 1;
    setup->key = any_byte(chance);
    setup->pin = PICK(chance, tries);
    setup->required = percent(chance, 50);
    setup->profiles = (uint8_t)(1 + below(chance, 4));
    if (profiles > 0)
        setup->profiles = (uint8_t)profiles;
    setup->conversions = (uint8_t)below(chance, 6);
    if (conversions < 6)
        setup->conversions = (uint8_t)conversions;
    setup->atc = PICK(chance, atcs);
    if (percent(chance, 50))
        setup->atc = (uint16_t)draw(chance);
    setup->go_online = percent(chance, 30);
    for (int i = 0; i < 4; i++) {
        setup->accumulator[i].currency = PICK(chance, world->currency);
        if (percent(chance, 40))
            setup->accumulator[i].currency = world->currency[0];
        setup->accumulator[i].value = invent_value(chance, world);
    }
    for (int i = 0; i < 4; i++)
        setup->counter[i] = invent_count(chance);
    for (int i = 0; i < setup->profiles; i++)
        invent_profile(chance, world, &setup->profile[i]);
    invent_numbers(chance, setup);
    invent_conversions(chance, world, setup);
}

uint16_t bad_currency(struct chance *chance, unsigned digit)
{
    uint16_t code = 0;

    for (unsigned i = 0; i < 4; i++) {
        unsigned value = i == 0 ? 0 : (unsigned)below(chance, 10);
        if (i == digit && i == 0)
            value = (unsigned)(1 + below(chance, 15));
        else if (i == digit)
            value = (unsigned)(10 + below(chance, 6));
        code = (uint16_t)(code << 4 | value);
    }
    return code;
}

/* A byte of the terminal's data or of a block: few, so that they meet. */
static uint8_t invent_octet(struct chance *chance)
{
    static const uint8_t octets[] = {0x00, 0x01, 0x02, 0x10, 0x12,
                                     0x22, 0x80, 0xFF};

    if (percent(chance, 5))
        return any_byte(chance);
    return PICK(chance, octets);
}

static uint8_t invent_mask_octet(struct chance *chance)
{
    static const uint8_t masks[] = {0xF0, 0x0F, 0x80, 0x02, 0x00, 0x7F};

    if (percent(chance, 60))
        return 0xFF;
    return PICK(chance, masks);
}

/* Moves while there are entries to move to, in the main. */
static uint8_t invent_action(struct chance *chance,
                             const struct draft_setup *setup, unsigned left)
{
    static const uint8_t refused[] = {0x00, 0x80, 0x7F, 0xFF};
    static const uint8_t unknown[] = {0x7D, 0x7E, 0x55};
    const size_t place = below(chance, setup->profiles);

    if (percent(chance, 2))
        return PICK(chance, refused);
    if (percent(chance, 2))
        return PICK(chance, unknown);
    if (percent(chance, 2)) /* just past the last */
        return (uint8_t)(0x81 + (left < 127 ? left : 126));
    if (left == 0 || percent(chance, 25))
        return setup->profile[place].number;
    if (percent(chance, 60))
        return 0x81;
    return (uint8_t)(0x81 + below(chance, left < 4 ? left : 4));
}

void put_amount(uint8_t *at, uint64_t amount)
{
    for (int i = 5; i >= 0; i--) {
        at[i] = (uint8_t)(amount % 100 / 10 << 4 | amount % 10);
        amount /= 100;
    }
}

/* A value just beside this one, or itself. */
static uint64_t beside(struct chance *chance, uint64_t value, uint64_t most)
{
    const uint64_t off = below(chance, 3);

    if (off == 0)
        return value > 0 ? value - 1 : value;
    return off == 1 && value < most ? value + 1 : value;
}

/* Makes an entry that tests a slot unsound. */
static void spoil_slot_entry(struct chance *chance, uint8_t *entry,
                             size_t *length)
{
    const size_t place = below(chance, *length);

    switch (below(chance, 4)) {
    case 0:
        *length += percent(chance, 50) ? 1 : (size_t)-1;
        break;
    case 1:
        entry[2] = (uint8_t)below(chance, 4);
        break;
    case 2:
        entry[1] = percent(chance, 50) ? 6 : 1;
        break;
    default:
        entry[place] = any_byte(chance);
        break;
    }
}

/* On a CPACE card: an accumulator or a counter against its value in the set-up,
 * or another. */
static size_t invent_slot_entry(struct chance *chance,
                                const struct world *world,
                                const struct draft_setup *setup, uint8_t *entry)
{
    const bool accumulator = percent(chance, 60);
    const unsigned which = (unsigned)below(chance, 4);
    uint8_t type = (uint8_t)(0x80 | which << 4 | (any_byte(chance) & 3));
    size_t at = 3;

    if (percent(chance, 20))
        type |= any_byte(chance) & 0x0C;
    entry[0] = (uint8_t)(percent(chance, 80) ? 2 : below(chance, 5));
    entry[2] = 1;
    if (accumulator) {
        const unsigned slot = which == 0 && percent(chance, 90) ? 1 : which;
        uint64_t value = invent_value(chance, world);
        if (slot > 0 && percent(chance, 40))
            value = beside(chance, setup->accumulator[slot - 1].value, MOST);
        entry[1] = 6;
        put_amount(entry + at, value);
        at += 6;
        type = (uint8_t)((type & ~0x30) | 0x40 | slot << 4);
    } else {
        const unsigned slot = which == 0 ? 3 : which - 1;
        const uint64_t near = beside(chance, setup->counter[slot], 255);
        entry[1] = 1;
        entry[at] = invent_count(chance);
        if (percent(chance, 60))
            entry[at] = (uint8_t)near;
        at++;
    }
    entry[at++] = type;
    return at;
}

/* Makes an entry ill-formed in one of the ways there are. */
static void spoil_entry(struct chance *chance, uint8_t *entry, size_t *length)
{
    switch (below(chance, 6)) {
    case 0:
        *length = below(chance, 7);
        break;
    case 1:
        *length += percent(chance, 50) ? 1 : (size_t)-1;
        break;
    case 2:
        entry[0] = 0;
        break;
    case 3:
        entry[1] = (uint8_t)below(chance, 5);
        break;
    case 4:
        entry[2] = (uint8_t)below(chance, 5);
        break;
    default:
        entry[*length - 3] = 3;
        if (percent(chance, 50))
            entry[*length - 3] = (uint8_t)(3 + below(chance, 253));
        break;
    }
}

/* The room has what was written to it before: a byte too many, if the entry is
 * spoilt so, is one of an entry above it. */
static void invent_entry(struct chance *chance, const struct world *world,
                         struct draft_setup *setup, unsigned left,
                         uint8_t *entry)
{
    const size_t room = world->data;
    const size_t most = percent(chance, 60) ? 1 : 3;
    const size_t width = 1 + below(chance, room < most ? room : most);
    const size_t position = 1 + below(chance, room - width + 1);
    const size_t blocks = 2 + below(chance, percent(chance, 70) ? 2 : 5);
    size_t at = 3;

    if (draft_is_cpace(setup) && percent(chance, 45)) {
        at = invent_slot_entry(chance, world, setup, entry);
        entry[at++] = invent_action(chance, setup, left);
        entry[at++] = invent_action(chance, setup, left);
        if (percent(chance, 4))
            spoil_slot_entry(chance, entry, &at);
        draft_entry(&setup->file, entry, at);
        return;
    }
    entry[0] = (uint8_t)position;
    entry[1] = (uint8_t)width;
    entry[2] = (uint8_t)blocks;
    for (size_t i = 0; i < width; i++)
        entry[at++] = invent_mask_octet(chance);
    for (size_t i = 0; i < (blocks - 1) * width; i++)
        entry[at++] = invent_octet(chance);
    entry[at++] = (uint8_t)below(chance, 3);
    if (setup->version > 4 && percent(chance, 2)) /* in a CPA paper, 12 */
        entry[at - 1] = 0x80 | any_byte(chance);
    entry[at++] = invent_action(chance, setup, left);
    entry[at++] = invent_action(chance, setup, left);
    if (percent(chance, 3))
        spoil_entry(chance, entry, &at);
    draft_entry(&setup->file, entry, at);
}

static void invent_file(struct chance *chance, struct world *world,
                        struct draft_setup *setup)
{
    unsigned entries = 1 + (unsigned)below(chance, 12);
    uint8_t room[256] = {0};

    world->data = 1 + below(chance, 6);
    if (draft_is_cpace(setup)) /* the interface and an amount */
        world->data = 7 + below(chance, 3);
    if (percent(chance, 3))
        entries = 0;
    if (percent(chance, 2))
        entries = 140 + (unsigned)below(chance, 40);
    setup->file.on = 1;
    while (entries > 0)
        invent_entry(chance, world, setup, --entries, room);
}

/* Days at the ends of weeks, months and years. */
static const uint32_t turns[] = {
    0x000101, 0x000102, 0x000103, 0x000131, 0x000228, 0x000229, 0x000301,
    0x001231, 0x010101, 0x010228, 0x010301, 0x031231, 0x040101, 0x040228,
    0x040229, 0x040301, 0x041231, 0x050715, 0x050731, 0x050801, 0x051231,
    0x060101, 0x060102, 0x080229, 0x091231, 0x100101, 0x120229, 0x120301,
    0x500630, 0x500701, 0x960229, 0x980930, 0x991130, 0x991230, 0x991231};

static uint32_t any_day(struct chance *chance)
{
    const uint32_t year = (uint32_t)below(chance, 100);
    const unsigned days = (unsigned)below(chance, 366);

    return days_later((year / 10 << 4 | year % 10) << 16 | 0x0101, days);
}

/* A date for a set-up: in the main one that something follows. */
static uint32_t invent_last(struct chance *chance)
{
    const uint32_t turn = PICK(chance, turns);

    switch (below(chance, 4)) {
    case 0:
        return any_day(chance);
    case 1:
        return turn;
    default:
        return day_before(turn);
    }
}

/* A mask of bits that a later version names, too. One of them is in the main
 * of those between these. */
static uint32_t invent_late_mask(struct chance *chance, unsigned from,
                                 unsigned bits, unsigned none)
{
    const uint32_t bit = UINT32_C(1) << (from + below(chance, bits - from));
    const uint32_t mask = invent_mask(chance, bits, none);

    switch (below(chance, 4)) {
    case 0:
        return mask;
    case 1:
        return mask | bit;
    default:
        return bit;
    }
}

void invent_cycles(struct chance *chance, struct world *world,
                   struct draft_setup *setup)
{
    setup->version = 4;
    setup->dated = 1;
    setup->last = invent_last(chance);
    world->last = setup->last;
    for (unsigned i = 0; i < 2; i++) {
        setup->cyclic[i].currency = PICK(chance, world->currency);
        if (percent(chance, 60))
            setup->cyclic[i].currency = world->currency[0];
        setup->cyclic[i].amount = invent_value(chance, world);
        setup->cyclic[i].kind = (uint8_t)(1 + below(chance, 3));
        setup->cyclic[i].first_day = (uint8_t)below(chance, 7);
    }
    for (unsigned i = 0; i < setup->profiles; i++) {
        struct draft_profile *profile = &setup->profile[i];
        for (unsigned j = 0; j < 2; j++) {
            const bool plain = percent(chance, 60);
            const uint8_t switches = any_byte(chance) & 7;
            profile->cyclic[j].switches = plain ? 7 : switches;
            profile->cyclic[j].limit = invent_value(chance, world);
        }
        profile->online = invent_late_mask(chance, BITS, BITS_04, 50);
        profile->decline = invent_late_mask(chance, BITS, BITS_04, 60);
        profile->by_default = invent_late_mask(chance, BITS, BITS_04, 40);
    }
}

/* Bits of it that are asked, or all, or none. */
static uint8_t invent_control(struct chance *chance)
{
    const uint8_t any = any_byte(chance) & 15;

    switch (below(chance, 6)) {
    case 0:
        return 0;
    case 1:
        return 15;
    case 2:
        return any;
    default:
        return (uint8_t)(1 << below(chance, 3));
    }
}

/* Bit 25 is often alone; all others stay as they are if it is not drawn. */
static void invent_cashback_mask(struct chance *chance, uint32_t *mask)
{
    switch (below(chance, 6)) {
    case 0:
        *mask = WITH_CASHBACK;
        break;
    case 1:
        *mask |= WITH_CASHBACK;
        break;
    default:
        break;
    }
}

void invent_family(struct chance *chance, struct draft_setup *setup)
{
    setup->version = 5;
    setup->family = CPACE;
    for (unsigned i = 0; i < 8; i++)
        setup->control[i] = invent_control(chance);
    for (unsigned i = 0; i < setup->profiles; i++) {
        struct draft_profile *profile = &setup->profile[i];
        profile->cashback = percent(chance, 60);
        invent_cashback_mask(chance, &profile->online);
        invent_cashback_mask(chance, &profile->decline);
        invent_cashback_mask(chance, &profile->by_default);
    }
}

/* Version 05: three in four of its cards are CPACE. */
static void invent_version_05(struct chance *chance, struct world *world,
                              struct draft_setup *setup)
{
    const bool family = percent(chance, 75);
    const bool selects = percent(chance, 45);
    const bool dated = percent(chance, 35);

    setup->syllabus = percent(chance, 75);
    if (dated)
        invent_cycles(chance, world, setup);
    if (family)
        invent_family(chance, setup);
    setup->version = 5;
    if (selects)
        invent_file(chance, world, setup);
}

void invent_version(struct chance *chance, struct world *world,
                    struct draft_setup *setup)
{
    if (LATEST > 6 && percent(chance, 35)) {
        invent_version_05(chance, world, setup);
        setup->scripts = percent(chance, 50);
        invent_log(chance, setup);
        return;
    }
    if (LATEST > 5 && percent(chance, 40)) {
        invent_version_05(chance, world, setup);
        setup->version = 6;
        setup->scripts = percent(chance, 92);
        return;
    }
    if (percent(chance, 25))
        return;
    setup->version = (uint8_t)(2 + below(chance, 6)); /* 04 and 05 twice */
    if (setup->version > 5)
        setup->version -= 2;
    if (setup->version == 5) {
        invent_version_05(chance, world, setup);
        return;
    }
    if (percent(chance, setup->version > 3 ? 30 : 70))
        invent_file(chance, world, setup);
    if (setup->version > 2)
        setup->syllabus = percent(chance, 75);
    if (setup->version > 3 && percent(chance, 90))
        invent_cycles(chance, world, setup);
}

static uint8_t invent_interface(struct chance *chance)
{
    static const uint8_t above[] = {2, 2, 3, 0x80, 0xFF};
    const uint8_t bad = PICK(chance, above);
    const uint8_t good = (uint8_t)below(chance, 2);

    return percent(chance, 4) ? bad : good;
}

/* The terminal's data, now and then shorter or longer than the rule; on a CPACE
 * card the interface first, and in the main an amount behind it. */
static void invent_data(struct chance *chance, const struct world *world,
                        const struct draft_setup *setup, struct draft *draft)
{
    uint8_t data[300];
    size_t length = world->data;

    if (percent(chance, 5))
        length = below(chance, world->data + 3);
    if (percent(chance, 1))
        length = below(chance, sizeof data);
    for (size_t i = 0; i < length; i++)
        data[i] = invent_octet(chance);
    if (draft_is_cpace(setup)) {
        const uint64_t amount = invent_amount(chance, world);
        data[0] = invent_interface(chance);
        if (length > 6 && percent(chance, 97))
            put_amount(data + 1, amount);
    }
    draft_data(draft, data, length);
}

static void invent_start(struct chance *chance, const struct world *world,
                         const struct draft_setup *setup, struct draft *draft,
                         bool tidy)
{
    if (setup->file.on) {
        invent_data(chance, world, setup, draft);
        return;
    }
    const size_t place = below(chance, setup->profiles);
    uint8_t number = setup->profile[place].number;

    if (!tidy && percent(chance, 6))
        number = any_byte(chance);
    if (!tidy && percent(chance, 2))
        number = 0;
    if (draft_is_cpace(setup)) {
        const uint8_t by = invent_interface(chance);
        const uint8_t both[] = {tidy ? by & 1 : by, number};
        draft_data(draft, both, sizeof both);
        return;
    }
    draft_start(draft, number);
}

static uint8_t invent_terminal(struct chance *chance)
{
    static const uint8_t offline[] = {0x13, 0x16, 0x23, 0x26, 0x36};
    static const uint8_t others[] = {0x11, 0x12, 0x14, 0x15, 0x21, 0x22, 0x24,
                                     0x25, 0x33, 0x34, 0x35, 0x31, 0x32, 0x00,
                                     0x03, 0x06, 0x63, 0xFF};

    if (percent(chance, 25))
        return PICK(chance, offline);
    if (percent(chance, 50))
        return ONLINE_TERMINAL;
    if (percent(chance, 70))
        return PICK(chance, others);
    return any_byte(chance);
}

/* The next of the days at which something turns, after the last the last. */
static uint32_t next_turn(uint32_t date)
{
    const unsigned count = sizeof turns / sizeof *turns;
    unsigned i = 0;

    while (i + 1 < count && turns[i] <= date)
        i++;
    return turns[i];
}

/* Today as a rule, or later; now and then before. */
static uint32_t invent_day(struct chance *chance, const struct world *world)
{
    const unsigned some = (unsigned)below(chance, 7);
    uint32_t date = world->last;

    switch (below(chance, 20)) {
    case 0:
    case 1:
    case 2:
    case 3:
        return next_day(date);
    case 4:
    case 5:
        return days_later(date, 1 + some);
    case 6:
        return days_later(date, 7 * (1 + some));
    case 7:
        return next_month(date);
    case 8:
        return day_before(next_month(date));
    case 9:
        return next_turn(date);
    case 10:
        return percent(chance, 30) ? any_day(chance) : next_turn(date);
    case 11:
    case 12:
        for (unsigned i = 0; i <= some; i++)
            date = day_before(date);
        return date;
    case 13:
        return day_before(date);
    case 14: /* as before, whether it is in error again or not */
        return world->past > 0 ? world->past : date;
    default:
        return date;
    }
}

static uint32_t invent_date(struct chance *chance, struct world *world,
                            bool tidy)
{
    const uint32_t date = invent_day(chance, world);

    if (!tidy && percent(chance, 4))
        return PICK(chance, not_day);
    world->in_error = date < world->last;
    if (world->in_error)
        world->past = date;
    else
        world->last = date;
    return date;
}

/* CVM results: in the main one of the methods that count, with any condition
 * and any of the two high bits, successful or not. */
static uint32_t invent_cvm(struct chance *chance)
{
    static const uint8_t methods[] = {0x02, 0x02, 0x1E, 0x1E, 0x1F,
                                      0x1F, 0x01, 0x00, 0x22, 0x3E};
    static const uint8_t high[] = {0x00, 0x00, 0x40, 0x80, 0xC0};
    static const uint8_t results[] = {0x00, 0x00, 0x00, 0x00, 0x01,
                                      0x02, 0x02, 0x80};
    uint32_t method = PICK(chance, methods);
    const uint32_t bits = PICK(chance, high);
    const uint32_t condition = any_byte(chance);
    const uint32_t result = PICK(chance, results);

    if (percent(chance, 5))
        method = any_byte(chance);
    return (method | bits) << 16 | condition << 8 | result;
}

/* None, as often as some; one byte of it alone, or any six. */
static uint64_t invent_cashback(struct chance *chance)
{
    const unsigned byte = (unsigned)below(chance, 6);
    const uint64_t any = draw(chance);

    if (percent(chance, 50))
        return 0;
    if (percent(chance, 60))
        return (any & 0xFF) << 8 * byte;
    return any >> 16;
}

/* Returns the type asked for. */
static uint8_t invent_first(struct chance *chance, struct world *world,
                            const struct draft_setup *setup,
                            struct draft *draft, bool tidy)
{
    static const uint8_t types[] = {1, 1, 1, 1, 1, 1, 2, 2, 2, 0};
    static const uint16_t foreign[] = {0x0036, 0x0124, 0x0998, 0x0002, 0x0200};
    uint8_t type = PICK(chance, types);
    uint64_t amount = invent_amount(chance, world);
    uint16_t currency = world->currency[0];
    const uint8_t terminal = invent_terminal(chance);
    struct draft_more more = {0};

    if (percent(chance, 50))
        currency = PICK(chance, world->currency);
    if (percent(chance, 6))
        currency = PICK(chance, foreign);
    if (!tidy && percent(chance, 4))
        type = (uint8_t)(3 + below(chance, 3));
    if (!tidy && percent(chance, 1))
        type = any_byte(chance);
    if (!tidy && percent(chance, 4)) {
        static const uint64_t above[] = {MOST + 1, MOST + 2, UINT64_MAX,
                                         UINT64_C(1) << 63, UINT64_C(1) << 40};
        amount = PICK(chance, above);
    }
    if (!tidy && percent(chance, 4)) {
        const unsigned digit = (unsigned)below(chance, 4);
        currency = bad_currency(chance, digit);
    }
    if (setup->dated) {
        more.date = invent_date(chance, world, tidy);
        if (world->in_error && percent(chance, 40))
            type = ARQC;
    }
    if (draft_is_cpace(setup)) {
        more.cvm = invent_cvm(chance);
        more.cashback = invent_cashback(chance);
    }
    draft_first_for(draft, setup, type, amount, currency, terminal, &more);
    return type;
}

static void invent_second(struct chance *chance, struct draft *draft, bool tidy)
{
    static const uint16_t codes[] = {OTHER,  0x3035, 0x5931, 0x5A31, 0x5932,
                                     0x5934, 0x5833, 0x5B33, 0x3359, 0x335A,
                                     0x0000, 0xFFFF, 0x3331, 0x5A32, Y3,
                                     Z3};
    uint8_t type = percent(chance, 75);
    uint16_t code = PICK(chance, codes);
    uint8_t data = (uint8_t)below(chance, 3);
    uint32_t status = (uint32_t)below(chance, 4);
    uint32_t rest = (uint32_t)draw(chance);

    if (percent(chance, 20))
        code = Y3;
    if (percent(chance, 15))
        code = Z3;
    if (percent(chance, 10))
        code = (uint16_t)draw(chance);
    if (percent(chance, 60))
        status |= 0x80;
    if (percent(chance, 30))
        status |= 0x08;
    if (percent(chance, 70))
        rest = 0;
    rest = (rest & 0xFF74FFFF) | status << 16;
    if (!tidy && percent(chance, 4))
        type = (uint8_t)(2 + below(chance, 3));
    if (!tidy && percent(chance, 1))
        type = any_byte(chance);
    if (!tidy && percent(chance, 3))
        data = (uint8_t)(3 + below(chance, 3));
    if (!tidy && percent(chance, 1))
        data = any_byte(chance);
    draft_second(draft, type, code, data, rest);
}

/* A Second that makes the date in error the last one, if an ARQC is open. */
static void invent_recovery(struct chance *chance, struct world *world,
                            struct draft *draft)
{
    const uint32_t status = 0x80 | (uint32_t)below(chance, 4);
    const uint8_t data = percent(chance, 75) ? VERIFIED : ABSENT;

    draft_second(draft, TC, OTHER, data, status << 16);
    if (percent(chance, 50))
        world->last = world->past;
}

/* Any command, in turn or not. */
static void invent_any(struct chance *chance, struct world *world,
                       const struct draft_setup *setup, struct draft *draft)
{
    switch (below(chance, draft_has_scripts(setup) ? 4 : 3)) {
    case 0:
        invent_start(chance, world, setup, draft, false);
        break;
    case 1:
        invent_first(chance, world, setup, draft, false);
        break;
    case 3:
        invent_script(chance, world, draft);
        break;
    default:
        invent_second(chance, draft, false);
        break;
    }
}

void invent_commands(struct chance *chance, struct world *world,
                     const struct draft_setup *setup, struct draft *draft,
                     size_t count, bool tidy)
{
    static const unsigned second_after[] = {3, 30, 95, 20, 20, 20};
    const size_t end = draft->records + count;
    const bool scripts = draft_has_scripts(setup);

    while (draft->records < end) {
        if (!tidy && percent(chance, 10)) {
            invent_any(chance, world, setup, draft);
            continue;
        }
        if (scripts && percent(chance, 20)) {
            invent_script(chance, world, draft);
            continue;
        }
        invent_start(chance, world, setup, draft, tidy);
        if (scripts && percent(chance, 5) && draft->records < end)
            invent_script(chance, world, draft);
        if (draft->records == end)
            break;
        const uint8_t type = invent_first(chance, world, setup, draft, tidy);
        const unsigned share = second_after[type < 6 ? type : 5];
        if (scripts && percent(chance, 40) && draft->records < end)
            invent_script(chance, world, draft);
        if (draft->records == end)
            break;
        if (setup->dated && world->in_error && percent(chance, 60))
            invent_recovery(chance, world, draft);
        else if (percent(chance, share))
            invent_second(chance, draft, tidy);
    }
}
