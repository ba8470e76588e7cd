#include "listed.h"

#include <string.h>

#include "bytes.h"
#include "damage.h"
#include "fields.h"
#include "invent.h"
#include "invent_log.h"
#include "script.h"

static struct chance chance;

/* Currencies to convert from, as many as a set-up has room for. */
static const uint16_t foreign[] = {0x0001, 0x0010, 0x0100, USD, 0x0999};

static void invent(unsigned profiles, unsigned conversions)
{
    struct world world;

    invent_setup(&chance, &world, &setup, profiles, conversions);
}

/* A paper by chance with a few commands, to be damaged. */
static void begin_any(unsigned profiles, unsigned conversions)
{
    struct world world;

    invent_setup(&chance, &world, &setup, profiles, conversions);
    begin();
    invent_commands(&chance, &world, &setup, draft, 3, true);
}

/* Refusal 1 ------------------------------------------------------------- */

/* The same with a set-up of version 04, dated. */
static void begin_dated(unsigned profiles)
{
    struct world world;

    invent_setup(&chance, &world, &setup, profiles, 6);
    invent_cycles(&chance, &world, &setup);
    begin();
    invent_commands(&chance, &world, &setup, draft, 3, true);
}

/* The same with a set-up of version 05, CPACE, dated or not. */
static void begin_cpace(unsigned profiles, bool dated)
{
    struct world world;

    invent_setup(&chance, &world, &setup, profiles, 6);
    if (dated)
        invent_cycles(&chance, &world, &setup);
    invent_family(&chance, &setup);
    begin();
    invent_commands(&chance, &world, &setup, draft, 3, true);
}

/* The same with a set-up of version 06, scripts on, CPACE or not. */
static void begin_scripts(unsigned profiles, bool dated, bool family)
{
    struct world world;

    invent_setup(&chance, &world, &setup, profiles, 6);
    if (dated)
        invent_cycles(&chance, &world, &setup);
    if (family)
        invent_family(&chance, &setup);
    scripts();
    begin();
    invent_commands(&chance, &world, &setup, draft, 3, true);
}

/* The same with a set-up of version 07 that has a log, CPACE or not. */
static void begin_log(unsigned profiles, bool dated, bool family)
{
    struct world world;

    invent_setup(&chance, &world, &setup, profiles, 6);
    if (dated)
        invent_cycles(&chance, &world, &setup);
    if (family)
        invent_family(&chance, &setup);
    invent_log(&chance, &setup);
    setup.log = 1;
    begin();
    invent_commands(&chance, &world, &setup, draft, 3, true);
}

/* Each field just out of range, in the first to the last of its kind. */
static void fields_out_of_range(void)
{
    unsigned turn = 0;

    for (unsigned i = 0; i < FIELDS; i++) {
        const struct field *field = &fields()[i];
        for (unsigned which = 0; which < bad_values(field); which++) {
            const unsigned profiles = 1 + turn % 4;
            const unsigned conversions = 1 + turn % 5;
            unsigned place = 0;
            if (is_of_profile(field))
                place = profiles - 1;
            if (field->part == IN_CONVERSION)
                place = conversions - 1;
            if (i < BASE_FIELDS)
                begin_any(profiles,
                          field->part == IN_CONVERSION ? conversions : 0);
            else if (i < BASE_FIELDS + CYCLES_FIELDS)
                begin_dated(profiles);
            else if (i < BASE_FIELDS + CYCLES_FIELDS + FAMILY_FIELDS)
                begin_cpace(profiles, turn & 1);
            else if (i < FIELDS - LOG_FIELDS)
                begin_scripts(profiles, turn & 1, turn & 2);
            else
                begin_log(profiles, turn & 1, turn & 2);
            const uint64_t value =
                bad_value(&chance, field, setup.version, which);
            put_field(draft->bytes + field_offset(field, &setup, place),
                      field->width, value);
            emit();
            turn++;
        }
    }
}

/* A set-up of so many bytes, p and c as given, whatever else is in it. */
static void setup_of_length(unsigned profiles, unsigned conversions,
                            size_t length)
{
    uint8_t body[SETUP_ROOM + 1] = {0};

    invent(profiles, conversions);
    draft_setup_body(&setup, body);
    draft_begin(draft);
    draft_record(draft, KIND_SETUP, body, length);
    start(setup.profile[0].number);
    emit();
}

static void setup_lengths(void)
{
    const size_t one = SETUP_HEAD + SETUP_PROFILE;

    setup_of_length(1, 0, 0);
    setup_of_length(1, 0, 1);
    setup_of_length(1, 0, SETUP_HEAD - 1);
    setup_of_length(1, 0, SETUP_HEAD);
    setup_of_length(1, 0, one - 1);
    setup_of_length(1, 0, one + 1);
    setup_of_length(1, 1, one);
    setup_of_length(1, 0, one + SETUP_CONVERSION);
    setup_of_length(2, 0, one);
    setup_of_length(1, 0, one + SETUP_PROFILE);
    setup_of_length(4, 5, SETUP_HEAD + 4 * SETUP_PROFILE
                    + 5 * SETUP_CONVERSION - 1);
    setup_of_length(4, 5, SETUP_HEAD + 4 * SETUP_PROFILE
                    + 5 * SETUP_CONVERSION + 1);
}

/* p and c out of range, the body as long as they say. */
static void setup_counts(void)
{
    begin_any(1, 0);
    draft_remove(draft, SETUP_BODY + SETUP_HEAD, SETUP_PROFILE);
    put16(draft->bytes + 1, 1 + SETUP_HEAD);
    draft->bytes[SETUP_BODY + 3] = 0;
    emit();

    invent(4, 0);
    setup.profiles = 5;
    setup.profile[4] = setup.profile[3];
    setup.profile[4].number = 100;
    for (int i = 0; i < 4; i++)
        setup.profile[i].number = (uint8_t)(i + 1);
    begin();
    start(1);
    emit();

    invent(1, 5);
    setup.conversions = 6;
    setup.conversion[5].from = 0x0701;
    setup.conversion[5].to = 0x0702;
    setup.conversion[5].digits = 1;
    begin();
    start(setup.profile[0].number);
    emit();

    begin_any(1, 0);
    draft->bytes[SETUP_BODY + 3] = 255;
    emit();
    begin_any(1, 0);
    draft->bytes[SETUP_BODY + 4] = 255;
    emit();
}

static void setup_twins(void)
{
    for (unsigned one = 0; one < 4; one++)
        for (unsigned other = one + 1; other < 4; other++) {
            invent(4, 0);
            setup.profile[other].number = setup.profile[one].number;
            begin();
            start(setup.profile[one].number);
            emit();
        }
    for (unsigned one = 0; one < 5; one++)
        for (unsigned other = one + 1; other < 5; other++) {
            invent(1, 5);
            setup.conversion[other].from = setup.conversion[one].from;
            setup.conversion[other].to = setup.conversion[one].to;
            begin();
            emit();
        }
    for (unsigned place = 0; place < 5; place += 4) {
        invent(1, 5);
        setup.conversion[place].to = setup.conversion[place].from;
        begin();
        emit();
    }
    /* There and back is no pair twice, nor is a shared end. */
    invent(1, 3);
    setup.conversion[0].from = EUR;
    setup.conversion[0].to = USD;
    setup.conversion[1].from = USD;
    setup.conversion[1].to = EUR;
    setup.conversion[2].from = EUR;
    setup.conversion[2].to = 0x0826;
    begin();
    emit();
}

/* Refusal 9 ------------------------------------------------------------- */

static void raw(const uint8_t *bytes, size_t count)
{
    memcpy(draft->bytes, bytes, count);
    draft->length = count;
    draft->records = 0;
    emit();
}

static void papers_unreadable(void)
{
    static const uint8_t versions[] = {0, LATEST + 1, 0xFF};
    static const uint8_t cut[] = {1, 0, 0xA0, 1};
    static const uint8_t kinds[] = {0, 2, 3, 4, 5, 0xFF};

    for (size_t i = 0; i <= sizeof cut; i++) /* empty, bare, cut at record 0 */
        raw(cut, i);
    for (size_t i = 0; i < sizeof versions; i++) {
        begin_any(1, 0);
        draft->bytes[0] = versions[i];
        emit();
    }
    begin_any(1, 0);
    draft->length = draft->start[1] - 1;
    emit();
    for (size_t i = 0; i < sizeof kinds; i++) { /* not a set-up */
        begin_any(1, 0);
        draft->bytes[3] = kinds[i];
        emit();
    }
    begin_any(1, 0); /* no set-up, Start first */
    draft_remove(draft, 1, draft->start[1] - 1);
    emit();
    begin_any(1, 0); /* a record of length 0 before the set-up */
    draft_insert(draft, 1, (const uint8_t[]){0, 0}, 2);
    emit();
    begin_any(1, 0); /* a set-up said to be longer than the paper */
    put16(draft->bytes + 1, 0xFFFF);
    emit();
}

/* After two commands, before a third: a record of any bytes. */
static void later(const uint8_t *bytes, size_t count)
{
    begin_any(1, 0);
    draft_insert(draft, draft->start[3], bytes, count);
    emit();
}

/* The same, and nothing after it. */
static void last(const uint8_t *bytes, size_t count)
{
    begin_any(1, 0);
    draft->length = draft->start[3];
    draft_insert(draft, draft->length, bytes, count);
    emit();
}

static void records_unreadable(void)
{
    static const uint8_t sizes[] = {1, 12, 8};
    uint8_t bytes[32] = {0};

    last((const uint8_t[]){0}, 1);
    last((const uint8_t[]){0xFF}, 1);
    last((const uint8_t[]){0, 2}, 2);
    last((const uint8_t[]){0, 2, 2}, 3);
    last((const uint8_t[]){0, 13, 3, 1, 0, 0, 0, 0, 0, 0, 0, 1, 9, 0x78}, 14);
    last((const uint8_t[]){0xFF, 0xFF, 3, 1}, 4);
    last((const uint8_t[]){0, 0}, 2);
    last((const uint8_t[]){0, 1, 5}, 3);

    later((const uint8_t[]){0, 0}, 2);
    later((const uint8_t[]){0, 1, 0}, 3);
    later((const uint8_t[]){0, 1, 5}, 3);
    later((const uint8_t[]){0, 2, 0xFF, 1}, 4);
    later((const uint8_t[]){0xFF, 0xFF, 2}, 3);
    later((const uint8_t[]){0, 1, 1}, 3); /* a set-up again, bare */

    for (size_t kind = 2; kind <= 4; kind++) {
        const size_t size = sizes[kind - 2];
        const size_t wrong[] = {0, size - 1, size + 1, 20};
        for (size_t i = 0; i < 4; i++) {
            put16(bytes, (unsigned)(1 + wrong[i]));
            bytes[2] = (uint8_t)kind;
            bytes[3] = 1;
            later(bytes, 3 + wrong[i]);
        }
    }

    begin_any(1, 0); /* the very same set-up, at once and after commands */
    draft_setup(draft, &setup);
    emit();
    begin();
    draft_setup(draft, &setup);
    start(setup.profile[0].number);
    emit();
}

/* The largest paper and one byte more. */
static void papers_large(void)
{
    for (size_t length = PAPER; length <= PAPER + 1; length++) {
        draft_printed_setup(&setup);
        begin();
        fill_up(draft, &setup, length);
        emit();
    }
}

/* Commands -------------------------------------------------------------- */

/* Start at every ATC near the end, refused with and without a transaction
 * open, and profiles that are not there. */
static void starts(void)
{
    for (unsigned atc = 65533; atc <= 65535; atc++) {
        draft_printed_setup(&setup);
        setup.atc = (uint16_t)atc;
        begin();
        start(1);
        first(ARQC, 1);
        start(2);
        start(1);
        start(2);
        start(0);
        start(1);
        first(TC, 1);
        start(1);
        first(TC, 1);
        second(TC, OTHER, VERIFIED, 0x80);
        start(1);
        emit();
    }
    invent(4, 0);
    setup.atc = 65000;
    begin();
    for (unsigned i = 0; i < 256; i++)
        start((uint8_t)i);
    emit();
}

/* Every refusal of First and Second, in each state, and the order of them. */
static void refused_commands(void)
{
    static const uint8_t types[] = {0, 1, 2, 3, 4, 255};
    static const uint64_t amounts[] = {MOST, MOST + 1, UINT64_MAX};
    static const uint16_t currencies[] = {EUR,    0x1978, 0x0A78,
                                          0x09A8, 0x097A, 0xFFFF};
    static const uint8_t datas[] = {0, 2, 3, 255};
    static const uint16_t codes[] = {Y3, Z3, OTHER};

    for (unsigned state = 0; state < 3; state++) {
        draft_printed_setup(&setup);
        setup.profile[0].decline = 0;
        begin();
        if (state > 0)
            start(1);
        if (state > 1)
            first(ARQC, 1);
        for (size_t t = 0; t < sizeof types; t++)
            for (size_t a = 0; a < 3; a++)
                for (size_t c = 0; c < 6; c++)
                    if (state != 1 || types[t] > 2 || a > 0 || c > 0)
                        first_in(types[t], amounts[a], currencies[c]);
        for (size_t t = 0; t < sizeof types; t++)
            for (size_t d = 0; d < sizeof datas; d++)
                for (size_t c = 0; c < 3; c++)
                    if (state != 2 || types[t] > 1 || datas[d] > 2)
                        second(types[t], codes[c], datas[d], 0);
        /* All of that changed nothing. */
        first(ARQC, 1);
        second(TC, OTHER, VERIFIED, 0x83);
        emit();
    }
}

/* One bit of the ADR against each mask alone. Profile 4 first sets all of
 * the history, profiles 1 to 3 have everything exceeded. */
static void masks_bit_by_bit(void)
{
    for (unsigned bit = 0; bit < BITS; bit++) {
        const uint32_t mask = UINT32_C(1) << bit;
        draft_printed_setup(&setup);
        setup.required = 1;
        setup.go_online = 1;
        profiles_blank(4);
        for (unsigned i = 0; i < 4; i++) {
            struct draft_profile *profile = &setup.profile[i];
            setup.accumulator[i].currency = EUR;
            setup.accumulator[i].value = 1;
            setup.counter[i] = 1;
            for (unsigned j = 0; j < 4; j++) {
                profile->accumulator[j].switches = 1;
                profile->counter[j].switches = 1;
            }
            profile->mta_on = 1;
            profile->mta_currency = EUR;
        }
        setup.profile[0].decline = mask;
        setup.profile[1].online = mask;
        setup.profile[2].by_default = mask;
        begin();
        start(4);
        first(ARQC, 1);
        second(AAC, OTHER, ABSENT, 0);
        start(4);
        first(ARQC, 1);
        second(AAC, OTHER, FAILED, 0);
        start(4);
        first(ARQC, 1);
        second(AAC, Z3, ABSENT, 0);
        start(1);
        first(TC, 1);
        start(1);
        first(ARQC, 1);
        start(2);
        first(TC, 1);
        start(3);
        first(TC, 1);
        start(3);
        first_offline(TC, 1);
        start(3);
        first(ARQC, 1);
        second(TC, Y3, ABSENT, 0);
        emit();
    }
}

/* The same bits seen from a card on which only one of them is set: every
 * other bit stands in the masks. */
static void masks_but_one(void)
{
    for (unsigned bit = 5; bit < BITS; bit++) {
        const uint32_t mask = ALL_BITS & ~(UINT32_C(1) << bit);
        const unsigned i = (bit - 6) % 4;
        struct draft_profile *profile = &setup.profile[0];
        draft_printed_setup(&setup);
        profiles_blank(1);
        profile->online = mask;
        profile->decline = mask;
        profile->by_default = mask & ~(uint32_t)UNABLE;
        for (unsigned j = 0; j < 4; j++) {
            setup.accumulator[j].currency = EUR;
            profile->accumulator[j].switches = 5;
            profile->accumulator[j].lower = 5;
            profile->accumulator[j].upper = 5;
            profile->counter[j].switches = 13;
            profile->counter[j].lower = 1;
            profile->counter[j].upper = 1;
        }
        profile->mta_on = 1;
        profile->mta_currency = EUR;
        profile->mta = 5;
        if (bit == 5)
            profile->mta = 4;
        else if (bit < 10)
            profile->accumulator[i].lower = 4;
        else if (bit < 14)
            profile->accumulator[i].upper = 4;
        else if (bit < 18)
            profile->counter[i].lower = 0;
        else
            profile->counter[i].upper = 0;
        begin();
        start(1);
        first(TC, 5);
        start(1);
        first_offline(TC, 5);
        start(1);
        first(ARQC, 5);
        second(TC, Y3, ABSENT, 0);
        emit();
    }
}

/* Both masks met, and every terminal type with Online and Default met. */
static void terminals(void)
{
    draft_printed_setup(&setup);
    setup.go_online = 1;
    setup.profile[0].online = GO_ONLINE;
    setup.profile[0].decline = 0;
    setup.profile[0].by_default = GO_ONLINE;
    begin();
    for (unsigned i = 0; i < 256; i++) {
        start(1);
        draft_first(draft, TC, 0, EUR, (uint8_t)i);
    }
    start(1);
    first_offline(ARQC, 0);
    emit();

    static const uint8_t offline[] = {0x13, 0x16, 0x23, 0x26, 0x36};
    draft_printed_setup(&setup);
    setup.go_online = 1;
    setup.profile[0].online = GO_ONLINE;
    setup.profile[0].decline = 0;
    setup.profile[0].by_default = 0;
    begin();
    for (size_t i = 0; i < sizeof offline; i++) {
        start(1);
        draft_first(draft, TC, 1, EUR, offline[i]);
    }
    emit();
}

/* Y3, Z3 and all their neighbours by one bit. */
static void response_codes(void)
{
    draft_printed_setup(&setup);
    setup.profile[0].decline = 0;
    begin();
    for (unsigned bit = 0; bit <= 16; bit++) {
        const uint16_t flip = (uint16_t)(bit < 16 ? 1u << bit : 0);
        start(1);
        first(ARQC, 1);
        second(TC, Y3 ^ flip, FAILED, 0x83);
        start(1);
        first(ARQC, 1);
        second(TC, Z3 ^ flip, VERIFIED, 0x80);
    }
    emit();
}

/* Every type, code, issuer data and order, authentication required or not.
 * Two rounds: the second begins from another history. */
static void seconds(void)
{
    static const uint16_t codes[] = {Y3, Z3, OTHER};

    for (unsigned required = 0; required < 2; required++) {
        draft_printed_setup(&setup);
        setup.required = (uint8_t)required;
        setup.pin = 0;
        setup.profile[0].decline = 0;
        setup.profile[0].counter[0].switches = 15;
        setup.profile[0].counter[0].upper = 9;
        setup.profile[0].counter_sent[1] = 2;
        setup.counter[1] = 77;
        begin();
        for (unsigned i = 0; i < 2 * 3 * 3 * 16; i++) {
            const uint8_t type = i & 1;
            const uint8_t data = (uint8_t)(i / 2 % 3);
            const uint16_t code = codes[i / 6 % 3];
            const unsigned csu = i / 18 & 15;
            const unsigned status = (csu & 3) | (csu & 4) << 1 | (csu & 8) << 4;
            /* Elsewhere the CSU has no say, so once is enough. */
            if (csu != 9 && (code != OTHER || data != VERIFIED))
                continue;
            start(1);
            first(ARQC, 7);
            second(type, code, data, status);
        }
        emit();
        begin();
        for (unsigned bits = 0; bits < 32; bits++) {
            start(1);
            first(ARQC, 1);
            draft_second(draft, TC, OTHER, VERIFIED, UINT32_C(1) << bits);
            start(1);
            first(ARQC, 1);
            second(TC, bits & 1 ? OTHER : Y3, bits & 2 ? FAILED : ABSENT, 0);
        }
        emit();
    }
}

/* From a clear history, all threes of: unable, failed, absent. */
static void histories(void)
{
    static const uint16_t codes[] = {Z3, OTHER, OTHER};
    static const uint8_t datas[] = {VERIFIED, FAILED, ABSENT};

    for (unsigned required = 0; required < 2; required++) {
        draft_printed_setup(&setup);
        setup.required = (uint8_t)required;
        setup.pin = (uint8_t)(required ? 15 : 12);
        setup.profile[0].decline = 0;
        begin();
        for (unsigned i = 0; i < 27; i++) {
            const unsigned three[] = {i / 9, i / 3 % 3, i % 3};
            for (unsigned j = 0; j < 3; j++) {
                start(1);
                first(ARQC, 1);
                second(TC, codes[three[j]], datas[three[j]], 0x80);
            }
            start(1);
            first(ARQC, 1);
            second(TC, OTHER, VERIFIED, i & 1 ? 0x82 : 0x8A);
        }
        emit();
    }
}

/* All switches of every accumulator and counter, against values below, at,
 * above and beyond their limits, with and without a conversion. */
static void switches(unsigned round, unsigned variant)
{
    const uint16_t currency = variant == 4 ? USD : EUR;

    draft_printed_setup(&setup);
    profiles_blank(4);
    for (unsigned j = 0; j < 4; j++) {
        uint64_t value = 0;
        setup.accumulator[j].currency = EUR;
        switch (variant) {
        case 0: /* the sum equals the limits */
            value = 900;
            setup.counter[j] = 9;
            break;
        case 1: /* only the sum exceeds them */
            value = 901;
            setup.counter[j] = 10;
            break;
        case 2: /* all full, and at their limits */
            value = MOST;
            setup.counter[j] = 255;
            break;
        case 3: /* above */
        case 4:
            value = 1001 + j;
            setup.counter[j] = (uint8_t)(11 + j);
            break;
        }
        setup.accumulator[j].value = value;
    }
    for (unsigned p = 0; p < 4; p++) {
        struct draft_profile *profile = &setup.profile[p];
        profile->accumulator_sent = (uint8_t)((round + p) % 4 + 1);
        profile->counter_sent[0] = (uint8_t)((round + p) % 4 + 1);
        profile->counter_sent[1] = (uint8_t)((round + p + variant) % 4 + 1);
        for (unsigned j = 0; j < 4; j++) {
            const uint64_t limit = variant == 2 ? MOST : 1000;
            const uint8_t count = variant == 2 ? 255 : 10;
            profile->accumulator[j].switches =
                (uint8_t)((4 * round + p + j) % 8);
            profile->accumulator[j].lower = limit;
            profile->accumulator[j].upper = limit;
            profile->counter[j].switches = (uint8_t)((4 * round + p + j) % 16);
            profile->counter[j].lower = count;
            profile->counter[j].upper = count;
        }
    }
    begin();
    for (uint8_t p = 1; p <= 4; p++) { /* the tests, and declines */
        start(p);
        first_in(AAC, 100, currency);
    }
    for (uint8_t p = 1; p <= 4; p++) {
        start(p);
        first_in(TC, 100, currency);
        for (unsigned order = 0; order < 6; order++) {
            start(p);
            first_in(ARQC, 100, currency);
            if (order < 4)
                second(order & 1, OTHER, VERIFIED, order);
            else
                second(order & 1, Y3, ABSENT, 0x82);
        }
    }
    for (uint8_t p = 1; p <= 4; p++) { /* from the upper limits on */
        start(p);
        first_in(ARQC, MOST, currency);
        second(TC, OTHER, VERIFIED, 0x81);
        start(p);
        first_in(ARQC, MOST, currency);
        second(AAC, Z3, ABSENT, 0);
        start(p);
        first_in(ARQC, MOST, currency);
        second(TC, OTHER, VERIFIED, 0x83);
    }
    emit();
}

static void all_switches(void)
{
    for (unsigned round = 0; round < 4; round++)
        for (unsigned variant = 0; variant < 5; variant++)
            switches(round, variant);
}

/* Counters from these values on, declines counted: an AAC at First for each
 * reason, and after Y3; not after going online. */
static void declines_from(const uint8_t *values, uint8_t switches,
                          uint8_t limit)
{
    draft_printed_setup(&setup);
    setup.required = 1;
    profiles_blank(4);
    for (unsigned i = 0; i < 4; i++)
        setup.counter[i] = values[i];
    for (unsigned p = 0; p < 4; p++) {
        struct draft_profile *profile = &setup.profile[p];
        profile->mta_on = 1;
        profile->mta_currency = EUR;
        profile->counter_sent[0] = p & 1 ? 3 : 1;
        profile->counter_sent[1] = p & 1 ? 4 : 2;
        for (unsigned i = 0; i < 4; i++) {
            profile->counter[i].switches = switches;
            profile->counter[i].lower = limit;
            profile->counter[i].upper = limit;
        }
    }
    setup.profile[0].decline = MTA_EXCEEDED;
    setup.profile[1].by_default = MTA_EXCEEDED;
    begin();
    for (unsigned round = 0; round < 2; round++) {
        start(1);
        first(TC, 1);
        start(2);
        first_offline(TC, 1);
        start(3);
        first(AAC, 0);
        for (uint8_t data = ABSENT; data <= FAILED; data++) {
            start(4);
            first(ARQC, 0);
            second(AAC, OTHER, data, 0);
        }
        start(4);
        first(ARQC, 0);
        second(AAC, Y3, ABSENT, 0);
        start(3);
        first(TC, 0);
    }
    emit();
}

static void declines(void)
{
    static const uint8_t low[] = {0, 4, 9, 10};
    static const uint8_t high[] = {251, 252, 253, 255, 251, 252, 253};
    static const uint8_t some[] = {3, 9, 10, 11, 15};

    for (size_t i = 0; i < sizeof some; i++)
        declines_from(low, some[i], 4);
    for (unsigned i = 0; i < 4; i++)
        declines_from(high + i, i & 1 ? 11 : 15, i & 2 ? 254 : 255);
}

/* So many papers of this syllabus: every shift, five rates a paper, into
 * accumulator 1 made zero each time. */
static void conversions(unsigned papers, uint8_t syllabus)
{
    static const uint64_t amounts[] = {MOST, 12345, 1, 999999999, 1000000000,
                                       111111111111, 55555};
    static const uint16_t digits[] = {9999, 1234, 4, 1, 9, 85};

    for (unsigned paper = 0; paper < papers; paper++) {
        draft_printed_setup(&setup);
        setup.version = syllabus == 0 ? 1 : 3;
        setup.syllabus = syllabus;
        setup.accumulator[1].currency = USD;
        setup.profile[0].accumulator[1].switches = 3;
        setup.profile[0].decline = 0;
        setup.profile[0].online = MTA_EXCEEDED;
        setup.profile[0].mta_on = 1;
        setup.profile[0].mta_currency = EUR;
        setup.profile[0].mta = paper % 2 == 0 ? MOST : MOST - 1;
        setup.conversions = 5;
        for (unsigned i = 0; i < 5; i++) {
            const unsigned turn = 5 * paper + i;
            rate(i, foreign[i], digits[turn % 6], (uint8_t)(turn % 13));
        }
        begin();
        for (size_t a = 0; a < sizeof amounts / sizeof *amounts; a++)
            for (unsigned i = 0; i < 5; i++) {
                start(1);
                first(ARQC, 0);
                second(TC, OTHER, VERIFIED, 0x82);
                start(1);
                first_in(TC, amounts[a], foreign[i]);
            }
        start(1);
        first_in(TC, MOST, 0x0123);
        emit();
    }
}

/* Amounts that a rate takes to MAX, to MAX + 1 and far over; every limit is
 * MAX, and profile i looks at the bit `from + i` in the mask that `which`
 * says. */
static void over_at(const uint8_t *switches, unsigned from, unsigned which)
{
    static const uint64_t amounts[] = {333333333333, 625000000000, MOST};
    static const uint16_t digits[] = {3, 16, 9999};
    static const uint8_t shifts[] = {9, 8, 12};

    draft_printed_setup(&setup);
    profiles_blank(4);
    setup.conversions = 3;
    for (unsigned i = 0; i < 3; i++)
        rate(i, foreign[i], digits[i], shifts[i]);
    for (unsigned i = 0; i < 4; i++) {
        struct draft_profile *profile = &setup.profile[i];
        const uint32_t mask = UINT32_C(1) << (from + i);
        setup.accumulator[i].currency = EUR;
        profile->decline = which == 0 ? mask : 0;
        profile->online = which == 1 ? mask : 0;
        profile->by_default = which == 2 ? mask : 0;
        profile->mta_on = 1;
        profile->mta_currency = EUR;
        profile->mta = i & 1 ? MOST : MOST - 1;
        for (unsigned j = 0; j < 4; j++) {
            profile->accumulator[j].switches = switches[j];
            profile->accumulator[j].lower = MOST;
            profile->accumulator[j].upper = MOST;
        }
        profile->counter[0].switches = 15;
        profile->counter[0].lower = 255;
        profile->counter[0].upper = 255;
        profile->accumulator_sent = (uint8_t)(i + 1);
        profile->counter_sent[0] = 1;
    }
    begin();
    for (unsigned i = 0; i < 3; i++)
        for (uint8_t p = 1; p <= 4; p++) {
            start(p);
            draft_first(draft, TC, amounts[i], foreign[i],
                        which == 2 ? OFFLINE_TERMINAL : ONLINE_TERMINAL);
            start(p);
            first_in(ARQC, amounts[i], foreign[i]);
            second(TC, Y3, ABSENT, 0);
            start(p); /* from zero again */
            first(ARQC, 0);
            second(TC, OTHER, VERIFIED, 0x82);
            start(p);
            first_in(ARQC, amounts[i], foreign[i]);
            second(TC, OTHER, VERIFIED, 0x83);
            start(p);
            first(ARQC, 0);
            second(TC, OTHER, VERIFIED, 0x82);
        }
    emit();
}

static void over(void)
{
    static const uint8_t all[] = {7, 7, 7, 7};
    static const uint8_t tested[] = {5, 5, 5, 5};
    static const uint8_t counted[] = {3, 3, 3, 3};
    static const uint8_t mixed[] = {7, 3, 5, 1};

    for (unsigned which = 0; which < 3; which++) {
        over_at(all, 6, which);
        over_at(all, 10, which);
        over_at(mixed, 5, which);
    }
    over_at(tested, 6, 0);
    over_at(tested, 10, 0);
    over_at(counted, 6, 0);
    over_at(counted, 5, 1);
}

struct rounding {
    uint64_t amount;
    uint16_t digits;
    uint8_t shift;
};

/* Five amounts, each at its rate. Profiles 1 to 4: the MTA declines, the limit
 * of accumulator 1 goes online, the one above it too, all is counted. */
static void rounding(uint8_t version, uint8_t syllabus,
                     const struct rounding *rates, uint64_t limit)
{

    draft_printed_setup(&setup);
    setup.version = version;
    setup.syllabus = syllabus;
    profiles_alike(4);
    setup.conversions = 5;
    for (unsigned i = 0; i < 5; i++)
        rate(i, foreign[i], rates[i].digits, rates[i].shift);
    for (unsigned i = 0; i < 4; i++) {
        struct draft_profile *profile = &setup.profile[i];
        profile->online = i == 1 || i == 2 ? UPPER_1 : 0;
        profile->decline = i == 0 ? MTA_EXCEEDED : 0;
        profile->mta_on = i == 0;
        profile->mta_currency = EUR;
        profile->mta = limit;
        profile->accumulator[0].switches = i == 3 ? 3 : 7;
        profile->accumulator[0].lower = limit;
        profile->accumulator[0].upper = i == 2 ? limit + 1 : limit;
    }
    begin();
    for (unsigned i = 0; i < 6; i++)
        for (uint8_t p = 1; p <= 4; p++) {
            const uint64_t amount = i < 5 ? rates[i].amount : limit;
            const uint16_t code = i < 5 ? foreign[i] : EUR;
            start(p);
            first_in(TC, amount, code);
            start(p);
            first_in(ARQC, amount, code);
            second(TC, OTHER, VERIFIED, 0x83);
            start(p);
            first(ARQC, 0);
            second(TC, OTHER, VERIFIED, 0x82);
        }
    emit();
}

/* Fractions, at the rim of MAX too, by both rules; older papers drop them. */
static void roundings(void)
{
    static const struct rounding plain[] = {
        {12345, 1234, 6}, {1, 4, 8}, {55555, 85, 7}, {125, 18, 8}, {0, 1, 0}};
    static const struct rounding whole[] = {{909090909090, 11, 8},
                                            {625000000000, 16, 8},
                                            {MOST, 1, 8},
                                            {MOST, 1, 9},
                                            {MOST, 9999, 0}};
    static const struct rounding below[] = {{833333333332, 12, 8},
                                            {10162601626, 9840, 7},
                                            {100170289492, 9983, 6},
                                            {1078050884, 9276, 8},
                                            {1, 1, 0}};
    static const struct rounding above[] = {{833333333333, 12, 8},
                                            {10042177144, 9958, 7},
                                            {100120144173, 9988, 6},
                                            {1093254619, 9147, 8},
                                            {999999999, 1, 12}};

    for (uint8_t version = 1; version <= 3; version++)
        rounding(version, 0, plain, 15233);
    rounding(3, 1, plain, 15233);
    for (uint8_t syllabus = 0; syllabus < 2; syllabus++) {
        rounding(3, syllabus, whole, MOST - 1);
        rounding(3, syllabus, below, MOST - 2);
        rounding(3, syllabus, below, MOST - 1);
        rounding(3, syllabus, above, MOST - 1);
    }
}

/* MTA on and off, exceeded in any currency, each mask asking. */
static void mta(void)
{
    static const uint16_t codes[] = {0x0000, EUR, 0x0001, 0x0999};

    draft_printed_setup(&setup);
    profiles_blank(4);
    setup.profile[0].decline = MTA_EXCEEDED;
    setup.profile[1].online = MTA_EXCEEDED;
    setup.profile[2].by_default = MTA_EXCEEDED;
    for (unsigned on = 0; on < 2; on++) {
        for (unsigned i = 0; i < 4; i++) {
            for (unsigned j = 0; j < 4; j++) {
                setup.profile[j].mta_on = (uint8_t)on;
                setup.profile[j].mta_currency = codes[i];
                setup.profile[j].mta = 1000 + i;
            }
            begin();
            for (uint8_t j = 1; j <= 4; j++)
                for (unsigned k = 0; k < 4; k++)
                    for (unsigned more = 0; more < 2; more++) {
                        start(j);
                        draft_first(draft, TC, 1000 + i + more, codes[k],
                                    OFFLINE_TERMINAL - (j < 3));
                    }
            emit();
        }
    }
}

/* A paper that leaves much behind, then papers that must know nothing of it:
 * neither its transaction, nor its history, profiles and conversions. */
static void leftovers(void)
{

    for (unsigned less = 0; less < 5; less++) {
        for (unsigned full = 0; full < 2; full++) {
            draft_printed_setup(&setup);
            setup.go_online = (uint8_t)!full;
            setup.profile[0].decline = 0;
            profiles_alike(4);
            for (unsigned i = 0; i < 5; i++)
                rate(i, foreign[i], 2, 9);
            setup.profiles = (uint8_t)(full || less == 4 ? 4 : 1 + less);
            setup.conversions = (uint8_t)(full ? 5 : less);
            begin();
            first(TC, 1);
            second(TC, OTHER, VERIFIED, 0x83);
            for (uint8_t i = 1; i <= 4; i++) {
                start(i);
                first_in(TC, 1, foreign[i]);
            }
            start(1);
            first_in(TC, 1, foreign[0]);
            start(1);
            first(ARQC, 1);
            second(TC, OTHER, FAILED, 0);
            start(1);
            first(ARQC, 1);
            second(TC, Y3, ABSENT, 0);
            start(1);
            first(ARQC, 1);
            second(TC, OTHER, ABSENT, 0);
            start(1);
            first(ARQC, 1);
            if (less & 1)
                start(1);
            emit();
        }
    }
}

/* Every field at its least, and at its most. */
static void extremes(void)
{
    for (unsigned most = 0; most < 2; most++) {
        memset(&setup, 0, sizeof setup);
        setup.version = 1;
        setup.profiles = (uint8_t)(most ? 4 : 1);
        setup.conversions = (uint8_t)(most ? 5 : 0);
        setup.key = (uint8_t)(most ? 255 : 0);
        setup.pin = (uint8_t)(most ? 15 : 0);
        setup.required = (uint8_t)most;
        setup.atc = (uint16_t)(most ? 65534 : 0);
        setup.go_online = (uint8_t)most;
        for (unsigned i = 0; i < 4; i++) {
            struct draft_profile *profile = &setup.profile[i];
            setup.accumulator[i].currency = most ? 0x0999 : 0;
            setup.accumulator[i].value = most ? MOST : 0;
            setup.counter[i] = (uint8_t)(most ? 255 : 0);
            profile->number = (uint8_t)(most ? 124 - i : 1);
            profile->online = most ? ALL_BITS : 0;
            profile->decline = most ? ALL_BITS : 0;
            profile->by_default = most ? ALL_BITS : 0;
            profile->mta_on = (uint8_t)most;
            profile->mta_currency = most ? 0x0999 : 0;
            profile->mta = most ? MOST : 0;
            for (unsigned j = 0; j < 4; j++) {
                profile->accumulator[j].switches = most ? 7 : 0;
                profile->accumulator[j].lower = most ? MOST : 0;
                profile->accumulator[j].upper = most ? MOST : 0;
                profile->counter[j].switches = most ? 15 : 0;
                profile->counter[j].lower = (uint8_t)(most ? 255 : 0);
                profile->counter[j].upper = (uint8_t)(most ? 255 : 0);
            }
            profile->accumulator_sent = (uint8_t)(most ? 4 : 0);
            profile->counter_sent[0] = (uint8_t)(most ? 4 : 0);
            profile->counter_sent[1] = (uint8_t)(most ? 4 : 0);
        }
        for (unsigned i = 0; i < 5; i++) {
            setup.conversion[i].from = (uint16_t)(0x0999 - i);
            setup.conversion[i].to = i == 0 ? 0 : 0x0999;
            setup.conversion[i].digits = i & 1 ? 9999 : 1;
            setup.conversion[i].shift = i & 2 ? 12 : 0;
        }
        begin();
        start(setup.profile[0].number);
        draft_first(draft, TC, most ? MOST : 0, most ? 0x0999 : 0, 0xFF);
        second(TC, 0xFFFF, VERIFIED, 0xFF);
        start(setup.profile[setup.profiles - 1].number);
        draft_first(draft, ARQC, most ? MOST : 0, 0x0000, 0x00);
        second(TC, 0, ABSENT, 0);
        emit();
    }
}

void listed_papers(uint64_t seed, void (*then)(struct draft *draft))
{
    emit_to(then);
    chance = chance_of(seed, UINT64_MAX);

    printed_sitting();
    emit();
    fields_out_of_range();
    setup_lengths();
    setup_counts();
    setup_twins();
    papers_unreadable();
    records_unreadable();
    papers_large();
    extremes();
    starts();
    refused_commands();
    masks_bit_by_bit();
    masks_but_one();
    terminals();
    response_codes();
    seconds();
    histories();
    all_switches();
    declines();
    conversions(8, 0);
    conversions(5, 1);
    over();
    roundings();
    mta();
    leftovers();
    listed_selection();
    listed_blocks();
    listed_closing();
    listed_cycles();
    listed_dates();
    listed_bounds();
    listed_cpace();
    if (LATEST > 5)
        listed_scripts();
    if (LATEST > 6)
        listed_log();
}
