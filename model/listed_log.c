/* The transaction log: rings, switches and profiles, tables and the stretches
 * that they name, what reaches past its data, the tail's bytes, and which
 * commands make a record. */
#include <assert.h>
#include <string.h>

#include "bytes.h"
#include "examples.h"
#include "listed.h"
#include "script.h"

enum {
    BOTH = DECLINED | APPROVED,
    WITH_ALL = WITH_ATC | WITH_CID | WITH_CVR,
    ALL = BOTH | WITH_ALL,
    RING = 20,
    FRIDAY = 0x050715
};

/* Kinds of card, by what their Firsts carry. */
enum { DATED = 1, OF_CPACE = 2, CARDS = 4 };

/* Cards and transactions --------------------------------------------------- */

/* Document 01's set-up of this kind with a log; nothing declines and nothing
 * goes online but on request. */
static void fresh_of(unsigned kind, uint8_t size, uint8_t switches)
{
    draft_printed_setup(&setup);
    setup.profile[0].online = 0;
    setup.profile[0].decline = 0;
    setup.profile[0].by_default = 0;
    if (kind & DATED)
        cyclic(FRIDAY, DAYS, FRI, MONTHS, FRI);
    if (kind & OF_CPACE)
        cpace();
    logs(size, switches);
}

static void fresh(uint8_t size, uint8_t switches)
{
    fresh_of(0, size, switches);
}

/* Tables that tell the commands apart: First's terminal and the last byte of
 * its amount, Second's code and its CSU. */
static void telling_tables(void)
{
    at_first(9, 4);
    at_second(FROM_SECOND, 5, 4);
    at_second(FROM_FIRST, 9, 1);
    at_second(FROM_SECOND, 2, 2);
}

static void pay(uint8_t type, uint64_t amount)
{
    start(1);
    first(type, amount);
}

/* Goes online and comes back; the CSU has an approval in it, and the amount. */
static void online(uint8_t type, uint64_t amount, uint16_t code, uint8_t data)
{
    pay(ARQC, amount);
    draft_second(draft, type, code, data,
                 0x00800000 | (uint32_t)(amount & 0xFFFF));
}

/* So many transactions, each with an amount of its own. */
static void many(unsigned count)
{
    for (unsigned i = 1; i <= count; i++)
        if (i % 3 == 0)
            online(TC, i, OTHER, VERIFIED);
        else
            pay(i % 3 == 1 ? TC : AAC, i);
}

static void sittings(void)
{
    log_ring();
    emit();
    log_offline_only();
    emit();
    log_past_data();
    emit();
}

/* The ring ----------------------------------------------------------------- */

static void ring_of(uint8_t size, unsigned count)
{
    fresh(size, ALL);
    telling_tables();
    begin();
    many(count);
    emit();
}

/* No record and one, almost full, just full, one too many, and all places taken
 * again; then so often that a byte does not count it. */
static void rings(void)
{
    static const uint8_t some[] = {0, 1, 2, 3, 19, 20};
    static const uint8_t none[] = {21, 22, 32, 0x80, 0xFF};

    for (unsigned i = 0; i < sizeof some; i++) {
        const uint8_t size = some[i];
        ring_of(size, size > 0 ? size - 1 : 1);
        ring_of(size, size);
        ring_of(size, size + 1);
        ring_of(size, 2 * size + 1);
    }
    for (uint8_t size = 4; size < 19; size++)
        ring_of(size, size + 2);
    ring_of(1, 256);
    ring_of(3, 257);
    ring_of(7, 258);
    ring_of(20, 260);
    for (unsigned i = 0; i < sizeof none; i++)
        ring_of(none[i], 2);
}

/* Switches ----------------------------------------------------------------- */

/* A transaction closed in each way that a switch can ask about. */
static void ways(void)
{
    pay(TC, 1);
    pay(AAC, 2);
    online(TC, 3, Y3, ABSENT);
    online(AAC, 4, Y3, ABSENT);
    online(TC, 5, Z3, VERIFIED);
    online(AAC, 6, Z3, FAILED);
    online(TC, 7, OTHER, VERIFIED);
    online(AAC, 8, OTHER, VERIFIED);
    online(TC, 9, OTHER, FAILED);
    online(TC, 10, OTHER, ABSENT);
    online(AAC, 11, OTHER, ABSENT);
    pay(ARQC, 12);
}

static void switches(void)
{
    static const uint8_t unnamed[] = {0x01, 0x02, 0x03, 0xFD, 0xFE, 0xFF};

    for (unsigned i = 0; i < 64; i++) {
        fresh(RING, (uint8_t)(4 * i));
        telling_tables();
        begin();
        ways();
        emit();
    }
    for (unsigned i = 0; i < sizeof unnamed; i++) {
        fresh(RING, unnamed[i]);
        begin();
        pay(TC, 1);
        emit();
    }
}

/* Every way a transaction closes, in a profile without masks, in one that
 * declines and in one that declines where nobody is reached. */
static void begin_closing(uint8_t log_switches, bool required)
{
    fresh(RING, log_switches);
    profiles_alike(3);
    for (unsigned i = 0; i < 3; i++) {
        setup.profile[i].mta_on = 1;
        setup.profile[i].mta_currency = EUR;
    }
    setup.profile[1].decline = MTA_EXCEEDED;
    setup.profile[2].by_default = MTA_EXCEEDED;
    setup.required = required;
    telling_tables();
    begin();
}

static void close_at_first(void)
{
    pay(TC, 1);
    start(1);
    first_offline(TC, 2);
    pay(AAC, 3);
    start(2);
    first(TC, 4);
    start(3);
    first_offline(TC, 5);
}

static void close_after(uint16_t code)
{
    online(TC, 6, code, ABSENT);
    online(AAC, 7, code, ABSENT);
    start(3);
    first(ARQC, 8);
    second(TC, code, ABSENT, 0);
}

static void close_online(void)
{
    for (unsigned order = 0; order < 4; order++) {
        pay(ARQC, 9);
        second(TC, OTHER, VERIFIED, 0x80 | order);
        pay(ARQC, 10);
        second(AAC, OTHER, VERIFIED, 0x80 | order);
    }
    online(TC, 11, OTHER, FAILED);
    online(AAC, 12, OTHER, ABSENT);
    online(TC, 13, OTHER, ABSENT);
}

static void closings(void)
{
    static const uint8_t some[] = {BOTH | WITH_ALL, BOTH | OFFLINE_ONLY
                                   | WITH_ALL, WITH_ALL};

    for (unsigned i = 0; i < sizeof some; i++)
        for (unsigned required = 0; required < 2; required++) {
            begin_closing(some[i], required);
            close_at_first();
            close_after(Y3);
            close_after(Z3);
            emit();
            begin_closing(some[i], required);
            close_online();
            emit();
        }
}

/* Profiles ----------------------------------------------------------------- */

static void in_profile(uint8_t number)
{
    start(number);
    first(TC, number);
    start(number);
    first(AAC, number + 200u);
    start(number);
    first(ARQC, number + 400u);
    second(TC, OTHER, ABSENT, 0);
}

/* Each profile logs or not, as the set-up orders them and not as they are
 * numbered; another one is opened at the end. */
static void profiles(void)
{
    static const uint8_t numbers[] = {7, 3, 124, 1};

    for (unsigned flags = 0; flags < 16; flags++) {
        fresh(RING, BOTH | WITH_ATC);
        profiles_alike(4);
        for (unsigned i = 0; i < 4; i++) {
            setup.profile[i].number = numbers[i];
            setup.profile[i].log = flags >> i & 1;
        }
        begin();
        for (unsigned i = 0; i < 4; i++)
            in_profile(numbers[i]);
        start(numbers[flags & 3]);
        emit();
    }
    for (unsigned i = 0; i < 4; i++) {
        fresh(RING, ALL);
        profiles_alike(4);
        setup.profile[i].log = i == 3 ? 0xFF : 2;
        begin();
        pay(TC, 1);
        emit();
    }
}

/* The file gives the profile that logs, or the other. */
static void selected(void)
{
    for (unsigned i = 0; i < 2; i++) {
        fresh(RING, ALL);
        profiles_alike(2);
        setup.profile[i].log = 0;
        simple_entry(0xFF, 0x22, 0, 2, 1);
        begin();
        start(0x22);
        first(TC, 1);
        start(0x11);
        first(TC, 2);
        start(0x11);
        first(ARQC, 3);
        second(TC, Z3, ABSENT, 0);
        start(0x22);
        first(ARQC, 4);
        second(AAC, OTHER, VERIFIED, 0x80);
        emit();
    }
}

/* Tables ------------------------------------------------------------------- */

/* One transaction that First closes and one that Second does, no byte of their
 * data like another. */
static void distinct(void)
{
    interface = CONTACTLESS;
    cvm = 0x1E4300;
    cashback = 0xA1B2C3D4E5F6;
    today = 0x071113;
    start(1);
    first_at(TC, 0x123456789A, USD, 0x36);
    start(1);
    first_at(ARQC, 0x2143658709, USD, 0x25);
    draft_second(draft, TC, 0x3135, VERIFIED, 0x5C80D3E4);
}

/* Every stretch from this one on of data so long, as far as a table has room;
 * returns where it stopped. */
static unsigned all_stretches(unsigned whose, uint8_t source, unsigned data,
                              unsigned from)
{
    unsigned place = 0;

    for (unsigned position = 1; position <= data + 1; position++)
        for (unsigned length = 0; position + length <= data + 1; length++) {
            if (place++ < from)
                continue;
            if (setup.table[whose].entries == LOG_ENTRIES)
                return place - 1;
            draft_log_entry(&setup.table[whose], source, (uint8_t)position,
                            (uint8_t)length);
        }
    return 0;
}

static void stretches(void)
{
    for (unsigned kind = 0; kind < CARDS; kind++) {
        unsigned from = 0;
        fresh_of(kind, 3, BOTH);
        const unsigned data =
            (unsigned)draft_data_length(&setup, FROM_FIRST);
        do {
            fresh_of(kind, 3, BOTH);
            from = all_stretches(0, FROM_FIRST, data, from);
            for (uint8_t i = 1; i <= data; i++)
                at_second(FROM_FIRST, i, 1);
            at_second(FROM_FIRST, 1, (uint8_t)data);
            at_second(FROM_FIRST, (uint8_t)(data + 1), 0);
            all_stretches(1, FROM_SECOND, 8, 0);
            begin();
            distinct();
            emit();
        } while (from > 0);
    }
    fresh(3, ALL);
    all_stretches(1, FROM_FIRST, 12, 0);
    begin();
    distinct();
    emit();
}

/* Tables that have what the other has not, or nothing at all. */
static void two_tables(void)
{
    for (unsigned i = 0; i < 4; i++) {
        fresh_of(i, 3, ALL);
        if (i & 1)
            at_first(1, 1);
        if (i & 2) {
            at_second(FROM_SECOND, 1, 1);
            at_second(FROM_FIRST, 1, 2);
            at_second(FROM_SECOND, 3, 4);
            at_second(FROM_FIRST, 3, 5);
        }
        begin();
        distinct();
        emit();
    }
}

/* Position 0 means nothing, whatever the length. */
static void nowhere(void)
{
    static const uint8_t lengths[] = {0, 1, 8, 9, 12, 13, 24, 25, 255};

    for (unsigned kind = 0; kind < CARDS; kind++) {
        fresh_of(kind, 3, ALL);
        for (unsigned i = 0; i < sizeof lengths; i++) {
            at_first(0, lengths[i]);
            at_second(FROM_FIRST, 0, lengths[i]);
            at_second(FROM_SECOND, 0, lengths[i]);
        }
        at_first(12, 1);
        at_second(FROM_SECOND, 8, 1);
        begin();
        distinct();
        emit();
    }
}

/* Refusal 14 --------------------------------------------------------------- */

static void past(unsigned kind, unsigned whose, uint8_t source,
                 unsigned position, unsigned length)
{
    fresh_of(kind, 3, ALL);
    draft_log_entry(&setup.table[whose], source, (uint8_t)position,
                    (uint8_t)length);
    begin();
    distinct();
    emit();
}

/* By one byte, behind the last, empty behind that; and sums above a byte. */
static void past_data(void)
{
    for (unsigned kind = 0; kind < CARDS; kind++)
        for (unsigned of = 0; of < 3; of++) {
            const unsigned whose = of > 0;
            const uint8_t source = of > 1 ? FROM_SECOND : FROM_FIRST;
            fresh_of(kind, 0, 0);
            const unsigned data = (unsigned)draft_data_length(&setup, source);
            past(kind, whose, source, 1, data + 1);
            past(kind, whose, source, data, 2);
            past(kind, whose, source, data + 1, 1);
            past(kind, whose, source, data + 2, 0);
            past(kind, whose, source, 2, 255);
            if (kind > 0)
                continue;
            past(kind, whose, source, 1, 255);
            past(kind, whose, source, 2, data);
            past(kind, whose, source, 255, 0);
            past(kind, whose, source, 255, 2);
            past(kind, whose, source, 255, 255);
            past(kind, whose, source, 128, 129);
            past(kind, whose, source, data + 2, 255 - data);
            past(kind, whose, source, 9, 4);
        }
}

/* One entry past its data, at this place of a table of so many. */
static void past_at(unsigned whose, unsigned entries, unsigned place)
{
    fresh(3, BOTH);
    for (unsigned i = 0; i < entries; i++)
        draft_log_entry(&setup.table[whose], (uint8_t)whose, 8,
                        i == place ? 9 : 1);
    begin();
    distinct();
    emit();
}

static void past_among(void)
{
    for (unsigned whose = 0; whose < 2; whose++) {
        past_at(whose, 3, 0);
        past_at(whose, 3, 1);
        past_at(whose, 3, 2);
        past_at(whose, 255, 254);
        past_at(whose, 255, 255); /* none */
        past_at(whose, 2, 2);
    }
}

/* Where nothing is ever logged, with an entry past its data and without. */
static void unused(void)
{
    for (unsigned i = 0; i < 10; i++) {
        const unsigned which = i / 2;
        fresh(which == 0 || which == 4 ? 0 : 3,
              which == 1 || which == 4 ? WITH_ALL : ALL);
        if (which == 2 || which == 4)
            setup.profile[0].log = 0;
        if (which == 3)
            setup.log_switches = 0;
        at_first(12, 1);
        at_second(FROM_SECOND, 8, i & 1 ? 2 : 1);
        begin();
        distinct();
        emit();
    }
}

/* A byte of the set-up's body out of its range. */
static void spoil(size_t place, uint8_t value)
{
    draft->bytes[SETUP_BODY + place] = value;
}

/* The set-up's record becomes so many bytes longer or shorter, at its end. */
static void resize(int more)
{
    static const uint8_t zeros[8];
    const size_t length = get16(draft->bytes + 1);
    const size_t place = SETUP_BODY + length - 1;

    if (more > 0)
        draft_insert(draft, place, zeros, (size_t)more);
    else
        draft_remove(draft, place - (size_t)-more, (size_t)-more);
    put16(draft->bytes + 1, (unsigned)((int)length + more));
}

/* An entry past its data in either table, and something that is refused with 1:
 * in the base, in each tail, and behind it. Then what only comes after it. */
static void past_and_more(void)
{
    for (unsigned which = 0; which < 18; which++) {
        fresh_of(which & 3, 3, ALL);
        setup.scripts = which & 1;
        if (which & 4)
            at_first(30, 1);
        else
            at_second(FROM_SECOND, 8, 2);
        at_second(FROM_FIRST, 1, 1);
        begin();
        const size_t log = draft_setup_log(&setup);
        const size_t end = get16(draft->bytes + 1) - 1u;
        const size_t places[] = {1, 2, 7, SETUP_HEAD, SETUP_HEAD + 13,
                                 draft_setup_base(&setup),
                                 draft_setup_cycles(&setup) - 1,
                                 draft_setup_scripts(&setup), log, log + 1,
                                 log + 2, log + 3, end - 3};
        if (which < sizeof places / sizeof *places)
            spoil(places[which], which == 10 ? 0x83 : 0xFF);
        else if (which == 13)
            resize(1);
        else if (which == 14)
            resize(-1);
        start(1);
        if (which == 15)
            draft->length--; /* cut short, behind what ends the paper */
        if (which == 16)
            draft->bytes[draft->start[1] + 2] = 9;
        emit();
    }
}

/* The tail ----------------------------------------------------------------- */

/* Sources that are none: in First's table Second's too, at position 0 too. */
static void sources(void)
{
    static const uint8_t none[2][4] = {{1, 2, 0x80, 0xFF}, {2, 3, 0x80, 0xFF}};

    for (unsigned whose = 0; whose < 2; whose++)
        for (unsigned i = 0; i < 4; i++)
            for (unsigned place = 0; place < 3; place++) {
                fresh(3, ALL);
                for (unsigned j = 0; j < 3; j++)
                    draft_log_entry(&setup.table[whose],
                                    j == place ? none[whose][i] : 0,
                                    (uint8_t)(i & 1), 1);
                begin();
                pay(TC, 1);
                emit();
            }
}

/* The tail of 16 bytes ends after each of them, or goes on. */
static void lengths(void)
{
    for (int more = -16; more <= 3; more++) {
        fresh(3, ALL);
        profiles_alike(2);
        at_first(1, 1);
        at_first(2, 1);
        at_second(FROM_SECOND, 1, 1);
        begin();
        resize(more);
        pay(TC, 1);
        emit();
    }
}

/* Numbers of entries that are one off, with the tail as long as it was. */
static void numbers(void)
{
    static const uint8_t values[2][3] = {{1, 3, 255}, {0, 2, 255}};

    for (unsigned i = 0; i < 6; i++) {
        fresh(3, ALL);
        at_first(0, 0);
        at_first(0, 0);
        at_second(FROM_FIRST, 0, 0);
        begin();
        const size_t first_table = draft_setup_log(&setup) + SETUP_LOG + 1;
        const size_t second_table = first_table + 1 + 2 * LOG_ENTRY;
        spoil(i < 3 ? first_table : second_table, values[i / 3][i % 3]);
        pay(TC, 1);
        emit();
    }
}

/* On and off behind every tail that a set-up may have, and a byte left over. */
static void tails(void)
{
    for (unsigned i = 0; i < 32; i++) {
        fresh_of(i & 3, 2, ALL);
        setup.log = i >> 4;
        setup.scripts = i >> 2 & 1;
        setup.syllabus = i & 1;
        telling_tables();
        if (i & 8)
            simple_entry(0x00, 0x00, 0, 1, 1);
        begin();
        distinct();
        pay(AAC, 5);
        emit();
        if (i & 8)
            continue;
        begin();
        resize(1);
        pay(TC, 1);
        emit();
    }
    for (unsigned i = 0; i < 4; i++) {
        static const uint8_t values[] = {2, 3, 0x81, 0xFF};
        fresh(2, ALL);
        setup.log = values[i];
        begin();
        if (i == 3)
            resize(-5); /* as short as if it were off */
        pay(TC, 1);
        emit();
    }
    fresh(2, ALL); /* off, with all that a log has behind it */
    begin();
    spoil(draft_setup_log(&setup), 0);
    pay(TC, 1);
    emit();
}

/* A log's tail in an older paper, and the printed sitting with the log off. */
static void older(void)
{
    for (uint8_t version = 1; version < 7; version++) {
        fresh(2, ALL);
        begin();
        draft->bytes[0] = version;
        pay(TC, 1);
        emit();
    }
    draft_printed_setup(&setup);
    setup.version = 7;
    begin();
    printed_commands();
    emit();
}

/* Which commands make a record --------------------------------------------- */

/* Firsts that are refused before the one that is taken and behind it, each with
 * data of its own; so with Seconds. */
static void refused(void)
{
    for (unsigned i = 0; i < 8; i++) {
        fresh_of(i & 3, 4, ALL);
        telling_tables();
        begin();
        first(TC, 90); /* nothing is open */
        second(TC, Y3, ABSENT, 0x11);
        start(1);
        first(3, 91);
        first(TC, MOST + 1);
        first_in(TC, 92, 0x0A00);
        if (i & DATED)
            first_on(0x050229, TC, 93);
        today = FRIDAY;
        if (i & OF_CPACE) {
            interface = 2;
            start(1);
            interface = CONTACT;
        }
        start(9);
        first_offline(i & 4 ? TC : ARQC, 1);
        first_at(TC, 94, USD, 0x11);
        first_at(AAC, 95, USD, 0x12);
        start(9);
        second(2, OTHER, VERIFIED, 0x81);
        second(TC, OTHER, 3, 0x82);
        first(3, 96);
        second(TC, Z3, ABSENT, 0x83);
        second(AAC, OTHER, ABSENT, 0x84);
        first(TC, 97);
        second(TC, Y3, ABSENT, 0x85);
        emit();
    }
}

/* What a Start drops makes no record, and a new transaction is the next one's;
 * none is left when the ATC is at its end. */
static void dropped(void)
{
    for (unsigned i = 0; i < 4; i++) {
        fresh(i == 3 ? 1 : 5, ALL);
        setup.atc = 65533;
        telling_tables();
        begin();
        if (i > 0)
            pay(ARQC, 1);
        start(1);
        if (i > 1)
            first(ARQC, 2);
        start(1);
        second(TC, OTHER, VERIFIED, 0x80);
        first(i & 1 ? ARQC : TC, 3);
        start(1);
        second(TC, OTHER, VERIFIED, 0x80);
        first(AAC, 4);
        second(AAC, Y3, ABSENT, 0);
        emit();
    }
}

#define NOTHING "710F860D0CDABF300881008E0411223344"
#define FAILING "71028600"
#define VALUE_9 "711886160CDABF30118109DF01060000000000098E0411223344"

/* Scripts of all kinds around a transaction that Second closes: they make no
 * record, and its CVR has First's byte 4. */
static void scripts_between(void)
{
    static const char *const some[] = {NOTHING, FAILING, VALUE_9, "7100",
                                       "71", "7108710671047102E100"};

    for (unsigned i = 0; i < sizeof some / sizeof *some; i++) {
        fresh(4, ALL);
        setup.scripts = 1;
        telling_tables();
        begin();
        script(some[i]);
        pay(ARQC, 1);
        script(some[i]);
        script_by(2, some[i]);
        second(TC, i & 1 ? Y3 : OTHER, VERIFIED, 0x80);
        script(some[i]);
        start(1);
        script(some[i]);
        first(TC, 2);
        script(some[i]);
        emit();
    }
}

/* First's CVR and Second's differ in every byte that they can. */
static void verification_results(void)
{
    static const uint16_t codes[] = {Y3, Z3, OTHER, OTHER, OTHER};
    static const uint8_t data[] = {ABSENT, ABSENT, VERIFIED, FAILED, ABSENT};

    for (unsigned i = 0; i < 2; i++) {
        fresh(RING, (uint8_t)(BOTH | (i ? WITH_CVR : WITH_ALL)));
        setup.pin = (uint8_t)(3 * i);
        setup.go_online = 1;
        setup.profile[0].accumulator[0].lower = 2;
        setup.profile[0].accumulator[0].upper = 3;
        setup.profile[0].counter[0].switches = 7;
        setup.profile[0].counter[0].lower = 1;
        setup.profile[0].counter[0].upper = 2;
        begin();
        for (unsigned j = 0; j < 10; j++) {
            pay(TC, 1);
            pay(ARQC, 1);
            second(j & 1, codes[j / 2], data[j / 2], 0x88);
        }
        emit();
    }
}

/* Values ------------------------------------------------------------------- */

static void amounts(void)
{
    static const uint64_t some[] = {0, 1, 9, 10, 99, 100, 255, 256, 65536,
                                    999999, 1000000, 4294967296, 99999999999,
                                    100000000000, 987654321098, MOST - 1,
                                    MOST};
    static const uint16_t currencies[] = {0x0000, 0x0999, 0x0001, USD};

    fresh(RING, BOTH);
    begin();
    for (unsigned i = 0; i < sizeof some / sizeof *some; i++)
        pay(i & 1 ? AAC : TC, some[i]);
    emit();
    fresh(RING, BOTH);
    begin();
    for (unsigned i = 0; i < sizeof some / sizeof *some; i++)
        online(i & 1, some[i], OTHER, VERIFIED);
    emit();
    fresh(RING, BOTH);
    begin();
    for (unsigned i = 0; i < sizeof currencies / sizeof *currencies; i++) {
        start(1);
        first_in(TC, i, currencies[i]);
        start(1);
        first_in(ARQC, i, currencies[i]);
        second(TC, Y3, ABSENT, 0);
    }
    emit();
}

static void transaction_counters(void)
{
    static const uint16_t some[] = {254, 255, 4095, 32767, 65533};

    for (unsigned i = 0; i < sizeof some / sizeof *some; i++) {
        fresh(4, DECLINED | APPROVED | WITH_ATC);
        setup.atc = some[i];
        begin();
        pay(TC, 1);
        pay(ARQC, 2);
        second(AAC, OTHER, VERIFIED, 0);
        start(1); /* counts further, or is refused */
        emit();
    }
}

/* Firsts' dates, in error or not, and none where the card is not dated. */
static void dates(void)
{
    for (unsigned kind = 0; kind < CARDS; kind++) {
        fresh_of(kind, RING, ALL);
        if (kind & DATED)
            at_first(13, 3);
        at_first(10, 3);
        at_second(FROM_FIRST, 10, 3);
        begin();
        start(1);
        first_on(0x050716, TC, 1);
        start(1);
        first_on(0x050101, TC, 2);
        start(1);
        first_on(0x991231, AAC, 3);
        start(1);
        first_on(0x000229, ARQC, 4);
        second(TC, OTHER, VERIFIED, 0x80);
        start(1);
        first_on(0x010101, ARQC, 5);
        start(1);
        first_on(0x020202, ARQC, 6);
        second(TC, Y3, ABSENT, 0);
        emit();
    }
}

/* The end of a paper ------------------------------------------------------- */

/* What cannot be read ends a paper that has records, and none is shown; what is
 * only refused does not. */
static void ended(void)
{
    static const uint8_t bytes[][4] = {{0}, {0, 0}, {0, 1, 0}, {0, 1, 6},
                                       {0, 2, 1, 1}, {0, 2, 2}, {0, 3, 2, 1},
                                       {0, 1, 3}, {0, 1, 4}, {0, 1, 5}};
    static const uint8_t sizes[] = {1, 2, 3, 3, 4, 3, 4, 3, 3, 3};

    for (unsigned i = 0; i < sizeof sizes; i++) {
        fresh(2, ALL);
        begin();
        many(3);
        draft_insert(draft, draft->length, bytes[i], sizes[i]);
        emit();
    }
    for (unsigned i = 0; i < 5; i++) {
        fresh(2, ALL);
        begin();
        many(3);
        if (i == 0)
            start(2);
        if (i == 1)
            first(TC, 1);
        if (i == 2)
            second(TC, Y3, ABSENT, 0);
        if (i == 3)
            pay(3, 1);
        if (i == 4)
            pay(ARQC, 1);
        emit();
    }
    fresh(2, ALL); /* cut within its last command */
    begin();
    many(3);
    draft->length--;
    emit();
}

/* A paper without records behind one that has them: its set-up alone, in an
 * older version, without a log, refused with 14 and with 1. */
static void leftovers(void)
{
    for (unsigned i = 0; i < 6; i++) {
        fresh(RING, ALL);
        telling_tables();
        begin();
        many(21);
        emit();
        if (i == 1)
            setup.version = 6;
        if (i == 2)
            setup.log = 0;
        if (i == 3)
            at_first(13, 1);
        if (i == 4)
            setup.log_switches = 1;
        begin();
        if (i > 0)
            start(1);
        if (i == 5) {
            second(TC, Y3, ABSENT, 0);
            first(ARQC, 1);
        }
        emit();
    }
}

/* The largest -------------------------------------------------------------- */

/* The longest lines, and the most fields of the most records. */
static void largest_lines(void)
{
    fresh_of(DATED | OF_CPACE, 2, ALL);
    for (unsigned i = 0; i < LOG_ENTRIES; i++) {
        at_first(1, 24);
        at_second(FROM_FIRST, 1, 24);
    }
    begin();
    distinct();
    emit();
    fresh(RING, ALL);
    for (unsigned i = 0; i < LOG_ENTRIES; i++) {
        at_first((uint8_t)(1 + i % 12), 1);
        at_second(i % 5 > 1, (uint8_t)(1 + i % 8), 1);
    }
    begin();
    many(23);
    emit();
}

/* Data at the very end of the largest paper, behind a Script that takes all the
 * room. */
static void largest_papers(void)
{
    static uint8_t zeros[PAPER];

    for (unsigned i = 0; i < 2; i++) {
        fresh(3, ALL);
        setup.scripts = 1;
        telling_tables();
        begin();
        pay(TC, 1);
        pay(ARQC, 2);
        const size_t behind = 19 + 19 + 11 + 11;
        draft_script(draft, 1, zeros, PAPER - draft->length - 4 - behind);
        second(TC, OTHER, VERIFIED, 0x80);
        pay(i ? TC : AAC, 3);
        pay(ARQC, 4);
        second(TC, Y3, ABSENT, 0x7F);
        assert(draft->length == PAPER);
        emit();
    }
}

void listed_log(void)
{
    sittings();
    rings();
    switches();
    closings();
    profiles();
    selected();
    stretches();
    two_tables();
    nowhere();
    past_data();
    past_among();
    unused();
    past_and_more();
    sources();
    lengths();
    numbers();
    tails();
    older();
    refused();
    dropped();
    scripts_between();
    verification_results();
    amounts();
    transaction_counters();
    dates();
    ended();
    leftovers();
    largest_lines();
    largest_papers();
}
