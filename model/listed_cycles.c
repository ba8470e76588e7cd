/* Cyclic accumulators: when a cycle begins, dates in error, the recovery,
 * limits, orders, and the bytes. */
#include <string.h>

#include "bytes.h"
#include "dates.h"
#include "examples.h"
#include "listed.h"
#include "script.h"

enum { LIMIT = 1000, MONDAY = 0x050711, FRIDAY = 0x050715 };

/* Profile 1 has both accumulators, all switches on, and nothing that declines.
 * Profiles 2 and 3 are to see the amounts with, profile 4 is for the case. The
 * last is sent and grows everywhere. */
static void fresh(uint32_t last, uint8_t kind_1, uint8_t first_day_1,
                  uint8_t kind_2, uint8_t first_day_2)
{
    draft_printed_setup(&setup);
    profiles_blank(4);
    cyclic(last, kind_1, first_day_1, kind_2, first_day_2);
    for (unsigned i = 0; i < 4; i++) {
        struct draft_profile *profile = &setup.profile[i];
        profile->accumulator[0].switches = 3;
        profile->accumulator[0].lower = MOST;
        profile->accumulator[0].upper = MOST;
        profile->accumulator_sent = 1;
        for (unsigned j = 0; j < 2; j++)
            profile->cyclic[j].limit = LIMIT;
    }
    for (unsigned j = 0; j < 2; j++) {
        setup.profile[0].cyclic[j].switches = 7;
        setup.profile[1 + j].cyclic[j].switches = 5;
        setup.profile[1 + j].decline = j == 0 ? CYCLIC_1 : CYCLIC_2;
    }
}

static struct draft_profile *const fourth = &setup.profile[3];

static void amounts(uint64_t first, uint64_t second)
{
    setup.cyclic[0].amount = first;
    setup.cyclic[1].amount = second;
}

static void fourth_switches(uint8_t first, uint8_t second)
{
    fourth->cyclic[0].switches = first;
    fourth->cyclic[1].switches = second;
}

/* That the amounts are so: one unit more than is left is declined. Both are at
 * most the limit. Changes nothing on the last date. */
static void see_amounts(uint32_t date, uint64_t first, uint64_t second)
{
    const uint64_t amount[] = {first, second};

    for (uint8_t i = 0; i < 2; i++)
        for (unsigned more = 0; more < 2; more++) {
            start((uint8_t)(2 + i));
            first_on(date, TC, LIMIT - amount[i] + more);
        }
}

/* That this is the last date: the day before is in error. */
static void see_last(uint32_t date)
{
    start(4);
    first_on(day_before(date), AAC, 0);
    start(4);
    first_on(date, AAC, 0);
}

static void see(uint32_t date, uint64_t first, uint64_t second)
{
    see_last(date);
    see_amounts(date, first, second);
    emit();
}

/* The ways an ARQC is closed, by Y3 and Z3 first. */
struct closing {
    uint8_t required, type;
    uint16_t code;
    uint8_t data;
    unsigned status;
};

static const struct closing closings[] = {
    {0, TC, Y3, ABSENT, 0},          {0, AAC, Y3, VERIFIED, 0x83},
    {0, TC, Z3, VERIFIED, 0x81},     {0, AAC, Z3, FAILED, 0},
    {0, TC, OTHER, VERIFIED, 0x80},  {0, TC, OTHER, VERIFIED, 0x81},
    {0, TC, OTHER, VERIFIED, 0x82},  {0, TC, OTHER, VERIFIED, 0x83},
    {1, TC, OTHER, VERIFIED, 0x80},  {0, TC, OTHER, VERIFIED, 0x00},
    {0, TC, OTHER, VERIFIED, 0x01},  {0, TC, OTHER, VERIFIED, 0x02},
    {0, TC, OTHER, VERIFIED, 0x03},  {0, AAC, OTHER, VERIFIED, 0x80},
    {0, AAC, OTHER, VERIFIED, 0x81}, {0, AAC, OTHER, VERIFIED, 0x82},
    {0, AAC, OTHER, VERIFIED, 0x83}, {0, TC, OTHER, FAILED, 0x83},
    {0, AAC, OTHER, FAILED, 0},      {0, TC, OTHER, ABSENT, 0x83},
    {0, AAC, OTHER, ABSENT, 0},      {1, TC, OTHER, ABSENT, 0x80},
    {1, AAC, OTHER, ABSENT, 0}};

enum { CLOSINGS = sizeof closings / sizeof *closings };

static void close(const struct closing *closing)
{
    second(closing->type, closing->code, closing->data, closing->status);
}

/* The sittings of examples/ ------------------------------------------------ */

static void sittings(void)
{
    day_and_month();
    emit();
    weeks();
    emit();
    date_error();
    emit();
    refused_dates();
    emit();
}

/* CPA Annex I's five examples: a purchase, and the amount after it. The fifth
 * has its date as the text has it, too. */
static void annex_i(void)
{
    static const struct {
        uint8_t kind, first_day, switches;
        uint64_t amount, limit;
        uint32_t last, date;
        uint64_t paid;
        uint16_t currency, digits;
        uint8_t shift;
        uint64_t after;
    } examples[] = {
        {DAYS, FRI, 7, 85400, 100000, 0x050715, 0x050715, 35000, USD, 82, 7,
         114100},
        {WEEKS, MON, 7, 286950, 300000, 0x050711, 0x050721, 445500, 0x0124, 67,
         7, 298485},
        {MONTHS, FRI, 7, 1510945, 1500000, 0x050711, 0x050725, 35000, 0x0414, 0,
         0, 1510945},
        {MONTHS, FRI, 7, 1498945, 1500000, 0x050711, 0x050725, 65000, 0x0810,
         28, 6, 1500765},
        {DAYS, FRI, 1, 85400, 100000, 0x050715, 0x050715, 15000, EUR, 0, 0,
         85400},
        {DAYS, FRI, 1, 85400, 100000, 0x050715, 0x050725, 15000, EUR, 0, 0, 0}};

    for (unsigned i = 0; i < sizeof examples / sizeof *examples; i++)
        for (unsigned masked = 0; masked < 2; masked++) {
            fresh(examples[i].last, examples[i].kind, examples[i].first_day,
                  DAYS, FRI);
            amounts(examples[i].amount, 0);
            fourth_switches(examples[i].switches, 0);
            fourth->cyclic[0].limit = examples[i].limit;
            fourth->decline = masked ? CYCLIC_1 : 0;
            setup.conversions = examples[i].digits > 0;
            rate(0, examples[i].currency, examples[i].digits,
                 examples[i].shift);
            for (unsigned j = 1; j < 3; j++) { /* to see the amount with */
                setup.profile[j] = *fourth;
                setup.profile[j].number = (uint8_t)(j + 1);
                setup.profile[j].decline = CYCLIC_1;
                setup.profile[j].cyclic[0].switches = 1;
                setup.profile[j].cyclic[0].limit = examples[i].after - (j == 1);
            }
            if (examples[i].after == 0)
                setup.profile[1].cyclic[0].limit = 0;
            begin();
            start(4);
            today = examples[i].date;
            first_in(TC, examples[i].paid, examples[i].currency);
            for (uint8_t j = 2; j <= 4; j++) {
                start(j);
                first(TC, 0);
            }
            emit();
        }
}

/* The moment -------------------------------------------------------------- */

/* A cycle begins for every First that is taken, whatever its type and answer,
 * and for every accumulator, whatever its switches. */
static void begins_for(uint8_t type, uint8_t switches, uint32_t online,
                       uint32_t decline)
{
    const bool approved = type == TC && online == 0 && decline == 0;
    const bool counted = approved && (switches & 3) == 3;

    for (unsigned dropped = 0; dropped < 2; dropped++) {
        fresh(FRIDAY, DAYS, FRI, WEEKS, SAT);
        amounts(400, 500);
        setup.go_online = 1;
        fourth_switches(switches, switches);
        fourth->online = online;
        fourth->decline = decline;
        begin();
        start(4);
        first_on(next_day(FRIDAY), type, 10);
        if (dropped)
            start(4);
        else
            second(TC, OTHER, VERIFIED, 0x80);
        see(next_day(FRIDAY), counted ? 10 : 0, counted ? 10 : 0);
    }
}

static void moments(void)
{
    static const uint8_t some[] = {0, 1, 2, 3, 4, 5, 6, 7};

    for (unsigned i = 0; i < sizeof some; i++) {
        begins_for(AAC, some[i], 0, 0);
        begins_for(TC, some[i], 0, 0);
        begins_for(TC, some[i], GO_ONLINE, 0);
        begins_for(TC, some[i], 0, GO_ONLINE);
        begins_for(ARQC, some[i], 0, 0);
        begins_for(ARQC, some[i], 0, GO_ONLINE);
    }
}

/* Before the tests: what was full is empty. With this transaction too much, it
 * began all the same. */
static void begins_before_tests(void)
{
    for (unsigned more = 0; more < 2; more++)
        for (unsigned which = 0; which < 3; which++) {
            fresh(FRIDAY, DAYS, FRI, DAYS, FRI);
            amounts(LIMIT, LIMIT);
            fourth_switches(7, 7);
            fourth->decline = which == 0 ? CYCLIC_1 | CYCLIC_2 : 0;
            fourth->online = which == 1 ? CYCLIC_1 | CYCLIC_2 : 0;
            fourth->by_default = which == 2 ? CYCLIC_1 | CYCLIC_2 : 0;
            begin();
            start(4);
            today = next_day(FRIDAY);
            first_at(TC, LIMIT + more, EUR,
                     which == 2 ? OFFLINE_TERMINAL : ONLINE_TERMINAL);
            see(next_day(FRIDAY), more ? 0 : LIMIT, more ? 0 : LIMIT);
        }
}

/* No cycle begins where First is refused, and the last date stays. */
static void refused_begin_nothing(void)
{
    const uint32_t next = next_day(FRIDAY);

    for (unsigned past = 0; past < 2; past++) {
        const uint32_t date = past ? day_before(FRIDAY) : next;
        fresh(FRIDAY, DAYS, FRI, DAYS, FRI);
        amounts(400, 500);
        begin();
        first_on(date, TC, 1); /* 2 */
        first_on(0x050229, TC, 1);
        first_on(0x050229, 3, 1);
        first_on(0x050229, TC, MOST + 1);
        start(1);
        first_on(date, 3, 1); /* 5 */
        first_on(date, 255, MOST + 1);
        first_on(0x050229, 3, 1);
        first_on(0x050229, 3, MOST + 1);
        first_on(date, TC, MOST + 1); /* 6 */
        first_in(TC, 1, 0x097A);
        first_in(ARQC, 1, 0x1978);
        first_on(0x050229, TC, MOST + 1);
        first_in(TC, 1, 0x0A78);
        first_on(0x050229, TC, 1); /* 13 */
        first_on(0x050229, AAC, 1);
        first_on(0x0A0101, ARQC, 1);
        first_on(FRIDAY, ARQC, 1);
        first_on(date, TC, 1); /* 2 */
        first_on(0x050229, TC, 1);
        second(AAC, OTHER, VERIFIED, 0x80);
        first_on(date, TC, 1);
        see(FRIDAY, 400, 500);
    }
}

/* The last date moves though no cycle begins, by an AAC too; each of the two
 * begins by its own kind. */
static void last_date_moves(void)
{
    static const uint8_t types[] = {AAC, TC, ARQC};

    for (unsigned i = 0; i < 3; i++) {
        fresh(MONDAY, WEEKS, MON, MONTHS, FRI);
        amounts(400, 500);
        begin();
        start(4);
        first_on(0x050713, types[i], 0);
        see_last(0x050713);
        start(4);
        first_on(0x050712, types[i], 0);
        see_last(0x050713);
        see_amounts(0x050713, 400, 500);
        start(4);
        first_on(0x050718, types[i], 0); /* another week */
        see_amounts(0x050718, 0, 500);
        see(0x050801, 0, 0); /* and another month */
    }
    fresh(MONDAY, MONTHS, FRI, WEEKS, MON);
    amounts(400, 500);
    begin();
    see_amounts(0x050717, 400, 500);
    see_amounts(0x050718, 400, 0);
    see(0x050801, 0, 0);
    fresh(MONDAY, WEEKS, TUE, DAYS, FRI);
    amounts(400, 500);
    begin();
    see_amounts(MONDAY, 400, 500);
    see(next_day(MONDAY), 0, 0);
    for (unsigned week = 0; week < 2; week++) { /* a whole one, a whole month */
        fresh(0x050701, MONTHS, FRI, WEEKS, FRI);
        amounts(400, 500);
        begin();
        if (week)
            see_amounts(0x050707, 400, 500);
        see_amounts(0x050731, 400, 0);
        see(0x050801, 0, 0);
    }
}

/* Dates in error ---------------------------------------------------------- */

/* Before the last date, in its cycle and before it; whichever is active. Bit 24
 * decides by each mask, bits 22 and 23 by none. */
static void errors(void)
{
    static const uint32_t dates[] = {0x050714, 0x050711, 0x050710, 0x050701,
                                     0x050630, 0x000101};
    static const uint8_t switches[] = {0, 1, 3, 5, 7};

    for (unsigned i = 0; i < sizeof dates / sizeof *dates; i++)
        for (unsigned j = 0; j < sizeof switches; j++) {
            fresh(FRIDAY, i & 1 ? WEEKS : MONTHS, MON, j & 1 ? DAYS : WEEKS,
                  MON);
            amounts(LIMIT - 1, LIMIT);
            fourth_switches(switches[j], switches[sizeof switches - 1 - j]);
            fourth->cyclic[1].limit = LIMIT - 1;
            fourth->decline = CYCLIC_1 | CYCLIC_2;
            fourth->online = CYCLIC_1 | CYCLIC_2;
            fourth->by_default = CYCLIC_1 | CYCLIC_2;
            begin();
            for (uint8_t type = AAC; type <= ARQC; type++) {
                start(4);
                first_on(dates[i], type, 5);
                second(TC, Z3, ABSENT, 0);
            }
            start(4);
            first_offline(TC, 5);
            see(FRIDAY, LIMIT - 1, LIMIT);
        }
}

/* Bits 22, 23 and 24 against each mask alone. */
static void masks(void)
{
    for (unsigned bit = 22; bit < BITS_04; bit++)
        for (unsigned in_error = 0; in_error < 2; in_error++) {
            const uint32_t mask = UINT32_C(1) << bit;
            fresh(FRIDAY, DAYS, FRI, MONTHS, FRI);
            amounts(LIMIT + 1, LIMIT + 1);
            profiles_alike(4);
            setup.profile[0].decline = mask;
            setup.profile[1].online = mask;
            setup.profile[2].by_default = mask;
            begin();
            today = in_error ? day_before(FRIDAY) : FRIDAY;
            start(1);
            first(TC, 1);
            start(1);
            first(ARQC, 1);
            start(2);
            first(TC, 1);
            for (unsigned i = 0; i < 3; i++) {
                start(3);
                first_at(i < 2 ? TC : ARQC, 1, EUR,
                         i == 1 ? OFFLINE_TERMINAL : ONLINE_TERMINAL);
                second(TC, Y3, ABSENT, 0);
            }
            emit();
        }
}

/* Every mask bit from 22 on, in every version: 22 to 24 are named in 04, dated
 * or not, and nothing else is. */
static void mask_bits(void)
{
    for (uint8_t version = 1; version <= 4; version++)
        for (unsigned dated = 0; dated <= (version == 4); dated++)
            for (unsigned bit = 22; bit < 32; bit++) {
                const uint32_t mask = UINT32_C(1) << bit;
                draft_printed_setup(&setup);
                cyclic(FRIDAY, DAYS, FRI, DAYS, FRI);
                setup.version = version;
                setup.dated = (uint8_t)dated;
                if (bit % 3 == 0)
                    setup.profile[0].online = mask;
                else if (bit % 3 == 1)
                    setup.profile[0].decline = mask;
                else
                    setup.profile[0].by_default = mask;
                begin();
                start(1);
                first(TC, 1);
                emit();
            }
    for (unsigned i = 0; i < 3; i++) { /* all that are named, and one more */
        uint32_t *mask[] = {&setup.profile[0].online, &setup.profile[0].decline,
                            &setup.profile[0].by_default};
        for (unsigned more = 0; more < 2; more++) {
            draft_printed_setup(&setup);
            cyclic(FRIDAY, DAYS, FRI, DAYS, FRI);
            *mask[i] = ALL_BITS_04 + more;
            begin();
            start(1);
            first_on(day_before(FRIDAY), TC, 1);
            emit();
        }
    }
}

/* An amount after a Second, and 30 at First: what is added, what is ordered. */
static uint64_t closed(const struct closing *closing, bool in_error,
                       uint8_t switches, uint64_t amount, uint64_t limit)
{
    const bool unable = closing->code != OTHER;
    const bool ordered = !unable && closing->data == VERIFIED;
    const unsigned order = ordered ? closing->status & 3 : 0;
    const bool added = order == 3 || (unable && closing->type == TC);

    if (order == 1 && switches & 1)
        return limit;
    if (order == 2 && switches & 1)
        return 0;
    return added && !in_error && (switches & 3) == 3 ? amount + 30 : amount;
}

/* A Second of every kind after a First in error, or not: the amounts, and which
 * date is the last. */
static void closes(const struct closing *closing, uint32_t date,
                   uint8_t switches)
{
    const bool in_error = date < FRIDAY;

    fresh(FRIDAY, MONTHS, FRI, WEEKS, MON);
    setup.required = closing->required;
    amounts(400, 500);
    setup.accumulator[0].value = 50;
    fourth_switches(switches, switches);
    fourth->cyclic[0].limit = 600;
    fourth->cyclic[1].limit = 700;
    fourth->accumulator[0].upper = 77;
    begin();
    start(4);
    first_on(date, ARQC, 30);
    close(closing);
    for (unsigned i = 0; i < 2; i++)
        see_amounts(i == 0 ? date : FRIDAY,
                    closed(closing, in_error, switches, 400, 600),
                    closed(closing, in_error, switches, 500, 700));
    see_last(FRIDAY);
    emit();
}

static void recoveries(void)
{
    static const uint8_t switches[] = {7, 3, 1, 0};
    static const uint32_t dates[] = {0x050714, 0x050709, FRIDAY, 0x050716};

    for (unsigned i = 0; i < CLOSINGS; i++)
        for (unsigned j = 0; j < 4; j++)
            for (unsigned k = 0; k < 4; k++)
                if (j == 0 || k == 0)
                    closes(&closings[i], dates[j], switches[k]);
}

/* Recovered, and the date may be the same again; not recovered, and it is in
 * error again. Then a later one that falls in another cycle than either. */
static void recovered_or_not(void)
{
    for (unsigned i = 0; i < CLOSINGS; i++) {
        fresh(0x051231, DAYS, FRI, MONTHS, FRI);
        setup.required = closings[i].required;
        amounts(400, 500);
        begin();
        for (unsigned round = 0; round < 2; round++) {
            start(1);
            first_on(0x050715, ARQC, 1);
            close(&closings[i]);
            start(1);
            first_on(0x050715, TC, 1);
        }
        see_amounts(0x050716, 0, 0);
        see(0x051231, 0, 0);
    }
}

/* In error nothing but the cyclic accumulators is held back. */
static void others_go_on(void)
{
    fresh(FRIDAY, DAYS, FRI, DAYS, FRI);
    fourth_switches(7, 7);
    fourth->mta_on = 1;
    fourth->mta_currency = EUR;
    fourth->mta = 100;
    for (unsigned i = 0; i < 4; i++) {
        setup.accumulator[i].currency = EUR;
        fourth->accumulator[i].switches = 7;
        fourth->accumulator[i].lower = 40 + i;
        fourth->accumulator[i].upper = 90 + i;
        fourth->counter[i].switches = 15;
        fourth->counter[i].lower = 2;
        fourth->counter[i].upper = (uint8_t)(4 + i);
    }
    fourth->counter_sent[0] = 1;
    fourth->counter_sent[1] = 4;
    for (unsigned which = 0; which < 2; which++) {
        fourth->decline = which ? UPPER_1 | MTA_EXCEEDED : 0;
        begin();
        for (unsigned i = 0; i < 4; i++) {
            start(4);
            first_on(day_before(FRIDAY), i == 3 ? AAC : TC, 30 + 25 * i);
            start(4);
            first(ARQC, 10);
            second(TC, i & 1 ? Y3 : OTHER, i & 2 ? VERIFIED : ABSENT, 0x03);
            start(4);
            first_on(FRIDAY, AAC, 0);
        }
        see(FRIDAY, 0, 0);
    }
}

/* Limits ------------------------------------------------------------------ */

/* All switches, at the limit and above it, by value and by sum; then orders. */
static void limits(unsigned variant)
{
    const uint16_t currency = variant == 4 ? USD : EUR;
    const uint64_t full = variant == 2 ? MOST : LIMIT;

    for (uint8_t switches = 0; switches < 8; switches++) {
        static const uint64_t values[] = {900, 901, MOST, 1001, 1001};
        fresh(FRIDAY, DAYS, FRI, MONTHS, FRI);
        amounts(values[variant], values[variant]);
        profiles_alike(4);
        for (unsigned i = 0; i < 4; i++) {
            struct draft_profile *profile = &setup.profile[i];
            profile->decline = i == 0 ? CYCLIC_1 : i == 1 ? CYCLIC_2 : 0;
            profile->online = i == 2 ? CYCLIC_1 : i == 3 ? CYCLIC_2 : 0;
            profile->by_default = profile->online;
            for (unsigned j = 0; j < 2; j++) {
                profile->cyclic[j].switches = (uint8_t)(switches ^ j);
                profile->cyclic[j].limit = full;
            }
        }
        begin();
        for (unsigned order = 0; order < 6; order++)
            for (uint8_t p = 1; p <= 4; p++) {
                start(p);
                first_in(TC, 100, currency);
                start(p);
                first_in(ARQC, 100, currency);
                if (order < 4)
                    second(TC, OTHER, VERIFIED, 0x80 | order);
                else
                    second(TC, order == 4 ? Y3 : Z3, ABSENT, 0x82);
            }
        emit();
    }
}

/* Conversions to MAX, over it and below, into amounts that are 0 or not, by
 * both syllabuses: whether a limit of MAX is exceeded, and what is stored. */
static void over(uint8_t syllabus, uint8_t switches, uint64_t value)
{
    static const uint64_t paid[] = {333333333333, 625000000000, MOST, 12345,
                                    833333333333};
    static const uint16_t digits[] = {3, 16, 9999, 1234, 12};
    static const uint8_t shifts[] = {9, 8, 12, 6, 8};
    static const uint16_t foreign[] = {0x0001, 0x0010, 0x0100, USD, 0x0999};

    for (unsigned i = 0; i < 5; i++) {
        fresh(FRIDAY, DAYS, FRI, MONTHS, FRI);
        setup.syllabus = syllabus;
        amounts(value, value);
        setup.conversions = 5;
        for (unsigned j = 0; j < 5; j++)
            rate(j, foreign[j], digits[j], shifts[j]);
        for (unsigned p = 0; p < 4; p++) {
            struct draft_profile *profile = &setup.profile[p];
            const uint32_t bit = p & 1 ? CYCLIC_2 : CYCLIC_1;
            profile->decline = p < 2 ? bit : 0;
            profile->online = p < 2 ? 0 : bit;
            for (unsigned j = 0; j < 2; j++) {
                profile->cyclic[j].switches = p < 2 ? 1 : switches;
                profile->cyclic[j].limit = p < 2 ? (i == 3 ? 15233 : MOST - 1)
                                                 : MOST;
            }
        }
        begin();
        for (uint8_t p = 4; p >= 3; p--) {
            start(p);
            first_in(TC, paid[i], foreign[i]);
            second(TC, Y3, ABSENT, 0);
            start(1);
            first(TC, 0);
            start(2);
            first(TC, 0);
        }
        start(3);
        first_in(ARQC, paid[i], foreign[i]);
        second(TC, OTHER, VERIFIED, 0x83);
        start(1);
        first(TC, 0);
        start(2);
        first(TC, 0);
        emit();
    }
}

/* A currency that cannot be converted, into one accumulator or the other. */
static void no_entry(void)
{
    for (unsigned which = 0; which < 2; which++)
        for (uint64_t value = LIMIT; value <= LIMIT + 1; value++) {
            fresh(FRIDAY, DAYS, FRI, DAYS, FRI);
            amounts(value, value);
            setup.cyclic[which].currency = USD;
            fourth_switches(7, 7);
            fourth->decline = CYCLIC_1;
            fourth->online = CYCLIC_2;
            begin();
            start(4);
            first(TC, 1);
            start(4);
            first_in(TC, 1, USD);
            start(4);
            first_in(TC, MOST, 0x0123);
            start(1);
            first(TC, 1);
            start(1);
            first_in(TC, 1, USD);
            emit();
        }
}

/* Each profile has its own limits, and they stand profile by profile. */
static void limits_by_profile(void)
{
    fresh(FRIDAY, DAYS, FRI, DAYS, FRI);
    for (unsigned i = 0; i < 4; i++)
        for (unsigned j = 0; j < 2; j++) {
            setup.profile[i].cyclic[j].switches = 5;
            setup.profile[i].cyclic[j].limit = 100 + 20 * i + 10 * j;
            setup.profile[i].decline = CYCLIC_1;
            setup.profile[i].online = CYCLIC_2;
        }
    begin();
    for (uint8_t p = 1; p <= 4; p++)
        for (uint64_t amount = 100; amount <= 180; amount += 10)
            for (uint64_t more = 0; more < 2; more++) {
                start(p);
                first(TC, amount + more);
            }
    emit();
    fresh(FRIDAY, DAYS, FRI, DAYS, FRI); /* and so do their switches */
    amounts(LIMIT, LIMIT);
    for (unsigned i = 0; i < 4; i++)
        for (unsigned j = 0; j < 2; j++) {
            setup.profile[i].cyclic[j].switches = i & (1u << j) ? 5 : 0;
            setup.profile[i].decline = CYCLIC_1;
            setup.profile[i].online = CYCLIC_2;
        }
    begin();
    for (uint8_t p = 1; p <= 4; p++) {
        start(p);
        first(TC, 1);
    }
    emit();
}

/* Growth up to MAX and no further, by approvals and by order. */
static void stopped(void)
{
    for (uint64_t below = 0; below < 3; below++) {
        fresh(FRIDAY, DAYS, FRI, MONTHS, FRI);
        amounts(MOST - below, MOST - below);
        for (unsigned i = 1; i < 3; i++) {
            setup.profile[i].cyclic[i - 1].switches = 1;
            setup.profile[i].cyclic[i - 1].limit = MOST - 1;
        }
        fourth_switches(3, 3);
        begin();
        for (unsigned i = 0; i < 3; i++) {
            start(4);
            first(i == 0 ? TC : ARQC, 1);
            second(TC, i == 1 ? Y3 : OTHER, i == 1 ? ABSENT : VERIFIED, 0x83);
            start(2);
            first(TC, 0);
            start(3);
            first(TC, 0);
        }
        emit();
    }
}

/* Bytes ------------------------------------------------------------------- */

/* The printed sitting in every version, with what it adds off. */
static void off(void)
{
    for (uint8_t version = 2; version <= 4; version++)
        for (uint8_t syllabus = 0; syllabus < 2; syllabus++) {
            draft_printed_setup(&setup);
            setup.version = version;
            setup.syllabus = syllabus;
            begin();
            start(1);
            first(TC, 5000);
            start(1);
            first(TC, 1);
            second(TC, Y3, ABSENT, 0);
            start(1);
            first(TC, 5000);
            second(TC, Y3, ABSENT, 0);
            emit();
        }
}

/* A First of every length, where it carries a date and where it does not. */
static void first_lengths(void)
{
    static const uint8_t body[20] = {1, 0, 0, 0, 0, 0, 0, 0, 1, 9, 0x78,
                                     ONLINE_TERMINAL, 0x05, 0x07, 0x15, 5};

    for (uint8_t version = 1; version <= 4; version++)
        for (unsigned dated = 0; dated <= (version == 4); dated++)
            for (size_t length = 10; length <= 18; length++) {
                draft_printed_setup(&setup);
                cyclic(FRIDAY, DAYS, FRI, WEEKS, MON);
                setup.version = version;
                setup.dated = (uint8_t)dated;
                begin();
                start(1);
                draft_record(draft, KIND_FIRST, body, length);
                start(1);
                emit();
            }
}

/* The tail cut after each byte, and longer by some; with other tails before it
 * and any number of profiles. */
static void tails(void)
{
    static const uint8_t switches[] = {0, 1, 2, 3, 0x80, 0xFF};
    uint8_t body[SETUP_ROOM + 64] = {0};

    for (unsigned profiles = 1; profiles <= 4; profiles++)
        for (unsigned selects = 0; selects < 2; selects++) {
            draft_printed_setup(&setup);
            profiles_alike(profiles);
            cyclic(FRIDAY, DAYS, FRI, WEEKS, MON);
            setup.syllabus = 1;
            if (selects)
                simple_entry(0x00, 0x00, 0, 1, 1);
            const size_t whole = draft_setup_body(&setup, body);
            const size_t begins = draft_setup_cycles(&setup);
            for (size_t length = begins; length <= whole + 19; length++) {
                if (profiles > 1 && length < whole - 20)
                    continue;
                draft_begin(draft);
                draft_record(draft, KIND_SETUP, body, length);
                draft->bytes[0] = 4;
                start(1);
                first(TC, 1);
                emit();
            }
            for (unsigned i = 0; i < sizeof switches; i++)
                for (unsigned bare = 0; bare < 2; bare++) {
                    body[begins] = switches[i];
                    draft_begin(draft);
                    draft_record(draft, KIND_SETUP, body,
                                 bare ? begins + 1 : whole);
                    draft->bytes[0] = 4;
                    start(1);
                    first(TC, 1);
                    emit();
                }
            memset(body, 0, sizeof body);
        }
}

/* The tail of version 04 in papers of versions 02 to 06; that of 03 in 04. */
static void other_versions(void)
{
    for (uint8_t dated = 0; dated < 2; dated++)
        for (uint8_t version = 2; version <= 6; version++) {
            draft_printed_setup(&setup);
            cyclic(FRIDAY, DAYS, FRI, WEEKS, MON);
            setup.dated = dated;
            begin();
            draft->bytes[0] = version;
            start(1);
            first(TC, 1);
            emit();
        }
    draft_printed_setup(&setup);
    setup.version = 3;
    begin();
    draft->bytes[0] = 4;
    start(1);
    emit();
}

/* Every kind and first day, in range and just out of it, both accumulators; a
 * first day is in range whatever the kind. */
static void kinds(void)
{
    for (uint8_t kind = 0; kind <= 4; kind++)
        for (uint8_t first_day = 0; first_day <= 8; first_day++)
            for (unsigned which = 0; which < 2; which++) {
                fresh(0x050709, WEEKS, MON, WEEKS, MON);
                amounts(400, 500);
                setup.cyclic[which].kind = kind;
                setup.cyclic[which].first_day = first_day;
                begin();
                see_amounts(0x050712, 0, 0);
                emit();
            }
}

/* Everything at its least and at its most; selection and date together. */
static void extremes(void)
{
    for (unsigned most = 0; most < 2; most++) {
        fresh(most ? LAST_DATE : FIRST_DATE, most ? MONTHS : DAYS,
              most ? THU : FRI, most ? MONTHS : DAYS, most ? THU : FRI);
        amounts(most ? MOST : 0, most ? MOST : 0);
        for (unsigned i = 0; i < 2; i++)
            setup.cyclic[i].currency = most ? 0x0999 : 0;
        for (unsigned i = 0; i < 4; i++)
            for (unsigned j = 0; j < 2; j++) {
                setup.profile[i].cyclic[j].switches = most ? 7 : 0;
                setup.profile[i].cyclic[j].limit = most ? MOST : 0;
            }
        simple_entry(0xFF, 0x02, 0, 2, 0x81);
        simple_entry(0xFF, 0x04, 0, 4, 1);
        begin();
        for (uint8_t p = 1; p <= 4; p++) {
            start(p);
            first_on(LAST_DATE, TC, most ? MOST : 0);
            start(p);
            first_on(FIRST_DATE, ARQC, most ? MOST : 0);
            second(TC, OTHER, VERIFIED, 0x83);
            start(p);
            first_on(FIRST_DATE, TC, 0);
        }
        emit();
    }
}

/* A paper that leaves a date, amounts, limits and an open error behind, then
 * one that is undated, and one that has its own. */
static void leftovers(void)
{
    for (unsigned version = 1; version <= 4; version++) {
        fresh(FRIDAY, DAYS, FRI, DAYS, FRI);
        amounts(LIMIT + 1, LIMIT + 1);
        profiles_alike(4);
        setup.profile[0].online = PAST_DATE;
        begin();
        start(1);
        first_on(day_before(FRIDAY), TC, 1);
        emit();

        draft_printed_setup(&setup);
        setup.version = (uint8_t)version;
        if (version == 4)
            setup.profile[0].decline = ALL_BITS_04;
        begin();
        second(TC, OTHER, VERIFIED, 0x83);
        start(1);
        first(TC, 1);
        start(1);
        first(ARQC, 1);
        second(TC, OTHER, VERIFIED, 0x83);
        start(1);
        first(ARQC, 1);
        second(TC, Y3, ABSENT, 0);
        emit();
    }
    fresh(MONDAY, MONTHS, FRI, WEEKS, SUN);
    begin();
    see(MONDAY, 0, 0);
}

void listed_cycles(void)
{
    sittings();
    annex_i();
    moments();
    begins_before_tests();
    refused_begin_nothing();
    last_date_moves();
    errors();
    masks();
    mask_bits();
    recoveries();
    recovered_or_not();
    others_go_on();
    for (unsigned variant = 0; variant < 5; variant++)
        limits(variant);
    for (uint8_t syllabus = 0; syllabus < 2; syllabus++) {
        over(syllabus, 7, 0);
        over(syllabus, 3, 0);
        over(syllabus, 5, 0);
        over(syllabus, 7, 1);
    }
    no_entry();
    limits_by_profile();
    stopped();
    off();
    first_lengths();
    tails();
    other_versions();
    kinds();
    extremes();
    leftovers();
}
