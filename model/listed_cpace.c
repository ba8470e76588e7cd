/* CPACE cards: what closes a slot and what that changes, cashback, the
 * interface, and the bytes. */
#include <string.h>

#include "bytes.h"
#include "examples.h"
#include "listed.h"
#include "script.h"

enum { ALL_CLOSED = FOR_NOTHING | FOR_SIGNATURE | FOR_PIN | FOR_OFFLINE_PIN };
enum { SLOTS = 8, FRIDAY = 0x050715 };

/* The three CVMs there are, as a terminal says them, and the bits they ask. */
static const uint32_t method[] = {BY_NOTHING, BY_SIGNATURE, BY_PIN};
static const uint8_t bit_of[] = {FOR_NOTHING, FOR_SIGNATURE, FOR_PIN};

/* The bits of a slot, accumulators 0 to 3, counters 4 to 7: its lower limit;
 * the upper one is four higher. */
static uint32_t lower_bit(unsigned slot)
{
    return UINT32_C(1) << (slot < 4 ? 6 + slot : 10 + slot);
}

/* Four profiles, each with all slots; profile p sends accumulator p, counter p
 * and the next one. Nothing declines and nothing goes online. */
static void fresh(uint8_t switches, uint64_t lower, uint64_t upper)
{
    draft_printed_setup(&setup);
    profiles_blank(4);
    cpace();
    for (unsigned p = 0; p < 4; p++) {
        struct draft_profile *profile = &setup.profile[p];
        setup.accumulator[p].currency = EUR;
        for (unsigned i = 0; i < 4; i++) {
            profile->accumulator[i].switches = switches & 7;
            profile->accumulator[i].lower = lower;
            profile->accumulator[i].upper = upper;
            profile->counter[i].switches = switches;
            profile->counter[i].lower = (uint8_t)lower;
            profile->counter[i].upper = (uint8_t)upper;
        }
        profile->accumulator_sent = (uint8_t)(p + 1);
        profile->counter_sent[0] = (uint8_t)(p + 1);
        profile->counter_sent[1] = (uint8_t)((p + 1) % 4 + 1);
    }
}

/* All slots from these values on. */
static void values(uint64_t amount, uint8_t count)
{
    for (unsigned i = 0; i < 4; i++) {
        setup.accumulator[i].value = amount + i;
        setup.counter[i] = (uint8_t)(count + i);
    }
}

static void controls(uint8_t control)
{
    memset(setup.control, control, sizeof setup.control);
}

/* By each profile's IAD, changing nothing where declines are not counted. */
static void see_slots(void)
{
    for (uint8_t p = 1; p <= 4; p++) {
        start(p);
        first(AAC, 0);
    }
}

static void pay(uint8_t profile, uint32_t results, uint8_t type,
                uint64_t amount)
{
    cvm = results;
    start(profile);
    first(type, amount);
}

/* The sittings of examples/, and document 01's as a CPACE card has it: with
 * controls that close nothing it is the CPA card's, whatever the CVM. */
static void sittings(void)
{
    static const uint32_t results[] = {BY_NOTHING, BY_SIGNATURE, BY_PIN,
                                       0x010302, 0xFFFFFF};

    cpace_sitting();
    emit();
    interface_selection();
    emit();
    for (unsigned i = 0; i < sizeof results / sizeof *results; i++) {
        draft_printed_setup(&setup);
        cpace();
        begin();
        interface = i & 1;
        cashback = i;
        pay(1, results[i], TC, 5000);
        pay(1, results[i], TC, 1);
        second(TC, Y3, ABSENT, 0);
        pay(1, results[i], TC, 5000);
        second(TC, Y3, ABSENT, 0);
        emit();
    }
    for (unsigned i = 0; i < 4; i++) { /* and the CPA card of version 05 */
        draft_printed_setup(&setup);
        setup.version = 5;
        setup.syllabus = i & 1;
        if (i > 1)
            cyclic(FRIDAY, DAYS, FRI, MONTHS, FRI);
        setup.version = 5;
        setup.control[0] = ALL_CLOSED; /* not written */
        begin();
        start(1);
        first(TC, 5000);
        start(1);
        first(TC, 1);
        second(TC, Y3, ABSENT, 0);
        start(1);
        first(TC, 5000);
        second(TC, Y3, ABSENT, 0);
        emit();
    }
}

/* The gate ---------------------------------------------------------------- */

/* Every control in all slots, each CVM: an approval at First, one after Y3, and
 * every order, approved or not. */
static void every_control(void)
{
    for (uint8_t control = 0; control <= 15; control++) {
        fresh(7, 20, 40);
        values(10, 10);
        controls(control);
        begin();
        for (unsigned i = 0; i < 4; i++) {
            const uint32_t by = i < 3 ? method[i] : BY_PIN + 2;
            pay(1, by, TC, 11);
            see_slots();
            pay(2, by, ARQC, 11);
            second(TC, i & 1 ? Y3 : Z3, ABSENT, 0);
            pay(3, by, ARQC, 11);
            second(TC, OTHER, VERIFIED, 0x83);
            pay(4, by, ARQC, 11);
            second(TC, OTHER, VERIFIED, 0x03);
            pay(1, by, ARQC, 11);
            second(AAC, OTHER, VERIFIED, 0x83);
            see_slots();
            pay(2, by, ARQC, 11);
            second(AAC, OTHER, VERIFIED, 0x01);
            see_slots();
            pay(3, by, ARQC, 11);
            second(TC, OTHER, VERIFIED, 0x82);
            see_slots();
        }
        emit();
    }
}

/* One slot alone is closed, to one CVM alone. Profile 1 declines by its lower
 * limit, profile 2 by its upper one, profile 3 by nothing. First its value is
 * at the limits, then above them: then it declines though it is closed. */
static void one_slot(unsigned slot, unsigned which)
{
    fresh(7, 10, 10);
    for (unsigned i = 0; i < 4; i++) {
        setup.accumulator[i].value = 10;
        setup.counter[i] = 10;
    }
    setup.control[slot] = bit_of[which];
    setup.profile[0].decline = lower_bit(slot);
    setup.profile[1].decline = lower_bit(slot) << 4;
    for (unsigned p = 0; p < 4; p++) {
        setup.profile[p].accumulator_sent = (uint8_t)(1 + slot % 4);
        setup.profile[p].counter_sent[0] = (uint8_t)(1 + slot % 4);
        setup.profile[p].counter_sent[1] = (uint8_t)(1 + (slot + 1) % 4);
    }
    begin();
    for (unsigned i = 0; i < 5; i++) { /* the closed one, the others, again */
        const uint32_t by = method[(which + i) % 3];
        for (uint8_t p = 1; p <= 3; p++)
            pay(p, by, TC, 1);
        pay(4, by, ARQC, 1);
        second(TC, Y3, ABSENT, 0);
    }
    emit();
}

static void slot_by_slot(void)
{
    for (unsigned slot = 0; slot < SLOTS; slot++)
        for (unsigned which = 0; which < 3; which++)
            one_slot(slot, which);
}

/* All switches, closed and open: tests, approvals, orders and declines. */
static void all_switches(void)
{
    for (uint8_t switches = 0; switches < 16; switches++) {
        fresh(switches, 12, 14);
        values(10, 10);
        controls(FOR_PIN);
        begin();
        for (unsigned i = 0; i < 2; i++) {
            const uint32_t by = i == 0 ? BY_PIN : BY_SIGNATURE;
            pay(1, by, TC, 5);
            pay(2, by, AAC, 5);
            pay(3, by, ARQC, 5);
            second(TC, Y3, ABSENT, 0);
            pay(4, by, ARQC, 5);
            second(AAC, Z3, ABSENT, 0);
            pay(1, by, ARQC, 5);
            second(TC, OTHER, VERIFIED, 0x83);
            see_slots();
            for (unsigned order = 1; order < 3; order++) {
                pay(2, by, ARQC, 5);
                second(TC, OTHER, VERIFIED, 0x80 | order);
                see_slots();
            }
        }
        emit();
    }
}

/* An amount that is over, and one that no entry converts: closed, neither is in
 * a test, and nothing is stored. */
static void closed_over(void)
{
    for (unsigned open = 0; open < 2; open++)
        for (unsigned upper = 0; upper < 2; upper++) {
            fresh(7, MOST, MOST);
            controls(open ? FOR_PIN : FOR_NOTHING);
            setup.conversions = 1;
            rate(0, USD, 1000, 12);
            for (unsigned p = 0; p < 4; p++)
                setup.profile[p].decline = lower_bit(p) << 4 * upper;
            begin();
            for (uint8_t p = 1; p <= 4; p++) {
                cvm = BY_NOTHING;
                start(p);
                first_in(TC, MOST, USD);
                start(p);
                first_in(TC, MOST, 0x0123);
                start(p);
                first_in(ARQC, MOST, USD);
                second(TC, OTHER, VERIFIED, 0x83);
            }
            cvm = BY_PIN;
            see_slots();
            emit();
        }
}

/* Declines are counted though every slot is closed: at First for each reason,
 * and after Y3 and Z3; not after going online. */
static void closed_declines(void)
{
    static const uint8_t some[] = {3, 9, 11, 15};

    for (unsigned i = 0; i < 2 * sizeof some; i++) {
        fresh(some[i / 2], 255, 255);
        values(0, i & 1 ? 251 : 0);
        controls(ALL_CLOSED);
        for (unsigned p = 0; p < 4; p++) {
            setup.profile[p].mta_on = 1;
            setup.profile[p].mta_currency = EUR;
        }
        setup.profile[0].decline = MTA_EXCEEDED;
        setup.profile[1].by_default = MTA_EXCEEDED;
        begin();
        for (unsigned j = 0; j < 3; j++) {
            pay(1, method[j], TC, 1);
            cvm = method[j];
            start(2);
            first_offline(TC, 1);
            pay(2, method[j], ARQC, 1);
            second(TC, Y3, ABSENT, 0);
            pay(3, method[j], AAC, 0);
            pay(4, method[j], ARQC, 0);
            second(AAC, Z3, ABSENT, 0);
            pay(3, method[j], ARQC, 0);
            second(AAC, OTHER, VERIFIED, 0);
            pay(4, method[j], TC, 0);
        }
        emit();
    }
}

/* Orders 01 and 10 move what is closed; order 11 does not, approved or not. */
static void closed_orders(void)
{
    for (unsigned order = 0; order < 4; order++)
        for (unsigned i = 0; i < 2; i++) {
            fresh(3, 50, 60);
            values(10, 10);
            controls(i ? FOR_PIN | FOR_SIGNATURE : FOR_NOTHING);
            setup.profile[0].accumulator[1].switches = 2;
            setup.profile[0].counter[1].switches = 2;
            begin();
            for (unsigned j = 0; j < 3; j++) {
                for (unsigned status = 0; status <= 0x80; status += 0x80) {
                    pay(1, method[j], ARQC, 7);
                    second(TC, OTHER, VERIFIED, status | order);
                    see_slots();
                    pay(2, method[j], ARQC, 7);
                    second(AAC, OTHER, VERIFIED, status | order);
                    see_slots();
                }
                pay(3, method[j], TC, 1);
            }
            emit();
        }
}

/* The MTA is tested though every slot is closed. */
static void closed_mta(void)
{
    fresh(7, 100, 100);
    controls(ALL_CLOSED);
    for (unsigned p = 0; p < 4; p++) {
        setup.profile[p].mta_on = p < 3;
        setup.profile[p].mta_currency = EUR;
        setup.profile[p].mta = 50;
    }
    setup.profile[0].decline = MTA_EXCEEDED;
    setup.profile[1].online = MTA_EXCEEDED;
    setup.profile[2].by_default = MTA_EXCEEDED;
    begin();
    for (unsigned i = 0; i < 3; i++)
        for (uint64_t amount = 50; amount <= 51; amount++) {
            for (uint8_t p = 1; p <= 4; p++)
                pay(p, method[i], TC, amount);
            pay(3, method[i], ARQC, amount);
            second(TC, Y3, ABSENT, 0);
        }
    see_slots();
    emit();
}

/* Cyclic accumulators have no control: they are tested, grow and are ordered
 * though every slot is closed. In a date error they stand still, and slots that
 * are open go on. */
static void closed_cycles(void)
{
    for (unsigned i = 0; i < 6; i++) {
        fresh(7, 500, 600);
        cyclic(FRIDAY, DAYS, FRI, MONTHS, FRI);
        setup.version = 5;
        controls(i & 1 ? FOR_PIN : ALL_CLOSED);
        for (unsigned p = 0; p < 4; p++)
            for (unsigned j = 0; j < 2; j++) {
                setup.profile[p].cyclic[j].switches = 7;
                setup.profile[p].cyclic[j].limit = 100 + 100 * j;
            }
        setup.profile[0].decline = CYCLIC_1;
        setup.profile[1].decline = CYCLIC_2;
        setup.profile[2].online = CYCLIC_1 | CYCLIC_2 | PAST_DATE;
        setup.profile[2].cashback = 1;
        begin();
        today = i > 3 ? 0x050714 : FRIDAY;
        for (unsigned j = 0; j < 2; j++) {
            const uint32_t by = j == 0 ? BY_PIN : BY_NOTHING;
            cashback = i & 2 ? 0 : 0x010000000000;
            pay(1, by, TC, 60);
            pay(1, by, TC, 60);
            pay(2, by, TC, 60);
            pay(3, by, TC, 60);
            second(TC, Y3, ABSENT, 0);
            for (unsigned order = 1; order < 4; order++) {
                pay(4, by, ARQC, 30);
                second(order == 2 ? TC : AAC, OTHER, VERIFIED, 0x80 | order);
                pay(1, by, TC, 71);
                pay(2, by, TC, 100);
            }
        }
        emit();
    }
}

/* Which CVM it is ---------------------------------------------------------- */

/* Three bytes, and the CVM that they are: as accumulator 1 is closed to no CVM,
 * 2 to signature, 3 to online PIN and 4 to offline PIN, and the counters to all
 * but these, each shows in what it adds. */
static void results(const uint32_t *bytes, unsigned count)
{
    fresh(3, MOST, MOST);
    for (unsigned i = 0; i < 4; i++) {
        setup.control[i] = (uint8_t)(1 << i);
        setup.control[4 + i] = (uint8_t)(15 & ~(1 << i));
    }
    begin();
    for (unsigned i = 0; i < count; i++) {
        pay(1 + i % 4, bytes[i], TC, 1);
        if (i % 4 == 3)
            see_slots();
    }
    see_slots();
    emit();
}

/* Three bytes against one control in all slots. */
static void results_alone(uint32_t bytes)
{
    for (uint8_t bit = 1; bit <= 8; bit <<= 1) {
        fresh(7, 0, 5);
        controls(bit);
        begin();
        pay(1, bytes, TC, 1);
        pay(1, bytes, ARQC, 1);
        second(TC, Y3, ABSENT, 0);
        pay(1, bytes, ARQC, 1);
        second(AAC, OTHER, VERIFIED, 0x03);
        emit();
    }
}

static void every_method(void)
{
    static const uint32_t some[] = {
        0x020000, 0x420300, 0xC20300, 0x1E0300, 0xDE0000, 0x1F0300,
        0x420302, 0x1E0001, 0x010302, 0x220000, 0x3E0000, 0x000000};
    static const uint8_t third[] = {0x00, 0x01, 0x02, 0x80, 0xFF};
    uint32_t many[256];

    results(some, sizeof some / sizeof *some);
    for (unsigned i = 0; i < sizeof some / sizeof *some; i++)
        results_alone(some[i]);
    for (unsigned i = 0; i < sizeof third; i++) { /* every first byte */
        for (uint32_t byte = 0; byte < 256; byte++)
            many[byte] = byte << 16 | third[i];
        results(many, 256);
    }
    for (uint32_t byte = 0; byte < 256; byte++) /* every second byte */
        many[byte] = (byte & 1 ? 0x020000u : 0x1E0000u) | byte << 8;
    results(many, 256);
    for (uint32_t byte = 0; byte < 256; byte++) /* every third byte */
        many[byte] = (byte & 1 ? 0x1E0000u : 0x020000u) | byte;
    results(many, 256);
}

/* Cashback ----------------------------------------------------------------- */

static const uint64_t cashbacks[] = {
    0x000000000000, 0x000000000001, 0x000000000100, 0x000000010000,
    0x000001000000, 0x000100000000, 0x010000000000, 0x800000000000,
    0x00000000000A, 0xF00000000000, 0xFFFFFFFFFFFF, 0x00000000000F,
    0x000000000010, 0x000080000000, 0x100000000000, 0x000000000000};

enum { CASHBACKS = sizeof cashbacks / sizeof *cashbacks };

/* Bit 25 against each mask; profile 4 has it in all, and no check. */
static void cashback_masks(void)
{
    for (unsigned i = 0; i < CASHBACKS; i++) {
        fresh(0, 0, 0);
        for (unsigned p = 0; p < 4; p++)
            setup.profile[p].cashback = p < 3;
        setup.profile[0].decline = WITH_CASHBACK;
        setup.profile[1].online = WITH_CASHBACK;
        setup.profile[2].by_default = WITH_CASHBACK;
        setup.profile[3].decline = WITH_CASHBACK;
        setup.profile[3].online = WITH_CASHBACK;
        setup.profile[3].by_default = WITH_CASHBACK;
        begin();
        cashback = cashbacks[i];
        for (uint8_t p = 1; p <= 4; p++)
            for (uint8_t type = AAC; type <= ARQC; type++) {
                start(p);
                first(type, 1);
                start(p);
                first_offline(type, 1);
                second(TC, p & 1 ? Y3 : Z3, ABSENT, 0);
            }
        emit();
    }
}

/* Each profile has its own switch, by its place and not by its number; every
 * other bit in the masks is not this one. */
static void cashback_by_profile(void)
{
    for (unsigned which = 0; which < 4; which++)
        for (unsigned turned = 0; turned < 2; turned++) {
            fresh(0, 0, 0);
            for (unsigned p = 0; p < 4; p++) {
                setup.profile[p].number = (uint8_t)(turned ? 4 - p : 1 + p);
                setup.profile[p].cashback = p == which;
                setup.profile[p].decline = WITH_CASHBACK;
            }
            begin();
            cashback = 1;
            for (uint8_t p = 1; p <= 4; p++) {
                start(p);
                first(TC, 1);
            }
            emit();
        }
    for (unsigned turned = 0; turned < 2; turned++) {
        fresh(0, 0, 0);
        for (unsigned p = 0; p < 4; p++) {
            const uint32_t mask = turned ? WITH_CASHBACK
                                         : ALL_BITS_05 & ~WITH_CASHBACK;
            setup.profile[p].cashback = 1;
            setup.profile[p].decline = p == 0 ? mask : 0;
            setup.profile[p].online = p == 1 ? mask : 0;
            setup.profile[p].by_default = p == 2 ? mask & ~(uint32_t)UNABLE : 0;
        }
        begin();
        for (unsigned i = 0; i < 2; i++)
            for (uint8_t p = 1; p <= 4; p++) {
                cashback = i == 0;
                start(p);
                first(TC, 0);
                second(TC, OTHER, VERIFIED, 0x80);
                start(p);
                first_offline(TC, 0);
                start(p);
                first(ARQC, 0);
                second(TC, Y3, ABSENT, 0);
                start(4);
                first(ARQC, 0);
                second(TC, OTHER, VERIFIED, 0x80);
            }
        emit();
    }
}

/* A transaction's cashback and CVM are gone with it: the next one has its own,
 * and a refused First brings none. */
static void not_kept(void)
{
    fresh(7, 50, 60);
    controls(FOR_PIN);
    for (unsigned p = 0; p < 4; p++) {
        setup.profile[p].cashback = p < 2;
        setup.profile[p].decline = WITH_CASHBACK;
    }
    begin();
    cashback = 1;
    pay(1, BY_PIN, TC, 1);
    pay(3, BY_PIN, TC, 1);
    cashback = 0;
    pay(1, BY_NOTHING, TC, 1);
    pay(1, BY_PIN, ARQC, 1);
    cashback = 1;
    pay(2, BY_NOTHING, ARQC, 1); /* dropped, and declined */
    pay(4, BY_PIN, ARQC, 1);
    first(TC, 1);
    start(2);
    first(3, 1);
    first(TC, MOST + 1);
    first_in(TC, 1, 0x0A78);
    cashback = 0;
    cvm = BY_NOTHING;
    first(TC, 1);
    cvm = BY_PIN;
    first(TC, 1);
    pay(3, BY_NOTHING, ARQC, 1);
    cvm = BY_PIN;
    first(TC, 1);
    second(TC, Y3, ABSENT, 0);
    see_slots();
    emit();
}

/* The interface ------------------------------------------------------------ */

/* Before the profile, and refused before anything else, in each state; where
 * the ATC is at its end and where it is not. */
static void interfaces(void)
{
    static const uint8_t bytes[] = {0, 1, 2, 3, 4, 0x7F, 0x80, 0xFF};

    for (unsigned full = 0; full < 2; full++)
        for (unsigned state = 0; state < 3; state++) {
            fresh(7, 50, 60);
            setup.atc = full ? 65534 : 0;
            begin();
            interface = CONTACT;
            if (state > 0)
                start(1);
            if (state > 1)
                first(ARQC, 1);
            for (unsigned i = 2; i < sizeof bytes; i++)
                for (uint8_t p = 0; p < 6; p++) {
                    interface = bytes[i];
                    start(p);
                }
            first(TC, 1);
            second(TC, OTHER, VERIFIED, 0x83);
            for (unsigned i = 0; i < sizeof bytes; i++)
                for (uint8_t p = 0; p < 6; p++) {
                    interface = bytes[i];
                    start(p);
                    first(TC, 1);
                }
            emit();
        }
    fresh(0, 0, 0); /* every byte, before profile 2 */
    begin();
    for (unsigned byte = 0; byte < 256; byte++) {
        interface = (uint8_t)byte;
        start(2);
    }
    first(TC, 1);
    emit();
}

/* The interface has no effect on what the card decides, nor is it kept. */
static void interface_alone(void)
{
    fresh(7, 5, 9);
    controls(FOR_PIN);
    setup.profile[0].cashback = 1;
    setup.profile[0].decline = WITH_CASHBACK;
    setup.profile[1].online = LOWER_1;
    begin();
    for (unsigned i = 0; i < 8; i++) {
        interface = i & 1;
        cashback = i & 2;
        pay(1, i & 4 ? BY_PIN : BY_NOTHING, TC, 1);
        pay(2, i & 4 ? BY_PIN : BY_NOTHING, TC, 1);
        second(TC, OTHER, VERIFIED, 0x80);
    }
    emit();
}

/* Selection reads it as its first byte; the terminal's data follow. */
static void selected(void)
{
    static const struct {
        size_t length;
        uint8_t at[4];
    } datas[] = {{1, {0}},       {1, {1}},       {1, {2}},
                 {2, {0, 1}},    {2, {1, 0}},    {2, {0, 2}},
                 {2, {2, 0}},    {3, {1, 2, 3}}, {3, {0, 1, 1}},
                 {4, {1, 1, 2, 1}}, {2, {0xFF, 1}}, {4, {3, 0, 1, 2}}};

    for (uint8_t position = 1; position <= 3; position++)
        for (unsigned full = 0; full < 2; full++) {
            const uint8_t entries[][8] = {
                {position, 1, 2, 0xFF, 0x01, 0, 2, 0x81},
                {position, 1, 2, 0xFF, 0x02, 0, 3, 1}};
            fresh(3, 50, 60);
            setup.atc = full ? 65535 : 0;
            for (unsigned i = 0; i < 2; i++)
                draft_entry(&setup.file, entries[i], 8);
            begin();
            for (unsigned i = 0; i < sizeof datas / sizeof *datas; i++) {
                draft_data(draft, datas[i].at, datas[i].length);
                first(TC, 1);
            }
            emit();
        }
    for (unsigned i = 0; i < 3; i++) { /* 6 before 12, 3 and 4 */
        static const uint8_t action[] = {0x7F, 9, 1};
        fresh(3, 50, 60);
        setup.atc = i == 2 ? 65535 : 0;
        simple_entry(0x00, 0x00, 0, action[i], action[i]);
        begin();
        for (uint8_t by = 0; by < 4; by++) {
            draft_data(draft, &by, 1);
            first(TC, 1);
        }
        emit();
    }
    fresh(3, 50, 60); /* an empty file */
    setup.file.on = 1;
    begin();
    for (uint8_t by = 0; by < 4; by++) {
        draft_data(draft, &by, 1);
        first(TC, 1);
    }
    draft_data(draft, NULL, 0);
    emit();
}

/* Bytes -------------------------------------------------------------------- */

enum { SHAPES = 8 };

/* A set-up of version 05: CPA or CPACE, dated or not, with a file or without;
 * the file finds profile 1 whatever the data. */
static void shaped(unsigned shape, unsigned profiles)
{
    draft_printed_setup(&setup);
    profiles_alike(profiles);
    if (shape & 2)
        cyclic(FRIDAY, DAYS, FRI, WEEKS, MON);
    if (shape & 4)
        cpace();
    setup.version = 5;
    if (shape & 1)
        draft_entry(&setup.file, /* counter 1 of a CPACE card, or byte 1 */
                    shape & 4 ? (const uint8_t[]){0, 1, 1, 255, 0x91, 1, 1}
                              : (const uint8_t[]){1, 1, 2, 0, 0, 0, 1, 1},
                    shape & 4 ? 7 : 8);
}

/* Starts of every length, and Firsts. */
static void lengths(void)
{
    static const uint8_t start_body[] = {0, 1, 0, 1};
    static const uint8_t first_body[27] = {1, 0, 0, 0, 0, 0, 0, 0, 1, 9, 0x78,
                                           ONLINE_TERMINAL, 0x05, 0x07, 0x15};

    for (unsigned shape = 0; shape < SHAPES; shape++) {
        for (size_t length = 0; length <= 4; length++) {
            shaped(shape, 1);
            begin();
            draft_record(draft, KIND_START,
                         start_body + !(shape & 4 || length != 1), length);
            first(TC, 1);
            start(1);
            emit();
        }
        for (size_t length = 9; length <= 27; length++) {
            if (shape & 1 && length != 12 && length != 15 && length < 20)
                continue;
            shaped(shape, 1);
            begin();
            start(1);
            draft_record(draft, KIND_FIRST, first_body, length);
            start(1);
            emit();
        }
    }
    for (uint8_t version = 1; version <= 4; version++)
        for (unsigned dated = 0; dated <= (version == 4); dated++)
            for (size_t length = 21; length <= 24; length += 3) {
                shaped(dated ? 2 : 0, 1);
                setup.version = version;
                begin();
                start(1);
                draft_record(draft, KIND_FIRST, first_body, length);
                emit();
                begin();
                draft_record(draft, KIND_START, start_body, 2);
                emit();
            }
}

/* So many bytes of the body, as a paper of this version. */
static void cut_at(const uint8_t *body, size_t length, uint8_t version)
{
    draft_begin(draft);
    draft_record(draft, KIND_SETUP, body, length);
    draft->bytes[0] = version;
    start(1);
    first(TC, 1);
    emit();
}

/* The tail cut after each byte, and longer by some; with the others before it,
 * and any number of profiles. */
static void tails(void)
{
    uint8_t body[SETUP_ROOM + 64] = {0};

    for (unsigned profiles = 1; profiles <= 4; profiles++)
        for (unsigned shape = 0; shape < SHAPES; shape++) {
            shaped(shape, profiles);
            if (profiles > 1 && shape % 3 != profiles % 3)
                continue;
            memset(body, 0, sizeof body);
            const size_t whole = draft_setup_body(&setup, body);
            const size_t begins = draft_setup_family(&setup);
            for (size_t length = begins; length <= whole + 10; length++)
                if (profiles == 1 || (length + 2 > whole && length < whole + 3))
                    cut_at(body, length, 5);
            cut_at(body, whole, 4); /* with a tail that it has not */
            cut_at(body, whole, 6);
        }
}

/* Every family byte, with the rest of the tail and without. */
static void families(void)
{
    static const uint8_t family[] = {0, 1, 2, 3, 4, 0x10, 0x80, 0xFF};
    uint8_t body[SETUP_ROOM] = {0};

    for (unsigned shape = 4; shape < SHAPES; shape += 3)
        for (unsigned i = 0; i < sizeof family; i++) {
            shaped(shape, 2);
            const size_t whole = draft_setup_body(&setup, body);
            const size_t begins = draft_setup_family(&setup);
            body[begins] = family[i];
            cut_at(body, whole, 5);
            cut_at(body, begins + 1, 5);
        }
}

/* Each control and each switch, at its ends and out of them. */
static void ranges(void)
{
    static const uint8_t controls_at[] = {15, 16, 0x80, 255};
    static const uint8_t switch_at[] = {0, 1, 2, 255};

    for (unsigned i = 0; i < SLOTS + 4; i++)
        for (unsigned j = 0; j < 4; j++) {
            shaped(i & 1 ? 4 : 6, 4);
            if (i < SLOTS)
                setup.control[i] = controls_at[j];
            else
                setup.profile[i - SLOTS].cashback = switch_at[j];
            begin();
            start(1);
            first(TC, 1);
            start(4);
            cvm = BY_PIN;
            first(TC, 1);
            emit();
        }
}

/* Bits 25 and 26 in every version, and the bits of version 04 in 05. */
static void mask_bits(void)
{
    static const uint8_t bits[] = {21, 22, 24, 25, 26, 27, 31};

    for (uint8_t version = 1; version <= 5; version++)
        for (unsigned shape = 0; shape < SHAPES; shape += 2)
            for (unsigned i = 0; i < sizeof bits; i++) {
                const uint32_t mask = UINT32_C(1) << bits[i];
                if ((version < 5 && shape > 2) || (version < 4 && shape > 0))
                    continue;
                shaped(shape, 1);
                setup.version = version;
                setup.profile[0].online = (i + shape / 2) % 3 == 0 ? mask : 0;
                setup.profile[0].decline = (i + shape / 2) % 3 == 1 ? mask : 0;
                setup.profile[0].by_default =
                    (i + shape / 2) % 3 == 2 ? mask : 0;
                setup.profile[0].cashback = 1;
                begin();
                cashback = 1;
                start(1);
                first(TC, 1);
                emit();
            }
    for (unsigned which = 0; which < 3; which++)
        for (uint32_t more = 0; more < 2; more++) {
            shaped(4, 1);
            uint32_t *const mask[] = {&setup.profile[0].online,
                                      &setup.profile[0].decline,
                                      &setup.profile[0].by_default};
            *mask[which] = ALL_BITS_05 + more;
            begin();
            start(1);
            first(TC, 1);
            emit();
        }
}

/* Everything at its least and at its most. */
static void extremes(void)
{
    for (unsigned most = 0; most < 2; most++)
        for (unsigned shape = 4; shape < SHAPES; shape++) {
            shaped(shape, most ? 4 : 1);
            controls(most ? 15 : 0);
            for (unsigned p = 0; p < setup.profiles; p++) {
                setup.profile[p].cashback = (uint8_t)most;
                setup.profile[p].online = most ? ALL_BITS_05 : 0;
            }
            begin();
            interface = (uint8_t)most;
            cashback = most ? 0xFFFFFFFFFFFF : 0;
            cvm = most ? 0xFFFFFF : 0;
            start(1);
            first(TC, most ? MOST : 0);
            second(TC, Y3, ABSENT, 0);
            cvm = BY_PIN;
            start(1);
            first(ARQC, most ? MOST : 0);
            second(TC, OTHER, VERIFIED, 0x83);
            emit();
        }
}

/* A paper that leaves controls, switches, a CVM and cashback behind, then one
 * that must know nothing of them. */
static void leftovers(void)
{
    for (uint8_t version = 1; version <= 5; version++) {
        fresh(7, 5, 9);
        controls(ALL_CLOSED);
        for (unsigned p = 0; p < 4; p++) {
            setup.profile[p].cashback = 1;
            setup.profile[p].online = WITH_CASHBACK;
        }
        begin();
        cashback = 1;
        pay(1, BY_PIN, TC, 1);
        emit();

        draft_printed_setup(&setup);
        setup.version = version;
        if (version > 3)
            setup.profile[0].decline |=
                version > 4 ? WITH_CASHBACK : CYCLIC_1 | PAST_DATE;
        begin();
        second(TC, Y3, ABSENT, 0);
        start(1);
        first(TC, 1);
        start(1);
        first(TC, 5000);
        second(TC, OTHER, VERIFIED, 0x83);
        start(1);
        first(ARQC, 1);
        second(TC, Y3, ABSENT, 0);
        emit();
    }
    fresh(7, 5, 9); /* open controls, no check */
    begin();
    cashback = 1;
    pay(1, BY_PIN, TC, 1);
    pay(1, BY_NOTHING, TC, 5);
    see_slots();
    emit();
}

/* Entries that test a slot ------------------------------------------------- */

struct bytes {
    size_t length;
    uint8_t at[24];
};

/* The last three bytes of an entry are its check type and its actions. */
static void typed(const struct bytes *bytes, uint8_t type, uint8_t positive,
                  uint8_t negative)
{
    struct bytes changed = *bytes;

    changed.at[changed.length - 3] = type;
    changed.at[changed.length - 2] = positive;
    changed.at[changed.length - 1] = negative;
    draft_entry(&setup.file, changed.at, changed.length);
}

static void entry(const struct bytes *bytes)
{
    draft_entry(&setup.file, bytes->at, bytes->length);
}

/* A card whose slots have these values; which entry is visited is said by byte
 * 2 of the data, behind the interface, and the amount stands from byte 3 on. */
static void slots(void)
{
    static const uint64_t amounts[] = {1000, 2000, 3000, 4000};
    static const uint8_t counts[] = {10, 20, 30, 40};

    fresh(0, 0, 0);
    for (unsigned i = 0; i < 4; i++) {
        setup.accumulator[i].value = amounts[i];
        setup.counter[i] = counts[i];
    }
    setup.file.on = 1;
}

/* The next entry is visited if byte 2 says so, else the one behind it. */
static void if_asked(uint8_t number)
{
    entry(&(const struct bytes){
        8, {2, 1, 2, 0xFF, number, 0, 0x81, 0x82}});
}

static void otherwise(uint8_t action)
{
    entry(&(const struct bytes){8, {1, 1, 2, 0x00, 0x00, 0, action, action}});
}

/* Asks for an entry; the amount has this last byte. */
static void ask(uint8_t number, uint8_t cents)
{
    const uint8_t data[] = {number & 1, number, 0, 0, 0, 0, 0, cents};

    draft_data(draft, data, sizeof data);
    first(TC, 0);
}

/* An entry for a block, which for a counter is its last byte. */
static void slot_entry(unsigned slot, uint64_t block, uint8_t bits)
{
    static const uint8_t names[] = {1, 2, 3, 0, 1, 2, 3, 0};
    const uint8_t type =
        (uint8_t)(0x80 | (slot < 4 ? 0x40 : 0) | names[slot] << 4 | bits);

    if (slot < 4) {
        struct bytes bytes = {12, {3, 6, 1}};
        for (unsigned i = 0; i < 6; i++) {
            bytes.at[8 - i] = (uint8_t)(block % 10 | block / 10 % 10 << 4);
            block /= 100;
        }
        typed(&bytes, type, 2, 1);
    } else {
        typed(&(const struct bytes){7, {0, 1, 1, (uint8_t)block}}, type, 2, 1);
    }
}

/* Each slot against blocks all around its value, with this transaction and
 * without, greater and less; b4 and b3 are not looked at. */
static void slot_values(uint8_t unasked)
{
    for (unsigned slot = 0; slot < SLOTS; slot++) {
        if (slot == 3) /* which has no name */
            continue;
        slots();
        const uint64_t value = slot < 4 ? setup.accumulator[slot].value
                                        : setup.counter[slot - 4];
        for (uint8_t i = 0; i < 32; i++) {
            if_asked(i);
            slot_entry(slot, value + i / 4 - 2, (uint8_t)(unasked | (i & 3)));
        }
        otherwise(3);
        begin();
        for (uint8_t i = 0; i <= 32; i++)
            ask(i, 0x03);
        emit();
    }
}

/* Sums stop at MAX and at 255: then they are not greater than that. */
static void slot_sums(void)
{
    for (uint64_t less = 0; less < 3; less++) {
        slots();
        for (unsigned i = 0; i < 4; i++) {
            setup.accumulator[i].value = MOST - less;
            setup.counter[i] = (uint8_t)(255 - less);
        }
        uint8_t number = 0;
        for (unsigned slot = 0; slot < SLOTS; slot++)
            for (uint8_t bits = 0; bits < 4; bits++)
                for (uint64_t under = 0; under < 3; under++) {
                    const uint64_t most = slot < 4 ? MOST : 255;
                    if (slot == 3)
                        continue;
                    if_asked(number++);
                    slot_entry(slot, most - under, bits);
                }
        otherwise(3);
        begin();
        for (uint8_t i = 0; i <= number; i++)
            for (uint8_t cents = 0; cents < 3; cents++)
                ask(i, cents);
        emit();
    }
}

/* Entries that test a slot, each refused if it is visited, by its data of a
 * zero amount. */
static const struct bytes unsound[] = {
    {6, {3, 6, 0, 0xD3, 2, 1}}, /* n */
    {6, {0, 0, 0, 0xD1, 2, 1}},
    {6, {0, 1, 0, 0x91, 2, 1}},
    {18, {3, 6, 2, 0, 0, 0, 0, 0, 0, 0, 0, 0, 0, 0, 0, 0xD3, 2, 1}},
    {8, {3, 1, 2, 0xFF, 0x00, 0x91, 2, 1}},
    {8, {3, 1, 2, 0xFF, 0x00, 0x80, 2, 1}},
    {9, {3, 1, 3, 0, 0, 0, 0x81, 2, 1}},
    {11, {3, 6, 1, 0, 0, 0, 0, 0, 0xD3, 2, 1}}, /* E */
    {13, {3, 6, 1, 0, 0, 0, 0, 0, 0, 0xD3, 0xD3, 2, 1}},
    {6, {0, 1, 1, 0x91, 2, 1}},
    {8, {0, 1, 1, 9, 0x91, 0x91, 2, 1}},
    {12, {3, 6, 1, 0, 0, 0, 0, 0, 0, 0xC3, 2, 1}}, /* accumulator 0 */
    {12, {3, 6, 1, 0, 0, 0, 0, 0, 0, 0xC0, 2, 1}},
    {12, {0, 6, 1, 0, 0, 0, 0, 0, 0, 0xCD, 2, 1}},
    {11, {3, 5, 1, 0, 0, 0, 0, 0, 0xD1, 2, 1}}, /* L of an accumulator */
    {13, {3, 7, 1, 0, 0, 0, 0, 0, 0, 0, 0xD1, 2, 1}},
    {7, {3, 1, 1, 0, 0xD1, 2, 1}},
    {6, {3, 0, 1, 0xD1, 2, 1}},
    {6, {0, 0, 1, 0x91, 2, 1}}, /* of a counter */
    {8, {0, 2, 1, 0, 0, 0x91, 2, 1}},
    {12, {0, 6, 1, 0, 0, 0, 0, 0, 0, 0x91, 2, 1}},
    {12, {3, 6, 1, 0, 0, 0, 0, 0, 0x0A, 0xD1, 2, 1}}, /* the block's digits */
    {12, {3, 6, 1, 0, 0, 0, 0, 0, 0xA0, 0xD1, 2, 1}},
    {12, {3, 6, 1, 0xA0, 0, 0, 0, 0, 0, 0xE0, 2, 1}},
    {12, {3, 6, 1, 0x0F, 0, 0, 0, 0, 0, 0xF2, 2, 1}},
    {12, {3, 6, 1, 0, 0, 0xFF, 0, 0, 0, 0xF3, 2, 1}},
    {12, {0, 6, 1, 0, 0, 0, 0, 0, 0, 0xD3, 2, 1}}, /* P */
    {12, {0, 6, 1, 0, 0, 0, 0, 0, 0, 0xE2, 2, 1}},
    {12, {4, 6, 1, 0, 0, 0, 0, 0, 0, 0xD3, 2, 1}}, /* past the data */
    {12, {4, 6, 1, 0, 0, 0, 0, 0, 0, 0xF2, 2, 1}},
    {12, {0xFF, 6, 1, 0, 0, 0, 0, 0, 0, 0xD2, 2, 1}},
    {7, {3, 1, 1, 0, 0x7F, 2, 1}}, /* a check type between */
    {7, {3, 1, 1, 0, 0x00, 2, 1}},
    {8, {3, 1, 2, 0xFF, 0, 0x03, 2, 1}},
    {8, {3, 1, 2, 0xFF, 0, 0x7F, 2, 1}},
    {8, {3, 1, 2, 0xFF, 0, 0x40, 2, 1}}};

enum { UNSOUND = sizeof unsound / sizeof *unsound };

/* Such as these are taken: P is not looked at where no amount is added, nor
 * are b4 and b3. */
static const struct bytes sound[] = {
    {12, {3, 6, 1, 0, 0, 0, 0, 0x10, 0x00, 0xD3, 2, 1}},
    {12, {3, 6, 1, 0x99, 0x99, 0x99, 0x99, 0x99, 0x99, 0xD2, 2, 1}},
    {12, {1, 6, 1, 0, 0, 0, 0, 0x10, 0x00, 0xD3, 2, 1}}, /* the interface */
    {12, {2, 6, 1, 0, 0, 0, 0, 0x10, 0x00, 0xD3, 2, 1}},
    {12, {0, 6, 1, 0, 0, 0, 0, 0x09, 0x99, 0xD1, 2, 1}},
    {12, {4, 6, 1, 0, 0, 0, 0, 0x09, 0x99, 0xD1, 2, 1}},
    {12, {0xFF, 6, 1, 0, 0, 0, 0, 0x20, 0x01, 0xE0, 2, 1}},
    {12, {3, 6, 1, 0, 0, 0, 0, 0x29, 0x99, 0xF1, 2, 1}},
    {12, {3, 6, 1, 0, 0, 0, 0, 0x09, 0x99, 0xDD, 2, 1}},
    {12, {3, 6, 1, 0, 0, 0, 0, 0x10, 0x00, 0xDB, 2, 1}},
    {12, {3, 6, 1, 0, 0, 0, 0, 0x10, 0x00, 0xD7, 2, 1}},
    {7, {0, 1, 1, 9, 0x91, 2, 1}},
    {7, {3, 1, 1, 19, 0xA1, 2, 1}},
    {7, {0xFF, 1, 1, 29, 0xB3, 2, 1}},
    {7, {0, 1, 1, 39, 0x81, 2, 1}}, /* counter 4 */
    {7, {0, 1, 1, 40, 0x83, 2, 1}},
    {7, {0, 1, 1, 41, 0x80, 2, 1}},
    {7, {9, 1, 1, 41, 0x82, 2, 1}},
    {7, {0, 1, 1, 39, 0x8D, 2, 1}},
    {7, {0, 1, 1, 40, 0x87, 2, 1}},
    {7, {0, 1, 1, 0xFF, 0x90, 2, 1}},
    {7, {0, 1, 1, 0x0A, 0x93, 2, 1}}};

enum { SOUND = sizeof sound / sizeof *sound };

/* Each in a file of them all, as a CPACE card and as a CPA card has it; of the
 * CPA card's papers, all versions. */
static void slot_soundness(void)
{
    for (unsigned which = 0; which < 2; which++)
        for (uint8_t version = 2; version <= 6; version++) {
            const unsigned count = which == 0 ? UNSOUND : SOUND;
            slots();
            setup.version = version < 6 ? version : 5;
            setup.family = version < 6 ? CPA : CPACE;
            for (unsigned i = 0; i < count; i++) {
                if_asked((uint8_t)i);
                entry(which == 0 ? &unsound[i] : &sound[i]);
            }
            otherwise(3);
            begin();
            for (unsigned i = 0; i <= count; i++) {
                ask((uint8_t)i, 0x00);
                ask((uint8_t)i, 0x01);
            }
            emit();
        }
    for (unsigned i = 0; i < UNSOUND; i++) { /* alone, and what is open stays */
        slots();
        if_asked(1);
        entry(&unsound[i]);
        otherwise(4);
        begin();
        ask(0, 0);
        draft_data(draft, (const uint8_t[]){0, 0}, 2);
        ask(1, 0);
        ask(1, 0);
        emit();
    }
}

/* An amount that is not of digits, in each of its digits; the data of every
 * length. A card that does not add it does not look. */
static void slot_amounts(void)
{
    static const uint8_t nibbles[] = {9, 10, 15};

    for (unsigned adds = 0; adds < 2; adds++) {
        uint8_t data[9] = {1, 7};
        slots();
        slot_entry(0, 1000, (uint8_t)(adds ? 3 : 1));
        begin();
        for (unsigned digit = 0; digit < 12; digit++)
            for (unsigned i = 0; i < sizeof nibbles; i++) {
                memset(data + 2, 0, 6);
                data[2 + digit / 2] =
                    (uint8_t)(nibbles[i] << (digit % 2 == 0 ? 4 : 0));
                draft_data(draft, data, 8);
                first(TC, 0);
            }
        memset(data + 2, 0, 6);
        data[7] = 1;
        for (size_t length = 1; length <= sizeof data; length++) {
            draft_data(draft, data, length);
            first(TC, 0);
        }
        emit();
    }
    for (uint8_t position = 0; position < 6; position++) { /* by its place */
        struct bytes bytes = {12, {position, 6, 1, 0, 0, 0, 0, 0x15, 0x00}};
        slots();
        typed(&bytes, 0xD3, 2, 1);
        begin();
        draft_data(draft, (const uint8_t[]){0, 0, 0, 0, 0, 0x05, 0x00}, 7);
        first(TC, 0);
        draft_data(draft, (const uint8_t[]){0, 0, 0, 0, 0, 0x05, 0x01}, 7);
        first(TC, 0);
        draft_data(draft, (const uint8_t[]){1, 0, 0, 0, 0, 0, 0x05, 0x01}, 8);
        first(TC, 0);
        draft_data(draft,
                   (const uint8_t[]){0, 0, 0, 0x05, 0, 0, 0, 0, 0, 0, 0, 0},
                   12);
        first(TC, 0);
        emit();
    }
}

/* What is tested is the card's present value: it grows, is ordered, and is that
 * of a slot which is inactive or closed; no currency is looked at. */
static void slot_present(void)
{
    for (unsigned slot = 0; slot < SLOTS; slot++)
        for (unsigned closed = 0; closed < 2; closed++) {
            if (slot == 3)
                continue;
            fresh(3, 50, 60);
            controls(closed ? FOR_NOTHING : FOR_PIN);
            setup.accumulator[slot % 4].currency = closed ? EUR : USD;
            setup.accumulator[(slot + 1) % 4].value = 99;
            setup.counter[(slot + 1) % 4] = 99;
            slot_entry(slot, 3, 1);
            begin();
            for (unsigned i = 0; i < 6; i++) {
                cvm = i == 3 ? BY_PIN : BY_NOTHING;
                draft_data(draft, (const uint8_t[]){0, 0}, 2);
                first_in(TC, 2, closed ? EUR : USD);
            }
            for (unsigned order = 1; order < 4; order++) {
                draft_data(draft, (const uint8_t[]){1}, 1);
                first(ARQC, 2);
                second(AAC, OTHER, VERIFIED, order);
                draft_data(draft, (const uint8_t[]){1}, 1);
                first(AAC, 0);
            }
            emit();
        }
}

/* Actions and moves as with any entry: 00, 80, 7F, past the end, and visits. */
static void slot_actions(void)
{
    static const uint8_t actions[] = {0x00, 0x80, 0x7F, 0x82, 0xFF,
                                      0x7E, 0x81, 3};

    for (unsigned i = 0; i < sizeof actions; i++)
        for (unsigned greater = 0; greater < 2; greater++) {
            slots();
            typed(&(const struct bytes){7, {0, 1, 1, 9}},
                  (uint8_t)(greater ? 0x91 : 0x90), actions[i], 0x81);
            typed(&(const struct bytes){
                      12, {0, 6, 1, 0, 0, 0, 0, 0x20, 0x00}},
                  0xE1, 2, 4);
            begin();
            draft_data(draft, (const uint8_t[]){1}, 1);
            first(TC, 0);
            emit();
        }
}

void listed_cpace(void)
{
    sittings();
    every_control();
    slot_by_slot();
    all_switches();
    closed_over();
    closed_declines();
    closed_orders();
    closed_mta();
    closed_cycles();
    every_method();
    cashback_masks();
    cashback_by_profile();
    not_kept();
    interfaces();
    interface_alone();
    selected();
    lengths();
    tails();
    families();
    ranges();
    mask_bits();
    extremes();
    leftovers();
    slot_values(0);
    slot_values(0x0C);
    slot_sums();
    slot_soundness();
    slot_amounts();
    slot_present();
    slot_actions();
}
