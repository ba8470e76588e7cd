/* Start, First, Second and Script. Section names in quotes are those of
 * document 01. */
#include <string.h>

#include "card.h"
#include "put.h"
#include "template.h"

/* "Conversion", its fraction by the syllabus. The largest product, MAX x 9,999
 * x 1,000, is below 2^64. */
static struct converted convert(const struct setup *setup, uint64_t amount,
                                uint16_t from, uint16_t to)
{
    static const uint64_t ten_to[] = {1, 10, 100, 1000, 10000, 100000, 1000000,
                                      10000000, 100000000, 1000000000};

    if (from == to)
        return (struct converted){CONVERTED, amount};
    for (unsigned i = 0; i < setup->conversions; i++) {
        const struct conversion *entry = &setup->conversion[i];
        if (entry->from != from || entry->to != to)
            continue;
        const uint64_t product = amount * entry->digits;
        uint64_t result;
        if (entry->shift >= 0) {
            result = product * ten_to[entry->shift];
        } else {
            const uint64_t divisor = ten_to[-entry->shift];
            result = product / divisor;
            if (setup->syllabus == SYLLABUS_ROUNDS_UP
                && product % divisor != 0)
                result++;
        }
        if (result > AMOUNT_MAX)
            return (struct converted){OVER, 0};
        return (struct converted){CONVERTED, result};
    }
    return (struct converted){NO_ENTRY, 0};
}

/* First's amount in every currency that this profile asks about. */
static void convert_amount(struct card *card, uint64_t amount,
                           uint16_t currency)
{
    struct transaction *open = &card->open;
    const struct profile *profile = open->profile;

    if (profile->mta_on)
        open->for_mta = convert(&card->setup, amount, currency,
                                profile->mta_currency);
    for (unsigned i = 0; i < ACCUMULATORS; i++)
        if (profile->accumulator[i].switches & ACTIVE)
            open->for_accumulator[i] = convert(&card->setup, amount, currency,
                                               card->setup.currency[i]);
    for (unsigned i = 0; i < card->setup.cyclics; i++)
        if (profile->cyclic[i].switches & ACTIVE)
            open->for_cyclic[i] = convert(&card->setup, amount, currency,
                                          card->setup.cyclic[i].currency);
}

/* Request Five: the date of an accepted First. An earlier one than the last
 * changes nothing. */
static void take_date(struct card *card, const struct date *date)
{
    struct transaction *open = &card->open;

    open->date = *date;
    open->date_error = date->number < card->last.number;
    if (open->date_error)
        return;
    for (unsigned i = 0; i < CYCLICS; i++)
        if (cycle_began(card->setup.cyclic[i].kind,
                        card->setup.cyclic[i].first_day, &card->last, date))
            card->cyclic[i] = 0;
    card->last = *date;
}

/* Request Thirteen: the transaction's CVM by the terminal's CVM results (CPACE
 * C.80). Of the first byte the method alone is asked, of the others only
 * whether the last one is 00. */
static uint8_t cvm_of(const uint8_t *results)
{
    if (results[2] != 0x00)
        return NO_CVM;
    switch (results[0] & 0x3F) {
    case 0x02:
        return ONLINE_PIN;
    case 0x1E:
        return SIGNATURE;
    default:
        return NO_CVM;
    }
}

/* Six bytes that are not all zero, digits or not. */
static bool is_cashback(const uint8_t *bytes)
{
    for (unsigned i = 0; i < 6; i++)
        if (bytes[i] != 0)
            return true;
    return false;
}

/* What the switches of a slot come to in the open transaction. */
static uint8_t accumulator_switches(const struct card *card, unsigned i)
{
    return gated(card->open.profile->accumulator[i].switches,
                 card->setup.accumulator_control[i], card->open.cvm);
}

static uint8_t counter_switches(const struct card *card, unsigned i)
{
    return gated(card->open.profile->counter[i].switches,
                 card->setup.counter_control[i], card->open.cvm);
}

/* "Start and the checks": bits 5 to 25. The sums are not stopped, so that a
 * full accumulator or counter still exceeds a limit at its maximum. Over
 * exceeds every limit, MAX too. With a date error no cyclic accumulator is
 * tested. */
static uint32_t check_limits(const struct card *card)
{
    const struct transaction *open = &card->open;
    const struct profile *profile = open->profile;
    uint32_t adr = 0;

    if (profile->mta_on
        && (open->for_mta.how == OVER
            || (open->for_mta.how == CONVERTED
                && open->for_mta.amount > profile->mta)))
        adr |= MTA_EXCEEDED;

    for (unsigned i = 0; i < ACCUMULATORS; i++) {
        const struct accumulator_rule *rule = &profile->accumulator[i];
        if (!(rule->switches & ACTIVE))
            continue;
        const struct converted added = open->for_accumulator[i];
        const bool included = accumulator_switches(card, i) & INCLUDE;
        const bool over = included && added.how == OVER;
        uint64_t value = card->accumulator[i];
        if (included && added.how == CONVERTED)
            value += added.amount;
        if (over || value > rule->lower)
            adr |= (uint32_t)ACCUMULATOR_LOWER << i;
        if (over || value > rule->upper)
            adr |= (uint32_t)ACCUMULATOR_UPPER << i;
    }

    for (unsigned i = 0; i < COUNTERS; i++) {
        const struct counter_rule *rule = &profile->counter[i];
        if (!(rule->switches & ACTIVE))
            continue;
        unsigned value = card->counter[i];
        if (counter_switches(card, i) & INCLUDE)
            value++;
        if (value > rule->lower)
            adr |= (uint32_t)COUNTER_LOWER << i;
        if (value > rule->upper)
            adr |= (uint32_t)COUNTER_UPPER << i;
    }

    if (open->cashback)
        adr |= CASHBACK;
    if (open->date_error)
        return adr | DATE_ERROR;
    for (unsigned i = 0; i < card->setup.cyclics; i++) {
        const struct cyclic_rule *rule = &profile->cyclic[i];
        if (!(rule->switches & ACTIVE))
            continue;
        const struct converted added = open->for_cyclic[i];
        const bool included = rule->switches & INCLUDE;
        uint64_t value = card->cyclic[i];
        if (included && added.how == CONVERTED)
            value += added.amount;
        if ((included && added.how == OVER) || value > rule->limit)
            adr |= (uint32_t)CYCLIC_LIMIT << i;
    }

    return adr;
}

static void count_one(uint8_t *counter)
{
    if (*counter < COUNTER_MAX)
        ++*counter;
}

/* What an accumulator becomes that counts an amount; over stores MAX. */
static void accumulate(uint64_t *value, const struct converted *added)
{
    if (added->how == NO_ENTRY)
        return;
    if (added->how == OVER || *value + added->amount > AMOUNT_MAX)
        *value = AMOUNT_MAX;
    else
        *value += added->amount;
}

/* "First: the answer", an offline approval. With a date error no cyclic
 * accumulator counts it. */
static void approve_offline(struct card *card)
{
    const struct transaction *open = &card->open;
    const struct profile *profile = open->profile;

    for (unsigned i = 0; i < ACCUMULATORS; i++)
        if (counts_approvals(accumulator_switches(card, i)))
            accumulate(&card->accumulator[i], &open->for_accumulator[i]);
    for (unsigned i = 0; i < card->setup.cyclics; i++)
        if (counts_approvals(profile->cyclic[i].switches) && !open->date_error)
            accumulate(&card->cyclic[i], &open->for_cyclic[i]);
    for (unsigned i = 0; i < COUNTERS; i++)
        if (counts_approvals(counter_switches(card, i)))
            count_one(&card->counter[i]);
}

/* An offline decline: an AAC at First (request One), or after Y3 or Z3. The
 * tests are over, so the CVR does not show it. */
static void count_decline(struct card *card)
{
    const struct profile *profile = card->open.profile;

    for (unsigned i = 0; i < COUNTERS; i++)
        if (counts_declines(profile->counter[i].switches))
            count_one(&card->counter[i]);
}

/* "Second: the answer", CSU byte 2 b2-b1. */
static void update_as_ordered(struct card *card, unsigned order)
{
    const struct profile *profile = card->open.profile;

    switch (order) {
    case 0:
        break;
    case 1:
        for (unsigned i = 0; i < ACCUMULATORS; i++)
            if (profile->accumulator[i].switches & ACTIVE)
                card->accumulator[i] = profile->accumulator[i].upper;
        for (unsigned i = 0; i < card->setup.cyclics; i++)
            if (profile->cyclic[i].switches & ACTIVE)
                card->cyclic[i] = profile->cyclic[i].limit;
        for (unsigned i = 0; i < COUNTERS; i++)
            if (profile->counter[i].switches & ACTIVE)
                card->counter[i] = profile->counter[i].upper;
        break;
    case 2:
        for (unsigned i = 0; i < ACCUMULATORS; i++)
            if (profile->accumulator[i].switches & ACTIVE)
                card->accumulator[i] = 0;
        for (unsigned i = 0; i < card->setup.cyclics; i++)
            if (profile->cyclic[i].switches & ACTIVE)
                card->cyclic[i] = 0;
        for (unsigned i = 0; i < COUNTERS; i++)
            if (profile->counter[i].switches & ACTIVE)
                card->counter[i] = 0;
        break;
    default:
        approve_offline(card);
        break;
    }
}

/* Six decimal digits in three bytes. */
static void put_digits(uint8_t *at, uint32_t value)
{
    for (int i = 2; i >= 0; i--) {
        const uint32_t pair = value % 100;
        value /= 100;
        at[i] = (uint8_t)(pair / 10 << 4 | pair % 10);
    }
}

/* "CVR and IAD", with the values as they are after the step. */
static void give(const struct card *card, unsigned type, struct answer *answer)
{
    const struct profile *profile = card->open.profile;
    const uint8_t *sent = profile->counter_sent;
    uint8_t *iad = answer->iad;

    answer->cid = (uint8_t)(type << 6);
    memset(iad, 0, IAD_BYTES);
    iad[0] = 0x0F;
    iad[1] = 0xA5;
    iad[2] = card->setup.key_index;
    memcpy(iad + 3, card->open.cvr, sizeof card->open.cvr);
    if (profile->accumulator_sent) {
        const uint64_t value = card->accumulator[profile->accumulator_sent - 1];
        put_digits(iad + 8, (uint32_t)(value / 1000000));
        put_digits(iad + 11, (uint32_t)(value % 1000000));
    }
    if (sent[0])
        iad[14] = card->counter[sent[0] - 1];
    if (sent[1])
        iad[15] = card->counter[sent[1] - 1];
    iad[16] = 0x0F;
    iad[17] = profile->number;
}

/* First's CVR, from the ADR: its bits 0 to 4 are the history at First. */
static void set_cvr(struct card *card, unsigned type)
{
    const uint32_t adr = card->open.adr;
    const unsigned tries = card->setup.pin_tries;
    uint8_t *cvr = card->open.cvr;

    cvr[0] = (uint8_t)(0x80 | type << 4);
    if (adr & (UNABLE_TO_GO_ONLINE | DATA_NOT_RECEIVED))
        cvr[0] |= 0x02;
    if (adr & AUTHENTICATION_FAILED)
        cvr[0] |= 0x01;

    cvr[1] = (uint8_t)(tries << 4);
    if (tries == 0)
        cvr[1] |= 0x02;
    if (adr & LAST_ONLINE_NOT_COMPLETED)
        cvr[1] |= 0x01;

    cvr[2] = 0;
    if (adr & COUNTERS_LOWER)
        cvr[2] |= 0x80;
    if (adr & COUNTERS_UPPER)
        cvr[2] |= 0x40;
    if (adr & ACCUMULATORS_LOWER)
        cvr[2] |= 0x20;
    if (adr & ACCUMULATORS_UPPER)
        cvr[2] |= 0x10;
    if (adr & DATE_ERROR)
        cvr[2] |= 0x02;

    cvr[3] = (uint8_t)(card->script_count << 4);
    if (card->script_failed)
        cvr[3] |= 0x08;
    if (adr & GO_ONLINE_NEXT)
        cvr[3] |= 0x02;
    cvr[4] = 0;
}

static bool offline_only(uint8_t terminal)
{
    switch (terminal) {
    case 0x13:
    case 0x16:
    case 0x23:
    case 0x26:
    case 0x36:
        return true;
    default:
        return false;
    }
}

/* "First: the answer". */
static unsigned decide(const struct profile *profile, uint32_t adr,
                       const struct first *first)
{
    if (first->type == AAC)
        return AAC;
    if (adr & profile->decline_mask)
        return AAC;
    if (first->type == ARQC)
        return ARQC;
    if (offline_only(first->terminal))
        return adr & profile->default_mask ? AAC : TC;
    return adr & profile->online_mask ? ARQC : TC;
}

unsigned card_start(struct card *card, const struct start *start,
                    unsigned *visits)
{
    const struct profile *profile = card->setup.profile;
    const struct profile *end = profile + card->setup.profiles;
    const bool cpace = is_cpace(&card->setup);
    uint8_t number;

    if (cpace && start->data[0] > CONTACTLESS)
        return 6;
    if (!card->setup.selection.on)
        number = start->data[cpace];
    else if (!select_profile(card, start, &number, visits))
        return 12;
    while (profile < end && profile->number != number)
        profile++;
    if (profile == end)
        return 3;
    if (card->atc == ATC_MAX)
        return 4;

    card->atc++;
    card->open.profile = profile;
    card->due = FIRST_DUE;
    card->script_failed_here = false;
    return 0;
}

unsigned card_first(struct card *card, const struct first *first,
                    struct answer *answer)
{
    struct transaction *open = &card->open;
    const bool dated = card->setup.cyclics > 0;
    struct date date;

    if (card->due != FIRST_DUE)
        return 2;
    if (first->type > ARQC)
        return 5;
    if (first->amount > AMOUNT_MAX || !is_currency(first->currency))
        return 6;
    if (dated && !read_date(&date, first->date))
        return 13;

    open->date_error = false;
    if (dated)
        take_date(card, &date);
    open->cvm = 0;
    open->cashback = false;
    if (is_cpace(&card->setup)) {
        open->cvm = cvm_of(first->cvm_results);
        open->cashback = open->profile->cashback_check
            && is_cashback(first->cashback);
    }
    convert_amount(card, first->amount, first->currency);
    open->adr = card->history | check_limits(card);
    const unsigned type = decide(open->profile, open->adr, first);

    set_cvr(card, type);
    switch (type) {
    case AAC:
        count_decline(card);
        card->due = NOTHING_DUE;
        break;
    case TC:
        approve_offline(card);
        card->due = NOTHING_DUE;
        break;
    default:
        card->history |= LAST_ONLINE_NOT_COMPLETED;
        card->due = SECOND_DUE;
        break;
    }
    give(card, type, answer);
    return 0;
}

/* After Y3 or Z3: the terminal could not reach the issuer. */
static unsigned second_unable(struct card *card, const struct second *second)
{
    struct transaction *open = &card->open;
    unsigned type;

    card->history |= UNABLE_TO_GO_ONLINE;
    open->cvr[0] |= 0x02;
    open->cvr[3] |= 0x01;
    open->adr = (open->adr & HISTORY_BITS) | UNABLE_TO_GO_ONLINE
        | check_limits(card);
    if (second->type == AAC || open->adr & open->profile->default_mask) {
        type = AAC;
        count_decline(card);
    } else {
        type = TC;
        approve_offline(card);
    }
    return type;
}

/* The issuer was heard of: a failed script is told, unless it failed in this
 * transaction. */
static void tell_script(struct card *card)
{
    if (!card->script_failed_here)
        card->script_failed = false;
}

static unsigned second_verified(struct card *card, const struct second *second)
{
    const uint8_t status = second->csu[1];

    card->history = status & 0x08 ? GO_ONLINE_NEXT : 0;
    card->open.cvr[0] &= (uint8_t)~0x03;
    tell_script(card);
    update_as_ordered(card, status & 0x03);
    return second->type == TC && status & 0x80 ? TC : AAC;
}

static unsigned second_failed(struct card *card)
{
    card->history |= AUTHENTICATION_FAILED;
    card->open.cvr[0] |= 0x01;
    return AAC;
}

static unsigned second_absent(struct card *card, const struct second *second)
{
    card->history |= DATA_NOT_RECEIVED;
    card->open.cvr[0] |= 0x02;
    if (card->setup.authentication_required)
        return AAC;
    card->history &= ~(uint32_t)LAST_ONLINE_NOT_COMPLETED;
    tell_script(card);
    return second->type;
}

unsigned card_second(struct card *card, const struct second *second,
                     struct answer *answer)
{
    unsigned type;

    if (card->due != SECOND_DUE)
        return 2;
    if (second->type > TC)
        return 5;
    if (second->issuer_data > ISSUER_FAILED)
        return 6;

    if (is_unable(second->code))
        type = second_unable(card, second);
    else if (second->issuer_data == ISSUER_VERIFIED)
        type = second_verified(card, second);
    else if (second->issuer_data == ISSUER_FAILED)
        type = second_failed(card);
    else
        type = second_absent(card, second);

    /* Recovery: an approval that is not offline makes the date right. */
    if (card->open.date_error && type == TC && !is_unable(second->code))
        card->last = card->open.date;
    card->open.cvr[0] = (uint8_t)(type << 6 | (card->open.cvr[0] & 0x3F));
    card->due = NOTHING_DUE;
    give(card, type, answer);
    return 0;
}

/* Request Twelve: the card that commands are for, and what the caller says of
 * their secure messaging. */
struct delivery {
    struct card *card;
    bool verified;
};

static bool try_command(void *with, const uint8_t *command, size_t length)
{
    const struct delivery *delivery = with;
    struct card *card = delivery->card;
    struct put put;

    if (!delivery->verified || card->script_failed_here
        || !put_read(&put, command, length)) {
        card->script_failed = true;
        card->script_failed_here = true;
        return false;
    }
    put_write(card, &put);
    card->script_count = (card->script_count + 1) % SCRIPT_COUNTS;
    return true;
}

unsigned card_script(struct card *card, const struct script *script)
{
    struct delivery delivery = {card, script->messaging == MESSAGING_VERIFIED};

    if (card->due == FIRST_DUE)
        return 2;
    if (script->messaging > MESSAGING_VERIFIED)
        return 6;
    const unsigned refusal =
        template_read(script->template, script->length, NULL, NULL);
    if (refusal > 0)
        return refusal;
    template_read(script->template, script->length, try_command, &delivery);
    return 0;
}
