/* The set-up: 52 + 107p + 7c bytes, each field within its range, and behind
 * them what the paper's version adds. */
#include "bytes.h"
#include "card.h"
#include "reached.h"

enum {
    HEAD_BYTES = 52,
    PROFILE_BYTES = 107,
    CONVERSION_BYTES = 7,
    CYCLES_BYTES = 27, /* behind the switch, without the limits */
    LIMITS_BYTES = 18, /* of a profile */
    CONTROLS_BYTES = ACCUMULATORS + COUNTERS,
    LOG_BYTES = 2, /* before the profiles' */
    ENTRY_BYTES = 3
};

static bool read_profile(struct profile *profile, unsigned version,
                         const uint8_t *at)
{
    const unsigned later =
        (version >= VERSION_CYCLES) + (version >= VERSION_FAMILY);
    const uint32_t named = later == 0 ? OLD_ADR_BITS
        : later == 1 ? CYCLES_ADR_BITS : ADR_BITS;

    profile->number = at[0];
    if (profile->number == 0)
        return fault(BAD_NUMBER + 0);
    if (profile->number > 124)
        return fault(BAD_NUMBER + 1);

    profile->online_mask = get32(at + 1);
    profile->decline_mask = get32(at + 5);
    profile->default_mask = get32(at + 9);
    if (profile->online_mask > named)
        return fault(BAD_ONLINE + later);
    if (profile->decline_mask > named)
        return fault(BAD_DECLINE + later);
    if (profile->default_mask > named)
        return fault(BAD_DEFAULT + later);

    if (at[13] > 1)
        return fault(BAD_MTA_ON);
    profile->mta_on = at[13];
    profile->mta_currency = get16(at + 14);
    if (!is_currency(profile->mta_currency))
        return fault(BAD_MTA_CURRENCY + bad_digit(profile->mta_currency));
    profile->mta = get64(at + 16);
    if (profile->mta > AMOUNT_MAX)
        return fault(BAD_MTA);
    at += 24;

    for (unsigned i = 0; i < ACCUMULATORS; i++, at += 17) {
        struct accumulator_rule *rule = &profile->accumulator[i];
        rule->switches = at[0];
        rule->lower = get64(at + 1);
        rule->upper = get64(at + 9);
        if (rule->switches > ACCUMULATOR_SWITCHES)
            return fault(BAD_SWITCHES + i);
        if (rule->lower > AMOUNT_MAX)
            return fault(BAD_LOWER + i);
        if (rule->upper > AMOUNT_MAX)
            return fault(BAD_UPPER + i);
    }

    for (unsigned i = 0; i < COUNTERS; i++, at += 3) {
        struct counter_rule *rule = &profile->counter[i];
        rule->switches = at[0];
        rule->lower = at[1];
        rule->upper = at[2];
        if (rule->switches > COUNTER_SWITCHES)
            return fault(BAD_COUNTER_SWITCHES + i);
    }

    profile->accumulator_sent = at[0];
    profile->counter_sent[0] = at[1];
    profile->counter_sent[1] = at[2];
    if (profile->accumulator_sent > ACCUMULATORS)
        return fault(BAD_SENT);
    if (profile->counter_sent[0] > COUNTERS)
        return fault(BAD_COUNTER_SENT + 0);
    if (profile->counter_sent[1] > COUNTERS)
        return fault(BAD_COUNTER_SENT + 1);
    return true;
}

static bool read_conversion(struct conversion *entry, const uint8_t *at)
{
    entry->from = get16(at);
    entry->to = get16(at + 2);
    entry->digits = get16(at + 4);
    if (!is_currency(entry->from))
        return fault(BAD_FROM + bad_digit(entry->from));
    if (!is_currency(entry->to))
        return fault(BAD_TO + bad_digit(entry->to));
    if (entry->from == entry->to)
        return fault(BAD_PAIR);
    if (entry->digits == 0)
        return fault(BAD_DIGITS + 0);
    if (entry->digits > 9999)
        return fault(BAD_DIGITS + 1);
    if (at[6] > 12)
        return fault(BAD_SHIFT);
    entry->shift = (int8_t)(at[6] - 9);
    return true;
}

/* A switch, 0 or 1; if 1, the number of entries and so many entries, each
 * behind its length. What is in them is not looked at here. */
static bool read_selection(struct selection *selection, const uint8_t **place,
                           const uint8_t *end)
{
    const uint8_t *at = *place;

    if (at == end)
        return fault(TAIL_MISSING);
    if (*at > 1)
        return fault(BAD_SELECTION);
    selection->on = *at++;
    if (selection->on) {
        if (at == end)
            return fault(ENTRIES_MISSING);
        selection->entries = *at++;
        selection->file = at;
        for (unsigned i = 0; i < selection->entries; i++) {
            if (at == end)
                return fault(ENTRY_MISSING + (i > 0));
            if (*at > end - at - 1)
                return fault(ENTRY_CUT + (i > 0));
            at += 1 + *at;
        }
    }
    *place = at;
    return true;
}

static bool read_syllabus(uint8_t *syllabus, const uint8_t **place,
                          const uint8_t *end)
{
    if (*place == end)
        return fault(SYLLABUS_MISSING);
    if (**place > SYLLABUS_ROUNDS_UP)
        return fault(BAD_SYLLABUS + (**place > 2));
    *syllabus = *(*place)++;
    return true;
}

static bool read_cyclic_rule(struct cyclic_rule *rule, unsigned place,
                             const uint8_t *at)
{
    rule->switches = at[0];
    rule->limit = get64(at + 1);
    if (rule->switches > ACCUMULATOR_SWITCHES)
        return fault(BAD_CYCLIC_SWITCHES + place);
    if (rule->limit > AMOUNT_MAX)
        return fault(BAD_LIMIT + place);
    return true;
}

/* A switch, 0 or 1; if 1, the last date, the cyclic accumulators, and what each
 * profile says of them. */
static bool read_cycles(struct card *card, const uint8_t **place,
                        const uint8_t *end)
{
    struct setup *setup = &card->setup;
    const uint8_t *at = *place;

    if (at == end)
        return fault(DATED_MISSING);
    if (*at > 1)
        return fault(BAD_DATED + (*at > 2));
    setup->cyclics = *at++ ? CYCLICS : 0;
    *place = at;
    if (setup->cyclics == 0)
        return true;

    if (end - at < CYCLES_BYTES)
        return fault(CYCLES_SHORT + 0);
    if (end - at < CYCLES_BYTES + LIMITS_BYTES * setup->profiles)
        return fault(CYCLES_SHORT + 1);
    if (!read_date(&card->last, at))
        return fault(BAD_LAST + bad_date(at));
    at += 3;
    for (unsigned i = 0; i < CYCLICS; i++, at += 12) {
        struct cyclic *cyclic = &setup->cyclic[i];
        cyclic->currency = get16(at);
        card->cyclic[i] = get64(at + 2);
        cyclic->kind = at[10];
        cyclic->first_day = at[11];
        if (!is_currency(cyclic->currency))
            return fault(BAD_CYCLIC_CURRENCY + 4 * i
                         + bad_digit(cyclic->currency));
        if (card->cyclic[i] > AMOUNT_MAX)
            return fault(BAD_CYCLIC_VALUE + i);
        if (cyclic->kind < CYCLE_DAY)
            return fault(BAD_KIND + 2 * i);
        if (cyclic->kind > CYCLE_MONTH)
            return fault(BAD_KIND + 2 * i + 1);
        if (cyclic->first_day >= WEEK)
            return fault(BAD_FIRST_DAY + 2 * i + (cyclic->first_day > WEEK));
    }
    for (unsigned i = 0; i < setup->profiles; i++)
        for (unsigned j = 0; j < CYCLICS; j++, at += 9)
            if (!read_cyclic_rule(&setup->profile[i].cyclic[j], j, at))
                return fault(BAD_LIMITS_AT + i);
    *place = at;
    return true;
}

/* The family, 0 or 1; if 1, the controls of the accumulators and the counters,
 * and whether each profile checks cashback. */
static bool read_family(struct setup *setup, const uint8_t **place,
                        const uint8_t *end)
{
    const uint8_t *at = *place;

    if (at == end)
        return fault(FAMILY_MISSING);
    if (*at > FAMILY_CPACE)
        return fault(BAD_FAMILY + (*at > 2));
    setup->family = *at++;
    *place = at;
    if (setup->family == FAMILY_CPA)
        return true;

    if (end - at < CONTROLS_BYTES)
        return fault(FAMILY_SHORT + 0);
    if (end - at < CONTROLS_BYTES + setup->profiles)
        return fault(FAMILY_SHORT + 1);
    for (unsigned i = 0; i < ACCUMULATORS; i++) {
        setup->accumulator_control[i] = *at++;
        if (setup->accumulator_control[i] > CONTROL_BITS)
            return fault(BAD_CONTROL + i);
    }
    for (unsigned i = 0; i < COUNTERS; i++) {
        setup->counter_control[i] = *at++;
        if (setup->counter_control[i] > CONTROL_BITS)
            return fault(BAD_CONTROL + ACCUMULATORS + i);
    }
    for (unsigned i = 0; i < setup->profiles; i++) {
        if (*at > 1)
            return fault(BAD_CASHBACK + i);
        setup->profile[i].cashback_check = *at++;
    }
    *place = at;
    return true;
}

/* Scripts, 0 or 1. */
static bool read_scripts(struct setup *setup, const uint8_t **place,
                         const uint8_t *end)
{
    if (*place == end)
        return fault(SCRIPTS_MISSING);
    if (**place > 1)
        return fault(BAD_SCRIPTS + (**place > 2));
    setup->scripts = *(*place)++;
    return true;
}

/* So many entries, each of a source up to this one. */
static bool read_table(struct log_table *table, unsigned whose,
                       const uint8_t **place, const uint8_t *end)
{
    const uint8_t *at = *place;

    if (at == end)
        return fault(TABLE_MISSING + whose);
    table->entries = *at++;
    table->entry = at;
    if (end - at < ENTRY_BYTES * table->entries)
        return fault(TABLE_SHORT + whose);
    for (unsigned i = 0; i < table->entries; i++, at += ENTRY_BYTES)
        if (at[0] > whose)
            return fault(BAD_SOURCE + 2 * whose + (i > 0));
    *place = at;
    return true;
}

/* A switch, 0 or 1; if 1, the ring's size, what is logged, whether each profile
 * logs, and both tables. Whether these reach past the data is asked later. */
static bool read_log(struct setup *setup, const uint8_t **place,
                     const uint8_t *end)
{
    struct log_rule *log = &setup->log;
    const uint8_t *at = *place;

    if (at == end)
        return fault(LOG_MISSING);
    if (*at > 1)
        return fault(BAD_LOG + (*at > 2));
    log->on = *at++;
    *place = at;
    if (!log->on)
        return true;

    if (end - at < LOG_BYTES)
        return fault(LOG_SHORT + 0);
    if (end - at < LOG_BYTES + setup->profiles)
        return fault(LOG_SHORT + 1);
    log->size = *at++;
    log->switches = *at++;
    if (log->size > LOG_RECORDS)
        return fault(BAD_SIZE + (log->size > LOG_RECORDS + 1));
    if (log->switches & ~LOG_SWITCHES)
        return fault(BAD_LOG_SWITCHES + (log->switches & 3u) - 1);
    for (unsigned i = 0; i < setup->profiles; i++) {
        if (*at > 1)
            return fault(BAD_LOG_ON + i);
        setup->profile[i].log = *at++;
    }
    for (unsigned whose = OF_FIRST; whose <= OF_SECOND; whose++)
        if (!read_table(&log->table[whose], whose, &at, end))
            return false;
    *place = at;
    return true;
}

bool card_set_up(struct card *card, unsigned version, const uint8_t *body,
                 size_t length)
{
    struct setup *setup = &card->setup;

    if (length < HEAD_BYTES)
        return fault(BODY_HEAD);

    setup->key_index = body[0];
    setup->pin_tries = body[1];
    setup->authentication_required = body[2];
    setup->profiles = body[3];
    setup->conversions = body[4];
    if (setup->pin_tries > 15)
        return fault(BAD_PIN_TRIES);
    if (body[2] > 1)
        return fault(BAD_REQUIRED);
    if (setup->profiles == 0)
        return fault(BAD_PROFILES + 0);
    if (setup->profiles > PROFILES_MAX)
        return fault(BAD_PROFILES + 1);
    if (setup->conversions > CONVERSIONS_MAX)
        return fault(BAD_CONVERSIONS);

    const size_t expected = HEAD_BYTES
        + (size_t)PROFILE_BYTES * setup->profiles
        + (size_t)CONVERSION_BYTES * setup->conversions;
    if (length < expected)
        return fault(BODY_SHORT);
    if (version < VERSION_SELECTION && length > expected)
        return fault(BODY_LONG);

    card->atc = get16(body + 5);
    if (body[7] > 1)
        return fault(BAD_GO_ONLINE);
    card->history = body[7] ? GO_ONLINE_NEXT : 0;
    card->due = NOTHING_DUE;
    card->script_count = 0;
    card->script_failed = false;
    card->script_failed_here = false;

    const uint8_t *at = body + 8;
    for (unsigned i = 0; i < ACCUMULATORS; i++, at += 10) {
        setup->currency[i] = get16(at);
        card->accumulator[i] = get64(at + 2);
        if (!is_currency(setup->currency[i]))
            return fault(BAD_CURRENCY + 4 * i + bad_digit(setup->currency[i]));
        if (card->accumulator[i] > AMOUNT_MAX)
            return fault(BAD_VALUE + i);
    }
    for (unsigned i = 0; i < COUNTERS; i++)
        card->counter[i] = *at++;

    for (unsigned i = 0; i < setup->profiles; i++, at += PROFILE_BYTES) {
        if (!read_profile(&setup->profile[i], version, at))
            return fault(BAD_PROFILE_AT + i);
        for (unsigned j = 0; j < i; j++)
            if (setup->profile[j].number == setup->profile[i].number)
                return fault(BAD_NUMBER_TWICE);
    }

    for (unsigned i = 0; i < setup->conversions; i++, at += CONVERSION_BYTES) {
        struct conversion *entry = &setup->conversion[i];
        if (!read_conversion(entry, at))
            return fault(BAD_CONVERSION_AT + i);
        for (unsigned j = 0; j < i; j++)
            if (setup->conversion[j].from == entry->from
                && setup->conversion[j].to == entry->to)
                return fault(BAD_PAIR_TWICE);
    }

    setup->selection.on = false;
    if (version >= VERSION_SELECTION
        && !read_selection(&setup->selection, &at, body + length))
        return false;
    setup->syllabus = SYLLABUS_DROPS;
    if (version >= VERSION_SYLLABUS
        && !read_syllabus(&setup->syllabus, &at, body + length))
        return false;
    setup->cyclics = 0;
    if (version >= VERSION_CYCLES && !read_cycles(card, &at, body + length))
        return false;
    setup->family = FAMILY_CPA;
    if (version >= VERSION_FAMILY && !read_family(setup, &at, body + length))
        return false;
    setup->scripts = false;
    if (version >= VERSION_SCRIPTS && !read_scripts(setup, &at, body + length))
        return false;
    setup->log = (struct log_rule){0};
    if (version >= VERSION_LOG && !read_log(setup, &at, body + length))
        return false;
    if (at != body + length)
        return fault(TAIL_LONG
                     + setup_kind(version, setup->selection.on,
                                  setup->cyclics > 0, is_cpace(setup),
                                  setup->scripts, setup->log.on));
    return true;
}
