#include "observe_scripts.h"

#include <assert.h>
#include <string.h>

#include "bytes.h"
#include "reached.h"

enum { DEPTHS = 4, COMMANDS = 1 << 15 };

static void reached_if(bool holds, unsigned cause)
{
    if (holds)
        reached(cause);
}

/* The paper so far: its version, whether a Start was accepted, which values
 * were written; of the open transaction First's ADR, what was written since
 * First, and whether a command had failed before Second. */
static unsigned version;
static bool started;
static bool wrote[ACCUMULATORS];
static uint32_t first_adr;
static bool new_value[ACCUMULATORS], new_limits[ACCUMULATORS + COUNTERS];
static bool failed_shown, behind_second, failed_before_second;

bool script_wrote(unsigned accumulator)
{
    return wrote[accumulator];
}

void observe_unreadable_script(const struct sitting *before)
{
    const size_t left = (size_t)(before->end - before->at);
    const uint8_t *at = before->at;
    const bool is_0 = before->record == 0;

    if (is_0 && left > 3 && at[0] >= VERSION_SCRIPTS && at[0] <= VERSION_MAX)
        at++;
    else if (is_0 || left < 3)
        return;
    if (get16(at) == 0 || get16(at) > before->end - at - 2 || at[2] != 5)
        return;
    if (is_0)
        reached(KIND_OFF + 2);
    else
        reached_if(!before->card.setup.scripts,
                   KIND_OFF + (version >= VERSION_SCRIPTS));
}

void observe_scripts_setup(unsigned of)
{
    version = of;
    started = false;
    failed_shown = false;
    memset(wrote, 0, sizeof wrote);
}

void observe_scripts_start(const struct card *before, const struct card *after,
                           unsigned refusal)
{
    reached_if(before->script_failed_here, FAILED_HERE + (refusal > 0));
    assert(after->script_failed_here
           == (refusal > 0 && before->script_failed_here));
    if (refusal == 0)
        started = true;
}

void observe_scripts_first(const struct card *before, const struct card *after,
                           unsigned given)
{
    const unsigned shown = after->open.cvr[3];

    assert(shown / 16 == before->script_count);
    assert((shown / 8 & 1) == before->script_failed);
    if (before->setup.scripts)
        reached(COUNT_SHOWN + before->script_count);
    reached_if(before->script_failed, FAILED_SHOWN + given);
    reached_if(before->script_failed && failed_shown, FAILED_SHOWN + 3);
    failed_shown = before->script_failed;
    first_adr = after->open.adr;
    behind_second = false;
    failed_before_second = false;
    memset(new_value, 0, sizeof new_value);
    memset(new_limits, 0, sizeof new_limits);
}

/* What became of `failed`. */
static void observe_told(const struct card *before, const struct card *after,
                         const struct second *second, unsigned given)
{
    const bool required = before->setup.authentication_required;
    const bool here = before->script_failed_here;
    unsigned stays;

    if (is_unable(second->code))
        stays = second->code == UNABLE_Z3 ? 5 : 4;
    else if (second->issuer_data == ISSUER_FAILED)
        stays = 2;
    else if (second->issuer_data == ISSUER_ABSENT && required)
        stays = 3;
    else
        stays = second->issuer_data == ISSUER_ABSENT;
    assert(after->script_failed == (before->script_failed
                                    && (stays > 1 || here)));
    assert(after->script_failed_here == here);
    if (!before->script_failed)
        return;
    if (after->script_failed)
        reached(FAILED_STAYS + stays);
    else
        reached(FAILED_TOLD + 2 * stays + given);
}

void observe_scripts_second(const struct card *before, const struct card *after,
                            const struct second *second, unsigned given)
{
    const struct profile *profile = after->open.profile;
    const bool unable = is_unable(second->code);
    const unsigned shown = before->open.cvr[3];
    const unsigned sent = profile->accumulator_sent;

    assert(after->open.cvr[3] == (shown | unable));
    reached_if(shown / 16 != before->script_count, SECOND_KEEPS + !unable);
    reached_if((shown / 8 & 1) != before->script_failed,
               SECOND_KEEPS + 2 + !unable);
    observe_told(before, after, second, given);
    if (unable)
        for (unsigned i = 0; i < 16; i++) {
            const uint32_t bit = (uint32_t)ACCUMULATOR_LOWER << i;
            reached_if(first_adr & bit && !(after->open.adr & bit),
                       BIT_GONE + i);
            reached_if(!(first_adr & bit) && after->open.adr & bit,
                       BIT_NEW + i);
        }
    else if (second->issuer_data == ISSUER_VERIFIED
             && (second->csu[1] & 3) == 1)
        for (unsigned i = 0; i < 8; i++) {
            const unsigned on = i < 4 ? profile->accumulator[i].switches
                                      : profile->counter[i - 4].switches;
            reached_if(on & ACTIVE && new_limits[i], ORDER_NEW + i);
        }
    reached_if(sent > 0 && new_value[sent - 1], IAD_NEW + !unable);
    behind_second = true;
    failed_before_second = before->script_failed_here;
}

/* The template ------------------------------------------------------------- */

static struct {
    const uint8_t *at;
    size_t length;
} commands[COMMANDS];
static unsigned found;

/* How long the head of an object is, 0 if it is wrong or the value does not
 * fit. */
static size_t head_of(const uint8_t *at, const uint8_t *end, size_t *value)
{
    const size_t left = (size_t)(end - at);
    const size_t tag = at[0] % 32 == 31 ? 2 : 1;

    if (left <= tag || (tag == 2 && at[1] > 0x7F))
        return 0;
    const size_t more = at[tag] < 0x80 ? 0 : at[tag] - 0x80u;
    if (more > 2 || at[tag] == 0x80 || left <= tag + more)
        return 0;
    *value = at[tag + more] + (more == 2 ? 256u * at[tag + 1] : 0);
    return *value > left - tag - 1 - more ? 0 : tag + 1 + more;
}

/* Whether a head is wrong in this list, however deep. */
static bool has_fault(const uint8_t *at, const uint8_t *end)
{
    while (at < end) {
        size_t value;
        const size_t head = *at == 0 ? 1 : head_of(at, end, &value);
        if (head == 0)
            return true;
        if (*at != 0 && !(*at & 0x20))
            at += value;
        else if (*at != 0 && has_fault(at + head, at + head + value))
            return true;
        else if (*at != 0)
            at += value;
        at += head;
    }
    return false;
}

/* The lists that are open, the template's first. */
struct lists {
    const uint8_t *end[DEPTHS];
    bool any[DEPTHS]; /* an object in it */
    unsigned depth;
};

static void see_head(const uint8_t *at, size_t head, size_t value, bool inner)
{
    const size_t tag = at[0] % 32 == 31 ? 2 : 1;
    const unsigned more = (unsigned)(head - tag - 1);

    reached(READ_LENGTH + 3 * inner + more);
    reached_if(more == 1 && value < 0x80, READ_LONGER + 0);
    reached_if(more == 2 && value < 0x100, READ_LONGER + 1);
    reached_if(tag == 2, READ_TWO_BYTES + (at[0] & 0x20 ? 1 : 0));
    reached_if(at[0] == 0xA6, READ_A6);
}

static void see_filler(const uint8_t *at, const struct lists *lists)
{
    const uint8_t *end = lists->end[lists->depth - 1];
    const bool any = lists->any[lists->depth - 1];

    while (at < end && *at == 0)
        at++;
    if (at == end)
        reached_if(any, READ_FILLER + 2);
    else
        reached(READ_FILLER + any);
}

/* The faults that are met first, and others that are not. */
static void see_fault(const uint8_t *at, const struct lists *lists)
{
    const uint8_t *end = lists->end[lists->depth - 1];
    size_t value;
    const size_t head = head_of(at, end, &value);

    if (head == 0) {
        reached_if(head_of(at, lists->end[0], &value) > 0, VALUE_PAST_PARENT);
        reached_if(lists->depth == DEPTHS && *at & 0x20, FAULT_ORDER + 0);
        return;
    }
    const uint8_t *behind = at + head + value;
    bool later = false;
    reached_if(has_fault(at + head, behind), FAULT_ORDER + 1);
    for (unsigned i = lists->depth; i > 0; i--) {
        later = later || has_fault(behind, lists->end[i - 1]);
        behind = lists->end[i - 1];
    }
    reached_if(later, FAULT_ORDER + 2);
}

/* Finds the commands; 0, 18 or 19. Counts if it is to. */
static unsigned walk(const uint8_t *bytes, size_t length, bool counts)
{
    struct lists lists = {.depth = 1};
    size_t value = 0, head = 0;

    found = 0;
    if (length > 0)
        head = head_of(bytes, bytes + length, &value);
    if (head == 0 || head + value != length
        || (bytes[0] != 0x71 && bytes[0] != 0x72))
        return 18;
    if (counts) {
        reached(READ_AS + bytes[0] - 0x71u);
        see_head(bytes, head, value, false);
        reached(READ_LISTS + 0);
        reached_if(value == 0, READ_EMPTY + 0);
    }
    const uint8_t *at = bytes + head;
    lists.end[0] = bytes + length;
    for (;;) {
        const uint8_t *end = lists.end[lists.depth - 1];
        bool *any = &lists.any[lists.depth - 1];
        if (at == end) {
            if (--lists.depth == 0)
                return 0;
            continue;
        }
        if (*at == 0) {
            if (counts)
                see_filler(at, &lists);
            at++;
            continue;
        }
        head = head_of(at, end, &value);
        const bool constructed = *at & 0x20;
        if (head == 0 || (constructed && lists.depth == DEPTHS)) {
            if (counts)
                see_fault(at, &lists);
            return head == 0 ? 18 : 19;
        }
        if (counts)
            see_head(at, head, value, true);
        *any = true;
        if (constructed) {
            at += head;
            if (counts) {
                reached(READ_LISTS + lists.depth);
                reached_if(value == 0, READ_EMPTY + lists.depth);
                reached_if(at + value < end && at[value] != 0, READ_BEHIND);
            }
            lists.any[lists.depth] = false;
            lists.end[lists.depth++] = at + value;
            continue;
        }
        if (*at == 0x86) {
            assert(found < COMMANDS);
            commands[found].at = at + head;
            commands[found++].length = value;
        }
        if (counts)
            reached((*at == 0x86 ? READ_COMMANDS : READ_OTHERS) + lists.depth
                    - 1);
        at += head + value;
    }
}

/* A command --------------------------------------------------------------- */

/* What a command writes: values 0 to 3, limits of accumulators 4 to 7, of
 * counters 8 to 11. */
struct writes {
    unsigned times[12];
    uint64_t low[12], high[12]; /* a value is in `low` */
    unsigned elements;
    bool filler[3], long_data, long_element;
};

static bool twelve(const uint8_t *at, uint64_t *value)
{
    *value = 0;
    for (unsigned i = 0; i < 12; i++) {
        const unsigned digit = i % 2 == 0 ? at[i / 2] / 16 : at[i / 2] % 16;
        if (digit > 9)
            return false;
        *value = *value * 10 + digit;
    }
    return true;
}

/* An element's value, so long, to the place its tag names. */
static bool see_element(struct writes *writes, bool counters, unsigned name,
                        const uint8_t *at, size_t size)
{
    const unsigned slot = name % 16 - 1;
    const bool limits = name / 16 == 1;
    const unsigned place = slot + (limits ? counters ? 8 : 4 : 0);

    if (slot > 3 || name / 16 > 1 || (counters && !limits))
        return false;
    if (counters) {
        if (size != 2)
            return false;
        writes->low[place] = at[0];
        writes->high[place] = at[1];
    } else {
        if (size != (limits ? 12 : 6) || !twelve(at, &writes->low[place]))
            return false;
        if (limits && !twelve(at + 6, &writes->high[place]))
            return false;
    }
    writes->times[place]++;
    return true;
}

static bool see_command(const uint8_t *at, size_t length,
                        struct writes *writes)
{
    memset(writes, 0, sizeof *writes);
    if (length < 13 || at[4] + 5u != length || at[5] != 0x81)
        return false;
    if (at[0] != 0x0C || at[1] != 0xDA || at[2] != 0xBF)
        return false;
    if (at[3] != 0x30 && at[3] != 0x35)
        return false;
    if (at[length - 6] != 0x8E || at[length - 5] != 4)
        return false;
    writes->long_data = at[6] > 0x7F;
    if (writes->long_data && (at[6] != 0x81 || length < 14))
        return false;
    if (at[6 + writes->long_data] + 13u + writes->long_data != length)
        return false;

    const uint8_t *next = at + 7 + writes->long_data, *end = at + length - 6;
    while (next < end) {
        const size_t left = (size_t)(end - next);
        if (*next == 0) {
            size_t zeros = 1;
            while (zeros < left && next[zeros] == 0)
                zeros++;
            if (zeros < left)
                writes->filler[writes->elements > 0] = true;
            else if (writes->elements > 0)
                writes->filler[2] = true;
            next += zeros;
            continue;
        }
        const bool more = left > 3 && next[2] == 0x81;
        if (left < 3 || next[0] != 0xDF || (next[2] > 0x7F && !more))
            return false;
        const size_t size = next[2 + more];
        if (size > left - 3 - more
            || !see_element(writes, at[3] == 0x35, next[1], next + 3 + more,
                            size))
            return false;
        writes->long_element = writes->long_element || more;
        writes->elements++;
        next += 3 + more + size;
    }
    return true;
}

/* What a done command reaches, and what the card becomes by it. */
static void do_command(struct card *card, const struct writes *writes)
{
    const struct setup *setup = &card->setup;
    bool limits = false;

    for (unsigned i = 0; i < 12; i++) {
        const unsigned kind = i / 4, slot = i % 4;
        const bool crossed = writes->low[i] > writes->high[i];
        if (writes->times[i] == 0)
            continue;
        reached((kind == 0 ? WRITE_VALUE : kind == 1 ? WRITE_LIMITS
                                                     : WRITE_COUNTER) + slot);
        reached_if(writes->times[i] > 1, WRITE_TWICE + kind);
        reached_if(kind > 0 && crossed, WRITE_CROSSED + kind - 1);
        if (card->due == SECOND_DUE) {
            const struct profile *open = card->open.profile;
            const unsigned on = kind < 2 ? open->accumulator[slot].switches
                                         : open->counter[slot].switches;
            reached_if(!(on & ACTIVE), WRITE_INACTIVE + kind);
        }
        limits = limits || kind > 0;
        if (kind == 0) {
            card->accumulator[slot] = writes->low[i];
            wrote[slot] = new_value[slot] = true;
            continue;
        }
        new_limits[i - 4] = true;
        for (unsigned p = 0; p < setup->profiles; p++) {
            struct profile *profile = &card->setup.profile[p];
            if (kind == 1) {
                profile->accumulator[slot].lower = writes->low[i];
                profile->accumulator[slot].upper = writes->high[i];
            } else {
                profile->counter[slot].lower = (uint8_t)writes->low[i];
                profile->counter[slot].upper = (uint8_t)writes->high[i];
            }
        }
    }
    reached_if(limits, WRITE_IN + setup->profiles - 1u);
    reached_if(writes->elements == 0, WRITE_NOTHING);
    reached_if(writes->elements > 1, WRITE_SEVERAL);
    for (unsigned i = 0; i < 3; i++)
        reached_if(writes->filler[i], WRITE_FILLER + i);
    reached_if(writes->long_data, WRITE_FORM + 0);
    reached_if(writes->long_element, WRITE_FORM + 1);
    reached_if(card->script_count == 15, COUNT_AGAIN);
    card->script_count = card->script_count == 15 ? 0 : card->script_count + 1;
}

/* The command of this place fails. */
static void see_failure(const struct card *card, const struct script *script,
                        unsigned place, const struct writes *writes)
{
    bool any = false;

    for (unsigned i = 0; i < 12; i++)
        any = any || writes->times[i] > 0;
    if (script->messaging == MESSAGING_FAILED) {
        reached(COMMAND_FAILS + 2);
    } else if (card->script_failed_here) {
        reached(COMMAND_FAILS + 3);
        reached_if(!behind_second, FAILED_HERE + 2);
        reached_if(behind_second && failed_before_second, FAILED_HERE + 3);
    } else {
        reached(COMMAND_FAILS + (place > 0));
        reached_if(any, COMMAND_UNDONE);
    }
    reached_if(place + 1 < found, COMMANDS_LEFT);
    reached_if(place > 0, COMMAND_KEPT);
}

static bool same_limits(const struct setup *one, const struct setup *other)
{
    bool same = true;

    for (unsigned p = 0; p < one->profiles; p++)
        for (unsigned i = 0; i < 4; i++) {
            const struct profile *a = &one->profile[p], *b = &other->profile[p];
            same = same && a->accumulator[i].lower == b->accumulator[i].lower
                && a->accumulator[i].upper == b->accumulator[i].upper
                && a->counter[i].lower == b->counter[i].lower
                && a->counter[i].upper == b->counter[i].upper;
        }
    return same;
}

/* The card is as it was expected to be. */
static void check_card(const struct card *expected, const struct card *is)
{
    assert(memcmp(expected->accumulator, is->accumulator,
                  sizeof is->accumulator) == 0);
    assert(memcmp(expected->counter, is->counter, sizeof is->counter) == 0);
    assert(is->setup.cyclics == 0
           || (memcmp(expected->cyclic, is->cyclic, sizeof is->cyclic) == 0
               && expected->last.number == is->last.number));
    assert(same_limits(&expected->setup, &is->setup));
    assert(expected->history == is->history && expected->atc == is->atc);
    assert(expected->due == is->due);
    assert(expected->script_count == is->script_count);
    assert(expected->script_failed == is->script_failed);
    assert(expected->script_failed_here == is->script_failed_here);
}

static void see_refusal(const struct card *before, const struct script *script,
                        unsigned fault)
{
    const bool result = script->messaging > MESSAGING_VERIFIED;

    if (before->due == FIRST_DUE) {
        reached(SCRIPT_REFUSED_2);
        reached_if(result, SCRIPT_REFUSED_2_OF + 0);
        reached_if(fault > 0, SCRIPT_REFUSED_2_OF + fault - 17);
        return;
    }
    const unsigned where = before->due == SECOND_DUE ? 3 : 0;
    if (result) {
        reached(SCRIPT_REFUSED_6 + (script->messaging > 2));
        reached_if(fault > 0, SCRIPT_REFUSED_6_OF + fault - 18);
        reached(SCRIPT_REFUSED_IN + where);
        return;
    }
    reached(SCRIPT_REFUSED_IN + where + fault - 17);
}

static unsigned expected_refusal(const struct card *before,
                                 const struct script *script, unsigned fault)
{
    if (before->due == FIRST_DUE)
        return 2;
    return script->messaging > 1 ? 6 : fault;
}

void observe_script(const struct card *before, const struct card *after,
                    const struct script *script, unsigned refusal)
{
    static struct card expected;
    const unsigned fault = walk(script->template, script->length, false);
    struct writes writes;
    unsigned place = 0;

    expected = *before;
    assert(refusal == expected_refusal(before, script, fault));
    if (refusal == 0 || refusal == 18 || refusal == 19)
        walk(script->template, script->length, true);
    if (refusal > 0) {
        see_refusal(before, script, fault);
        check_card(&expected, after);
        return;
    }
    reached(SCRIPT_DONE + (is_cpace(&before->setup) ? 3 : 0)
            + (before->due == SECOND_DUE ? 2 : started));
    reached_if(found == 0, SCRIPT_NO_COMMAND + script->messaging);
    for (; place < found; place++) {
        const bool reads = see_command(commands[place].at,
                                       commands[place].length, &writes);
        if (!reads || script->messaging == MESSAGING_FAILED
            || expected.script_failed_here) {
            see_failure(&expected, script, place, &writes);
            expected.script_failed = true;
            expected.script_failed_here = true;
            break;
        }
        reached(COMMAND_DONE + (place > 0 ? 2 : found > 1));
        do_command(&expected, &writes);
    }
    check_card(&expected, after);
}
