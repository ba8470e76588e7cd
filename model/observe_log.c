#include "observe_log.h"

#include <assert.h>
#include <inttypes.h>
#include <stdio.h>
#include <string.h>

#include "bytes.h"
#include "reached.h"

enum { ENTRY = 3, SECOND_DATA = 8, ALL = LOG_DECLINED | LOG_APPROVED };

static void reached_if(bool holds, unsigned cause)
{
    if (holds)
        reached(cause);
}

/* The newest records, the very newest first, and how many there were. */
static struct shown {
    char text[LOG_LINE_MAX_BYTES];
    unsigned of;
    uint64_t amount;
    uint16_t atc;
    bool in_error;
} newest[LOG_RECORDS];
static size_t made;

/* The data of the open transaction's First, and what came since. */
static struct record open_first;
static bool since[4];

/* The set-up -------------------------------------------------------------- */

static bool is_dated(const struct setup *setup)
{
    return setup->cyclics > 0;
}

static size_t data_length(const struct setup *setup, unsigned source)
{
    static const uint8_t lengths[] = {12, 15, 21, 24};

    return source == OF_SECOND ? SECOND_DATA
                               : lengths[is_dated(setup) + 2 * is_cpace(setup)];
}

static void see_entry(const struct setup *setup, unsigned whose,
                      const uint8_t *entry)
{
    const unsigned row = FIELD_TAKEN + 7 * (whose + entry[0]);
    const size_t data = data_length(setup, entry[0]);
    const size_t from = entry[1], count = entry[2];

    if (from == 0) {
        reached(row + (count > data));
    } else if (count == 0) {
        reached(row + 2 + (from > data));
    } else {
        reached_if(count == 1, row + 4);
        reached_if(from + count == data + 1, row + 5);
        reached_if(count == data, row + 6);
    }
}

/* So many of something: none, one, some or the most. */
static unsigned amount_of(size_t count, size_t most)
{
    if (count < 2)
        return (unsigned)count;
    return 2 + (count == most);
}

void observe_log_setup(const struct setup *setup)
{
    made = 0;
    if (!setup->log.on)
        return;
    reached(RING_TAKEN + amount_of(setup->log.size, LOG_RECORDS));
    for (unsigned i = 0; i < 6; i++)
        reached(LOG_SWITCH + 2 * i + (setup->log.switches >> (i + 2) & 1));
    for (unsigned i = 0; i < setup->profiles; i++)
        reached(LOG_ON + 2 * i + setup->profile[i].log);
    for (unsigned whose = 0; whose < 2; whose++) {
        const struct log_table *table = &setup->log.table[whose];
        reached(TABLE_TAKEN + 4 * whose + amount_of(table->entries, 255));
        for (unsigned i = 0; i < table->entries; i++)
            see_entry(setup, whose, table->entry + ENTRY * i);
    }
}

/* Where an entry's field would end, counted from the data's first byte. */
static unsigned end_of(const uint8_t *entry)
{
    return entry[1] == 0 ? 0 : entry[1] + entry[2] - 1u;
}

/* The entry that was met first, in this place of its table. */
static void see_past(const struct setup *setup, unsigned whose, unsigned i,
                     const uint8_t *entry)
{
    const size_t data = data_length(setup, entry[0]);
    const unsigned end = end_of(entry);

    reached(PAST_AT + 3 * whose + (i == 0 ? 0 : 1 + (i == 254)));
    reached(PAST_BY + (end > data + 1));
    reached_if(entry[1] > data && entry[2] > 0, PAST_BY + 2);
    reached_if(entry[2] == 0, PAST_BY + 3);
    reached_if(end > 255, PAST_BY + 4);
    reached_if(entry[0] == OF_SECOND && end <= data_length(setup, OF_FIRST),
               PAST_OTHER);
}

void observe_log_past(const struct setup *setup)
{
    bool any = false;

    for (unsigned i = 0; i < setup->profiles; i++)
        any = any || setup->profile[i].log;
    reached_if(setup->log.size == 0, PAST_UNUSED + 0);
    reached_if(!(setup->log.switches & ALL), PAST_UNUSED + 1);
    reached_if(!any, PAST_UNUSED + 2);
    for (unsigned whose = 0; whose < 2; whose++)
        for (unsigned i = 0; i < setup->log.table[whose].entries; i++) {
            const uint8_t *entry = setup->log.table[whose].entry + ENTRY * i;
            if (end_of(entry) > data_length(setup, entry[0])) {
                see_past(setup, whose, i, entry);
                return;
            }
        }
    assert(!"an entry is past its data");
}

/* Commands ---------------------------------------------------------------- */

/* Every transaction that closes is logged, whatever the profile. */
static bool logs_all(const struct setup *setup)
{
    for (unsigned i = 0; i < setup->profiles; i++)
        if (!setup->profile[i].log)
            return false;
    return setup->log.size > 0
        && (setup->log.switches & (ALL | LOG_OFFLINE_ONLY)) == ALL;
}

/* In the order of NO_RECORD, if it closes nothing whatever is asked. */
static unsigned kind_of(const struct sitting *before,
                        const struct record *record, unsigned refusal)
{
    switch (record->kind) {
    case KIND_START:
        return refusal > 0 ? 6 : 1 + (before->card.due == SECOND_DUE);
    case KIND_FIRST:
        return refusal > 0 ? 4 : 0;
    case KIND_SECOND:
        return 5;
    default:
        return refusal > 0 ? 7 : 3;
    }
}

void observe_log_command(const struct sitting *before,
                         const struct record *record, unsigned refusal)
{
    const unsigned kind = kind_of(before, record, refusal);

    reached_if(logs_all(&before->card.setup)
               && (refusal > 0 || record->kind == KIND_START
                   || record->kind == KIND_SCRIPT),
               NO_RECORD + kind);
    since[0] = since[0] || kind == 4;
    since[1] = since[1] || (kind == 5 && refusal > 0);
    since[2] = since[2] || kind == 6;
    since[3] = since[3] || kind == 3;
    if (record->kind == KIND_FIRST && refusal == 0) {
        open_first = *record;
        memset(since, 0, sizeof since);
    }
}

/* Of this record so many bytes, as they stand in the paper. */
static size_t put_bytes(char *text, const struct record *record, size_t from,
                        size_t count)
{
    assert(from + count <= record->length);
    for (size_t i = 0; i < count; i++)
        sprintf(text + 2 * i, "%02X", record->body[from + i]);
    return 2 * count;
}

/* A record as it will be shown. */
static void make(struct shown *shown, const struct card *card,
                 const struct record *second, unsigned given)
{
    const struct setup *setup = &card->setup;
    const uint8_t switches = setup->log.switches;
    const struct log_table *table = &setup->log.table[second != NULL];
    const struct record *const data[] = {&open_first, second};
    const uint8_t *cvr = card->open.cvr;
    char *text = shown->text;

    shown->of = 4 * (second != NULL) + is_dated(setup) + 2 * is_cpace(setup);
    shown->amount = get64(open_first.body + 1);
    shown->atc = card->atc;
    shown->in_error = card->open.date_error;
    text += sprintf(text, "%012" PRIu64, shown->amount);
    text += put_bytes(text, &open_first, 9, 2);
    if (is_dated(setup))
        text += put_bytes(text, &open_first, 12, 3);
    else
        text += sprintf(text, "000000");
    if (switches & 0x04)
        text += sprintf(text, "%02X%02X%02X%02X%02X", cvr[0], cvr[1], cvr[2],
                        cvr[3], cvr[4]);
    if (switches & 0x10)
        text += sprintf(text, "%04X", card->atc);
    if (switches & 0x08)
        text += sprintf(text, "%02X", 64 * given);
    for (unsigned i = 0; i < table->entries; i++) {
        const uint8_t *entry = table->entry + ENTRY * i;
        if (entry[1] > 0)
            text += put_bytes(text, data[entry[0]], entry[1] - 1u, entry[2]);
    }
    *text = '\0';
}

static void see_closed(const struct card *card, const struct record *record,
                       unsigned way, unsigned given)
{
    const struct log_rule *rule = &card->setup.log;
    const bool at_first = record->kind == KIND_FIRST;
    const uint16_t code = at_first ? 0 : get16(record->body + 1);
    const bool offline = at_first || code == UNABLE_Y3 || code == UNABLE_Z3;
    const bool only = rule->switches & LOG_OFFLINE_ONLY;
    const bool reasons[] = {
        rule->size == 0, !card->open.profile->log,
        given == AAC && !(rule->switches & LOG_DECLINED),
        given == TC && !(rule->switches & LOG_APPROVED),
        given == TC && only && !offline};
    unsigned count = 0, reason = 0;

    if (!rule->on)
        return;
    for (unsigned i = 0; i < sizeof reasons / sizeof *reasons; i++)
        if (reasons[i]) {
            count++;
            reason = i;
        }
    reached_if(count == 1, LEFT_OUT_BY + reason);
    if (count > 0) {
        reached(LEFT_OUT_AS + way);
        return;
    }
    reached(LOGGED_AS + way);
    if (only && given == TC)
        reached(OFFLINE_KEEPS + (at_first ? 0 : 1 + (code == UNABLE_Z3)));
    else if (only)
        reached(OFFLINE_KEEPS + (at_first ? 3 : 4 + !offline));
    for (unsigned i = 0; i < 4 && !at_first; i++)
        reached_if(since[i], BETWEEN + i);
    memmove(newest + 1, newest, sizeof newest - sizeof *newest);
    make(newest, card, at_first ? NULL : record, given);
    made++;
}

void observe_log_answer(const struct card *card, const struct record *record,
                        unsigned way, unsigned given)
{
    if (given == ARQC)
        reached_if(logs_all(&card->setup), NO_RECORD + 0);
    else
        see_closed(card, record, way, given);
}

/* The lines --------------------------------------------------------------- */

void observe_log_line(const struct sitting *after)
{
    assert(after->log.logged == made);
}

/* Which part of a command's data an entry begins with. */
static unsigned part_of(const struct setup *setup, const uint8_t *entry)
{
    static const uint8_t first[] = {1, 9, 11, 12, 15, 18, 24};
    static const uint8_t second[] = {1, 3, 4, 8};
    unsigned position = entry[1], part = 0;

    if (entry[0] == OF_SECOND) {
        while (position > second[part])
            part++;
        return 7 + part;
    }
    if (position > 12 && !is_dated(setup))
        position += 3;
    while (position > first[part])
        part++;
    return part;
}

static void see_shown(const struct setup *setup, const struct shown *shown)
{
    const struct log_table *table = &setup->log.table[shown->of / 4];

    reached(SHOWN_OF + shown->of);
    reached_if(is_dated(setup), SHOWN_DATE + shown->in_error);
    reached_if(setup->log.switches & LOG_ATC && shown->atc > 255, SHOWN_ATC);
    reached_if(shown->amount == 0, SHOWN_AMOUNT + 0);
    reached_if(shown->amount == AMOUNT_MAX, SHOWN_AMOUNT + 1);
    reached_if(strlen(shown->text) == 2 * (19 + 255 * 24), SHOWN_LONGEST);
    for (unsigned i = 0; i < table->entries; i++) {
        const uint8_t *entry = table->entry + ENTRY * i;
        if (entry[1] > 0 && entry[2] > 0)
            reached(SHOWN_FIELD + part_of(setup, entry));
    }
}

void observe_log_end(const struct sitting *sitting)
{
    static struct sitting at_end;
    static char line[LOG_LINE_MAX_BYTES];
    const struct setup *setup = &sitting->card.setup;
    unsigned lines = 0;
    size_t length;

    at_end = *sitting;
    while ((length = sitting_log_line(&at_end, line)) > 0) {
        assert(lines < LOG_RECORDS && lines < made);
        const struct shown *shown = &newest[lines++];
        char head[16];
        const size_t before = (size_t)sprintf(head, "log %u ", lines);
        const size_t rest = strlen(shown->text);
        assert(length == before + rest + 1 && line[length - 1] == '\n');
        assert(memcmp(line, head, before) == 0);
        assert(memcmp(line + before, shown->text, rest) == 0);
        see_shown(setup, shown);
    }
    if (sitting->over) {
        assert(lines == 0);
        reached_if(sitting->record > 1 && made > 0, ENDED);
        return;
    }
    const size_t size = setup->log.size;
    assert(lines == (made < size ? made : size));
    if (!setup->log.on)
        return;
    reached(LOG_LINES + amount_of(lines, LOG_RECORDS));
    if (size > 0)
        reached(RING_AT_END + (made == 0 ? 0 : made < size ? 1
                               : made == size ? 2 : made < 2 * size ? 3 : 4));
}
