#include "sitting.h"

#include <string.h>

#include "bytes.h"
#include "reached.h"

enum {
    INTERFACE_BYTES = 1,
    PROFILE_BYTES = 1,
    FIRST_BYTES = 12,
    DATE_BYTES = 3,
    CVM_BYTES = 3,
    CASHBACK_BYTES = 6,
    SECOND_BYTES = 8,
    MESSAGING_BYTES = 1,
    ENTRY_BYTES = 3
};

static unsigned unreadable(unsigned cause)
{
    reached(cause);
    return 9;
}

struct record record_at(const uint8_t *at)
{
    return (struct record){
        .kind = at[2],
        .body = at + 3,
        .length = get16(at) - 1u,
    };
}

/* Takes the next record, which must be whole and of a known kind. Before there
 * is a set-up none has scripts. */
static bool take(const struct setup *setup, const uint8_t **place,
                 const uint8_t *end, struct record *record)
{
    const uint8_t *at = *place;
    const size_t left = (size_t)(end - at);
    const unsigned later = setup != NULL;

    if (left < 2)
        return fault(CUT_IN_LENGTH + later);
    const size_t length = get16(at);
    if (length > left - 2)
        return fault((left == 2 ? CUT_AFTER_LENGTH : CUT_IN_BODY) + later);
    if (length == 0)
        return fault(KIND_NONE + later);
    *record = record_at(at);
    if (record->kind == 0)
        return fault(KIND_ZERO + later);
    if (record->kind > KIND_SECOND
        && !(record->kind == KIND_SCRIPT && later && setup->scripts))
        return fault(KIND_ABOVE + later);
    *place = at + 2 + length;
    return true;
}

static size_t first_length(const struct setup *setup)
{
    return FIRST_BYTES + (setup->cyclics > 0 ? DATE_BYTES : 0)
        + (is_cpace(setup) ? CVM_BYTES + CASHBACK_BYTES : 0);
}

/* Whether no entry of the log tables reaches past the data that it means. One
 * at position 0 means none. */
static bool tables_fit(const struct setup *setup)
{
    const size_t lengths[] = {first_length(setup), SECOND_BYTES};

    for (unsigned whose = OF_FIRST; whose <= OF_SECOND; whose++) {
        const struct log_table *table = &setup->log.table[whose];
        const uint8_t *at = table->entry;
        for (unsigned i = 0; i < table->entries; i++, at += ENTRY_BYTES) {
            const unsigned source = at[0], position = at[1], length = at[2];
            if (position > 0 && position - 1 + length > lengths[source])
                return fault(PAST_DATA + past_data(whose, source,
                                                   lengths[source]));
        }
    }
    return true;
}

/* The paper's own faults, then record 0. */
static unsigned set_up(struct sitting *sitting)
{
    struct record record;

    if (sitting->length == 0)
        return unreadable(PAPER_EMPTY);
    if (sitting->length > PAPER_MAX)
        return unreadable(PAPER_LONG);
    const unsigned version = *sitting->at++;
    if (version == 0 || version > VERSION_MAX)
        return unreadable(PAPER_VERSION + (version > 0));
    if (sitting->at == sitting->end)
        return unreadable(PAPER_BARE);
    if (!take(NULL, &sitting->at, sitting->end, &record))
        return 9;
    if (record.kind != KIND_SETUP)
        return unreadable(SETUP_MISSING + record.kind - KIND_START);
    if (!card_set_up(&sitting->card, version, record.body, record.length))
        return 1;
    if (!tables_fit(&sitting->card.setup))
        return 14;
    return 0;
}

static char *put_number(char *at, unsigned value)
{
    char digits[10];
    unsigned count = 0;

    do {
        digits[count++] = (char)('0' + value % 10);
        value /= 10;
    } while (value > 0);
    while (count > 0)
        *at++ = digits[--count];
    return at;
}

static char hex(unsigned nibble)
{
    return (char)(nibble < 10 ? '0' + nibble : 'A' - 10 + nibble);
}

char *put_hex(char *at, const uint8_t *bytes, size_t count)
{
    for (size_t i = 0; i < count; i++) {
        at[2 * i] = hex(bytes[i] >> 4);
        at[2 * i + 1] = hex(bytes[i] & 15);
    }
    return at + 2 * count;
}

static char *put_answer(char *at, const struct card *card,
                        const struct answer *answer)
{
    *at++ = ' ';
    at = put_hex(at, &answer->cid, 1);
    *at++ = ' ';
    at = put_number(at, card->atc);
    *at++ = ' ';
    return put_hex(at, answer->iad, IAD_BYTES);
}

void sitting_open(struct sitting *sitting, const uint8_t *paper, size_t length)
{
    sitting->at = paper;
    sitting->end = paper + length;
    sitting->length = length;
    sitting->record = 0;
    sitting->over = false;
    sitting->shown = 0;
    log_open(&sitting->log);
}

struct start read_start(const struct record *record)
{
    return (struct start){.data = record->body, .length = record->length};
}

struct first read_first(const struct record *record)
{
    const uint8_t *body = record->body;
    const uint8_t *end = body + record->length;

    return (struct first){
        .type = body[0],
        .amount = get64(body + 1),
        .currency = get16(body + 9),
        .terminal = body[11],
        .date = body + FIRST_BYTES,
        .cvm_results = end - CASHBACK_BYTES - CVM_BYTES,
        .cashback = end - CASHBACK_BYTES,
    };
}

struct second read_second(const struct record *record)
{
    const uint8_t *body = record->body;

    return (struct second){
        .type = body[0],
        .code = get16(body + 1),
        .issuer_data = body[3],
        .csu = body + 4,
    };
}

struct script read_script(const struct record *record)
{
    return (struct script){
        .messaging = record->body[0],
        .template = record->body + MESSAGING_BYTES,
        .length = record->length - MESSAGING_BYTES,
    };
}

/* Whether a Start is as long as the set-up has it. */
static bool fits_start(const struct setup *setup, size_t length)
{
    const size_t before = is_cpace(setup) ? INTERFACE_BYTES : 0;

    if (setup->selection.on)
        return length >= before;
    return length == before + PROFILE_BYTES;
}

/* Whether a record is a command's, its body as long as the set-up has it. */
static bool fits(const struct setup *setup, const struct record *record)
{
    const bool cpace = is_cpace(setup);

    switch (record->kind) {
    case KIND_START:
        return fits_start(setup, record->length)
            || fault(START_LENGTH
                     + bad_start(record->length, setup->selection.on, cpace));
    case KIND_FIRST:
        return record->length == first_length(setup)
            || fault(FIRST_LENGTH
                     + bad_first(record->length, setup->cyclics > 0, cpace));
    case KIND_SECOND:
        return record->length == SECOND_BYTES
            || fault(SECOND_LENGTH + (record->length > SECOND_BYTES));
    case KIND_SCRIPT:
        return record->length >= MESSAGING_BYTES || fault(SCRIPT_LENGTH);
    default:
        return fault(SETUP_REPEATED);
    }
}

bool take_command(const struct setup *setup, const uint8_t **place,
                  const uint8_t *end, struct record *command)
{
    return take(setup, place, end, command) && fits(setup, command);
}

unsigned answer_command(struct card *card, struct log *log,
                        const struct record *command, struct reply *reply)
{
    unsigned refusal;

    switch (command->kind) {
    case KIND_START: {
        const struct start start = read_start(command);
        return card_start(card, &start, &reply->visits);
    }
    case KIND_FIRST: {
        const struct first first = read_first(command);
        refusal = card_first(card, &first, &reply->answer);
        if (refusal == 0)
            log_first(log, card, command->body, &reply->answer);
        return refusal;
    }
    case KIND_SECOND: {
        const struct second second = read_second(command);
        refusal = card_second(card, &second, &reply->answer);
        if (refusal == 0)
            log_second(log, card, command->body, is_unable(second.code),
                       &reply->answer);
        return refusal;
    }
    default: {
        const struct script script = read_script(command);
        return card_script(card, &script);
    }
    }
}

/* What follows the 0 of a done command. */
static char *put_reply(char *at, const struct card *card, uint8_t kind,
                       const struct reply *reply)
{
    switch (kind) {
    case KIND_START:
        *at++ = ' ';
        at = put_number(at, card->atc);
        if (!card->setup.selection.on)
            return at;
        *at++ = ' ';
        return put_number(at, reply->visits);
    case KIND_SCRIPT:
        return at;
    default:
        return put_answer(at, card, &reply->answer);
    }
}

/* Answers the next command; *rest is what follows the 0 of a done one. */
static unsigned answer_next(struct sitting *sitting, char **rest)
{
    struct card *card = &sitting->card;
    struct record command;
    struct reply reply;

    if (!take_command(&card->setup, &sitting->at, sitting->end, &command))
        return 9;
    const unsigned refusal =
        answer_command(card, &sitting->log, &command, &reply);
    if (refusal == 0)
        *rest = put_reply(*rest, card, command.kind, &reply);
    return refusal;
}

size_t sitting_line(struct sitting *sitting, char *line)
{
    if (sitting->over)
        return 0;
    if (sitting->record > 0 && sitting->at == sitting->end)
        return 0;

    char *at = put_number(line, sitting->record);
    *at++ = ' ';
    char *rest = at + 1;
    const unsigned refusal = sitting->record == 0
        ? set_up(sitting)
        : answer_next(sitting, &rest);
    if (refusal == 0)
        *at = '0';
    else
        rest = put_number(at, refusal);
    *rest++ = '\n';

    sitting->record++;
    sitting->over = refusal == 1 || refusal == 9 || refusal == 14;
    return (size_t)(rest - line);
}

/* Twelve decimal digits. */
static char *put_amount(char *at, uint64_t amount)
{
    for (unsigned i = 12; i > 0; i--) {
        at[i - 1] = (char)('0' + amount % 10);
        amount /= 10;
    }
    return at + 12;
}

/* CPA Tables 15-11 and 17-14: what every record has, what the switches ask for,
 * and the fields of the table of the command that closed the transaction. */
static char *put_record(char *at, const struct setup *setup,
                        const struct log_record *record)
{
    static const uint8_t no_date[DATE_BYTES];
    const uint8_t *first = record->first;
    const struct log_table *table =
        &setup->log.table[record->second ? OF_SECOND : OF_FIRST];
    const uint8_t *entry = table->entry;
    uint8_t atc[2];

    at = put_amount(at, get64(first + 1));
    at = put_hex(at, first + 9, 2);
    at = put_hex(at, setup->cyclics > 0 ? first + FIRST_BYTES : no_date,
                 DATE_BYTES);
    if (setup->log.switches & LOG_CVR)
        at = put_hex(at, record->cvr, sizeof record->cvr);
    put16(atc, record->atc);
    if (setup->log.switches & LOG_ATC)
        at = put_hex(at, atc, sizeof atc);
    if (setup->log.switches & LOG_CID)
        at = put_hex(at, &record->cid, 1);
    for (unsigned i = 0; i < table->entries; i++, entry += ENTRY_BYTES) {
        const struct stretch field = log_field(first, record->second, entry[0],
                                               entry[1], entry[2]);
        at = put_hex(at, field.at, field.length);
    }
    return at;
}

size_t sitting_log_line(struct sitting *sitting, char *line)
{
    const struct setup *setup = &sitting->card.setup;
    const unsigned number = sitting->shown + 1;

    if (sitting->over)
        return 0;
    const struct log_record *record =
        log_record(&sitting->log, setup, number);
    if (!record)
        return 0;
    memcpy(line, "log ", 4);
    char *at = put_number(line + 4, number);
    *at++ = ' ';
    at = put_record(at, setup, record);
    *at++ = '\n';
    sitting->shown = number;
    return (size_t)(at - line);
}
