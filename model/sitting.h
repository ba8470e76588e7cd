/* A paper, walked record by record, and the line that answers each. */
#ifndef MODEL_SITTING_H
#define MODEL_SITTING_H

#include "card.h"
#include "log.h"

enum {
    PAPER_MAX = 65536,
    /* "21783 0 40 65535 ", 64 digits and a line feed fit */
    LINE_MAX_BYTES = 96,
    /* "log 20 ", 19 bytes, 255 fields of 24 bytes and a line feed */
    LOG_LINE_MAX_BYTES = 7 + 2 * (19 + 255 * 24) + 1
};

struct record {
    const uint8_t *body;
    size_t length; /* of the body */
    uint8_t kind;
};

struct sitting {
    const uint8_t *at, *end; /* what is left of the paper */
    size_t length;
    unsigned record;         /* number of the next line */
    bool over;
    unsigned shown;          /* log lines */
    struct card card;
    struct log log;
};

void sitting_open(struct sitting *sitting, const uint8_t *paper, size_t length);

/* Writes the next line, line feed included, and returns its length; 0 when
 * the paper has no more. The room must be LINE_MAX_BYTES. */
size_t sitting_line(struct sitting *sitting, char *line);

/* Behind the last line of a paper that no refusal ended: the next line of its
 * log, and 0 when there is no more. The room must be LOG_LINE_MAX_BYTES. */
size_t sitting_log_line(struct sitting *sitting, char *line);

/* Whether the set-up was taken; asked behind the first line. */
static inline bool has_card(const struct sitting *sitting)
{
    return sitting->record > 1 || !sitting->over;
}

/* What a done command gives besides its 0. */
struct reply {
    unsigned visits;      /* of a Start, with selection on */
    struct answer answer; /* of a First or a Second */
};

/* The next command of a paper or of a run: a record that is whole, of a kind
 * and a length that the set-up has. False is refusal 9. */
bool take_command(const struct setup *setup, const uint8_t **place,
                  const uint8_t *end, struct record *command);

/* The refusal, 0 when done; a transaction that is closed is logged. */
unsigned answer_command(struct card *card, struct log *log,
                        const struct record *command, struct reply *reply);

/* Bytes in hex, upper case; returns where they end. */
char *put_hex(char *at, const uint8_t *bytes, size_t count);

/* The record that begins here, and what a body says; it is whole and of the
 * right kind and length. A First's date is behind the rest, what a CPACE card
 * asks for at its end. */
struct record record_at(const uint8_t *at);
struct start read_start(const struct record *record);
struct first read_first(const struct record *record);
struct second read_second(const struct record *record);
struct script read_script(const struct record *record);

#endif
