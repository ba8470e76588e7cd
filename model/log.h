/* Request Eight: the transaction log of CPA Annex D. A record keeps where the
 * data of its commands lie, and of the answer what it may show. */
#ifndef MODEL_LOG_H
#define MODEL_LOG_H

#include "card.h"

/* A part of a command's data, where it lies. */
struct stretch {
    const uint8_t *at;
    size_t length;
};

struct log_record {
    const uint8_t *first;
    const uint8_t *second; /* NULL if First closed the transaction */
    uint16_t atc;
    uint8_t cid;
    uint8_t cvr[5];
};

struct log {
    const uint8_t *first; /* the data of the last First that was done */
    size_t logged;        /* all records, those that are gone too */
    struct log_record ring[LOG_RECORDS];
};

void log_open(struct log *log);

/* A First or a Second that was done: its data, which are not copied, and its
 * answer. After Second it is said whether the issuer could not be reached. */
void log_first(struct log *log, const struct card *card, const uint8_t *data,
               const struct answer *answer);
void log_second(struct log *log, const struct card *card, const uint8_t *data,
                bool unable, const struct answer *answer);

/* Record k, of which 1 is the newest; NULL if there are fewer. */
const struct log_record *log_record(const struct log *log,
                                    const struct setup *setup, unsigned k);

/* What an entry of a table means: position 1 is the first byte of the data,
 * position 0 means nothing. */
struct stretch log_field(const uint8_t *first, const uint8_t *second,
                         uint8_t source, uint8_t position, uint8_t length);

#endif
