#include "log.h"

#include <string.h>

void log_open(struct log *log)
{
    log->first = NULL;
    log->logged = 0;
}

/* CPA 15.82 and 17.88: whether a transaction is logged that closes with this
 * type, approved offline or not. */
static bool is_logged(const struct card *card, unsigned type, bool offline)
{
    const uint8_t switches = card->setup.log.switches;

    if (card->setup.log.size == 0 || !card->open.profile->log)
        return false;
    if (type == AAC)
        return switches & LOG_DECLINED;
    return switches & LOG_APPROVED
        && (offline || !(switches & LOG_OFFLINE_ONLY));
}

/* The oldest record goes where the ring is full. */
static void append(struct log *log, const struct card *card,
                   const uint8_t *second, const struct answer *answer)
{
    struct log_record *record =
        &log->ring[log->logged++ % card->setup.log.size];

    record->first = log->first;
    record->second = second;
    record->atc = card->atc;
    record->cid = answer->cid;
    memcpy(record->cvr, answer->iad + 3, sizeof record->cvr);
}

void log_first(struct log *log, const struct card *card, const uint8_t *data,
               const struct answer *answer)
{
    const unsigned type = answer->cid >> 6;

    log->first = data;
    if (type != ARQC && is_logged(card, type, true))
        append(log, card, NULL, answer);
}

void log_second(struct log *log, const struct card *card, const uint8_t *data,
                bool unable, const struct answer *answer)
{
    if (is_logged(card, answer->cid >> 6, unable))
        append(log, card, data, answer);
}

const struct log_record *log_record(const struct log *log,
                                    const struct setup *setup, unsigned k)
{
    if (k > setup->log.size || k > log->logged)
        return NULL;
    return &log->ring[(log->logged - k) % setup->log.size];
}

struct stretch log_field(const uint8_t *first, const uint8_t *second,
                         uint8_t source, uint8_t position, uint8_t length)
{
    const uint8_t *data = source == OF_FIRST ? first : second;

    if (position == 0)
        return (struct stretch){data, 0};
    return (struct stretch){data + position - 1, length};
}
