#include "run.h"

#include <string.h>

#include "bytes.h"
#include "sitting.h"

/* False if something there is no command. */
static bool count_commands(const struct setup *setup, const uint8_t *at,
                           const uint8_t *end, size_t *count)
{
    struct record command;

    for (*count = 0; at < end; ++*count)
        if (!take_command(setup, &at, end, &command))
            return false;
    return true;
}

/* The answer's 36 bytes. */
static void put_answer(uint8_t *at, const struct card *card, uint8_t kind,
                       unsigned refusal, const struct reply *reply)
{
    memset(at, 0, ANSWER_BYTES);
    at[0] = (uint8_t)refusal;
    if (refusal > 0 || kind == KIND_SCRIPT)
        return;
    put16(at + 2, card->atc);
    if (kind == KIND_START)
        return;
    at[1] = reply->answer.cid;
    memcpy(at + 4, reply->answer.iad, IAD_BYTES);
}

unsigned run(struct card *card, struct log *log, const uint8_t *records,
             size_t length, uint8_t *room, size_t size, size_t *answers)
{
    const uint8_t *at = records;
    const uint8_t *end = records + length;
    struct record command;
    struct reply reply;
    size_t count;

    *answers = 0;
    if (!count_commands(&card->setup, at, end, &count))
        return 9;
    if (size / ANSWER_BYTES < count)
        return 17;
    for (; *answers < count; ++*answers, room += ANSWER_BYTES) {
        take_command(&card->setup, &at, end, &command);
        const unsigned refusal = answer_command(card, log, &command, &reply);
        put_answer(room, card, command.kind, refusal, &reply);
    }
    return 0;
}
