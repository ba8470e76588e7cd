#include "sheet.h"

#include <stdlib.h>

#include "sitting.h"

enum { IAD_PROFILE = 17 }; /* its place in an IAD */

static unsigned currencies(const struct sheet *sheet)
{
    unsigned count = 0;

    for (unsigned code = 0; code <= CURRENCY_MAX; code++)
        count += sheet->approved[code];
    return count;
}

/* The transaction's amount and currency are its First's. */
static void count_approval(struct sheet *sheet, const struct first *first)
{
    sheet->approved[first->currency] = true;
    sheet->sum[first->currency] += first->amount;
}

/* A command that was done. Start and Script give no cryptogram; *first is the
 * last First that was done. */
static void count_done(struct sheet *sheet, const struct record *command,
                       const struct answer *answer, struct first *first)
{
    bool offline = true;

    switch (command->kind) {
    case KIND_FIRST:
        *first = read_first(command);
        break;
    case KIND_SECOND:
        offline = is_unable(read_second(command).code);
        break;
    default:
        return;
    }
    const unsigned type = answer->cid >> 6;
    sheet->given[answer->iad[IAD_PROFILE]][type]++;
    if (type == TC && offline)
        count_approval(sheet, first);
}

/* The refusal that answers the set-up. */
static unsigned set_up(struct sitting *sitting, const uint8_t *paper,
                       size_t length)
{
    char line[LINE_MAX_BYTES];

    sitting_open(sitting, paper, length);
    sitting_line(sitting, line);
    return (unsigned)strtoul(line + 2, NULL, 10); /* behind "0 " */
}

/* Counts what the paper's lines say, as far as they stand. */
static void count_paper(struct sheet *sheet, const uint8_t *paper,
                        size_t length)
{
    static struct sitting sitting;
    struct record command;
    struct reply reply;
    struct first first = {0};
    unsigned refusal = set_up(&sitting, paper, length);

    if (refusal > 0) {
        sheet->refused[refusal]++;
        return;
    }
    while (sitting.at < sitting.end) {
        if (!take_command(&sitting.card.setup, &sitting.at, sitting.end,
                          &command)) {
            sheet->refused[9]++;
            return;
        }
        refusal =
            answer_command(&sitting.card, &sitting.log, &command, &reply);
        if (refusal > 0)
            sheet->refused[refusal]++;
        else
            count_done(sheet, &command, &reply.answer, &first);
    }
}

unsigned take_paper(struct sheet *sheet, const uint8_t *paper, size_t length)
{
    static struct sheet with;

    if (sheet->papers == PAPERS_MAX)
        return 16;
    with = *sheet;
    with.papers++;
    count_paper(&with, paper, length);
    if (currencies(&with) > CURRENCIES_MAX)
        return 15;
    *sheet = with;
    return 0;
}
