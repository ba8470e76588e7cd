/* tally [FILE]: the class report (request Ten) for machines, of a stack of
 * papers from the file or standard input: every number, without padding. */
#include <inttypes.h>
#include <stdio.h>

#include "card.h"
#include "class.h"

void say_refused(unsigned refusal, uint64_t paper)
{
    printf("refused %u %" PRIu64 "\n", refusal, paper);
}

void say_sheet(const struct sheet *sheet)
{
    printf("papers %u\n", sheet->papers);
    for (unsigned number = 1; number <= PROFILE_NUMBER_MAX; number++) {
        const uint32_t *given = sheet->given[number];
        printf("profile %u %" PRIu32 " %" PRIu32 " %" PRIu32 "\n", number,
               given[TC], given[AAC], given[ARQC]);
    }
    for (unsigned number = 1; number <= REFUSAL_MAX; number++)
        printf("refusal %u %" PRIu32 "\n", number, sheet->refused[number]);
    for (unsigned code = 0; code <= CURRENCY_MAX; code++)
        if (sheet->approved[code])
            printf("currency %04X %" PRIu64 "\n", code, sheet->sum[code]);
}
