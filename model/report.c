/* report [FILE]: the class report (request Ten) for the board, of a stack of
 * papers from the file or standard input: one sheet in columns, what is zero
 * left out. */
#include <inttypes.h>
#include <stdio.h>

#include "card.h"
#include "class.h"

void say_refused(unsigned refusal, uint64_t paper)
{
    printf("refused %u paper %20" PRIu64 "\n", refusal, paper);
}

static void say_profiles(const struct sheet *sheet)
{
    for (unsigned number = 1; number <= PROFILE_NUMBER_MAX; number++) {
        const uint32_t *given = sheet->given[number];
        if (given[TC] > 0 || given[AAC] > 0 || given[ARQC] > 0)
            printf("profile %4u TC %8" PRIu32 " AAC %8" PRIu32 " ARQC %8" PRIu32
                   "\n",
                   number, given[TC], given[AAC], given[ARQC]);
    }
    printf("profile rest TC %8u AAC %8u ARQC %8u\n", 0u, 0u, 0u);
}

static void say_refusals(const struct sheet *sheet)
{
    for (unsigned number = 1; number <= REFUSAL_MAX; number++)
        if (sheet->refused[number] > 0)
            printf("refusal %4u %8" PRIu32 "\n", number,
                   sheet->refused[number]);
    printf("refusal rest %8u\n", 0u);
}

void say_sheet(const struct sheet *sheet)
{
    printf("papers %4u\n", sheet->papers);
    say_profiles(sheet);
    say_refusals(sheet);
    for (unsigned code = 0; code <= CURRENCY_MAX; code++)
        if (sheet->approved[code])
            printf("currency %04X %20" PRIu64 "\n", code, sheet->sum[code]);
}
