/* Request Ten: the sheet of a class, and the papers that it takes. */
#ifndef MODEL_SHEET_H
#define MODEL_SHEET_H

#include <stdbool.h>
#include <stddef.h>
#include <stdint.h>

enum {
    PAPERS_MAX = 200,
    CURRENCIES_MAX = 32,
    PROFILE_NUMBER_MAX = 124,
    REFUSAL_MAX = 19,
    CURRENCY_MAX = 0x0999
};

/* Every number has a place of its own: a profile's, a refusal's, a currency's
 * as it stands in a paper. */
struct sheet {
    unsigned papers; /* taken */
    uint32_t given[PROFILE_NUMBER_MAX + 1][3]; /* AAC, TC, ARQC */
    uint32_t refused[REFUSAL_MAX + 1];
    bool approved[CURRENCY_MAX + 1]; /* something offline, if only 0 */
    uint64_t sum[CURRENCY_MAX + 1];  /* of these amounts */
};

/* Takes a paper, and is 0. It is refused with 16 if 200 are taken, else with 15
 * if the sheet came to more than 32 currencies: then nothing of it is on the
 * sheet. */
unsigned take_paper(struct sheet *sheet, const uint8_t *paper, size_t length);

#endif
