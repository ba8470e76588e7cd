/* The fields of CPA Annex D5: the data of its two commands, and the stretches
 * that its tables name. A field lies in the very data it was found in. */
#include <stdio.h>
#include <string.h>

#include "log.h"

static const uint8_t first[] = {
    0x00, 0x00, 0x00, 0x01, 0x00, 0x00, /* amount */
    0x00, 0x00, 0x00, 0x00, 0x00, 0x00, /* other amount */
    0x08, 0x40,                         /* terminal country */
    0x00, 0x00, 0x00, 0x10, 0x00,       /* TVR */
    0x08, 0x40,                         /* currency */
    0x05, 0x11, 0x01,                   /* date */
    0x00,                               /* transaction type */
    0x11, 0x22, 0x33, 0x44,             /* unpredictable number */
    0x11,                               /* terminal type */
    0x01, 0x00, 0x02,                   /* CVM results */
    0xFF, 0x80, 0xF0, 0xF3, 0xFF        /* additional capabilities */
};
static const uint8_t second[] = {
    0x9C, 0x77, 0x06, 0x61, 0x03, 0xFF, 0x00, 0x00, /* authentication data */
    0x30, 0x30,                                     /* response code */
    0x00, 0x00, 0x00, 0x00, 0x00,                   /* TVR */
    0x44, 0x44, 0x44, 0x44                          /* unpredictable number */
};

_Static_assert(sizeof first == 38 && sizeof second == 19, "as Annex D5 has it");

static unsigned cases, wrong;

static void expect(uint8_t source, uint8_t position, uint8_t length,
                   const uint8_t *at, const char *expected)
{
    const struct stretch field =
        log_field(first, second, source, position, length);
    char hex[2 * 255 + 1] = "";

    for (size_t i = 0; i < field.length; i++)
        snprintf(hex + 2 * i, 3, "%02X", field.at[i]);
    cases++;
    if ((field.length > 0 && field.at != at) || strcmp(hex, expected) != 0) {
        wrong++;
        printf("(%u, %u, %u): expected %s at byte %d, but got %s at byte %d\n",
               source, position, length, expected, position, hex,
               (int)(field.at - (source == 0 ? first : second)) + 1);
    }
}

int main(void)
{
    expect(0, 0x0D, 2, first + 12, "0840");
    expect(0, 0x22, 5, first + 33, "FF80F0F3FF");
    expect(0, 0x0F, 5, first + 14, "0000001000");
    expect(1, 0x0B, 5, second + 10, "0000000000");
    expect(0, 0x27, 0, first + 38, "");
    expect(0, 0x01, 1, first, "00");
    expect(0, 0x26, 1, first + 37, "FF");
    expect(1, 0x01, 2, second, "9C77");
    expect(1, 0x09, 2, second + 8, "3030");
    expect(1, 0x13, 1, second + 18, "44");
    expect(1, 0x14, 0, second + 19, "");
    expect(0, 0x00, 0, first, "");
    expect(0, 0x00, 255, first, "");
    expect(1, 0x00, 5, second, "");
    printf("%u fields, %u wrong\n", cases, wrong);
    return wrong > 0;
}
