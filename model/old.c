/* old [FILE]: imports old records, one after the other, from the file or
 * standard input. A line for each, from 1: its number, the refusal, and when
 * done the 15 bytes in hex. What is left over at the end is a record cut
 * short: refusal 9. */
#include <inttypes.h>
#include <stdio.h>

#include "import.h"

int main(int argc, char **argv)
{
    FILE *file = stdin;
    uint8_t old[OLD_BYTES], imported[IMPORTED_BYTES];
    size_t length;

    if (argc > 2) {
        fprintf(stderr, "usage: old [FILE]\n");
        return 1;
    }
    if (argc == 2 && !(file = fopen(argv[1], "rb"))) {
        perror(argv[1]);
        return 1;
    }
    for (uint64_t number = 1;
         (length = fread(old, 1, sizeof old, file)) > 0; number++) {
        const unsigned refusal = import_record(old, length, imported);
        printf("%" PRIu64 " %u", number, refusal);
        if (refusal == 0) {
            printf(" ");
            for (size_t i = 0; i < sizeof imported; i++)
                printf("%02X", (unsigned)imported[i]);
        }
        printf("\n");
    }
    if (ferror(file) || fflush(stdout) != 0) {
        perror("old");
        return 1;
    }
    return 0;
}
