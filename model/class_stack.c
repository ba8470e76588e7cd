/* class_stack three|many: the stacks of the class reports that are printed in
 * the readings of request Ten: the printed sitting, a paper that ends in 9 and
 * an empty one; or the printed sitting 201 times. */
#include <stdio.h>
#include <string.h>

#include "bytes.h"
#include "examples.h"
#include "script.h"

static void put_paper(void)
{
    uint8_t length[4];

    put32(length, (uint32_t)draft->length);
    fwrite(length, 1, sizeof length, stdout);
    fwrite(draft->bytes, 1, draft->length, stdout);
}

int main(int argc, char **argv)
{
    const char *which = argc == 2 ? argv[1] : "";

    printed_sitting();
    if (strcmp(which, "three") == 0) {
        put_paper();
        class_paper();
        put_paper();
        draft->length = 0;
        put_paper();
    } else if (strcmp(which, "many") == 0) {
        for (unsigned i = 0; i < 201; i++)
            put_paper();
    } else {
        fprintf(stderr, "usage: class_stack three|many\n");
        return 2;
    }
    return fflush(stdout) != 0;
}
