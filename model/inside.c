/* A trial without a program: the model's printer for the name text, its reader
 * for the name paper, both in this very process. Tries are as many as one likes,
 * as model/mutants does. */
#include <string.h>

#include "print.h"
#include "read.h"
#include "trial.h"

struct told tell_program(char *const *program, const char *name,
                         const uint8_t *input, size_t length)
{
    static struct grown wrote, given;
    static char said[OFFENCE_LINE];
    struct offence offence;

    (void)program;
    wrote.length = 0;
    given.length = 0;
    grow(&given, input, length);
    grow(&given, "A", 1); /* what reads past the end reads this */
    said[0] = '\0';
    if (strcmp(name, "text") == 0)
        print_paper(&wrote, given.bytes, length);
    else if (!read_text(&wrote, &offence, given.bytes, length))
        said[offence_line(&offence, said)] = '\0';
    return (struct told){(const char *)wrote.bytes, wrote.length, said};
}
