#include "answers.h"

#include "sitting.h"

void answers(const uint8_t *paper, size_t length, char *lines)
{
    static struct sitting sitting;

    sitting_open(&sitting, paper, length);
    for (size_t line; (line = sitting_line(&sitting, lines)) > 0;)
        lines += line;
    for (size_t line; (line = sitting_log_line(&sitting, lines)) > 0;)
        lines += line;
    *lines = '\0';
}
