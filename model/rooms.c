#include "rooms.h"

#include <inttypes.h>
#include <stdio.h>

/* By the upper limit in force, active or not. */
static uint64_t room_left(const struct card *card, unsigned place, unsigned i)
{
    const uint64_t upper = card->setup.profile[place].accumulator[i].upper;
    const uint64_t value = card->accumulator[i];

    return value < upper ? upper - value : 0;
}

static size_t rooms_line(const struct card *card, unsigned place, char *line)
{
    int length = sprintf(line, "room %u", card->setup.profile[place].number);

    for (unsigned i = 0; i < ACCUMULATORS; i++)
        length += sprintf(line + length, " %" PRIu64,
                          room_left(card, place, i));
    length += sprintf(line + length, "\n");
    return (size_t)length;
}

void display_open(struct display *display, const uint8_t *paper, size_t length)
{
    sitting_open(&display->sitting, paper, length);
    display->place = 0;
    display->places = 0;
}

size_t display_line(struct display *display, char *line)
{
    struct sitting *sitting = &display->sitting;

    if (display->place < display->places)
        return rooms_line(&sitting->card, display->place++, line);
    const size_t length = sitting_line(sitting, line);
    if (length == 0)
        return sitting_log_line(sitting, line);
    if (has_card(sitting)) {
        display->place = 0;
        display->places = sitting->card.setup.profiles;
    }
    return length;
}
