/* Request Seven: the room left, which is what can still be spent offline. */
#ifndef MODEL_ROOMS_H
#define MODEL_ROOMS_H

#include "sitting.h"

/* A sitting, and behind each of its lines, while there is a card, a line of
 * rooms for each profile; the log behind all of them. */
struct display {
    struct sitting sitting;
    unsigned place; /* of the next profile to show */
    unsigned places;
};

void display_open(struct display *display, const uint8_t *paper, size_t length);

/* The next line, as sitting_line and sitting_log_line give it. The room must be
 * LOG_LINE_MAX_BYTES. */
size_t display_line(struct display *display, char *line);

#endif
