/* Request Eleven: a run of commands in one call. */
#ifndef MODEL_RUN_H
#define MODEL_RUN_H

#include "log.h"

enum { ANSWER_BYTES = 36 };

/* Runs records as they stand in a paper, none at all too, on the card as it
 * stands, logs what they close, and puts the answers into the room one behind
 * the other: refusal, CID, ATC (2) and IAD, the fields not given zero. Refused
 * with 9 if one of them is no command, then with 17 if the room has not 36
 * bytes for each: nothing is run then, the room is as it was, and there are 0
 * answers. */
unsigned run(struct card *card, struct log *log, const uint8_t *records,
             size_t length, uint8_t *room, size_t size, size_t *answers);

#endif
