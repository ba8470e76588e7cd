/* What the log reaches. Its records are kept once more, as text, when they are
 * made; at the end of a paper the model must show these. */
#ifndef MODEL_OBSERVE_LOG_H
#define MODEL_OBSERVE_LOG_H

#include "sitting.h"

/* A set-up that was taken, and one refused with 14. */
void observe_log_setup(const struct setup *setup);
void observe_log_past(const struct setup *setup);

/* A command, which may have been refused; then a First or a Second that was
 * answered, and which of the CLOSED_WAYS it was if it closed. */
void observe_log_command(const struct sitting *before,
                         const struct record *record, unsigned refusal);
void observe_log_answer(const struct card *card, const struct record *record,
                        unsigned way, unsigned given);

/* Behind each line, and behind the last line of a paper. */
void observe_log_line(const struct sitting *after);
void observe_log_end(const struct sitting *sitting);

#endif
