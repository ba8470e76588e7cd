/* What issuer scripts reach: a template and its commands read in another way
 * than the model does, which stops where the model differs; and what First and
 * Second make of them. */
#ifndef MODEL_OBSERVE_SCRIPTS_H
#define MODEL_OBSERVE_SCRIPTS_H

#include "sitting.h"

/* A record that could not be read, and a set-up that could. */
void observe_unreadable_script(const struct sitting *before);
void observe_scripts_setup(unsigned version);

/* The card before a command and after it. */
void observe_scripts_start(const struct card *before, const struct card *after,
                           unsigned refusal);
void observe_scripts_first(const struct card *before, const struct card *after,
                           unsigned given);
void observe_scripts_second(const struct card *before, const struct card *after,
                            const struct second *second, unsigned given);
void observe_script(const struct card *before, const struct card *after,
                    const struct script *script, unsigned refusal);

/* Whether a script has written this accumulator's value. */
bool script_wrote(unsigned accumulator);

#endif
