/* Templates and Scripts by chance: trees of objects with PUT DATA among them,
 * and damage to both. */
#ifndef MODEL_INVENT_SCRIPT_H
#define MODEL_INVENT_SCRIPT_H

#include "invent.h"

enum { TEMPLATE_ROOM = 4096 };

/* A template of so many bytes, in room for TEMPLATE_ROOM: one that can be read,
 * its commands done or not; or with a fault of any kind, now and then none. */
size_t invent_template(struct chance *chance, const struct world *world,
                       uint8_t *bytes);
size_t damage_template(struct chance *chance, uint8_t *bytes, size_t length);

/* Bytes that look like heads of objects. */
size_t invent_heads(struct chance *chance, uint8_t *bytes);

void invent_script(struct chance *chance, const struct world *world,
                   struct draft *draft);

#endif
