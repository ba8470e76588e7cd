/* The issuer's template (request Twelve): objects of EMV Book 3 Annex B. */
#ifndef MODEL_TEMPLATE_H
#define MODEL_TEMPLATE_H

#include <stdbool.h>
#include <stddef.h>
#include <stdint.h>

/* Refusals of a template. */
enum { MALFORMED = 18, TOO_DEEP = 19 };

/* Is given a command, the value of an object 86; false: no other is tried. */
typedef bool template_command(void *with, const uint8_t *command,
                              size_t length);

/* Reads a template to its end: 0, 18 or 19. Its commands are given to `then`,
 * unless that is NULL, as they are found: a template that may have a fault is
 * read without it first. */
unsigned template_read(const uint8_t *bytes, size_t length,
                       template_command *then, void *with);

#endif
