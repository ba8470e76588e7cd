/* Request Two: an old record becomes a conversion and an MTA as version 01
 * papers hold them. */
#ifndef MODEL_IMPORT_H
#define MODEL_IMPORT_H

#include <stddef.h>
#include <stdint.h>

enum {
    OLD_BYTES = 20,     /* from, to, rate, MTA: 2, 2, 8 and 8 bytes */
    IMPORTED_BYTES = 15 /* from, to, d, s + 9, MTA: 2, 2, 2, 1 and 8 */
};

/* Returns the refusal number, 0 when done; refused, it writes nothing. */
unsigned import_record(const uint8_t *old, size_t length, uint8_t *imported);

#endif
