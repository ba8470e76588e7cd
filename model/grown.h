/* Bytes that grow at their end. */
#ifndef MODEL_GROWN_H
#define MODEL_GROWN_H

#include <stdbool.h>
#include <stddef.h>
#include <stdint.h>
#include <stdio.h>

struct grown {
    uint8_t *bytes;
    size_t length, room;
};

void grow(struct grown *grown, const void *bytes, size_t count);
void grow_byte(struct grown *grown, uint8_t byte);

/* The bytes from one place to another become these; what follows moves. */
void grow_over(struct grown *grown, size_t from, size_t to, const void *bytes,
               size_t count);

/* All that a file has, behind what is there; the status of the file tells
 * whether it could be read. */
void grow_file(struct grown *grown, FILE *file);

/* Whether all of it could be written. */
bool write_grown(const struct grown *grown, FILE *file);

/* The same, behind its length in 4 bytes. */
bool write_grown_block(const struct grown *grown, FILE *file);

#endif
