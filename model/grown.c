#include "grown.h"

#include <stdlib.h>
#include <string.h>

#include "bytes.h"

static void make_room(struct grown *grown, size_t count)
{
    if (grown->room - grown->length >= count)
        return;
    grown->room = 2 * grown->room + count + 4096;
    grown->bytes = realloc(grown->bytes, grown->room);
    if (!grown->bytes) {
        perror("memory");
        exit(2);
    }
}

void grow(struct grown *grown, const void *bytes, size_t count)
{
    if (count == 0)
        return;
    make_room(grown, count);
    memcpy(grown->bytes + grown->length, bytes, count);
    grown->length += count;
}

void grow_byte(struct grown *grown, uint8_t byte)
{
    grow(grown, &byte, 1);
}

void grow_over(struct grown *grown, size_t from, size_t to, const void *bytes,
               size_t count)
{
    make_room(grown, count + 1);
    memmove(grown->bytes + from + count, grown->bytes + to,
            grown->length - to);
    if (count > 0)
        memcpy(grown->bytes + from, bytes, count);
    grown->length += count - (to - from);
}

void grow_file(struct grown *grown, FILE *file)
{
    uint8_t some[4096];

    for (size_t count; (count = fread(some, 1, sizeof some, file)) > 0;)
        grow(grown, some, count);
}

bool write_grown(const struct grown *grown, FILE *file)
{
    return grown->length == 0
        || fwrite(grown->bytes, 1, grown->length, file) == grown->length;
}

bool write_grown_block(const struct grown *grown, FILE *file)
{
    uint8_t length[4];

    put32(length, (uint32_t)grown->length);
    return fwrite(length, 1, sizeof length, file) == sizeof length
        && write_grown(grown, file);
}
