/* The head of an object is its tag and its length, behind it is its value. A
 * constructed object's value is a list of objects, in which 00 is a filler
 * where an object would begin. */
#include "template.h"

#include "reached.h"

enum {
    TEMPLATE_1 = 0x71,
    TEMPLATE_2 = 0x72,
    COMMAND = 0x86,
    FILLER = 0x00,

    DEPTH_MAX = 4 /* the template's own is 1 */
};

struct object {
    const uint8_t *value, *end;
    unsigned tag; /* of one byte or two */
    bool constructed;
};

struct reading {
    template_command *then;
    void *with;
    bool stopped;
};

/* The object that begins here, its value not looked at; false if its head is
 * wrong or it does not end where what it lies in does, at the latest. `inner`
 * says that it is not the template itself. */
static bool read_head(struct object *object, const uint8_t *at,
                      const uint8_t *end, bool inner)
{
    const uint8_t first = *at++;

    object->constructed = first & 0x20;
    object->tag = first;
    if ((first & 0x1F) == 0x1F) {
        if (at == end)
            return fault(TAG_CUT + inner);
        if (*at >= 0x80)
            return fault(TAG_OF_THREE + inner);
        object->tag = (unsigned)first << 8 | *at++;
    }

    if (at == end)
        return fault(LENGTH_MISSING + inner);
    size_t length = *at++;
    if (length == 0x80 || length > 0x82)
        return fault(LENGTH_FORM + 2 * (length > 0x80) + inner);
    if (length > 0x80) {
        size_t bytes = length - 0x80;
        if ((size_t)(end - at) < bytes)
            return fault(LENGTH_CUT + 2 * (bytes == 2) + inner);
        for (length = 0; bytes > 0; bytes--)
            length = length << 8 | *at++;
    }

    if (length > (size_t)(end - at))
        return fault(VALUE_PAST + inner);
    object->value = at;
    object->end = at + length;
    return true;
}

static unsigned read_list(struct reading *reading, const uint8_t *at,
                          const uint8_t *end, unsigned depth);

/* The object at this place of a list of this depth; the place moves behind
 * it. */
static unsigned read_object(struct reading *reading, const uint8_t **at,
                            const uint8_t *end, unsigned depth)
{
    struct object object;

    if (!read_head(&object, *at, end, true))
        return MALFORMED;
    *at = object.end;
    if (object.constructed) {
        if (depth == DEPTH_MAX) {
            reached(DEPTH_OVER + (object.value < object.end));
            return TOO_DEEP;
        }
        return read_list(reading, object.value, object.end, depth + 1);
    }
    if (object.tag == COMMAND && reading->then && !reading->stopped)
        reading->stopped = !reading->then(reading->with, object.value,
                                          (size_t)(object.end - object.value));
    return 0;
}

static unsigned read_list(struct reading *reading, const uint8_t *at,
                          const uint8_t *end, unsigned depth)
{
    unsigned refusal = 0;

    while (refusal == 0 && at < end)
        if (*at == FILLER)
            at++;
        else
            refusal = read_object(reading, &at, end, depth);
    return refusal;
}

/* One object that is the whole of the bytes. */
static bool read_whole(struct object *object, const uint8_t *bytes,
                       size_t length)
{
    if (length == 0)
        return fault(TEMPLATE_EMPTY);
    if (!read_head(object, bytes, bytes + length, false))
        return false;
    if (object->tag != TEMPLATE_1 && object->tag != TEMPLATE_2)
        return fault(TEMPLATE_TAG + object->constructed);
    if (object->end < bytes + length)
        return fault(TEMPLATE_FOLLOWED);
    return true;
}

unsigned template_read(const uint8_t *bytes, size_t length,
                       template_command *then, void *with)
{
    struct reading reading = {.then = then, .with = with};
    struct object template;

    if (!read_whole(&template, bytes, length))
        return MALFORMED;
    return read_list(&reading, template.value, template.end, 1);
}
