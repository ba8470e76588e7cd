#include "bundle.h"

#include <stdbool.h>
#include <string.h>

#include "bytes.h"
#include "sitting.h"

_Static_assert(sizeof ((struct bundle *)0)->buffer >= 4 + PAPER_MAX,
               "a paper fits the buffer");

void bundle_open(struct bundle *bundle, FILE *file)
{
    bundle->file = file;
    bundle->longest = PAPER_MAX;
    bundle->at = 0;
    bundle->have = 0;
    setvbuf(file, NULL, _IONBF, 0); /* the buffer is here */
}

/* Brings at least `wanted` bytes into the buffer, if there are so many. */
static bool fill(struct bundle *bundle, size_t wanted)
{
    size_t left = bundle->have - bundle->at;

    if (left >= wanted)
        return true;
    memmove(bundle->buffer, bundle->buffer + bundle->at, left);
    bundle->at = 0;
    left += fread(bundle->buffer + left, 1, sizeof bundle->buffer - left,
                  bundle->file);
    bundle->have = left;
    return left >= wanted;
}

static bool skip(struct bundle *bundle, uint32_t count)
{
    while (fill(bundle, 1)) {
        const size_t left = bundle->have - bundle->at;
        if (left >= count) {
            bundle->at += count;
            return true;
        }
        bundle->at += left;
        count -= (uint32_t)left;
    }
    return false;
}

static enum bundle_next stopped(const struct bundle *bundle)
{
    if (ferror(bundle->file))
        return BUNDLE_FAILED;
    return bundle->have == bundle->at ? BUNDLE_END : BUNDLE_CUT_SHORT;
}

enum bundle_next bundle_next(struct bundle *bundle, const uint8_t **paper,
                             size_t *length)
{
    if (!fill(bundle, 4))
        return stopped(bundle);
    const uint32_t announced = get32(bundle->buffer + bundle->at);
    if (announced > bundle->longest) {
        bundle->at += 4;
        if (skip(bundle, announced))
            return BUNDLE_TOO_LONG;
        return ferror(bundle->file) ? BUNDLE_FAILED : BUNDLE_CUT_SHORT;
    }
    if (!fill(bundle, 4 + announced))
        return stopped(bundle);
    *paper = bundle->buffer + bundle->at + 4;
    *length = announced;
    bundle->at += 4 + announced;
    return BUNDLE_PAPER;
}
