/* Every field of a set-up that has a range, where it stands, and values just
 * outside. */
#ifndef MODEL_FIELDS_H
#define MODEL_FIELDS_H

#include "chance.h"
#include "draft.h"

struct field {
    enum {
        IN_HEAD,
        IN_PROFILE,
        IN_CONVERSION,
        IN_CYCLES, /* the tail of version 04, dated */
        IN_LIMITS, /* a profile's in it */
        IN_FAMILY, /* the tail of version 05, CPACE */
        IN_CHECKS, /* a profile's in it */
        IN_SCRIPTS, /* the tail of version 06 */
        IN_LOG,     /* the tail of version 07, with a log */
        IN_LOGS     /* a profile's in it */
    } part;
    size_t offset; /* in its part */
    unsigned width;
    enum { NUMBER, MASK, CURRENCY, DATE } kind;
    uint64_t low, high; /* of a number or a mask */
};

/* Those of every set-up come first, then those of version 04, of 05, of 06, of
 * 07. */
enum {
    BASE_FIELDS = 3 + 8 + (3 + 1 + 3 + 12 + 4 + 3) + 4,
    CYCLES_FIELDS = 2 + 8 + 4,
    FAMILY_FIELDS = 1 + 8 + 1,
    SCRIPTS_FIELDS = LATEST > 5 ? 1 : 0,
    LOG_FIELDS = LATEST > 6 ? 3 : 0,
    FIELDS = BASE_FIELDS + CYCLES_FIELDS + FAMILY_FIELDS + SCRIPTS_FIELDS
        + LOG_FIELDS
};

/* All of them; filled at the first call. */
const struct field *fields(void);

/* Whether this set-up has the field, a profile's or a conversion's if it has
 * any of these; and whether each profile has its own. */
bool has_field(const struct draft_setup *setup, const struct field *field);
bool is_of_profile(const struct field *field);

/* How many values outside its range there are to try, and one of them, in a
 * paper of this version. */
unsigned bad_values(const struct field *field);
uint64_t bad_value(struct chance *chance, const struct field *field,
                   unsigned version, unsigned which);

/* Where the field stands in a paper with this set-up; place is that of the
 * profile or conversion. */
size_t field_offset(const struct field *field, const struct draft_setup *setup,
                    unsigned place);

void put_field(uint8_t *at, unsigned width, uint64_t value);

#endif
