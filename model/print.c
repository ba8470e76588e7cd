#include "print.h"

#include <inttypes.h>
#include <stdbool.h>
#include <string.h>

#include "bytes.h"
#include "names.h"

/* ---- a line and its words */

static void add_text(struct grown *text, const char *words)
{
    grow(text, words, strlen(words));
}

static void begin_line(struct grown *text, unsigned level, const char *key)
{
    for (unsigned i = 0; i < level; i++)
        add_text(text, "  ");
    add_text(text, key);
}

static void end_line(struct grown *text)
{
    grow_byte(text, '\n');
}

static void add_word(struct grown *text, const char *word)
{
    grow_byte(text, ' ');
    add_text(text, word);
}

static void add_number(struct grown *text, uint64_t number)
{
    char digits[24];

    sprintf(digits, "%" PRIu64, number);
    add_word(text, digits);
}

/* One word, and none of no bytes. */
static void add_hex(struct grown *text, const uint8_t *bytes, size_t count)
{
    static const char digits[] = "0123456789ABCDEF";

    if (count > 0)
        grow_byte(text, ' ');
    for (size_t i = 0; i < count; i++) {
        grow_byte(text, (uint8_t)digits[bytes[i] >> 4]);
        grow_byte(text, (uint8_t)digits[bytes[i] & 15]);
    }
}

static void add_name(struct grown *text, const struct names *names,
                     uint8_t number)
{
    if (number < names->count)
        add_word(text, names->word[number]);
    else
        add_number(text, number);
}

/* The bits of one byte or four. */
static void add_flags(struct grown *text, const struct names *names,
                      const uint8_t *bytes, size_t count)
{
    const uint32_t bits = count == 4 ? get32(bytes) : *bytes;

    if (bits >> names->count != 0) {
        add_word(text, "bits");
        add_hex(text, bytes, count);
        return;
    }
    for (size_t i = 0; i < names->count; i++)
        if (bits >> i & 1)
            add_word(text, names->word[i]);
}

static bool is_decimal(uint8_t byte)
{
    return byte >> 4 < 10 && (byte & 15) < 10;
}

static void add_date(struct grown *text, const uint8_t *date)
{
    char word[16];

    if (!is_decimal(date[0]) || !is_decimal(date[1]) || !is_decimal(date[2])) {
        add_hex(text, date, 3);
        return;
    }
    sprintf(word, "20%02X-%02X-%02X", date[0], date[1], date[2]);
    add_word(text, word);
}

static bool is_plain(uint8_t byte)
{
    return (byte >= '0' && byte <= '9') || (byte >= 'A' && byte <= 'Z')
        || (byte >= 'a' && byte <= 'z');
}

static void add_code(struct grown *text, const uint8_t *code)
{
    if (!is_plain(code[0]) || !is_plain(code[1])) {
        add_hex(text, code, 2);
        return;
    }
    grow_byte(text, ' ');
    grow(text, code, 2);
}

/* Of fields only those that are not zeros have a line. */
static bool is_zeros(const uint8_t *bytes, size_t count)
{
    for (size_t i = 0; i < count; i++)
        if (bytes[i] != 0)
            return false;
    return true;
}

/* The key of a field that there are some of: a1, a2 and so on. */
static void begin_slot(struct grown *text, unsigned level, char what,
                       unsigned slot)
{
    const char key[] = {what, (char)('1' + slot), '\0'};

    begin_line(text, level, key);
}

/* ---- the set-up's base */

enum {
    PROFILES_AT = 3,
    CONVERSIONS_AT = 4,
    HEAD_BYTES = 52,
    PROFILE_BYTES = 107,
    CONVERSION_BYTES = 7
};

static void print_head(struct grown *text, const uint8_t *body)
{
    if (body[0] != 0) {
        begin_line(text, 1, "key");
        add_hex(text, body, 1);
        end_line(text);
    }
    if (body[1] != 0) {
        begin_line(text, 1, "pin");
        add_number(text, body[1]);
        end_line(text);
    }
    if (body[2] != 0) {
        begin_line(text, 1, "authentication");
        add_name(text, &name_required, body[2]);
        end_line(text);
    }
    if (get16(body + 5) != 0) {
        begin_line(text, 1, "atc");
        add_number(text, get16(body + 5));
        end_line(text);
    }
    if (body[7] != 0) {
        begin_line(text, 1, "go-online");
        add_name(text, &name_next, body[7]);
        end_line(text);
    }
    for (unsigned i = 0; i < 4; i++) {
        const uint8_t *accumulator = body + 8 + 10 * i;
        if (is_zeros(accumulator, 10))
            continue;
        begin_slot(text, 1, 'a', i);
        add_word(text, "in");
        add_hex(text, accumulator, 2);
        add_word(text, "from");
        add_number(text, get64(accumulator + 2));
        end_line(text);
    }
    for (unsigned i = 0; i < 4; i++) {
        if (body[48 + i] == 0)
            continue;
        begin_slot(text, 1, 'c', i);
        add_word(text, "from");
        add_number(text, body[48 + i]);
        end_line(text);
    }
}

static void print_mask(struct grown *text, const char *key,
                       const uint8_t *mask)
{
    if (is_zeros(mask, 4))
        return;
    begin_line(text, 2, key);
    add_flags(text, &name_decision, mask, 4);
    end_line(text);
}

static void print_profile(struct grown *text, const uint8_t *profile)
{
    begin_line(text, 1, "profile");
    add_number(text, profile[0]);
    end_line(text);
    print_mask(text, "online", profile + 1);
    print_mask(text, "decline", profile + 5);
    print_mask(text, "default", profile + 9);
    if (!is_zeros(profile + 13, 11)) {
        begin_line(text, 2, "mta");
        add_name(text, &name_switch, profile[13]);
        add_word(text, "in");
        add_hex(text, profile + 14, 2);
        add_word(text, "above");
        add_number(text, get64(profile + 16));
        end_line(text);
    }
    for (unsigned i = 0; i < 4; i++) {
        const uint8_t *accumulator = profile + 24 + 17 * i;
        if (is_zeros(accumulator, 17))
            continue;
        begin_slot(text, 2, 'a', i);
        add_flags(text, &name_accumulator, accumulator, 1);
        add_word(text, "lower");
        add_number(text, get64(accumulator + 1));
        add_word(text, "upper");
        add_number(text, get64(accumulator + 9));
        end_line(text);
    }
    for (unsigned i = 0; i < 4; i++) {
        const uint8_t *counter = profile + 92 + 3 * i;
        if (is_zeros(counter, 3))
            continue;
        begin_slot(text, 2, 'c', i);
        add_flags(text, &name_counter, counter, 1);
        add_word(text, "lower");
        add_number(text, counter[1]);
        add_word(text, "upper");
        add_number(text, counter[2]);
        end_line(text);
    }
    if (!is_zeros(profile + 104, 3)) {
        begin_line(text, 2, "send");
        add_word(text, "accumulator");
        add_number(text, profile[104]);
        add_word(text, "counters");
        add_number(text, profile[105]);
        add_number(text, profile[106]);
        end_line(text);
    }
}

static void print_conversion(struct grown *text, const uint8_t *conversion)
{
    begin_line(text, 1, "conversion");
    add_hex(text, conversion, 2);
    add_word(text, "to");
    add_hex(text, conversion + 2, 2);
    add_word(text, "by");
    add_number(text, get16(conversion + 4));
    add_name(text, &name_power, conversion[6]);
    end_line(text);
}

/* ---- the tails */

/* Where each tail begins in the body; none where the version has it not. */
struct tails {
    const uint8_t *selection, *syllabus, *dated, *family, *scripts, *log;
};

/* What is left of a body. */
struct left {
    const uint8_t *at;
    size_t count;
};

static const uint8_t *take(struct left *left, size_t count)
{
    const uint8_t *taken = left->at;

    if (left->count < count)
        return NULL;
    left->at += count;
    left->count -= count;
    return taken;
}

/* A switch, and whether it is one that words have. */
static const uint8_t *take_switch(struct left *left)
{
    const uint8_t *taken = take(left, 1);

    return taken && *taken <= 1 ? taken : NULL;
}

static bool take_entries(struct left *left)
{
    const uint8_t *count = take(left, 1);

    for (unsigned i = 0; count && i < *count; i++) {
        const uint8_t *length = take(left, 1);
        if (!length || !take(left, *length))
            return false;
    }
    return count != NULL;
}

static bool take_table(struct left *left)
{
    const uint8_t *count = take(left, 1);

    return count && take(left, 3u * *count);
}

/* Whether words can say this body: a version that has them, switches that are
 * 0 or 1, and lengths that add up to the body's. */
static bool find_tails(struct tails *tails, uint8_t version,
                       const uint8_t *body, size_t length)
{
    struct left left = {body, length};

    memset(tails, 0, sizeof *tails);
    if (version < 1 || version > 7 || !take(&left, HEAD_BYTES))
        return false;
    const size_t profiles = body[PROFILES_AT];
    if (!take(&left, PROFILE_BYTES * profiles)
        || !take(&left, (size_t)CONVERSION_BYTES * body[CONVERSIONS_AT]))
        return false;
    if (version >= 2) {
        tails->selection = take_switch(&left);
        if (!tails->selection
            || (*tails->selection == 1 && !take_entries(&left)))
            return false;
    }
    if (version >= 3) {
        tails->syllabus = take(&left, 1);
        if (!tails->syllabus)
            return false;
    }
    if (version >= 4) {
        tails->dated = take_switch(&left);
        if (!tails->dated
            || (*tails->dated == 1 && !take(&left, 27 + 18 * profiles)))
            return false;
    }
    if (version >= 5) {
        tails->family = take_switch(&left);
        if (!tails->family
            || (*tails->family == 1 && !take(&left, 8 + profiles)))
            return false;
    }
    if (version >= 6) {
        tails->scripts = take(&left, 1);
        if (!tails->scripts)
            return false;
    }
    if (version >= 7) {
        tails->log = take_switch(&left);
        if (!tails->log
            || (*tails->log == 1
                && (!take(&left, 2 + profiles) || !take_table(&left)
                    || !take_table(&left))))
            return false;
    }
    return left.count == 0;
}

static void print_selection(struct grown *text, const uint8_t *tail)
{
    const uint8_t *entry = tail + 2;

    begin_line(text, 1, "selection");
    end_line(text);
    for (unsigned i = 0; i < tail[1]; i++) {
        begin_line(text, 2, "entry");
        add_hex(text, entry + 1, entry[0]);
        end_line(text);
        entry += 1 + entry[0];
    }
}

static void print_dated(struct grown *text, const uint8_t *tail,
                        unsigned profiles)
{
    begin_line(text, 1, "dated");
    end_line(text);
    if (!is_zeros(tail + 1, 3)) {
        begin_line(text, 2, "last");
        add_date(text, tail + 1);
        end_line(text);
    }
    for (unsigned i = 0; i < 2; i++) {
        const uint8_t *cyclic = tail + 4 + 12 * i;
        if (is_zeros(cyclic, 12))
            continue;
        begin_slot(text, 2, 'y', i);
        add_word(text, "in");
        add_hex(text, cyclic, 2);
        add_word(text, "from");
        add_number(text, get64(cyclic + 2));
        add_word(text, "each");
        add_name(text, &name_cycle, cyclic[10]);
        add_word(text, "week");
        add_name(text, &name_day, cyclic[11]);
        end_line(text);
    }
    for (unsigned j = 0; j < profiles; j++) {
        begin_line(text, 2, "profile");
        end_line(text);
        for (unsigned i = 0; i < 2; i++) {
            const uint8_t *cyclic = tail + 28 + 18 * j + 9 * i;
            if (is_zeros(cyclic, 9))
                continue;
            begin_slot(text, 3, 'y', i);
            add_flags(text, &name_accumulator, cyclic, 1);
            add_word(text, "limit");
            add_number(text, get64(cyclic + 1));
            end_line(text);
        }
    }
}

static void print_cpace(struct grown *text, const uint8_t *tail,
                        unsigned profiles)
{
    begin_line(text, 1, "cpace");
    end_line(text);
    for (unsigned i = 0; i < 8; i++) {
        if (tail[1 + i] == 0)
            continue;
        begin_slot(text, 2, i < 4 ? 'a' : 'c', i % 4);
        add_word(text, "closed");
        add_flags(text, &name_closed, tail + 1 + i, 1);
        end_line(text);
    }
    for (unsigned j = 0; j < profiles; j++) {
        begin_line(text, 2, "cashback");
        add_name(text, &name_check, tail[9 + j]);
        end_line(text);
    }
}

/* A log table; returns what is behind it. */
static const uint8_t *print_table(struct grown *text, const char *key,
                                  const uint8_t *table)
{
    const uint8_t *entry = table + 1;

    for (unsigned i = 0; i < table[0]; i++, entry += 3) {
        begin_line(text, 2, key);
        add_word(text, "from");
        add_name(text, &name_source, entry[0]);
        add_word(text, "at");
        add_number(text, entry[1]);
        add_word(text, "length");
        add_number(text, entry[2]);
        end_line(text);
    }
    return entry;
}

static void print_log(struct grown *text, const uint8_t *tail,
                      unsigned profiles)
{
    begin_line(text, 1, "log");
    end_line(text);
    if (tail[1] != 0) {
        begin_line(text, 2, "ring");
        add_number(text, tail[1]);
        end_line(text);
    }
    if (tail[2] != 0) {
        begin_line(text, 2, "keeps");
        add_flags(text, &name_kept, tail + 2, 1);
        end_line(text);
    }
    for (unsigned j = 0; j < profiles; j++) {
        begin_line(text, 2, "logged");
        add_name(text, &name_logged, tail[3 + j]);
        end_line(text);
    }
    const uint8_t *second =
        print_table(text, "first-field", tail + 3 + profiles);
    print_table(text, "second-field", second);
}

static void print_tails(struct grown *text, const struct tails *tails,
                        unsigned profiles)
{
    if (tails->selection && *tails->selection == 1)
        print_selection(text, tails->selection);
    if (tails->syllabus && *tails->syllabus != 0) {
        begin_line(text, 1, "syllabus");
        add_number(text, *tails->syllabus);
        end_line(text);
    }
    if (tails->dated && *tails->dated == 1)
        print_dated(text, tails->dated, profiles);
    if (tails->family && *tails->family == 1)
        print_cpace(text, tails->family, profiles);
    if (tails->scripts && *tails->scripts != 0) {
        begin_line(text, 1, "scripts");
        add_name(text, &name_switch, *tails->scripts);
        end_line(text);
    }
    if (tails->log && *tails->log == 1)
        print_log(text, tails->log, profiles);
}

static void print_setup(struct grown *text, const uint8_t *body,
                        const struct tails *tails)
{
    const unsigned profiles = body[PROFILES_AT];
    const unsigned conversions = body[CONVERSIONS_AT];
    const uint8_t *at = body + HEAD_BYTES;

    begin_line(text, 0, "setup");
    end_line(text);
    print_head(text, body);
    for (unsigned i = 0; i < profiles; i++, at += PROFILE_BYTES)
        print_profile(text, at);
    for (unsigned i = 0; i < conversions; i++, at += CONVERSION_BYTES)
        print_conversion(text, at);
    print_tails(text, tails, profiles);
}

/* ---- the other records */

static void print_start(struct grown *text, const uint8_t *body, size_t length)
{
    if (length == 1) {
        begin_line(text, 0, "start");
        add_number(text, body[0]);
    } else if (length == 2 && body[0] <= 1) {
        begin_line(text, 0,
                   body[0] == 0 ? "start-contact" : "start-contactless");
        add_number(text, body[1]);
    } else {
        begin_line(text, 0, "data");
        add_hex(text, body, length);
    }
    end_line(text);
}

/* Of 12 bytes, and behind them a date, the CPACE data, or both. */
static bool is_first(size_t length)
{
    return length == 12 || length == 15 || length == 21 || length == 24;
}

static void print_first(struct grown *text, const uint8_t *body, size_t length)
{
    const uint8_t *more = body + 12;

    begin_line(text, 0, "first");
    add_name(text, &name_type, body[0]);
    add_number(text, get64(body + 1));
    add_word(text, "in");
    add_hex(text, body + 9, 2);
    add_word(text, "at");
    add_hex(text, body + 11, 1);
    if (length == 15 || length == 24) {
        add_word(text, "on");
        add_date(text, more);
        more += 3;
    }
    if (length >= 21) {
        add_word(text, "cvm");
        add_hex(text, more, 3);
        add_word(text, "cashback");
        add_hex(text, more + 3, 6);
    }
    end_line(text);
}

static void print_second(struct grown *text, const uint8_t *body)
{
    begin_line(text, 0, "second");
    add_name(text, &name_type, body[0]);
    add_code(text, body + 1);
    if (!is_zeros(body + 3, 5))
        add_name(text, &name_issuer, body[3]);
    if (!is_zeros(body + 4, 4))
        add_hex(text, body + 4, 4);
    end_line(text);
}

static void print_script(struct grown *text, const uint8_t *body,
                         size_t length)
{
    begin_line(text, 0, "script");
    add_name(text, &name_messaging, body[0]);
    add_hex(text, body + 1, length - 1);
    end_line(text);
}

static void print_any(struct grown *text, const uint8_t *kind,
                      const uint8_t *body, size_t length)
{
    begin_line(text, 0, "record");
    add_hex(text, kind, 1);
    add_hex(text, body, length);
    end_line(text);
}

/* A record of so many bytes, the kind and the body. */
static void print_record(struct grown *text, uint8_t version,
                         const uint8_t *record, size_t count)
{
    const uint8_t *body = record + 1;
    const size_t length = count - 1;
    struct tails tails;

    if (record[0] == 1 && find_tails(&tails, version, body, length))
        print_setup(text, body, &tails);
    else if (record[0] == 2)
        print_start(text, body, length);
    else if (record[0] == 3 && is_first(length))
        print_first(text, body, length);
    else if (record[0] == 4 && length == 8)
        print_second(text, body);
    else if (record[0] == 5 && length > 0)
        print_script(text, body, length);
    else
        print_any(text, record, body, length);
}

void print_paper(struct grown *text, const uint8_t *paper, size_t length)
{
    size_t at = 1;

    if (length == 0)
        return;
    begin_line(text, 0, "paper");
    add_hex(text, paper, 1);
    end_line(text);
    while (length - at >= 2) {
        const size_t count = get16(paper + at);
        if (count == 0 || length - at - 2 < count)
            break;
        print_record(text, paper[0], paper + at + 2, count);
        at += 2 + count;
    }
    if (at == length)
        return;
    begin_line(text, 0, "bytes");
    add_hex(text, paper + at, length - at);
    end_line(text);
}
