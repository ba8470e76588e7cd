#include "read.h"

#include <stdarg.h>
#include <string.h>

#include "bytes.h"
#include "names.h"

enum {
    PAPER_MOST = 65536,
    ENTRY_MOST = 255,
    COUNT_MOST = 255, /* of what a byte counts */
    SHOWN = 40        /* bytes of a word that is found */
};

struct reader {
    const uint8_t *at, *end; /* of the text: what is behind the word at hand */
    size_t line, column;     /* of what is behind it */
    struct spot here;        /* the word at hand */
    bool over;               /* no line is left */
    struct grown *paper;
    bool refused;
    struct offence *offence;
};

/* ---- an offence */

/* The first one counts. A reader that goes on behind it reads nothing that is
 * looked at. */
static void refuse_at(struct reader *reader, const struct spot *spot,
                      const char *want, ...)
{
    va_list values;

    if (reader->refused)
        return;
    reader->refused = true;
    reader->offence->found = *spot;
    va_start(values, want);
    vsnprintf(reader->offence->want, sizeof reader->offence->want, want,
              values);
    va_end(values);
}

static const char *of_bytes(size_t count)
{
    return count == 1 ? "byte" : "bytes";
}

static void refuse_number(struct reader *reader, size_t count)
{
    refuse_at(reader, &reader->here, "a number that fits %zu %s", count,
              of_bytes(count));
}

static void refuse_hex(struct reader *reader, size_t count)
{
    refuse_at(reader, &reader->here, "%zu %s in hex", count, of_bytes(count));
}

/* The names with a comma between, and what else there may be. */
static void refuse_name(struct reader *reader, const struct names *names)
{
    char *want = reader->offence->want;

    if (reader->refused)
        return;
    refuse_at(reader, &reader->here, "`%s`", names->word[0]);
    for (size_t i = 1; i < names->count; i++)
        sprintf(want + strlen(want), ", `%s`", names->word[i]);
    strcat(want, " or a number that fits 1 byte");
}

size_t offence_line(const struct offence *offence, char *line)
{
    const struct spot *found = &offence->found;
    int size = sprintf(line, "%zu:%zu: %s expected, ", found->line,
                       found->column, offence->want);

    if (found->size == 0)
        size += sprintf(line + size, "the line's end found\n");
    else if (found->size <= SHOWN)
        size += sprintf(line + size, "\"%.*s\" found\n", (int)found->size,
                        (const char *)found->word);
    else
        size += sprintf(line + size, "\"%.*s..\" found\n", SHOWN,
                        (const char *)found->word);
    return (size_t)size;
}

/* ---- words and lines */

static bool is_blank(uint8_t byte)
{
    return byte <= ' ' && byte != '\n';
}

static void pass(struct reader *reader)
{
    if (*reader->at == '\n') {
        reader->line++;
        reader->column = 0;
    }
    reader->at++;
    reader->column++;
}

static bool is_left(const struct reader *reader)
{
    return reader->at < reader->end;
}

static bool is_in_word(const struct reader *reader)
{
    return is_left(reader) && *reader->at > ' ' && *reader->at != '#';
}

/* The next word of the line is at hand, or none, which is behind the last. */
static void next_word(struct reader *reader)
{
    const struct spot behind = {reader->line, reader->column, NULL, 0};

    while (is_left(reader) && is_blank(*reader->at))
        pass(reader);
    reader->here = behind;
    if (!is_in_word(reader))
        return;
    reader->here.column = reader->column;
    reader->here.word = reader->at;
    while (is_in_word(reader))
        pass(reader);
    reader->here.size = (size_t)(reader->at - reader->here.word);
}

/* The first word of the next line that has one is at hand, or it is over. */
static void next_line(struct reader *reader)
{
    for (;;) {
        while (is_left(reader) && *reader->at != '\n')
            pass(reader);
        if (!is_left(reader)) {
            reader->over = true;
            return;
        }
        pass(reader);
        next_word(reader);
        if (reader->here.size > 0)
            return;
    }
}

static bool is_word(const struct reader *reader, const char *word)
{
    const size_t size = strlen(word);

    return reader->here.size == size
        && memcmp(reader->here.word, word, size) == 0;
}

/* Whether the line begins with this key, or goes on with this word: then it is
 * passed. */
static bool takes(struct reader *reader, const char *word)
{
    if (!is_word(reader, word))
        return false;
    next_word(reader);
    return true;
}

/* a1, a2 and so on. */
static bool takes_slot(struct reader *reader, char what, unsigned slot)
{
    const char key[] = {what, (char)('1' + slot), '\0'};

    return takes(reader, key);
}

static void read_word(struct reader *reader, const char *word)
{
    if (!takes(reader, word))
        refuse_at(reader, &reader->here, "`%s`", word);
}

static bool is_line_over(const struct reader *reader)
{
    return reader->here.size == 0;
}

static void end_line(struct reader *reader)
{
    if (!is_line_over(reader)) {
        refuse_at(reader, &reader->here, "the line's end");
        return;
    }
    next_line(reader);
}

/* ---- the bytes that a word says */

static void add_zeros(struct reader *reader, size_t count)
{
    while (count-- > 0)
        grow_byte(reader->paper, 0);
}

static void add_number(struct reader *reader, uint64_t number, size_t count)
{
    while (count-- > 0)
        grow_byte(reader->paper, (uint8_t)(number >> 8 * count));
}

/* The number that the word says, if it is one and fits so many bytes. */
static bool find_number(const struct spot *spot, size_t count,
                        uint64_t *number)
{
    const uint64_t most = UINT64_MAX >> 8 * (8 - count);

    *number = 0;
    for (size_t i = 0; i < spot->size; i++) {
        if (spot->word[i] < '0' || spot->word[i] > '9')
            return false;
        const unsigned digit = spot->word[i] - '0';
        if (*number > (most - digit) / 10)
            return false;
        *number = 10 * *number + digit;
    }
    return spot->size > 0;
}

static void read_number(struct reader *reader, size_t count)
{
    uint64_t number;

    if (!find_number(&reader->here, count, &number)) {
        refuse_number(reader, count);
        return;
    }
    add_number(reader, number, count);
    next_word(reader);
}

/* The value of a hex digit, or 16. */
static unsigned hex_value(uint8_t digit)
{
    if (digit >= '0' && digit <= '9')
        return digit - '0';
    if (digit >= 'A' && digit <= 'F')
        return digit - 'A' + 10;
    if (digit >= 'a' && digit <= 'f')
        return digit - 'a' + 10;
    return 16;
}

static bool is_hex(const struct spot *spot)
{
    for (size_t i = 0; i < spot->size; i++)
        if (hex_value(spot->word[i]) > 15)
            return false;
    return spot->size % 2 == 0;
}

static void take_hex(struct reader *reader)
{
    const struct spot *spot = &reader->here;

    for (size_t i = 0; i < spot->size; i += 2)
        grow_byte(reader->paper, (uint8_t)(hex_value(spot->word[i]) << 4
                                           | hex_value(spot->word[i + 1])));
    next_word(reader);
}

/* One word of so many bytes. */
static void read_hex(struct reader *reader, size_t count)
{
    if (!is_hex(&reader->here) || reader->here.size != 2 * count) {
        refuse_hex(reader, count);
        return;
    }
    take_hex(reader);
}

/* Words to the line's end, or none. */
static void read_rest(struct reader *reader)
{
    while (!is_line_over(reader)) {
        if (!is_hex(&reader->here)) {
            refuse_at(reader, &reader->here, "pairs of hex digits");
            return;
        }
        take_hex(reader);
    }
}

static void read_name(struct reader *reader, const struct names *names)
{
    uint64_t number;

    if (find_number(&reader->here, 1, &number)) {
        add_number(reader, number, 1);
        next_word(reader);
        return;
    }
    for (size_t i = 0; i < names->count; i++)
        if (takes(reader, names->word[i])) {
            add_number(reader, i, 1);
            return;
        }
    refuse_name(reader, names);
}

/* The names of bits, the lowest first, or all of them in hex. */
static void read_flags(struct reader *reader, const struct names *names,
                       size_t count)
{
    uint64_t bits = 0;

    if (takes(reader, "bits")) {
        read_hex(reader, count);
        return;
    }
    for (size_t i = 0; i < names->count; i++)
        if (takes(reader, names->word[i]))
            bits |= UINT64_C(1) << i;
    add_number(reader, bits, count);
}

static bool is_digit(uint8_t byte)
{
    return byte >= '0' && byte <= '9';
}

/* As 2025-12-31. */
static bool is_date(const struct spot *spot)
{
    static const char form[] = "20dd-dd-dd";

    if (spot->size != sizeof form - 1)
        return false;
    for (size_t i = 0; i < spot->size; i++)
        if (form[i] == 'd' ? !is_digit(spot->word[i])
                           : spot->word[i] != (uint8_t)form[i])
            return false;
    return true;
}

static void read_date(struct reader *reader)
{
    const uint8_t *word = reader->here.word;

    if (is_hex(&reader->here) && reader->here.size == 6) {
        take_hex(reader);
        return;
    }
    if (!is_date(&reader->here)) {
        refuse_at(reader, &reader->here, "a date");
        return;
    }
    for (size_t i = 2; i < 10; i += 3)
        grow_byte(reader->paper,
                  (uint8_t)((word[i] - '0') << 4 | (word[i + 1] - '0')));
    next_word(reader);
}

static bool is_plain(uint8_t byte)
{
    return is_digit(byte) || (byte >= 'A' && byte <= 'Z')
        || (byte >= 'a' && byte <= 'z');
}

static void read_code(struct reader *reader)
{
    const struct spot *here = &reader->here;

    if (is_hex(here) && here->size == 4) {
        take_hex(reader);
        return;
    }
    if (here->size != 2 || !is_plain(here->word[0])
        || !is_plain(here->word[1])) {
        refuse_at(reader, here, "a response code");
        return;
    }
    grow(reader->paper, here->word, 2);
    next_word(reader);
}

/* ---- the set-up */

/* A byte that counts what is read later; its place. */
static size_t begin_count(struct reader *reader)
{
    add_zeros(reader, 1);
    return reader->paper->length - 1;
}

static void put_count(struct reader *reader, size_t place, unsigned count)
{
    reader->paper->bytes[place] = (uint8_t)count;
}

static void read_accumulator(struct reader *reader, unsigned slot)
{
    if (!takes_slot(reader, 'a', slot)) {
        add_zeros(reader, 10);
        return;
    }
    read_word(reader, "in");
    read_hex(reader, 2);
    read_word(reader, "from");
    read_number(reader, 8);
    end_line(reader);
}

static void read_counter(struct reader *reader, unsigned slot)
{
    if (!takes_slot(reader, 'c', slot)) {
        add_zeros(reader, 1);
        return;
    }
    read_word(reader, "from");
    read_number(reader, 1);
    end_line(reader);
}

/* A field of one number, or of one name. */
static void read_number_field(struct reader *reader, const char *key,
                              size_t count)
{
    if (!takes(reader, key)) {
        add_zeros(reader, count);
        return;
    }
    read_number(reader, count);
    end_line(reader);
}

static void read_name_field(struct reader *reader, const char *key,
                            const struct names *names)
{
    if (!takes(reader, key)) {
        add_zeros(reader, 1);
        return;
    }
    read_name(reader, names);
    end_line(reader);
}

/* The 52 bytes; where p and c are to be put. */
static void read_head(struct reader *reader, size_t *profiles,
                      size_t *conversions)
{
    if (takes(reader, "key")) {
        read_hex(reader, 1);
        end_line(reader);
    } else {
        add_zeros(reader, 1);
    }
    read_number_field(reader, "pin", 1);
    read_name_field(reader, "authentication", &name_required);
    *profiles = begin_count(reader);
    *conversions = begin_count(reader);
    read_number_field(reader, "atc", 2);
    read_name_field(reader, "go-online", &name_next);
    for (unsigned i = 0; i < 4; i++)
        read_accumulator(reader, i);
    for (unsigned i = 0; i < 4; i++)
        read_counter(reader, i);
}

static void read_mask(struct reader *reader, const char *key)
{
    if (!takes(reader, key)) {
        add_zeros(reader, 4);
        return;
    }
    read_flags(reader, &name_decision, 4);
    end_line(reader);
}

/* The rule of an accumulator or a counter, whose limits have so many bytes. */
static void read_rule(struct reader *reader, char what, unsigned slot,
                      const struct names *names, size_t count)
{
    if (!takes_slot(reader, what, slot)) {
        add_zeros(reader, 1 + 2 * count);
        return;
    }
    read_flags(reader, names, 1);
    read_word(reader, "lower");
    read_number(reader, count);
    read_word(reader, "upper");
    read_number(reader, count);
    end_line(reader);
}

static void read_mta(struct reader *reader)
{
    if (!takes(reader, "mta")) {
        add_zeros(reader, 11);
        return;
    }
    read_name(reader, &name_switch);
    read_word(reader, "in");
    read_hex(reader, 2);
    read_word(reader, "above");
    read_number(reader, 8);
    end_line(reader);
}

static void read_send(struct reader *reader)
{
    if (!takes(reader, "send")) {
        add_zeros(reader, 3);
        return;
    }
    read_word(reader, "accumulator");
    read_number(reader, 1);
    read_word(reader, "counters");
    read_number(reader, 1);
    read_number(reader, 1);
    end_line(reader);
}

static unsigned read_profiles(struct reader *reader)
{
    unsigned count = 0;

    for (; count < COUNT_MOST && takes(reader, "profile"); count++) {
        read_number(reader, 1);
        end_line(reader);
        read_mask(reader, "online");
        read_mask(reader, "decline");
        read_mask(reader, "default");
        read_mta(reader);
        for (unsigned i = 0; i < 4; i++)
            read_rule(reader, 'a', i, &name_accumulator, 8);
        for (unsigned i = 0; i < 4; i++)
            read_rule(reader, 'c', i, &name_counter, 1);
        read_send(reader);
    }
    return count;
}

static unsigned read_conversions(struct reader *reader)
{
    unsigned count = 0;

    for (; count < COUNT_MOST && takes(reader, "conversion"); count++) {
        read_hex(reader, 2);
        read_word(reader, "to");
        read_hex(reader, 2);
        read_word(reader, "by");
        read_number(reader, 2);
        read_name(reader, &name_power);
        end_line(reader);
    }
    return count;
}

/* ---- the tails */

/* A line that is a switch: a byte, and whether it is on. */
static bool read_switch(struct reader *reader, const char *key)
{
    const bool on = takes(reader, key);

    add_number(reader, on, 1);
    if (on)
        end_line(reader);
    return on;
}

static void read_selection(struct reader *reader)
{
    if (!read_switch(reader, "selection"))
        return;
    const size_t place = begin_count(reader);
    unsigned count = 0;
    for (; count < COUNT_MOST; count++) {
        const struct spot key = reader->here;
        if (!takes(reader, "entry"))
            break;
        const size_t length_at = begin_count(reader);
        read_rest(reader);
        end_line(reader);
        const size_t length = reader->paper->length - length_at - 1;
        if (length > ENTRY_MOST)
            refuse_at(reader, &key, "fewer bytes");
        put_count(reader, length_at, (unsigned)length);
    }
    put_count(reader, place, count);
}

static void read_cyclic(struct reader *reader, unsigned slot)
{
    if (!takes_slot(reader, 'y', slot)) {
        add_zeros(reader, 12);
        return;
    }
    read_word(reader, "in");
    read_hex(reader, 2);
    read_word(reader, "from");
    read_number(reader, 8);
    read_word(reader, "each");
    read_name(reader, &name_cycle);
    read_word(reader, "week");
    read_name(reader, &name_day);
    end_line(reader);
}

static void read_limit(struct reader *reader, unsigned slot)
{
    if (!takes_slot(reader, 'y', slot)) {
        add_zeros(reader, 9);
        return;
    }
    read_flags(reader, &name_accumulator, 1);
    read_word(reader, "limit");
    read_number(reader, 8);
    end_line(reader);
}

static void read_dated(struct reader *reader, unsigned profiles)
{
    if (!read_switch(reader, "dated"))
        return;
    if (takes(reader, "last")) {
        read_date(reader);
        end_line(reader);
    } else {
        add_zeros(reader, 3);
    }
    read_cyclic(reader, 0);
    read_cyclic(reader, 1);
    for (unsigned j = 0; j < profiles; j++) {
        if (!takes(reader, "profile")) {
            add_zeros(reader, 18);
            continue;
        }
        end_line(reader);
        read_limit(reader, 0);
        read_limit(reader, 1);
    }
}

static void read_closed(struct reader *reader, char what, unsigned slot)
{
    if (!takes_slot(reader, what, slot)) {
        add_zeros(reader, 1);
        return;
    }
    read_word(reader, "closed");
    read_flags(reader, &name_closed, 1);
    end_line(reader);
}

static void read_cpace(struct reader *reader, unsigned profiles)
{
    if (!read_switch(reader, "cpace"))
        return;
    for (unsigned i = 0; i < 4; i++)
        read_closed(reader, 'a', i);
    for (unsigned i = 0; i < 4; i++)
        read_closed(reader, 'c', i);
    for (unsigned j = 0; j < profiles; j++)
        read_name_field(reader, "cashback", &name_check);
}

static void read_table(struct reader *reader, const char *key)
{
    const size_t place = begin_count(reader);
    unsigned count = 0;

    for (; count < COUNT_MOST && takes(reader, key); count++) {
        read_word(reader, "from");
        read_name(reader, &name_source);
        read_word(reader, "at");
        read_number(reader, 1);
        read_word(reader, "length");
        read_number(reader, 1);
        end_line(reader);
    }
    put_count(reader, place, count);
}

static void read_log(struct reader *reader, unsigned profiles)
{
    if (!read_switch(reader, "log"))
        return;
    read_number_field(reader, "ring", 1);
    if (takes(reader, "keeps")) {
        read_flags(reader, &name_kept, 1);
        end_line(reader);
    } else {
        add_zeros(reader, 1);
    }
    for (unsigned j = 0; j < profiles; j++)
        read_name_field(reader, "logged", &name_logged);
    read_table(reader, "first-field");
    read_table(reader, "second-field");
}

/* What is behind the set-up's own line. */
static void read_setup(struct reader *reader, uint8_t version)
{
    size_t profiles_at, conversions_at;

    grow_byte(reader->paper, 1);
    read_head(reader, &profiles_at, &conversions_at);
    const unsigned profiles = read_profiles(reader);
    put_count(reader, profiles_at, profiles);
    put_count(reader, conversions_at, read_conversions(reader));
    if (version >= 2)
        read_selection(reader);
    if (version >= 3)
        read_number_field(reader, "syllabus", 1);
    if (version >= 4)
        read_dated(reader, profiles);
    if (version >= 5)
        read_cpace(reader, profiles);
    if (version >= 6)
        read_name_field(reader, "scripts", &name_switch);
    if (version >= 7)
        read_log(reader, profiles);
}

/* ---- the other records */

static void read_first(struct reader *reader)
{
    read_name(reader, &name_type);
    read_number(reader, 8);
    read_word(reader, "in");
    read_hex(reader, 2);
    read_word(reader, "at");
    read_hex(reader, 1);
    if (takes(reader, "on"))
        read_date(reader);
    if (takes(reader, "cvm")) {
        read_hex(reader, 3);
        read_word(reader, "cashback");
        read_hex(reader, 6);
    }
}

static void read_second(struct reader *reader)
{
    read_name(reader, &name_type);
    read_code(reader);
    if (is_line_over(reader)) {
        add_zeros(reader, 5);
        return;
    }
    read_name(reader, &name_issuer);
    if (is_line_over(reader)) {
        add_zeros(reader, 4);
        return;
    }
    read_hex(reader, 4);
}

/* Whether it is one of the records of one line; its kind and body. */
static bool read_command(struct reader *reader)
{
    if (takes(reader, "start")) {
        grow(reader->paper, "\2", 1);
        read_number(reader, 1);
    } else if (takes(reader, "start-contact")) {
        grow(reader->paper, "\2\0", 2);
        read_number(reader, 1);
    } else if (takes(reader, "start-contactless")) {
        grow(reader->paper, "\2\1", 2);
        read_number(reader, 1);
    } else if (takes(reader, "data")) {
        grow(reader->paper, "\2", 1);
        read_rest(reader);
    } else if (takes(reader, "first")) {
        grow(reader->paper, "\3", 1);
        read_first(reader);
    } else if (takes(reader, "second")) {
        grow(reader->paper, "\4", 1);
        read_second(reader);
    } else if (takes(reader, "script")) {
        grow(reader->paper, "\5", 1);
        read_name(reader, &name_messaging);
        read_rest(reader);
    } else if (takes(reader, "record")) {
        read_hex(reader, 1);
        read_rest(reader);
    } else {
        return false;
    }
    end_line(reader);
    return true;
}

/* A record behind its length. A paper that is not too long has none that is. */
static void read_record(struct reader *reader, uint8_t version)
{
    const size_t place = reader->paper->length;

    add_zeros(reader, 2);
    if (takes(reader, "setup")) {
        end_line(reader);
        read_setup(reader, version);
    } else if (!read_command(reader)) {
        refuse_at(reader, &reader->here, "a record or a later field");
    }
    put16(reader->paper->bytes + place,
          (unsigned)(reader->paper->length - place - 2) & 0xFFFF);
}

/* The paper's first byte is the version. */
static void read_records(struct reader *reader)
{
    while (!reader->refused && !reader->over) {
        const struct spot key = reader->here;
        if (takes(reader, "bytes")) {
            read_rest(reader);
            end_line(reader);
        } else {
            read_record(reader, reader->paper->bytes[0]);
        }
        if (reader->paper->length > PAPER_MOST)
            refuse_at(reader, &key, "fewer bytes");
    }
}

static void read_paper(struct reader *reader)
{
    if (reader->over)
        return;
    read_word(reader, "paper");
    read_hex(reader, 1);
    end_line(reader);
    read_records(reader);
}

bool read_text(struct grown *paper, struct offence *offence,
               const uint8_t *text, size_t length)
{
    struct reader reader = {
        .at = text, .end = text + length, .line = 1, .column = 1,
        .paper = paper, .offence = offence
    };

    next_word(&reader);
    if (reader.here.size == 0)
        next_line(&reader);
    read_paper(&reader);
    if (reader.refused)
        paper->length = 0;
    return !reader.refused;
}
