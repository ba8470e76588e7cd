/* text_draw COUNT SEED: so many texts for paper on standard output, each behind
 * its length in 4 bytes, the same for the same seed: the texts of papers of
 * every version, changed in words, lines and bytes; some as large as can be.
 * text_draw COUNT SEED papers: so many odd papers: good ones with bytes changed,
 * records of all kinds and lengths, set-ups with few bytes that are not zero. */
#include <stdio.h>
#include <stdlib.h>
#include <string.h>

#include "damage.h"
#include "grown.h"
#include "invent.h"
#include "print.h"
#include "script.h"

static struct grown text; /* the text at hand, or the paper */

static void add(const char *words)
{
    grow(&text, words, strlen(words));
}

/* ---- papers */

static void draw_good(struct chance *chance, size_t most)
{
    struct world world;

    invent_setup(chance, &world, &setup, 0, 6);
    invent_version(chance, &world, &setup);
    begin();
    invent_commands(chance, &world, &setup, draft, below(chance, most + 1),
                    false);
}

/* Zeros, small numbers, letters, and anything. */
static uint8_t draw_byte(struct chance *chance)
{
    static const uint8_t letters[] = {'0', '9', 'A', 'Z', 'a', 'z', '/', ':',
                                      '@', '[', '`', '{'};
    const uint8_t any = any_byte(chance);

    switch (below(chance, 6)) {
    case 0:
    case 1:
        return 0;
    case 2:
        return any % 8;
    case 3:
        return PICK(chance, letters);
    case 4: /* as a date has it */
        return (uint8_t)(any / 16 % 10 << 4 | any % 10);
    default:
        return any;
    }
}

/* A few bytes of the paper, its lengths and counts among them now and then. */
static void scatter(struct chance *chance)
{
    for (size_t count = below(chance, 12); count > 0; count--) {
        const size_t place = below(chance, draft->length);
        const uint8_t byte = draw_byte(chance);
        const bool counts = place < SETUP_BODY || place == SETUP_BODY + 3
            || place == SETUP_BODY + 4;
        if (!counts || percent(chance, 5))
            draft->bytes[place] = byte;
    }
}

/* A record of any kind, with a length that some kind has. */
static void draw_record(struct chance *chance)
{
    static const uint8_t kinds[] = {1, 2, 2, 3, 3, 3, 4, 4, 5};
    static const size_t lengths[] = {0,  1,  2,  3,  7,  8,  9,  11, 12, 13,
                                     14, 15, 16, 20, 21, 22, 23, 24, 25, 52};
    uint8_t body[52];
    const uint8_t any = any_byte(chance);
    uint8_t kind = PICK(chance, kinds);
    size_t length = PICK(chance, lengths);

    if (percent(chance, 10))
        kind = any;
    if (kind == 4 && percent(chance, 60))
        length = 8;
    if (kind == 2 && percent(chance, 60))
        length = 1 + below(chance, 2);
    const bool small = percent(chance, 40);
    for (size_t i = 0; i < length; i++)
        body[i] = draw_byte(chance);
    if (small && length > 0)
        body[0] %= 4;
    if (kind == 4 && length == 8 && percent(chance, 60))
        memset(body + 4, 0, 4);
    if (kind == 1 && length == 52)
        memset(body + 3, 0, 2);
    draft_record(draft, kind, body, length);
}

/* A set-up's body under construction: zeros, and bytes that count or switch. */
static struct {
    size_t length;
    uint8_t bytes[1024];
    bool counts[1024];
} body;

static void add_zeros(size_t count)
{
    memset(body.bytes + body.length, 0, count);
    memset(body.counts + body.length, 0, count);
    body.length += count;
}

/* A byte that what follows depends on. */
static size_t add_count(size_t count)
{
    add_zeros(1);
    body.bytes[body.length - 1] = (uint8_t)count;
    body.counts[body.length - 1] = true;
    return count;
}

static void draw_tails(struct chance *chance, unsigned version, size_t profiles)
{
    if (version >= 2 && add_count(below(chance, 2)))
        for (size_t i = add_count(below(chance, 3)); i > 0; i--)
            add_zeros(add_count(below(chance, 4)));
    if (version >= 3)
        add_zeros(1);
    if (version >= 4 && add_count(below(chance, 2)))
        add_zeros(27 + 18 * profiles);
    if (version >= 5 && add_count(below(chance, 2)))
        add_zeros(8 + profiles);
    if (version >= 6)
        add_zeros(1);
    if (version >= 7 && add_count(below(chance, 2))) {
        add_zeros(2 + profiles);
        add_zeros(3 * add_count(below(chance, 3)));
        add_zeros(3 * add_count(below(chance, 3)));
    }
}

/* A set-up that words can say, of zeros but for a few bytes. */
static void draw_sparse(struct chance *chance)
{
    const unsigned version = 1 + (unsigned)below(chance, 7);

    body.length = 0;
    add_zeros(3);
    const size_t profiles = add_count(below(chance, 3));
    const size_t conversions = add_count(below(chance, 3));
    add_zeros(47 + 107 * profiles + 7 * conversions);
    draw_tails(chance, version, profiles);
    for (size_t count = 1 + below(chance, 4); count > 0; count--) {
        const size_t place = below(chance, body.length);
        const uint8_t byte = draw_byte(chance);
        if (!body.counts[place])
            body.bytes[place] = byte == 0 ? 0xFF : byte;
    }
    draft_begin(draft);
    draft->bytes[0] = (uint8_t)version;
    draft_record(draft, KIND_SETUP, body.bytes, body.length);
}

static void draw_odd(struct chance *chance)
{
    if (percent(chance, 30)) {
        draw_sparse(chance);
        return;
    }
    if (percent(chance, 60))
        draw_good(chance, 6);
    else
        draft_begin(draft);
    if (percent(chance, 50))
        for (size_t count = below(chance, 8); count > 0; count--)
            draw_record(chance);
    if (percent(chance, 60))
        scatter(chance);
    if (percent(chance, 10))
        draft->bytes[0] = (uint8_t)below(chance, 10);
    if (percent(chance, 10))
        draft->length = below(chance, draft->length + 1);
}

static void draw_paper(struct chance *chance)
{
    if (percent(chance, 50)) {
        draw_odd(chance);
        return;
    }
    draw_good(chance, percent(chance, 90) ? 8 : 30);
    if (percent(chance, 15))
        damage(chance, &setup, draft);
}

/* ---- places in a text */

static bool is_blank(uint8_t byte)
{
    return byte <= ' ' && byte != '\n';
}

static bool is_parted(size_t place)
{
    return place == text.length || text.bytes[place] <= ' ';
}

struct span {
    size_t from, to;
};

/* The word of this number; its end is the text's if there are not so many. */
static struct span word_at(size_t number)
{
    struct span word = {0, 0};

    for (;;) {
        word.from = word.to;
        while (word.from < text.length && is_parted(word.from))
            word.from++;
        word.to = word.from;
        while (!is_parted(word.to))
            word.to++;
        if (number-- == 0 || word.to == text.length)
            return word;
    }
}

static size_t count_words(void)
{
    size_t count = 0;

    for (size_t i = 0; i < text.length; i++)
        count += !is_parted(i) && is_parted(i + 1);
    return count;
}

static struct span pick_word(struct chance *chance)
{
    const size_t count = count_words();

    return word_at(below(chance, count > 0 ? count : 1));
}

/* A line and the line feed behind it. */
static struct span pick_line(struct chance *chance)
{
    size_t lines = 1;
    struct span line = {0, 0};

    for (size_t i = 0; i < text.length; i++)
        lines += text.bytes[i] == '\n';
    for (size_t number = below(chance, lines);; number--) {
        line.from = line.to;
        while (line.to < text.length && text.bytes[line.to] != '\n')
            line.to++;
        line.to += line.to < text.length;
        if (number == 0)
            return line;
    }
}

/* What a span has, until the next call. */
static struct grown copied;

static void copy(struct span span)
{
    copied.length = 0;
    grow(&copied, text.bytes + span.from, span.to - span.from);
}

static void put(struct span span, const char *words)
{
    grow_over(&text, span.from, span.to, words, strlen(words));
}

static void put_copied(struct span span)
{
    grow_over(&text, span.from, span.to, copied.bytes, copied.length);
}

static struct span at(size_t place)
{
    return (struct span){place, place};
}

/* ---- what goes wrong, and what does not */

/* Words that a text may have somewhere, and some that it may not have. */
static const char *const words[] = {
    "paper", "setup", "start", "start-contact", "start-contactless", "data",
    "first", "second", "script", "record", "bytes", "key", "pin",
    "authentication", "off", "required", "atc", "go-online", "next", "a1",
    "a2", "a4", "a5", "c1", "c3", "c4", "in", "from", "profile", "online",
    "decline", "default", "mta", "on", "above", "active", "allow", "include",
    "declines", "bits", "lower", "upper", "send", "accumulator", "counters",
    "conversion", "to", "by", "e-9", "e-1", "e0", "e3", "e4", "selection",
    "entry", "syllabus", "dated", "last", "y1", "y2", "each", "none", "day",
    "week", "month", "Friday", "Thursday", "limit", "cpace", "closed",
    "no-cvm", "signature", "online-pin", "offline-pin", "cashback",
    "unchecked", "checked", "scripts", "log", "ring", "keeps", "bit-1",
    "bit-2", "cvr", "cid", "offline-only", "approved", "declined", "logged",
    "no", "yes", "first-field", "second-field", "at", "length", "AAC", "TC",
    "ARQC", "absent", "verified", "failed", "cvm", "a1-lower", "a4-upper",
    "c1-upper", "date-error", "not-completed", "auth-failed", "unable",
    "no-data", "tc", "Setup", "startt", "!", "\"", "$", "\x7F", "\xFF"};

static const char *const numbers[] = {
    "0", "00", "1", "007", "255", "256", "0000000000000000000000000000255",
    "65535", "65536", "18446744073709551615", "18446744073709551616",
    "18446744073709551625", "99999999999999999999", "-1", "+1", "1.0", "0x10",
    "50x0", "1,000", "0978", "978", "01", "1E", "aB", "0G", "ABC", "09788",
    "00820000", "0082000", "010203", "01020304050", "010203040506",
    "2024-01-31", "2000-00-00", "2099-99-99", "1999-12-31", "2024-1-31",
    "2024/01/31", "20AB-01-01", "20240131", "2024-01-3a", "240131", "0A0101",
    "Y3", "y3", "5933", "Y", "Y3Z", "Y-", "\xC3\x84", "0000"};

static const char *draw_word(struct chance *chance)
{
    return percent(chance, 50) ? PICK(chance, words) : PICK(chance, numbers);
}

/* Lines, in their own places or not. */
static const char *const lines[] = {
    "paper 07\n", "setup\n", "key 0A\n", "pin 3\n", "authentication off\n",
    "atc 65535\n", "go-online next\n", "a1 in 0978 from 1\n",
    "a4 in 0840 from 5\n", "c1 from 0\n", "c4 from 255\n", "profile 1\n",
    "profile\n", "online bits FFFFFFFF\n", "default\n", "mta on in 0978 above 5\n",
    "a2 active allow lower 1 upper 2\n", "c3 bits F0 lower 1 upper 2\n",
    "send accumulator 1 counters 1 2\n", "conversion 0978 to 0840 by 1 e0\n",
    "selection\n", "entry\n", "entry 01 02 03\n", "syllabus 1\n", "dated\n",
    "last 2024-02-29\n", "y1 in 0978 from 0 each day week Friday\n",
    "y2 active limit 5\n", "cpace\n", "a1 closed no-cvm\n", "c4 closed\n",
    "cashback checked\n", "scripts on\n", "log\n", "ring 20\n",
    "keeps bit-1 declined\n", "logged yes\n",
    "first-field from first at 1 length 1\n",
    "second-field from 7 at 0 length 255\n", "start 1\n", "start-contact 1\n",
    "start-contactless 2\n", "data\n", "data 00 01\n",
    "first TC 1 in 0978 at 22\n", "first AAC 0 in 0978 at 22 on 2024-01-31\n",
    "first 7 1 in 0978 at 22 cvm 1F0300 cashback 000000000001\n",
    "first TC 1 in 0978 at 22 cvm 1F0300 cashback 000000000001 on 240131\n",
    "second TC Y3\n", "second ARQC 0000 absent 00000000\n",
    "script verified 7100\n", "script 2\n", "record FF\n", "record 01 00\n",
    "bytes 0000\n", "bytes\n", "\n", "# nothing\n", " \t\r\n"};

static const char *const blanks[] = {" ", "  ", "\t", "\r", " \v\f ", "\x01",
                                     "#", " # why\n", "\n", "\n\n",
                                     " #\n", "# a b c\n"};

/* A byte is another one, or none; or a new one stands before it. */
static void change_byte(struct chance *chance)
{
    static const char bytes[] = "0123456789ABCDEFabcdef-#\n\t xX\x80";
    const size_t place = below(chance, text.length + 1);
    const char byte[] = {PICK(chance, bytes), '\0'};
    const size_t over = percent(chance, 60) && place < text.length;

    put((struct span){place, place + over}, byte);
}

static void change_case(struct chance *chance)
{
    const struct span word = pick_word(chance);

    for (size_t i = word.from; i < word.to; i++) {
        const uint8_t byte = text.bytes[i];
        if ((byte | 32) >= 'a' && (byte | 32) <= 'f')
            text.bytes[i] = byte ^ 32;
    }
}

/* Words and lines in other places: nothing is read that was not there. */
static void move_something(struct chance *chance)
{
    const struct span from = percent(chance, 60) ? pick_line(chance)
                                                 : pick_word(chance);
    copy(from);
    if (percent(chance, 70))
        put(from, "");
    put_copied(at(percent(chance, 70) ? pick_line(chance).from
                                      : pick_word(chance).from));
}

static void change(struct chance *chance)
{
    struct span word = pick_word(chance);
    struct span line = pick_line(chance);
    const char *blank = PICK(chance, blanks);

    switch (below(chance, 16)) {
    case 0:
    case 1: /* a word is another one */
        put(word, draw_word(chance));
        break;
    case 2: /* is not there */
        put(word, "");
        break;
    case 3: /* is there twice */
        copy(word);
        put(at(word.from), " ");
        put_copied(at(word.from));
        break;
    case 4: /* another one stands before it */
        put(at(word.from), " ");
        put(at(word.from), draw_word(chance));
        break;
    case 5: /* it is parted, or goes on */
        put(at(word.from + (word.to - word.from) / 2), blank);
        break;
    case 6:
        if (word.to < text.length)
            put((struct span){word.to, word.to + 1}, "");
        break;
    case 7:
        put(at(word.from), percent(chance, 50) ? "0" : "0000");
        break;
    case 8: /* a line is not there */
        put(line, "");
        break;
    case 9: /* is there twice */
        copy(line);
        put_copied(at(line.from));
        break;
    case 10:
        move_something(chance);
        break;
    case 11: /* a new one stands before it */
        put(at(line.from), PICK(chance, lines));
        break;
    case 12: /* it ends elsewhere */
        if (text.length > 0)
            for (size_t i = below(chance, text.length); i < text.length; i++)
                if (text.bytes[i] <= ' ') {
                    text.bytes[i] = text.bytes[i] == ' ' ? '\n' : ' ';
                    break;
                }
        break;
    case 13:
        change_case(chance);
        break;
    case 14: /* the text ends */
        text.length = below(chance, text.length + 1);
        break;
    default:
        change_byte(chance);
        break;
    }
}

/* What means nothing: blanks and comments between words and lines. */
static void spread(struct chance *chance)
{
    static const char *const between[] = {" ", "  ", "\t", " \r "};
    static const char *const behind[] = {" ", "#", " # so", "\t#a#b", "\r",
                                         "\n", "\n  \n# so\n", "\n\n"};

    for (size_t count = 1 + below(chance, 8); count > 0; count--) {
        const size_t place = below(chance, text.length + 1);
        size_t i = place;
        while (i < text.length && text.bytes[i] > ' ')
            i++;
        if (i < text.length)
            put(at(i), is_blank(text.bytes[i]) ? PICK(chance, between)
                                               : PICK(chance, behind));
    }
    if (percent(chance, 20) && text.length > 0)
        text.length--; /* the last line feed */
}

/* ---- as large as can be, and larger */

static void add_times(size_t count, const char *line)
{
    while (count-- > 0)
        add(line);
}

static void add_version(struct chance *chance, unsigned from)
{
    char line[16];

    sprintf(line, "paper %02u\n",
            from + (unsigned)below(chance, 8 - from));
    add(line);
}

/* So many bytes, in one word or more. */
static void add_bytes(struct chance *chance, size_t count)
{
    const bool parted = percent(chance, 30);

    add(" ");
    for (size_t i = 0; i < count; i++) {
        add(i % 7 == 0 ? "a0" : "0A");
        if (parted && i % 100 == 0)
            add(" ");
    }
}

/* A paper of 65,535 to 65,538 bytes. */
static void add_longest(struct chance *chance)
{
    const size_t length = 65535 + below(chance, 4);
    size_t count = 1;

    add("paper 01\n");
    for (; count < 1000; count += 15)
        add("first TC 1 in 0978 at 22\n");
    if (percent(chance, 50)) {
        add("bytes");
        add_bytes(chance, length - count);
    } else {
        add("data");
        add_bytes(chance, length - count - 3);
    }
    add("\n");
    if (percent(chance, 30))
        add("start 1\n");
    if (percent(chance, 30))
        add("wrong\n");
}

static void draw_large(struct chance *chance)
{
    const size_t count = 254 + below(chance, 4);

    switch (below(chance, 8)) {
    case 0:
        add_longest(chance);
        break;
    case 1:
        add_version(chance, 2);
        add("setup\nselection\n");
        add_times(count, "entry\n");
        break;
    case 2:
        add_version(chance, 1);
        add("setup\n");
        add_times(count, "profile 1\n");
        break;
    case 3:
        add_version(chance, 1);
        add("setup\n");
        add_times(count, "conversion 0978 to 0840 by 1 e0\n");
        break;
    case 4:
        add_version(chance, 2);
        add("setup\nselection\nentry");
        add_bytes(chance, count);
        add("\nstart 1\n");
        break;
    case 5:
        add("paper 07\nsetup\nlog\n");
        add_times(count, percent(chance, 50)
                      ? "first-field from first at 1 length 1\n"
                      : "second-field from second at 1 length 1\n");
        break;
    case 6: /* what there is for each profile */
        add("paper 07\nsetup\n");
        add_times(below(chance, 4), "profile 1\n");
        add("dated\n");
        add_times(below(chance, 5), "profile\n");
        add("cpace\n");
        add_times(below(chance, 5), "cashback 1\n");
        add("log\n");
        add_times(below(chance, 5), "logged yes\n");
        break;
    default: /* the set-up itself is too long, or about so */
        add("paper 02\nsetup\nselection\n");
        for (size_t i = 0; i < 252 + count % 4; i++) {
            add("entry");
            add_bytes(chance, 255);
            add("\n");
        }
        break;
    }
}

static void draw_text(struct chance *chance)
{
    if (below(chance, 200) == 0) {
        draw_large(chance);
    } else {
        draw_paper(chance);
        print_paper(&text, draft->bytes, draft->length);
    }
    if (percent(chance, 40))
        spread(chance);
    if (percent(chance, 85))
        for (size_t count = 1 + below(chance, 3); count > 0; count--)
            change(chance);
}

int main(int argc, char **argv)
{
    const bool papers = argc == 4 && strcmp(argv[3], "papers") == 0;

    if (argc != 3 && !papers) {
        fprintf(stderr, "usage: text_draw COUNT SEED [papers]\n");
        return 1;
    }
    const uint64_t count = strtoull(argv[1], NULL, 10);
    const uint64_t seed = strtoull(argv[2], NULL, 10);
    for (uint64_t i = 0; i < count; i++) {
        struct chance chance = chance_of(seed, i);
        text.length = 0;
        if (papers) {
            draw_odd(&chance);
            grow(&text, draft->bytes, draft->length);
        } else {
            draw_text(&chance);
        }
        if (!write_grown_block(&text, stdout)) {
            perror("standard output");
            return 1;
        }
    }
    free(text.bytes);
    free(copied.bytes);
    return fflush(stdout) != 0;
}
