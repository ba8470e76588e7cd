#include <string.h>

#include "listed.h"
#include "script.h"

struct bytes {
    size_t length;
    uint8_t at[24];
};

static void data(const struct bytes *bytes)
{
    draft_data(draft, bytes->at, bytes->length);
}

static void entry(const struct bytes *bytes)
{
    draft_entry(&setup.file, bytes->at, bytes->length);
}

/* Whatever the data, if there is any. */
static void always(uint8_t action)
{
    simple_entry(0x00, 0x00, 0, action, 0x00);
}

/* The printed set-up with profiles 1 to 4 alike, version 02, no file yet. */
static void fresh(void)
{
    draft_printed_setup(&setup);
    setup.version = 2;
    profiles_alike(4);
}

/* Document 01's sitting, each Start by these data. */
static void sitting(const struct bytes *bytes)
{
    begin();
    data(bytes);
    first(TC, 5000);
    data(bytes);
    first(TC, 1);
    second(TC, Y3, ABSENT, 0);
    data(bytes);
    first(TC, 5000);
    second(TC, Y3, ABSENT, 0);
    emit();
}

/* CPA Table A-2, with data too short as well. */
static void simple_example(void)
{
    static const struct bytes table = {
        10, {0x02, 0x02, 0x02, 0xFF, 0xFF, 0x00, 0x56, 0x00, 0x04, 0x01}};
    static const struct bytes datas[] = {
        {3, {0x01, 0x00, 0x56}}, {3, {0x01, 0x08, 0x40}},
        {2, {0x00, 0x56}},       {1, {0x01}},
        {0, {0}},                {4, {0x01, 0x00, 0x56, 0x00}}};

    fresh();
    entry(&table);
    sitting(&datas[0]);
    sitting(&datas[1]);
    begin();
    for (size_t i = 0; i < sizeof datas / sizeof *datas; i++) {
        data(&datas[i]);
        first(TC, 1);
    }
    emit();
}

/* CPA Table A-6, its issuer country 0056; a set-up holds four of the five
 * profiles that it names, so there are two. */
static void complex_example(void)
{
    static const struct bytes table[] = {
        {8, {0x01, 0x01, 0x02, 0xFF, 0x02, 0x00, 0x02, 0x81}},
        {8, {0x02, 0x01, 0x02, 0xFF, 0x34, 0x00, 0x81, 0x82}},
        {10, {0x03, 0x02, 0x02, 0xFF, 0xFF, 0x00, 0x00, 0x00, 0x7E, 0x81}},
        {8, {0x02, 0x01, 0x02, 0xF0, 0x10, 0x00, 0x81, 0x82}},
        {8, {0x03, 0x01, 0x02, 0x80, 0x80, 0x00, 0x04, 0x81}},
        {10, {0x05, 0x02, 0x02, 0xFF, 0xFF, 0x00, 0x56, 0x00, 0x81, 0x85}},
        {12, {0x07, 0x03, 0x02, 0x00, 0x00, 0x40, 0x00, 0x00, 0x40, 0x00, 0x81,
              0x84}},
        {10, {0x02, 0x01, 0x04, 0xFF, 0x22, 0x25, 0x35, 0x00, 0x05, 0x81}},
        {9, {0x02, 0x01, 0x03, 0xFF, 0x12, 0x15, 0x00, 0x81, 0x82}},
        {8, {0x03, 0x01, 0x02, 0x80, 0x80, 0x00, 0x81, 0x05}},
        {10, {0x02, 0x01, 0x04, 0xFF, 0x23, 0x26, 0x36, 0x00, 0x06, 0x81}},
        {9, {0x02, 0x01, 0x03, 0xFF, 0x13, 0x16, 0x00, 0x81, 0x07}},
        {8, {0x03, 0x01, 0x02, 0x80, 0x80, 0x00, 0x07, 0x06}}};
    static const uint8_t types[] = {0x11, 0x12, 0x13, 0x14, 0x21, 0x22,
                                    0x23, 0x25, 0x26, 0x34, 0x35, 0x36};
    static const uint8_t numbers[2][4] = {{2, 4, 5, 7}, {7, 6, 5, 4}};

    for (unsigned half = 0; half < 2; half++) {
        fresh();
        for (unsigned i = 0; i < 4; i++)
            setup.profile[i].number = numbers[half][i];
        for (size_t i = 0; i < sizeof table / sizeof *table; i++)
            entry(&table[i]);
        begin();
        data(&(const struct bytes){9, {2, 0x22, 0, 0, 0, 0x56, 0, 0, 0x40}});
        for (size_t i = 0; i < sizeof types; i++)
            for (unsigned kind = 0; kind < 8; kind++) {
                const struct bytes bytes = {
                    9, {0x01, types[i], kind & 1 ? 0xE0 : 0x00, 0x00,
                        kind & 2 ? 0x08 : 0x00, kind & 2 ? 0x40 : 0x56, 0xE0,
                        0xF0, kind & 4 ? 0xC8 : 0x88}};
                data(&bytes);
            }
        first(TC, 1);
        emit();
    }
}

/* Entries that give 12 when visited with two bytes of data. */
static const struct bytes bad[] = {
    {0, {0}}, /* E too short */
    {1, {0x01}},
    {5, {0x01, 0x01, 0x02, 0xFF, 0x10}},
    {6, {0x01, 0x01, 0x00, 0x00, 0x01, 0x01}}, /* n */
    {7, {0x01, 0x01, 0x01, 0xFF, 0x00, 0x01, 0x01}},
    {6, {0x01, 0x00, 0x02, 0x00, 0x01, 0x01}},             /* L */
    {7, {0x01, 0x01, 0x02, 0xFF, 0x10, 0x00, 0x01}},       /* E too small */
    {6, {0x01, 0x80, 0x02, 0x00, 0x01, 0x01}},             /* by 256 */
    {7, {0x01, 0xFF, 0xFF, 0x00, 0x00, 0x01, 0x01}},       /* by 65,024 */
    {9, {0x01, 0x01, 0x02, 0xFF, 0x10, 0x00, 0x01, 0x01, 0x01}}, /* too large */
    {8, {0x01, 0x01, 0x02, 0xFF, 0x10, 0x03, 0x01, 0x01}}, /* type */
    {8, {0x01, 0x01, 0x02, 0xFF, 0x10, 0x80, 0x01, 0x01}},
    {8, {0x01, 0x01, 0x02, 0xFF, 0x10, 0xFF, 0x01, 0x01}},
    {8, {0x00, 0x01, 0x02, 0xFF, 0x10, 0x00, 0x01, 0x01}}, /* P */
    {8, {0x03, 0x01, 0x02, 0xFF, 0x10, 0x00, 0x01, 0x01}}, /* past the data */
    {8, {0xFF, 0x01, 0x02, 0xFF, 0x10, 0x00, 0x01, 0x01}},
    {10, {0x02, 0x02, 0x02, 0xFF, 0xFF, 0x10, 0x10, 0x00, 0x01, 0x01}},
    {12, {0x01, 0x03, 0x02, 0xFF, 0xFF, 0xFF, 0x10, 0x10, 0x10, 0x00, 0x01,
          0x01}},
    {8, {0x01, 0x01, 0x02, 0x00, 0x00, 0x00, 0x00, 0x01}}, /* action 00 */
    {8, {0x01, 0x01, 0x02, 0x00, 0x01, 0x00, 0x01, 0x00}},
    {8, {0x01, 0x01, 0x02, 0x00, 0x00, 0x00, 0x80, 0x01}}, /* 80 */
    {8, {0x01, 0x01, 0x02, 0x00, 0x01, 0x00, 0x01, 0x80}},
    {8, {0x01, 0x01, 0x02, 0x00, 0x00, 0x00, 0x7F, 0x01}}, /* 7F */
    {8, {0x01, 0x01, 0x02, 0x00, 0x01, 0x00, 0x01, 0x7F}},
    {8, {0x01, 0x01, 0x02, 0x00, 0x00, 0x00, 0xFF, 0x01}}, /* past the end */
    {8, {0x01, 0x01, 0x02, 0x00, 0x01, 0x00, 0x01, 0xFF}}};

enum { BAD = sizeof bad / sizeof *bad };

/* Each alone, on a fresh card or on one whose ATC is at its end. */
static void bad_alone(void)
{
    for (unsigned i = 0; i < BAD; i++) {
        fresh();
        setup.atc = i & 1 ? 65535 : 0;
        entry(&bad[i]);
        begin();
        data(&(const struct bytes){2, {0x10, 0x10}});
        first(TC, 1);
        emit();
    }
}

/* All in one file: byte 1 of the data says which is visited, and no other
 * is. What is open stays open. */
static void bad_visited(void)
{
    fresh();
    for (unsigned i = 0; i < BAD; i++) {
        simple_entry(0xFF, (uint8_t)i, 0, 0x81, 0x82);
        entry(&bad[i]);
    }
    always(3);
    begin();
    for (unsigned i = 0; i <= BAD; i++) {
        const struct bytes there = {2, {(uint8_t)i, 0x10}};
        const struct bytes past = {2, {0xFF, 0x10}};
        data(&there);
        data(&past);
        data(&there);
        first(ARQC, 1);
        data(&there);
        second(TC, OTHER, VERIFIED, 0x82);
        data(&there);
        first(TC, 1);
    }
    emit();

    fresh(); /* below the last visited */
    simple_entry(0xFF, 0x10, 0, 2, 4);
    for (unsigned i = 0; i < BAD; i++)
        entry(&bad[i]);
    begin();
    start(0x10);
    first(TC, 1);
    start(0x11);
    first(TC, 1);
    emit();
}

/* An empty file, with and without data. */
static void file_empty(void)
{
    fresh();
    setup.file.on = 1;
    begin();
    data(&(const struct bytes){0, {0}});
    start(1);
    first(TC, 1);
    data(&(const struct bytes){3, {1, 1, 1}});
    emit();
    setup.atc = 65535;
    begin();
    start(1);
    emit();
}

/* The other action is not looked at, nor is a profile that is not there
 * refused by selection. */
static void actions(void)
{
    static const uint8_t untaken[] = {0x00, 0x80, 0x7F, 0x81, 0xFF, 0x7E};
    static const uint8_t taken[] = {1,    2,    4,    5,    0x70,
                                    0x7C, 0x7D, 0x7E, 0x7F, 0};

    for (unsigned i = 0; i < sizeof untaken; i++) {
        fresh();
        simple_entry(0xFF, 0x10, 0, i & 1 ? untaken[i] : 2,
                     i & 1 ? 2 : untaken[i]);
        begin();
        start(0x10);
        first(TC, 1);
        start(0x11);
        first(TC, 1);
        emit();
    }
    for (unsigned full = 0; full < 2; full++) {
        fresh();
        setup.atc = full ? 65535 : 65530;
        for (unsigned i = 0; i < sizeof taken; i++)
            simple_entry(0xFF, (uint8_t)i, 0, taken[i], 0x81);
        begin();
        for (unsigned i = 0; i <= sizeof taken; i++)
            start((uint8_t)i);
        first(TC, 1);
        emit();
    }
}

static void typed(const struct bytes *bytes, uint8_t type, uint8_t positive,
                  uint8_t negative)
{
    struct bytes changed = *bytes;

    changed.at[changed.length - 3] = type;
    changed.at[changed.length - 2] = positive;
    changed.at[changed.length - 1] = negative;
    entry(&changed);
}

/* Masks and widths, data all around: a match; greater, less or neither. */
static void tests(void)
{
    static const struct bytes entries[] = {
        {8, {0x01, 0x01, 0x02, 0xFF, 0x10}},
        {8, {0x01, 0x01, 0x02, 0xF0, 0x10}},
        {8, {0x01, 0x01, 0x02, 0xF0, 0x1F}},
        {11, {0x01, 0x01, 0x05, 0xFF, 0x0F, 0x10, 0x00, 0xFF}},
        {10, {0x01, 0x01, 0x04, 0xFF, 0x10, 0x00, 0xFF}},
        {10, {0x01, 0x02, 0x02, 0xFF, 0xFF, 0x12, 0x30}},
        {10, {0x01, 0x02, 0x02, 0xFF, 0xF0, 0x12, 0x30}},
        {10, {0x01, 0x02, 0x02, 0xFF, 0xF0, 0x12, 0x3F}},
        {10, {0x02, 0x02, 0x02, 0xFF, 0xFF, 0x12, 0x30}},
        {12, {0x01, 0x02, 0x03, 0x0F, 0xFF, 0x02, 0x30, 0x02, 0x31}}};
    static const struct bytes datas[] = {
        {2, {0x00, 0x00}},       {2, {0x0F, 0xFF}},
        {2, {0x10, 0x00}},       {2, {0x11, 0x00}},
        {2, {0x1F, 0x12}},       {2, {0xFF, 0xFF}},
        {2, {0x12, 0x2F}},       {2, {0x12, 0x30}},
        {2, {0x12, 0x31}},       {2, {0x12, 0x3F}},
        {2, {0x12, 0xFF}},       {2, {0x13, 0x00}},
        {2, {0x11, 0x30}},       {3, {0x00, 0x12, 0x30}},
        {3, {0x12, 0x12, 0x31}}, {1, {0x10}}};

    for (unsigned order = 0; order < 2; order++)
        for (size_t i = 0; i < sizeof entries / sizeof *entries; i++) {
            fresh();
            if (order) {
                typed(&entries[i], 2, 1, 0x81);
                typed(&entries[i], 1, 2, 3);
            } else {
                typed(&entries[i], 0, 3, 4);
            }
            begin();
            for (size_t j = 0; j < sizeof datas / sizeof *datas; j++)
                data(&datas[j]);
            first(TC, 1);
            emit();
        }
}

/* The widest blocks, the last position, and data longer than all of it. */
static void wide(void)
{
    uint8_t bytes[255] = {1, 83, 3};
    uint8_t long_data[300] = {0};

    fresh();
    memset(bytes + 3, 0xFF, 83);
    memset(bytes + 3 + 83, 0x11, 2 * 83);
    bytes[3 + 3 * 83 - 1] = 0x12;
    bytes[252] = 0;
    bytes[253] = 0x02;
    bytes[254] = 0x81;
    draft_entry(&setup.file, bytes, sizeof bytes);
    draft_entry(&setup.file, /* nine bytes: more than a word */
                (const uint8_t[]){2, 9, 2, 255, 255, 255, 255, 255, 255, 255,
                                  255, 255, 17, 17, 17, 17, 17, 17, 17, 17, 17,
                                  2, 3, 0x81},
                24);
    entry(&(const struct bytes){8, {0xFF, 1, 2, 0xFF, 0x11, 1, 4, 1}});
    begin();
    for (unsigned i = 0; i < 8; i++) {
        memset(long_data, 0x11, sizeof long_data);
        if (i & 1)
            long_data[82] = 0x12;
        if (i & 2)
            long_data[0] = 0x10;
        if (i & 4)
            long_data[9] = 0x12;
        draft_data(draft, long_data, sizeof long_data);
        draft_data(draft, long_data, 83);
        draft_data(draft, long_data, 82);
        long_data[254] = 0x10;
        draft_data(draft, long_data, 254);
        draft_data(draft, long_data, 255);
        draft_data(draft, long_data, 256);
    }
    first(TC, 1);
    emit();
}

/* So many entries, each with this action, and the last one moves past the end.
 * The Start behind them would serve as an entry more: its length 0A01 and kind
 * 2 read like E, P and L. */
static void past(const uint8_t *moves, unsigned entries)
{
    uint8_t behind[0x0A00] = {2, 0, 0, 0, 0, 0, 1, 1};

    fresh();
    setup.file.on = 1;
    for (unsigned i = 0; i < entries; i++)
        always(moves[i]);
    begin();
    draft_data(draft, behind, sizeof behind);
    first(TC, 1);
    emit();
}

/* A file that ends too early for one who does not look: what stands behind an
 * entry, or behind the file, would serve as the rest or as the next entry. */
static void beyond(void)
{
    uint8_t filler[255] = {0};

    fresh(); /* nL + 6 is 262, which is not 6 */
    entry(&(const struct bytes){6, {1, 128, 2, 0, 0, 0}});
    filler[253] = 1;
    filler[254] = 1;
    draft_entry(&setup.file, filler, sizeof filler);
    begin();
    draft_data(draft, filler, sizeof filler);
    first(TC, 1);
    emit();

    past(NULL, 0);
    past((const uint8_t[]){0x81}, 1);
    past((const uint8_t[]){0x81, 0x81}, 2);
    past((const uint8_t[]){0x81, 0x81, 0x81}, 3);
    past((const uint8_t[]){0x82, 0x81, 0x81}, 3);
    past((const uint8_t[]){0x83, 0x81, 0x81}, 3);
}

/* A record without a kind before a Start that would serve as its body: the
 * length of 0201 begins like a kind. */
static void kindless(void)
{
    uint8_t long_data[0x0200] = {0};

    fresh();
    always(1);
    begin();
    start(0);
    draft_data(draft, long_data, sizeof long_data);
    draft_insert(draft, draft->start[2], (const uint8_t[]){0, 0}, 2);
    emit();
}

/* From the first to the last of so many entries, by moves of so many at most;
 * all that are passed over are ill-formed. */
static void ladder(unsigned entries, unsigned step)
{
    unsigned next = 0;

    fresh();
    for (unsigned i = 0; i < entries; i++) {
        const unsigned left = entries - 1 - i;
        if (i < next) {
            draft_entry(&setup.file, NULL, 0);
        } else if (left == 0) {
            always(4);
        } else {
            const unsigned move = left < step ? left : step;
            always((uint8_t)(0x80 + move));
            next = i + move;
        }
    }
    begin();
    start(0);
    first(TC, 1);
    emit();
}

static void moves(void)
{
    ladder(255, 1);
    ladder(255, 2);
    ladder(255, 127);
    ladder(254, 127);
    ladder(2, 1);
    for (unsigned entries = 254; entries < 256; entries++) {
        fresh(); /* 127 and 127 again: the last of 255, past the last of 254 */
        for (unsigned i = 0; i < entries; i++)
            if (i == 0 || i == 127)
                always(0xFF);
            else
                always(2);
        begin();
        start(0);
        first(TC, 1);
        emit();
    }
    fresh(); /* from entry k, k down, if the data say k */
    for (uint8_t i = 1; i < 7; i++)
        simple_entry(0xFF, i, 0, (uint8_t)(0x80 + i), 0x81);
    always(1);
    begin();
    for (uint8_t i = 0; i < 9; i++)
        start(i);
    first(TC, 1);
    emit();
}

/* A version, a body of the set-up without its tail, and these bytes more. */
static void tail(uint8_t version, const struct bytes *bytes)
{
    uint8_t body[SETUP_ROOM];
    const size_t base = draft_setup_base(&setup);

    draft_setup_body(&setup, body);
    memcpy(body + base, bytes->at, bytes->length);
    draft_begin(draft);
    draft_record(draft, KIND_SETUP, body, base + bytes->length);
    draft->bytes[0] = version;
    start(1);
    first(TC, 1);
    emit();
}

static void tails(void)
{
    static const struct bytes refused[] = {
        {0, {0}},                        /* no switch */
        {1, {2}},                        /* a switch that is none */
        {1, {0xFF}},
        {2, {2, 0}},
        {2, {0, 0}},                     /* off, and more */
        {11, {0, 1, 8, 1, 1, 2, 0xFF, 0x01, 0, 1, 1}},
        {1, {1}},                        /* no number of entries */
        {2, {1, 1}},                     /* no entry */
        {2, {1, 255}},
        {3, {1, 1, 8}},                  /* an entry cut short */
        {3, {1, 1, 255}},
        {10, {1, 1, 8, 1, 1, 2, 0xFF, 0x01, 0, 1}},
        {11, {1, 2, 8, 1, 1, 2, 0xFF, 0x01, 0, 1, 1}}, /* the second missing */
        {12, {1, 2, 8, 1, 1, 2, 0xFF, 0x01, 0, 1, 1, 1}}, /* and cut short */
        {3, {1, 0, 0}},                  /* no entries, and more */
        {12, {1, 1, 8, 1, 1, 2, 0xFF, 0x01, 0, 1, 1, 0}}, /* one, and more */
        {4, {1, 1, 0, 0}}};
    static const struct bytes taken[] = {
        {1, {0}},
        {2, {1, 0}},
        {3, {1, 1, 0}},
        {11, {1, 1, 8, 1, 1, 2, 0xFF, 0x01, 0, 1, 1}},
        {12, {1, 2, 8, 1, 1, 2, 0xFF, 0x01, 0, 1, 1, 0}}};
    static const struct bytes syllabus_refused[] = {
        {0, {0}},
        {1, {0}}, /* no syllabus */
        {2, {1, 0}},
        {11, {1, 1, 8, 1, 1, 2, 0xFF, 0x01, 0, 1, 1}},
        {2, {0, 2}}, /* one that is none */
        {2, {0, 0xFF}},
        {3, {1, 0, 2}},
        {12, {1, 1, 8, 1, 1, 2, 0xFF, 0x01, 0, 1, 1, 2}},
        {3, {0, 1, 0}}, /* one, and more */
        {4, {1, 0, 0, 0}},
        {13, {1, 1, 8, 1, 1, 2, 0xFF, 0x01, 0, 1, 1, 1, 1}},
        {2, {2, 0}}, /* the selection's own faults */
        {3, {1, 1, 1}}};
    static const struct bytes syllabus_taken[] = {
        {2, {0, 0}},
        {2, {0, 1}},
        {3, {1, 0, 1}},
        {12, {1, 1, 8, 1, 1, 2, 0xFF, 0x01, 0, 1, 1, 0}},
        {12, {1, 1, 8, 1, 1, 2, 0xFF, 0x01, 0, 1, 1, 1}}};

    fresh();
    for (size_t i = 0; i < sizeof refused / sizeof *refused; i++)
        tail(2, &refused[i]);
    for (size_t i = 0; i < sizeof taken / sizeof *taken; i++)
        tail(2, &taken[i]);
    for (size_t i = 0; i < sizeof syllabus_refused / sizeof *refused; i++)
        tail(3, &syllabus_refused[i]);
    for (size_t i = 0; i < sizeof syllabus_taken / sizeof *taken; i++)
        tail(3, &syllabus_taken[i]);
    tail(1, &taken[0]); /* version 01 has none of it */
    tail(1, &taken[3]);
    setup.conversions = 1; /* said to be there, but it is the tail */
    tail(2, &(const struct bytes){7, {0x09, 0x78, 0x08, 0x40, 0, 1, 9}});
}

/* Off: Start names the profile, in a body of one byte. */
static void off(void)
{
    static const struct bytes wrong[] = {{0, {0}}, {2, {1, 1}}};

    fresh();
    sitting(&(const struct bytes){1, {1}});
    for (unsigned i = 0; i < 2; i++) {
        begin();
        start(1);
        data(&wrong[i]);
        start(1);
        emit();
    }
    draft_printed_setup(&setup);
    sitting(&(const struct bytes){1, {1}});
}

void listed_selection(void)
{
    simple_example();
    off();
    complex_example();
    bad_alone();
    bad_visited();
    file_empty();
    actions();
    tests();
    wide();
    beyond();
    kindless();
    moves();
    tails();
}
