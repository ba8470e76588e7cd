#include <assert.h>
#include <string.h>

#include "listed.h"
#include "script.h"

enum { ENTRY = 255, ENTRIES = 255 };

static uint8_t many[PAPER];

/* All bytes that are no version, before a paper that is good in itself. */
static void versions(void)
{
    draft_printed_setup(&setup);
    setup.version = LATEST;
    for (unsigned version = 0; version < 256; version++) {
        if (version >= 1 && version <= LATEST)
            continue;
        begin();
        draft->bytes[0] = (uint8_t)version;
        start(1);
        emit();
    }
}

/* All kinds that are none, with the body of a set-up before any record, and
 * with that of a Start, a First and a Second where one of these is due. */
static void kinds(void)
{
    static const uint8_t start_body[] = {1};
    static const uint8_t first_body[] = {1, 0, 0, 0, 0, 0, 0, 0, 1, 9, 0x78,
                                         ONLINE_TERMINAL};
    static const uint8_t second_body[] = {1, 0x59, 0x33, 0, 0, 0, 0, 0};

    draft_printed_setup(&setup);
    for (unsigned kind = 0; kind < 256; kind++) {
        if (kind >= KIND_SETUP && kind <= KIND_SECOND)
            continue;
        begin();
        draft->bytes[SETUP_BODY - 1] = (uint8_t)kind;
        start(1);
        emit();
        begin();
        draft_record(draft, (uint8_t)kind, start_body, sizeof start_body);
        emit();
        begin();
        start(1);
        draft_record(draft, (uint8_t)kind, first_body, sizeof first_body);
        emit();
        begin();
        start(1);
        first(ARQC, 1);
        draft_record(draft, (uint8_t)kind, second_body, sizeof second_body);
        emit();
    }
}

/* The largest file, in the largest set-up that has room for it, in a paper of
 * the largest size: 255 entries of 255 bytes, 248 values in each. All are
 * visited, and only the last value of the last one is met. */
static void largest_file(void)
{
    static uint8_t body[PAPER];

    draft_printed_setup(&setup);
    setup.conversions = 5;
    for (unsigned i = 0; i < 5; i++)
        rate(i, (uint16_t)(0x0001 + i), 15, 8);
    uint8_t *at = body + draft_setup_body(&setup, body);
    *at++ = 1;
    *at++ = ENTRIES;
    for (unsigned i = 0; i < ENTRIES; i++) {
        uint8_t entry[ENTRY] = {1, 1, 249, 0xFF};
        memset(entry + 4, 0x55, 248);
        if (i == ENTRIES - 1)
            entry[251] = 0xAA;
        entry[252] = 0;
        entry[253] = 1;
        entry[254] = i == ENTRIES - 1 ? 0x7E : 0x81;
        *at++ = ENTRY;
        memcpy(at, entry, ENTRY);
        at += ENTRY;
    }
    *at++ = 1; /* the syllabus that rounds up */
    draft_begin(draft);
    draft->bytes[0] = 3;
    draft_record(draft, KIND_SETUP, body, (size_t)(at - body));
    start(0xAA);
    first_in(ARQC, 1, 0x0005);
    second(TC, OTHER, VERIFIED, 0x83);
    start(0xAB);
    draft_data(draft, (const uint8_t[]){0xAA, 0, 0}, 3);
    first(TC, 1);
    assert(draft->length == PAPER);
    emit();
}

/* The largest data that a Start can bring and a First can follow. The entry
 * looks as far into them as an entry can: 124 bytes from the 255th on. */
static void largest_data(void)
{
    uint8_t entry[254] = {255, 124, 2};

    draft_printed_setup(&setup);
    setup.version = 2;
    memset(entry + 3, 0xFF, 124);
    memset(entry + 3 + 124, 0x11, 124);
    entry[252] = 1;
    entry[253] = 0x7E;
    draft_entry(&setup.file, entry, sizeof entry);
    memset(many, 0x11, sizeof many);
    begin();
    draft_data(draft, many, 254 + 123);
    draft_data(draft, many, PAPER - 3 - 15 - draft->length);
    first(TC, 1);
    assert(draft->length == PAPER);
    emit();
}

/* The longest record there is room for: as a set-up, where it is too long for
 * its p and c; as a Start without selection, and as a First. */
static void largest_records(void)
{
    static uint8_t body[PAPER];

    draft_printed_setup(&setup);
    draft_setup_body(&setup, body);
    draft_begin(draft);
    draft_record(draft, KIND_SETUP, body, PAPER - 4);
    emit();
    memset(many, 0, sizeof many);
    many[0] = 1;
    for (uint8_t kind = KIND_START; kind <= KIND_FIRST; kind++) {
        begin();
        start(1);
        draft_record(draft, kind, many, PAPER - 3 - draft->length);
        emit();
    }
}

/* Starts to the end of the paper, past the end of the ATC, what is open open
 * to the last; then Starts without data, the shortest records, each of them
 * refused. */
static void most_records(void)
{
    draft_printed_setup(&setup);
    setup.atc = 49535;
    begin();
    start(1);
    first(ARQC, 1);
    while (draft->length < PAPER - 2 * 15)
        start(1);
    first(TC, 1);
    first(TC, 1);
    assert(draft->length == PAPER);
    emit();

    draft_printed_setup(&setup);
    setup.version = 2;
    simple_entry(0x00, 0x00, 0, 1, 1);
    begin();
    draft_data(draft, many, 1);
    while (draft->length < PAPER - 15)
        draft_data(draft, many, 0);
    first(TC, 1);
    assert(draft->length == PAPER);
    emit();
}

void listed_bounds(void)
{
    versions();
    kinds();
    largest_file();
    largest_data();
    largest_records();
    most_records();
}
