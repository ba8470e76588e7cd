/* agree STACK: whether display and run agree with the lines of each paper of a
 * stack, ending in 'N papers shown and run, M differ'. Status 0 exactly when M
 * is 0. What is to be shown and run is read off the lines and, by document 01's
 * offsets, off the set-up's bytes. */
#include <inttypes.h>
#include <stdio.h>
#include <stdlib.h>
#include <string.h>

#include "bundle.h"
#include "bytes.h"
#include "rooms.h"
#include "run.h"

enum {
    BODY = 4, /* of the set-up, in a paper */
    PROFILES_AT = 3,
    VALUES_AT = 10,
    VALUE_BYTES = 10,
    PROFILE_AT = 52,
    PROFILE_BYTES = 107,
    UPPERS_AT = 33,
    UPPER_BYTES = 17,
    COMMANDS_MAX = PAPER_MAX / 3,
    ROOM_BYTES = ANSWER_BYTES * COMMANDS_MAX,
    UNTOUCHED = 0x55
};

static struct bundle bundle;
static struct sitting sitting;
static struct display display;
static uint8_t expected[ROOM_BYTES], room[ROOM_BYTES];
static uint8_t records[PAPER_MAX + 1];
static char expected_log[LOG_RECORDS * LOG_LINE_MAX_BYTES];
static size_t expected_log_size;

/* What a line of a sitting says. */
struct line {
    unsigned number, refusal;
    unsigned fields;
    unsigned atc;
    uint8_t cid;
    uint8_t iad[IAD_BYTES];
};

static uint8_t byte_of(const char *hex)
{
    const char digits[] = {hex[0], hex[1], '\0'};

    return (uint8_t)strtoul(digits, NULL, 16);
}

static struct line read_line(const char *text)
{
    struct line line = {0};
    char third[8], iad[2 * IAD_BYTES + 1];
    const int fields = sscanf(text, "%u %u %7s %u %64s", &line.number,
                              &line.refusal, third, &line.atc, iad);

    line.fields = (unsigned)fields;
    if (fields == 3 || fields == 4)
        line.atc = (unsigned)strtoul(third, NULL, 10);
    if (fields == 5) {
        line.cid = byte_of(third);
        for (unsigned i = 0; i < IAD_BYTES; i++)
            line.iad[i] = byte_of(iad + 2 * i);
    }
    return line;
}

/* The rooms of each profile. */
struct rooms {
    uint64_t left[PROFILES_MAX][ACCUMULATORS];
};

/* The room lines that come next, one for each profile of the body. */
static bool read_rooms(const uint8_t *body, struct rooms *rooms)
{
    static char text[LOG_LINE_MAX_BYTES + 1];
    char again[LINE_MAX_BYTES];

    for (unsigned p = 0; p < body[PROFILES_AT]; p++) {
        uint64_t *left = rooms->left[p];
        text[display_line(&display, text)] = '\0';
        if (sscanf(text, "room %*u %" SCNu64 " %" SCNu64 " %" SCNu64
                   " %" SCNu64, &left[0], &left[1], &left[2], &left[3]) != 4)
            return false;
        sprintf(again, "room %u %" PRIu64 " %" PRIu64 " %" PRIu64 " %" PRIu64
                "\n", body[PROFILE_AT + PROFILE_BYTES * p], left[0], left[1],
                left[2], left[3]);
        if (strcmp(text, again) != 0)
            return false;
    }
    return true;
}

static uint64_t upper_at(const uint8_t *body, unsigned p, unsigned i)
{
    return get64(body + PROFILE_AT + PROFILE_BYTES * p + UPPERS_AT
                 + UPPER_BYTES * i);
}

/* Whether accumulator i, of this value, leaves each profile its room. */
static bool leaves(const uint8_t *body, unsigned i, uint64_t value,
                   const struct rooms *rooms)
{
    for (unsigned p = 0; p < body[PROFILES_AT]; p++) {
        const uint64_t upper = upper_at(body, p, i);
        const uint64_t left = rooms->left[p][i];
        if (value <= upper ? left + value != upper : left != 0)
            return false;
    }
    return true;
}

static bool leaves_all(const uint8_t *body, const struct rooms *rooms)
{
    for (unsigned i = 0; i < ACCUMULATORS; i++)
        if (!leaves(body, i, get64(body + VALUES_AT + VALUE_BYTES * i), rooms))
            return false;
    return true;
}

/* The accumulator that an IAD sends, 0 for none, and its value. */
static unsigned sent_in(const uint8_t *body, const uint8_t *iad,
                        uint64_t *value)
{
    *value = 0;
    for (unsigned i = 8; i < 14; i++)
        *value = 100 * *value + 10u * (iad[i] >> 4) + (iad[i] & 15u);
    const uint8_t *profile = body + PROFILE_AT;
    while (profile[0] != iad[17])
        profile += PROFILE_BYTES;
    return profile[PROFILE_BYTES - 3];
}

/* Display shows the sitting's lines; rooms as the set-up has them, kept by what
 * is refused and by Start, and as each IAD says until a script writes; then the
 * log. */
static bool shows(const uint8_t *paper, size_t length)
{
    const uint8_t *body = paper + BODY;
    static char text[LOG_LINE_MAX_BYTES], shown[LOG_LINE_MAX_BYTES];
    struct rooms before = {0}, after = {0};
    bool written = false;

    sitting_open(&sitting, paper, length);
    display_open(&display, paper, length);
    for (size_t size; (size = sitting_line(&sitting, text)) > 0;) {
        if (display_line(&display, shown) != size
            || memcmp(text, shown, size) != 0)
            return false;
        text[size] = '\0';
        const struct line line = read_line(text);
        if (line.number == 0 && line.refusal > 0)
            break;
        if (!read_rooms(body, &after))
            return false;
        if (line.number == 0 && !leaves_all(body, &after))
            return false;
        const bool kept = line.refusal > 0
            || (line.number > 0 && (line.fields == 3 || line.fields == 4));
        if (kept && memcmp(&before, &after, sizeof after) != 0)
            return false;
        written = written || (line.number > 0 && line.fields == 2);
        if (line.fields == 5 && !written) {
            uint64_t value;
            const unsigned sent = sent_in(body, line.iad, &value);
            if (sent > 0 && !leaves(body, sent - 1, value, &after))
                return false;
        }
        before = after;
    }
    for (size_t size; (size = sitting_log_line(&sitting, text)) > 0;)
        if (display_line(&display, shown) != size
            || memcmp(text, shown, size) != 0)
            return false;
    return display_line(&display, shown) == 0;
}

/* The 36 bytes of a line. */
static void put_line(uint8_t *at, const struct line *line)
{
    memset(at, 0, ANSWER_BYTES);
    at[0] = (uint8_t)line->refusal;
    at[1] = line->cid;
    put16(at + 2, line->atc);
    memcpy(at + 4, line->iad, IAD_BYTES);
}

/* The lines of the sitting's log, one behind the other. */
static size_t put_log(char *lines)
{
    char *at = lines;

    for (size_t size; (size = sitting_log_line(&sitting, at)) > 0;)
        at += size;
    return (size_t)(at - lines);
}

/* Whether the log of a paper and a run is that of the paper with the run's
 * records in it. The run's records are still there. */
static bool logs_as_expected(void)
{
    static char lines[sizeof expected_log];

    sitting.shown = 0;
    return put_log(lines) == expected_log_size
        && memcmp(lines, expected_log, expected_log_size) == 0;
}

/* How many lines the paper has behind the first one; their answers and its log
 * become the expected ones, and *over says whether a refusal ended it. */
static size_t expect_answers(const uint8_t *paper, size_t length, bool *over)
{
    char text[LINE_MAX_BYTES];
    size_t lines = 0;

    sitting_open(&sitting, paper, length);
    for (size_t size; (size = sitting_line(&sitting, text)) > 0; lines++) {
        text[size] = '\0';
        const struct line line = read_line(text);
        if (line.number > 0)
            put_line(expected + ANSWER_BYTES * (line.number - 1), &line);
    }
    *over = sitting.over;
    expected_log_size = put_log(expected_log);
    return lines - 1;
}

/* The card behind the set-up and so many commands; returns where they end. */
static size_t sit(const uint8_t *paper, size_t commands)
{
    char text[LINE_MAX_BYTES];
    size_t end = 1;

    for (size_t i = 0; i <= commands; i++)
        end += 2 + (size_t)get16(paper + end);
    sitting_open(&sitting, paper, end);
    while (sitting_line(&sitting, text) > 0)
        continue;
    return end;
}

static bool refuses(unsigned refusal, size_t length, size_t size)
{
    size_t answers;

    const size_t logged = sitting.log.logged;

    if (run(&sitting.card, &sitting.log, records, length, room, size,
            &answers) != refusal)
        return false;
    for (size_t i = 0; i < size; i++)
        if (room[i] != UNTOUCHED)
            return false;
    return answers == 0 && sitting.log.logged == logged;
}

/* The paper's last commands, from one of them on, as a run: it is refused with
 * a byte left over and with a byte too little room, and then answers as the
 * paper does. What ends the paper refuses it. */
static bool runs(const uint8_t *paper, size_t length, uint64_t number)
{
    bool over;
    const size_t commands = expect_answers(paper, length, &over);

    if (commands == 0)
        return true;
    const size_t from = (size_t)(number % commands);
    const size_t count = commands - from;
    const size_t size = ANSWER_BYTES * count;
    const size_t end = sit(paper, from);
    const size_t left = length - end;
    size_t answers;

    memcpy(records, paper + end, left);
    memset(room, UNTOUCHED, size + 1);
    if (over)
        return refuses(9, left, size + 1) && refuses(9, left, 0);
    records[left] = 0;
    if (!refuses(9, left + 1, size - 1) || !refuses(17, left, size - 1))
        return false;
    return run(&sitting.card, &sitting.log, records, left, room, size + 1,
               &answers) == 0
        && answers == count
        && memcmp(room, expected + ANSWER_BYTES * from, size) == 0
        && room[size] == UNTOUCHED && logs_as_expected();
}

int main(int argc, char **argv)
{
    const uint8_t *paper;
    size_t length;
    uint64_t papers = 0, differ = 0;
    enum bundle_next next;

    if (argc != 2) {
        fprintf(stderr, "usage: agree STACK\n");
        return 2;
    }
    FILE *file = fopen(argv[1], "rb");
    if (!file) {
        perror(argv[1]);
        return 2;
    }
    bundle_open(&bundle, file);
    while ((next = bundle_next(&bundle, &paper, &length)) == BUNDLE_PAPER
           || next == BUNDLE_TOO_LONG) {
        papers++;
        if (next == BUNDLE_TOO_LONG
            || (shows(paper, length) && runs(paper, length, papers)))
            continue;
        if (differ++ == 0)
            fprintf(stderr, "paper %" PRIu64 " differs\n", papers);
    }
    if (next != BUNDLE_END) {
        fprintf(stderr, "agree: the stack is not whole\n");
        return 2;
    }
    printf("%" PRIu64 " papers shown and run, %" PRIu64 " differ\n", papers,
           differ);
    return differ > 0;
}
