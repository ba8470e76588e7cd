#include "bytes.h"
#include "listed.h"
#include "script.h"

/* The MTA declines, the lower limit of accumulator 1 makes profile 2 go
 * online, the upper one is what Default looks at. */
enum { SMALL = 100, UPPER = 500, ABOVE_UPPER = 600, MTA = 1000 };

struct first {
    uint8_t type;
    uint64_t amount;
    uint8_t terminal;
};

struct second {
    uint8_t type;
    uint16_t code;
    uint8_t data;
    unsigned status;
};

static void send_first(const struct first *command)
{
    draft_first(draft, command->type, command->amount, EUR, command->terminal);
}

static void send_second(const struct second *command)
{
    second(command->type, command->code, command->data, command->status);
}

static void begin_with(uint8_t required, uint16_t atc)
{
    draft_printed_setup(&setup);
    setup.required = required;
    setup.atc = atc;
    profiles_alike(2);
    for (unsigned i = 0; i < 2; i++) {
        struct draft_profile *profile = &setup.profile[i];
        profile->online = i == 0 ? 0 : LOWER_1;
        profile->decline = MTA_EXCEEDED;
        profile->by_default = UPPER_1;
        profile->mta_on = 1;
        profile->mta_currency = EUR;
        profile->mta = MTA;
        profile->accumulator[0].lower = SMALL - 1;
        profile->accumulator[0].upper = UPPER;
        profile->counter[0].switches = 15;
        profile->counter[0].upper = 99;
    }
    begin();
}

/* Asked for, or by the Online mask. */
static void open_online(unsigned round, uint64_t amount)
{
    start((uint8_t)(1 + round % 2));
    first(round % 2 ? TC : ARQC, amount);
}

/* Commands that nothing asked for. */
static void all_refused(void)
{
    static const struct first firsts[] = {{TC, SMALL, ONLINE_TERMINAL},
                                          {TC, SMALL, OFFLINE_TERMINAL},
                                          {ARQC, SMALL, ONLINE_TERMINAL},
                                          {AAC, SMALL, ONLINE_TERMINAL}};
    static const struct second seconds[] = {{TC, Y3, ABSENT, 0},
                                            {AAC, Z3, ABSENT, 0},
                                            {TC, OTHER, VERIFIED, 0x83},
                                            {TC, OTHER, FAILED, 0},
                                            {TC, OTHER, ABSENT, 0}};

    for (size_t i = 0; i < sizeof seconds / sizeof *seconds; i++) {
        if (i < sizeof firsts / sizeof *firsts)
            send_first(&firsts[i]);
        send_second(&seconds[i]);
    }
}

/* A First that closes, sent three times; then all others, also after a Start
 * that is refused. */
static void closed_by_first(const struct first *command)
{
    begin_with(0, 0);
    for (unsigned round = 0; round < 2; round++) {
        start(1);
        for (unsigned i = 0; i < 3; i++)
            send_first(command);
        all_refused();
        start(3);
        send_first(command);
        second(TC, Y3, ABSENT, 0);
    }
    open_online(0, 1);
    second(TC, OTHER, VERIFIED, 0x82);
    emit();
}

static void closed_by_second(uint8_t required, uint64_t amount,
                             const struct second *command)
{
    begin_with(required, 0);
    for (unsigned round = 0; round < 2; round++) {
        open_online(round, amount);
        for (unsigned i = 0; i < 3; i++)
            send_second(command);
        all_refused();
        start(3);
        send_second(command);
        first(TC, SMALL);
    }
    open_online(0, 1);
    second(TC, OTHER, VERIFIED, 0x82);
    emit();
}

/* Every way to close. */
static void closings(void)
{
    static const struct first firsts[] = {
        {TC, SMALL, ONLINE_TERMINAL},        /* approved */
        {TC, SMALL, OFFLINE_TERMINAL},
        {AAC, SMALL, ONLINE_TERMINAL},       /* declined: asked for */
        {TC, MTA + 1, ONLINE_TERMINAL},      /* by Decline */
        {ARQC, MTA + 1, ONLINE_TERMINAL},
        {TC, ABOVE_UPPER, OFFLINE_TERMINAL}, /* by Default */
    };
    static const uint16_t unable[] = {Y3, Z3};

    for (size_t i = 0; i < sizeof firsts / sizeof *firsts; i++)
        closed_by_first(&firsts[i]);
    for (unsigned i = 0; i < 2; i++) {
        const struct second approve = {TC, unable[i], ABSENT, 0};
        const struct second decline = {AAC, unable[i], ABSENT, 0};
        closed_by_second(0, SMALL, &approve);
        closed_by_second(0, SMALL, &decline);
        closed_by_second(0, ABOVE_UPPER, &approve); /* by Default */
    }
    for (uint8_t type = AAC; type <= TC; type++) {
        for (unsigned order = 0; order < 4; order++)
            for (unsigned approves = 0; approves < 2; approves++)
                closed_by_second(0, SMALL,
                                 &(struct second){type, OTHER, VERIFIED,
                                                  approves << 7 | order});
        for (uint8_t required = 0; required < 2; required++) {
            closed_by_second(required, SMALL,
                             &(struct second){type, OTHER, FAILED, 0x83});
            closed_by_second(required, SMALL,
                             &(struct second){type, OTHER, ABSENT, 0x83});
        }
    }
}

/* A Start over an open Start (0) or an open ARQC (1, 2): of the same profile,
 * of another, of one that is not there, and at the end of the ATC, where the
 * open one stays. Then a Second before any First, or after. */
static void start_over(unsigned open, uint8_t profile, uint16_t atc,
                       unsigned turned)
{
    static const struct second seconds[] = {{TC, Y3, ABSENT, 0},
                                            {TC, OTHER, VERIFIED, 0x83},
                                            {TC, OTHER, FAILED, 0},
                                            {TC, OTHER, ABSENT, 0}};

    begin_with(0, atc);
    if (open == 0)
        start(2);
    else
        open_online(open, SMALL);
    start(profile);
    start(profile);
    if (turned)
        first(TC, 1);
    for (size_t i = 0; i < sizeof seconds / sizeof *seconds; i++)
        send_second(&seconds[i]);
    first(TC, 1);
    send_second(&seconds[1]);
    first(TC, 1);
    start(1);
    open_online(0, 1);
    second(TC, OTHER, VERIFIED, 0x82);
    emit();
}

/* Default looks at nothing but that the terminal could not go online: for the
 * first time, with a history that says so already, and cleared again. */
static void unable_by_default(void)
{
    begin_with(0, 0);
    for (unsigned i = 0; i < 2; i++)
        put32(draft->bytes + SETUP_BODY + SETUP_HEAD + i * SETUP_PROFILE + 9,
              UNABLE);
    for (unsigned round = 0; round < 2; round++) {
        for (unsigned i = 0; i < 2; i++) {
            open_online(round, SMALL);
            second(TC, i == 0 ? Y3 : Z3, ABSENT, 0);
        }
        open_online(round, SMALL);
        second(TC, OTHER, VERIFIED, 0x82);
    }
    emit();
}

/* A profile without an MTA after one that exceeds its own: the amount of then
 * counts for nothing. */
static void without_mta(void)
{
    begin_with(0, 0);
    draft->bytes[SETUP_BODY + SETUP_HEAD + SETUP_PROFILE + 13] = 0;
    for (unsigned round = 0; round < 2; round++) {
        start(1);
        first(TC, round == 0 ? MTA + 1 : 1);
        start(2);
        first(TC, 1);
        start(2);
        first(TC, MTA + 1);
        second(TC, Z3, ABSENT, 0);
    }
    emit();
}

void listed_closing(void)
{
    closings();
    for (unsigned open = 0; open < 3; open++)
        for (unsigned turned = 0; turned < 2; turned++) {
            for (uint8_t profile = 1; profile <= 3; profile++)
                start_over(open, profile, 0, turned);
            start_over(open, 1, 65534, turned);
        }
    unable_by_default();
    without_mta();
}
