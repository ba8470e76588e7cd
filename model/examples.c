#include "examples.h"

#include "script.h"

/* One profile: accumulator 1 counts and is sent, the cyclic ones have every
 * switch. */
static void begin_sitting(uint32_t last, uint8_t kind_1, uint8_t first_day_1,
                          uint8_t kind_2, uint8_t first_day_2)
{
    struct draft_profile *profile = &setup.profile[0];

    draft_printed_setup(&setup);
    profiles_blank(1);
    cyclic(last, kind_1, first_day_1, kind_2, first_day_2);
    profile->accumulator[0].switches = 3;
    profile->accumulator[0].lower = 1000000;
    profile->accumulator[0].upper = 1000000;
    profile->accumulator_sent = 1;
    for (unsigned i = 0; i < 2; i++)
        profile->cyclic[i].switches = 7;
}

static void buy(uint32_t date, uint64_t amount)
{
    start(1);
    first_on(date, TC, amount);
}

void day_and_month(void)
{
    begin_sitting(0x050715, DAYS, FRI, MONTHS, FRI);
    setup.profile[0].decline = CYCLIC_1 | CYCLIC_2;
    setup.profile[0].by_default = CYCLIC_1 | CYCLIC_2;
    setup.profile[0].cyclic[0].limit = 10000;
    setup.profile[0].cyclic[1].limit = 15000;
    begin();
    buy(0x050715, 6000);
    buy(0x050715, 4001);
    buy(0x050715, 4000);
    buy(0x050716, 5001);
    buy(0x050716, 5000);
    buy(0x050801, 10000);
}

void weeks(void)
{
    begin_sitting(0x051230, WEEKS, MON, WEEKS, SUN);
    setup.profile[0].decline = CYCLIC_1;
    setup.profile[0].online = CYCLIC_2;
    for (unsigned i = 0; i < 2; i++) {
        setup.cyclic[i].amount = 100;
        setup.profile[0].cyclic[i].limit = 100;
    }
    begin();
    buy(0x051231, 1);
    buy(0x060101, 1);
    buy(0x060102, 1);
    buy(0x060108, 100);
    buy(0x060108, 99);
    buy(0x060109, 2);
}

void date_error(void)
{
    begin_sitting(0x050725, MONTHS, FRI, DAYS, FRI);
    setup.profile[0].decline = CYCLIC_1;
    setup.profile[0].online = PAST_DATE;
    setup.cyclic[0].amount = 500;
    setup.profile[0].cyclic[0].limit = 1000;
    setup.profile[0].cyclic[1].switches = 0;
    begin();
    buy(0x050724, 600);
    second(TC, OTHER, VERIFIED, 0x80);
    buy(0x050724, 600);
    buy(0x050725, 400);
    buy(0x050724, 1);
    second(TC, Y3, ABSENT, 0);
    buy(0x050724, 100);
    second(TC, OTHER, VERIFIED, 0x81);
    buy(0x050724, 0);
    buy(0x050724, 1);
}

void refused_dates(void)
{
    begin_sitting(0x050228, DAYS, FRI, DAYS, FRI);
    setup.profile[0].decline = CYCLIC_1;
    setup.cyclic[0].amount = 9;
    setup.cyclic[1].currency = 0;
    setup.profile[0].cyclic[0].limit = 9;
    setup.profile[0].cyclic[1].switches = 0;
    begin();
    first_on(0x050229, TC, 1);
    start(1);
    first(3, MOST + 1);
    first(TC, MOST + 1);
    first(TC, 1);
    first_on(0x050301, 3, 1);
    first_on(0x050228, TC, 1);
    buy(0x050301, 9);
    start(1);
    draft_first(draft, TC, 1, EUR, ONLINE_TERMINAL);
}

static void pay(uint8_t by, uint32_t results, uint64_t amount)
{
    interface = by;
    cvm = results;
    start(1);
    first(TC, amount);
}

/* Document 01's set-up: accumulator 1 is closed to no CVM, counter 1 to online
 * PIN and to signature. */
void cpace_sitting(void)
{
    draft_printed_setup(&setup);
    cpace();
    setup.profile[0].online |= WITH_CASHBACK;
    setup.profile[0].cashback = 1;
    setup.profile[0].counter[0].switches = 7;
    setup.control[0] = FOR_NOTHING;
    setup.control[4] = FOR_PIN | FOR_SIGNATURE;
    begin();
    cashback = 1;
    pay(CONTACT, BY_NOTHING, 1);
    second(AAC, Z3, ABSENT, 0);
    cashback = 0;
    pay(CONTACT, BY_NOTHING, 6000);
    pay(CONTACTLESS, BY_PIN, 6000);
    second(TC, Y3, ABSENT, 0);
    pay(CONTACTLESS, BY_SIGNATURE, 6000);
    pay(CONTACTLESS, BY_SIGNATURE + 2, 6000); /* 1E0302: not successful */
    second(TC, OTHER, VERIFIED, 0x83);
    interface = 2;
    start(1);
}

/* Start by the interface alone, the terminal's data empty. */
static void start_by(uint8_t by)
{
    draft_data(draft, &by, 1);
}

/* Contactless, with the amount as the terminal's data, and the First of it. */
static void tap(const uint8_t *data, uint64_t amount)
{
    draft_data(draft, data, 7);
    first(TC, amount);
}

void interface_selection(void)
{
    static const uint8_t entries[][12] = {
        {1, 1, 2, 0xFF, 0x01, 0, 0x81, 1}, /* contactless? */
        {2, 6, 1, 0, 0, 0, 0, 0x10, 0x00, 0xD3, 2, 0x81}, /* above 1000? */
        {0, 1, 1, 2, 0x91, 2, 1}};         /* counter 1 above 2? */
    static const uint8_t lengths[] = {8, 12, 7};
    struct draft_profile *profile = &setup.profile[0];

    draft_printed_setup(&setup);
    profiles_blank(2);
    cpace();
    profile->accumulator[0].switches = 3;
    profile->accumulator[0].lower = MOST;
    profile->accumulator[0].upper = MOST;
    profile->counter[0].switches = 3;
    profile->counter[0].lower = 255;
    profile->counter[0].upper = 255;
    for (unsigned i = 0; i < 2; i++) {
        setup.profile[i].accumulator_sent = 1;
        setup.profile[i].counter_sent[0] = 1;
    }
    for (unsigned i = 0; i < 3; i++)
        draft_entry(&setup.file, entries[i], lengths[i]);
    begin();
    start_by(CONTACT);
    first(TC, 600);
    tap((const uint8_t[]){1, 0, 0, 0, 0, 0x04, 0x00}, 400);
    tap((const uint8_t[]){1, 0, 0, 0, 0, 0, 0x01}, 1);
    for (unsigned i = 0; i < 2; i++) {
        start_by(CONTACT);
        first(TC, 1);
    }
    draft_data(draft, (const uint8_t[]){1, 0, 0, 0, 0, 0, 0}, 7);
    start_by(CONTACTLESS);
    draft_data(draft, (const uint8_t[]){1, 0, 0, 0, 0, 0, 0x0A}, 7);
    start_by(2);
    draft_data(draft, NULL, 0);
}

/* Document 01's set-up, scripts on. */
static void begin_scripts(void)
{
    draft_printed_setup(&setup);
    scripts();
}

void script_done(void)
{
    begin_scripts();
    begin();
    script("714A"
           "86160CDABF30118109DF01060000001234568E0411223344"
           "861C0CDABF3017810FDF110C0000002000000000003000008E0411223344"
           "86120CDABF350D8105DF110207098E0411223344");
    start(1);
    first(TC, 5000);
}

void script_fails(void)
{
    begin_scripts();
    begin();
    script("7151"
           "86160CDABF30118109DF01060000000040008E0411223344"
           "861F0CDABF301A8112DF0106000000000007DF020600000000000A8E0411223344"
           "86160CDABF30118109DF01060000000000098E0411223344");
    script("7118"
           "86160CDABF30118109DF01060000000000018E0411223344");
    start(1);
    first(ARQC, 1);
    second(TC, OTHER, VERIFIED, 0x80);
    start(1);
    first(ARQC, 1);
}

void script_between(void)
{
    begin_scripts();
    setup.profile[0].decline = 0;
    setup.accumulator[0].value = 5000;
    begin();
    start(1);
    first(ARQC, 6000);
    script("7118"
           "86160CDABF30118109DF01060000000000008E0411223344");
    second(TC, Y3, ABSENT, 0);
    start(1);
    first(ARQC, 4000);
    script("721E"
           "861C0CDABF3017810FDF110C0000000000000000000099998E0411223344");
    second(TC, Z3, ABSENT, 0);
    start(1);
    first(AAC, 0);
}

void script_refusals(void)
{
    begin_scripts();
    begin();
    script_by(2, "");
    script("");
    script("710186");
    script("7109A507BF0C047102E100");
    script("7109BF0C067104E1028600");
    start(1);
    script_by(2, "7109A507BF0C047102E100");
    first(AAC, 0);
    draft_record(draft, KIND_SCRIPT, NULL, 0);
    start(1);
}

/* Document 01's set-up with a log. */
static void begin_log(uint8_t size, uint8_t switches)
{
    draft_printed_setup(&setup);
    logs(size, switches);
}

void log_ring(void)
{
    begin_log(2, DECLINED | APPROVED | WITH_ATC | WITH_CID | WITH_CVR);
    at_first(12, 1);
    at_second(FROM_FIRST, 12, 1);
    at_second(FROM_SECOND, 2, 2);
    at_second(FROM_SECOND, 0, 9);
    begin();
    printed_commands();
}

void log_offline_only(void)
{
    begin_log(20, APPROVED | OFFLINE_ONLY | WITH_ATC | WITH_CID);
    at_second(FROM_SECOND, 5, 4);
    begin();
    start(1);
    first(TC, 100);
    start(1);
    first(ARQC, 200);
    second(TC, OTHER, VERIFIED, 0x80);
    start(1);
    first(ARQC, 300);
    draft_second(draft, TC, Z3, FAILED, 0x12345678);
    start(1);
    first(AAC, 400);
}

void log_past_data(void)
{
    begin_log(0, 0);
    setup.profile[0].log = 0;
    at_second(FROM_SECOND, 9, 0);
    at_second(FROM_SECOND, 8, 2);
    begin();
    start(1);
}

/* Profiles 7 and 3, which decline nothing. What stands behind the record of
 * kind 6 is no longer a command. */
void class_paper(void)
{
    draft_printed_setup(&setup);
    profiles_blank(2);
    setup.profile[0].number = 7;
    setup.profile[1].number = 3;
    begin();
    start(7);
    first_in(TC, 0, USD);
    start(3);
    first(ARQC, 700);
    second(TC, Z3, ABSENT, 0);
    start(3);
    first_in(ARQC, 50, 0x0392);
    second(TC, OTHER, VERIFIED, 0x80);
    start(9);
    draft_record(draft, 6, NULL, 0);
    start(7);
    first(TC, 1);
}
