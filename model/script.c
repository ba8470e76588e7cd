#include "script.h"

#include <string.h>

static struct draft paper;
struct draft *const draft = &paper;
struct draft_setup setup;
uint32_t today;
uint8_t interface;
uint32_t cvm;
uint64_t cashback;

static void (*emit_paper)(struct draft *draft);

void emit_to(void (*then)(struct draft *draft))
{
    emit_paper = then;
}

void emit(void)
{
    emit_paper(draft);
}

void begin(void)
{
    draft_begin(draft);
    draft_setup(draft, &setup);
}

void start(uint8_t byte)
{
    const uint8_t both[] = {interface, byte};

    if (draft_is_cpace(&setup))
        draft_data(draft, both, sizeof both);
    else
        draft_start(draft, byte);
}

void first(uint8_t type, uint64_t amount)
{
    first_in(type, amount, EUR);
}

void first_offline(uint8_t type, uint64_t amount)
{
    first_at(type, amount, EUR, OFFLINE_TERMINAL);
}

void first_in(uint8_t type, uint64_t amount, uint16_t currency)
{
    first_at(type, amount, currency, ONLINE_TERMINAL);
}

void first_on(uint32_t date, uint8_t type, uint64_t amount)
{
    today = date;
    first(type, amount);
}

void first_at(uint8_t type, uint64_t amount, uint16_t currency,
              uint8_t terminal)
{
    const struct draft_more more = {today, cvm, cashback};

    draft_first_for(draft, &setup, type, amount, currency, terminal, &more);
}

void second(uint8_t type, uint16_t code, uint8_t data, unsigned status)
{
    draft_second(draft, type, code, data, (uint32_t)status << 16);
}

void cyclic(uint32_t last, uint8_t kind_1, uint8_t first_day_1, uint8_t kind_2,
            uint8_t first_day_2)
{
    setup.version = 4;
    setup.dated = 1;
    setup.last = today = last;
    setup.cyclic[0].kind = kind_1;
    setup.cyclic[0].first_day = first_day_1;
    setup.cyclic[1].kind = kind_2;
    setup.cyclic[1].first_day = first_day_2;
    for (unsigned i = 0; i < 2; i++) {
        setup.cyclic[i].currency = EUR;
        setup.cyclic[i].amount = 0;
    }
}

void cpace(void)
{
    setup.version = 5;
    setup.family = CPACE;
    memset(setup.control, 0, sizeof setup.control);
    for (unsigned i = 0; i < 5; i++)
        setup.profile[i].cashback = 0;
    interface = CONTACT;
    cvm = BY_NOTHING;
    cashback = 0;
}

void scripts(void)
{
    setup.version = 6;
    setup.scripts = 1;
}

void logs(uint8_t size, uint8_t switches)
{
    setup.version = 7;
    setup.log = 1;
    setup.log_size = size;
    setup.log_switches = switches;
    for (unsigned i = 0; i < 5; i++)
        setup.profile[i].log = 1;
    memset(setup.table, 0, sizeof setup.table);
}

void at_first(uint8_t position, uint8_t length)
{
    draft_log_entry(&setup.table[0], FROM_FIRST, position, length);
}

void at_second(uint8_t source, uint8_t position, uint8_t length)
{
    draft_log_entry(&setup.table[1], source, position, length);
}

static unsigned nibble(char digit)
{
    return (unsigned)(digit <= '9' ? digit - '0' : digit - 'A' + 10);
}

void script_by(uint8_t result, const char *template)
{
    static uint8_t bytes[DRAFT_BYTES];
    size_t length = 0;

    for (; template[0] != '\0'; template += 2)
        bytes[length++] =
            (uint8_t)(nibble(template[0]) << 4 | nibble(template[1]));
    draft_script(draft, result, bytes, length);
}

void script(const char *template)
{
    script_by(1, template);
}

void printed_sitting(void)
{
    draft_printed_setup(&setup);
    begin();
    printed_commands();
}

void printed_commands(void)
{
    start(1);
    first(TC, 5000);
    start(1);
    first(TC, 1);
    second(TC, Y3, ABSENT, 0);
    start(1);
    first(TC, 5000);
    second(TC, Y3, ABSENT, 0);
}

void profiles_alike(unsigned count)
{
    setup.profiles = (uint8_t)count;
    for (unsigned i = 0; i < count; i++) {
        setup.profile[i] = setup.profile[0];
        setup.profile[i].number = (uint8_t)(i + 1);
    }
}

void profiles_blank(unsigned count)
{
    memset(setup.profile, 0, sizeof setup.profile);
    profiles_alike(count);
}

void rate(unsigned place, uint16_t from, uint16_t digits, uint8_t shift)
{
    setup.conversion[place].from = from;
    setup.conversion[place].to = EUR;
    setup.conversion[place].digits = digits;
    setup.conversion[place].shift = shift;
}

void simple_entry(uint8_t mask, uint8_t value, uint8_t check, uint8_t positive,
                  uint8_t negative)
{
    const uint8_t bytes[] = {1, 1, 2, mask, value, check, positive, negative};

    draft_entry(&setup.file, bytes, sizeof bytes);
}
