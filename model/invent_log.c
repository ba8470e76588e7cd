#include "invent_log.h"

/* An entry that its data have room for: any stretch, the last bytes, one byte,
 * none at all; or position 0, which means none. */
static void invent_entry(struct chance *chance, struct draft_setup *setup,
                         unsigned whose)
{
    const unsigned source =
        whose == FROM_SECOND && percent(chance, 60) ? FROM_SECOND : FROM_FIRST;
    const size_t data = draft_data_length(setup, source);
    const size_t any = 1 + below(chance, data + 1);
    const size_t most = data + 1 - any;
    const uint8_t other = any_byte(chance);
    size_t position = any, length = below(chance, most + 1);

    switch (below(chance, 10)) {
    case 0:
        position = 0;
        length = other;
        break;
    case 1:
    case 2:
        length = most;
        break;
    case 3:
        length = most > 0;
        break;
    case 4:
        position = 1;
        length = data;
        break;
    default:
        break;
    }
    draft_log_entry(&setup->table[whose], (uint8_t)source, (uint8_t)position,
                    (uint8_t)length);
}

static void invent_table(struct chance *chance, struct draft_setup *setup,
                         unsigned whose)
{
    size_t count = below(chance, 5);

    if (percent(chance, 2))
        count = below(chance, 256);
    for (; count > 0; count--)
        invent_entry(chance, setup, whose);
}

/* An entry past its data, by one byte as often as by more. */
static void spoil_table(struct chance *chance, struct draft_setup *setup)
{
    const unsigned whose = (unsigned)below(chance, 2);
    struct draft_table *table = &setup->table[whose];
    const uint8_t position = any_byte(chance), length = any_byte(chance);
    const bool by_one = percent(chance, 60);

    if (table->entries == 0)
        return;
    uint8_t *entry = table->entry[below(chance, table->entries)];
    const size_t data = draft_data_length(setup, entry[0]);
    if (by_one) {
        entry[1] = (uint8_t)(1 + position % (data + 2));
        entry[2] = (uint8_t)(data + 2 - entry[1]);
    } else {
        entry[1] = position;
        entry[2] = length;
    }
}

void invent_log(struct chance *chance, struct draft_setup *setup)
{
    static const uint8_t sizes[] = {0, 1, 1, 2, 2, 3, 4, 20, 20};
    const uint8_t switches = any_byte(chance) & 0xFC;

    setup->version = 7;
    setup->log = percent(chance, 92);
    setup->log_size = PICK(chance, sizes);
    if (percent(chance, 30))
        setup->log_size = (uint8_t)below(chance, 21);
    setup->log_switches = switches;
    if (percent(chance, 60))
        setup->log_switches |= DECLINED | APPROVED;
    for (unsigned i = 0; i < setup->profiles; i++)
        setup->profile[i].log = percent(chance, 80);
    for (unsigned whose = 0; whose < 2; whose++)
        invent_table(chance, setup, whose);
    if (percent(chance, 5))
        spoil_table(chance, setup);
}

/* A byte of an entry becomes one more or less, or any. */
static void damage_entry(struct chance *chance, uint8_t *entry)
{
    const size_t which = below(chance, LOG_ENTRY);
    const uint8_t any = any_byte(chance);

    switch (below(chance, 3)) {
    case 0:
        entry[which]++;
        break;
    case 1:
        entry[which]--;
        break;
    default:
        entry[which] = any;
        break;
    }
}

void damage_log(struct chance *chance, const struct draft_setup *setup,
                struct draft *draft)
{
    uint8_t *at = draft->bytes + SETUP_BODY + draft_setup_log(setup);
    uint8_t *first = at + SETUP_LOG + setup->profiles;
    uint8_t *second = first + 1 + LOG_ENTRY * setup->table[0].entries;
    const unsigned whose = (unsigned)below(chance, 2);
    uint8_t *table = whose == FROM_FIRST ? first : second;
    const size_t profile = below(chance, setup->profiles);
    const uint8_t any = any_byte(chance);

    switch (below(chance, 8)) {
    case 0:
        at[0] = percent(chance, 50) ? 0 : any;
        break;
    case 1:
        at[1] = percent(chance, 50) ? 21 : any;
        break;
    case 2:
        at[2] |= 1 + any % 3;
        break;
    case 3:
        at[SETUP_LOG + profile] = percent(chance, 50) ? 2 : any;
        break;
    case 4:
        *table += percent(chance, 50) ? 1 : 0xFF;
        break;
    default:
        if (*table > 0)
            damage_entry(chance, table + 1
                                 + LOG_ENTRY * below(chance, *table));
        break;
    }
}
