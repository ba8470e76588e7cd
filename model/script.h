/* Papers written by hand, command by command: the paper at hand and its set-up.
 * For the listed papers, the ends of a stack and the cases. */
#ifndef MODEL_SCRIPT_H
#define MODEL_SCRIPT_H

#include "draft.h"

extern struct draft *const draft;
extern struct draft_setup setup;

/* Where papers go, and the one at hand, which goes there. */
void emit_to(void (*then)(struct draft *draft));
void emit(void);

/* The paper so far has the set-up and no command. */
void begin(void);

/* Start by one byte: the profile's number, or all of the terminal's data. On a
 * CPACE card the interface comes before it. */
extern uint8_t interface;
void start(uint8_t byte);

/* First in EUR where one can go online; elsewhere; in another currency. Where
 * the set-up is dated they carry `today`; `first_on` sets it. On a CPACE card
 * they carry the CVM results and the cashback. */
extern uint32_t today;
extern uint32_t cvm;
extern uint64_t cashback;
void first(uint8_t type, uint64_t amount);
void first_offline(uint8_t type, uint64_t amount);
void first_in(uint8_t type, uint64_t amount, uint16_t currency);
void first_on(uint32_t date, uint8_t type, uint64_t amount);
void first_at(uint8_t type, uint64_t amount, uint16_t currency,
              uint8_t terminal);

/* Second; of the CSU its byte 2. */
void second(uint8_t type, uint16_t code, uint8_t data, unsigned status);

/* Cyclic accumulators in EUR, of these kinds, from 0 on; the set-up becomes
 * version 04, and nothing asks about them yet. */
void cyclic(uint32_t last, uint8_t kind_1, uint8_t first_day_1, uint8_t kind_2,
            uint8_t first_day_2);

/* The set-up becomes version 05 and CPACE, all controls 0 and no cashback
 * check; what the commands carry besides becomes contact, no CVM and no
 * cashback. */
void cpace(void);

/* The set-up becomes version 06, scripts on; CPACE, dated and all else stay. */
void scripts(void);

/* Script: the secure messaging result, and the template's bytes in hex. */
void script_by(uint8_t result, const char *template);
void script(const char *template);

/* The set-up becomes version 07, its log on in every profile, with a ring of
 * this size, these switches and empty tables; dated, CPACE, scripts and all
 * else stay. */
void logs(uint8_t size, uint8_t switches);

/* An entry of First's table, which has First's data, and one of Second's. */
void at_first(uint8_t position, uint8_t length);
void at_second(uint8_t source, uint8_t position, uint8_t length);

/* Document 01's sitting: its set-up, its commands; and the commands alone. */
void printed_sitting(void);
void printed_commands(void);

/* So many profiles, numbered from 1: all like the first, or all of zeros. */
void profiles_alike(unsigned count);
void profiles_blank(unsigned count);

/* A conversion to EUR. */
void rate(unsigned place, uint16_t from, uint16_t digits, uint8_t shift);

/* An entry of the file that looks at byte 1 of the data. */
void simple_entry(uint8_t mask, uint8_t value, uint8_t check, uint8_t positive,
                  uint8_t negative);

#endif
