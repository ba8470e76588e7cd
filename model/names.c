#include "names.h"

#define NAMES(which, ...)                                                      \
    static const char *const which##_words[] = {__VA_ARGS__};                  \
    const struct names name_##which = {sizeof which##_words                    \
                                           / sizeof *which##_words,            \
                                       which##_words}

NAMES(switch, "off", "on");
NAMES(required, "off", "required");
NAMES(next, "off", "next");
NAMES(power, "e-9", "e-8", "e-7", "e-6", "e-5", "e-4", "e-3", "e-2", "e-1",
      "e0", "e1", "e2", "e3");
NAMES(cycle, "none", "day", "week", "month");
NAMES(day, "Friday", "Saturday", "Sunday", "Monday", "Tuesday", "Wednesday",
      "Thursday");
NAMES(check, "unchecked", "checked");
NAMES(logged, "no", "yes");
NAMES(source, "first", "second");
NAMES(type, "AAC", "TC", "ARQC");
NAMES(issuer, "absent", "verified", "failed");
NAMES(messaging, "failed", "verified");

NAMES(decision, "not-completed", "go-online", "auth-failed", "unable",
      "no-data", "mta", "a1-lower", "a2-lower", "a3-lower", "a4-lower",
      "a1-upper", "a2-upper", "a3-upper", "a4-upper", "c1-lower", "c2-lower",
      "c3-lower", "c4-lower", "c1-upper", "c2-upper", "c3-upper", "c4-upper",
      "y1", "y2", "date-error", "cashback");
NAMES(accumulator, "active", "allow", "include");
NAMES(counter, "active", "allow", "include", "declines");
NAMES(closed, "no-cvm", "signature", "online-pin", "offline-pin");
NAMES(kept, "bit-1", "bit-2", "cvr", "cid", "atc", "offline-only", "approved",
      "declined");
