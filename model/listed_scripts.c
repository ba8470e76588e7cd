/* Issuer scripts: templates and what is none, commands and what they write, the
 * bits that First shows, and what is written between First and Second. */
#include <assert.h>
#include <stdio.h>
#include <string.h>

#include "bytes.h"
#include "examples.h"
#include "listed.h"
#include "script.h"

enum { SLOTS = 4, FRIDAY = 0x050715 };

/* Bytes in hex ------------------------------------------------------------ */

enum { TEXT = 1 << 12, TEXTS = 256 };

/* Room for a text, until many others have been asked for. */
static char *text(void)
{
    static char rooms[TEXTS][TEXT];
    static unsigned next;

    return rooms[next++ % TEXTS];
}

static const char *both(const char *one, const char *other)
{
    const size_t length = strlen(one), more = strlen(other);
    char *room = text();

    assert(length + more < TEXT);
    memcpy(room, one, length);
    memcpy(room + length, other, more + 1);
    return room;
}

/* An object whose length has one byte, or 81 and one, or 82 and two. */
static const char *object_as(const char *tag, unsigned form, const char *value)
{
    static const char *const forms[] = {"%02X", "81%02X", "82%04X"};
    char length[8];

    snprintf(length, sizeof length, forms[form],
             (unsigned)strlen(value) / 2 & 0xFFFF);
    return both(both(tag, length), value);
}

static const char *object(const char *tag, const char *value)
{
    const size_t length = strlen(value) / 2;

    return object_as(tag, length < 0x80 ? 0 : length < 0x100 ? 1 : 2, value);
}

static const char *template(const char *objects)
{
    return object("71", objects);
}

#define MAC "8E0411223344"
#define FAILS "8600" /* a command without a byte */
#define NOTHING "860D0CDABF30088100" MAC /* one that is done and writes none */

/* PUT DATA; of accumulators BF30, of counters BF35. */
static const char *command(const char *of, const char *elements)
{
    const char *data = both(object("81", elements), MAC);
    char header[12];

    snprintf(header, sizeof header, "0CDA%s%02X", of,
             (unsigned)strlen(data) / 2 & 0xFF);
    return both(header, data);
}

static const char *put(const char *of, const char *elements)
{
    return object("86", command(of, elements));
}

static const char *value(unsigned slot, uint64_t amount)
{
    char *room = text();

    snprintf(room, TEXT, "DF%02X06%012llu", slot, (unsigned long long)amount);
    return room;
}

static const char *limits(unsigned slot, uint64_t lower, uint64_t upper)
{
    char *room = text();

    snprintf(room, TEXT, "DF%02X0C%012llu%012llu", 0x10 + slot,
             (unsigned long long)lower, (unsigned long long)upper);
    return room;
}

static const char *counter_limits(unsigned slot, unsigned lower, unsigned upper)
{
    char *room = text();

    snprintf(room, TEXT, "DF%02X02%02X%02X", 0x10 + slot, lower, upper);
    return room;
}

/* Commands that write one thing. */
static const char *put_value(unsigned slot, uint64_t amount)
{
    return put("BF30", value(slot, amount));
}

static const char *put_limits(unsigned slot, uint64_t lower, uint64_t upper)
{
    return put("BF30", limits(slot, lower, upper));
}

static const char *put_counter(unsigned slot, unsigned lower, unsigned upper)
{
    return put("BF35", counter_limits(slot, lower, upper));
}

/* Cards -------------------------------------------------------------------- */

/* So many profiles, all slots with these switches; profile p sends accumulator
 * p, counter p and the next one. Nothing declines and nothing goes online. */
static void fresh(unsigned profiles, uint8_t switches)
{
    draft_printed_setup(&setup);
    profiles_blank(4);
    setup.profiles = (uint8_t)profiles;
    scripts();
    for (unsigned p = 0; p < 4; p++) {
        struct draft_profile *profile = &setup.profile[p];
        setup.accumulator[p].currency = EUR;
        setup.accumulator[p].value = 100 * (p + 1);
        setup.counter[p] = (uint8_t)(10 * (p + 1));
        for (unsigned i = 0; i < SLOTS; i++) {
            profile->accumulator[i].switches = switches & 7;
            profile->accumulator[i].lower = 5000;
            profile->accumulator[i].upper = 6000;
            profile->counter[i].switches = switches;
            profile->counter[i].lower = 100;
            profile->counter[i].upper = 110;
        }
        profile->accumulator_sent = (uint8_t)(p + 1);
        profile->counter_sent[0] = (uint8_t)(p + 1);
        profile->counter_sent[1] = (uint8_t)((p + 1) % 4 + 1);
    }
}

/* Every accumulator and counter by the IADs of so many profiles, and byte 4 of
 * the CVR. */
static void see(unsigned profiles)
{
    for (unsigned p = 1; p <= profiles; p++) {
        start((uint8_t)p);
        first(AAC, 0);
    }
}

/* Goes online and comes back. */
static void online(uint8_t profile, uint16_t code, uint8_t data,
                   unsigned status)
{
    start(profile);
    first(ARQC, 1);
    second(TC, code, data, status);
}

static void sittings(void)
{
    script_done();
    emit();
    script_fails();
    emit();
    script_between();
    emit();
    script_refusals();
    emit();
}

/* Templates ---------------------------------------------------------------- */

/* A template wherever there is a place for it: on a fresh card, where Second is
 * due, behind its answer, where First is due and behind that. */
static void everywhere(const char *bytes)
{
    fresh(1, 1);
    begin();
    script(bytes);
    see(1);
    script(bytes);
    start(1);
    script(bytes);
    first(ARQC, 1);
    script(bytes);
    second(TC, OTHER, VERIFIED, 0x80);
    script(bytes);
    see(1);
    emit();
}

/* The same behind a command that is done and before another, in a template. */
static void among(const char *objects)
{
    fresh(1, 1);
    begin();
    script(template(both(put_value(1, 7),
                         both(objects, put_value(1, 9)))));
    see(1);
    emit();
}

static void read_ones(void)
{
    static const char *const some[] = {
        "7100", "7200", "710100", "718100", "71820000", "71039F0600",
        "7103FF0100", "710650009F180000", "71028600", "7104A6028600",
        "710471028600", "7109BF0C067104E1028600", "710486008600",
        "711886160CDABF30118109DF01060000001234568E0411223344",
        "7182001886160CDABF30118109DF01060000001234568E0411223344",
        "721E861C0CDABF3017810FDF120C0000000050000000000100008E0411223344",
        "711486120CDABF350D8105DF110207098E0411223344",
        /* filled with nothing; one-byte tags with all but the last bit */
        "7103000000", "7281030000FF"};

    for (unsigned i = 0; i < sizeof some / sizeof *some; i++)
        everywhere(some[i]);
}

static void malformed_ones(void)
{
    static const char *const some[] = {
        "", "71", "7000", "7300", "7F7100", "5100", "00", "007100", "710000",
        "71007200", "710186", "71028601", "71028681", "7103868200",
        "71800000", "7183000000", "710486800000", "7181", "718200", "7101FF",
        "7102FFFF", "71019F", "71029F18", "71049F810100",
        "7106E10286015000", "710A86807106710471027100",
        "7108710671047102E101",
        /* heads of the template itself */
        "7F", "7F8100", "7F80", "5F7100", "72", "3100", "F100", "8600", "86",
        "E100", "7101", "7102", "718101", "7182", "71820001", "718000", "7180",
        "7184000000", "71FF", "71000000", "710071", "FF", "FFFF", "9F7100",
        /* heads of objects: tags of three bytes and more, forms of lengths */
        "7104DF818000", "7103FF8000", "71059F81000100", "7105FFFFFF0000",
        "71041F800000", "71039F80", "7103508000", "710450830000",
        "71055084000000", "710550FF000000", "71025081", "71035082",
        "7103508200", "7104508201", "7103508101", "71065082010000",
        /* past the end of the list, not past the template's */
        "7106E10186005000", "7108E104E10386008600", "7107E103500250505000",
        "710AE108E206E304860500", "7105E1019F1800", "7105E102500100",
        /* behind what can be read */
        "710386008600", "71038600FF", "7105860050018600", "710400000086",
        "7103000086"};

    for (unsigned i = 0; i < sizeof some / sizeof *some; i++)
        everywhere(some[i]);
}

static void too_deep_ones(void)
{
    static const char *const some[] = {
        "7108710671047102E100", "7109710671047102710086",
        "710A710871067104E1028605",
        /* not empty, sound inside; commands around it and in it */
        "720AE108E206E304E4028600", "710C8600E108E206E304E4028600",
        "710CE10AE208E3068600E4028600", "710CE10AE208E306E40286008600",
        "710CE10AE208E306E40086008600",
        /* two bytes of tag, a length of three bytes; a fault behind it, in it,
         * and in the list around it */
        "710CBF010871067104FF71820000", "7109E107E205E303BF0100",
        "710AE107E205E303E40100500086", "7109E107E205E303E400FF",
        "710AE107E205E303E4008600FF", "710BE109E207E305E4039F8100",
        "710AE108E206E304E402FFFF", "710BE108E206E304E4028600FF",
        /* a fault before it */
        "710CE108E206E304E402860050", "710B5080E107E205E303E40000",
        "710AFFFFE106E204E302E400", "710AE108E206E3045001E400",
        /* depth again and again beside, none above four */
        "710CE100E202E300E304E402E500", "710EE106E204E302E400E106E204E302E400",
        /* bytes behind the template */
        "7108710671047102E10000", "7108710671047102E1007100"};

    for (unsigned i = 0; i < sizeof some / sizeof *some; i++)
        everywhere(some[i]);
}

/* A fault behind a command and before another: neither is tried. */
static void faults_among(void)
{
    static const char *const some[] = {
        "50", "5001", "5080", "5083000000", "9F8100", "9F", "5082", "86",
        "E10150", "E1028605", "FF", "FFFF", "E108E206E304E402E500",
        "E106E204E302E400", "9F808000", "E1808600"};

    for (unsigned i = 0; i < sizeof some / sizeof *some; i++) {
        among(some[i]);
        fresh(1, 1);
        begin();
        script(template(both(put_value(1, 7), some[i])));
        see(1);
        script(template(both(object("E1", put_value(1, 8)), some[i])));
        see(1);
        emit();
    }
}

/* Objects that are no commands, fillers and lists, between commands. */
static void others_among(void)
{
    static const char *const some[] = {
        "5000", "9F180411223344", "A60100", "A600", "A6028600", "C600", "0600",
        "4600", "8700", "8500", "9F8600", "9F0600", "5F8600", "1F0600", "2000",
        "E600", "00", "000000", "E10100", "E1030000FF", "FF7F00", "BF0C00",
        "9F0100", "1F0000", "3F0000", "DF7F0186", "E1045000F100",
        "E1820000", "50810100", "5082000100", "9F1882000100"};
    static const char *const shapes[] = {"71", "72",   "E1",
                                         "A6", "BF0C", "FF01"};

    for (unsigned i = 0; i < sizeof some / sizeof *some; i++)
        among(some[i]);
    for (unsigned i = 0; i < sizeof shapes / sizeof *shapes; i++) {
        among(object(shapes[i], put_value(2, 8)));
        among(object(shapes[i], both(FAILS, put_value(1, 8))));
    }
}

/* The same command at each depth, behind all forms of lengths. */
static void depths(void)
{
    static const char *const tags[] = {"71", "E1", "BF0C", "A6"};

    for (unsigned depth = 1; depth <= 5; depth++)
        for (unsigned form = 0; form < 3; form++) {
            const char *inner = object_as("86", form,
                                          command("BF30", value(1, depth)));
            for (unsigned i = depth; i > 1; i--)
                inner = object_as(tags[i % 4], form, inner);
            everywhere(object_as("72", form, inner));
        }
    for (unsigned depth = 1; depth <= 4; depth++) { /* and others */
        const char *inner = both("9F180100", both(put_value(1, depth), "5000"));
        for (unsigned i = depth; i > 1; i--)
            inner = both(object(tags[i % 4], inner), put_value(2, 10 + i));
        everywhere(template(inner));
    }
}

/* Five commands in a tree, which is to be read from the first byte on: the n-th
 * writes n to accumulator 1 and to one of its own; from one of them on they
 * fail. */
static void nested_order(void)
{
    for (unsigned shape = 0; shape < 4; shape++)
        for (unsigned bad = 1; bad <= 6; bad++) {
            const char *c[6];
            const char *all = "";
            for (unsigned i = 1; i <= 5; i++)
                c[i] = i == bad ? FAILS
                    : put("BF30", both(value(1, i), value(2 + i % 3, 50 + i)));
            switch (shape) {
            case 0:
                all = both(c[1], object("E1", both(c[2],
                           both(object("E2", c[3]), c[4]))));
                all = both(all, c[5]);
                break;
            case 1:
                all = both(object("E3", c[1]), c[2]);
                all = object("E1", object("E2", all));
                all = both(all, both(c[3], object("A6", both(c[4], c[5]))));
                break;
            case 2:
                all = object("E1", c[1]);
                all = both(all, object("E2", c[2]));
                all = both(all, object("E3", both(c[3], "00")));
                all = both(all, both(c[4], object("E4", c[5])));
                break;
            default:
                for (unsigned i = 1; i <= 5; i++)
                    all = both(all, c[i]);
                break;
            }
            fresh(4, 1);
            begin();
            script(template(all));
            see(4);
            emit();
        }
}

/* So many bytes that would be commands, if they were read as a list. */
static const char *filling(size_t length)
{
    char *room = text();

    assert(2 * length < TEXT);
    for (size_t i = 0; i < length; i++)
        memcpy(room + 2 * i, i % 2 == 0 ? "86" : "00", 2);
    room[2 * length] = '\0';
    return room;
}

/* Objects at the ends of what a length of each form can say, before a command:
 * as a primitive object, as a command that fails, and around it. */
static void long_objects(void)
{
    static const unsigned sizes[] = {1, 126, 127, 128, 129, 254, 255, 256, 257,
                                     258, 300, 512, 513};

    for (unsigned i = 0; i < sizeof sizes / sizeof *sizes; i++) {
        const char *all = both(object("9F18", filling(sizes[i])),
                               put_value(1, sizes[i]));
        everywhere(template(all));
        if (sizes[i] < 256)
            everywhere(template(both(object_as("50", 2, filling(sizes[i])),
                                     put_value(1, sizes[i]))));
        fresh(1, 1);
        begin();
        script(template(object("E1", both(all, put_value(2, 1)))));
        script(template(both(put_value(1, 4),
                             object("86", filling(sizes[i])))));
        see(1);
        emit();
    }
    everywhere(both("7180", filling(128))); /* 80 is no 128 */
    everywhere(template(both("5080", filling(128))));
    for (unsigned i = 0; i < 2; i++) { /* as long as the record leaves room */
        static uint8_t many[PAPER];
        fresh(1, 1);
        begin();
        const size_t room = PAPER - draft->length - 4 - 4 - 15;
        many[0] = 0x71;
        many[1] = 0x82;
        put16(many + 2, (unsigned)(room - 4));
        for (size_t j = 4; j + 1 < room; j += 2) {
            many[j] = i == 0 ? 0x86 : 0x50;
            many[j + 1] = 0;
        }
        if (room % 2 == 1)
            many[room - 1] = 0;
        draft_script(draft, 1, many, room);
        start(1);
        first(AAC, 0);
        assert(draft->length == PAPER);
        emit();
    }
}

/* Commands ----------------------------------------------------------------- */

/* A command before one that writes 9: if it fails, that is not tried. */
static void one_command(const char *bytes)
{
    fresh(2, 1);
    begin();
    script(template(both(object("86", bytes), put_value(2, 9))));
    see(2);
    online(1, OTHER, VERIFIED, 0x81); /* the upper limits, as they are now */
    see(2);
    emit();
}

static void failing_commands(void)
{
    static const char *const some[] = {
        "", "0C", "0CDA", "0CDABF", "0CDABF30", "0CDABF3000", "0CDABF300100",
        "0CDABF30118109DF010600000000000A" MAC,
        "8CDABF30118109DF0106000000000007" MAC,
        "00DABF30118109DF0106000000000007" MAC,
        "04DABF30118109DF0106000000000007" MAC,
        "0CDBBF30118109DF0106000000000007" MAC,
        "0C18BF30118109DF0106000000000007" MAC,
        "0CDABF31118109DF0106000000000007" MAC,
        "0CDABF37118109DF0106000000000007" MAC,
        "0CDABF3C118109DF0106000000000007" MAC,
        "0CDABF42118109DF0106000000000007" MAC,
        "0CDA9F30118109DF0106000000000007" MAC,
        "0CDA30BF118109DF0106000000000007" MAC,
        "0CDABF30118109DF0006000000000007" MAC,
        "0CDABF30118109DF0506000000000007" MAC,
        "0CDABF3017810FDF100C000000000007000000000009" MAC,
        "0CDABF3017810FDF150C000000000007000000000009" MAC,
        "0CDABF3017810FDF210C000000000007000000000009" MAC,
        "0CDABF350D8105DF10020709" MAC,
        "0CDABF350D8105DF15020709" MAC,
        "0CDABF350D8105DF01020709" MAC,
        "0CDABF350C8104DF010107" MAC,
        "0CDABF35118109DF0106000000000007" MAC,
        "0CDABF30118109BF0106000000000007" MAC,
        "0CDABF301181099F0106000000000007" MAC,
        "0CDABF30108108DF06000000000007" MAC,
        "0CDABF300B8103DF0100" MAC,
        "0CDABF30108108DF01050000000007" MAC,
        "0CDABF3012810ADF010700000000000007" MAC,
        "0CDABF3013810BDF01080000000000000007" MAC,
        "0CDABF3017810FDF010C000000000007000000000009" MAC,
        "0CDABF30118109DF1106000000000007" MAC,
        "0CDABF3016810EDF110B0000000000070000000009" MAC,
        "0CDABF30188110DF110D00000000000700000000000900" MAC,
        "0CDABF3023811BDF1118000000000007000000000009000000000007000000000009"
        MAC,
        "0CDABF350C8104DF110107" MAC, "0CDABF350C8104DF110207" MAC,
        "0CDABF350E8106DF1103070900" MAC,
        "0CDABF350F8107DF110407090709" MAC,
        "0CDABF3517810FDF110C000000000007000000000009" MAC,
        "0CDABF300B8103DF1100" MAC, "0CDABF350B8103DF1100" MAC,
        "0CDABF3013820009DF0106000000000007" MAC,
        "0CDABF3013810BDF01820006000000000007" MAC,
        "0CDABF3012810ADF018006000000000007" MAC,
        "0CDABF3012810ADF018206000000000007" MAC,
        "0CDABF30088180" MAC, "0CDABF3009818000" MAC,
        "0CDABF30128009DF0106000000000007" MAC "00",
        "0CDABF301180DF0106000000000007" MAC "00",
        "0CDABF3013828109DF0106000000000007" MAC,
        "0CDABF3012838109DF01060000000007" MAC,
        "0CDABF30108109DF0106000000000007" MAC,
        "0CDABF30128109DF0106000000000007" MAC,
        "0CDABF30008109DF0106000000000007" MAC,
        "0CDABF30FF8109DF0106000000000007" MAC,
        "0CDABF30118109DF0106000000000007" MAC "00",
        "0CDABF3000118109DF0106000000000007" MAC,
        "0CDABF30118108DF0106000000000007" MAC,
        "0CDABF3011810ADF0106000000000007" MAC,
        "0CDABF30118009DF0106000000000007" MAC,
        "0CDABF30118709DF0106000000000007" MAC,
        "0CDABF300B8109DF0106000000000007",
        "0CDABF300F8109DF01060000000000078E041122",
        "0CDABF3011" MAC "8109DF0106000000000007",
        "0CDABF30118109DF01060000000000078F0411223344",
        "0CDABF30108109DF01060000000000078E03112233",
        "0CDABF30118109DF01060000000000078E0311223344",
        "0CDABF30118109DF01060000000000078E0511223344",
        "0CDABF30128109DF01060000000000078E051122334455",
        "0CDABF30158109DF01060000000000078E081122334455667788",
        "0CDABF30128109DF01060000000000078E810411223344",
        "0CDABF30138109DF0106000000000007970100" MAC,
        "0CDABF30128109DF0106000000000007" MAC "00",
        "0CDABF3006" MAC, "0CDABF300781" MAC, "0CDABF30018100",
        "0CDABF300181", "0CDABF30028181", "0CDABF30028100",
        "0CDABF3003818100", "0CDABF300100",
        "0CDABF30098101DF" MAC, "0CDABF300A8102DF01" MAC,
        "0CDABF300B8103DF0181" MAC, "0CDABF300B8103DF0106" MAC,
        "0CDABF30108108DF01060000000000" MAC,
        "0CDABF300C8104DF018106" MAC, "0CDABF300981010F" MAC,
        "0CDABF3014810CBF3009DF0106000000000007" MAC,
        "0CDABF3009DF0106000000000007",
        "0CDABF301287810A01DF0106000000000007" MAC};

    for (unsigned i = 0; i < sizeof some / sizeof *some; i++)
        one_command(some[i]);
}

/* Each digit of a value and of limits that is none. */
static void digits_of_commands(void)
{
    for (unsigned place = 0; place < 36; place++) {
        char digits[] = "000000000000000000000000000000000000";
        char bytes[32];
        digits[place] = (char)('A' + place % 6);
        if (place < 12)
            snprintf(bytes, sizeof bytes, "DF0106%.12s", digits);
        else
            snprintf(bytes, sizeof bytes, "DF110C%.24s", digits + 12);
        one_command(command("BF30", bytes));
    }
}

/* A command with every byte at one place, each in a transaction of its own. */
static void every_byte(const char *of, const char *bytes, size_t place)
{
    char changed[100];

    fresh(1, 1);
    begin();
    for (unsigned byte = 0; byte < 256; byte++) {
        char hex[3];
        snprintf(changed, sizeof changed, "%s", bytes);
        snprintf(hex, sizeof hex, "%02X", byte);
        memcpy(changed + 2 * place, hex, 2);
        script(template(of ? put(of, changed) : object("86", changed)));
        see(1);
    }
    emit();
}

/* All bytes that the header, the tags and the lengths can be. */
static void bytes_of_commands(void)
{
    static const char *const good =
        "0CDABF30118109DF01060000000000078E0411223344";

    for (size_t place = 0; place < 10; place++)
        every_byte(NULL, good, place);
    for (size_t place = 15; place < 22; place++)
        every_byte(NULL, good, place);
    for (size_t place = 0; place < 3; place++) {
        every_byte("BF30", "DF0106000000000007", place);
        every_byte("BF30", "DF110C000000000007000000000009", place);
        every_byte("BF35", "DF11020709", place);
    }
}

/* Commands that are done, one after the other. */
static void done_commands(void)
{
    static const char *const some[] = {
        "0CDABF300881008E0411223344", "0CDABF300881008E0400000000",
        "0CDABF3508810000" MAC, "0CDABF35088100" MAC,
        "0CDABF3009818100" MAC, "0CDABF3009810100" MAC,
        "0CDABF300C8104000000008E04FFFFFFFF",
        "0CDABF3012810ADF0106000000000005008E0411223344",
        "0CDABF3012810A00DF01060000000000068E0411223344",
        "0CDABF301C8114DF01060000000000030000DF0206000000000004" MAC,
        "0CDABF3012818109DF01060000000000078E0411223344",
        "0CDABF3012810ADF0181060000000000088E0411223344",
        "0CDABF30118109DF01060000000000008E0411223344",
        "0CDABF30118109DF01069999999999998E0411223344",
        "0CDABF30118109DF0106123456789012" MAC,
        "0CDABF30118109DF0206000000000021" MAC,
        "0CDABF30118109DF0306000000000031" MAC,
        "0CDABF30118109DF0406000000000041" MAC};

    for (unsigned i = 0; i < sizeof some / sizeof *some; i++)
        one_command(some[i]);
    fresh(4, 1);
    begin();
    for (unsigned i = 0; i < sizeof some / sizeof *some; i++) {
        script(template(object("86", some[i])));
        see(4);
    }
    emit();
}

/* Data that are as long as their length can say, of fillers but for one element
 * at the end; and 128 bytes behind 80. */
static void long_commands(void)
{
    static const unsigned sizes[] = {126, 127, 128, 129, 245, 246};
    char bytes[TEXT];

    for (unsigned i = 0; i < sizeof sizes / sizeof *sizes; i++) {
        memset(bytes, '0', 2 * sizes[i]);
        memcpy(bytes + 2 * (sizes[i] - 9), "DF0106000000000007", 19);
        one_command(command("BF30", bytes));
    }
    memset(bytes, '0', 256);
    memcpy(bytes + 2 * 119, "DF0106000000000007", 19);
    one_command(both("0CDABF30888180", both(bytes, MAC)));
}

/* Elements one behind the other: all of them, twice the same, and one that is
 * bad at each place, before which nothing is written. */
static void elements(void)
{
    static const char *const bad[] = {"DF0506000000000007", "DF01050000000007",
                                      "DF010600000000000A", "DF", "DF0180",
                                      "DF110C00000000000A000000000000",
                                      "DF110C0000000000000000000A0000"};

    for (unsigned which = 0; which < 2; which++) {
        char list[TEXT] = "";
        for (unsigned i = 1; i <= SLOTS; i++) {
            strcat(list, value(i, 1000 + i));
            if (which > 0)
                strcat(list, limits(i, 10 + i, 20 + i));
        }
        fresh(4, 1);
        begin();
        script(template(put("BF30", list)));
        see(4);
        for (uint8_t p = 1; p <= 4; p++)
            online(p, OTHER, VERIFIED, 0x81);
        see(4);
        emit();
        for (unsigned i = 0; i < sizeof bad / sizeof *bad; i++)
            for (unsigned behind = 0; behind < 2; behind++) {
                fresh(4, 1);
                begin();
                script(template(put("BF30", behind ? both(list, bad[i])
                                                   : both(bad[i], list))));
                see(4);
                online(1, OTHER, VERIFIED, 0x81);
                see(4);
                emit();
            }
    }
    for (unsigned i = 1; i <= SLOTS; i++) { /* twice */
        fresh(4, 1);
        begin();
        script(template(put("BF30", both(value(i, 5), value(i, 6)))));
        see(4);
        script(template(put("BF30", both(limits(i, 5, 6), limits(i, 3, 4)))));
        script(template(put("BF35", both(counter_limits(i, 5, 6),
                                         counter_limits(i, 3, 4)))));
        see(4);
        online(1, OTHER, VERIFIED, 0x81);
        see(4);
        emit();
        fresh(4, 1); /* the second of them bad, and unknown ones between */
        begin();
        script(template(put("BF30", both(value(i, 5), "DF010600000000000A"))));
        see(4);
        script(template(put("BF30", both(value(i, 5), "9F180100"))));
        script(template(put("BF35", both("DF0101FF",
                                         counter_limits(i, 1, 2)))));
        start(1);
        first(AAC, 0);
        script(template(put("BF35", both(counter_limits(i, 1, 2),
                                         "DF0101FF"))));
        online(1, OTHER, VERIFIED, 0x81);
        see(4);
        emit();
    }
}

/* Limits ------------------------------------------------------------------- */

/* Where each limit of a slot lies, accumulators by values that are written,
 * counters by approvals; and the upper ones by order 01. */
static void see_limits(uint8_t profile, unsigned slot, uint64_t lower,
                       uint64_t upper)
{
    const uint64_t at[] = {lower, lower + 1, upper, upper + 1};

    for (unsigned i = 0; i < 4; i++) {
        script(template(put_value(slot, at[i])));
        start(profile);
        first(AAC, 0);
    }
    online(profile, OTHER, VERIFIED, 0x81);
}

/* A slot alone is active, and in every profile; its limits are written where
 * this profile is open, or none. */
static void limits_of(unsigned slot, unsigned profiles, unsigned open)
{
    fresh(profiles, 0);
    for (unsigned p = 0; p < profiles; p++)
        setup.profile[p].accumulator[slot - 1].switches = 1;
    begin();
    if (open > 0) {
        start((uint8_t)open);
        first(ARQC, 1);
    }
    script(template(put_limits(slot, 300 + slot, 400 + slot)));
    if (open > 0)
        second(TC, Y3, ABSENT, 0);
    for (uint8_t p = 1; p <= profiles; p++)
        see_limits(p, slot, 300 + slot, 400 + slot);
    emit();

    fresh(profiles, 0);
    for (unsigned p = 0; p < profiles; p++)
        setup.profile[p].counter[slot - 1].switches = 3;
    setup.counter[slot - 1] = 1;
    begin();
    if (open > 0) {
        start((uint8_t)open);
        first(ARQC, 1);
    }
    script(template(put_counter(slot, 2 + profiles, 4 + profiles)));
    if (open > 0)
        second(AAC, Z3, ABSENT, 0);
    for (unsigned i = 0; i < 8; i++) {
        start((uint8_t)(1 + i % profiles));
        first(TC, 1);
    }
    for (uint8_t p = 1; p <= profiles; p++)
        online(p, OTHER, VERIFIED, 0x81);
    emit();
}

static void all_limits(void)
{
    for (unsigned slot = 1; slot <= SLOTS; slot++)
        for (unsigned profiles = 1; profiles <= 4; profiles++)
            for (unsigned open = 0; open <= profiles; open++)
                limits_of(slot, profiles, open);
}

/* A slot active in one profile and not in the others, whichever is open; values
 * are written whether it is active or not. */
static void inactive(void)
{
    for (unsigned slot = 1; slot <= SLOTS; slot++)
        for (uint8_t open = 0; open <= 2; open++) {
            fresh(2, 0);
            setup.profile[1].accumulator[slot - 1].switches = 1;
            setup.profile[1].counter[slot - 1].switches = 3;
            setup.profile[0].accumulator_sent = (uint8_t)slot;
            setup.profile[1].accumulator_sent = (uint8_t)slot;
            setup.profile[1].counter_sent[0] = (uint8_t)slot;
            begin();
            if (open > 0) {
                start(open);
                first(ARQC, 1);
            }
            script(template(both(put_value(slot, 77),
                                 both(put_limits(slot, 70, 80),
                                      put_counter(slot, 1, 2)))));
            if (open > 0)
                second(TC, OTHER, VERIFIED, 0x81);
            see(2);
            see_limits(2, slot, 70, 80);
            online(2, OTHER, VERIFIED, 0x81);
            online(1, OTHER, VERIFIED, 0x81);
            see(2);
            emit();
        }
}

/* The ends of what limits can be, and lower ones above upper ones. */
static void limit_values(void)
{
    static const uint64_t amounts[][2] = {
        {0, 0}, {0, MOST}, {MOST, 0}, {MOST, MOST}, {400, 300}, {1, 2},
        {123456789012, 987654321098}, {99, 100}, {9, 10}};
    static const unsigned counts[][2] = {{0, 0}, {0, 255}, {255, 0}, {255, 255},
                                         {0x12, 0x11}, {9, 10}, {0x99, 0xAA}};

    for (unsigned i = 0; i < sizeof amounts / sizeof *amounts; i++) {
        fresh(1, 1);
        begin();
        script(template(put_limits(1, amounts[i][0], amounts[i][1])));
        see(1);
        see_limits(1, 1, amounts[i][0] < MOST ? amounts[i][0] : 5,
                   amounts[i][1] < MOST ? amounts[i][1] : 5);
        see(1);
        emit();
    }
    for (unsigned i = 0; i < sizeof counts / sizeof *counts; i++) {
        fresh(1, 0);
        setup.profile[0].counter[0].switches = 7;
        setup.counter[0] = 9;
        begin();
        script(template(put_counter(1, counts[i][0], counts[i][1])));
        for (unsigned j = 0; j < 3; j++) {
            start(1);
            first(TC, 1);
        }
        online(1, OTHER, VERIFIED, 0x81);
        see(1);
        emit();
    }
}

/* Refusals ----------------------------------------------------------------- */

/* Every result with templates of each kind, in each phase; all that is refused
 * changes nothing, and neither does what has no command. */
static void refusals(void)
{
    static const uint8_t results[] = {2, 3, 0x80, 0xFF, 1, 0};
    static const char *const bad[] = {"", "71", "710186", "710071",
                                      "7108710671047102E100"};

    for (unsigned phase = 0; phase < 4; phase++)
        for (unsigned failed = 0; failed < 2; failed++) {
            fresh(1, 1);
            begin();
            if (failed) {
                script(template(FAILS));
                online(1, Y3, ABSENT, 0);
            }
            if (phase > 0)
                start(1);
            if (phase > 1)
                first(ARQC, 1);
            if (phase > 2)
                second(AAC, Y3, ABSENT, 0);
            for (unsigned i = 0; i < sizeof results; i++) {
                for (unsigned j = 0; j < sizeof bad / sizeof *bad; j++)
                    script_by(results[i], bad[j]);
                if (results[i] > 1) {
                    script_by(results[i], template(put_value(1, 7)));
                    script_by(results[i], template(FAILS));
                }
                script_by(results[i], "7100");
            }
            first(ARQC, 1);
            second(TC, OTHER, ABSENT, 0);
            see(1);
            script(template(put_value(1, 8)));
            see(1);
            emit();
        }
    /* Where First is due nothing else of a Script matters. */
    for (unsigned i = 0; i < sizeof results; i++) {
        fresh(1, 1);
        begin();
        start(1);
        script_by(results[i], template(put_value(1, 7)));
        script_by(results[i], template(FAILS));
        first(AAC, 0);
        script_by(results[i], template(put_value(1, 7)));
        start(1);
        script_by(results[i], template(put_value(1, 6)));
        script_by(results[i], "710186");
        first(ARQC, 1);
        script_by(results[i], template(put_value(1, 5)));
        second(TC, OTHER, VERIFIED, 0x80);
        see(1);
        emit();
    }
}

/* An empty body ends the paper, a body of one byte has no template. */
static void bodies(void)
{
    for (unsigned phase = 0; phase < 4; phase++)
        for (unsigned length = 0; length < 2; length++) {
            fresh(1, 1);
            begin();
            if (phase > 0)
                start(1);
            if (phase > 1)
                first(ARQC, 1);
            if (phase > 2)
                second(AAC, Y3, ABSENT, 0);
            draft_record(draft, KIND_SCRIPT, (const uint8_t[]){1}, length);
            see(1);
            emit();
        }
}

/* The bits that First shows ------------------------------------------------ */

/* How many are done, one by one, and in one template. */
static void counts(void)
{
    const char *many = "";

    fresh(1, 1);
    begin();
    for (unsigned i = 0; i < 35; i++) {
        script(template(i % 3 == 2 ? NOTHING : put_value(1, i)));
        see(1);
        see(1); /* it stays when it was shown */
    }
    emit();
    for (unsigned count = 0; count <= 34; count++) {
        for (unsigned fails = 0; fails < 2; fails++) {
            fresh(1, 1);
            begin();
            script(template(fails ? both(many, FAILS) : many));
            see(1);
            script(template(put_value(1, 1)));
            see(1);
            emit();
        }
        many = both(many, NOTHING);
    }
    fresh(4, 1); /* commands are counted: no templates, no elements */
    begin();
    script("7100");
    script_by(0, "7100");
    see(1);
    script(template(put("BF30", both(value(1, 1), both(value(2, 2),
                                                       limits(3, 1, 2))))));
    see(1);
    script(template(both(put_value(1, 1), put_value(2, 2))));
    see(1);
    emit();
    fresh(1, 1); /* no answer makes it zero */
    begin();
    script(template(both(NOTHING, NOTHING)));
    online(1, OTHER, VERIFIED, 0x80);
    online(1, OTHER, VERIFIED, 0x00);
    online(1, OTHER, ABSENT, 0);
    online(1, OTHER, FAILED, 0);
    online(1, Y3, ABSENT, 0);
    start(1);
    first(TC, 1);
    start(2);
    start(1);
    first(AAC, 0);
    emit();
}

/* What a Second says, and the type that is asked. */
static const struct {
    uint16_t code;
    uint8_t data, status, type, required;
} seconds[] = {{OTHER, VERIFIED, 0x80, TC, 0}, {OTHER, VERIFIED, 0x00, TC, 0},
               {OTHER, VERIFIED, 0x80, AAC, 0}, {OTHER, VERIFIED, 0x82, TC, 1},
               {OTHER, ABSENT, 0, TC, 0},       {OTHER, ABSENT, 0, AAC, 0},
               {OTHER, ABSENT, 0, TC, 1},       {OTHER, ABSENT, 0, AAC, 1},
               {OTHER, FAILED, 0, TC, 0},       {OTHER, FAILED, 0x80, AAC, 0},
               {OTHER, FAILED, 0, TC, 1},       {Y3, ABSENT, 0, TC, 0},
               {Y3, VERIFIED, 0x80, TC, 0},     {Y3, VERIFIED, 0x80, AAC, 1},
               {Z3, VERIFIED, 0x80, TC, 0},     {Z3, ABSENT, 0, AAC, 0},
               {Z3, ABSENT, 0, TC, 1},          {Y3, FAILED, 0, TC, 0}};

static void say(unsigned which)
{
    second(seconds[which].type, seconds[which].code, seconds[which].data,
           seconds[which].status);
}

/* A command fails before the transaction, in it, in both or in none; then each
 * Second, what First shows after it, and whether commands are tried behind it
 * and in the next transaction. */
static void failures(void)
{
    for (unsigned which = 0; which < sizeof seconds / sizeof *seconds; which++)
        for (unsigned when = 0; when < 4; when++)
            for (unsigned how = 0; how < 3; how++) {
                const char *bad = template(how == 1 ? FAILS : put_value(1, 3));
                const uint8_t result = how == 1;
                if (how == 2)
                    bad = "71040000E100"; /* no command, so nothing fails */
                fresh(1, 1);
                setup.required = seconds[which].required;
                begin();
                if (when & 1)
                    script_by(result, bad);
                start(1);
                first(ARQC, 1);
                if (when & 2)
                    script_by(result, bad);
                else
                    script(template(put_value(1, 4)));
                say(which);
                script(template(put_value(1, 5)));
                see(1);
                start(1);
                first(TC, 1);
                script(template(put_value(1, 6)));
                see(1);
                emit();
            }
}

/* It is shown by every First until the issuer is heard, and in the Second of a
 * transaction, whatever comes in between. */
static void shown_again(void)
{
    for (unsigned which = 0; which < sizeof seconds / sizeof *seconds;
         which++) {
        fresh(2, 1);
        setup.required = seconds[which].required;
        begin();
        script(template(both(put_value(1, 2), FAILS)));
        start(1);
        first(TC, 1);
        start(2);
        first(AAC, 1);
        start(1);
        first(ARQC, 1);
        start(1); /* drops it */
        first(ARQC, 1);
        say(which);
        see(2);
        start(1);
        first(ARQC, 1);
        script(template(both(put_value(1, 9), FAILS)));
        say(which); /* First's bits, not the new ones */
        see(2);
        start(2);
        first(ARQC, 1);
        script(template(both(NOTHING, NOTHING)));
        say(which);
        see(2);
        say(which); /* refused */
        see(2);
        emit();
    }
}

/* In this transaction: a refused Start does not end it, nor does anything but
 * an accepted one. */
static void in_this_transaction(void)
{
    for (unsigned phase = 0; phase < 4; phase++) {
        fresh(2, 1);
        setup.atc = 65531;
        begin();
        if (phase > 0)
            start(1);
        if (phase > 0)
            first(phase == 1 ? TC : ARQC, 1);
        if (phase > 2)
            second(TC, OTHER, VERIFIED, 0x80);
        script(template(FAILS));
        script(template(put_value(1, 2)));
        start(3); /* refused */
        script(template(put_value(1, 3)));
        first(3, 1); /* refused */
        script(template(put_value(1, 4)));
        second(TC, OTHER, VERIFIED, 0x80);
        script(template(put_value(1, 5)));
        script("7100");
        script("71");
        start(2);
        script(template(put_value(1, 6))); /* First is due */
        first(AAC, 0);
        script(template(put_value(1, 7)));
        start(1);
        first(ARQC, 1);
        script(template(FAILS));
        script(template(put_value(1, 8)));
        start(1);
        first(AAC, 0);
        script(template(FAILS));
        start(1);
        first(AAC, 0);
        start(1); /* ATC 65,535 */
        script(template(put_value(1, 9)));
        script(template(FAILS));
        script(template(put_value(2, 9)));
        start(1);
        first(AAC, 0);
        emit();
    }
}

/* A Start that is refused, for each reason there is, while Second is due: the
 * transaction goes on, and so does its failure. */
static void refused_starts(void)
{
    static const uint8_t entry[] = {1, 1, 2, 0xFF, 0x01, 0, 0, 1};

    for (unsigned reason = 0; reason < 5; reason++)
        for (unsigned failed = 0; failed < 2; failed++) {
            fresh(1, 1);
            if (reason > 1)
                cpace();
            scripts();
            if (reason > 2)
                draft_entry(&setup.file, entry, sizeof entry);
            setup.atc = reason == 1 ? 65534 : 7;
            begin();
            start(1);
            first(ARQC, 1);
            script(template(failed ? FAILS : put_value(1, 2)));
            interface = reason == 2 || reason == 3 ? 2 : CONTACT;
            if (reason == 4)
                interface = CONTACTLESS; /* its action is 00 */
            start(reason == 0 ? 2 : 1);
            interface = CONTACT;
            script(template(put_value(1, 3)));
            second(TC, OTHER, VERIFIED, 0x80);
            script(template(put_value(1, 4)));
            see(1);
            emit();
        }
}

/* A command that fails among others, one of them with the result 0. */
static void stopping(void)
{
    for (unsigned bad = 0; bad <= 4; bad++)
        for (unsigned result = 0; result < 2; result++) {
            const char *all = "";
            for (unsigned i = 0; i < 4; i++)
                all = both(all, i == bad ? put("BF30", "DF0506000000000001")
                                         : put_value(i + 1, 40 + i));
            fresh(4, 1);
            begin();
            script_by((uint8_t)result, template(all));
            see(4);
            script(template(put_value(1, 50)));
            see(1);
            emit();
        }
}

/* Between First and Second ------------------------------------------------- */

enum { BY_VALUE, BY_LIMITS, BY_WAYS };

/* One bit of a slot, accumulators 0 to 3, counters 4 to 7: set at First and
 * gone after Y3 or Z3, or the other way round; Default asks for it alone. */
static void bit_between(unsigned slot, bool upper, bool gone, unsigned way)
{
    const bool counter = slot > 3;
    const unsigned of = slot % 4;
    const uint32_t lower_bit = UINT32_C(1) << (counter ? 14 + of : 6 + of);

    for (unsigned i = 0; i < 2; i++) {
        struct draft_profile *profile = &setup.profile[0];
        const char *bytes;
        fresh(2, 0);
        profile->accumulator[of].switches = counter ? 0 : 7;
        profile->counter[of].switches = counter ? 7 : 0;
        profile->by_default = i == 0 ? lower_bit << 4 * upper : 0;
        profile->accumulator_sent = (uint8_t)(of + 1);
        setup.accumulator[of].value = 50;
        setup.counter[of] = 50;
        profile->accumulator[of].lower = upper ? 1000 : gone ? 50 : 51;
        profile->accumulator[of].upper = upper ? gone ? 50 : 51 : 1000;
        profile->counter[of].lower = upper ? 100 : gone ? 50 : 51;
        profile->counter[of].upper = upper ? gone ? 50 : 51 : 100;
        if (counter)
            bytes = put_counter(of + 1, upper ? 100 : gone ? 51 : 50,
                                upper ? gone ? 51 : 50 : 100);
        else if (way == BY_VALUE)
            bytes = put_value(of + 1, gone ? 49 : 51);
        else
            bytes = put_limits(of + 1, upper ? 1000 : gone ? 51 : 50,
                               upper ? gone ? 51 : 50 : 1000);
        begin();
        start(1);
        first(ARQC, 1);
        script(template(bytes));
        second(TC, i == 0 ? Y3 : Z3, ABSENT, 0);
        see(2);
        emit();
    }
}

static void bits_between(void)
{
    for (unsigned slot = 0; slot < 8; slot++)
        for (unsigned upper = 0; upper < 2; upper++)
            for (unsigned gone = 0; gone < 2; gone++)
                for (unsigned way = 0; way < BY_WAYS; way++)
                    if (slot < 4 || way == BY_LIMITS)
                        bit_between(slot, upper, gone, way);
}

/* Every order after values and limits were written: order 01 takes the new
 * upper limits, order 11 adds to the new values. */
static void orders_between(void)
{
    for (unsigned order = 0; order < 4; order++)
        for (unsigned slot = 1; slot <= SLOTS; slot++) {
            fresh(4, 3);
            begin();
            start((uint8_t)slot);
            first(ARQC, 7);
            script(template(both(put_value(slot, 70 + slot),
                                 both(put_limits(slot, 5, 500 + slot),
                                      put_counter(slot, 6, 60 + slot)))));
            second(order & 1 ? TC : AAC, OTHER, VERIFIED, 0x80 | order);
            see(4);
            emit();
        }
}

/* First's CVR is kept but for what Second changes in it: byte 3 too, though the
 * tests are repeated with what was written. */
static void cvr_between(void)
{
    for (unsigned which = 0; which < sizeof seconds / sizeof *seconds; which++)
        for (unsigned i = 0; i < 2; i++) {
            fresh(1, 7);
            setup.required = seconds[which].required;
            setup.go_online = (uint8_t)i;
            begin();
            script(template(both(NOTHING, NOTHING)));
            start(1);
            first(ARQC, i == 0 ? 1 : 7000);
            script(template(both(put_limits(1, 0, 0),
                                 both(put_counter(1, 0, 0),
                                      put_value(2, 9000)))));
            script(template(put_value(1, 0)));
            say(which);
            see(1);
            emit();
        }
}

/* An approval after Y3 adds to what was written, and stops at MAX. */
static void approvals_between(void)
{
    static const uint64_t written[] = {0, 1, 4999, 5000, MOST - 1, MOST};

    for (unsigned i = 0; i < sizeof written / sizeof *written; i++) {
        fresh(2, 3);
        begin();
        start(1);
        first(ARQC, 1);
        script(template(both(put_value(1, written[i]),
                             put_value(2, written[i]))));
        second(TC, Y3, ABSENT, 0);
        see(2);
        start(1);
        first(TC, 2);
        script(template(put_value(1, written[i])));
        see(2);
        emit();
    }
}

/* Other versions, families and tails --------------------------------------- */

/* The tail: each kind of set-up of version 06, with scripts, without, with a
 * switch that is none, without one, and with a byte too many. */
static void tails(void)
{
    static const int switches[] = {0, 1, 2, 3, 0x80, 0xFF, -1};

    for (unsigned kind = 0; kind < 8; kind++)
        for (unsigned i = 0; i < sizeof switches / sizeof *switches; i++)
            for (unsigned more = 0; more < 2; more++) {
                uint8_t body[SETUP_ROOM + 1];
                fresh(1 + kind % 4, 1);
                if (kind & 1)
                    simple_entry(0x00, 0x00, 0, 1, 1);
                if (kind & 2)
                    cyclic(FRIDAY, DAYS, FRI, MONTHS, FRI);
                if (kind & 4)
                    cpace();
                scripts();
                setup.scripts = (uint8_t)(switches[i] < 0 ? 0 : switches[i]);
                size_t length = draft_setup_body(&setup, body);
                length -= switches[i] < 0;
                body[length] = (uint8_t)(1 - more);
                length += more;
                draft_begin(draft);
                draft->bytes[0] = 6;
                draft_record(draft, KIND_SETUP, body, length);
                script(template(put_value(1, 1)));
                see(1);
                emit();
            }
}

/* Kind 5 in older papers and where scripts are off, in each phase; kinds above
 * it where they are on; and as the first record. */
static void kinds(void)
{
    for (uint8_t version = 1; version <= 6; version++)
        for (unsigned phase = 0; phase < 3; phase++) {
            fresh(1, 1);
            setup.version = version;
            setup.scripts = 0;
            begin();
            if (phase > 0)
                start(1);
            if (phase > 1)
                first(ARQC, 1);
            script(template(put_value(1, 1)));
            see(1);
            emit();
        }
    for (unsigned kind = 0; kind < 256; kind++) {
        if (kind >= KIND_SETUP && kind <= KIND_SCRIPT)
            continue;
        fresh(1, 1);
        begin();
        script("7100");
        draft_record(draft, (uint8_t)kind, (const uint8_t[]){1, 0x71, 0}, 3);
        see(1);
        emit();
    }
    for (unsigned again = 0; again < 2; again++) {
        fresh(1, 1);
        begin();
        draft->bytes[SETUP_BODY - 1] = KIND_SCRIPT;
        if (again)
            draft_setup(draft, &setup);
        see(1);
        emit();
    }
    fresh(1, 1); /* a set-up again, behind a Script */
    begin();
    script(template(put_value(1, 1)));
    draft_setup(draft, &setup);
    see(1);
    emit();
}

/* The masks' bits are those of version 05. */
static void masks(void)
{
    for (unsigned bit = 20; bit < 32; bit++)
        for (unsigned which = 0; which < 3; which++) {
            struct draft_profile *profile = &setup.profile[0];
            fresh(1, 1);
            setup.scripts = bit & 1;
            *(which == 0 ? &profile->online
              : which == 1 ? &profile->decline : &profile->by_default) =
                UINT32_C(1) << bit;
            begin();
            see(1);
            emit();
        }
}

/* Version 06 without scripts is version 05: document 01's sitting, and as a
 * CPACE card has it. */
static void printed(void)
{
    for (unsigned kind = 0; kind < 8; kind++) {
        draft_printed_setup(&setup);
        if (kind & 2)
            cyclic(FRIDAY, DAYS, FRI, MONTHS, FRI);
        if (kind & 4)
            cpace();
        scripts();
        setup.scripts = kind & 1;
        setup.syllabus = kind & 1;
        begin();
        start(1);
        first(TC, 5000);
        start(1);
        first(TC, 1);
        second(TC, Y3, ABSENT, 0);
        start(1);
        first(TC, 5000);
        second(TC, Y3, ABSENT, 0);
        emit();
    }
}

/* CPACE cards, dated ones: scripts are the same; cyclic accumulators are left
 * alone, and the date of a transaction that a script comes into. */
static void families(void)
{
    for (unsigned kind = 0; kind < 8; kind++) {
        fresh(2, 7);
        if (kind & 1)
            cyclic(FRIDAY, DAYS, FRI, MONTHS, FRI);
        if (kind & 2)
            cpace();
        scripts();
        setup.control[0] = FOR_PIN;
        setup.control[4] = FOR_SIGNATURE;
        for (unsigned p = 0; p < 2; p++)
            for (unsigned i = 0; i < 2; i++) {
                setup.cyclic[i].amount = 5;
                setup.profile[p].cyclic[i].switches = 7;
                setup.profile[p].cyclic[i].limit = 20;
                setup.profile[p].online = CYCLIC_1 | PAST_DATE;
                setup.profile[p].cashback = 1;
            }
        begin();
        cvm = kind & 4 ? BY_PIN : BY_SIGNATURE;
        cashback = kind & 4;
        script(template(both(put_value(1, 4990), put_counter(1, 10, 10))));
        start(1);
        first(TC, 9);
        script(template(put_limits(1, 1, 2)));
        second(TC, OTHER, VERIFIED, 0x81);
        start(2);
        first_on(0x050714, ARQC, 30);
        script(template(both(put_value(2, 6), FAILS)));
        second(TC, Y3, ABSENT, 0);
        start(1);
        first_on(0x050714, ARQC, 1);
        script(template(put("BF42", "DF01060000000000009F")));
        second(TC, OTHER, VERIFIED, 0x82);
        start(2);
        first_on(0x050714, TC, 20);
        script(template(both(put("BF3C", limits(1, 1, 1)), put_value(1, 1))));
        start(1);
        first_on(0x050716, TC, 16);
        start(1);
        first(AAC, 0);
        emit();
    }
}

/* An entry of a CPACE card's file tests an accumulator that was written, from
 * the next Start on. */
static void selections(void)
{
    for (unsigned slot = 1; slot <= 3; slot++)
        for (unsigned i = 0; i < 4; i++) {
            const uint8_t type = (uint8_t)(0xC0 | slot << 4 | (i & 1));
            const uint8_t entry[] = {2, 6, 1, 0, 0, 0, 0, 0x05, 0x00, type,
                                     2, 1};
            fresh(2, 1);
            cpace();
            scripts();
            setup.profile[0].accumulator_sent = (uint8_t)slot;
            setup.profile[1].accumulator_sent = (uint8_t)slot;
            draft_entry(&setup.file, entry, sizeof entry);
            begin();
            start(0);
            first(ARQC, 1);
            script(template(put_value(slot, i & 2 ? 501 : 499)));
            second(TC, OTHER, VERIFIED, 0x80);
            start(0);
            first(ARQC, 1);
            script(template(both(put_value(slot, 500), FAILS)));
            script(template(put_value(slot, 700)));
            start(0);
            first(AAC, 0);
            script(template(put_value(slot, i & 2 ? 499 : 501)));
            interface = 2;
            start(0); /* refused, so nothing begins */
            interface = CONTACT;
            start(0);
            first(AAC, 0);
            emit();
        }
}

/* A paper that leaves its bits and limits behind, and one that must know
 * nothing of them. */
static void leftovers(void)
{
    for (unsigned i = 0; i < 4; i++) {
        fresh(4, 1);
        begin();
        script(template(both(NOTHING, both(put_limits(1, 0, 0),
                                           put_counter(1, 0, 0)))));
        start(1);
        first(ARQC, 1);
        script(template(FAILS));
        if (i & 1)
            second(TC, Y3, ABSENT, 0);
        emit();
        fresh(4, 1);
        setup.scripts = i > 1 ? 0 : 1;
        setup.version = i == 3 ? 5 : 6;
        begin();
        if (i == 0)
            script(template(put_value(1, 3)));
        see(4);
        script(template(put_value(1, 3)));
        see(1);
        emit();
    }
}

/* The rest of a card is left alone: profiles, MTA, history, what is open. */
static void untouched(void)
{
    for (unsigned i = 0; i < 4; i++) {
        fresh(4, 15);
        setup.go_online = i & 1;
        setup.required = i >> 1;
        for (unsigned p = 0; p < 4; p++) {
            setup.profile[p].mta_on = 1;
            setup.profile[p].mta_currency = EUR;
            setup.profile[p].mta = 50;
            setup.profile[p].online = MTA_EXCEEDED | GO_ONLINE;
            setup.profile[p].by_default = UNABLE;
        }
        begin();
        script(template(both(put_value(4, 1), both(put_limits(3, 1, 9999),
                                                   put_counter(2, 1, 200)))));
        for (uint8_t p = 1; p <= 4; p++) {
            start(p);
            first(TC, 51);
            script(template(both(put_value(p, 60), put_limits(p, 60, 70))));
            second(TC, p == 1 ? OTHER : p == 2 ? Y3 : OTHER,
                   p == 3 ? FAILED : ABSENT, 0);
            script(template(put_value(p, 10)));
            start(p);
            first(TC, 50);
        }
        online(1, OTHER, VERIFIED, 0x88);
        see(4);
        emit();
    }
}

void listed_scripts(void)
{
    sittings();
    read_ones();
    malformed_ones();
    too_deep_ones();
    faults_among();
    others_among();
    depths();
    nested_order();
    long_objects();
    failing_commands();
    digits_of_commands();
    bytes_of_commands();
    done_commands();
    long_commands();
    elements();
    all_limits();
    inactive();
    limit_values();
    refusals();
    bodies();
    counts();
    failures();
    shown_again();
    in_this_transaction();
    refused_starts();
    stopping();
    bits_between();
    orders_between();
    cvr_between();
    approvals_between();
    tails();
    kinds();
    masks();
    printed();
    families();
    selections();
    leftovers();
    untouched();
}
