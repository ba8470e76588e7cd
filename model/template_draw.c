/* template_draw COUNT SEED: so many templates on standard output, each behind
 * its length in 4 bytes, the same for the same seed: trees that can be read,
 * the same damaged, and bytes that look like heads or like elements. */
#include <stdio.h>
#include <stdlib.h>
#include <string.h>

#include "bytes.h"
#include "invent_script.h"

static struct draft_setup setup;

/* One command, with bytes in it that mean something in an element; now and then
 * it is cut. All lengths fit. */
static size_t draw_command(struct chance *chance, uint8_t *bytes)
{
    static const uint8_t head[] = {0x71, 0, 0x86, 0, 0x0C, 0xDA, 0xBF, 0x30, 0};
    static const uint8_t mac[] = {0x8E, 4, 1, 2, 3, 4};
    static const uint8_t some[] = {0xDF, 0xDF, 0x01, 0x04, 0x11, 0x14, 0x00,
                                   0x02, 0x06, 0x0C, 0x80, 0x81, 0x82};
    const uint8_t count = (uint8_t)below(chance, 10);
    size_t length = sizeof head;

    memcpy(bytes, head, sizeof head);
    if (percent(chance, 50))
        bytes[7] = 0x35;
    bytes[length++] = 0x81;
    if (percent(chance, 10))
        bytes[length++] = 0x81;
    bytes[length++] = count;
    for (unsigned i = 0; i < count; i++)
        bytes[length++] = PICK(chance, some);
    memcpy(bytes + length, mac, sizeof mac);
    length += sizeof mac;
    if (percent(chance, 20))
        length = 4 + below(chance, length - 4);
    if (length >= sizeof head)
        bytes[8] = (uint8_t)(length - sizeof head);
    bytes[3] = (uint8_t)(length - 4);
    bytes[1] = (uint8_t)(length - 2);
    return length;
}

static size_t draw_template(struct chance *chance, uint8_t *bytes)
{
    struct world world;
    size_t length;

    if (percent(chance, 10))
        return draw_command(chance, bytes);
    invent_setup(chance, &world, &setup, 1, 0);
    if (percent(chance, 20)) {
        length = invent_heads(chance, bytes);
    } else {
        length = invent_template(chance, &world, bytes);
        if (percent(chance, 40))
            return length;
    }
    for (uint64_t times = below(chance, 4); times > 0; times--)
        length = damage_template(chance, bytes, length);
    return length;
}

int main(int argc, char **argv)
{
    uint8_t bytes[4 + TEMPLATE_ROOM];

    if (argc != 3) {
        fprintf(stderr, "usage: template_draw COUNT SEED\n");
        return 1;
    }
    const uint64_t count = strtoull(argv[1], NULL, 10);
    const uint64_t seed = strtoull(argv[2], NULL, 10);
    for (uint64_t i = 0; i < count; i++) {
        struct chance chance = chance_of(seed, i);
        const size_t length = draw_template(&chance, bytes + 4);
        put32(bytes, (uint32_t)length);
        if (fwrite(bytes, 1, 4 + length, stdout) != 4 + length) {
            perror("standard output");
            return 1;
        }
    }
    return fflush(stdout) != 0;
}
