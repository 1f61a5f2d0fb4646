/* Replies to lines on DURATION with the plain C of plain_durations.h, as the line program does: reads `WORK;DURATION;INPUT` from
 * standard input and writes the number and, after 0, the octets in hex or the text; `?` where a line is no such line. So the peer
 * can be compared with the reference; docs/BENCHMARKS.md has the command. */
#define _POSIX_C_SOURCE 200809L
#include <inttypes.h>
#include <stdio.h>
#include <stdlib.h>

#include "plain_durations.h"

enum { LONGEST_LINE = 1024 };

static const struct {
    const char *start;
    int decodes;
    struct anafzir_outcome (*code)(const uint8_t *input, size_t length, uint8_t *room, size_t room_length);
} WORKS[] = {
    {"per;DURATION;", 0, plain_per_encode},
    {"unper;DURATION;", 1, plain_per_decode},
    {"der;DURATION;", 0, plain_der_encode},
    {"under;DURATION;", 1, plain_der_decode},
};

static int hex_number(int octet)
{
    if ('0' <= octet && octet <= '9')
        return octet - '0';
    octet |= 0x20;
    return 'a' <= octet && octet <= 'f' ? octet - 'a' + 10 : -1;
}

/* The octets of hex, in place; whether it is whole pairs of digits. */
static int unhex(uint8_t *text, size_t length)
{
    for (size_t i = 0; i < length / 2; i++) {
        int high = hex_number(text[2 * i]), low = hex_number(text[2 * i + 1]);
        if (high < 0 || low < 0)
            return 0;
        text[i] = (uint8_t)(high * 16 + low);
    }
    return length % 2 == 0;
}

static void reply(uint8_t *line, size_t length)
{
    for (size_t k = 0; k < sizeof WORKS / sizeof *WORKS && length <= LONGEST_LINE; k++) {
        size_t before = strlen(WORKS[k].start), left = length - before;
        if (length < before || memcmp(line, WORKS[k].start, before) != 0)
            continue;
        if (WORKS[k].decodes && !unhex(line + before, left))
            break;
        uint8_t room[LONGEST_ELEMENT];
        struct anafzir_outcome o = WORKS[k].code(line + before, WORKS[k].decodes ? left / 2 : left, room, sizeof room);
        printf(o.number == 0 ? "%" PRIu32 " " : "%" PRIu32, o.number);
        for (size_t i = 0; i < o.length; i++)
            printf(WORKS[k].decodes ? "%c" : "%02X", room[i]);
        putchar('\n');
        return;
    }
    puts("?");
}

int main(void)
{
    char *line = NULL;
    size_t size = 0;
    for (ssize_t length; (length = getline(&line, &size, stdin)) > 0;)
        reply((uint8_t *)line, (size_t)length - (line[length - 1] == '\n'));
    free(line);
    return 0;
}
