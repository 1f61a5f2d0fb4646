/* What the tests of the archive share: the four entry points, a menu of limits, a call in a room of some length between marked
 * octets, and the lines of standard input. */
#ifndef CALLS_H
#define CALLS_H

#include <inttypes.h>
#include <stdio.h>
#include <stdlib.h>
#include <string.h>

#include "anafzir.h"

/* A room that is always enough, and the marked octets before it and behind it. */
enum { ROOM = 136, GUARD = 32, LONGEST = 1 << 16 };

typedef struct anafzir_outcome (*coder)(const uint8_t *, size_t, struct anafzir_limits, const uint8_t *, size_t, uint8_t *,
                                        size_t);

enum { PER, UNPER, DER, UNDER, WORK_COUNT };

/* An entry point, by the letter and by the name that lines have for it. */
static const struct work {
    char letter;
    const char *name;
    int decodes;
    coder code;
} WORKS[WORK_COUNT] = {
    {'e', "per", 0, anafzir_per_encode},
    {'d', "unper", 1, anafzir_per_decode},
    {'t', "der", 0, anafzir_der_encode},
    {'u', "under", 1, anafzir_der_decode},
};

/* The menu of limits, by the octets `0` to `9`. */
static const struct anafzir_limits MENU[10] = {
    {0, 0, 0, 0, 0, 0, 0},
    {1, 2000, 2010, 0, 0, 0, 0},
    {7, 1582, 9999, 0, 0, 0, 0},
    {1, -9999, -1, 0, 0, 0, 0},
    {UINT32_MAX, 2010, 2000, 0, 0, 0, 0},
    {1, INT32_MIN, INT32_MAX, 0, 0, 5, 6},
    {256, 0, 0, 0, 0, 0, 0},
    {1, -12000, 12000, 0, 0, 0, 0},
    {0, 2000, 2000, 256, 0, 0, 0},
    {1, 2000, 2010, 1, 0, 7, 3},
};

/* What an entry point is asked. */
struct question {
    struct anafzir_limits limits;
    const uint8_t *type;
    size_t type_length;
    const uint8_t *input;
    size_t input_length;
};

/* What comes back, and the room after the call. */
struct answer {
    struct anafzir_outcome outcome;
    uint8_t room[ROOM];
};

/* One call with a room of so many octets. Whether it changed nothing but the octets that it reports, which lie in the room,
 * and reported none and no bits with a refusal. */
static inline int ask(const struct work *work, const struct question *q, size_t length, struct answer *a)
{
    uint8_t before[GUARD + ROOM + GUARD], after[sizeof before];
    for (size_t i = 0; i < sizeof before; i++)
        before[i] = (uint8_t)(0xA5 ^ (i * 7));
    memcpy(after, before, sizeof before);
    struct anafzir_outcome o = work->code(q->type, q->type_length, q->limits, q->input, q->input_length, after + GUARD, length);
    a->outcome = o;
    memcpy(a->room, after + GUARD, ROOM);
    if (o.length > length || (o.number != 0 && (o.length != 0 || o.bits != 0)) || memcmp(before, after, GUARD) != 0)
        return 0;
    size_t end = GUARD + o.length;
    return memcmp(before + end, after + end, sizeof before - end) == 0;
}

/* Gives each line of standard input to a function, without its newline. The last line needs none. */
static inline void each_line(void (*reply)(uint8_t *, size_t))
{
    static uint8_t line[LONGEST];
    size_t length = 0;
    for (int octet = getchar();; octet = getchar()) {
        if (octet == '\n' || (octet == EOF && length > 0)) {
            reply(line, length);
            length = 0;
        } else if (octet != EOF && length < sizeof line) {
            line[length++] = (uint8_t)octet;
        }
        if (octet == EOF)
            return;
    }
}

#endif
