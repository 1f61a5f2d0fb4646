/* Replies to the lines of reference/value_lines.py on a type and a text through the archive: reads them from standard input
 * and writes for each the number of the text under the type and, after 0, the canonical text. The text is encoded in PER and
 * in DER and the octets are decoded again, each in rooms that are too short, just long enough and longer; where the two or
 * the rooms disagree, or a call changes more than its result, the reply says so. */
#include "calls.h"

/* Whether two answers have the same number and the same result. */
static int alike(const struct answer *a, const struct answer *b)
{
    return a->outcome.number == b->outcome.number && a->outcome.length == b->outcome.length
           && memcmp(a->room, b->room, a->outcome.length) == 0;
}

/* A call in a room that is always enough; whether it answers the same in every room that holds the result, and 7 in every
 * shorter one after 0. */
static int ask_around(const struct work *work, const struct question *q, struct answer *a)
{
    if (!ask(work, q, ROOM, a) || a->outcome.length >= ROOM)
        return 0;
    size_t length = a->outcome.length;
    const size_t rooms[] = {0, 1, length / 2, length - (length != 0), length, length + 1};
    for (size_t i = 0; i < sizeof rooms / sizeof *rooms; i++) {
        struct answer b;
        if (!ask(work, q, rooms[i], &b))
            return 0;
        if (rooms[i] < length ? b.outcome.number != ANAFZIR_SHORT_ROOM : !alike(a, &b) || a->outcome.bits != b.outcome.bits)
            return 0;
    }
    return 1;
}

/* A text encoded and, after 0, its octets decoded under the same type: the number is the encoder's, and the text the
 * decoder's. */
static int there_and_back(const struct work *encode, const struct work *decode, const struct question *q, struct answer *text)
{
    struct answer octets;
    if (!ask_around(encode, q, &octets))
        return 0;
    *text = octets;
    if (octets.outcome.number != 0)
        return 1;
    struct question back = *q;
    back.input = octets.room;
    back.input_length = octets.outcome.length;
    return ask_around(decode, &back, text) && text->outcome.number == 0 && text->outcome.bits == octets.outcome.bits;
}

static void reply(uint8_t *line, size_t length)
{
    uint8_t *second = length < 2 || line[1] != ';' ? NULL : memchr(line + 2, ';', length - 2);
    if (second == NULL || line[0] < '0' || '9' < line[0]) {
        printf("?\n");
        return;
    }
    size_t type_length = (size_t)(second - line) - 2;
    struct question q = {MENU[line[0] - '0'], line + 2, type_length, second + 1, length - type_length - 3};
    struct answer per, der;
    if (!there_and_back(WORKS + PER, WORKS + UNPER, &q, &per))
        printf("PER: a call disagrees with another, or a room was changed\n");
    else if (!there_and_back(WORKS + DER, WORKS + UNDER, &q, &der))
        printf("DER: a call disagrees with another, or a room was changed\n");
    else if (!alike(&per, &der))
        printf("PER and DER disagree\n");
    else if (per.outcome.number != 0)
        printf("%" PRIu32 "\n", per.outcome.number);
    else
        printf("0 %.*s\n", (int)per.outcome.length, (const char *)per.room);
}

int main(void)
{
    each_line(reply);
    return 0;
}
