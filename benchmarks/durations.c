/* The archive's entry points on durations beside plain C by hand (plain_durations.h), in one run: nanoseconds a call, and the
 * ratio. All code the same DURATION values, of seven shapes in no order, made beforehand. The peer knows this one type; the
 * archive reads the type's text at each call. docs/BENCHMARKS.md has the command and the figures. */
#include <stdio.h>
#include <time.h>

#include "plain_durations.h"

enum { VALUES = 4096, TURNS = 200, ROUNDS = 9, ROOM = 136, SHAPES = 7 };

typedef struct anafzir_outcome (*work)(const uint8_t *input, size_t length, uint8_t *room, size_t room_length);

static const uint8_t TYPE[] = "DURATION";
static const struct anafzir_limits NO_LIMITS;

static struct anafzir_outcome per_encode(const uint8_t *input, size_t length, uint8_t *room, size_t room_length)
{
    return anafzir_per_encode(TYPE, 8, NO_LIMITS, input, length, room, room_length);
}

static struct anafzir_outcome per_decode(const uint8_t *input, size_t length, uint8_t *room, size_t room_length)
{
    return anafzir_per_decode(TYPE, 8, NO_LIMITS, input, length, room, room_length);
}

static struct anafzir_outcome der_encode(const uint8_t *input, size_t length, uint8_t *room, size_t room_length)
{
    return anafzir_der_encode(TYPE, 8, NO_LIMITS, input, length, room, room_length);
}

static struct anafzir_outcome der_decode(const uint8_t *input, size_t length, uint8_t *room, size_t room_length)
{
    return anafzir_der_decode(TYPE, 8, NO_LIMITS, input, length, room, room_length);
}

struct input {
    size_t length;
    uint8_t octets[LONGEST_ELEMENT];
};

static struct input texts[VALUES], encodings[VALUES], elements[VALUES];

/* A number from 0 to one below the limit, the same in each run. */
static unsigned next(unsigned limit)
{
    static uint32_t state = 101;
    state = state * 1664525U + 1013904223U;
    return (state >> 16) % limit;
}

/* The text of a value: like P1Y6M, PT0.5S, P3W, PT36H, P1DT12H, P2Y10M15DT10H20M30S or P0Y0M1D. */
static size_t make(char *to, size_t size)
{
    const unsigned years = next(20), months = 1 + next(11), days = 1 + next(28), hours = next(24), minutes = next(60);
    switch (next(SHAPES)) {
    case 0:
        return (size_t)snprintf(to, size, "P%uY%uM", 1 + years, months);
    case 1:
        return (size_t)snprintf(to, size, "PT%u.%uS", minutes, months % 10);
    case 2:
        return (size_t)snprintf(to, size, "P%uW", 1 + minutes);
    case 3:
        return (size_t)snprintf(to, size, "PT%uH", 24 + minutes);
    case 4:
        return (size_t)snprintf(to, size, "P%uDT%uH", days, hours);
    case 5:
        return (size_t)snprintf(to, size, "P%uY%uM%uDT%uH%uM%uS", 1 + years, months, days, hours, minutes, next(60));
    default:
        return (size_t)snprintf(to, size, "P0Y0M%uD", days);
    }
}

/* Whether both answer the same, and leave the same room. */
static int same(work ours, work peer, const uint8_t *input, size_t length)
{
    uint8_t a[ROOM] = {0}, b[ROOM] = {0};
    struct anafzir_outcome x = ours(input, length, a, ROOM), y = peer(input, length, b, ROOM);
    return x.number == y.number && x.bits == y.bits && x.length == y.length && memcmp(a, b, ROOM) == 0;
}

/* Whether both answer the same on each input: as it is, without its last octet, with one octet more, and with each of its octets
 * changed in one bit. */
static int agree(work ours, work peer, const struct input *inputs)
{
    for (size_t k = 0; k < VALUES; k++) {
        uint8_t octets[LONGEST_ELEMENT + 1] = {0};
        size_t length = inputs[k].length;
        memcpy(octets, inputs[k].octets, length);
        if (!same(ours, peer, octets, length) || !same(ours, peer, octets, length - 1) || !same(ours, peer, octets, length + 1))
            return 0;
        for (size_t i = 0; i < 8 * length; i++) {
            octets[i / 8] ^= (uint8_t)(1 << i % 8);
            if (!same(ours, peer, octets, length))
                return 0;
            octets[i / 8] ^= (uint8_t)(1 << i % 8);
        }
    }
    return 1;
}

/* A round of a work over all inputs, in nanoseconds a call, and a sum over some of what it gives. The room is not cleared before
 * a call. */
static double one_round(work run, const struct input *inputs, uint64_t *sum)
{
    struct timespec from, to;
    clock_gettime(CLOCK_MONOTONIC, &from);
    *sum = 0;
    for (int turn = 0; turn < TURNS; turn++)
        for (size_t k = 0; k < VALUES; k++) {
            uint8_t room[ROOM];
            struct anafzir_outcome o = run(inputs[k].octets, inputs[k].length, room, ROOM);
            *sum = *sum * 31 + o.number + o.length + room[1];
        }
    clock_gettime(CLOCK_MONOTONIC, &to);
    return ((double)(to.tv_sec - from.tv_sec) * 1e9 + (double)(to.tv_nsec - from.tv_nsec)) / TURNS / VALUES;
}

static double least(double a, double b)
{
    return a < b ? a : b;
}

/* One row: the best round of each, in turn, so that a slow second of the machine meets both. */
static int compare(const char *name, work ours, work peer, const struct input *inputs)
{
    if (!agree(ours, peer, inputs)) {
        printf("%s: the archive and plain C disagree\n", name);
        return 1;
    }
    uint64_t a = 0, b = 0;
    double x = 1e9, y = 1e9;
    for (int round = 0; round < ROUNDS; round++) {
        x = least(x, one_round(ours, inputs, &a));
        y = least(y, one_round(peer, inputs, &b));
    }
    printf("%s: archive %.1f ns, plain C %.1f ns, ratio %.1f\n", name, x, y, x / y);
    return a != b;
}

int main(void)
{
    for (size_t k = 0; k < VALUES; k++) {
        struct input *text = texts + k;
        text->length = make((char *)text->octets, sizeof text->octets);
        encodings[k].length = plain_per_encode(text->octets, text->length, encodings[k].octets, sizeof encodings[k].octets).length;
        elements[k].length = plain_der_encode(text->octets, text->length, elements[k].octets, sizeof elements[k].octets).length;
    }
    return compare("per_encode", per_encode, plain_per_encode, texts)
        + compare("per_decode", per_decode, plain_per_decode, encodings)
        + compare("der_encode", der_encode, plain_der_encode, texts)
        + compare("der_decode", der_decode, plain_der_decode, elements);
}
