/* The archive's entry points beside plain C by hand, in one run: nanoseconds a call, and the ratio. All code DATE-TIME
 * values of the years 2005 to 2020, made beforehand. The peer knows this one type, and in PER these sixteen years; the
 * archive reads the type's text at each call. docs/BENCHMARKS.md has the command and the figures. */
#include <stdint.h>
#include <stdio.h>
#include <string.h>
#include <time.h>

#include "anafzir.h"

#define NEVER_INLINE __attribute__((noinline))
#define ALWAYS_INLINE inline __attribute__((always_inline))

enum { VALUES = 4096, TURNS = 200, ROUNDS = 9, ROOM = 24 };

static const uint8_t LENGTHS[2][12] = {
    {31, 28, 31, 30, 31, 30, 31, 31, 30, 31, 30, 31},
    {31, 29, 31, 30, 31, 30, 31, 31, 30, 31, 30, 31},
};

static int leap(int year)
{
    return year % 4 == 0 && (year % 100 != 0 || year % 400 == 0);
}

/* A number of so many digits, or -1. */
static int number(const uint8_t *text, int digits)
{
    int n = 0;
    for (int i = 0; i < digits; i++) {
        if (text[i] < '0' || '9' < text[i])
            return -1;
        n = n * 10 + (text[i] - '0');
    }
    return n;
}

static int exists(const int *f)
{
    int year = f[0], month = f[1], day = f[2], hours = f[3], minutes = f[4], seconds = f[5];
    if (month < 1 || 12 < month || day < 1 || LENGTHS[leap(year)][month - 1] < day)
        return 0;
    if (hours == 24)
        return minutes == 0 && seconds == 0;
    return hours < 24 && minutes < 60 && seconds < 61;
}

/* Where the digits of the six fields stand in a text, and in the octets of DER. */
static const int IN_TEXT[6] = {0, 5, 8, 11, 14, 17}, IN_ELEMENT[6] = {3, 7, 9, 11, 13, 15};

/* The six fields, and whether all are digits. There is no loop over them: gcc would leave it one at -O2, and make the peer
 * two or three times slower. */
ALWAYS_INLINE static int get_digits(const uint8_t *from, const int *places, int *f)
{
    f[0] = number(from + places[0], 4);
    f[1] = number(from + places[1], 2);
    f[2] = number(from + places[2], 2);
    f[3] = number(from + places[3], 2);
    f[4] = number(from + places[4], 2);
    f[5] = number(from + places[5], 2);
    return (f[0] | f[1] | f[2] | f[3] | f[4] | f[5]) >= 0;
}

static void put(uint8_t *text, int n)
{
    text[0] = (uint8_t)('0' + n / 10);
    text[1] = (uint8_t)('0' + n % 10);
}

ALWAYS_INLINE static void put_digits(const int *f, uint8_t *to, const int *places)
{
    put(to + places[0], f[0] / 100);
    put(to + places[0] + 2, f[0] % 100);
    put(to + places[1], f[1]);
    put(to + places[2], f[2]);
    put(to + places[3], f[3]);
    put(to + places[4], f[4]);
    put(to + places[5], f[5]);
}

/* Each of these gives the six fields of an input, and how many octets they take: 0 where it does not look like a value. */

ALWAYS_INLINE static size_t get_text(const uint8_t *text, size_t length, int *f)
{
    if (length != 19 || text[4] != '-' || text[7] != '-' || text[10] != 'T' || text[13] != ':' || text[16] != ':')
        return 0;
    return get_digits(text, IN_TEXT, f) ? 19 : 0;
}

ALWAYS_INLINE static size_t get_bits(const uint8_t *octets, size_t length, int *f)
{
    if (length < 4)
        return 0;
    uint32_t bits = (uint32_t)octets[0] << 24 | (uint32_t)octets[1] << 16 | (uint32_t)octets[2] << 8 | octets[3];
    f[0] = 2005 + (bits >> 26 & 15), f[1] = 1 + (bits >> 22 & 15), f[2] = 1 + (bits >> 17 & 31);
    f[3] = bits >> 12 & 31, f[4] = bits >> 6 & 63, f[5] = bits & 63;
    return bits >> 30 != 0 || 12 < f[1] || 31 < f[2] || 24 < f[3] || 59 < f[4] || 60 < f[5] ? 0 : 4;
}

ALWAYS_INLINE static size_t get_element(const uint8_t *octets, size_t length, int *f)
{
    if (length < 17 || octets[0] != 0x1F || octets[1] != 0x21 || octets[2] != 14)
        return 0;
    return get_digits(octets, IN_ELEMENT, f) ? 17 : 0;
}

/* Each of these writes six fields that are a value. */

ALWAYS_INLINE static void put_text(const int *f, uint8_t *room)
{
    memcpy(room, "    -  -  T  :  :  ", 19);
    put_digits(f, room, IN_TEXT);
}

ALWAYS_INLINE static void put_bits(const int *f, uint8_t *room)
{
    uint32_t bits = (uint32_t)(f[0] - 2005) << 26 | (uint32_t)(f[1] - 1) << 22 | (uint32_t)(f[2] - 1) << 17;
    bits |= (uint32_t)f[3] << 12 | (uint32_t)f[4] << 6 | (uint32_t)f[5];
    for (int i = 0; i < 4; i++)
        room[i] = (uint8_t)(bits >> (24 - 8 * i));
}

ALWAYS_INLINE static void put_element(const int *f, uint8_t *room)
{
    memcpy(room, "\x1F\x21\x0E", 3);
    put_digits(f, room, IN_ELEMENT);
}

/* What a peer gets its fields from, the years that it takes, and what it writes, in how many octets. */
struct plain {
    size_t (*get)(const uint8_t *input, size_t length, int *f);
    int lowest, highest;
    void (*put)(const int *f, uint8_t *room);
    size_t size;
};

/* The refusal's number, or 0 with the result in the room. */
ALWAYS_INLINE static uint32_t code(struct plain how, const uint8_t *input, size_t length, uint8_t *room, size_t room_length)
{
    int f[6];
    size_t taken = how.get(input, length, f);
    if (taken == 0)
        return 3;
    if (!exists(f))
        return 4;
    if (f[0] < how.lowest || how.highest < f[0])
        return 5;
    if (taken != length)
        return 6;
    if (room_length < how.size)
        return 7;
    how.put(f, room);
    return 0;
}

NEVER_INLINE static uint32_t plain_per_encode(const uint8_t *text, size_t length, uint8_t *room, size_t room_length)
{
    const struct plain how = {get_text, 2005, 2020, put_bits, 4};
    return code(how, text, length, room, room_length);
}

NEVER_INLINE static uint32_t plain_per_decode(const uint8_t *octets, size_t length, uint8_t *room, size_t room_length)
{
    const struct plain how = {get_bits, 2005, 2020, put_text, 19};
    return code(how, octets, length, room, room_length);
}

NEVER_INLINE static uint32_t plain_der_encode(const uint8_t *text, size_t length, uint8_t *room, size_t room_length)
{
    const struct plain how = {get_text, 1582, 9999, put_element, 17};
    return code(how, text, length, room, room_length);
}

NEVER_INLINE static uint32_t plain_der_decode(const uint8_t *octets, size_t length, uint8_t *room, size_t room_length)
{
    const struct plain how = {get_element, 1582, 9999, put_text, 19};
    return code(how, octets, length, room, room_length);
}

typedef uint32_t (*work)(const uint8_t *input, size_t length, uint8_t *room, size_t room_length);

static const uint8_t TYPE[] = "DATE-TIME";
static const struct anafzir_limits NO_LIMITS;

static uint32_t per_encode(const uint8_t *input, size_t length, uint8_t *room, size_t room_length)
{
    return anafzir_per_encode(TYPE, 9, NO_LIMITS, input, length, room, room_length).number;
}

static uint32_t per_decode(const uint8_t *input, size_t length, uint8_t *room, size_t room_length)
{
    return anafzir_per_decode(TYPE, 9, NO_LIMITS, input, length, room, room_length).number;
}

static uint32_t der_encode(const uint8_t *input, size_t length, uint8_t *room, size_t room_length)
{
    return anafzir_der_encode(TYPE, 9, NO_LIMITS, input, length, room, room_length).number;
}

static uint32_t der_decode(const uint8_t *input, size_t length, uint8_t *room, size_t room_length)
{
    return anafzir_der_decode(TYPE, 9, NO_LIMITS, input, length, room, room_length).number;
}

static uint8_t texts[VALUES][19], encodings[VALUES][4], elements[VALUES][17];

/* Whether both give a result for each input, and the same. */
static int agree(work ours, work peer, const uint8_t *inputs, size_t length)
{
    for (size_t k = 0; k < VALUES; k++) {
        uint8_t a[ROOM] = {0}, b[ROOM] = {0};
        if (ours(inputs + k * length, length, a, ROOM) != 0 || peer(inputs + k * length, length, b, ROOM) != 0
            || memcmp(a, b, ROOM) != 0)
            return 0;
    }
    return 1;
}

/* A round of a work over all inputs, in nanoseconds a call, and a sum over some of what it writes. The room is not cleared
 * before a call. */
static double one_round(work run, const uint8_t *inputs, size_t length, uint64_t *sum)
{
    struct timespec from, to;
    clock_gettime(CLOCK_MONOTONIC, &from);
    *sum = 0;
    for (int turn = 0; turn < TURNS; turn++)
        for (size_t k = 0; k < VALUES; k++) {
            uint8_t room[ROOM];
            *sum += run(inputs + k * length, length, room, ROOM);
            *sum = *sum * 31 + room[1] + room[3];
        }
    clock_gettime(CLOCK_MONOTONIC, &to);
    return ((double)(to.tv_sec - from.tv_sec) * 1e9 + (double)(to.tv_nsec - from.tv_nsec)) / TURNS / VALUES;
}

static double least(double a, double b)
{
    return a < b ? a : b;
}

/* One row: the best round of each, in turn, so that a slow second of the machine meets both. */
static int compare(const char *name, work ours, work peer, const uint8_t *inputs, size_t length)
{
    uint64_t a = 0, b = 0;
    double x = 1e9, y = 1e9;
    for (int round = 0; round < ROUNDS; round++) {
        x = least(x, one_round(ours, inputs, length, &a));
        y = least(y, one_round(peer, inputs, length, &b));
    }
    printf("%s: archive %.1f ns, plain C %.1f ns, ratio %.1f\n", name, x, y, x / y);
    return a != b || !agree(ours, peer, inputs, length);
}

int main(void)
{
    for (int k = 0; k < VALUES; k++) {
        const int fields[6] = {2005 + k % 16, 1 + k % 12, 1 + k % 28, k % 24, k / 7 % 60, k % 60};
        put_text(fields, texts[k]);
        put_bits(fields, encodings[k]);
        put_element(fields, elements[k]);
    }
    return compare("per_encode", per_encode, plain_per_encode, texts[0], 19)
        + compare("per_decode", per_decode, plain_per_decode, encodings[0], 4)
        + compare("der_encode", der_encode, plain_der_encode, texts[0], 19)
        + compare("der_decode", der_decode, plain_der_decode, elements[0], 17);
}
