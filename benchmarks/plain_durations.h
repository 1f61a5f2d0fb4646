/* Durations in plain C by hand: the texts, the unaligned PER and the DER of the type DURATION, with each test that the type asks
 * for. They are the archive's peer in durations.c; duration_replies.c shows what they answer. */
#ifndef PLAIN_DURATIONS_H
#define PLAIN_DURATIONS_H

#include <stdint.h>
#include <string.h>

#include "anafzir.h"

#define NEVER_INLINE __attribute__((noinline))
#define ALWAYS_INLINE inline __attribute__((always_inline))

/* The most octets of a result, and the most that a number can be. */
enum { LONGEST_TEXT = 72, LONGEST_BITS = 39, LONGEST_ELEMENT = 74, LARGEST_NUMBER = 999999999 };

/* The places of the components in their order, and how many there are. */
enum { YEARS, MONTHS, WEEKS, DAYS, HOURS, MINUTES, SECONDS, COMPONENTS };

/* The first octet of PER has a bit for each component, years first, and one for the fraction. */
enum { YEARS_BIT = 0x80, WEEKS_BIT = YEARS_BIT >> WEEKS, FRACTION_BIT = 0x01 };

/* All zero before something is read. */
struct duration {
    /* The components that were read, and those that are left when the zeros are gone, by the bits of PER. */
    uint32_t read, present;
    uint32_t numbers[COMPONENTS];
    /* How many digits the fraction has, 0 where there is none, and their number. */
    uint32_t digits, fraction;
    /* The bit of the last component where that is zero, else 0. */
    uint32_t zero;
    /* Not 0 where the encoder would have written it otherwise. */
    uint32_t loose;
    /* How many bits it has in PER, where it was read from there or written so. */
    uint32_t bits;
};

/* One component more, smaller than those before it: a zero before it goes. */
ALWAYS_INLINE static void add(struct duration *d, int place, uint32_t number)
{
    uint32_t bit = YEARS_BIT >> place;
    d->read |= bit;
    d->present = (d->present & ~d->zero) | bit;
    d->loose |= d->zero;
    d->zero = number == 0 ? bit : 0;
    d->numbers[place] = number;
}

/* Whether there is a component, and none beside weeks. */
static int allowed(const struct duration *d)
{
    return d->read == WEEKS_BIT || (d->read != 0 && (d->read & WEEKS_BIT) == 0);
}

/* Digits at a place, which moves behind them: how many, or 0 where there are none or more than nine. */
ALWAYS_INLINE static uint32_t get_digits(const uint8_t **at, const uint8_t *end, uint32_t *number)
{
    const uint8_t *start = *at, *last = end - start > 10 ? start + 10 : end, *p = start;
    uint32_t n = 0;
    for (; p < last && (uint8_t)(*p - '0') < 10; p++)
        n = n * 10 + (uint8_t)(*p - '0');
    *at = p;
    *number = n;
    return p - start < 10 ? (uint32_t)(p - start) : 0;
}

/* The place of a letter's component, before T or behind it, or -1. */
ALWAYS_INLINE static int place_of(uint8_t letter, int behind)
{
    switch (letter) {
    case 'Y':
        return behind ? -1 : YEARS;
    case 'M':
        return behind ? MINUTES : MONTHS;
    case 'W':
        return behind ? -1 : WEEKS;
    case 'D':
        return behind ? -1 : DAYS;
    case 'H':
        return behind ? HOURS : -1;
    case 'S':
        return behind ? SECONDS : -1;
    default:
        return -1;
    }
}

/* What stands behind a P; whether it looks like a duration. */
ALWAYS_INLINE static int get_components(const uint8_t *at, const uint8_t *end, struct duration *d)
{
    int behind = 0, next = 0;
    while (at < end) {
        if (*at == 'T' && !behind) {
            behind = 1;
            next = HOURS;
            at++;
        }
        const uint8_t *start = at;
        uint32_t number, count = get_digits(&at, end, &number);
        if (count == 0 || (count > 1 && *start == '0') || at == end)
            return 0;
        if (*at == '.' || *at == ',') {
            d->loose |= *at++ == ',';
            d->digits = get_digits(&at, end, &d->fraction);
            if (d->digits == 0 || end - at != 1)
                return 0;
        }
        int place = place_of(*at++, behind);
        if (place < next)
            return 0;
        next = place + 1;
        add(d, place, number);
    }
    return allowed(d);
}

/* Bits from octets. Behind their end come zeros, and it is noted that some were taken. */
struct reader {
    const uint8_t *at, *end;
    uint64_t window;
    unsigned held;
    int ended;
};

ALWAYS_INLINE static uint32_t take(struct reader *r, unsigned width)
{
    while (r->held < width) {
        r->window <<= 8;
        if (r->at < r->end)
            r->window |= *r->at++;
        else
            r->ended = 1;
        r->held += 8;
    }
    r->held -= width;
    return (uint32_t)(r->window >> r->held & (((uint64_t)1 << width) - 1));
}

/* The numbers of a field that take a 0 bit and so many bits; the others take a 1 bit and a free integer. */
struct root {
    uint32_t lowest, highest;
    unsigned width;
};

static const struct root ROOTS[COMPONENTS] = {
    {0, 31, 5}, {0, 15, 4}, {0, 63, 6}, {0, 31, 5}, {0, 31, 5}, {0, 63, 6}, {0, 63, 6},
};
static const struct root DIGITS_ROOT = {1, 3, 2}, FRACTION_ROOT = {1, 999, 10};

static const uint32_t POWERS[10] = {1, 10, 100, 1000, 10000, 100000, 1000000, 10000000, 100000000, 1000000000};

ALWAYS_INLINE static int inside(const struct root *root, uint32_t number)
{
    return root->lowest <= number && number <= root->highest;
}

/* A number of a field, or UINT32_MAX where there is none: negative numbers are none. */
ALWAYS_INLINE static uint32_t take_number(struct reader *r, const struct root *root, uint32_t *loose)
{
    if (take(r, 1) == 0) {
        uint32_t number = root->lowest + take(r, root->width);
        return number <= root->highest ? number : UINT32_MAX;
    }
    unsigned octets = take(r, 8);
    if (octets < 1 || 4 < octets)
        return UINT32_MAX;
    uint32_t number = take(r, 8 * octets);
    if (number >> (8 * octets - 1) != 0)
        return UINT32_MAX;
    *loose |= inside(root, number) || (octets > 1 && number >> (8 * octets - 9) == 0);
    return number;
}

/* Each of these reads a duration from an input, and gives how many octets it takes: 0 where it does not look like one. */

ALWAYS_INLINE static size_t get_text(const uint8_t *text, size_t length, struct duration *d)
{
    return length > 0 && text[0] == 'P' && get_components(text + 1, text + length, d) ? length : 0;
}

ALWAYS_INLINE static size_t get_bits(const uint8_t *octets, size_t length, struct duration *d)
{
    struct reader r = {octets, octets + length, 0, 0, 0};
    uint32_t given = take(&r, 8);
    for (int place = YEARS; place < COMPONENTS; place++)
        if (given & (uint32_t)YEARS_BIT >> place) {
            uint32_t number = take_number(&r, ROOTS + place, &d->loose);
            if (number > LARGEST_NUMBER)
                return 0;
            add(d, place, number);
        }
    if (given & FRACTION_BIT) {
        d->digits = take_number(&r, &DIGITS_ROOT, &d->loose);
        if (d->digits < 1 || 9 < d->digits)
            return 0;
        d->fraction = take_number(&r, &FRACTION_ROOT, &d->loose);
        if (d->fraction >= POWERS[d->digits])
            return 0;
    }
    if (r.ended || !allowed(d))
        return 0;
    size_t taken = (size_t)(r.at - octets);
    d->loose |= (uint32_t)r.window & ((1U << r.held) - 1);
    d->bits = (uint32_t)(8 * taken) - r.held;
    return taken;
}

ALWAYS_INLINE static size_t get_element(const uint8_t *octets, size_t length, struct duration *d)
{
    if (length < 3 || octets[0] != 0x1F || octets[1] != 0x22 || 127 < octets[2] || length - 3 < octets[2])
        return 0;
    size_t taken = 3 + (size_t)octets[2];
    return get_components(octets + 3, octets + taken, d) ? taken : 0;
}

/* So many digits of a number. */
ALWAYS_INLINE static uint8_t *put_digits(uint8_t *to, uint32_t number, uint32_t count)
{
    for (uint32_t i = count; i > 0; i--) {
        to[i - 1] = (uint8_t)('0' + number % 10);
        number /= 10;
    }
    return to + count;
}

ALWAYS_INLINE static uint8_t *put_decimal(uint8_t *to, uint32_t number)
{
    uint32_t count = 1;
    while (count < 9 && number >= POWERS[count])
        count++;
    return put_digits(to, number, count);
}

/* Bits that become octets, from the first on. */
struct writer {
    uint8_t *to;
    uint64_t window;
    unsigned held;
};

ALWAYS_INLINE static void put(struct writer *w, uint32_t number, unsigned width)
{
    w->window = w->window << width | number;
    w->held += width;
    while (w->held >= 8) {
        w->held -= 8;
        *w->to++ = (uint8_t)(w->window >> w->held);
    }
}

ALWAYS_INLINE static void put_number(struct writer *w, const struct root *root, uint32_t number)
{
    if (inside(root, number)) {
        put(w, number - root->lowest, 1 + root->width);
        return;
    }
    unsigned octets = number < 0x80 ? 1 : number < 0x8000 ? 2 : number < 0x800000 ? 3 : 4;
    put(w, 0x100 | octets, 9);
    put(w, number, 8 * octets);
}

/* Each of these writes a duration, and gives how many octets that takes. */

ALWAYS_INLINE static size_t put_text(struct duration *d, uint8_t *room)
{
    uint8_t *to = room;
    uint32_t left = d->present;
    int behind = 0;
    *to++ = 'P';
    while (left != 0) {
        int place = __builtin_clz(left) - 24;
        left &= ~((uint32_t)YEARS_BIT >> place);
        if (place >= HOURS && !behind) {
            behind = 1;
            *to++ = 'T';
        }
        to = put_decimal(to, d->numbers[place]);
        if (left == 0 && d->digits != 0) {
            *to++ = '.';
            to = put_digits(to, d->fraction, d->digits);
        }
        *to++ = (uint8_t)"YMWDHMS"[place];
    }
    return (size_t)(to - room);
}

ALWAYS_INLINE static size_t put_bits(struct duration *d, uint8_t *room)
{
    struct writer w = {room, 0, 0};
    uint32_t left = d->present;
    put(&w, d->digits == 0 ? d->present : d->present | FRACTION_BIT, 8);
    while (left != 0) {
        int place = __builtin_clz(left) - 24;
        left &= ~((uint32_t)YEARS_BIT >> place);
        put_number(&w, ROOTS + place, d->numbers[place]);
    }
    if (d->digits != 0) {
        put_number(&w, &DIGITS_ROOT, d->digits);
        put_number(&w, &FRACTION_ROOT, d->fraction);
    }
    d->bits = (uint32_t)(8 * (w.to - room)) + w.held;
    if (w.held > 0)
        put(&w, 0, 8 - w.held);
    return (size_t)(w.to - room);
}

/* The length of the contents takes the place of the P. */
ALWAYS_INLINE static size_t put_element(struct duration *d, uint8_t *room)
{
    size_t length = put_text(d, room + 2) - 1;
    room[0] = 0x1F;
    room[1] = 0x22;
    room[2] = (uint8_t)length;
    return 3 + length;
}

/* What a duration is read from, whether that is decoding, and what is written, in at most how many octets. */
struct plain {
    size_t (*get)(const uint8_t *input, size_t length, struct duration *d);
    int decodes;
    size_t (*put)(struct duration *d, uint8_t *room);
    size_t longest;
};

ALWAYS_INLINE static struct anafzir_outcome refused(uint32_t number)
{
    return (struct anafzir_outcome){number, 0, 0};
}

/* The number of a refusal, or the result in the room; a room that may be too short is written last. */
ALWAYS_INLINE static struct anafzir_outcome code(struct plain how, const uint8_t *input, size_t length, uint8_t *room,
                                                 size_t room_length)
{
    struct duration d = {0};
    uint8_t apart[LONGEST_ELEMENT];
    size_t taken = how.get(input, length, &d);
    if (taken == 0)
        return refused(3);
    if (how.decodes && (d.loose != 0 || taken != length))
        return refused(6);
    uint8_t *to = room_length < how.longest ? apart : room;
    size_t size = how.put(&d, to);
    if (room_length < size)
        return refused(7);
    if (to == apart)
        memcpy(room, apart, size);
    return (struct anafzir_outcome){0, d.bits, size};
}

NEVER_INLINE static struct anafzir_outcome plain_per_encode(const uint8_t *text, size_t length, uint8_t *room, size_t room_length)
{
    const struct plain how = {get_text, 0, put_bits, LONGEST_BITS};
    return code(how, text, length, room, room_length);
}

NEVER_INLINE static struct anafzir_outcome plain_per_decode(const uint8_t *octets, size_t length, uint8_t *room, size_t room_length)
{
    const struct plain how = {get_bits, 1, put_text, LONGEST_TEXT};
    return code(how, octets, length, room, room_length);
}

NEVER_INLINE static struct anafzir_outcome plain_der_encode(const uint8_t *text, size_t length, uint8_t *room, size_t room_length)
{
    const struct plain how = {get_text, 0, put_element, LONGEST_ELEMENT};
    return code(how, text, length, room, room_length);
}

NEVER_INLINE static struct anafzir_outcome plain_der_decode(const uint8_t *octets, size_t length, uint8_t *room, size_t room_length)
{
    const struct plain how = {get_element, 1, put_text, LONGEST_TEXT};
    return code(how, octets, length, room, room_length);
}

#endif
