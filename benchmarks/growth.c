/* How the time of a call grows with a text and with a type's text, which are looked at to their end: nanoseconds an octet at
 * 500 octets and at 5,000, the best of several rounds. docs/BENCHMARKS.md has the command and the figures. */
#include <stdint.h>
#include <stdio.h>
#include <string.h>
#include <time.h>

#include "anafzir.h"

enum { ROUNDS = 100, OCTETS = 2000000, LONGEST = 5000, ROOM = 136 };

static uint64_t sum;

static double now(void)
{
    struct timespec t;
    clock_gettime(CLOCK_MONOTONIC, &t);
    return (double)t.tv_sec * 1e9 + (double)t.tv_nsec;
}

/* The best time of an octet, where so many of them lie in each call's type and text. */
static double best(const uint8_t *type, size_t type_length, const uint8_t *text, size_t text_length, size_t octets)
{
    const struct anafzir_limits none = {0};
    const size_t calls = OCTETS / octets;
    uint8_t room[ROOM];
    double least = 1e18;
    for (int round = 0; round < ROUNDS; round++) {
        double from = now();
        for (size_t i = 0; i < calls; i++)
            sum += anafzir_per_encode(type, type_length, none, text, text_length, room, sizeof room).number;
        double each = (now() - from) / (double)(calls * octets);
        least = each < least ? each : least;
    }
    return least;
}

/* So many octets of a pattern, again and again. */
static void fill(uint8_t *octets, size_t length, const char *pattern)
{
    for (size_t i = 0; i < length; i++)
        octets[i] = (uint8_t)pattern[i % strlen(pattern)];
}

/* One row: a type's text of a pattern, or else a sign and a year of a pattern under DATE. */
static void grows(const char *name, const char *pattern, int is_type)
{
    static const uint8_t type[] = "DATE", text[] = "2006-06-13";
    static const size_t lengths[] = {500, LONGEST};
    uint8_t octets[LONGEST];
    printf("%s:", name);
    for (int i = 0; i < 2; i++) {
        size_t length = lengths[i];
        fill(octets, length, pattern);
        if (!is_type)
            octets[0] = '+';
        double each = is_type ? best(octets, length, text, 10, length) : best(type, 4, octets, length, length);
        printf(" %.2f ns an octet at %zu octets%s", each, length, i == 0 ? "," : "\n");
    }
}

int main(void)
{
    grows("a year of digits alone", "9", 0);
    grows("a type's text of repeated pairs", "Date=YMD ", 1);
    grows("a type's text of one long word", "Basic", 1);
    grows("a type's text of repeated lists", "Basic=Date Date=Y Year=L9|", 1);
    return sum == 0;
}
