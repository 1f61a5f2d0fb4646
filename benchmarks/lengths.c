/* The archive's entry points on values of several lengths: nanoseconds a call, the best of several rounds. archives.py compares
 * two archives by it, of which an older one refuses some of the values. docs/BENCHMARKS.md has the commands and the figures. */
#include <stdint.h>
#include <stdio.h>
#include <string.h>
#include <time.h>

#include "anafzir.h"

#ifndef ROUNDS
#define ROUNDS 25
#endif

enum { CALLS = 20000, ROOM = 136 };

#define YMD(year) "Basic=Date Date=YMD Year=" year

static const char *const VALUES[][2] = {
    {"DATE-TIME", "2006-06-13T15:27:46"},
    {"DATE", "1748-12-31"},
    {"Basic=Time Time=HMSF9 Local-or-UTC=LD", "15:27:46.123456789+05:30"},
    {"Basic=Date-Time Date=YMD Year=L5 Time=HMSF3 Local-or-UTC=LD", "+32768-12-31T23:59:59.999+01"},
    {"Basic=Date-Time Date=YMD Year=Basic Time=HMSF9 Local-or-UTC=LD", "1748-12-31T23:59:59.999999999-09:30"},
    {YMD("Negative") "|" YMD("L5"), "-0044-03-15"},
    {YMD("Negative") "|" YMD("L5") "|" YMD("L6") "|" YMD("L7") "|" YMD("L8") "|" YMD("L9"), "+12006-06-13"},
    {"Basic=Date-Time Date=YMD Year=L9 Time=HMS Local-or-UTC=Z", "-251902000-12-31T23:59:59Z"},
};

static uint64_t sum;

static double now(void)
{
    struct timespec t;
    clock_gettime(CLOCK_MONOTONIC, &t);
    return (double)t.tv_sec * 1e9 + (double)t.tv_nsec;
}

typedef struct anafzir_outcome entry(const uint8_t *, size_t, struct anafzir_limits, const uint8_t *, size_t, uint8_t *, size_t);

/* The best time of a call of `function` on an input. */
static double best(entry *function, const char *type, const uint8_t *input, size_t length)
{
    const struct anafzir_limits none = {0};
    uint8_t room[ROOM];
    double least = 1e18;
    for (int round = 0; round < ROUNDS; round++) {
        double from = now();
        for (int i = 0; i < CALLS; i++)
            sum += function((const uint8_t *)type, strlen(type), none, input, length, room, sizeof room).length;
        double each = (now() - from) / CALLS;
        least = each < least ? each : least;
    }
    return least;
}

/* Prints the times of encoding a value and of decoding what it became, or that it is refused. */
static void timed(const char *name, entry *encode, entry *decode, const char *type, const char *text)
{
    const struct anafzir_limits none = {0};
    uint8_t octets[ROOM];
    struct anafzir_outcome o = encode((const uint8_t *)type, strlen(type), none, (const uint8_t *)text, strlen(text), octets, ROOM);
    if (o.number != 0) {
        printf("%s: refused, %u   %s\n", name, (unsigned)o.number, text);
        return;
    }
    printf("%s of %2zu octets: encoding %5.1f ns, decoding %5.1f ns   %s\n", name, (size_t)o.length,
           best(encode, type, (const uint8_t *)text, strlen(text)), best(decode, type, octets, o.length), text);
}

int main(void)
{
    for (size_t k = 0; k < sizeof VALUES / sizeof *VALUES; k++) {
        const char *const *value = VALUES[k];
        timed("PER", anafzir_per_encode, anafzir_per_decode, value[0], value[1]);
        timed("DER", anafzir_der_encode, anafzir_der_decode, value[0], value[1]);
    }
    return sum == 0;
}
