/* The archive's calendar beside a plain C one, in one run: nanoseconds a call, and the ratio.
 * Years run from -5000 to 4999. docs/BENCHMARKS.md has the command and the figures. */
#include <stdint.h>
#include <stdio.h>
#include <time.h>

#include "anafzir_calendar.h"

#define NEVER_INLINE __attribute__((noinline))

/* The peer: the same rules in plain C over 64-bit years, called like the archive's functions. */
static int64_t floor_divide(int64_t a, int64_t d)
{
    return a >= 0 ? a / d : -((-a + d - 1) / d);
}

NEVER_INLINE uint32_t plain_leap_year(int32_t year)
{
    return (year % 4 == 0 && year % 100 != 0) || year % 400 == 0;
}

NEVER_INLINE uint32_t plain_month_length(int32_t year, uint32_t month)
{
    static const uint8_t lengths[2][12] = {
        {31, 28, 31, 30, 31, 30, 31, 31, 30, 31, 30, 31},
        {31, 29, 31, 30, 31, 30, 31, 31, 30, 31, 30, 31},
    };
    return month < 1 || month > 12 ? 0 : lengths[plain_leap_year(year)][month - 1];
}

static int64_t week_one(int64_t year)
{
    int64_t last = year - 1;
    int64_t new_year = 365 * last + floor_divide(last, 4) - floor_divide(last, 100) + floor_divide(last, 400);
    return floor_divide(new_year + 3, 7);
}

NEVER_INLINE uint32_t plain_weeks_in_year(int32_t year)
{
    return (uint32_t)(week_one((int64_t)year + 1) - week_one(year));
}

static uint64_t sum;

#define NANOSECONDS(call)                                                                     \
    ({                                                                                        \
        struct timespec from, to;                                                             \
        clock_gettime(CLOCK_MONOTONIC, &from);                                                \
        for (int turn = 0; turn < 500; turn++)                                               \
            for (int32_t year = -5000; year < 5000; year++)                                   \
                sum += (call);                                                                \
        clock_gettime(CLOCK_MONOTONIC, &to);                                                  \
        ((to.tv_sec - from.tv_sec) * 1e9 + (to.tv_nsec - from.tv_nsec)) / (500.0 * 10000.0); \
    })

/* The best of several rounds, in which the two take turns. */
#define COMPARE(name, archive_call, plain_call)                                                       \
    do {                                                                                              \
        double archive = 1e9, plain = 1e9;                                                            \
        for (int round = 0; round < 9; round++) {                                                     \
            double a = NANOSECONDS(archive_call), p = NANOSECONDS(plain_call);                        \
            archive = a < archive ? a : archive;                                                      \
            plain = p < plain ? p : plain;                                                            \
        }                                                                                             \
        printf("%-14s archive %5.2f ns   plain C %5.2f ns   ratio %.2f\n", name, archive, plain,      \
               archive / plain);                                                                      \
    } while (0)

int main(void)
{
    COMPARE("leap_year", anafzir_leap_year(year), plain_leap_year(year));
    COMPARE("month_length", anafzir_month_length(year, (uint32_t)year % 16),
            plain_month_length(year, (uint32_t)year % 16));
    COMPARE("weeks_in_year", anafzir_weeks_in_year(year), plain_weeks_in_year(year));
    return sum == 0;
}
