/* Prints what the archive says of every year from -3000 to 3000 and of the ends of 32 bits,
 * in the layout of reference/calendar_years.py, for months that exist and that do not. */
#include <inttypes.h>
#include <stdio.h>

#include "anafzir_calendar.h"

static const uint32_t months[] = {
    0, 1, 2, 3, 4, 5, 6, 7, 8, 9, 10, 11, 12, 13, 14,
    255, 256, 257, 268, UINT32_C(2147483648), UINT32_MAX,
};

static void print_year(int32_t year)
{
    printf("%" PRId32 " %" PRIu32 " %" PRIu32 " %" PRIu32, year, anafzir_leap_year(year),
           anafzir_year_length(year), anafzir_weeks_in_year(year));
    for (size_t i = 0; i < sizeof months / sizeof *months; i++)
        printf(" %" PRIu32, anafzir_month_length(year, months[i]));
    putchar('\n');
}

int main(void)
{
    for (int32_t year = -3000; year <= 3000; year++)
        print_year(year);
    for (int32_t back = 0; back < 3; back++)
        print_year(INT32_MIN + back);
    for (int32_t back = 2; back >= 0; back--)
        print_year(INT32_MAX - back);
    return 0;
}
