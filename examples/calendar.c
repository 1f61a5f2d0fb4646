/* Says of each year given how many days and weeks it has, and how long its February is. */
#include <inttypes.h>
#include <stdio.h>
#include <stdlib.h>

#include "anafzir_calendar.h"

int main(int count, char **words)
{
    for (int i = 1; i < count; i++) {
        int32_t year = (int32_t)strtol(words[i], NULL, 10);
        printf("%" PRId32 ": %s, %" PRIu32 " days, %" PRIu32 " weeks, February %" PRIu32 "\n", year,
               anafzir_leap_year(year) ? "leap" : "common", anafzir_year_length(year),
               anafzir_weeks_in_year(year), anafzir_month_length(year, 2));
    }
    return 0;
}
