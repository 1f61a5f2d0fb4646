/* The Gregorian calendar, for every 32-bit year.
 *
 * Years are astronomical: 0 is the year 0000, -1 the year -0001. The Gregorian rule
 * holds for all of them, negative years and 0000 too. Each function takes any year and
 * any month number, always returns, keeps no state and touches no memory of the caller.
 *
 * Link with libanafzir, or with libcalendar.a alone, which `make build/libcalendar.a` writes.
 */
#ifndef ANAFZIR_CALENDAR_H
#define ANAFZIR_CALENDAR_H

#include <stdint.h>

#ifdef __cplusplus
extern "C" {
#endif

/* 1 for a leap year, 0 for a common year. */
uint32_t anafzir_leap_year(int32_t year);

/* The days of month 1 (January) to 12 (December) of the year;
 * 0 where there is no such month: 0, 13, 257 or any other number. */
uint32_t anafzir_month_length(int32_t year, uint32_t month);

/* The days of the year, 365 or 366. */
uint32_t anafzir_year_length(int32_t year);

/* The weeks of the year, 52 or 53. Week 01 contains 4 January;
 * weeks run from Monday to Sunday. */
uint32_t anafzir_weeks_in_year(int32_t year);

#ifdef __cplusplus
}
#endif

#endif
