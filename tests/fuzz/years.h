/* What #103 says of years, for the drivers alone: the Year settings, which years each has, and how a year looks in a text and in
 * PER; and what follows from it for a value that the library has given. */
#ifndef YEARS_H
#define YEARS_H

#include "asking.h"

/* The Year settings. Those before NEGATIVE share rows of Table 2, and so do the others. */
enum { BASIC, PROLEPTIC, NEGATIVE, L5, L6, L7, L8, L9, YEAR_COUNT };

/* The words behind `Year=`: those of the settings, and then some that are none. */
enum { YEAR_WORD_COUNT = YEAR_COUNT + 10 };
extern const char *const YEAR_WORDS[YEAR_WORD_COUNT];

/* The most octets of a year's text, with a 0 behind it. */
enum { YEAR_TEXT = 16 };

/* The setting that a year is of; YEAR_COUNT where it is of none. */
int setting_of(int32_t year);

/* The canonical text of a year, which is of no form where it has more than nine digits. */
void put_year_text(char text[YEAR_TEXT], int32_t year);

/* Puts the lowest bits of a number into octets. */
void put_bits(uint8_t *octets, size_t place, size_t count, uint32_t number);

/* Puts a year into octets from their first bit on, as the rows of signed years or the others have it. How many bits it takes. */
size_t put_year_bits(uint8_t *octets, int is_signed, int32_t year);

/* Puts other years in place of that of a value with a date, which the type has without limits, and sees that texts and octets have
 * the numbers that its Years say. Takes the value's canonical text, and the answer that has it or its octets. */
void check_years(const struct question *q, const struct answer *result, const char *text);

#endif
