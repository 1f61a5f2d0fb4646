/* Well-formed types and good texts of them, chosen by octets, and damage to texts and octets. The library is not asked. */
#ifndef SAMPLES_H
#define SAMPLES_H

#include "years.h"

/* Octets that choices are made by, one after the other. Behind the last one all are 0. */
struct source {
    const uint8_t *octets;
    size_t length, place;
};

/* A text, or octets of any kind. */
enum { TEXT_CAPACITY = 8192 };

struct text {
    uint8_t octets[TEXT_CAPACITY];
    size_t length;
};

/* A type by its settings. */
enum basic { DATE, TIME, DATE_TIME, INTERVAL };

/* The most lists of a type. */
enum { MOST_LISTS = 6 };

struct settings {
    enum basic basic;
    /* Whether its name stands for it: only with the settings of a name. */
    int named;
    /* The Date setting, in its table; the Year of each list, and how many lists there are, one where there is no date. */
    int date, years[MOST_LISTS], lists;
    /* The fields of the time, how many digits the fraction has, and the Local-or-UTC setting. */
    int time, digits, zone;
    /* The order of the pairs. */
    uint32_t order;
};

/* Well-formed types, by number: names, times, dates and intervals first, and then date-times. Of the orders of pairs there is one,
 * and of the Years that lists can have together there are some. */
enum { NAME_COUNT = 4, YEARS_COUNT = 16, DATE_COUNT = 6 * YEARS_COUNT, TIME_COUNT = 90 };
enum { FEW_TYPES = NAME_COUNT + DATE_COUNT + TIME_COUNT + 1, TYPE_COUNT = FEW_TYPES + DATE_COUNT * TIME_COUNT };

/* Well-formed types of one list, by number: dates, times and intervals first, and then date-times. */
enum { DATE_LISTS = 6 * YEAR_COUNT, FEW_LISTS = DATE_LISTS + TIME_COUNT + 1, LIST_COUNT = FEW_LISTS + DATE_LISTS * TIME_COUNT };

/* A number below a bound that is not 0. */
uint32_t below(struct source *s, uint32_t bound);

/* The octets that are left, up to so many. */
void take_rest(struct source *s, size_t most, struct text *t);

/* The type of a number, and the list of a number, with its pairs in the usual order. */
struct settings settings_at(int number);
struct settings list_at(int number);

/* A well-formed type, and its Years anew: those of one row, each once, in any order. */
struct settings any_settings(struct source *s);
void any_years(struct source *s, struct settings *t);

/* The text of a type, and a good text under it. */
void put_type(const struct settings *t, struct text *out);
void put_value(const struct settings *t, struct source *s, struct text *out);

/* Lists with bars between them, each with the first of its Years, whether or not they make a type; and the number of such a type by
 * #103: 1, 2, or 0 where it is well-formed. */
void put_lists(const struct settings *lists, size_t count, struct text *out);
uint32_t number_of_lists(const struct settings *lists, size_t count);

/* Adds octets. */
void add(struct text *t, const char *octets, size_t length);

/* One small damage: a bit, an octet, a comma for a full stop, a digit, an octet more or less, two octets exchanged, or a cut. */
void damage(struct source *s, struct text *t);

/* Puts other digits for up to three of them. */
void change_digits(struct source *s, struct text *t);

#endif
