/* Types and texts by the grammar of X.680 Amendment 3, with a small calendar of their own. */
#include "samples.h"

#include <stdio.h>
#include <string.h>

static const char *const NAMES[NAME_COUNT] = {"DATE", "TIME-OF-DAY", "DATE-TIME", "DURATION"};
static const char *const BASICS[] = {"Date", "Time", "Date-Time", "Interval"};
static const char *const DATES[] = {"Y", "YM", "YMD", "YD", "YW", "YWD"};
static const char *const TIMES[] = {"H", "HM", "HMS"};
static const char *const ZONES[] = {"L", "Z", "LD"};

/* How many lists a type has, and their Years: each alone, and some that are together. */
static const struct {
    int lists, years[MOST_LISTS];
} YEARS_OF[YEARS_COUNT] = {
    {1, {BASIC}},
    {1, {PROLEPTIC}},
    {1, {NEGATIVE}},
    {1, {L5}},
    {1, {L6}},
    {1, {L7}},
    {1, {L8}},
    {1, {L9}},
    {2, {BASIC, PROLEPTIC}},
    {2, {PROLEPTIC, BASIC}},
    {2, {NEGATIVE, L5}},
    {2, {L9, NEGATIVE}},
    {3, {L8, L6, L7}},
    {5, {L5, L6, L7, L8, L9}},
    {6, {NEGATIVE, L5, L6, L7, L8, L9}},
    {6, {L8, L6, NEGATIVE, L9, L5, L7}},
};

/* A longest pair, and the most pairs of a list. */
enum { PAIR = 32, PAIRS = 5 };

/* Years at the ends of the Years and of the numbers that PER has for them. */
static const int32_t YEAR_ENDS[YEAR_COUNT][8] = {
    {1582, 9999, 2005, 2020, 2021, 2276, 1749, 2004},
    {0, 1581, 4, 100, 127, 128, 255, 256},
    {-9999, -1, -4, -128, -129, -400, -100, -8},
    {10000, 99999, -10000, -99999, 32767, 32768, -32768, -32769},
    {100000, 999999, -100000, -999999, 131072, -131072, 400000, -100100},
    {1000000, 9999999, -1000000, -9999999, 8388607, 8388608, -8388608, -8388609},
    {10000000, 99999999, -10000000, -99999999, 16777215, 16777216, -16777216, -16777217},
    {100000000, 999999999, -100000000, -999999999, 536870911, 536870912, -536870912, 999999600},
};

static const uint32_t NUMBER_ENDS[] = {
    0, 1, 15, 16, 31, 32, 63, 64, 127, 128, 255, 256, 32767, 32768, 8388607, 8388608, 100000000, 999999999,
};

enum { NUMBER_END_COUNT = sizeof NUMBER_ENDS / sizeof *NUMBER_ENDS };

static uint32_t next_octet(struct source *s)
{
    return s->place < s->length ? s->octets[s->place++] : 0;
}

uint32_t below(struct source *s, uint32_t bound)
{
    uint32_t number = next_octet(s);
    for (uint32_t reach = 0x100; reach != 0 && reach < bound; reach = reach << 8)
        number = number << 8 | next_octet(s);
    return number % bound;
}

void add(struct text *t, const char *octets, size_t length)
{
    if (length > TEXT_CAPACITY - t->length)
        length = TEXT_CAPACITY - t->length;
    if (length > 0)
        memcpy(t->octets + t->length, octets, length);
    t->length += length;
}

void take_rest(struct source *s, size_t most, struct text *t)
{
    size_t left = s->length - s->place;
    if (left > most)
        left = most;
    t->length = 0;
    if (left > 0)
        add(t, (const char *)s->octets + s->place, left);
    s->place += left;
}

static void add_text(struct text *t, const char *text)
{
    add(t, text, strlen(text));
}

/* A number in at least so many digits. */
static void add_number(struct text *t, int digits, uint32_t number)
{
    char text[16];
    size_t place = sizeof text;
    for (; place > 0 && (digits > 0 || number > 0); digits--, number /= 10)
        text[--place] = (char)('0' + number % 10);
    add(t, text + place, sizeof text - place);
}

static void set_date(struct settings *t, int number)
{
    t->date = number / YEARS_COUNT;
    t->lists = YEARS_OF[number % YEARS_COUNT].lists;
    memcpy(t->years, YEARS_OF[number % YEARS_COUNT].years, sizeof t->years);
}

static void set_time(struct settings *t, int number)
{
    t->time = number / 30;
    t->digits = number / 3 % 10;
    t->zone = number % 3;
}

static struct settings settings_of_name(int number)
{
    struct settings t = {(enum basic)number, 1, 2, {BASIC}, 1, 2, 0, 0, 0};
    return t;
}

struct settings settings_at(int number)
{
    struct settings t = {INTERVAL, 0, 0, {BASIC}, 1, 0, 0, 0, 0};
    if (number < NAME_COUNT)
        return settings_of_name(number);
    number -= NAME_COUNT;
    if (number < TIME_COUNT) {
        t.basic = TIME;
        set_time(&t, number);
    } else if (number < TIME_COUNT + DATE_COUNT) {
        t.basic = DATE;
        set_date(&t, number - TIME_COUNT);
    } else if (number > TIME_COUNT + DATE_COUNT) {
        number -= TIME_COUNT + DATE_COUNT + 1;
        t.basic = DATE_TIME;
        set_date(&t, number % DATE_COUNT);
        set_time(&t, number / DATE_COUNT);
    }
    return t;
}

/* The number of a type of dates that has one list, the first ones of which are the Years alone. */
static int date_of_list(int number)
{
    return number / YEAR_COUNT * YEARS_COUNT + number % YEAR_COUNT;
}

struct settings list_at(int number)
{
    if (number < DATE_LISTS)
        return settings_at(NAME_COUNT + TIME_COUNT + date_of_list(number));
    if (number < FEW_LISTS - 1)
        return settings_at(NAME_COUNT + number - DATE_LISTS);
    if (number == FEW_LISTS - 1)
        return settings_at(FEW_TYPES - 1);
    number -= FEW_LISTS;
    return settings_at(FEW_TYPES + number / DATE_LISTS * DATE_COUNT + date_of_list(number % DATE_LISTS));
}

void any_years(struct source *s, struct settings *t)
{
    int left[MOST_LISTS], plain = below(s, 2) == 0, count = plain ? 2 : MOST_LISTS;
    for (int i = 0; i < count; i++)
        left[i] = (plain ? BASIC : NEGATIVE) + i;
    t->lists = below(s, 2) == 0 ? 1 : 1 + (int)below(s, (uint32_t)count);
    for (int i = 0; i < t->lists; i++) {
        uint32_t chosen = below(s, (uint32_t)(count - i));
        t->years[i] = left[chosen];
        left[chosen] = left[count - i - 1];
    }
}

struct settings any_settings(struct source *s)
{
    uint32_t kind = below(s, 8);
    if (kind < 2)
        return settings_of_name((int)below(s, NAME_COUNT));
    struct settings t = {(enum basic)(kind - 2), 0, 0, {BASIC}, 1, 0, 0, 0, 0};
    if (kind > 5)
        t.basic = kind == 6 ? DATE_TIME : INTERVAL;
    t.date = (int)below(s, 6);
    any_years(s, &t);
    set_time(&t, (int)below(s, TIME_COUNT));
    t.order = below(s, 120);
    return t;
}

static int has_date(const struct settings *t)
{
    return t->basic == DATE || t->basic == DATE_TIME;
}

static int has_time(const struct settings *t)
{
    return t->basic == TIME || t->basic == DATE_TIME;
}

/* The pairs of a list, in the usual order. How many there are. */
static size_t make_pairs(const struct settings *t, int year, char pairs[PAIRS][PAIR])
{
    size_t count = 0;
    snprintf(pairs[count++], PAIR, "Basic=%s", BASICS[t->basic]);
    if (has_date(t)) {
        snprintf(pairs[count++], PAIR, "Date=%s", DATES[t->date]);
        snprintf(pairs[count++], PAIR, "Year=%s", YEAR_WORDS[year]);
    }
    if (has_time(t)) {
        if (t->digits == 0)
            snprintf(pairs[count++], PAIR, "Time=%s", TIMES[t->time]);
        else
            snprintf(pairs[count++], PAIR, "Time=%sF%d", TIMES[t->time], t->digits);
        snprintf(pairs[count++], PAIR, "Local-or-UTC=%s", ZONES[t->zone]);
    }
    if (t->basic == INTERVAL)
        snprintf(pairs[count++], PAIR, "Interval-type=D");
    return count;
}

/* A list with its pairs in the order of the settings. */
static void add_list(const struct settings *t, int year, struct text *out)
{
    char pairs[PAIRS][PAIR];
    uint32_t order = t->order;
    for (size_t left = make_pairs(t, year, pairs); left > 0; left--) {
        size_t chosen = order % left;
        order /= (uint32_t)left;
        add_text(out, pairs[chosen]);
        add_text(out, left > 1 ? " " : "");
        memmove(pairs + chosen, pairs + chosen + 1, (left - chosen - 1) * sizeof *pairs);
    }
}

void put_type(const struct settings *t, struct text *out)
{
    out->length = 0;
    if (t->named) {
        add_text(out, NAMES[t->basic]);
        return;
    }
    add_list(t, t->years[0], out);
    for (int i = 1; i < (has_date(t) ? t->lists : 1); i++) {
        add_text(out, "|");
        add_list(t, t->years[i], out);
    }
}

void put_lists(const struct settings *lists, size_t count, struct text *out)
{
    out->length = 0;
    for (size_t i = 0; i < count; i++) {
        add_text(out, i > 0 ? "|" : "");
        if (lists[i].named)
            add_text(out, NAMES[lists[i].basic]);
        else
            add_list(lists + i, lists[i].years[0], out);
    }
}

/* Whether two lists differ in nothing but Year. */
static int differ_in_year(const struct settings *a, const struct settings *b)
{
    if (a->basic != b->basic || (has_date(a) && a->date != b->date))
        return 0;
    return !has_time(a) || (a->time == b->time && a->digits == b->digits && a->zone == b->zone);
}

/* Whether a list can be read, beside others or alone. */
static int is_list(const struct settings *t, int alone)
{
    return t->named ? alone : !has_date(t) || t->years[0] < YEAR_COUNT;
}

uint32_t number_of_lists(const struct settings *lists, size_t count)
{
    uint32_t number = count > MOST_LISTS ? 1 : 0;
    for (size_t i = 0; i < count; i++) {
        if (!is_list(lists + i, count == 1))
            number = 1;
        for (size_t j = 0; j < i; j++) {
            int alike = differ_in_year(lists + i, lists + j), first = lists[i].years[0], second = lists[j].years[0];
            if (alike && (!has_date(lists + i) || first == second))
                number = 1;
            else if (number == 0 && (!alike || (first < NEGATIVE) != (second < NEGATIVE)))
                number = 2;
        }
    }
    return number;
}

/* The rules repeat after 400 years, so that a year is looked at between 0 and 399. */
static uint32_t in_cycle(int32_t year)
{
    return (uint32_t)((year % 400 + 400) % 400);
}

static int is_leap(int32_t year)
{
    uint32_t y = in_cycle(year);
    return y % 4 == 0 && (y % 100 != 0 || y == 0);
}

static uint32_t month_length(int32_t year, uint32_t month)
{
    static const uint32_t LENGTHS[] = {31, 28, 31, 30, 31, 30, 31, 31, 30, 31, 30, 31};
    return LENGTHS[month - 1] + (month == 2 && is_leap(year));
}

/* The weekday of 31 December, Sunday as 0. */
static uint32_t last_weekday(int32_t year)
{
    uint32_t y = in_cycle(year);
    return (y + y / 4 - y / 100) % 7;
}

/* A year has 53 weeks where it ends on a Thursday or starts on one. */
static uint32_t week_count(int32_t year)
{
    return last_weekday(year) == 4 || last_weekday(year - 1) == 3 ? 53 : 52;
}

static uint32_t ten_to_the(int digits)
{
    uint32_t power = 1;
    for (int i = 0; i < digits; i++)
        power *= 10;
    return power;
}

static int32_t any_year(struct source *s, int setting)
{
    if (below(s, 4) == 0)
        return YEAR_ENDS[setting][below(s, 8)];
    if (setting == BASIC)
        return below(s, 2) == 0 ? 1990 + (int32_t)below(s, 40) : 1582 + (int32_t)below(s, 8418);
    if (setting == PROLEPTIC)
        return (int32_t)below(s, 1582);
    if (setting == NEGATIVE)
        return -1 - (int32_t)below(s, 9999);
    uint32_t lowest = ten_to_the(4 + setting - L5);
    int32_t year = (int32_t)(lowest + below(s, 9 * lowest));
    return below(s, 2) == 0 ? year : -year;
}

static void add_week(struct text *out, struct source *s, int32_t year)
{
    add_text(out, "-W");
    add_number(out, 2, below(s, 4) == 0 ? week_count(year) : 1 + below(s, 52));
}

static void add_month(struct text *out, struct source *s, int32_t year, int with_day)
{
    uint32_t month = 1 + below(s, 12);
    uint32_t length = month_length(year, month);
    add_text(out, "-");
    add_number(out, 2, month);
    if (!with_day)
        return;
    add_text(out, "-");
    add_number(out, 2, below(s, 4) == 0 ? length : 1 + below(s, length));
}

static void add_ordinal_day(struct text *out, struct source *s, int32_t year)
{
    uint32_t length = is_leap(year) ? 366 : 365;
    add_text(out, "-");
    add_number(out, 3, below(s, 4) == 0 ? length : 1 + below(s, length));
}

static void add_date(const struct settings *t, struct source *s, struct text *out)
{
    char text[YEAR_TEXT];
    int32_t year = any_year(s, t->years[below(s, (uint32_t)t->lists)]);
    put_year_text(text, year);
    add_text(out, text);
    switch (t->date) {
    case 1:
    case 2:
        add_month(out, s, year, t->date == 2);
        break;
    case 3:
        add_ordinal_day(out, s, year);
        break;
    case 4:
        add_week(out, s, year);
        break;
    case 5:
        add_week(out, s, year);
        add_text(out, "-");
        add_number(out, 1, 1 + below(s, 7));
        break;
    default:
        break;
    }
}

/* A number of at most so many digits. */
static uint32_t any_number(struct source *s, int digits)
{
    uint32_t bound = ten_to_the(digits);
    uint32_t end = NUMBER_ENDS[below(s, NUMBER_END_COUNT)];
    switch (below(s, 4)) {
    case 0:
        return end % bound;
    case 1:
        return below(s, digits < 4 ? bound : 2000);
    case 2:
        return bound - 1 - below(s, digits < 2 ? 2 : 10);
    default:
        return below(s, bound);
    }
}

/* A mark and so many digits. */
static void add_fraction(struct text *out, struct source *s, int digits, int zero)
{
    if (digits == 0)
        return;
    add_text(out, below(s, 2) == 0 ? "." : ",");
    add_number(out, digits, zero ? 0 : any_number(s, digits));
}

/* A difference to UTC, and whether its minutes stand in the text, which they need not where they are 0. */
struct difference {
    int negative, with_minutes;
    uint32_t hours, minutes;
};

static struct difference any_difference(struct source *s)
{
    struct difference d = {below(s, 2) == 1, 0, 0, 0};
    d.hours = d.negative ? 1 + below(s, 15) : below(s, 16);
    d.with_minutes = below(s, 2) == 1;
    if (d.with_minutes && below(s, 4) > 0)
        d.minutes = below(s, 60);
    return d;
}

static void add_difference(struct text *out, const struct difference *d)
{
    add_text(out, d->negative ? "-" : "+");
    add_number(out, 2, d->hours);
    if (!d->with_minutes)
        return;
    add_text(out, ":");
    add_number(out, 2, d->minutes);
}

/* The minute of the local day that has second 60 (#102): it is 23:59 in UTC, and later or earlier here by the difference. */
static uint32_t leap_minute(const struct difference *d)
{
    enum { DAY = 24 * 60 };
    uint32_t minutes = d->hours * 60 + d->minutes;
    return (DAY - 1 + (d->negative ? DAY - minutes : minutes)) % DAY;
}

/* Hours, minutes and seconds: the end of the day, second 60 where it can be, or another time. */
static void any_clock(const struct settings *t, struct source *s, const struct difference *d, uint32_t clock[3])
{
    uint32_t kind = below(s, 8), minute = below(s, 24 * 60);
    if (kind == 6 && t->zone > 0)
        minute = leap_minute(d);
    clock[0] = kind == 7 ? 24 : minute / 60;
    clock[1] = kind == 7 ? 0 : minute % 60;
    clock[2] = kind == 7 ? 0 : kind == 6 ? 60 : below(s, 60);
}

static void add_time(const struct settings *t, struct source *s, struct text *out)
{
    struct difference d = {0, 0, 0, 0};
    uint32_t clock[3];
    if (t->zone == 2)
        d = any_difference(s);
    any_clock(t, s, &d, clock);
    for (int field = 0; field <= t->time; field++) {
        add_text(out, field > 0 ? ":" : "");
        add_number(out, 2, clock[field]);
    }
    add_fraction(out, s, t->digits, clock[0] == 24);
    if (t->zone == 1)
        add_text(out, "Z");
    if (t->zone == 2)
        add_difference(out, &d);
}

static void add_component(struct text *out, struct source *s, const char *letter)
{
    add_number(out, 1, below(s, 4) == 0 ? 0 : any_number(s, 9));
    add(out, letter, 1);
}

/* A fraction before the last letter. */
static void add_last_fraction(struct text *out, struct source *s)
{
    char letter = (char)out->octets[out->length - 1];
    out->length--;
    add_fraction(out, s, 1 + (int)below(s, 9), 0);
    add(out, &letter, 1);
}

static void add_duration(struct source *s, struct text *out)
{
    static const char LETTERS[] = "YMDHMS";
    uint32_t present = below(s, 64);
    add_text(out, "P");
    if (present == 0)
        add_component(out, s, "W");
    for (int i = 0; i < 6; i++) {
        if (i == 3 && present >> 3 != 0)
            add_text(out, "T");
        if ((present >> i & 1) != 0)
            add_component(out, s, LETTERS + i);
    }
    if (below(s, 2) == 1)
        add_last_fraction(out, s);
}

void put_value(const struct settings *t, struct source *s, struct text *out)
{
    out->length = 0;
    if (t->basic == INTERVAL)
        add_duration(s, out);
    if (has_date(t))
        add_date(t, s, out);
    if (t->basic == DATE_TIME)
        add_text(out, "T");
    if (has_time(t))
        add_time(t, s, out);
}

/* An octet that texts and types are made of, the 0 behind a string, or any other. */
static char any_octet(struct source *s)
{
    static const char USUAL[] = "0123456789-+:.,TZWPYMDHS =|FL\n";
    return below(s, 4) == 0 ? (char)below(s, 256) : USUAL[below(s, sizeof USUAL)];
}

static void remove_octet(struct text *t, size_t place)
{
    memmove(t->octets + place, t->octets + place + 1, t->length - place - 1);
    t->length--;
}

static void insert_octet(struct text *t, size_t place, char octet)
{
    if (t->length == TEXT_CAPACITY)
        return;
    memmove(t->octets + place + 1, t->octets + place, t->length - place);
    t->octets[place] = (uint8_t)octet;
    t->length++;
}

/* Puts another digit for the first one from a place on. */
static void change_digit(struct source *s, struct text *t, size_t place)
{
    while (place < t->length && (t->octets[place] < '0' || '9' < t->octets[place]))
        place++;
    if (place < t->length)
        t->octets[place] = (uint8_t)('0' + below(s, 10));
}

void change_digits(struct source *s, struct text *t)
{
    for (uint32_t count = 1 + below(s, 3); count > 0; count--)
        change_digit(s, t, t->length == 0 ? 0 : below(s, (uint32_t)t->length));
}

static void exchange(struct text *t, size_t first, size_t second)
{
    uint8_t octet = t->octets[first];
    t->octets[first] = t->octets[second];
    t->octets[second] = octet;
}

void damage(struct source *s, struct text *t)
{
    uint32_t kind = below(s, 8);
    char octet = any_octet(s);
    if (kind == 0 || t->length == 0) {
        add(t, &octet, 1);
        return;
    }
    size_t place = below(s, (uint32_t)t->length);
    switch (kind) {
    case 1:
        t->octets[place] ^= (uint8_t)(1u << below(s, 8));
        break;
    case 2:
        t->length = place;
        break;
    case 3:
        exchange(t, place, below(s, (uint32_t)t->length));
        break;
    case 4:
        t->octets[place] = t->octets[place] == '.' ? ',' : (uint8_t)octet;
        break;
    case 5:
        remove_octet(t, place);
        break;
    case 6:
        insert_octet(t, place, octet);
        break;
    default:
        change_digit(s, t, place);
        break;
    }
}
