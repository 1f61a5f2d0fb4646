/* Years by #103 and by 28 bis of X.691 Amendment 2, and a value with other years than its own. The calendar repeats after 400 years,
 * and so a date exists in each year that is whole periods away from one where it does. */
#include "years.h"
#include "invariants.h"

#include <inttypes.h>
#include <stdio.h>
#include <stdlib.h>
#include <string.h>

const char *const YEAR_WORDS[YEAR_WORD_COUNT] = {
    "Basic", "Proleptic", "Negative", "L5", "L6", "L7", "L8", "L9",
    "L4", "L10", "L05", "L", "l6", "L-6", "L66", "6", "Large", "",
};

/* A year without its sign. */
static uint32_t size_of(int32_t year)
{
    return year < 0 ? 0 - (uint32_t)year : (uint32_t)year;
}

int setting_of(int32_t year)
{
    uint32_t size = size_of(year), end = 100000;
    int setting = L5;
    if (size < 10000)
        return year < 0 ? NEGATIVE : year < 1582 ? PROLEPTIC : BASIC;
    for (; setting < YEAR_COUNT && size >= end; setting++)
        end *= 10;
    return setting;
}

void put_year_text(char text[YEAR_TEXT], int32_t year)
{
    const char *sign = year < 0 ? "-" : year < 10000 ? "" : "+";
    snprintf(text, YEAR_TEXT, "%s%04" PRIu32, sign, size_of(year));
}

void put_bits(uint8_t *octets, size_t place, size_t count, uint32_t number)
{
    for (; count > 0; count--, place++) {
        unsigned shift = 7 - place % 8;
        octets[place / 8] = (uint8_t)((octets[place / 8] & ~(1u << shift)) | (number >> (count - 1) & 1) << shift);
    }
}

/* A length and the fewest octets of two's complement, from some bit on. Behind which bit it ends. */
static size_t put_free_integer(uint8_t *octets, size_t place, int32_t number)
{
    int64_t end = 128;
    size_t length = 1;
    for (; number < -end || end <= number; length++)
        end *= 256;
    put_bits(octets, place, 8, (uint32_t)length);
    put_bits(octets, place + 8, 8 * length, (uint32_t)number);
    return place + 8 + 8 * length;
}

/* A choice, and a year that is counted from some year on. Behind which bit it ends. */
static size_t put_near_year(uint8_t *octets, uint32_t choice, size_t count, int32_t from_first)
{
    put_bits(octets, 0, 2, choice);
    put_bits(octets, 2, count, (uint32_t)from_first);
    return 2 + count;
}

size_t put_year_bits(uint8_t *octets, int is_signed, int32_t year)
{
    if (is_signed)
        return put_free_integer(octets, 0, year);
    if (2005 <= year && year <= 2020)
        return put_near_year(octets, 0, 4, year - 2005);
    if (2021 <= year && year <= 2276)
        return put_near_year(octets, 1, 8, year - 2021);
    if (1749 <= year && year <= 2004)
        return put_near_year(octets, 2, 8, year - 1749);
    put_bits(octets, 0, 2, 3);
    return put_free_integer(octets, 2, year);
}

/* The lowest years of the Year settings, and the first that is beyond them; of the lengths of a free integer; and of the years that
 * are near in PER. */
static const int64_t BOUNDS[] = {
    INT32_MIN, -999999999, -99999999, -9999999, -999999, -99999, -9999, 0, 1582, 10000, 100000, 1000000, 10000000, 100000000,
    1000000000, INT32_MAX + INT64_C(1), -8388608, -32768, -128, 128, 32768, 8388608, 1749, 2005, 2021, 2277,
};

/* Each value is asked with so many of the years on both sides of a bound. */
enum { YEAR_PLACES = 2 * sizeof BOUNDS / sizeof *BOUNDS, SHARE = 4, STEP = YEAR_PLACES / SHARE };

/* A value with a date: its text behind the year, its octets with the first and the last bit behind its year in PER, and the Years that
 * its type names, by bits. */
struct dated {
    const struct question *q;
    const char *rest;
    const uint8_t *octets;
    size_t first, last;
    unsigned years;
};

/* What a value is asked with: another year, a text, octets, and behind which bit of these the year ends in PER. */
struct other {
    int32_t year;
    char text[2 * ANAFZIR_ROOM];
    uint8_t octets[2 * ANAFZIR_ROOM];
    size_t length, year_end;
};

/* The Years that a type names, by bits; a name stands for Basic. */
static unsigned named_years(const struct question *q)
{
    static char type[LONGEST + 1];
    unsigned years = 0;
    memcpy(type, q->type, q->type_length);
    type[q->type_length] = 0;
    for (const char *pair = strstr(type, "Year="); pair != NULL; pair = strstr(pair + 1, "Year=")) {
        size_t length = strcspn(pair + 5, " |");
        int i = 0;
        while (i < YEAR_COUNT && (strlen(YEAR_WORDS[i]) != length || memcmp(YEAR_WORDS[i], pair + 5, length) != 0))
            i++;
        must(i < YEAR_COUNT, "a type with values names Year settings alone");
        years |= 1u << i;
    }
    return years == 0 ? 1u << BASIC : years;
}

/* The octets of another year: in PER its bits before the others of the value, in DER a list's tag, a length and the text. */
static void put_octets(const struct dated *v, struct other *o)
{
    size_t length = strlen(o->text);
    if (!in_per(v->q->work)) {
        o->octets[0] = 0x0E;
        o->octets[1] = (uint8_t)length;
        memcpy(o->octets + 2, o->text, length);
        o->length = 2 + length;
        return;
    }
    o->year_end = put_year_bits(o->octets, v->years >> NEGATIVE != 0, o->year);
    for (size_t bit = v->first; bit < v->last; bit++)
        put_bits(o->octets, o->year_end + bit - v->first, 1, v->octets[bit / 8] >> (7 - bit % 8) & 1u);
    o->length = (o->year_end + v->last - v->first + 7) / 8;
}

/* Sees that an answer has a number, and with 0 these octets where there are any. */
static void must_be(const struct answer *a, uint32_t number, const void *octets, size_t length)
{
    static const char *const WHY[] = {
        "a year of the type's settings is taken", "limits have the number that they say", "", "a year that is not of the form is 3",
        "30 February is 4 in every year", "a year of no setting of the type is 5",
    };
    must(a->outcome.number == number && (number != 0 || octets == NULL || same_octets(a, octets, length)), WHY[number]);
}

/* The work that encodes as the question does, or whose octets it decodes. */
static enum work encoder(const struct question *q)
{
    return decodes(q->work) ? back_from(q->work) : q->work;
}

/* Asks with a text and with octets, of which each has its number; with 0 each is the result of the other. The octets of a name in DER
 * are other ones, and are not asked with. */
static void ask_both(const struct dated *v, const struct other *o, uint32_t of_text, uint32_t of_octets)
{
    size_t length = strlen(o->text);
    int listed = in_per(v->q->work) || v->octets[0] == 0x0E;
    struct answer a;
    next_step("another year in the text");
    ask_other(v->q, encoder(v->q), (const uint8_t *)o->text, length, &a);
    must_be(&a, of_text, listed ? o->octets : NULL, o->length);
    if (!listed)
        return;
    next_step("another year in the octets");
    ask_other(v->q, back_from(encoder(v->q)), o->octets, o->length, &a);
    must_be(&a, of_octets, o->text, length);
}

/* A text with a sign and digits that are no year; 1 comes before 3. */
static void ask_no_year(const struct dated *v, const char *sign, const char *digits, uint32_t limited)
{
    char text[2 * ANAFZIR_ROOM];
    struct answer a;
    size_t length = (size_t)snprintf(text, sizeof text, "%s%s%s", sign, digits, v->rest);
    next_step("no year in the text");
    ask_other(v->q, encoder(v->q), (const uint8_t *)text, length, &a);
    must_be(&a, limited == 1 ? 1 : 3, NULL, 0);
}

/* The same year with 30 February, where there are a month and a day: 4, before 5. */
static void ask_no_day(const struct dated *v, struct other *o, uint32_t of_text, uint32_t of_octets)
{
    char *rest = o->text + strlen(o->text) - strlen(v->rest);
    if (strlen(rest) < 6 || rest[0] != '-' || rest[3] != '-' || rest[1] == 'W')
        return;
    memcpy(rest, "-02-30", 6);
    put_octets(v, o);
    if (in_per(v->q->work))
        put_bits(o->octets, o->year_end, 9, 1 << 5 | 29);
    ask_both(v, o, of_text == 1 || of_text == 3 ? of_text : 4, of_octets == 1 || of_octets == 3 ? of_octets : 4);
}

/* A value with another year, and with texts near it. A year of more than nine digits is in octets of PER alone. */
static void check_year(const struct dated *v, int32_t year)
{
    struct other o = {year, {0}, {0}, 0, 0};
    char text[YEAR_TEXT];
    int setting = setting_of(year);
    put_year_text(text, year);
    snprintf(o.text, sizeof o.text, "%s%s", text, v->rest);
    put_octets(v, &o);
    uint32_t limited = limited_number(&v->q->limits, o.text), of_octets = limited, of_text;
    if (limited != 1 && (v->years >> setting & 1) == 0)
        of_octets = 5;
    of_text = limited != 1 && setting == YEAR_COUNT ? 3 : of_octets;
    if (!in_per(v->q->work))
        of_octets = of_text;
    ask_both(v, &o, of_text, of_octets);
    ask_no_day(v, &o, of_text, of_octets);
    const char *digits = text + (text[0] == '+' || text[0] == '-');
    ask_no_year(v, digits == text ? "0" : text[0] == '-' ? "-0" : "+0", digits, limited);
    ask_no_year(v, strlen(digits) == 4 ? "+" : "", digits, limited);
}

/* The year on this or on the other side of a bound that is whole periods of 400 years away from another one. */
static int64_t year_at(int64_t year, int64_t bound, int before)
{
    return bound + ((year - bound) % 400 + 400) % 400 - (before ? 400 : 0);
}

void check_years(const struct question *q, const struct answer *result, const char *text)
{
    size_t sign = *text == '+' || *text == '-', length = sign + strspn(text + sign, "0123456789"), turn = length;
    if (length < 4)
        return;
    struct dated v = {q, text + length, decodes(q->work) ? q->input : result->octets, 0, result->outcome.bits, named_years(q)};
    uint8_t octets[8] = {0};
    int64_t own = strtoll(text, NULL, 10);
    v.first = put_year_bits(octets, v.years >> NEGATIVE != 0, (int32_t)own);
    must(!in_per(q->work) || v.first <= v.last, "the octets have the whole year");
    for (const char *octet = text; *octet != 0; octet++)
        turn += (uint8_t)*octet;
    for (size_t i = turn % STEP; i < YEAR_PLACES; i += STEP) {
        int64_t year = year_at(own, BOUNDS[i / 2], i % 2);
        if (INT32_MIN <= year && year <= INT32_MAX)
            check_year(&v, (int32_t)year);
    }
}
