/* Libraries that are wrong about years and lists (#103). They ask the right one about other lists, years and octets, and about two
 * lists at a time. */
#include "faults.h"
#include "years.h"

#include <stdlib.h>
#include <string.h>

/* The most lists that are told apart, and the most octets of a type that is made of them. */
enum { LISTS = 8, TYPE = 1024 };

struct list {
    const uint8_t *start;
    size_t length;
};

/* The lists of a call's type; how many there are, or LISTS where there are too many. */
static int split(const struct call *c, struct list lists[LISTS])
{
    int count = 0;
    for (size_t from = 0, i = 0; i <= c->type_length && count < LISTS; i++)
        if (i == c->type_length || c->type[i] == '|') {
            lists[count++] = (struct list){c->type + from, i - from};
            from = i + 1;
        }
    return count;
}

/* The number of a call, without a look at its room. */
static uint32_t number(const struct call *c)
{
    uint8_t octets[ANAFZIR_ROOM];
    return real_aside(*c, octets).number;
}

/* Its number without limits. */
static uint32_t number_without_limits(struct call c)
{
    memset(&c.limits, 0, sizeof c.limits);
    return number(&c);
}

/* The call under a type of those lists that are kept. */
static outcome real_under(struct call c, const struct list *lists, int count, unsigned kept)
{
    uint8_t type[TYPE];
    size_t length = 0;
    for (int i = 0; i < count; i++) {
        if ((kept >> i & 1) == 0 || length + 1 + lists[i].length > TYPE)
            continue;
        if (length > 0)
            type[length++] = '|';
        memcpy(type + length, lists[i].start, lists[i].length);
        length += lists[i].length;
    }
    c.type = type;
    c.type_length = length;
    return real(&c);
}

/* The number of two of the lists, or of one: 1, 2, or 0 for a type. */
static uint32_t number_of(struct call c, const struct list *lists, int first, int second)
{
    uint8_t octets[ANAFZIR_ROOM];
    memset(&c.limits, 0, sizeof c.limits);
    c.room = octets;
    c.room_length = sizeof octets;
    uint32_t found = real_under(c, lists, LISTS, 1u << first | 1u << second).number;
    return found == 1 || found == 2 ? found : 0;
}

/* Whether all lists can be read. */
static int all_readable(const struct call *c, const struct list *lists, int count)
{
    for (int i = 0; i < count; i++)
        if (number_of(*c, lists, i, i) == 1)
            return 0;
    return 1;
}

/* Up to six lists, each of which is compared with some of those before it alone: the others that are equal are left out. */
static outcome compared(struct call *c, int (*is_compared)(int, int))
{
    struct list lists[LISTS] = {{NULL, 0}};
    int count = split(c, lists);
    unsigned kept = 0;
    if (count < 3 || count > 6 || c->type_length > TYPE || !all_readable(c, lists, count))
        return real(c);
    for (int i = 0; i < count; i++) {
        int left_out = 0;
        for (int k = 0; k < i; k++)
            left_out |= !is_compared(k, i) && number_of(*c, lists, k, i) == 1;
        kept |= (left_out ? 0u : 1u) << i;
    }
    return real_under(*c, lists, count, kept);
}

static int is_before(int k, int i)
{
    return k + 1 == i;
}

static int is_first(int k, int i)
{
    (void)i;
    return k == 0;
}

outcome neighbours_compared(struct call *c)
{
    return compared(c, is_before);
}

outcome first_compared(struct call *c)
{
    return compared(c, is_first);
}

outcome seventh_list_ignored(struct call *c)
{
    struct list lists[LISTS] = {{NULL, 0}};
    int count = split(c, lists);
    return count == 7 && c->type_length <= TYPE ? real_under(*c, lists, 6, 0x3F) : real(c);
}

outcome last_list_ignored(struct call *c)
{
    struct list lists[LISTS] = {{NULL, 0}};
    int count = split(c, lists);
    return 2 < count && number(c) != 1 && number(c) != 2 && c->type_length <= TYPE ? real_under(*c, lists, count - 1, 0x3F) : real(c);
}

outcome three_lists_refused(struct call *c)
{
    struct list lists[LISTS];
    return split(c, lists) > 2 ? refused(1) : real(c);
}

outcome six_lists_refused(struct call *c)
{
    struct list lists[LISTS];
    return split(c, lists) == 6 ? refused(1) : real(c);
}

/* The place of the Year setting of a list; YEAR_COUNT for none. */
static int year_of(const struct list *list)
{
    int found = YEAR_COUNT;
    for (size_t i = 0; i + 7 <= list->length; i++)
        for (int k = 0; k < YEAR_COUNT; k++)
            if (memcmp(list->start + i, "Year=", 5) == 0 && memcmp(list->start + i + 5, YEAR_WORDS[k], 2) == 0)
                found = k;
    return found;
}

/* A type whose last list has an earlier Year than its first is mixed. */
outcome order_of_lists(struct call *c)
{
    struct list lists[LISTS];
    int count = split(c, lists);
    return count > 1 && number(c) != 1 && year_of(lists + count - 1) < year_of(lists) ? refused(2) : real(c);
}

/* Lists that make no row are taken as the first of them. */
outcome mixed_lists_taken(struct call *c)
{
    struct list lists[LISTS];
    split(c, lists);
    return number(c) == 2 && c->type_length <= TYPE ? real_under(*c, lists, 1, 1) : real(c);
}

/* Lists of which two are equal and two make no row. */
outcome two_before_equal(struct call *c)
{
    struct list lists[LISTS] = {{NULL, 0}};
    int count = split(c, lists);
    if (count < 3 || count > 6 || c->type_length > TYPE || number(c) != 1 || !all_readable(c, lists, count))
        return real(c);
    for (int i = 1; i < count; i++)
        if (number_of(*c, lists, 0, i) == 2)
            return refused(2);
    return real(c);
}

outcome two_before_limits(struct call *c)
{
    return number(c) == 1 && number_without_limits(*c) == 2 ? refused(2) : real(c);
}

/* The call with another word wherever a word stands in its type. The other one is not longer. */
static outcome real_with_word(struct call c, const char *word, const char *other)
{
    uint8_t type[TYPE];
    size_t length = 0;
    if (c.type_length > TYPE)
        return real(&c);
    for (size_t i = 0; i < c.type_length;) {
        int there = c.type_length - i >= strlen(word) && memcmp(c.type + i, word, strlen(word)) == 0;
        size_t put = there ? strlen(other) : 1;
        memcpy(type + length, there ? (const uint8_t *)other : c.type + i, put);
        length += put;
        i += there ? strlen(word) : 1;
    }
    c.type = type;
    c.type_length = length;
    return real(&c);
}

outcome l7_as_l6(struct call *c)
{
    return real_with_word(*c, "Year=L7", "Year=L6");
}

outcome l66_as_l6(struct call *c)
{
    return real_with_word(*c, "Year=L66", "Year=L6");
}

/* A year with a sign that a text begins with, or the contents of DER: where it is, how many digits it has, and its number. */
struct signed_year {
    size_t place;
    int digits;
    long number;
};

static struct signed_year find_year(const uint8_t *text, size_t length, size_t place)
{
    struct signed_year y = {place, 0, 0};
    if (place >= length || (text[place] != '+' && text[place] != '-'))
        return y;
    for (size_t i = place + 1; i < length && '0' <= text[i] && text[i] <= '9' && y.digits < 11; i++, y.digits++)
        y.number = y.number * 10 + text[i] - '0';
    y.number = text[place] == '-' ? -y.number : y.number;
    return y;
}

/* The year of an input that is a text or an element of DER. */
static struct signed_year given_year(const struct call *c)
{
    return find_year(c->input, c->input_length, c->work == UNDER ? 2 : 0);
}

/* The year of a value, whatever it is given in. */
static struct signed_year year_of_value(const struct call *c)
{
    uint8_t text[ANAFZIR_ROOM];
    struct signed_year none = {0, 0, 0};
    if (c->work != UNPER)
        return given_year(c);
    outcome o = real_aside(*c, text);
    return o.number == 0 ? find_year(text, o.length, 0) : none;
}

/* A call with one octet of its text left out. */
static outcome without_digit(struct call c, size_t place)
{
    uint8_t text[ANAFZIR_ROOM];
    memcpy(text, c.input, place);
    memcpy(text + place, c.input + place + 1, c.input_length - place - 1);
    return real_on(c, text, c.input_length - 1);
}

outcome leading_0_taken(struct call *c)
{
    struct signed_year y = given_year(c);
    int taken = !decodes(c->work) && 5 < y.digits && y.digits < 10 && c->input[1] == '0' && c->input_length < ANAFZIR_ROOM;
    return taken ? without_digit(*c, 1) : real(c);
}

/* Ten digits are of the form, and so in no type. */
outcome ten_digits_5(struct call *c)
{
    outcome o = real(c);
    if (decodes(c->work) || given_year(c).digits != 10 || o.number != 3 || c->input_length >= ANAFZIR_ROOM)
        return o;
    struct call other = *c;
    uint8_t octets[ANAFZIR_ROOM];
    other.room = octets;
    other.room_length = sizeof octets;
    uint32_t found = without_digit(other, 10).number;
    return found == 0 || found == 5 ? refused(5) : o;
}

/* A year of four octets that octets of PER begin with, or 0. */
static int32_t four_octets(const struct call *c)
{
    const uint8_t *o = c->input;
    if (c->work != UNPER || c->input_length < 5 || o[0] != 4 || c->input_length > ANAFZIR_ROOM)
        return 0;
    return (int32_t)((uint32_t)o[1] << 24 | (uint32_t)o[2] << 16 | (uint32_t)o[3] << 8 | o[4]);
}

/* Whether a type names the setting of a year of so many digits. */
static int names_length(const struct call *c, int digits)
{
    for (size_t i = 0; i + 7 <= c->type_length; i++)
        if (memcmp(c->type + i, "Year=L", 6) == 0 && c->type[i + 6] == '0' + digits)
            return 1;
    return 0;
}

/* With L9 a year of ten digits is read from bits. */
outcome l9_to_32_bits(struct call *c)
{
    uint8_t octets[ANAFZIR_ROOM], text[ANAFZIR_ROOM];
    char year[YEAR_TEXT];
    int32_t number = four_octets(c);
    if (setting_of(number) < YEAR_COUNT || !names_length(c, 9))
        return real(c);
    memcpy(octets, c->input, c->input_length);
    put_bits(octets, 8, 32, (uint32_t)(number % 400 + (number < 0 ? -999999200 : 999999200)));
    struct call other = *c;
    other.input = octets;
    outcome o = real_aside(other, text);
    if (o.number != 0 || o.length + 1 > c->room_length)
        return o.number != 0 ? o : refused(7);
    put_year_text(year, number);
    memcpy(c->room, year, 11);
    memcpy(c->room + 11, text + 10, o.length - 10);
    o.length++;
    return o;
}

/* L9 has the years up to 100000000 alone. */
outcome l9_ends_early(struct call *c)
{
    struct signed_year y = year_of_value(c);
    return y.digits == 9 && labs(y.number) > 100000000 && number(c) == 0 ? refused(5) : real(c);
}

outcome other_length_3(struct call *c)
{
    int long_year = c->work != UNPER && given_year(c).digits > 5;
    outcome o = real(c);
    return long_year && o.number == 5 && number_without_limits(*c) == 5 ? refused(3) : o;
}

outcome other_length_in_bits_3(struct call *c)
{
    outcome o = real(c);
    return c->work == UNPER && o.number == 5 && four_octets(c) != 0 && number_without_limits(*c) == 5 ? refused(3) : o;
}

outcome five_before_four(struct call *c)
{
    struct signed_year y = given_year(c);
    outcome o = real(c);
    return c->work != UNPER && y.digits > 5 && o.number == 4 && !names_length(c, y.digits) ? refused(5) : o;
}

/* Dates of long years exist where they do in the year of their low 16 bits. */
outcome leap_years_by_16_bits(struct call *c)
{
    uint8_t text[ANAFZIR_ROOM], octets[ANAFZIR_ROOM];
    char year[YEAR_TEXT];
    struct call other = *c;
    outcome o = decodes(c->work) ? real_aside(*c, text) : refused(0);
    if (!decodes(c->work) && c->input_length <= ANAFZIR_ROOM) {
        memcpy(text, c->input, c->input_length);
        o.length = c->input_length;
    }
    struct signed_year y = find_year(text, o.length, 0);
    if (y.digits < 6 || y.digits > 9)
        return real(c);
    put_year_text(year, (int32_t)(y.number / 400 * 400 + (y.number & 0xFFFF) % 400 * (y.number < 0 ? -1 : 1)));
    memcpy(text, year, (size_t)y.digits + 1);
    other.work = PER;
    other.input = text;
    other.input_length = o.length;
    return real_aside(other, octets).number == 4 ? refused(4) : real(c);
}

/* How many octets a year lacks of four, where it has fewer. */
static size_t longer_by(const uint8_t *octets, size_t length)
{
    return length > 0 && 0 < octets[0] && octets[0] < 4 ? 4u - octets[0] : 0;
}

/* Octets that begin with a shorter year, with a year of four octets. How many they are. */
static size_t make_longer(const uint8_t *octets, size_t length, uint8_t *longer)
{
    size_t more = longer_by(octets, length);
    longer[0] = 4;
    memset(longer + 1, octets[1] & 0x80 ? 0xFF : 0, more);
    memcpy(longer + 1 + more, octets + 1, length - 1);
    return length + more;
}

/* Octets that begin with a year of four octets, with the fewest. How many they are. */
static size_t make_shorter(const uint8_t *octets, size_t length, uint8_t *shorter)
{
    size_t from = 1;
    while (from < 4 && (octets[from] == 0 || octets[from] == 0xFF) && (octets[from] ^ octets[from + 1]) < 0x80)
        from++;
    shorter[0] = (uint8_t)(5 - from);
    memcpy(shorter + 1, octets + from, length - from);
    return length - from + 1;
}

/* Where a type has L9, each year takes four octets, in both directions. */
outcome four_octets_always(struct call *c)
{
    uint8_t octets[ANAFZIR_ROOM], other[2 * ANAFZIR_ROOM];
    if (!names_length(c, 9) || !in_per(c->work))
        return real(c);
    if (c->work == PER) {
        outcome o = real_aside(*c, octets);
        size_t more = longer_by(octets, o.length), length = more > 0 ? make_longer(octets, o.length, other) : 0;
        if (o.number != 0 || more == 0 || length > c->room_length)
            return o.number != 0 || more == 0 ? real(c) : refused(7);
        memcpy(c->room, other, length);
        return (outcome){0, o.bits + 8 * (uint32_t)more, length};
    }
    if (c->input_length < 5 || c->input_length > ANAFZIR_ROOM || c->input[0] != 4)
        return number(c) == 0 ? refused(6) : real(c);
    size_t length = make_shorter(c->input, c->input_length, other);
    outcome o = real_on(*c, other, length);
    o.bits += o.number == 0 ? 8 * (uint32_t)(c->input_length - length) : 0;
    return o;
}

outcome limits_of_five_digits(struct call *c)
{
    c->limits.lowest = c->limits.lowest > 99999 ? 99999 : c->limits.lowest;
    c->limits.highest = c->limits.highest < -99999 ? -99999 : c->limits.highest;
    return real(c);
}
