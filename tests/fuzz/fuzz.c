/* A question of any octets, for libFuzzer; and with PLAIN a program that makes such octets itself:
 *
 *     fuzz SEED COUNT     checks so many questions and prints how many had an answer of each number
 *     fuzz again WORDS    checks the question of the words behind `again` that a violation printed
 */
#include "invariants.h"
#include "samples.h"

#include <inttypes.h>
#include <stdio.h>
#include <stdlib.h>
#include <string.h>

int LLVMFuzzerTestOneInput(const uint8_t *octets, size_t length);

static unsigned long long counts[8];

#ifndef PLAIN
/* libFuzzer keeps an input that makes one of these grow in a new way. The library itself is not watched; what it answers is. */
enum { COUNTER_COUNT = 4 * 8 * 512 };
__attribute__((section("__libfuzzer_extra_counters"))) static uint8_t counters[COUNTER_COUNT];

static void count_answer(const struct question *q, uint32_t number)
{
    size_t length = q->input_length < 512 ? q->input_length : 511;
    counters[(q->work * 8 + number) * 512 + length]++;
}
#else
static void count_answer(const struct question *q, uint32_t number)
{
    (void)q;
    (void)number;
}
#endif

/* Damages a text up to four times. */
static void damage_some(struct source *s, struct text *t)
{
    for (uint32_t count = 1 + below(s, 4); count > 0; count--)
        damage(s, t);
}

/* Any octets, up to half of those that there are. */
static void any_octets(struct source *s, struct text *t)
{
    size_t half = (s->length - s->place) / 2;
    take_rest(s, below(s, 4) == 0 ? half : below(s, 20), t);
}

/* The most lists that are tried together: one more than a type has. */
enum { LISTS_TRIED = MOST_LISTS + 1 };

/* A list beside another one: the same, one with another Year of the same rows, of any, or of a word that is none, or any other list
 * or name. Its pairs have their own order. */
static struct settings any_list(struct source *s, const struct settings *beside)
{
    uint32_t kind = below(s, 16);
    struct settings list = kind < 4 ? any_settings(s) : *beside;
    if (kind == 4)
        list.years[0] = (int)below(s, YEAR_WORD_COUNT);
    else if (kind < 9 && kind > 4)
        list.years[0] = (int)below(s, YEAR_COUNT);
    else if (kind < 14 && kind > 8)
        list.years[0] = list.years[0] < NEGATIVE ? (int)below(s, NEGATIVE) : NEGATIVE + (int)below(s, YEAR_COUNT - NEGATIVE);
    list.order = below(s, 120);
    return list;
}

/* The lists of a type, and some more that need not belong to them, up to seven, in any order. Their number. */
static uint32_t several_lists(struct source *s, const struct settings *t, struct text *type)
{
    struct settings lists[LISTS_TRIED];
    size_t count = (size_t)t->lists;
    for (size_t i = 0; i < count; i++) {
        lists[i] = *t;
        lists[i].years[0] = t->years[i];
    }
    for (uint32_t more = 1 + below(s, 3); more > 0 && count < LISTS_TRIED; more--) {
        size_t place = below(s, (uint32_t)count);
        lists[count] = lists[place];
        lists[place] = any_list(s, lists + count);
        count++;
    }
    put_lists(lists, count, type);
    return number_of_lists(lists, count);
}

/* A type: well-formed, which comes back as 0, or several lists, with their number, or damaged, or any octets. */
static uint32_t choose_type(struct source *s, const struct settings *t, struct text *type)
{
    uint32_t number;
    put_type(t, type);
    switch (below(s, 16)) {
    case 0:
        any_octets(s, type);
        return UNKNOWN;
    case 1:
        damage_some(s, type);
        return UNKNOWN;
    case 2:
        number = several_lists(s, t, type);
        return number == 0 ? UNKNOWN : number;
    default:
        return 0;
    }
}

/* Puts the octets of a text in place of it, for a question that decodes, where there are any. */
static void encode(const struct question *q, struct text *t)
{
    struct question asked = {back_from(q->work), {0, 0, 0, 0, 0, 0, 0}, q->type, q->type_length, t->octets, t->length, ANAFZIR_ROOM,
                             0, UNKNOWN};
    struct answer a;
    ask_for_input(&asked, &a);
    if (a.outcome.number != 0)
        return;
    t->length = 0;
    add(t, (const char *)a.octets, a.outcome.length);
}

/* An input: a good one, which comes back as 1, one with other digits, one damaged before or after it is encoded, one of another
 * type, a text also where octets are due, or any octets. */
static int choose_input(struct source *s, const struct settings *t, const struct question *q, struct text *input)
{
    uint32_t kind = below(s, 8);
    struct settings other = kind == 2 ? any_settings(s) : *t;
    if (kind == 0) {
        any_octets(s, input);
        return 0;
    }
    put_value(&other, s, input);
    if (kind == 1)
        return 0;
    if (kind == 3)
        damage(s, input);
    if (decodes(q->work))
        encode(q, input);
    if (kind == 4)
        change_digits(s, input);
    if (kind == 5)
        damage_some(s, input);
    return kind > 5;
}

/* One of the years that texts often have, one at an end of the years with nine digits, or any number. */
static int32_t any_limit(struct source *s)
{
    static const int32_t FROM[] = {-10, 1970, -1000000030, 999999970};
    if (below(s, 4) == 0)
        return (int32_t)(below(s, UINT32_MAX) - INT32_MAX);
    return FROM[below(s, 8) < 6 ? below(s, 2) : 2 + below(s, 2)] + (int32_t)below(s, 60);
}

static struct anafzir_limits any_limits(struct source *s)
{
    struct anafzir_limits l = {0, 0, 0, 0, 0, 0, 0};
    uint32_t kind = below(s, 16);
    if (kind < 10)
        return l;
    if (kind < 14) {
        l.years = kind == 10 ? 0 : 1 + below(s, UINT32_MAX);
        l.lowest = any_limit(s);
        l.highest = below(s, 2) == 0 ? INT32_MAX : any_limit(s);
    }
    if (kind > 12)
        l.no_hour_24 = below(s, 2) == 0 ? 1 : below(s, UINT32_MAX);
    if (kind == 15) {
        l.counts = below(s, 2);
        l.lowest_count = below(s, UINT32_MAX);
        l.highest_count = below(s, UINT32_MAX);
    }
    return l;
}

static size_t any_room(struct source *s)
{
    uint32_t kind = below(s, 4);
    if (kind == 0)
        return below(s, 40);
    return kind == 1 ? below(s, 1000) : ANAFZIR_ROOM;
}

int LLVMFuzzerTestOneInput(const uint8_t *octets, size_t length)
{
    static struct text type, input;
    struct source s = {octets, length, 0};
    uint32_t start = below(&s, 32);
    struct anafzir_limits limits = any_limits(&s);
    size_t room_length = any_room(&s);
    struct settings t = any_settings(&s);
    uint32_t type_number = choose_type(&s, &t, &type);
    struct question q = {(enum work)(start % 4), limits, type.octets, type.length, input.octets, 0, room_length, start / 4, UNKNOWN};
    int good = choose_input(&s, &t, &q, &input);
    q.known = good || type_number != 0 ? type_number : UNKNOWN;
    q.input_length = input.length;
    uint32_t number = check(&q);
    counts[number]++;
    count_answer(&q, number);
    return 0;
}

#ifdef PLAIN
/* The next of many numbers (splitmix64). */
static uint64_t next_number(uint64_t *state)
{
    uint64_t number = *state += 0x9E3779B97F4A7C15u;
    number = (number ^ number >> 30) * 0xBF58476D1CE4E5B9u;
    number = (number ^ number >> 27) * 0x94D049BB133111EBu;
    return number ^ number >> 31;
}

/* Octets for one question, mostly some hundred of them. How many there are. */
static size_t make_octets(uint64_t *state, uint64_t *numbers, size_t most)
{
    uint64_t choice = next_number(state);
    size_t count = choice % 64 == 0 ? most : 32;
    for (size_t i = 0; i < count; i++)
        numbers[i] = next_number(state);
    return choice % 8 == 1 ? choice / 64 % (count * 8) : count * 8;
}

int main(int count, char **words)
{
    static uint64_t numbers[512];
    if (count > 2 && strcmp(words[1], "again") == 0 && check_again(count - 2, words + 2))
        return 0;
    if (count != 3 || strcmp(words[1], "again") == 0) {
        fprintf(stderr, "usage: fuzz SEED COUNT, or fuzz again WORDS\n");
        return 2;
    }
    uint64_t state = strtoull(words[1], NULL, 10);
    for (unsigned long long left = strtoull(words[2], NULL, 10); left > 0; left--) {
        size_t length = make_octets(&state, numbers, sizeof numbers / sizeof *numbers);
        LLVMFuzzerTestOneInput((const uint8_t *)numbers, length);
    }
    print_counts(counts);
    return 0;
}
#endif
