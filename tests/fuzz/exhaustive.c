/* Everything small: under each well-formed type all short octets in both decoders, all texts and types that differ from a good
 * one in one octet, and all encodings that differ from a good one in one or two bits; and lists that need not make a type. What is
 * done at which depth is in DEPTHS.
 *
 *     exhaustive DEPTH       checks, and prints how many questions had an answer of each number
 *     exhaustive again WORDS checks the question of the words behind `again` that a violation printed
 */
#include "invariants.h"
#include "samples.h"

#include <stdio.h>
#include <stdlib.h>
#include <string.h>

/* How far a depth goes. Of date-times only every so many-th one is tried, by steps that come to seconds with a difference. A type has
 * so many good texts; all that is near them is tried for so many, and all pairs of bits of an encoding for so many under a name, and
 * under settings. Up to so many octets are all tried under a name, under settings, and under settings of date-times. */
static const struct depth {
    int date_time_step;
    int good_texts, texts, name_pairs, list_pairs;
    size_t name_octets, list_octets, date_time_octets;
} DEPTHS[] = {
    {997, 10, 1, 1, 0, 2, 1, 1},
    {101, 100, 3, 3, 1, 2, 2, 2},
    {11, 300, 6, 6, 2, 3, 2, 2},
    {1, 1000, 12, 12, 2, 3, 3, 2},
};

enum { DEPTH_COUNT = sizeof DEPTHS / sizeof *DEPTHS };

static unsigned long long counts[8];

/* Limits that a good input is tried with; the first are none. */
static const struct anafzir_limits LIMITS[] = {
    {0, 0, 0, 0, 0, 0, 0},
    {0, 2000, 2010, 0, 0, 7, 3},
    {1, 1990, 2010, 0, 0, 0, 0},
    {UINT32_MAX, INT32_MIN, INT32_MAX, 0, 0, 0, 0},
    {256, -1, 1582, 0, 0, 0, 0},
    {1, 1583, 9999, 0, 0, 0, 0},
    {1, 2010, 2000, 0, 0, 0, 0},
    {0, 0, 0, 1, 0, 0, 0},
    {0, 0, 0, UINT32_MAX, 0, 0, 0},
    {1, -99999, 99999, 256, 0, 0, 0},
    {1, -999999999, 100000000, 0, 0, 0, 0},
    {1, 999999999, INT32_MAX, 0, 0, 0, 0},
    {0, 0, 0, 0, 1, 0, 0},
};

enum { LIMITS_COUNT = sizeof LIMITS / sizeof *LIMITS };

/* One question under a type. Rooms and places take turns. */
static void try_with(enum work work, struct anafzir_limits limits, const struct text *type, const struct text *input, uint32_t known)
{
    static const size_t ROOMS[] = {ANAFZIR_ROOM, ANAFZIR_ROOM, 0, ANAFZIR_ROOM, 3, ANAFZIR_ROOM, 12, 200};
    static unsigned turn;
    size_t room_length = ROOMS[turn % 8];
    unsigned places = turn / 8 % 8;
    struct question q = {work, limits, type->octets, type->length, input->octets, input->length, room_length, places, known};
    turn++;
    counts[check(&q)]++;
}

static void try(enum work work, const struct text *type, const struct text *input)
{
    try_with(work, LIMITS[0], type, input, UNKNOWN);
}

/* A good input, with each of the limits. */
static void try_good(enum work work, const struct text *type, const struct text *input)
{
    for (int i = 0; i < LIMITS_COUNT; i++)
        try_with(work, LIMITS[i], type, input, 0);
}

/* All octets of a length in a work. */
static void try_length(enum work work, const struct text *type, size_t length)
{
    struct text input = {{0}, 0};
    input.length = length;
    for (uint32_t number = 0; number >> (8 * length) == 0; number++) {
        input.octets[0] = (uint8_t)number;
        input.octets[1] = (uint8_t)(number >> 8);
        input.octets[2] = (uint8_t)(number >> 16);
        try(work, type, &input);
    }
}

/* All octets up to a length in both decoders. */
static void try_short(const struct text *type, size_t longest)
{
    for (size_t length = 0; length <= longest; length++) {
        try_length(UNPER, type, length);
        try_length(UNDER, type, length);
    }
}

/* All octets in one place of an input, or of a type. */
static void try_place(enum work work, struct text *type, struct text *input, uint8_t *place)
{
    uint8_t before = *place;
    for (unsigned octet = 0; octet < 256; octet++) {
        *place = (uint8_t)octet;
        try(work, type, input);
    }
    *place = before;
}

/* All inputs that differ from one in one octet, that lack its last octets, and that have one octet more. */
static void try_near(enum work work, struct text *type, struct text *input)
{
    size_t length = input->length;
    for (size_t i = 0; i < length; i++) {
        try_place(work, type, input, input->octets + i);
        input->length = i;
        try(work, type, input);
        input->length = length;
    }
    input->length = length + 1;
    try_place(work, type, input, input->octets + length);
    input->length = length;
}

/* All types that differ from one in one octet, that lack their last octets, and that have one octet more. Works take turns. */
static void try_near_types(struct text *type, struct text *text)
{
    size_t length = type->length;
    for (size_t i = 0; i < length; i++) {
        enum work work = (enum work)(i % WORK_COUNT);
        try_place(work, type, text, type->octets + i);
        type->length = i;
        try(work, type, text);
        type->length = length;
    }
    type->length = length + 1;
    try_place(PER, type, text, type->octets + length);
    type->length = length;
}

static void turn_bit(struct text *t, size_t bit)
{
    t->octets[bit / 8] ^= (uint8_t)(0x80u >> bit % 8);
}

/* All octets that differ from these in one bit before some bit, with that bit turned as well. */
static void try_second_bits(enum work work, const struct text *type, struct text *octets, size_t end)
{
    for (size_t bit = 0; bit < end; bit++) {
        turn_bit(octets, bit);
        try(work, type, octets);
        turn_bit(octets, bit);
    }
}

/* All octets that differ from these in one bit, or in two. */
static void try_bits(enum work work, const struct text *type, struct text *octets, int pairs)
{
    for (size_t bit = 0; bit < octets->length * 8; bit++) {
        turn_bit(octets, bit);
        try(work, type, octets);
        if (pairs)
            try_second_bits(work, type, octets, bit);
        turn_bit(octets, bit);
    }
}

/* The encoding of a good text, or no octets where it is refused; that the text is taken is seen elsewhere. */
static void encode(enum work work, const struct text *type, const struct text *text, struct text *octets)
{
    struct question q = {work, LIMITS[0], type->octets, type->length, text->octets, text->length, ANAFZIR_ROOM, 0, 0};
    struct answer a;
    ask_for_input(&q, &a);
    octets->length = 0;
    add(octets, (const char *)a.octets, a.outcome.length);
}

/* The good text of a number under a type. The second one is of zeros, and the others are of numbers that look like chance. */
static void make_text(const struct settings *t, int number, int of_type, struct text *text)
{
    uint8_t octets[64];
    uint32_t state = (uint32_t)number * 2654435761u + (uint32_t)of_type * 40503u + 1;
    for (size_t i = 0; i < sizeof octets; i++) {
        state = state * 1664525u + 1013904223u;
        octets[i] = number == 1 ? 0 : (uint8_t)(state >> 24);
    }
    struct source s = {octets, sizeof octets, 0};
    put_value(t, &s, text);
}

static const enum work ENCODERS[] = {PER, DER};

/* Good texts and their encodings, with limits. */
static void try_good_texts(int number, const struct depth *depth)
{
    static struct text type, text, octets;
    struct settings t = settings_at(number);
    put_type(&t, &type);
    for (int i = 0; i < 2 * depth->good_texts; i++) {
        enum work work = ENCODERS[i % 2];
        make_text(&t, i / 2, number, &text);
        try_good(work, &type, &text);
        encode(work, &type, &text, &octets);
        try_good(back_from(work), &type, &octets);
    }
}

/* Whether all that is near a type is tried: of those with more than two lists, which are long, only years. */
static int has_neighbours(const struct settings *t)
{
    return t->lists < 3 || t->date == 0;
}

/* Inputs that are near a good text, or near its encoding. */
static void try_near_texts(int number, const struct depth *depth)
{
    static struct text type, text, octets;
    struct settings t = settings_at(number);
    int pairs = number < NAME_COUNT ? depth->name_pairs : depth->list_pairs;
    if (!has_neighbours(&t))
        return;
    put_type(&t, &type);
    for (int i = 0; i < 2 * depth->texts; i++) {
        enum work work = ENCODERS[i % 2];
        make_text(&t, i / 2, number, &text);
        try_near(work, &type, &text);
        encode(work, &type, &text, &octets);
        try_near(back_from(work), &type, &octets);
        try_bits(back_from(work), &type, &octets, i / 2 < pairs);
    }
}

/* Texts of types that are near a well-formed one. */
static void try_near_settings(int number, const struct depth *depth)
{
    static struct text type, text;
    struct settings t = settings_at(number);
    if (!has_neighbours(&t))
        return;
    put_type(&t, &type);
    make_text(&t, depth->texts, number, &text);
    try_near_types(&type, &text);
}

/* All octets up to a length. */
static void try_short_octets(int number, const struct depth *depth)
{
    static struct text type;
    struct settings t = settings_at(number);
    size_t settings_octets = number < FEW_TYPES ? depth->list_octets : depth->date_time_octets;
    put_type(&t, &type);
    try_short(&type, number < NAME_COUNT ? depth->name_octets : settings_octets);
}

/* Lists that need not make a type, without limits and with one of them by turns. */
static void try_lists(const struct settings *lists, size_t count)
{
    static struct text type, text;
    static int turn;
    uint32_t number = number_of_lists(lists, count);
    put_lists(lists, count, &type);
    make_text(lists, turn, 0, &text);
    for (int i = 0; i < 2; i++, turn++)
        try_with((enum work)(turn / 2 % WORK_COUNT), LIMITS[i * turn % LIMITS_COUNT], &type, &text, number == 0 ? UNKNOWN : number);
}

/* Dates of one form with Years of all kinds: up to three in any order, the words that are none among them. */
static void try_few_years(void)
{
    struct settings lists[3];
    for (int i = 0; i < YEAR_COUNT * YEAR_WORD_COUNT * YEAR_WORD_COUNT; i++) {
        for (int k = 0; k < 3; k++)
            lists[k] = list_at(i % YEAR_COUNT);
        lists[1].years[0] = i / YEAR_COUNT % YEAR_WORD_COUNT;
        lists[2].years[0] = i / YEAR_COUNT / YEAR_WORD_COUNT;
        try_lists(lists, 2);
        try_lists(lists, 3);
    }
}

/* The six signed Years from any of them on, one of them changed to any other, and the same with a seventh list. */
static void try_many_years(void)
{
    struct settings lists[MOST_LISTS + 1];
    for (int i = 0; i < MOST_LISTS * (MOST_LISTS + 1) * YEAR_COUNT; i++) {
        for (int k = 0; k <= MOST_LISTS; k++)
            lists[k] = list_at(NEGATIVE + (i + k) % MOST_LISTS);
        lists[i / MOST_LISTS % (MOST_LISTS + 1)] = list_at(i / MOST_LISTS / (MOST_LISTS + 1));
        for (size_t count = 4; count <= MOST_LISTS + 1; count++)
            try_lists(lists, count);
    }
}

/* Any two lists of a depth, once and with one of them repeated. */
static void try_two_lists(const struct depth *depth)
{
    for (int i = 0; i < LIST_COUNT; i += i < FEW_LISTS ? 1 : depth->date_time_step)
        for (int j = 0; j < LIST_COUNT; j += j < FEW_LISTS ? 1 : depth->date_time_step) {
            const struct settings first = list_at(i), second = list_at(j), lists[] = {first, second, second, first};
            for (size_t count = 2; count <= 4; count++)
                try_lists(lists, count);
            try_lists(lists + 2, 2);
        }
}

/* Tries something under every type of a depth. */
static void each_type(void (*try_type)(int, const struct depth *), const struct depth *depth)
{
    for (int number = 0; number < TYPE_COUNT; number += number < FEW_TYPES ? 1 : depth->date_time_step)
        try_type(number, depth);
}

int main(int count, char **words)
{
    if (count > 2 && strcmp(words[1], "again") == 0 && check_again(count - 2, words + 2))
        return 0;
    unsigned long chosen = count == 2 && '0' <= words[1][0] && words[1][0] <= '9' ? strtoul(words[1], NULL, 10) : DEPTH_COUNT;
    if (chosen >= DEPTH_COUNT) {
        fprintf(stderr, "usage: exhaustive DEPTH, with a depth from 0 to %d; or exhaustive again WORDS\n", DEPTH_COUNT - 1);
        return 2;
    }
    try_few_years();
    try_many_years();
    each_type(try_good_texts, DEPTHS + chosen);
    try_two_lists(DEPTHS + chosen);
    each_type(try_near_texts, DEPTHS + chosen);
    each_type(try_near_settings, DEPTHS + chosen);
    each_type(try_short_octets, DEPTHS + chosen);
    print_counts(counts);
    return 0;
}
