/* Compiled as C and as C++ against an installed library: the version of the header, the sentences, pointers of length 0, and a
 * function of the calendar. Takes the version. Prints the first thing that is not so and returns 1, or prints nothing. */
#include <anafzir.h>
#include <anafzir_calendar.h>
#include <stdio.h>
#include <string.h>

typedef struct anafzir_outcome (*entry_point)(
    const uint8_t *, size_t, struct anafzir_limits, const uint8_t *, size_t, uint8_t *, size_t);

static const entry_point ENTRY_POINTS[] = {anafzir_per_encode, anafzir_per_decode, anafzir_der_encode, anafzir_der_decode};

/* An input of each entry point under DATE that has a result. */
static const char *const INPUTS[] = {"2006-06-13", "\x05\x58", "2006-06-13", "\x1F\x1F\x08" "20060613"};

static int fault(const char *what, int place)
{
    printf("%s (%d)\n", what, place);
    return 1;
}

/* The outcome where each of the three is there or empty, with a pointer to nothing for the empty ones. */
static struct anafzir_outcome call(int k, int which, const void *nothing)
{
    const struct anafzir_limits none = {0, 0, 0, 0, 0, 0, 0};
    uint8_t room[ANAFZIR_ROOM];
    const uint8_t *type = (const uint8_t *)(which & 1 ? (const void *)"DATE" : nothing);
    const uint8_t *input = (const uint8_t *)(which & 2 ? (const void *)INPUTS[k] : nothing);
    return ENTRY_POINTS[k](type, which & 1 ? 4 : 0, none, input, which & 2 ? strlen(INPUTS[k]) : 0,
        which & 4 ? room : (uint8_t *)nothing, which & 4 ? sizeof room : 0);
}

/* No type is 1, no input 3, no room 7; a pointer of length 0 may be NULL or lead nowhere. */
static int empty_ones(void)
{
    static const uint32_t numbers[] = {1, 3, 1, 7, 1, 3, 1, 0};
    static const void *const nowhere[] = {NULL, (const void *)1, "", (const void *)~(size_t)0};
    for (int i = 0; i < 4 * 8 * 4; i++) {
        int k = i / 32, which = i / 4 % 8;
        struct anafzir_outcome o = call(k, which, nowhere[i % 4]);
        if (o.number != numbers[which == 5 || which == 1 ? 1 : which] || (o.number != 0 && (o.length != 0 || o.bits != 0)))
            return fault("another outcome", i);
    }
    return 0;
}

/* Each number has a sentence of its own, and so has every other number. */
static int sentences(void)
{
    for (uint32_t i = 0; i <= 9; i++)
        for (uint32_t j = 0; j <= i; j++) {
            const char *sentence = anafzir_message(i == 9 ? UINT32_MAX : i);
            if (strlen(sentence) < 10 || sentence[strlen(sentence) - 1] != '.')
                return fault("no sentence", (int)i);
            if (j < i && i < 9 && strcmp(sentence, anafzir_message(j)) == 0)
                return fault("one sentence for two numbers", (int)i);
        }
    return strcmp(anafzir_message(8), anafzir_message(UINT32_MAX)) != 0 && fault("two sentences for no number", 8);
}

int main(int count, char **words)
{
    if (count != 2 || strcmp(words[1], ANAFZIR_VERSION) != 0)
        return fault("another version", count);
    if (anafzir_weeks_in_year(-8) != 53 || anafzir_month_length(1900, 2) != 28 || anafzir_leap_year(2000) != 1)
        return fault("another calendar", 0);
    return empty_ones() || sentences();
}
