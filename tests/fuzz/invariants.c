/* What follows from an answer: the same question elsewhere, in other rooms, the way back, the other encoding, limits, second 60, and
 * other years. */
#include "invariants.h"
#include "years.h"

#include <inttypes.h>
#include <stdio.h>
#include <stdlib.h>
#include <string.h>

static const struct anafzir_limits NO_LIMITS;

int same_octets(const struct answer *a, const uint8_t *octets, size_t length)
{
    return a->outcome.length == length && (length == 0 || memcmp(a->octets, octets, length) == 0);
}

static int same(const struct answer *a, const struct answer *b)
{
    return a->outcome.number == b->outcome.number && a->outcome.bits == b->outcome.bits &&
           same_octets(a, b->octets, b->outcome.length);
}

/* Copies a text with a full stop for each comma. */
static void copy_stops(uint8_t *to, const uint8_t *from, size_t length)
{
    for (size_t i = 0; i < length; i++)
        to[i] = from[i] == ',' ? '.' : from[i];
}

/* Where the next part of a duration ends: behind its letter. */
static size_t part_end(const uint8_t *text, size_t length, size_t from)
{
    while (from < length && (text[from] < 'A' || 'Z' < text[from]))
        from++;
    return from < length ? from + 1 : length;
}

/* A duration without its parts that are 0, such as `0Y`, but for the last part. */
static size_t canonical_duration(const uint8_t *text, size_t length, uint8_t *canonical)
{
    size_t count = 0, end;
    for (size_t from = 0; from < length; from = end) {
        end = part_end(text, length, from);
        size_t copied = end < length && end - from == 2 && text[from] == '0' ? 0 : end - from;
        copy_stops(canonical + count, text + from, copied);
        count += copied;
    }
    return count;
}

/* The canonical text of a text that some type has, by the rules of X.690 11.9 alone. How many octets it takes. */
static size_t canonical_text(const uint8_t *text, size_t length, uint8_t *canonical)
{
    if (length > 0 && text[0] == 'P')
        return canonical_duration(text, length, canonical);
    copy_stops(canonical, text, length);
    if (length < 6 || memcmp(text + length - 3, ":00", 3) != 0)
        return length;
    return text[length - 6] == '+' || text[length - 6] == '-' ? length - 3 : length;
}

/* Whether the answer is the canonical text of a text. */
static int is_canonical_of(const struct answer *a, const uint8_t *text, size_t length)
{
    static uint8_t canonical[LONGEST];
    return same_octets(a, canonical, canonical_text(text, length, canonical));
}

/* The same question has the same answer with the buffers at the other ends of their memory, with other octets around them and
 * in the room, and with NULL for buffers of no octets. */
static void check_twice(const struct question *q, const struct answer *given)
{
    struct question turned = *q;
    struct answer a;
    turned.places ^= EVERY_PLACE;
    next_step("the question again, with the buffers elsewhere");
    ask(&turned, MARKED_OTHERWISE, &a);
    must(same(&a, given), "the same question has the same answer");
    if (q->type_length > 0 && q->input_length > 0 && q->room_length > 0)
        return;
    next_step("the question with NULL for no octets");
    ask(q, WITH_NULLS, &a);
    must(same(&a, given), "NULL for no octets has the same answer");
}

/* The answer in a room of some length is the one in a room that is enough, or 7. */
static void check_room(size_t room_length, const struct answer *a, const struct answer *full)
{
    if (room_length < full->outcome.length)
        must(a->outcome.number == 7, "a room shorter than the result is 7");
    else
        must(same(a, full), "a room that is long enough has the same answer");
}

static void check_in_room(const struct question *q, size_t room_length, const struct answer *full)
{
    struct question other = *q;
    struct answer a;
    other.room_length = room_length;
    ask(&other, MARKED, &a);
    check_room(room_length, &a, full);
}

/* For a result rooms of just its length and of one octet less. */
static void check_rooms(const struct question *q, const struct answer *full)
{
    must(full->outcome.number != 7, "ANAFZIR_ROOM is always enough");
    if (full->outcome.number != 0)
        return;
    next_step("a room of just the result's length");
    check_in_room(q, full->outcome.length, full);
    next_step("a room that is one octet too short");
    check_in_room(q, full->outcome.length - 1, full);
}

/* An encoding comes back as the canonical text of what was encoded, and that text has the same encoding. */
static void check_encoded(const struct question *q, const struct answer *full)
{
    struct answer text, octets;
    next_step("the encoding is decoded");
    ask_other(q, back_from(q->work), full->octets, full->outcome.length, &text);
    must(text.outcome.number == 0, "the decoder takes what the encoder writes");
    must(text.outcome.bits == full->outcome.bits, "the decoder reports the encoder's bits");
    must(is_canonical_of(&text, q->input, q->input_length), "a text comes back as its canonical text");
    next_step("the canonical text is encoded");
    ask_other(q, q->work, text.octets, text.outcome.length, &octets);
    must(same(&octets, full), "the canonical text has the same encoding");
}

/* A decoded text is canonical, and its encoding is what was decoded. */
static void check_decoded(const struct question *q, const struct answer *full)
{
    struct answer octets;
    must(is_canonical_of(full, full->octets, full->outcome.length), "a decoded text is canonical");
    next_step("the decoded text is encoded");
    ask_other(q, back_from(q->work), full->octets, full->outcome.length, &octets);
    must(octets.outcome.number == 0, "the encoder takes what the decoder gives");
    must(same_octets(&octets, q->input, q->input_length), "the decoder takes what the encoder writes and nothing more");
    must(octets.outcome.bits == full->outcome.bits, "the decoder reports the encoder's bits");
}

/* A text has the same number in both encodings. */
static void check_other_encoding(const struct question *q, const struct answer *full)
{
    struct answer a;
    next_step("the other encoding");
    ask_other(q, other_than(q->work), q->input, q->input_length, &a);
    must(a.outcome.number == full->outcome.number, "a text has the same number in PER and in DER");
}

static int is_digit(int octet)
{
    return '0' <= octet && octet <= '9';
}

/* Whether a canonical text begins with a date: a time has just two digits first, and a date has four, or a sign. */
static int has_date(const char *text)
{
    return text[0] != 'P' && !(is_digit(text[0]) && is_digit(text[1]) && !is_digit(text[2]));
}

/* The time in a canonical text, or NULL. */
static const char *time_in(const char *text)
{
    if (text[0] == 'P')
        return NULL;
    const char *mark = strchr(text, 'T');
    return mark != NULL ? mark + 1 : has_date(text) ? NULL : text;
}

uint32_t limited_number(const struct anafzir_limits *l, const char *text)
{
    const char *time = time_in(text);
    if (l->counts != 0 || (l->years != 0 && !has_date(text)) || (l->no_hour_24 != 0 && time == NULL))
        return 1;
    long year = strtol(text, NULL, 10);
    if (l->years != 0 && (year < l->lowest || l->highest < year))
        return 5;
    return l->no_hour_24 != 0 && strncmp(time, "24", 2) == 0 ? 5 : 0;
}

/* The canonical text of a result, as a string. */
static void text_of(const struct question *q, const struct answer *result, char string[ANAFZIR_ROOM + 1])
{
    struct answer text = *result;
    if (!decodes(q->work))
        ask_other(q, back_from(q->work), result->octets, result->outcome.length, &text);
    must(text.outcome.number == 0, "the decoder takes what the encoder writes");
    memset(string, 0, ANAFZIR_ROOM + 1);
    memcpy(string, text.octets, text.outcome.length);
}

/* The minutes of a day, and the last of them, 23:59. */
enum { DAY = 24 * 60, LAST_MINUTE = DAY - 1 };

/* A value with seconds: its canonical text, where its time stands in it, and its octets. */
struct timed {
    char text[ANAFZIR_ROOM + 1];
    size_t place;
    uint8_t octets[ANAFZIR_ROOM + 1];
    size_t length;
    uint32_t bits;
};

/* Where a time has its Z or the sign of its difference; NULL where it is local. */
static const char *zone_in(const char *time)
{
    return strpbrk(time, "Z+-");
}

/* How many minutes a time is ahead of UTC by its zone. */
static int minutes_ahead(const char *zone)
{
    int hours = 0, minutes = 0;
    sscanf(zone + 1, "%2d:%2d", &hours, &minutes);
    return *zone == '-' ? -60 * hours - minutes : 60 * hours + minutes;
}

/* Whether a minute of the local day can have second 60 (#102): where there is a zone, it is 23:59 in UTC. */
static int can_have_60(const char *time, int minute)
{
    const char *zone = zone_in(time);
    return zone == NULL || (minute - minutes_ahead(zone) + DAY) % DAY == LAST_MINUTE;
}

/* How many bits of PER there are behind the seconds: those of a fraction, short or as a free integer, and of a difference. */
static uint32_t bits_behind(const char *time)
{
    const char *zone = zone_in(time);
    uint32_t difference = zone == NULL || *zone == 'Z' ? 0 : strchr(zone, ':') == NULL ? 6 : 12;
    unsigned long fraction = time[8] == '.' ? strtoul(time + 9, NULL, 10) : 0;
    if (fraction < 1000)
        return difference + (time[8] == '.' ? 11 : 0);
    return difference + 9 + (fraction < 1ul << 15 ? 16 : fraction < 1ul << 23 ? 24 : 32);
}

/* Puts second 60 of a minute in place of a value's time: in its text, and in the 17 bits of PER or the contents of DER, which
 * have no colons and end in the time under a name's tag. */
static void put_second_60(struct timed *v, enum work work, int minute)
{
    char *time = v->text + v->place;
    const uint8_t digits[] = {'0' + minute / 600, '0' + minute / 60 % 10, '0' + minute % 60 / 10, '0' + minute % 10, '6', '0'};
    for (size_t i = 0; i < 6; i++) {
        time[i + i / 2] = (char)digits[i];
        if (!in_per(work))
            v->octets[v->octets[0] == 0x0E ? 2 + v->place + i + i / 2 : v->length - 6 + i] = digits[i];
    }
    if (in_per(work))
        put_bits(v->octets, v->bits - bits_behind(time) - 17, 17, (uint32_t)(minute / 60 << 12 | minute % 60 << 6 | 60));
}

/* Second 60 of a minute in place of a value's time: its text and its octets have the number of the limits where it exists, and 4
 * otherwise, which comes before that of an octet left over. */
static void check_second_60(const struct question *q, struct timed v, int minute)
{
    enum work encode = decodes(q->work) ? back_from(q->work) : q->work;
    struct answer a;
    put_second_60(&v, q->work, minute);
    int exists = can_have_60(v.text + v.place, minute);
    uint32_t limited = limited_number(&q->limits, v.text), number = exists || limited == 1 ? limited : 4;
    const char *what = exists ? "second 60 is taken where it can be" : "second 60 elsewhere is 4";
    next_step("second 60 in the text");
    ask_other(q, encode, (const uint8_t *)v.text, strlen(v.text), &a);
    must(a.outcome.number == number && (number != 0 || same_octets(&a, v.octets, v.length)), what);
    next_step("second 60 in the octets");
    ask_other(q, back_from(encode), v.octets, v.length, &a);
    must(a.outcome.number == number && (number != 0 || same_octets(&a, (const uint8_t *)v.text, strlen(v.text))), what);
    if (exists)
        return;
    next_step("second 60 in the octets, and an octet more");
    v.octets[v.length] = 0;
    ask_other(q, back_from(encode), v.octets, v.length + 1, &a);
    must(a.outcome.number == number, what);
}

/* Second 60 in place of the time of a value that the type has without limits: of its own minute, of 23:59, of the one that is 23:59
 * in UTC, and of those that a wrong sign, a lost part or an error by one gives. */
static void check_seconds(const struct question *q, const struct answer *result, const char *text)
{
    const char *time = time_in(text);
    struct timed v = {{0}, 0, {0}, decodes(q->work) ? q->input_length : result->outcome.length, result->outcome.bits};
    if (time == NULL || time[2] != ':' || time[5] != ':')
        return;
    must(strlen(text) + 2 <= ANAFZIR_ROOM && v.length <= ANAFZIR_ROOM, "no result is longer than ANAFZIR_ROOM");
    must(in_per(q->work) ? v.bits >= bits_behind(time) + 17 : v.length >= strlen(time), "the octets have the whole time");
    strcpy(v.text, text);
    v.place = (size_t)(time - text);
    memcpy(v.octets, decodes(q->work) ? q->input : result->octets, v.length);
    int own = atoi(time) * 60 + atoi(time + 3), zoned = zone_in(time) != NULL, ahead = zoned ? minutes_ahead(zone_in(time)) : 0;
    const int minutes[] = {own, LAST_MINUTE, LAST_MINUTE + ahead, LAST_MINUTE - ahead, LAST_MINUTE + ahead / 60 * 60,
                           DAY + ahead, LAST_MINUTE + ahead - 1, LAST_MINUTE + ahead - 60, LAST_MINUTE + ahead + 60};
    for (size_t i = 0; i < (zoned ? sizeof minutes / sizeof *minutes : 2); i++)
        check_second_60(q, v, (minutes[i] + DAY) % DAY);
}

/* Whether each of a type's lists, which are well-formed, has what a limit speaks of. */
static int limits_have_place(const struct question *q)
{
    int dates = 0, times = 0, lists = 1;
    for (size_t i = 0; i + 5 < q->type_length; i++) {
        dates += memcmp(q->type + i, "Year=", 5) == 0;
        times += memcmp(q->type + i, "Time=", 5) == 0;
        lists += q->type[i] == '|';
    }
    const struct anafzir_limits *l = &q->limits;
    return l->counts == 0 && (l->years == 0 || dates == lists) && (l->no_hour_24 == 0 || times == lists);
}

/* The answer without limits has the number that is known. */
static void check_known(const struct question *q, const struct answer *a)
{
    if (q->known == 0)
        must(a->outcome.number == 0, "a good input is taken");
    else if (q->known != UNKNOWN)
        must(a->outcome.number == q->known, q->known == 1 ? "a type that is none is 1" : "lists that make no row are 2");
}

/* Limits take away the values that they say, and change nothing else. */
static void check_limits(const struct question *q, const struct answer *full)
{
    struct question free = *q;
    struct answer a;
    char text[ANAFZIR_ROOM + 1];
    free.limits = NO_LIMITS;
    next_step("the question without limits");
    ask_other(&free, q->work, q->input, q->input_length, &a);
    check_known(q, &a);
    uint32_t number = full->outcome.number, without = a.outcome.number;
    if (without != 0) {
        must(number == without || number == 1 || (number == 5 && without == 6), "limits change a refusal to 1, or 6 to 5");
        must(q->known != 2 || (number == 1) == !limits_have_place(q), "a limit without its place in some list is 1, before 2");
        return;
    }
    text_of(&free, &a, text);
    must(number == limited_number(&q->limits, text), "limits have the number that they say");
    must(number != 0 || same(full, &a), "what limits leave has the same answer");
    check_seconds(q, &a, text);
    check_years(q, &a, text);
}

static void check_without_limits(const struct question *q, const struct answer *full)
{
    char text[ANAFZIR_ROOM + 1];
    check_known(q, full);
    if (full->outcome.number != 0)
        return;
    text_of(q, full, text);
    check_seconds(q, full, text);
    check_years(q, full, text);
}

static int has_limits(const struct anafzir_limits *l)
{
    return l->years != 0 || l->lowest != 0 || l->highest != 0 || l->no_hour_24 != 0 || l->counts != 0 ||
           l->lowest_count != 0 || l->highest_count != 0;
}

/* What follows from the answer in a room that is enough. */
static void check_full(const struct question *q, const struct answer *full)
{
    check_rooms(q, full);
    if (full->outcome.number == 0 && decodes(q->work))
        check_decoded(q, full);
    if (full->outcome.number == 0 && !decodes(q->work))
        check_encoded(q, full);
    if (!decodes(q->work))
        check_other_encoding(q, full);
    if (has_limits(&q->limits))
        check_limits(q, full);
    else
        check_without_limits(q, full);
}

uint32_t check(const struct question *q)
{
    struct answer given, full;
    begin(q);
    next_step("the question itself");
    ask(q, MARKED, &given);
    check_twice(q, &given);
    full = given;
    next_step("the question in ANAFZIR_ROOM");
    if (q->room_length != ANAFZIR_ROOM)
        ask_other(q, q->work, q->input, q->input_length, &full);
    check_room(q->room_length, &given, &full);
    check_full(q, &full);
    begin(NULL);
    return given.outcome.number;
}

/* The octets of hex; their count, or -1. */
static long unhex(const char *hex, uint8_t *octets)
{
    size_t length = strcmp(hex, "-") == 0 ? 0 : strlen(hex);
    if (length % 2 != 0 || length / 2 > LONGEST)
        return -1;
    for (size_t i = 0; i < length / 2; i++) {
        char pair[3] = {hex[2 * i], hex[2 * i + 1], 0}, *end;
        octets[i] = (uint8_t)strtoul(pair, &end, 16);
        if (*end != 0)
            return -1;
    }
    return (long)(length / 2);
}

static int read_limits(const char *word, struct anafzir_limits *l)
{
    return sscanf(word, "%" SCNu32 ",%" SCNd32 ",%" SCNd32 ",%" SCNu32 ",%" SCNu32 ",%" SCNu32 ",%" SCNu32, &l->years,
                  &l->lowest, &l->highest, &l->no_hour_24, &l->counts, &l->lowest_count, &l->highest_count) == 7;
}

/* The work of a name; WORK_COUNT for none. */
static enum work read_work(const char *word)
{
    int i = 0;
    while (i < WORK_COUNT && strcmp(name_of((enum work)i), word) != 0)
        i++;
    return (enum work)i;
}

int check_again(int count, char **words)
{
    static uint8_t type[LONGEST], input[LONGEST];
    struct question q = {WORK_COUNT, NO_LIMITS, type, 0, input, 0, 0, 0, UNKNOWN};
    if (count != 7 || (q.work = read_work(words[0])) == WORK_COUNT || !read_limits(words[1], &q.limits))
        return 0;
    long type_length = unhex(words[2], type), input_length = unhex(words[3], input);
    unsigned long room_length = strtoul(words[4], NULL, 10);
    if (type_length < 0 || input_length < 0 || room_length > LONGEST)
        return 0;
    q.type_length = (size_t)type_length;
    q.input_length = (size_t)input_length;
    q.room_length = room_length;
    q.places = strtoul(words[5], NULL, 10) & EVERY_PLACE;
    q.known = (uint32_t)strtoul(words[6], NULL, 10);
    printf("%" PRIu32 "\n", check(&q));
    return 1;
}

void print_counts(const unsigned long long counts[8])
{
    unsigned long long sum = 0;
    for (int i = 0; i < 8; i++)
        sum += counts[i];
    printf("%llu questions, %llu calls; answers by number:", sum, calls_made());
    for (int i = 0; i < 8; i++)
        printf(" %d: %llu%s", i, counts[i], i < 7 ? "," : "\n");
}
