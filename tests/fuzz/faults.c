/* Wrong libraries, to see that the drivers notice: each fault stands between a driver and the library, which is linked with
 * -Wl,--wrap for each entry point. The environment's ANAFZIR_FAULT names one; without it the library is as it is. `run` reads the
 * names and what they violate from the table of this file. */
#include "faults.h"

#include <stdio.h>
#include <stdlib.h>
#include <string.h>

#define ARGUMENTS                                                                                                            \
    const uint8_t *type, size_t type_length, struct anafzir_limits limits, const uint8_t *input, size_t input_length,        \
        uint8_t *room, size_t room_length

outcome __real_anafzir_per_encode(ARGUMENTS);
outcome __real_anafzir_per_decode(ARGUMENTS);
outcome __real_anafzir_der_encode(ARGUMENTS);
outcome __real_anafzir_der_decode(ARGUMENTS);
outcome __wrap_anafzir_per_encode(ARGUMENTS);
outcome __wrap_anafzir_per_decode(ARGUMENTS);
outcome __wrap_anafzir_der_encode(ARGUMENTS);
outcome __wrap_anafzir_der_decode(ARGUMENTS);

static const outcome NUMBER_3 = {3, 0, 0}, NUMBER_4 = {4, 0, 0}, NUMBER_7 = {7, 0, 0};

outcome real(const struct call *c)
{
    outcome (*const REAL[])(ARGUMENTS) = {
        [PER] = __real_anafzir_per_encode,
        [UNPER] = __real_anafzir_per_decode,
        [DER] = __real_anafzir_der_encode,
        [UNDER] = __real_anafzir_der_decode,
    };
    return REAL[c->work](c->type, c->type_length, c->limits, c->input, c->input_length, c->room, c->room_length);
}

outcome real_on(struct call c, const uint8_t *input, size_t length)
{
    c.input = input;
    c.input_length = length;
    return real(&c);
}

outcome real_aside(struct call c, uint8_t octets[ANAFZIR_ROOM])
{
    c.room = octets;
    c.room_length = ANAFZIR_ROOM;
    return real(&c);
}

outcome refused(uint32_t number)
{
    outcome o = {number, 0, 0};
    return o;
}

/* Whether octets have a string in them, and whether the input has. */
static int has_string(const uint8_t *octets, size_t count, const char *string)
{
    size_t length = strlen(string);
    for (size_t i = 0; i + length <= count; i++)
        if (memcmp(octets + i, string, length) == 0)
            return 1;
    return 0;
}

static int has(const struct call *c, const char *string)
{
    return has_string(c->input, c->input_length, string);
}

static outcome refusal_writes(struct call *c)
{
    outcome o = real(c);
    if (o.number == 3 && c->room_length > 0)
        c->room[c->room_length - 1] ^= 1;
    return o;
}

static outcome short_room_written(struct call *c)
{
    outcome o = real(c);
    if (o.number == 7 && c->room_length > 0)
        memset(c->room, 0x1F, c->room_length);
    return o;
}

static outcome refusal_length(struct call *c)
{
    outcome o = real(c);
    o.length += o.number == 4;
    return o;
}

static outcome refusal_bits(struct call *c)
{
    outcome o = real(c);
    o.bits += o.number == 5 && in_per(c->work);
    return o;
}

static outcome number_8(struct call *c)
{
    outcome o = real(c);
    o.number = o.number == 2 ? 8 : o.number;
    return o;
}

static outcome encoding_6(struct call *c)
{
    outcome o = real(c);
    o.number = o.number == 5 && !decodes(c->work) ? 6 : o.number;
    return o;
}

static outcome bits_more(struct call *c)
{
    outcome o = real(c);
    o.bits += c->work == PER && o.bits % 8 == 7;
    return o;
}

static outcome bits_filled(struct call *c)
{
    outcome o = real(c);
    o.bits = in_per(c->work) ? (o.bits + 7) / 8 * 8 + (o.bits % 8 == 0 && o.number == 0) : o.bits;
    return o;
}

static outcome decoder_bits(struct call *c)
{
    outcome o = real(c);
    o.bits = c->work == UNPER ? (o.bits + 7) / 8 * 8 : o.bits;
    return o;
}

static outcome der_bits(struct call *c)
{
    outcome o = real(c);
    o.bits = c->work == UNDER && o.number == 0 ? (uint32_t)c->input_length * 8 : o.bits;
    return o;
}

/* Looks past the last bit for a filling that is not zero. */
static outcome filling_taken(struct call *c)
{
    outcome o = real(c);
    uint8_t octets[ANAFZIR_ROOM];
    if (c->work != UNPER || o.number != 6 || c->input_length > sizeof octets)
        return o;
    memcpy(octets, c->input, c->input_length);
    octets[c->input_length - 1] &= 0xFE;
    return real_on(*c, octets, c->input_length);
}

static outcome left_over_taken(struct call *c)
{
    outcome o = real(c);
    return c->work == UNDER && o.number == 6 ? real_on(*c, c->input, c->input_length - 1) : o;
}

static outcome comma_taken(struct call *c)
{
    outcome o = real(c);
    uint8_t octets[ANAFZIR_ROOM];
    if (c->work != UNDER || o.number != 6 || c->input_length > sizeof octets)
        return o;
    for (size_t i = 0; i < c->input_length; i++)
        octets[i] = c->input[i] == ',' ? '.' : c->input[i];
    return real_on(*c, octets, c->input_length);
}

static outcome rest_written(struct call *c)
{
    outcome o = real(c);
    if (o.number == 0 && o.length < c->room_length)
        c->room[o.length] = 0;
    return o;
}

static outcome past_room_written(struct call *c)
{
    c->room[c->room_length] = 0;
    return real(c);
}

/* Reads an octet without any use for it. */
static void look_at(const uint8_t *octet)
{
    (void)*(const volatile uint8_t *)octet;
}

static outcome past_input_read(struct call *c)
{
    if (c->input_length > 0)
        look_at(c->input + c->input_length);
    return real(c);
}

static outcome before_input_read(struct call *c)
{
    if (c->input_length > 0)
        look_at(c->input - 1);
    return real(c);
}

static outcome past_type_read(struct call *c)
{
    if (c->type_length > 0)
        look_at(c->type + c->type_length);
    return real(c);
}

static outcome null_read(struct call *c)
{
    look_at(c->input);
    return real(c);
}

static outcome input_changed(struct call *c)
{
    outcome o = real(c);
    if (c->input_length > 0 && c->input[0] == 'P')
        *(uint8_t *)c->input = 'p';
    return o;
}

static outcome type_changed(struct call *c)
{
    outcome o = real(c);
    if (c->type_length > 4)
        *(uint8_t *)(c->type + 4) = 0;
    return o;
}

static outcome state_kept(struct call *c)
{
    static int turn;
    outcome o = real(c);
    turn = !turn;
    return turn && o.number == 4 ? NUMBER_3 : o;
}

static outcome room_looked_at(struct call *c)
{
    int odd = c->room_length > 0 && (c->room[0] & 1) != 0;
    return odd ? NUMBER_7 : real(c);
}

static outcome null_type(struct call *c)
{
    return c->type == NULL ? NUMBER_3 : real(c);
}

static outcome null_room(struct call *c)
{
    return c->room == NULL && c->type_length > 0 ? NUMBER_7 : real(c);
}

static outcome room_needs_more(struct call *c)
{
    uint8_t octets[ANAFZIR_ROOM];
    outcome o = real_aside(*c, octets);
    return o.number == 0 && o.length == c->room_length ? NUMBER_7 : real(c);
}

static outcome long_result_7(struct call *c)
{
    uint8_t octets[ANAFZIR_ROOM];
    outcome o = real_aside(*c, octets);
    return !decodes(c->work) && o.number == 0 && o.length > 20 ? NUMBER_7 : real(c);
}

static outcome short_room_3(struct call *c)
{
    outcome o = real(c);
    o.number = o.number == 7 ? 3 : o.number;
    return o;
}

static outcome length_past_room(struct call *c)
{
    outcome o = real(c);
    o.length = o.number == 0 && c->work == UNDER ? c->room_length + 1 : o.length;
    return o;
}

static outcome no_result(struct call *c)
{
    outcome o = real(c);
    o.length = o.number == 0 && c->work == UNDER ? 0 : o.length;
    return o;
}

static outcome comma_given(struct call *c)
{
    outcome o = real(c);
    uint8_t *stop = decodes(c->work) && o.number == 0 ? memchr(c->room, '.', o.length) : NULL;
    if (stop != NULL)
        *stop = ',';
    return o;
}

static outcome filling_written(struct call *c)
{
    outcome o = real(c);
    if (c->work == PER && o.number == 0 && o.bits % 8 != 0)
        c->room[o.length - 1] |= 1;
    return o;
}

/* Two values share an encoding: the last digit of a text is lost. */
static outcome digit_lost(struct call *c)
{
    uint8_t octets[ANAFZIR_ROOM];
    size_t length = c->input_length;
    if (decodes(c->work) || length == 0 || length > sizeof octets || c->input[length - 1] != '9')
        return real(c);
    memcpy(octets, c->input, length);
    octets[length - 1] = '8';
    return real_on(*c, octets, length);
}

/* A text with a needless octet at its end is taken. */
static outcome newline_taken(struct call *c)
{
    int ends = !decodes(c->work) && c->input_length > 0 && c->input[c->input_length - 1] == '\n';
    return ends ? real_on(*c, c->input, c->input_length - 1) : real(c);
}

static outcome years_ignored(struct call *c)
{
    c->limits.years = 0;
    return real(c);
}

static outcome highest_left_out(struct call *c)
{
    c->limits.highest -= c->limits.highest > INT32_MIN;
    return real(c);
}

static outcome hour_24_ignored(struct call *c)
{
    c->limits.no_hour_24 = 0;
    return real(c);
}

static outcome counts_ignored(struct call *c)
{
    c->limits.counts = 0;
    return real(c);
}

static outcome limits_always_looked_at(struct call *c)
{
    c->limits.years |= c->limits.lowest != 0;
    return real(c);
}

static outcome good_refused(struct call *c)
{
    return !decodes(c->work) && has(c, "24:00") ? NUMBER_4 : real(c);
}

static outcome der_refuses(struct call *c)
{
    outcome o = real(c);
    return c->work == DER && o.number == 5 ? NUMBER_4 : o;
}

static outcome decoder_refuses(struct call *c)
{
    uint8_t octets[ANAFZIR_ROOM];
    outcome o = real_aside(*c, octets);
    return decodes(c->work) && o.number == 0 && octets[o.length - 1] == 'Z' ? NUMBER_4 : real(c);
}

/* The next ones are wrong about second 60 (#102), in both encodings and both ways alike: they ask the library for second 59, which
 * every minute has, and put 60 there. */

/* Where a text, or the contents of DER, have the seconds; 0 where there are none. Under a name's tag the contents end in them. */
static size_t seconds_in(const uint8_t *octets, size_t length)
{
    const uint8_t *colon = length == 0 ? NULL : memchr(octets, ':', length);
    size_t place = colon == NULL ? 0 : (size_t)(colon - octets) + 4;
    if (length > 2 && octets[0] == 0x1F)
        return length - 2;
    return place >= 6 && place + 2 <= length && octets[place - 1] == ':' ? place : 0;
}

/* Turns so many bits up to this one: three make second 60 of second 59 and the other way round, one makes 58 of 59. */
static void turn(uint8_t *octets, size_t last, size_t count)
{
    for (size_t bit = last + 1 - count; bit <= last; bit++)
        octets[bit / 8] ^= (uint8_t)(0x80u >> bit % 8);
}

/* Whether octets of PER are decoded to so many seconds, limits aside. */
static int has_seconds(struct call c, const uint8_t *octets, const char *seconds)
{
    uint8_t text[ANAFZIR_ROOM];
    memset(&c.limits, 0, sizeof c.limits);
    c.input = octets;
    outcome o = real_aside(c, text);
    size_t place = seconds_in(text, o.length);
    return place > 0 && memcmp(text + place, seconds, 2) == 0;
}

/* Puts second 59 for second 60 into octets of PER, at the bits which make it 58 where the last one is turned. Whether it could. Only
 * names have `TIME` in capitals. */
static int put_59_in_bits(const struct call *c, uint8_t *octets)
{
    if (!has_string(c->type, c->type_length, "HMS") && !has_string(c->type, c->type_length, "TIME"))
        return 0;
    for (size_t last = 5; last < 8 * c->input_length; last++) {
        turn(octets, last, 3);
        int is_59 = has_seconds(*c, octets, "59");
        turn(octets, last, 1);
        int is_58 = is_59 && has_seconds(*c, octets, "58");
        turn(octets, last, 1);
        if (is_58)
            return 1;
        turn(octets, last, 3);
    }
    return 0;
}

/* The input with second 59 for its second 60. Whether it has one. */
static int put_59(const struct call *c, uint8_t octets[ANAFZIR_ROOM])
{
    size_t place = seconds_in(c->input, c->input_length);
    if (c->input_length == 0 || c->input_length > ANAFZIR_ROOM)
        return 0;
    memcpy(octets, c->input, c->input_length);
    if (c->work == UNPER)
        return put_59_in_bits(c, octets);
    if (place == 0 || memcmp(octets + place, "60", 2) != 0)
        return 0;
    memcpy(octets + place, "59", 2);
    return 1;
}

/* Puts second 60 for second 59 into the result of a text or of octets with second 59. */
static void put_60(struct call c, uint8_t *given, uint8_t *result, size_t length)
{
    uint8_t other[ANAFZIR_ROOM];
    size_t last = 0;
    if (c.work != PER) {
        memcpy(result + seconds_in(result, length), "60", 2);
        return;
    }
    given[seconds_in(given, c.input_length) + 1] = '8';
    c.input = given;
    real_aside(c, other);
    while (last < 8 * length && ((result[last / 8] ^ other[last / 8]) & 0x80u >> last % 8) == 0)
        last++;
    turn(result, last, 3);
}

/* A second 60: its minute of the local day, whether a fraction follows, Z or a sign or 0, and the difference with its sign. */
struct leap {
    int minute, fraction, zone, hours, minutes;
};

static struct leap leap_in(const uint8_t *text, size_t length)
{
    char string[ANAFZIR_ROOM + 1] = {0};
    struct leap l = {0, 0, 0, 0, 0};
    size_t place = seconds_in(text, length);
    memcpy(string, text, length);
    const char *zone = strpbrk(string + place, "Z+-");
    l.minute = 60 * atoi(string + place - 6) + atoi(string + place - 3);
    l.fraction = string[place + 2] == '.' || string[place + 2] == ',';
    if (zone == NULL)
        return l;
    int sign = *zone == '-' ? -1 : 1;
    l.zone = *zone;
    l.hours = sign * atoi(zone + 1);
    l.minutes = *zone != 'Z' && zone[3] == ':' ? sign * atoi(zone + 4) : 0;
    return l;
}

/* The answer where second 60 is taken by another rule: the one to second 59, with 60 in its place, or 4. */
static outcome by_rule(struct call *c, int (*taken)(const struct leap *))
{
    uint8_t given[ANAFZIR_ROOM], result[ANAFZIR_ROOM];
    struct call with_59 = *c;
    outcome o = real_aside(*c, result);
    if ((o.number != 0 && o.number != 4 && o.number != 5) || !put_59(c, given))
        return real(c);
    with_59.input = given;
    memset(&with_59.limits, 0, sizeof with_59.limits);
    o = real_aside(with_59, result);
    if (o.number != 0)
        return real(c);
    struct leap l = decodes(c->work) ? leap_in(result, o.length) : leap_in(given, c->input_length);
    if (!taken(&l))
        return NUMBER_4;
    with_59.limits = c->limits;
    o = real_aside(with_59, result);
    if (o.number != 0 || o.length > c->room_length)
        return o.number != 0 ? o : NUMBER_7;
    put_60(*c, given, result, o.length);
    memcpy(c->room, result, o.length);
    return o;
}

/* Whether a minute is 23:59, around the day. */
static int is_last(int minute)
{
    return (minute + 2 * 1440) % 1440 == 1439;
}

static int is_right(const struct leap *l)
{
    return l->zone == 0 || is_last(l->minute - 60 * l->hours - l->minutes);
}

static int always(const struct leap *l)
{
    (void)l;
    return 1;
}

static int right_or_utc(const struct leap *l)
{
    return l->zone == 'Z' || is_right(l);
}

static int right_with_other_sign(const struct leap *l)
{
    return l->zone == 0 || is_last(l->minute + 60 * l->hours + l->minutes);
}

static int right_with_either_sign(const struct leap *l)
{
    return is_right(l) || right_with_other_sign(l);
}

static int right_or_a_minute_later(const struct leap *l)
{
    return is_right(l) || is_last(l->minute - 60 * l->hours - l->minutes - 1);
}

static int right_on_the_day(const struct leap *l)
{
    return l->zone == 0 || l->minute - 60 * l->hours - l->minutes == 1439;
}

static int right_by_hours(const struct leap *l)
{
    return l->zone == 0 || is_last(l->minute - 60 * l->hours);
}

static int right_without_the_sign_of_minutes(const struct leap *l)
{
    return l->zone == 0 || is_last(l->minute - 60 * l->hours - abs(l->minutes));
}

static int right_as_local_time(const struct leap *l)
{
    return l->zone == 0 || is_last(l->minute);
}

static int right_and_last_if_local(const struct leap *l)
{
    return is_right(l) && (l->zone != 0 || is_last(l->minute));
}

static int right_and_whole(const struct leap *l)
{
    return is_right(l) && !l->fraction;
}

static outcome second_60_in_utc(struct call *c)
{
    return by_rule(c, right_or_utc);
}

static outcome second_60_in_bits(struct call *c)
{
    return c->work == UNPER ? by_rule(c, always) : real(c);
}

static outcome second_60_in_contents(struct call *c)
{
    return c->work == UNDER ? by_rule(c, always) : real(c);
}

static outcome difference_added(struct call *c)
{
    return by_rule(c, right_with_other_sign);
}

static outcome difference_either_way(struct call *c)
{
    return by_rule(c, right_with_either_sign);
}

static outcome minute_later_taken(struct call *c)
{
    return by_rule(c, right_or_a_minute_later);
}

static outcome day_not_turned(struct call *c)
{
    return by_rule(c, right_on_the_day);
}

static outcome minutes_left_out(struct call *c)
{
    return by_rule(c, right_by_hours);
}

static outcome minutes_without_sign(struct call *c)
{
    return by_rule(c, right_without_the_sign_of_minutes);
}

static outcome difference_ignored(struct call *c)
{
    return by_rule(c, right_as_local_time);
}

static outcome local_60_refused(struct call *c)
{
    return by_rule(c, right_and_last_if_local);
}

static outcome fraction_of_60_refused(struct call *c)
{
    return by_rule(c, right_and_whole);
}

static outcome second_60_in_bits_3(struct call *c)
{
    uint8_t octets[ANAFZIR_ROOM];
    outcome o = real(c);
    return c->work == UNPER && o.number == 4 && put_59(c, octets) ? NUMBER_3 : o;
}

/* A refused second 60 has another number where second 59 has it. */
static outcome second_60_after(struct call *c, uint32_t number)
{
    uint8_t given[ANAFZIR_ROOM], result[ANAFZIR_ROOM];
    struct call with_59 = *c;
    outcome o = real(c);
    if (o.number != 4 || !put_59(c, given))
        return o;
    with_59.input = given;
    outcome other = real_aside(with_59, result);
    return other.number == number ? other : o;
}

static outcome second_60_after_5(struct call *c)
{
    return second_60_after(c, 5);
}

static outcome second_60_after_6(struct call *c)
{
    return second_60_after(c, 6);
}

static outcome no_return(struct call *c)
{
    volatile int wait = has(c, "-W53");
    while (wait)
        ;
    return real(c);
}

static outcome trap(struct call *c)
{
    if (has(c, "-W01"))
        __builtin_trap();
    return real(c);
}

/* The faults, and what each one violates; a bar stands between two of which one is seen first. */
static const struct {
    const char *name, *violated;
    outcome (*run)(struct call *);
} FAULTS[] = {
    {"refusal-writes", "a refusal leaves the room as it was", refusal_writes},
    {"short-room-written", "a refusal leaves the room as it was", short_room_written},
    {"refusal-length", "a refusal has length 0 and no bits", refusal_length},
    {"refusal-bits", "a refusal has length 0 and no bits", refusal_bits},
    {"number-8", "the number is 0 to 7", number_8},
    {"encoding-6", "encoding never gives 6", encoding_6},
    {"bits-more", "the decoder reports the encoder's bits", bits_more},
    {"bits-filled", "the bits take the encoding's octets", bits_filled},
    {"decoder-bits", "the decoder reports the encoder's bits", decoder_bits},
    {"der-bits", "DER reports no bits", der_bits},
    {"filling-taken", "the decoder takes what the encoder writes and nothing more", filling_taken},
    {"left-over-taken", "the decoder takes what the encoder writes and nothing more", left_over_taken},
    {"comma-taken", "the decoder takes what the encoder writes and nothing more", comma_taken},
    {"rest-written", "the rest of the room is as it was", rest_written},
    {"past-room-written", "a call touches its own octets alone|the room as it was|room is as it was", past_room_written},
    {"past-input-read", "a call touches its own octets alone", past_input_read},
    {"before-input-read", "a call touches its own octets alone", before_input_read},
    {"past-type-read", "a call touches its own octets alone", past_type_read},
    {"null-read", "a call touches its own octets alone", null_read},
    {"input-changed", "the input is as it was", input_changed},
    {"type-changed", "the type is as it was", type_changed},
    {"state-kept", "the same question has the same answer", state_kept},
    {"room-looked-at", "the same question has the same answer|ANAFZIR_ROOM is always enough", room_looked_at},
    {"null-type", "NULL for no octets has the same answer", null_type},
    {"null-room", "NULL for no octets has the same answer", null_room},
    {"room-needs-more", "a room that is long enough has the same answer", room_needs_more},
    {"long-result-7", "ANAFZIR_ROOM is always enough", long_result_7},
    {"short-room-3", "a room shorter than the result is 7", short_room_3},
    {"length-past-room", "the result lies in the room", length_past_room},
    {"no-result", "a result has octets", no_result},
    {"comma-given", "a text comes back as its canonical text|a decoded text is canonical", comma_given},
    {"filling-written", "the filling is zero bits", filling_written},
    {"digit-lost", "a text comes back as its canonical text", digit_lost},
    {"newline-taken", "a text comes back as its canonical text", newline_taken},
    {"years-ignored", "limits have the number that they say", years_ignored},
    {"highest-left-out", "limits have the number that they say", highest_left_out},
    {"hour-24-ignored", "limits have the number that they say", hour_24_ignored},
    {"counts-ignored", "limits have the number that they say", counts_ignored},
    {"limits-always-looked-at", "limits have the number that they say", limits_always_looked_at},
    {"good-refused", "a good input is taken", good_refused},
    {"der-refuses", "a text has the same number in PER and in DER", der_refuses},
    {"decoder-refuses", "the decoder takes what the encoder writes|a good input is taken", decoder_refuses},
    {"second-60-in-utc", "second 60 elsewhere is 4", second_60_in_utc},
    {"second-60-in-bits", "second 60 elsewhere is 4|the encoder takes what the decoder gives", second_60_in_bits},
    {"second-60-in-contents", "second 60 elsewhere is 4|the encoder takes what the decoder gives", second_60_in_contents},
    {"difference-added", "second 60 elsewhere is 4|second 60 is taken where it can be|a good input is taken", difference_added},
    {"difference-either-way", "second 60 elsewhere is 4", difference_either_way},
    {"minute-later-taken", "second 60 elsewhere is 4", minute_later_taken},
    {"day-not-turned", "second 60 is taken where it can be|a good input is taken", day_not_turned},
    {"minutes-left-out", "second 60 elsewhere is 4|second 60 is taken where it can be|a good input is taken", minutes_left_out},
    {"minutes-without-sign", "second 60 is taken where it can be|a good input is taken", minutes_without_sign},
    {"difference-ignored", "second 60 elsewhere is 4|second 60 is taken where it can be|a good input is taken", difference_ignored},
    {"local-60-refused", "second 60 is taken where it can be|a good input is taken", local_60_refused},
    {"fraction-of-60-refused", "second 60 is taken where it can be|a good input is taken", fraction_of_60_refused},
    {"second-60-in-bits-3", "second 60 elsewhere is 4", second_60_in_bits_3},
    {"second-60-after-5", "second 60 elsewhere is 4", second_60_after_5},
    {"second-60-after-6", "second 60 elsewhere is 4", second_60_after_6},
    {"neighbours-compared", "a type that is none is 1", neighbours_compared},
    {"first-compared", "a type that is none is 1", first_compared},
    {"seventh-list-ignored", "a type that is none is 1", seventh_list_ignored},
    {"last-list-ignored", "a good input is taken|a year of the type's settings is taken", last_list_ignored},
    {"three-lists-refused", "a good input is taken|lists that make no row are 2", three_lists_refused},
    {"six-lists-refused", "a good input is taken|lists that make no row are 2", six_lists_refused},
    {"order-of-lists", "a good input is taken", order_of_lists},
    {"mixed-lists-taken", "lists that make no row are 2", mixed_lists_taken},
    {"two-before-equal", "a type that is none is 1", two_before_equal},
    {"two-before-limits", "a limit without its place in some list is 1, before 2", two_before_limits},
    {"l7-as-l6", "a good input is taken|a year of the type's settings is taken", l7_as_l6},
    {"l66-as-l6", "a type that is none is 1", l66_as_l6},
    {"leading-0-taken", "a year that is not of the form is 3|a text comes back as its canonical text", leading_0_taken},
    {"ten-digits-5", "a year that is not of the form is 3", ten_digits_5},
    {"l9-to-32-bits", "a year of no setting of the type is 5", l9_to_32_bits},
    {"l9-ends-early", "a good input is taken|a year of the type's settings is taken", l9_ends_early},
    {"other-length-3", "a year of no setting of the type is 5", other_length_3},
    {"other-length-in-bits-3", "a year of no setting of the type is 5", other_length_in_bits_3},
    {"five-before-four", "30 February is 4 in every year", five_before_four},
    {"leap-years-by-16-bits", "a good input is taken|a year of", leap_years_by_16_bits},
    {"four-octets-always", "a year of the type's settings is taken|a year of no setting of the type is 5", four_octets_always},
    {"limits-of-five-digits", "limits have the number that they say|a year of no setting of the type is 5", limits_of_five_digits},
    {"no-return", "a call returns", no_return},
    {"trap", "a call returns", trap},
};

enum { FAULT_COUNT = sizeof FAULTS / sizeof *FAULTS };

/* The place of the fault that is named; FAULT_COUNT for none. */
static int chosen_fault(void)
{
    static int chosen = -1;
    const char *name = getenv("ANAFZIR_FAULT");
    if (chosen >= 0)
        return chosen;
    chosen = name == NULL ? FAULT_COUNT : 0;
    while (chosen < FAULT_COUNT && strcmp(FAULTS[chosen].name, name) != 0)
        chosen++;
    return chosen;
}

static outcome make(struct call c)
{
    int chosen = chosen_fault();
    return chosen < FAULT_COUNT ? FAULTS[chosen].run(&c) : real(&c);
}

#define CALL(work) {work, type, type_length, limits, input, input_length, room, room_length}

outcome __wrap_anafzir_per_encode(ARGUMENTS)
{
    struct call c = CALL(PER);
    return make(c);
}

outcome __wrap_anafzir_per_decode(ARGUMENTS)
{
    struct call c = CALL(UNPER);
    return make(c);
}

outcome __wrap_anafzir_der_encode(ARGUMENTS)
{
    struct call c = CALL(DER);
    return make(c);
}

outcome __wrap_anafzir_der_decode(ARGUMENTS)
{
    struct call c = CALL(UNDER);
    return make(c);
}
