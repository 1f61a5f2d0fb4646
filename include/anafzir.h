/* ASN.1 dates, times and durations: the text of a value becomes unaligned PER (X.691
 * Amendment 2) or DER (X.690 Amendment 2), and octets of either become text again.
 *
 * Each function takes any octets as a type, as a text and as an encoding, and any room; it
 * always returns, keeps no state, allocates nothing and writes to the room alone. Functions
 * may be called from several threads at once, each with its own room.
 *
 * A pointer points to as many octets as the length behind it says. Where the length is 0 it
 * is not looked at, and may be NULL. The room does not overlap the type or the input.
 *
 * Link with libanafzir (`pkg-config --cflags --libs anafzir` once it is installed), or with
 * libcodec.a, which `make build/libcodec.a` writes and which has the four functions that
 * encode and decode.
 */
#ifndef ANAFZIR_H
#define ANAFZIR_H

#include <stddef.h>
#include <stdint.h>

#ifdef __cplusplus
extern "C" {
#endif

/* The version of this header. Until 1.0.0 a new second number may change what is here. */
#define ANAFZIR_VERSION "0.3.0"

/* Room of so many octets is enough for every result, of every function. */
#define ANAFZIR_ROOM 136

/* What `number` of an outcome says: success, or why there is no result. Where several
 * reasons hold, the lowest number is given. */
enum {
    /* There is a result. */
    ANAFZIR_DONE = 0,
    /* The type cannot be read: a word that is no setting, a setting that is missing or stands
     * twice, a name beside a bar, more than six lists, any two lists that are equal; or a limit
     * that has no place in one of the lists: years without a date, hour 24 without a time,
     * counts. So a duration has no place for any limit. */
    ANAFZIR_BAD_TYPE = 1,
    /* The type's lists can each be read and do not belong together: two of them differ in more
     * than Year, or one has Basic or Proleptic and one Negative or L5 to L9. */
    ANAFZIR_MIXED_TYPE = 2,
    /* The input does not look like a value of the type: a text, or contents in DER, with other
     * fields, separators or numbers of digits; octets that end too early; in PER a number that no
     * field has; in DER another tag, or a length above 127. In a duration a needless leading zero,
     * a fraction before the last component, a number or a fraction of no digits or of more than
     * nine, no component, or weeks beside another one; in PER also a negative number, or a
     * fraction too large for its digits. */
    ANAFZIR_BAD_FORM = 3,
    /* It looks right, and there is no such date, time or difference: 30 February, 24:00:01,
     * 12:34:60Z. */
    ANAFZIR_NO_SUCH_VALUE = 4,
    /* The value exists, and the type does not have it: a Year setting that none of its lists has,
     * such as six digits where it has five, a year outside the lowest and highest, hour 24 where
     * it is excluded. Every duration exists, and both types of durations have it: with them there
     * is no 4 and no 5. */
    ANAFZIR_NOT_IN_TYPE = 5,
    /* Decoding only: the octets give a value, and they are not what the encoder writes for it:
     * octets are left over; in PER a number takes more bits than it needs, also after a 1 bit
     * where it fits without, or the filling is not zero; in DER there is a comma, or minutes 00 in
     * a difference; in a duration a component before the last is zero. */
    ANAFZIR_NOT_CANONICAL = 6,
    /* All is well, and the room is shorter than the result. ANAFZIR_ROOM is always enough. A
     * duration takes at most 72 octets as a text, 39 in PER and 74 in DER. */
    ANAFZIR_SHORT_ROOM = 7
};

/* What a type leaves out besides its settings. All zero: nothing. */
struct anafzir_limits {
    /* 0: every year of the type's settings. Any other number: only the years from lowest to
     * highest, both included; the type must have a date. */
    uint32_t years;
    /* The lowest and the highest year, as astronomical years: 0 is the year 0000, -1 is -0001.
     * A lowest above the highest leaves no year. Not looked at where years is 0. */
    int32_t lowest;
    int32_t highest;
    /* 0: 24:00:00 is a time. Any other number: it is none; the type must have a time. */
    uint32_t no_hour_24;
    /* Counts of recurrences. No type has any yet: where counts is not 0, the number is 1. The
     * other two are not looked at. Set all three to 0. */
    uint32_t counts;
    uint32_t lowest_count;
    uint32_t highest_count;
};

/* What a function returns. */
struct anafzir_outcome {
    /* 0, or the number of a refusal. */
    uint32_t number;
    /* In PER how many bits the encoding has before the last octet is filled, both when
     * encoding and when decoding; 0 in DER and after a refusal. */
    uint32_t bits;
    /* How many octets of the room the result takes, from its first on; the others are as they
     * were. 0 after a refusal: then the whole room is as it was. */
    size_t length;
};

/* A type is a name, a list of settings, or up to six lists with `|` between them. docs/TYPES.md
 * has all of this with examples in PER and in DER, and what is not there.
 *
 * A list is pairs Property=Setting with one space between, in any order, each property once.
 * It has Basic, and exactly the properties that its setting of Basic names here.
 *
 *   Setting            A text          What it is
 *
 *   Basic=Date         2006            a date, by Date and Year
 *   Basic=Time         15              a time, by Time and Local-or-UTC
 *   Basic=Date-Time    2006T15         both with a T between, by all four
 *   Basic=Interval     P1Y6M           a duration, by Interval-type
 *
 *   Date=Y             2006            year
 *   Date=YM            2006-06         year and month
 *   Date=YMD           2006-06-13      year, month and day
 *   Date=YD            2006-164        year and day of the year, 001 to 366
 *   Date=YW            2006-W24        year and week, 01 to 53; week 01 has 4 January
 *   Date=YWD           2006-W24-2      year, week and day, 1 (Monday) to 7
 *
 *   Year=Basic         2006            1582 to 9999
 *   Year=Proleptic     1066            0000 to 1581
 *   Year=Negative      -0044           -9999 to -0001
 *   Year=L5            +12006          a sign and five digits, the first not 0
 *   Year=L6            -129000         the same with six digits
 *   Year=L7            -2580000        with seven
 *   Year=L8            -66000000       with eight
 *   Year=L9            -251902000      with nine
 *
 *   Time=H             15              hours, 00 to 24; at 24 all that follows is 0
 *   Time=HM            15:27           and minutes, 00 to 59
 *   Time=HMS           15:27:46        and seconds, 00 to 60
 *   Time=HFn           15.5            hours with a fraction of exactly n digits, n from 1 to 9
 *   Time=HMFn          15:27.75        the same of minutes
 *   Time=HMSFn         15:27:46.500    the same of seconds
 *
 *   Local-or-UTC=L     15:27           local time
 *   Local-or-UTC=Z     15:27Z          UTC
 *   Local-or-UTC=LD    15:27+05:30     local time with its difference to UTC
 *
 *   Interval-type=D    P1Y6M           the duration by itself
 *
 *   Name               It stands for
 *
 *   DATE               Basic=Date Date=YMD Year=Basic
 *   TIME-OF-DAY        Basic=Time Time=HMS Local-or-UTC=L
 *   DATE-TIME          Basic=Date-Time Date=YMD Year=Basic Time=HMS Local-or-UTC=L
 *   DURATION           Basic=Interval Interval-type=D
 *
 * A name has the texts and the PER of its settings, and a tag of its own in DER. A name stands
 * alone. Lists differ in Year alone, as Basic and Proleptic, or as any of Negative and L5 to L9,
 * in any order; the type then has the years of all of them.
 *
 * Of the limits above, years have a place where there is a date, and no hour 24 where there
 * is a time. A duration has a place for neither, and no type has one for counts.
 *
 * Every field of a date or a time has all its digits. A fraction stands behind a full stop or
 * a comma. A difference is a sign, hours from 00 to 15 and, where there are any, minutes behind
 * a colon; where it is zero, its sign is +. In the canonical text there is no comma, and no
 * difference has minutes 00: "15:27:46,500" becomes "15:27:46.500", and "15:27+01:00" becomes
 * "15:27+01".
 *
 * Second 60 is a leap second, at the end of 23:59 UTC: with Z it exists at 23:59 alone, and with
 * a difference where the time less the difference is 23:59, around the day, as in
 * 05:29:60+05:30. A local time may have it in any minute.
 *
 * The text of a duration looks like "P1Y6M", "PT0.5S" or "P3W": a P, then years (Y), months (M)
 * and days (D), and behind a T hours (H), minutes (M) and seconds (S), those that there are, in
 * this order, each a number before its letter; or weeks (W) alone. A number has one to nine
 * digits. The last one may have a fraction, which is a full stop or a comma and one to nine
 * digits. In the canonical text no component before the last is zero, and there is no comma:
 * "P0Y0M1D" becomes "P1D", "P0Y0M" becomes "P0M", and "P1Y0M" stays. */

/* The octets of a text in unaligned PER. */
struct anafzir_outcome anafzir_per_encode(
    const uint8_t *type, size_t type_length,
    struct anafzir_limits limits,
    const uint8_t *input, size_t input_length,
    uint8_t *room, size_t room_length);

/* The canonical text of octets in unaligned PER. */
struct anafzir_outcome anafzir_per_decode(
    const uint8_t *type, size_t type_length,
    struct anafzir_limits limits,
    const uint8_t *input, size_t input_length,
    uint8_t *room, size_t room_length);

/* The octets of a text in DER: tag, length and contents. */
struct anafzir_outcome anafzir_der_encode(
    const uint8_t *type, size_t type_length,
    struct anafzir_limits limits,
    const uint8_t *input, size_t input_length,
    uint8_t *room, size_t room_length);

/* The canonical text of octets in DER. */
struct anafzir_outcome anafzir_der_decode(
    const uint8_t *type, size_t type_length,
    struct anafzir_limits limits,
    const uint8_t *input, size_t input_length,
    uint8_t *room, size_t room_length);

/* A sentence in English for a number, for people to read: what it says, without the details that
 * are above. It ends in 0, is never NULL and never changes. Any number is taken. This function is
 * in libanafzir and not in libcodec.a; it is written in C, and tested and not proved. */
const char *anafzir_message(uint32_t number);

#ifdef __cplusplus
}
#endif

#endif
