"""Prints what both encoders and both decoders give for some values, texts and octets, and the room after each call.

A line is `WORK;TYPE;LIMITS;INPUT;ROOM = NUMBER LENGTH BITS AFTER`, one for each call. WORK is per, unper, der or under.
LIMITS is one of the names below. INPUT is a text as it stands (per, der), or octets in capital hex digits (unper,
under). ROOM is how many octets are lent, and each of them is AA before the call. NUMBER, LENGTH and BITS are what comes
back; AFTER is the whole room in capital hex digits, nothing where no octet is lent. All numbers are decimal.
"""

import itertools
import sys

import der
import per
from checks import HM_LD, HMS_LD, HMS_Z, HMSF3_L, HMSF4_L, INTERVAL_D, ROOM, SIX_LISTS
from checks import Y_BASIC, Y_L5, Y_L6, Y_L7, Y_L8, Y_L9, Y_NEGATIVE, Y_PROLEPTIC
from checks import YM_L6, YMD_BASIC, YMD_L5, YMD_L9, YMD_PROLEPTIC, YW_L9
from settings import Limits, NO_LIMITS

WORKS = {b"per": per.encode, b"der": der.encode, b"unper": per.decode, b"under": der.decode}

# a lowest and a highest year, and "no hour 24"
LIMITS = {
    b"none": NO_LIMITS,
    b"2000..2010": Limits((2000, 2010), False),
    b"2010..2000": Limits((2010, 2000), False),
    b"-44..-44": Limits((-44, -44), False),
    b"999999999..2147483647": Limits((999999999, 2147483647), False),
    b"no24": Limits(None, True),
    b"2000..2010,no24": Limits((2000, 2010), True),
}

# what the room holds before the call
BEFORE = b"\xAA"

ROOMS_OF_REFUSALS = (0, 1, 24)

YMD_NEGATIVE_L5 = b"Basic=Date Date=YMD Year=Negative|Basic=Date Date=YMD Year=L5"
HMSF3_LD = b"Basic=Time Time=HMSF3 Local-or-UTC=LD"
Y_T_HMS_Z = b"Basic=Date-Time Date=Y Year=Basic Time=HMS Local-or-UTC=Z"
YD_T_H_Z_L9 = b"Basic=Date-Time Date=YD Year=L9 Time=H Local-or-UTC=Z"
SIX_OTHERWISE = b"|".join((Y_L9, Y_L6, Y_NEGATIVE, Y_L8, Y_L5, Y_L7))

# type, limits, canonical text
GOOD_VALUES = (
    (Y_PROLEPTIC, b"none", b"0000"),
    (HMSF4_L, b"none", b"15:27:46.0999"),
    (HMSF4_L, b"none", b"15:27:46.1000"),
    (b"DATE", b"none", b"2006-06-13"),
    (b"DATE", b"none", b"1582-01-01"),
    (b"DATE", b"2000..2010", b"2000-01-01"),
    (b"DATE", b"2000..2010", b"2010-12-31"),
    (b"TIME-OF-DAY", b"none", b"24:00:00"),
    (b"TIME-OF-DAY", b"no24", b"23:59:60"),
    (b"DATE-TIME", b"2000..2010,no24", b"2006-06-13T15:27:46"),
    (YMD_NEGATIVE_L5, b"-44..-44", b"-0044-03-15"),
    (HM_LD, b"none", b"15:27-05:30"),
    (b"DURATION", b"none", b"P1Y6M"),
    (b"DURATION", b"none", b"PT0.5S"),
    (INTERVAL_D, b"none", b"PT0.5S"),
    (b"DURATION", b"none", b"P1D"),
    (INTERVAL_D, b"none", b"P0M"),
    (b"DURATION", b"none", b"P1Y0M"),
    (b"DURATION", b"none", b"P5W"),
    (INTERVAL_D, b"none", b"P64W"),
    (b"DURATION", b"none", b"P2Y10M15DT10H20M30S"),
    (INTERVAL_D, b"none", b"P999999999Y"),
    (b"DURATION", b"none", b"PT0.000S"),
    (INTERVAL_D, b"none", b"PT0.1000S"),
    (b"TIME-OF-DAY", b"none", b"12:34:60"),
    (HMS_Z, b"none", b"23:59:60Z"),
    (HMS_LD, b"none", b"05:29:60+05:30"),
    (HMS_LD, b"none", b"18:59:60-05"),
    (HMS_LD, b"no24", b"23:59:60+00"),
    (HMS_LD, b"none", b"15:58:60+15:59"),
    (HMS_LD, b"none", b"08:00:60-15:59"),
    (HMSF3_LD, b"none", b"00:59:60.999+01"),
    (Y_T_HMS_Z, b"2000..2010,no24", b"2005T23:59:60Z"),
    # an end of each Year setting with digits after a sign, of either sign
    (Y_L5, b"none", b"+10000"),
    (Y_L5, b"none", b"-99999"),
    (Y_L6, b"none", b"+100000"),
    (Y_L6, b"none", b"-999999"),
    (Y_L7, b"none", b"-1000000"),
    (Y_L7, b"none", b"+9999999"),
    (Y_L8, b"none", b"+10000000"),
    (Y_L8, b"none", b"-99999999"),
    (Y_L9, b"none", b"-100000000"),
    (Y_L9, b"none", b"-999999999"),
    (Y_L9, b"999999999..2147483647", b"+999999999"),
    # each length of a free integer, under types of two and of six lists
    (Y_L7 + b"|" + Y_NEGATIVE, b"none", b"-0128"),
    (SIX_LISTS, b"none", b"-0129"),
    (SIX_OTHERWISE, b"none", b"-8388608"),
    (SIX_OTHERWISE, b"none", b"-8388609"),
    # the calendar in such years
    (YMD_L9, b"none", b"+999999600-02-29"),
    (YW_L9, b"none", b"-999999980-W53"),
    (YD_T_H_Z_L9, b"none", b"-999999996-366T24Z"),
)

# type, limits, text
REFUSED_TEXTS = (
    (b"DATE", b"none", b"1581-12-31"),
    (b"DATE", b"none", b"2006-02-29"),
    (b"DATE", b"none", b"1500-02-30"),
    (b"DATE", b"none", b""),
    (b"DATE", b"2000..2010", b"1999-12-31"),
    (b"DATE", b"2000..2010", b"2011-01-01"),
    (b"DATE", b"2010..2000", b"2005-06-13"),
    (b"DATE", b"2010..2000", b"2005-02-29"),
    (b"TIME-OF-DAY", b"no24", b"24:00:00"),
    (b"TIME-OF-DAY", b"no24", b"24:00:01"),
    (b"TIME-OF-DAY", b"none", b"24:00:01"),
    (b"TIME-OF-DAY", b"2000..2010", b"15:27:46"),
    (b"DATE", b"no24", b"2006-06-13"),
    (Y_BASIC + b"|" + Y_L5, b"none", b"2006"),
    (b"DURATION", b"none", b""),
    (b"DURATION", b"none", b"P"),
    (b"DURATION", b"none", b"P1YT"),
    (b"DURATION", b"none", b"P01Y"),
    (b"DURATION", b"none", b"P1.5Y6M"),
    (b"DURATION", b"none", b"P1000000000Y"),
    (b"DURATION", b"none", b"PT0.1234567890S"),
    (INTERVAL_D, b"none", b"P0Y1W"),
    (INTERVAL_D, b"none", b"P6M1Y"),
    (INTERVAL_D, b"none", b"P-1Y"),
    (b"DURATION", b"none", b"2006-06-13"),
    (b"DATE", b"none", b"P1Y6M"),
    (b"DURATION", b"2000..2010", b"P1Y6M"),
    (INTERVAL_D, b"no24", b"P01Y"),
    (INTERVAL_D + b"|" + INTERVAL_D, b"none", b"P1Y6M"),
    (INTERVAL_D + b"|" + Y_BASIC, b"none", b"P1Y6M"),
    (HMS_Z, b"none", b"12:34:60Z"),
    (HMS_LD, b"none", b"05:30:60+05:30"),
    (HMS_LD, b"none", b"23:59:60+05:30"),
    (HMS_LD, b"none", b"18:29:60+05:30"),
    (HMS_LD, b"none", b"04:59:60+05:30"),
    (HMS_LD, b"no24", b"18:59:60-05:30"),
    (HMS_LD, b"none", b"23:59:60-00"),
    (HMSF3_LD, b"none", b"12:34:60,500+01:00"),
    (Y_T_HMS_Z, b"2000..2010", b"1999T12:34:60Z"),
    (Y_T_HMS_Z, b"2000..2010", b"1999T23:59:60Z"),
    # years of another length, of no form, and in which there is no such day
    (Y_L9, b"none", b"+99999999"),
    (Y_L8, b"none", b"-100000000"),
    (Y_BASIC, b"none", b"+123456"),
    (Y_L9, b"999999999..2147483647", b"+999999998"),
    (Y_L6, b"none", b"+011985"),
    (Y_L9, b"none", b"+1000000000"),
    (SIX_LISTS, b"none", b"+2006"),
    (SIX_LISTS, b"none", b"-00001"),
    (SIX_LISTS, b"none", b"123456"),
    (YMD_L5, b"none", b"+123456-02-30"),
    (YMD_L9, b"none", b"+999999900-02-29"),
    # words that are no Year, two equal lists wherever they stand, a seventh list, a name, a limit without its place in one list
    (b"Basic=Date Date=Y Year=L4", b"none", b"+1234"),
    (Y_L6 + b"|Basic=Date Date=Y Year=L10", b"none", b"+123456"),
    (Y_L6 + b"|" + Y_L6, b"none", b"+123456"),
    (Y_BASIC + b"|" + Y_L6 + b"|" + Y_L6, b"none", b"+123456"),
    (Y_L6 + b"|" + Y_BASIC + b"|Year=L6 Date=Y Basic=Date", b"none", b"+123456"),
    (SIX_LISTS + b"|" + Y_BASIC, b"none", b"+123456"),
    (Y_L6 + b"|DATE", b"none", b"+123456"),
    (Y_L6 + b"|" + Y_L7 + b"|" + HMS_Z, b"2000..2010", b"+123456"),
    # the same without the limit, Years of two rows, and another difference
    (Y_L6 + b"|" + Y_L7 + b"|" + HMS_Z, b"none", b"+123456"),
    (Y_L6 + b"|" + Y_L7 + b"|" + Y_PROLEPTIC, b"none", b"+123456"),
    (Y_L7 + b"|" + Y_L5 + b"|" + YM_L6, b"2000..2010", b"+123456-06"),
)


def octets_of(work, type_text, text, limits=b"none"):
    """What an encoder writes for a text that the type holds."""
    number, octets, _ = WORKS[work](type_text, LIMITS[limits], text, ROOM)
    if number != 0:
        sys.exit("%s is refused" % text)
    return octets


def octets_of_second_60():
    """Work, type, limits, octets: second 60 where it can't be, alone, with a filling that is not zero, with an octet left
    over, with a comma and in the year 1999; and where it can be, with a filling, second 61, and 1999 again."""
    return (
        (b"unper", HMS_Z, b"none", b"\x64\x5E\x00"),
        (b"unper", HMS_Z, b"none", b"\x64\x5E\x01"),
        (b"unper", HMS_Z, b"none", b"\x64\x5E\x00\x00"),
        (b"unper", HMS_Z, b"none", b"\xBF\x7E\x01"),
        (b"unper", HMS_Z, b"none", b"\xBF\x7E\x80"),
        (b"unper", HMS_LD, b"none", b"\x2B\xDE\x68\xE8"),
        (b"unper", Y_T_HMS_Z, b"2000..2010", b"\xBE\x99\x17\x80"),
        (b"unper", Y_T_HMS_Z, b"2000..2010", octets_of(b"per", Y_T_HMS_Z, b"1999T23:59:60Z")),
        (b"under", HMS_Z, b"none", b"\x0E\x0912:34:60Z"),
        (b"under", HMS_Z, b"none", b"\x0E\x0912:34:60Z\x00"),
        (b"under", HMS_LD, b"none", b"\x0E\x0E05:30:60+05:30"),
        (b"under", HMSF3_LD, b"none", b"\x0E\x1212:34:60,500+01:00"),
        (b"under", Y_T_HMS_Z, b"2000..2010", b"\x0E\x0E1999T12:34:60Z"),
        (b"under", Y_T_HMS_Z, b"2000..2010", octets_of(b"der", Y_T_HMS_Z, b"1999T23:59:60Z")),
    )


def octets_of_long_years():
    """Work, type, limits, octets: years that other types wrote, years beyond nine digits, one of five octets, one that is not
    the shortest in the type and out of it, a long year after choice 3; elements with another length, a leading 0, ten digits
    and an octet left over."""
    return (
        (b"unper", Y_L5, b"none", octets_of(b"per", Y_L6, b"+123456")),
        (b"unper", Y_L9 + b"|" + Y_L7, b"none", octets_of(b"per", Y_L8, b"-12345678")),
        (b"unper", YMD_L5, b"none", octets_of(b"per", YMD_L9, b"+999999600-02-29")),
        (b"unper", SIX_LISTS, b"none", b"\x04\x3B\x9A\xCA\x00"),
        (b"unper", SIX_LISTS, b"none", b"\x04\x80\x00\x00\x00"),
        (b"unper", SIX_LISTS, b"none", b"\x05\x00\x3B\x9A\xC9\xFF"),
        (b"unper", SIX_LISTS, b"none", b"\x04\x00\x01\xE2\x40"),
        (b"unper", Y_L5, b"none", b"\x04\x00\x01\xE2\x40"),
        (b"unper", Y_BASIC, b"none", b"\xC0\xC0\x78\x90\x00"),
        (b"under", Y_L5, b"none", octets_of(b"der", Y_L6, b"+123456")),
        (b"under", Y_L6, b"none", b"\x0E\x07+011985"),
        (b"under", Y_L9, b"none", b"\x0E\x0B+1000000000"),
        (b"under", SIX_LISTS, b"none", octets_of(b"der", Y_L9, b"-999999999") + b"\x00"),
    )


def octets_of_durations():
    """Work, type, limits, octets: durations that no encoder writes."""
    return (
        # no component, weeks beside years, -1 years, a fraction of one digit that is 10, and an end inside a field
        (b"unper", b"DURATION", b"none", b"\x00"),
        (b"unper", b"DURATION", b"none", b"\xA0\x04\x08"),
        (b"unper", b"DURATION", b"none", b"\x80\x80\xFF\x80"),
        (b"unper", b"DURATION", b"none", b"\x03\x00\x00\x48"),
        (b"unper", INTERVAL_D, b"none", b"\xC0\x04"),
        # P0Y6M, 31 years after a 1 bit, a filling that is not zero, and an octet left over
        (b"unper", b"DURATION", b"none", b"\xC0\x00\xC0"),
        (b"unper", b"DURATION", b"none", b"\x80\x80\x8F\x80"),
        (b"unper", INTERVAL_D, b"none", b"\x10\x05"),
        (b"unper", INTERVAL_D, b"none", b"\x10\x04\x00"),
        (b"unper", b"DURATION", b"2000..2010", octets_of(b"per", b"DURATION", b"P1Y6M")),
        # no contents, a P under the name, the other tag, no P under the list
        (b"under", b"DURATION", b"none", b"\x1F\x22\x00"),
        (b"under", b"DURATION", b"none", b"\x1F\x22\x05P1Y6M"),
        (b"under", b"DURATION", b"none", octets_of(b"der", INTERVAL_D, b"P1Y6M")),
        (b"under", INTERVAL_D, b"none", b"\x0E\x041Y6M"),
        # a zero component, a comma, and an octet left over
        (b"under", b"DURATION", b"none", b"\x1F\x22\x040Y6M"),
        (b"under", INTERVAL_D, b"none", b"\x0E\x06PT0,5S"),
        (b"under", b"DURATION", b"none", b"\x1F\x22\x041Y6M\x00"),
        (b"under", INTERVAL_D, b"no24", b"\x0E\x05P1Y6M"),
    )


def refused_octets():
    """Work, type, limits, octets."""
    date = octets_of(b"der", b"DATE", b"2006-06-13")
    return (
        (b"unper", b"DATE", b"2000..2010", octets_of(b"per", b"DATE", b"2011-01-01")),
        (b"unper", b"DATE", b"2010..2000", b"\x05\x58"),
        (b"unper", b"TIME-OF-DAY", b"no24", b"\xC0\x00\x00"),
        (b"unper", b"DATE", b"none", octets_of(b"per", YMD_PROLEPTIC, b"1581-12-31")),
        (b"unper", b"DATE", b"none", b"\x05\x58\x00"),
        (b"unper", b"DATE", b"none", b"\x05"),
        (b"under", b"DATE", b"2000..2010", octets_of(b"der", b"DATE", b"2011-01-01")),
        (b"under", b"DATE", b"2010..2000", date),
        (b"under", b"TIME-OF-DAY", b"no24", octets_of(b"der", b"TIME-OF-DAY", b"24:00:00")),
        (b"under", b"DATE", b"none", b"\x1F\x1F\x0815811231"),
        (b"under", b"DATE", b"none", date + b"\x00"),
        (b"under", b"DATE", b"none", date[:-1]),
        (b"under", HMSF3_L, b"none", b"\x0E\x0C15:27:46,500"),
        (b"under", HM_LD, b"none", b"\x0E\x0B15:27+01:00"),
        (b"under", b"DATE", b"none", octets_of(b"der", YMD_BASIC, b"2006-06-13")),
        *octets_of_durations(),
        *octets_of_second_60(),
        *octets_of_long_years(),
    )


def to_hex(octets):
    """Hex digits in capitals."""
    return octets.hex().upper().encode()


def line(work, type_text, limits, given, room):
    """The line of one call: "result at the front of the room, the rest of it unchanged"; a refusal leaves the "room
    untouched"."""
    number, result, bits = WORKS[work](type_text, LIMITS[limits], given, room)
    shown = to_hex(given) if work in (b"unper", b"under") else given
    after = to_hex(result + BEFORE * (room - len(result)))
    return b"%s;%s;%s;%s;%d = %d %d %d %s" % (
        work, type_text, limits, shown, room, number, len(result), bits, after)


def good_lines(type_text, limits, text):
    """Both encoders and both decoders, with rooms one octet too short, exact, and three octets longer."""
    in_per, in_der = (octets_of(work, type_text, text, limits) for work in (b"per", b"der"))
    for work, given, length in (
        (b"per", text, len(in_per)), (b"der", text, len(in_der)),
        (b"unper", in_per, len(text)), (b"under", in_der, len(text)),
    ):
        for room in (length - 1, length, length + 3):
            yield line(work, type_text, limits, given, room)


def all_lines():
    """The good values, then the texts to refuse, then the octets to refuse."""
    for type_text, limits, text in GOOD_VALUES:
        yield from good_lines(type_text, limits, text)
    for (type_text, limits, text), work in itertools.product(REFUSED_TEXTS, (b"per", b"der")):
        yield from (line(work, type_text, limits, text, room) for room in ROOMS_OF_REFUSALS)
    for work, type_text, limits, octets in refused_octets():
        yield from (line(work, type_text, limits, octets, room) for room in ROOMS_OF_REFUSALS)


def main():
    """Writes the lines."""
    if sys.argv[1:]:
        sys.exit("usage: checked.py")
    sys.stdout.buffer.write(b"".join(each + b"\n" for each in all_lines()))


if __name__ == "__main__":
    main()
