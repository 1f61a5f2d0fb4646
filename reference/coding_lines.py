"""Test lines on unaligned PER and DER, and the replies that document 01 settles.

`WLR;TYPE;INPUT` asks for the number of "The seven numbers" and, after 0, the bit count and the result. W is `e` to
encode INPUT, a text, in PER, `t` to encode it in DER, `d` to decode it from PER, octets as whole pairs of hex digits,
or `u` to decode such octets from DER; L is one octet of value_lines.py's menu of limits; R is the room: `a` to `z` are
0 to 25 octets, `A` to `Z` are 26 to 51, `*` is 64. TYPE ends at the second semicolon, and INPUT is all that follows.
Any other line has the reply `?`.
"""

import itertools
import re
import string
import sys
from pathlib import Path

import der
import duration_fields
import duration_texts
import elements
import per
import value_lines
import year_texts
from bits import fill, free_integer_bits, free_integer_length, integer_bits, number_bits, octet_bits
from elements import element
from per import DAY_TIME_FIELDS, read_octets, value_bits
from settings import is_refused, read_type
from texts import read_text
from value_lines import DATES, DATE_TAILS, MENU, TIMES, WINDOWS, YEAR_CHOICES, ZONES
from value_lines import date_time_type, date_type, last_fields, time_text, time_type
from year_texts import LARGE_CHOICES, LARGE_YEARS, SIGNED_YEARS

ROOMS = {letter.encode(): length for length, letter in enumerate(string.ascii_letters)} | {b"*": 64}
ROOM_OF = {length: letter for letter, length in ROOMS.items()}

HEX = re.compile(b"(?:[0-9A-Fa-f]{2})*")

LONGEST_LINE = 1024

VECTORS = Path(__file__).resolve().parent.parent / "vectors" / "per.txt"

BASIC, PROLEPTIC, NEGATIVE, L5 = YEAR_CHOICES[:4]
BASIC_PROLEPTIC, NEGATIVE_L5 = YEAR_CHOICES[4], YEAR_CHOICES[6]

# the ends of each choice, and of each Year setting
YEAR_ENDS = (
    b"1748", b"1749", b"2004", b"2005", b"2020", b"2021", b"2276", b"2277", b"0000", b"1581", b"1582", b"9999",
    b"-0001", b"-9999", b"+10000", b"+99999", b"-10000", b"-99999",
)

# numbers at the ends of each length of a free integer, of each choice and of each Year setting
INTEGERS = (
    0, 1, 4, 127, 128, 255, 256, 1581, 1582, 1748, 1749, 2010, 2276, 2277, 9999, 10000, 32767, 32768, 65535, 65536,
    99999, 100000, 8388607, 8388608, 2147483600, 2147483647, -1, -4, -128, -129, -256, -9999, -10000, -32768, -32769,
    -99999, -100000, -8388608, -8388609, -2147483600, -2147483648,
    999999, 1000000, 9999999, 10000000, 99999999, 100000000, 999999999, 1000000000,
    -999999, -1000000, -9999999, -10000000, -99999999, -100000000, -999999999, -1000000000,
)

# a difference from each side of its ends
DIFFERENCES = (
    b"-15:59", b"-15:01", b"-15", b"-14:59", b"-05:30", b"-01", b"-01:01", b"-01:30", b"-01:59", b"+00", b"+00:01",
    b"+00:00", b"+00:30", b"+00:59", b"+01", b"+01:00", b"+01:30", b"+05:45", b"+14", b"+15", b"+15:01", b"+15:59",
    b"-00", b"-00:01", b"-00:59", b"+16", b"-16", b"+16:01", b"+15:60", b"-15:60",
)


def encode_line(type_text, text, limits=b"0", room=b"*"):
    """A line that asks to encode a text in PER."""
    return b"e" + limits + room + b";" + type_text + b";" + text


def decode_line(type_text, octets, limits=b"0", room=b"*"):
    """A line that asks to decode octets from PER."""
    return b"d" + limits + room + b";" + type_text + b";" + octets.hex().upper().encode()


def element_line(type_text, octets, limits=b"0", room=b"*"):
    """A line that asks to decode octets from DER."""
    return b"u" + decode_line(type_text, octets, limits, room)[1:]


def element_lines(questions, limits=b"0", room=b"*"):
    """Lines that ask to decode octets from DER, each under its type."""
    return (element_line(type_text, octets, limits, room) for type_text, octets in questions)


def bits_line(type_text, bits, limits=b"0", room=b"*"):
    """A line that asks to decode bits; "the last octet is filled with zero bits"."""
    return decode_line(type_text, fill(bits), limits, room)


def bits_of(type_text, text):
    """The bits of the value of a text, in the type or not; None where there is none, or where the fields don't reach."""
    t = read_type(type_text)
    read = None if is_refused(t) else read_text(t, text)
    if read is None:
        return None
    bits = value_bits(t, read[0])
    return bits if "-" not in bits and read_octets(t, fill(bits)) == read[0] else None


def both_ways(type_text, text, limits=b"0"):
    """A line that encodes a text, and one that decodes what its value is written as."""
    yield encode_line(type_text, text, limits)
    bits = bits_of(type_text, text)
    if bits is not None:
        yield bits_line(type_text, bits, limits)


def both_ways_of(section):
    """Both ways of a section of value_lines.py."""
    for each in section:
        limits, type_text, text = each.split(b";", 2)
        yield from both_ways(type_text, text, limits)


def integers():
    """Each of the numbers in each length from the fewest to 4 octets, as bits."""
    for number in INTEGERS:
        for length in range(free_integer_length(number), 5):
            yield integer_bits(number, length)


def year_start(years):
    """The bits before a year's free integer: choice 3, or none."""
    return "11" if set(years) <= {b"Basic", b"Proleptic"} else ""


def sample():
    """A type and a text of it, for each form of a date and of a time and for many date-times."""
    years = ((BASIC, b"2006"), (BASIC, b"2100"), (BASIC, b"1900"), (PROLEPTIC, b"1066"), (NEGATIVE, b"-0129"),
             (L5, b"+32768"), (BASIC_PROLEPTIC, b"0100"), (NEGATIVE_L5, b"-99999"))
    for k, date in enumerate(DATES):
        for step in (0, 3, 5):
            choice, year = years[(k + step) % len(years)]
            yield date_type(date, *choice), year + DATE_TAILS[date]
    yield from ((b"DATE", b"2006-06-13"), (b"DATE", b"1748-12-31"), (b"DATE", b"2276-12-31"), (b"DATE", b"2004-02-29"))
    yield from ((b"TIME-OF-DAY", b"24:00:00"), (b"TIME-OF-DAY", b"23:59:60"), (b"DATE-TIME", b"2006-06-13T15:27:46"))
    for time, zone, text in (
        (b"H", b"L", b"15"), (b"H", b"Z", b"24Z"), (b"H", b"LD", b"15+00"), (b"HM", b"L", b"15:27"),
        (b"HM", b"Z", b"23:59Z"), (b"HM", b"LD", b"15:27-01:30"), (b"HMS", b"Z", b"23:59:60Z"),
        (b"HMS", b"LD", b"15:27:46+15:59"), (b"HF1", b"L", b"15.5"), (b"HF2", b"Z", b"15.25Z"),
        (b"HF3", b"LD", b"15.999-15:59"), (b"HF4", b"L", b"24.0000"), (b"HMF1", b"LD", b"15:27.5+00:01"),
        (b"HMF4", b"Z", b"15:27.1000Z"), (b"HMF5", b"L", b"15:27.00999"), (b"HMSF3", b"L", b"15:27:46.500"),
        (b"HMSF4", b"L", b"15:27:46.0999"), (b"HMSF4", b"L", b"15:27:46.1000"), (b"HMSF6", b"Z", b"15:27:46.123456Z"),
        (b"HMSF9", b"LD", b"15:27:46.999999999-12"),
    ):
        yield time_type(time, zone), text
    for date, choice, time, zone, text in (
        (b"Y", BASIC, b"H", b"L", b"2006T15"), (b"YM", PROLEPTIC, b"HM", b"Z", b"1066-10T15:27Z"),
        (b"YMD", NEGATIVE, b"HMS", b"LD", b"-0044-03-15T00:59:60+01"), (b"YD", L5, b"HF2", b"L", b"+12006-365T23.99"),
        (b"YW", BASIC_PROLEPTIC, b"HMF3", b"LD", b"2020-W53T15:27.500-09:30"),
        (b"YWD", NEGATIVE_L5, b"HMSF4", b"Z", b"-10000-W01-7T15:27:46.1000Z"),
        (b"YMD", BASIC, b"HMSF9", b"LD", b"2277-12-31T13:59:60.123456789+14"),
        (b"YMD", BASIC_PROLEPTIC, b"HMSF2", b"LD", b"2006-06-13T15:27:46.50-05:45"),
    ):
        yield date_time_type(date, choice, time, zone), text
    yield from large_sample()


def large_sample():
    """The same with years of up to nine digits: each form of a date, and date-times."""
    yield date_type(b"Y", b"L9"), b"-999999999"
    yield date_type(b"Y", *SIGNED_YEARS), b"+8388608"
    yield date_time_type(b"YMD", (b"L9",), b"HMSF9", b"LD"), b"-999999999-12-31T15:58:60.999999999+15:59"
    yield date_type(b"YM", b"L6", b"Negative"), b"+100000-12"
    yield date_type(b"YMD", b"L7"), b"-8388609-02-28"
    yield date_type(b"YD", b"L8", b"L7"), b"+10000000-366"
    yield date_time_type(b"YD", (b"L6", b"L5"), b"HM", b"Z"), b"+999999-365T24:00Z"
    yield date_type(b"YW", b"L9"), b"+999999620-W53"
    yield date_type(b"YWD", *SIGNED_YEARS[::-1]), b"-999999980-W53-7"


def sample_octets():
    """The types of the sample with the octets that its texts are written as."""
    for type_text, text in sample():
        yield type_text, fill(bits_of(type_text, text))


def checked_values():
    """"Checked values" both ways, and "DATE with one octet of room: 7"."""
    yield from both_ways_of(value_lines.checked_values())
    yield from (encode_line(b"DATE", b"2006-06-13", room=room) for room in (b"a", b"b", b"c"))
    yield from (decode_line(b"DATE", b"\x05\x58", room=room) for room in (b"a", b"b", b"c", b"j", b"k"))


def year_ends():
    """Each form of a date with each choice of years and each year at an end, both ways."""
    for date, years, year in itertools.product(DATES, YEAR_CHOICES, YEAR_ENDS):
        yield from both_ways(date_type(date, *years), year + DATE_TAILS[date])


def large_year_ends():
    """Ends of five to nine digits, two of three of them, both ways."""
    for type_text, text in (each for k, each in enumerate(year_texts.year_ends()) if k % 3):
        yield from both_ways(type_text, text)


def near_years():
    """Every number of the fields of choices 0, 1 and 2, and the years around them."""
    type_text = date_type(b"Y", *BASIC_PROLEPTIC)
    for choice, width in ((0, 4), (1, 8), (2, 8)):
        for number in range(1 << width):
            yield bits_line(type_text, number_bits(choice, 2) + number_bits(number, width))
    for year in itertools.chain(range(1744, 1760), range(1760, 2270, 7), range(2000, 2030), range(2270, 2282)):
        yield from both_ways(type_text, b"%04d" % year)


def fractions():
    """Each time, each zone and each n, with fractions of 0, 1, 999, 1000 and the highest."""
    for time, zone in itertools.product(TIMES[3:], ZONES):
        n = int(time[-1:])
        numbers = (number for number in (0, 1, 999, 1000, 10 ** n - 1) if number < 10 ** n)
        for k, number in enumerate(numbers):
            zone_text = value_lines.zone_texts(zone)[k % len(value_lines.zone_texts(zone))]
            text = time_text(time, (b"15", b"27", b"46"), b"%0*d" % (n, number), zone_text)
            yield from both_ways(time_type(time, zone), text)


def whole_times():
    """Each time and each zone with the first and the last time of day, and with the digits of the fraction all alike."""
    for time, zone in itertools.product(TIMES, ZONES):
        last = value_lines.zone_texts(zone)[-1]
        for fields, digit in (((b"00", b"00", b"00"), b"0"), (last_fields(time, last), b"9"), ((b"24", b"00", b"00"), b"0")):
            yield from both_ways(time_type(time, zone), time_text(time, fields, digit, last))


def differences():
    """Differences after each time with and without a fraction, and after second 60 in the minute of each, both ways."""
    types = (
        (time_type(b"H", b"LD"), b"15"), (time_type(b"HMS", b"LD"), b"23:59:59"), (time_type(b"HMF4", b"LD"), b"15:27.1000"),
        (date_time_type(b"YMD", BASIC, b"HM", b"LD"), b"2006-06-13T24:00"),
    )
    for (type_text, start), difference in itertools.product(types, DIFFERENCES):
        yield from both_ways(type_text, start + difference)
    for difference in DIFFERENCES:
        yield from both_ways(time_type(b"HMS", b"LD"), time_text(b"HMS", last_fields(b"HMS", difference), zone=difference))


def difference_fields():
    """Every number of the difference's hours, 16 too, and of its minutes, with and without the bit for minutes."""
    h, hm = time_type(b"H", b"LD"), time_type(b"HM", b"LD")
    for hours in range(32):
        yield bits_line(h, "01111" + "0" + number_bits(hours, 5))
        for minutes in (0, 29, 57, 58, 59, 63):
            yield bits_line(h, "01111" + "1" + number_bits(hours, 5) + number_bits(minutes, 6))
        yield bits_line(hm, "01111" + "011011" + "0" + number_bits(hours, 5) + "011101")
    for hours, minutes in itertools.product((0, 14, 15, 30, 31), range(64)):
        yield bits_line(hm, "01111" + "011011" + "1" + number_bits(hours, 5) + number_bits(minutes, 6))


def date_times():
    """Many date-times, both ways."""
    yield from both_ways_of(value_lines.good_date_times())


def large_date_times():
    """Date-times with years of up to nine digits, each third of them, both ways."""
    yield from both_ways_of(itertools.islice(value_lines.large_date_times(), 0, None, 3))


def windows():
    """Years on both sides of each window's ends, both ways, and after choice 3."""
    for limits, years, year in itertools.product(WINDOWS, (BASIC, PROLEPTIC, BASIC_PROLEPTIC, NEGATIVE, NEGATIVE_L5),
                                                 value_lines.YEARS_AT_WINDOWS):
        yield from both_ways(date_type(b"Y", *years), year, limits)
    for limits, year in itertools.product((b"1", b"2", b"4", b"5", b"9"), (b"1999", b"2000", b"2010", b"2011", b"1581")):
        yield from both_ways(b"DATE-TIME", year + b"-12-31T23:59:60", limits)
        yield bits_line(date_type(b"Y", *BASIC), "11" + free_integer_bits(int(year)), limits)
    yield from both_ways_of(value_lines.large_years_in_windows())


def no_hour_24():
    """Hour 24 and others where the type has "no hour 24", both ways."""
    for time, zone in itertools.product((b"H", b"HM", b"HMS", b"HF1", b"HMF3", b"HMSF4"), ZONES):
        last = value_lines.zone_texts(zone)[-1]
        for fields in ((b"24", b"00", b"00"), last_fields(time, last), (b"00", b"00", b"00"), (b"24", b"00", b"01")):
            yield from both_ways(time_type(time, zone), time_text(time, fields, b"0", last), b"8")
    for limits, date, time in itertools.product((b"0", b"1", b"8", b"9"), (b"1999-12-31", b"2005-06-13", b"2005-02-29"),
                                                (b"T24:00:00", b"T23:59:59", b"T24:00:01")):
        yield from both_ways(b"DATE-TIME", date + time, limits)


def boundaries():
    """Dates and times below, at and above their ends, both ways where the fields reach."""
    yield from both_ways_of(value_lines.date_boundaries())
    yield from itertools.islice(both_ways_of(value_lines.time_boundaries()), 0, None, 3)
    yield from itertools.islice(both_ways_of(value_lines.week_boundaries()), 0, None, 3)
    for type_text, text in year_texts.some_leap_days_and_weeks():
        yield from both_ways(type_text, text)


def second_60():
    """Second 60 in many minutes, with each zone, both ways; "Refusals: 4 for the others"."""
    yield from both_ways_of(value_lines.second_60())


def turned_bits(octets):
    """The octets with each of their bits turned."""
    for place, bit in itertools.product(range(len(octets)), range(8)):
        yield octets[:place] + bytes([octets[place] ^ 0x80 >> bit]) + octets[place + 1:]


def replaced_octets(octets):
    """The octets with each of them replaced."""
    for place in range(len(octets)):
        for other in (0x00, 0xFF, octets[place] ^ 0x0F, octets[place] ^ 0xF0):
            yield octets[:place] + bytes([other]) + octets[place + 1:]


def changed_octets():
    """Each encoding of the sample cut at every octet, lengthened, and with bits turned and octets replaced."""
    for type_text, octets in sample_octets():
        cut = (octets[:length] for length in range(len(octets)))
        longer = (octets + more for more in (b"\x00", b"\x01", b"\x80", b"\xff", b"\x00\x00", octets))
        for changed in itertools.chain([octets], cut, longer, turned_bits(octets), replaced_octets(octets)):
            yield decode_line(type_text, changed)


def filling():
    """"filling not zero": all of it, its first and its last bit, also with an octet left over."""
    for type_text, text in sample():
        bits = bits_of(type_text, text)
        width = -len(bits) % 8
        for number in sorted({(1 << width) - 1, 1 << width >> 1, min(1, width)} - {0}):
            yield bits_line(type_text, bits + number_bits(number, width))
            yield bits_line(type_text, bits + number_bits(number, width) + "00000000")


def free_integers():
    """Years as free integers of every length, the fewest octets or not, alone and before other fields."""
    for years, bits in itertools.product(YEAR_CHOICES[:5] + YEAR_CHOICES[6:7] + LARGE_CHOICES[:4], integers()):
        yield bits_line(date_type(b"Y", *years), year_start(years) + bits)
    for years, bits in itertools.product((BASIC, NEGATIVE_L5), integers()):
        yield bits_line(date_type(b"YMD", *years), year_start(years) + bits + "0001" + "11100")
        yield bits_line(date_type(b"YD", *years), year_start(years) + bits + "101101101")
        yield bits_line(date_type(b"YW", *years), year_start(years) + bits + "110100")


def free_integer_lengths():
    """Lengths 0 to 5 and others before too few octets, enough of them and too many."""
    types = [(date_type(b"Y", *years), year_start(years)) for years in (BASIC, BASIC_PROLEPTIC, NEGATIVE, L5)]
    types += [(date_type(b"YMD", *NEGATIVE_L5), ""), (time_type(b"HF9", b"L"), "01111" + "1")]
    types += [(date_type(b"Y", b"L9"), ""), (date_type(b"YWD", *SIGNED_YEARS), "")]
    types += [(time_type(b"HMSF4", b"LD"), "01111" + "011011" + "101110" + "1")]
    for (type_text, start), length in itertools.product(types, (0, 1, 2, 3, 4, 5, 6, 8, 127, 128, 129, 130, 255)):
        for count in sorted({0, 3, 5, max(length % 128, 1) - 1, length % 128, length % 128 + 1}):
            for octets in (b"\xff" * count, (b"\x07\xda" + b"\x12" * count)[:count]):
                yield bits_line(type_text, start + octet_bits(bytes([length]) + octets))


def other_choice():
    """"choice 3 for 1749 to 2276", at its ends and inside, the fewest octets or not, under every choice of years."""
    years = (1747, 1748, 1749, 1750, 1850, 1999, 2003, 2004, 2005, 2006, 2010, 2019, 2020, 2021, 2022, 2150, 2275, 2276,
             2277, 2278)
    for choice, year, length in itertools.product((BASIC, PROLEPTIC, BASIC_PROLEPTIC), years, (2, 3, 4)):
        yield bits_line(date_type(b"Y", *choice), "11" + integer_bits(year, length))
    for choice, year in itertools.product((BASIC, PROLEPTIC), years):
        yield bits_line(date_type(b"YMD", *choice), "11" + integer_bits(year, 2) + "0001" + "11100")
        yield bits_line(date_type(b"YW", *choice), "11" + integer_bits(year, 2) + "110100")


def fraction_numbers(n):
    """Numbers around the ends of a fraction of n digits, and negative ones."""
    ends = (-1, -50, -128, -129, -1000, 0, 1, 9, 10, 50, 99, 100, 150, 255, 999, 1000, 1001, 9999, 10000)
    return sorted({*ends, 10 ** n - 1, 10 ** n, 10 ** n + 1, 2147483647, -2147483648})


def fraction_fields():
    """Fractions after a 0 bit and after a 1 bit, of each n: short, long, negative, and of more than n digits."""
    starts = ((b"H", b"L", "01111", ""), (b"HM", b"Z", "01111" + "011011", ""),
              (b"HMS", b"LD", "01111" + "011011" + "101110", "0" + "10000"))
    for (time, zone, start, end), n in itertools.product(starts, range(1, 10)):
        type_text = time_type(b"%sF%d" % (time, n), zone)
        for number in (0, 1, 9, 10, 11, 99, 100, 101, 998, 999, 1000, 1001, 1023):
            yield bits_line(type_text, start + "0" + number_bits(number, 10) + end)
        for number in fraction_numbers(n):
            for length in sorted({free_integer_length(number), min(4, free_integer_length(number) + 1)}):
                yield bits_line(type_text, start + "1" + integer_bits(number, length) + end)


def fractions_at_hour_24():
    """A fraction not 0 at hour 24, short and long, and the 0 after a 1 bit."""
    for n, limits in itertools.product((1, 2, 3, 4, 9), (b"0", b"8")):
        type_text = time_type(b"HF%d" % n, b"L")
        for fraction in ("0" + number_bits(0, 10), "0" + number_bits(1, 10), "0" + number_bits(9, 10),
                         "0" + number_bits(1000, 10), "1" + integer_bits(0, 1), "1" + integer_bits(1, 1),
                         "1" + integer_bits(-1, 1), "1" + integer_bits(1000, 2), "1" + integer_bits(1000, 3)):
            yield bits_line(type_text, "11000" + fraction, limits)


def date_fields():
    """Each field of a date at every number of its bits, or at its ends."""
    y2006, y2008, y2020, y2100 = "000001", "000011", "001111", "01" + number_bits(79, 8)
    for year, month in itertools.product((y2006, y2100, "11" + free_integer_bits(1600)), range(16)):
        yield bits_line(date_type(b"YM", *BASIC), year + number_bits(month, 4))
    for year, month, day in itertools.product((y2006, y2008), (0, 1, 3, 11, 12, 15), range(32)):
        if month in (0, 1, 3) or day > 27:
            yield bits_line(b"DATE", year + number_bits(month, 4) + number_bits(day, 5))
    for year, day in itertools.product((y2006, y2008, y2100), (0, 1, 58, 59, 255, 363, 364, 365, 366, 367, 368, 400, 511)):
        yield bits_line(date_type(b"YD", *BASIC), year + number_bits(day, 9))
    for year, week in itertools.product((y2006, y2020), range(64)):
        yield bits_line(date_type(b"YW", *BASIC), year + number_bits(week, 6))
    for year, week, day in itertools.product((y2006, y2020), (0, 23, 51, 52, 53, 63), range(8)):
        yield bits_line(date_type(b"YWD", *BASIC), year + number_bits(week, 6) + number_bits(day, 3))


def time_fields():
    """Each field of a time at every number of its bits."""
    hours, minutes, seconds = (field.width for field in DAY_TIME_FIELDS)
    for zone, hour in itertools.product(ZONES, range(32)):
        end = "0" + "01111" if zone == b"LD" else ""
        yield bits_line(time_type(b"H", zone), number_bits(hour, hours) + end)
    for hour, minute in itertools.product((0, 23, 24, 25), range(64)):
        yield bits_line(time_type(b"HM", b"L"), number_bits(hour, hours) + number_bits(minute, minutes))
    for (hour, minute), second in itertools.product(((0, 0), (23, 59), (24, 0), (15, 60)), range(64)):
        bits = number_bits(hour, hours) + number_bits(minute, minutes) + number_bits(second, seconds)
        yield bits_line(b"TIME-OF-DAY", bits)


def rooms():
    """Rooms of no octet, too short by one, exact and longer by one, both ways, also for a text with more octets."""
    for type_text, text in sample():
        octets = fill(bits_of(type_text, text))
        for length in sorted({0, 1, len(octets) - 1, len(octets), len(octets) + 1}):
            yield encode_line(type_text, text, room=ROOM_OF[length])
        for length in sorted({0, 1, len(octets), len(text) - 1, len(text), len(text) + 1}):
            yield decode_line(type_text, octets, room=ROOM_OF[length])
    for text, room in itertools.product((b"15:27:46,5+01:00", b"15:27:46.5+01"), sorted(ROOMS)):
        yield encode_line(time_type(b"HMSF1", b"LD"), text, room=room)
    for room in sorted(ROOMS):
        yield decode_line(time_type(b"HMSF1", b"LD"), fill(bits_of(time_type(b"HMSF1", b"LD"), b"15:27:46.5+01")), room=room)


def rooms_in_der():
    """Rooms of no octet, too short by one, exact and longer by one, in DER, both ways."""
    for type_text, text in sample():
        octets = element(type_text, text)
        for length in sorted({0, 1, len(octets) - 1, len(octets), len(octets) + 1}):
            yield b"t" + encode_line(type_text, text, room=ROOM_OF[length])[1:]
        for length in sorted({0, 1, len(octets), len(text) - 1, len(text), len(text) + 1}):
            yield element_line(type_text, octets, room=ROOM_OF[length])
    for room in sorted(ROOMS):
        yield element_line(b"DATE-TIME", element(b"DATE-TIME", b"2006-06-13T15:27:46"), b"9", room)
        yield element_line(time_type(b"HMSF1", b"LD"), element(time_type(b"HMSF1", b"LD"), b"15:27:46.5+01"), room=room)
        yield element_line(time_type(b"HMSF1", b"LD"), element(time_type(b"HMSF1", b"LD"), b"15:27:46,5+01"), room=room)


def changed_elements():
    """Elements cut at every place, lengthened, and with octets replaced; other tags, and other lengths."""
    for k, (type_text, text) in enumerate(sample()):
        yield element_line(type_text, element(type_text, text))
        if k % 2 == 0:
            yield from element_lines(elements.changed(type_text, text))
        if k % 3 == 0:
            yield from element_lines(elements.with_other_tags(type_text, text))
            yield from element_lines(elements.with_long_lengths(type_text, text))
    for name, text in elements.NAME_TEXTS.items():
        yield from element_lines(elements.changed(name, text), room=ROOM_OF[len(text)])
        yield from element_lines(elements.with_other_tags(name, text), room=b"a")


def lengths_of_elements():
    """Every number in the length octet, with and without octets behind, and longer contents."""
    some = [*elements.NAME_TEXTS.items(), (date_type(b"Y", *L5), b"+12006"), (time_type(b"HM", b"LD"), b"15:27-01:30")]
    for k, (type_text, text) in enumerate(some):
        yield from element_lines(elements.with_every_length(type_text, text, (b"", b"0" * 9)[k % 2]))
        yield from element_lines(elements.with_longer_contents(type_text, text))
    yield from element_lines(elements.with_every_length(date_type(b"Y", *BASIC), b"2006", b"0" * 255))


def names_in_elements():
    """Contents under the three names' tags, and the names' elements under other types."""
    yield from element_lines(elements.under_names())
    yield from element_lines(elements.readings_of_names())
    for type_text, octets in elements.fields_under_names():
        yield from (element_line(type_text, octets, limits) for limits in (b"0", b"1", b"8", b"9"))
    for name, text in elements.NAME_TEXTS.items():
        yield from element_lines(elements.with_every_tag(name, text))


def causes_in_octets():
    """Two and more causes in one decoding: "When several hold, the lowest number is given"."""
    type_text = date_time_type(b"YMD", BASIC, b"HMSF2", b"LD")
    june, february, month_13 = "0101" + "01100", "0001" + "11100", "1100" + "00000"
    dates = (
        "000001" + june, "000001" + february, "000001" + month_13, "11" + free_integer_bits(1066) + june,
        "11" + free_integer_bits(1066) + february, "11" + integer_bits(2006, 2) + june,
        "11" + integer_bits(1748, 3) + june, "11" + integer_bits(-1, 2) + february,
        "11" + integer_bits(2147483647, 4) + june,
    )
    noon, minute_60 = "01100" + "000000" * 2, "01100" + "111100" + "000000"
    hour_24, hour_24_1 = "11000" + "000000" * 2, "11000" + "000000" + "000001"
    none, half = "0" + number_bits(0, 10), "0" + number_bits(50, 10)
    long_half, more = "1" + integer_bits(50, 1), "1" + integer_bits(150, 2)
    zone, zone_16, minutes_64 = "0" + "01111", "0" + "11111", "1" + "01110" + "111111"
    times = (
        noon + half + zone, noon + long_half + zone, noon + more + zone, noon + half + zone_16, noon + half + minutes_64,
        noon + long_half + zone_16, noon + long_half + minutes_64, minute_60 + half + zone, hour_24 + none + zone,
        hour_24 + "1" + integer_bits(0, 1) + zone, hour_24_1 + none + zone, hour_24 + half + zone,
    )
    for date, time, limits in itertools.product(dates, times, (b"0", b"9")):
        octets = fill(date + time)
        yield decode_line(type_text, octets, limits)
        yield decode_line(type_text, octets, limits, b"a")
        yield decode_line(type_text, octets + b"\x00", limits, b"z")
        yield decode_line(type_text, octets[:-1], limits)


def causes_in_elements():
    """Two and more causes in one element: "When several hold, the lowest number is given"."""
    type_text = date_time_type(b"YMD", BASIC, b"HMSF2", b"LD")
    dates = (b"2006-06-13", b"2006-02-29", b"2006-13-01", b"1066-06-13", b"1066-02-30", b"-0001-02-29",
             b"+12006-06-13", b"+123456789-06-13", b"-123456-02-30", b"+012006-06-13", b"2006-6-13")
    times = (b"12:00:00.00+00", b"12:00:00,50+00", b"12:00:00.50+01:00", b"12:00:00,50+01:00", b"24:00:00.00+00",
             b"24:00:00,00-01:00", b"24:00:00.01+00", b"24:00:00,01+01:00", b"12:60:00,00+00", b"12:00:00,00+16:00",
             b"12:00:00,00-00:00", b"12:00:00,5+01:00", b"12:00:00,50Z")
    for date, time, limits in itertools.product(dates, times, (b"0", b"9")):
        octets = element(type_text, date + b"T" + time)
        yield element_line(type_text, octets, limits)
        yield element_line(type_text, octets, limits, b"a")
        yield element_line(type_text, octets + b"\x00", limits, b"z")
        yield element_line(type_text, octets[:-1], limits)


def octets_at_second_60():
    """Second 60 at 05:29+05:30 and at 23:59+05:30, and second 61, beside other causes: years in choices 0 and 3, a fraction
    after a 1 bit, filling not zero and octets left over."""
    y2006, y2011, y1066, other_2006 = "000001", "000110", "11" + integer_bits(1066, 2), "11" + integer_bits(2006, 2)
    half, long_half = "0" + number_bits(50, 10), "1" + integer_bits(50, 1)
    for clock in ("00101" + "011101" + "111100", "10111" + "111011" + "111100", "10111" + "111011" + "111101"):
        for year, fraction in ((y1066, half), (other_2006, half), (y2011, half), (y2006, long_half), (y2006, half)):
            octets = fill(year + "1011" + "11110" + clock + fraction + "1" + "10100" + "011101")
            yield octets
        yield from (octets[:-1] + bytes([octets[-1] | 1]), octets + b"\x00", octets[:-1])


def causes_at_second_60():
    """Second 60 where it can be and where it can't, beside other causes in octets and in elements, under limits and
    without room: "When several hold, the lowest number is given"."""
    type_text = date_time_type(b"YMD", BASIC, b"HMSF2", b"LD")
    ends = (b"05:29:60.50+05:30", b"05:29:60,50+05:30", b"05:59:60.50+06:00", b"23:59:60.50+05:30", b"23:59:60,50+05:30",
            b"23:59:60.50+06:00", b"23:59:60,50-00:00", b"23:59:61,50+05:30")
    for limits, room in itertools.product((b"0", b"9"), (b"*", b"a")):
        yield from (decode_line(type_text, octets, limits, room) for octets in octets_at_second_60())
        for year, end in itertools.product((b"2006", b"2011", b"1066"), ends):
            octets = element(type_text, year + b"-12-31T" + end)
            yield from (element_line(type_text, each, limits, room) for each in (octets, octets + b"\x00"))


def causes_in_names():
    """Two and more causes in one element of a name: tag, length, digits, value, limits, octets left over, room."""
    dates, times = (b"20060613", b"20060229", b"19991231", b"10660230", b"2006061Z"), (b"152746", b"240000", b"240001")
    starts = (b"\x1F\x21\x0E", b"\x1F\x1F\x0E", b"\x1F\x21\x0F", b"\x1F\x21\x0D", b"\x1F\x21\x8E")
    ends = (b"", b"\x00")
    for date, time, start, end in itertools.product(dates, times, starts, ends):
        for limits, room in itertools.product((b"0", b"1", b"8", b"9"), (b"*", b"a")):
            yield element_line(b"DATE-TIME", start + date + time + end, limits, room)
    for limits, room in itertools.product((b"0", b"1", b"8"), (b"a", b"b", b"*")):
        for type_text in (b"DATE", b"TIME-OF-DAY", b"DATE|DATE", date_type(b"Y", b"Basic", b"L5"), b""):
            for contents in (b"20060229", b"15811231", b"20110101", b"20060613", b"2006"):
                yield element_line(type_text, b"\x1F\x1F\x08" + contents + b"\x00", limits, room)


def causes_in_years():
    """A free integer's causes with the room's, the window's and each Year setting's."""
    for years, bits in itertools.product((BASIC, PROLEPTIC, L5, (b"L9",)), itertools.islice(integers(), 0, None, 2)):
        yield bits_line(date_type(b"YM", *years), year_start(years) + bits + "1100", b"1", b"a")
        yield bits_line(date_type(b"YM", *years), year_start(years) + bits + "0101", b"7", b"c")


def causes_in_texts():
    """Two and more causes in one encoding: "When several hold, the lowest number is given"."""
    dates = (b"2006-06-13", b"2006-02-29", b"2006-13-01", b"1066-06-13", b"1066-02-30", b"2006-6-13", b"+12006-06-13",
             b"-123456789-06-13", b"+123456-02-30", b"")
    times = (b"T15:27:46", b"T24:00:00", b"T24:00:01", b"T15:60:46", b"T15:27", b"T24:00:00Z", b"")
    for date, time, limits, room in itertools.product(dates, times, (b"0", b"9"), (b"*", b"d", b"a")):
        yield encode_line(b"DATE-TIME", date + time, limits, room)
    for limits, room in itertools.product((b"0", b"1", b"8"), (b"a", b"b", b"*")):
        for type_text in (b"DATE", b"TIME-OF-DAY", b"DATE|DATE", date_type(b"Y", b"Basic", b"L5"), b""):
            yield encode_line(type_text, b"2006-02-29", limits, room)
            yield decode_line(type_text, b"\x04\x78\x00", limits, room)


def readers():
    """Limits and types for the cross table: other years, windows, digits and forms."""
    for date, years in itertools.product((b"YMD", b"Y"), YEAR_CHOICES[:5] + YEAR_CHOICES[6:7]):
        yield b"0", date_type(date, *years)
    yield from ((limits, b"DATE") for limits in (b"1", b"2", b"4", b"5"))
    yield from ((limits, date_type(b"YMD", *NEGATIVE_L5)) for limits in (b"3", b"7"))
    for date, years in ((b"YM", BASIC), (b"YM", L5), (b"YD", BASIC_PROLEPTIC), (b"YD", NEGATIVE), (b"YW", BASIC),
                        (b"YW", NEGATIVE_L5), (b"YWD", BASIC), (b"YWD", PROLEPTIC)):
        yield b"0", date_type(date, *years)
    for time, zone in itertools.product((b"H", b"HMS"), ZONES):
        yield b"0", time_type(time, zone)
    yield from ((b"8", time_type(b"HMS", zone)) for zone in (b"L", b"LD"))
    for n in (1, 2, 3, 4, 9):
        yield b"0", time_type(b"HMSF%d" % n, b"L")
    for time, zone in ((b"HM", b"L"), (b"HM", b"LD"), (b"HF2", b"L"), (b"HF4", b"LD"), (b"HMF3", b"Z"), (b"HMF5", b"LD")):
        yield b"0", time_type(time, zone)
    yield from ((limits, b"DATE-TIME") for limits in (b"0", b"1", b"8", b"9"))
    for date, years, time, zone in (
        (b"YMD", PROLEPTIC, b"HMS", b"L"), (b"YMD", BASIC_PROLEPTIC, b"HMS", b"Z"), (b"YMD", NEGATIVE, b"HMS", b"L"),
        (b"YMD", BASIC, b"HMSF2", b"LD"), (b"YMD", BASIC, b"HMSF4", b"L"), (b"YW", BASIC, b"HM", b"Z"),
        (b"YD", L5, b"H", b"L"), (b"Y", BASIC, b"HF1", b"L"), (b"YWD", NEGATIVE_L5, b"HMSF4", b"Z"),
    ):
        yield b"0", date_time_type(date, years, time, zone)


def writers():
    """Texts of each form for the cross table, under types that write them."""
    for year in (b"2006", b"2000", b"2276", b"1748", b"1582", b"1581", b"0000"):
        yield date_type(b"YMD", *BASIC_PROLEPTIC), year + b"-06-13"
    for year in (b"-0001", b"-0128", b"-9999", b"-10000", b"+12000", b"+99999"):
        yield date_type(b"YMD", *NEGATIVE_L5), year + b"-12-31"
    for year in (b"2010", b"2011", b"1999", b"1066"):
        yield date_type(b"Y", *BASIC_PROLEPTIC), year
    yield from ((date_type(b"Y", *NEGATIVE_L5), year) for year in (b"-0044", b"+32768", b"-12001"))
    for n in range(1, 10):
        yield time_type(b"HMSF%d" % n, b"L"), b"15:27:46." + b"0987654321"[:n]
        yield time_type(b"HMSF%d" % n, b"L"), b"15:27:46." + b"9876543210"[:n]
    for text, with_difference in ((b"24:00:00", b"24:00:00-01:30"), (b"23:59:60", b"22:29:60-01:30"),
                                  (b"00:00:00", b"00:00:00-01:30")):
        yield b"TIME-OF-DAY", text
        yield time_type(b"HMS", b"LD"), with_difference
        yield b"DATE-TIME", b"2006-06-13T" + text


def cross_table():
    """A writer's encoding under a reader's type; "The refusal, whatever the reader's room, is 5 where the value's
    canonical text is of the form of the reader's type"."""
    encodings = [fill(bits_of(*each)) for each in writers()] + [octets for _, octets in sample_octets()][::4]
    for (limits, type_text), octets in itertools.product(readers(), encodings):
        yield decode_line(type_text, octets, limits)


def cross_table_in_der():
    """A writer's element under a reader's type, of the same tag and of another."""
    names = {date_type(b"YMD", *BASIC_PROLEPTIC): b"DATE", b"TIME-OF-DAY": time_type(b"HMS", b"L"),
             b"DATE-TIME": date_time_type(b"YMD", BASIC, b"HMS", b"L")}
    written = [element(*each) for each in itertools.chain(writers(), itertools.islice(sample(), 0, None, 4))]
    written += [element(names[type_text], text) for type_text, text in writers() if type_text in names]
    for k, ((limits, type_text), octets) in enumerate(itertools.product(readers(), written)):
        yield element_line(type_text, octets, limits, (b"*", b"*", b"a")[k % 3])


def years_for_others():
    """Years of each length under types that name others: "The refusal, whatever the reader's room, is 5"."""
    for k, (type_text, text, readers) in enumerate(year_texts.years_for_others()):
        octets = fill(bits_of(type_text, text))
        for reader in readers:
            yield decode_line(reader, octets, room=(b"*", b"*", b"a")[k % 3])
            yield element_line(reader, element(type_text, text), room=(b"*", b"a", b"*")[k % 3])


def date_times_for_others():
    """The same of date-times, also where the fields behind the year are of another type."""
    ends = ((b"H", b"L", b"T24"), (b"HMSF3", b"LD", b"T15:27:46.500-01:30"), (b"HMS", b"Z", b"T23:59:60Z"))
    choices = [(year,) for year in SIGNED_YEARS] + [*LARGE_CHOICES[6:9], BASIC]
    for k, year in enumerate(year_texts.YEARS_FOR_OTHERS):
        (time, zone, end), date = ends[k % 3], DATES[k % 6]
        type_text, text = date_time_type(date, SIGNED_YEARS, time, zone), year + DATE_TAILS[date] + end
        for years in choices:
            reader = date_time_type(date, years, time, zone)
            yield decode_line(reader, fill(bits_of(type_text, text)))
            yield element_line(reader, element(type_text, text))


def refused_types():
    """Types with refusal 1 or 2, with inputs that would be good, of no form, or empty, both ways."""
    y, hms = date_type(b"Y", b"Basic"), time_type(b"HMS", b"L")
    types = list(itertools.chain(
        value_lines.misplaced_names(), value_lines.misplaced_spaces(), value_lines.wrong_bars(),
        value_lines.other_types_of_x_680(), value_lines.ones_before_twos(), value_lines.unknown_settings(),
    ))[::4]
    types += itertools.islice((type_text for type_text, _ in year_texts.year_lists()), 0, None, 5)
    types += itertools.islice(year_texts.other_lists(), 0, None, 4)
    lists = (y, hms, date_type(b"YMD", b"L5"), date_type(b"Y", b"L5"), time_type(b"HMSF3", b"L"))
    types += [first + b"|" + second for first, second in itertools.product(lists, lists)]
    for k, type_text in enumerate(types):
        if b"\n" not in type_text and b";" not in type_text:
            yield encode_line(type_text, (b"2006", b"", b"2006-06-13", b"x")[k % 4], room=(b"*", b"a")[k % 2])
            yield decode_line(type_text, (b"\x05\x58", b"", b"\x04", b"\xff" * 9)[k % 4], room=(b"a", b"*")[k % 2])
            octets = (b"\x0E\x042006", b"", b"\x1F\x1F\x0820060613", b"\x0E\x042006\x00")[k % 4]
            yield element_line(type_text, octets, room=(b"*", b"a")[k % 2])


def restrictions_without_place():
    """Each limit of the menu on a date, a time and a date-time, both ways."""
    for limits, (type_text, text) in itertools.product(sorted(MENU), (
        (b"DATE", b"2006-06-13"), (b"TIME-OF-DAY", b"15:27:46"), (b"DATE-TIME", b"2006-06-13T15:27:46"),
        (date_type(b"YMD", *NEGATIVE_L5), b"-0044-03-15"), (time_type(b"HMSF3", b"LD"), b"24:00:00.000+00"),
        (date_time_type(b"Y", BASIC_PROLEPTIC, b"H", b"Z"), b"0000T24Z"),
        (date_type(b"Y", *SIGNED_YEARS), b"+999999999"),
    )):
        yield from both_ways(type_text, text, limits)
        yield encode_line(type_text, b"", limits)
        yield decode_line(type_text, b"", limits)
        yield element_line(type_text, b"", limits)


class Numbers:
    """Numbers that follow from a start alone: x becomes 6364136223846793005 x + 1442695040888963407 modulo 2^64."""

    def __init__(self, start):
        self.state = start

    def below(self, end):
        """A number from 0, below the end."""
        self.state = (6364136223846793005 * self.state + 1442695040888963407) % (1 << 64)
        return (self.state >> 33) % end

    def one_of(self, things):
        """One of the things."""
        return things[self.below(len(things))]


def any_large_year(numbers, setting):
    """A year of six to nine digits."""
    lowest = 10 ** (int(setting[1:]) - 1)
    return numbers.one_of((b"+", b"-")) + b"%d" % (lowest + numbers.below(9 * lowest))


def any_date(numbers, date, setting):
    """A text of a date with fields from all their numbers, and so at times of a date that doesn't exist."""
    year = {
        b"Basic": b"%04d" % numbers.one_of((1582 + numbers.below(8418), 1740 + numbers.below(545))),
        b"Proleptic": b"%04d" % numbers.below(1582),
        b"Negative": b"-%04d" % (1 + numbers.below(9999)),
        b"L5": numbers.one_of((b"+", b"-")) + b"%05d" % (10000 + numbers.below(90000)),
    }.get(setting) or any_large_year(numbers, setting)
    month, day, week = 1 + numbers.below(12), 1 + numbers.below(31), 1 + numbers.below(53)
    return year + {
        b"Y": b"", b"YM": b"-%02d" % month, b"YMD": b"-%02d-%02d" % (month, day), b"YD": b"-%03d" % (1 + numbers.below(366)),
        b"YW": b"-W%02d" % week, b"YWD": b"-W%02d-%d" % (week, 1 + numbers.below(7)),
    }[date]


def any_time(numbers, time, zone):
    """A text of a time with fields from all their numbers."""
    fields = [b"%02d" % numbers.below(end) for end in (25, 60, 61)]
    difference = numbers.one_of((b"+", b"-")) + b"%02d" % numbers.below(16)
    difference += numbers.one_of((b"", b":%02d" % numbers.below(60)))
    fraction = b"%09d" % numbers.below(10 ** numbers.one_of((7, 9, 9)))
    return time_text(time, fields, fraction, {b"L": b"", b"Z": b"Z", b"LD": difference}[zone])


def any_value(numbers):
    """A type and a text of its form."""
    date, years = numbers.one_of(DATES), numbers.one_of(YEAR_CHOICES)
    time, zone = numbers.one_of(TIMES), numbers.one_of(ZONES)
    date_text, clock = any_date(numbers, date, numbers.one_of(years)), any_time(numbers, time, zone)
    return numbers.one_of((
        (date_type(date, *years), date_text),
        (time_type(time, zone), clock),
        (date_time_type(date, years, time, zone), date_text + b"T" + clock),
    ))


def any_year(numbers):
    """A type that names larger years and a text of its form, at times with a year that it doesn't name."""
    date, years = numbers.one_of(DATES), numbers.one_of(LARGE_CHOICES)
    time, zone = numbers.one_of(TIMES), numbers.one_of(ZONES)
    setting = numbers.one_of((*years, *years, numbers.one_of(LARGE_YEARS)))
    date_text, clock = any_date(numbers, date, setting), any_time(numbers, time, zone)
    return numbers.one_of((
        (date_type(date, *years), date_text),
        (date_time_type(date, years, time, zone), date_text + b"T" + clock),
    ))


def any_element(numbers, type_text, text):
    """An element with one or two of its octets replaced, or octets of any number behind the start of one."""
    octets = element(type_text, text)
    if numbers.below(4) == 0:
        return octets[:numbers.below(5)] + bytes(numbers.below(256) for _ in range(numbers.below(10)))
    for _ in range(1 + numbers.below(2)):
        place, other = numbers.below(len(octets)), numbers.one_of(b"0123456789-+:.,TWZ%c" % numbers.below(256))
        octets = octets[:place] + bytes([other]) + octets[place + 1:]
    return octets


def any_values():
    """Values of every form with fields of any number, both ways."""
    numbers = Numbers(1)
    for _ in range(900):
        yield from both_ways(*any_value(numbers))


def any_octets():
    """Types of the cross table with octets of any number, and with encodings of which two bits are turned."""
    numbers = Numbers(2)
    types, encodings = list(readers()), list(sample_octets())
    for _ in range(700):
        limits, type_text = numbers.one_of(types)
        yield decode_line(type_text, bytes(numbers.below(256) for _ in range(numbers.below(9))), limits)
    for _ in range(700):
        type_text, octets = numbers.one_of(encodings)
        number = int.from_bytes(octets, "big")
        number ^= 1 << numbers.below(8 * len(octets)) | 1 << numbers.below(8 * len(octets))
        yield decode_line(type_text, number.to_bytes(len(octets), "big"))


def any_elements():
    """Types of the cross table with elements of the sample that are changed, and with octets of any number."""
    numbers = Numbers(5)
    types, values = list(readers()), list(sample())
    for _ in range(500):
        limits, type_text = numbers.one_of(types)
        yield element_line(type_text, any_element(numbers, *numbers.one_of(values)), limits)
    for _ in range(900):
        type_text, text = numbers.one_of(values)
        yield element_line(type_text, any_element(numbers, type_text, text), room=numbers.one_of((b"*", b"*", b"k")))


def any_years():
    """Years of six to nine digits of any number both ways, elements that are changed, and octets behind a length."""
    numbers = Numbers(8)
    for _ in range(80):
        type_text, text = any_year(numbers)
        yield from both_ways(type_text, text)
        yield element_line(type_text, any_element(numbers, type_text, text))
        octets = bytes([1 + numbers.below(5)]) + bytes(numbers.below(256) for _ in range(5))
        yield decode_line(type_text, octets + bytes(numbers.below(256) for _ in range(numbers.below(9))))


def long_inputs():
    """Inputs that make a line of 1,024 octets, or nearly so."""
    for type_text, octets in itertools.islice(sample_octets(), 0, None, 5):
        count = (LONGEST_LINE - len(decode_line(type_text, octets))) // 2
        yield from (decode_line(type_text, octets + bytes([other]) * count) for other in (0x00, 0xFF))
        yield decode_line(type_text, b"\xff" * (count + len(octets)))
    for type_text, text in itertools.islice(sample(), 0, None, 5):
        octets = element(type_text, text)
        count = (LONGEST_LINE - len(element_line(type_text, octets))) // 2
        yield from (element_line(type_text, octets + bytes([other]) * count) for other in (0x00, 0x30, 0xFF))
        yield element_line(type_text, octets[:1] + b"\x7F" * (count + len(octets) - 1))
        yield element_line(type_text, octets[:2] + b"0" * (count + len(octets) - 2))
    for type_text, text in itertools.islice(sample(), 0, None, 7):
        for other in (b"0", b" ", b"\x00", b"\xff"):
            yield encode_line(type_text, text + other * (LONGEST_LINE - len(encode_line(type_text, text))))
    yield encode_line(b"DATE|" * 190, b"2006-06-13")
    yield decode_line(b" " * 900, b"\x05\x58")


def small_hex():
    """Hex digits in small letters, and in small ones and capitals."""
    questions = [(b"d0*;" + type_text, octets) for type_text, octets in sample_octets()]
    questions += [(b"u0*;" + type_text, element(type_text, text)) for type_text, text in sample()]
    for start, octets in questions[::4]:
        yield start + b";" + octets.hex().encode()
        yield start + b";" + b"".join(b"%x%X" % (octet >> 4, octet & 15) for octet in octets)


def other_lines():
    """Lines that are no question, and semicolons where a text or a type is expected."""
    yield from (
        b"", b"?", b"e", b"d", b"e0*", b"d0*", b"e0*;", b"d0*;DATE", b"e0*;DATE", b";", b";;", b";;;", b"e;;", b"e0;;",
        b"e0;DATE;2006-06-13", b"e*;DATE;2006-06-13", b"0*;DATE;2006-06-13", b"e0**;DATE;2006-06-13",
        b" e0*;DATE;2006-06-13", b"e0* ;DATE;2006-06-13", b"E0*;DATE;2006-06-13", b"D0*;DATE;0558", b"x0*;DATE;0558",
        b"00*;DATE;0558", b"*0e;DATE;2006-06-13", b"0e*;DATE;2006-06-13", b"e*0;DATE;2006-06-13",
        b"per;DATE;2006-06-13", b"unper;DATE;0558", b"e:*;DATE;2006-06-13", b"e/*;DATE;2006-06-13",
        b"ea*;DATE;2006-06-13", b"e=*;DATE;DATE", b"e00;DATE;2006-06-13", b"e0?;DATE;2006-06-13",
        b"e0+;DATE;2006-06-13", b"e0@;DATE;2006-06-13", b"e0[;DATE;2006-06-13", b"e0`;DATE;2006-06-13",
        b"e0{;DATE;2006-06-13", b"e0\xe1;DATE;2006-06-13", b"e0);DATE;2006-06-13", b"e 0*;DATE;0558",
        b"\xef\xbb\xbfe0*;DATE;2006-06-13", b"d0*;DATE;055", b"d0*;DATE;5", b"d0*;DATE;05 58", b"d0*;DATE;0558 ",
        b"d0*;DATE; 0558", b"d0*;DATE;0558\r", b"d0*;DATE;0x0558", b"d0*;DATE;05G8", b"d0*;DATE;05g8", b"d0*;DATE;05/8",
        b"d0*;DATE;05:8", b"d0*;DATE;05@8", b"d0*;DATE;05`8", b"d0*;DATE;05;58", b"d0*;DATE;0558;", b"d0*;DATE;;",
        b"d0*;DATE;\x00\x00", b"d0*;DATE;\xb2\xb3", b"d0*;DATE;+558", b"d0*;DATE;2006-06-13", b"d0*;DATE;05_58",
        b"d0*;;5", b"d0*;DATE|DATE;5", b"d0*;nothing;zz", b"d8*;DATE;5", b"d0a;DATE;5", b"d0*;DATE;", b"d0*;;",
        b"d0*;;0558", b"e0*;;", b"e0*;;;", b"e0*;;2006-06-13", b"e0*;DATE;", b"e0*;DATE;;", b"e0*;DATE;2006-06-13;",
        b"e0*;DATE;2006-06-13\r", b"e0*;DATE ;2006-06-13", b"e0*; DATE;2006-06-13", b"e0*;DATE; 2006-06-13",
        b'e0*;DATE;"2006-06-13"', b"e0*;DA;TE;2006-06-13", b"e0*:DATE:2006-06-13", b"e0*,DATE,2006-06-13", b"0" * 1024,
        b";" * 1024, b"\r", b"u", b"u0*", b"u0*;", b"u0*;DATE", b"u;;", b"u0*;;", b"u0*;;5", b"u0*;DATE;",
        b"u0*;DATE;;",
        b"U0*;DATE;1F1F083230303630363133", b"u0;DATE;1F1F083230303630363133", b"u*;DATE;1F1F083230303630363133",
        b"u0**;DATE;1F1F083230303630363133", b"0u*;DATE;1F1F083230303630363133", b"ua*;DATE;1F1F083230303630363133",
        b"u0?;DATE;1F1F083230303630363133", b"u0*;DATE;1F1F08323030363036313", b"u0*;DATE;1F1F083230303630363133;",
        b"u0*;DATE;1F 1F 08 32 30 30 36 30 36 31 33", b"u0*;DATE;1F1F083230303630363133 ", b"u0*;DATE;2006-06-13",
        b"u0*;DATE; 1F1F083230303630363133", b"u0*;DATE;1F1F083230303630363133\r", b"u0*;DATE;0x1F1F08",
        b"u0*;DATE;1G1F083230303630363133", b"u0*;DATE|DATE;5", b"u0*;nothing;zz", b"u8*;DATE;5", b"u0a;DATE;5",
        b"under;DATE;1F1F083230303630363133", b"u0*;;1F1F083230303630363133", b"u0*;DATE;\x1F\x1F\x0820060613",
        b"u0*;DATE;;1F1F083230303630363133", b"u0*; DATE;1F1F083230303630363133", b"u0*;DATE ;1F1F083230303630363133",
    )
    for octet in (bytes([number]) for number in range(256) if number != 0x0A):
        yield b"d0*;DATE;055" + octet
        yield b"e0" + octet + b";DATE;1748-12-31"
        yield b"u0*;DATE;1F1F08323030363036313" + octet
        yield b"u0" + octet + b";DATE;1F1F083137343831323331"


def vectors():
    """The outside tool's vectors of PER, both ways."""
    for line_of_file in VECTORS.read_bytes().splitlines():
        type_text, text, octets = line_of_file.split(b";")
        yield b"e0*;" + type_text + b";" + text
        yield b"d0*;" + type_text + b";" + octets


def vectors_of_der():
    """The outside tool's vectors of DER, both ways, and their octets as PER."""
    for type_text, text, octets in elements.der_vectors():
        yield b"t" + encode_line(type_text, text)[1:]
        yield element_line(type_text, octets)
        yield decode_line(type_text, octets)


def durations():
    """Each fourth text of durations, good or not, both ways."""
    questions = itertools.chain(duration_texts.good_texts(), duration_texts.wrong_texts())
    for type_text, text in duration_texts.with_types(itertools.islice(questions, 0, None, 4)):
        yield from both_ways(type_text, text)


def fields_of_durations():
    """Half of the bits of durations, under the name and under the settings in turn; the others are converted."""
    for k, bits in enumerate(itertools.islice(duration_fields.all_bits(), 1, None, 2)):
        yield bits_line((duration_texts.NAME, duration_texts.LIST)[k % 2], bits)


def changed_durations():
    """Encodings of durations cut at every octet, lengthened, and with each of their bits turned; the same in DER."""
    for k, (type_text, text) in enumerate(duration_texts.SAMPLE):
        octets = fill(bits_of(type_text, text))
        cut = (octets[:length] for length in range(len(octets)))
        longer = (octets + more for more in (b"\x00", b"\x01", b"\x80", b"\xff", octets))
        turned = turned_bits(octets) if len(octets) <= 6 else ()
        yield from (decode_line(type_text, changed) for changed in itertools.chain([octets], cut, longer, turned))
        if k < 2:
            yield from element_lines(elements.changed(type_text, text))
            yield from element_lines(elements.with_other_tags(type_text, text), room=b"k")
            yield from element_lines(elements.with_long_lengths(type_text, text))


def elements_of_durations():
    """Contents of durations behind both tags and under other types, and every number in the length."""
    yield from element_lines(elements.durations_in_contents())
    yield from element_lines(elements.durations_under_others())
    yield from element_lines(elements.with_every_length(duration_texts.NAME, b"P1Y6M", b"Y6M"))


def rooms_of_durations():
    """Rooms of no octet, too short by one, exact and longer by one, both ways; a result of more than 64 octets too."""
    for type_text, text in duration_texts.SAMPLE[:6]:
        in_per, in_der = fill(bits_of(type_text, text)), element(type_text, text)
        for length in sorted({0, len(in_per) - 1, len(in_per), len(in_per) + 1}):
            yield encode_line(type_text, text, room=ROOM_OF[length])
        for length in sorted({0, len(in_der) - 1, len(in_der), len(in_der) + 1}):
            yield b"t" + encode_line(type_text, text, room=ROOM_OF[length])[1:]
        for length in sorted({0, len(text) - 1, len(text), len(text) + 1}):
            yield decode_line(type_text, in_per, room=ROOM_OF[length])
            yield element_line(type_text, in_der, room=ROOM_OF[length])
    for type_text, room in itertools.product((duration_texts.NAME, duration_texts.LIST), (b"L", b"M", b"N", b"*")):
        yield encode_line(type_text, max(duration_texts.components_together(), key=len), room=room)


def limits_on_durations():
    """Each limit on a duration, which has no place for any, whatever else is wrong, both ways."""
    for limits, type_text in itertools.product(sorted(MENU), (duration_texts.NAME, duration_texts.LIST)):
        yield from (encode_line(type_text, text, limits) for text in (b"P1Y6M", b"P01Y"))
        yield from (decode_line(type_text, octets, limits) for octets in (b"\xC0\x04\xC0", b"\x00"))
        yield element_line(type_text, element(type_text, b"P1Y6M"), limits, b"a")


def durations_and_points():
    """Encodings of durations under other types, and of the sample under those of durations."""
    for k, (type_text, octets) in enumerate(sample_octets()):
        yield decode_line((duration_texts.NAME, duration_texts.LIST)[k % 2], octets)
        yield decode_line(type_text, fill(bits_of(*duration_texts.SAMPLE[k % 7])))
    for k, type_text in enumerate(itertools.islice(duration_texts.other_types(), 0, None, 3)):
        yield (encode_line(type_text, b"P1Y6M"), decode_line(type_text, b"\xC0\x04\xC0"))[k % 2]


def any_duration(numbers):
    """A text of a duration: some components of any number, at times 0, and at times a fraction."""
    places = [place for place in duration_texts.SIX if numbers.below(2)] or [2]
    texts = [b"%d" % numbers.below(numbers.one_of((1, 20, 100, 10 ** 9))) for _ in places]
    if numbers.below(2):
        digits = 1 + numbers.below(9)
        texts[-1] += numbers.one_of((b".", b",")) + b"%0*d" % (digits, numbers.below(10 ** numbers.one_of((1, digits))))
    return duration_texts.with_numbers(places, texts)


def any_durations():
    """Durations of any numbers both ways, octets of any number, and elements that are changed."""
    numbers = Numbers(6)
    types = (duration_texts.NAME, duration_texts.LIST)
    for _ in range(100):
        type_text, text = numbers.one_of(types), any_duration(numbers)
        yield from both_ways(type_text, text)
        yield element_line(type_text, any_element(numbers, type_text, text))
    for _ in range(150):
        octets = bytes(numbers.below(256) for _ in range(1 + numbers.below(9)))
        yield decode_line(numbers.one_of(types), bytes([octets[0] & ~0x20 & numbers.below(256)]) + octets[1:])


def last_line():
    """The line without a newline at its end."""
    yield decode_line(b"DATE-TIME", fill(bits_of(b"DATE-TIME", b"2009-12-31T23:59:60")), b"9", b"t")


SECTIONS = (
    checked_values, year_ends, large_year_ends, near_years, fractions, whole_times, differences, difference_fields,
    date_times, large_date_times, windows, no_hour_24, boundaries, second_60, changed_octets, filling, free_integers,
    free_integer_lengths, other_choice, fraction_fields, fractions_at_hour_24, date_fields, time_fields, rooms,
    rooms_in_der, changed_elements, lengths_of_elements, names_in_elements, causes_in_octets, causes_in_elements,
    causes_at_second_60, causes_in_names, causes_in_years, causes_in_texts, cross_table, cross_table_in_der,
    years_for_others, date_times_for_others, refused_types, restrictions_without_place, any_values, any_years,
    any_octets, any_elements, long_inputs, small_hex, vectors, vectors_of_der, other_lines, durations,
    fields_of_durations, changed_durations, elements_of_durations, rooms_of_durations, limits_on_durations,
    durations_and_points, any_durations, last_line,
)


def in_der(lines):
    """For each line that encodes in PER, the same in DER, and the reading of elements with its text."""
    for each in lines:
        parts = each.split(b";", 2)
        if each[:1] == b"e" and len(parts) == 3:
            yield b"t" + each[1:]
            for octets in elements.spellings(*parts[1:]):
                yield b"u" + decode_line(parts[1], octets, parts[0][1:2], parts[0][2:])[1:]


def all_lines():
    """The lines of all sections, each line once."""
    lines = dict.fromkeys(itertools.chain.from_iterable(section() for section in SECTIONS))
    lines = dict.fromkeys(itertools.chain(in_der(lines), lines))
    if any(b"\n" in each or len(each) > LONGEST_LINE for each in lines):
        sys.exit("a newline inside a line, or a line that is too long")
    return list(lines)


def reply_on_text(encode, type_text, limits, text, room):
    """The number of an encoding and, after 0, the bit count and the octets in hex."""
    number, octets, bits = encode(type_text, limits, text, room)
    return b"0 %d %s" % (bits, octets.hex().upper().encode()) if number == 0 else b"%d" % number


def reply_on_octets(decode, type_text, limits, octets, room):
    """The number of a decoding and, after 0, the bit count and the text."""
    number, text, bits = decode(type_text, limits, octets, room)
    return b"0 %d %s" % (bits, text) if number == 0 else b"%d" % number


# what encodes a text, and what decodes octets
ENCODERS = {b"e": per.encode, b"t": der.encode}
DECODERS = {b"d": per.decode, b"u": der.decode}


def reply(question):
    """The reply to one line, without its newline."""
    parts = question.split(b";", 2)
    if len(parts) < 3 or len(parts[0]) != 3:
        return b"?"
    work, limits, room = (parts[0][place:place + 1] for place in range(3))
    if limits not in MENU or room not in ROOMS:
        return b"?"
    if work in ENCODERS:
        return reply_on_text(ENCODERS[work], parts[1], MENU[limits], parts[2], ROOMS[room])
    if work in DECODERS and HEX.fullmatch(parts[2]):
        octets = bytes.fromhex(parts[2].decode("ascii"))
        return reply_on_octets(DECODERS[work], parts[1], MENU[limits], octets, ROOMS[room])
    return b"?"
