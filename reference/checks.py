"""What the checks share: limits and types with plain names, and what is tried on the encoders and decoders."""

import itertools
import re
import sys
from datetime import datetime, timedelta, timezone

from settings import Limits
from texts import Difference, judge

# more octets than any result has: a duration has up to 74
ROOM = 136

YEARS_2000_TO_2010 = Limits((2000, 2010), False)
EMPTY_WINDOW = Limits((2010, 2000), False)
NO_HOUR_24 = Limits(None, True)
BOTH_LIMITS = Limits((2000, 2010), True)

# at the ends of the years of nine digits, and beyond them
NINE_DIGITS = Limits((-999999999, 999999999), False)
HIGHEST_YEAR = Limits((999999999, 999999999), False)
LOWEST_YEAR = Limits((-999999999, -999999999), False)
INSIDE_NINE_DIGITS = Limits((-999999998, 999999998), False)
ABOVE_NINE_DIGITS = Limits((1000000000, 2147483647), False)
BELOW_NINE_DIGITS = Limits((-2147483648, -1000000000), False)

Y_BASIC = b"Basic=Date Date=Y Year=Basic"
Y_PROLEPTIC = b"Basic=Date Date=Y Year=Proleptic"
Y_NEGATIVE = b"Basic=Date Date=Y Year=Negative"
Y_L5 = b"Basic=Date Date=Y Year=L5"
Y_L6 = b"Basic=Date Date=Y Year=L6"
Y_L7 = b"Basic=Date Date=Y Year=L7"
Y_L8 = b"Basic=Date Date=Y Year=L8"
Y_L9 = b"Basic=Date Date=Y Year=L9"
SIX_LISTS = b"|".join((Y_NEGATIVE, Y_L5, Y_L6, Y_L7, Y_L8, Y_L9))
YM_BASIC = b"Basic=Date Date=YM Year=Basic"
YMD_BASIC = b"Basic=Date Date=YMD Year=Basic"
YMD_PROLEPTIC = b"Basic=Date Date=YMD Year=Proleptic"
YMD_L5 = b"Basic=Date Date=YMD Year=L5"
YMD_L6 = b"Basic=Date Date=YMD Year=L6"
YMD_L9 = b"Basic=Date Date=YMD Year=L9"
YM_L6 = b"Basic=Date Date=YM Year=L6"
YD_L7 = b"Basic=Date Date=YD Year=L7"
YW_L8 = b"Basic=Date Date=YW Year=L8"
YW_L9 = b"Basic=Date Date=YW Year=L9"
YWD_L9 = b"Basic=Date Date=YWD Year=L9"
YD_BASIC = b"Basic=Date Date=YD Year=Basic"
YW_BASIC = b"Basic=Date Date=YW Year=Basic"
YWD_BASIC = b"Basic=Date Date=YWD Year=Basic"
H_L = b"Basic=Time Time=H Local-or-UTC=L"
H_Z = b"Basic=Time Time=H Local-or-UTC=Z"
H_LD = b"Basic=Time Time=H Local-or-UTC=LD"
HM_Z = b"Basic=Time Time=HM Local-or-UTC=Z"
HM_LD = b"Basic=Time Time=HM Local-or-UTC=LD"
HMS_L = b"Basic=Time Time=HMS Local-or-UTC=L"
HMS_Z = b"Basic=Time Time=HMS Local-or-UTC=Z"
HMS_LD = b"Basic=Time Time=HMS Local-or-UTC=LD"
HF1_L = b"Basic=Time Time=HF1 Local-or-UTC=L"
HF2_L = b"Basic=Time Time=HF2 Local-or-UTC=L"
HF2_LD = b"Basic=Time Time=HF2 Local-or-UTC=LD"
HF4_L = b"Basic=Time Time=HF4 Local-or-UTC=L"
HMF1_LD = b"Basic=Time Time=HMF1 Local-or-UTC=LD"
HMSF1_Z = b"Basic=Time Time=HMSF1 Local-or-UTC=Z"
HMSF2_LD = b"Basic=Time Time=HMSF2 Local-or-UTC=LD"
HMSF3_L = b"Basic=Time Time=HMSF3 Local-or-UTC=L"
HMSF4_L = b"Basic=Time Time=HMSF4 Local-or-UTC=L"
HMSF4_LD = b"Basic=Time Time=HMSF4 Local-or-UTC=LD"
YMD_T_HMS_L = b"Basic=Date-Time Date=YMD Year=Basic Time=HMS Local-or-UTC=L"
YMD_T_HMS_Z = b"Basic=Date-Time Date=YMD Year=Basic Time=HMS Local-or-UTC=Z"
YMD_T_HMS_LD = b"Basic=Date-Time Date=YMD Year=Basic Time=HMS Local-or-UTC=LD"
YW_T_HM_LD = b"Basic=Date-Time Date=YW Year=Basic Time=HM Local-or-UTC=LD"
YW_T_HMF1_LD = b"Basic=Date-Time Date=YW Year=Negative Time=HMF1 Local-or-UTC=LD"
YMD_T_HMS_Z_L9 = b"Basic=Date-Time Date=YMD Year=L9 Time=HMS Local-or-UTC=Z"
YMD_T_HMSF9_LD_L9 = b"Basic=Date-Time Date=YMD Year=L9 Time=HMSF9 Local-or-UTC=LD"
INTERVAL_D = b"Basic=Interval Interval-type=D"

# type, canonical text, the bits of its fields, and the number: 0, or 4 as #102 says, "for text, PER and DER". Hours have 5
# bits, minutes 6 and seconds 6; of a difference there are a bit for minutes, the hours and 15 in 5 and the minutes less 1
# in 6. Before a date-time stand the choice, the year, the month less 1 and the day less 1
SECOND_60 = (
    # "with Z, second 60 is accepted only at 23:59"
    (HMS_Z, b"23:59:60Z", "10111 111011 111100", 0),
    (HMS_Z, b"12:34:60Z", "01100 100010 111100", 4),
    (HMS_Z, b"23:58:60Z", "10111 111010 111100", 4),
    (HMS_Z, b"22:59:60Z", "10110 111011 111100", 4),
    (HMS_Z, b"00:00:60Z", "00000 000000 111100", 4),
    # "with a difference, only where local time less the difference, around the day, is 23:59, as in `05:29:60+05:30`"
    (HMS_LD, b"05:29:60+05:30", "00101 011101 111100 1 10100 011101", 0),
    (HMS_LD, b"05:30:60+05:30", "00101 011110 111100 1 10100 011101", 4),
    (HMS_LD, b"05:28:60+05:30", "00101 011100 111100 1 10100 011101", 4),
    (HMS_LD, b"23:59:60+05:30", "10111 111011 111100 1 10100 011101", 4),
    # local time and the difference, and local time less its hours, are 23:59
    (HMS_LD, b"18:29:60+05:30", "10010 011101 111100 1 10100 011101", 4),
    (HMS_LD, b"04:59:60+05:30", "00100 111011 111100 1 10100 011101", 4),
    # ahead by nothing, by a minute, by an hour and by the most: the day before in UTC
    (HMS_LD, b"23:59:60+00", "10111 111011 111100 0 01111", 0),
    (HMS_LD, b"12:34:60+00", "01100 100010 111100 0 01111", 4),
    (HMS_LD, b"00:00:60+00:01", "00000 000000 111100 1 01111 000000", 0),
    (HMS_LD, b"23:59:60+00:01", "10111 111011 111100 1 01111 000000", 4),
    (HMS_LD, b"00:59:60+01", "00000 111011 111100 0 10000", 0),
    (HMS_LD, b"22:59:60+01", "10110 111011 111100 0 10000", 4),
    (HMS_LD, b"15:58:60+15:59", "01111 111010 111100 1 11110 111010", 0),
    (HMS_LD, b"23:59:60+15:59", "10111 111011 111100 1 11110 111010", 4),
    # behind, by hours, by hours and minutes, and by the most; the sign is also that of the minutes
    (HMS_LD, b"18:59:60-05", "10010 111011 111100 0 01010", 0),
    (HMS_LD, b"23:59:60-05", "10111 111011 111100 0 01010", 4),
    (HMS_LD, b"04:59:60-05", "00100 111011 111100 0 01010", 4),
    (HMS_LD, b"18:29:60-05:30", "10010 011101 111100 1 01010 011101", 0),
    (HMS_LD, b"19:29:60-05:30", "10011 011101 111100 1 01010 011101", 4),
    (HMS_LD, b"18:59:60-05:30", "10010 111011 111100 1 01010 011101", 4),
    (HMS_LD, b"08:00:60-15:59", "01000 000000 111100 1 00000 111010", 0),
    (HMS_LD, b"08:59:60-15:59", "01000 111011 111100 1 00000 111010", 4),
    # any fraction may follow: 9, 0, 50, and 1000 as a free integer
    (HMSF1_Z, b"23:59:60.9Z", "10111 111011 111100 0 0000001001", 0),
    (HMSF1_Z, b"12:34:60.9Z", "01100 100010 111100 0 0000001001", 4),
    (HMSF1_Z, b"12:34:60.0Z", "01100 100010 111100 0 0000000000", 4),
    (HMSF2_LD, b"18:59:60.50-05", "10010 111011 111100 0 0000110010 0 01010", 0),
    (HMSF2_LD, b"23:59:60.50-05", "10111 111011 111100 0 0000110010 0 01010", 4),
    (HMSF4_LD, b"05:29:60.1000+05:30", "00101 011101 111100 1 00000010 00000011 11101000 1 10100 011101", 0),
    (HMSF4_LD, b"23:59:60.1000+05:30", "10111 111011 111100 1 00000010 00000011 11101000 1 10100 011101", 4),
    # "for a local time without one we can't know and keep accepting it"
    (HMS_L, b"12:34:60", "01100 100010 111100", 0),
    (HMS_L, b"00:00:60", "00000 000000 111100", 0),
    (HMSF3_L, b"12:34:60.500", "01100 100010 111100 0 0111110100", 0),
    (YMD_T_HMS_L, b"2006-06-13T12:34:60", "00 0001 0101 01100 01100 100010 111100", 0),
    # after a date, which is the local one
    (YMD_T_HMS_Z, b"2005-12-31T23:59:60Z", "00 0000 1011 11110 10111 111011 111100", 0),
    (YMD_T_HMS_Z, b"2005-12-31T12:34:60Z", "00 0000 1011 11110 01100 100010 111100", 4),
    (YMD_T_HMS_LD, b"2006-01-01T05:29:60+05:30", "00 0001 0000 00000 00101 011101 111100 1 10100 011101", 0),
    (YMD_T_HMS_LD, b"2006-01-01T23:59:60+05:30", "00 0001 0000 00000 10111 111011 111100 1 10100 011101", 4),
    # the second before is in every minute
    (HMS_Z, b"12:34:59Z", "01100 100010 111011", 0),
    (HMS_LD, b"05:30:59+05:30", "00101 011110 111011 1 10100 011101", 0),
    (HMS_LD, b"23:59:59-05", "10111 111011 111011 0 01010", 0),
    (YMD_T_HMS_Z, b"2005-12-31T12:34:59Z", "00 0000 1011 11110 01100 100010 111011", 0),
)

# the Year settings that a type may name together, in some orders: one list, and "up to six lists"
YEARS_OF_TYPES = (
    ("Basic",), ("Proleptic",), ("Negative",), ("L5",), ("L6",), ("L7",), ("L8",), ("L9",),
    ("Proleptic", "Basic"), ("L6", "Negative"), ("L9", "L5", "L7"), ("L8", "L6", "Negative", "L9"),
    ("L5", "L6", "L7", "L8", "L9"), ("Negative", "L5", "L6", "L7", "L8"), ("L7", "L9", "Negative", "L8", "L5", "L6"),
)

# the text of a year, its free integer, and the one Year setting that it is of
SIGNED_YEARS = (
    # both ends of each setting, each one past an end of its neighbour
    (b"-0001", "01 FF", "Negative"),
    (b"-9999", "02 D8 F1", "Negative"),
    (b"+10000", "02 27 10", "L5"),
    (b"+99999", "03 01 86 9F", "L5"),
    (b"-10000", "02 D8 F0", "L5"),
    (b"-99999", "03 FE 79 61", "L5"),
    (b"+100000", "03 01 86 A0", "L6"),
    (b"+999999", "03 0F 42 3F", "L6"),
    (b"-100000", "03 FE 79 60", "L6"),
    (b"-999999", "03 F0 BD C1", "L6"),
    (b"+1000000", "03 0F 42 40", "L7"),
    (b"+9999999", "04 00 98 96 7F", "L7"),
    (b"-1000000", "03 F0 BD C0", "L7"),
    (b"-9999999", "04 FF 67 69 81", "L7"),
    (b"+10000000", "04 00 98 96 80", "L8"),
    (b"+99999999", "04 05 F5 E0 FF", "L8"),
    (b"-10000000", "04 FF 67 69 80", "L8"),
    (b"-99999999", "04 FA 0A 1F 01", "L8"),
    (b"+100000000", "04 05 F5 E1 00", "L9"),
    (b"+999999999", "04 3B 9A C9 FF", "L9"),
    (b"-100000000", "04 FA 0A 1F 00", "L9"),
    (b"-999999999", "04 C4 65 36 01", "L9"),
    # both sides of each length of a free integer
    (b"-0128", "01 80", "Negative"),
    (b"-0129", "02 FF 7F", "Negative"),
    (b"+32767", "02 7F FF", "L5"),
    (b"+32768", "03 00 80 00", "L5"),
    (b"-32768", "02 80 00", "L5"),
    (b"-32769", "03 FF 7F FF", "L5"),
    (b"+8388607", "03 7F FF FF", "L7"),
    (b"+8388608", "04 00 80 00 00", "L7"),
    (b"-8388608", "03 80 00 00", "L7"),
    (b"-8388609", "04 FF 7F FF FF", "L7"),
    # inside
    (b"+123456789", "04 07 5B CD 15", "L9"),
    (b"-123456789", "04 F8 A4 32 EB", "L9"),
)

# dates of the longer years that exist, and by the next day, ordinal day or week some that don't: type, text, number
LARGE_DATES = (
    # "leap when divisible by 4 and not by 100, or by 400"
    (YMD_L9, b"+999999996-02-29", 0),
    (YMD_L9, b"+999999999-02-29", 4),
    (YMD_L9, b"+999999900-02-29", 4),
    (YMD_L9, b"+999999600-02-29", 0),
    (YMD_L9, b"+999999600-02-30", 4),
    (YMD_L9, b"-999999996-02-29", 0),
    (YMD_L9, b"-999999999-02-29", 4),
    (YMD_L9, b"-999999900-02-29", 4),
    (YMD_L9, b"-999999600-02-29", 0),
    (YMD_L9, b"+100000000-02-29", 0),
    (YMD_L9, b"-100000000-02-29", 0),
    (YMD_L6, b"+100100-02-29", 4),
    (YMD_L6, b"-123456-02-29", 0),
    (YD_L7, b"+1000000-366", 0),
    (YD_L7, b"-1000000-366", 0),
    (YD_L7, b"+1000001-366", 4),
    (YD_L7, b"-1000100-366", 4),
    (YD_L7, b"-1000000-367", 4),
    # "weeks 1 to 52, or 53 where the year has it": whole periods of 400 years from 2020, 2021 and 2026
    (YW_L9, b"+999999620-W53", 0),
    (YW_L9, b"+999999621-W53", 4),
    (YW_L9, b"+999999626-W53", 0),
    (YW_L9, b"+999999626-W54", 4),
    (YW_L9, b"-999999980-W53", 0),
    (YW_L9, b"-999999979-W53", 4),
    (YW_L9, b"-999999974-W53", 0),
    (YW_L9, b"-999999974-W00", 4),
    (YW_L8, b"+10000020-W53", 0),
    (YW_L8, b"-99999980-W53", 0),
    (YW_L8, b"-99999979-W53", 4),
    (YWD_L9, b"-999999980-W53-7", 0),
    (YWD_L9, b"-999999980-W53-8", 4),
    (YWD_L9, b"-999999979-W53-1", 4),
)

# the most octets that a duration has: six numbers and a fraction, each of nine digits
LONGEST_DURATION = b"P999999999Y999999999M999999999DT999999999H999999999M999999999.999999999S"


def agree(found, expected, *what):
    """Ends the program with a message when the two differ."""
    if found != expected:
        sys.exit("%s: found %r, expected %r" % (" ".join(map(str, what)), found, expected))


def zones_at_second_60(texts):
    """What follows second 60 and its fraction in some of the texts: nothing, `Z`, or the sign of a difference."""
    found = (re.search(rb":60(?:\.[0-9]+)?(\Z|[Z+-])", text) for text in texts)
    return {match[1] for match in found if match}


def check_years_in_vectors(vectors):
    """That types and texts of vectors have years of five to nine digits: the ends of each length, of either sign, under each
    form of a date; and each length, and each form, in date-times."""
    forms, words = (b"Y", b"YM", b"YMD", b"YD", b"YW", b"YWD"), (b"L5", b"L6", b"L7", b"L8", b"L9")
    found = {b"Date": set(), b"Date-Time": set()}
    for type_text, text in vectors:
        match = re.fullmatch(rb"Basic=(Date|Date-Time) Date=([A-Z]+) Year=(L[5-9])(?: Time=.*)?", type_text)
        if match:
            found[match[1]].add((match[2], match[3], re.match(rb".[0-9]+", text)[0]))
    ends = {(word, text) for text, _, word in SIGNED_YEARS[2:22]}
    wanted = {(form, word.encode(), text) for form, (word, text) in itertools.product(forms, ends)}
    agree(wanted - found[b"Date"], set(), "vectors of long years are there")
    agree({form for form, _, _ in found[b"Date-Time"]}, set(forms), "forms of date-times with long years")
    agree({word for _, word, _ in found[b"Date-Time"]}, set(words), "long years of date-times")


def year_word(number):
    """The setting of a year below 0 or of more than four digits, by their count."""
    digits = len(str(abs(number)))
    return b"Negative" if digits < 5 else b"L%d" % digits


def check_ends_in_lines(replied):
    """That lines with these types, texts and first words of replies ask for both ends of each length of a year under types
    that hold them and under others; and for the day and the week that not every year has, there and not there, in each."""
    alone = {(text, word) for type_text, text, word in replied if b" Date=Y " in type_text}
    ends = [text for text, _, _ in SIGNED_YEARS[:22]]
    agree(set(itertools.product(ends, (b"0", b"5"))) - alone, set(), "ends of years")
    found = set()
    for _, text, word in replied:
        match = re.fullmatch(rb"([+-][1-9][0-9]{5,8})(-02-29|-366|-W53)", text)
        if match:
            found.add((year_word(int(match[1])), match[1][:1], match[2], word))
    words, ends = (b"L6", b"L7", b"L8", b"L9"), (b"-02-29", b"-366", b"-W53")
    wanted = set(itertools.product(words, (b"+", b"-"), ends, (b"0", b"4")))
    agree(wanted - found, set(), "days and weeks that not every year has")


def check_other_lengths(read):
    """That a year of each setting of one row is read under each of them alone, in PER and in DER: whether in DER, the type,
    the octets and the first word of the reply, of each line on years of other types."""
    found, words = set(), [word.encode() for word, in YEARS_OF_TYPES[2:8]]
    for in_der, type_text, octets, word in read:
        match = re.fullmatch(rb"Basic=Date Date=Y Year=(Negative|L[5-9])", type_text)
        if match:
            year = int(octets[2:]) if in_der else int.from_bytes(octets[1:], "big", signed=True)
            found.add((in_der, year_word(year), match[1], word))
    wanted = {(in_der, written, read, b"0" if written == read else b"5")
              for in_der, written, read in itertools.product((False, True), words, words)}
    agree({each for each in found if each[3] != b"7"}, wanted, "years of other lengths")


def all_differences():
    """"Difference hours 0 to 15, minutes 0 to 59; a zero difference has `+`"."""
    for sign, hours, minutes in itertools.product((b"+", b"-"), range(16), range(60)):
        if sign == b"+" or hours > 0:
            yield Difference(sign, hours, minutes)


def at_23_59_utc(difference):
    """The hours and minutes of local time when UTC has 23:59, by Python's own time zones."""
    ahead = timedelta(hours=difference.hours, minutes=difference.minutes)
    zone = timezone(-ahead if difference.sign == b"-" else ahead)
    local = datetime(2006, 6, 13, 23, 59, tzinfo=timezone.utc).astimezone(zone)
    return local.hour, local.minute


def second_60_with_all_differences():
    """The difference, the hours and minutes, the text and the number: 0 in the minute that Python says, 4 in those next to
    it and an hour off."""
    for difference in all_differences():
        hours, minutes = at_23_59_utc(difference)
        end = b":%02d" % difference.minutes if difference.minutes else b""
        for off, number in ((0, 0), (-1, 4), (1, 4), (60, 4)):
            hour, minute = divmod((60 * hours + minutes + off) % 1440, 60)
            text = b"%02d:%02d:60%s%02d%s" % (hour, minute, difference.sign, difference.hours, end)
            yield difference, hour, minute, text, number


def check_value(codec, limits, type_text, text, octets, bits):
    """Both ways with a room of exactly the result, and with a room that "is shorter than the result"; back comes the
    canonical text."""
    _, canonical = judge(type_text, limits, text)
    for work, given, result in ((codec.encode, text, octets), (codec.decode, octets, canonical)):
        what, room = (work.__name__, limits, type_text, given), len(result)
        agree(work(type_text, limits, given, room), (0, result, bits), *what)
        agree(work(type_text, limits, given, room - 1), (7, b"", 0), *what, "room", room - 1)


def check_refused(work, limits, type_text, given, room, number):
    """"A refusal: number, length 0, bit count 0"."""
    found = work(type_text, limits, given, room)
    agree(found, (number, b"", 0), work.__name__, limits, type_text, given, "room", room)
