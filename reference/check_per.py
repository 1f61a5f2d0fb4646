"""Checks per.py against "Checked values" and hand-written cases from document 01's sentences and requests #101 to #103, and
the reading of durations against the writing of all texts."""

import itertools

import per
from bits import fill, octet_bits
from checks import ABOVE_NINE_DIGITS, BELOW_NINE_DIGITS, HIGHEST_YEAR, INSIDE_NINE_DIGITS, LOWEST_YEAR, NINE_DIGITS
from checks import BOTH_LIMITS, INTERVAL_D, LONGEST_DURATION, NO_HOUR_24, ROOM, YEARS_2000_TO_2010, agree
from checks import SECOND_60, check_refused, check_value, second_60_with_all_differences
from checks import H_L, H_LD, H_Z, HF1_L, HF2_L, HF2_LD, HF4_L, HMS_LD, HMS_Z, HMSF1_Z, HMSF2_LD, HMSF3_L, HMSF4_L
from checks import YMD_T_HMS_LD, YMD_T_HMS_Z
from checks import LARGE_DATES, SIGNED_YEARS, SIX_LISTS, YEARS_OF_TYPES, YMD_T_HMS_Z_L9, YMD_T_HMSF9_LD_L9
from checks import Y_BASIC, Y_L5, Y_L6, Y_L7, Y_L8, Y_L9, Y_NEGATIVE, Y_PROLEPTIC, YD_BASIC, YD_L7, YM_L6, YMD_L5, YMD_L9
from checks import YMD_PROLEPTIC, YW_BASIC, YW_L8, YWD_BASIC, YWD_L9
from settings import NO_LIMITS
from value_lines import date_type

# type, text, octets, bit count; both ways, and with a room of one octet less than the result
VALUES = (
    # "P DATE 2006-06-13: 05 58, 15 bits. P DATE 2004-02-29: BF C7 80, 19 bits."
    (b"DATE", b"2006-06-13", "05 58", 15),
    (b"DATE", b"2004-02-29", "BF C7 80", 19),
    # "P DATE 2021-01-01: 40 00 00. P DATE 2276-12-31: 7F EF C0."
    (b"DATE", b"2021-01-01", "40 00 00", 19),
    (b"DATE", b"2276-12-31", "7F EF C0", 19),
    # "P DATE 1748-12-31: C0 81 B5 2F C0, 35 bits."
    (b"DATE", b"1748-12-31", "C0 81 B5 2F C0", 35),
    # "P TIME-OF-DAY 24:00:00: C0 00 00. P 23:59:60: BF 7E 00."; "the 17 bits of the summary are right"
    (b"TIME-OF-DAY", b"24:00:00", "C0 00 00", 17),
    (b"TIME-OF-DAY", b"23:59:60", "BF 7E 00", 17),
    # "P DATE-TIME 2006-06-13T15:27:46: 05 58 F6 EE."
    (b"DATE-TIME", b"2006-06-13T15:27:46", "05 58 F6 EE", 32),
    # "P HMSF3 L 15:27:46.500: 7B 77 1F 40, 28 bits."
    (HMSF3_L, b"15:27:46.500", "7B 77 1F 40", 28),
    # "P YW 2020-W53: 3F 40."
    (YW_BASIC, b"2020-W53", "3F 40", 12),
    # "Y Proleptic 0000: C0 40 00, 18 bits."
    (Y_PROLEPTIC, b"0000", "C0 40 00", 18),
    # "P Y Negative -0128: 01 80. -0129: 02 FF 7F. P Y L5 +32767: 02 7F FF. +32768: 03 00 80 00."
    (Y_NEGATIVE, b"-0128", "01 80", 16),
    (Y_NEGATIVE, b"-0129", "02 FF 7F", 24),
    (Y_L5, b"+32767", "02 7F FF", 24),
    (Y_L5, b"+32768", "03 00 80 00", 32),
    # #103: "Free integers still need at most four octets.", before the fields of each form: month 0000, ordinal day 101101101,
    # week 110100, weekday 110, month and day 1011 11110
    (Y_L6, b"+100000", "03 01 86 A0", 32),
    (YM_L6, b"+100000-01", "03 01 86 A0 00", 36),
    (YD_L7, b"-1000000-366", "03 F0 BD C0 B6 80", 41),
    (YW_L8, b"+10000020-W53", "04 00 98 96 94 D0", 46),
    (YWD_L9, b"-999999980-W53-7", "04 C4 65 36 14 D3 00", 49),
    (YMD_L9, b"+999999999-12-31", "04 3B 9A C9 FF BF 00", 49),
    (YMD_L9, b"-999999999-12-31", "04 C4 65 36 01 BF 00", 49),
    # 10111 111011 111100
    (YMD_T_HMS_Z_L9, b"-100000000-12-31T23:59:60Z", "04 FA 0A 1F 00 BF 5F BF 00", 66),
    # month and day 0101 01100, time 01111 111010 111100, fraction 1 and 04 3B 9A C9 FF, difference 1 11110 111010
    (YMD_T_HMSF9_LD_L9, b"-999999999-06-13T15:58:60.999999999+15:59",
     "04 C4 65 36 01 56 3F AF 20 87 73 59 3F FF 74", 119),
    # "HMSF4 .0999 takes the short fraction, .1000 the long one."
    (HMSF4_L, b"15:27:46.0999", "7B 77 3E 70", 28),
    (HMSF4_L, b"15:27:46.1000", "7B 77 40 80 FA 00", 42),
    # "0: year - 2005 in 4 bits (2005 to 2020)"; "2: year - 1749 in 8 (1749 to 2004)"
    (Y_BASIC, b"2005", "00", 6),
    (Y_BASIC, b"2020", "3C", 6),
    (Y_BASIC, b"1749", "80 00", 10),
    # "ordinal day - 1 in 9", "weekday - 1 in 3"
    (YD_BASIC, b"2008-366", "0E DA", 15),
    (YWD_BASIC, b"2006-W24-2", "05 72", 15),
    # "`Z` takes no bits."
    (H_L, b"15", "78", 5),
    (H_Z, b"15Z", "78", 5),
    # "Difference: TIME-DIFFERENCE of 28 bis.3.3, after the local time": a bit, hours (-15..16), minutes (1..59)
    (H_LD, b"15+00", "79 E0", 11),
    (H_LD, b"15-15:59", "7C 1D 00", 17),
    (H_LD, b"15+15:01", "7F C0 00", 17),
    (H_LD, b"15-01:30", "7D CE 80", 17),
)

# limits, type, text, room, number
REFUSED_TEXTS = (
    # "P YW 2021-W53: 4."; "24:00:01: 4."; "DATE 2006-02-29: 4."; "DATE 1500-02-30: 4 before 5."
    (NO_LIMITS, YW_BASIC, b"2021-W53", ROOM, 4),
    (NO_LIMITS, b"TIME-OF-DAY", b"24:00:01", ROOM, 4),
    (NO_LIMITS, b"DATE", b"2006-02-29", ROOM, 4),
    (NO_LIMITS, b"DATE", b"1500-02-30", ROOM, 4),
    # "DATE 1581-12-31: 5."
    (NO_LIMITS, b"DATE", b"1581-12-31", ROOM, 5),
    # "Empty text: 3."
    (NO_LIMITS, b"DATE", b"", ROOM, 3),
    # "DATE with one octet of room: 7."
    (NO_LIMITS, b"DATE", b"2006-06-13", 1, 7),
    # "settings unreadable, unknown, missing, repeated or not in the base; a restriction where it has no place"
    (NO_LIMITS, b"Basic=Date Date=Y", b"2006", ROOM, 1),
    (NO_HOUR_24, b"DATE", b"2006-06-13", ROOM, 1),
    # "two lists that don't make one row"
    (NO_LIMITS, Y_BASIC + b"|" + Y_L5, b"2006", ROOM, 2),
    # "the text or the DER contents are not of the type's form"; "month 13, weekday 8 or hour 25 is 4"
    (NO_LIMITS, b"DATE", b"20060613", ROOM, 3),
    (NO_LIMITS, b"DATE", b"2006-13-01", ROOM, 4),
    (NO_LIMITS, YWD_BASIC, b"2006-W24-8", ROOM, 4),
    (NO_LIMITS, H_L, b"25", ROOM, 4),
    (NO_LIMITS, H_LD, b"15-00", ROOM, 4),
    (NO_LIMITS, HMS_LD, b"23:59:60-00", ROOM, 4),
    (NO_LIMITS, HMSF1_Z, b"12:34:60,9Z", ROOM, 4),
    # "exists, but not in the type: a year of no Year setting that the type names, year window, hour 24"
    (NO_LIMITS, Y_BASIC, b"-0001", ROOM, 5),
    (YEARS_2000_TO_2010, b"DATE", b"2011-01-01", ROOM, 5),
    (NO_HOUR_24, b"TIME-OF-DAY", b"24:00:00", ROOM, 5),
    # "When several hold, the lowest number is given."
    (NO_LIMITS, b"", b"", 0, 1),
    (NO_LIMITS, b"DATE", b"", 0, 3),
    (NO_LIMITS, b"DATE", b"2006-02-29", 0, 4),
    (NO_LIMITS, b"DATE", b"1581-12-31", 0, 5),
    # #103: "it meets 5 and no longer 3 in a type without that length"; 3, 4 and 7 beside it
    (NO_LIMITS, Y_L5, b"+100000", ROOM, 5),
    (NO_LIMITS, Y_L8, b"-999999999", 0, 5),
    (NO_LIMITS, b"DATE", b"+123456-06-13", 0, 5),
    (NO_LIMITS, b"DATE", b"+123456-02-30", 0, 4),
    (NO_LIMITS, Y_L9, b"+1000000000", 0, 3),
    (NO_LIMITS, YMD_L9, b"+011985-04-12", ROOM, 3),
    (NO_LIMITS, Y_L9, b"+999999999", 4, 7),
    (INSIDE_NINE_DIGITS, Y_L9, b"+999999999", 0, 5),
    (NO_LIMITS, SIX_LISTS + b"|" + Y_L9, b"", 0, 1),
    (NO_LIMITS, SIX_LISTS + b"|" + Y_BASIC, b"2006", 0, 1),
    (NO_LIMITS, Y_L6 + b"|" + Y_BASIC + b"|" + Y_L6, b"", 0, 1),
    (NO_HOUR_24, Y_L6 + b"|" + Y_BASIC, b"2006", 0, 1),
    (NO_LIMITS, Y_L6 + b"|" + Y_L7 + b"|" + Y_BASIC, b"", 0, 2),
    # durations: 1, 2, 3 and 7
    (NO_HOUR_24, b"DURATION", b"P1Y6M", ROOM, 1),
    (YEARS_2000_TO_2010, INTERVAL_D, b"P1Y6M", ROOM, 1),
    (NO_LIMITS, INTERVAL_D + b"|" + Y_BASIC, b"P1Y6M", ROOM, 2),
    (NO_LIMITS, b"DURATION", b"P1Y6", ROOM, 3),
    (NO_LIMITS, b"DURATION", b"P01Y", 0, 3),
    (NO_LIMITS, b"DURATION", b"P1Y6M", 2, 7),
)

# limits, type, octets, room, number
REFUSED_OCTETS = (
    # "a restriction where it has no place"; "two lists that don't make one row"
    (NO_HOUR_24, b"DATE", "05 58", ROOM, 1),
    (NO_LIMITS, Y_BASIC + b"|" + Y_L5, "04", ROOM, 2),
    # "octets end inside a field"
    (NO_LIMITS, b"DATE", "", ROOM, 3),
    (NO_LIMITS, b"DATE", "05", ROOM, 3),
    (NO_LIMITS, Y_NEGATIVE, "02 FF", ROOM, 3),
    # "a field's bits above its range": month 13, day 32, ordinal day 367, week 54, weekday 8, hour 25
    (NO_LIMITS, b"DATE", "07 00", ROOM, 3),
    (NO_LIMITS, b"DATE", "04 3E", ROOM, 3),
    (NO_LIMITS, YD_BASIC, "06 DC", ROOM, 3),
    (NO_LIMITS, YW_BASIC, "07 50", ROOM, 3),
    (NO_LIMITS, YWD_BASIC, "05 7E", ROOM, 3),
    (NO_LIMITS, H_L, "C8", ROOM, 3),
    # minute 60, second 61, difference minutes 60, fraction 1000 in 10 bits
    (NO_LIMITS, b"TIME-OF-DAY", "07 80 00", ROOM, 3),
    (NO_LIMITS, b"TIME-OF-DAY", "00 1E 80", ROOM, 3),
    (NO_LIMITS, H_LD, "7D DD 80", ROOM, 3),
    (NO_LIMITS, HF4_L, "7B E8", ROOM, 3),
    # "a free integer's length not 1 to 4"
    (NO_LIMITS, Y_NEGATIVE, "00", ROOM, 3),
    (NO_LIMITS, Y_NEGATIVE, "05 FF FF FF FF FF", ROOM, 3),
    # "a fraction negative or of more than n digits"
    (NO_LIMITS, HF2_L, "7C 07 FC", ROOM, 3),
    (NO_LIMITS, HF1_L, "78 0A", ROOM, 3),
    (NO_LIMITS, HF2_L, "7C 08 02 58", ROOM, 3),
    # "no such date, time or difference": 2006-02-29, 24:00:01, difference 16
    (NO_LIMITS, b"DATE", "04 78", ROOM, 4),
    (NO_LIMITS, b"TIME-OF-DAY", "C0 00 80", ROOM, 4),
    (NO_LIMITS, H_LD, "7B E0", ROOM, 4),
    # "The same holds for a year read from PER bits, at any size."
    (NO_LIMITS, Y_PROLEPTIC, "04", ROOM, 5),
    (NO_LIMITS, Y_BASIC, "C1 1F FF FF FF C0", ROOM, 5),
    (NO_LIMITS, Y_L5, "04 00 01 86 A0", ROOM, 5),
    (NO_LIMITS, Y_L5, "01 80", ROOM, 5),
    # #103: a year of ten digits is of no setting, of either sign: 1000000000, -1000000000, and the ends of four octets
    (NO_LIMITS, Y_L9, "04 3B 9A CA 00", ROOM, 5),
    (NO_LIMITS, Y_L9, "04 C4 65 36 00", ROOM, 5),
    (NO_LIMITS, SIX_LISTS, "04 7F FF FF FF", ROOM, 5),
    (NO_LIMITS, SIX_LISTS, "04 80 00 00 00", 0, 5),
    (NO_LIMITS, SIX_LISTS, "01 00", ROOM, 5),
    (NO_LIMITS, SIX_LISTS, "02 07 D6", ROOM, 5),
    # after choice 3: 100000 and -999999999
    (NO_LIMITS, Y_BASIC, "C0 C0 61 A8 00", ROOM, 5),
    (NO_LIMITS, Y_PROLEPTIC, "C1 31 19 4D 80 40", ROOM, 5),
    # "a free integer's length not 1 to 4", "octets end inside a field"
    (NO_LIMITS, Y_L9, "05 00 3B 9A C9 FF", ROOM, 3),
    (NO_LIMITS, Y_L9, "08 00 00 00 00 3B 9A C9 FF", ROOM, 3),
    (NO_LIMITS, SIX_LISTS, "00", ROOM, 3),
    (NO_LIMITS, Y_L9, "04 3B 9A C9", ROOM, 3),
    (NO_LIMITS, YMD_L9, "04 3B 9A C9 FF BE", ROOM, 3),
    (NO_LIMITS, YMD_L9, "04 3B 9A C9 FF C0 00", ROOM, 3),
    # 4 before 5 and 6: 999999999-02-29, and -1000000000-02-30, 100000-02-30 in four octets
    (NO_LIMITS, YMD_L9, "04 3B 9A C9 FF 1E 00", ROOM, 4),
    (NO_LIMITS, YMD_L9, "04 C4 65 36 00 1E 80", ROOM, 4),
    (NO_LIMITS, YMD_L5, "04 00 01 86 A0 1E 80", ROOM, 4),
    # 5 before 6, and 6: "integer not shortest", filling, an octet left over
    (NO_LIMITS, Y_L7, "04 00 01 86 A0", ROOM, 5),
    (NO_LIMITS, Y_L6, "04 00 01 86 A0", ROOM, 6),
    (NO_LIMITS, Y_L7, "04 FF 80 00 00", ROOM, 6),
    (NO_LIMITS, YMD_L9, "04 3B 9A C9 FF BF 01", ROOM, 6),
    (NO_LIMITS, Y_L9, "04 3B 9A C9 FF 00", 0, 6),
    (NO_LIMITS, Y_L9, "04 3B 9A C9 FF", 9, 7),
    # limits at the ends of nine digits, inside them and beyond
    (HIGHEST_YEAR, Y_L9, "04 3B 9A C9 FE", ROOM, 5),
    (LOWEST_YEAR, Y_L9, "04 C4 65 36 02", ROOM, 5),
    (INSIDE_NINE_DIGITS, Y_L9, "04 3B 9A C9 FF", ROOM, 5),
    (ABOVE_NINE_DIGITS, Y_L9, "04 3B 9A CA 00", ROOM, 5),
    (BELOW_NINE_DIGITS, Y_L9, "04 C4 65 36 00", ROOM, 5),
    (NO_HOUR_24, SIX_LISTS, "04 3B 9A C9 FF", ROOM, 1),
    (NO_LIMITS, SIX_LISTS + b"|" + Y_BASIC, "04 3B 9A C9 FF", ROOM, 1),
    (NO_LIMITS, Y_L9 + b"|" + Y_BASIC, "04 3B 9A C9 FF", ROOM, 2),
    # "year window, hour 24"
    (YEARS_2000_TO_2010, Y_BASIC, "18", ROOM, 5),
    (NO_HOUR_24, H_L, "C0", ROOM, 5),
    # "integer not shortest", and "choice 3 for 1749 to 2276": "Reading a year 2010 after choice 3" is an error
    (NO_LIMITS, Y_NEGATIVE, "02 FF 80", ROOM, 6),
    (NO_LIMITS, Y_BASIC, "C0 81 F6 80", ROOM, 6),
    # "a fraction up to 999 after a 1 bit"
    (NO_LIMITS, HF2_L, "7C 04 C8", ROOM, 6),
    # "filling not zero", "octets left over"
    (NO_LIMITS, b"DATE", "05 59", ROOM, 6),
    (NO_LIMITS, b"DATE", "05 58 00", ROOM, 6),
    # "the lent room is shorter than the result"
    (NO_LIMITS, b"DATE", "05 58", 9, 7),
    # "When several hold, the lowest number is given.": 3 after 4, 3 after 5, 3 after 6
    (NO_LIMITS, b"DATE-TIME", "04 79 C8 00", ROOM, 3),
    (NO_LIMITS, b"DATE-TIME", "C0 81 0A 95 9F 00 00", ROOM, 3),
    (NO_LIMITS, HF2_LD, "7C 04 CA FE C0", ROOM, 3),
    # 4 with 5, 4 with 6, 5 with 6, 6 with 7
    (NO_LIMITS, YMD_PROLEPTIC, "04 78", ROOM, 4),
    (NO_LIMITS, b"DATE", "C0 81 F6 87 80", ROOM, 4),
    (NO_LIMITS, Y_PROLEPTIC, "C0 81 F6 80", ROOM, 5),
    (NO_LIMITS, b"DATE", "05 59", 0, 6),
)

# limits, type, bits, number: second 60 with other causes; the bits are those of the fields, as in SECOND_60
BITS_AT_SECOND_60 = (
    # "a field's bits above its range" is 3, and 60 is in it: second 61, minute 60 and hour 25
    (NO_LIMITS, HMS_Z, "10111 111011 111101", 3),
    (NO_LIMITS, HMS_Z, "01100 111100 111100", 3),
    (NO_LIMITS, HMS_Z, "11001 100010 111100", 3),
    # difference minutes 60, a fraction of two digits, and an end inside the seconds and inside the difference
    (NO_LIMITS, HMS_LD, "01100 100010 111100 1 10100 111011", 3),
    (NO_LIMITS, HMSF1_Z, "01100 100010 111100 0 0000001010", 3),
    (NO_LIMITS, HMS_LD, "01100 100010 11110", 3),
    (NO_LIMITS, HMS_LD, "01100 100010 111100 1 10100 0", 3),
    # difference 16, which there isn't, after 15:59:60; 24:00:60
    (NO_LIMITS, HMS_LD, "01111 111011 111100 0 11111", 4),
    (NO_LIMITS, HMS_Z, "11000 000000 111100", 4),
    # 4 with 5, and 5: the year 2011, the year 1066 after choice 3, hour 24
    (YEARS_2000_TO_2010, YMD_T_HMS_Z, "00 0110 1011 11110 01100 100010 111100", 4),
    (YEARS_2000_TO_2010, YMD_T_HMS_Z, "00 0110 1011 11110 10111 111011 111100", 5),
    (BOTH_LIMITS, YMD_T_HMS_LD, "00 0110 1011 11110 10111 111011 111100 1 10100 011101", 4),
    (BOTH_LIMITS, YMD_T_HMS_LD, "00 0110 1011 11110 00101 011101 111100 1 10100 011101", 5),
    (NO_LIMITS, YMD_T_HMS_Z, "11 00000010 00000100 00101010 1011 11110 01100 100010 111100", 4),
    (NO_LIMITS, YMD_T_HMS_Z, "11 00000010 00000100 00101010 1011 11110 10111 111011 111100", 5),
    (NO_HOUR_24, HMS_Z, "11000 000000 111100", 4),
    (NO_HOUR_24, HMS_Z, "11000 000000 000000", 5),
    (NO_HOUR_24, HMS_Z, "01100 100010 111100", 4),
    # 4 with 6, and 6: filling not zero
    (NO_LIMITS, HMS_Z, "01100 100010 111100 0000001", 4),
    (NO_LIMITS, HMS_Z, "01100 100010 111100 1000000", 4),
    (NO_LIMITS, HMS_Z, "10111 111011 111100 0000001", 6),
    (NO_LIMITS, HMS_LD, "10111 111011 111100 0 01010 1", 4),
    (NO_LIMITS, HMS_LD, "10010 111011 111100 0 01010 1", 6),
    # octets left over
    (NO_LIMITS, HMS_Z, "01100 100010 111100 0000000 00000000", 4),
    (NO_LIMITS, HMS_Z, "10111 111011 111100 0000000 00000000", 6),
    # the fraction 50 after a 1 bit
    (NO_LIMITS, HMSF2_LD, "10111 111011 111100 1 00000001 00110010 0 01010", 4),
    (NO_LIMITS, HMSF2_LD, "10010 111011 111100 1 00000001 00110010 0 01010", 6),
    # the year 2006 after choice 3, and 1066 in three octets
    (NO_LIMITS, YMD_T_HMS_Z, "11 00000010 00000111 11010110 1011 11110 01100 100010 111100", 4),
    (NO_LIMITS, YMD_T_HMS_Z, "11 00000010 00000111 11010110 1011 11110 10111 111011 111100", 6),
    (NO_LIMITS, YMD_T_HMS_Z, "11 00000011 00000000 00000100 00101010 1011 11110 01100 100010 111100", 4),
    (NO_LIMITS, YMD_T_HMS_Z, "11 00000011 00000000 00000100 00101010 1011 11110 10111 111011 111100", 5),
)

# text, octets, bit count; both ways, under the name DURATION and under its settings. By 28 bis.6.1 eight bits come
# first, for years, months, weeks, days, hours, minutes, seconds and fractional-part
DURATIONS = (
    # 1100 0000, years 0 00001, months 0 0110
    (b"P1Y6M", "C0 04 C0", 19),
    # 0000 0011, seconds 0 000000, number-of-digits 1 as 0 00, fractional-value 5 as 0 0000000100
    (b"PT0.5S", "03 00 00 20", 29),
    # "`P0Y0M1D` becomes `P1D`": 0001 0000, days 0 00001
    (b"P1D", "10 04", 14),
    (b"P0Y0M1D", "10 04", 14),
    # "`P0Y0M` becomes `P0M`": 0100 0000, months 0 0000
    (b"P0M", "40 00", 13),
    (b"P0Y0M", "40 00", 13),
    # "`P1Y0M` stays": 1100 0000, years 0 00001, months 0 0000
    (b"P1Y0M", "C0 04 00", 19),
    # the highest number of each root, and one more: a 1 bit, length 01, and 32, 16 or 64
    (b"P31Y", "80 7C", 14),
    (b"P32Y", "80 80 90 00", 25),
    (b"P15M", "40 78", 13),
    (b"P16M", "40 80 88 00", 25),
    (b"P63W", "20 7E", 15),
    (b"P64W", "20 80 A0 00", 25),
    (b"P31D", "10 7C", 14),
    (b"P32D", "10 80 90 00", 25),
    (b"PT31H", "08 7C", 14),
    (b"PT32H", "08 80 90 00", 25),
    (b"PT63M", "04 7E", 15),
    (b"PT64M", "04 80 A0 00", 25),
    (b"PT63S", "02 7E", 15),
    (b"PT64S", "02 80 A0 00", 25),
    # a 1 bit, length 01 and 7F; length 02 and 00 80; length 04 and 3B 9A C9 FF
    (b"P127D", "10 80 BF 80", 25),
    (b"P128D", "10 81 00 40 00", 33),
    (b"P999999999D", "10 82 1D CD 64 FF 80", 49),
    # seconds 0 000000; number-of-digits 3 as 0 10, fractional-value 999 as 0 1111100110
    (b"PT0.999S", "03 00 9F 30", 29),
    # number-of-digits 4 as 1, length 01 and 04; fractional-value 999 as before, 1000 as 1, length 02 and 03 E8
    (b"PT0.0999S", "03 01 01 04 7C C0", 43),
    (b"PT0.1000S", "03 01 01 04 81 01 F4 00", 57),
    # a fractional-value 0 is outside the root: number-of-digits 0 00, then 1, length 01 and 00
    (b"PT0.0S", "03 00 20 20 00", 35),
    (b"PT0,0S", "03 00 20 20 00", 35),
    # "Decoders can recover the original fractional part from these encodings, including any trailing zeros"
    (b"PT0.50S", "03 00 41 88", 29),
    # six numbers of 41 bits, number-of-digits of 17, fractional-value of 41
    (LONGEST_DURATION,
     "DF 82 1D CD 64 FF C1 0E E6 B2 7F E0 87 73 59 3F F0 43 B9 AC 9F F8 21 DC D6 4F FC 10 EE 6B 27 FE"
     "02 13 04 3B 9A C9 FF", 312),
)

# bits with spaces between their parts, number: under the name DURATION and under its settings; zero bits fill the octet
BITS_OF_DURATIONS = (
    # octets that end: in the bits for optionality, before and inside a field
    ("", 3),
    ("10000000", 3),
    ("11000000 0 00001 0 0", 3),
    ("10000000 1 00000001", 3),
    ("10000000 1 00000010 00000001", 3),
    # "no component at all": none, and a fractional part alone
    ("00000000", 3),
    ("00000000 00000000", 3),
    ("00000001 0 00 0 0000000100", 3),
    # "weeks beside another one, decoded too"
    ("10100000 0 00001 0 000001", 3),
    ("01100000 0 0000 0 000001", 3),
    ("00110000 0 000001 0 00000", 3),
    ("00100010 0 000000 0 000000", 3),
    # "a number that is negative or of more than nine digits": -1, -128, 1000000000, 2147483647
    ("10000000 1 00000001 11111111", 3),
    ("10000000 1 00000001 10000000", 3),
    ("10000000 1 00000100 00111011 10011010 11001010 00000000", 3),
    ("10000000 1 00000100 01111111 11111111 11111111 11111111", 3),
    # "a free integer's length not 1 to 4"
    ("10000000 1 00000000", 3),
    ("10000000 1 00000101 00000000 00000000 00000000 00000001 00000000", 3),
    ("10000000 1 10000001 00100000", 3),
    # "a decoded fraction of no digits, of over nine": above the root's numbers, 0, 10, -1
    ("00000011 0 000000 0 11 0 0000000100", 3),
    ("00000011 0 000000 1 00000001 00000000 0 0000000100", 3),
    ("00000011 0 000000 1 00000001 00000000 1 00000001 00000000", 3),
    ("00000011 0 000000 1 00000001 00001010 0 0000000100", 3),
    ("00000011 0 000000 1 00000001 11111111 0 0000000100", 3),
    # "or too large for them": 10 of one digit, 100 of two, 1000 above the root's numbers, 10000 of four, and -1
    ("00000011 0 000000 0 00 0 0000001001", 3),
    ("00000011 0 000000 0 01 0 0001100011", 3),
    ("00000011 0 000000 0 10 0 1111100111", 3),
    ("00000011 0 000000 0 10 1 00000010 00000011 11101000", 3),
    ("00000011 0 000000 1 00000001 00000100 0 1111100111", 3),
    ("00000011 0 000000 1 00000001 00000100 1 00000010 00100111 00010000", 3),
    ("00000011 0 000000 1 00000001 00001001 1 00000100 00111011 10011010 11001010 00000000", 3),
    ("00000011 0 000000 0 00 1 00000001 11111111", 3),
    # "a zero component that should be gone meets 6 in decoding": P0Y6M, P0Y0M, P1YT0H1M, PT0M0.5S
    ("11000000 0 00000 0 0110", 6),
    ("11000000 0 00000 0 0000", 6),
    ("10001100 0 00001 0 00000 0 000001", 6),
    ("00000111 0 000000 0 000000 0 00 0 0000000100", 6),
    # "as does a number after a 1 bit that fits without it": 0, 31, 15, 63, three digits, fractional values 1 and 999
    ("10000000 1 00000001 00000000", 6),
    ("10000000 1 00000001 00011111", 6),
    ("01000000 1 00000001 00001111", 6),
    ("00100000 1 00000001 00111111", 6),
    ("00000011 0 000000 1 00000001 00000001 0 0000000100", 6),
    ("00000011 0 000000 1 00000001 00000011 0 0000000100", 6),
    ("00000011 0 000000 0 00 1 00000001 00000001", 6),
    ("00000011 0 000000 0 10 1 00000010 00000011 11100111", 6),
    # "integer not shortest": 32 in two octets and in four, four digits in two, fractional values 0 and 1000
    ("10000000 1 00000010 00000000 00100000", 6),
    ("10000000 1 00000100 00000000 00000000 00000000 00100000", 6),
    ("00000011 0 000000 1 00000010 00000000 00000100 0 0000000100", 6),
    ("00000011 0 000000 0 00 1 00000010 00000000 00000000", 6),
    ("00000011 0 000000 1 00000001 00000100 1 00000011 00000000 00000011 11101000", 6),
    # "filling not zero", "octets left over"
    ("10000000 0 00001 01", 6),
    ("10000000 0 00001 10", 6),
    ("10000000 0 00001 00 00000000", 6),
    # "When several hold, the lowest number is given.": a zero component, a 1 bit, and then a 3
    ("11000000 0 00000 1 00000001 11111111", 3),
    ("11000000 0 00000 0 0", 3),
    ("11000000 1 00000001 00000001 1 00000000", 3),
    ("10100000 0 00000 1 00000001 00000001", 3),
    ("00000111 0 000000 0 000000 0 11 0 0000000100", 3),
    ("00000001 0 00 1 00000001 00000001", 3),
    ("00000011 1 00000001 00000001 0 00 0 0000001001", 3),
)

# the letters of a duration, with the highest number of each root
DATE_LETTERS, TIME_LETTERS = ((b"Y", 31), (b"M", 15), (b"D", 31)), ((b"H", 31), (b"M", 63), (b"S", 63))


def short_durations():
    """Canonical texts: all with one number of a root, and all with two; any other takes more than three octets, as a
    third number takes at least 5 of 25 bits, and a free integer or a fractional part at least 13 of 25."""
    alone = [(b"P", letter, highest) for letter, highest in (*DATE_LETTERS, (b"W", 63))]
    alone += [(b"PT", letter, highest) for letter, highest in TIME_LETTERS]
    for start, letter, highest in alone:
        yield from (b"%s%d%s" % (start, number, letter) for number in range(highest + 1))
    pairs = [(b"P", first, b"", second) for first, second in itertools.combinations(DATE_LETTERS, 2)]
    pairs += [(b"PT", first, b"", second) for first, second in itertools.combinations(TIME_LETTERS, 2)]
    pairs += [(b"P", first, b"T", second) for first, second in itertools.product(DATE_LETTERS, TIME_LETTERS)]
    for start, (letter, highest), between, (last_letter, last_highest) in pairs:
        for number, last in itertools.product(range(1, highest + 1), range(last_highest + 1)):
            yield b"%s%d%s%s%d%s" % (start, number, letter, between, last, last_letter)


def short_octets():
    """All octets up to two; of three, where the first says years and months, every fourth; and some of all others."""
    for count in range(3):
        yield from (bytes(octets) for octets in itertools.product(range(256), repeat=count))
    yield from (bytes(octets) for octets in itertools.product((0xC0,), range(256), range(0, 256, 4)))
    yield from (bytes(octets) for octets in itertools.product(range(256), range(5, 256, 25), (0x00, 0x60, 0x61)))


def check_short_durations():
    """The reader takes exactly the octets that the writer writes for some text, and gives that text back."""
    written, numbers = {}, set()
    for text in short_durations():
        number, octets, bits = per.encode(b"DURATION", NO_LIMITS, text, ROOM)
        agree((number, len(octets) <= 3, octets in written), (0, True, False), "short duration", text)
        written[octets] = (0, text, bits)
    for octets in set(short_octets()).union(written):
        found = per.decode(b"DURATION", NO_LIMITS, octets, ROOM)
        agree(found if found[0] == 0 else None, written.get(octets), "short octets", octets)
        numbers.add(found[0])
    agree(numbers, {0, 3, 6}, "numbers of short octets")


def check_durations():
    """Values and refusals of durations, under the name and under its settings."""
    for type_text in (b"DURATION", INTERVAL_D):
        for text, octets, bits in DURATIONS:
            check_value(per, NO_LIMITS, type_text, text, bytes.fromhex(octets), bits)
        for bits, number in BITS_OF_DURATIONS:
            octets = fill(bits.replace(" ", ""))
            check_refused(per.decode, NO_LIMITS, type_text, octets, ROOM, number)
            check_refused(per.decode, NO_LIMITS, type_text, octets, 0, number)
            check_refused(per.decode, BOTH_LIMITS, type_text, octets, 0, 1)
    check_short_durations()


def check_case(type_text, text, bits, number):
    """A text and the bits of its fields: the same both ways, or the number both ways, whatever the room."""
    if number == 0:
        check_value(per, NO_LIMITS, type_text, text, fill(bits), len(bits))
        return
    for work, given in ((per.encode, text), (per.decode, fill(bits))):
        check_refused(work, NO_LIMITS, type_text, given, ROOM, number)
        check_refused(work, NO_LIMITS, type_text, given, 0, number)


def check_second_60():
    """#102 in bits: "a field's bits above its range" is 3, and this is 4."""
    for type_text, text, bits, number in SECOND_60:
        check_case(type_text, text, bits.replace(" ", ""), number)
    for difference, hours, minutes, text, number in second_60_with_all_differences():
        ahead = 15 - difference.hours if difference.sign == b"-" else 15 + difference.hours
        bits = "{:05b}{:06b}111100{:d}{:05b}".format(hours, minutes, difference.minutes > 0, ahead)
        bits += "{:06b}".format(difference.minutes - 1) if difference.minutes else ""
        check_case(HMS_LD, text, bits, number)
    for limits, type_text, bits, number in BITS_AT_SECOND_60:
        for room in (ROOM, 0):
            check_refused(per.decode, limits, type_text, fill(bits.replace(" ", "")), room, number)


def longer(octets):
    """A free integer with more octets than it needs, up to the most and past them."""
    sign = b"\xff" if octets[1] & 0x80 else b"\x00"
    for length in range(len(octets), 9):
        yield bytes([length]) + sign * (length + 1 - len(octets)) + octets[1:]


def check_year_of(words, text, octets, word):
    """A year as a free integer under a type of these settings: the same both ways, or 5; with more octets 6, or 5, or 3."""
    type_text = date_type(b"Y", *(each.encode() for each in words))
    if word in words:
        check_value(per, NO_LIMITS, type_text, text, octets, 8 * len(octets))
        check_value(per, NINE_DIGITS, type_text, text, octets, 8 * len(octets))
    else:
        check_refused(per.encode, NO_LIMITS, type_text, text, ROOM, 5)
        check_refused(per.decode, NO_LIMITS, type_text, octets, ROOM, 5)
    for more in longer(octets):
        check_refused(per.decode, NO_LIMITS, type_text, more, ROOM, 3 if more[0] > 4 else 6 if word in words else 5)


def check_years():
    """#103 in bits: years of each length under the types of one row and after choice 3, and dates that exist or don't."""
    for (text, digits, word), words in itertools.product(SIGNED_YEARS, YEARS_OF_TYPES):
        octets = bytes.fromhex(digits)
        if "Basic" not in words and "Proleptic" not in words:
            check_year_of(words, text, octets, word)
            continue
        type_text = date_type(b"Y", *(each.encode() for each in words))
        check_refused(per.encode, NO_LIMITS, type_text, text, ROOM, 5)
        check_refused(per.decode, NO_LIMITS, type_text, fill("11" + octet_bits(octets)), ROOM, 5)
    for type_text, text, number in LARGE_DATES:
        if number == 0:
            octets = per.encode(type_text, NO_LIMITS, text, ROOM)[1]
            agree(per.decode(type_text, NO_LIMITS, octets, ROOM)[:2], (0, text), type_text, octets)
        else:
            check_refused(per.encode, NO_LIMITS, type_text, text, ROOM, number)


def main():
    """Ends with a message at the first disagreement; prints nothing when there is none."""
    for type_text, text, octets, bits in VALUES:
        check_value(per, NO_LIMITS, type_text, text, bytes.fromhex(octets), bits)
    for limits, type_text, text, room, number in REFUSED_TEXTS:
        check_refused(per.encode, limits, type_text, text, room, number)
    for limits, type_text, octets, room, number in REFUSED_OCTETS:
        check_refused(per.decode, limits, type_text, bytes.fromhex(octets), room, number)
    check_second_60()
    check_years()
    check_durations()


if __name__ == "__main__":
    main()
