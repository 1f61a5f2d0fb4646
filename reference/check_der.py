"""Checks der.py against hand-written cases from document 01's sentences and requests #101 to #103, and against the vectors
of an outside tool."""

import itertools

import der
from checks import ABOVE_NINE_DIGITS, BELOW_NINE_DIGITS, HIGHEST_YEAR, INSIDE_NINE_DIGITS, LOWEST_YEAR, NINE_DIGITS
from checks import BOTH_LIMITS, EMPTY_WINDOW, NO_HOUR_24, ROOM, YEARS_2000_TO_2010, agree, check_refused, check_value
from checks import INTERVAL_D, LONGEST_DURATION, SECOND_60, second_60_with_all_differences, zones_at_second_60
from checks import check_years_in_vectors
from checks import H_L, HF1_L, HM_LD, HM_Z, HMF1_LD, HMS_L, HMS_LD, HMS_Z, HMSF1_Z, HMSF3_L, YW_T_HMF1_LD
from checks import YMD_T_HMS_L, YMD_T_HMS_LD, YMD_T_HMS_Z
from checks import LARGE_DATES, SIGNED_YEARS, SIX_LISTS, YEARS_OF_TYPES, YMD_T_HMS_Z_L9
from checks import Y_BASIC, Y_L5, Y_L6, Y_L8, Y_L9, Y_NEGATIVE, Y_PROLEPTIC, YD_BASIC, YD_L7, YM_BASIC, YM_L6, YMD_BASIC
from checks import YMD_L9, YMD_PROLEPTIC, YW_BASIC, YW_L8, YWD_BASIC, YWD_L9
from coding_lines import sample
from elements import der_vectors
from settings import NO_LIMITS
from value_lines import DATES, DATE_TAILS, NAMES, TIMES, YEAR_CHOICES, ZONES
from value_lines import date_time_type, date_type, last_fields, time_text, time_type

# limits, type, text, octets; both ways, with a room of exactly the result and of one octet less
VALUES = (
    # "der;DATE;2006-06-13" and "0 1F1F083230303630363133"
    (NO_LIMITS, b"DATE", b"2006-06-13", "1F1F083230303630363133"),
    # "DATE: 1F 1F, without `-`. TIME-OF-DAY: 1F 20, without `:`. DATE-TIME: 1F 21, without `-`, `:` and `T`."
    (NO_LIMITS, b"DATE", b"1582-12-31", "1F 1F 08 31 35 38 32 31 32 33 31"),
    (NO_LIMITS, b"TIME-OF-DAY", b"15:27:46", "1F 20 06 31 35 32 37 34 36"),
    (NO_LIMITS, b"TIME-OF-DAY", b"24:00:00", "1F 20 06 32 34 30 30 30 30"),
    (NO_LIMITS, b"DATE-TIME", b"2006-06-13T15:27:46", "1F 21 0E 32 30 30 36 30 36 31 33 31 35 32 37 34 36"),
    (NO_LIMITS, b"DATE-TIME", b"2006-06-13T24:00:00", "1F 21 0E 32 30 30 36 30 36 31 33 32 34 30 30 30 30"),
    # "Any settings list: tag 0E, contents the canonical text", also where a name may stand for the settings
    (NO_LIMITS, YMD_BASIC, b"2006-06-13", "0E 0A 32 30 30 36 2D 30 36 2D 31 33"),
    (NO_LIMITS, b"Year=Basic Date=YMD Basic=Date", b"2006-06-13", "0E 0A 32 30 30 36 2D 30 36 2D 31 33"),
    (NO_LIMITS, HMS_L, b"15:27:46", "0E 08 31 35 3A 32 37 3A 34 36"),
    (NO_LIMITS, YMD_T_HMS_L, b"2006-06-13T15:27:46",
     "0E 13 32 30 30 36 2D 30 36 2D 31 33 54 31 35 3A 32 37 3A 34 36"),
    (NO_LIMITS, YMD_BASIC + b"|" + YMD_PROLEPTIC, b"1066-10-14", "0E 0A 31 30 36 36 2D 31 30 2D 31 34"),
    # "`2006`, `2006-06`, `2006-164`, `2006-W24`, `2006-W24-2`"
    (NO_LIMITS, Y_BASIC, b"2006", "0E 04 32 30 30 36"),
    (NO_LIMITS, YM_BASIC, b"2006-06", "0E 07 32 30 30 36 2D 30 36"),
    (NO_LIMITS, YD_BASIC, b"2006-164", "0E 08 32 30 30 36 2D 31 36 34"),
    (NO_LIMITS, YW_BASIC, b"2006-W24", "0E 08 32 30 30 36 2D 57 32 34"),
    (NO_LIMITS, YWD_BASIC, b"2006-W24-2", "0E 0A 32 30 30 36 2D 57 32 34 2D 32"),
    # "four digits, `-` and four digits not all 0, or a sign and five digits not beginning with 0"
    (NO_LIMITS, Y_PROLEPTIC, b"0000", "0E 04 30 30 30 30"),
    (NO_LIMITS, Y_NEGATIVE, b"-0128", "0E 05 2D 30 31 32 38"),
    (NO_LIMITS, Y_L5, b"+32768", "0E 06 2B 33 32 37 36 38"),
    # #103: "A sign with six to nine digits, the first not 0, is from now on of the form"
    (NO_LIMITS, Y_L6, b"+100000", "0E 07 2B 31 30 30 30 30 30"),
    (NO_LIMITS, YM_L6, b"-999999-12", "0E 0A 2D 39 39 39 39 39 39 2D 31 32"),
    (NO_LIMITS, YD_L7, b"+1000000-366", "0E 0C 2B 31 30 30 30 30 30 30 2D 33 36 36"),
    (NO_LIMITS, YW_L8, b"-99999980-W53", "0E 0D 2D 39 39 39 39 39 39 38 30 2D 57 35 33"),
    (NO_LIMITS, Y_L9, b"+999999999", "0E 0A 2B 39 39 39 39 39 39 39 39 39"),
    (NO_LIMITS, SIX_LISTS, b"-999999999", "0E 0A 2D 39 39 39 39 39 39 39 39 39"),
    (NO_LIMITS, SIX_LISTS, b"-0001", "0E 05 2D 30 30 30 31"),
    (NO_LIMITS, YMD_L9, b"-123456789-06-13", "0E 10 2D 31 32 33 34 35 36 37 38 39 2D 30 36 2D 31 33"),
    (NO_LIMITS, YWD_L9, b"+999999620-W53-7", "0E 10 2B 39 39 39 39 39 39 36 32 30 2D 57 35 33 2D 37"),
    (NO_LIMITS, YMD_T_HMS_Z_L9, b"+100000000-12-31T23:59:60Z",
     "0E 1A 2B 31 30 30 30 30 30 30 30 30 2D 31 32 2D 33 31 54 32 33 3A 35 39 3A 36 30 5A"),
    (NINE_DIGITS, Y_L9, b"-999999999", "0E 0A 2D 39 39 39 39 39 39 39 39 39"),
    (HIGHEST_YEAR, Y_L9, b"+999999999", "0E 0A 2B 39 39 39 39 39 39 39 39 39"),
    (LOWEST_YEAR, SIX_LISTS, b"-999999999", "0E 0A 2D 39 39 39 39 39 39 39 39 39"),
    # "then nothing (L), `Z`, or a sign with two-digit hours and optionally `:` and minutes (LD)"
    (NO_LIMITS, H_L, b"15", "0E 02 31 35"),
    (NO_LIMITS, HM_Z, b"15:27Z", "0E 06 31 35 3A 32 37 5A"),
    (NO_LIMITS, HM_LD, b"15:27+00", "0E 08 31 35 3A 32 37 2B 30 30"),
    (NO_LIMITS, HM_LD, b"15:27-05:30", "0E 0B 31 35 3A 32 37 2D 30 35 3A 33 30"),
    # "full stop for comma"; "The fraction's trailing zeros dropped" is an error
    (NO_LIMITS, HMSF3_L, b"15:27:46.500", "0E 0C 31 35 3A 32 37 3A 34 36 2E 35 30 30"),
    (NO_LIMITS, HMSF3_L, b"15:27:46,500", "0E 0C 31 35 3A 32 37 3A 34 36 2E 35 30 30"),
    # "the difference's minutes dropped when 0"
    (NO_LIMITS, HM_LD, b"15:27+01:00", "0E 08 31 35 3A 32 37 2B 30 31"),
    (NO_LIMITS, HM_LD, b"15:27+00:00", "0E 08 31 35 3A 32 37 2B 30 30"),
    (NO_LIMITS, HMF1_LD, b"15:27,5-01:00", "0E 0A 31 35 3A 32 37 2E 35 2D 30 31"),
    (NO_LIMITS, YW_T_HMF1_LD, b"-0044-W11T15:27,5-01:00",
     "0E 14 2D 30 30 34 34 2D 57 31 31 54 31 35 3A 32 37 2E 35 2D 30 31"),
    # #102: "for a local time without one we can't know and keep accepting it"; with Z, and with a difference
    (NO_LIMITS, b"TIME-OF-DAY", b"12:34:60", "1F 20 06 31 32 33 34 36 30"),
    (NO_LIMITS, b"DATE-TIME", b"2006-06-13T12:34:60", "1F 21 0E 32 30 30 36 30 36 31 33 31 32 33 34 36 30"),
    (NO_LIMITS, HMSF1_Z, b"23:59:60,9Z", "0E 0B 32 33 3A 35 39 3A 36 30 2E 39 5A"),
    (NO_LIMITS, HMS_LD, b"00:59:60+01:00", "0E 0B 30 30 3A 35 39 3A 36 30 2B 30 31"),
    (NO_LIMITS, HMS_LD, b"23:59:60+00:00", "0E 0B 32 33 3A 35 39 3A 36 30 2B 30 30"),
    # a type with restrictions has the tag and the contents of the type without them
    (YEARS_2000_TO_2010, b"DATE", b"2006-06-13", "1F 1F 08 32 30 30 36 30 36 31 33"),
    (NO_HOUR_24, b"TIME-OF-DAY", b"15:27:46", "1F 20 06 31 35 32 37 34 36"),
    (BOTH_LIMITS, b"DATE-TIME", b"2006-06-13T15:27:46", "1F 21 0E 32 30 30 36 30 36 31 33 31 35 32 37 34 36"),
    (YEARS_2000_TO_2010, YMD_BASIC, b"2006-06-13", "0E 0A 32 30 30 36 2D 30 36 2D 31 33"),
    (NO_HOUR_24, HMS_L, b"15:27:46", "0E 08 31 35 3A 32 37 3A 34 36"),
    # "the name DURATION, DER tag 1F 22, contents without `P`"; a settings list has tag 0E and the whole canonical text
    (NO_LIMITS, b"DURATION", b"P1Y6M", "1F 22 04 31 59 36 4D"),
    (NO_LIMITS, INTERVAL_D, b"P1Y6M", "0E 05 50 31 59 36 4D"),
    (NO_LIMITS, b"Interval-type=D Basic=Interval", b"P1Y6M", "0E 05 50 31 59 36 4D"),
    (NO_LIMITS, b"DURATION", b"PT0.5S", "1F 22 05 54 30 2E 35 53"),
    (NO_LIMITS, INTERVAL_D, b"PT0.5S", "0E 06 50 54 30 2E 35 53"),
    (NO_LIMITS, b"DURATION", b"P5W", "1F 22 02 35 57"),
    (NO_LIMITS, INTERVAL_D, b"P5W", "0E 03 50 35 57"),
    # "`P0Y0M1D` becomes `P1D`, `P0Y0M` becomes `P0M`, `P1Y0M` stays"; "full stop for comma"
    (NO_LIMITS, b"DURATION", b"P0Y0M1D", "1F 22 02 31 44"),
    (NO_LIMITS, INTERVAL_D, b"P0Y0M1D", "0E 03 50 31 44"),
    (NO_LIMITS, b"DURATION", b"P0Y0M", "1F 22 02 30 4D"),
    (NO_LIMITS, INTERVAL_D, b"P0Y0M", "0E 03 50 30 4D"),
    (NO_LIMITS, b"DURATION", b"P1Y0M", "1F 22 04 31 59 30 4D"),
    (NO_LIMITS, INTERVAL_D, b"P1Y0M", "0E 05 50 31 59 30 4D"),
    (NO_LIMITS, b"DURATION", b"P0YT0M0,50S", "1F 22 06 54 30 2E 35 30 53"),
    (NO_LIMITS, INTERVAL_D, b"P0YT0M0,50S", "0E 07 50 54 30 2E 35 30 53"),
)

# limits, type, text, room, number
REFUSED_TEXTS = (
    # "settings unreadable, unknown, missing, repeated or not in the base; a restriction where it has no place"
    (NO_LIMITS, b"Basic=Date Date=Y", b"2006", ROOM, 1),
    (NO_LIMITS, b"DATE|DATE", b"2006-06-13", ROOM, 1),
    (NO_HOUR_24, b"DATE", b"2006-06-13", ROOM, 1),
    (YEARS_2000_TO_2010, b"TIME-OF-DAY", b"15:27:46", ROOM, 1),
    # "two lists that don't make one row"
    (NO_LIMITS, Y_BASIC + b"|" + Y_L5, b"2006", ROOM, 2),
    # "the text or the DER contents are not of the type's form": what DER writes is no text
    (NO_LIMITS, b"DATE", b"", ROOM, 3),
    (NO_LIMITS, b"DATE", b"20060613", ROOM, 3),
    (NO_LIMITS, b"TIME-OF-DAY", b"152746", ROOM, 3),
    (NO_LIMITS, b"DATE-TIME", b"20060613152746", ROOM, 3),
    (NO_LIMITS, b"DATE", b"\x1F\x1F\x0820060613", ROOM, 3),
    (NO_LIMITS, b"TIME-OF-DAY", b"15:27:46Z", ROOM, 3),
    (NO_LIMITS, HMSF3_L, b"15:27:46.50", ROOM, 3),
    # "no such date, time or difference"
    (NO_LIMITS, b"DATE", b"2006-02-29", ROOM, 4),
    (NO_LIMITS, YW_BASIC, b"2021-W53", ROOM, 4),
    (NO_LIMITS, b"TIME-OF-DAY", b"24:00:01", ROOM, 4),
    (NO_LIMITS, HM_LD, b"15:27-00", ROOM, 4),
    (NO_LIMITS, HM_LD, b"15:27-00:30", ROOM, 4),
    (NO_LIMITS, HM_LD, b"15:27+16", ROOM, 4),
    (NO_LIMITS, HMS_LD, b"23:59:60-00", ROOM, 4),
    (NO_LIMITS, HMSF1_Z, b"12:34:60,9Z", ROOM, 4),
    (NO_LIMITS, HMS_LD, b"22:59:60+01:00", ROOM, 4),
    # "exists, but not in the type: a year of no Year setting that the type names, year window, hour 24"
    (NO_LIMITS, b"DATE", b"1581-12-31", ROOM, 5),
    (NO_LIMITS, b"DATE", b"-0044-03-15", ROOM, 5),
    (YEARS_2000_TO_2010, b"DATE", b"2011-01-01", ROOM, 5),
    (NO_HOUR_24, b"TIME-OF-DAY", b"24:00:00", ROOM, 5),
    # "the lent room is shorter than the result": the tag and the length count
    (NO_LIMITS, b"DATE", b"2006-06-13", 0, 7),
    (NO_LIMITS, b"DATE", b"2006-06-13", 10, 7),
    # "When several hold, the lowest number is given."
    (NO_LIMITS, b"DATE", b"1500-02-30", 0, 4),
    (NO_LIMITS, b"", b"", 0, 1),
    (NO_LIMITS, Y_BASIC + b"|" + Y_L5, b"", 0, 2),
    (NO_LIMITS, b"DATE", b"", 0, 3),
    (NO_LIMITS, b"DATE", b"1581-12-31", 0, 5),
    # #103: "it meets 5 and no longer 3 in a type without that length"; 1, 2, 3, 4 and 7 beside it
    (NO_LIMITS, Y_L5, b"+100000", 0, 5),
    (NO_LIMITS, b"DATE", b"-999999999-12-31", ROOM, 5),
    (NO_LIMITS, b"DATE", b"+123456-02-30", 0, 4),
    (NO_LIMITS, YMD_L9, b"+011985-04-12", 0, 3),
    (NO_LIMITS, Y_L9, b"+1000000000", ROOM, 3),
    (INSIDE_NINE_DIGITS, Y_L9, b"-999999999", 0, 5),
    (NO_LIMITS, Y_L9, b"+999999999", 11, 7),
    (NO_LIMITS, SIX_LISTS + b"|" + Y_L9, b"", 0, 1),
    (NO_LIMITS, Y_L6 + b"|" + Y_BASIC + b"|" + Y_L6, b"", 0, 1),
    (NO_HOUR_24, Y_L6 + b"|" + Y_BASIC, b"2006", 0, 1),
    (NO_LIMITS, Y_L6 + b"|" + Y_L8 + b"|" + Y_BASIC, b"", 0, 2),
    # durations: what DER writes is no text
    (NO_HOUR_24, b"DURATION", b"P1Y6M", ROOM, 1),
    (YEARS_2000_TO_2010, INTERVAL_D, b"P1Y6M", 0, 1),
    (NO_LIMITS, INTERVAL_D + b"|" + HMS_L, b"P1Y6M", 0, 2),
    (NO_LIMITS, b"DURATION", b"1Y6M", ROOM, 3),
    (NO_LIMITS, b"DURATION", b"\x1F\x22\x041Y6M", ROOM, 3),
    (NO_LIMITS, b"DURATION", b"P01Y", 0, 3),
    (NO_LIMITS, b"DURATION", b"P1Y6M", 6, 7),
    (NO_LIMITS, INTERVAL_D, b"P1Y6M", 6, 7),
)

# limits, type, octets, room, number
REFUSED_OCTETS = (
    # "settings unreadable, unknown, missing, repeated or not in the base; a restriction where it has no place"
    (NO_LIMITS, b"Basic=Date Date=Y", b"\x0E\x042006", ROOM, 1),
    (NO_LIMITS, b"DATE|DATE", b"\x1F\x1F\x0820060613", ROOM, 1),
    (NO_HOUR_24, b"DATE", b"\x1F\x1F\x0820060613", ROOM, 1),
    (YEARS_2000_TO_2010, b"TIME-OF-DAY", b"\x1F\x20\x06152746", ROOM, 1),
    # "two lists that don't make one row"
    (NO_LIMITS, Y_BASIC + b"|" + Y_L5, b"\x0E\x042006", ROOM, 2),
    # "tag wrong": none, a half, of another name, of a list for a name, of a name for a list
    (NO_LIMITS, b"DATE", b"", ROOM, 3),
    (NO_LIMITS, Y_BASIC, b"", ROOM, 3),
    (NO_LIMITS, b"DATE", b"\x1F", ROOM, 3),
    (NO_LIMITS, b"DATE", b"\x1F\x0820060613", ROOM, 3),
    (NO_LIMITS, b"DATE", b"\x1F\x20\x0820060613", ROOM, 3),
    (NO_LIMITS, b"DATE", b"\x1F\x21\x0820060613", ROOM, 3),
    (NO_LIMITS, b"TIME-OF-DAY", b"\x1F\x1F\x06152746", ROOM, 3),
    (NO_LIMITS, b"DATE-TIME", b"\x1F\x1F\x0E20060613152746", ROOM, 3),
    (NO_LIMITS, b"DATE", b"\x0E\x0820060613", ROOM, 3),
    (NO_LIMITS, b"DATE", b"\x0E\x0A2006-06-13", ROOM, 3),
    (NO_LIMITS, YMD_BASIC, b"\x1F\x1F\x0820060613", ROOM, 3),
    (NO_LIMITS, YMD_BASIC, b"\x1F\x1F\x0A2006-06-13", ROOM, 3),
    (NO_LIMITS, YMD_BASIC, b"\x1F\x0E\x0A2006-06-13", ROOM, 3),
    # constructed, of another class, of GeneralizedTime, none but the contents
    (NO_LIMITS, YMD_BASIC, b"\x2E\x0A2006-06-13", ROOM, 3),
    (NO_LIMITS, b"DATE", b"\x3F\x1F\x0820060613", ROOM, 3),
    (NO_LIMITS, YMD_BASIC, b"\x8E\x0A2006-06-13", ROOM, 3),
    (NO_LIMITS, YMD_BASIC, b"\x18\x0A2006-06-13", ROOM, 3),
    (NO_LIMITS, YMD_BASIC, b"2006-06-13", ROOM, 3),
    # "the DER length above 127": of the indefinite form, and in two octets and in three
    (NO_LIMITS, YMD_BASIC, b"\x0E\x802006-06-13\x00\x00", ROOM, 3),
    (NO_LIMITS, b"DATE", b"\x1F\x1F\x81\x0820060613", ROOM, 3),
    (NO_LIMITS, YMD_BASIC, b"\x0E\x81\x0A2006-06-13", ROOM, 3),
    (NO_LIMITS, YMD_BASIC, b"\x0E\x82\x00\x0A2006-06-13", ROOM, 3),
    (NO_LIMITS, YMD_BASIC, b"\x0E\x80" + b"2006-06-13" * 20, ROOM, 3),
    (NO_LIMITS, YMD_BASIC, b"\x0E\xFF" + b"2006-06-13" * 30, ROOM, 3),
    # "missing, or above the octets that follow"
    (NO_LIMITS, b"DATE", b"\x1F\x1F", ROOM, 3),
    (NO_LIMITS, YMD_BASIC, b"\x0E", ROOM, 3),
    (NO_LIMITS, b"DATE", b"\x1F\x1F\x08", ROOM, 3),
    (NO_LIMITS, b"DATE", b"\x1F\x1F\x082006061", ROOM, 3),
    (NO_LIMITS, b"DATE", b"\x1F\x1F\x0920060613", ROOM, 3),
    (NO_LIMITS, YMD_BASIC, b"\x0E\x0B2006-06-13", ROOM, 3),
    (NO_LIMITS, YMD_BASIC, b"\x0E\x7F2006-06-13", ROOM, 3),
    # "Under these three tags the contents are 8, 6 or 14 digits; any other octet or count is refusal 3"
    (NO_LIMITS, b"DATE", b"\x1F\x1F\x00", ROOM, 3),
    (NO_LIMITS, b"DATE", b"\x1F\x1F\x0020060613", ROOM, 3),
    (NO_LIMITS, b"DATE", b"\x1F\x1F\x072006061", ROOM, 3),
    (NO_LIMITS, b"DATE", b"\x1F\x1F\x0720060613", ROOM, 3),
    (NO_LIMITS, b"DATE", b"\x1F\x1F\x09200606130", ROOM, 3),
    (NO_LIMITS, b"DATE", b"\x1F\x1F\x06200606", ROOM, 3),
    (NO_LIMITS, b"DATE", b"\x1F\x1F\x0A2006-06-13", ROOM, 3),
    (NO_LIMITS, b"DATE", b"\x1F\x1F\x082006-6-1", ROOM, 3),
    (NO_LIMITS, b"DATE", b"\x1F\x1F\x08-0440315", ROOM, 3),
    (NO_LIMITS, b"DATE", b"\x1F\x1F\x09-00440315", ROOM, 3),
    (NO_LIMITS, b"DATE", b"\x1F\x1F\x082006061:", ROOM, 3),
    (NO_LIMITS, b"DATE", b"\x1F\x1F\x08/0060613", ROOM, 3),
    (NO_LIMITS, b"DATE", b"\x1F\x1F\x08 2006061", ROOM, 3),
    (NO_LIMITS, b"DATE", b"\x1F\x1F\x082006061\xB3", ROOM, 3),
    (NO_LIMITS, b"TIME-OF-DAY", b"\x1F\x20\x051527460", ROOM, 3),
    (NO_LIMITS, b"TIME-OF-DAY", b"\x1F\x20\x07152746Z", ROOM, 3),
    (NO_LIMITS, b"TIME-OF-DAY", b"\x1F\x20\x0815:27:46", ROOM, 3),
    (NO_LIMITS, b"TIME-OF-DAY", b"\x1F\x20\x0615:27:", ROOM, 3),
    (NO_LIMITS, b"TIME-OF-DAY", b"\x1F\x20\x0815274650", ROOM, 3),
    (NO_LIMITS, b"DATE-TIME", b"\x1F\x21\x0F20060613T152746", ROOM, 3),
    (NO_LIMITS, b"DATE-TIME", b"\x1F\x21\x132006-06-13T15:27:46", ROOM, 3),
    (NO_LIMITS, b"DATE-TIME", b"\x1F\x21\x0E20060613T15274", ROOM, 3),
    (NO_LIMITS, b"DATE-TIME", b"\x1F\x21\x0820060613", ROOM, 3),
    # "the text or the DER contents are not of the type's form"
    (NO_LIMITS, Y_BASIC, b"\x0E\x00", ROOM, 3),
    (NO_LIMITS, Y_BASIC, b"\x0E\x032006", ROOM, 3),
    (NO_LIMITS, Y_BASIC, b"\x0E\x052006 ", ROOM, 3),
    (NO_LIMITS, Y_BASIC, b"\x0E\x06\"2006\"", ROOM, 3),
    (NO_LIMITS, Y_BASIC, b"\x0E\x072006-06", ROOM, 3),
    (NO_LIMITS, YMD_BASIC, b"\x0E\x0820060613", ROOM, 3),
    (NO_LIMITS, YW_BASIC, b"\x0E\x082006-164", ROOM, 3),
    (NO_LIMITS, Y_NEGATIVE, b"\x0E\x05-0000", ROOM, 3),
    (NO_LIMITS, Y_L5, b"\x0E\x06+02006", ROOM, 3),
    (NO_LIMITS, HMSF3_L, b"\x0E\x0B15:27:46.50", ROOM, 3),
    (NO_LIMITS, HMSF3_L, b"\x0E\x0D15:27:46.5000", ROOM, 3),
    (NO_LIMITS, HM_Z, b"\x0E\x0815:27+00", ROOM, 3),
    (NO_LIMITS, HM_LD, b"\x0E\x0615:27Z", ROOM, 3),
    (NO_LIMITS, HM_LD, b"\x0E\x0A15:27+01:0", ROOM, 3),
    (NO_LIMITS, YMD_T_HMS_L, b"\x0E\x132006-06-13 15:27:46", ROOM, 3),
    # "no such date, time or difference"
    (NO_LIMITS, b"DATE", b"\x1F\x1F\x0820060229", ROOM, 4),
    (NO_LIMITS, YMD_BASIC, b"\x0E\x0A2006-02-29", ROOM, 4),
    (NO_LIMITS, YW_BASIC, b"\x0E\x082021-W53", ROOM, 4),
    (NO_LIMITS, b"TIME-OF-DAY", b"\x1F\x20\x06240001", ROOM, 4),
    (NO_LIMITS, b"DATE-TIME", b"\x1F\x21\x0E20060613240001", ROOM, 4),
    (NO_LIMITS, b"DATE-TIME", b"\x1F\x21\x0E20060229152746", ROOM, 4),
    (NO_LIMITS, HM_LD, b"\x0E\x0815:27-00", ROOM, 4),
    (NO_LIMITS, HM_LD, b"\x0E\x0B15:27-00:30", ROOM, 4),
    (NO_LIMITS, HM_LD, b"\x0E\x0815:27+16", ROOM, 4),
    # "a field of the right digit count is of the form at any number, so month 13, weekday 8 or hour 25 is 4"
    (NO_LIMITS, b"DATE", b"\x1F\x1F\x0820061301", ROOM, 4),
    (NO_LIMITS, b"DATE", b"\x1F\x1F\x0820060000", ROOM, 4),
    (NO_LIMITS, b"DATE", b"\x1F\x1F\x0800000000", ROOM, 4),
    (NO_LIMITS, b"DATE", b"\x1F\x1F\x0899999999", ROOM, 4),
    (NO_LIMITS, b"TIME-OF-DAY", b"\x1F\x20\x06250000", ROOM, 4),
    (NO_LIMITS, b"TIME-OF-DAY", b"\x1F\x20\x06156000", ROOM, 4),
    (NO_LIMITS, b"TIME-OF-DAY", b"\x1F\x20\x06152761", ROOM, 4),
    (NO_LIMITS, YWD_BASIC, b"\x0E\x0A2006-W24-8", ROOM, 4),
    (NO_LIMITS, YD_BASIC, b"\x0E\x082006-999", ROOM, 4),
    (NO_LIMITS, H_L, b"\x0E\x0225", ROOM, 4),
    # "a year 0000 to 1581 is refusal 5"
    (NO_LIMITS, b"DATE", b"\x1F\x1F\x0815811231", ROOM, 5),
    (NO_LIMITS, b"DATE", b"\x1F\x1F\x0800000229", ROOM, 5),
    (NO_LIMITS, b"DATE-TIME", b"\x1F\x21\x0E15811231235960", ROOM, 5),
    # "a year of another setting than the type's is refusal 5"
    (NO_LIMITS, Y_BASIC, b"\x0E\x041581", ROOM, 5),
    (NO_LIMITS, Y_BASIC, b"\x0E\x05-0001", ROOM, 5),
    (NO_LIMITS, Y_PROLEPTIC, b"\x0E\x041582", ROOM, 5),
    (NO_LIMITS, Y_NEGATIVE, b"\x0E\x06+10000", ROOM, 5),
    (NO_LIMITS, Y_L5, b"\x0E\x042006", ROOM, 5),
    # #103: years of six to nine digits under types without that length, and at the ends of the limits
    (NO_LIMITS, Y_L5, b"\x0E\x07+100000", ROOM, 5),
    (NO_LIMITS, Y_L6, b"\x0E\x06+99999", ROOM, 5),
    (NO_LIMITS, Y_L9, b"\x0E\x09-99999999", ROOM, 5),
    (NO_LIMITS, Y_BASIC, b"\x0E\x0A+999999999", 0, 5),
    (NO_LIMITS, YMD_BASIC, b"\x0E\x0D+123456-06-13", ROOM, 5),
    (HIGHEST_YEAR, Y_L9, b"\x0E\x0A+999999998", ROOM, 5),
    (LOWEST_YEAR, Y_L9, b"\x0E\x0A-999999998", ROOM, 5),
    (INSIDE_NINE_DIGITS, Y_L9, b"\x0E\x0A+999999999", ROOM, 5),
    (ABOVE_NINE_DIGITS, Y_L9, b"\x0E\x0A+999999999", ROOM, 5),
    (BELOW_NINE_DIGITS, Y_L9, b"\x0E\x0A-999999999", ROOM, 5),
    # the first digit is 0, ten digits, four after `+`; a length that cuts the year, and one that leaves some of it over
    (NO_LIMITS, YMD_L9, b"\x0E\x0D+011985-04-12", ROOM, 3),
    (NO_LIMITS, Y_L9, b"\x0E\x0B+1000000000", ROOM, 3),
    (NO_LIMITS, Y_L9, b"\x0E\x0A+099999999", ROOM, 3),
    (NO_LIMITS, SIX_LISTS, b"\x0E\x05+2006", ROOM, 3),
    (NO_LIMITS, Y_L9, b"\x0E\x0B+999999999", ROOM, 3),
    (NO_LIMITS, Y_L9, b"\x0E\x09+999999999", ROOM, 5),
    (NO_LIMITS, Y_L8, b"\x0E\x09+999999999", ROOM, 6),
    # under a name's tag a year has four digits
    (NO_LIMITS, b"DATE", b"\x1F\x1F\x0B+1234560613", ROOM, 3),
    (NO_LIMITS, b"DATE", b"\x1F\x1F\x0A1234560613", ROOM, 3),
    # 4 before 5 and 6, 5 before 6, and 6; 1 and 2
    (NO_LIMITS, YMD_BASIC, b"\x0E\x0D+123456-02-30", ROOM, 4),
    (NO_LIMITS, YMD_L9, b"\x0E\x10-999999999-02-29\x00", 0, 4),
    (NO_LIMITS, Y_L8, b"\x0E\x0A-999999999\x00", ROOM, 5),
    (NO_LIMITS, Y_L9, b"\x0E\x0A-999999999\x00", ROOM, 6),
    (NO_LIMITS, Y_L9, b"\x0E\x0A-999999999", 9, 7),
    (NO_LIMITS, SIX_LISTS + b"|" + Y_BASIC, b"\x0E\x0A-999999999", ROOM, 1),
    (NO_LIMITS, Y_L9 + b"|" + Y_BASIC, b"\x0E\x0A-999999999", ROOM, 2),
    # "year window, hour 24"; "A lowest year above the highest makes a type with no values."
    (YEARS_2000_TO_2010, b"DATE", b"\x1F\x1F\x0819991231", ROOM, 5),
    (YEARS_2000_TO_2010, b"DATE", b"\x1F\x1F\x0820110101", ROOM, 5),
    (YEARS_2000_TO_2010, Y_BASIC, b"\x0E\x042011", ROOM, 5),
    (EMPTY_WINDOW, b"DATE", b"\x1F\x1F\x0820050613", ROOM, 5),
    (NO_HOUR_24, b"TIME-OF-DAY", b"\x1F\x20\x06240000", ROOM, 5),
    (NO_HOUR_24, H_L, b"\x0E\x0224", ROOM, 5),
    (BOTH_LIMITS, b"DATE-TIME", b"\x1F\x21\x0E20060613240000", ROOM, 5),
    (BOTH_LIMITS, b"DATE-TIME", b"\x1F\x21\x0E20110613152746", ROOM, 5),
    # "DER contents with a comma or `:00` count as of the form, so they meet 6 and not 3."
    (NO_LIMITS, HMSF3_L, b"\x0E\x0C15:27:46,500", ROOM, 6),
    (NO_LIMITS, HF1_L, b"\x0E\x0424,0", ROOM, 6),
    (NO_LIMITS, HM_LD, b"\x0E\x0B15:27+01:00", ROOM, 6),
    (NO_LIMITS, HM_LD, b"\x0E\x0B15:27+00:00", ROOM, 6),
    (NO_LIMITS, HMF1_LD, b"\x0E\x0D15:27,5-01:00", ROOM, 6),
    (NO_LIMITS, YW_T_HMF1_LD, b"\x0E\x17-0044-W11T15:27.5-01:00", ROOM, 6),
    # "octets left over"
    (NO_LIMITS, b"DATE", b"\x1F\x1F\x0820060613\x00", ROOM, 6),
    (NO_LIMITS, b"DATE", b"\x1F\x1F\x08200606130", ROOM, 6),
    (NO_LIMITS, b"DATE", b"\x1F\x1F\x0820060613" * 2, ROOM, 6),
    (NO_LIMITS, b"TIME-OF-DAY", b"\x1F\x20\x06152746Z", ROOM, 6),
    (NO_LIMITS, b"DATE-TIME", b"\x1F\x21\x0E20060613152746\x1F", ROOM, 6),
    (NO_LIMITS, Y_BASIC, b"\x0E\x042006-06", ROOM, 6),
    (NO_LIMITS, Y_BASIC, b"\x0E\x042006" + b"\x00" * 200, ROOM, 6),
    (NO_LIMITS, HM_LD, b"\x0E\x0815:27+01:00", ROOM, 6),
    (NO_LIMITS, HMSF3_L, b"\x0E\x0C15:27:46,500\x00", ROOM, 6),
    # "the lent room is shorter than the result": the text with its separators
    (NO_LIMITS, b"DATE", b"\x1F\x1F\x0820060613", 0, 7),
    (NO_LIMITS, b"DATE", b"\x1F\x1F\x0820060613", 8, 7),
    (NO_LIMITS, b"DATE", b"\x1F\x1F\x0820060613", 9, 7),
    (NO_LIMITS, b"DATE-TIME", b"\x1F\x21\x0E20060613152746", 18, 7),
    # "When several hold, the lowest number is given.": 1 and 2 with all others
    (NO_LIMITS, b"", b"", 0, 1),
    (NO_HOUR_24, b"DATE", b"\x1F\x1F\x0820060229\x00", 0, 1),
    (NO_HOUR_24, Y_BASIC + b"|" + Y_L5, b"\x0E\x042006", 0, 1),
    (NO_LIMITS, Y_BASIC + b"|" + Y_L5, b"", 0, 2),
    (NO_LIMITS, Y_BASIC + b"|" + Y_L5, b"\x0E\x042006\x00", 0, 2),
    # 3 with 4: a date that is none before a field of another form, and before a tag, a length or an end that is wrong
    (NO_LIMITS, b"DATE-TIME", b"\x1F\x21\x0E2006022915274Z", ROOM, 3),
    (NO_LIMITS, YMD_T_HMS_L, b"\x0E\x102006-02-29T15:27", ROOM, 3),
    (NO_LIMITS, b"DATE", b"\x0E\x0820060229", ROOM, 3),
    (NO_LIMITS, b"DATE", b"\x1F\x1F\x0920060229", ROOM, 3),
    (NO_LIMITS, b"DATE", b"\x1F\x1F\x88" + b"20060229" * 20, ROOM, 3),
    # 3 with 5
    (NO_LIMITS, b"DATE-TIME", b"\x1F\x21\x0E1066101415274Z", ROOM, 3),
    (NO_LIMITS, Y_BASIC, b"\x0E\x051066-", ROOM, 3),
    (YEARS_2000_TO_2010, b"DATE", b"\x0E\x0820110101", ROOM, 3),
    (NO_HOUR_24, b"TIME-OF-DAY", b"\x1F\x20\x07240000", ROOM, 3),
    # 3 with 6
    (NO_LIMITS, HMSF3_L, b"\x0E\x0B15:27:46,50", ROOM, 3),
    (NO_LIMITS, HMF1_LD, b"\x0E\x0A15:27,5+1:", ROOM, 3),
    (NO_LIMITS, HM_LD, b"\x0E\x0C15:27+01:00Z", ROOM, 3),
    (NO_LIMITS, HMSF3_L, b"\x1F\x20\x0C15:27:46,500", ROOM, 3),
    (NO_LIMITS, b"DATE", b"\x1F\x1F\x082006061Z\x00", ROOM, 3),
    (NO_LIMITS, b"DATE", b"\x1F\x1F\x072006061\x00", ROOM, 3),
    # 3 with 7
    (NO_LIMITS, b"DATE", b"", 0, 3),
    (NO_LIMITS, b"DATE", b"\x1F\x1F\x092006061", 0, 3),
    # 4 with 5
    (NO_LIMITS, b"DATE", b"\x1F\x1F\x0815000230", ROOM, 4),
    (NO_LIMITS, YMD_BASIC, b"\x0E\x0B-0001-02-29", ROOM, 4),
    (YEARS_2000_TO_2010, b"DATE", b"\x1F\x1F\x0820110229", ROOM, 4),
    (EMPTY_WINDOW, b"DATE", b"\x1F\x1F\x0820050229", ROOM, 4),
    (NO_HOUR_24, b"TIME-OF-DAY", b"\x1F\x20\x06240001", ROOM, 4),
    (BOTH_LIMITS, b"DATE-TIME", b"\x1F\x21\x0E20110613240001", ROOM, 4),
    # 4 with 6
    (NO_LIMITS, b"DATE", b"\x1F\x1F\x0820060229\x00", ROOM, 4),
    (NO_LIMITS, HF1_L, b"\x0E\x0424,5", ROOM, 4),
    (NO_LIMITS, HM_LD, b"\x0E\x0B15:27-00:00", ROOM, 4),
    (NO_LIMITS, HM_LD, b"\x0E\x0B15:27+16:00", ROOM, 4),
    # 4 with 7
    (NO_LIMITS, b"DATE", b"\x1F\x1F\x0820060229", 0, 4),
    # 5 with 6
    (NO_LIMITS, b"DATE", b"\x1F\x1F\x0815811231\x00", ROOM, 5),
    (YEARS_2000_TO_2010, Y_BASIC, b"\x0E\x042011\x00", ROOM, 5),
    (NO_HOUR_24, HF1_L, b"\x0E\x0424,0", ROOM, 5),
    (YEARS_2000_TO_2010, YW_T_HMF1_LD, b"\x0E\x17-0044-W11T15:27.5-01:00", ROOM, 5),
    # 5 with 7, 6 with 7
    (NO_LIMITS, b"DATE", b"\x1F\x1F\x0815811231", 0, 5),
    (NO_LIMITS, b"DATE", b"\x1F\x1F\x0820060613\x00", 0, 6),
    (NO_LIMITS, HMSF3_L, b"\x0E\x0C15:27:46,500", 0, 6),
    # #102: 3 before 4, of a zone of another form and of a length above the octets that follow
    (NO_LIMITS, HMS_Z, b"\x0E\x0812:34:60", ROOM, 3),
    (NO_LIMITS, HMS_LD, b"\x0E\x0912:34:60Z", ROOM, 3),
    (NO_LIMITS, HMS_Z, b"\x0E\x0A12:34:60Z", ROOM, 3),
    # there is no such difference, and no such time
    (NO_LIMITS, HMS_LD, b"\x0E\x0B23:59:60-00", ROOM, 4),
    (NO_LIMITS, HMS_LD, b"\x0E\x0E23:29:60-00:30", ROOM, 4),
    (NO_LIMITS, HMS_LD, b"\x0E\x0B15:59:60+16", ROOM, 4),
    (NO_LIMITS, HMS_Z, b"\x0E\x0923:59:61Z", ROOM, 4),
    # 4 with 5, and 5: the year window, the Year setting, hour 24
    (YEARS_2000_TO_2010, YMD_T_HMS_Z, b"\x0E\x142011-12-31T12:34:60Z", ROOM, 4),
    (YEARS_2000_TO_2010, YMD_T_HMS_Z, b"\x0E\x142011-12-31T23:59:60Z", ROOM, 5),
    (BOTH_LIMITS, YMD_T_HMS_LD, b"\x0E\x192011-12-31T23:59:60+05:30", ROOM, 4),
    (BOTH_LIMITS, YMD_T_HMS_LD, b"\x0E\x192011-12-31T05:29:60+05:30", ROOM, 5),
    (NO_LIMITS, YMD_T_HMS_Z, b"\x0E\x141066-10-14T12:34:60Z", ROOM, 4),
    (NO_LIMITS, YMD_T_HMS_Z, b"\x0E\x141066-10-14T23:59:60Z", ROOM, 5),
    (NO_HOUR_24, HMS_Z, b"\x0E\x0924:00:60Z", ROOM, 4),
    (NO_HOUR_24, HMS_Z, b"\x0E\x0924:00:00Z", ROOM, 5),
    (NO_HOUR_24, HMS_Z, b"\x0E\x0912:34:60Z", ROOM, 4),
    # 4 with 6, and 6: comma, `:00`, octets left over
    (NO_LIMITS, HMSF1_Z, b"\x0E\x0B12:34:60,9Z", ROOM, 4),
    (NO_LIMITS, HMSF1_Z, b"\x0E\x0B23:59:60,9Z", ROOM, 6),
    (NO_LIMITS, HMS_LD, b"\x0E\x0E22:59:60+01:00", ROOM, 4),
    (NO_LIMITS, HMS_LD, b"\x0E\x0E00:59:60+01:00", ROOM, 6),
    (NO_LIMITS, HMS_LD, b"\x0E\x0E23:59:60-00:00", ROOM, 4),
    (NO_LIMITS, HMS_LD, b"\x0E\x0E23:59:60+00:00", ROOM, 6),
    (NO_LIMITS, HMS_Z, b"\x0E\x0912:34:60Z\x00", ROOM, 4),
    (NO_LIMITS, HMS_Z, b"\x0E\x0923:59:60Z\x00", ROOM, 6),
    (NO_LIMITS, HMS_LD, b"\x0E\x0B23:59:60-05:00", ROOM, 4),
    (NO_LIMITS, HMS_LD, b"\x0E\x0B18:59:60-05:00", ROOM, 6),
    # 4 with 7
    (NO_LIMITS, HMS_Z, b"\x0E\x0912:34:60Z", 0, 4),
    # durations: 1 and 2 before all others
    (NO_HOUR_24, b"DURATION", b"\x1F\x22\x041Y6M", ROOM, 1),
    (YEARS_2000_TO_2010, INTERVAL_D, b"\x0E\x05P1Y6M\x00", 0, 1),
    (NO_LIMITS, INTERVAL_D + b"|" + Y_BASIC, b"\x0E\x05P1Y6M", ROOM, 2),
    # "tag wrong": those of the name and of the list exchanged, of a date-time, and none
    (NO_LIMITS, b"DURATION", b"\x0E\x041Y6M", ROOM, 3),
    (NO_LIMITS, b"DURATION", b"\x0E\x05P1Y6M", ROOM, 3),
    (NO_LIMITS, INTERVAL_D, b"\x1F\x22\x041Y6M", ROOM, 3),
    (NO_LIMITS, INTERVAL_D, b"\x1F\x22\x05P1Y6M", ROOM, 3),
    (NO_LIMITS, b"DURATION", b"\x1F\x21\x041Y6M", ROOM, 3),
    (NO_LIMITS, b"DURATION", b"\x3F\x22\x041Y6M", ROOM, 3),
    (NO_LIMITS, b"DURATION", b"1Y6M", ROOM, 3),
    (NO_LIMITS, b"DURATION", b"", ROOM, 3),
    (NO_LIMITS, b"DURATION", b"\x1F", ROOM, 3),
    # "the DER length above 127, missing, or above the octets that follow"
    (NO_LIMITS, b"DURATION", b"\x1F\x22", ROOM, 3),
    (NO_LIMITS, b"DURATION", b"\x1F\x22\x051Y6M", ROOM, 3),
    (NO_LIMITS, b"DURATION", b"\x1F\x22\x81\x041Y6M", ROOM, 3),
    (NO_LIMITS, INTERVAL_D, b"\x0E\x80P1Y6M\x00\x00", ROOM, 3),
    # contents without `P` under the name, and with it under the list
    (NO_LIMITS, b"DURATION", b"\x1F\x22\x05P1Y6M", ROOM, 3),
    (NO_LIMITS, b"DURATION", b"\x1F\x22\x051Y6MP", ROOM, 3),
    (NO_LIMITS, INTERVAL_D, b"\x0E\x041Y6M", ROOM, 3),
    (NO_LIMITS, INTERVAL_D, b"\x0E\x06PP1Y6M", ROOM, 3),
    # "no component at all", also where octets are left over
    (NO_LIMITS, b"DURATION", b"\x1F\x22\x00", ROOM, 3),
    (NO_LIMITS, b"DURATION", b"\x1F\x22\x001Y6M", ROOM, 3),
    (NO_LIMITS, b"DURATION", b"\x1F\x22\x01T", ROOM, 3),
    (NO_LIMITS, INTERVAL_D, b"\x0E\x00", ROOM, 3),
    (NO_LIMITS, INTERVAL_D, b"\x0E\x01P", ROOM, 3),
    (NO_LIMITS, INTERVAL_D, b"\x0E\x02PT", ROOM, 3),
    # "a needless leading zero, an earlier fraction, a number that is negative or of more than nine digits", "or weeks
    # beside another one, decoded too"
    (NO_LIMITS, b"DURATION", b"\x1F\x22\x0301Y", ROOM, 3),
    (NO_LIMITS, b"DURATION", b"\x1F\x22\x061.5Y6M", ROOM, 3),
    (NO_LIMITS, b"DURATION", b"\x1F\x22\x03-1Y", ROOM, 3),
    (NO_LIMITS, b"DURATION", b"\x1F\x22\x0B1000000000Y", ROOM, 3),
    (NO_LIMITS, b"DURATION", b"\x1F\x22\x041Y1W", ROOM, 3),
    (NO_LIMITS, INTERVAL_D, b"\x0E\x05P0Y1W", ROOM, 3),
    (NO_LIMITS, INTERVAL_D, b"\x0E\x05P1W0D", ROOM, 3),
    # contents of other types
    (NO_LIMITS, b"DURATION", b"\x1F\x22\x0820060613", ROOM, 3),
    (NO_LIMITS, INTERVAL_D, b"\x0E\x0A2006-06-13", ROOM, 3),
    (NO_LIMITS, YMD_BASIC, b"\x0E\x05P1Y6M", ROOM, 3),
    (NO_LIMITS, b"DATE", b"\x1F\x22\x041Y6M", ROOM, 3),
    # "a zero component that should be gone meets 6 in decoding"; a comma does too
    (NO_LIMITS, b"DURATION", b"\x1F\x22\x060Y0M1D", ROOM, 6),
    (NO_LIMITS, b"DURATION", b"\x1F\x22\x040Y0M", ROOM, 6),
    (NO_LIMITS, INTERVAL_D, b"\x0E\x07P0Y0M1D", ROOM, 6),
    (NO_LIMITS, INTERVAL_D, b"\x0E\x08PT0M0.5S", ROOM, 6),
    (NO_LIMITS, b"DURATION", b"\x1F\x22\x05T0,5S", ROOM, 6),
    (NO_LIMITS, INTERVAL_D, b"\x0E\x06PT0,5S", ROOM, 6),
    # "octets left over"
    (NO_LIMITS, b"DURATION", b"\x1F\x22\x041Y6M\x00", ROOM, 6),
    (NO_LIMITS, b"DURATION", b"\x1F\x22\x021Y6M", ROOM, 6),
    (NO_LIMITS, INTERVAL_D, b"\x0E\x05P1Y6MP", ROOM, 6),
    # 3 with 6, 6 with 7, and 7: the text with its P
    (NO_LIMITS, b"DURATION", b"\x1F\x22\x060Y1,5W", ROOM, 3),
    (NO_LIMITS, b"DURATION", b"\x1F\x22\x040Y1,", ROOM, 3),
    (NO_LIMITS, INTERVAL_D, b"\x0E\x06P0Y1Y1\x00", ROOM, 3),
    (NO_LIMITS, b"DURATION", b"\x1F\x22\x040Y0M", 0, 6),
    (NO_LIMITS, INTERVAL_D, b"\x0E\x05P1Y6M\x00", 0, 6),
    (NO_LIMITS, b"DURATION", b"\x1F\x22\x041Y6M", 4, 7),
    (NO_LIMITS, INTERVAL_D, b"\x0E\x05P1Y6M", 4, 7),
)

# texts of durations whose elements are changed, under the name and under its settings
DURATIONS = (b"P1Y6M", b"PT0.5S", b"P5W", b"P10DT20M0S")

# a year of each setting with the most octets
LONGEST_YEARS = {b"Basic": b"2006", b"Proleptic": b"1066", b"Negative": b"-0044", b"L5": b"-12006", b"L6": b"-123456",
                 b"L7": b"-1234567", b"L8": b"-12345678", b"L9": b"-123456789"}

# six lists of one row
SIX_YEARS = (b"L7", b"L6", b"Negative", b"L9", b"L5", b"L8")

# `-123456789-06-13T15:58:60.999999999+15:59`
LONGEST_CONTENTS = 41


def longest_texts():
    """Every type of one list or two of the base, and with nine digits and six lists, with a text of the most octets; of the
    date-times of six lists each seventh."""
    dates = [(date, years, max((LONGEST_YEARS[year] for year in years), key=len) + DATE_TAILS[date])
             for date, years in itertools.product(DATES, (SIX_YEARS, *YEAR_CHOICES, (b"L9",)))]
    zone_ends = {b"L": b"", b"Z": b"Z", b"LD": b"+15:59"}
    times = [(time, zone, time_text(time, last_fields(time, zone_ends[zone]), b"9", zone_ends[zone]))
             for time, zone in itertools.product(TIMES, ZONES)]
    yield from ((date_type(date, *years), text) for date, years, text in dates)
    yield from ((time_type(time, zone), text) for time, zone, text in times)
    for k, ((date, years, date_text), (time, zone, clock)) in enumerate(itertools.product(dates, times)):
        if years != SIX_YEARS or k % 7 == 0:
            yield date_time_type(date, years, time, zone), date_text + b"T" + clock


def check_lengths():
    """"one octet of length (0 to 127)": the one after the tag, at the most 127, and so many octets follow."""
    longest = 0
    for type_text, text in longest_texts():
        agree(len(text) <= 127, True, type_text, text)
        check_value(der, NO_LIMITS, type_text, text, b"\x0E" + bytes([len(text)]) + text, 0)
        longest = max(longest, len(text))
    agree(longest, LONGEST_CONTENTS, "longest contents")
    text = LONGEST_DURATION
    check_value(der, NO_LIMITS, INTERVAL_D, text, b"\x0E\x48" + text, 0)
    check_value(der, NO_LIMITS, b"DURATION", text, b"\x1F\x22\x47" + text[1:], 0)


def check_second_60():
    """#102 in contents, which are the canonical text: what the text has, both ways and whatever the room."""
    cases = [(type_text, text, number) for type_text, text, _, number in SECOND_60]
    cases += [(HMS_LD, text, number) for _, _, _, text, number in second_60_with_all_differences()]
    for type_text, text, number in cases:
        octets = b"\x0E" + bytes([len(text)]) + text
        if number == 0:
            check_value(der, NO_LIMITS, type_text, text, octets, 0)
            continue
        for (work, given), room in itertools.product(((der.encode, text), (der.decode, octets)), (ROOM, 0)):
            check_refused(work, NO_LIMITS, type_text, given, room, number)


def check_years():
    """#103 in contents, which are the canonical text: years of each length under many types, and dates that exist or don't."""
    cases = [(date_type(b"Y", *(each.encode() for each in words)), text, 0 if word in words else 5)
             for (text, _, word), words in itertools.product(SIGNED_YEARS, YEARS_OF_TYPES)]
    for type_text, text, number in (*cases, *LARGE_DATES):
        octets = b"\x0E" + bytes([len(text)]) + text
        if number == 0:
            check_value(der, NO_LIMITS, type_text, text, octets, 0)
            continue
        check_refused(der.encode, NO_LIMITS, type_text, text, ROOM, number)
        check_refused(der.decode, NO_LIMITS, type_text, octets, 0, number)


def check_vectors():
    """The outside tool's vectors both ways, of each name and of the most octets."""
    vectors = list(der_vectors())
    lengths = {octets[1] for type_text, _, octets in vectors if type_text not in NAMES}
    agree(len(vectors) >= 900 and LONGEST_CONTENTS in lengths, True, "vectors are there")
    agree({type_text for type_text, _, _ in vectors} >= {*NAMES, b"DURATION", INTERVAL_D}, True, "names are there")
    zones = zones_at_second_60(text for _, text, _ in vectors)
    agree(zones, {b"", b"Z", b"+", b"-"}, "vectors of second 60 are there")
    check_years_in_vectors((type_text, text) for type_text, text, _ in vectors)
    for type_text, text, octets in vectors:
        check_value(der, NO_LIMITS, type_text, text, octets, 0)


def replacements(octets):
    """The octets themselves, and with each of them replaced by every other."""
    for place, other in itertools.product(range(len(octets)), range(256)):
        yield octets[:place] + bytes([other]) + octets[place + 1:]


def accepted(type_text, questions):
    """Those of the octets that the decoder takes; each of them is what the encoder writes for the text it gives."""
    taken = set()
    for octets in questions:
        number, text, bits = der.decode(type_text, NO_LIMITS, octets, ROOM)
        agree(number in (0, 3, 4, 5, 6) and bits == 0, True, "number", type_text, octets)
        if number == 0:
            agree(der.encode(type_text, NO_LIMITS, text, ROOM), (0, octets, 0), "again", type_text, octets)
            taken.add(octets)
    return taken


def written(type_text, texts):
    """What the encoder writes for those of the texts that it takes."""
    answers = (der.encode(type_text, NO_LIMITS, text, ROOM) for text in texts)
    return {octets for number, octets, _ in answers if number == 0}


def check_changes(type_text, text):
    """6 is given for what is "not what the encoder writes": of all elements with one octet replaced, the decoder takes
    those that the encoder writes for a text with one octet replaced. A cut element is refusal 3, a longer one 6."""
    _, octets, _ = der.encode(type_text, NO_LIMITS, text, ROOM)
    changed = set(replacements(octets))
    agree(accepted(type_text, changed), written(type_text, replacements(text)) & changed, "changes of", type_text, text)
    for length in range(len(octets)):
        check_refused(der.decode, NO_LIMITS, type_text, octets[:length], ROOM, 3)
    for other in range(256):
        check_refused(der.decode, NO_LIMITS, type_text, octets + bytes([other]), ROOM, 6)


def main():
    """Ends with a message at the first disagreement; prints nothing when there is none."""
    for limits, type_text, text, octets in VALUES:
        check_value(der, limits, type_text, text, bytes.fromhex(octets), 0)
    for limits, type_text, text, room, number in REFUSED_TEXTS:
        check_refused(der.encode, limits, type_text, text, room, number)
    for limits, type_text, octets, room, number in REFUSED_OCTETS:
        check_refused(der.decode, limits, type_text, octets, room, number)
    check_second_60()
    check_years()
    check_lengths()
    check_vectors()
    for type_text, text in itertools.islice(sample(), 0, None, 2):
        check_changes(type_text, text)
    for type_text, text in itertools.product((b"DURATION", INTERVAL_D), DURATIONS):
        check_changes(type_text, text)


if __name__ == "__main__":
    main()
