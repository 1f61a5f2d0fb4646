"""Checks settings.py, texts.py and durations.py against hand-written cases from document 01's sentences, "Checked
values" and requests #101 to #103, durations also against 34 bis.3.6 and 11.9 d as patterns, second 60 against Python's
own time zones in every minute, and years of up to nine digits against a pattern and Python's own calendar."""

import itertools
import re

from check_gregorian import facts_by_datetime, year_of_datetime
from checks import ABOVE_NINE_DIGITS, BELOW_NINE_DIGITS, HIGHEST_YEAR, INSIDE_NINE_DIGITS, LOWEST_YEAR, NINE_DIGITS
from checks import BOTH_LIMITS, EMPTY_WINDOW, INTERVAL_D, LONGEST_DURATION, NO_HOUR_24, YEARS_2000_TO_2010, agree
from checks import H_L, HF1_L, HM_LD, HM_Z, HMS_L, HMS_LD, HMS_Z, HMSF1_Z, HMSF3_L, HMSF4_L, YW_T_HM_LD
from checks import SECOND_60, YMD_T_HMS_L, YMD_T_HMS_Z, all_differences, at_23_59_utc, second_60_with_all_differences
from checks import LARGE_DATES, SIGNED_YEARS, SIX_LISTS, YEARS_OF_TYPES, YMD_T_HMS_Z_L9
from checks import Y_BASIC, Y_L5, Y_L6, Y_L7, Y_L8, Y_L9, Y_NEGATIVE, Y_PROLEPTIC, YD_BASIC, YM_BASIC, YM_L6, YMD_BASIC
from checks import YMD_L5, YMD_L6, YMD_L9, YMD_PROLEPTIC, YW_BASIC, YW_L9, YWD_BASIC
from durations import canonical, read_duration
from octets import Octets
from settings import NO_LIMITS, fraction_digits, is_refused, read_type, same_rows
from texts import judge, read_text, second_60_can_be
from value_lines import DATE_TAILS, date_type

# limits, type, text, number, canonical text
TEXTS = (
    # "P DATE 2006-06-13: 05 58, 15 bits."
    (NO_LIMITS, b"DATE", b"2006-06-13", 0, b"2006-06-13"),
    # "P DATE 2004-02-29: BF C7 80, 19 bits."
    (NO_LIMITS, b"DATE", b"2004-02-29", 0, b"2004-02-29"),
    # "P TIME-OF-DAY 24:00:00: C0 00 00."
    (NO_LIMITS, b"TIME-OF-DAY", b"24:00:00", 0, b"24:00:00"),
    # "P 23:59:60: BF 7E 00."
    (NO_LIMITS, b"TIME-OF-DAY", b"23:59:60", 0, b"23:59:60"),
    # "24:00:01: 4."
    (NO_LIMITS, b"TIME-OF-DAY", b"24:00:01", 4, None),
    # "P DATE-TIME 2006-06-13T15:27:46: 05 58 F6 EE."
    (NO_LIMITS, b"DATE-TIME", b"2006-06-13T15:27:46", 0, b"2006-06-13T15:27:46"),
    # "P HMSF3 L 15:27:46.500: 7B 77 1F 40, 28 bits."; "The fraction's trailing zeros dropped" is an error
    (NO_LIMITS, HMSF3_L, b"15:27:46.500", 0, b"15:27:46.500"),
    # "P YW 2020-W53: 3F 40."
    (NO_LIMITS, YW_BASIC, b"2020-W53", 0, b"2020-W53"),
    # "P YW 2021-W53: 4."
    (NO_LIMITS, YW_BASIC, b"2021-W53", 4, None),
    # "Y Proleptic 0000: C0 40 00, 18 bits."
    (NO_LIMITS, Y_PROLEPTIC, b"0000", 0, b"0000"),
    # "DATE 1581-12-31: 5."
    (NO_LIMITS, b"DATE", b"1581-12-31", 5, None),
    # "P Y Negative -0128: 01 80."
    (NO_LIMITS, Y_NEGATIVE, b"-0128", 0, b"-0128"),
    # "P Y L5 +32767: 02 7F FF."
    (NO_LIMITS, Y_L5, b"+32767", 0, b"+32767"),
    # "HMSF4 .0999 takes the short fraction"
    (NO_LIMITS, HMSF4_L, b"15:27:46.0999", 0, b"15:27:46.0999"),
    # "DATE 2006-02-29: 4."
    (NO_LIMITS, b"DATE", b"2006-02-29", 4, None),
    # "DATE 1500-02-30: 4 before 5."
    (NO_LIMITS, b"DATE", b"1500-02-30", 4, None),
    # "Empty text: 3."
    (NO_LIMITS, b"DATE", b"", 3, None),
    # "Extended format, no quotation marks"
    (NO_LIMITS, b"DATE", b"20060613", 3, None),
    (NO_LIMITS, b"DATE", b'"2006-06-13"', 3, None),
    # "`2006-164`, `2006-W24`, `2006-W24-2`"
    (NO_LIMITS, YD_BASIC, b"2006-164", 0, b"2006-164"),
    (NO_LIMITS, YWD_BASIC, b"2006-W24-2", 0, b"2006-W24-2"),
    # "for Fn a `.` or `,` and exactly n digits"; "Canonical text (X.690 11.9): full stop for comma"
    (NO_LIMITS, HMSF3_L, b"15:27:46,500", 0, b"15:27:46.500"),
    (NO_LIMITS, HMSF3_L, b"15:27:46.50", 3, None),
    # "a sign with two-digit hours and optionally `:` and minutes (LD)"; "the difference's minutes dropped when 0"
    (NO_LIMITS, HM_LD, b"15:27+01:00", 0, b"15:27+01"),
    (NO_LIMITS, HM_LD, b"15:27-05:30", 0, b"15:27-05:30"),
    # "A date-time has `T` between."
    (NO_LIMITS, YW_T_HM_LD, b"2006-W24T15:27-05:00", 0, b"2006-W24T15:27-05"),
    # "`-` and four digits not all 0, or a sign and five digits not beginning with 0, whichever Year the type names"
    (NO_LIMITS, Y_NEGATIVE, b"-0000", 3, None),
    (NO_LIMITS, Y_L5, b"+02006", 3, None),
    (NO_LIMITS, Y_L5, b"-99999", 0, b"-99999"),
    # "a year of another setting than the type's is refusal 5"
    (NO_LIMITS, Y_BASIC, b"-0001", 5, None),
    (NO_LIMITS, Y_NEGATIVE, b"+10000", 5, None),
    # #103: "A sign with six to nine digits, the first not 0, is from now on of the form, so it meets 5 and no longer 3 in a
    # type without that length."
    (NO_LIMITS, Y_L6, b"+123456", 0, b"+123456"),
    (NO_LIMITS, Y_L5, b"+123456", 5, None),
    (NO_LIMITS, Y_BASIC, b"-123456789", 5, None),
    (NO_LIMITS, b"DATE", b"+123456-02-28", 5, None),
    (NO_LIMITS, b"DATE-TIME", b"+999999999-12-31T23:59:60", 5, None),
    (NO_LIMITS, YMD_T_HMS_Z_L9, b"-999999999-12-31T23:59:60Z", 0, b"-999999999-12-31T23:59:60Z"),
    (NO_LIMITS, YMD_T_HMS_Z_L9, b"-999999999-12-31T12:34:60Z", 4, None),
    (NO_LIMITS, YMD_T_HMS_Z_L9, b"-99999999-12-31T23:59:60Z", 5, None),
    # the first digit is 0, four digits after `+`, all of them 0, and ten digits
    (NO_LIMITS, YMD_L6, b"+011985-04-12", 3, None),
    (NO_LIMITS, YMD_L5, b"+011985-04-12", 3, None),
    (NO_LIMITS, YMD_L5, b"+11985-04-12", 0, b"+11985-04-12"),
    (NO_LIMITS, YMD_BASIC, b"+001985-04-12", 3, None),
    (NO_LIMITS, Y_L9, b"+012345678", 3, None),
    (NO_LIMITS, Y_L9, b"-000000001", 3, None),
    (NO_LIMITS, Y_L5, b"-00001", 3, None),
    (NO_LIMITS, Y_L5, b"+00000", 3, None),
    (NO_LIMITS, SIX_LISTS, b"+2006", 3, None),
    (NO_LIMITS, SIX_LISTS, b"-0000", 3, None),
    (NO_LIMITS, Y_L9, b"+1000000000", 3, None),
    (NO_LIMITS, Y_L9, b"-1000000000", 3, None),
    (NO_LIMITS, Y_L9, b"+0999999999", 3, None),
    (NO_LIMITS, SIX_LISTS, b"+12345678901234567890", 3, None),
    (NO_LIMITS, Y_L6, b"123456", 3, None),
    (NO_LIMITS, Y_L6, b"+123 456", 3, None),
    (NO_LIMITS, Y_L6, b"+123456-", 3, None),
    (NO_LIMITS, YM_L6, b"+123456-7", 3, None),
    (NO_LIMITS, YM_L6, b"+1234567", 3, None),
    (NO_LIMITS, YM_L6, b"-123456-12", 0, b"-123456-12"),
    # "When several hold, the lowest number is given.": 3, then 4, then 5
    (NO_LIMITS, b"DATE", b"+123456-02-30", 4, None),
    (NO_LIMITS, YMD_L5, b"+123456-02-30", 4, None),
    (NO_LIMITS, YMD_L9, b"-999999-13-01", 4, None),
    (NO_LIMITS, YMD_L9, b"+0123456-02-30", 3, None),
    (NO_LIMITS, YMD_L9, b"+1234567890-02-30", 3, None),
    (NO_LIMITS, YW_L9, b"-99999979-W53", 4, None),
    (NO_LIMITS, YW_L9, b"-99999980-W53", 5, None),
    # limits at the ends of nine digits, inside them and beyond
    (NINE_DIGITS, Y_L9, b"+999999999", 0, b"+999999999"),
    (NINE_DIGITS, Y_L9, b"-999999999", 0, b"-999999999"),
    (HIGHEST_YEAR, Y_L9, b"+999999999", 0, b"+999999999"),
    (HIGHEST_YEAR, Y_L9, b"+999999998", 5, None),
    (HIGHEST_YEAR, Y_L9, b"-999999999", 5, None),
    (HIGHEST_YEAR, Y_L8, b"+999999999", 5, None),
    (LOWEST_YEAR, Y_L9, b"-999999999", 0, b"-999999999"),
    (LOWEST_YEAR, SIX_LISTS, b"-999999998", 5, None),
    (INSIDE_NINE_DIGITS, SIX_LISTS, b"+999999999", 5, None),
    (INSIDE_NINE_DIGITS, SIX_LISTS, b"-999999999", 5, None),
    (INSIDE_NINE_DIGITS, SIX_LISTS, b"-999999998", 0, b"-999999998"),
    (ABOVE_NINE_DIGITS, Y_L9, b"+999999999", 5, None),
    (ABOVE_NINE_DIGITS, Y_L9, b"+1000000000", 3, None),
    (BELOW_NINE_DIGITS, Y_L9, b"-999999999", 5, None),
    (BELOW_NINE_DIGITS, YMD_L9, b"-999999999-02-29", 4, None),
    (NINE_DIGITS, b"DATE", b"+999999999-12-31", 5, None),
    (NINE_DIGITS, b"DATE", b"2006-06-13", 0, b"2006-06-13"),
    (YEARS_2000_TO_2010, SIX_LISTS, b"+123456", 5, None),
    (NINE_DIGITS, HMS_L, b"15:27:46", 1, None),
    (NO_HOUR_24, Y_L9, b"+999999999", 1, None),
    # "Gregorian rule for all years, negative and 0000 too"
    (NO_LIMITS, YMD_PROLEPTIC, b"0000-02-29", 0, b"0000-02-29"),
    (NO_LIMITS, YMD_PROLEPTIC, b"-0001-02-29", 4, None),
    # "Ordinal day 1 to 365 or 366."
    (NO_LIMITS, YD_BASIC, b"2006-366", 4, None),
    # "month 13, weekday 8 or hour 25 is 4"
    (NO_LIMITS, b"DATE", b"2006-13-01", 4, None),
    (NO_LIMITS, YWD_BASIC, b"2006-W24-8", 4, None),
    (NO_LIMITS, H_L, b"25", 4, None),
    # "at 24 all smaller fields and the fraction are 0"
    (NO_LIMITS, HF1_L, b"24.0", 0, b"24.0"),
    (NO_LIMITS, HF1_L, b"24.1", 4, None),
    # #102: "for a local time without one we can't know and keep accepting it"; "the case 23:59:60 of TIME-OF-DAY stands"
    (NO_LIMITS, b"TIME-OF-DAY", b"00:00:60", 0, b"00:00:60"),
    (NO_LIMITS, b"TIME-OF-DAY", b"12:34:60", 0, b"12:34:60"),
    (NO_LIMITS, b"DATE-TIME", b"2006-06-13T12:34:60", 0, b"2006-06-13T12:34:60"),
    (NO_LIMITS, b"TIME-OF-DAY", b"00:00:61", 4, None),
    (NO_LIMITS, HMS_Z, b"23:59:61Z", 4, None),
    (NO_LIMITS, HMS_Z, b"24:00:60Z", 4, None),
    # a comma and `:00` change nothing
    (NO_LIMITS, HMSF1_Z, b"23:59:60,9Z", 0, b"23:59:60.9Z"),
    (NO_LIMITS, HMSF1_Z, b"12:34:60,9Z", 4, None),
    (NO_LIMITS, HMS_LD, b"00:59:60+01:00", 0, b"00:59:60+01"),
    (NO_LIMITS, HMS_LD, b"22:59:60+01:00", 4, None),
    # there is no such difference, also where local time less it would be 23:59
    (NO_LIMITS, HMS_LD, b"23:59:60-00", 4, None),
    (NO_LIMITS, HMS_LD, b"23:59:60-00:00", 4, None),
    (NO_LIMITS, HMS_LD, b"23:29:60-00:30", 4, None),
    (NO_LIMITS, HMS_LD, b"15:59:60+16", 4, None),
    (NO_LIMITS, HMS_LD, b"15:59:60+15:60", 4, None),
    # "When several hold, the lowest number is given.": 3, then 4, then 5
    (NO_LIMITS, HMS_Z, b"12:34:60", 3, None),
    (NO_LIMITS, HMS_LD, b"23:59:60Z", 3, None),
    (YEARS_2000_TO_2010, YMD_T_HMS_Z, b"2011-12-31T12:34:60Z", 4, None),
    (YEARS_2000_TO_2010, YMD_T_HMS_Z, b"2011-12-31T23:59:60Z", 5, None),
    (NO_LIMITS, YMD_T_HMS_Z, b"1066-10-14T12:34:60Z", 4, None),
    (NO_LIMITS, YMD_T_HMS_Z, b"1066-10-14T23:59:60Z", 5, None),
    (NO_HOUR_24, HMS_Z, b"24:00:60Z", 4, None),
    (NO_HOUR_24, HMS_Z, b"24:00:00Z", 5, None),
    (NO_HOUR_24, HMS_Z, b"12:34:60Z", 4, None),
    (NO_HOUR_24, HMS_Z, b"23:59:60Z", 0, b"23:59:60Z"),
    # "Difference hours 0 to 15, minutes 0 to 59; a zero difference has `+`, and `-00` is refusal 4."
    (NO_LIMITS, HM_LD, b"15:27+15:59", 0, b"15:27+15:59"),
    (NO_LIMITS, HM_LD, b"15:27-16", 4, None),
    (NO_LIMITS, HM_LD, b"15:27+00:00", 0, b"15:27+00"),
    (NO_LIMITS, HM_LD, b"15:27-00", 4, None),
    # "`+00` and `Z` belong to different settings."
    (NO_LIMITS, HM_Z, b"15:27+00", 3, None),
    # "a lowest and a highest year (only where there is a date, else refusal 1)"
    (YEARS_2000_TO_2010, b"DATE", b"2010-12-31", 0, b"2010-12-31"),
    (YEARS_2000_TO_2010, b"DATE", b"2011-01-01", 5, None),
    (YEARS_2000_TO_2010, b"TIME-OF-DAY", b"15:27:46", 1, None),
    # ""no hour 24" (only where there is a time, else refusal 1)"
    (NO_HOUR_24, b"TIME-OF-DAY", b"24:00:00", 5, None),
    (NO_HOUR_24, b"DATE", b"2006-06-13", 1, None),
    # "A lowest year above the highest makes a type with no values."
    (EMPTY_WINDOW, b"DATE", b"2005-06-13", 5, None),
    # a duration has neither a date nor a time, and so no limits
    (YEARS_2000_TO_2010, b"DURATION", b"P1Y6M", 1, None),
    (EMPTY_WINDOW, b"DURATION", b"P1Y6M", 1, None),
    (NO_HOUR_24, INTERVAL_D, b"PT24H", 1, None),
    (BOTH_LIMITS, INTERVAL_D, b"P1Y6M", 1, None),
    # a text of another type
    (NO_LIMITS, b"DATE", b"P1Y6M", 3, None),
    (NO_LIMITS, H_L, b"PT5H", 3, None),
    (NO_LIMITS, b"DURATION", b"2006-06-13", 3, None),
    (NO_LIMITS, INTERVAL_D, b"15:27:46", 3, None),
)

# text, canonical text: under the name DURATION and under its settings; None for refusal 3
DURATIONS = (
    # "My mail asks for `P1Y6M` or `PT0.5S`."
    (b"P1Y6M", b"P1Y6M"),
    (b"PT0.5S", b"PT0.5S"),
    # "`P0Y0M1D` becomes `P1D`, `P0Y0M` becomes `P0M`, `P1Y0M` stays"
    (b"P0Y0M1D", b"P1D"),
    (b"P0Y0M", b"P0M"),
    (b"P1Y0M", b"P1Y0M"),
    # 34 bis.3.6.14, example 1
    (b"P0Y29M", b"P29M"),
    (b"P0Y29M0D", b"P29M0D"),
    (b"P0Y29M0DT0H0M0S", b"P29MT0S"),
    (b"P0Y29M0DT0,00H", b"P29MT0.00H"),
    (b"P0Y29M0DT0H0M0.000S", b"P29MT0.000S"),
    # 34 bis.3.6.14, example 2: "all represent the same abstract value"
    (b"P0Y29M0DT0H0.00M", b"P29MT0.00M"),
    (b"P0Y29M0DT0.00M", b"P29MT0.00M"),
    (b"P0Y29MT0H0.00M", b"P29MT0.00M"),
    (b"P0Y29MT0.00M", b"P29MT0.00M"),
    (b"P29M0DT0H0.00M", b"P29MT0.00M"),
    (b"P29M0DT0.00M", b"P29MT0.00M"),
    (b"P29MT0H0.00M", b"P29MT0.00M"),
    (b"P29MT0.00M", b"P29MT0.00M"),
    # each component alone, and all but weeks together
    (b"P1Y", b"P1Y"),
    (b"P2M", b"P2M"),
    (b"P3W", b"P3W"),
    (b"P4D", b"P4D"),
    (b"PT5H", b"PT5H"),
    (b"PT6M", b"PT6M"),
    (b"PT7S", b"PT7S"),
    (b"P2Y10M15DT10H20M30S", b"P2Y10M15DT10H20M30S"),
    # "only the last component may have a fraction, of one to nine digits"
    (b"P1.5Y", b"P1.5Y"),
    (b"P1Y1,5M", b"P1Y1.5M"),
    (b"P0,25W", b"P0.25W"),
    (b"PT1.123456789H", b"PT1.123456789H"),
    (b"P1.5Y1M", None),
    (b"P1.5YT1S", None),
    (b"PT0.5M0S", None),
    (b"PT1.1234567890S", None),
    (b"PT1.S", None),
    (b"PT.5S", None),
    (b"PT1.5.5S", None),
    # the fraction's trailing zeros are of the value
    (b"PT0.50S", b"PT0.50S"),
    # "each number has at most nine digits and no needless leading zero"
    (b"P0Y", b"P0Y"),
    (b"P00Y", None),
    (b"P01Y", None),
    (b"PT00.5S", None),
    (b"P999999999Y", b"P999999999Y"),
    (b"P1000000000Y", None),
    (b"PT1M0000000001S", None),
    (LONGEST_DURATION, LONGEST_DURATION),
    # "no component at all"
    (b"", None),
    (b"P", None),
    (b"PT", None),
    (b"P1YT", None),
    # "weeks beside another one"
    (b"P1Y1W", None),
    (b"P1W1D", None),
    (b"P0Y1W", None),
    (b"P1W0D", None),
    (b"P0WT1H", None),
    (b"PT1W", None),
    # another order, twice, and on the other side of [T]
    (b"P1M1Y", None),
    (b"PT1S1M", None),
    (b"P1Y1Y", None),
    (b"P1H", None),
    (b"P1S", None),
    (b"PT1Y", None),
    (b"PT1D", None),
    (b"P1YT1HT1M", None),
    # signs, small letters, spaces, a number without a letter, and no [P]
    (b"-P1Y", None),
    (b"P-1Y", None),
    (b"P+1Y", None),
    (b"p1y", None),
    (b"P1y", None),
    (b"Pt1S", None),
    (b" P1Y", None),
    (b"P1Y ", None),
    (b"P 1Y", None),
    (b"P1", None),
    (b"P1Y6", None),
    (b"1Y6M", None),
    (b"PP1Y", None),
    (b'"P1Y"', None),
)

# type, number: 0 where the type is not refused
TYPES = (
    # "in any order"
    (b"Year=Basic Date=YMD Basic=Date", 0),
    # "each property at most once"
    (b"Basic=Date Date=Y Year=Basic Year=Proleptic", 1),
    # "pairs with one space between"
    (b"Basic=Date  Date=Y Year=Basic", 1),
    # "`Basic`: Date, Time, Date-Time. Always present."
    (b"Date=Y Year=Basic", 1),
    # "Both are present exactly when the value has a date."
    (b"Basic=Date Date=Y", 1),
    (b"Basic=Time Time=H Local-or-UTC=L Year=Basic", 1),
    # "HFn, HMFn, HMSFn, with n from 1 to 9"
    (b"Basic=Time Time=HMF9 Local-or-UTC=Z", 0),
    (b"Basic=Time Time=HMF10 Local-or-UTC=Z", 1),
    # #103: "Geology people need `Year=L6` to `L9`."
    (Y_L6, 0),
    (Y_L7, 0),
    (Y_L8, 0),
    (Y_L9, 0),
    (b"Year=L6 Date=YWD Basic=Date", 0),
    (b"Basic=Date Date=Y Year=L4", 1),
    (b"Basic=Date Date=Y Year=L10", 1),
    (b"Basic=Date Date=Y Year=L05", 1),
    (b"Basic=Date Date=Y Year=L0", 1),
    (b"Basic=Date Date=Y Year=L", 1),
    (b"Basic=Date Date=Y Year=l6", 1),
    (b"Basic=Date Date=Y Year=L6 ", 1),
    (b"Basic=Date Date=Y Year=L 6", 1),
    (b"Basic=Date Date=Y Year=L6L7", 1),
    (b"Basic=Date Date=Y Year=L+6", 1),
    (b"Basic=Date Date=Y Year=6", 1),
    (b"Basic=Date Date=C Year=L6", 1),
    # "A type may be up to six lists that differ only in Year, all of one row, no Year twice."
    (Y_L6 + b"|" + Y_NEGATIVE, 0),
    (Y_L9 + b"|" + Y_L5, 0),
    (Y_L7 + b"|" + Y_L9 + b"|" + Y_L8, 0),
    (b"Year=L7 Basic=Date Date=Y|" + Y_NEGATIVE + b"|Date=Y Year=L6 Basic=Date", 0),
    (SIX_LISTS, 0),
    (b"|".join((Y_L9, Y_L8, Y_L7, Y_L6, Y_L5, Y_NEGATIVE)), 0),
    (b"|".join((Y_L6, Y_NEGATIVE, Y_L9, Y_L5, Y_L8)), 0),
    # "1 for more than six lists": the seventh repeats one, is unreadable, a name, of another family, of another row
    (SIX_LISTS + b"|" + Y_L9, 1),
    (SIX_LISTS + b"|", 1),
    (SIX_LISTS + b"|Basic=Date Date=Y Year=L10", 1),
    (SIX_LISTS + b"|DATE", 1),
    (SIX_LISTS + b"|" + Y_BASIC, 1),
    (SIX_LISTS + b"|" + YM_L6, 1),
    (SIX_LISTS + b"|" + HMS_L, 1),
    (Y_BASIC + b"|" + SIX_LISTS, 1),
    (b"|".join([Y_L6] * 7), 1),
    (b"|".join((Y_BASIC, YM_BASIC, YMD_BASIC, YD_BASIC, YW_BASIC, YWD_BASIC, HMS_L)), 1),
    # "or a Year twice in otherwise equal lists"
    (Y_L6 + b"|" + Y_L6, 1),
    (Y_L6 + b"|" + Y_L7 + b"|" + Y_L6, 1),
    (Y_L6 + b"|Year=L6 Date=Y Basic=Date", 1),
    (b"|".join((Y_NEGATIVE, Y_L5, Y_L6, Y_L7, Y_L8, Y_L5)), 1),
    (b"|".join((Y_NEGATIVE, Y_L5, Y_L6, Y_L7, Y_L8, Y_L8)), 1),
    # each pair is compared, also beside a list of another row or family
    (Y_BASIC + b"|" + YW_BASIC + b"|" + YW_BASIC, 1),
    (YW_BASIC + b"|" + Y_BASIC + b"|" + YW_BASIC, 1),
    (Y_L6 + b"|" + HMS_L + b"|" + HMS_L, 1),
    (HMS_L + b"|" + Y_L6 + b"|" + HMS_L, 1),
    (Y_BASIC + b"|" + Y_L6 + b"|" + Y_L6, 1),
    (Y_L6 + b"|" + Y_BASIC + b"|" + Y_L6, 1),
    (INTERVAL_D + b"|" + Y_L6 + b"|" + INTERVAL_D, 1),
    (b"|".join((Y_L6, Y_BASIC, YW_BASIC, HMS_L, HMS_Z, Y_BASIC)), 1),
    # an unreadable list beside any others
    (Y_BASIC + b"|" + Y_L6 + b"|Basic=Date Date=Y Year=L4", 1),
    (b"|" + Y_L6 + b"|" + Y_L7, 1),
    (Y_L6 + b"||" + Y_L7, 1),
    (Y_L6 + b"|" + Y_L7 + b"| " + Y_L8, 1),
    (b"DATE|" + Y_L6 + b"|" + HMS_L, 1),
    # "2 for any other difference": two families, another Date, another row
    (Y_BASIC + b"|" + Y_L6, 2),
    (Y_L9 + b"|" + Y_PROLEPTIC, 2),
    (Y_BASIC + b"|" + Y_PROLEPTIC + b"|" + Y_L9, 2),
    (b"|".join((Y_NEGATIVE, Y_L5, Y_L6, Y_L7, Y_L8, Y_BASIC)), 2),
    (Y_L6 + b"|" + YM_L6, 2),
    (b"|".join((Y_NEGATIVE, Y_L5, YM_L6, Y_L7, Y_L8, Y_L9)), 2),
    (YMD_L6 + b"|" + YMD_L9 + b"|" + YMD_T_HMS_Z_L9, 2),
    (Y_L6 + b"|" + HMS_L, 2),
    (HMS_L + b"|" + HMS_Z + b"|" + HMS_LD, 2),
    (HMSF3_L + b"|" + HMSF4_L + b"|" + HMS_L, 2),
    (Y_L6 + b"|" + INTERVAL_D + b"|" + HMS_L, 2),
    (b"|".join((Y_BASIC, YM_BASIC, YMD_BASIC, YD_BASIC, YW_BASIC, YWD_BASIC)), 2),
    # "Two lists may differ only in Year, and then only as Basic with Proleptic or Negative with L5"
    (Y_PROLEPTIC + b"|" + Y_BASIC, 0),
    (Y_NEGATIVE + b"|" + Y_L5, 0),
    (Y_BASIC + b"|" + Y_L5, 2),
    # "two equal lists, are refusal 1; any other difference is 2"
    (Y_BASIC + b"|Year=Basic Date=Y Basic=Date", 1),
    (Y_BASIC + b"|" + YW_BASIC, 2),
    # "A name stands alone; beside a bar it is refusal 1.", and "a space next to the bar"; three lists are up to six
    (b"DATE|" + YMD_PROLEPTIC, 1),
    (Y_BASIC + b"|" + Y_PROLEPTIC + b"|" + Y_L5, 2),
    (Y_BASIC + b" |" + Y_PROLEPTIC, 1),
    # "Centuries and intervals are no base types, and all their settings are refusal 1."
    (b"Basic=Date Date=C Year=Basic", 1),
    # "Add `Basic=Interval Interval-type=D` and the name DURATION"
    (INTERVAL_D, 0),
    (b"Interval-type=D Basic=Interval", 0),
    (b"DURATION", 0),
    # missing, repeated, and beside other settings
    (b"Basic=Interval", 1),
    (b"Interval-type=D", 1),
    (INTERVAL_D + b" Interval-type=D", 1),
    (INTERVAL_D + b" Date=YMD Year=Basic", 1),
    (INTERVAL_D + b" Time=HMS Local-or-UTC=L", 1),
    (b"Basic=Date Date=Y Year=Basic Interval-type=D", 1),
    (b"Basic=Time Time=H Local-or-UTC=L Interval-type=D", 1),
    # the other words of Interval-type, and those of other intervals
    (b"Basic=Interval Interval-type=SE", 1),
    (b"Basic=Interval Interval-type=SD", 1),
    (b"Basic=Interval Interval-type=DE", 1),
    (INTERVAL_D + b" SE-point=Date", 1),
    (b"Basic=Interval Interval-type=SE SE-point=Date Date=YMD Year=Basic", 1),
    (b"Basic=Rec-Interval Interval-type=D", 1),
    # "two equal lists, are refusal 1; any other difference is 2"; a name "beside a bar" is 1
    (INTERVAL_D + b"|Interval-type=D Basic=Interval", 1),
    (INTERVAL_D + b"|" + Y_BASIC, 2),
    (HMS_L + b"|" + INTERVAL_D, 2),
    (INTERVAL_D + b"|Basic=Interval Interval-type=SE", 1),
    (b"DURATION|" + INTERVAL_D, 1),
    (b"DURATION|DATE", 1),
)

# limits, type, number: "a restriction where it has no place", in any of the lists, is 1 and comes before 2
LIMITED_TYPES = (
    (NINE_DIGITS, SIX_LISTS, 0),
    (NO_HOUR_24, SIX_LISTS, 1),
    (BOTH_LIMITS, YMD_T_HMS_Z_L9, 0),
    (NO_LIMITS, Y_BASIC + b"|" + Y_L6 + b"|" + HMS_L, 2),
    (NINE_DIGITS, Y_BASIC + b"|" + Y_L6, 2),
    (NO_HOUR_24, Y_BASIC + b"|" + Y_L6, 1),
    (NINE_DIGITS, Y_BASIC + b"|" + Y_L6 + b"|" + HMS_L, 1),
    (NINE_DIGITS, HMS_L + b"|" + Y_L6 + b"|" + Y_L7, 1),
    (NINE_DIGITS, Y_L7 + b"|" + HMS_L + b"|" + Y_L6, 1),
    (NO_HOUR_24, HMS_L + b"|" + HMS_Z + b"|" + YMD_T_HMS_Z_L9, 2),
    (NO_HOUR_24, HMS_L + b"|" + HMS_Z + b"|" + YMD_L9, 1),
    (BOTH_LIMITS, YMD_T_HMS_Z_L9 + b"|" + YMD_L9, 1),
    (BOTH_LIMITS, YMD_T_HMS_Z_L9 + b"|" + YMD_T_HMS_Z, 2),
    (NINE_DIGITS, Y_L6 + b"|" + INTERVAL_D + b"|" + Y_L7, 1),
    (NINE_DIGITS, SIX_LISTS + b"|" + Y_L9, 1),
)

# type, text, whether it has a comma, a difference's minutes that are 0, and zero components
SPELLINGS = (
    # "DER contents with a comma or `:00` count as of the form, so they meet 6 and not 3."
    (HMSF3_L, b"15:27:46,500", True, False, False),
    (HM_LD, b"15:27+01:00", False, True, False),
    (HM_LD, b"15:27+01", False, False, False),
    # "a zero component that should be gone meets 6 in decoding"
    (b"DURATION", b"P0Y1M", False, False, True),
    (b"DURATION", b"P0Y1,5M", True, False, True),
    (b"DURATION", b"P1,5M", True, False, False),
    (b"DURATION", b"P1Y0M", False, False, False),
)

# type, type, same rows, their numbers of fraction digits
ROWS = (
    # "a name counts as its settings"
    (b"DATE", b"Basic=Date Date=YMD Year=Basic", True, 0, 0),
    # "either every Year of both is Basic or Proleptic, or none is"
    (b"DATE", YMD_PROLEPTIC, True, 0, 0),
    (Y_NEGATIVE, Y_L5, True, 0, 0),
    (Y_BASIC + b"|" + Y_PROLEPTIC, Y_L5, False, 0, 0),
    (Y_L5, Y_L9, True, 0, 0),
    (Y_NEGATIVE, Y_L7 + b"|" + Y_L6, True, 0, 0),
    (SIX_LISTS, Y_L8, True, 0, 0),
    (SIX_LISTS, Y_L9 + b"|" + Y_L5 + b"|" + Y_NEGATIVE, True, 0, 0),
    (Y_BASIC, Y_L9, False, 0, 0),
    (Y_PROLEPTIC, SIX_LISTS, False, 0, 0),
    (b"DATE", YMD_L9, False, 0, 0),
    (Y_L6, YM_L6, False, 0, 0),
    (YMD_L9, YMD_T_HMS_Z_L9, False, 0, 0),
    # "the same Time setting, n aside"; "A type's number of fraction digits is n, or 0 without Fn."
    (HMSF3_L, HMSF4_L, True, 3, 4),
    (b"TIME-OF-DAY", HMSF3_L, False, 0, 3),
    # "the same Local-or-UTC"
    (HM_LD, HM_Z, False, 0, 0),
    # "with row 37 as one row"
    (b"DURATION", INTERVAL_D, True, 0, 0),
    (INTERVAL_D, b"Interval-type=D Basic=Interval", True, 0, 0),
    (b"DURATION", b"DATE", False, 0, 0),
    (b"DURATION", b"TIME-OF-DAY", False, 0, 0),
    (INTERVAL_D, YMD_T_HMS_L, False, 0, 0),
    (INTERVAL_D, HMSF3_L, False, 0, 3),
)

# 34 bis.3.6 for a duration without a fractional part, where `N` stands for a number
NUMBER = rb"(?:0|[1-9][0-9]{0,8})"
WHOLE_DURATION = re.compile(
    rb"P(?:NW|(?=[0-9T])(?:NY)?(?:NM)?(?:ND)?(?:T(?=[0-9])(?:NH)?(?:NM)?(?:NS)?)?)".replace(b"N", NUMBER))

# a fractional part before the last letter, and a zero component before another one
FRACTIONAL_PART = re.compile(rb"[.,][0-9]{1,9}(?=[A-Z]\Z)")
ZERO_COMPONENT = re.compile(rb"(?<![0-9])0[A-Z](?=.*[0-9])")

# octets of durations, for all short texts of them
SHORT_TEXT_OCTETS = [bytes([octet]) for octet in b"01YMWDTHS.,"]


# "A year is read as four digits, `-` and four digits not all 0, or a sign and five digits not beginning with 0", or #103's
# "sign with six to nine digits, the first not 0"
YEAR = re.compile(rb"[0-9]{4}|-(?!0000)[0-9]{4}|[+-][1-9][0-9]{4,8}")

YEAR_WORDS = tuple(words[0].encode() for words in YEARS_OF_TYPES[:8])


def canonical_by_patterns(text):
    """The canonical text, without reading the text from the first octet on; None where it is not of the form."""
    if not WHOLE_DURATION.fullmatch(FRACTIONAL_PART.sub(b"", text)):
        return None
    return ZERO_COMPONENT.sub(b"", text).replace(b",", b".")


def short_texts():
    """P before up to four of the octets, in every way."""
    for count in range(5):
        for octets in itertools.product(SHORT_TEXT_OCTETS, repeat=count):
            yield b"P" + b"".join(octets)


def long_texts():
    """Every choice of components, each absent, 0, 1 or 10, and three fractional parts before the last letter."""
    letters, numbers = (b"Y", b"M", b"W", b"D", b"H", b"M", b"S"), (None, b"0", b"1", b"10")
    for chosen in itertools.product(numbers, repeat=len(letters)):
        parts = [number + letter if number else b"" for number, letter in zip(chosen, letters)]
        dates, times = b"".join(parts[:4]), b"".join(parts[4:])
        text = b"P" + dates + (b"T" + times if times else b"")
        yield from (text[:-1] + fraction + text[-1:] for fraction in (b"", b".0", b",25"))


def check_durations():
    """The texts of durations against the patterns; "Show that making canonical twice changes nothing more"."""
    t, accepted = read_type(b"DURATION"), set()
    for text in itertools.chain(short_texts(), long_texts()):
        expected = canonical_by_patterns(text)
        agree(read_text(t, text) is not None, expected is not None, "form of", text)
        if expected is not None:
            agree(judge(b"DURATION", NO_LIMITS, text), (0, expected), "canonical text of", text)
            duration, _ = read_duration(Octets(text))
            agree(canonical(canonical(duration)), canonical(duration), "twice", text)
            accepted.add(expected)
    for text in accepted:
        agree(judge(INTERVAL_D, NO_LIMITS, text), (0, text), "canonical text again", text)


def check_minutes():
    """In every minute of the day: with each difference second 60 is accepted in the one that Python says, with Z at 23:59
    and without any in all of them; and second 59 in all of them."""
    minutes = list(itertools.product(range(24), range(60)))
    for difference in all_differences():
        accepted = [minute for minute in minutes if second_60_can_be(*minute, "LD", difference)]
        agree(accepted, [at_23_59_utc(difference)], "second 60 with", difference)
    for minute in minutes:
        start = b"%02d:%02d:" % minute
        agree(judge(HMS_L, NO_LIMITS, start + b"60"), (0, start + b"60"), "local time", minute)
        agree(judge(HMS_Z, NO_LIMITS, start + b"60Z")[0], 0 if minute == (23, 59) else 4, "Z", minute)
        for type_text, end in ((HMS_L, b"59"), (HMS_Z, b"59Z"), (HMS_LD, b"59+05:30"), (HMS_LD, b"59-15:59")):
            agree(judge(type_text, NO_LIMITS, start + end), (0, start + end), "second 59", type_text, minute)


def check_second_60():
    """#102 in texts."""
    for type_text, text, _, number in SECOND_60:
        agree(judge(type_text, NO_LIMITS, text), (number, None if number else text), type_text, text)
    for _, _, _, text, number in second_60_with_all_differences():
        agree(judge(HMS_LD, NO_LIMITS, text), (number, None if number else text), "all differences", text)
    check_minutes()


def number_of_lists(words):
    """The number of a type with these Year settings in otherwise equal lists."""
    if len(words) > 6 or len(set(words)) < len(words):
        return 1
    return 0 if len({word in (b"Basic", b"Proleptic") for word in words}) == 1 else 2


def check_lists():
    """#103 in types: up to three lists with any Year settings, each choice of them both ways, and six in every order."""
    choices = [words for count in (1, 2, 3) for words in itertools.product(YEAR_WORDS, repeat=count)]
    for count in range(4, 9):
        choices += itertools.combinations(YEAR_WORDS, count)
        choices += itertools.combinations(YEAR_WORDS[::-1], count)
    choices += itertools.permutations(YEAR_WORDS[2:])
    choices += ((*words, word) for words in itertools.combinations(YEAR_WORDS, 5) for word in words)
    for words in choices:
        read = read_type(date_type(b"YW", *words))
        agree(read if is_refused(read) else 0, number_of_lists(words), "lists", words)
    for limits, type_text, number in LIMITED_TYPES:
        read = read_type(type_text, limits)
        agree(read if is_refused(read) else 0, number, limits, type_text)


def setting_by_pattern(text):
    """The Year setting of a year's text, by its octets; None where it is not of the form."""
    if not YEAR.fullmatch(text):
        return None
    if text[0] not in b"+-":
        return b"Proleptic" if text < b"1582" else b"Basic"
    return b"Negative" if len(text) == 5 else b"L%d" % (len(text) - 1)


def year_texts():
    """Up to twelve digits with any sign or none, beginning with 0 or not, and some with another octet among them."""
    for sign, count, first, rest in itertools.product((b"", b"+", b"-"), range(13), (b"0", b"1", b"9"), (b"0", b"9", b"01")):
        digits = (first + rest * 12)[:count]
        yield sign + digits
        yield from (sign + digits[:5] + other + digits[5:] for other in (b"-", b" ", b"\xb9"))
    yield from (b"1581", b"1582", b"0001", b"+-12345", b"--12345", b"++12345", b"12345+", b"+12345\x00")


def check_years():
    """#103 in texts: each text of a year under types that name many settings, alone and before other fields."""
    types = [[word.encode() for word in words] for words in YEARS_OF_TYPES]
    for text in dict.fromkeys(year_texts()):
        setting = setting_by_pattern(text)
        for k, words in enumerate(types):
            number = 3 if setting is None else 0 if setting in words else 5
            agree(judge(date_type(b"Y", *words), NO_LIMITS, text), (number, None if number else text), words, text)
            date = list(DATE_TAILS)[1:][k % 5]
            whole = text + DATE_TAILS[date]
            agree(judge(date_type(date, *words), NO_LIMITS, whole), (number, None if number else whole), words, whole)
    for text, _, word in SIGNED_YEARS:
        agree(setting_by_pattern(text), word.encode(), "pattern of", text)
        for words in YEARS_OF_TYPES:
            found = judge(date_type(b"Y", *(each.encode() for each in words)), NO_LIMITS, text)
            agree(found, (0, text) if word in words else (5, None), words, text)


def large_years():
    """Years at both ends of each length, of either sign, and the ones next to them."""
    for digits in range(5, 10):
        lowest, highest = 10 ** (digits - 1), 10 ** digits - 1
        for year in (*range(lowest, lowest + 30), *range(highest - 30, highest + 1)):
            yield from ((b"L%d" % digits, year), (b"L%d" % digits, -year))


def check_large_dates():
    """Leap days and weeks of longer years: as Python's own calendar says of a year that is whole periods of 400 away."""
    for type_text, text, number in LARGE_DATES:
        agree(judge(type_text, NO_LIMITS, text), (number, None if number else text), type_text, text)
    for word, year in large_years():
        leap, _, weeks, _ = facts_by_datetime(year_of_datetime(year))
        for date, end, exists in ((b"YMD", b"-02-29", leap), (b"YD", b"-366", leap), (b"YW", b"-W53", weeks == 53),
                                  (b"YWD", b"-W53-7", weeks == 53), (b"YMD", b"-02-28", True), (b"YW", b"-W54", False)):
            text = b"%+d" % year + end
            agree(judge(date_type(date, word), NO_LIMITS, text), (0, text) if exists else (4, None), text)
            agree(judge(date_type(date, b"Proleptic"), NO_LIMITS, text)[0], 5 if exists else 4, "Proleptic", text)


def main():
    """Ends with a message at the first disagreement; prints nothing when there is none."""
    for limits, type_text, text, number, expected in TEXTS:
        agree(judge(type_text, limits, text), (number, expected), limits, type_text, text)
    check_second_60()
    check_lists()
    check_years()
    check_large_dates()
    for type_text, (text, expected) in itertools.product((b"DURATION", INTERVAL_D), DURATIONS):
        agree(judge(type_text, NO_LIMITS, text), (0 if expected else 3, expected), type_text, text)
    check_durations()
    for type_text, number in TYPES:
        read = read_type(type_text)
        agree(read if is_refused(read) else 0, number, type_text)
    for type_text, text, *expected in SPELLINGS:
        _, spelling = read_text(read_type(type_text), text)
        agree(list(spelling), expected, "spelling", type_text, text)
    for first, second, same, first_digits, second_digits in ROWS:
        a, b = read_type(first), read_type(second)
        agree(same_rows(a, b), same, "same rows", first, second)
        agree(same_rows(b, a), same, "same rows", second, first)
        agree((fraction_digits(a), fraction_digits(b)), (first_digits, second_digits), "digits", first, second)


if __name__ == "__main__":
    main()
