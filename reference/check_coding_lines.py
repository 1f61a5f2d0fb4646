"""Checks coding_lines.py against hand-written replies, and that its lines ask for all."""

import itertools
import re

import coding_lines
import value_lines
from checks import INTERVAL_D, agree, check_ends_in_lines, check_other_lengths
from coding_lines import all_lines, reply
from year_texts import DATES, LARGE_YEARS, date_type

# line, reply
LINES = (
    # "the bit count: in PER, both when writing and when reading, the sum above; in DER 0"
    (b"e0*;DATE;2006-06-13", b"0 15 0558"),
    (b"d0*;DATE;0558", b"0 15 2006-06-13"),
    (b"t0*;DATE;2006-06-13", b"0 0 1F1F083230303630363133"),
    (b"u0*;DATE;1F1F083230303630363133", b"0 0 2006-06-13"),
    # "the lent room is shorter than the result"
    (b"e0b;DATE;2006-06-13", b"7"),
    (b"e0c;DATE;2006-06-13", b"0 15 0558"),
    (b"d0j;DATE;0558", b"7"),
    (b"t0k;DATE;2006-06-13", b"7"),
    (b"t0l;DATE;2006-06-13", b"0 0 1F1F083230303630363133"),
    (b"u0j;DATE;1F1F083230303630363133", b"7"),
    (b"u0k;DATE;1F1F083230303630363133", b"0 0 2006-06-13"),
    (b"u0A;DATE;1F1F083230303630363133", b"0 0 2006-06-13"),
    # "year window, hour 24", and "a restriction where it has no place"
    (b"d1*;DATE;0558", b"0 15 2006-06-13"),
    (b"u1*;DATE;1F1F083230303630363133", b"0 0 2006-06-13"),
    (b"u1*;DATE;1F1F083230313130313031", b"5"),
    (b"u4a;DATE;1F1F083230303630363133", b"5"),
    (b"u8*;TIME-OF-DAY;1F2006323430303030", b"5"),
    (b"u8*;DATE;1F1F083230303630363133", b"1"),
    (b"u1*;TIME-OF-DAY;1F2006323430303030", b"1"),
    # durations: 8 bits for optionality, 6 for a year and 5 for a month; "contents without `P`"
    (b"e0*;DURATION;P1Y6M", b"0 19 C004C0"),
    (b"d0*;DURATION;C004C0", b"0 19 P1Y6M"),
    (b"e0*;Basic=Interval Interval-type=D;P0Y0M1D", b"0 14 1004"),
    (b"t0*;DURATION;P1Y6M", b"0 0 1F22043159364D"),
    (b"u0*;DURATION;1F22043159364D", b"0 0 P1Y6M"),
    (b"t0*;Basic=Interval Interval-type=D;P0Y0M1D", b"0 0 0E03503144"),
    (b"e0c;DURATION;P1Y6M", b"7"),
    (b"e0d;DURATION;P1Y6M", b"0 19 C004C0"),
    (b"u0e;DURATION;1F22043159364D", b"7"),
    (b"u0f;DURATION;1F22043159364D", b"0 0 P1Y6M"),
    (b"d0*;DURATION;C000C0", b"6"),
    (b"d0a;DURATION;C000C0", b"6"),
    (b"d0*;DURATION;C0", b"3"),
    (b"e1*;DURATION;P1Y6M", b"1"),
    (b"d8*;DURATION;C004C0", b"1"),
    (b"u9a;Basic=Interval Interval-type=D;0E03503144", b"1"),
    # #102: 5 bits for hours, 6 for minutes and for seconds, and 12 for a difference with minutes; 4 before 5, 6 and 7
    (b"e0*;Basic=Time Time=HMS Local-or-UTC=LD;05:29:60+05:30", b"0 29 2BBE68E8"),
    (b"d0*;Basic=Time Time=HMS Local-or-UTC=LD;2BBE68E8", b"0 29 05:29:60+05:30"),
    (b"d0*;Basic=Time Time=HMS Local-or-UTC=LD;2BBE68E9", b"6"),
    (b"d0a;Basic=Time Time=HMS Local-or-UTC=LD;2BBE68E8", b"7"),
    (b"e0*;Basic=Time Time=HMS Local-or-UTC=LD;05:30:60+05:30", b"4"),
    (b"d0*;Basic=Time Time=HMS Local-or-UTC=LD;2BDE68E8", b"4"),
    (b"d0*;Basic=Time Time=HMS Local-or-UTC=LD;2BDE68E9", b"4"),
    (b"d0a;Basic=Time Time=HMS Local-or-UTC=LD;2BDE68E8", b"4"),
    (b"t0*;Basic=Time Time=HMS Local-or-UTC=Z;23:59:60Z", b"0 0 0E0932333A35393A36305A"),
    (b"u0*;Basic=Time Time=HMS Local-or-UTC=Z;0E0932333A35393A36305A", b"0 0 23:59:60Z"),
    (b"u0*;Basic=Time Time=HMS Local-or-UTC=Z;0E0932333A35393A36305A00", b"6"),
    (b"t0a;Basic=Time Time=HMS Local-or-UTC=Z;12:34:60Z", b"4"),
    (b"u0*;Basic=Time Time=HMS Local-or-UTC=Z;0E0931323A33343A36305A", b"4"),
    (b"u0a;Basic=Time Time=HMS Local-or-UTC=Z;0E0931323A33343A36305A00", b"4"),
    (b"e9*;Basic=Date-Time Date=YMD Year=Basic Time=HMS Local-or-UTC=Z;2011-12-31T12:34:60Z", b"4"),
    (b"e9*;Basic=Date-Time Date=YMD Year=Basic Time=HMS Local-or-UTC=Z;2011-12-31T23:59:60Z", b"5"),
    (b"e0*;TIME-OF-DAY;12:34:60", b"0 17 645E00"),
    (b"d0*;TIME-OF-DAY;645E00", b"0 17 12:34:60"),
    # #103: a free integer of 1 to 4 octets; 5 "in a type without that length", after 3 and 4 and before 6 and 7
    (b"e0*;Basic=Date Date=Y Year=L9;+999999999", b"0 40 043B9AC9FF"),
    (b"d0*;Basic=Date Date=Y Year=L9;04C4653601", b"0 40 -999999999"),
    (b"e0*;Basic=Date Date=YW Year=L6;+100020-W53", b"0 38 030186B4D0"),
    (b"t0*;Basic=Date Date=YM Year=L7;-1000000-12", b"0 0 0E0B2D313030303030302D3132"),
    (b"u0*;Basic=Date Date=YM Year=L7;0E0B2D313030303030302D3132", b"0 0 -1000000-12"),
    (b"e0f;Basic=Date Date=Y Year=L9;+999999999", b"0 40 043B9AC9FF"),
    (b"e0e;Basic=Date Date=Y Year=L9;+999999999", b"7"),
    (b"d0j;Basic=Date Date=Y Year=L9;043B9AC9FF", b"7"),
    (b"d0k;Basic=Date Date=Y Year=L9;043B9AC9FF", b"0 40 +999999999"),
    (b"u0j;Basic=Date Date=Y Year=L9;0E0A2B393939393939393939", b"7"),
    (b"e0a;Basic=Date Date=Y Year=L8;+999999999", b"5"),
    (b"d0a;Basic=Date Date=Y Year=L8;043B9AC9FF00", b"5"),
    (b"d0*;Basic=Date Date=Y Year=L9;043B9ACA00", b"5"),
    (b"d0*;Basic=Date Date=Y Year=L9;05003B9AC9FF", b"3"),
    (b"d0*;Basic=Date Date=Y Year=L6;04000186A0", b"6"),
    (b"e0*;DATE;+123456-02-30", b"4"),
    (b"e0*;DATE;+123456-02-28", b"5"),
    (b"t0*;Basic=Date Date=YMD Year=L6;+011985-04-12", b"3"),
    (b"e0*;Basic=Date Date=Y Year=L9;+1000000000", b"3"),
    (b"e5*;Basic=Date Date=Y Year=L9;-999999999", b"0 40 04C4653601"),
    (b"e7*;Basic=Date Date=Y Year=L9;-999999999", b"5"),
    (b"e8*;Basic=Date Date=Y Year=L9;-999999999", b"1"),
    (b"e0*;Basic=Date Date=Y Year=L9|Basic=Date Date=Y Year=L6|Basic=Date Date=Y Year=Negative;-0128", b"0 16 0180"),
    (b"e0*;Basic=Date Date=Y Year=L9|Basic=Date Date=Y Year=L6|Basic=Date Date=Y Year=L9;-0128", b"1"),
    (b"e0*;Basic=Date Date=Y Year=L9|Basic=Date Date=Y Year=L6|Basic=Date Date=Y Year=Basic;-0128", b"2"),
    (b"e8*;Basic=Date Date=Y Year=L9|Basic=Date Date=Y Year=L6|Basic=Date Date=Y Year=Basic;-0128", b"1"),
    # no questions
    (b"u0*;DATE;1F1F08323030363036313", b"?"),
    (b"u0*;DATE;2006-06-13", b"?"),
    (b"U0*;DATE;1F1F083230303630363133", b"?"),
    (b"u0;DATE;1F1F083230303630363133", b"?"),
    (b"ux*;DATE;1F1F083230303630363133", b"?"),
    (b"u0+;DATE;1F1F083230303630363133", b"?"),
    (b"u0*;DATE", b"?"),
)

# "6 | decoding only"
FIRST_WORDS = {
    b"e": {b"0", b"1", b"2", b"3", b"4", b"5", b"7", b"?"},
    b"t": {b"0", b"1", b"2", b"3", b"4", b"5", b"7", b"?"},
    b"d": {b"0", b"1", b"2", b"3", b"4", b"5", b"6", b"7", b"?"},
    b"u": {b"0", b"1", b"2", b"3", b"4", b"5", b"6", b"7", b"?"},
}


# "no such date, time or difference" and "exists, but not in the type" hold of no duration; 2 needs two lists
FIRST_WORDS_OF_DURATIONS = {
    b"e": {b"0", b"1", b"3", b"7"},
    b"t": {b"0", b"1", b"3", b"7"},
    b"d": {b"0", b"1", b"3", b"6", b"7"},
    b"u": {b"0", b"1", b"3", b"6", b"7"},
}


# 1 and 2 are of types, and 7 of rooms, which the texts have not
FIRST_WORDS_OF_SECOND_60 = {
    b"e": {b"0", b"3", b"4", b"5"},
    b"t": {b"0", b"3", b"4", b"5"},
    b"d": {b"0", b"3", b"4", b"5", b"6", b"7"},
    b"u": {b"0", b"3", b"4", b"5", b"6", b"7"},
}


def check_good_texts():
    """That what stands for a value is one of its type: the sample, the cross table's texts, and times of every form."""
    for type_text, text in itertools.chain(coding_lines.sample(), coding_lines.writers()):
        agree(reply(coding_lines.encode_line(type_text, text))[:2], b"0 ", "good text", type_text, text)
    for each in itertools.chain(value_lines.good_times(), value_lines.good_date_times(), value_lines.large_date_times()):
        agree(value_lines.reply(each)[:2], b"0 ", "good text", each)


def check_second_60():
    """That the lines on second 60 ask for each number that a work can give there."""
    lines = list(coding_lines.second_60())
    lines += itertools.chain(coding_lines.in_der(lines), coding_lines.causes_at_second_60())
    found = {work: {reply(each).split(b" ")[0] for each in lines if each[:1] == work} for work in FIRST_WORDS}
    agree(found, FIRST_WORDS_OF_SECOND_60, "replies on second 60")


def questions(lines):
    """The work, the type and the input of each line, and the first word of the reply to it."""
    for each in lines:
        start, type_text, given = (*each.split(b";", 2), b"", b"")[:3]
        yield start[:1], type_text, given, reply(each).split(b" ")[0]


def first_words(replied):
    """The first words of the replies in each work."""
    return {work: {word for other, _, _, word in replied if other == work} for work in FIRST_WORDS}


def check_years(replied):
    """That the lines on larger years ask for each number that a work can give, for each form of a date under each setting
    alone, for the ends of each, and for the years of each under each other one."""
    years = [each for each in replied if re.search(rb"\bYear=L[6-9]", each[1])]
    agree(first_words(years), {work: words - {b"?"} for work, words in FIRST_WORDS.items()}, "replies on larger years")
    types = [date_type(date, year) for date, year in itertools.product(DATES, LARGE_YEARS)]
    found = {(work, type_text, word) for work, type_text, _, word in years}
    agree(set(itertools.product(FIRST_WORDS, types, (b"0", b"5"))) - found, set(), "forms of larger years")
    check_ends_in_lines([each[1:] for each in replied if each[0] in (b"e", b"t")])
    read = (each.split(b";") + [reply(each)[:1]] for each in coding_lines.years_for_others())
    check_other_lengths((start[:1] == b"u", type_text, bytes.fromhex(given.decode("ascii")), word)
                        for start, type_text, given, word in read)


def check_lines():
    """That the lines ask for each number that a work can give, also on durations and on larger years."""
    lines = all_lines()
    replied = set(questions(lines))
    agree(first_words(replied), FIRST_WORDS, "replies")
    agree(40000 < len(lines) < 95000, True, "number of lines")
    durations = [each for each in replied if each[1] in (b"DURATION", INTERVAL_D)]
    agree(first_words(durations), FIRST_WORDS_OF_DURATIONS, "replies on durations")
    check_years(replied)


def main():
    """Ends with a message at the first disagreement; prints nothing when there is none."""
    for given, expected in LINES:
        agree(reply(given), expected, given)
    check_good_texts()
    check_second_60()
    check_lines()


if __name__ == "__main__":
    main()
