"""Checks convert_lines.py against document 01's example and hand-written replies, and that its lines ask for all."""

import itertools
import re

from checks import INTERVAL_D, SIX_LISTS, Y_BASIC, Y_L6, Y_L9, agree, check_ends_in_lines, check_other_lengths
from convert_lines import SAMPLE, all_lines, from_hex, line, long_years_in_octets, replies, reply, second_60
from year_texts import DATES, LARGE_YEARS

# all that is read, all that is written
WHOLE = (
    # "Input" and "Whole output"
    (b"per;DATE;2006-06-13\nder;DATE;2006-06-13\nper;DATE;2006-02-29\n", b"0 0558\n0 1F1F083230303630363133\n4\n"),
    # the last line need not end in a newline, and none begins after the last newline
    (b"per;DATE;2006-06-13\nper;DATE;2006-02-29", b"0 0558\n4\n"),
    (b"", b""),
    (b"\n", b"?\n"),
    (b"\nper;DATE;2006-06-13\n\n", b"?\n0 0558\n?\n"),
    # a carriage return is an octet like any other
    (b"per;DATE;2006-06-13\r\n\r\n", b"3\n?\n"),
    # a line of more than 1,024 octets has one reply
    (b"per;DATE;2006-06-13 " * 10000 + b"\nper;DATE;2006-06-13\n", b"?\n0 0558\n"),
)

# line, reply
LINES = (
    # "the number and, after 0, the hex or text"
    (b"unper;DATE;0558", b"0 2006-06-13"),
    (b"unper;DATE;BFC780", b"0 2004-02-29"),
    (b"unper;DATE;bfC780", b"0 2004-02-29"),
    (b"per;DATE;2004-02-29", b"0 BFC780"),
    (b"der;Basic=Time Time=HMF1 Local-or-UTC=LD;15:27,5-01:00", b"0 0E0A31353A32372E352D3031"),
    (b"unper;DATE;055", b"?"),
    (b"unper;DATE;", b"3"),
    (b"unper;DATE;0478", b"4"),
    (b"unper;DATE;C0818B5580", b"5"),
    (b"unper;DATE;055800", b"6"),
    # the same in DER, with each number that it can give
    (b"under;DATE;1F1F083230303630363133", b"0 2006-06-13"),
    (b"under;DATE;1f1F083230303630363133", b"0 2006-06-13"),
    (b"under;TIME-OF-DAY;1F2006323430303030", b"0 24:00:00"),
    (b"under;DATE-TIME;1F210E3230303630363133313532373436", b"0 2006-06-13T15:27:46"),
    (b"under;Basic=Date Date=YMD Year=Basic;0E0A323030362D30362D3133", b"0 2006-06-13"),
    (b"under;Basic=Time Time=HMF1 Local-or-UTC=LD;0E0A31353A32372E352D3031", b"0 15:27.5-01"),
    (b"under;Basic=Date Date=YMD;0E0A323030362D30362D3133", b"1"),
    (b"under;DATE|DATE;1F1F083230303630363133", b"1"),
    (b"under;Basic=Date Date=Y Year=Basic|Basic=Date Date=Y Year=L5;0E0432303036", b"2"),
    (b"under;DATE;", b"3"),
    (b"under;DATE;1F1F", b"3"),
    (b"under;DATE;1F1F0832303036303631", b"3"),
    (b"under;DATE;1F1F81083230303630363133", b"3"),
    (b"under;DATE;1F1F0A323030362D30362D3133", b"3"),
    (b"under;DATE;1F1F08323030363036313A", b"3"),
    (b"under;DATE;0E0A323030362D30362D3133", b"3"),
    (b"under;TIME-OF-DAY;1F1F083230303630363133", b"3"),
    (b"under;Basic=Date Date=YMD Year=Basic;1F1F083230303630363133", b"3"),
    (b"under;Basic=Date Date=YMD Year=Basic;0E083230303630363133", b"3"),
    (b"under;DATE;1F1F083230303630323239", b"4"),
    (b"under;DATE;1F1F083135303030323330", b"4"),
    (b"under;DATE;1F1F083230303630323239FF", b"4"),
    (b"under;DATE;1F1F083135383131323331", b"5"),
    (b"under;DATE;1F1F083135383131323331FF", b"5"),
    (b"under;Basic=Date Date=Y Year=L5;0E0432303036", b"5"),
    (b"under;DATE;1F1F08323030363036313300", b"6"),
    (b"under;Basic=Time Time=HMF1 Local-or-UTC=LD;0E0A31353A32372C352D3031", b"6"),
    (b"under;Basic=Time Time=HMF1 Local-or-UTC=LD;0E0D31353A32372E352D30313A3030", b"6"),
    # what PER writes is no DER, and the other way round
    (b"under;DATE;0558", b"3"),
    (b"unper;DATE;1F1F083230303630363133", b"3"),
    # durations: "My mail asks for `P1Y6M` or `PT0.5S`."
    (b"per;DURATION;P1Y6M", b"0 C004C0"),
    (b"per;DURATION;PT0.5S", b"0 03000020"),
    (b"unper;DURATION;c004C0", b"0 P1Y6M"),
    (b"unper;Basic=Interval Interval-type=D;03000020", b"0 PT0.5S"),
    (b"der;DURATION;P1Y6M", b"0 1F22043159364D"),
    (b"der;DURATION;PT0,5S", b"0 1F220554302E3553"),
    (b"der;Basic=Interval Interval-type=D;PT0.5S", b"0 0E065054302E3553"),
    (b"under;DURATION;1F22043159364D", b"0 P1Y6M"),
    (b"under;Interval-type=D Basic=Interval;0E05503159304D", b"0 P1Y0M"),
    # "`P0Y0M1D` becomes `P1D`, `P0Y0M` becomes `P0M`, `P1Y0M` stays"
    (b"der;Basic=Interval Interval-type=D;P0Y0M1D", b"0 0E03503144"),
    (b"der;Basic=Interval Interval-type=D;P0Y0M", b"0 0E0350304D"),
    (b"der;Basic=Interval Interval-type=D;P1Y0M", b"0 0E05503159304D"),
    (b"per;DURATION;P0Y0M1D", b"0 1004"),
    (b"per;DURATION;P0Y0M", b"0 4000"),
    (b"per;DURATION;P1Y0M", b"0 C00400"),
    # 1 and 2
    (b"per;Basic=Interval;P1Y6M", b"1"),
    (b"per;Basic=Interval Interval-type=SE;P1Y6M", b"1"),
    (b"under;DURATION|DURATION;1F22043159364D", b"1"),
    (b"der;Basic=Interval Interval-type=D|Basic=Date Date=Y Year=Basic;P1Y6M", b"2"),
    # 3
    (b"per;DURATION;P01Y", b"3"),
    (b"per;DURATION;P1.5Y6M", b"3"),
    (b"per;DURATION;P1000000000Y", b"3"),
    (b"der;DURATION;P1Y1W", b"3"),
    (b"der;DURATION;PT", b"3"),
    (b"der;DURATION;2006-06-13", b"3"),
    (b"der;DATE;P1Y6M", b"3"),
    (b"unper;DURATION;00", b"3"),
    (b"unper;DURATION;A00404", b"3"),
    (b"under;DURATION;1F2200", b"3"),
    (b"under;DURATION;1F2205503159364D", b"3"),
    (b"under;DURATION;0E05503159364D", b"3"),
    (b"under;Basic=Interval Interval-type=D;1F22043159364D", b"3"),
    # 6: P0Y6M, P1Y after a 1 bit, a filling, an octet left over; 0Y6M, a comma
    (b"unper;DURATION;C000C0", b"6"),
    (b"unper;DURATION;80808080", b"6"),
    (b"unper;DURATION;8005", b"6"),
    (b"unper;DURATION;800400", b"6"),
    (b"under;DURATION;1F22043059364D", b"6"),
    (b"under;DURATION;1F220554302C3553", b"6"),
    # #102: "with Z, second 60 is accepted only at 23:59"
    (b"per;Basic=Time Time=HMS Local-or-UTC=Z;23:59:60Z", b"0 BF7E00"),
    (b"der;Basic=Time Time=HMS Local-or-UTC=Z;23:59:60Z", b"0 0E0932333A35393A36305A"),
    (b"unper;Basic=Time Time=HMS Local-or-UTC=Z;BF7E00", b"0 23:59:60Z"),
    (b"under;Basic=Time Time=HMS Local-or-UTC=Z;0E0932333A35393A36305A", b"0 23:59:60Z"),
    (b"per;Basic=Time Time=HMS Local-or-UTC=Z;12:34:60Z", b"4"),
    (b"der;Basic=Time Time=HMS Local-or-UTC=Z;12:34:60Z", b"4"),
    (b"unper;Basic=Time Time=HMS Local-or-UTC=Z;645E00", b"4"),
    (b"under;Basic=Time Time=HMS Local-or-UTC=Z;0E0931323A33343A36305A", b"4"),
    # "with a difference, only where local time less the difference, around the day, is 23:59"
    (b"per;Basic=Time Time=HMS Local-or-UTC=LD;05:29:60+05:30", b"0 2BBE68E8"),
    (b"unper;Basic=Time Time=HMS Local-or-UTC=LD;2BBE68E8", b"0 05:29:60+05:30"),
    (b"per;Basic=Time Time=HMS Local-or-UTC=LD;05:30:60+05:30", b"4"),
    (b"unper;Basic=Time Time=HMS Local-or-UTC=LD;2BDE68E8", b"4"),
    (b"per;Basic=Time Time=HMS Local-or-UTC=LD;00:59:60+01:00", b"0 077E20"),
    (b"der;Basic=Time Time=HMS Local-or-UTC=LD;18:59:60-05:00", b"0 0E0B31383A35393A36302D3035"),
    (b"unper;Basic=Time Time=HMS Local-or-UTC=LD;977E14", b"0 18:59:60-05"),
    (b"unper;Basic=Time Time=HMS Local-or-UTC=LD;BF7E14", b"4"),
    (b"der;Basic=Time Time=HMS Local-or-UTC=LD;23:59:60-05", b"4"),
    (b"der;Basic=Time Time=HMS Local-or-UTC=LD;23:59:60-00", b"4"),
    # "for a local time without one we can't know and keep accepting it"
    (b"per;TIME-OF-DAY;12:34:60", b"0 645E00"),
    (b"under;TIME-OF-DAY;1F2006313233343630", b"0 12:34:60"),
    # 4 before 6: filling not zero, octets left over, comma, `:00`; and before 5
    (b"unper;Basic=Time Time=HMS Local-or-UTC=Z;645E01", b"4"),
    (b"unper;Basic=Time Time=HMS Local-or-UTC=Z;645E0000", b"4"),
    (b"under;Basic=Time Time=HMS Local-or-UTC=Z;0E0931323A33343A36305A00", b"4"),
    (b"under;Basic=Time Time=HMSF1 Local-or-UTC=Z;0E0B31323A33343A36302C395A", b"4"),
    (b"under;Basic=Time Time=HMSF1 Local-or-UTC=Z;0E0B32333A35393A36302C395A", b"6"),
    (b"under;Basic=Time Time=HMS Local-or-UTC=LD;0E0E32333A35393A36302D30353A3030", b"4"),
    (b"under;Basic=Time Time=HMS Local-or-UTC=LD;0E0E31383A35393A36302D30353A3030", b"6"),
    (b"per;Basic=Date-Time Date=Y Year=Basic Time=HMS Local-or-UTC=Z;1066T12:34:60Z", b"4"),
    (b"per;Basic=Date-Time Date=Y Year=Basic Time=HMS Local-or-UTC=Z;1066T23:59:60Z", b"5"),
    # #103: "Geology people need `Year=L6` to `L9`."
    (b"per;Basic=Date Date=Y Year=L6;+100000", b"0 030186A0"),
    (b"per;Basic=Date Date=Y Year=L7;-9999999", b"0 04FF676981"),
    (b"per;Basic=Date Date=Y Year=L8;+10000000", b"0 0400989680"),
    (b"per;Basic=Date Date=Y Year=L9;-999999999", b"0 04C4653601"),
    (b"unper;Basic=Date Date=Y Year=L9;043b9aC9FF", b"0 +999999999"),
    (b"unper;Basic=Date Date=YMD Year=L9;043B9AC9FFBF00", b"0 +999999999-12-31"),
    (b"der;Basic=Date Date=YD Year=L6;-123456-366", b"0 0E0B2D3132333435362D333636"),
    (b"under;Basic=Date Date=YD Year=L6;0E0B2D3132333435362D333636", b"0 -123456-366"),
    # "it meets 5 and no longer 3 in a type without that length"; 3 and 4 before it, 6 after it
    (b"per;DATE;+123456-06-13", b"5"),
    (b"der;DATE;+123456-02-30", b"4"),
    (b"der;Basic=Date Date=Y Year=L5;-100000", b"5"),
    (b"unper;Basic=Date Date=Y Year=L5;030186A0", b"5"),
    (b"unper;Basic=Date Date=Y Year=L5;030186A000", b"5"),
    (b"unper;Basic=Date Date=Y Year=L6;030186A000", b"6"),
    (b"unper;Basic=Date Date=Y Year=L6;04000186A0", b"6"),
    (b"unper;Basic=Date Date=Y Year=L9;043B9ACA00", b"5"),
    (b"unper;Basic=Date Date=Y Year=L9;0500FFFFFFFF", b"3"),
    (b"under;Basic=Date Date=Y Year=L9;0E092D3939393939393939", b"5"),
    (b"per;Basic=Date Date=YMD Year=L6;+011985-04-12", b"3"),
    (b"per;Basic=Date Date=Y Year=L9;+1000000000", b"3"),
    (b"per;Basic=Date Date=YW Year=L9;-999999980-W53", b"0 04C4653614D0"),
    (b"per;Basic=Date Date=YW Year=L9;-999999979-W53", b"4"),
    # "A type may be up to six lists that differ only in Year, all of one row, no Year twice."
    (b"per;" + SIX_LISTS + b";-0128", b"0 0180"),
    (b"per;" + SIX_LISTS + b";+8388608", b"0 0400800000"),
    (b"under;" + SIX_LISTS + b";0E0A2B313030303030303030", b"0 +100000000"),
    (b"per;" + SIX_LISTS + b";2006", b"5"),
    (b"per;" + SIX_LISTS + b"|" + Y_L6 + b";-0128", b"1"),
    (b"der;" + SIX_LISTS + b"|" + Y_BASIC + b";-0128", b"1"),
    (b"der;" + Y_L6 + b"|" + Y_BASIC + b"|" + Y_L6 + b";-0128", b"1"),
    (b"der;" + Y_L6 + b"|" + Y_BASIC + b"|" + Y_L9 + b";-0128", b"2"),
    (b"per;" + Y_L6 + b"|" + Y_L9 + b"|" + Y_BASIC + b";-0128", b"2"),
    (b"unper;" + Y_L6 + b"|Basic=Date Date=YM Year=L9;0180", b"2"),
    (b"unper;" + Y_L6 + b"|Basic=Date Date=Y Year=L10;0180", b"1"),
    # "fewer than two semicolons"
    (b"per", b"?"),
    (b"per;DATE", b"?"),
    (b"per;;", b"1"),
    (b"per;DATE;", b"3"),
    (b"per;DATE;2006-06-13;", b"3"),
    (b"unper;DATE;0558;", b"?"),
    (b"under", b"?"),
    (b"under;1F1F083230303630363133", b"?"),
    (b"under;DATE;1F1F083230303630363133;", b"?"),
    (b"under;;", b"1"),
    # "an unknown work"
    (b";DATE;2006-06-13", b"?"),
    (b"Per;DATE;2006-06-13", b"?"),
    (b"per ;DATE;2006-06-13", b"?"),
    (b"ber;DATE;2006-06-13", b"?"),
    (b"Under;DATE;1F1F083230303630363133", b"?"),
    (b"under ;DATE;1F1F083230303630363133", b"?"),
    (b"unders;DATE;1F1F083230303630363133", b"?"),
    # "hex input that isn't whole pairs of hex digits", whatever the type is
    (b"unper;DATE;0x0558", b"?"),
    (b"unper;DATE;05 58", b"?"),
    (b"unper;DATE;05G8", b"?"),
    (b"under;DATE;1F1F08323030363036313", b"?"),
    (b"under;DATE;1F 1F 08 32 30 30 36 30 36 31 33", b"?"),
    (b"under;DATE;2006-06-13", b"?"),
    (b"under;DATE;20060613", b"3"),
    (b"under;nothing;2006-06-13", b"?"),
    (b"unper;nothing;5", b"?"),
    (b"unper;nothing;", b"1"),
    # "more than 1,024 octets"
    (b"per;DATE;" + b"0" * 1015, b"3"),
    (b"per;DATE;" + b"0" * 1016, b"?"),
    (b"unper;DATE;0558" + b"0" * 1008, b"6"),
    (b"unper;DATE ;" + b"0" * 1012, b"1"),
    (b"unper;DATE ;" + b"0" * 1013, b"?"),
    (b"under;DATE ;1F1F083230303630363133" + b"0" * 990, b"1"),
    (b"under;DATE;1F1F083230303630363133" + b"0" * 990, b"6"),
    (b"under;DATE;1F1F083230303630363133" + b"0" * 992, b"?"),
    # refusals 1 and 2
    (b"der;DATE|DATE;2006-06-13", b"1"),
    (b"der;Basic=Date Date=Y Year=Basic|Basic=Date Date=Y Year=L5;2006", b"2"),
)

# "6 | decoding only"; 7 is never given, as the room is longer than any result
FIRST_WORDS = {
    b"per": {b"0", b"1", b"2", b"3", b"4", b"5", b"?"},
    b"der": {b"0", b"1", b"2", b"3", b"4", b"5", b"?"},
    b"unper": {b"0", b"1", b"2", b"3", b"4", b"5", b"6", b"?"},
    b"under": {b"0", b"1", b"2", b"3", b"4", b"5", b"6", b"?"},
}


# "no such date, time or difference" and "exists, but not in the type" hold of no duration; 2 needs two lists
FIRST_WORDS_OF_DURATIONS = {
    b"per": {b"0", b"3"},
    b"der": {b"0", b"3"},
    b"unper": {b"0", b"3", b"6"},
    b"under": {b"0", b"3", b"6"},
}


# 1 and 2 are of types
FIRST_WORDS_OF_SECOND_60 = {work: words - {b"1", b"2", b"?"} for work, words in FIRST_WORDS.items()}


def check_second_60():
    """That the lines on second 60 ask for each number that a work can give there."""
    lines = list(second_60())
    found = {work: {reply(each).split(b" ")[0] for each in lines if each.startswith(work + b";")} for work in FIRST_WORDS}
    agree(found, FIRST_WORDS_OF_SECOND_60, "replies on second 60")


def questions(lines):
    """The work, the type and the input of each line that begins with a work, and the first word of the reply to it."""
    for each in lines:
        work, *rest = each.split(b";", 2)
        if work in FIRST_WORDS and rest:
            yield work, *(rest if len(rest) == 2 else (b"", b"")), reply(each).split(b" ")[0]


def check_durations(replied):
    """That the lines on durations ask for each number that a work can give there."""
    found = {work: set() for work in FIRST_WORDS_OF_DURATIONS}
    for work, type_text, _, word in replied:
        if type_text in (b"DURATION", INTERVAL_D):
            found[work].add(word)
    agree(found, FIRST_WORDS_OF_DURATIONS, "replies on durations")


def settings_of(type_text):
    """The Year settings that a type names."""
    return tuple(re.findall(rb"\bYear=([A-Za-z0-9]+)", type_text))


def check_years(replied):
    """That the lines on types with larger years ask for each number that a work can give, that each form of a date is asked
    for with each setting, and that there are up to eight lists."""
    found, forms, counts = {work: set() for work in FIRST_WORDS}, set(), set()
    for work, type_text, _, word in replied:
        if re.search(rb"\bYear=L[6-9]", type_text):
            years = settings_of(type_text)
            found[work].add(word)
            forms.update((date, years, word) for date in re.findall(rb"\bDate=([A-Z]+)", type_text))
            counts.add(len(years))
    agree({work: words - {b"?"} for work, words in found.items()},
          {work: words - {b"?"} for work, words in FIRST_WORDS.items()}, "replies on larger years")
    wanted = set(itertools.product(DATES, [(year,) for year in LARGE_YEARS], (b"0", b"3", b"4", b"5")))
    wanted -= set(itertools.product(DATES[:1], [(year,) for year in LARGE_YEARS], (b"4",)))
    agree(wanted - forms, set(), "forms of larger years")
    agree(set(range(1, 9)) - counts, set(), "numbers of lists")
    check_ends_in_lines([each[1:] for each in replied if each[0] in (b"per", b"der")])
    read = (each.split(b";") + [reply(each)[:1]] for each in long_years_in_octets())
    check_other_lengths((work == b"under", type_text, from_hex(given), word) for work, type_text, given, word in read)


def check_lines():
    """That the lines ask for each number that a work can give, and have many lengths."""
    lines = all_lines()
    replied = set(questions(lines))
    found = {work: {word for other, _, _, word in replied if other == work} for work in FIRST_WORDS}
    agree(found, FIRST_WORDS, "replies")
    agree(len(set(lines)) >= 20000 and len(lines) < 80000, True, "number of lines")
    agree(sum(map(len, lines)) < 6000000, True, "number of octets")
    agree({0, 1, 1023, 1024, 1025, 5000, 70000, 200000, 200001} <= set(map(len, lines)), True, "lengths")
    agree(lines[:3], WHOLE[0][0].splitlines(), "first lines")
    agree(reply(lines[-1])[:2], b"0 ", "last line")
    check_durations(replied)
    check_years(replied)


def main():
    """Ends with a message at the first disagreement; prints nothing when there is none."""
    for given, expected in WHOLE:
        agree(replies(given), expected, given[:60])
    for given, expected in LINES:
        agree(reply(given), expected, given[:60], len(given))
    for type_text, text in SAMPLE:
        agree(reply(line(b"per", type_text, text))[:2], b"0 ", "sample", type_text, text)
    check_second_60()
    check_lines()


if __name__ == "__main__":
    main()
