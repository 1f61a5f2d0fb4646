"""Types and texts of dates for the lines: the choices of Year settings, and years of every shape, those of six to nine digits
(#103) at their ends and in many lists. No reader is asked here.
"""

import itertools

# "Base settings"
DATES = (b"Y", b"YM", b"YMD", b"YD", b"YW", b"YWD")
YEARS = (b"Basic", b"Proleptic", b"Negative", b"L5")

# "Geology people need `Year=L6` to `L9`"; those of one row, in which "up to six lists" may be; and all
LARGE_YEARS = (b"L6", b"L7", b"L8", b"L9")
SIGNED_YEARS = YEARS[2:] + LARGE_YEARS
ALL_YEARS = YEARS + LARGE_YEARS

# one list, or "Basic with Proleptic or Negative with L5"
YEAR_CHOICES = (
    (b"Basic",), (b"Proleptic",), (b"Negative",), (b"L5",),
    (b"Basic", b"Proleptic"), (b"Proleptic", b"Basic"), (b"Negative", b"L5"), (b"L5", b"Negative"),
)

# lists that name the larger years: one, and two to six of one row, in several orders
LARGE_CHOICES = (
    (b"L6",), (b"L7",), (b"L8",), (b"L9",),
    (b"L6", b"Negative"), (b"L5", b"L9"), (b"L8", b"L7"), (b"L9", b"Negative", b"L7"), (b"L7", b"L6", b"L5", b"L8"),
    (b"L8", b"L9", b"L6", b"L5", b"Negative"), SIGNED_YEARS, SIGNED_YEARS[::-1],
)

# a year of each setting; the larger ones are whole periods of 400 years from 2006, common and of 52 weeks
A_YEAR = {
    b"Basic": b"2006", b"Proleptic": b"1066", b"Negative": b"-0044", b"L5": b"+12006",
    b"L6": b"+122006", b"L7": b"-1997994", b"L8": b"+12002006", b"L9": b"-123997994",
}

# years of every shape
YEAR_TEXTS = (
    b"0000", b"0001", b"0004", b"0100", b"0400", b"0999", b"1000", b"1580", b"1581", b"1582", b"1583", b"1999",
    b"2000", b"2006", b"2010", b"2011", b"9998", b"9999",
    b"-0000", b"-0001", b"-0004", b"-0100", b"-0400", b"-2006", b"-9999",
    b"+10000", b"-10000", b"+10001", b"-10001", b"+12000", b"-12000", b"+12001", b"-12001", b"+99999", b"-99999",
    b"+02006", b"-02006", b"+00000", b"-00000", b"+2006", b"+0000", b"20060", b"02006", b"206", b"+206", b"-206",
    b"6", b"-", b"+", b"--2006", b"+-2006", b"+100000", b"-100000", b"+012006", b" 2006", b"2006 ",
)

# one year of every shape, and the ends of each Year setting
YEARS_FOR_PAIRS = (
    b"0000", b"1581", b"1582", b"9999", b"-0000", b"-0001", b"-9999", b"+10000", b"-10000", b"+99999", b"-99999",
    b"+02006", b"+2006", b"20060", b"206",
)

# years on both sides of each window's ends, and of each Year setting's
YEARS_AT_WINDOWS = (
    b"1999", b"2000", b"2005", b"2010", b"2011", b"1581", b"1582", b"9999", b"+10000", b"-10000", b"-9999", b"-0001",
    b"0000", b"0001", b"-12001", b"-12000", b"+12000", b"+12001", b"+99999", b"-99999",
)

# what may stand after the year of each form, in any year
DATE_TAILS = {b"Y": b"", b"YM": b"-06", b"YMD": b"-06-13", b"YD": b"-164", b"YW": b"-W24", b"YWD": b"-W24-2"}


def date_type(date, *years):
    """A settings list of a date for each of the years."""
    return b"|".join(b"Basic=Date Date=%s Year=%s" % (date, year) for year in years)


def date_time_type(date, years, time, zone):
    """A settings list of a date with a time for each of the years."""
    settings = b"Basic=Date-Time Date=%s Year=%s Time=%s Local-or-UTC=%s"
    return b"|".join(settings % (date, year, time, zone) for year in years)


def ends_of(digits):
    """The lowest and the highest year of so many digits, of either sign."""
    lowest, highest = 10 ** (digits - 1), 10 ** digits - 1
    return [b"%+d" % year for year in (lowest, highest, -lowest, -highest)]


# the ends of five to nine digits, and years next to the first and the last of them
LARGE_ENDS = [text for digits in range(5, 10) for text in ends_of(digits)]
PAST_ENDS = (b"9999", b"-9999", b"-0001", b"+1000000000", b"-1000000000")

# a Year setting and a year of it, for the ends of the fields behind: leap or not, and with 52 or 53 weeks
YEARS_OF_BOUNDARIES = (
    (b"L6", b"-100000"), (b"L7", b"+1000020"), (b"L8", b"-99999999"), (b"L9", b"+999999999"), (b"L9", b"-999999980"),
)

# years on both sides of the windows' ends, and at those of nine digits
LARGE_YEARS_AT_WINDOWS = (
    b"+12000", b"-12001", b"+100000", b"-100000", b"+999999999", b"-999999999", b"-9999", b"+1000000000",
)

# what is no number of digits, or has another octet among them
NO_YEARS = (
    b"++123456", b"+-123456", b"123456+", b"+123456 ", b" +123456", b"+ 123456", b"+123 456", b"+123,456", b"+1234.56",
    b"+12345\xb2", b"+123456\x00", b"+0x12345", b"+1e8", b"\xe2\x88\x92123456", b"+123456789-", b"+123456789+",
)


def large_dates():
    """Each form of a date with each choice of larger years: a year alone of each setting, before other fields of some."""
    for k, (date, years) in enumerate(itertools.product(DATES, LARGE_CHOICES)):
        settings = ALL_YEARS if date == b"Y" else (years[0], years[-1], ALL_YEARS[k % 8])
        for setting in dict.fromkeys(settings):
            yield date_type(date, *years), A_YEAR[setting] + DATE_TAILS[date]


def year_ends():
    """The ends of five to nine digits: alone under each setting and under six lists, before other fields under their own
    setting and under that next to it."""
    for years, text in itertools.product([*((year,) for year in ALL_YEARS), SIGNED_YEARS], (*LARGE_ENDS, *PAST_ENDS)):
        yield date_type(b"Y", *years), text
    for date, digits in itertools.product(DATES[1:], range(5, 10)):
        for k, text in enumerate(ends_of(digits)):
            for place in (digits - 4, digits - 3 if k % 2 else digits - 5):
                yield date_type(date, SIGNED_YEARS[place % 6]), text + DATE_TAILS[date]


def year_shapes():
    """Up to twelve digits after a sign, beginning with 0 or not, or all 0; some without a sign; and no years."""
    shapes = itertools.product((b"+", b"-"), range(13), (b"0", b"1"))
    texts = [sign + (first + b"23456789012")[:count] for sign, count, first in shapes]
    texts += [sign + b"0" * count for sign, count in itertools.product((b"+", b"-"), range(5, 11))]
    texts += [b"123456789012"[:count] for count in range(5, 11)]
    for years, text in itertools.product(((b"Basic",), (b"L6",), (b"L9",), SIGNED_YEARS), (*texts, *NO_YEARS)):
        yield date_type(b"Y", *years), text
    for k, text in enumerate(texts):
        date, years = ((b"YMD", (b"L6",)), (b"YW", SIGNED_YEARS))[k % 2]
        yield date_type(date, *years), text + DATE_TAILS[date]


def leap_days_and_weeks():
    """The day and the week that not every year has, in years at both ends of six to nine digits, of either sign."""
    for digits, sign in itertools.product(range(6, 10), (b"+", b"-")):
        lowest, highest = 10 ** (digits - 1), 10 ** digits - 1
        for year in (*range(lowest, lowest + 8), *range(highest - 7, highest + 1)):
            for date, end in ((b"YMD", b"-02-29"), (b"YD", b"-366"), (b"YW", b"-W53")):
                yield date_type(date, b"L%d" % digits), sign + b"%d" % year + end


def some_leap_days_and_weeks():
    """The same in two years for each length and sign, of which one has the day or the week: the lowest and the next, and years
    that are whole periods of 400 from 2020 and 2021."""
    for digits, (sign, weeks) in itertools.product(range(6, 10), ((b"+", (20, 21)), (b"-", (380, 379)))):
        for date, end, years in ((b"YMD", b"-02-29", (0, 1)), (b"YD", b"-366", (0, 1)), (b"YW", b"-W53", weeks)):
            for year in years:
                yield date_type(date, b"L%d" % digits), sign + b"%d" % (10 ** (digits - 1) + year) + end


def choices_of_years():
    """Year settings of lists: any two, many three, choices of three and more, six in many orders, and some twice or beside
    all six."""
    yield from itertools.product(ALL_YEARS, repeat=2)
    yield from itertools.islice(itertools.product(ALL_YEARS, repeat=3), 0, None, 5)
    choices = (itertools.combinations(ALL_YEARS, count) for count in range(3, 9))
    yield from itertools.islice(itertools.chain.from_iterable(choices), 0, None, 2)
    yield from itertools.islice(itertools.permutations(SIGNED_YEARS), 0, None, 31)
    for place, other in itertools.product(range(6), SIGNED_YEARS):
        yield SIGNED_YEARS[:place] + (other,) + SIGNED_YEARS[place + 1:]
    for other in ALL_YEARS:
        yield from ((*SIGNED_YEARS, other), (other, *SIGNED_YEARS[::-1]))


def year_lists():
    """Lists that differ only in Year, of one row or of two, or equal, with a year of the last one."""
    for k, years in enumerate(choices_of_years()):
        date = DATES[k % 6]
        yield date_type(date, *years), A_YEAR[years[-1]] + DATE_TAILS[date]


# years of each setting of one row, of many lengths of a free integer, for other types to read
YEARS_FOR_OTHERS = (
    b"-0001", b"-9999", b"+32768", b"-99999", b"+100000", b"-999999", b"+8388607", b"-8388609", b"+10000000", b"-99999999",
    b"+100000000", b"-999999999",
)

# whose lists hold some of them: each setting alone, and some together
READERS = [(year,) for year in SIGNED_YEARS] + [*LARGE_CHOICES[4:10], YEAR_CHOICES[6]]


def years_for_others():
    """Each form of a date with each of these years: the type that writes it, the text, and types to read it: of the same row,
    all of them for years alone and four for others, and one of another row."""
    for k, (date, year) in enumerate(itertools.product(DATES, YEARS_FOR_OTHERS)):
        readers = READERS if date == b"Y" else [READERS[(k + 3 * step) % len(READERS)] for step in range(4)]
        others = [date_type(date, *years) for years in (*readers, YEAR_CHOICES[(0, 1, 4)[k % 3]])]
        yield date_type(date, *SIGNED_YEARS), year + DATE_TAILS[date], others


# lists of other rows, and what is no list
OTHER_ROWS = (
    date_type(b"Y", b"L6"), date_type(b"Y", b"Basic"), date_type(b"YM", b"L6"), b"Basic=Time Time=HMS Local-or-UTC=L",
    date_time_type(b"Y", (b"L6",), b"H", b"Z"), b"Basic=Interval Interval-type=D",
)
NO_LISTS = (
    b"", b" ", b"DATE", date_type(b"Y", b"L10"), date_type(b"Y", b"L4"), b"Basic=Date Date=Y", b"Date=Y Year=L6",
    date_type(b"Y", b"L6") + b" ", b" " + date_type(b"Y", b"L7"),
)


def other_lists():
    """Lists of other rows beside each other, all different or two of them equal, up to seven; and beside what is no list."""
    six = date_type(b"Y", *SIGNED_YEARS)
    for first, second in itertools.permutations(OTHER_ROWS, 2):
        yield from (b"|".join((first, second, second)), b"|".join((second, first, second)))
    yield from map(b"|".join, itertools.islice(itertools.permutations(OTHER_ROWS, 3), 0, None, 7))
    yield from map(b"|".join, (OTHER_ROWS, OTHER_ROWS[::-1], OTHER_ROWS[:5], OTHER_ROWS + (date_type(b"YD", b"L7"),)))
    for other in NO_LISTS:
        yield from (b"|".join((date_type(b"Y", b"L6", b"L7"), other)), b"|".join((other, date_type(b"YW", b"L9"))))
        yield from (b"|".join((OTHER_ROWS[0], other, OTHER_ROWS[3])), b"|".join((six, other)))
    for other in OTHER_ROWS:
        yield from (b"|".join((six, other)), b"|".join((other, six)))


def limited_lists():
    """Lists for limits that have no place in one of them, beside lists of one row, of another, and equal ones."""
    y6, basic, _, times, both, duration = OTHER_ROWS
    y7, both_l9 = date_type(b"Y", b"L7"), date_time_type(b"Y", (b"L9",), b"H", b"Z")
    yield from map(b"|".join, (
        (y6, y7), (y6, basic), (y6, y7, times), (times, y6, y7), (y6, times, y7), (both, both_l9), (both, both_l9, y6),
        (both, times), (times, both, both_l9), (y6, duration), (both, duration, times), (y6, basic, y6),
    ))
    yield date_type(b"Y", *SIGNED_YEARS)
    yield date_time_type(b"YW", SIGNED_YEARS, b"HM", b"L")
