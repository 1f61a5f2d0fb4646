"""Test lines on types and texts, and the replies that document 01 settles.

`LIMITS;TYPE;TEXT` asks for the number of "The seven numbers" and, after 0, the canonical text. LIMITS is one octet of
the menu below; TYPE ends at the second semicolon. `=;TYPE;TYPE` asks whether two types "select the same rows", and for
their numbers of fraction digits; `=AB;TYPE;TYPE` asks it of types with limits, where A and B are octets of the menu, for
the first and for the second type. Any other line has the reply `?`.
"""

import itertools
import sys

import duration_texts
import year_texts
from duration_texts import LIST, OTHER_LIST
from settings import Limits, NO_LIMITS, fraction_digits, is_refused, read_type, same_rows
from texts import LAST_MINUTE, MINUTES_OF_A_DAY, judge
from year_texts import ALL_YEARS, A_YEAR, DATES, DATE_TAILS, LARGE_CHOICES, SIGNED_YEARS, YEARS, YEARS_AT_WINDOWS
from year_texts import YEARS_FOR_PAIRS, YEAR_CHOICES, YEAR_TEXTS, date_time_type, date_type

MENU = {
    b"0": NO_LIMITS,
    b"1": Limits((2000, 2010), False),
    b"2": Limits((1582, 9999), False),
    b"3": Limits((-9999, -1), False),
    b"4": Limits((2010, 2000), False),
    b"5": Limits((-2147483648, 2147483647), False),
    b"6": Limits((0, 0), False),
    b"7": Limits((-12000, 12000), False),
    b"8": Limits(None, True),
    b"9": Limits((2000, 2010), True),
}

WINDOWS = (b"1", b"2", b"3", b"4", b"5", b"6", b"7")

# "Base settings"; those of dates are in year_texts.py
WHOLE_TIMES = (b"H", b"HM", b"HMS")
TIMES = WHOLE_TIMES + tuple(b"%sF%d" % (time, n) for time in WHOLE_TIMES for n in range(1, 10))
ZONES = (b"L", b"Z", b"LD")
NAMES = (b"DATE", b"TIME-OF-DAY", b"DATE-TIME")

# differences ahead and behind, at their ends and inside, for second 60
DIFFERENCES_AT_SECOND_60 = (
    b"+00", b"+00:01", b"+01:00", b"+05:30", b"+12", b"+15:59", b"-01", b"-01:01", b"-05:30", b"-12:00", b"-15:59",
)

# octets that take another's place, or stand between two
TEXT_OCTETS = [bytes([octet]) for octet in b"01259-+:.,/TZW \x00\x80\xFF"]
TYPE_OCTETS = [bytes([octet]) for octet in b"059=| -DTYMHLZa\x00\xFF"]


def line(limits, type_text, text):
    """One line of the input, without its newline."""
    return limits + b";" + type_text + b";" + text


def time_type(time, zone):
    """One settings list of a time."""
    return b"Basic=Time Time=%s Local-or-UTC=%s" % (time, zone)


def time_text(time, fields, fraction=b"", zone=b"", mark=b"."):
    """As many fields as the Time setting has, the first n digits of the fraction, and the zone as given."""
    whole, _, n = time.partition(b"F")
    text = b":".join(fields[:len(whole)])
    if n:
        text += mark + (fraction * 9)[:int(n)]
    return text + zone


def zone_texts(zone):
    """Some texts of a zone: "nothing (L), `Z`, or a sign" with a difference."""
    return {b"L": (b"",), b"Z": (b"Z",), b"LD": (b"+00", b"-05:30", b"+01:00", b"+15:59")}[zone]


def difference_in_minutes(zone_text):
    """The minutes that local time is ahead, of a difference's text; 0 for the text of another zone."""
    if zone_text in (b"", b"Z"):
        return 0
    hours, _, minutes = zone_text[1:].partition(b":")
    return int(zone_text[:1] + b"1") * (60 * int(hours) + int(minutes or b"0"))


def second_60_of(minute):
    """The fields of second 60 in a minute of the day, counted around it."""
    return b"%02d" % (minute % MINUTES_OF_A_DAY // 60), b"%02d" % (minute % 60), b"60"


def last_fields(time, zone_text):
    """The highest fields of a time: 23:59, or with seconds second 60 in the minute in which UTC has 23:59."""
    if b"S" not in time:
        return b"23", b"59"
    return second_60_of(LAST_MINUTE + difference_in_minutes(zone_text))


def good_dates():
    """Each form of a date with each Year setting and each pair of lists."""
    for date, years in itertools.product(DATES, YEAR_CHOICES):
        for setting in YEARS:
            yield line(b"0", date_type(date, *years), A_YEAR[setting] + DATE_TAILS[date])


def good_times():
    """Each form of a time, n from 1 to 9 included, with both marks of the fraction."""
    for time, zone in itertools.product(TIMES, ZONES):
        type_text = time_type(time, zone)
        for zone_text in zone_texts(zone):
            yield line(b"0", type_text, time_text(time, (b"15", b"27", b"46"), b"123456789", zone_text))
        yield line(b"0", type_text, time_text(time, (b"00", b"00", b"00"), b"0", zone_texts(zone)[0], b","))
        last = zone_texts(zone)[-1]
        yield line(b"0", type_text, time_text(time, last_fields(time, last), b"9", last, b","))
        yield line(b"0", type_text, time_text(time, (b"24", b"00", b"00"), b"0", last))


def some_date_times():
    """Each date form and choice of years with five of the times, and so every time with some date."""
    times = list(itertools.product(TIMES, ZONES))
    for k, (date, years) in enumerate(itertools.product(DATES, YEAR_CHOICES)):
        for step in range(5):
            yield (date, years) + times[(k + 19 * step) % len(times)]


def date_time_lines(date, years, time, zone):
    """Two date-times of a type: "A date-time has `T` between"."""
    type_text = date_time_type(date, years, time, zone)
    for setting, fields, fraction, mark in (
        (years[0], (b"15", b"27", b"46"), b"502", b","),
        (years[-1], (b"24", b"00", b"00"), b"0", b"."),
    ):
        date_text = A_YEAR[setting] + DATE_TAILS[date]
        yield line(b"0", type_text, date_text + b"T" + time_text(time, fields, fraction, zone_texts(zone)[-1], mark))


def good_date_times():
    """Many date-times."""
    for some in some_date_times():
        yield from date_time_lines(*some)


def some_large_date_times():
    """Each date form and choice of larger years with one of the times."""
    times = list(itertools.product(TIMES, ZONES))
    for k, (date, years) in enumerate(itertools.product(DATES, LARGE_CHOICES)):
        yield (date, years) + times[31 * k % len(times)]


def large_date_times():
    """Date-times with years of up to nine digits."""
    for some in some_large_date_times():
        yield from date_time_lines(*some)


def checked_values():
    """The texts of "Checked values"."""
    for type_text, texts in (
        (b"DATE", (b"2006-06-13", b"2004-02-29", b"2021-01-01", b"2276-12-31", b"1748-12-31", b"1581-12-31")),
        (b"DATE", (b"2006-02-29", b"1500-02-30", b"")),
        (b"TIME-OF-DAY", (b"24:00:00", b"23:59:60", b"24:00:01")),
        (b"DATE-TIME", (b"2006-06-13T15:27:46", b"2006-06-13T24:00:00", b"2006-06-13T24:00:01")),
        (time_type(b"HMSF3", b"L"), (b"15:27:46.500", b"15:27:46.5")),
        (date_type(b"YW", b"Basic"), (b"2020-W53", b"2021-W53")),
        (date_type(b"Y", b"Proleptic"), (b"0000",)),
        (date_type(b"Y", b"Negative"), (b"-0128", b"-0129")),
        (date_type(b"Y", b"L5"), (b"+32767", b"+32768")),
        (time_type(b"HMSF4", b"L"), (b"15:27:46.0999", b"15:27:46.1000")),
    ):
        for text in texts:
            yield line(b"0", type_text, text)


def date_boundaries():
    """Month, day, ordinal day, week and weekday below, at and above their ends, in years of every kind."""
    years = (
        (b"Basic", b"2000"), (b"Basic", b"2004"), (b"Basic", b"2006"), (b"Basic", b"1900"), (b"Basic", b"2020"),
        (b"Basic", b"2009"), (b"Basic", b"2015"), (b"Basic", b"9999"), (b"Proleptic", b"0000"), (b"Proleptic", b"0001"),
        (b"Proleptic", b"0004"), (b"Negative", b"-0001"), (b"Negative", b"-0004"), (b"Negative", b"-0100"),
        (b"Negative", b"-0400"), (b"Negative", b"-9999"), (b"L5", b"+10000"), (b"L5", b"+99996"), (b"L5", b"-10000"),
        (b"L5", b"-99999"), (b"Basic", b"1500"), (b"Negative", b"2006"),
    )
    for setting, year in years + year_texts.YEARS_OF_BOUNDARIES:
        for month in (b"00", b"01", b"12", b"13", b"99"):
            yield line(b"0", date_type(b"YM", setting), year + b"-" + month)
        for day in (b"-00-01", b"-13-01", b"-02-00", b"-02-01", b"-02-28", b"-02-29", b"-02-30", b"-12-31", b"-12-32"):
            yield line(b"0", date_type(b"YMD", setting), year + day)
        for day in (b"000", b"001", b"365", b"366", b"367", b"999"):
            yield line(b"0", date_type(b"YD", setting), year + b"-" + day)
        for week in (b"00", b"01", b"52", b"53", b"54", b"99"):
            yield line(b"0", date_type(b"YW", setting), year + b"-W" + week)
        for week in (b"00-1", b"01-0", b"01-1", b"52-7", b"52-8", b"53-1", b"53-7", b"53-8", b"54-1"):
            yield line(b"0", date_type(b"YWD", setting), year + b"-W" + week)


def month_boundaries():
    """The last days of every month of a common and of a leap year."""
    for year, month, day in itertools.product((2006, 2008), range(14), (0, 1, 28, 29, 30, 31, 32, 99)):
        yield line(b"0", b"DATE", b"%04d-%02d-%02d" % (year, month, day))


def week_boundaries():
    """Week 53 and ordinal day 366 of years far and near: a quotient must not be "cut toward zero"."""
    years = [(b"Proleptic", b"%04d" % year) for year in range(30)]
    years += [(b"Basic", b"%04d" % year) for year in range(1996, 2030)]
    years += [(b"Negative", b"-%04d" % year) for year in range(1, 60)]
    years += [(b"L5", b"%+d" % year) for year in (*range(-99999, -99984), *range(-10014, -9999), *range(10000, 10015))]
    for setting, year in years:
        yield line(b"0", date_type(b"YW", setting), year + b"-W53")
        yield line(b"0", date_type(b"YD", setting), year + b"-366")


def time_boundaries():
    """Hours, minutes, seconds and fraction below, at and above their ends, and hour 24 with a smaller field not 0."""
    hours = (b"00", b"23", b"24", b"25", b"99")
    minutes = (b"00", b"01", b"59", b"60", b"99")
    seconds = (b"00", b"01", b"59", b"60", b"61", b"99")
    for limits, hour in itertools.product((b"0", b"8"), hours):
        yield line(limits, time_type(b"H", b"L"), hour)
        yield line(limits, time_type(b"HF1", b"Z"), hour + b".0Z")
        yield line(limits, time_type(b"HF1", b"Z"), hour + b",1Z")
        yield line(limits, time_type(b"HF9", b"LD"), hour + b".000000001+01")
        for minute in minutes:
            yield line(limits, time_type(b"HM", b"L"), hour + b":" + minute)
            yield line(limits, time_type(b"HMF2", b"L"), hour + b":" + minute + b".00")
            yield line(limits, time_type(b"HMF2", b"LD"), hour + b":" + minute + b",01-01")
    for hour, minute, second in itertools.product(hours, minutes, seconds):
        yield line(b"0", b"TIME-OF-DAY", hour + b":" + minute + b":" + second)
        if hour in (b"23", b"24"):
            yield line(b"8", time_type(b"HMSF3", b"Z"), hour + b":" + minute + b":" + second + b".000Z")
            yield line(b"0", time_type(b"HMSF3", b"Z"), hour + b":" + minute + b":" + second + b".001Z")
            yield line(b"0", b"DATE-TIME", b"2006-06-13T" + hour + b":" + minute + b":" + second)


def fractions_at_hour_24():
    """"at 24 all smaller fields and the fraction are 0", for every n and every place of the digit that is not 0."""
    for time in TIMES:
        _, _, n = time.partition(b"F")
        for place in range(int(n or b"0")):
            fraction = b"0" * place + b"1" + b"0" * 9
            yield line(b"0", time_type(time, b"L"), time_text(time, (b"24", b"00", b"00"), fraction))


def differences():
    """Signs, hours and minutes of differences, with hours and minutes that don't exist and with wrong shapes."""
    types = (
        (time_type(b"H", b"LD"), b"15"),
        (time_type(b"HMSF1", b"LD"), b"15:27:46.5"),
        (date_time_type(b"YMD", (b"Basic",), b"HM", b"LD"), b"2006-06-13T24:00"),
    )
    hours = (b"00", b"01", b"09", b"14", b"15", b"16", b"24", b"99")
    minutes = (b"", b":00", b":01", b":30", b":59", b":60", b":99")
    for (type_text, start), sign, hour, minute in itertools.product(types, (b"+", b"-"), hours, minutes):
        yield line(b"0", type_text, start + sign + hour + minute)
    wrong = (
        b"", b"Z", b"+", b"-", b"+1", b"+001", b"+0100", b"+01:", b"+01:0", b"+01:000", b"+01:00:00", b"+01.00", b"+01 ",
        b" +01", b"+ 01", b"++01", b"+-01", b"+01Z", b"Z+01", b"01", b"01:00", b":00", b"+1:00", b"+01-00", b"+01,00",
        b"\xb101", b"\xe2\x88\x9201", b"+01:-1",
    )
    for (type_text, start), zone in itertools.product(types, wrong):
        yield line(b"0", type_text, start + zone)


def examples_of_second_60():
    """Second 60 "as in `05:29:60+05:30`", with Z and with differences, where #102 accepts it and where it doesn't."""
    for zone, texts in (
        (b"Z", (b"23:59:60Z", b"12:34:60Z", b"23:58:60Z", b"12:34:59Z")),
        (b"LD", (b"05:29:60+05:30", b"05:30:60+05:30", b"23:59:60+00", b"00:59:60+01", b"15:58:60+15:59", b"23:59:60-00")),
        (b"LD", (b"18:59:60-05", b"23:59:60-05", b"08:00:60-15:59", b"12:34:59-05")),
        (b"L", (b"12:34:60", b"23:59:60")),
    ):
        yield from (line(b"0", time_type(b"HMS", zone), text) for text in texts)
    yield from (line(b"0", b"TIME-OF-DAY", text) for text in (b"12:34:60", b"05:29:60"))
    yield line(b"0", b"DATE-TIME", b"2006-06-13T12:34:60")


def minutes_at_second_60(difference):
    """Minutes of the day: the one in which UTC has 23:59, those next to it and an hour off, 23:59 and the one before; and
    those that the other sign would give, of the difference or of its minutes, and the difference without these."""
    ahead = difference_in_minutes(difference)
    hours = ahead - int(difference[:1] + b"1") * (abs(ahead) % 60)
    offs = (ahead, ahead - 1, ahead + 1, ahead - 60, ahead + 60, 0, -1, -ahead, hours, 2 * hours - ahead)
    return sorted({(LAST_MINUTE + off) % MINUTES_OF_A_DAY for off in offs})


def minutes_of_second_60():
    """"only where local time less the difference, around the day, is 23:59": second 60 in many minutes, and one of them
    with the seconds beside it."""
    minutes = (0, 1, 59, 719, 754, 1379, 1380, 1438, 1439)
    questions = [(b"LD", difference, minutes_at_second_60(difference)) for difference in DIFFERENCES_AT_SECOND_60]
    for zone, zone_text, some in [*questions, (b"Z", b"Z", minutes), (b"L", b"", minutes)]:
        clocks = [second_60_of(minute) for minute in some]
        clocks += [(*clocks[1][:2], second) for second in (b"59", b"61")]
        for clock in clocks:
            yield line(b"0", time_type(b"HMS", zone), time_text(b"HMS", clock, zone=zone_text))


def forms_of_second_60():
    """Second 60 with a fraction and after a date, where #102 accepts it and at 12:34; "for a local time without one we
    can't know and keep accepting it"."""
    times = itertools.product((b"HMS", b"HMSF1", b"HMSF4", b"HMSF9"), (b"Z", b"+05:30", b"-05:00", b""))
    for k, (time, zone_text) in enumerate(times):
        zone = {b"": b"L", b"Z": b"Z"}.get(zone_text, b"LD")
        date, years = DATES[k % 6], YEAR_CHOICES[5 * k % 8]
        for fields in (last_fields(time, zone_text), (b"12", b"34", b"60")):
            clock = time_text(time, fields, (b"0", b"987")[k % 2], zone_text, (b".", b",")[k // 2 % 2])
            yield line(b"0", time_type(time, zone), clock)
            yield line(b"0", date_time_type(date, years, time, zone), A_YEAR[years[0]] + DATE_TAILS[date] + b"T" + clock)


def causes_at_second_60():
    """Second 60 where it can't be, beside a year or an hour that the type doesn't hold, a date or a difference that there
    isn't, and a zone of another form: "When several hold, the lowest number is given"."""
    dates = ((b"0", b"2006-06-13"), (b"0", b"1066-10-14"), (b"0", b"2006-02-29"), (b"9", b"2006-06-13"),
             (b"9", b"1999-12-31"))
    for zone, ends in ((b"Z", (b"23:59:60Z", b"12:34:60Z", b"24:00:60Z", b"12:34:60")),
                       (b"LD", (b"05:29:60+05:30", b"23:59:60+05:30", b"23:59:60-00", b"15:59:60+16", b"23:59:60Z"))):
        type_text = date_time_type(b"YMD", (b"Basic",), b"HMS", zone)
        for (limits, date), end in itertools.product(dates, ends):
            yield line(limits, type_text, date + b"T" + end)
        yield from (line(b"8", time_type(b"HMS", zone), end) for end in ends)


def second_60():
    """All of these: "Second 60 only where it can be"."""
    yield from examples_of_second_60()
    yield from minutes_of_second_60()
    yield from forms_of_second_60()
    yield from causes_at_second_60()


def year_shapes():
    """Years of every shape under every Year setting and every pair of lists, for every form."""
    for years, year in itertools.product(YEAR_CHOICES, YEAR_TEXTS):
        yield line(b"0", date_type(b"Y", *years), year)
    for years, year in itertools.product(itertools.product(YEARS, YEARS), YEARS_FOR_PAIRS):
        yield line(b"0", date_type(b"Y", *years), year)
    for date, years, year in itertools.product(DATES[1:], (YEAR_CHOICES[0], YEAR_CHOICES[7]), YEAR_TEXTS):
        yield line(b"0", date_type(date, *years), year + DATE_TAILS[date])
    for years, year in itertools.product((YEAR_CHOICES[2], YEAR_CHOICES[4]), YEAR_TEXTS):
        yield line(b"0", date_time_type(b"Y", years, b"H", b"Z"), year + b"T15Z")


def years_in_windows():
    """Years on both sides of each window's ends, under one list and under two."""
    for limits, years, year in itertools.product(WINDOWS, YEAR_CHOICES[:5] + YEAR_CHOICES[7:], YEARS_AT_WINDOWS):
        yield line(limits, date_type(b"Y", *years), year)
    for limits, year in itertools.product(WINDOWS, YEARS_AT_WINDOWS):
        yield line(limits, b"DATE", year + b"-02-28")


def large_years_in_windows():
    """Years of up to nine digits on both sides of each window's ends, and at their own."""
    choices = ((b"L9",), (b"L6", b"Negative"), SIGNED_YEARS)
    for limits, years, year in itertools.product(WINDOWS, choices, year_texts.LARGE_YEARS_AT_WINDOWS):
        yield line(limits, date_type(b"Y", *years), year)


def forms():
    """A type and a text of it, for many forms."""
    for date in DATES:
        yield date_type(date, b"Basic"), b"2006" + DATE_TAILS[date]
    for time, zone in itertools.product((b"H", b"HM", b"HMS", b"HF2", b"HMF2", b"HMSF2"), ZONES):
        yield time_type(time, zone), time_text(time, (b"15", b"12", b"13"), b"24", zone_texts(zone)[-1])
    yield time_type(b"HMSF3", b"L"), b"15:12:13.240"
    for date, time, zone in ((b"Y", b"H", b"L"), (b"YM", b"H", b"LD"), (b"YMD", b"HMS", b"L"), (b"YD", b"HM", b"Z"),
                             (b"YW", b"HF2", b"LD"), (b"YWD", b"HMSF2", b"Z")):
        text = b"2006" + DATE_TAILS[date] + b"T" + time_text(time, (b"15", b"12", b"13"), b"24", zone_texts(zone)[-1])
        yield date_time_type(date, (b"Basic",), time, zone), text
    yield date_type(b"Y", b"L5"), b"+12006"
    yield date_type(b"YM", b"Negative", b"L5"), b"-2006-12"
    yield date_type(b"Y", b"L9"), b"+123456789"
    yield date_type(b"YM", b"L6", b"Negative"), b"-123456-12"
    yield date_time_type(b"YMD", (b"L8",), b"HMS", b"Z"), b"+12345678-12-13T15:12:13Z"


def cross_table():
    """Every text of each form read at every other form, and every number of fraction digits at every n."""
    for (type_text, _), (_, text) in itertools.product(forms(), forms()):
        yield line(b"0", type_text, text)
    for n, digits in itertools.product(range(1, 10), range(11)):
        yield line(b"0", time_type(b"HMF%d" % n, b"L"), b"15:27." + b"0123456789"[:digits])


def deletions(octets):
    """Every deletion of one octet."""
    for place in range(len(octets)):
        yield octets[:place] + octets[place + 1:]


def replacements(octets, others):
    """Every replacement of one octet, by the others and by itself with its third or first bit turned."""
    for place in range(len(octets)):
        turned = [bytes([octets[place] ^ 0x20]), bytes([octets[place] ^ 0x80])]
        for other in others + turned:
            yield octets[:place] + other + octets[place + 1:]


def insertions(octets, others):
    """Every insertion of one octet."""
    for place, other in itertools.product(range(len(octets) + 1), others):
        yield octets[:place] + other + octets[place:]


def changed_texts():
    """Texts with one octet less, another or more."""
    ld, z = b"LD", b"Z"
    texts = (
        (date_type(b"Y", b"L5", b"Negative"), b"-12345"),
        (date_type(b"Y", b"Negative"), b"-0010"),
        (date_type(b"YM", b"Basic"), b"2006-10"),
        (date_type(b"YM", b"Negative", b"L5"), b"+12006-11"),
        (b"DATE", b"2006-10-29"),
        (date_type(b"YD", b"Basic", b"Proleptic"), b"1600-359"),
        (date_type(b"YW", b"Basic"), b"2020-W49"),
        (date_type(b"YWD", b"Basic"), b"2026-W52-1"),
        (b"TIME-OF-DAY", b"23:59:59"),
        (time_type(b"H", ld), b"24+10"),
        (time_type(b"HF2", z), b"24,00Z"),
        (time_type(b"HM", ld), b"19:50-10:50"),
        (time_type(b"HMSF3", b"L"), b"12:05:59.102"),
        (date_time_type(b"YM", (b"Basic",), b"HF1", ld), b"2006-12T05.9-15:59"),
        (date_time_type(b"YD", (b"L5",), b"HMF1", z), b"-10000-366T24:00.0Z"),
        (date_type(b"YW", *SIGNED_YEARS), b"-999999999-W01"),
    )
    for type_text, text in texts:
        for changed in itertools.chain([text], deletions(text), replacements(text, TEXT_OCTETS)):
            yield line(b"0", type_text, changed)
    inserted = [bytes([octet]) for octet in b"0-+:TZ\x00"]
    for type_text, text in texts[2:3] + texts[4:5] + texts[9:10] + texts[13:]:
        for changed in insertions(text, inserted):
            yield line(b"0", type_text, changed)


def changed_types():
    """Type texts with one octet less, another or more."""
    types = (
        (b"DATE", b"2006-06-13"),
        (b"TIME-OF-DAY", b"15:27:46"),
        (b"DATE-TIME", b"2006-06-13T15:27:46"),
        (date_type(b"Y", b"L5"), b"+12006"),
        (b"Year=Basic Date=YD Basic=Date", b"2006-164"),
        (time_type(b"HM", b"Z"), b"15:27Z"),
        (b"Local-or-UTC=LD Time=HF1 Basic=Time", b"15.5+01:00"),
        (date_type(b"Y", b"Basic", b"Proleptic"), b"1066"),
    )
    for type_text, text in types:
        for changed in itertools.chain([type_text], deletions(type_text), replacements(type_text, TYPE_OCTETS)):
            yield line(b"0", changed, text)
    inserted = [bytes([octet]) for octet in b" |=1DM"]
    for type_text, text in types[:2] + types[4:5] + types[7:]:
        for changed in insertions(type_text, inserted):
            yield line(b"0", changed, text)


def changed_years():
    """A Year setting with one octet less, another or more, in the first of two lists and in the last of three."""
    others = [bytes([octet]) for octet in b"05679=| L"]
    changed = itertools.chain(deletions(b"Year=L9"), replacements(b"Year=L9", others), insertions(b"Year=L9", others))
    for k, pair in enumerate(changed):
        lists = [b"Basic=Date Date=Y " + pair, date_type(b"Y", b"L6")]
        yield line(b"0", b"|".join(lists if k % 2 else [lists[1], date_type(b"Y", b"L7"), lists[0]]), b"+123456789")


def every_octet():
    """Every octet but the newline in the place of a digit, of a separator and of the space, after L, and as LIMITS."""
    for octet in (bytes([number]) for number in range(256) if number != 0x0A):
        yield line(b"0", b"Basic=Date Date=Y Year=L" + octet, b"+123456")
        yield line(b"0", date_type(b"Y", b"Basic"), b"200" + octet)
        yield line(b"0", time_type(b"HF1", b"L"), b"15" + octet + b"5")
        yield line(b"0", b"Basic=Date" + octet + b"Date=Y Year=Basic", b"2006")
        yield line(octet, b"DATE", b"2006-06-13")


def long_texts():
    """Texts of length 0 and of 266 to 5,000 octets."""
    for type_text, _ in forms():
        yield line(b"0", type_text, b"")
    for type_text in NAMES + (date_type(b"Y", b"L5"), time_type(b"HMSF9", b"LD"), b"DATE|DATE"):
        for text in (b"0" * 1000, b"2006-06-13" * 100, b" " * 5000, b"\x00" * 1024, b"\xff" * 1500):
            yield line(b"0", type_text, text)
    for text in (b"2006-06-13" + b" " * 256, b"2006-06-13" * 27, b"2006-06-13" + b"0" * 4000, b"0" * 4096 + b"2006-06-13"):
        yield line(b"0", b"DATE", text)
    for text in (b"+" + b"9" * 4999, b"-" + b"0" * 4000, b"+12006" + b"\x00" * 256, b"-" * 3000, b"+1" * 1500):
        yield line(b"0", date_type(b"Y", b"L5"), text)
    for text in (b"+" + b"9" * 4800, b"-1" + b"0" * 1000, b"+123456789" + b"0" * 500, b"+123456789" * 300, b"-0" * 900):
        yield line(b"0", date_type(b"Y", *SIGNED_YEARS), text)
    for text in (b"15:27:46." + b"5" * 4990, b"15:27:46.123456789+01:" + b"00" * 1000, b"15:" * 1000, b"Z" * 2000):
        yield line(b"0", time_type(b"HMSF9", b"LD"), text)
    yield line(b"0", b"DATE-TIME", b"2006-06-13" + b"T" * 1000 + b"15:27:46")
    yield line(b"0", b"DATE-TIME", b"2006-06-13T15:27:46" * 200)


def long_types():
    """Type texts of length 0 and of 1,000 to 5,000 octets."""
    y = date_type(b"Y", b"Basic")
    both = date_type(b"Y", b"Basic", b"Proleptic")
    six = date_time_type(b"YWD", SIGNED_YEARS, b"HMSF9", b"LD")
    types = (
        b"", b"|" * 1000, b"|" * 5000, b" " * 5000, b"=" * 3000, b"\x00" * 1000, b"\xff" * 1000, b"DATE" * 1000,
        b"DATE|" * 500, b"Basic=Date " * 400, b"Basic=Date" + b" Basic=Date" * 300, y + b" Year=Basic" * 300,
        y + b" " * 2000, b" " * 2000 + y, b"Basic=Date" + b" " * 2000 + b"Date=Y Year=Basic", b"|".join([y] * 100),
        b"|".join([both] * 40), both + b"|" * 1000, b"|" * 1000 + both, y + b"|" + b" " * 1000 + y,
        b"Basic=Date Date=Y Year=L" + b"5" * 2000, b"Basic=Date Date=Y Year=" + b"Basic" * 500,
        b"Basic=Date Date=Y" + b"\x00" * 1000 + b" Year=Basic", b"Basic" * 800 + b"=Date Date=Y Year=Basic",
        b"Basic=Time Time=HMSF" + b"3" * 3000 + b" Local-or-UTC=L", b"Basic=Time Time=H Local-or-UTC=" + b"L" * 1000,
        b"Basic=Time Time=HF" + b"0" * 1000 + b"1 Local-or-UTC=L", b"Basic" + b"=" * 1000 + b"Date Date=Y Year=Basic",
        y + b" Midnight=Start" * 200, b"TIME-OF-DAY" + b"\x00" * 1000, b"DATE-TIME" + b" " * 1000,
        six, six + b"|", b"|".join([six] * 10), six + b" " * 1000, b"Basic=Date Date=Y Year=L" + b"6" * 1000,
        date_type(b"Y", *SIGNED_YEARS, *(b"L%d" % digits for digits in range(10, 100))), b"|".join([b"DATE"] * 7),
    )
    for limits, type_text in itertools.product((b"0", b"4"), types):
        yield line(limits, type_text, b"2006")


def limited_types():
    """Types for the limits: one list, two lists, names, and lists that don't make one row or are no lists."""
    ymd, proleptic = date_type(b"YMD", b"Basic"), date_type(b"YMD", b"Proleptic")
    hms, hmsz = time_type(b"HMS", b"L"), time_type(b"HMS", b"Z")
    both = date_time_type(b"YMD", (b"Basic",), b"HMS", b"L")
    return NAMES + (
        ymd, hms, hmsz, both, ymd + b"|" + proleptic, date_type(b"YMD", b"Negative", b"L5"),
        date_time_type(b"YMD", (b"Proleptic", b"Basic"), b"HMS", b"L"),
        ymd + b"|" + hms, hms + b"|" + ymd, ymd + b"|" + both, both + b"|" + ymd, hms + b"|" + both, both + b"|" + hms,
        hms + b"|" + hmsz, ymd + b"|" + date_type(b"YMD", b"L5"), both + b"|" + date_time_type(b"Y", (b"L5",), b"H", b"L"),
        ymd + b"|" + ymd, hms + b"|" + hms, both + b"|" + both, b"DATE|" + ymd, b"", b"date",
        *year_texts.limited_lists(),
    )


def limits_and_places():
    """Each limit with and without its place, on values inside and outside it."""
    texts = (
        b"2006-06-13", b"1999-12-31", b"2006-02-30", b"15:27:46", b"24:00:00", b"24:00:01",
        b"2006-06-13T15:27:46", b"2006-06-13T24:00:00", b"2011-06-13T24:00:00",
    )
    for limits in sorted(MENU):
        for type_text, text in itertools.product(limited_types()[:10], texts):
            yield line(limits, type_text, text)
        for type_text, text in itertools.product(limited_types()[10:], (b"2006-06-13", b"")):
            yield line(limits, type_text, text)


def good_lists():
    """Lists of each kind as tuples of pairs."""
    return (
        (b"Basic=Date", b"Date=YMD", b"Year=Basic"),
        (b"Basic=Time", b"Time=HMSF3", b"Local-or-UTC=LD"),
        (b"Basic=Date-Time", b"Date=YW", b"Year=Negative", b"Time=H", b"Local-or-UTC=Z"),
    )


def incomplete_types():
    """Pairs left out, repeated and added: "missing, repeated or not in the base"."""
    added = (
        b"Basic=Date", b"Basic=Time", b"Basic=Date-Time", b"Date=Y", b"Date=YMD", b"Year=Basic", b"Year=L5", b"Time=H",
        b"Time=HMSF3", b"Local-or-UTC=L", b"Local-or-UTC=Z", b"Midnight=Start", b"Midnight=End", b"Interval-type=SE",
        b"SE-point=Date", b"Recurrence=Unlimited", b"Recurrence=R1", b"Date=C", b"Year=L6", b"DATE", b"", b"=", b"Year=",
        b"=Basic", b"Year", b"Basic", b"Basic=", b"SETTINGS",
    )
    for pairs in good_lists():
        for count in range(len(pairs)):
            for some in itertools.combinations(pairs, count):
                yield b" ".join(some)
        for pair in added:
            yield b" ".join(pairs + (pair,))
            yield b" ".join((pair,) + pairs)
        for basic in (b"Date", b"Time", b"Date-Time", b"Interval", b"Rec-Interval", b"DateTime", b"Basic", b"date", b""):
            yield b" ".join((b"Basic=" + basic,) + pairs[1:])


def unknown_settings():
    """Settings that are unknown, or that X.680 has and the base hasn't."""
    for date in (b"C", b"D", b"M", b"W", b"YY", b"MD", b"WD", b"YDM", b"YMDD", b"YWM", b"ymd", b"Date", b"YMD,", b""):
        yield b"Basic=Date Date=%s Year=Basic" % date
    for year in (b"L", b"L0", b"L4", b"L10", b"L05", b"L06", b"L55", b"L66", b"L99", b"l5", b"l6", b"N5", b"L6 ", b" L6", b"6",
                 b"L 6", b"L+6", b"L-6", b"L6.", b"L6L7", b"L6,L7", b"L\xb6", b"Large", b"basic", b"Gregorian",
                 b"Basic,Proleptic", b"Basic|Proleptic", b"Basic/Proleptic", b"negative", b"Positive", b"2006", b""):
        yield b"Basic=Date Date=Y Year=%s" % year
    for time in (b"HF", b"HF0", b"HF10", b"HF01", b"HF1 ", b"HMF", b"HMF0", b"HMF10", b"HMSF", b"HMSF0", b"HMSF00",
                 b"HMSF10", b"HMSF11", b"HMSF99", b"HMSFn", b"HMSFF3", b"HMSF3F", b"HMSF-1", b"HMSF+1", b"HMSF1.0",
                 b"HMSF\xef\xbc\x93", b"HMSF\xb3", b"HSF3", b"MSF3", b"SF3", b"F3", b"HS", b"MS", b"M", b"S", b"hms", b"HMs",
                 b"HMSf3", b"HMS3", b"H3", b"HMSS", b"Z", b"L", b""):
        yield b"Basic=Time Time=%s Local-or-UTC=L" % time
    for zone in (b"D", b"ZD", b"LZ", b"LDL", b"UTC", b"Local", b"l", b"z", b"ld", b"Ld", b"L,Z", b"+01", b""):
        yield b"Basic=Time Time=HMS Local-or-UTC=%s" % zone
    for name in (b"Local", b"UTC", b"Local-or-utc", b"Local-Or-UTC", b"LocalOrUTC", b"Local or UTC", b"Local-or-UTC "):
        yield b"Basic=Time Time=HMS %s=L" % name


def other_types_of_x_680():
    """Centuries, intervals and other notations of X.680: "all their settings are refusal 1", but for durations."""
    yield from (
        b"Basic=Date Date=C Year=Basic", b"Basic=Date Date=C Year=Basic|Basic=Date Date=C Year=Proleptic",
        b"Basic=Date Date=C Year=Negative|Basic=Date Date=C Year=L5", b"Date=C Year=Basic|Date=C Year=Proleptic",
        b"Basic=Date Date=Y Year=Basic|Basic=Date Date=C Year=Basic",
        b"Basic=Date-Time Date=C Year=Basic Time=H Local-or-UTC=L",
        b"Basic=Interval Interval-type=D", b"Basic=Interval Interval-type=SE SE-point=Date",
        b"Basic=Interval Interval-type=SE SE-point=Time", b"Basic=Interval Interval-type=SE SE-point=Date-Time",
        b"Basic=Interval Interval-type=SD SE-point=Date Date=YMD Year=Basic",
        b"Basic=Interval Interval-type=DE SE-point=Time Time=HMS Local-or-UTC=L", b"Basic=Interval",
        b"Basic=Interval Date=YMD Year=Basic", b"Basic=Interval Time=HMS Local-or-UTC=L",
        b"Basic=Rec-Interval Interval-type=D", b"Basic=Rec-Interval Interval-type=SE SE-point=Date",
        b"Basic=Rec-Interval Interval-type=SD SE-point=Date-Time Recurrence=Unlimited",
        b"Basic=Rec-Interval Interval-type=DE SE-point=Time Recurrence=R3", b"Basic=Rec-interval", b"Basic=DateTime",
        b"Midnight=Start", b"Midnight=End", b"Date=Y Year=Basic|Date=Y Year=Proleptic", b"Time=HMS Local-or-UTC=L",
        b"TIME", b"DURATION", b"CENTURY", b"ANY-CENTURY", b"YEAR", b"ANY-YEAR", b"YEAR-MONTH-DAY", b"HOURS", b"MINUTES-UTC",
        b"SECONDS-AND-FRACTION", b"START-END-DATE-INTERVAL", b"GeneralizedTime", b"UTCTime",
        b'TIME(SETTINGS "Basic=Date Date=Y Year=Basic")', b'SETTINGS "Basic=Date Date=Y Year=Basic"',
        b'"Basic=Date Date=Y Year=Basic"', b"(Basic=Date Date=Y Year=Basic)",
        b'(SETTINGS "Basic=Date Date=Y Year=Basic")|(SETTINGS "Basic=Date Date=Y Year=Proleptic")',
    )


def misplaced_names():
    """Names beside bars, with pairs, in other letters and with other octets around."""
    pairs = {b"DATE": b"Year=Basic", b"TIME-OF-DAY": b"Time=HMS", b"DATE-TIME": b"Basic=Date-Time"}
    for name in NAMES:
        list_text = date_type(b"YMD", b"Proleptic")
        yield from (name + b"|", b"|" + name, name + b"|" + name, name + b" | " + name, name + b"|" + list_text)
        yield from (list_text + b"|" + name, name + b" " + pairs[name], pairs[name] + b" " + name, name + b" " + list_text)
        yield from (name.lower(), name.title(), name.swapcase(), name + b" ", b" " + name, name + b" " + name, name + name)
        yield from (name + b"\x00", name + b"\r", b"\t" + name, name[:-1], name + b"S", b"(" + name + b")")
        yield from (b"\xef\xbb\xbf" + name, b'"' + name + b'"')
        yield from (name + b"=", b"Basic=" + name, name.replace(b"-", b"_"), name.replace(b"-", b" "), name + b"||" + name)
    yield from (b"DATE|TIME-OF-DAY", b"TIME-OF-DAY|DATE-TIME", b"DATE-TIME|DATE", b"|".join(NAMES), b"TIME-OF DAY")


def misplaced_spaces():
    """Double, leading and trailing spaces, spaces next to the bar and the equals sign, other octets for spaces."""
    y, p = date_type(b"Y", b"Basic"), date_type(b"Y", b"Proleptic")
    yield from (b" " + y, y + b" ", b" " + y + b" ", y.replace(b" ", b"  "), y.replace(b" ", b"  ", 1), y.replace(b" ", b""))
    yield from (y + b" |" + p, y + b"| " + p, y + b" | " + p, b" " + y + b"|" + p, y + b"|" + p + b" ", y + b"|  " + p)
    yield from (y.replace(b"=", b" ="), y.replace(b"=", b"= "), y.replace(b"=", b" = "), y.replace(b"=", b":"))
    for other in (b"\t", b"\r", b"\x0b", b"\x0c", b"\xa0", b"\xc2\xa0", b",", b", ", b"+", b"\x00"):
        yield y.replace(b" ", other)
    yield from (y + b"\r", y + b"\t", y + b"\x00", b"\x00" + y, b" ", b"  ", b" | ", b"| ", b" |", b"\t")
    yield from (y.lower(), y.upper())


def wrong_bars():
    """Empty lists, three and more of two rows, equal lists in other order."""
    y, p, n, l5 = (date_type(b"Y", year) for year in YEARS)
    yield from (b"|", b"||", b"|||", y + b"|", b"|" + y, y + b"||", y + b"||" + p, b"|" + y + b"|" + p, y + b"|" + p + b"|")
    yield from (y + b"|" + p + b"|" + n, y + b"|" + p + b"|" + l5, y + b"|" + y + b"|" + y, y + b"|" + p + b"|" + y)
    yield from (y + b"|" + n + b"|" + p, n + b"|" + l5 + b"|" + n, b"|".join((y, p, n, l5)), b"|".join((y, n, p, l5, y)))
    yield from (y + other + p for other in (b"&", b"/", b"^", b"!", b"\xa6", b"UNION", b" UNION ", b" ", b""))
    for pairs in good_lists():
        first = b" ".join(pairs)
        for order in itertools.islice(itertools.permutations(pairs), 0, None, 1 if len(pairs) == 3 else 11):
            yield first + b"|" + b" ".join(order)


def ones_before_twos():
    """Lists of other rows of which one or both are refused by themselves: "the lowest number is given"."""
    y, hms = date_type(b"Y", b"Basic"), time_type(b"HMS", b"L")
    refused = (
        b"", b" ", b"Basic=Date Date=YM", b"Date=YM Year=L5", b"Basic=Date Date=YM Year=L10", b"Basic=Date Date=C Year=Basic",
        b"Basic=Time Time=HMS", b"Basic=Time Time=HF0 Local-or-UTC=L", b"Basic=Interval Interval-type=D", *NAMES,
        b"Basic=Date Date=YM Year=L5 Year=L5", b"Basic=Date Date=YM Year=L5 ", b" Basic=Date Date=YM Year=L5", b"Basic",
        b"Basic=Time Time=HMS Local-or-UTC=L Date=Y Year=L5", b"basic=Date Date=YM Year=L5", b"Basic=Date  Date=YM Year=L5",
        b"Basic=Date Date=YM Year=L5 Midnight=Start", b"Basic=Date-Time Date=YM Year=L5 Time=H",
    )
    for good, bad in itertools.product((y, hms), refused):
        yield good + b"|" + bad
        yield bad + b"|" + good
    yield from (first + b"|" + second for first, second in zip(refused, refused[1:]))


def refused_types():
    """Types with refusal 1 or 2, with texts that would be good, not of any form, or empty."""
    for type_text in itertools.chain(incomplete_types(), unknown_settings(), other_types_of_x_680(), misplaced_names(),
                                     misplaced_spaces(), wrong_bars(), ones_before_twos()):
        yield line(b"0", type_text, b"2006")
    for k, type_text in enumerate(itertools.chain(misplaced_names(), misplaced_spaces(), ones_before_twos())):
        yield line((b"1", b"8")[k % 2], type_text, (b"", b"2006-06-13", b"x")[k % 3])


def pairs_of_lists():
    """Lists beside each other: equal, of one row, and of two."""
    lists = [date_type(b"Y", year) for year in YEARS]
    lists += [date_type(b"YMD", b"Basic"), date_type(b"YD", b"Proleptic"), date_type(b"YW", b"L5")]
    lists += [time_type(b"HMS", b"L"), time_type(b"HMS", b"Z"), time_type(b"HMSF3", b"L"), time_type(b"HMSF4", b"L")]
    lists += [date_time_type(b"Y", (year,), b"H", b"L") for year in YEARS]
    lists += [date_time_type(b"Y", (b"Basic",), b"HF1", b"L"), date_time_type(b"Y", (b"Proleptic",), b"HF2", b"L")]
    lists += [date_time_type(b"Y", (b"Proleptic",), b"H", b"Z"), date_time_type(b"YM", (b"Proleptic",), b"H", b"L")]
    for first, second in itertools.product(lists, lists):
        yield line(b"0", first + b"|" + second, b"1066")
    for k, (first, second) in enumerate(itertools.product(lists[3:14], lists[3:14])):
        yield line((b"1", b"8", b"9")[k % 3], first + b"|" + second, b"+12006")


def lists_of_years():
    """Many lists that differ only in Year, and others: "1 for more than six lists or a Year twice in otherwise equal lists, 2
    for any other difference"."""
    yield from (line(b"0", type_text, text) for type_text, text in year_texts.year_lists())
    for k, type_text in enumerate(year_texts.other_lists()):
        yield line(b"0", type_text, (b"+123456", b"", b"2006", b"15:27:46")[k % 4])
    first = (b"Year=L8", b"Basic=Date", b"Date=YMD")
    for order in itertools.permutations((b"Basic=Date", b"Date=YMD", b"Year=L6")):
        for lists in ((order, first), (first, order, (b"Date=YMD", b"Year=L7", b"Basic=Date")), (order, first, order[::-1])):
            yield line(b"0", b"|".join(map(b" ".join, lists)), b"+123456-06-13")


def all_orders():
    """Pairs "in any order", in one list and in two."""
    texts = (b"2006-06-13", b"15:27:46,500+01:00", b"-0044-W24T24Z")
    for pairs, text in zip(good_lists(), texts):
        for order in itertools.permutations(pairs):
            yield line(b"0", b" ".join(order), text)
    proleptic = (b"Basic=Date", b"Date=YMD", b"Year=Proleptic")
    for first, second in itertools.product(itertools.permutations(good_lists()[0]), itertools.permutations(proleptic)):
        yield line(b"0", b" ".join(first) + b"|" + b" ".join(second), b"1066-06-13")


def compared_types():
    """Types for the question whether two "select the same rows"."""
    years = ((b"Basic",), (b"Proleptic",), (b"L5",), (b"Proleptic", b"Basic"), (b"Negative", b"L5"))
    types = list(NAMES)
    types += [date_type(b"YMD", *choice) for choice in years]
    types += [date_type(b"YW", b"Basic"), date_type(b"YWD", b"Negative"), b"Year=Basic Basic=Date Date=YMD"]
    types += [time_type(b"HMS", b"L"), time_type(b"HMS", b"LD"), time_type(b"HM", b"L")]
    types += [time_type(b"HF1", b"L"), time_type(b"HF9", b"L"), time_type(b"HMSF3", b"L"), time_type(b"HMSF3", b"Z")]
    types += [date_time_type(b"YMD", choice, b"HMS", b"L") for choice in years]
    types += [date_time_type(b"YMD", (b"Basic",), b"HMSF2", b"L"), date_time_type(b"YMD", (b"Basic",), b"HMSF7", b"L")]
    types += [date_time_type(b"YD", (b"Basic",), b"HMS", b"L"), date_time_type(b"YMD", (b"L5",), b"HMS", b"Z")]
    types += [b"", b"DATE|DATE", date_type(b"Y", b"Basic", b"L5"), b"Basic=Date Date=C Year=Basic"]
    return types


def rows():
    """Lines that compare two types."""
    for first, second in itertools.product(compared_types(), compared_types()):
        yield line(b"=", first, second)
    for first, second in itertools.product(TIMES[2::4], TIMES[::3]):
        yield line(b"=", time_type(first, b"Z"), time_type(second, b"Z"))
    yield from (b"=;DATE;DATE;", b"=;DATE;DATE;DATE", b"=;;DATE", b"=;DATE;", b"=;;", b"=;;;", b"=; DATE;DATE")
    yield b"=;DATE;DATE\r"


def other_lines():
    """Lines that are no question, and semicolons where a text or a type is expected."""
    yield from (
        b"", b"?", b"0", b"=", b"0;", b"0;DATE", b"=;DATE", b"=DATE;DATE", b"0DATE;2006-06-13", b"DATE;2006-06-13",
        b";", b";;", b";DATE;2006-06-13", b"00;DATE;2006-06-13", b"01;DATE;2006-06-13", b"10;DATE;2006-06-13",
        b" 0;DATE;2006-06-13", b"0 ;DATE;2006-06-13", b"-1;DATE;2006-06-13", b"==;DATE;DATE", b" =;DATE;DATE",
        b"=0;DATE;DATE", b"\xef\xbb\xbf0;DATE;2006-06-13", b"per;DATE;2006-06-13", b"\r", b"0;;", b"0;;;",
        b"0;;2006-06-13", b"0;DATE;;", b"0;DATE;;2006-06-13", b"0;DATE;2006-06-13;", b"0;DATE;2006;06;13",
        b"0;DA;TE;2006-06-13", b"0;DATE;2006-06-13\r",
        b"0; DATE;2006-06-13", b"0;DATE; 2006-06-13", b"0;DATE;2006-06-13 ", b"0;DATE ;2006-06-13", b'0;DATE;"2006-06-13"',
        b"0,DATE,2006-06-13", b"0:DATE:2006-06-13", b"0" * 1000, b";" * 1000, b"0" * 1000 + b";DATE;2006-06-13",
    )


def last_second():
    """A second 60 under the last limits of the menu."""
    yield line(b"9", b"DATE-TIME", b"2009-12-31T23:59:60")


def rows_of_years():
    """Lines that compare types with Year settings of one row and of two, alone and in several lists, also under limits."""
    choices = [(year,) for year in ALL_YEARS] + [YEAR_CHOICES[4], *LARGE_CHOICES[4:]]
    for first, second in itertools.product(choices, choices):
        yield line(b"=", date_type(b"YMD", *first), date_type(b"YMD", *second))
    for first, second in itertools.product(LARGE_CHOICES[3:8], choices[::2]):
        yield line(b"=", date_time_type(b"YD", first, b"HF3", b"Z"), date_time_type(b"YD", second, b"HF8", b"Z"))
    six, seven = date_type(b"YMD", *SIGNED_YEARS), date_type(b"YMD", *SIGNED_YEARS, b"Basic")
    for limits, other in itertools.product((b"=", b"=01", b"=35", b"=70", b"=08", b"=80", b"=99"), (b"DATE", seven, b"", six)):
        yield from (line(limits, six, other), line(limits, other, date_type(b"YMD", b"L9", b"L6")))


def limited_rows():
    """Lines that compare two types under each pair of limits: "restrictions don't count", where they have their place."""
    years = (b"Proleptic", b"Basic")
    pairs = (
        (b"DATE", date_type(b"YMD", *years)),
        (date_type(b"YW", b"Negative", b"L5"), date_type(b"YW", *years)),
        (b"TIME-OF-DAY", time_type(b"HMS", b"L")),
        (time_type(b"HMF3", b"LD"), time_type(b"HMF7", b"LD")),
        (b"DATE-TIME", date_time_type(b"YMD", years, b"HMS", b"L")),
        (date_time_type(b"YD", (b"Basic",), b"HF2", b"Z"), date_time_type(b"YD", (b"Basic",), b"HF2", b"L")),
        (date_time_type(b"Y", (b"L5",), b"H", b"L"), date_type(b"Y", b"L5")),
    )
    for (first, second), a, b in itertools.product(pairs, sorted(MENU), sorted(MENU)):
        yield line(b"=" + a + b, first, second)


def refused_rows():
    """Lines that compare two types of which one or both are refused, by themselves or for their limits."""
    y, hms = date_type(b"Y", b"Basic"), time_type(b"HMS", b"L")
    types = NAMES + (y + b"|" + hms, date_type(b"Y", b"Basic", b"L5"), y + b"|" + y, b"")
    for limits, first, second in itertools.product((b"=09", b"=10", b"=18", b"=81"), types, types):
        yield line(limits, first, second)


def fields_of_rows():
    """First fields that are `=` and two octets of the menu, or nearly so, and lines with semicolons too few or more."""
    others = TYPE_OCTETS + [b"/", b":", b";"]
    for field in itertools.chain(deletions(b"=08"), replacements(b"=08", others), insertions(b"=08", others)):
        yield line(field, b"DATE-TIME", b"DATE-TIME")
    yield from (
        b"=00", b"=00;", b"=00;DATE", b"=00DATE;DATE", b"=00;DATE;DATE;", b"=00;DATE;DATE;DATE", b"=00;;DATE", b"=00;DATE;",
        b"=00;;", b"=00;;;", b"=00; DATE;DATE", b"=00;DATE;DATE\r", b"=1;DATE;DATE", b"=123;DATE;DATE", b"=a0;DATE;DATE",
        b"=0a;DATE;DATE", b"=0;0;DATE;DATE", b"=0;;DATE;DATE", b"=;0;DATE;DATE", b"=;;;DATE;DATE", b"000;DATE;DATE",
        b"=0000;DATE;DATE", b"=" + b"0" * 1000 + b";DATE;DATE",
    )


def durations():
    """Texts of durations, and others, under the types of durations."""
    for texts in (duration_texts.good_texts(), duration_texts.wrong_texts()):
        yield from (line(b"0", type_text, text) for type_text, text in duration_texts.with_types(texts))


def changed_durations():
    """Texts of durations with one octet less, another or more."""
    others = [bytes([octet]) for octet in b"0YMWDTHS.-"]
    for type_text, text in ((duration_texts.NAME, b"P1Y6M"), (LIST, b"PT10M0,5S")):
        for changed in itertools.chain(deletions(text), replacements(text, others)):
            yield line(b"0", type_text, changed)
    for changed in insertions(b"P1YT10S", others):
        yield line(b"0", duration_texts.NAME, changed)


def types_of_durations():
    """Types near those of durations, and these with one octet less or another."""
    for k, type_text in enumerate(duration_texts.other_types()):
        yield line(b"0", type_text, (b"P1Y6M", b"2006", b"", b"P5W")[k % 4])
    for type_text in (duration_texts.NAME, LIST):
        for changed in itertools.chain(deletions(type_text), replacements(type_text, [])):
            yield line(b"0", changed, b"P1Y6M")


def durations_and_points():
    """Texts of durations under the types of dates and times, and the other way round."""
    for k, (type_text, text) in enumerate(forms()):
        yield line(b"0", type_text, duration_texts.EXAMPLES[k % 6])
        yield line(b"0", (duration_texts.NAME, LIST)[k % 2], text)


def limits_on_durations():
    """Each limit on a duration, which has no place for any, whatever the text is; and on two lists."""
    types = (duration_texts.NAME, LIST, LIST + b"|" + date_type(b"Y", b"Basic"), time_type(b"H", b"L") + b"|" + LIST)
    for limits, type_text, text in itertools.product(sorted(MENU), types, (b"P1Y6M", b"x")):
        yield line(limits, type_text, text)


def rows_of_durations():
    """Lines that compare the types of durations with each other and with others, also under limits."""
    types = (duration_texts.NAME, LIST, OTHER_LIST)
    others = (*NAMES, date_type(b"Y", b"L5"), time_type(b"HMSF3", b"L"), b"Basic=Interval Interval-type=SE", b"")
    yield from (line(b"=", first, second) for first, second in itertools.product(types, types))
    for k, other in enumerate(others):
        yield from (line(b"=", types[k % 3], other), line(b"=", other, types[(k + 1) % 3]))
    yield from (line(b"=", LIST + b"|" + other, LIST) for other in (OTHER_LIST, date_type(b"Y", b"Basic")))
    for limits in (b"=00", b"=01", b"=10", b"=08", b"=80", b"=99"):
        yield from (line(limits, duration_texts.NAME, LIST), line(limits, LIST, b"DATE-TIME"))


def years_of_nine_digits():
    """Years of six to nine digits, their ends and their shapes, alone and before other fields."""
    for section in (year_texts.large_dates, year_texts.year_ends, year_texts.year_shapes, year_texts.leap_days_and_weeks):
        yield from (line(b"0", type_text, text) for type_text, text in section())


def last_line():
    """The line without a newline at its end."""
    first, second = (date_time_type(b"YM", years, b"HF9", b"Z") for years in ((b"Basic",), (b"Proleptic",)))
    yield line(b"=98", first, second)


SECTIONS = (
    checked_values, good_dates, good_times, good_date_times, date_boundaries, month_boundaries, week_boundaries,
    time_boundaries, fractions_at_hour_24, differences, second_60, year_shapes, years_in_windows, cross_table,
    changed_texts, changed_types, every_octet, long_texts, long_types, limits_and_places, refused_types, pairs_of_lists,
    all_orders, rows, other_lines, last_second, limited_rows, refused_rows, fields_of_rows, durations,
    changed_durations, types_of_durations, durations_and_points, limits_on_durations, rows_of_durations,
    years_of_nine_digits, large_date_times, large_years_in_windows, changed_years, lists_of_years, rows_of_years, last_line,
)


def all_lines():
    """The lines of all sections, each line once."""
    lines = dict.fromkeys(itertools.chain.from_iterable(section() for section in SECTIONS))
    if any(b"\n" in each for each in lines):
        sys.exit("a newline inside a line")
    return list(lines)


def row_lines():
    """The lines that begin with `=`: those that ask about two types, or nearly do."""
    return [each for each in all_lines() if each.startswith(b"=")]


def text_lines():
    """All other lines: those that ask about a type and a text, or nothing."""
    return [each for each in all_lines() if not each.startswith(b"=")]


def reply_on_text(limits, type_text, text):
    """The number and, after 0, the canonical text."""
    number, canonical = judge(type_text, limits, text)
    return b"0 " + canonical if number == 0 else b"%d" % number


def reply_on_rows(first, second, first_limits=NO_LIMITS, second_limits=NO_LIMITS):
    """Whether two types "select the same rows", and their numbers of fraction digits; or a refusal."""
    a, b = read_type(first, first_limits), read_type(second, second_limits)
    if is_refused(a):
        return b"%d" % a
    if is_refused(b):
        return b"%d" % b
    answer = b"same" if same_rows(a, b) else b"other"
    return b"0 %s %d %d" % (answer, fraction_digits(a), fraction_digits(b))


def reply(question):
    """The reply to one line, without its newline."""
    parts = question.split(b";", 2)
    if len(parts) < 3:
        return b"?"
    limits, type_text, text = parts
    if limits == b"=":
        return reply_on_rows(type_text, text)
    if limits[:1] == b"=" and limits[1:2] in MENU and limits[2:] in MENU:
        return reply_on_rows(type_text, text, MENU[limits[1:2]], MENU[limits[2:]])
    if limits not in MENU:
        return b"?"
    return reply_on_text(MENU[limits], type_text, text)
