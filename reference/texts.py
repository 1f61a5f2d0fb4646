"""Texts and values of document 01, "Texts" and "What exists", and of #102 and #103: "Extended format, no quotation marks"."""

from collections import namedtuple

import gregorian
from durations import canonical, duration_text, read_duration
from octets import NotOfTheForm, Octets
from settings import is_refused, read_type
from years import DIGITS_AFTER_A_SIGN, YEAR_RANGES

# "A value is a date, a time, or a date with a time", or a canonical duration: what it lacks is None
Value = namedtuple("Value", "date time duration")
Date = namedtuple("Date", "form year fields")

# fields are the hours, minutes and seconds that the form has; difference is there with LD
Time = namedtuple("Time", "fields fraction zone difference")
Fraction = namedtuple("Fraction", "number digits")
Difference = namedtuple("Difference", "sign hours minutes")

# what a text shows and its canonical text doesn't: a comma, a difference's minutes when 0, and zero components
Spelling = namedtuple("Spelling", "comma zero_minutes zero_components")

SIGNS = b"+-"

# what stands after the year: "`2006`, `2006-06`, `2006-06-13`, `2006-164`, `2006-W24`, `2006-W24-2`"
DATE_FIELDS = {
    "Y": (),
    "YM": ((b"-", 2),),
    "YMD": ((b"-", 2), (b"-", 2)),
    "YD": ((b"-", 3),),
    "YW": ((b"-W", 2),),
    "YWD": ((b"-W", 2), (b"-", 1)),
}

# "two-digit fields with `:` between"
TIME_FIELDS = {"H": 1, "HM": 2, "HMS": 3, "HF": 1, "HMF": 2, "HMSF": 3}

# the minutes of a day, and 23:59 among them, counted from 0
MINUTES_OF_A_DAY = 24 * 60
LAST_MINUTE = 23 * 60 + 59


def read_year(octets):
    """"four digits, `-` and four digits not all 0, or a sign and five digits not beginning with 0"; #103: "A sign with six
    to nine digits, the first not 0, is from now on of the form"."""
    if not octets.next_is(SIGNS):
        return octets.take_digits(4)
    sign = octets.take_one(SIGNS)
    count = octets.count_digits()
    if count == 4 and sign == b"-":
        return -read_not_all_zero(octets)
    if count in DIGITS_AFTER_A_SIGN and not octets.next_is(b"0"):
        number = octets.take_digits(count)
        return -number if sign == b"-" else number
    raise NotOfTheForm


def read_not_all_zero(octets):
    """"four digits not all 0"."""
    number = octets.take_digits(4)
    if number == 0:
        raise NotOfTheForm
    return number


def read_date(octets, form):
    """"the date has one of six forms"."""
    year = read_year(octets)
    fields = []
    for mark, count in DATE_FIELDS[form]:
        octets.take(mark)
        fields.append(octets.take_digits(count))
    return Date(form, year, tuple(fields))


def read_fraction(octets, digits):
    """"for Fn a `.` or `,` and exactly n digits"; and whether it was a comma."""
    mark = octets.take_one(b".,")
    return Fraction(octets.take_digits(digits), digits), mark == b","


def read_difference(octets):
    """"a sign with two-digit hours and optionally `:` and minutes"; and whether it had minutes that are 0."""
    sign = octets.take_one(SIGNS)
    hours = octets.take_digits(2)
    if not octets.next_is(b":"):
        return Difference(sign, hours, 0), False
    octets.take(b":")
    minutes = octets.take_digits(2)
    return Difference(sign, hours, minutes), minutes == 0


def read_time(octets, t):
    """"two-digit fields with `:` between, then for Fn" the fraction, "then nothing (L), `Z`, or" the difference."""
    fields = [octets.take_digits(2)]
    for _ in range(TIME_FIELDS[t.time] - 1):
        octets.take(b":")
        fields.append(octets.take_digits(2))
    fraction, comma = read_fraction(octets, t.digits) if t.digits else (None, False)
    difference, zero_minutes = None, False
    if t.zone == "Z":
        octets.take(b"Z")
    if t.zone == "LD":
        difference, zero_minutes = read_difference(octets)
    return Time(tuple(fields), fraction, t.zone, difference), Spelling(comma, zero_minutes, False)


def read_interval(octets):
    """A duration without its zero components; and whether it had any, or a comma."""
    duration, comma = read_duration(octets)
    return canonical(duration), Spelling(comma, False, canonical(duration) != duration)


def read_value(octets, t):
    """The whole text at the type's form; "A date-time has `T` between"."""
    date, time, duration, spelling = None, None, None, Spelling(False, False, False)
    if t.interval:
        duration, spelling = read_interval(octets)
    if t.date:
        date = read_date(octets, t.date)
    if t.date and t.time:
        octets.take(b"T")
    if t.time:
        time, spelling = read_time(octets, t)
    octets.take_end()
    return Value(date, time, duration), spelling


def read_text(t, text):
    """The value and its spelling, "whichever Year the type names"; None when the text is not "of the type's form"."""
    try:
        return read_value(Octets(text), t)
    except NotOfTheForm:
        return None


def date_exists(date):
    """"Gregorian rule for all years, negative and 0000 too"."""
    return gregorian.exists(date.form, date.year, *date.fields)


def difference_exists(difference):
    """"Difference hours 0 to 15, minutes 0 to 59; a zero difference has `+`, and `-00` is refusal 4"."""
    if difference.sign == b"-" and difference.hours == 0:
        return False
    return difference.hours <= 15 and difference.minutes <= 59


def time_of_day_exists(time):
    """"Hours 0 to 24; at 24 all smaller fields and the fraction are 0. Minutes 0 to 59. Seconds 0 to 60"."""
    smaller = list(time.fields[1:])
    if time.fraction:
        smaller.append(time.fraction.number)
    if time.fields[0] == 24:
        return not any(smaller)
    return all(field <= highest for field, highest in zip(time.fields, (23, 59, 60)))


def signed_minutes(difference):
    """A difference in minutes; its sign is also that of its minutes."""
    minutes = 60 * difference.hours + difference.minutes
    return -minutes if difference.sign == b"-" else minutes


def second_60_can_be(hours, minutes, zone, difference):
    """#102: "with Z, second 60 is accepted only at 23:59; with a difference, only where local time less the difference,
    around the day, is 23:59, as in `05:29:60+05:30`; for a local time without one we can't know and keep accepting
    it"."""
    local_time = 60 * hours + minutes
    if zone == "Z":
        return local_time == LAST_MINUTE
    if zone == "LD":
        return (local_time - signed_minutes(difference)) % MINUTES_OF_A_DAY == LAST_MINUTE
    return True


def time_exists(time):
    """The contrary of "no such" time or difference."""
    if not time_of_day_exists(time):
        return False
    if time.difference and not difference_exists(time.difference):
        return False
    return time.fields[2:] != (60,) or second_60_can_be(*time.fields[:2], time.zone, time.difference)


def value_exists(value):
    """The contrary of "no such date, time or difference"; every duration exists."""
    if value.date and not date_exists(value.date):
        return False
    return not value.time or time_exists(value.time)


def year_setting(year):
    """The one Year setting that a year is of; None for a year of none."""
    for setting, lowest, highest in YEAR_RANGES:
        if lowest <= year <= highest:
            return setting
    return None


def year_text(year):
    """Four digits, `-` and four digits, or a sign and as many digits as it takes."""
    if 0 <= year <= 9999:
        return b"%04d" % year
    if -9999 <= year < 0:
        return b"-%04d" % -year
    return b"%+d" % year


def date_text(date):
    """A date in the "Extended format"."""
    text = year_text(date.year)
    for (mark, count), field in zip(DATE_FIELDS[date.form], date.fields):
        text += mark + b"%0*d" % (count, field)
    return text


def difference_text(difference):
    """"the difference's minutes dropped when 0"."""
    text = difference.sign + b"%02d" % difference.hours
    if difference.minutes != 0:
        text += b":%02d" % difference.minutes
    return text


def time_text(time):
    """A time in the "Extended format"; "full stop for comma"."""
    text = b":".join(b"%02d" % field for field in time.fields)
    if time.fraction:
        text += b".%0*d" % (time.fraction.digits, time.fraction.number)
    if time.zone == "Z":
        text += b"Z"
    if time.zone == "LD":
        text += difference_text(time.difference)
    return text


def canonical_text(value):
    """"Canonical text (X.690 11.9): full stop for comma; the difference's minutes dropped when 0"; a duration has "no
    zero components except the least significant one present"."""
    if value.duration:
        return duration_text(value.duration)
    parts = []
    if value.date:
        parts.append(date_text(value.date))
    if value.time:
        parts.append(time_text(value.time))
    return b"T".join(parts)


def restrictions_are_met(t, value):
    """"the type's restrictions are met": the year in the window, and not hour 24 where the type says so."""
    if t.window and not t.window[0] <= value.date.year <= t.window[1]:
        return False
    return not (t.no_hour_24 and value.time.fields[0] == 24)


def holds(t, value):
    """"when the canonical text is of the type's form, each year is of a Year setting that the type names", and so on."""
    if not value_exists(value) or read_text(t, canonical_text(value)) is None:
        return False
    if value.date and year_setting(value.date.year) not in t.years:
        return False
    return restrictions_are_met(t, value)


def judge(type_text, limits, text):
    """The number and, after 0, the canonical text: "When several hold, the lowest number is given. Success is 0"."""
    t = read_type(type_text, limits)
    if is_refused(t):
        return t, None
    read = read_text(t, text)
    if read is None:
        return 3, None
    value, _ = read
    if not value_exists(value):
        return 4, None
    if not holds(t, value):
        return 5, None
    return 0, canonical_text(value)
