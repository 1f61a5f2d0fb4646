"""Unaligned PER of document 01, "Bits": "Fields follow one another without gaps". Bits are a text of 0 and 1."""

from answers import answer_on_octets, answer_on_text
from bits import Bits, Field, Unreadable, field_bits, fill, free_integer_bits, number_bits
from durations import canonical, duration_bits, take_duration
from texts import Date, Difference, Fraction, TIME_FIELDS, Time, Value
from years import YEAR, families

# "0: year - 2005 in 4 bits (2005 to 2020). 1: year - 2021 in 8 (2021 to 2276). 2: year - 1749 in 8 (1749 to 2004)"
NEAR_YEARS = (Field(2005, 2020, 4), Field(2021, 2276, 8), Field(1749, 2004, 8))

# "3: other years, as a free integer"
OTHER_YEARS = 3

# "Month - 1 in 4 bits, day - 1 in 5, ordinal day - 1 in 9, week - 1 in 6, weekday - 1 in 3"
MONTH, DAY, ORDINAL_DAY = Field(1, 12, 4), Field(1, 31, 5), Field(1, 366, 9)
WEEK, WEEKDAY = Field(1, 53, 6), Field(1, 7, 3)

# "Date: Y, YM, YMD, YD, YW, YWD"
DATE_FIELDS = {
    "Y": (),
    "YM": (MONTH,),
    "YMD": (MONTH, DAY),
    "YD": (ORDINAL_DAY,),
    "YW": (WEEK,),
    "YWD": (WEEK, WEEKDAY),
}

# "Hours 5 bits, minutes 6, seconds 6"
DAY_TIME_FIELDS = (Field(0, 24, 5), Field(0, 59, 6), Field(0, 60, 6))

# "up to 999, a 0 bit and 10 bits"
SHORT_FRACTION = Field(0, 999, 10)

# TIME-DIFFERENCE of 28 bis.3.3: "hours INTEGER (-15..16), minutes INTEGER (1..59) OPTIONAL"
DIFFERENCE_HOURS, DIFFERENCE_MINUTES = Field(-15, 16, 5), Field(1, 59, 6)


def has_choice_bits(t):
    """"Year, Basic or Proleptic: two choice bits"; "Year, Negative or L5: a free integer, no choice bits", and so the longer
    ones of #103: "Free integers still need at most four octets"."""
    return families(t.years) == {YEAR}


def year_bits(t, year):
    """"two choice bits", then the year as the choice says; or "a free integer, no choice bits"."""
    if not has_choice_bits(t):
        return free_integer_bits(year)
    for choice, field in enumerate(NEAR_YEARS):
        if field.lowest <= year <= field.highest:
            return number_bits(choice, 2) + field_bits(field, year)
    return number_bits(OTHER_YEARS, 2) + free_integer_bits(year)


def date_bits(t, date):
    """The year, then "Month - 1 in 4 bits, day - 1 in 5, ordinal day - 1 in 9, week - 1 in 6, weekday - 1 in 3"."""
    fields = zip(DATE_FIELDS[date.form], date.fields)
    return year_bits(t, date.year) + "".join(field_bits(field, number) for field, number in fields)


def fraction_bits(fraction):
    """"Fraction, the n digits as a number: up to 999, a 0 bit and 10 bits; from 1000, a 1 bit and a free integer"."""
    if fraction.number <= 999:
        return "0" + field_bits(SHORT_FRACTION, fraction.number)
    return "1" + free_integer_bits(fraction.number)


def difference_bits(difference):
    """A bit for whether minutes follow, then 28 bis.3.3: "If the minutes component of the time-difference is zero, the
    TIME-DIFFERENCE minutes shall be omitted"."""
    hours = -difference.hours if difference.sign == b"-" else difference.hours
    if difference.minutes == 0:
        return "0" + field_bits(DIFFERENCE_HOURS, hours)
    return "1" + field_bits(DIFFERENCE_HOURS, hours) + field_bits(DIFFERENCE_MINUTES, difference.minutes)


def time_bits(time):
    """"Hours 5 bits, minutes 6, seconds 6", the fraction, and the difference "after the local time"."""
    bits = "".join(field_bits(field, number) for field, number in zip(DAY_TIME_FIELDS, time.fields))
    if time.fraction:
        bits += fraction_bits(time.fraction)
    if time.difference:
        bits += difference_bits(time.difference)
    return bits


def value_bits(t, value):
    """"Date-time: the date's bits, then the time's"; "PER encodes the canonical value" of a duration."""
    if value.duration:
        return duration_bits(value.duration)
    bits = ""
    if value.date:
        bits += date_bits(t, value.date)
    if value.time:
        bits += time_bits(value.time)
    return bits


def take_year(bits, t):
    """A year of any choice, and of any size: "The same holds for a year read from PER bits, at any size"."""
    if not has_choice_bits(t):
        return bits.take_free_integer()
    choice = bits.take(2)
    if choice == OTHER_YEARS:
        return bits.take_free_integer()
    return bits.take_field(NEAR_YEARS[choice])


def take_date(bits, t):
    """The year, then the fields that the form has; "month 13, weekday 8 or hour 25 is 4; in PER bits it is 3"."""
    year = take_year(bits, t)
    return Date(t.date, year, tuple(bits.take_field(field) for field in DATE_FIELDS[t.date]))


def take_fraction(bits, digits):
    """A fraction of either length; "a fraction negative or of more than n digits" is refusal 3."""
    number = bits.take_free_integer() if bits.take(1) else bits.take_field(SHORT_FRACTION)
    if not 0 <= number < 10 ** digits:
        raise Unreadable
    return Fraction(number, digits)


def take_difference(bits):
    """A bit for whether minutes follow, the hours and the minutes; "a zero difference has `+`"."""
    present = bits.take(1)
    hours = bits.take_field(DIFFERENCE_HOURS)
    minutes = bits.take_field(DIFFERENCE_MINUTES) if present else 0
    return Difference(b"-" if hours < 0 else b"+", abs(hours), minutes)


def take_time(bits, t):
    """The fields that the form has, the fraction for Fn, and the difference for LD; "`Z` takes no bits"."""
    fields = tuple(bits.take_field(field) for field in DAY_TIME_FIELDS[:TIME_FIELDS[t.time]])
    fraction = take_fraction(bits, t.digits) if t.digits else None
    difference = take_difference(bits) if t.zone == "LD" else None
    return Time(fields, fraction, t.zone, difference)


def take_value(bits, t):
    """"Date-time: the date's bits, then the time's"; or the value of a duration, without zero components."""
    if t.interval:
        return Value(None, None, canonical(take_duration(bits)))
    date = take_date(bits, t) if t.date else None
    time = take_time(bits, t) if t.time else None
    return Value(date, time, None)


def read_octets(t, octets):
    """The value that the octets begin with, whether or not the encoder writes it so; None for refusal 3."""
    try:
        return take_value(Bits(octets), t)
    except Unreadable:
        return None


def write(t, value):
    """The octets and the bit count, "the plain sum of these widths, before the filling"."""
    bits = value_bits(t, value)
    return fill(bits), len(bits)


def encode(type_text, limits, text, room_length):
    """The number, the octets and the bit count."""
    return answer_on_text(type_text, limits, text, room_length, write)


def decode(type_text, limits, octets, room_length):
    """The number, the text and the bit count, "both when writing and when reading, the sum above"."""
    return answer_on_octets(type_text, limits, octets, room_length, read_octets, write)
