"""Lines for the program at the end of document 01's "Checked values", and the replies that document 01 settles.

`convert_lines.py lines` writes the lines, `convert_lines.py replies` reads such lines and writes a reply for each. A
line is `WORK;TYPE;INPUT`: TYPE ends at the second semicolon, and INPUT is all that follows. A line ends in a newline,
which is not counted, and the last one need not. Types have no limits, and the room is longer than any result.
"""

import itertools
import sys
from collections import namedtuple

import der
import duration_fields
import duration_texts
import per
import coding_lines
import elements
import value_lines
import year_texts
from bits import fill
from lines import split_lines
from coding_lines import BASIC, BASIC_PROLEPTIC, HEX, L5, LONGEST_LINE, NEGATIVE, NEGATIVE_L5, PROLEPTIC, bits_of
from elements import der_vectors, element
from settings import NO_LIMITS
from value_lines import DATES, DATE_TAILS, TIMES, WHOLE_TIMES, YEAR_CHOICES, ZONES
from value_lines import date_time_type, date_type, last_fields, time_text, time_type
from year_texts import A_YEAR, LARGE_CHOICES, SIGNED_YEARS

# more octets than any result has: a duration has up to 74
ROOM = 136

# how the input is read, what is done with it, and how the result is written
Work = namedtuple("Work", "read convert write")


def as_it_stands(octets):
    """A text, read or written."""
    return octets


def from_hex(digits):
    """The octets; None where the input "isn't whole pairs of hex digits"."""
    return bytes.fromhex(digits.decode("ascii")) if HEX.fullmatch(digits) else None


def to_hex(octets):
    """Hex digits in capitals."""
    return octets.hex().upper().encode()


# "work per, der, unper or under; hex input for the last two"
WORKS = {
    b"per": Work(as_it_stands, per.encode, to_hex),
    b"der": Work(as_it_stands, der.encode, to_hex),
    b"unper": Work(from_hex, per.decode, as_it_stands),
    b"under": Work(from_hex, der.decode, as_it_stands),
}


def reply(question):
    """The reply to one line; `?` for "fewer than two semicolons, an unknown work, hex input that isn't whole pairs of
    hex digits, or more than 1,024 octets"."""
    parts = question.split(b";", 2)
    if len(question) > LONGEST_LINE or len(parts) < 3 or parts[0] not in WORKS:
        return b"?"
    work = WORKS[parts[0]]
    given = work.read(parts[2])
    if given is None:
        return b"?"
    number, result, _ = work.convert(parts[1], NO_LIMITS, given, ROOM)
    return b"0 " + work.write(result) if number == 0 else b"%d" % number


def replies(octets):
    """A reply to each line, each with its newline."""
    return b"".join(reply(question) + b"\n" for question in split_lines(octets))


THREE_WORKS = (b"per", b"der", b"unper")
FOUR_WORKS = (*THREE_WORKS, b"under")
HEX_WORKS = FOUR_WORKS[2:]

# a year of each setting, common and of 52 weeks
COMMON_YEARS = A_YEAR | {b"Basic": b"2006", b"Proleptic": b"1066", b"Negative": b"-0043", b"L5": b"+12007"}

# what may stand after the year in a text, and is "no such date" in a common year of 52 weeks
NO_SUCH_TAILS = {b"YM": b"-13", b"YMD": b"-02-29", b"YD": b"-366", b"YW": b"-W53", b"YWD": b"-W53-1"}

# years at the ends of each choice of PER and of each Year setting, and inside
YEARS_TO_READ = {
    BASIC_PROLEPTIC: (
        b"0000", b"1066", b"1581", b"1582", b"1748", b"1749", b"2004", b"2020", b"2276", b"2277", b"9999",
    ),
    NEGATIVE_L5: (b"-0001", b"-0128", b"-0129", b"-9999", b"-10000", b"-99999", b"+10000", b"+32768", b"+99999"),
}

# types and texts whose octets, texts and types are changed
SAMPLE = (
    (b"DATE", b"1999-12-31"),
    (b"TIME-OF-DAY", b"09:58:07"),
    (b"DATE-TIME", b"2100-02-28T24:00:00"),
    (date_type(b"Y", *BASIC), b"9999"),
    (date_type(b"Y", *NEGATIVE), b"-9999"),
    (date_type(b"YM", *PROLEPTIC), b"1581-12"),
    (date_type(b"YM", *L5), b"-10000-01"),
    (date_type(b"YMD", *NEGATIVE_L5), b"+32767-10-31"),
    (date_type(b"YD", *BASIC_PROLEPTIC), b"1600-366"),
    (date_type(b"YW", *L5), b"+99999-W09"),
    (date_type(b"YWD", *PROLEPTIC), b"0004-W53-7"),
    (time_type(b"H", b"Z"), b"24Z"),
    (time_type(b"HM", b"LD"), b"23:59-15:59"),
    (time_type(b"HMS", b"LD"), b"08:59:60+09"),
    (time_type(b"HF1", b"LD"), b"07.5+00:45"),
    (time_type(b"HMF3", b"Z"), b"16:08.999Z"),
    (time_type(b"HMF8", b"L"), b"16:08.00001000"),
    (time_type(b"HMSF5", b"L"), b"01:02:03.32768"),
    (time_type(b"HMSF9", b"LD"), b"20:21:22.123456789-11:15"),
    (date_time_type(b"Y", BASIC_PROLEPTIC, b"H", b"LD"), b"1000T10-10"),
    (date_time_type(b"YM", L5, b"HF4", b"L"), b"+10000-02T11.4096"),
    (date_time_type(b"YD", NEGATIVE, b"HM", b"Z"), b"-0400-366T00:00Z"),
    (date_time_type(b"YWD", BASIC, b"HMSF2", b"LD"), b"2277-W01-1T18:19:20.99+01:59"),
    (date_type(b"Y", *SIGNED_YEARS), b"-100000"),
    (date_type(b"YWD", b"L9"), b"+999999999-W52-7"),
    (date_type(b"YD", b"L7", b"L8"), b"-8388608-366"),
    (date_time_type(b"YMD", (b"L8", b"Negative"), b"HMS", b"Z"), b"+99999999-12-31T23:59:60Z"),
    (date_type(b"YM", b"L6", b"L9"), b"-999999999-10"),
)


def line(work, type_text, given):
    """One line of the input, without its newline."""
    return work + b";" + type_text + b";" + given


def unper_line(type_text, octets):
    """A line that reads octets as PER."""
    return line(b"unper", type_text, to_hex(octets))


def under_line(type_text, octets):
    """A line that reads octets as DER."""
    return line(b"under", type_text, to_hex(octets))


def under_lines(questions):
    """Lines that read octets as DER, each under its type."""
    return (under_line(type_text, octets) for type_text, octets in questions)


def good_input(work, type_text, text):
    """The text itself for the works that write, and what it is written as for those that read."""
    if work == b"unper":
        return to_hex(fill(bits_of(type_text, text)))
    return to_hex(element(type_text, text)) if work == b"under" else text


def all_works(type_text, text):
    """Lines that write a text in PER and in DER, and lines that read what its value is written as, in DER also with
    the text as it stands."""
    yield line(b"per", type_text, text)
    yield line(b"der", type_text, text)
    bits = bits_of(type_text, text)
    if bits is not None:
        yield unper_line(type_text, fill(bits))
    yield from (under_line(type_text, octets) for octets in elements.spellings(type_text, text))


def without_limits(section):
    """The types and texts of a section of value_lines.py, where they have no limits."""
    for each in section:
        limits, type_text, text = each.split(b";", 2)
        if limits == b"0":
            yield type_text, text


def of_coding_lines(section, step):
    """Each so many-th line of a section of coding_lines.py, where it has no limits and the longest room."""
    works = {b"e0*": b"per", b"d0*": b"unper", b"u0*": b"under"}
    for each in itertools.islice(section, 0, None, step):
        start, _, rest = each.partition(b";")
        if start in works:
            yield works[start] + b";" + rest


def works_in_turn(k):
    """The works that are asked for with question k: three in turn, and with each fourth question `under` too."""
    return (THREE_WORKS[k % 3], b"under") if k % 4 == 3 else (THREE_WORKS[k % 3],)


def in_turn(questions):
    """Each type with its text, in works in turn; for those that read the octets of the text itself."""
    for k, (type_text, text) in enumerate(questions):
        for work in works_in_turn(k):
            yield line(work, type_text, to_hex(text) if work in HEX_WORKS else text)


def first_lines():
    """The input of document 01."""
    yield from (b"per;DATE;2006-06-13", b"der;DATE;2006-06-13", b"per;DATE;2006-02-29")


def checked_values():
    """"Checked values" in every work."""
    for type_text, text in without_limits(value_lines.checked_values()):
        yield from all_works(type_text, text)


def good_values():
    """Each date with each choice of years, each time with each zone, and many date-times, in every work."""
    for section in (value_lines.good_dates(), value_lines.good_times(), value_lines.good_date_times()):
        for type_text, text in without_limits(section):
            yield from all_works(type_text, text)


def vectors():
    """The outside tools' vectors: those of DER both ways, some of them as octets for PER, and some of PER both ways and
    as octets for DER."""
    for k, (type_text, text, octets) in enumerate(der_vectors()):
        yield line(b"der", type_text, text)
        yield under_line(type_text, octets)
        if k % 5 == 0:
            yield unper_line(type_text, octets)
    for k, each in enumerate(of_coding_lines(coding_lines.vectors(), 9)):
        yield each
        if k % 8 == 1:
            yield each.replace(b"unper", b"under")


def long_years():
    """Years of six to nine digits, half of them in every work and the others in one; and days and weeks that not every year
    has, some in every work and many in one."""
    for k, (type_text, text) in enumerate(itertools.chain(year_texts.year_ends(), year_texts.large_dates())):
        lines = list(all_works(type_text, text))
        yield from lines if k % 4 in (0, 3) else [lines[k % len(lines)]]
    for type_text, text in year_texts.some_leap_days_and_weeks():
        yield from all_works(type_text, text)
    for k, (type_text, text) in enumerate(year_texts.leap_days_and_weeks()):
        lines = list(all_works(type_text, text))
        yield lines[k % len(lines)]


def long_date_times():
    """Date-times with such years: two of three in every work."""
    for k, (type_text, text) in enumerate(without_limits(value_lines.large_date_times())):
        yield from all_works(type_text, text) if k % 3 else [line(b"der", type_text, text)]


def boundaries():
    """Dates, times and differences below, at and above their ends: all written in DER, a third in every work, and a
    third read in DER."""
    questions = itertools.chain(
        value_lines.date_boundaries(), value_lines.month_boundaries(), value_lines.week_boundaries(),
        value_lines.time_boundaries(), value_lines.fractions_at_hour_24(), value_lines.differences(),
    )
    for k, (type_text, text) in enumerate(without_limits(questions)):
        yield line(b"der", type_text, text)
        if k % 3 == 0:
            yield from all_works(type_text, text)
        if k % 3 == 2:
            yield under_line(type_text, element(type_text, text))


def second_60():
    """Second 60: the examples in every work, also beside other causes, its forms in two, and many minutes in one."""
    questions = itertools.chain(value_lines.examples_of_second_60(), value_lines.causes_at_second_60())
    for type_text, text in without_limits(questions):
        yield from all_works(type_text, text)
    yield from of_coding_lines(coding_lines.causes_at_second_60(), 1)
    for k, (type_text, text) in enumerate(without_limits(value_lines.forms_of_second_60())):
        yield from itertools.islice(all_works(type_text, text), k % 2, None, 2)
    for k, (type_text, text) in enumerate(without_limits(value_lines.minutes_of_second_60())):
        lines = list(all_works(type_text, text))
        yield lines[k % len(lines)]


def other_forms():
    """Years of every shape, and texts of each form under the types of all others."""
    questions = itertools.chain(value_lines.year_shapes(), value_lines.cross_table())
    for k, (type_text, text) in enumerate(itertools.chain(without_limits(questions), year_texts.year_shapes())):
        yield line((b"der", b"per")[k % 2], type_text, text)
        if k % 4 == 0:
            yield from under_lines((type_text, octets) for octets in elements.spellings(type_text, text))


def dates_to_refuse(date, years):
    """A type, a text of it, and texts of no such date, which Y has not, and of the first and the last other setting's years."""
    type_text, year = date_type(date, *years), COMMON_YEARS[years[0]]
    others = [COMMON_YEARS[setting] for setting in COMMON_YEARS if setting not in years]
    no_such = [year + NO_SUCH_TAILS[date]] if date in NO_SUCH_TAILS else []
    return type_text, year + DATE_TAILS[date], no_such + [other + DATE_TAILS[date] for other in (others[0], others[-1])]


def times_to_refuse(time, zone):
    """A type, a text of it, and texts of no such time or difference."""
    end = value_lines.zone_texts(zone)[-1]
    good = time_text(time, (b"15", b"27", b"46"), b"250", end)
    no_such = [time_text(time, (b"24", b"00", b"00"), b"001", end), time_text(time, (b"25", b"60", b"61"), b"0", end)]
    if zone == b"LD":
        no_such += [good[:-len(end)] + difference for difference in (b"+16", b"-00:30", b"-00")]
    return time_type(time, zone), good, no_such


def date_times_to_refuse(date, years, time, zone):
    """A type, a text of it, and texts with a date or a time to be refused."""
    _, good_date, bad_dates = dates_to_refuse(date, years)
    _, good_time, bad_times = times_to_refuse(time, zone)
    bad = [each + b"T" + good_time for each in bad_dates] + [good_date + b"T" + each for each in bad_times]
    return date_time_type(date, years, time, zone), good_date + b"T" + good_time, bad


def types_to_refuse():
    """Types of every form."""
    for date, years in itertools.product(DATES, YEAR_CHOICES):
        yield dates_to_refuse(date, years)
    for time, zone in itertools.product(TIMES, ZONES):
        yield times_to_refuse(time, zone)
    for date, years, time, zone in itertools.islice(value_lines.some_date_times(), 0, None, 3):
        yield date_times_to_refuse(date, years, time, zone)
    for date, years in itertools.islice(itertools.product(DATES, LARGE_CHOICES), 0, None, 5):
        yield dates_to_refuse(date, years)
    for date, years, time, zone in itertools.islice(value_lines.some_large_date_times(), 3, None, 13):
        yield date_times_to_refuse(date, years, time, zone)


def refusals():
    """Each number that a work can give, under types of every form."""
    for k, (type_text, text, bad) in enumerate(types_to_refuse()):
        octets = fill(bits_of(type_text, text))
        for given in bad:
            yield from all_works(type_text, given)
        yield line(b"per", type_text, text + b"0")
        yield line(b"der", type_text, text[:-1])
        yield from (unper_line(type_text, octets[:-1]), unper_line(type_text, octets + b"\x00"))
        octets = element(type_text, text)
        yield from (under_line(type_text, octets[:-1]), under_line(type_text, octets + b"\x00"))
        other = (date_type(b"Y", b"Basic"), date_type(b"YW", b"L5"), time_type(b"HF7", b"L"))[k // 3 % 3]
        for other_type in (type_text + b" ", type_text + b"|" + other):
            yield from in_turn([(other_type, text)] * 3)
            yield under_line(other_type, octets)


def other_spellings():
    """"full stop for comma; the difference's minutes dropped when 0", in PER and in DER; in octets "they meet 6"."""
    differences = (b"+00:00", b"+01:00", b"-01:00", b"-15:00", b"+09:00", b"-00:00", b"+16:00", b"+01:01", b"-01")
    for time, mark, difference in itertools.product(TIMES[::2], (b".", b","), differences):
        type_text, text = time_type(time, b"LD"), time_text(time, (b"15", b"27", b"46"), b"500", difference, mark)
        yield from (line(b"per", type_text, text), line(b"der", type_text, text))
        yield under_line(type_text, element(type_text, text))
    for time, zone in itertools.product(TIMES[3:], (b"L", b"Z")):
        text = time_text(time, (b"24", b"00", b"00"), b"0", value_lines.zone_texts(zone)[0], b",")
        yield from all_works(time_type(time, zone), text)
    for date, years, time, zone in itertools.islice(value_lines.some_date_times(), 1, None, 5):
        start = COMMON_YEARS[years[0]] + DATE_TAILS[date] + b"T"
        hour, end = {b"L": (b"00", b""), b"Z": (b"23", b"Z"), b"LD": (b"16", b"-07:00")}[zone]
        text = start + time_text(time, (hour, b"59", b"60"), b"090", end, b",")
        yield from all_works(date_time_type(date, years, time, zone), text)


def changed_texts():
    """Texts cut at every place, and with one octet less, another or more, in PER and in DER."""
    others = [bytes([octet]) for octet in b"1-:\x00"]
    for type_text, text in SAMPLE[::2]:
        cut = (text[:length] for length in range(len(text)))
        changed = itertools.chain(cut, value_lines.deletions(text), value_lines.replacements(text, others),
                                  value_lines.insertions(text, others[:1]))
        for k, each in enumerate(changed):
            yield line((b"per", b"der")[k % 2], type_text, each)


def changed_types():
    """Types cut at every place, and with one octet less, another or more, in every work."""
    others = [bytes([octet]) for octet in b"L |"]
    for type_text, text in SAMPLE[:3] + SAMPLE[4::6]:
        cut = (type_text[:length] for length in range(len(type_text)))
        changed = itertools.chain(cut, value_lines.deletions(type_text), value_lines.replacements(type_text, others),
                                  value_lines.insertions(type_text, others[1:2]))
        for k, each in enumerate(changed):
            yield from (line(work, each, good_input(work, type_text, text)) for work in works_in_turn(k))


def changed_octets():
    """Encodings cut at every octet, lengthened, and with each of their bits turned."""
    for type_text, text in SAMPLE:
        octets = fill(bits_of(type_text, text))
        cut = (octets[:length] for length in range(len(octets)))
        longer = (octets + more for more in (b"\x00", b"\x01", b"\xff", b"\x00" * 9, octets))
        for changed in itertools.chain([octets], cut, longer, coding_lines.turned_bits(octets)):
            yield unper_line(type_text, changed)


def changed_elements():
    """Elements cut at every place, lengthened, and with octets replaced; other tags, and other lengths."""
    for type_text, text in SAMPLE[:3] + SAMPLE[3::3]:
        yield from under_lines(elements.changed(type_text, text))
        yield from under_lines(elements.with_other_tags(type_text, text))
        yield from under_lines(elements.with_long_lengths(type_text, text))
    for type_text, text in SAMPLE[:4] + SAMPLE[12:13]:
        yield from under_lines(elements.with_every_length(type_text, text))
    for type_text, text in SAMPLE[1:4:2]:
        yield from under_lines(elements.with_longer_contents(type_text, text))
        yield from under_lines(elements.with_every_tag(type_text, text))


def names_in_elements():
    """Contents under the three names' tags, and the names' elements under other types."""
    for section in (elements.under_names(), elements.fields_under_names(), elements.readings_of_names()):
        yield from under_lines(section)


def dates_in_octets():
    """Encodings of dates under every choice of years, and under types of other rows."""
    other_rows = [date_type(date, *years) for date, years in itertools.product(DATES, (BASIC, NEGATIVE_L5))]
    other_rows += [time_type(b"HMS", b"L"), time_type(b"HF3", b"LD"), b"DATE-TIME", b"DATE", b"TIME-OF-DAY"]
    for date, writer in itertools.product(DATES, YEARS_TO_READ):
        readers = [date_type(date, *years) for years in YEAR_CHOICES]
        for k, year in enumerate(YEARS_TO_READ[writer]):
            written, text = date_type(date, *writer), year + DATE_TAILS[date]
            octets = fill(bits_of(written, text))
            for type_text in readers + other_rows[k % 4::4]:
                yield unper_line(type_text, octets)
                yield under_line(type_text, element(written, text))


def long_years_in_octets():
    """Encodings of years of each length under types that name others, in PER or in DER, and of date-times in both."""
    for k, (type_text, text, readers) in enumerate(year_texts.years_for_others()):
        octets = fill(bits_of(type_text, text))
        for step, reader in enumerate(readers):
            yield (unper_line(reader, octets), under_line(reader, element(type_text, text)))[(k + step) % 2]
    yield from of_coding_lines(coding_lines.date_times_for_others(), 1)


def times_in_octets():
    """Encodings of times under every n, and under other times and zones."""
    for time, zone in itertools.product(WHOLE_TIMES, ZONES):
        end = value_lines.zone_texts(zone)[1 if zone == b"LD" else 0]
        for n, digits in itertools.product(range(1, 10), (b"01", b"8")):
            written = b"%sF%d" % (time, n)
            type_text, text = time_type(written, zone), time_text(written, last_fields(written, end), digits, end)
            readers = [time_type(b"%sF%d" % (time, m), zone) for m in range(1, 10)]
            readers += [time_type(other, ZONES[n % 3]) for other in (b"H", b"HM", b"HMS")]
            for reader in readers:
                yield unper_line(reader, fill(bits_of(type_text, text)))
                if digits == b"8":
                    yield under_line(reader, element(type_text, text))


def date_times_in_octets():
    """Encodings of date-times under other years, times and zones."""
    for k, (date, years, time, zone) in enumerate(itertools.islice(value_lines.some_date_times(), 2, None, 7)):
        clock = time_text(time, (b"12", b"34", b"56"), b"9", value_lines.zone_texts(zone)[-1])
        text = COMMON_YEARS[years[-1]] + DATE_TAILS[date] + b"T" + clock
        written = date_time_type(date, years, time, zone)
        readers = [date_time_type(date, other, time, zone) for other in YEAR_CHOICES]
        readers += [date_time_type(DATES[k % 6], years, time, zone), date_time_type(date, years, TIMES[k % 30], zone)]
        readers += [date_time_type(date, years, time, ZONES[k % 3]), date_type(date, *years), time_type(time, zone)]
        for reader in readers:
            yield unper_line(reader, fill(bits_of(written, text)))
            yield under_line(reader, element(written, text))


def fields_in_octets():
    """Fields of PER at and above their ends, free integers of every length, and filling."""
    for section, step in (
        (coding_lines.near_years(), 5), (coding_lines.difference_fields(), 3), (coding_lines.filling(), 1),
        (coding_lines.free_integers(), 4), (coding_lines.free_integer_lengths(), 4), (coding_lines.other_choice(), 2),
        (coding_lines.fraction_fields(), 5), (coding_lines.fractions_at_hour_24(), 1), (coding_lines.date_fields(), 4),
        (coding_lines.time_fields(), 5), (coding_lines.causes_in_octets(), 1),
    ):
        yield from of_coding_lines(section, step)


def any_values():
    """Values of every form with fields of any number, in every work."""
    numbers = coding_lines.Numbers(3)
    for _ in range(600):
        yield from all_works(*coding_lines.any_value(numbers))


def any_years():
    """Years of six to nine digits of any number, in every work."""
    numbers = coding_lines.Numbers(9)
    for _ in range(50):
        type_text, text = coding_lines.any_year(numbers)
        yield from all_works(type_text, text)
        yield under_line(type_text, coding_lines.any_element(numbers, type_text, text))


def any_octets():
    """Octets of any number under types of every form; for DER also behind the tag, and inside an element."""
    numbers = coding_lines.Numbers(4)
    types = [(type_text, text) for type_text, text, _ in types_to_refuse()]
    for _ in range(700):
        type_text, _ = numbers.one_of(types)
        yield unper_line(type_text, bytes(numbers.below(256) for _ in range(numbers.below(10))))
    for _ in range(500):
        type_text, text = numbers.one_of(types)
        yield under_line(type_text, coding_lines.any_element(numbers, type_text, text))


def refused_types():
    """Types with refusal 1 or 2, in each of the works in turn, and some of them in every work with many inputs."""
    types = list(itertools.chain(
        value_lines.incomplete_types(), value_lines.unknown_settings(), value_lines.other_types_of_x_680(),
        value_lines.misplaced_names(), value_lines.misplaced_spaces(), value_lines.wrong_bars(),
        value_lines.ones_before_twos(),
    ))
    yield from in_turn((type_text, b"2006") for type_text in types)
    yield from in_turn(without_limits(value_lines.pairs_of_lists()))
    for type_text, given in itertools.product(types[::40] + [date_type(b"Y", b"Basic", b"L5"), b""],
                                              (b"", b"2006-06-13", b"0558", b"5", b"x")):
        yield from (line(work, type_text, given) for work in FOUR_WORKS)


def lists_of_years():
    """Many lists that differ only in Year, and others, of one row or not, in works in turn; where there is no encoding to read,
    the octets of the text."""
    for k, (type_text, text) in enumerate(without_limits(value_lines.lists_of_years())):
        lines = list(all_works(type_text, text))
        lines += (line(work, type_text, to_hex(text)) for work in HEX_WORKS[len(lines) - 2:])
        yield lines[k % len(lines)]
    yield from in_turn(without_limits(value_lines.changed_years()))


def all_orders():
    """Pairs "in any order", in one list and in two."""
    for type_text, text in without_limits(value_lines.all_orders()):
        yield line(b"der", type_text, text)
    some = list(itertools.islice(without_limits(value_lines.all_orders()), 0, None, 4))
    yield from in_turn(some)
    for type_text, text in some:
        yield from all_works(type_text, text)


def hex_digits():
    """Hex digits in capitals, in small letters and in both, and none."""
    for type_text, text in SAMPLE:
        for work, octets in ((b"unper", fill(bits_of(type_text, text))), (b"under", element(type_text, text))):
            capitals = to_hex(octets)
            mixed = b"".join(capitals[k:k + 1].lower() if k % 3 else capitals[k:k + 1] for k in range(len(capitals)))
            for digits in (capitals, capitals.lower(), mixed, b""):
                yield line(work, type_text, digits)
    for type_text, _, _ in types_to_refuse():
        yield from (line(work, type_text, b"") for work in HEX_WORKS)
    yield from (line(b"unper", date_type(b"Y", *NEGATIVE), b"01" + b"%c%c" % (high, low))
                for high, low in itertools.product(b"0189aAfF", b"0189aAfF"))
    yield from (line(b"under", b"DATE", b"1F1F0832303036303631" + b"%c%c" % (high, low))
                for high, low in itertools.product(b"0239aAfF", b"0239aAfF"))


def no_hex_digits():
    """Input that "isn't whole pairs of hex digits", whatever the type is."""
    wrong = (
        b"0", b"055", b"05580", b"0x0558", b"0X0558", b"x0558", b"0558h", b"#0558", b"05 58", b" 0558", b"0558 ",
        b"0558  ", b"  0558", b"05  58", b"05\t58", b"0558\r", b"\r0558", b"05,58", b"05:58", b"05-58", b"05_58",
        b"0558;", b";0558", b"05;58", b"'0558'H", b'"0558"', b"0x05 0x58", b"+558", b"-558", b"0g58", b"0G58", b"05/8",
        b"05:8", b"05@8", b"05`8", b"0558\x00", b"\x000558", b"\xef\xbb\xbf0558", b"\xef\xbc\x90\xef\xbc\x95",
        b"\xb2\xb3", b"O558", b"o5", b"l0", b"2006-06-13", b"DATE", b"unper", b"?", b"\x05\x58", b"0558=", b"BVg=",
        b"%05%58", b"\\x05\\x58", b"0558.",
    )
    types = (b"DATE", b"TIME-OF-DAY", date_type(b"Y", *L5), b"", b"DATE|DATE", date_type(b"Y", b"Basic", b"L5"))
    for type_text, given in itertools.product(types, wrong):
        yield line(b"unper", type_text, given)
    for type_text, given in itertools.product(types[:1] + types[4:], wrong):
        yield line(b"under", type_text, given.replace(b"0558", b"1F1F083230303630363133"))


def every_octet():
    """Every octet but the newline in many places of a line."""
    y, hf1 = date_type(b"Y", *BASIC), time_type(b"HF1", b"L")
    for octet in (bytes([number]) for number in range(256) if number != 0x0A):
        yield from (b"unper;DATE;055" + octet, b"unper;DATE;" + octet + b"558", b"unper;DATE;0558" + octet)
        yield from (b"unper;DATE;05" + octet + octet, b"unper;DATE" + octet + b";0558", b"unper;DATE" + octet + b"0558")
        yield from (b"unper" + octet + b";DATE;0558", b"unpe" + octet + b";DATE;0558", octet + b"unper;DATE;0558")
        yield from (b"under;DATE;1F1F08323030363036313" + octet, b"under;DATE;" + octet + b"F1F083230303630363133")
        yield from (b"under;DATE;1F1F083230303630363133" + octet, b"unde" + octet + b";DATE;1F1F083230303630363133")
        yield b"under" + octet + b"DATE;1F1F083230303630363133"
        yield from (b"p" + octet + b"r;DATE;2006-06-14", b"per" + octet + b";DATE;2006-06-14")
        yield from (octet + b"er;DATE;2006-06-15", octet + b"der;DATE;2006-06-14")
        yield from (b"der" + octet + b"DATE;2006-06-14", b"per;DATE" + octet + b"2006-06-14")
        yield from (line(b"der", y, b"200" + octet), line(b"per", y, octet + b"006"), line(b"der", y, b"2006" + octet))
        yield from (line(b"per", hf1, b"15" + octet + b"5"), line(b"der", hf1, b"15" + octet + b"5"))
        yield from (line(b"der", octet + y, b"2006"), line(b"per", y.replace(b" ", octet, 1), b"2006"), octet)


def semicolons():
    """Lines with no semicolon, with one, and with more, some of them in the input."""
    yield from (
        b"", b"per", b"der", b"unper", b"under", b"DATE", b"2006-06-13", b"per DATE 2006-06-13", b"per,DATE,2006-06-13",
        b"per:DATE:2006-06-13", b"perDATE2006-06-13", b"per;", b"der;", b"unper;", b"under;", b";", b"per;DATE",
        b"der;DATE", b"unper;DATE", b";DATE", b"per;DATE 2006-06-13", b"per DATE;2006-06-13", b"per;2006-06-13",
        b"unper;0558", b"DATE;0558", b"per;;", b"der;;", b"unper;;", b"under;;", b";;", b";DATE;", b";;2006-06-13",
        b";DATE;2006-06-13", b"per;DATE;", b"der;DATE;", b"unper;DATE;", b"per;;2006-06-13", b"der;;2006-06-13",
        b"unper;;0558", b"per;;;", b"der;;;", b"unper;;;", b";;;", b"per;DATE;2006-06-13;", b"der;DATE;2006-06-13;",
        b"unper;DATE;0558;", b"per;DATE;;2006-06-13", b"der;DATE;;2006-06-13", b"unper;DATE;;0558",
        b"per;;DATE;2006-06-13", b"der;;DATE;2006-06-13", b"unper;;DATE;0558", b";per;DATE;2006-06-13",
        b";unper;DATE;0558", b"per;DA;TE;2006-06-13", b"unper;DA;TE;0558", b"per;DATE;2006;06;13",
        b"per;DATE;2006-06-13;2006-06-14", b"per;DATE;2006-06-13;der;DATE;2006-06-13",
        b"unper;DATE;0558;unper;DATE;0558", b"per;DATE;DATE;2006-06-13", b"der;DATE;1F1F083230303630363133",
        b"under;DATE", b"under;1F1F083230303630363133", b"under;DATE;", b"under;;;", b"under;;1F1F083230303630363133",
        b"under;DATE;;1F1F083230303630363133", b"under;DATE;1F1F083230303630363133;",
        b"under;;DATE;1F1F083230303630363133", b"under;1F1F083230303630363133;DATE",
        b"per;2006-06-13;DATE", b"DATE;per;2006-06-13", b"unper;0558;DATE", b"per;DATE;2006-06-13;;;;",
        b"per;" + b";" * 900, b"unper;DATE;" + b";" * 900, b"der" + b";" * 900,
    )
    yield from (b";" * count for count in (4, 5, 16, 100, 1000))


def other_works():
    """Works that are none, with inputs for every work."""
    works = (
        b"", b" ", b"Under", b"UNDER", b"unde", b"under ", b" under", b"unders", b"un der", b"per ", b" per",
        b"PER", b"Per", b"pEr", b"peR", b"\tper", b"per\t", b"per\r", b"\rper", b"per\x00", b"\x00per", b"pe", b"er",
        b"p", b"perr", b"pper", b"pre", b"rep", b"der ", b" der", b"DER", b"Der", b"deR", b"der\r", b"der\x00", b"de",
        b"d", b"derr", b"dder", b"red", b"unper ", b" unper", b"UNPER", b"Unper", b"unPer", b"unpeR", b"un per",
        b"un-per", b"unper\r", b"unper\x00", b"unpe", b"nper", b"unperr", b"uunper", b"perun", b"un", b"u", b"uper",
        b"aper", b"upper", b"ber", b"cer", b"xer", b"oer", b"perder", b"derper", b"per,der", b"per|der", b"unperper",
        b"perunper", b"unununper", b"encode", b"decode", b"e0*", b"d0*", b"0", b"=", b"?", b"work", b"'per'", b'"per"',
        b"\xef\xbb\xbfper", b"p\xc3\xa9r", b"PER ", b"per=", b"-per",
    )
    rests = (b";DATE;2006-06-13", b";DATE;0558", b";DATE;1F1F083230303630363133", b";;")
    yield from (work + rest for work, rest in itertools.product(works, rests))


def good_durations():
    """Texts of durations, each second in every work, and the others written in PER or in DER."""
    for k, (type_text, text) in enumerate(duration_texts.with_types(duration_texts.good_texts())):
        yield from all_works(type_text, text) if k % 2 == 0 else [line((b"per", b"der")[k // 2 % 2], type_text, text)]


def other_durations():
    """Texts that no duration has, written in PER or in DER, and some of them as elements."""
    for k, (type_text, text) in enumerate(duration_texts.with_types(duration_texts.wrong_texts())):
        yield line((b"per", b"der")[k % 2], type_text, text)
        if k % 3 == 0:
            yield from under_lines((type_text, octets) for octets in elements.spellings(type_text, text))


def durations_in_octets():
    """Encodings of durations cut at every octet, lengthened, and with each of their bits turned, and half of the bits
    of durations."""
    for type_text, text in duration_texts.SAMPLE:
        octets = fill(bits_of(type_text, text))
        cut = (octets[:length] for length in range(len(octets)))
        longer = (octets + more for more in (b"\x00", b"\x01", b"\xff", b"\x00" * 9, octets))
        turned = coding_lines.turned_bits(octets) if len(octets) <= 6 else ()
        yield from (unper_line(type_text, changed) for changed in itertools.chain([octets], cut, longer, turned))
    for k, bits in enumerate(duration_fields.all_bits()):
        if k % 2 == 0:
            yield unper_line((duration_texts.NAME, duration_texts.LIST)[k // 2 % 2], fill(bits))


def durations_in_elements():
    """Elements of durations that are changed, and contents of durations behind both tags and under other types."""
    for type_text, text in duration_texts.SAMPLE[:3]:
        yield from under_lines(elements.changed(type_text, text))
        yield from under_lines(elements.with_other_tags(type_text, text))
        yield from under_lines(elements.with_long_lengths(type_text, text))
    yield from under_lines(elements.with_every_length(duration_texts.NAME, b"P1Y6M"))
    yield from under_lines(elements.durations_in_contents())
    yield from under_lines(elements.durations_under_others())


def durations_and_points():
    """Durations under the types of dates and times, and the other way round, in every work."""
    for k, (type_text, text) in enumerate(SAMPLE):
        duration_type, duration = duration_texts.SAMPLE[k % len(duration_texts.SAMPLE)]
        for work in (FOUR_WORKS[k % 4], FOUR_WORKS[(k + 1) % 4]):
            yield line(work, duration_type, good_input(work, type_text, text))
            yield line(work, type_text, good_input(work, duration_type, duration))


def types_of_durations():
    """Types near those of durations, in works in turn."""
    for k, type_text in enumerate(duration_texts.other_types()):
        for work in works_in_turn(k):
            yield line(work, type_text, good_input(work, duration_texts.NAME, b"P1Y6M"))


def any_durations():
    """Durations of any numbers in every work, and octets of any number."""
    numbers = coding_lines.Numbers(7)
    types = (duration_texts.NAME, duration_texts.LIST)
    for _ in range(120):
        type_text, text = numbers.one_of(types), coding_lines.any_duration(numbers)
        yield from all_works(type_text, text)
        yield under_line(type_text, coding_lines.any_element(numbers, type_text, text))
    for _ in range(200):
        octets = bytes(numbers.below(256) for _ in range(1 + numbers.below(9)))
        yield unper_line(numbers.one_of(types), bytes([octets[0] & ~0x20 & numbers.below(256)]) + octets[1:])


def long_parts():
    """Long types and long texts in lines of up to 1,024 octets, in every work."""
    for type_text, given in without_limits(itertools.chain(value_lines.long_types(), value_lines.long_texts())):
        lines = [line(work, type_text, given) for work in FOUR_WORKS]
        yield from (each for each in lines if len(each) <= LONGEST_LINE)


def padded(start, other, length):
    """A line that is lengthened by other octets; 0 behind hex digits makes half a pair at one of two lengths."""
    return (start + other * (length - len(start)))[:length]


def lines_of_length(length):
    """Lines of so many octets, whose first octets, last octets or parts would be a question."""
    yield from (padded(b"per;DATE;2006-06-13", other, length) for other in (b" ", b"0", b"\x00", b"\r", b";"))
    yield padded(b"der;DATE-TIME;2006-06-13T15:27:46", b"\xff", length)
    yield padded(b"der;" + b"DATE|" * 200, b"|", length - 11) + b";2006-06-13"
    yield padded(b"unper;DATE", b" ", length - 5) + b";0558"
    yield padded(b"under;DATE", b" ", length - 23) + b";1F1F083230303630363133"
    yield from (padded(start, b"0", length) for start in (
        b"unper;DATE;0558", b"unper;DATE ;0558", b"under;DATE;1F1F083230303630363133", b"under;TIME-OF-DAY;1F207F",
        b"under;DATE ;1F1F083230303630363133", b"under;DATE-TIME;1F210E3230303630323239323430303030",
    ))
    yield padded(b"unper;TIME-OF-DAY;", b"f", length)
    yield padded(b"", b"x", length - 19) + b"per;DATE;2006-06-13"
    yield padded(b"", b"per;DATE;2006-06-13\r", length)


def questions_in_parts(length, size):
    """A line of that length in which a question begins after each part of that size."""
    return padded(b"", padded(b"per;DATE;2006-06-13;", b" ", size), length)


def longest_lines():
    """Lines longer than any that is answered, and longer than what a program may hold at a time."""
    for size in (1023, 1024, 1025, 1026, 2048, 4096, 8192):
        yield questions_in_parts(2 * size + 20, size)
        yield padded(b"", b"x", size) + b"per;DATE;2006-06-13"
    for length in (1027, 1500, 2047, 2048, 2049, 4095, 4096, 4097, 5000, 8191, 8192, 8193):
        yield padded(b"per;DATE;2006-06-13", b" ", length)
        yield padded(b"unper;DATE;0558", b"0", length)
    for length in (2047, 4095, 5000, 8193):
        yield padded(b"under;DATE;1F1F083230303630363133", b"0", length)
    for length in (16384, 32769, 65535, 65536, 65537, 70000):
        yield padded(b"unper;DATE;0558", b"0", length)
    yield questions_in_parts(70000, 1025)
    yield padded(b"", b";", 70000)
    yield padded(b"der;DATE;2006-06-13", b"\x00", 200000)
    yield questions_in_parts(200000, 1024)
    yield padded(b"unper;DATE;0558", b"0", 200001)


def short_lines(k):
    """A question that no other section asks, but by chance, in works in turn."""
    text = b"%02d:%02d:%02d" % (k % 24, 7 * k % 60, 11 * k % 60)
    return [line(work, b"TIME-OF-DAY", good_input(work, b"TIME-OF-DAY", text)) for work in works_in_turn(k)]


def long_lines():
    """Lines of nearly and of more than 1,024 octets, each before a short one or two."""
    lengths = (LONGEST_LINE - 1, LONGEST_LINE, LONGEST_LINE + 1, LONGEST_LINE + 2)
    of_lengths = itertools.chain.from_iterable(map(lines_of_length, lengths))
    for k, each in enumerate(itertools.chain(of_lengths, longest_lines())):
        yield from (each, *short_lines(k))


def long_lines_in_a_row():
    """Long lines with no short ones between, then short ones."""
    yield from (questions_in_parts(length, 1024) for length in (1024, 1025, 2048, 3000, 1024, 1023))
    yield from itertools.chain.from_iterable(map(short_lines, range(500, 540)))


def runs():
    """Empty lines, lines of one octet, and the same question again."""
    yield from [b""] * 40
    for k in range(60):
        yield from short_lines(k + 600) + [b""] * (k % 3)
    yield from (bytes([octet]) for octet in b";;;;00\r\r\x00\x00 ?per;")
    yield from [b"per;DATE;2006-06-13", b"der;DATE;2006-06-13", b"unper;DATE;0558",
                b"under;DATE;1F1F083230303630363133"] * 5
    yield from [b"", b"per;DATE;2006-06-13", b"\r", b"", b"per;DATE;2006-06-13\r", b"\rper;DATE;2006-06-13"]


def last_line():
    """The line without a newline at its end."""
    yield unper_line(b"DATE-TIME", fill(bits_of(b"DATE-TIME", b"2009-12-31T23:59:60")))


# each line once
SECTIONS = (
    first_lines, checked_values, good_values, vectors, boundaries, second_60, other_forms, refusals, other_spellings,
    changed_texts, changed_types, changed_octets, changed_elements, names_in_elements, dates_in_octets, times_in_octets,
    date_times_in_octets, fields_in_octets, any_values, any_octets, refused_types, all_orders, hex_digits,
    no_hex_digits, every_octet, semicolons, other_works, long_parts, good_durations, other_durations,
    durations_in_octets, durations_in_elements, durations_and_points, types_of_durations, any_durations, long_years,
    long_date_times, long_years_in_octets, lists_of_years, any_years,
)

# lines whose order counts, some of them more than once
SECTIONS_IN_ORDER = (long_lines, long_lines_in_a_row, runs, last_line)


def all_lines():
    """The lines of all sections."""
    lines = list(dict.fromkeys(itertools.chain.from_iterable(section() for section in SECTIONS)))
    lines += itertools.chain.from_iterable(section() for section in SECTIONS_IN_ORDER)
    if any(b"\n" in each for each in lines):
        sys.exit("a newline inside a line")
    return lines


def main():
    """Writes the lines, or the replies to lines from standard input."""
    if sys.argv[1:] == ["lines"]:
        sys.stdout.buffer.write(b"\n".join(all_lines()))
    elif sys.argv[1:] == ["replies"]:
        sys.stdout.buffer.write(replies(sys.stdin.buffer.read()))
    else:
        sys.exit("usage: convert_lines.py lines | convert_lines.py replies")


if __name__ == "__main__":
    main()
