"""Compares each row of the proved tables with the independent reference: the calendar's years and dates, the
texts, settings lists, the types and their rows, the texts under types, fields, the rows of Table 2, durations, elements, unaligned
PER, DER, second 60 and the lines. Prints the first row that differs and exits 1, or prints nothing."""

import re
import sys
from pathlib import Path

ROOT = Path(__file__).resolve().parent.parent
sys.path.insert(0, str(ROOT / "reference"))
import convert_lines  # noqa: E402
import der  # noqa: E402
import durations  # noqa: E402
import gregorian  # noqa: E402
import per  # noqa: E402
import settings  # noqa: E402
import texts  # noqa: E402

# a text in a row, where a quotation mark has a backslash before it
QUOTED = r'"((?:[^"\\]|\\")*)"'

CALENDAR = ROOT / "crates/calendar/proofs/Laws/Checked.antt"
YEAR = re.compile(r"^ +year \((\w+ \d+)\) (true|false) (\d+) (\d+) (\d+) ∷", re.M)
DATE = re.compile(r"^ +date \(Date\.(\w+) \(year_at \((\w+ \d+)\)\)((?: \d+)*)\) (true|false) ∷", re.M)

SHOWN_TEXTS = ROOT / "crates/texts/proofs/Laws/Checked.antt"
SHOWN = re.compile(r'^ +shown (\(.*\)) "([^"]*)" refl refl ∷', re.M)
SPELLED = re.compile(r'^ +spelled (\(.*\)) "([^"]*)" \(spelling (true|false) (true|false)\) refl ∷', re.M)
NOT_OF_FORM = re.compile(rf"^ +none DateForm\.(\w+) {QUOTED} refl ∷", re.M)
DATE_VALUE = re.compile(r"Date\.(\w+) \(year_at \((\w+ \d+)\)\)((?: \d+)*)")
TIME_VALUE = re.compile(
    r"time \(Clock\.(\w+)((?: \d+)+)\) (\d+) (\d+) \(?(?:Zone\.([LZ])|difference (true|false) (\d+) (\d+))"
)

LISTS = ROOT / "crates/lists/proofs/Laws/Checked.antt"
LIST = re.compile(r'^ +list "([^"]*)" (\d+) (\d+) (\d+) (\d+) (\d+) (\d+) ∷', re.M)
OCTETS = re.compile(r'^ +octets "([^"]*)" \(((?:\d+ ∷ )+)\[\]\) refl ∷', re.M)

TYPES = ROOT / "crates/type_texts/proofs/Laws/CheckedTypes.antt"
TYPE = re.compile(r'^ +text "([^"]*)"\s+(\w+) (\d) ∷', re.M)
PAIR = re.compile(r'^ +pair "([^"]*)"\s+"([^"]*)" (true|false) ∷', re.M)
LIMITED = re.compile(r'^ +limited "([^"]*)" (\w+) "([^"]*)" (\w+) (true|false) ∷', re.M)
COUNT = re.compile(r'^ +count "([^"]*)" (\d) ∷', re.M)
LIMITS = {
    "no_limits": settings.NO_LIMITS,
    "from2000": settings.Limits((2000, 2099), False),
    "no_years": settings.Limits((2001, 2000), False),
    "no_hour24": settings.Limits(None, True),
    "both_limits": settings.Limits((2000, 2099), True),
    "early": settings.Limits((-44, -1), False),
    "from1500": settings.Limits((1500, 1600), False),
}

TEXTS = ROOT / "crates/exchanges/proofs/Laws/CheckedTexts.antt"
TEXT = re.compile(rf'^ +row "([^"]*)" {QUOTED} (\d) "([^"]*)" ∷', re.M)
UNDER = re.compile(r'^ +under "([^"]*)" (\w+) "([^"]*)" (\d) "([^"]*)" ∷', re.M)

SETTINGS = ROOT / "crates/types/proofs/Laws/YearRanges.antt"
SETTING = re.compile(r"^ +year YearSetting\.(\w+) \((\w+ \d+)\) (true|false) ∷", re.M)

A_DATE = r"\(Date\.(\w+) \(year_at \((\w+ \d+)\)\)((?: \d+)*)\)"
A_TIME = r"\(Clock\.(\w+)((?: \d+)+)\) (\d+) (\d+) \(?(Zone\.\w+|(?:ahead|behind) \d+ \d+)\)?"

TIMES = ROOT / "crates/held_values/proofs/Laws/CheckedExistence.antt"
TIME_THERE = re.compile(rf"^ +time {A_TIME} (true|false) ∷", re.M)

FIELDS = ROOT / "crates/fields/proofs/Laws/Checked.antt"
RANGED = re.compile(r'^ +ranged (\d+) (\d+) (\d+) "(\w+)" ∷', re.M)
INTEGER = re.compile(r'^ +(integer|longer) \((\w+ \d+)\) "(\w+)" ∷', re.M)
NO_RANGED = re.compile(r'^ +no_ranged (\d+) "(\w*)" ∷', re.M)
NO_INTEGER = re.compile(r'^ +no_integer "(\w*)" ∷', re.M)
ALL_FIELDS = (
    *per.NEAR_YEARS, per.MONTH, per.DAY, per.ORDINAL_DAY, per.WEEK, per.WEEKDAY, *per.DAY_TIME_FIELDS,
    per.SHORT_FRACTION, per.DIFFERENCE_HOURS, per.DIFFERENCE_MINUTES,
)
WIDTHS = {field.highest - field.lowest + 1: field.width for field in ALL_FIELDS}

TABLE_2 = ROOT / "crates/rows/proofs/Laws/Checked.antt"
DATED = re.compile(rf'^ +(date|loose_date) YearRow\.(\w+) {A_DATE} "(\w+)" (\d+) ∷', re.M)
TIMED = re.compile(rf'^ +(time|loose_time) {A_TIME} "(\w+)" (\d+) ∷', re.M)
BOTH = re.compile(rf'^ +both YearRow\.(\w+) {A_DATE} {A_TIME} "(\w+)" (\d+) ∷', re.M)
TYPED = re.compile(rf'^ +typed_(?:date|both) (\w+) {A_DATE}(?: {A_TIME})? "(\w+)" (\d+) ∷', re.M)
NO_DATE = re.compile(r'^ +no_date YearRow\.(\w+) DateForm\.(\w+) "(\w*)" ∷', re.M)
NO_TIME = re.compile(r'^ +no_time ClockForm\.(\w+) (\d+) ZoneForm\.(\w+) "(\w*)" ∷', re.M)
YEAR_ROWS = {"Year": frozenset({"Basic", "Proleptic"}), "AnyYear": frozenset({"Negative", "L5", "L6", "L7", "L8", "L9"})}
YEAR_SETTINGS = {
    "basic": frozenset({"Basic"}), "proleptic": frozenset({"Proleptic"}), "plain": YEAR_ROWS["Year"],
    "negative": frozenset({"Negative"}), "five": frozenset({"L5"}), "six": frozenset({"L6"}), "seven": frozenset({"L7"}),
    "eight": frozenset({"L8"}), "nine": frozenset({"L9"}), "signed": YEAR_ROWS["AnyYear"],
}

DURATIONS = ROOT / "crates/durations/proofs/Laws/Checked.antt"
SPELLED_DURATION = re.compile(r'^ +value "([^"]*)"\s+"([^"]*)"\s+"(\w+)" (\d+) ∷', re.M)
NO_DURATION_TEXT = re.compile(rf"^ +refused {QUOTED} ∷", re.M)
DURATION_OCTETS = re.compile(r'^ +octets "(\w*)" (\d) ∷', re.M)

ELEMENTS = ROOT / "crates/der_elements/proofs/Laws/Checked.antt"
DATE_ELEMENT = re.compile(rf'^ +(date|loose_date) Name\.(\w+) {A_DATE} "(\w+)" ∷', re.M)
TIME_ELEMENT = re.compile(rf'^ +(time|loose_time) Name\.(\w+) {A_TIME} "(\w+)" ∷', re.M)
BOTH_ELEMENT = re.compile(rf'^ +(both|loose_both) Name\.(\w+) {A_DATE} {A_TIME} "(\w+)" ∷', re.M)
NO_ELEMENT = re.compile(r'^ +no_(date|time|both|duration) Name\.(\w+) "(\w*)" ∷', re.M)
DURATION_ELEMENT = re.compile(r'^ +(duration|loose_duration) Name\.(\w+) \(of((?: \d+){10})\)\s+"(\w+)" ∷', re.M)
NAMED = {"Listed": None, "Date": "DATE", "TimeOfDay": "TIME-OF-DAY", "DateTime": "DATE-TIME", "Duration": "DURATION"}
ELEMENT_TYPES = {
    "date": settings.read_type(b"DATE"), "time": settings.read_type(b"TIME-OF-DAY"), "both": settings.read_type(b"DATE-TIME"),
    "duration": settings.read_type(b"DURATION"),
}

CODINGS = ROOT / "crates/exchanges/proofs/Laws/Checked.antt"
VALUE = re.compile(r'^ +value "([^"]*)" "([^"]*)" (\d) "([^"]*)" (\d+) "([^"]*)" ∷', re.M)
CODED = re.compile(r'^ +coded "([^"]*)" "([^"]*)" "([^"]*)" (\d+) ∷', re.M)
CODED_UNDER = re.compile(r'^ +limited (\w+) "([^"]*)" "([^"]*)" (\d) "([^"]*)" (\d+) ∷', re.M)
TAGGED = re.compile(r'^ +element "([^"]*)" "([^"]*)" (\d) "([^"]*)" "([^"]*)" ∷', re.M)
CAUSE = re.compile(r'^ +(per|der)_cause "([^"]*)"\s+(\w+) "([^"]*)" (\d+) (\d) ∷', re.M)
CODING_LIMITS = {
    "no_limits": settings.NO_LIMITS,
    "from2000": settings.Limits((2000, 2010), False),
    "no_hour24": settings.Limits(None, True),
}
CODERS = {"per": per, "der": der}

# room for each result: a duration's text has up to 72 octets, and its element 75
ROOM = 128

DURATION_CODINGS = ROOT / "crates/exchanges/proofs/Laws/CheckedDurations.antt"
LEAP_CODINGS = ROOT / "crates/exchanges/proofs/Laws/CheckedLeaps.antt"
YEAR_CODINGS = ROOT / "crates/exchanges/proofs/Laws/CheckedYears.antt"
SPELLED_VALUE = re.compile(r'^ +value "([^"]*)"\s+"([^"]*)"\s+"([^"]*)"\s+"(\w+)" (\d+)\s+"(\w+)" ∷', re.M)
REFUSES = re.compile(rf'^ +refuses "([^"]*)"\s+(\w+) {QUOTED} (\d) ∷', re.M)
READ_UNDER = re.compile(r'^ +(per|der)_read "([^"]*)" "([^"]*)" "([^"]*)" (\d) "([^"]*)" (\d+) ∷', re.M)

LINES = ROOT / "crates/line_replies/proofs/Laws/Checked.antt"
LINE = re.compile(r'^ +line "([^"]*)" (\d+)\s+"([^"]*)" ∷', re.M)


def rows(table, *patterns):
    """The rows of each pattern in a table; every row of the table is one of them, and none has no row."""
    content = table.read_text("utf-8")
    found = [pattern.findall(content) for pattern in patterns]
    if sum(map(len, found)) != len(re.findall(r"^    .*∷(?: \[\])?$", content, re.M)) or not all(found):
        sys.exit(f"{table.relative_to(ROOT)}: {list(map(len, found))} rows were read, and there are others")
    return found


def expect(table, row, said, expected):
    """Ends with a message where a table says something other than the reference."""
    if said != expected:
        sys.exit(f"{table.relative_to(ROOT)}: {row}: the reference has {expected}")


def unquoted(text):
    """The octets of a text that a row quotes."""
    return text.replace('\\"', '"').encode()


def truth(test):
    return "true" if test else "false"


def integer(text):
    """`pos k` is k and `negsuc k` is -(k + 1)."""
    sign, number = text.split()
    return int(number) if sign == "pos" else -int(number) - 1


def check_calendar():
    """leap, days, weeks, and the weekday of 1 January, Monday 0; and which dates exist."""
    years, dates = rows(CALENDAR, YEAR, DATE)
    for text, *said in years:
        year = integer(text)
        weekday = gregorian.weekday(gregorian.new_year(year)) - 1
        numbers = (gregorian.year_length(year), gregorian.weeks_in_year(year), weekday)
        expect(CALENDAR, text, said, [truth(gregorian.leap_year(year)), *map(str, numbers)])
    for form, year, fields, said in dates:
        there = gregorian.exists(form, integer(year), *map(int, fields.split()))
        expect(CALENDAR, f"{form} ({year}){fields}", said, truth(there))


def shown_date(row):
    """The date that a row has, with its settings; or nothing."""
    found = DATE_VALUE.search(row)
    if not found:
        return None, ""
    form, year, fields = found.groups()
    return texts.Date(form, integer(year), tuple(map(int, fields.split()))), f" Date={form} Year=Basic"


def shown_time(row):
    """The time that a row has, with its settings; or nothing."""
    found = TIME_VALUE.search(row)
    if not found:
        return None, ""
    clock, fields, digits, number, zone, behind, hours, minutes = found.groups()
    fraction = texts.Fraction(int(number), int(digits)) if digits != "0" else None
    difference = None if zone else texts.Difference(b"-" if behind == "true" else b"+", int(hours), int(minutes))
    time = texts.Time(tuple(map(int, fields.split())), fraction, zone or "LD", difference)
    return time, f" Time={clock}{'F' + digits if fraction else ''} Local-or-UTC={zone or 'LD'}"


def check_shown():
    """A value's canonical text, other spellings of it, and texts that are not of a form."""
    shown, spelled, none = rows(SHOWN_TEXTS, SHOWN, SPELLED, NOT_OF_FORM)
    for row, text, *spelling in [(*each, "false", "false") for each in shown] + spelled:
        (date, dated), (time, timed) = shown_date(row), shown_time(row)
        basic = "-".join(name for name, part in (("Date", date), ("Time", time)) if part)
        t = settings.read_type(f"Basic={basic}{dated}{timed}".encode())
        value, expected = texts.Value(date, time, None), texts.Spelling(*(each == "true" for each in spelling), False)
        expect(SHOWN_TEXTS, text, (value, expected), texts.read_text(t, text.encode()))
        if not any(expected):
            expect(SHOWN_TEXTS, text, text.encode(), texts.canonical_text(value))
    for form, text in none:
        t = settings.read_type(f"Basic=Date Date={form} Year=Basic".encode())
        expect(SHOWN_TEXTS, text, None, texts.read_text(t, unquoted(text)))


def setting_number(name, setting):
    """The place of a setting in "Base settings", to which Fn adds n times 10; 0 where the list lacks it."""
    if setting is None:
        return 0
    plain, digits = settings.split_time(setting)
    whole = plain.removesuffix(b"F")
    return digits * 10 + settings.SETTINGS[name].index(whole) + 1


def check_lists():
    """The number of each setting of a list; a list that is refused has none; and the octets of texts."""
    found, octets = rows(LISTS, LIST, OCTETS)
    for text, *said in found:
        read = settings.read_list(text.encode()) or {}
        numbers = [setting_number(name, read.get(name)) for name in settings.SETTINGS]
        expect(LISTS, text, list(map(int, said)), numbers)
    for text, said in octets:
        expect(LISTS, text, list(map(int, said.split("∷")[:-1])), list(text.encode("ascii")))


def check_types():
    """The number of each type's text, which types select the same rows, and their fraction digits."""
    types, pairs, limited, counts = rows(TYPES, TYPE, PAIR, LIMITED, COUNT)
    for text, limits, said in types:
        read = settings.read_type(text.encode(), LIMITS[limits])
        expect(TYPES, text, int(said), read if settings.is_refused(read) else 0)
    pairs = [(first, "no_limits", second, "no_limits", said) for first, second, said in pairs]
    for first, upon, second, other, said in pairs + limited:
        read = settings.read_type(first.encode(), LIMITS[upon]), settings.read_type(second.encode(), LIMITS[other])
        expect(TYPES, f"{first} {upon} and {second} {other}", said, truth(settings.same_rows(*read)))
    for text, said in counts:
        expect(TYPES, text, int(said), settings.fraction_digits(settings.read_type(text.encode())))


def check_texts():
    """The number of each text under its type, and after 0 its canonical text."""
    found, limited = rows(TEXTS, TEXT, UNDER)
    found = [(type_text, "no_limits", *rest) for type_text, *rest in found]
    for type_text, limits, text, number, canonical in found + limited:
        judged = texts.judge(type_text.encode(), LIMITS[limits], unquoted(text))
        expect(TEXTS, f"{type_text} {limits} {text}", (int(number), canonical.encode()), (judged[0], judged[1] or b""))


def check_settings():
    """Which years are of each Year setting."""
    (found,) = rows(SETTINGS, SETTING)
    for name, year, said in found:
        expect(SETTINGS, f"{name} {year}", said, truth(texts.year_setting(integer(year)) == name))


def row_time(fields, digits, fraction, zone):
    """A time of the tables of times and of rows."""
    kind, *difference = zone.split()
    if difference:
        difference = texts.Difference(b"-" if kind == "behind" else b"+", *map(int, difference))
    digits = texts.Fraction(int(fraction), int(digits)) if digits != "0" else None
    return texts.Time(tuple(map(int, fields.split())), digits, "LD" if difference else kind[-1], difference or None)


def time_exists(fields, digits, fraction, zone):
    """Whether a time exists, which no text shows where its fraction has more digits than it says."""
    if int(digits) > 9 or int(fraction) >= 10 ** int(digits):
        return False
    return texts.value_exists(texts.Value(None, row_time(fields, digits, fraction, zone), None))


def check_times():
    """Which times exist."""
    (found,) = rows(TIMES, TIME_THERE)
    for _, *time, said in found:
        expect(TIMES, time, said, truth(time_exists(*time)))


def taken(octets, take):
    """What is taken from the front of octets, and how many bits; None where they are not readable."""
    bits = per.Bits(bytes.fromhex(octets))
    try:
        return take(bits), bits.place
    except per.Unreadable:
        return None


def check_fields():
    """Numbers of the fields' ranges and free integers, both ways, and octets that give none."""
    ranged, integers, no_ranged, no_integer = rows(FIELDS, RANGED, INTEGER, NO_RANGED, NO_INTEGER)
    for numbers in ranged:
        count, number, width = map(int, numbers[:3])
        field, octets = per.Field(0, count - 1, WIDTHS[count]), numbers[3]
        expect(FIELDS, numbers, bytes.fromhex(octets), per.fill(per.field_bits(field, number)))
        expect(FIELDS, numbers, (number, width), taken(octets, lambda bits: bits.take_field(field)))
    for kind, text, octets in integers:
        written = per.fill(per.free_integer_bits(integer(text))) == bytes.fromhex(octets)
        expect(FIELDS, f"{text} {octets}", kind == "integer", written)
        expect(FIELDS, octets, (integer(text), 4 * len(octets)), taken(octets, per.Bits.take_free_integer))
    for count, octets in no_ranged:
        field = per.Field(0, int(count) - 1, WIDTHS[int(count)])
        expect(FIELDS, f"{count} {octets}", None, taken(octets, lambda bits: bits.take_field(field)))
    for octets in no_integer:
        expect(FIELDS, octets, None, taken(octets, per.Bits.take_free_integer))


def row_date(form, year, fields):
    """A date of the table of rows."""
    return texts.Date(form, integer(year), tuple(map(int, fields.split())))


def row_type(year_row=None, form=None, clock=None, digits="0", zone=None):
    """A type with what Table 2 looks at."""
    time = clock + "F" if clock and digits != "0" else clock
    return settings.Type(None, form, YEAR_ROWS.get(year_row), time, int(digits), zone, None, None, None, False)


def check_row(t, value, octets, said, loose):
    """The octets of a value with their bit count, and back; those of a loose spelling back only."""
    written = per.write(t, value)
    said_written = (bytes.fromhex(octets), int(said))
    expect(TABLE_2, value, True if loose else said_written, written[0] != said_written[0] if loose else written)
    expect(TABLE_2, value, (value, int(said)), taken(octets, lambda bits: per.take_value(bits, t)))


def check_rows():
    """Values of each row of Table 2, some under a type, loose spellings, and octets that give nothing."""
    dated, timed, both, typed, no_date, no_time = rows(TABLE_2, DATED, TIMED, BOTH, TYPED, NO_DATE, NO_TIME)
    for kind, years, form, year, fields, *coding in dated:
        value = texts.Value(row_date(form, year, fields), None, None)
        check_row(row_type(years, form), value, *coding, kind == "loose_date")
    for kind, clock, *time, octets, count in timed:
        value = texts.Value(None, row_time(*time), None)
        check_row(row_type(None, None, clock, time[1], value.time.zone), value, octets, count, kind == "loose_time")
    for years, form, year, fields, clock, *time, octets, count in both:
        value = texts.Value(row_date(form, year, fields), row_time(*time), None)
        check_row(row_type(years, form, clock, time[1], value.time.zone), value, octets, count, False)
    for years, form, year, fields, clock, *time, octets, count in typed:
        value = texts.Value(row_date(form, year, fields), row_time(*time) if clock else None, None)
        t = row_type(None, form, clock or None, time[1] or "0", value.time.zone if clock else None)
        check_row(t._replace(years=YEAR_SETTINGS[years]), value, octets, count, False)
    for years, form, octets in no_date:
        expect(TABLE_2, f"{form} {octets}", None, per.read_octets(row_type(years, form), bytes.fromhex(octets)))
    for clock, digits, zone, octets in no_time:
        t = row_type(None, None, clock, digits, zone)
        expect(TABLE_2, f"{clock} {octets}", None, per.read_octets(t, bytes.fromhex(octets)))


def check_durations():
    """Durations from any spelling to the canonical text, PER and back; texts that are refused; and the number of octets."""
    spelled, refused, numbered = rows(DURATIONS, SPELLED_DURATION, NO_DURATION_TEXT, DURATION_OCTETS)
    for text, canonical, octets, bits in spelled:
        check_both_ways(DURATIONS, per, "DURATION", text, "0", octets, bits, canonical)
    for text in refused:
        judged = texts.judge(b"DURATION", settings.NO_LIMITS, unquoted(text))
        expect(DURATIONS, text, 3, judged[0])
    for octets, number in numbered:
        found = per.decode(b"DURATION", settings.NO_LIMITS, bytes.fromhex(octets), ROOM)
        expect(DURATIONS, octets, int(number), found[0])


def element_duration(fields):
    """A duration of the table of elements: its last place, its numbers from years to seconds, its fraction's digits and value."""
    last, *numbers, digits, fraction = map(int, fields.split())
    named = enumerate(zip(durations.ROOTS, numbers))
    components = tuple(durations.Component(*each) for place, each in named if each[1] or place == last)
    return durations.Duration(components, durations.FractionalPart(digits, fraction) if digits else None)


def check_element(kind, name, t, value, octets):
    """The element of a value, and back; one that is not written back only."""
    t, octets = t._replace(name=NAMED[name]), bytes.fromhex(octets)
    expect(ELEMENTS, f"{value} {octets}", not kind.startswith("loose"), der.write(t, value)[0] == octets)
    expect(ELEMENTS, octets, value, der.read_octets(t, octets))


def check_elements():
    """Elements of each tag, those that are read and not written, and octets that give nothing at a name's form."""
    kinds = DATE_ELEMENT, TIME_ELEMENT, BOTH_ELEMENT, DURATION_ELEMENT, NO_ELEMENT
    dates, times, both, lasting, unreadable = rows(ELEMENTS, *kinds)
    for kind, name, form, year, fields, octets in dates:
        check_element(kind, name, row_type(None, form), texts.Value(row_date(form, year, fields), None, None), octets)
    for kind, name, clock, *time, octets in times:
        value = texts.Value(None, row_time(*time), None)
        check_element(kind, name, row_type(None, None, clock, time[1], value.time.zone), value, octets)
    for kind, name, form, year, fields, clock, *time, octets in both:
        value = texts.Value(row_date(form, year, fields), row_time(*time), None)
        check_element(kind, name, row_type(None, form, clock, time[1], value.time.zone), value, octets)
    for kind, name, fields, octets in lasting:
        check_element(kind, name, ELEMENT_TYPES["duration"], texts.Value(None, None, element_duration(fields)), octets)
    for form, name, octets in unreadable:
        t = ELEMENT_TYPES[form]._replace(name=NAMED[name])
        expect(ELEMENTS, f"{form} {name} {octets}", None, der.read_octets(t, bytes.fromhex(octets)))


def check_both_ways(table, coding, type_text, text, number, octets, bits, canonical, limits=settings.NO_LIMITS):
    """What an encoder makes of a text, and after 0 what the decoder makes of its octets."""
    said = (int(number), bytes.fromhex(octets), int(bits))
    found = coding.encode(type_text.encode(), limits, text.encode(), ROOM)
    expect(table, f"{type_text} {text}", said, found)
    if number == "0":
        back = coding.decode(type_text.encode(), limits, bytes.fromhex(octets), ROOM)
        expect(table, f"{type_text} {octets}", (0, canonical.encode(), int(bits)), back)


def check_causes(table, causes, limits_named):
    """The number that decoding octets gives, with limits and so much room."""
    for work, type_text, limits, octets, room, number in causes:
        found = CODERS[work].decode(type_text.encode(), limits_named[limits], bytes.fromhex(octets), int(room))
        expect(table, f"{work} {type_text} {limits} {octets} {room}", int(number), found[0])


def check_codings():
    """Values in PER and in DER, and back; a value of each row, and some under limits; elements of each tag; and the number of each cause."""
    values, coded, limited, tagged, causes = rows(CODINGS, VALUE, CODED, CODED_UNDER, TAGGED, CAUSE)
    for type_text, text, number, octets, bits, element in values:
        check_both_ways(CODINGS, per, type_text, text, number, octets, bits, text)
        check_both_ways(CODINGS, der, type_text, text, number, element, "0", text)
    for type_text, text, octets, bits in coded:
        check_both_ways(CODINGS, per, type_text, text, "0", octets, bits, text)
    for limits, type_text, text, number, octets, bits in limited:
        check_both_ways(CODINGS, per, type_text, text, number, octets, bits, text, CODING_LIMITS[limits])
    for type_text, text, number, element, canonical in tagged:
        check_both_ways(CODINGS, der, type_text, text, number, element, "0", canonical)
    check_causes(CODINGS, causes, CODING_LIMITS)


def check_tables(table, values, refused, causes):
    """Values in PER and in DER, and back, from any spelling; texts and types that are refused; and causes."""
    for type_text, text, canonical, octets, bits, element in values:
        check_both_ways(table, per, type_text, text, "0", octets, bits, canonical)
        check_both_ways(table, der, type_text, text, "0", element, "0", canonical)
    for type_text, limits, text, number in refused:
        found = [coder.encode(type_text.encode(), LIMITS[limits], unquoted(text), ROOM) for coder in CODERS.values()]
        expect(table, f"{type_text} {limits} {text}", [(int(number), b"", 0)] * 2, found)
    check_causes(table, causes, LIMITS)


def check_duration_codings():
    """The tables of durations, and one type's octets under another."""
    *tables, read = rows(DURATION_CODINGS, SPELLED_VALUE, REFUSES, CAUSE, READ_UNDER)
    check_tables(DURATION_CODINGS, *tables)
    for work, writer, text, reader, number, given, bits in read:
        sent, octets, _ = CODERS[work].encode(writer.encode(), settings.NO_LIMITS, text.encode(), ROOM)
        found = CODERS[work].decode(reader.encode(), settings.NO_LIMITS, octets, ROOM)
        said = 0, int(number), given.encode(), int(bits)
        expect(DURATION_CODINGS, f"{work} {writer} {text} {reader}", said, (sent, *found))


def check_point_codings(table):
    """The tables of second 60, and of years of up to nine digits."""
    check_tables(table, *rows(table, SPELLED_VALUE, REFUSES, CAUSE))


def check_lines():
    """The reply to each line, with so many zeros behind it; `\\r` is a carriage return."""
    (found,) = rows(LINES, LINE)
    for text, zeros, said in found:
        line = text.replace("\\r", "\r").encode() + b"0" * int(zeros)
        expect(LINES, text, said.encode(), convert_lines.reply(line))


if __name__ == "__main__":
    check_calendar()
    check_shown()
    check_lists()
    check_types()
    check_texts()
    check_settings()
    check_times()
    check_fields()
    check_rows()
    check_durations()
    check_elements()
    check_codings()
    check_duration_codings()
    check_point_codings(LEAP_CODINGS)
    check_point_codings(YEAR_CODINGS)
    check_lines()
