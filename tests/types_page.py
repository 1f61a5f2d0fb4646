"""Makes docs/TYPES.md, types and texts on one page. Every canonical text, octet, bit count and number of a refusal in it is what
the reference answers at that moment; an example that is refused, or one of a refusal that is not, ends this with a message.

`--check` makes nothing. It prints the first fault and exits 1, or prints nothing: the page is not what is made, a word or a name
that the code reads has no example, the comment on types in include/anafzir.h lacks one or shows another text for it, or the
README's table of settings or its names are others.
`--program PATH` runs every example through the program `anafzir` at that path too, as per, der, unper and under, and prints the
first that it answers otherwise."""

import argparse
import re
import subprocess
import sys
from collections import namedtuple
from pathlib import Path

ROOT = Path(__file__).resolve().parent.parent
sys.dont_write_bytecode = True
sys.path.insert(0, str(ROOT / "reference"))
import der  # noqa: E402
import per  # noqa: E402
from settings import NAMES, NO_LIMITS, SETTINGS, Limits  # noqa: E402
from texts import year_text  # noqa: E402
from years import YEAR_RANGES  # noqa: E402

PAGE = ROOT / "docs/TYPES.md"
HEADER = ROOT / "include/anafzir.h"
README = ROOT / "README.md"
WORDS = ROOT / "crates/lists/src/words.rt"
TYPE_TEXT = ROOT / "crates/settings/src/type_text.rt"

# more octets than any result has
ROOM = 136

# what the reference says: the number and, after 0, the canonical text, the octets of both encodings in hex and the bit count of PER
Answer = namedtuple("Answer", "number text per bits der")

# a setting in a table: what it means, the form of its text where that has one column, and a value's text
Row = namedtuple("Row", "setting meaning form text")

# a text, the type that it stands under, and why it is as it is
Case = namedtuple("Case", "text type why")

# the refusals of a type; the others are of what stands under it
TYPE_NUMBERS = (1, 2)

# letters of a form that stand for a digit; the others stand for themselves, and ± for a sign
DIGIT_LETTERS = "YMDwhmsf"

BASICS = (
    Row("Basic=Date", "a date", "", "2006"),
    Row("Basic=Time", "a time of day", "", "15"),
    Row("Basic=Date-Time", "both, `T` between", "", "2006T15"),
    Row("Basic=Interval", "a duration", "", "P1Y6M"),
)
BESIDE = {
    "Basic=Date": "Date=Y Year=Basic",
    "Basic=Time": "Time=H Local-or-UTC=L",
    "Basic=Date-Time": "Date=Y Year=Basic Time=H Local-or-UTC=L",
    "Basic=Interval": "Interval-type=D",
}

DATES = (
    Row("Date=Y", "the year", "YYYY", "2006"),
    Row("Date=YM", "and the month, 01 to 12", "YYYY-MM", "2006-06"),
    Row("Date=YMD", "and the day of the month", "YYYY-MM-DD", "2006-06-13"),
    Row("Date=YD", "the year and its day, 001 to 366", "YYYY-DDD", "2006-164"),
    Row("Date=YW", "the year and its week, 01 to 53", "YYYY-Www", "2006-W24"),
    Row("Date=YWD", "and the day, 1 (Monday) to 7", "YYYY-Www-D", "2006-W24-2"),
)

YEARS = (
    Row("Year=Basic", "", "YYYY", "2006"),
    Row("Year=Proleptic", "", "YYYY", "1066"),
    Row("Year=Negative", "", "-YYYY", "-0044"),
    Row("Year=L5", "", "±YYYYY", "+12006"),
    Row("Year=L6", "", "±YYYYYY", "-129000"),
    Row("Year=L7", "", "±YYYYYYY", "-2580000"),
    Row("Year=L8", "", "±YYYYYYYY", "-66000000"),
    Row("Year=L9", "", "±YYYYYYYYY", "-251902000"),
)

TIMES = (
    Row("Time=H", "hours, 00 to 24", "hh", "15"),
    Row("Time=HM", "and minutes, 00 to 59", "hh:mm", "15:27"),
    Row("Time=HMS", "and seconds, 00 to 60", "hh:mm:ss", "15:27:46"),
)

FRACTIONS = (
    Row("Time=HF1", "", "hh.f", "15.5"),
    Row("Time=HMF2", "", "hh:mm.ff", "15:27.75"),
    Row("Time=HMSF3", "", "hh:mm:ss.fff", "15:27:46.500"),
    Row("Time=HF4", "", "hh.ffff", "15.4628"),
    Row("Time=HMF5", "", "hh:mm.fffff", "15:27.77500"),
    Row("Time=HMSF6", "", "hh:mm:ss.ffffff", "15:27:46.500000"),
    Row("Time=HF7", "", "hh.fffffff", "15.4629166"),
    Row("Time=HMF8", "", "hh:mm.ffffffff", "15:27.00000001"),
    Row("Time=HMSF9", "", "hh:mm:ss.fffffffff", "15:27:46.123456789"),
)

ZONES = (
    Row("Local-or-UTC=L", "local; where, it does not say", "hh:mm", "15:27"),
    Row("Local-or-UTC=Z", "UTC", "hh:mmZ", "15:27Z"),
    Row("Local-or-UTC=LD", "local, and its difference to UTC", "hh:mm±hh:mm", "15:27+05:30"),
)

INTERVALS = (Row("Interval-type=D", "the duration by itself", "", "P1Y6M"),)

NAME_TEXTS = {"DATE": "2006-06-13", "TIME-OF-DAY": "15:27:46", "DATE-TIME": "2006-06-13T15:27:46", "DURATION": "P1Y6M"}


def date_type(date, year):
    return f"Basic=Date Date={date} Year={year}"


def time_type(time, zone):
    return f"Basic=Time Time={time} Local-or-UTC={zone}"


Y, PROLEPTIC, NEGATIVE, L5, L6, L7, L8, L9 = (date_type("Y", row.setting.partition("=")[2]) for row in YEARS)
PLAIN_YEARS, THREE_YEARS = f"{Y}|{PROLEPTIC}", f"{L9}|{NEGATIVE}|{L5}"
SIX_YEARS = "|".join((NEGATIVE, L5, L6, L7, L8, L9))
DURATION_LIST = "Basic=Interval Interval-type=D"

# types of several lists, with a text that each list holds
TOGETHER = (
    (PLAIN_YEARS, "`Basic` and `Proleptic`", ("2006", "1066")),
    (THREE_YEARS, "`L9`, `Negative` and `L5`", ("-251902000", "-0044", "+12006")),
    (SIX_YEARS, "all with a sign", ("-0044", "+12006", "-129000", "-2580000", "-66000000", "-251902000")),
)

# types with a bar that are refused
BARRED = (
    Case("2006", f"{Y}|{date_type('YM', 'Basic')}", "they differ in Date"),
    Case("15", f"{time_type('H', 'L')}|{time_type('H', 'Z')}", "they differ in Local-or-UTC"),
    Case("2006", f"{Y}|{L5}", "Years of two rows"),
    Case("-129000", f"{L6}|{L7}|{PROLEPTIC}", "Years of two rows"),
    Case("2006", f"{Y}|{DURATION_LIST}", "a date beside a duration"),
    Case("2006", f"{Y}|{Y}", "two equal lists"),
    Case("-129000", f"{Y}|{L6}|{L6}", "two equal lists beside another row"),
    Case("-129000", f"{L6}|{date_type('Y', 'L10')}", "a word that is no Year"),
    Case("2006", f"{Y} | {PROLEPTIC}", "a space beside the bar"),
    Case("-129000", f"{SIX_YEARS}|{Y}", "seven lists"),
    Case("2006-06-13", f"DATE|{date_type('YMD', 'Proleptic')}", "a name beside the bar"),
)

WINDOW, TURNED, NO_24 = Limits((2000, 2010), False), Limits((2010, 2000), False), Limits(None, True)
LIMITED = (
    (WINDOW, Case("2010-12-31", "DATE", "both ends are inside")),
    (WINDOW, Case("2011-01-01", "DATE", "outside")),
    (TURNED, Case("2006-06-13", "DATE", "no year is left")),
    (Limits((-44, -1), False), Case("-0044", NEGATIVE, "-44 is the year -0044, 0 is 0000")),
    (Limits((-298900000, -251902000), False), Case("-251902000", L9, "all years of nine digits are of 32 bits")),
    (WINDOW, Case("15:27:46", "TIME-OF-DAY", "no date: no place")),
    (NO_24, Case("24:00:00", "TIME-OF-DAY", "hour 24")),
    (NO_24, Case("23:59:60", "TIME-OF-DAY", "another hour")),
    (NO_24, Case("2006-06-13", "DATE", "no time: no place")),
    (Limits((2000, 2010), True), Case("2006-06-13T24:00:00", "DATE-TIME", "both have a place; hour 24")),
    (WINDOW, Case("P1Y6M", "DURATION", "no date: no place")),
    (NO_24, Case("PT24H", "DURATION", "no time of day: no place")),
)

# texts by their subject, with the type that all of a subject stand under
TEXTS = (
    ("Years: four digits; `-` and four digits; or a sign and five to nine digits, the first not 0.", THREE_YEARS, (
        ("-0044", "`Year=Negative`"), ("+12006", "`Year=L5`"), ("-12006", "`Year=L5`"), ("-251902000", "`Year=L9`"),
        ("2006", "of another Year setting"), ("+123456", "of another one, `Year=L6`"), ("+2006", "a sign and four digits"),
        ("12006", "five digits without a sign"), ("+011985", "a leading 0"), ("+1234567890", "ten digits"),
        ("-0000", "the year 0 is 0000"),
    )),
    ("Dates: every field with all its digits; the Gregorian calendar, for every year.", "DATE", (
        ("2008-02-29", "a leap year"), ("2006-02-29", "no leap year"), ("2006-13-01", "no month 13"),
        ("2006-6-13", "a month of one digit"), ("1066-10-14", "of another Year setting"), ("20060613", "no separators"),
    )),
    ("Weeks: week 01 is the one with 4 January; some years have a week 53.", date_type("YW", "Basic"), (
        ("2020-W53", "a year of 53 weeks"), ("2021-W53", "one of 52"), ("2020-53", "no `W`"),
    )),
    ("Times: hour 24 is the end of a day, and all behind it is 0. Second 60 is a leap second; a local time may have it in any minute,\n"
     "since its difference is not known.", "TIME-OF-DAY", (
        ("24:00:00", "the end of the day"), ("24:00:01", "after it"), ("23:59:60", "a leap second"), ("12:34:60", "it may be one"),
        ("15:60:00", "no minute 60"), ("15:27", "no seconds"),
    )),
    ("Leap seconds of UTC: second 60 stands at the end of 23:59 alone, with any fraction.", time_type("HMS", "Z"), (
        ("23:59:60Z", "a leap second"), ("12:34:60Z", "another minute"),
    )),
    ("Leap seconds with a difference: second 60 stands where the time less its difference is 23:59, around the day.",
     time_type("HMS", "LD"), (
        ("05:29:60+05:30", "23:59 UTC of the day before"), ("05:30:60+05:30", "00:00 UTC"), ("18:59:60-05", "23:59 UTC"),
        ("23:59:60-05", "04:59 UTC of the next day"),
    )),
    ("Fractions: `.` or `,` and exactly n digits.", time_type("HMSF3", "L"), (
        ("15:27:46,500", "a comma is read, and not written"), ("15:27:46.5", "one digit"), ("15:27:46", "none"),
    )),
    ("Differences: a sign, two digits of hours, 00 to 15, and behind `:` two digits of minutes, or none.", time_type("HM", "LD"), (
        ("15:27+05:30", "ahead of UTC"), ("15:27-03", "behind it"), ("15:27+01:00", "minutes 00 are read, and not written"),
        ("15:27+00", "a zero difference"), ("15:27-00", "it has `+`"), ("15:27+16", "more than 15"), ("15:27Z", "another setting"),
    )),
)

DURATION_TEXTS = (
    ("P1Y6M", "a year and six months"), ("PT0.5S", "half a second"), ("P3W", "three weeks"), ("P1DT12H", "a day and twelve hours"),
    ("PT36H", "nothing is converted"), ("PT1,25H", "a comma is read, and not written"),
    ("P0Y0M1D", "zeros before the last component are dropped"), ("P0Y0M", "the last stays"), ("P1Y0M", "the last stays"),
)
NO_DURATIONS = (
    ("P", "no component"), ("P1DT", "nothing after `T`"), ("P5S", "seconds without `T`"), ("P1D1Y", "days before years"),
    ("P1W1D", "weeks beside days"), ("P01D", "a needless 0"), ("P1.5DT1H", "a fraction before the last component"),
    ("PT.5S", "no digit before the fraction"), ("P1234567890D", "ten digits"), ("P-1D", "a sign"), ("1Y6M", "no `P`"),
)

# what is not there, each with a type, or with a text under a type that is there
ABSENT = (
    ("a property that is missing", "Basic=Date Date=YMD", None),
    ("one that does not belong there", f"{Y} Time=H", None),
    ("one twice", f"{Y} Year=L5", None),
    ("settings beside a name", "DATE Year=Proleptic", None),
    ("anything but one space between", "Basic=Date, Date=Y, Year=Basic", None),
    ("spaces in a text", "DATE-TIME", "2006-06-13 15:27:46"),
    ("lower case", "date", None),
    ("", "basic=date date=y year=basic", None),
    ("", "DATE-TIME", "2006-06-13t15:27:46"),
    ("quotation marks", "DATE", '"2006-06-13"'),
    ("centuries", "Basic=Date Date=C Year=Basic", None),
    ("years of more than nine digits", date_type("Y", "L10"), None),
    ("", L9, "+1234567890"),
    ("years with a sign and four digits, but for Negative", date_type("Y", "L4"), None),
    ("fractions of no digit or of ten", time_type("HMSF0", "L"), None),
    ("", time_type("HMSF10", "L"), None),
    ("Midnight, but there is a limit", f"{time_type('HMS', 'L')} Midnight=Start", None),
    ("intervals with a start or an end", "Basic=Interval Interval-type=SE SE-point=Date Date=Y Year=Basic", None),
    ("", "Basic=Interval Interval-type=SD", None),
    ("", "Basic=Interval Interval-type=DE", None),
    ("", "DATE", "2006-06-13/2006-06-14"),
    ("recurring intervals", "Basic=Rec-Interval Interval-type=D", None),
    ("", "DURATION", "R5/P1D"),
    ("`TIME`, and the text of a module", "TIME", None),
    ("", f'TIME(SETTINGS "{Y}")', None),
    ("other names of X.680", "YEAR-MONTH-DAY", None),
    ("GeneralizedTime and UTCTime", "GeneralizedTime", None),
    ("", "UTCTime", None),
    ("", "DATE-TIME", "20060613152746Z"),
    ("seconds since an epoch", "DATE-TIME", "1150212466"),
    ("names of zones", time_type("HMS", "LD"), "15:27:46 CET"),
)

# octets that a decoder refuses
OCTETS = (
    ("unper", "DATE", "05", "they end inside a field"),
    ("unper", "TIME-OF-DAY", "FFFF80", "no field has hour 31"),
    ("unper", "DATE", "047A", "2006-02-30"),
    ("unper", time_type("HMS", "Z"), "645E00", "`12:34:60Z`: second 60 in another minute"),
    ("unper", date_type("YMD", "Proleptic"), "0558", "2006-06-13: of another Year setting"),
    ("unper", L5, "0301E240", "+123456: of another Year setting"),
    ("unper", L9, "043B9ACA00", "1,000,000,000: of no Year setting"),
    ("unper", "DATE", "0559", "the filling is not zero"),
    ("unper", "DATE", "055800", "an octet is left over"),
    ("unper", Y, "C081F680", "2010, for which there are fewer bits"),
    ("unper", L6, "040001E240", "+123456, for which there are fewer octets"),
    ("under", "DATE", "1F20083230303630363133", "the tag of `TIME-OF-DAY`"),
    ("under", Y, "0E810432303036", "a length of two octets"),
    ("under", Y, "0E0532303036", "fewer octets than the length says"),
    ("under", L6, "0E072B303131393835", "`+011985`: a leading 0"),
    ("under", time_type("HMS", "LD"), "0E0E30353A33303A36302B30353A3330", "`05:30:60+05:30`: second 60 in another minute"),
    ("under", time_type("HMSF3", "L"), "0E0C31353A32373A34362C353030", "`15:27:46,500`: a comma"),
    ("under", time_type("HM", "LD"), "0E0B31353A32372B30313A3030", "`15:27+01:00`: minutes 00"),
    ("under", "DURATION", "1F220430593144", "`P0Y1D`: a zero component before the last"),
)

# a table of words in the code, and a word of it; a name that it compares a type's text with
TABLE = re.compile(r"^const (\w+)_WORDS: \[&\[u8\]; (\d+)\] = \[([^;]*)\];", re.M)
WORD = re.compile(r'\bb"([^"]*)"')
NAME = re.compile(r'\bsame\(text, b"([^"]+)"\)')

# the number of a refusal in the page
NUMBER = re.compile(r"refused(?:,| with) (\d)|^(\d)  ", re.M)

# the first cell of a table's row, where it is code
FIRST_CELL = re.compile(r"^\| `([^`]+)` \|", re.M)

# the header's comment on types, a row of it with its columns, and what it says of canonical texts
COMMENT = re.compile(r"^/\* A type is .*?\*/$", re.M | re.S)
COMMENT_ROW = re.compile(r"^ \*   ([\w-]+=[\w-]+|[A-Z-]+)  +(\S+(?: \S+)*)(?:  +(\S.*))?$", re.M)
# the README's list of settings, a row of it, and its names
README_ROW = re.compile(r"^\| `([\w-]+)` \| ((?:`\w[\w-]*`(?:, )?)+)", re.M)
README_NAMES = re.compile(r"^The names are ([^.]*)\.", re.M)

BECOMES = re.compile(r'"([^"]+)" (?:becomes "([^"]+)"|stays)')


class Asked:
    """What the page asks of the reference, each type with its limits and a text once, and each octets, and the answers."""

    def __init__(self, answer, decoded):
        self.answer, self.answers = answer, {}
        self.decoded, self.refusals = decoded, {}

    def of(self, type_text, text, limits=NO_LIMITS):
        """The answer, which is kept."""
        question = (type_text, limits, text)
        if question not in self.answers:
            self.answers[question] = self.answer(*question)
        return self.answers[question]

    def good(self, type_text, text):
        """The answer to an example of the type."""
        found = self.of(type_text, text)
        if found.number != 0:
            sys.exit(f"types_page.py: {type_text}: {text} is no example: {found.number}")
        return found

    def no_type(self, type_text, text):
        """The number of an example of a type that is refused, whatever the text is."""
        found = self.of(type_text, text)
        if found.number not in TYPE_NUMBERS:
            sys.exit(f"types_page.py: {type_text} is a type")
        return found.number

    def no_text(self, type_text, text):
        """The number of an example of a text that is refused under a type."""
        found = self.of(type_text, text)
        if found.number in (0, *TYPE_NUMBERS):
            sys.exit(f"types_page.py: {type_text}: {text} is an example, or the type is none")
        return found.number

    def no_octets(self, work, type_text, octets):
        """The number of octets that are refused under a type, which is kept."""
        number = self.decoded(work, type_text, octets)
        if number in (0, *TYPE_NUMBERS):
            sys.exit(f"types_page.py: {type_text}: {octets} is an example, or the type is none")
        self.refusals[work, type_text, octets] = number
        return number


def answer(type_text, limits, text):
    """What the reference says, in PER and in DER, which agree on the number and on the text that comes back."""
    given, value = type_text.encode("ascii"), text.encode("ascii")
    number, octets, bits = per.encode(given, limits, value, ROOM)
    der_number, element, _ = der.encode(given, limits, value, ROOM)
    back, der_back = per.decode(given, limits, octets, ROOM), der.decode(given, limits, element, ROOM)
    if der_number != number or (number == 0 and (back[::2] != (0, bits) or der_back[:2] != back[:2])):
        sys.exit(f"types_page.py: the reference does not agree with itself on {type_text}: {text}")
    canonical = back[1].decode("ascii") if number == 0 else ""
    return Answer(number, canonical, octets.hex().upper(), bits, element.hex().upper())


def decoded(work, type_text, octets):
    """The number that the reference gives to octets in hex."""
    decode = {"unper": per.decode, "under": der.decode}[work]
    return decode(type_text.encode("ascii"), NO_LIMITS, bytes.fromhex(octets), ROOM)[0]


def table(head, rows):
    """A table of Markdown."""
    columns = head.split(" | ")
    lines = [f"| {head} |", "|" + "---|" * len(columns)]
    for cells in rows:
        if len(cells) != len(columns) or any("|" in cell for cell in cells):
            sys.exit(f"types_page.py: no row of a table: {cells}")
        lines.append("| " + " | ".join(cells) + " |")
    return "\n".join(lines) + "\n"


def code(text):
    return f"`{text}`"


def fits(form, text):
    """Whether a text is of a form."""
    signs = {**dict.fromkeys(DIGIT_LETTERS, r"\d"), "±": "[+-]"}
    return re.fullmatch("".join(signs.get(letter, re.escape(letter)) for letter in form), text) is not None


def encodings(found):
    """The cells of both encodings."""
    return [f"`{found.per}`, {found.bits}", code(found.der)]


def setting_rows(asked, rows, pattern):
    """The cells of settings, each with an example under the type that the pattern makes of the setting."""
    for row in rows:
        found = asked.good(pattern.replace("*", row.setting), row.text)
        if found.text != row.text or (row.form and not fits(row.form, row.text)):
            sys.exit(f"types_page.py: {row.setting}: {row.text} is not canonical, or not of the form {row.form}")
        meaning, form = [row.meaning] * bool(row.meaning), [code(row.form)] * bool(row.form)
        yield [code(row.setting), *meaning, *form, code(row.text), *encodings(found)]


def result(found):
    """A cell for what becomes of a text: its canonical text, or the refusal."""
    return f"refused, {found.number}" if found.number else code(found.text)


def listed(words):
    """Words as code, with commas and a last `and`."""
    *others, last = map(code, words)
    return ", ".join(others) + " and " + last if others else last


def head(asked):
    list_text = date_type("YM", "Basic")
    date, month = asked.good("DATE", "2006-06-13"), asked.good(list_text, "2006-06")
    return f"""# Types and texts

Made by `python3 tests/types_page.py`: every result in it is what the reference (`reference/`) answers. Nobody needs to know the
standard to read it.

A **type** says which values there are and how they look. It is one of four names, a list of settings, or up to six lists. A **text**
is how a person writes a value. It becomes PER, which is bits, or DER, which is a tag, a length and contents. From either one the
**canonical text** comes back: a value may have several texts, and one of them is canonical.

```sh
anafzir per DATE 2006-06-13
anafzir der '{list_text}' 2006-06
anafzir under '{list_text}' {month.der}
```

```text
{date.per}
{month.der}
{month.text}
```

In the tables, PER and DER are octets in hex. Behind PER stands its bit count; the last octet is filled with zero bits. A text is
canonical where nothing else is said. A refusal has a number: [what each says](../README.md#the-seven-numbers).
"""


def names(asked):
    rows, examples = [], []
    for name, text in NAME_TEXTS.items():
        settings = NAMES[name.encode()].decode()
        found, same = asked.good(name, text), asked.good(settings, text)
        if (found.per, found.text) != (same.per, same.text):
            sys.exit(f"types_page.py: {name} is not its settings")
        omitted = listed(chr(octet) for octet in der.LEFT_OUT[name])
        rows.append([code(name), code(settings), der.TAGS[name].hex(" ").upper(), omitted])
        examples.append([code(name), code(text), *encodings(found)])
    return f"""## Four names

{table("Name | It stands for | DER tag | DER contents without", rows)}
{table("Name | Text | PER, bits | DER", examples)}
A name and its settings have the same values, texts and PER. In DER they differ: the tag of any list of settings is
{der.TAGS[None].hex().upper()}, and its contents are the whole canonical text.
"""


def basics(asked):
    rows = []
    for row in BASICS:
        beside = BESIDE[row.setting]
        cells = next(setting_rows(asked, [row], f"* {beside}"))
        rows.append([*cells[:2], listed(pair.split("=")[0] for pair in beside.split()), *cells[2:]])
    missing = asked.no_type("Basic=Date Date=YMD", "2006-06-13")
    turned = "Year=Basic Date=Y Basic=Date"
    return f"""## Settings

A list is `Property=Setting` pairs with one space between them, in any order, each property once. `Basic` is always there. It says
what a value is and which properties stand beside it: all of these and no others, else the type is refused with {missing}.

{table("Setting | A value is | Beside it | Text | PER, bits | DER", rows)}
In these rows `Date=Y Year=Basic`, `Time=H Local-or-UTC=L`, both of them, and `Interval-type=D` stand beside it. The first type in
another order is `{turned}`, and `2006` is `{asked.good(turned, "2006").per}` again.
"""


def dates(asked):
    rows = setting_rows(asked, DATES, "Basic=Date * Year=Basic")
    return f"""### Date

With `Basic=Date` and `Year=Basic` beside it:

{table("Setting | It shows | Form | Text | PER, bits | DER", rows)}"""


def year_spans(setting):
    """The years of a setting."""
    ranges = sorted(ends for name, *ends in YEAR_RANGES if f"Year={name}" == setting)
    return ", ".join(" to ".join(year_text(year).decode() for year in ends) for ends in ranges)


def years(asked):
    near = per.NEAR_YEARS[0]
    rows = setting_rows(asked, [row._replace(meaning=year_spans(row.setting)) for row in YEARS], "Basic=Date Date=Y *")
    return f"""### Year

With `Basic=Date Date=Y` beside it. `Ln` has a sign and n digits, the first not 0, with n from 5 to 9. A year of another setting than
the type's is refused with {asked.no_text(Y, "1066")}.

{table("Setting | Years | Form | Text | PER, bits | DER", rows)}
In PER the years {near.lowest} to {near.highest} take the fewest bits.
"""


def times(asked):
    pattern = "Basic=Time * Local-or-UTC=L"
    one, two = asked.good(time_type("HF1", "L"), "15.5"), asked.good(time_type("HF2", "L"), "15.50")
    return f"""### Time

With `Basic=Time` and `Local-or-UTC=L` beside it:

{table("Setting | It shows | Form | Text | PER, bits | DER", setting_rows(asked, TIMES, pattern))}
`HFn`, `HMFn` and `HMSFn` have a fraction of exactly n digits, n from 1 to 9: of an hour, of a minute or of a second. Each of the
three takes each n; here are nine of the 27. Zeros at the end count: `15.5` under `Time=HF1` is `{one.per}`, and `15.50` under
`Time=HF2` is `{two.per}`.

{table("Setting | Form | Text | PER, bits | DER", setting_rows(asked, FRACTIONS, pattern))}"""


def zones(asked):
    rows = setting_rows(asked, ZONES, "Basic=Time Time=HM *")
    short = asked.good(time_type("HM", "LD"), "15:27+01:00").text
    return f"""### Local-or-UTC

With `Basic=Time Time=HM` beside it. A difference has no minutes where they are 0: `{short}`.

{table("Setting | The time is | Form | Text | PER, bits | DER", rows)}"""


def intervals(asked):
    rows = setting_rows(asked, INTERVALS, "Basic=Interval *")
    return f"""### Interval-type

With `Basic=Interval` beside it and nothing else. [Below](#durations) is what a duration looks like.

{table("Setting | A value is | Text | PER, bits | DER", rows)}"""


def several_lists(asked):
    rows = [[years_named, code(text), *encodings(asked.good(types, text))] for types, years_named, values in TOGETHER for text in values]
    width = max(len(case.why) for case in BARRED)
    refused = [f"{asked.no_type(case.type, case.text)}  {case.why:<{width}}  {case.type}" for case in BARRED]
    lines = "\n".join
    return f"""## Several lists

A type of up to six lists with `|` between them has the values of all. They differ in Year alone: as `Basic` and `Proleptic`, or as any
of `Negative` and `L5` to `L9`, in any order:

```text
{lines(types for types, _, _ in TOGETHER)}
```

{table("Years | Text | PER, bits | DER", rows)}
Why these: `Basic` and `Proleptic` share their rows of the standard's Table 2, and so do the Years with a sign, so that all of a type's
Years have the same fields in PER. All else with a bar is refused, with the number in front:

```text
{lines(refused)}
```
"""


def option_words(limits):
    """The options of the program that limits are."""
    years_given = ["--from", str(limits.window[0]), "--to", str(limits.window[1])] if limits.window else []
    return years_given + ["--no-24"] * limits.no_hour_24


def limited(asked):
    rows = []
    for limits, case in LIMITED:
        found, free = asked.of(case.type, case.text, limits), asked.good(case.type, case.text)
        if not found.number and found != free:
            sys.exit(f"types_page.py: limits change the octets of {case.type}: {case.text}")
        rows.append([code(" ".join(option_words(limits))), code(case.type), code(case.text), result(found), case.why])
    misplaced = asked.of("TIME-OF-DAY", "", WINDOW)
    return f"""## Limits

A type may leave out more: all years but those from a lowest to a highest, and hour 24. Limits stand beside the type and not in its
text: in C in `struct anafzir_limits`, for the program as `--from`, `--to` and `--no-24`. Years have a place where there is a date,
"no hour 24" where there is a time. Without its place a limit is refused with {misplaced.number}, whatever the text is. The values
that are left have the octets that they have without limits.

{table("Limits | Type | Text | Result | Why", rows)}
The counts in `struct anafzir_limits` have no place in any type yet. Leave them 0.
"""


def text_tables(asked):
    said = []
    for subject, type_text, cases in TEXTS:
        rows = [[code(text), result(asked.of(type_text, text)), why] for text, why in cases]
        said.append(f"{subject}\nUnder `{type_text}`:\n\n{table('Text | Result | Why', rows)}")
    return "## Texts\n\nThe result is the canonical text, or a refusal.\n\n" + "\n".join(said)


def durations(asked):
    good = [(text, why, asked.good("DURATION", text)) for text, why in DURATION_TEXTS]
    rows = [[code(text), code(found.text), *encodings(found), why] for text, why, found in good]
    refused = [[code(text), f"refused, {asked.no_text('DURATION', text)}", why] for text, why in NO_DURATIONS]
    return f"""### Durations

`P`, then years `Y`, months `M` and days `D`, and behind a `T` hours `H`, minutes `M` and seconds `S`: those that there are, in this
order, each a number before its letter. Or weeks `W` alone. A number has one to nine digits and no needless 0 in front. The last one
may have a fraction, `.` or `,` and one to nine digits. Under `DURATION`:

{table("Text | Canonical text | PER, bits | DER | Why", rows)}
{table("Text | Result | Why", refused)}"""


def octets_refused(asked):
    rows = [
        [work[2:].upper(), code(type_text), code(octets), f"refused, {asked.no_octets(work, type_text, octets)}", why]
        for work, type_text, octets, why in OCTETS
    ]
    return f"""## Octets

A decoder takes what the encoder writes for a value of the type, and nothing more, so that a value has one encoding:

{table("In | Type | Octets | Result | Why", rows)}
In C the number 7 says that the room is shorter than the result. Room of `ANAFZIR_ROOM` octets never is.
"""


def absent(asked):
    rows = []
    for what, type_text, text in ABSENT:
        number = asked.no_text(type_text, text) if text else asked.no_type(type_text, "2006-06-13")
        rows.append([what, f"`{text}` under `{type_text}`" if text else code(type_text), f"refused, {number}"])
    return f"""## What is not there

Nothing is guessed or repaired. Here are types that are none, and texts under types that are there. Types with a bar are
[above](#several-lists).

{table("What | Example | Result", rows)}"""


SECTIONS = (head, names, basics, dates, years, times, zones, intervals, several_lists, limited, text_tables, durations, octets_refused, absent)


def page(asked):
    """The whole page."""
    return "\n".join(section(asked) for section in SECTIONS)


def words(source):
    """The words in the code's tables, by the name of the table."""
    found = {}
    for name, size, text in TABLE.findall(source):
        found[name] = WORD.findall(text)
        if len(found[name]) != int(size):
            sys.exit(f"types_page.py: the table {name} has {len(found[name])} words, and not {size}")
    return found


def other_words(tables, named):
    """The words, with each n, and the names that either the code has or the reference."""
    whole = {word for name in tables if name != "FRACTION" for word in tables[name]}
    code_has = whole | {f"{word}{n}" for word in tables["FRACTION"] for n in range(1, 10)} | set(named)
    reference_has = {f"{name.decode()}={setting.decode()}" for name in SETTINGS for setting in SETTINGS[name]}
    return code_has ^ (reference_has | {name.decode() for name in NAMES})


def without_example(made, tables, named):
    """The words and names that have no row of their own in the page. A fraction's word has one with any n, and each n has one."""
    rows, fractions = set(FIRST_CELL.findall(made)), tables["FRACTION"]
    yield from (word for name in tables if name != "FRACTION" for word in tables[name] if word not in rows)
    yield from (f"{word}n" for word in fractions if not any(f"{word}{n}" in rows for n in range(1, 10)))
    yield from (f"a fraction of {n} digits" for n in range(1, 10) if not any(f"{word}{n}" in rows for word in fractions))
    yield from (name for name in named if name not in rows)


def shown_texts(asked):
    """The canonical texts of the page's examples, by each setting of their types; those of fractions also without n."""
    shown = {}
    for (type_text, _, _), found in asked.answers.items():
        for word in re.split(r"[ |]", type_text) * (found.number == 0):
            shown.setdefault(word, set()).add(found.text)
            shown.setdefault(re.sub(r"(?<=F)[1-9]$", "n", word), set()).add(found.text)
    return shown


def row_fault(word, second, third, shown):
    """What is wrong with a row of the header's comment, or nothing: a name stands for its settings, a setting has a text of the
    page, and one of Year has its years, where they are one range."""
    settings, spans = NAMES.get(word.encode()), year_spans(word)
    if settings and second != settings.decode() or not settings and second not in shown.get(word, ()):
        return f"{word} is not {second}"
    return f"{word} is {spans}" if spans and "," not in spans and spans != third else None


def comment_faults(header, tables, named, asked):
    """Where the header's comment on types lacks a word or a name, or says of one what the page does not."""
    comments = COMMENT.findall(header)
    if len(comments) != 1 or "docs/TYPES.md" not in comments[0]:
        yield "there is no comment on types that names docs/TYPES.md"
        return
    rows, shown = COMMENT_ROW.findall(comments[0]), shown_texts(asked)
    expected = [word + "n" * (name == "FRACTION") for name in tables for word in tables[name]] + named
    yield from (f"there is no row of {word}" for word in expected if word not in [row[0] for row in rows])
    yield from filter(None, (row_fault(*row, shown) for row in rows))
    becomes = {(question[2], found.text) for question, found in asked.answers.items()}
    said = " ".join(comments[0].replace("\n *", " ").split())
    yield from (f"{text} does not become {other}" for text, other in BECOMES.findall(said) if (text, other or text) not in becomes)


def other_settings(readme, tables, named):
    """The settings and names that either the README lists or the code has."""
    listed_pairs = {
        f"{name}={setting}" for name, settings in README_ROW.findall(readme) for setting in re.findall(r"`([^`]+)`", settings)}
    listed_names = {name for names_listed in README_NAMES.findall(readme) for name in re.findall(r"`([^`]+)`", names_listed)}
    code_has = {word + "n" * (table_name == "FRACTION") for table_name in tables for word in tables[table_name]} | set(named)
    return sorted(code_has ^ (listed_pairs | listed_names))


def runs(question, found):
    """The words for the program after its name, and what it must print, say and return, for each of its works."""
    type_text, limits, text = question
    if found.number:
        said = "\n", f"anafzir: argument 1: refused, {found.number}\n", 1
        given = [("per", text), ("der", text), *[("unper", "00"), ("under", "00")] * (found.number in TYPE_NUMBERS)]
        expected = [(work, octets, said) for work, octets in given]
    else:
        expected = [
            ("per", text, (f"{found.per} {found.bits}\n", "", 0)), ("unper", found.per, (f"{found.text} {found.bits}\n", "", 0)),
            ("der", text, (f"{found.der}\n", "", 0)), ("under", found.der, (f"{found.text}\n", "", 0)),
        ]
    for work, given, said in expected:
        yield [work, type_text, *option_words(limits), *["--bits"] * work.endswith("per"), "--", given], said


def replied(command):
    """What a program prints, says and returns; or why there is none of it."""
    try:
        run = subprocess.run(command, stdin=subprocess.DEVNULL, capture_output=True, timeout=60)
    except (OSError, subprocess.TimeoutExpired) as fault:
        return str(fault)
    return run.stdout.decode("utf-8", "replace"), run.stderr.decode("utf-8", "replace"), run.returncode


def program_fault(program, asked):
    """The first example that a program answers otherwise, or nothing."""
    for question, found in asked.answers.items():
        for arguments, expected in runs(question, found):
            reply = replied([program, *arguments])
            if reply != expected:
                return f"{program} {arguments}: {reply}, and not {expected}"
    for arguments, number in asked.refusals.items():
        reply = replied([program, *arguments])
        if reply != ("\n", f"anafzir: argument 1: refused, {number}\n", 1):
            return f"{program} {arguments}: {reply}, and not {number}"
    return None


def self_test_of_faults():
    """A word, a name, a text and a range that are not there are found, and one that is there is not."""
    tables = words(
        'const A_WORDS: [&[u8]; 2] = [b"Date=Y", b"Time=H"];\n'
        'const FRACTION_WORDS: [&[u8]; 2] = [\n    b"Time=HF",\n    b"Time=HMF",\n];\n')
    rows = [f"| `{word}` | x |\n" for word in ("Date=Y", "Time=H", "DATE", *(f"Time=HF{n}" for n in range(1, 10)))]
    lacking = [list(without_example("".join(rows[:k] + rows[k + 1:]), tables, ["DATE"])) for k in range(len(rows))]
    none = "Time=HMFn"
    expected = [["Date=Y", none], ["Time=H", none], [none, "DATE"], *([none, f"a fraction of {n} digits"] for n in range(1, 10))]
    if lacking != expected:
        sys.exit(f"types_page.py does not find what has no example: {lacking}")
    asked = Asked(answer, decoded)
    for type_text, text in ((Y, "2006"), (time_type("HF2", "L"), "15,25"), ("DATE", "2006-06-13")):
        asked.good(type_text, text)
    good = (
        "/* A type is docs/TYPES.md\n *\n *   Year=Basic    2006    1582 to 9999\n *   Time=HFn      15.25   x\n"
        ' *   DATE          Basic=Date Date=YMD Year=Basic\n * "15,25"\n * becomes "15.25", "2006" stays. */\n'
    )
    tables = {"A": ["Year=Basic"], "FRACTION": ["Time=HF"]}
    changes = (
        ("A type", "Type"), ("docs/", ""), ("Year=Basic    ", "Year=L5    "), ("2006    ", "2007    "), ("82", "83"),
        ("HFn", "HMFn"), ("15.25 ", "15.2 "), ("DATE  ", "DATES  "), ("YMD", "YD"), ("15,25", "15,2"), ('15.25"', '15.2"'),
        ('"2006"', '"2007"'),
    )
    wrong = [change for change in changes if not list(comment_faults(good.replace(*change, 1), tables, ["DATE"], asked))]
    if wrong or list(comment_faults(good, tables, ["DATE"], asked)):
        sys.exit(f"types_page.py does not find what is wrong in a comment: {wrong}")


def self_test_of_readme():
    """A setting and a name that the README lacks or has besides are found, and others are not."""
    tables = {"A": ["Year=Basic"], "FRACTION": ["Time=HF"]}
    readme = "| `Year` | `Basic` |\n| `Time` | `HFn` with n |\n\nThe names are `DATE`. `X`\n"
    changes = (("Basic", "Basic`, `L5"), ("| `Year` | `Basic` |\n", ""), ("HFn", "HF"), ("DATE", "DATES"), ("`DATE`", "`DATE` and `D`"))
    wrong = [change for change in changes if not other_settings(readme.replace(*change, 1), tables, ["DATE"])]
    if wrong or other_settings(readme, tables, ["DATE"]):
        sys.exit(f"types_page.py does not find what is wrong in a README: {wrong}")


def self_test_of_answers(made, asked):
    """No result is typed in: where the reference says otherwise, the page does, at every number, octet and bit count."""
    def otherwise(*question):
        found, text = answer(*question), question[2]
        number = {0: 0, 1: 2, 2: 1}.get(found.number, 8)
        return Answer(number, text if found.text == text else "canonical", "per", "bits", "der")

    other = page(Asked(otherwise, lambda *question: 8))
    numbers = list(zip(NUMBER.findall(made), NUMBER.findall(other)))
    typed = [found.der for found in asked.answers.values() if found.der and found.der in other]
    if typed or not numbers or any(first == second for first, second in numbers) or re.search(r"`[0-9A-F]+`, \d", other):
        sys.exit(f"types_page.py: a result is typed in: {typed or numbers}")


def main():
    parser = argparse.ArgumentParser(description="Makes docs/TYPES.md, or compares it with what is made.")
    parser.add_argument("--check", action="store_true", help="make nothing, and compare")
    parser.add_argument("--program", metavar="PATH", help="run every example through this program")
    arguments = parser.parse_args()
    asked = Asked(answer, decoded)
    made = page(asked)
    self_test_of_faults()
    self_test_of_readme()
    self_test_of_answers(made, asked)
    tables, named = words(WORDS.read_text("utf-8")), NAME.findall(TYPE_TEXT.read_text("utf-8"))
    faults = [f"{word} has no example" for word in without_example(made, tables, named)]
    faults += [f"{name} is read by the code alone, or by the reference alone" for name in sorted(other_words(tables, named))]
    header = HEADER.read_text("utf-8")
    faults += [f"{HEADER.relative_to(ROOT)}: {fault}" for fault in comment_faults(header, tables, named, asked)]
    faults += [f"README.md and the code differ in {word}" for word in other_settings(README.read_text("utf-8"), tables, named)]
    if not arguments.check:
        PAGE.write_text(made, "utf-8")
    elif not PAGE.exists() or PAGE.read_text("utf-8") != made:
        faults.append(f"{PAGE.relative_to(ROOT)} is not what python3 tests/types_page.py makes")
    if arguments.program and not faults:
        silent = [] if program_fault("true", asked) else ["types_page.py does not see that a program prints nothing"]
        faults += filter(None, [*silent, program_fault(arguments.program, asked)])
    if faults:
        sys.exit(faults[0])


if __name__ == "__main__":
    main()
