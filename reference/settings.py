"""Types of document 01, "What a type is", and of #103: "A type may be up to six lists that differ only in Year, all of one
row, no Year twice"."""

import itertools
from collections import namedtuple

from years import YEAR_SETTINGS, families

# years is the set of each "Year setting that the type names"; time is the Time setting, "n aside", and digits its n;
# interval is the Interval-type setting
Type = namedtuple("Type", "basic date years time digits zone interval name window no_hour_24")

# "two restrictions that Table 2 doesn't look at": window is a lowest and a highest year, or None
Limits = namedtuple("Limits", "window no_hour_24")

NO_LIMITS = Limits(None, False)

# "H, HM, HMS, HFn, HMFn, HMSFn, with n from 1 to 9"
WHOLE_TIMES = (b"H", b"HM", b"HMS")
FRACTION_TIMES = tuple(b"%sF%d" % (time, n) for time in WHOLE_TIMES for n in range(1, 10))

# "Base settings"; and "Add `Basic=Interval Interval-type=D`", whose other words SE, SD and DE are not taken
SETTINGS = {
    b"Basic": (b"Date", b"Time", b"Date-Time", b"Interval"),
    b"Date": (b"Y", b"YM", b"YMD", b"YD", b"YW", b"YWD"),
    b"Year": tuple(setting.word.encode("ascii") for setting in YEAR_SETTINGS),
    b"Time": WHOLE_TIMES + FRACTION_TIMES,
    b"Local-or-UTC": (b"L", b"Z", b"LD"),
    b"Interval-type": (b"D",),
}

# "The names DATE, TIME-OF-DAY and DATE-TIME may stand for their settings"; "and the name DURATION"
NAMES = {
    b"DATE": b"Basic=Date Date=YMD Year=Basic",
    b"TIME-OF-DAY": b"Basic=Time Time=HMS Local-or-UTC=L",
    b"DATE-TIME": b"Basic=Date-Time Date=YMD Year=Basic Time=HMS Local-or-UTC=L",
    b"DURATION": b"Basic=Interval Interval-type=D",
}

# "1 for more than six lists"
MOST_LISTS = 6


def has_date(settings):
    """Whether "the value has a date"."""
    return settings[b"Basic"] in (b"Date", b"Date-Time")


def has_time(settings):
    """Whether "the value has a time"."""
    return settings[b"Basic"] in (b"Time", b"Date-Time")


def is_interval(settings):
    """Whether the value is a duration."""
    return settings[b"Basic"] == b"Interval"


def read_pair(text):
    """One of the "`Property=Setting` pairs"; None when it is unreadable, unknown or not in the base."""
    name, _, setting = text.partition(b"=")
    if setting not in SETTINGS.get(name, ()):
        return None
    return name, setting


def is_complete(settings):
    """"Always present", and "Both are present exactly when the value has" a date, or a time; Interval-type is so for a
    duration."""
    if b"Basic" not in settings:
        return False
    date, time, interval = has_date(settings), has_time(settings), is_interval(settings)
    present = {b"Date": date, b"Year": date, b"Time": time, b"Local-or-UTC": time, b"Interval-type": interval}
    return all((name in settings) == expected for name, expected in present.items())


def read_list(text):
    """"pairs with one space between, in any order, each property at most once"; None for refusal 1."""
    settings = {}
    for pair in text.split(b" "):
        read = read_pair(pair)
        if read is None or read[0] in settings:
            return None
        settings[read[0]] = read[1]
    return settings if is_complete(settings) else None


def read_lists(text):
    """"A name stands alone; beside a bar it is refusal 1", as are "more than six lists" and "a space next to the bar"; None
    for refusal 1."""
    if text in NAMES:
        return [read_list(NAMES[text])]
    lists = [read_list(part) for part in text.split(b"|")]
    if len(lists) > MOST_LISTS or None in lists:
        return None
    return lists


def two_are_equal(lists):
    """Whether any two are "two equal lists", "a Year twice in otherwise equal lists" among them."""
    return any(first == second for first, second in itertools.combinations(lists, 2))


def limits_have_place(limits, lists):
    """A window "only where there is a date", and "no hour 24" "only where there is a time", in every list."""
    window_has_place = limits.window is None or all(has_date(settings) for settings in lists)
    no_hour_24_has_place = not limits.no_hour_24 or all(has_time(settings) for settings in lists)
    return window_has_place and no_hour_24_has_place


def word(setting):
    """A setting as a word; None where the list lacks it."""
    return None if setting is None else setting.decode("ascii")


def year_words(lists):
    """The Year settings that the lists name."""
    return frozenset(word(settings[b"Year"]) for settings in lists if b"Year" in settings)


def without_year(settings):
    """A list's settings but Year."""
    return {name: setting for name, setting in settings.items() if name != b"Year"}


def make_one_row(first, second):
    """"lists that differ only in Year, all of one row"."""
    return without_year(first) == without_year(second) and len(families(year_words((first, second)))) <= 1


def split_time(setting):
    """The Time setting "n aside", and its n, "or 0 without Fn"."""
    if setting in FRACTION_TIMES:
        return setting[:-1], int(setting[-1:])
    return setting, 0


def make_type(lists, name, limits):
    """The type of one list, or of several that make one row."""
    settings = lists[0]
    time, digits = split_time(settings.get(b"Time"))
    return Type(
        basic=word(settings[b"Basic"]),
        date=word(settings.get(b"Date")),
        years=year_words(lists),
        time=word(time),
        digits=digits,
        zone=word(settings.get(b"Local-or-UTC")),
        interval=word(settings.get(b"Interval-type")),
        name=word(name),
        window=limits.window,
        no_hour_24=limits.no_hour_24,
    )


def read_type(text, limits=NO_LIMITS):
    """The type, or "1 for more than six lists or a Year twice in otherwise equal lists, 2 for any other difference"; "the
    lowest number is given"."""
    lists = read_lists(text)
    if lists is None or two_are_equal(lists) or not limits_have_place(limits, lists):
        return 1
    if not all(make_one_row(lists[0], other) for other in lists[1:]):
        return 2
    return make_type(lists, text if text in NAMES else None, limits)


def is_refused(type_or_number):
    """Whether read_type gave a number in place of a type."""
    return isinstance(type_or_number, int)


def years_are_alike(a, b):
    """"either every Year of both is Basic or Proleptic, or none is"."""
    return len(families(a.years | b.years)) <= 1


def same_rows(a, b):
    """"Two types select the same rows when they have the same Basic; the same Date setting", and so on; durations have
    "row 37 as one row"."""
    return (
        a.basic == b.basic
        and a.date == b.date
        and years_are_alike(a, b)
        and a.time == b.time
        and a.zone == b.zone
        and a.interval == b.interval
    )


def fraction_digits(t):
    """"A type's number of fraction digits is n, or 0 without Fn"."""
    return t.digits
