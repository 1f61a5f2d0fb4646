"""Types and texts of durations for the lines: good ones of every shape, and others. No reader is asked here.

A list of seven numbers has years, months, weeks, days, hours, minutes and seconds, and None for what is absent; a
number is a text, and may have a fraction.
"""

import itertools

NAME, LIST, OTHER_LIST = b"DURATION", b"Basic=Interval Interval-type=D", b"Interval-type=D Basic=Interval"

LETTERS = b"YMWDHMS"

# the highest number of each root of 28 bis.6.1
HIGHEST = (31, 15, 63, 31, 31, 63, 63)

# the places of all components but weeks
SIX = (0, 1, 3, 4, 5, 6)

# of request #101, of 34 bis.3.6.14, and of the value notation's examples
EXAMPLES = (
    b"P1Y6M", b"PT0.5S", b"P0Y0M1D", b"P1D", b"P0Y0M", b"P0M", b"P1Y0M", b"P5W", b"P29M", b"P0Y29M", b"P29M0D",
    b"P0Y29M0D", b"P29MT0S", b"P0Y29M0DT0H0M0S", b"P29MT0.00H", b"P0Y29M0DT0,00H", b"P29MT0.000S",
    b"P0Y29M0DT0H0M0.000S", b"P0Y29M0DT0H0.00M", b"P0Y29M0DT0.00M", b"P0Y29MT0H0.00M", b"P0Y29MT0.00M",
    b"P29M0DT0H0.00M", b"P29M0DT0.00M", b"P29MT0H0.00M", b"P29MT0.00M", b"P2Y10M15DT10H20M30S", b"PT72H",
    b"PT2M0.000S", b"PT2M59.000S", b"PT0.50S",
)

# fractions at their ends, at each length of a free integer, and with zeros before and behind
FRACTIONS = (
    b"0", b"00", b"000", b"0000", b"000000000", b"1", b"9", b"01", b"99", b"999", b"0999", b"1000", b"1001", b"9999",
    b"000000001", b"000000999", b"000001000", b"000032767", b"000032768", b"008388607", b"008388608", b"999999999",
    b"50", b"500", b"5000", b"500000000",
)

# types and texts whose octets and texts are changed
SAMPLE = (
    (NAME, b"P1Y6M"), (LIST, b"PT0.5S"), (NAME, b"P5W"), (LIST, b"P1Y0M"), (NAME, b"P300DT0.0H"), (LIST, b"PT64M63S"),
    (NAME, b"P2Y10M15DT10H20M30S"), (LIST, b"P1Y2M3DT4H5M6.1234S"), (NAME, b"P999999999Y"), (LIST, b"P0.999999999W"),
)


def joined(numbers):
    """The text of seven numbers."""
    parts = [b"" if number is None else number + LETTERS[k:k + 1] for k, number in enumerate(numbers)]
    dates, times = b"".join(parts[:4]), b"".join(parts[4:])
    return b"P" + dates + b"T" + times if times else b"P" + dates


def with_numbers(places, numbers):
    """The text of these numbers at these places."""
    chosen = dict(zip(places, numbers))
    return joined([chosen.get(place) for place in range(7)])


def alone(place, number):
    """The text of one number."""
    return with_numbers((place,), (number,))


def choices():
    """Every choice of some of the six components."""
    for count in range(1, 7):
        yield from itertools.combinations(SIX, count)


def number_ends():
    """Each component alone, at the ends of its root, of the lengths of a free integer and of the digits."""
    others = (0, 1, 10, 127, 128, 255, 32767, 32768, 8388607, 8388608, 100000000, 999999999)
    for place, highest in enumerate(HIGHEST):
        for number in sorted({*others, highest - 1, highest, highest + 1}):
            yield alone(place, b"%d" % number)


def fractions():
    """Each component with fractions of one, three, four and nine digits after both marks, and many after seconds."""
    some = (b"5", b"500", b"0999", b"1000", b"123456789")
    for place, (k, digits), mark in itertools.product(range(7), enumerate(some), (b".", b",")):
        yield alone(place, (b"0", b"7", b"128")[k % 3] + mark + digits)
    for k, digits in enumerate(FRACTIONS):
        yield b"PT0" + (b".", b",")[k % 2] + digits + b"S"


def zero_components():
    """All six components, each 0 or not; choices of them that are all 0; and some of these with a fraction."""
    all_six = [with_numbers(SIX, numbers) for numbers in itertools.product((b"0", b"7"), repeat=6)]
    all_zero = [with_numbers(places, [b"0"] * len(places)) for places in choices()]
    yield from all_six + all_zero
    for k, text in enumerate((all_six + all_zero)[::3]):
        yield text[:-1] + (b".5", b",0", b".000")[k % 3] + text[-1:]


def components_together():
    """Every choice of the six components, and all of them with the most digits."""
    numbers = dict(zip(SIX, (b"2", b"10", b"15", b"10", b"20", b"30")))
    yield from (with_numbers(places, [numbers[place] for place in places]) for places in choices())
    yield with_numbers(SIX, [b"999999999"] * 6)
    yield with_numbers(SIX, [b"999999999"] * 5 + [b"999999999.999999999"])
    yield with_numbers(SIX, [b"999999999"] * 5 + [b"0,000000000"])


def good_texts():
    """Texts that the types of durations hold."""
    return itertools.chain(EXAMPLES, number_ends(), fractions(), zero_components(), components_together())


def wrong_numbers():
    """Each component with needless leading zeros, more than nine digits, a sign, and a fraction that is none."""
    wrong = (
        b"", b"00", b"01", b"007", b"000000001", b"0000000000", b"1000000000", b"0123456789", b"2147483648",
        b"4294967297", b"9999999999", b"18446744073709551617", b"-1", b"+1", b"1-", b"00.5", b"01,5", b"1.", b"1,",
        b".5", b",5", b"1.1234567890", b"1,0000000000", b"1.5.5", b"1.,5", b"1. 5", b"1.-5", b"1e1", b" 1", b"\xb2",
    )
    yield from (alone(place, number) for place, number in itertools.product(range(7), wrong))


def earlier_fractions():
    """Two components with a fraction at the first one, at both, and 0 behind it; and with weeks."""
    for places in itertools.combinations(range(7), 2):
        for numbers in ((b"1.5", b"1"), (b"0,5", b"0"), (b"1.5", b"1.5")):
            yield with_numbers(places, numbers)


def weeks_beside_others():
    """Weeks before and behind each other component, any of them 0; and on the wrong side of [T]."""
    for place, numbers in itertools.product(SIX, ((b"1", b"1"), (b"0", b"1"), (b"1", b"0"), (b"0", b"0"))):
        yield with_numbers((place, 2), numbers)
        yield with_numbers((2, place), numbers).replace(b"T", b"")
        yield alone(place, numbers[0]) + numbers[1] + b"W"
    yield from (b"PT1W", b"P1WT", b"P1W1W", b"P1WT1W", b"P2Y10M3W15DT10H20M30S", b"P0Y0M3W0DT0H0M0S", b"P1W0.5D")


def wrong_orders():
    """Letters in another order, twice, and on the wrong side of [T]; [T] left out, alone, twice, and with nothing."""
    for first, second in itertools.permutations(range(7), 2):
        yield b"P1%c1%c" % (LETTERS[first], LETTERS[second])
        yield b"PT1%c1%c" % (LETTERS[first], LETTERS[second])
    for letter in LETTERS:
        yield from (b"P1%c1%c" % (letter, letter), b"PT1%c1%c" % (letter, letter), b"P1%c" % letter, b"PT1%c" % letter)
        yield from (b"P1%cT" % letter, b"P1%cT1" % letter, b"PT1%cT" % letter, b"PTT1%c" % letter, b"P%c" % letter)
    yield from (
        b"", b"P", b"PT", b"T", b"PP", b"PTT", b"P0", b"P1", b"P.5", b"PT0", b"PT0.5", b"P1YT", b"P1Y1", b"P1Y6MT",
        b"P1YT1", b"PT1HT1M", b"P1YT1HT1M1S", b"T1H", b"P1Y2M3DT4H5M6S7", b"P1Y2M3D4H5M6S", b"P1YT2M3D", b"PT1M1Y",
        b"P1DT1M1H",
    )


def other_shapes():
    """Signs, small letters, spaces, quotation marks, other octets, and values of other types and standards."""
    yield from (
        b"-P1Y", b"+P1Y", b"P1Y-6M", b"p1y6m", b"p1Y6M", b"P1y6M", b"P1Y6m", b"Pt0.5S", b"PT0.5s", b"P1w", b" P1Y",
        b"P1Y ", b"P1 Y", b"P1Y 6M", b"PT 1S", b"P T1S", b'"P1Y6M"', b"'P1Y6M'", b"P1Y6M\x00", b"\x00P1Y6M", b"P1Y6M\r",
        b"\tP1Y6M", b"\xef\xbb\xbfP1Y6M", b"P1Y6M\xff", b"\xd0\xa01Y", b"P1Y6MP1Y6M", b"P1Y6M/P1Y6M", b"P1Y6M;",
        b"1Y6M", b"T0.5S", b"Y", b"1", b"0", b"P1Y6", b"P1QY", b"P1Q", b"P1T", b"PT.S", b"P1/2Y", b"PT1:30S",
        b"P0001-06-13", b"P0001-06-13T15:27:46", b"P00010613", b"PT15:27:46", b"P2006-06-13T15:27:46", b"R/P1Y",
        b"R5/P1Y6M", b"2006-06-13/P1Y6M", b"P1Y6M/2006-06-13", b"2006-06-13T15:27:46/PT1H", b"P1Y6MZ", b"P1Y6M+01",
        b"DURATION",
        b"P" + b"1" * 200 + b"Y", b"P" * 130, b"P" + b"0" * 200 + b"1Y", b"P1." + b"5" * 200 + b"Y", b"P" + b"1Y" * 60,
        b"2006", b"2006-06-13", b"2006-164", b"2006-W24-2", b"-0044", b"15:27:46", b"24:00:00", b"15.5Z",
        b"2006-06-13T15:27:46",
    )


def wrong_texts():
    """Texts that no duration has, but for a few of the orders."""
    return itertools.chain(wrong_numbers(), earlier_fractions(), weeks_beside_others(), wrong_orders(), other_shapes())


def with_types(texts):
    """Each text under the name, each sixth under the settings too, and some under the settings in another order."""
    for k, text in enumerate(texts):
        yield NAME, text
        if k % 6 == 0:
            yield LIST, text
        if k % 48 == 1:
            yield OTHER_LIST, text


def lists_with_more():
    """The pairs of a duration alone, repeated and beside other pairs; and Interval-type in other lists."""
    pairs = (b"Basic=Interval", b"Interval-type=D")
    added = (
        b"Date=YMD", b"Year=Basic", b"Date=YMD Year=Basic", b"Time=HMS", b"Local-or-UTC=L", b"Time=HMS Local-or-UTC=L",
        b"Date=YMD Year=Basic Time=HMS Local-or-UTC=L", b"Basic=Interval", b"Basic=Date", b"Interval-type=D",
        b"Interval-type=SE", b"SE-point=Date", b"SE-point=Time", b"SE-point=Date-Time", b"Recurrence=R3",
        b"Recurrence=Unlimited", b"Midnight=Start", b"DURATION", b"Interval-type", b"=D", b"",
    )
    yield from pairs
    for more in added:
        yield from (LIST + b" " + more, more + b" " + LIST, pairs[0] + b" " + more, pairs[1] + b" " + more)
    for other in (
        b"Basic=Date Date=YMD Year=Basic", b"Basic=Time Time=HMS Local-or-UTC=L", b"Basic=Date", b"Basic=Time",
        b"Basic=Date-Time Date=YMD Year=Basic Time=HMS Local-or-UTC=L", b"Basic=Date-Time", b"Basic=Rec-Interval",
    ):
        yield from (other + b" Interval-type=D", b"Interval-type=D " + other)


def other_words():
    """Other words in the place of each setting, and other names of the properties."""
    for word in (b"SE", b"SD", b"DE", b"d", b"DD", b"E", b"S", b"Duration", b"D,SE", b"R1", b"", b"D\x00", b"=D"):
        yield b"Basic=Interval Interval-type=" + word
    for word in (b"interval", b"INTERVAL", b"Rec-Interval", b"Duration", b"DURATION", b"D", b"Date", b"Date-Time"):
        yield b"Basic=%s Interval-type=D" % word
    for name in (b"Interval", b"Interval-Type", b"interval-type", b"Interval-types", b"Interval_type", b"SE-point"):
        yield b"Basic=Interval %s=D" % name
    for point in (b"Date", b"Time", b"Date-Time"):
        yield b"Basic=Interval Interval-type=SE SE-point=" + point
        yield b"Basic=Interval Interval-type=SD SE-point=%s Date=YMD Year=Basic" % point


def spaces_and_names():
    """Spaces and other octets in the list, and the name in other letters and beside other octets."""
    yield from (b" " + LIST, LIST + b" ", LIST + b"\r", LIST + b"\x00", LIST.lower(), LIST.upper())
    yield from (LIST.replace(b" ", other) for other in (b"  ", b"", b"\t", b","))
    yield from (b"duration", b"Duration", b"DURATION ", b" DURATION", b"DURATIO", b"DURATIONS", b"DURATION\x00")
    yield from (LIST.replace(b"=", b" = "), b"DURATION DURATION", b"DURATION=", b"Basic=DURATION", b'"DURATION"')


def beside_bars():
    """Two lists and more, of which one is a duration's: equal, of other rows, refused by themselves, and names."""
    y, l5 = b"Basic=Date Date=Y Year=Basic", b"Basic=Date Date=Y Year=L5"
    hms = b"Basic=Time Time=HMS Local-or-UTC=L"
    both = b"Basic=Date-Time Date=YMD Year=Basic Time=HMS Local-or-UTC=L"
    for other in (
        LIST, OTHER_LIST, y, hms, both, NAME, b"DATE", b"", b" ", b"Basic=Interval", b"Basic=Date Date=Y",
        b"Basic=Interval Interval-type=SE", b"Basic=Rec-Interval Interval-type=D", b"Basic=Date Date=C Year=Basic",
    ):
        yield from (LIST + b"|" + other, other + b"|" + LIST, NAME + b"|" + other, OTHER_LIST + b"|" + other)
    yield from (b"|".join(lists) for lists in ((LIST, y, l5), (y, l5, LIST), [LIST] * 3, [NAME] * 3, (NAME, b"", NAME)))
    yield from (LIST + b" |" + y, LIST + b"| " + y, LIST + b"||" + y, b"|" + NAME, NAME + b"|")


def other_types():
    """Types that are none, but for a few, near those of durations."""
    return itertools.chain(lists_with_more(), other_words(), spaces_and_names(), beside_bars())
