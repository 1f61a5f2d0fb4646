"""Elements of DER for the lines: "Tag, one octet of length (0 to 127), contents", as they should be and otherwise.

Where a function takes or gives a type, it is a text; the octets with it are for a program to decode.
"""

import itertools
from pathlib import Path

from der import LEFT_OUT, TAGS
from duration_texts import LIST, NAME, OTHER_LIST
from settings import is_refused, read_type
from texts import canonical_text, read_text
from value_lines import NAMES, date_time_type, date_type, time_type

VECTORS = Path(__file__).resolve().parent.parent / "vectors" / "der.txt"

# of the five kinds of types, of UTCTime, GeneralizedTime and VisibleString, in the form for numbers above 30, in two
# octets more, constructed, of other classes, and none
OTHER_TAGS = (
    *TAGS.values(), b"\x17", b"\x18", b"\x1A", b"\x1F\x0E", b"\x1F\x80\x1F", b"\x1F\x81\x1F", b"\x2E",
    b"\x3F\x1F", b"\x3F\x20", b"\x3F\x21", b"\x4E", b"\x8E", b"\xCE", b"\x5F\x1F", b"\x9F\x1F", b"\xDF\x20", b"\x1F",
    b"\x20", b"\x21", b"\x0F", b"\x00", b"\xFF", b"\x30\x0A\x0E", b"",
)

# octets that are no digits: next to them, like them, and of the separators
NO_DIGITS = b"/:-T.,+ ZOl\x00\x1F\xB0\xB9\xFF"

# a text of each name's form, and one of another Year setting or with hour 24
NAME_TEXTS = {b"DATE": b"2006-10-12", b"TIME-OF-DAY": b"13:14:15", b"DATE-TIME": b"2006-10-12T13:14:15"}
OTHER_NAME_TEXTS = {b"DATE": b"1066-10-14", b"TIME-OF-DAY": b"24:00:00", b"DATE-TIME": b"1066-10-14T24:00:00"}


def tag_of(type_text):
    """The tag of a type."""
    return TAGS[read_type(type_text).name]


def tagged(tag, contents):
    """Tag, length and contents."""
    return tag + bytes([len(contents)]) + contents


def contents_of(type_text, text):
    """The text as it stands, "without" what a name leaves out."""
    return text.translate(None, LEFT_OUT[read_type(type_text).name])


def element(type_text, text):
    """"Tag, one octet of length (0 to 127), contents", these from the text as it stands."""
    return tagged(tag_of(type_text), contents_of(type_text, text))


def spellings(type_text, text):
    """The element with the text as it stands, and with its canonical text where that is another; none for a type with
    refusal 1 or 2, or where a length of one octet doesn't reach."""
    t = read_type(type_text)
    if is_refused(t) or len(text) > 255:
        return []
    read = read_text(t, text)
    texts = [text] if read is None else [text, canonical_text(read[0])]
    return [element(type_text, each) for each in dict.fromkeys(texts)]


def der_vectors():
    """The types, texts and octets of the outside tool."""
    type_text = None
    for line_of_file in VECTORS.read_bytes().splitlines():
        if b";" in line_of_file:
            text, digits = line_of_file.split(b";")
            yield type_text, text, bytes.fromhex(digits.decode("ascii"))
        else:
            type_text = line_of_file


def replaced(octets):
    """The octets with each of them replaced by some others."""
    for place, octet in enumerate(octets):
        for other in sorted({octet ^ 0x01, octet ^ 0x80, *b"\x00-09:"} - {octet}):
            yield octets[:place] + bytes([other]) + octets[place + 1:]


def changed(type_text, text):
    """An element cut at every place, lengthened, and with each of its octets replaced."""
    octets = element(type_text, text)
    cut = (octets[:length] for length in range(len(octets)))
    longer = (octets + more for more in (b"\x00", b"0", b"Z", b"\xff", b"\x00\x00", b":00", octets[:1], octets))
    for each in itertools.chain([octets], cut, longer, replaced(octets)):
        yield type_text, each


def with_every_length(type_text, text, more=b""):
    """Every number in the length octet, before the contents and more octets."""
    for length in range(256):
        yield type_text, tag_of(type_text) + bytes([length]) + contents_of(type_text, text) + more


def with_longer_contents(type_text, text):
    """Longer contents, with the length that they have, one above and one below, on both sides of 127."""
    tag, contents = tag_of(type_text), contents_of(type_text, text)
    for length in (len(contents) + 1, 40, 126, 127, 128, 129, 200, 254):
        for longer in ((contents * 255)[:length], contents.ljust(length, b"0"), contents.rjust(length)):
            yield type_text, tagged(tag, longer)
        yield type_text, tag + bytes([length + 1]) + contents.ljust(length)
        yield type_text, tag + bytes([length - 1]) + contents.ljust(length)


def with_long_lengths(type_text, text):
    """Lengths in two octets and in three, of the indefinite form, and left out."""
    tag, contents = tag_of(type_text), contents_of(type_text, text)
    length = bytes([len(contents)])
    for start in (b"\x81" + length, b"\x82\x00" + length, b"\x80", b"\x00" + length, length + length, b""):
        yield type_text, tag + start + contents
        yield type_text, tag + start + contents + b"\x00\x00"


def with_other_tags(type_text, text):
    """The length and the contents of an element behind other tags, also with the text as it stands."""
    contents = dict.fromkeys((contents_of(type_text, text), text))
    for tag, each in itertools.product(OTHER_TAGS, contents):
        yield type_text, tagged(tag, each)


def with_every_tag(type_text, text):
    """Every number in the last octet of the tag, and every number in the first one."""
    tag, octets = tag_of(type_text), element(type_text, text)
    for number in range(256):
        yield type_text, tag[:-1] + bytes([number]) + octets[len(tag):]
        yield type_text, bytes([number]) + octets[1:]


def digit_counts(name):
    """Contents of 0 to 20 digits under a name's tag: "any other octet or count is refusal 3"."""
    for count in range(21):
        yield name, tagged(tag_of(name), b"20061012131415161718"[:count])
        yield name, tagged(tag_of(name), b"13141520061012131415"[:count]) + b"\x00"


def no_digits(name):
    """Under a name's tag each digit replaced by octets that are none, and one of them by every octet."""
    digits = contents_of(name, NAME_TEXTS[name])
    for place, other in itertools.product(range(len(digits)), NO_DIGITS):
        yield name, tagged(tag_of(name), digits[:place] + bytes([other]) + digits[place + 1:])
    for other in range(256):
        yield name, tagged(tag_of(name), digits[:4] + bytes([other]) + digits[5:])


def with_separators(name):
    """Under a name's tag the separators left in, all of them, one of them, and all but one; also at the right count."""
    text, digits = NAME_TEXTS[name], contents_of(name, NAME_TEXTS[name])
    contents = [text, b'"' + text + b'"', digits + b"Z", digits + b"+01", digits + b".5", b"+0" + digits, b"-" + digits]
    for separator in b"-:T":
        contents += [digits[:place] + bytes([separator]) + digits[place:] for place in range(2, len(digits), 2)]
    contents += [text[:place] + text[place + 1:] for place in range(len(text)) if text[place] in b"-:T"]
    for each in contents:
        yield name, tagged(tag_of(name), each)
        yield name, tagged(tag_of(name), each[:len(digits)])


def under_names():
    """Contents under the three names' tags that are not "8, 6 or 14 digits", and some that are."""
    for name in NAMES:
        yield from itertools.chain(digit_counts(name), no_digits(name), with_separators(name))


def fields_under_names():
    """Digits of any number under the three names' tags, so that "month 13, weekday 8 or hour 25 is 4"."""
    dates = (b"20060613", b"20060229", b"20080229", b"20061301", b"20060001", b"20060100", b"20060132", b"00000000",
             b"00000229", b"10661014", b"15000230", b"15811231", b"15820101", b"19000229", b"99991231", b"99999999")
    times = (b"000000", b"152746", b"235960", b"235961", b"236000", b"240000", b"240001", b"240100", b"250000",
             b"999999")
    yield from ((b"DATE", element(b"DATE", date)) for date in dates)
    yield from ((b"TIME-OF-DAY", element(b"TIME-OF-DAY", time)) for time in times)
    for date, time in itertools.product(dates, times):
        yield b"DATE-TIME", element(b"DATE-TIME", date + time)


def durations_in_contents():
    """Contents of durations with P and without it, in other places and more than once, behind both tags."""
    whole = (b"P1Y6M", b"PT0.5S", b"P5W", b"P0Y0M1D", b"P0Y0M", b"P1Y0M", b"PT0,5S", b"P0YT0M0,50S", b"P", b"PT")
    contents = [*whole, *(text[1:] for text in whole)]
    contents += [changed for text in whole for changed in (b"P" + text, text + b"P")]
    contents += [b"1YP6M", b"TP1S", b"p1Y6M", b"1y6m", b" 1Y6M", b"1Y6M ", b"01Y", b"-1Y", b"1Y1W", b"1W0D", b"1.5Y6M"]
    contents += [b"1000000000Y", b"999999999Y", b"T1", b"1Y6MT", b"2006-06-13", b"20060613", b"152746"]
    for each, type_text in itertools.product(contents, (NAME, LIST)):
        for tag in (tag_of(NAME), tag_of(LIST)):
            yield type_text, tagged(tag, each)


def durations_under_others():
    """Elements of durations under the types of dates and times, and theirs under those of durations."""
    points = [date_type(b"YMD", b"Basic"), time_type(b"HMS", b"L"), date_time_type(b"YMD", (b"Basic",), b"HMS", b"L")]
    elements = [element(type_text, text) for type_text in (NAME, LIST) for text in (b"P1Y6M", b"PT0.5S", b"P2006Y")]
    yield from itertools.product([*NAMES, *points], elements)
    yield from itertools.product((NAME, LIST, OTHER_LIST), elements_of_names())


def elements_of_names():
    """Elements of the three names, and of their settings."""
    for texts, name in itertools.product((NAME_TEXTS, OTHER_NAME_TEXTS), NAMES):
        yield element(name, texts[name])
        yield tagged(TAGS[None], texts[name])


def readings_of_names():
    """The elements of the names and of their settings under all of these types."""
    types = [date_type(b"YMD", b"Basic"), date_type(b"YMD", b"Proleptic"), date_type(b"YMD", b"Basic", b"Proleptic"),
             time_type(b"HMS", b"L"), time_type(b"HMS", b"Z"), date_time_type(b"YMD", (b"Basic",), b"HMS", b"L"),
             date_time_type(b"YMD", (b"Proleptic",), b"HMS", b"L")]
    return itertools.product([*NAMES, *types], elements_of_names())
