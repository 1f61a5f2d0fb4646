"""DER of document 01, "Octets": "Tag, one octet of length (0 to 127), contents"."""

from answers import answer_on_octets, answer_on_text
from octets import DIGITS
from texts import canonical_text, read_text

# "Any settings list: tag 0E, contents the canonical text. DATE: 1F 1F, without `-`. TIME-OF-DAY: 1F 20, without `:`.
# DATE-TIME: 1F 21, without `-`, `:` and `T`."; "the name DURATION, DER tag 1F 22, contents without `P`"; a settings
# list has no name
TAGS = {
    None: b"\x0E", "DATE": b"\x1F\x1F", "TIME-OF-DAY": b"\x1F\x20", "DATE-TIME": b"\x1F\x21", "DURATION": b"\x1F\x22",
}
LEFT_OUT = {None: b"", "DATE": b"-", "TIME-OF-DAY": b":", "DATE-TIME": b"-:T", "DURATION": b"P"}

# "Under these three tags the contents are 8, 6 or 14 digits"; a duration's contents have no such count
DIGIT_COUNTS = {"DATE": 8, "TIME-OF-DAY": 6, "DATE-TIME": 14}

# what is left out, with its place in the text
SEPARATORS = {
    "DATE": ((4, b"-"), (7, b"-")),
    "TIME-OF-DAY": ((2, b":"), (5, b":")),
    "DATE-TIME": ((4, b"-"), (7, b"-"), (10, b"T"), (13, b":"), (16, b":")),
    "DURATION": ((0, b"P"),),
}

# "one octet of length (0 to 127)"
LONGEST_CONTENTS = 127

# "the bit count: in PER, both when writing and when reading, the sum above; in DER 0"
BIT_COUNT = 0


def value_contents(t, value):
    """"contents the canonical text", and under a name "without" some of its octets."""
    return canonical_text(value).translate(None, LEFT_OUT[t.name])


def value_octets(t, value):
    """"Tag, one octet of length (0 to 127), contents"; restrictions change nothing here."""
    contents = value_contents(t, value)
    return TAGS[t.name] + bytes([len(contents)]) + contents


def read_contents(t, octets):
    """What stands behind the tag and the length; None when "tag wrong; the DER length above 127, missing, or above the
    octets that follow". Octets behind the contents are left over, and change nothing here."""
    tag = TAGS[t.name]
    if octets[:len(tag)] != tag or len(octets) == len(tag):
        return None
    length, rest = octets[len(tag)], octets[len(tag) + 1:]
    if length > LONGEST_CONTENTS or length > len(rest):
        return None
    return rest[:length]


def are_digits(name, contents):
    """"Under these three tags the contents are 8, 6 or 14 digits"."""
    return len(contents) == DIGIT_COUNTS[name] and all(octet in DIGITS for octet in contents)


def name_text(name, contents):
    """The text of a name's contents, what was left out put back; None as "any other octet or count is refusal 3"."""
    if name in DIGIT_COUNTS and not are_digits(name, contents):
        return None
    text = contents
    for place, separator in SEPARATORS[name]:
        text = text[:place] + separator + text[place:]
    return text


def read_octets(t, octets):
    """The value that the octets begin with, whether or not the encoder writes it so: "DER contents with a comma or
    `:00` count as of the form, so they meet 6 and not 3", and so does "a zero component"; None for refusal 3."""
    contents = read_contents(t, octets)
    if contents is not None and t.name is not None:
        contents = name_text(t.name, contents)
    if contents is None:
        return None
    value, _ = read_text(t, contents) or (None, None)
    return value


def write(t, value):
    """The octets and the bit count."""
    return value_octets(t, value), BIT_COUNT


def encode(type_text, limits, text, room_length):
    """The number, the octets and the bit count."""
    return answer_on_text(type_text, limits, text, room_length, write)


def decode(type_text, limits, octets, room_length):
    """The number, the text and the bit count."""
    return answer_on_octets(type_text, limits, octets, room_length, read_octets, write)
