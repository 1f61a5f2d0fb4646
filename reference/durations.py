"""Durations of request #101: "The notation is 34 bis.3.6 of source document 000", "Canonical means no zero components
except the least significant one present (11.9 d)", and "PER encodes the canonical value by 28 bis.6.1 of source
document 001"."""

from collections import namedtuple

from bits import Field, Unreadable, field_bits, free_integer_bits
from octets import DIGITS, NotOfTheForm

# the components that are present, the most significant first, and the fractional part of the last one, or None
Duration = namedtuple("Duration", "components fractional_part")
Component = namedtuple("Component", "name number")

# 28 bis.6.5: the N of "multiplied by ten-to-the-power-N", and "the resulting integer value"
FractionalPart = namedtuple("FractionalPart", "number_of_digits fractional_value")

# a component as a text shows it; comma is whether its decimal separator is one
Designation = namedtuple("Designation", "name number fractional_part comma")

# 34 bis.3.6.2 to 34 bis.3.6.10: the letters in order, and what they stand for; weeks are refused beside others later on
DATE_DESIGNATORS, DATE_COMPONENTS = b"YMWD", ("years", "months", "weeks", "days")
TIME_DESIGNATORS, TIME_COMPONENTS = b"HMS", ("hours", "minutes", "seconds")

# 28 bis.6.1 in its order, each with its root: "years INTEGER (0..31, ..., 32..MAX) OPTIONAL", and so on
ROOTS = {
    "years": Field(0, 31, 5),
    "months": Field(0, 15, 4),
    "weeks": Field(0, 63, 6),
    "days": Field(0, 31, 5),
    "hours": Field(0, 31, 5),
    "minutes": Field(0, 63, 6),
    "seconds": Field(0, 63, 6),
}

# "number-of-digits INTEGER(1..3, ..., 4..MAX), fractional-value INTEGER(1..999, ..., 1000..MAX)"
NUMBER_OF_DIGITS, FRACTIONAL_VALUE = Field(1, 3, 2), Field(1, 999, 10)

# "each number has at most nine digits", and "a fraction, of one to nine digits"
MOST_DIGITS = 9


def is_allowed(duration):
    """Neither "no component at all, or weeks beside another one"."""
    names = [component.name for component in duration.components]
    return names == ["weeks"] or (names != [] and "weeks" not in names)


def canonical(duration):
    """11.9 d: "remove all zero time components except the least significant time component that is present"."""
    *others, least = duration.components
    kept = [component for component in others if component.number != 0]
    return Duration((*kept, least), duration.fractional_part)


def read_number(octets):
    """34 bis.3.6.11: "shall not contain leading zeros unless it is the single digit zero"."""
    count = octets.count_digits()
    if count > MOST_DIGITS or (count > 1 and octets.next_is(b"0")):
        raise NotOfTheForm
    return octets.take_digits(count)


def read_fractional_part(octets):
    """34 bis.3.6.12: "a full stop or a comma", "followed by one or more decimal digits"; and whether it was a comma."""
    if not octets.next_is(b".,"):
        return None, False
    mark = octets.take_one(b".,")
    count = octets.count_digits()
    if not 1 <= count <= MOST_DIGITS:
        raise NotOfTheForm
    return FractionalPart(count, octets.take_digits(count)), mark == b","


def read_designations(octets, designators, names):
    """The designations that come next, "in order": each letter stands behind the one before among the designators."""
    designations, behind = [], 0
    while octets.next_is(DIGITS):
        number = read_number(octets)
        fractional_part, comma = read_fractional_part(octets)
        place = designators.index(octets.take_one(designators[behind:]))
        designations.append(Designation(names[place], number, fractional_part, comma))
        behind = place + 1
    return designations


def read_time_designations(octets):
    """34 bis.3.6.3: "[T] followed by one or more (in order)" of hours, minutes and seconds; or nothing."""
    if not octets.next_is(b"T"):
        return []
    octets.take(b"T")
    designations = read_designations(octets, TIME_DESIGNATORS, TIME_COMPONENTS)
    if not designations:
        raise NotOfTheForm
    return designations


def read_duration(octets):
    """34 bis.3.6.1, and whether there was a comma; zero components are read as they stand."""
    octets.take(b"P")
    designations = read_designations(octets, DATE_DESIGNATORS, DATE_COMPONENTS) + read_time_designations(octets)
    # 34 bis.3.6.13: "If a designation contains a fractional part, there shall be no following designation."
    if not designations or any(each.fractional_part for each in designations[:-1]):
        raise NotOfTheForm
    last = designations[-1]
    duration = Duration(tuple(Component(each.name, each.number) for each in designations), last.fractional_part)
    if not is_allowed(duration):
        raise NotOfTheForm
    return duration, last.comma


def number_text(duration, component):
    """A component's number; behind the last one's stands the fractional part, with a full stop."""
    part = duration.fractional_part
    if part is None or component != duration.components[-1]:
        return b"%d" % component.number
    return b"%d.%0*d" % (component.number, part.number_of_digits, part.fractional_value)


def designations_text(duration, designators, names):
    """The components that have one of these names, each with its letter behind its number."""
    text = b""
    for component in duration.components:
        if component.name in names:
            place = names.index(component.name)
            text += number_text(duration, component) + designators[place:place + 1]
    return text


def duration_text(duration):
    """[P], years to days, and [T] with hours, minutes and seconds where there are any."""
    dates = designations_text(duration, DATE_DESIGNATORS, DATE_COMPONENTS)
    times = designations_text(duration, TIME_DESIGNATORS, TIME_COMPONENTS)
    return b"P" + dates + b"T" + times if times else b"P" + dates


def extensible_integer_bits(root, number):
    """A 0 bit and the least bits of the root where the number is in it; a 1 bit and a free integer where it isn't."""
    if root.lowest <= number <= root.highest:
        return "0" + field_bits(root, number)
    return "1" + free_integer_bits(number)


def fractional_part_bits(part):
    """"fractional-part SEQUENCE"; a fractional value of 0 is outside the root 1..999."""
    digits = extensible_integer_bits(NUMBER_OF_DIGITS, part.number_of_digits)
    return digits + extensible_integer_bits(FRACTIONAL_VALUE, part.fractional_value)


def duration_bits(duration):
    """"8 bits for optionality", then the components that are present; the SEQUENCE itself is not extensible."""
    names = [component.name for component in duration.components]
    bits = "".join("1" if name in names else "0" for name in ROOTS)
    bits += "1" if duration.fractional_part else "0"
    for component in duration.components:
        bits += extensible_integer_bits(ROOTS[component.name], component.number)
    if duration.fractional_part:
        bits += fractional_part_bits(duration.fractional_part)
    return bits


def take_extensible_integer(bits, root, lowest, highest):
    """A number after a 0 bit or a 1 bit, in the root or not; below the lowest or above the highest it is refusal 3."""
    number = bits.take_free_integer() if bits.take(1) else bits.take_field(root)
    if not lowest <= number <= highest:
        raise Unreadable
    return number


def take_component(bits, name):
    """"a number that is negative or of more than nine digits" is refusal 3."""
    return Component(name, take_extensible_integer(bits, ROOTS[name], 0, 10 ** MOST_DIGITS - 1))


def take_fractional_part(bits):
    """Refusal 3 for "a decoded fraction of no digits, of over nine, or too large for them"; so for a negative one."""
    digits = take_extensible_integer(bits, NUMBER_OF_DIGITS, 1, MOST_DIGITS)
    return FractionalPart(digits, take_extensible_integer(bits, FRACTIONAL_VALUE, 0, 10 ** digits - 1))


def take_duration(bits):
    """The components that the bits for optionality name; zero components are read as they stand."""
    names = [name for name in ROOTS if bits.take(1)]
    has_fractional_part = bits.take(1)
    components = tuple(take_component(bits, name) for name in names)
    duration = Duration(components, take_fractional_part(bits) if has_fractional_part else None)
    if not is_allowed(duration):
        raise Unreadable
    return duration
