"""Bits of durations for the lines: the SEQUENCE of 28 bis.6.1 as it should be and otherwise. No writer is asked here.

A place is that of a component in the SEQUENCE, from 0 for years to 6 for seconds. Innermost loops are of odd lengths,
so that each second of all bits is one of every kind.
"""

import itertools

from bits import free_integer_length, integer_bits, number_bits, octet_bits

# the width of each root, from years to seconds
WIDTHS = (5, 4, 6, 5, 5, 6, 6)

# numbers at the ends of each length of a free integer and of the nine digits, and negative ones
INTEGERS = (
    0, 1, 14, 15, 16, 30, 31, 32, 33, 62, 63, 64, 127, 128, 255, 256, 999, 1000, 32767, 32768, 65536, 8388607, 8388608,
    99999999, 999999998, 999999999, 1000000000, 2147483647, -1, -32, -128, -129, -32769, -999999999, -2147483648,
)

# number-of-digits 1 and fractional-value 5, after a 0 bit each
ONE_DIGIT, FIVE = "0" + "00", "0" + number_bits(4, 10)
HALF = ONE_DIGIT + FIVE

# the bits before a fraction of seconds that are 0
NO_SECONDS = "00000011" + "0" + "000000"


def short(place, number):
    """A number of the root: a 0 bit, and its bits."""
    return "0" + number_bits(number, WIDTHS[place])


def long(number, length=None):
    """A number outside the root, or one that fits: a 1 bit, and a free integer of that length or the fewest octets."""
    return "1" + integer_bits(number, length or free_integer_length(number))


def lengths(number):
    """The fewest octets of a free integer, one more and the most."""
    fewest = free_integer_length(number)
    return sorted({fewest, min(4, fewest + 1), 4})


def sequence(fields, fraction=""):
    """The bits for optionality, then the fields of these places, and the fraction's, if any."""
    present = "".join("1" if place in fields else "0" for place in range(7)) + ("1" if fraction else "0")
    return present + "".join(fields[place] for place in sorted(fields)) + fraction


def optionality():
    """Every octet of the bits for optionality, before numbers that are all 0, all 1, and 1 but for a last 0."""
    for octet, (number, last) in itertools.product(range(256), ((0, 0), (1, 1), (1, 0))):
        places = [place for place in range(7) if octet & 0x80 >> place]
        fields = {place: short(place, last if place == places[-1] else number) for place in places}
        yield sequence(fields, HALF if octet & 1 else "")


def roots():
    """Each component alone with numbers of its root, and with each of its bits set."""
    for place, width in enumerate(WIDTHS):
        for number in sorted({0, (1 << width) - 1, *(1 << bit for bit in range(width))}):
            yield sequence({place: short(place, number)})


def free_integers():
    """Numbers after a 1 bit: of years and seconds in each length, of the others in the fewest octets."""
    for place, number in itertools.product(range(7), INTEGERS):
        for length in lengths(number) if place in (0, 6) else lengths(number)[:1]:
            yield sequence({place: long(number, length)})


def free_integers_together():
    """Numbers after a 1 bit before and behind others, and before a fraction."""
    for others, place, fraction in (({1: short(1, 6)}, 5, ""), ({4: short(4, 0)}, 0, ""), ({6: short(6, 30)}, 3, HALF),
                                    ({}, 2, HALF)):
        yield from (sequence(others | {place: long(number)}, fraction) for number in INTEGERS)


def free_integer_lengths():
    """Lengths 0 to 5 and others before too few octets, enough of them and too many."""
    starts = ("10000000" + "1", "01000010" + "0" + "0110" + "1", NO_SECONDS + "1", NO_SECONDS + ONE_DIGIT + "1")
    for start, length in itertools.product(starts, (0, 1, 2, 3, 4, 5, 8, 127, 128, 129, 132, 255)):
        for count in sorted({0, max(length % 128, 1) - 1, length % 128, length % 128 + 1}):
            yield start + octet_bits(bytes([length]) + (b"\x00\x49" + b"\x12" * count)[:count])


def numbers_of_digits():
    """number-of-digits after a 0 bit and after a 1 bit, before fractional values of both kinds."""
    after_0 = ["0" + number_bits(number, 2) for number in range(4)]
    after_1 = [long(number, length) for number in (*range(-2, 13), 127, 128, 1000, 2147483647, -2147483648)
               for length in lengths(number)[:2]]
    for digits, value in itertools.product(after_0 + after_1, (FIVE, long(0), long(999999999))):
        yield NO_SECONDS + digits + value


def fractional_values():
    """fractional-value after a 0 bit and after a 1 bit, around the ends of one to nine digits."""
    for n in range(1, 10):
        digits = "0" + number_bits(n - 1, 2) if n <= 3 else long(n)
        for number in (0, 8, 9, 98, 99, 997, 998, 999, 1000, 1023):
            yield NO_SECONDS + digits + "0" + number_bits(number, 10)
        for number in sorted({0, 1, 5, 999, 1000, 10 ** n - 1, 10 ** n, -1, -1000}):
            for length in lengths(number)[:2]:
                yield NO_SECONDS + digits + long(number, length)


def causes():
    """Several causes in one encoding: zero components, numbers that fit, numbers that are none, and weeks."""
    fields = {0: (short(0, 0), long(0), long(-1), short(0, 3)), 2: (None, short(2, 0)),
              4: (None, long(31), long(1000000000)), 6: (short(6, 0), long(64, 2))}
    fractions = ("", HALF, ONE_DIGIT + "0" + number_bits(9, 10), "0" + "11" + FIVE, long(3) + FIVE)
    for *numbers, fraction in itertools.product(*fields.values(), fractions):
        yield sequence({place: bits for place, bits in zip(fields, numbers) if bits}, fraction)


def fillings():
    """The filling of the last octet, none, all of it, its first and its last bit, also with octets left over."""
    for bits in (
        sequence({0: short(0, 1)}), sequence({0: short(0, 1), 1: short(1, 6)}), sequence({6: short(6, 0)}, HALF),
        sequence({2: long(64)}), sequence({5: short(5, 59), 6: short(6, 59)}),
    ):
        width = -len(bits) % 8
        for number in sorted({0, 1, 1 << width >> 1, (1 << width) - 1}):
            yield from (bits + number_bits(number, width) + more for more in ("", "00000000", "00000001"))


SECTIONS = (
    optionality, roots, free_integers, free_integers_together, free_integer_lengths, numbers_of_digits,
    fractional_values, causes, fillings,
)


def all_bits():
    """The bits of all sections."""
    return itertools.chain.from_iterable(section() for section in SECTIONS)
