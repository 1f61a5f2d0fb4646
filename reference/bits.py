"""Bits of document 01, "Bits", as a text of 0 and 1: fields, free integers and the filling of the last octet."""

from collections import namedtuple

# a field of so many bits, with the lowest and the highest number of its range; the lowest is written as 0
Field = namedtuple("Field", "lowest highest width")


class Unreadable(Exception):
    """"octets end inside a field; a field's bits above its range; a free integer's length not 1 to 4", and so on."""


class Bits:
    """The bits of octets, and the place up to which they are read."""

    def __init__(self, octets):
        self.bits = octet_bits(octets)
        self.place = 0

    def take(self, width):
        """Reads so many bits as a number; "octets end inside a field" is refusal 3."""
        end = self.place + width
        if end > len(self.bits):
            raise Unreadable
        number = int(self.bits[self.place:end], 2)
        self.place = end
        return number

    def take_field(self, field):
        """Reads a field; "a field's bits above its range" is refusal 3."""
        number = field.lowest + self.take(field.width)
        if number > field.highest:
            raise Unreadable
        return number

    def take_free_integer(self):
        """"one octet of length, then that many octets"; "a free integer's length not 1 to 4" is refusal 3."""
        length = self.take(8)
        if not 1 <= length <= 4:
            raise Unreadable
        number = self.take(8 * length)
        return number - (number >> (8 * length - 1) << 8 * length)


def number_bits(number, width):
    """A number from 0 in so many bits."""
    return "{:0{}b}".format(number, width)


def field_bits(field, number):
    """A field: "Month - 1 in 4 bits", and so on."""
    return number_bits(number - field.lowest, field.width)


def octet_bits(octets):
    """The bits of octets: "a place in bits becomes a place in octets only by the factor 8"."""
    return "".join(number_bits(octet, 8) for octet in octets)


def fill(bits):
    """"the last octet is filled with zero bits"."""
    filled = bits + "0" * (-len(bits) % 8)
    return bytes(int(filled[place:place + 8], 2) for place in range(0, len(filled), 8))


def free_integer_length(number):
    """How many octets of two's complement, "the fewest possible"."""
    length = 1
    while not -(1 << (8 * length - 1)) <= number < 1 << (8 * length - 1):
        length += 1
    return length


def integer_bits(number, length):
    """A free integer of that length, "the fewest possible" or not."""
    return octet_bits(bytes([length]) + number.to_bytes(length, "big", signed=True))


def free_integer_bits(number):
    """"Free integer: one octet of length, then that many octets of two's complement, the fewest possible"."""
    return integer_bits(number, free_integer_length(number))
