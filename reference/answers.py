"""Answers of document 01, "The seven numbers": the number, the result and the bit count, in PER and in DER alike."""

from settings import is_refused, read_type
from texts import canonical_text, holds, read_text, value_exists


def refusal(number):
    """"A refusal: number, length 0, bit count 0"."""
    return number, b"", 0


def success(result, bit_count, room_length):
    """"Success is 0", with the result and the bit count; 7 when "the lent room is shorter than the result"."""
    if room_length < len(result):
        return refusal(7)
    return 0, result, bit_count


def judge_value(t, value):
    """3 where nothing was read; 4 for "no such date, time or difference"; 5 for "exists, but not in the type"; or 0."""
    if value is None:
        return 3
    if not value_exists(value):
        return 4
    return 0 if holds(t, value) else 5


def answer_on_text(type_text, limits, text, room_length, write):
    """The number, the octets and the bit count of an encoding, which `write` makes of a type and a value; "When several
    hold, the lowest number is given"."""
    t = read_type(type_text, limits)
    if is_refused(t):
        return refusal(t)
    value, _ = read_text(t, text) or (None, None)
    number = judge_value(t, value)
    if number != 0:
        return refusal(number)
    octets, bit_count = write(t, value)
    return success(octets, bit_count, room_length)


def answer_on_octets(type_text, limits, octets, room_length, read, write):
    """The number, the text and the bit count of a decoding: `read` gives the value, or None for 3; 6 where the octets
    are "not what the encoder writes"; "When several hold, the lowest number is given"."""
    t = read_type(type_text, limits)
    if is_refused(t):
        return refusal(t)
    value = read(t, octets)
    number = judge_value(t, value)
    if number != 0:
        return refusal(number)
    written, bit_count = write(t, value)
    if written != octets:
        return refusal(6)
    return success(canonical_text(value), bit_count, room_length)
