"""Checks per.py against the vectors of an outside tool: the octets of each text, and the text of the octets."""

from checks import INTERVAL_D, ROOM, agree, check_years_in_vectors, zones_at_second_60
from coding_lines import VECTORS
from per import decode, encode
from settings import NO_LIMITS


def check(type_text, text, octets):
    """Ends with a message where the two disagree."""
    number, found, bits = encode(type_text, NO_LIMITS, text, ROOM)
    agree((number, found), (0, octets), "vector", type_text, text)
    agree(decode(type_text, NO_LIMITS, octets, ROOM), (0, text, bits), "vector", type_text, octets.hex())


def main():
    """Prints nothing where all agree."""
    lines = VECTORS.read_bytes().splitlines()
    agree(len(lines) >= 4000, True, "vectors are there")
    types = [line.split(b";")[0] for line in lines]
    agree(types.count(b"DURATION") == types.count(INTERVAL_D) >= 150, True, "vectors of durations are there")
    zones = zones_at_second_60(line.split(b";")[1] for line in lines)
    agree(zones, {b"", b"Z", b"+", b"-"}, "vectors of second 60 are there")
    check_years_in_vectors(line.split(b";")[:2] for line in lines)
    for line in lines:
        type_text, text, octets = line.split(b";")
        check(type_text, text, bytes.fromhex(octets.decode("ascii")))


if __name__ == "__main__":
    main()
