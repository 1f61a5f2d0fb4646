"""Says which instructions of the archive a driver ran, from what valgrind's callgrind counted.

`coverage.py PROGRAM COUNTS` takes a driver that was linked with -no-pie and callgrind's file, made with --dump-instr=yes and
--compress-pos=no. Prints for each function of the archive that was not run whole how many of its instructions were run, and in the
last line the sum. Instructions that only fill a gap are left out.
"""

import re
import subprocess
import sys
from collections import Counter

# the functions of the archive: those of crates, and the entry points
FUNCTION = re.compile(r"[0-9a-f]+ <(\w+::[\w:]+|anafzir_(?:per|der)_\w+)>:")
OTHER_FUNCTION = re.compile(r"[0-9a-f]+ <.*>:")
INSTRUCTION = re.compile(r"\s+([0-9a-f]+):\t[0-9a-f ]+\t(.*)")
GAP = re.compile(r"(data16 |cs )*nop|xchg +%ax,%ax|int3")
COUNTED = re.compile(r"0x([0-9a-f]+) ")


def instructions(program: str) -> dict[int, str]:
    """The function that each instruction is in, by its address."""
    listing = subprocess.run(["objdump", "-d", program], capture_output=True, text=True, check=True).stdout
    places, function = {}, None
    for line in listing.splitlines():
        if OTHER_FUNCTION.match(line):
            found = FUNCTION.match(line)
            function = found and found[1]
        found = INSTRUCTION.match(line)
        if found and function and not GAP.match(found[2]):
            places[int(found[1], 16)] = function
    return places


def counted(file: str) -> set[int]:
    """The addresses that callgrind has a count for."""
    with open(file, encoding="utf-8") as lines:
        return {int(found[1], 16) for found in map(COUNTED.match, lines) if found}


def main() -> None:
    if len(sys.argv) != 3:
        sys.exit("usage: coverage.py PROGRAM COUNTS")
    places, ran = instructions(sys.argv[1]), counted(sys.argv[2])
    all_of = Counter(places.values())
    ran_of = Counter(function for address, function in places.items() if address in ran)
    for function in sorted(all_of):
        if ran_of[function] < all_of[function]:
            print(f"{function}: {ran_of[function]} of {all_of[function]}")
    print(f"all: {sum(ran_of.values())} of {sum(all_of.values())}")


if __name__ == "__main__":
    main()
