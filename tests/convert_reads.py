"""Runs `convert` on inputs that end in many ways, whole and in pieces of many sizes, so that lines are cut by reads, and
compares what it prints with the reference. Prints the first input that differs and exits 1, or prints nothing."""

import random
import subprocess
import sys
import threading
from pathlib import Path

ROOT = Path(__file__).resolve().parent.parent
sys.path.insert(0, str(ROOT / "reference"))
import convert_lines  # noqa: E402

CONVERT = ROOT / "crates/convert/out/convert"

# a line's limit, and the octets of a read, each with its neighbours
SIZES = (1, 7, 100, 1023, 1024, 1025, 4096, 65535, 65536, 65537)

ENDS = (
    b"", b"\n", b"\n\n", b"?", b"per;DATE;2006-06-13", b"x" * 1024, b"x" * 1025, b"x" * 200000,
    b"x" * 200000 + b"\nper;DATE;2006-06-13", b"per;DATE;2006-06-13\n" + b"x" * 1025, b"a\n" * 40000,
    (b"per;DATE;" + b"0" * 1015 + b"\n") * 200, (b"per;DATE;" + b"0" * 1016 + b"\n") * 200,
    b"per;DATE;2006-06-13\n" * 9000, *(b"x" * size + b"\nder;DATE;2006-06-13\n" for size in SIZES),
)

GOOD = (
    b"per;DATE;2006-06-13", b"unper;DATE;0558", b"der;DATE-TIME;2006-06-13T15:27:46", b"under;DATE;1F1F083230303630363133",
)


def any_line(numbers):
    """A good line, an empty one, or octets of any kind around the limit."""
    kind = numbers.randrange(len(GOOD) + 1)
    if kind == len(GOOD):
        return bytes(numbers.choices(b"per;0\x00\xff\r", k=numbers.choice((0, 5, 1023, 1024, 1025, 66000))))
    return GOOD[kind]


def any_input(numbers):
    """Some lines, with or without a newline at the end."""
    lines = b"\n".join(any_line(numbers) for _ in range(numbers.randrange(1, 200)))
    return lines + numbers.choice((b"", b"\n"))


def printed(octets, sizes):
    """What the program prints where its input comes in pieces of these sizes, and then the rest."""
    program = subprocess.Popen([CONVERT], stdin=subprocess.PIPE, stdout=subprocess.PIPE)
    out = []
    reader = threading.Thread(target=lambda: out.append(program.stdout.read()))
    reader.start()
    for size in sizes:
        program.stdin.write(octets[:size])
        program.stdin.flush()
        octets = octets[size:]
    program.stdin.write(octets)
    program.stdin.close()
    reader.join()
    program.wait()
    return out[0]


def main():
    numbers = random.Random(28)
    for octets in (*ENDS, *(any_input(numbers) for _ in range(30))):
        expected = convert_lines.replies(octets)
        for sizes in ((), numbers.choices(SIZES, k=40)):
            if printed(octets, sizes) != expected:
                sys.exit(f"convert: {len(octets)} octets, {octets[:40]!r}.., in pieces of {sizes}, give other replies")


if __name__ == "__main__":
    main()
