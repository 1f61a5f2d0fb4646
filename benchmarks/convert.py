"""Times `convert` on a million lines of each work beside `cat`, a plain copy of the same input, in one run, and prints the best
of five rounds of each, and the ratio of their times.

First build it: make build/anafzir-convert
"""

import subprocess
import tempfile
import time
from pathlib import Path

CONVERT = Path(__file__).resolve().parent.parent / "build/anafzir-convert"
COUNT = 1_000_000


def fields(k):
    """The six fields of a DATE-TIME of the years 2005 to 2020."""
    return 2005 + k % 16, 1 + k % 12, 1 + k % 28, k % 24, k // 7 % 60, k % 60


def text(k):
    """The text of a DATE-TIME."""
    return b"%04d-%02d-%02dT%02d:%02d:%02d" % fields(k)


def octets(k):
    """The same in unaligned PER, in hex."""
    bits = 0
    for number, lowest, width in zip(fields(k), (2005, 1, 1, 0, 0, 0), (4, 4, 5, 5, 6, 6)):
        bits = bits << width | number - lowest
    return b"%08X" % bits


def element(k):
    """The same in DER, in hex."""
    return (b"\x1F\x21\x0E%04d%02d%02d%02d%02d%02d" % fields(k)).hex().upper().encode()


def run(program, file):
    """The seconds of one round."""
    with open(file, "rb") as lines:
        start = time.perf_counter()
        subprocess.run([program], stdin=lines, stdout=subprocess.DEVNULL, check=True)
        return time.perf_counter() - start


def compare(work, make):
    """One row: lines a second of both, and the ratio."""
    with tempfile.NamedTemporaryFile() as file:
        file.write(b"".join(work + b";DATE-TIME;" + make(k) + b"\n" for k in range(COUNT)))
        file.flush()
        rounds = [(run(CONVERT, file.name), run("cat", file.name)) for _ in range(5)]
    ours, copy = (min(each[k] for each in rounds) for k in (0, 1))
    speeds = f"convert {COUNT / ours / 1e6:.2f} million lines a second, cat {COUNT / copy / 1e6:.0f} million"
    print(f"{work.decode()}: {speeds}, ratio {ours / copy:.0f}")


if __name__ == "__main__":
    compare(b"per", text)
    compare(b"der", text)
    compare(b"unper", octets)
    compare(b"under", element)
