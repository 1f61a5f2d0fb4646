"""Times the Python module on DATE-TIME in PER and in DER beside two peers, by turns in one run, and prints a table: nanoseconds a
call, the best of nine rounds of each, and the ratios of the module's time to theirs.

    python3 benchmarks/python.py [FOLDER [LIBRARY]]

FOLDER has the module, and is python/ where it is not given; LIBRARY is build/libanafzir.so.0. First build it: make

The first peer is what one would write by hand with the standard library: `datetime` reads and prints the text, and `struct` or a
few slices do the rest. It knows the years 2005 to 2020 of PER alone, no hour 24, no second 60 and no refusals by number. The
second peer is the project's reference, which knows all of it. The module is called as a method of a Type, and as a function with
the type's text.
"""

import os
import struct
import sys
import timeit
from datetime import datetime
from pathlib import Path

ROOT = Path(__file__).resolve().parent.parent
FOLDER = Path(sys.argv[1] if len(sys.argv) > 1 else ROOT / "python").resolve()
LIBRARY = Path(sys.argv[2] if len(sys.argv) > 2 else ROOT / "build/libanafzir.so.0").resolve()

sys.dont_write_bytecode = True
os.environ["ANAFZIR_LIBRARY"] = str(LIBRARY)
sys.path[:0] = [str(FOLDER), str(ROOT / "reference")]
import der  # noqa: E402, F401
import per  # noqa: E402, F401
from anafzir import DATE_TIME, decode, encode  # noqa: E402, F401
from settings import NO_LIMITS  # noqa: E402, F401

COUNT = 5000
ROUNDS = 9
WORD = struct.Struct(">I")
TAG_AND_LENGTH = b"\x1F\x21\x0E"


def text_of(k):
    """The text of a DATE-TIME of the years 2005 to 2020."""
    return "%04d-%02d-%02dT%02d:%02d:%02d" % (2005 + k % 16, 1 + k % 12, 1 + k % 28, k % 24, k // 7 % 60, k % 60)


def to_per(given):
    """PER by hand."""
    t = datetime.fromisoformat(given)
    return WORD.pack(
        t.year - 2005 << 26 | t.month - 1 << 22 | t.day - 1 << 17 | t.hour << 12 | t.minute << 6 | t.second
    )


def from_per(octets):
    """PER read by hand."""
    bits, = WORD.unpack(octets)
    return datetime(
        2005 + (bits >> 26), 1 + (bits >> 22 & 15), 1 + (bits >> 17 & 31), bits >> 12 & 31, bits >> 6 & 63, bits & 63
    ).isoformat()


def to_der(given):
    """DER by hand."""
    t = datetime.fromisoformat(given).isoformat()
    return TAG_AND_LENGTH + (t[:4] + t[5:7] + t[8:10] + t[11:13] + t[14:16] + t[17:]).encode("ascii")


def from_der(octets):
    """DER read by hand."""
    if octets[:3] != TAG_AND_LENGTH or len(octets) != 17:
        raise ValueError
    d = octets[3:].decode("ascii")
    return datetime.fromisoformat(f"{d[:4]}-{d[4:6]}-{d[6:8]}T{d[8:10]}:{d[10:12]}:{d[12:]}").isoformat()


# the calls: with a Type, with the text of one, by hand, and of the reference
ROWS = (
    ("encode, PER", "text", (
        "DATE_TIME.encode(text)", "encode('DATE-TIME', text)", "to_per(text)",
        "per.encode(b'DATE-TIME', NO_LIMITS, text.encode(), 136)[1]",
    )),
    ("decode, PER", "octets", (
        "DATE_TIME.decode(octets)", "decode('DATE-TIME', octets)", "from_per(octets)",
        "per.decode(b'DATE-TIME', NO_LIMITS, octets, 136)[1].decode()",
    )),
    ("encode, DER", "text", (
        "DATE_TIME.encode(text, 'der')", "encode('DATE-TIME', text, 'der')", "to_der(text)",
        "der.encode(b'DATE-TIME', NO_LIMITS, text.encode(), 136)[1]",
    )),
    ("decode, DER", "octets", (
        "DATE_TIME.decode(octets, 'der')", "decode('DATE-TIME', octets, 'der')", "from_der(octets)",
        "der.decode(b'DATE-TIME', NO_LIMITS, octets, 136)[1].decode()",
    )),
)


def timed(name, given, calls, values):
    """Prints one row of the table, and gives the results, which are the same for all."""
    names = {**globals(), "values": values}
    results = [eval(f"[{call} for {given} in values]", names) for call in calls]
    if any(each != results[0] for each in results):
        sys.exit(f"{name}: the results differ")
    timers = [timeit.Timer(f"for {given} in values: {call}", globals=names) for call in calls]
    rounds = [[timer.timeit(1) for timer in timers] for _ in range(ROUNDS)]
    best = [min(times) / len(values) * 1e9 for times in zip(*rounds)]
    print(f"| {name} | {' | '.join(f'{each:,.0f} ns' for each in best)} | {best[0] / best[2]:.1f} | {best[0] / best[3]:.2f} |")
    return results[0]


def main():
    print("| DATE-TIME | `Type` | by its text | by hand | reference | `Type` to by hand | `Type` to reference |")
    print("|---|---|---|---|---|---|---|")
    values = [text_of(k) for k in range(COUNT)]
    for row in ROWS:
        values = timed(*row, values)


if __name__ == "__main__":
    main()
