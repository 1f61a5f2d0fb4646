"""Compares two archives of `codec` on values of several lengths (lengths.c), old and new by turns in one run.

    python3 benchmarks/archives.py OLD.a NEW.a [BUILDS] [RUNS]

How the functions lie in memory alone makes some percent of such times. So each archive is linked several times, with its
functions in shuffled places (lld does this; Debian's package has its name), and each of these builds is run several times. A
build's time is the least of its runs, and what is printed is the mean over the builds, with the least and the most of them. A value
that the old archive refuses has the new one's times alone; one that the new archive refuses and the old one takes is an error.
"""

import re
import statistics
import subprocess
import sys
import tempfile
from pathlib import Path

HERE = Path(__file__).resolve().parent
LINE = re.compile(r"(.ER of [ \d]\d octets): encoding +([\d.]+) ns, decoding +([\d.]+) ns   (.*)")


def build(archive, seed, program):
    """Links lengths.c with an archive, whose functions lie where the seed says."""
    shuffled = ["-ffunction-sections", "-fuse-ld=lld", f"-Wl,--shuffle-sections=.text*={seed}"]
    words = ["cc", "-O2", "-DROUNDS=3", *shuffled, f"-I{HERE.parent / 'include'}", str(HERE / "lengths.c"), archive, "-o", program]
    subprocess.run(words, check=True)


def run(program):
    """The times of one run, by value and work."""
    out = subprocess.run([program], check=True, capture_output=True, text=True).stdout
    times = {}
    for name, encoding, decoding, text in LINE.findall(out):
        times[text, name, "encoding"] = float(encoding)
        times[text, name, "decoding"] = float(decoding)
    return times


def shown(times):
    """The mean of times, and the least and the most."""
    return f"{statistics.mean(times):6.1f} ns ({min(times):3.0f} to {max(times):3.0f})"


def main():
    archives = sys.argv[1:3]
    builds = int(sys.argv[3]) if len(sys.argv) > 3 else 20
    runs = int(sys.argv[4]) if len(sys.argv) > 4 else 12
    least = [{}, {}]
    with tempfile.TemporaryDirectory() as folder:
        for which, archive in enumerate(archives):
            for seed in range(1, builds + 1):
                build(archive, seed, f"{folder}/{which}.{seed}")
        for k in range(runs):
            for seed in range(1, builds + 1):
                for which in ((0, 1), (1, 0))[k % 2]:
                    for key, time in run(f"{folder}/{which}.{seed}").items():
                        of = least[which].setdefault(key, {})
                        of[seed] = min(time, of.get(seed, time))
    if least[0].keys() - least[1].keys():
        sys.exit(f"the new archive refuses {sorted(least[0].keys() - least[1].keys())}")
    for key in least[1]:
        old, new = (list(times.get(key, {}).values()) for times in least)
        more = f", {100 * (statistics.mean(new) / statistics.mean(old) - 1):+.1f} %" if old else ""
        print(f"{key[1]}, {key[2]}: old {shown(old) if old else 'refused'}, new {shown(new)}{more}   {key[0]}")


if __name__ == "__main__":
    main()
