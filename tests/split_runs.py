"""Gives the line program its input whole and in pieces, in the ways of docs/PARALLEL.md, and compares what comes of the pieces with
what comes of the whole and with what is stored, octet for octet.

`split_runs.py [PROGRAM]`; without a program it is crates/convert/out/convert. Needs GNU parallel, and coreutils and findutils of GNU.
Prints the first difference and exits 1, or prints nothing.
"""

import os
import shutil
import subprocess
import sys
import tempfile
from pathlib import Path

ROOT = Path(__file__).resolve().parent.parent
STDIN, STDOUT = ROOT / "crates/convert/stdin", ROOT / "crates/convert/stdout"

# a stand-in for ssh: it notes the machine, and runs the command here
SSH = """#!/bin/sh
echo "$1" >> "$MACHINES"
shift
test "$1" = -- && shift
exec sh -c "$*"
"""

# what one piece file needs, as in docs/PARALLEL.md
ONE_FILE = '"$PROGRAM" < "$1" > "$1.replies" 2> "$1.problems"'

# a piece whose replies stand behind their lines, so that pieces may come in any order
BESIDE_LINES = 'f=$(mktemp) && cat > "$f" && "$PROGRAM" < "$f" | paste -d ";" "$f" - && rm "$f"'


class Difference(Exception):
    """What is not as it should be."""


def start(command, folder, octets, **settings):
    """Runs a command in a folder, where GNU parallel finds no settings of the user. It warns where HOME is not set, and its jobs
    on other machines need SHELL, which sshd sets there; neither need be set here."""
    settled = {"HOME": str(folder), "PARALLEL_HOME": str(folder), "PARALLEL": "", "PARALLEL_SHELL": "", "SHELL": "/bin/sh"}
    environment = {**os.environ, **settled, **settings}
    return subprocess.run(command, cwd=folder, env=environment, input=octets, capture_output=True, check=False)


def run(command, folder, octets=b"", **settings):
    """What a command prints. What it says besides and a status that is not 0 are differences, but for GNU parallel's warnings of
    lines that are longer than a piece."""
    done = start(command, folder, octets, **settings)
    said = [line for line in done.stderr.splitlines() if b"Warning: A record was longer than" not in line]
    if done.returncode != 0 or said:
        raise Difference(f"status {done.returncode}, and it says {b' '.join(said)[:300]!r}")
    return done.stdout


def joined(folder, pattern, count):
    """The files of a pattern in the order of their names, one behind the other; there are so many."""
    files = sorted(folder.glob(pattern))
    if len(files) != count:
        raise Difference(f"{len(files)} files {pattern}, not {count}")
    return b"".join(file.read_bytes() for file in files)


def pieces_of(folder):
    """How many pieces GNU parallel made, of its log, whose first line is a title; more than one."""
    pieces = len((folder / "log").read_text(encoding="utf-8").splitlines()) - 1
    if pieces < 2:
        raise Difference(f"{pieces} pieces")
    return pieces


def by_parallel(program, folder, block, jobs):
    """GNU parallel, which cuts what it reads."""
    command = ["parallel", "--pipe", "-k", "-j", str(jobs), "--block", block, "--joblog", "log", str(program)]
    printed = run(command, folder, (folder / "lines").read_bytes())
    pieces_of(folder)
    return printed


def by_parallel_of_a_file(program, folder, block, jobs):
    """GNU parallel, each piece of which is read from the file."""
    command = ["parallel", "--pipepart", "-a", "lines", "-k", "-j", str(jobs), "--block", block, "--joblog", "log", str(program)]
    printed = run(command, folder)
    pieces_of(folder)
    return printed


def by_machines(program, folder):
    """GNU parallel with two other machines, which a stand-in for ssh plays. Each gets a piece, or more."""
    ssh, machines = folder / "ssh", folder / "machines"
    ssh.write_text(SSH, encoding="utf-8")
    ssh.chmod(0o755)
    command = ["parallel", "--pipe", "-k", "-j", "1", "--block", "800k", "--joblog", "log", "--ssh", str(ssh)]
    command += ["--sshlogin", "one.example,two.example", str(program)]
    printed = run(command, folder, (folder / "lines").read_bytes(), MACHINES=str(machines))
    pieces_of(folder)
    names = set(machines.read_text(encoding="utf-8").split())
    if names != {"one.example", "two.example"}:
        raise Difference(f"the machines are {sorted(names)}")
    return printed


def in_any_order(program, folder, octets, replies):
    """GNU parallel without -k, with each line before its reply: the same lines come, in whatever order."""
    command = ["parallel", "--pipe", "-j", "4", "--block", "800k", "--joblog", "log", BESIDE_LINES]
    printed = run(command, folder, octets, PROGRAM=str(program))
    pieces_of(folder)
    pairs = zip(octets.split(b"\n"), replies.split(b"\n")[:-1])
    compare(b"\n".join(sorted(printed.split(b"\n")[:-1])), b"\n".join(sorted(map(b";".join, pairs))), "sorted")


def by_split_filter(program, folder, count):
    """`split` in so many pieces at newlines, each through the program."""
    run(["split", "-n", f"l/{count}", "--filter", '"$PROGRAM" > $FILE', "lines", "replies."], folder, PROGRAM=str(program))
    return joined(folder, "replies.*", count)


def by_turns(program, folder, count):
    """`split` by turns, a line for each piece; `paste` brings the replies into their order again."""
    run(["split", "-n", f"r/{count}", "--filter", '"$PROGRAM" > $FILE', "lines", "replies."], folder, PROGRAM=str(program))
    command = 'paste -d "\\n" replies.* | head -n "$(sed -n \'$=\' lines)"'
    return run(["bash", "-c", command], folder)


def by_files(program, folder, count):
    """Piece files of `split`, several at a time by `xargs`."""
    run(["split", "-n", f"l/{count}", "lines", "piece."], folder)
    pieces = b"".join(bytes(file.name, "ascii") + b"\n" for file in sorted(folder.glob("piece.*")))
    run(["xargs", "-P", "3", "-I{}", "sh", "-c", ONE_FILE, "sh", "{}"], folder, pieces, PROGRAM=str(program))
    if joined(folder, "piece.*.problems", count):
        raise Difference("there are problems")
    return joined(folder, "piece.*.replies", count)


# each way by a name, with its numbers
WAYS = (
    ("parallel --pipe, 4 at a time", by_parallel, ("300k", 4)),
    ("parallel --pipe, 3 at a time", by_parallel, ("1M", 3)),
    ("parallel --pipepart", by_parallel_of_a_file, ("500k", 4)),
    ("parallel --sshlogin", by_machines, ()),
    *((f"split -n l/{count} --filter", by_split_filter, (count,)) for count in range(2, 6)),
    *((f"split -n r/{count} --filter", by_turns, (count,)) for count in range(2, 6)),
    ("xargs -P", by_files, (7,)),
)


def with_empty_lines(lines, replies):
    """Lines with empty ones at the start, at the end, and one or two behind every 97th; and the replies, each of these `?`."""
    new_lines, new_replies = [b"", b""], [b"?", b"?"]
    for k, (line, reply) in enumerate(zip(lines, replies)):
        empty = 1 + k % 2 if k % 97 == 0 else 0
        new_lines += [line] + [b""] * empty
        new_replies += [reply] + [b"?"] * empty
    return b"\n".join(new_lines + [b"", b"", b""]), b"\n".join(new_replies + [b"?", b"?", b""])


def inputs():
    """The stored lines, whose last one lacks its newline, with it, and with empty lines; each with the replies to it."""
    octets, replies = STDIN.read_bytes(), STDOUT.read_bytes()
    if octets.endswith(b"\n") or not replies.endswith(b"\n"):
        raise Difference("the stored lines do not end as they did")
    yield "as stored", octets, replies
    yield "with a last newline", octets + b"\n", replies
    yield "with empty lines", *with_empty_lines(octets.split(b"\n"), replies.split(b"\n")[:-1])


def compare(found, expected, what):
    """The first line that differs."""
    if found == expected:
        return
    found_lines, lines = found.split(b"\n"), expected.split(b"\n")
    same = [a == b for a, b in zip(found_lines, lines)]
    place = same.index(False) if False in same else min(len(found_lines), len(lines))
    raise Difference(f"{what}: line {place + 1} differs; {len(found_lines)} lines, {len(lines)} expected")


def try_way(function, program, octets, numbers, whole):
    """One way against the whole, in a folder of its own."""
    with tempfile.TemporaryDirectory() as folder:
        (Path(folder) / "lines").write_bytes(octets)
        compare(function(program, Path(folder), *numbers), whole, "joined")


def try_input(program, octets, replies):
    """The whole against what is stored, and each way against the whole."""
    whole = subprocess.run([program], input=octets, capture_output=True, check=True).stdout
    compare(whole, replies, "whole")
    for way, function, numbers in WAYS:
        try:
            try_way(function, program, octets, numbers, whole)
        except Difference as difference:
            raise Difference(f"{way}: {difference}") from difference
    with tempfile.TemporaryDirectory() as folder:
        in_any_order(program, Path(folder), octets, whole)


def try_failed_pieces(program):
    """Pieces that cannot be written say so on standard error, and GNU parallel hands that on."""
    command = ["parallel", "--pipe", "-k", "--block", "1M", '"$PROGRAM" > /dev/full']
    with tempfile.TemporaryDirectory() as folder:
        done = start(command, folder, STDIN.read_bytes(), PROGRAM=str(program))
    if done.stdout or b"standard output" not in done.stderr:
        raise Difference(f"a piece that cannot be written says {done.stderr[:200]!r}")


def main():
    program = Path(sys.argv[1] if len(sys.argv) > 1 else ROOT / "crates/convert/out/convert").resolve()
    missing = [tool for tool in (str(program), "parallel", "split", "xargs", "paste") if shutil.which(tool) is None]
    if missing:
        sys.exit(f"split runs: there is no {missing[0]}")
    place = "stored lines"
    try:
        for name, octets, replies in inputs():
            place = f"lines {name}"
            try_input(program, octets, replies)
        place = "failed pieces"
        try_failed_pieces(program)
    except Difference as difference:
        sys.exit(f"split runs: {place}: {difference}")


if __name__ == "__main__":
    main()
