"""Tries each must-fail edit, as `rt ci` does, and reads all that the check says of it, of which `rt ci` shows the first line alone. The
logs are kept in build/must-fail/, and an edit is not tried again while nothing that it stands on has changed. An edit that only made a
proof file unfit for the code shows nothing: its first error is one of the messages below, and it is printed, with exit 1. A file of
several wrong programs says of each at which function or law it is refused, and at which goal of the function where two share one, and
each of these must have an error that is none of those messages. Where a function has none because its proof waits for that of another
one that is wrong too, its wrong program is tried alone. A wrong definition is first refused by a law or by a demand, and not by the
proof of a function that no longer agrees with it. Where code and proofs follow it, as such an edit says of itself, every error is in a
law, or of what rests on one. Otherwise nothing is printed. Whether any other error is a fact that fails is for a reader to see.

`must_fail_logs.py [CRATE..]`; without a crate it is all of them."""

import functools
import hashlib
import os
import re
import shutil
import subprocess
import sys
import tempfile
import threading
from concurrent.futures import ThreadPoolExecutor
from pathlib import Path

sys.dont_write_bytecode = True
from functions import functions  # noqa: E402

ROOT = Path(__file__).resolve().parent.parent
LOGS = ROOT / "build/must-fail"

# what a check reads of a crate
PARTS = ("src", "specs", "proofs")

# how much memory a check may need, in KB
MEMORY = 4_000_000

UNFIT = re.compile(
    r"can be named from here|no module is found|is not in scope|has no field|has no `|(?:was|were) not (?:admitted|checked)|is no name|"
    r"does not parse|operand is missing|expected the end|cannot continue"
)
ERROR = re.compile(r"(?:\./)?((?:src|specs|proofs)/\S+):\d+:\d+: error(?:\[[\w-]+\])?: (?:`([^`]*)`: )?")
# what `search` was left to prove, since no file answers it, or none that fits; or what it found values for at which it is false
OPEN = re.compile(r"note: (?:\./)?src/(\S+)\.rt:(\d+):\d+: (?:it is not proved .*|`search` found no proof )\(`([^`]*)`\)")
UNPROVED = re.compile(r"^fn \w+::(\S+): (?:not proved|no proof)\b", re.M)
# a file of a function's proof, in its folder; any other file of proofs/ has laws
OF_FUNCTION = re.compile(r"^proofs/(?!Laws/)(\S+)/(?:Answers|Invariants|Proof)\.antt$")
RESTING = re.compile(r"(?:was|were) not checked")
FOLLOWED = re.compile(r"^# code and proofs follow$", re.M)
PART = re.compile(r"^# (\w+): refused at proofs/(\S+)(?: (\S+))?$", re.M)
LINE = re.compile(r"^(file|old|new):(?: (.*))?$", re.M)


def place_of(path):
    """The place that a file of proofs/ belongs to, or a comment names: a function's path, or a file of laws."""
    match = OF_FUNCTION.match(path)
    return match[1] if match else path.removeprefix("proofs/")


def is_law(place):
    return place.endswith(".antt") and not place.startswith(("src/", "specs/"))


def refusals(log, function_at):
    """What fails in a log, in its order: the place, the goal or the law, and the lines that say so."""
    lines = log.split("\n")
    for i, line in enumerate(lines):
        error, opened = ERROR.match(line), OPEN.match(line)
        if error:
            end = next((k for k in range(i + 1, len(lines)) if not lines[k].startswith(" ")), len(lines))
            yield place_of(error[1]), error[2], "\n".join(lines[i:end])
        elif opened:
            yield function_at(opened[1], int(opened[2])), opened[3], line


def is_refused(part, log, found):
    """Whether a wrong program is refused where it says, by something else than a proof file that no longer fits."""
    _, path, goal = part
    place = place_of(f"proofs/{path}")
    if not is_law(place) and place not in (name.replace("::", "/") for name in UNPROVED.findall(log)):
        return False
    return any(at == place and goal in ("", what) and not UNFIT.search(said) for at, what, said in found)


def faults(edit, log, function_at, definition=False, alone=None):
    """What is wrong with an edit, given its text and its log, and whether it is one of definitions. `alone` gives the log of one of its
    wrong programs, and what finds its functions."""
    found, parts = list(refusals(log, function_at)), PART.findall(edit)
    if definition and found and not is_law(found[0][0]):
        yield f"no law refuses it first: {found[0][2][:300]}"
    if FOLLOWED.search(edit):
        apart = [said for place, _, said in found if not is_law(place) and not RESTING.search(said)]
        yield from (f"the code does not follow: {said[:300]}" for said in apart[:1])
    if not parts and (not found or UNFIT.search(found[0][2])):
        yield f"only unfits a proof file: {(found[0][2] if found else 'no error')[:300]}"
    places = [(place_of(f"proofs/{path}"), goal) for _, path, goal in parts]
    if len(places) != len(set(places)) or any(goal and (place, "") in places for place, goal in places):
        yield "two wrong programs are refused at one place"
    for part in parts:
        if not is_refused(part, log, found):
            own, at = alone(part) if alone and len(parts) > 1 else (log, function_at)
            if not is_refused(part, own, list(refusals(own, at))):
                yield f"{part[0]} is not refused at {' '.join(filter(None, part[1:]))}"


def text_of_part(edit, name):
    """What a file of several wrong programs says of one."""
    match = re.search(rf"^# {name}: refused at .*\n(?:(?!# \w+: refused at ).*\n?)*", edit, re.M)
    return match[0]


def apply(edit, crate):
    """Edits a copy of a crate. Each text that is replaced stands there once."""
    said, changed = {}, False
    for word, text in LINE.findall(edit):
        said[word] = text
        if word == "file" and not (crate / text).is_file():
            raise ValueError(f"there is no {text}")
        if word == "new":
            file, old = crate / said["file"], said.pop("old")
            whole = file.read_text("utf-8")
            if whole.count(old) != 1:
                raise ValueError(f"{said['file']} has {whole.count(old)} times: {old}")
            file.write_text(whole.replace(old, text), "utf-8")
            changed = changed or old != text
    if not changed:
        raise ValueError("it changes nothing")


def link(one, other):
    """Gives what was proved a second name, where that can be; `rt` replaces such a file and changes none."""
    try:
        if Path(one).suffix == ".oantt":
            return os.link(one, other)
    except OSError:
        pass
    return shutil.copy2(one, other)


def copied(source, target, **how):
    """Puts a copy of a folder, if there is one, in the place of another."""
    shutil.rmtree(target, ignore_errors=True)
    if source.is_dir():
        shutil.copytree(source, target, **how)


class Copy:
    """A copy of the project in a folder of its own, where an edit can be tried while others are tried elsewhere."""

    def __init__(self, folder):
        self.folder = folder
        shutil.copy(ROOT / "crates.txt", folder)
        if (ROOT / "HANDLES").exists():
            shutil.copy(ROOT / "HANDLES", folder)
        for crate in (ROOT / "crates").iterdir():
            for part in (*PARTS, "out/rlib"):
                copied(crate / part, folder / "crates" / crate.name / part, copy_function=link)

    def log(self, name, edit):
        """What a check of a crate says with an edit, begun with what was proved without it; and where its functions end."""
        whole, crate = ROOT / "crates" / name, self.folder / "crates" / name
        copied(whole / "out/incremental", crate / "out/incremental", copy_function=link)
        how = {"stdin": subprocess.DEVNULL, "stdout": subprocess.PIPE, "stderr": subprocess.STDOUT, "errors": "replace"}
        try:
            apply(edit, crate)
            there = lines_of(crate)
            run = subprocess.run(["rt", "check", "--jobs", "1"], cwd=crate, check=False, **how)
        finally:
            for part in PARTS:
                copied(whole / part, crate / part)
        if run.returncode != 1 or not re.search(rf"^crate {name}: (?s:.*)^logic=not-proved", run.stdout, re.M):
            raise ValueError(f"the check ends in {run.returncode}: {run.stdout[-300:]}")
        return run.stdout, there


def lines_of(crate):
    """The last line of each function of a crate, with its path and its module, in the order of the lines."""
    found = []
    for path, function in functions(crate).items():
        text = (crate / "src" / f"{function.module}.rt").read_text("utf-8")
        found.append((path, function.module, text.count("\n", 0, function.last) + 1))
    return sorted(found, key=lambda row: row[2])


def finder(there):
    """What finds the function that a line of a module stands in, or before which it has its attributes."""
    return lambda module, line: next((path for path, name, last in there if name == module and line <= last), "src/")


@functools.lru_cache(maxsize=None)
def below(name):
    """The crates that a crate stands on, with itself."""
    lines = re.findall(r"^(\w+)(?: staticlib)?:(.*)$", (ROOT / "crates.txt").read_text("utf-8"), re.M)
    known = {crate: uses.split() for crate, uses in lines}
    return sorted({name}.union(*(below(use) for use in known.get(name, []) if use in known)))


@functools.lru_cache(maxsize=None)
def sum_of(name):
    """A sum of all that a crate's check reads: `rt` itself, and the files of the crate and of those below it."""
    made = hashlib.sha256(subprocess.run(["rt", "version"], capture_output=True, check=True).stdout)
    for crate in below(name):
        for file in sorted(file for part in PARTS for file in (ROOT / "crates" / crate / part).glob("**/*") if file.is_file()):
            made.update(f"{file.relative_to(ROOT)}\n".encode() + file.read_bytes())
    return made.hexdigest()


class Tries:
    """The copies, of which each thread has one, and the logs that were kept."""

    def __init__(self, folder):
        self.folder, self.own = Path(folder), threading.local()

    def log(self, name, edit, label):
        """The log of an edit, and where its functions end: as it was kept, or of a check."""
        kept = LOGS / name / f"{label}.log"
        key = hashlib.sha256(f"{sum_of(name)} {edit}".encode()).hexdigest()
        if kept.exists() and kept.read_text("utf-8").startswith(key):
            _, there, log = kept.read_text("utf-8").split("\n", 2)
            return log, [(path, module, int(last)) for path, module, last in (row.split(":") for row in there.split())]
        if not hasattr(self.own, "copy"):
            self.own.copy = Copy(Path(tempfile.mkdtemp(dir=self.folder)))
        log, there = self.own.copy.log(name, edit)
        kept.parent.mkdir(parents=True, exist_ok=True)
        kept.write_text("\n".join([key, " ".join(":".join(map(str, row)) for row in there), log]), "utf-8")
        return log, there

    def faults(self, path):
        """What is wrong with a file of wrong programs."""
        name, edit, told = path.parent.parent.name, path.read_text("utf-8"), path.relative_to(ROOT)

        def alone(part):
            log, there = self.log(name, text_of_part(edit, part[0]), f"{path.stem}.{part[0]}")
            return log, finder(there)

        try:
            log, there = self.log(name, edit, path.stem)
            return [f"{told}: {fault}" for fault in faults(edit, log, finder(there), path.stem.startswith("definition"), alone)]
        except ValueError as error:
            return [f"{told}: {error}"]


def workers():
    """How many checks the processors and the memory hold."""
    free = re.search(r"^MemAvailable: +(\d+)", Path("/proc/meminfo").read_text("ascii"), re.M)
    return max(1, min(len(os.sched_getaffinity(0)), int(free[1]) // MEMORY))


def self_test():
    """Each fault is found, and a good edit has none."""
    there = finder([("m/T/c", "m", 4), ("a", "lib", 9), ("b", "lib", 15)])
    fact = "./proofs/a/Answers.antt:3:1: error: `returns`: the goal fails\n  at 0\nfn x::a: not proved\n"
    other = "./proofs/a/Answers.antt:9:1: error: `returns-2`: the goal fails\n"
    unfit = "./proofs/b/Answers.antt:3:1: error: `returns`: `g.x`: module `g` has no `x` that can be named from here\nfn x::b: not proved; it calls `x::a`\n"
    opened = "note: src/lib.rt:10:1: it is not proved that the index is in range (`index`); values\n"
    late = "./proofs/b/Answers.antt:5:1: error: 2 declarations that depend on `l`, which was rejected, were not checked: returns, k\n"
    method = "note: src/m.rt:2:1: it is not proved that it holds (`returns`)\nfn x::m::T::c: not proved\n"
    one, two, three = "# a: refused at proofs/a\n", "# b: refused at proofs/b\n", "# c: refused at proofs/m/T/c\n"
    goal, second = "# g: refused at proofs/a/Answers.antt returns\n", "# h: refused at proofs/a returns-2\n"
    cases = (
        ("", fact, 0), ("", unfit, 1), ("", "", 1), ("", opened, 0), (one, unfit + fact, 0), (one + two, fact + unfit, 1),
        (one + two, fact + unfit + opened, 0), (one + two, fact + late + "fn x::b: not proved\n", 1), (one + one, fact, 1), (one + goal, fact, 1),
        (goal, fact, 0), (goal + second, fact, 1), (goal + second, fact + other, 0), (goal + goal, fact, 1), (three, method, 0),
        (three, fact, 1), (two, opened, 1), (one, fact.replace("not proved", "proved"), 1),
    )
    for edit, log, count in cases:
        if len(list(faults(edit, log, there))) != count:
            sys.exit(f"must_fail_logs.py does not find what it should: {edit!r} {log!r}: {list(faults(edit, log, there))}")
    law = "./proofs/Laws/A.antt:3:1: error: `l`: the two sides differ\n"
    named, resting = "# d: refused at proofs/Laws/A.antt l\n", law.replace("`l`: the", "1 declaration that depends on `l` was not checked: the")
    if list(faults(named, law + fact, there, True)) or not list(faults(named, fact + law, there, True)) or not list(faults(named, resting, there)):
        sys.exit("must_fail_logs.py does not see which error is first, or of what it is")
    called, said = (text.replace("A.antt", "Answers.antt") for text in (named, law))
    if list(faults(called, said + fact, there, True)):
        sys.exit("must_fail_logs.py takes a file of laws for that of a function")
    follows = "# code and proofs follow\n"
    if list(faults(follows, law + late, there, True)) or not all(list(faults(follows, law + log, there, True)) for log in (fact, opened)):
        sys.exit("must_fail_logs.py does not see where the code no longer follows")
    asked = []
    if list(faults(one + two, fact + unfit, there, alone=lambda part: (asked.append(part[0]) or opened + "fn x::b: not proved\n", there))) or asked != ["b"]:
        sys.exit("must_fail_logs.py does not try what waits alone")
    self_test_of_edits()


def self_test_of_edits():
    """An edit is applied, in part too, and one that cannot be is told."""
    edit = "# a: refused at proofs/a\nfile: src/lib.rt\nold: x\nnew: y\n# b: refused at proofs/b\nfile: src/lib.rt\nold: z\nnew:\n"
    with tempfile.TemporaryDirectory() as folder:
        file = Path(folder) / "src/lib.rt"
        file.parent.mkdir()
        file.write_text("x z\n", "utf-8")
        apply(text_of_part(edit, "b"), Path(folder))
        if file.read_text("utf-8") != "x \n":
            sys.exit("must_fail_logs.py does not apply an edit")
        try:
            apply(edit, Path(folder))
        except ValueError:
            return
        sys.exit("must_fail_logs.py does not see that an edit has lost its place")


def main():
    self_test()
    names = sys.argv[1:] or ["*"]
    edits = sorted(path for name in names for path in ROOT.glob(f"crates/{name}/must-fail/*.edit"))
    # the largest crates first
    edits.sort(key=lambda path: -sum(file.stat().st_size for file in path.parent.parent.glob("proofs/**/*.antt")))
    with tempfile.TemporaryDirectory(prefix="must-fail-") as folder, ThreadPoolExecutor(workers()) as pool:
        bad = [fault for found in pool.map(Tries(folder).faults, edits) for fault in found]
    print("\n".join(sorted(bad)), end="\n" if bad else "")
    sys.exit(1 if bad or not edits else 0)


if __name__ == "__main__":
    main()
