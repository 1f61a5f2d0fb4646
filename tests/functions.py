"""Makes docs/promises/functions.md from the sources: each public function of a library with its contract, as it stands, and
the wrong programs that are refused at it or at a function of its crate that it calls. Prints the public functions at which nothing is
refused, with the reason; one that has none among the exceptions below is a fault. `--check` makes nothing: it prints each fault, and
whether the page says otherwise, and exits 1, or prints nothing."""

import re
import sys
import tempfile
import textwrap
from pathlib import Path

sys.dont_write_bytecode = True
from contracts import CLAUSE, PUBLIC, clauses  # noqa: E402

ROOT = Path(__file__).resolve().parent.parent
PAGE = ROOT / "docs/promises/functions.md"

# a public function at which no wrong program of its crate is refused, and why none is needed there
BY_NUMBER = "a case for each number, as the definition has it; `read_type` makes types by it, and has the wrong programs"
EXCEPTIONS = {
    "year_of": "one case for each form, all alike; the year is tried where it is read, written and judged",
    "date_at": BY_NUMBER, "clock_at": BY_NUMBER, "zone_at": BY_NUMBER,
    "Type::date": "built as the others are, whose wrong programs are `builder_without_hour_24` and `date_time_without_time`",
}

HEAD = """# The public functions

Made by `python3 tests/functions.py` from `src/` and `must-fail/`; the test command sees that it is current. For each public function
of a library: where it stands, its contract as it stands there, and the wrong programs that are refused. `result` is what it returns,
`x.now` what shared memory holds, `x.old` what lent memory holds before the call and `x.new` after it. A wrong program is an edit of
that name in the crate's `must-fail/`. After "in" stands a function of the crate's own that is called on the way: the edit is refused
at its contract.
"""

FUNCTION = re.compile(r'^( *)((?:pub(?:\(crate\))? )?(?:const )?(?:extern "C" )?fn (\w+)[^{]*?)(?=\s(?:requires|ensures)\b|\s*\{)', re.M)
# a block of functions: of a type itself, or of a trait, with an argument, for it
OWNER = re.compile(r"^impl(?:<[^>]*>)? (?:(\w+)(?:<(\w+)>)? for )?(\w+)(?:<[^>]*>)? \{", re.M)
GIVEN = re.compile(r"^    ghost \w+_gives = \{.*?\};", re.M | re.S)
PART = re.compile(r"^# (\w+): refused at (\S+)", re.M)
# where a function is refused: its folder in proofs/; a file there may be named, and a law stands in a file of proofs/ itself or of Laws/
PROOF = re.compile(r"^proofs/(?!Laws\b)([\w/]+?)(?:/(?:Answers|Invariants|Proof)\.antt)?$")
USED = re.compile(r"^use crate::(\w+)::\{?([\w\s,]+)\}?;", re.M)


def end_of(text, at):
    """The place behind the brace that closes the one at a place."""
    depth = 0
    while True:
        depth += {"{": 1, "}": -1}.get(text[at], 0)
        at += 1
        if not depth:
            return at


def bare(text):
    """A source without its comments, and with every place as it was: a comment is as many spaces."""
    return re.sub(r"//.*", lambda found: " " * len(found[0]), text)


class Function:
    """A function of a crate: its module, which has no name for a function of `lib.rt` itself, its path in `proofs/`, its contract,
    and where it stands in the file."""

    def __init__(self, module, text, match, owner, given=None):
        self.module, self.name, self.owner = module, match[3], owner
        self.within = module if module != "lib" else None
        self.path = "/".join(filter(None, (self.within, owner, self.name)))
        self.shown = "::".join(filter(None, (owner, self.name)))
        self.public = bool(PUBLIC.match(text, match.start(2)) or given)
        self.head = re.sub(r",\s*\)", ")", re.sub(r"\(\s+", "(", " ".join(match[2].split())))
        self.contract = [" ".join(f"{head} {{ {clause} }}".split()) for _, head, clause in clauses(text, match.end())]
        self.contract += [" ".join(given.split())] if given else []
        at = match.end()
        while found := CLAUSE.match(text, at):
            at = end_of(text, found.end() - 1)
        self.first, self.last = match.start(2), end_of(text, text.index("{", at))
        self.body = text[at:self.last]
        self.wrong = []


def functions(crate):
    """All functions of a library, by their paths."""
    found = {}
    for file in sorted((crate / "src").glob("**/*.rt")):
        text = bare(file.read_text("utf-8"))
        blocks = [(owner.start(), end_of(text, owner.end() - 1), owner) for owner in OWNER.finditer(text)]
        for match in FUNCTION.finditer(text):
            start, end, owner = next((block for block in blocks if block[0] < match.start() < block[1]), (0, 0, None))
            given = owner and owner[1] and GIVEN.search(text, start, end)
            name = owner and "".join(part[0].upper() + part[1:] for part in (owner[3], owner[1], owner[2]) if part) if owner and owner[1] else owner and owner[3]
            function = Function(file.stem, text, match, name, given and given[0])
            found[function.path] = function
    return found


def called(function, all_functions, source):
    """The functions of its crate that a function calls."""
    used = {name: module for module, names in USED.findall(source) for name in re.findall(r"\w+", names)}
    for owner, dot, name in re.findall(r"(?:\b(\w+)::|(\.))?\b(\w+)(?:::<\w+>)?\(", function.body):
        places = [name, f"{function.module}/{name}", f"{used.get(name)}/{name}"]
        places += [path for path in all_functions if path.endswith(f"/{owner or function.owner}/{name}")]
        places += [path for path, other in all_functions.items() if dot and other.owner and other.name == name]
        yield from (all_functions[path] for path in places if path in all_functions)


def parts(edit):
    """The wrong programs of a file, each with the path of the function that it is refused at, or nothing."""
    text = edit.read_text("utf-8")
    if not PART.search(text):
        yield edit.stem, edited(edit.parent.parent, text)
    for name, path in PART.findall(text):
        yield name, PROOF.match(path) and PROOF.match(path)[1]


def edited(crate, text):
    """The path of the function that the first edited line of a source stands in."""
    match = re.search(r"^file: src/(\S+)\.rt\nold: (.*)$", text, re.M)
    if match:
        place = (crate / f"src/{match[1]}.rt").read_text("utf-8").find(match[2])
        around = (f for f in functions(crate).values() if f.module == match[1] and f.first <= place < f.last)
        return next((function.path for function in around), None)


def libraries(root):
    """Each library with its functions, and at each function the wrong programs that are refused at it. Those that change
    definitions are refused by laws and not at functions."""
    for crate in sorted(file.parent.parent for file in root.glob("crates/*/src/lib.rt")):
        found = functions(crate)
        for edit in sorted(crate.glob("must-fail/*.edit")):
            for name, path in parts(edit):
                if path and path not in found:
                    sys.exit(f"{edit.relative_to(root)}: {name} is refused at no function of the crate")
                if path and not name.startswith("definition"):
                    found[path].wrong.append(name)
        yield crate, found


def refused(function, found, crate):
    """The wrong programs of a function: its own, and those of functions that it calls and that are not public themselves."""
    sources = {file.stem: file.read_text("utf-8") for file in (crate / "src").glob("**/*.rt")}
    seen, waiting = [function], [function]
    while waiting:
        for other in called(waiting[0], found, sources[waiting[0].module]):
            if other not in seen and not other.public:
                seen.append(other)
                waiting.append(other)
        waiting = waiting[1:]
    return [(other, other.wrong) for other in seen if other.wrong]


def place(crate, function):
    """The name of a function with its crate and module before it."""
    return "::".join(filter(None, (crate.name, function.within, function.shown)))


def entry(function, found, crate):
    """What the page says of a function."""
    code = "\n".join([function.head, *(f"    {clause}" for clause in function.contract)])
    said = [
        ", ".join(f"`{name}`" for name in sorted(names)) + ("" if other is function else f" in `{other.shown}`")
        for other, names in refused(function, found, crate)
    ]
    wrong = "Refused: " + "; ".join(said) if said else f"No wrong program here: {EXCEPTIONS.get(function.shown)}"
    return f"### `{place(crate, function)}`\n\n```text\n{code}\n```\n\n{textwrap.fill(wrong, 130, break_on_hyphens=False)}.\n"


def page(all_libraries):
    """The whole page."""
    said = [HEAD]
    for crate, found in all_libraries:
        public = [function for function in found.values() if function.public]
        said += [f"## `{crate.name}`\n"] * bool(public) + [entry(function, found, crate) for function in public]
    return "\n".join(said)


def uncovered(all_libraries):
    """The public functions at which nothing is refused."""
    for crate, found in all_libraries:
        for function in found.values():
            if function.public and not refused(function, found, crate):
                yield place(crate, function), function.shown


def self_test():
    """A wrong program stands at its function, and a function without one is found."""
    with tempfile.TemporaryDirectory() as folder:
        crate = Path(folder) / "crates/planted"
        for part in ("src", "must-fail"):
            (crate / part).mkdir(parents=True)
        (crate / "src/lib.rt").write_text("pub mod a;\npub fn low() -> u8\n    ensures { result ≡ 3 }\n{\n    3\n}\n", "utf-8")
        (crate / "src/a.rt").write_text(
            "use crate::b::{\n    A, far,\n};\nfn inner(x: u8) -> u8 {\n    x // outer()\n}\n"
            "pub fn outer(\n    x: u8,\n) -> u8\n    ensures value { result ≡ {A} x }\n{\n    inner(x)\n}\n"
            "impl From<u8> for T {\n    ghost from_gives = { λ x t. t ≡ x };\n\n    fn from(x: u8) -> T {\n        T {}\n    }\n}\n"
            "impl T {\n    pub fn own(self) -> u8\n        ensures { result ≡ 1 }\n    {\n        1\n    }\n}\n"
            "pub fn bare() -> u8\n    ensures { result ≡ 2 }\n{\n    2\n}\n"
            "pub fn away() -> u8\n    ensures { result ≡ 5 }\n{\n    far()\n}\n", "utf-8")
        (crate / "src/b.rt").write_text("pub struct A {}\nfn far() -> u8 {\n    5\n}\n", "utf-8")
        (crate / "must-fail/together_1.edit").write_text(
            "# wrong: refused at proofs/a/inner\n# lower: refused at proofs/low/Answers.antt returns\n"
            "# there: refused at proofs/b/far\n# made: refused at proofs/a/TFromU8/from\n# definition_y: refused at proofs/Laws/A.antt b\n", "utf-8")
        (crate / "must-fail/one.edit").write_text("file: src/a.rt\nold:         1\nnew:         0\n", "utf-8")
        (crate / "must-fail/definition_x.edit").write_text("file: src/a.rt\nold:     2\nnew:     3\n", "utf-8")
        made = list(libraries(Path(folder)))
        said = page(made)
        parts_of_it = (
            "outer(x: u8) -> u8\n    ensures value { result ≡ {A} x }\n", "`wrong` in `inner`", "`one`.", "### `planted::low`\n", "`lower`.",
            "`there` in `far`.", "fn from(x: u8) -> T\n    ghost from_gives = { λ x t. t ≡ x };\n", "`made`.",
        )
        if list(uncovered(made)) != [("planted::a::bare", "bare")] or not all(part in said for part in parts_of_it) or "definition_y" in said:
            sys.exit(f"functions.py does not find what it should:\n{said}")


def main():
    self_test()
    all_libraries = list(libraries(ROOT))
    none = list(uncovered(all_libraries))
    bad = [f"{whole}: no wrong program is refused at it" for whole, name in none if name not in EXCEPTIONS]
    bad += [f"{name}: an exception that is none" for name in EXCEPTIONS if name not in {name for _, name in none}]
    made = page(all_libraries)
    if "--check" not in sys.argv[1:]:
        PAGE.parent.mkdir(exist_ok=True)
        PAGE.write_text(made, "utf-8")
        print("\n".join(f"{whole}: no wrong program: {EXCEPTIONS[name]}" for whole, name in none if name in EXCEPTIONS))
    elif not PAGE.exists() or PAGE.read_text("utf-8") != made:
        bad.append(f"{PAGE.relative_to(ROOT)} is not what python3 tests/functions.py makes")
    print("\n".join(bad), end="\n" if bad else "")
    sys.exit(1 if bad else 0)


if __name__ == "__main__":
    main()
