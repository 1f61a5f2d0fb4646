"""Makes the picture of the crates in docs/CRATES.md from the sources: each crate with the first sentence of its first comment, and the
crates that its own files name, in layers. `--check` prints where the page says otherwise, or where its replies to its lines are not those
of the reference, and exits 1, or prints nothing."""

import re
import sys
import tempfile
from pathlib import Path

ROOT = Path(__file__).resolve().parent.parent
sys.dont_write_bytecode = True
sys.path.insert(0, str(ROOT / "reference"))
import convert_lines  # noqa: E402

PAGE = ROOT / "docs/CRATES.md"
MADE = re.compile(r"(?<=<!-- made by tests/crates.py: from here -->\n).*?(?=<!-- to here -->)", re.S)
LINES = re.compile(r"^```text\n((?:\w+;[^\n]*\n)+)```\n+```text\n(.*?)^```", re.M | re.S)


def text_of(file):
    """A file without its comments."""
    mark = "//" if file.suffix == ".rt" else "--"
    return re.sub(rf"{mark}.*", "", file.read_text("utf-8"))


def named(crate, part, others):
    """The crates among others that the files of a part of a crate name: `name::` in code, where no module of the crate's own has
    that name, and `Rattle.name` in what is said of it."""
    own = {file.stem for file in (crate / "src").glob("**/*.rt")}
    for file in (crate / part).glob("**/*"):
        if file.suffix in (".rt", ".antt"):
            text = text_of(file)
            found = set(re.findall(r"\bRattle\.(\w+)", text)) | set(re.findall(r"(?<![\w:])(\w+)::", text)) - own
            yield from found & others - {crate.name}


def sentence(crate):
    """The first sentence of a crate's first comment, up to a colon where it is long."""
    file = next(file for file in (crate / "src/lib.rt", crate / "src/main.rt") if file.exists())
    comment = re.match(r"(?://.*\n)+", file.read_text("utf-8"))[0]
    whole = " ".join(line.lstrip("/ ") for line in comment.splitlines())
    first = re.match(r".*?(?:\.(?= [A-Z])|$)", whole)[0].rstrip(".")
    return first if len(first) <= 100 else first.split(": ")[0]


def uses(root):
    """For each crate what its code and definitions name, and what its proofs name besides."""
    crates = {path.name: path for path in sorted((root / "crates").iterdir())}
    for name, crate in crates.items():
        plain = {other for part in ("src", "specs") for other in named(crate, part, set(crates))}
        yield name, sorted(plain), sorted(set(named(crate, "proofs", set(crates))) - plain)


def layers(below):
    """The crates in layers: each stands above all that it names."""
    height = {}
    while len(height) < len(below):
        ready = [name for name in below if name not in height and all(other in height for other in below[name])]
        if not ready:
            sys.exit(f"crates.py: {sorted(set(below) - set(height))} name each other")
        height |= {name: 1 + max((height[other] for other in below[name]), default=0) for name in ready}
    return [[name for name in below if height[name] == level] for level in range(max(height.values()), 0, -1)]


def rests_on(name, below):
    """All that a crate rests on."""
    return set(below[name]).union(*(rests_on(other, below) for other in below[name]))


def picture(rows, below):
    """A line for each crate: its layer, its name, and of what it names the crates that none of the others rests on."""
    for at, row in enumerate(rows):
        for name in row:
            nearest = [other for other in below[name] if not any(other in rests_on(third, below) for third in below[name])]
            level = "" if name != row[0] else len(rows) - at
            yield f"{level:>3}  {name:<15}{'→ ' if nearest else ''}{'  '.join(sorted(nearest))}".rstrip()


def listed(names):
    return ", ".join(f"`{name}`" for name in names)


def made(root):
    """The picture and the table."""
    known = list(uses(root))
    below = {name: plain + proofs for name, plain, proofs in known}
    rows = layers(below)
    table = ["| Crate | What it is | It names | In its proofs besides |", "|---|---|---|---|"]
    by_name = {name: (plain, proofs) for name, plain, proofs in known}
    for name in (name for row in rows for name in row):
        plain, proofs = by_name[name]
        table.append(f"| `{name}` | {sentence(root / 'crates' / name)} | {listed(plain)} | {listed(proofs)} |")
    return "\n".join(["", "```text", *picture(rows, below), "```", "", *table, "", ""])


def self_test():
    """What a crate names is found, and what it does not is not."""
    with tempfile.TemporaryDirectory() as folder:
        root = Path(folder)
        files = {
            "low/src/lib.rt": "// Low. More.\n", "middle/src/lib.rt": "// A middle: it has two\n// lines. More.\nuse low::x;\n",
            "top/src/main.rt": "// Top.\n// See low::x.\nuse middle::y;\nfn f() { own::g() }\n", "top/src/own.rt": "",
            "top/proofs/main/Answers.antt": "use Rattle.low.specs.A.{a} -- Rattle.own\n", "own/src/lib.rt": "// Own.\nmod a;\n",
        }
        for path, text in files.items():
            (root / "crates" / path).parent.mkdir(parents=True, exist_ok=True)
            (root / "crates" / path).write_text(text, "utf-8")
        said = made(root)
        rows = ("  3  top            → middle", "  2  middle         → low", "  1  low", "     own", "| `middle` | A middle: it has two lines | `low` |  |",
                "| `top` | Top | `middle` | `low` |")
        if not all(f"\n{row}\n" in said for row in rows):
            sys.exit(f"crates.py does not find what it should: {said}")


def main():
    self_test()
    page = PAGE.read_text("utf-8")
    new, count = MADE.subn(lambda _: made(ROOT), page)
    if count != 1:
        sys.exit(f"{PAGE.relative_to(ROOT)} has no place for the picture")
    for lines, replies in LINES.findall(page) or [("", None)]:
        if convert_lines.replies(lines.encode()) != (replies or "").encode() or not replies:
            sys.exit(f"{PAGE.relative_to(ROOT)}: the reference has other replies to\n{lines}")
    if "--check" not in sys.argv[1:]:
        PAGE.write_text(new, "utf-8")
    elif new != page:
        sys.exit(f"{PAGE.relative_to(ROOT)} is not what python3 tests/crates.py makes")


if __name__ == "__main__":
    main()
