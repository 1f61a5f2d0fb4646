"""Sees that the crates above the calendar rely on its promises and laws: no file outside
crates/calendar opens one of its definitions by `unfolding`. Tables of checked values may,
and stand in files whose names begin with Checked. Prints each place and exits 1, or prints nothing."""

import re
import sys
import tempfile
from pathlib import Path

DEFINED = re.compile(r"^\s*(?:(?:pub|unfoldable|abbrev) )*(\S+) : ", re.M)
USED = re.compile(r"^\s*(?:pub )?use (\S+)\.\{([^}]*)\}", re.M)
OPENED = re.compile(r"^\s*unfolding (.*)$", re.M)


def defined(crate):
    """The names that a crate's specs/ and proofs/ give a signature."""
    files = [*crate.glob("specs/**/*.antt"), *crate.glob("proofs/**/*.antt")]
    return {name for file in files for name in DEFINED.findall(file.read_text("utf-8"))}


def imported(text, calendar):
    """The names that a file brings in from the calendar, as it calls them, or from elsewhere."""
    uses = [names for module, names in USED.findall(text) if module.startswith("Rattle.calendar.") == calendar]
    entries = [entry.strip() for names in uses for entry in names.split(",")]
    return {entry.split(" as ")[-1].strip() for entry in entries if entry}


def places(root):
    """Each place outside the calendar where one of its definitions is opened."""
    calendar = defined(root / "crates" / "calendar")
    for crate in sorted((root / "crates").iterdir()):
        if crate.name == "calendar":
            continue
        foreign = calendar - defined(crate)
        for file in sorted(crate.glob("**/*.antt")):
            if file.name.startswith("Checked"):
                continue
            text = file.read_text("utf-8")
            closed = foreign - imported(text, False) | imported(text, True)
            for match in OPENED.finditer(text):
                for word in match.group(1).split():
                    if word in closed or "." in word and word.split(".")[-1] in foreign:
                        line = text.count("\n", 0, match.start()) + 1
                        yield f"{file.relative_to(root)}:{line}: opens the calendar's {word}"


def write(file, text):
    file.parent.mkdir(parents=True, exist_ok=True)
    file.write_text(text, "utf-8")


def self_test():
    """The check finds what it is to find, and nothing else."""
    with tempfile.TemporaryDirectory() as folder:
        root = Path(folder)
        write(root / "crates/calendar/specs/Years.antt", "unfoldable pub leap_of : ℤ → Bool\n")
        proofs = root / "crates/upper/proofs"
        use = "use Rattle.calendar.specs.Years.{leap_of as leap}\n"
        write(proofs / "Bad.antt", use + "law : A\nunfolding own leap\nlaw = refl\n")
        write(proofs / "Worse.antt", "law : A\nunfolding Y.leap_of\nlaw = refl\n")
        write(proofs / "f/Answers.antt", use + "pub returns : goal.returns\nunfolding leap\nreturns c = refl\n")
        write(proofs / "Checked.antt", use + "table : A\nunfolding leap\ntable = refl\n")
        write(proofs / "Good.antt", use + "law : leap ≡ leap\nunfolding own\nlaw = refl\n")
        write(proofs / "Other.antt", "use Rattle.other.specs.A.{leap_of}\nlaw : A\nunfolding leap_of\nlaw = refl\n")
        found = [place.split(":")[0] for place in places(root)]
        if found != [f"crates/upper/proofs/{name}.antt" for name in ("Bad", "Worse", "f/Answers")]:
            sys.exit(f"boundary.py does not find what it should: {found}")


if __name__ == "__main__":
    self_test()
    found = list(places(Path(__file__).resolve().parent.parent))
    print("\n".join(found), end="\n" if found else "")
    sys.exit(1 if found else 0)
