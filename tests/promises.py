"""Compares the documents with the repository. docs/PROMISES.md and the pages of docs/promises/ name every wrong program that is tried,
and their counts of lines to believe are those of the files. Each sentence of the rules that such a page quotes stands in
docs/RULES.md. Neither they nor the pages for contributors name anything that is not there, and no document links to what is not
there. Prints each difference and exits 1, or prints nothing."""

import re
import sys
import tempfile
from pathlib import Path

ROOT = Path(__file__).resolve().parent.parent
PAGES = [ROOT / "docs/PROMISES.md", *sorted((ROOT / "docs/promises").glob("*.md"))]
GUIDES = [ROOT / "CONTRIBUTING.md", ROOT / "docs/CRATES.md", ROOT / "docs/TESTING.md"]
LINKING = [*ROOT.glob("*.md"), *ROOT.glob("docs/**/*.md"), *ROOT.glob("vectors/*.md")]

# what the pages quote from
RULES = ROOT / "docs/RULES.md"

# a wrong program has a file of its own, or a part of one
PART = re.compile(r"^# (\w+): refused at ", re.M)

# a row of the table of what is believed: the crate, its files, how many lines they have
BELIEVED = re.compile(r"^\| `(\w+)` \| ((?:\w+, )*\w+) \| (\d+) \|", re.M)
SUM = re.compile(r"(\d+) lines of definitions and (\d+) lines of statements")

# the file of the claims, which has nothing else
CLAIMS = ROOT / "crates/exchanges/specs/Demands.antt"

# what a page quotes from the paper, or shows as it stands, names nothing
SHOWN = re.compile(r"^>.*?$|^```.*?^```$", re.M | re.S)
FENCED = re.compile(r"^```.*?^```$", re.M | re.S)
SPAN = re.compile(r"`([^`\n]+)`")
LINK = re.compile(r"\]\(([^)#\s]*)(?:#([\w-]+))?\)")

# a quotation of the rules: a block, a point of a list that is nothing else, or what the first cell of a table's row begins with
QUOTING = re.compile(r'^>.*(?:\n>.*)*|^ *- ".*"$|^\| "[^|]*', re.M)

# behind a quotation: a form that the paper names for the place that it quotes, and so the paper's words too
NAMED_FORM = re.compile(r"(?: \(02\))?: ")

# a name, with the type, module or crate before it; a word that is made of several, as the names of definitions are
NAME = re.compile(r"(?:[A-Za-z]\w*(?:::|\.))*([A-Za-z_]\w*(?:-\w+)*)")
COMPOUND = re.compile(r"\b[a-z]\w*_\w+|\b[a-z]+[A-Z]\w*")
DEFINED = re.compile(r"^\s*(?:(?:pub|unfoldable|abbrev|record|data) )*(\S+)(?: :| \(|\s*$)", re.M)
WORD = re.compile(r"[A-Za-z_]\w*")

# what is named in another way: a place that stands for others, beginnings of names, texts and octets, what the tools know
PLACEHOLDER = re.compile(r"\b(?:NAME|MODULE|FUNCTION|FILE|OLD|\w+_N)\b|(?:^|/)out/|^build/")
ELSEWHERE = {
    "get", "definition_", "C081F680", "HF0", "V", "Five", "requires", "ensures", "unfolding", "axiom", "stdin", "stdout", "rt", "tr",
    "erlang-asn1", "make", "VERSION", "xargs",
}


def wrong_programs():
    """The names of all that are tried."""
    for edit in sorted(ROOT.glob("crates/*/must-fail/*.edit")):
        yield from PART.findall(edit.read_text("utf-8")) or [edit.stem]


def names():
    """What there is to name: crates and modules, what sources define and use, and wrong programs."""
    found = {*ELSEWHERE, *wrong_programs(), *(crate.name for crate in (ROOT / "crates").iterdir())}
    found.update(*(re.findall(r"^[A-Z_\d]+(?= = )", file.read_text("utf-8"), re.M) for file in ROOT.glob("tests/*.py")))
    for file in (*ROOT.glob("include/*.h"), *ROOT.glob("c/*.c"), ROOT / "Makefile"):
        found |= set(WORD.findall(file.read_text("utf-8")))
    for file in ROOT.glob("crates/*/src/**/*.rt"):
        found |= {file.stem, *WORD.findall(re.sub(r"//.*", "", file.read_text("utf-8")))}
    for file in ROOT.glob("crates/*/proofs/**/*.antt"):
        found |= {file.stem, *DEFINED.findall(file.read_text("utf-8"))}
    for file in ROOT.glob("crates/*/specs/**/*.antt"):
        text = re.sub(r"--.*", "", file.read_text("utf-8"))
        found |= {file.stem, *DEFINED.findall(text), *WORD.findall(text)}
    return found


def is_there(span, known):
    """Whether what a page names is there: a file, a name, or what the words of an equation name."""
    name = NAME.fullmatch(span)
    if PLACEHOLDER.search(span):
        return True
    if re.fullmatch(r"[\w./-]+", span) and ("/" in span or re.search(r"\.(?:txt|py|md|rt)$", span)):
        places = ("", "reference/", "crates/*/", "crates/*/src/", "crates/*/proofs/")
        return any(next(ROOT.glob(place + span.rstrip("/")), None) for place in places)
    return name[1] in known if name else known.issuperset(COMPOUND.findall(re.sub(r"\S*/\S*", "", span)))


def headings(text):
    """The headings of a page as links name them."""
    return {re.sub(r"[^\w -]", "", line.lower()).replace(" ", "-") for line in re.findall(r"^#+ (.*)$", text, re.M)}


def lost_links(page):
    """The links of a page that lead to no file, or to no heading of one."""
    for path, heading in LINK.findall(FENCED.sub("", page.read_text("utf-8"))):
        target = page.parent / path if path else page
        if not path.startswith("http") and (
            not target.exists() or heading and heading not in headings(target.read_text("utf-8"))
        ):
            yield f"{path}#{heading}" if heading else path


def plain(text):
    """A text in one line, without the marks of a block."""
    return " ".join(re.sub(r"^>", "", text, flags=re.M).split())


def pieces(quotation):
    """What a quotation has of the rules: its sentences, each in quotation marks of its own, in pieces where `..` cuts them. A
    number before them and a remark behind them are the page's."""
    _, first, text = plain(quotation).partition('"')
    inner, _, behind = text.rpartition('"')
    for sentence in (text if NAMED_FORM.match(behind) else inner).split('" "') if first else []:
        yield from filter(None, map(str.strip, re.split(r"(?<!\S)\.\.(?!\S)", sentence)))


def unruled(text, rules):
    """The pieces that a page quotes and the rules do not have; a quotation without any is one itself."""
    for quotation in QUOTING.findall(FENCED.sub("", text)):
        found = list(pieces(quotation)) or [plain(quotation)]
        yield from (piece for piece in found if piece not in rules)


def lines(text):
    """How many lines there are that say something: no comment, no `use`, nothing empty."""
    return sum(1 for line in text.split("\n") if line.strip() and not re.match(r"\s*(--|use )", line))


def counts(text):
    """Where the counts of lines to believe differ."""
    total = 0
    for crate, files, said in BELIEVED.findall(text):
        specs = [ROOT / f"crates/{crate}/specs/{file}.antt" for file in files.split(", ")]
        yield from (f"{crate}: there is no {file.name}" for file in specs if not file.exists())
        found = sum(lines(file.read_text("utf-8")) for file in specs if file.exists())
        total += found
        if found != int(said):
            yield f"{crate}: {files}: {found} lines, and not {said}"
    claims = lines(CLAIMS.read_text("utf-8"))
    if SUM.findall(text) != [(str(total), str(claims))]:
        yield f"{total} lines of definitions and {claims} lines of statements"


def differences():
    """What the pages say otherwise."""
    texts = {page: page.read_text("utf-8") for page in (*PAGES, *GUIDES)}
    spans = {page: SPAN.findall(SHOWN.sub("", text)) for page, text in texts.items()}
    named = {span for page in PAGES for span in spans[page]}
    yield from (f"{name} is tried, and not named" for name in sorted(set(wrong_programs()) - named))
    known = names()
    for page, found in spans.items():
        absent = sorted({span for span in found if not is_there(span, known)})
        yield from (f"{page.relative_to(ROOT)}: there is no {span}" for span in absent)
    yield from (f"{page.relative_to(ROOT)}: there is no {link}" for page in LINKING for link in lost_links(page))
    rules = plain(RULES.read_text("utf-8"))
    quoted = ((page.relative_to(ROOT), piece) for page in PAGES for piece in unruled(texts[page], rules))
    yield from (f"{page}: the rules do not have {piece}" for page, piece in quoted)
    yield from counts("\n".join(texts[page] for page in PAGES))


def self_test_of_quotations():
    """A quotation that the rules do not have is found, and one that they have is not."""
    rules = plain('- A "b"\n  c. D e, f.\n> g\n- "h i" (02): j.\nK..3\n')
    good = (
        '> "A "b"\n> c." "D e, .. f."', '> 3: ".. b" c. ..", for texts', '> "c." (#1)', '> "h i" (02): j.', '> "K..3"',
        '> "c." "h i" (02):\n> j.', '- "D e, f."', '  - "g"', '| "A "b" .. f." and more | "x" |', '- no "x" of these',
        '```text\n> "x"\n```',
    )
    bad = {
        '> "A "b"\n> d."': ['A "b" d.'], '> "A c."': ["A c."], '> "A .. c. .. e f."': ["e f."], '> "c." "x" "D"': ["x"],
        '> "h i" (02): k.': ['h i" (02): k.'], '> "h i": j.': ['h i": j.'], "> x": ["x"], '> "x': ['"x'], '> ".."': ['".."'],
        '- "D f."': ["D f."], '| "D f." | "c." |': ["D f."], '> "c."\n\n> "x"': ["x"], '> "K..\n> 3"': ["K.. 3"],
    }
    expected = dict.fromkeys(good, []) | bad
    if {text: list(unruled(text, rules)) for text in expected} != expected:
        sys.exit("promises.py does not find the quotations that it should")


def self_test():
    """What is not there is found, and what is there is not."""
    known = {"leap_of", "one-year", "Year", "of"}
    good = (
        "leap_of", "one-year", "Year::of", "Year.of", "result ≡ leap_of y", ":00", "tests/promises.py", "crates.txt", "specs/Demands.antt",
        "python3 tests/no_name.py --check",
    )
    bad = ("leaps_of", "two-year", "Year::at", "result ≡ leaps_of y", "result ≡ leapOf y", "tests/none.py", "specs/None.antt")
    if not all(is_there(span, known) for span in good) or any(is_there(span, known) for span in bad):
        sys.exit("promises.py does not find what it should")
    with tempfile.TemporaryDirectory() as folder:
        page = Path(folder) / "page.md"
        page.write_text("# A b\n[](page.md) [](#a-b) [](http://c) [](none.md) [](#a-c)\n```text\n[](none.md)\n```\n", "utf-8")
        if list(lost_links(page)) != ["none.md", "#a-c"]:
            sys.exit("promises.py does not find the links that lead nowhere")
    self_test_of_quotations()


if __name__ == "__main__":
    self_test()
    found = list(differences())
    print("\n".join(found), end="\n" if found else "")
    sys.exit(1 if found else 0)
