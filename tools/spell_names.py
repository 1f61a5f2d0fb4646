"""Spells this repository's own definitions and lemmas as today's Rattle does: words in snake case, a dash only where it joins two names,
and an apostrophe for a prime. It is run once, at the top of the repository, right after the kit's port.py; it changes crates/ (code,
definitions, laws, proofs and wrong programs) and the documents, and prints the names that would have fallen together and so keep their
dash. Types, modules, functions of src/, exported names and quoted texts keep their names."""

import re
import sys
from pathlib import Path

ROOT = Path(__file__).resolve().parent.parent

# what a name is made of
NAME = r"[^\s(){}\[\];,.:λ@\"`|\\]+"
DEFINED = re.compile(rf"^\s*(?:(?:abbrev|unfoldable|pub|data|record)\s+)*({NAME})(?:\s*[({{][^)}}]*[)}}])*\s+:\s", re.M)
IMPORTED = re.compile(r"^\s*(?:ghost )?use (?:pub )?([^\s;{]+?)(?:\.\{([^}]*)\})?(?: as .*)?;?$", re.M)
CAMEL = re.compile(r"^[a-z][a-z0-9]*(?:[A-Z][A-Za-z0-9]*)")
PART = re.compile(rf"({NAME})")
STRING = re.compile(r'(b?"(?:\\.|[^"\\])*")')

# names of the library that stand in names of laws
LIBRARY = {
    "append", "drop", "take", "length", "cond", "eqb", "leb", "ltb", "set", "sets", "map", "concat", "reverse", "add", "sub", "mul", "div",
    "suc", "pos", "neg", "negsuc", "lt", "le", "eq", "not", "and", "or", "abs", "perm",
}


def proof_of_function(path):
    return path.name == "Proof.antt"


def snake(word):
    return re.sub(r"(?<=[a-z0-9])([A-Z])", lambda m: "_" + m.group(1).lower(), word)


def names():
    """Each name to be spelled anew, with its new spelling, and the names that would fall together."""
    mine, theirs, words = set(), set(), set()
    for path in sorted(ROOT.glob("crates/*/*/**/*.antt")):
        text = path.read_text()
        for module, items in IMPORTED.findall(text):
            if not re.match(r"Rattle[.·](?!std\b)", module):
                theirs.update(item.split(" as ")[0].strip() for item in items.split(","))
        if proof_of_function(path):
            continue
        found = set(DEFINED.findall(text))
        mine |= found
        if path.parts[-2] == "specs":
            words |= found
    mine -= theirs
    words = {snake(word) for word in words if "-" not in word} | LIBRARY
    new = {name: snake(name) for name in mine if CAMEL.match(name) and "-" not in name}
    taken, fallen = mine | theirs | set(new.values()), []
    for name in sorted(mine):
        if "-" not in name.strip("-") or not re.match(r"[a-z]", name):
            continue
        parts = [snake(part) for part in name.split("-")]
        spelled = parts[0]
        for left, right in zip(parts, parts[1:]):
            spelled += ("-" if left in words and right in words else "_") + right
        if spelled != name and (spelled in taken or spelled in set(new.values())):
            fallen.append(f"{name}: {spelled}")
            spelled = "-".join(parts)
        if spelled != name:
            new[name] = spelled
    for name in mine:
        if "′" in name:
            new[name] = new.get(name, name).replace("′", "'")
    return new, fallen


def names_now():
    """The words that stand in specs/ and in the laws, which port.py has spelled anew in part."""
    return {word for path in ROOT.glob("crates/*/*/**/*.antt") if not proof_of_function(path) for word in PART.findall(path.read_text())}


def outside_strings(text, change):
    """A text with a change made everywhere but in quoted texts."""
    return "".join(piece if i % 2 else change(piece) for i, piece in enumerate(STRING.split(text)))


def main():
    new, fallen = names()
    camel = {name: to for name, to in new.items() if "-" not in name}

    def all_names(text):
        return PART.sub(lambda m: new.get(m.group(1), m.group(1)), text)

    def in_comment(text):
        text = PART.sub(lambda m: camel.get(m.group(1), m.group(1)), text)
        return re.sub(r"\blaws? [^.;)\"]*", lambda m: all_names(m.group(0)), text)

    def in_code(text, mark):
        lines = []
        for line in text.split("\n"):
            code, dashes, comment = line.partition(mark)
            lines.append(outside_strings(code, all_names) + dashes + in_comment(comment))
        return "\n".join(lines)

    spelled = set()

    def in_document(text):
        text = re.sub(r"`[^`\n]+`", lambda m: all_names(m.group(0)), text)
        return re.sub(r"(?<=`)[a-z][a-z0-9]*[A-Z]\w*(?=`)", lambda m: snake(m.group(0)) if snake(m.group(0)) in spelled else m.group(0), text)

    def spelled_before(text):
        return PART.sub(lambda m: snake(m.group(1)) if CAMEL.match(m.group(1)) and snake(m.group(1)) in spelled else m.group(1), text)

    def in_edit(text):
        lines, in_src = [], False
        for line in text.split("\n"):
            in_src = line.startswith("file: src/") or (in_src and not line.startswith("file: "))
            if line.startswith(("old: ", "new: ")):
                tight = line[5:] if in_src else re.sub(r"(?<=\w) \.(?=[a-z0-9])", ".", line[5:])
                line = line[:5] + outside_strings(tight, lambda piece: spelled_before(all_names(piece)))
            elif line.startswith("# "):
                line = re.sub(r"(?<=\.antt )\S+", lambda m: all_names(m.group(0)), line)
            lines.append(line)
        return "\n".join(lines)

    ways = [
        ("crates/*/specs/**/*.antt", lambda text: in_code(text, "--")),
        ("crates/*/proofs/**/*.antt", lambda text: in_code(text, "--")),
        ("crates/*/src/**/*.rt", lambda text: in_code(text, "//")),
        ("crates/*/must-fail/*", in_edit),
        ("docs/**/*.md", in_document),
        ("*.md", in_document),
    ]
    for pattern, change in ways:
        if pattern.endswith(("must-fail/*", ".md")) and not spelled:
            spelled.update(names_now())
        for path in sorted(ROOT.glob(pattern)):
            text = path.read_text()
            changed = change(text)
            if changed != text:
                path.write_text(changed)
    print(f"{len(new)} names spelled anew; {len(fallen)} would have fallen together and keep their dash")
    print("\n".join(fallen))


if __name__ == "__main__":
    sys.exit(main())
