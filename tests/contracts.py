"""Sees that each public function of a library states what it returns and what each room that it is lent holds after the
call, and asks nothing of its caller: an `ensures` is an equation of the result, or of one function of it, with what the
caller knows, for each `&mut` parameter there is such an equation of what it holds, and there is no `requires`. Prints
each function that does not and exits 1, or prints nothing."""

import re
import sys
from pathlib import Path

ROOT = Path(__file__).resolve().parent.parent
# `pub const fn` and `pub extern "C" fn` too, and not `pub(crate) fn`; then the signature, which has no brace
PUBLIC = re.compile(r'\bpub\s+(?:[\w"]+\s+)*fn\s+(\w+)([^{]*?)(?=\s(?:requires|ensures)\b|\s*\{)')
LENT = re.compile(r"(\w+)\s*:\s*&(?:'\w+\s+)?mut\b|&(?:'\w+\s+)?mut\s+(self)\b")
# a starred clause, of memory, is one too, and no equation
CLAUSE = re.compile(r"\s*((requires|ensures)\*?(?:\s+\w+)?)\s*\{")
EQUATION = re.compile(r"([^≡≢→↔⊎×∧∨∗λ∀∃⌜⌝]+) ≡ ([^≡≢→↔⊎×∧∨∗λ∀∃⌜⌝]+)")
# what the caller doesn't know: the result, a room after the call, and a `_`
UNKNOWN = re.compile(r"(?<![\w.])(?:result|_)(?!\w)|\.\s*new\b")


def clauses(text, at):
    """The clauses from a place on: the word that each begins with, all that stands before its braces, and what stands in them."""
    while match := CLAUSE.match(text, at):
        at, depth = match.end(), 1
        while depth:
            depth += {"{": 1, "}": -1}.get(text[at], 0)
            at += 1
        yield match[2], match[1], " ".join(text[match.end():at - 1].split())


def states(clause, room=None):
    """Whether a clause equates a room after the call, or else the result, with what the caller knows: where neither the
    result nor a room after the call occurs, nor a `_`, which stands for whatever fits."""
    match = EQUATION.fullmatch(clause)
    if not match:
        return False
    sides, subject = match.groups(), rf"{re.escape(room)}\.new" if room else r"(?:(?!_)\w+ )?result"
    return any(re.fullmatch(subject, a) and not UNKNOWN.search(b) for a, b in (sides, sides[::-1]))


def faults(text):
    """The public functions of a source text that state too little or ask for something, each with its fault."""
    text = re.sub(r"//.*", "", text)
    for match in PUBLIC.finditer(text):
        name, signature = match.groups()
        contract = list(clauses(text, match.end()))
        promises = [clause for word, _, clause in contract if word == "ensures"]
        if not promises:
            yield name, "has no ensures"
        if "->" in signature and not any(states(clause) for clause in promises):
            yield name, "does not state what it returns"
        for room in map("".join, LENT.findall(signature)):
            if not any(states(clause, room) for clause in promises):
                yield name, f"does not state what {room} holds after the call"
        if len(promises) < len(contract):
            yield name, "has a requires"


def self_test():
    """Each fault is found, and a good function has none."""
    silent, vague, asking = "has no ensures", "does not state what it returns", "has a requires"
    room, other, own = (f"does not state what {name} holds after the call" for name in ("room", "other", "self"))
    good = "pub fn good(x: u8) -> u8\n    ensures { result ≡ x }"
    lent = "pub fn f(x: u8, room: &mut [u8]) -> u8 ensures { result ≡ x }"
    kept = "ensures room_after { room.new ≡ put x room.old }"
    cases = (
        (good, []),
        ("    pub fn f(self) -> u8\n        ensures { g result ≡ {A} self }", []),
        ("pub fn f(x: u8) -> u8 ensures bound { result ≤ 9 } ensures told { x ≡ result }", []),
        ("pub fn f(x: &u8) -> u8 ensures { result ≡ g x.now }", []),
        (f"{lent}\n    {kept}", []),
        (f"pub fn f(x: u8, room: &mut [u8]) {kept}", []),
        (f"pub fn f(x: u8, room: &mut [u8]) ensures* room_is {{ room ↦ x }} {kept}", []),
        ("pub(crate) fn f(x: u8) -> u8", []),
        ("pub fn f(x: u8)", [silent]),
        ("    pub fn f(x: u8) -> u8", [silent, vague]),
        ("pub const fn f(x: u8) -> u8", [silent, vague]),
        ("pub fn f(x: u8) -> u8 // ensures { result ≡ x }\n", [silent, vague]),
        ('pub extern "C" fn f(x: u8) -> u8 requires { x < 9 } ensures { result ≡ x }', [asking]),
        (f"{good} requires small {{ x < 9 }}", [asking]),
        (f"{good} requires* {{ x < 9 }}", [asking]),
        ("pub fn f(room: &mut [u8])", [silent, room]),
        ("pub fn f(&mut self, x: u8) ensures { x ≡ x }", [own]),
        ("pub fn f<'a>(x: u8, room: &'a mut [u8], other: &'a mut u32) ensures { x ≡ x }", [room, other]),
        (f"pub fn f(x: u8, room: &mut [u8], other: &mut [u8]) {kept}", [other]),
        (f"pub fn f(x: u8, room: &mut [u8]) -> u8 {kept}", [vague]),
        ("pub fn f(room: &mut [u8]) -> u8 ensures { room.new ≡ g result }", [vague, room]),
        ("pub fn f(room: &mut [u8]) -> u8 ensures { result ≡ length room.new }", [vague, room]),
        *((f"pub fn f(x: u8) -> u8 ensures {{ {fact} }}", [vague]) for fact in (
            "x ≡ x", "_ ≡ x", "result ≡ result", "result ≡ _", "g result ≡ g result", "_ result ≡ x", "result ≡ result + 0",
            "result - result ≡ 0", "result ≤ 9", "x < 9 → result ≡ x", "result ≡ x ⊎ x < 9", "result ≡ x ∨ x < 9",
            "∃ y. result ≡ y", "result ≢ x", "g (result) ≡ x", "(λ y. result ≡ y) x", "result ≡ x ↔ x < 9", "results ≡ x",
        )),
        *((f"{lent} ensures after {{ {fact} }}", [room]) for fact in (
            "room.new ≡ room.new", "room.old ≡ room.old", "room.new ≡ _", "length room.new ≡ length room.old", "broom.new ≡ room.old",
            "room.new ≡ put result x", "x < 9 → room.new ≡ room.old",
        )),
    )
    for head, expected in cases:
        # neither the contract before nor the one behind is taken for its own
        found = [fault for _, fault in faults(f"{good} {{\n    x\n}}\n{head} {{ x }}\n{good}\n{{\n    x\n}}\n")]
        if found != expected:
            sys.exit(f"contracts.py finds {found} and not {expected} in {head}")


def main():
    self_test()
    libraries = [crate for crate in sorted((ROOT / "crates").iterdir()) if (crate / "src/lib.rt").exists()]
    bad = [
        f"{file.relative_to(ROOT)}: {name} {fault}"
        for crate in libraries
        for file in sorted(crate.glob("src/**/*.rt"))
        for name, fault in faults(file.read_text("utf-8"))
    ]
    print("\n".join(bad), end="\n" if bad else "")
    sys.exit(1 if bad or not libraries else 0)


if __name__ == "__main__":
    main()
