#!/usr/bin/env python3
"""Counts the places of src/ that stand in a form for which Rattle has a better one (docs/DESIGN-PASS.md).

forms.py            counts in this tree
forms.py COMMIT     counts in a commit
forms.py -l [..]    lists the places too

Each count is by a rule that a reader can run by eye; what a rule finds is looked at, and the page says what became of it.
"""
import collections
import pathlib
import re
import subprocess
import sys

ROOT = pathlib.Path(__file__).resolve().parent.parent
WORD = r'[A-Za-z_]\w*'


def files(commit):
    """The sources, and the files of proofs, by their paths."""
    if commit:
        names = subprocess.run(['git', '-C', ROOT, 'ls-tree', '-r', '--name-only', commit, 'crates'], capture_output=True, text=True, check=True).stdout.split()
        read = lambda name: subprocess.run(['git', '-C', ROOT, 'show', f'{commit}:{name}'], capture_output=True, text=True, check=True).stdout
    else:
        names = sorted(str(p.relative_to(ROOT)) for p in (ROOT / 'crates').glob('*/*/**/*.*') if '/out/' not in str(p))
        read = lambda name: (ROOT / name).read_text()
    for name in names:
        if re.match(r'crates/\w+/src/.*\.rt$', name) or re.match(r'crates/\w+/proofs/.*Answers\.antt$', name) and '/Laws/' not in name:
            yield name, read(name)


def uncommented(text):
    return re.sub(r'//[^\n]*', '', text)


def closing(text, at):
    """The place of the brace that closes the one at a place."""
    depth = 0
    for i in range(at, len(text)):
        depth += {'{': 1, '}': -1}.get(text[i], 0)
        if depth == 0:
            return i
    return len(text)


def functions(text):
    """Each function: its name, its signature with its clauses, and its body."""
    for m in re.finditer(r'^(\s*)(?:pub(?:\(crate\))? )?(?:extern "C" )?(?:const )?fn (%s)' % WORD, text, re.M):
        end = m.end()
        while True:
            brace = text.find('{', end)
            if brace < 0:
                break
            line = text.rfind('\n', 0, brace) + 1
            if re.match(r'\s*(requires|ensures|ghost)\b', text[line:brace]) or re.search(r'(requires|ensures)\*?\s*(\w+\s*)?$', text[line:brace]):
                end = closing(text, brace) + 1
                continue
            yield m.group(2), text[m.start():brace], text[brace:closing(text, brace) + 1]
            break


def items(text, kind):
    for m in re.finditer(r'\b%s (%s)[^{;(]*\{' % (kind, WORD), text):
        yield m.group(1), text[m.end():closing(text, m.end() - 1)]


def variants(body):
    return re.findall(r'(%s)\s*(\([^)]*\)|\{[^}]*\})?\s*(?:=\s*\d+)?\s*,' % WORD, body)


def own_options(text):
    for name, body in items(text, 'enum'):
        all_ = variants(body)
        full = [v for v in all_ if v[1]]
        bare = [v for v in all_ if not v[1]]
        if len(full) == 1 and bare or len(full) >= 2 and any(v[0] in ('Refused', 'NoType') for v in full):
            yield name


def flags(text):
    for name, body in items(text, 'struct'):
        for m in re.finditer(r'(%s): bool' % WORD, body):
            yield f'{name}.{m.group(1)}'


def codes(text):
    for name, sign, body in functions(text):
        there = re.findall(r'%s::%s(?:\([^)]*\))? => \d+\b' % (WORD, WORD), body)
        back = re.findall(r'\b\d+ => %s::%s\b' % (WORD, WORD), body)
        if len(there) >= 2 or len(back) >= 2:
            yield name


def zeros(text):
    for name, sign, body in functions(text):
        if re.search(r'-> (usize|u32|u8)\b', sign) and re.search(r'return (0|16);', body):
            yield name


def shape(body):
    """A body with each name, number and text as one mark."""
    body = re.sub(r"b?'(\\.|[^'])'|b?\"[^\"]*\"", '1', body)
    body = re.sub(r'\b\d\w*\b', '1', body)
    return tuple(re.findall(r'%s|[^\s\w]|1' % WORD, re.sub(r'\b(?!if\b|else\b|match\b|let\b|mut\b|while\b|for\b|return\b|in\b)%s' % WORD, 'n', body)))


def loops(text):
    return [m.group(0) for m in re.finditer(r'\bwhile [^\n]*', text)]


BY_HAND = r'(same\w*|equal|at_most|one_row|number|\w+_number|of|year_setting_at|date_at|clock_at|zone_at|either|named|hex_number)'


def by_hand(text):
    for name, sign, body in functions(text):
        if re.fullmatch(BY_HAND, name):
            yield name


def buffers(text):
    for name, body in items(text, 'struct'):
        if re.search(r'\[\w+; \w+\]', body) and re.search(r'\b(count|length|bits|readable|at): (usize|u32|bool|Bits)', body):
            yield name
    consts = collections.Counter(m.group(1) for m in re.finditer(r'const \w+: (\[u32; \d+\])', text))
    for kind, n in consts.items():
        if n >= 2:
            yield f'{n} arrays {kind}'
    for m in re.finditer(r'const (\w+): \[u8; \d+\] =\s*\*b"\\x', text):
        yield m.group(1)


def switches(text):
    for name, sign, body in functions(text):
        arms = re.findall(r'%s::%s(?:\([^)]*\))? => ([\w:]+)\(([^()]*)\),' % (WORD, WORD), body)
        if len(arms) >= 3 and len({a[1].split(',')[-1].strip() for a in arms}) == 1:
            yield name


def main():
    arguments = [a for a in sys.argv[1:] if a != '-l']
    listed = '-l' in sys.argv
    found = collections.OrderedDict()
    groups, clauses, pairs, answers = (collections.defaultdict(list) for _ in range(4))
    lines = 0

    def add(rule, place):
        found.setdefault(rule, []).append(place)

    for name, text in files(arguments[0] if arguments else None):
        if name.endswith('.antt'):
            lines += text.count('\n')
            for part in re.split(r'\npub ', text)[1:]:
                m = re.search(r'\n[\w\-]+ c = (.*)', part, re.S)
                if m:
                    answers[re.sub(r'\s+', ' ', m.group(1)).strip()].append(name)
            continue
        text = uncommented(text)
        at = lambda x: f'{name[7:]}: {x}'
        for rule, look in RULES:
            for place in look(text):
                add(rule, at(place))
        for f, sign, body in functions(text):
            form = shape(body)
            if len(form) >= 24:
                groups[form].append(at(f))
            for clause in re.findall(r'requires(?: \w+)? \{(.*?)\}\n', sign, re.S):
                clauses[re.sub(r'\d+', '9', clause.strip())].append(at(f))
            parameters = re.findall(r'(%s): (&?(?:mut )?[\w\[\]]+)' % WORD, sign.split('->')[0])
            for a, b in zip(parameters, parameters[1:]):
                pairs[f'{a[0]}: {a[1]}, {b[0]}: {b[1]}'].append(at(f))
    for form, places in groups.items():
        if len(places) >= 2:
            for place in places:
                add('2 functions whose bodies differ in names and numbers alone', place)
    for clause, places in clauses.items():
        if len(places) >= 3:
            add('5 facts in the contracts of three or more functions', f'{{ {clause} }} in {len(places)}')
    for pair, places in pairs.items():
        if len(places) >= 3:
            add('5 pairs of parameters that three or more functions take', f'{pair} in {len(places)}')
    for body, places in answers.items():
        if len(places) >= 3:
            add('8 answers that stand in three or more places', f'{body[:60]} in {len(places)}')
    for rule in sorted(set(found) | {r for r, _ in RULES}):
        places = found.get(rule, [])
        print(f'{len(places):4} {rule}')
        for place in places if listed else []:
            print(f'       {place}')
    print(f'{lines:4} 8 lines of answers')


RULES = [
    ('1 enums of the shape of Option or Result', own_options),
    ('1 flags in a struct', flags),
    ('1 functions between a kind and its number', codes),
    ('1 functions that answer 0 or 16 for none', zeros),
    ('3 loops by while', loops),
    ('4 functions that compare or convert', by_hand),
    ('6 buffers with a length, parallel arrays, packed words', buffers),
    ('7 switches on which step to run', switches),
]

if __name__ == '__main__':
    main()
