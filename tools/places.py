#!/usr/bin/env python3
"""Lists places in src/ where older forms of the language may stand, a section for each kind, with their number.

    python3 tools/places.py [FOLDER]        FOLDER: the top of a checkout (default: this one)

It finds by the words alone, so what it lists is to be read: docs/DESIGN-PASS.md says of each what it is.
"""
import collections
import pathlib
import re
import sys

TOP = pathlib.Path(sys.argv[1] if len(sys.argv) > 1 else pathlib.Path(__file__).parent.parent)
FILES = {f: f.read_text().splitlines() for f in sorted(TOP.glob('crates/*/src/**/*.rt'))}


def lines(pattern):
    """Every line with the pattern, comments aside."""
    found = re.compile(pattern)
    return [f'{f.relative_to(TOP)}:{n}: {line.strip()}' for f, text in FILES.items()
            for n, line in enumerate(text, 1) if found.search(line) and not line.lstrip().startswith('//')]


def functions():
    """Every function: its file, its name, its parameters' names, and the texts of its clauses."""
    for f, text in FILES.items():
        whole = '\n'.join(text)
        for m in re.finditer(r'\bfn (\w+)[^(]*\(((?:[^()]|\([^()]*\))*)\)(.*?)(?=\n\s*\{|;\n)', whole, re.S):
            names = re.findall(r'(\w+): ', m[2])
            clauses = re.findall(r'(?:requires|ensures)\s+\w*\s*\{ (.*) \}', m[3])
            yield f, m[1], names, clauses


def shapes():
    return lines(r'\benum \w+') + lines(r'Result<bool>|Ok\((true|false)\)') + lines(r'fn number|-> .*\(u8, u8\)') \
        + lines(r'Err\(_\) =>|None => (Ok\()?None')


def twins():
    """Functions of one name in several files, a trait's methods and constructors aside."""
    methods = {'main', 'run', 'new', 'number', 'from', 'fmt', 'boards', 'length', 'place', 'position', 'count_below',
               'depth', 'waiting', 'put', 'take', 'count', 'request', 'plus', 'times', 'read', 'show', 'clone', 'grid', 'nest'}
    where = collections.defaultdict(set)
    for f, name, _, _ in functions():
        if name not in methods:
            where[name].add(str(f.relative_to(TOP)))
    return [f'{name}: {", ".join(sorted(files))}' for name, files in sorted(where.items()) if len(files) > 1]


def loops():
    return lines(r'\bwhile\b|\bloop \{') + lines(r'\bfor \w+ in [^{]*\.\.') + lines(r'\bfor \(\w+, \w+\) in .*enumerate')


def by_hand():
    return lines(r'impl.*\b(From|TryFrom|Display|PartialEq|Clone)\b.* for ') \
        + lines(r'fn (same_variable|is_for|\w+_like|copy_of|told\w*|line_of|\w+_text|print_\w+|make_of|show_\w+|none|number)\b')


def together():
    """Facts that stand in the contracts of three or more functions, and pairs of parameters of three or more."""
    facts, pairs = collections.defaultdict(set), collections.defaultdict(set)
    for f, name, names, clauses in functions():
        at = f'{f.relative_to(TOP)} {name}'
        for clause in clauses:
            for part in re.split(r' × ', clause):
                if len(part) > 12:
                    facts[re.sub(r'\.(old|new|now|entry)', '', part)].add(at)
        for a, b in zip(names, names[1:]):
            pairs[(a, b)].add(at)
    rows = [f'fact in {len(s)}: {fact[:110]}' for fact, s in facts.items() if len(s) > 2]
    return rows + [f'parameters in {len(s)}: {a}, {b}' for (a, b), s in pairs.items() if len(s) > 2]


def buffers():
    return lines(r'^\s+(pub(\(crate\))? )?\w+: (&\'a mut )?\[.*\],') + lines(r"^\s+(pub(\(crate\))? )?\w+: &'a (mut )?\[")


def switches():
    return lines(r'match (self\.)?(work|way)\b') + lines(r'\b(work|way): (Work|Way)\b')


def proofs():
    rows = []
    for crate in sorted((TOP / 'crates').iterdir()):
        files = [f for f in crate.glob('proofs/**/*.antt')]
        answers = sum(len(re.findall(r'^pub [\w-]+ : goal\.', f.read_text(), re.M)) for f in files if f.name == 'Answers.antt')
        if files:
            rows.append(f'{crate.name}: {sum(len(f.read_text().splitlines()) for f in files)} lines, {answers} answers')
    return rows


SECTIONS = [('1 shapes of Option and Result, flags, numbers', shapes), ('2 names that stand in several files', twins),
            ('3 loops', loops), ('4 equality, copies, conversions, printing', by_hand), ('5 facts and parameters together', together),
            ('6 fixed and lent buffers in structs', buffers), ('7 switches', switches), ('8 proofs', proofs)]

for title, find in SECTIONS:
    rows = find()
    print(f'== {title}: {len(rows)}')
    for row in rows:
        print(f'   {row}')
