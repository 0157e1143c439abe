#!/usr/bin/env python3
"""Respells the repository's own definitions and lemmas: types in upper camel case, all else in snake case.

usage: python3 tools/port_names.py [--list]     at the top of the repository, once, after the kit's port.py

A name is the repository's own where a line of specs/ or proofs/ gives its signature. Names that the toolchain makes
(the goals of proofs/), names of its library, functions of src/, file names and strings keep their spelling.
--list prints the names with their new spelling and those that fall together, and writes nothing.
"""

import os
import re
import sys

SIGNATURE = re.compile(r"^\s*(?:(?:abbrev|unfoldable|pub|record|data|ruleset|syntax)\s+)*([A-Za-z][^\s(){}\[\],;.:\"]*)\s+:(?:\s|$)")
HEAD = re.compile(r"^\s*(?:pub\s+)?(?:record|data)\s+([A-Z][^\s(){}\[\],;.:\"]*)")
TOKEN = re.compile(r"[^\s(){}\[\],;.:\"`|]+")
IMPORT = re.compile(r"use\s+([^\s{]+?)\.?\{([^}]*)\}")
# Names that would fall together with another one, and what they become. A lemma named as a definition gets _lem.
APART = {
    "range-of": "range_of_lem",
    "read_kept": "read_kept_lem",
    "place-in": "place_in_lem",
    "cyclicWord": "cyclic_map_word",
    "lettersBetween": "letters_between_boards",
}


def texts():
    for folder, dirs, files in os.walk("crates"):
        dirs[:] = sorted(d for d in dirs if d != "out")
        for f in sorted(files):
            if f.endswith((".rt", ".antt", ".edit")):
                yield os.path.join(folder, f)


def read(path):
    with open(path, encoding="utf-8") as f:
        return f.read()


def spelled(name):
    if name in APART:
        return APART[name]
    if name[0].isupper():
        return "".join(p[:1].upper() + p[1:] for p in re.split("[-_]", name))
    name = re.sub(r"(?<=[a-z0-9])([A-Z])", lambda m: "_" + m[1].lower(), name) if not re.search("[-_][A-Z]", name) else name
    return name.replace("-", "_").replace("\u2032", "'")


def foreign(text):
    """Names that a file brings in from the library or from what the toolchain makes."""
    found = set()
    for path, names in IMPORT.findall(text):
        own = path.startswith("Rattle.") and not path.startswith("Rattle.std.")
        if not own or re.search(r"\.(declared|contracts|Goals|Given)(\.|$)", path):
            found |= {n.strip().split(" as ")[-1] for n in names.split(",")}
    return found


def own_names(files):
    names, made = set(), set()
    for path, text in files.items():
        if not path.endswith(".antt"):
            continue
        for line in text.splitlines():
            m = HEAD.match(line) or SIGNATURE.match(line)
            if m and re.search(r":\s+goal\." + re.escape(m[1]) + r"(?![\w'-])", line):
                made.add(m[1])
            elif m:
                names.add(m[1])
    table = {n: spelled(n) for n in names - made if spelled(n) != n}
    humps = {new for old, new in table.items() if "-" not in old}
    return {old: new + "_lem" if "-" in old and old not in APART and new in humps else new for old, new in table.items()}


def turned(text, table):
    out, last = [], 0
    for m in TOKEN.finditer(text):
        out += [text[last : m.start()], table.get(m[0], m[0])]
        last = m.end()
    return "".join(out) + text[last:]


def main(argv):
    files = {p: read(p) for p in texts()}
    table = own_names(files)
    if argv == ["--list"]:
        for old in sorted(table):
            print(old, table[old])
        for path, text in files.items():
            words = set(TOKEN.findall(text))
            for old in sorted(words & set(table)):
                if table[old] in words:
                    print("together:", path, old, table[old])
        back = {}
        for old, new in table.items():
            back.setdefault(new, []).append(old)
        for new, olds in back.items():
            if len(olds) > 1:
                print("two:", new, *olds)
        return
    for path, text in files.items():
        keep = foreign(text)
        new = turned(text, {o: n for o, n in table.items() if o not in keep})
        if new != text:
            with open(path, "w", encoding="utf-8") as f:
                f.write(new)


main(sys.argv[1:])
