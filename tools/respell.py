#!/usr/bin/env python3
"""Spells the definitions and lemmas of this repository as today's library spells its own.

usage: respell.py [FOLDER]

FOLDER holds crates/ as port.py left them. A fact (it begins with a capital) is in camel case, everything else in snake case; a dash
stays where it joins a function to the function that it is about, as in length-tab. Names that Rattle makes (goals, loops, steps) and
names of src/ stay, and so do strings. Two names that would fall together in one file are listed, and nothing is written.
"""

import collections
import os
import re
import sys

TOKEN = re.compile(r"[^\s(){}.,;:@\"«»\[\]]+(?:::)?")
DECLARED = re.compile(r"^(\s*)(?:(?:abbrev|unfoldable|pub|data|record)\s+)*([^\s(){}.,;:@\"«»]+)((?:\s+[({].*?)?)\s+:\s*(.*)$")
ANSWERS = re.compile(r"/proofs/.+/(Answers|Invariants|Proof)\.antt$")
GENERATED = re.compile(r"^(goal|g|c|w|l)['0-9]*$")
# a function of the library that lemmas here are about
KNOWN = {"length", "map", "take", "drop"}
# lemmas that would have their function's name, and other names whose plain spelling is another name's
LEMMAS = (
    "bit-and bit-or bit-xor sums-agree positions-agree law-follows keeps-changes passes-end form-rows down-from places-from class-row "
    "start-row waiting-row feed_row too-deep"
).split()
APART = {
    "C-row": "row_of_class",
    "inOrder": "in_order_of",
    "lastBlock": "last_block_of",
    "endsOf": "ends_in",
    **{it: it.replace("-", "_") + "_lem" for it in LEMMAS},
}


def files(root, ends):
    for folder, dirs, names in os.walk(os.path.join(root, "crates")):
        dirs[:] = sorted(d for d in dirs if d != "out")
        for name in sorted(names):
            if name.endswith(ends):
                yield os.path.join(folder, name)


def read(path):
    with open(path, encoding="utf-8") as f:
        return f.read()


def is_old(name):
    return "-" in name and name.strip("-") == name or re.search(r"[a-z0-9][A-Z]", name) is not None


def snake(name):
    return re.sub(r"(?<=[a-z0-9])[A-Z]", lambda m: "_" + m[0].lower(), name)


def camel(name):
    return "".join(part[:1].upper() + part[1:] for part in name.split("-"))


def spelled(name, functions):
    if name in APART:
        return APART[name]
    if name[0].isupper():
        return camel(name)
    parts = [snake(p) for p in name.split("-")]
    if len(parts) == 2 and all(p in functions for p in parts) and (parts[0] in KNOWN or parts[1] in KNOWN):
        return "-".join(parts)
    return "_".join(parts)


def declared(root):
    """Returns the names that the texts declare, and those of them that are functions to values."""
    names, functions = set(), set(KNOWN)
    for path in files(root, ".antt"):
        for line in read(path).splitlines():
            m = DECLARED.match(line)
            if not m or m[4].startswith("goal.") or m[2] in ("use", "module", "--"):
                continue
            names.add(m[2])
            if "/specs/" in path and m[2][0].islower():
                functions.add(snake(m[2]))
    return names, functions


def aliases(root):
    """Returns the names that are given to imports."""
    found = set()
    for path in files(root, (".antt", ".rt")):
        for line in re.findall(r"(?m)^(?:ghost |pub )*use [^\n]*", read(path)):
            found.update(re.findall(r" as ([a-z][\w-]*)", line))
    return found


def pieces(path, text):
    """Splits a text into parts that are code and parts that stay: strings."""
    at = 0
    for m in re.finditer(r'b?"(?:\\.|[^"\\\n])*"', text):
        yield True, text[at : m.start()]
        yield False, m[0]
        at = m.end()
    yield True, text[at:]


def respell(path, text, table):
    generated = set()
    if ANSWERS.search(path):
        for items in re.findall(r"\.(?:Goals|Given)\.\{([^}]*)\}", text):
            generated.update(items.replace(",", " ").split())
        generated.update(m[2] for m in map(DECLARED.match, text.splitlines()) if m and m[4].startswith("goal."))
    met = collections.defaultdict(set)

    def one(m, code):
        word = m[0]
        if word in table and word not in generated:
            head = re.search(r"[^\s(){},;:\[\]\"]*$", code[: m.start()])[0].split(".")[0]
            if not (ANSWERS.search(path) and code[m.start() - 1 : m.start()] == "." and GENERATED.match(head)):
                met[table[word]].add(word)
                return table[word]
        met[word].add(word)
        return word

    out = "".join(TOKEN.sub(lambda m: one(m, part), part) if code else part for code, part in pieces(path, text))
    return out, {new: olds for new, olds in met.items() if len(olds) > 1}


def main():
    root = sys.argv[1] if len(sys.argv) > 1 else "."
    names, functions = declared(root)
    table = {name: spelled(name, functions) for name in sorted(names | aliases(root)) if is_old(name) or name in APART}
    table = {old: new for old, new in table.items() if old != new}
    clashes, texts = 0, {}
    for path in files(root, (".antt", ".rt")):
        old = read(path)
        new, met = respell(path, old, table)
        for name, olds in sorted(met.items()):
            clashes += 1
            print(f"{os.path.relpath(path, root)}: {' and '.join(sorted(olds))} would both be {name}")
        if new != old:
            texts[path] = new
    if "--names" in sys.argv:
        for old, new in table.items():
            print(f"{old} {new}")
    if clashes:
        return 1
    for path, new in texts.items():
        with open(path, "w", encoding="utf-8") as f:
            f.write(new)
    print(f"{len(table)} names, {len(texts)} files")
    return 0


if __name__ == "__main__":
    raise SystemExit(main())
