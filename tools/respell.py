#!/usr/bin/env python3
"""Brings the names that specs/ and the lemma files of proofs/ declare to one spelling: functions, lemmas, fields and constructors in snake case, types and facts in upper camel case.

usage: tools/respell.py [--check]      at the top of the checkout, once, after the library's own script has run

A name is turned wherever its whole word stands: in the .antt files, in the clauses and comments of the .rt files, in the must-fail edits, and in the code spans of README.md and docs/.
Where two names would fall together, the lemma takes '_lem' behind the name of the function that it is about, and the script stops if a new name is still one that stood before.
Names of Rust functions, of exported C functions, and what stands in strings stay. --check writes nothing and prints the table.
"""

import collections
import os
import re
import sys

WORD = re.compile(r"[^\s(){}.;,@\"«»`'/\[\]:|]+(?:'+)?")
DECLARED = re.compile(r"^\s*(?:(?:unfoldable|abbrev|pub|ruleset|private)\s+)*([^\s(){}.:,]+)\s+(?:\{[^{}]*\}\s+)*:(?:\s|$)")
# Constructors that were spelled like facts.
CONSTRUCTORS = {"IsG": "is_g", "IsBound": "is_bound", "IsFloor": "is_floor", "IsStep": "is_step", "IsListing": "is_listing", "AreNumbers": "are_numbers"}
# Names that would meet one of the library or a word of Rattle's, or another of the repository.
APART = {"after-b": "after_block", "bit-and": "bit_and_lem", "bit-or": "bit_or_lem"}


def walk(top, ends):
    for folder, dirs, files in os.walk(top):
        dirs[:] = sorted(d for d in dirs if d not in ("out", ".git", "target"))
        for name in sorted(files):
            if name.endswith(ends):
                yield os.path.join(folder, name)


def read(path):
    with open(path, encoding="utf-8") as f:
        return f.read()


def is_lemma_file(path):
    parts = path.split(os.sep)
    return parts[-1].endswith(".antt") and ("specs" in parts or parts[-2] == "proofs")


def declared():
    found = collections.defaultdict(set)
    for path in walk("crates", (".antt",)):
        if is_lemma_file(path):
            for line in read(path).split("\n"):
                m = DECLARED.match(line)
                if m:
                    found[m.group(1)].add(path)
    return found


def in_snake_case(name):
    name = re.sub(r"(?<=[a-z0-9₀-₉])([A-Z])(?=[a-z])", lambda m: "_" + m[0].lower(), name)
    name = re.sub(r"(?<=[a-z0-9])([A-Z])(?=$|[^a-z])", lambda m: "_" + m[0].lower(), name)
    return name.replace("-", "_")


def is_turned(name):
    if name[:1].isupper():
        return "-" in name
    return "-" in name or re.search(r"[a-z0-9][A-Z]", name) is not None


def new_name(name):
    return name.replace("-", "_") if name[:1].isupper() else in_snake_case(name)


def table():
    names = declared()
    by_new = collections.defaultdict(list)
    for name in names:
        if name in CONSTRUCTORS:
            by_new[CONSTRUCTORS[name]].append(name)
        elif is_turned(name):
            by_new[new_name(name)].append(name)
        else:
            by_new[name].append(name)
    turned = {}
    for new, olds in by_new.items():
        # The function keeps the plain name: the one in specs/, or the one in camel case.
        in_specs = {n: any(f"{os.sep}specs{os.sep}" in path for path in names[n]) for n in olds}
        olds.sort(key=lambda n: (not in_specs[n], "-" in n, n == new, n))
        for place, old in enumerate(olds):
            it = new if place == 0 else new + "_lem" * place
            it = APART.get(old, it)
            if it != old:
                turned[old] = it
    return names, turned


def words_in_use(turned):
    """The words of the sources, but those that follow a dot or stand in a path."""
    seen = collections.defaultdict(set)
    for path in walk("crates", (".antt",)):
        text = re.sub(r"--[^\n]*", "", read(path))
        for m in re.finditer(r"(?<![.\w])[^\s(){}.;,@\"«»\[\]:]+", text):
            if m[0] not in turned:
                seen[m[0]].add(path)
    return seen


def fall_together(path, old, new):
    """Says where two words of a file have become one."""
    was = [re.sub(r"--[^\n]*|//[^\n]*", "", it) for it in (old, new)]
    was = [WORD.findall(it) for it in was]
    first = {}
    for a, b in zip(*was):
        if first.setdefault(b, a) != a:
            print(f"together: {path}: {first[b]} and {a} are {b}", file=sys.stderr)


def main(argv):
    names, turned = table()
    seen = words_in_use(turned)
    if "--check" in argv:
        for old, new in sorted(turned.items()):
            print(f"{old}\t{new}")
        for old, new in sorted(turned.items()):
            if new in seen and new not in names:
                print(f"MEETS {old} -> {new}: {sorted(seen[new])[:3]}", file=sys.stderr)
        return 0

    def one(m, of_a_function=False):
        new = turned.get(m[0], m[0])
        # In a function's proof a label that Rattle makes stands behind a dot, and no lemma.
        if of_a_function and m.start() > 0 and m.string[m.start() - 1] == ".":
            new = re.sub(r"(_lem)+$", "", new)
        return new

    def turn(text, of_a_function=False):
        return WORD.sub(lambda m: one(m, of_a_function), text)

    for path in walk("crates", (".antt", ".rt", ".edit")):
        old = read(path)
        if path.endswith(".rt"):
            # A word that is in snake case already is a name of the code here.
            new = WORD.sub(lambda m: m[0] if re.fullmatch(r"[a-z_0-9]+", m[0]) else one(m), old)
        else:
            new = turn(old, path.endswith("Proof.antt"))
        fall_together(path, old, new)
        if new != old:
            with open(path, "w", encoding="utf-8") as f:
                f.write(new)
    for path in ["README.md", *walk("docs", (".md",))]:
        old = read(path)
        new = re.sub(r"`[^`\n]+`", lambda m: turn(m[0]), old)
        if new != old:
            with open(path, "w", encoding="utf-8") as f:
                f.write(new)
    return 0


if __name__ == "__main__":
    raise SystemExit(main(sys.argv[1:]))
