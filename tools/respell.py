#!/usr/bin/env python3
"""Brings the repository's own definitions and lemmas to today's spelling: words in snake case, types and modules in camel case.

usage: python3 tools/respell.py        at the top of the repository, once, right after port.py

A dash stays between two names that are definitions, as in length-packed, and becomes an underscore elsewhere.
A lemma that would then have another name's spelling gets _lem behind it. Names that Rattle makes, functions of
src/, exported names, strings and the programs' inputs and outputs are not touched. It prints each name that moved.
"""
import glob
import re

NAME = re.compile(r"(?<![\w'-])[A-Za-z][\w'-]*")
DEFINED = re.compile(r"^\s*((?:(?:abbrev|unfoldable|pub) +)*)([A-Za-z][\w'-]*)(?: *\{[^}]*\})* :(?!=) *(\S*)", re.M)
# Three letters: fields of the record of a file's lists.
LETTERS = {"T": "split_marks", "Lmax": "lmax", "Lmin": "lmin"}
# Names that would fall together with a definition's or a field's.
FALLEN = {"rows_in": "rows_fit", "columns-in": "columns_fit", "marksEnd": "end_of_marks", "maxEnd": "end_of_max"}
# What std's own lemmas join with a dash.
STD = {"length", "take", "drop", "map", "set", "get_or", "append", "cons", "nil", "suc", "zero", "add"}


def snake(word):
    return re.sub(r"(?<=[a-z0-9])([A-Z])", r"_\1", word).lower()


def read(path):
    with open(path, encoding="utf-8") as f:
        return f.read()


def defined(path):
    """Each name that a file gives a type, whether it is a definition that unfolds, and the first word of that type."""
    return [(m[2], "abbrev" in m[1] or "unfoldable" in m[1], m[3]) for m in DEFINED.finditer(read(path))]


def moves():
    antt = sorted(glob.glob("crates/*/*/**/*.antt", recursive=True))
    spec, law, made, words = set(), set(), set(), set(STD)
    for path in antt:
        for name, unfolds, kind in defined(path):
            (made if kind.startswith("tie.") else spec if "/specs/" in path else law).add(name)
            if unfolds and "/specs/" in path:
                words.add(snake(name))
    out = dict(FALLEN)
    for name in sorted(n for n in spec | law if n[0].islower() and n not in out):
        if name in made and not re.search("[A-Z]", name):
            continue
        parts = [snake(p) for p in re.sub(r"-(?=.*-spec$)|-(?=spec$)", "_", name).split("-")]
        new = parts[0]
        for left, right in zip(parts, parts[1:]):
            new += ("-" if left in words and right in words and name not in FIELDS else "_") + right
        camel = {snake(n) for n in spec if n != name and re.search("^[a-z].*[A-Z]", n)}
        if name not in spec and (new in camel or (new != name and new in spec | law)):
            new += "_lem"
        if new != name:
            out[name] = new
    return out


def main():
    to = moves()
    for path in sorted(glob.glob("crates/*/*/**/*.antt", recursive=True) + glob.glob("crates/*/src/*.rt")):
        old = read(path)
        letters = LETTERS if re.match(r"crates/(survey|grid)/", path) else {}

        def turn(m):
            # Behind a dot stands a field, or a name that Rattle makes: of those with a dash only our own fields move.
            if m[0] in to and "-" in m[0] and old[m.start() - 1 : m.start()] == "." and "proofs." + m[0] not in old:
                return to[m[0]] if m[0] in FIELDS else m[0]
            line = old[old.rfind("\n", 0, m.start()) + 1 :].lstrip()
            comment = line.startswith(("--", "//"))
            return to.get(m[0]) or (not comment and letters.get(m[0])) or m[0]

        new = NAME.sub(turn, old)
        if new != old:
            with open(path, "w", encoding="utf-8") as f:
                f.write(new)
    for name in sorted(to):
        print(name, to[name])


FIELDS = set()
for spec in glob.glob("crates/*/*/**/*.antt", recursive=True):
    inside = False
    for line in read(spec).split("\n"):
        if re.match(r"\s*(pub )?record \S+", line) and line.rstrip().endswith("where"):
            inside = True
        elif inside and not line.startswith("  "):
            inside = False
        elif inside and (m := re.match(r"\s+(?:pub )?([a-z][\w'-]*(?: [a-z][\w'-]*)*) :", line)):
            FIELDS |= set(m[1].split())

if __name__ == "__main__":
    main()
