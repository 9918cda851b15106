#!/usr/bin/env python3
"""Brings the repository's own definitions and lemmas to the library's spelling: words in snake case.

usage: python3 tools/respell.py        at the top of the repository, once

A name such as `flatMap` becomes `flat_map`. A dash stays where it joins the names of two definitions, as in `length-cells_of`, and is
otherwise an underscore. A lemma that would have the name of a definition or of a function of src/ gets `_lem`, as the library has it. Types,
facts and modules keep their capitals. Functions of src/, exported names, strings, inputs and outputs keep theirs. Names that the check makes
for the goals of a function are no names of ours, and stay. In pages and comments a name with a dash is respelled only between backquotes;
must-fail edits are respelled as the files that they change.

It stops before it writes anything if two names would fall together, or if a new name stands already as another name than a function's of src/.
"""

import os
import re
import sys

WORD = r"[A-Za-z0-9_'\u2080-\u209c\u03b1-\u03c9\u2115\u2262\u1d30\u2264\u00b7-]"
TOKEN = re.compile(WORD + "+")
DECLARED = re.compile(r"^\s*(?:(?:abbrev|unfoldable|pub|data|record|ruleset)\s+)*(" + WORD + r"+)(?:\s+[^:=]*)?\s*:\s")
# Functions of the library by which lemmas on lists are named.
LISTS = {"append", "cons", "drop", "get_or", "length", "map", "nil", "reverse", "set", "slice", "take", "flat_map", "replicate"}
# Names of the library that have a capital within.
LIBRARY = re.compile(r"(^|_)(Tells|Makes|Meets|Share)$|_(Tells|Makes|Meets|Share)")
# Old names of the library that stand in names of ours.
OLDER = {"getD": "get_or"}
# Definitions that would have the name of a room, of a module of src/ or of a lemma.
APART = {"halfChains": "all_half_chains", "heldCells": "cells_of_held", "rowEnds": "row_closes"}
# A lemma on the definition `up_to`.
WHOLE = {"up-to": "up_to_bounds"}


def files(*ends):
    for top in ("crates", "docs", "README.md", "include", "examples", "bench"):
        if os.path.isfile(top):
            yield top
        for folder, dirs, names in os.walk(top):
            dirs[:] = sorted(d for d in dirs if d not in ("out", "target"))
            for n in sorted(names):
                if n.endswith(ends):
                    yield os.path.join(folder, n)


def read(path):
    with open(path, encoding="utf-8") as f:
        return f.read()


def of_a_function(path):
    """Whether the file is the proof of one function: what it declares answers goals that the check names."""
    return re.search(r"/proofs/.+/", path) is not None


def declared():
    """The names that specs/ and proofs/ declare, those of the proofs of functions apart, and of these which are definitions."""
    names, definitions = set(), set(LISTS)
    for path in files(".antt"):
        for line in read(path).splitlines():
            m = DECLARED.match(line)
            if not m or line.lstrip().startswith("--"):
                continue
            if not of_a_function(path):
                names.add(m.group(1))
            if "/specs/" in path and re.match(r"(abbrev|unfoldable) ", line):
                definitions |= {m.group(1), respelled(m.group(1), set())}
    return names, definitions


def functions():
    """The functions of src/."""
    found = set()
    for path in files(".rt"):
        found |= set(re.findall(r"\bfn (\w+)", read(path)))
    return found


def snake(word):
    for old, new in (OLDER | APART).items():
        word = word.replace(old, new)
    return re.sub(r"([a-z0-9])([A-Z])", lambda m: m.group(1) + "_" + m.group(2).lower(), word)


def respelled(name, definitions):
    parts = name.split("-")
    text = parts[0] if parts[0][:1].isupper() else snake(parts[0])
    for before, part in zip(parts, parts[1:]):
        joined = before in definitions and (part in definitions or snake(part) in definitions)
        text += ("-" if joined else "_") + snake(part)
    return text


def has_capital_within(token):
    return any(re.match(r"[a-z][a-z0-9']*[A-Z]", part) for part in token.split("-")) and not LIBRARY.search(token)


def table():
    names, definitions = declared()
    tokens = set()
    for path in files(".antt"):
        tokens |= set(TOKEN.findall(read(path)))
    wanted = {n for n in names if "-" in n.strip("-")} | {t for t in tokens if has_capital_within(t)}
    defined, source = {t for t in wanted if "-" not in t}, functions()
    table = {n: WHOLE.get(n) or respelled(n, definitions) for n in wanted}
    held = {table[n] for n in defined} | source | (tokens - wanted)
    table = {old: new + "_lem" if "-" in old and new in held else new for old, new in table.items() if old != new}
    taken = {}
    for old, new in sorted(table.items()):
        taken.setdefault(new, []).append(old)
    together = [f"{new}: {' '.join(olds)}" for new, olds in taken.items() if len(olds) > 1]
    standing = [f"{new}: {' '.join(olds)}" for new, olds in taken.items() if new in tokens - source and new not in table]
    return table, together, standing


def in_antt(text, table):
    def line(l):
        code, dashes, comment = l.partition("--") if re.match(r"\s*--", l) else (l, "", "")
        return spelled(code, table) + dashes + quoted(comment, table)

    return "\n".join(line(l) for l in text.split("\n"))


def spelled(text, table):
    return TOKEN.sub(lambda m: table.get(m.group(0), m.group(0)), text)


def only_capitals(table):
    return {o: n for o, n in table.items() if "-" not in o}


def quoted(text, table):
    """A comment or a page: names with a capital anywhere, names with a dash between backquotes."""
    text = re.sub(r"`[^`\n]+`", lambda m: spelled(m.group(0), table), text)
    return spelled(text, only_capitals(table))


def in_source(text, table):
    """A source: all but what stands in strings."""
    parts = re.split(r'("(?:[^"\\\n]|\\.)*")', text)
    return "".join(p if p.startswith('"') else quoted(p, table) for p in parts)


def main():
    names, together, standing = table()
    if together or standing:
        print("\n".join(["fall together:"] + together + ["stand already:"] + standing))
        return 1
    for path in files(".antt", ".rt", ".edit", ".md"):
        if path.startswith("docs/PORT"):
            continue
        old = read(path)
        if path.endswith(".antt"):
            new = in_antt(old, names)
        elif path.endswith(".rt"):
            new = in_source(old, names)
        elif path.endswith(".edit"):
            new = spelled(old, names)
        else:
            new = quoted(old, names)
        if new != old:
            with open(path, "w", encoding="utf-8") as f:
                f.write(new)
    print(f"{len(names)} names respelled")
    return 0


if __name__ == "__main__":
    sys.exit(main())
