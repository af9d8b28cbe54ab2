#!/usr/bin/env python3
"""Respells this repository's own names of specs/ and proofs/, once, after /opt/rattle/port/port.py: words in snake case, facts and
types in camel case. A lemma that would have its function's name gets _lem after it. A dash stays in a lemma on a word of the library, as
length-replaced, which joins two names. Names of functions, goals, strings, comments, inputs and outputs stay.

usage: python3 tools/snake_names.py     at the top of the repository
"""

import os
import re

DECLARED = re.compile(r"\s*(?:abbrev |unfoldable )?(?:pub )?(?:data |record )?([A-Za-z][^\s(){}]*)\s*(?:[({].*)?:\s*(\S*)")
TOKEN = re.compile(r"[A-Za-z](?:[\w']|-(?=[\w]))*")
STAYS = ("length-", "get_or-", "All-map")
BY_HAND = {"getD-put-other": "get_or-put_other"}
# bound in a proof, and so declared nowhere
BOUND = "bank-is granted-it in-front in-values inner-is leaves-below none-sent on-top outer-is outside-window past-front shows-below w-unaltered w-unmoved"


def files(*ends):
    for folder, folders, names in os.walk("crates"):
        folders[:] = sorted(f for f in folders if f != "out")
        for name in sorted(names):
            if name.endswith(ends):
                yield os.path.join(folder, name)


def text_of(path):
    with open(path, encoding="utf-8") as f:
        return f.read()


def spelled(name, functions):
    if name in BY_HAND:
        return BY_HAND[name]
    if "-" not in name or name.startswith(STAYS):
        return name
    if name[0].isupper():
        return "".join(part[:1].upper() + part[1:] for part in name.split("-"))
    snake = name.replace("-", "_")
    return snake + "_lem" if snake in functions else snake


def own_names():
    functions = set()
    for path in files(".rt"):
        if not path.endswith("tests.rt"):
            functions |= set(re.findall(r"\bfn (\w+)", text_of(path)))
    names = {name: spelled(name, functions) for name in BOUND.split()}
    for path in files(".antt"):
        for line in text_of(path).splitlines():
            found = DECLARED.match(line)
            if found and not found[2].startswith("goal.") and not line.lstrip().startswith("--"):
                names[found[1]] = spelled(found[1], functions)
    # a field of a record, and no lemma on length
    names["length-right"] = "length_right"
    return names


def respelled(line, names):
    return TOKEN.sub(lambda m: names.get(m[0], m[0]), line)


def turned(path, names):
    out = []
    for line in text_of(path).splitlines(keepends=True):
        comment = line.lstrip().startswith(("--", "//"))
        pieces = re.split(r'("(?:[^"\\]|\\.)*")', line)
        out.append(line if comment else "".join(p if p.startswith('"') else respelled(p, names) for p in pieces))
    return "".join(out)


def main():
    names = own_names()
    together = {}
    for old, new in names.items():
        together.setdefault(new, set()).add(old)
    for new, olds in sorted(together.items()):
        if len(olds) > 1:
            raise SystemExit(f"{new}: {', '.join(sorted(olds))} fall together; nothing was written")
    changed = {old: new for old, new in names.items() if old != new}
    for path in list(files(".antt", ".rt")):
        text = turned(path, changed)
        if text != text_of(path):
            with open(path, "w", encoding="utf-8") as f:
                f.write(text)
    print(f"{len(changed)} names respelled")


if __name__ == "__main__":
    main()
