#!/usr/bin/env python3
"""Respells this repository's own definitions, lemmas, fields and constructors as today's Rattle spells them.

    python3 tools/respell.py [FOLDER]

It was run once, over what port.py had made of the repository; it is not to be run over what it has made, since some new names are old ones too. tools/respelled.txt has the table, a line for each name: the old one and the new one.
Words are in snake case; a fact keeps its capital; a dash still joins two names in a lemma's name, but in no field or constructor, unless a definition has
the name without it. A lemma that would have its definition's new name gets `_lem` (LEMMAS below, with the files that have it).

Turned are .antt files, and the clauses, ghost items and comments of .rt files, which is to say every word of them: no name of src/ is in the table. In a
comment a name with a dash is turned only within backticks, as it may be plain English. Texts in quotation marks stay.
"""
import os
import re
import sys

LEMMAS = {
    "by_rank": ["data_model", "tree"],
    "is_greater": ["key_laws", "laws"],
    "is_same": ["laws", "store/proofs/ChangeLaws", "tree"],
    "key_above": ["query", "tree"],
    "laid_out": ["layout", "tree"],
    "raised_byte": ["key_laws"],
    "same_entries": ["convergence", "store"],
    "stored_of": ["tree", "listing"],
    "entry_found": ["query/proofs/Tested", "query/proofs/entry/entry/Proof"],
    "stands_at": ["query/proofs/FoundLaws", "store/proofs/IngestLaws"],
}
WORD = re.compile(r"[^\s(){}\[\],;.«»\"`]+")
TEXT = re.compile(r'"(?:[^"\\]|\\.)*"')


def table(here):
    with open(os.path.join(here, "respelled.txt")) as f:
        return dict(line.split() for line in f if line.strip())


def turned(text, names):
    return WORD.sub(lambda m: names.get(m.group(), m.group()), text)


def turned_comment(text, names):
    plain = {a: b for a, b in names.items() if "-" not in a}
    parts = text.split("`")
    return "`".join(turned(p, names if i % 2 else plain) for i, p in enumerate(parts))


def turned_line(line, names, mark):
    out, at = [], 0
    code, comment = line, ""
    quoted = [m.span() for m in TEXT.finditer(line)]
    k = line.find(mark)
    while k >= 0:
        if not any(a <= k < b for a, b in quoted):
            code, comment = line[:k], line[k:]
            break
        k = line.find(mark, k + 1)
    for m in TEXT.finditer(code):
        out += [turned(code[at : m.start()], names), m.group()]
        at = m.end()
    out.append(turned(code[at:], names))
    return "".join(out) + turned_comment(comment, names)


def main():
    here = os.path.dirname(os.path.abspath(__file__))
    top = sys.argv[1] if len(sys.argv) > 1 else os.path.dirname(here)
    names = table(here)
    for folder, _, files in os.walk(os.path.join(top, "crates")):
        for name in files:
            path = os.path.join(folder, name)
            inside = os.path.relpath(path, os.path.join(top, "crates"))
            if inside.split(os.sep)[1] not in ("src", "specs", "proofs") or not name.endswith((".rt", ".antt")):
                continue
            own = dict(names)
            if name.endswith(".antt"):
                own.update({a: a + "_lem" for a, places in LEMMAS.items() if any(inside.startswith(p + ("/" if p.count("/") == 0 else "")) for p in places)})
            with open(path) as f:
                old = f.read()
            new = "\n".join(turned_line(line, own, "--" if name.endswith(".antt") else "//") for line in old.split("\n"))
            if new != old:
                with open(path, "w") as f:
                    f.write(new)


main()
