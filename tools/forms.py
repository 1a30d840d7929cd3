#!/usr/bin/env python3
"""Counts the places in src/ that docs/DESIGN-PASS.md speaks of, point by point, and the lines that say why a place stays.

    python3 tools/forms.py [-l] [FOLDER]

-l lists each place. FOLDER is the top of a checkout. The comment above each search says what it takes for a place. Comments are not counted, but for the lines `// Kept (N): ...`.
"""
import collections
import glob
import os
import re
import sys

args = sys.argv[1:]
listing = "-l" in args
args = [a for a in args if a != "-l"]
top = args[0] if args else "."
files = sorted(glob.glob(os.path.join(top, "crates/*/src/**/*.rt"), recursive=True))
places = collections.OrderedDict()
kept = collections.Counter()


def place(point, path, line, text):
    places.setdefault(point, []).append((os.path.relpath(path, top), line, " ".join(text.split())[:110]))


FAILS = {"Refused", "Refuse", "Bad", "Nothing", "Over", "Short", "Illegal"}
HAND = re.compile(r"\bfn (eq|cmp|compare|same\w*|copy\w*|default|wide\w*|lesser|less|later_of|is_less|is_equal|kind|session|yes_or_no|recency_of|byte_of|is_yes)\b")
GROUPS = [({"dir", "tree"}, "directory and bytes of a tree"), ({"spt", "spt_dir", "tsp", "tsp_dir"}, "the four buffers of a store"),
          ({"spt", "spt_dir"}, "directory and bytes of a tree")]
facts = collections.defaultdict(list)
heads = []

for path in files:
    text = open(path).read()
    lines = text.split("\n")
    for n, line in enumerate(lines, 1):
        m = re.match(r"\s*// Kept \((\d)\): ", line)
        if m:
            kept[int(m.group(1))] += 1
    bare = re.sub(r"//[^\n]*", "", text)
    at = lambda i: bare.count("\n", 0, i) + 1
    # 1: enums with a case of failure that are no error enums, flags and numbers beside values, numbers for refusals and kinds.
    for m in re.finditer(r"\benum (\w+)(?:<[^>]*>)? \{([^}]*)\}", bare):
        cases = set(re.findall(r"^\s+(\w+)", m.group(2), re.M))
        if cases & FAILS and not m.group(1).endswith("Error"):
            place(1, path, at(m.start()), "enum " + m.group(1))
    for m in re.finditer(r"^\s+(?:pub )?(refusal: u8|found: bool|open: bool|good: bool|under: bool|outcome: \w+|kind: u8|component: bool),$", bare, re.M):
        place(1, path, at(m.start(1)), "field " + m.group(1))
    for m in re.finditer(r"\b(protects|expects|open|under|remote|kind|any): (bool|u8)\b(?=[,)][^{}]*\) ?(->|\n|\{))", bare):
        place(1, path, at(m.start()), "parameter " + m.group(0))
    for m in re.finditer(r"\bconst ([A-Z_]+): u8\b", bare):
        place(1, path, at(m.start()), "number " + m.group(1))
    for m in re.finditer(r"\bfn (\w*(?:refusal|check_\w+|limit_ok))\b[^{;]*?-> u8\b", bare):
        place(1, path, at(m.start()), "fn " + m.group(1) + " -> u8")
    # 3: loops that are no `for`.
    for m in re.finditer(r"^\s*(while|loop)\b[^\n]*", bare, re.M):
        place(3, path, at(m.start(1)), m.group(0))
    # 4: equality, order, copying, conversion written by hand.
    for m in HAND.finditer(bare):
        place(4, path, at(m.start()), m.group(0))
    # functions: parameters, for 2, 5 and 6
    for m in re.finditer(r"\bfn (\w+)(?:<[^(]*>)?\s*\(([^{]*?)\)\s*(?:->[^{]*?)?(?=\n\s*(?:requires|ensures)|\s*\{)", bare):
        params = [p.strip() for p in re.sub(r"\([^()]*\)", "", m.group(2)).split(",") if p.strip()]
        names = {p.split(":")[0].replace("mut ", "").strip() for p in params}
        heads.append((m.group(1), path, at(m.start())))
        for group, what in GROUPS:
            if group <= names:
                place(5, path, at(m.start()), f"fn {m.group(1)}: {what}")
                break
        if len(params) > 8:
            place("5, over 8 parameters", path, at(m.start()), f"fn {m.group(1)}: {len(params)}")
    for m in re.finditer(r"requires(?: \w+)? \{(.*)\}", bare):
        for part in m.group(1).split(" × "):
            fact = part.strip().removeprefix("(").strip()
            while fact.count(")") > fact.count("("):
                fact = fact[:-1].strip()
            fact = re.sub(r"\b(spt_dir|tsp_dir)\b", "dir", fact)
            fact = re.sub(r"\b(spt|tsp)\b", "tree", re.sub(r"\.(now|old)\b", "", fact))
            facts[fact].append((path, at(m.start())))
    # 6: a count beside what it counts.
    for m in re.finditer(r"^\s+pub (count|ends|numbers): [^\n]*,$", bare, re.M):
        place(6, path, at(m.start()), m.group(0))
    # 7: a number or an order says which step to run.
    for m in re.finditer(r"\bmatch ((?:self\.)?order|field::number\([^)]*\)) \{", bare):
        place(7, path, at(m.start()), m.group(0))

# 2: functions or types whose names differ in one word of these groups.
WORDS = [("spt", "tsp"), ("area", "range"), ("entry", "area"), ("bytes", "ends"), ("bytes", "numbers"), ("32", "64"), ("8", "32"), ("numbers", "pairs"),
         ("times", "subspaces"), ("subspaces", "paths"), ("above", "below"), ("outdating", "removed"), ("outdates", "removes"), ("removed", "standing")]
names = {}
for path in files:
    bare = re.sub(r"//[^\n]*", "", open(path).read())
    crate = os.path.relpath(path, top).split("/")[1]
    for m in re.finditer(r"\bfn (\w+)", bare):
        names.setdefault((crate, m.group(1)), (path, bare.count("\n", 0, m.start()) + 1))
seen = set()
for (crate, name), (path, line) in sorted(names.items()):
    for a, b in WORDS:
        parts = name.split("_")
        for i, part in enumerate(parts):
            if part == a:
                twin = "_".join(parts[:i] + [b] + parts[i + 1:])
                if (crate, twin) in names and (crate, name, twin) not in seen:
                    seen.add((crate, name, twin))
                    place(2, path, line, f"fn {name} / {twin}")
    for twin in (name + "_numbers", name + "_8"):
        if (crate, twin) in names and (crate, name, twin) not in seen:
            seen.add((crate, name, twin))
            place(2, path, line, f"fn {name} / {twin}")
for fact, where in facts.items():
    if len(where) >= 3:
        place("5, facts in 3 or more contracts", where[0][0], where[0][1], f"{len(where)} times: {fact}")
answers = glob.glob(os.path.join(top, "crates/*/proofs/**/Answers.antt"), recursive=True)
invariants = glob.glob(os.path.join(top, "crates/*/proofs/**/Invariants.antt"), recursive=True)
lines = lambda fs: sum(open(f).read().count("\n") for f in fs)

for point in sorted(places, key=str):
    found = places[point]
    print(f"point {point}: {len(found)}")
    if listing:
        for path, line, text in found:
            print(f"    {path}:{line}: {text}")
print(f"point 8: {len(answers)} files of answers, {lines(answers)} lines; {len(invariants)} of invariants, {lines(invariants)} lines")
print(f"lines of src/: {lines(files)}")
print("lines that say why a place stays: " + (", ".join(f"({p}) {kept[p]}" for p in sorted(kept)) or "none"))
