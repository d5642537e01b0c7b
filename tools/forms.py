#!/usr/bin/env python3
"""Counts the places in crates/*/src that docs/DESIGN-PASS.md speaks of, by their text. Usage: forms.py [FOLDER]"""
import collections
import glob
import os
import re
import sys

top = sys.argv[1] if len(sys.argv) > 1 else "."
files = sorted(glob.glob(os.path.join(top, "crates", "*", "src", "*.rt")))
code = {os.path.relpath(f, top): open(f, encoding="utf-8").read() for f in files}


def lines(pattern):
    """The lines that match, outside comments and ghost lines."""
    found = []
    for name, text in code.items():
        for number, line in enumerate(text.split("\n"), 1):
            if line.lstrip().startswith("//") or line.startswith("ghost use"):
                continue
            if re.search(pattern, line):
                found.append((name, number, line.strip()))
    return found


def functions():
    """Each function: its file, its name, its parameters and what it asks for."""
    for name, text in code.items():
        heads = list(re.finditer(r"\bfn (\w+)(?:<[^>]*>)?\(", text))
        for m, after in zip(heads, heads[1:] + [None]):
            whole = text[m.end():after.start() if after else len(text)]
            params = [p.strip() for p in whole[:whole.index(")")].replace("\n", " ").split(",") if p.strip()]
            asked = re.findall(r"\n *requires(?: \w+)? \{ (.*?) \}(?=\n)", whole)
            yield name, m.group(1), params, asked


def show(title, found):
    print(f"{title}: {len(found)}")
    if "-v" in sys.argv[2:] or os.environ.get("SHOW"):
        for f in found:
            print("   ", *f)


show("1 a refusal or a flag beside a value, in a struct", lines(r"^\s+pub (refusal: u8|fit: bool)"))
show("1 functions that answer a refusal as a number", lines(r"^(pub )?fn (bad_\w+|mesh_\w+|judge)\(.*\) -> u8|^\) -> u8"))
show("1 a refusal's number tested", lines(r"\b(refusal|bad|packet|mesh|size|sized) != 0"))
show("1 numbers for kinds, in parameters and fields", lines(r"\b(rule|arrival|direction|kind|way|h|v): u8\b"))
show("1 numbers for kinds, in constants", lines(r"^(pub )?const \w+: u8 = \d"))
show("3 loops that count", lines(r"^\s*while "))
show("4 equality, emptiness, difference and conversion written out", lines(r"\bfn (is|none|unseen|no_pair|refused|gap|up|is_blank|opposite|turn_bit|zero|clear|record_at|put_back)\("))
show("6 a buffer with its end beside it", lines(r"out: &mut \[u8\], (end|at): usize"))
show("6 words with their count beside them", lines(r"words: &(mut )?\[u16\], n: usize"))
show("7 a switch on the kind of a move", lines(r"(kind|j) == \w+|kind != FOLLOW|kind <= EAT|match (kind|step|self) \{"))

together = collections.defaultdict(list)
facts = collections.defaultdict(set)
for name, fn, params, asked in functions():
    names = [p.split(":")[0].strip() for p in params]
    for group in (("columns", "rows"), ("columns", "rows", "rule"), ("words", "n"), ("m", "rule"), ("kind", "channel", "direction")):
        if all(g in names for g in group):
            together[group].append((name, fn))
    for fact in asked:
        facts[fact].add((name, fn))
for group, where in sorted(together.items()):
    show(f"5 parameters that go together, {', '.join(group)}", where)
for fact, where in sorted(facts.items(), key=lambda x: -len(x[1])):
    if len(where) >= 3:
        show(f"5 functions that ask for the fact {fact}", sorted(where))
print("8 lines of proofs for one function:", sum(
    len(open(f, encoding="utf-8").read().split("\n")) - 1
    for f in glob.glob(os.path.join(top, "crates", "*", "proofs", "**", "*.antt"), recursive=True)
    if os.path.basename(f) in ("Answers.antt", "Invariants.antt") and "/Draining/" not in f))
