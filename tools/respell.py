#!/usr/bin/env python3
"""Respells this repository's own names: a dash in the name of a definition, a lemma, a field or a variable becomes an underscore.

usage: python3 tools/respell.py         at the top, once, on what port.py of the kit left
       python3 tools/respell.py --dry   changes nothing and prints the names

Names that the kit made or exports keep their dashes: those that a file takes from a module of the kit, and,
in the proof of one function, those that no other file defines. Prints each name that falls together with
another. Of comments only what stands between backquotes is respelled, and of code only the clauses and the
lines of ghost use. The text of must-fail edits is respelled too.
"""
import os
import re
import sys

DRY = "--dry" in sys.argv
NAME = re.compile(r"[^\s(){}\[\],;.`\"λ→×∷≡⌜⌝∵!▸$|:=↦#]+")
IMPORT = re.compile(r"\buse\s+([^\s{;]+?)\.\{([^}]*)\}")
OWN = tuple("Rattle." + n + "." for n in ("route", "wormhole", "traffic", "report", "mesh"))


def dashed(t):
    return re.fullmatch(r"[^\W\d][\w']*(-[\w']+)+", t) is not None


def files(ends):
    for d, ds, fs in os.walk("crates"):
        ds[:] = sorted(x for x in ds if x != "out")
        for f in sorted(fs):
            if f.endswith(ends):
                yield os.path.join(d, f)


def code_of(path, text):
    """The text without comments."""
    mark = "//" if path.endswith(".rt") else "--"
    return "\n".join(line.split(mark + " ")[0] if mark + " " in line else line for line in text.split("\n"))


def is_walk(path):
    return path.endswith("/Proof.antt")


foreign = {}
own = {}
used = {}
for path in files((".antt", ".rt")):
    text = open(path, encoding="utf-8").read()
    code = code_of(path, text)
    taken = set()
    for module, names in IMPORT.findall(code):
        if not (module + ".").startswith(OWN):
            for n in names.split(","):
                n = n.split(" as ")[0].strip()
                if dashed(n):
                    taken.add(n)
    for n in taken:
        foreign.setdefault(n, set()).add(path)
    names = set(NAME.findall(code))
    used[path] = names
    if not is_walk(path):
        for n in names:
            if dashed(n) and n not in taken:
                own.setdefault(n, set()).add(path)

# A name of the kit that one of our files hands on is the kit's everywhere.
both = {n for n in own if n in foreign}
turned = {n: n.replace("-", "_") for n in own if n not in both}

for n in sorted(both):
    print("left, since the kit has it too:", n, "in", ", ".join(sorted(own[n])))
for n in sorted(turned):
    for path in sorted(own[n]):
        if turned[n] in used[path]:
            print("falls together:", n, "and", turned[n], "in", path)
if DRY:
    for n in sorted(turned):
        print("name:", n, len(own[n]))
    raise SystemExit


def respell(text):
    return NAME.sub(lambda m: turned.get(m.group(0), m.group(0)), text)


def respell_line(line):
    """A line of antt: what stands before a comment, and the comment's quoted names."""
    code, mark, said = ("", "-- ", line[3:]) if line.startswith("-- ") else line.partition(" -- ")
    return respell(code) + mark + re.sub(r"`[^`]*`", lambda m: respell(m.group(0)), said)


def respell_code(text):
    """Clauses and imports alone, to their last brace: elsewhere in code a dash is a minus."""
    lines, depth = [], 0
    for line in text.split("\n"):
        if depth > 0 or re.match(r"\s*(requires|ensures|ghost|invariant)\b", line):
            depth += line.count("{") - line.count("}")
            line = respell(line)
        lines.append(line)
    return "\n".join(lines)


for path in files((".antt", ".rt", ".edit")):
    text = open(path, encoding="utf-8").read()
    if path.endswith(".rt"):
        new = respell_code(text)
    elif path.endswith(".antt"):
        new = "\n".join(respell_line(line) for line in text.split("\n"))
    else:
        new = "\n".join(line if line.startswith("#") else respell(line) for line in text.split("\n"))
    if new != text:
        open(path, "w", encoding="utf-8").write(new)
