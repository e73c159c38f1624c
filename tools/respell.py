#!/usr/bin/env python3
"""Brings the repository's own definitions and lemmas to today's spelling: snake case for all but types, facts and modules.

usage: tools/respell.py [--say] [FOLDER]    at the top of a checkout, once, after port.py

A name that a file of specs/ or a shared file of proofs/ defines with a dash or in camel case gets underscores: `code-rate` is `code_rate`, `isHorn`
is `is_horn`, `BAD-PLAN` is `BAD_PLAN`. A lemma that would have its definition's name gets `_lem`. Such a name is changed wherever it stands: in specs/,
proofs/, clauses, must-fail edits, and between back quotes in the pages. The names of src/ stay. Other names that fall together stop it.
"""
import collections
import os
import re
import sys

WORD = r"[^\s(){}\[\].,;:=`\"λ]+"
DEFINES = re.compile(r"^\s*(?:(?:pub|abbrev|unfoldable)\s+)*(" + WORD + r")(?:\s+" + WORD + r")*\s*:(?!:)")
TOKEN = re.compile(WORD)

# The bit of a word's operation, for std has the plain name; and two that port.py had respelled.
GIVEN = {"bit-and": "bit-bit_and", "bit-or": "bit-bit_or", "bit-xor": "bit-bit_xor", "is_open": "open_here", "row_count": "row_count_lem",
         "getD-in": "get_or_in", "getD-span": "get_or_span", "getD-within": "get_or_within", "in-getD": "in_get_or"}


def files(top, ends):
    for folder, dirs, names in os.walk(top):
        dirs[:] = sorted(d for d in dirs if d not in ("out", "target", ".git"))
        for name in sorted(names):
            if name.endswith(ends):
                yield os.path.join(folder, name)


def shared(path):
    """specs/ and the lemma files right in proofs/: not the proof of one function."""
    parts = path.split(os.sep)
    return "specs" in parts or parts[-2] == "proofs"


def respelled(name):
    name = name.replace("-", "_")
    if re.match(r"^[a-z]", name):
        name = re.sub(r"(?<=[a-z0-9])([A-Z])", lambda m: "_" + m.group(1).lower(), name)
        name = re.sub(r"(?<=_)([A-Z])(?=[a-z_]|$)", lambda m: m.group(1).lower(), name)
    return name


def is_ours(name):
    plain = re.match(r"^[A-Za-z][\w'₀-₉-]*$", name)
    return plain and (re.search(r"\w-\w", name) or re.match(r"^[a-z]\w*[A-Z]", name))


def main():
    say = "--say" in sys.argv
    args = [a for a in sys.argv[1:] if not a.startswith("--")]
    top = args[0] if args else "."
    crates = os.path.join(top, "crates")
    names, all_names = set(), set()
    for path in files(crates, (".antt",)):
        if not shared(os.path.relpath(path, top)):
            continue
        with open(path, encoding="utf-8") as f:
            for line in f:
                m = DEFINES.match(line)
                if m and not line.lstrip().startswith(("--", "use ")):
                    for word in line.split(":")[0].split():
                        all_names.add(word)
                        if is_ours(word) or word in GIVEN:
                            names.add(word)
    new = {n: GIVEN.get(n) or respelled(n) for n in names}
    for n in sorted(names):
        if "-" in n and n not in GIVEN and (new[n] in all_names or any(new[m] == new[n] and "-" not in m for m in names)):
            new[n] += "_lem"
    imported = set()
    for path in files(crates, (".antt", ".rt")):
        with open(path, encoding="utf-8") as f:
            for m in re.finditer(r"^(?:ghost )?use (?:Rattle\.std|Prim|native|mathlib|lib|types|borrow)\.[^{;\n]*\{([^}]*)\}", f.read(), re.M):
                imported |= {w.strip().split(" as ")[-1] for w in m.group(1).split(",")}
    both = sorted(n for n in names if new[n] in imported)
    if both:
        print("a name of the library too:", {n: new[n] for n in both}, file=sys.stderr)
        return 1
    back = collections.defaultdict(set)
    for n in all_names:
        back[new.get(n, n)].add(n)
    together = {n: sorted(olds) for n, olds in back.items() if len(olds) > 1}
    if say:
        for n in sorted(new):
            print(n, new[n])
    if together:
        for n, olds in sorted(together.items()):
            print("fall together:", n, olds, file=sys.stderr)
        return 1

    def turn(text):
        return TOKEN.sub(lambda m: new.get(m.group(0), m.group(0)), text)

    changed = 0
    for path in files(top, (".antt", ".rt", ".edit", ".md")):
        if path.endswith("respell.py"):
            continue
        with open(path, encoding="utf-8") as f:
            old = f.read()
        if path.endswith(".md"):
            text = re.sub(r"`[^`\n]*`", lambda m: turn(m.group(0)), old)
        else:
            text = turn(old)
        if text != old:
            changed += 1
            if not say:
                with open(path, "w", encoding="utf-8") as f:
                    f.write(text)
    print(f"respell: {len(new)} names, {changed} files", file=sys.stderr)
    return 0


sys.exit(main())
