#!/usr/bin/env python3
"""Brings the repository's own definitions and lemmas to one spelling: words in snake case, types in camel case.

usage: python3 tools/respell.py [TOP]

Run once at the top, after the kit's port.py. A name is the repository's own if an .antt file below crates/ declares it: at the
left margin, as a field of a record, as a constructor of a data type, within a module, or by a let. Goals, which a file of
proofs/F answers under the names that the check gives them, keep theirs. Functions of src/, strings and outputs are not touched.
It prints each name that it turns, and each new name that was there already.
"""
import os
import re
import sys

WORD = r"[^\W\d_][\w']*(?:-[\w']+)+"
TOKEN = re.compile(r"(?<![\w'-])" + WORD + r"(?![\w'-])")
DECLARED = re.compile(r"^(?:(?:abbrev|unfoldable|pattern|pub|axiom|data|record|ruleset)\s+)*(" + WORD + r")\s*(?:\(|\{|:)")
MEMBER = re.compile(r"^\s+(?:pub\s+)?(" + WORD + r")\s+:(?:\s|$)")
LOCAL = re.compile(r"\blet (" + WORD + r")\s+[:=]")
ANY = re.compile(r"[^\W\d_][\w']*")


def files(top, ends):
    for folder, dirs, names in os.walk(os.path.join(top, "crates")):
        dirs[:] = sorted(d for d in dirs if d != "out")
        for name in sorted(names):
            if name.endswith(ends):
                yield os.path.join(folder, name)


def respelt(name):
    parts = name.split("-")
    if name[0].isupper():
        return "".join(p[0].upper() + p[1:] for p in parts)
    return "_".join(parts)


def own_names(top):
    names = set()
    for path in files(top, ".antt"):
        answers = os.path.basename(path) in ("Answers.antt", "Invariants.antt")
        with open(path, encoding="utf-8") as f:
            lines = f.read().split("\n")
        for line in lines:
            declared = DECLARED.match(line)
            if declared and not (answers and re.search(r":\s*goal\.", line)):
                names.add(declared[1])
            member = MEMBER.match(line)
            if member:
                names.add(member[1])
            names.update(LOCAL.findall(line))
    return names


def main():
    top = sys.argv[1] if len(sys.argv) > 1 else "."
    turned = {n: respelt(n) for n in own_names(top)}
    there = set()
    for path in files(top, (".antt", ".rt")):
        with open(path, encoding="utf-8") as f:
            there.update(ANY.findall(TOKEN.sub(" ", f.read())))
    for path in files(top, (".antt", ".rt", ".edit")):
        with open(path, encoding="utf-8") as f:
            old = f.read()
        new = TOKEN.sub(lambda m: turned.get(m[0], m[0]), old)
        if new != old:
            with open(path, "w", encoding="utf-8") as f:
                f.write(new)
    for name in sorted(turned):
        print(f"{name} -> {turned[name]}" + ("   there already" if turned[name] in there else ""))


main()
