#!/usr/bin/env python3
"""Respells the repository's own definitions and lemmas: words in snake case, types in camel case.

usage: python3 tools/respell.py [--list]      at the top of the repository

A name that specs/ or proofs/ define with a dash in it gets underscores in place of the dashes, and a name that
begins with a capital letter loses them and joins its words by capitals. Names of goals, of the library and of src/ stay.
With --list it prints the table and the names that would fall together, and writes nothing.
"""
import collections
import os
import re
import subprocess
import sys

IDENT = r"[A-Za-z0-9_'?!◌₀-₉₁₂₃-]+"
WORD = re.compile(r"(?<![A-Za-z0-9_'?!◌₀-₉-])[A-Za-z0-9_'?!◌₀-₉-]+")
DEFINED = [
    re.compile(r"^\s*(?:abbrev |unfoldable )?(?:pub )?(?P<name>" + IDENT + r")(?: \{[^{}]*\})* : (?!goal\.)"),
    re.compile(r"^\s*(?:pub )?(?:data|record|ruleset|syntax) (?P<name>" + IDENT + r")(?= |:)"),
]


def files(suffixes):
    said = subprocess.run(["git", "ls-files", "-z", "crates"], capture_output=True, text=True, check=True).stdout
    return [f for f in said.split("\0") if f.endswith(suffixes)]


def read(path):
    with open(path, encoding="utf-8") as f:
        return f.read()


def own_names():
    names, goals = set(), set()
    for path in files((".antt",)):
        for line in read(path).splitlines():
            if line.lstrip().startswith("--"):
                continue
            for form in DEFINED:
                m = form.match(line)
                if m and "-" in m["name"]:
                    names.add(m["name"])
            m = re.match(r"^\s*(?:abbrev )?(?:pub )?(" + IDENT + r") : goal\.", line)
            if m:
                goals.add(m[1])
    return names, goals


# A struct of src/ has a field of the name that underscores would give.
OTHERWISE = {"code-place": "place_of_code"}


def respelled(name):
    if name in OTHERWISE:
        return OTHERWISE[name]
    if name[0].isupper():
        return "".join(w[:1].upper() + w[1:] for w in name.split("-"))
    return name.replace("-", "_")


def respell(text, table):
    """In a .rt file only clauses name definitions: a dash in code stands between spaces, so no word of code has one."""
    return WORD.sub(lambda m: table.get(m[0], m[0]), text)


def main(argv):
    names, goals = own_names()
    both = sorted(names & goals)
    table = {n: respelled(n) for n in sorted(names - goals)}
    for n in list(table):
        # an operator is used without the circles that stand for its arguments
        if n.startswith("◌"):
            table[n.strip("◌")] = respelled(n.strip("◌"))
    taken = collections.defaultdict(set)
    for path in files((".antt", ".rt")):
        for w in WORD.findall(read(path)):
            taken[w].add(path)
    if "--list" in argv:
        for old, new in table.items():
            print(old, new)
        together = collections.Counter(table.values())
        for old, new in table.items():
            if together[new] > 1:
                print("TOGETHER", old, new)
            if new in taken:
                print("TAKEN", old, new, sorted(taken[new])[:6])
        for n in both:
            print("GOAL", n)
        return 0
    for path in files((".antt", ".rt", ".edit")):
        old = read(path)
        new = respell(old, table)
        if new != old:
            with open(path, "w", encoding="utf-8") as f:
                f.write(new)
    print(f"{len(table)} names respelled")
    return 0


if __name__ == "__main__":
    sys.exit(main(sys.argv[1:]))
