#!/usr/bin/env python3
"""Brings the repository's own definitions and lemmas to today's spelling: words in snake case.

usage: tools/respell.py WORDS     at the top of a repository that the toolchain's port.py has just turned

WORDS is a folder of .antt files whose names are not ours (the toolchain's library): what stands there keeps its
spelling. A name in camel case that begins with a small letter, and a name of ours with a dash, become snake case.
Functions, exported names, strings, inputs and outputs are left alone. Names that would fall together are in OTHER.
"""
import os
import re
import sys

WORD = r"[^\s(){}\[\].,;:«»\"`'λ→×∷≡⊥∙←]"
TOKEN = re.compile(r"[A-Za-zα-ωΑ-Ω_][A-Za-z0-9_₀-₉⁺⁻ᵃ-ᶻα-ωΑ-Ωℕℤⁿᶠ'-]*")
CAMEL = re.compile(r"^[a-z][a-z0-9_]*[A-Z]")
# Names that would fall together, or that a parameter of a function citing them has, and what they become.
OTHER = {"belowAll": "below_every", "belowOne": "below_one_number"}
# Lemmas that have the name already which a definition gets in their file.
FIRST = {
    "crates/base_builder_laws/proofs/GoodCalls.antt": {"no_call": "no_call_lem"},
    "crates/simple_umi_laws/proofs/Examples.antt": {"lane_byte": "lane_byte_lem"},
    "crates/umi_groups/proofs/Groups.antt": {"first_found": "first_found_lem"},
    "crates/simple_consensus/proofs/Groups.antt": {"first_found": "first_found_lem"},
}
# Names that Rattle or the older toolchain made for goals and steps: the proofs of functions have them.
MADE = re.compile(r"^(Need|After|At|In|Then|Else|From|Case)-")


def snake(name):
    name = name.replace("-", "_")
    name = re.sub(r"([a-z0-9])([A-Z])", r"\1_\2", name)
    name = re.sub(r"([A-Z]+)([A-Z][a-z])", r"\1_\2", name)
    return name.lower()


def read(path):
    with open(path, encoding="utf-8") as f:
        return f.read()


def files(root, endings):
    for folder, dirs, names in os.walk(root):
        dirs[:] = sorted(d for d in dirs if d not in ("out", "target", ".git"))
        for n in sorted(names):
            if n.endswith(endings):
                yield os.path.join(folder, n)


def without_comments(text):
    return re.sub(r"^\s*--.*$|(?<=\s)-- .*$", "", text, flags=re.M)


def made_proof(path):
    return os.path.basename(path) in ("Proof.antt", "Answers.antt", "Invariants.antt")


def names(root, library):
    theirs = set()
    for p in files(library, (".antt",)):
        theirs.update(TOKEN.findall(read(p)))
    ours = set()
    for p in files(os.path.join(root, "crates"), (".antt",)):
        if made_proof(p):
            continue
        ours.update(TOKEN.findall(without_comments(read(p))))
    turned = {}
    for n in sorted(ours):
        if n in theirs or MADE.match(n) or n.endswith("-"):
            continue
        if CAMEL.match(n) or ("-" in n and n[0].islower()):
            turned[n] = OTHER.get(n, snake(n))
    # a lemma that would have its definition's name
    defined = {v for k, v in turned.items() if "-" not in k} | ours
    for n, v in turned.items():
        if "-" in n and v in defined:
            turned[n] = v + "_lem"
    return turned, ours, theirs


def turn(text, turned):
    return TOKEN.sub(lambda m: turned.get(m.group(0), m.group(0)), text)


def turn_clauses(text, turned):
    """Of a source file the clauses, the ghost lines and the comments: names in camel case stand nowhere else."""
    camel = {k: v for k, v in turned.items() if "-" not in k}
    dashed = {k: v for k, v in turned.items() if "-" in k}
    out = []
    for line in text.split("\n"):
        quoted = '"' in line and "//" not in line.split('"')[0]
        line = line if quoted else turn(line, camel)
        if re.match(r"\s*(//|ghost|requires|ensures)", line):
            line = turn(line, dashed)
        out.append(line)
    return "\n".join(out)


def main(argv):
    if len(argv) != 1:
        print(__doc__, file=sys.stderr)
        return 2
    root = os.getcwd()
    turned, ours, theirs = names(root, argv[0])
    together = {}
    for old, new in turned.items():
        together.setdefault(new, []).append(old)
    for new, olds in sorted(together.items()):
        if len(olds) > 1:
            print("falls together:", new, "of", ", ".join(olds))
        elif new in ours:
            print("stands already:", new, "of", olds[0])
        elif new in theirs:
            print("stands in the library:", new, "of", olds[0])
    changed = 0
    for p in files(os.path.join(root, "crates"), (".antt", ".rt", ".edit")):
        old = read(p)
        first = FIRST.get(os.path.relpath(p, root))
        if first:
            old = turn(old, first)
            with open(p, "w", encoding="utf-8") as f:
                f.write(old)
        here = set(TOKEN.findall(old))
        for n in sorted(here):
            if n in turned and turned[n] in here:
                print("both in", os.path.relpath(p, root) + ":", n, turned[n])
        if p.endswith(".antt"):
            new = turn(old, turned)
        else:
            new = turn_clauses(old, turned)
        if new != old:
            changed += 1
            with open(p, "w", encoding="utf-8") as f:
                f.write(new)
    for p in files(root, (".md",)):
        old = read(p)
        new = re.sub(r"`[^`\n]+`", lambda m: turn(m.group(0), turned), old)
        if new != old:
            changed += 1
            with open(p, "w", encoding="utf-8") as f:
                f.write(new)
    print(f"{len(turned)} names, {changed} files")
    return 0


if __name__ == "__main__":
    sys.exit(main(sys.argv[1:]))
