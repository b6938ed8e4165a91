#!/usr/bin/env python3
"""Respells this repository's own definitions, lemmas, fields, facts and aliases as today's Rattle spells names.

usage: python3 tools/port_names.py [--look]     at the top of a repository that port.py has turned, once

A word in lower case joins its parts with `_` where it had dashes (`look-refusal`: `look_refusal`), and a fact or a type is in camel case
(`Told-apart`: `ToldApart`). Names that Rattle makes (goals, steps of a proof) are left: `rt check` says what they are called now. A name
that would fall together with another, or with a function of its crate's src/, is printed and takes the spelling given in OTHERWISE.
--look prints what would be done and writes nothing.
"""
import glob
import os
import re
import sys

# Where the plain respelling falls together with another name, or is no good one.
OTHERWISE = {
    "Block-of": "block_of",  # it names a constructor
}

# What begins a name that Rattle makes.
MADE = re.compile(
    r"^(returns|invariant|invariant_of|loop|overflow\w*|nonzero\w*|slice|slice_bounds|bounds|offset|offset_bounds|decreases|ghost|prove)-"
    r"|-requires(-|$)|^(row|new|none|the)-(requires|row)$"
)
WORD = re.compile(r"[^\s(){}\[\],;:.\"«»|↦]+")
SIGNATURE = re.compile(r"^(?:(?:abbrev|unfoldable|pub|mutual)\s+)*(?:(record|data|ruleset)\s+)?(\S+)(?=\s|$)")
ALIAS = re.compile(r" as ([A-Za-z]+(?:-[A-Za-z]+)+)")
FIELD = re.compile(r"^\s+(?:(?:abbrev|unfoldable|pub)\s+)*([^\s(){}]+) :(?=\s|$)")


def antt(kind):
    return sorted(glob.glob(f"crates/*/{kind}/**/*.antt", recursive=True))


def own_names(path):
    """The names that a file of definitions or lemmas makes: top-level ones, fields and constructors, and those of an inner module."""
    text = open(path, encoding="utf-8").read()
    inside = False
    for line in text.split("\n"):
        if not line.strip() or line.lstrip().startswith("--"):
            continue
        if not line[0].isspace():
            words = line.split()
            inside = "record" in words[:3] or "data" in words[:3]  # else only a name with a dash is looked at
            if words[0] in ("use", "pub") and len(words) > 1 and words[1] in ("use", "mod"):
                continue
            if words[0] in ("use", "mod", "infixl", "infixr", "infix", "unfolding", "open"):
                continue
            m = SIGNATURE.match(line)
            if m and (" : " in line or line.rstrip().endswith(" :") or m.group(1)):
                yield m.group(2)
        else:
            m = FIELD.match(line)
            if m and (inside or "-" in m.group(1)):
                yield m.group(1)


def respelled(name):
    if name in OTHERWISE:
        return OTHERWISE[name]
    name = name.replace("getD", "get_or").replace("′", "'")
    parts = re.split("[-_]", name) if name[:1].isupper() else name.split("-")
    if parts[0][:1].isupper() and len(parts[0]) > 1:
        return "".join(p[:1].upper() + p[1:] for p in parts)
    return "_".join(parts)


def functions_of(crate):
    found = set()
    for path in glob.glob(f"crates/{crate}/src/**/*.rt", recursive=True):
        found |= set(re.findall(r"\bfn\s+(\w+)", open(path, encoding="utf-8").read()))
    return found


def main():
    look = "--look" in sys.argv
    files = antt("specs") + antt("proofs")
    names, homes = set(), {}
    for path in files:
        generated = os.path.basename(path) in ("Answers.antt", "Invariants.antt", "Proof.antt", "Choices.antt")
        for name in own_names(path):
            if generated and (MADE.search(name) or name in ("returns", "the-impl")):
                continue
            names.add(name)
            homes.setdefault(name, set()).add(path)
    for path in files + sorted(glob.glob("crates/*/src/**/*.rt", recursive=True)):
        for line in open(path, encoding="utf-8"):
            if line.startswith(("use ", "ghost use ")):
                for name in ALIAS.findall(line):
                    names.add(name)
                    homes.setdefault(name, set()).add(path)
    table = {n: respelled(n) for n in names if respelled(n) != n}
    kept = names - set(table)
    for old, new in sorted(table.items()):
        crates = {p.split("/")[1] for p in homes[old]}
        clash = [o for o, n in table.items() if n == new and o != old] + ([new] if new in kept else [])
        if clash:
            print(f"falls together: {old} and {', '.join(clash)} as {new}: {' '.join(sorted(homes[old]))}")
        for c in crates:
            if new in functions_of(c):
                print(f"a function has the name: {old} as {new}: {' '.join(sorted(homes[old]))}")
    print(f"{len(names)} names, {len(table)} respelled")
    if look:
        for old, new in sorted(table.items()):
            print(f"  {old} -> {new}")
        return

    def turn(text):
        return WORD.sub(lambda m: table.get(m.group(0), m.group(0)), text)

    for path in files + sorted(glob.glob("crates/*/src/**/*.rt", recursive=True)) + sorted(glob.glob("crates/*/must-fail/*.edit")):
        text = open(path, encoding="utf-8").read()
        if path.endswith(".antt"):
            new = turn(text)
        else:
            new = "".join(p if p.startswith('"') else turn(p) for p in re.split(r'("(?:[^"\\\n]|\\.)*")', text))
        if new != text:
            open(path, "w", encoding="utf-8").write(new)


main()
