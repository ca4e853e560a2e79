#!/usr/bin/env python3
"""Brings the repository's own definitions and lemmas to today's spelling, after port.py.

usage: python3 tools/respell.py [--list]      at the top of the repository

Words are in snake case, and types and modules in upper camel case. A dash in a lemma's name joins two names (of a definition, of a
function of the library, of an operator); a plain word hangs on by '_'. A namespace is no middle dot. Only names that the files of
specs/ and proofs/ declare themselves are turned; functions of src/, exported names, strings, inputs and outputs keep theirs.
Two names that fall together are told, and the lemma of the two ends in '_lem'. --list prints the table and writes nothing.
"""
import glob
import os
import re
import sys

# Functions of the library and words for operators that stand in names of lemmas.
LIBRARY = set("""append assoc comm length take drop get_or set map reverse replicate le lt leb ltb eqb beq eq ne zero suc nil cons true
false and or not cond if add sub mul div mod pow fold sum min max ltz toz ofz ap rev at_most""".split())
WORD = r"[\w'·₀-₉]+(?:-[\w'·₀-₉]+)*"
DECLARED = re.compile(r"^(?:unfoldable |abbrev |pattern )*(?:pub )?(?:unfoldable |abbrev )*(" + WORD + r") :(?!=)", re.M)
FIELD = re.compile(r"^  +(?:pub )?(" + WORD + r") :(?!=)", re.M)
DATA = re.compile(r"^(?:pub )?(?:unfoldable )?(?:pub )?(data|record) (" + WORD + ")", re.M)
TOKEN = re.compile(r"--[^\n]*|//[^\n]*|\"(?:[^\"\\\n]|\\.)*\"|" + WORD)
# Names whose parts the rules above would not tell apart.
GIVEN = {"indexAbove31": "index_above_31", "l1-key": "l1_key", "l2-key": "l2_key", "seedKeys": "seed_keys", "seed-keys": "seed_keys_lem"}
DOTTED = {"leb·zero": "leb-zero", "eqb·suc-zero": "eqb-suc-zero", "List·getD-append": "get_or-append"}


def snake(name):
    name = re.sub(r"([a-z])([A-Z])", r"\1_\2", name)
    name = re.sub(r"([0-9])([A-Z])", r"\1_\2", name)
    return name.lower() if not name[:1].isupper() else name


def collect():
    specs, lemmas, types = {}, {}, set()
    for path in sorted(glob.glob("crates/*/specs/**/*.antt", recursive=True) + glob.glob("crates/*/proofs/**/*.antt", recursive=True)):
        if os.path.basename(path) == "Proof.antt":
            continue
        text = open(path, encoding="utf-8").read()
        types |= {m[2] for m in DATA.finditer(text)}
        found = specs if "/specs/" in path else lemmas
        for m in list(DECLARED.finditer(text)) + list(FIELD.finditer(text)):
            found.setdefault(m[1], path)
    return specs, lemmas, types


def table():
    specs, lemmas, types = collect()
    own = {n: snake(n) for n in specs if not n[:1].isupper() and "-" not in n}
    names = set(own.values()) | LIBRARY | {snake(n) for n in lemmas if "-" not in n and n != snake(n)}
    new = dict(own)
    for n in list(lemmas) + [s for s in specs if "-" in s]:
        if n in new or n[:1].isupper():
            continue
        parts = [snake(p) for p in n.split("-")]
        groups, i = [], 0
        while i < len(parts):
            for j in range(len(parts), i, -1):
                word = "_".join(parts[i:j])
                if word in names:
                    groups.append((word, True))
                    i = j
                    break
            else:
                groups.append((parts[i], False))
                i += 1
        out = groups[0][0]
        for k in range(1, len(groups)):
            out += ("-" if groups[k][1] and groups[k - 1][1] else "_") + groups[k][0]
        new[n] = out
    new.update(GIVEN)
    taken = {}
    for n in sorted(new, key=lambda n: (n not in specs, n != new[n], n)):
        if new[n] in taken and n not in GIVEN:
            print(f"falls together: {n} and {taken[new[n]]} as {new[n]}")
            new[n] += "_lem"
        taken[new[n]] = n
    new.update(DOTTED)
    return {a: b for a, b in new.items() if a != b}


def turned(text, names, only=None):
    return TOKEN.sub(lambda m: names.get(m[0], m[0]) if m[0][:2] not in ("--", "//") and m[0][:1] != '"' else m[0], text)


CLAUSE = re.compile(r"^\s*(?:ghost use\b|requires|ensures|ghost )")


def source(text, names):
    """In src/ only the ghost imports and the clauses."""
    out, inside, depth = [], False, 0
    for line in text.split("\n"):
        if not inside and CLAUSE.match(line):
            inside, depth = True, 0
        if inside:
            line2 = turned(line, names)
            depth += line.count("{") - line.count("}")
            out.append(line2)
            if depth <= 0:
                inside = False
        else:
            out.append(line)
    return "\n".join(out)


def main():
    names = table()
    if "--list" in sys.argv:
        for a in sorted(names):
            print(a, names[a])
        return
    for path in sorted(glob.glob("crates/*/**/*.antt", recursive=True)):
        if "/out/" in path:
            continue
        text = open(path, encoding="utf-8").read()
        new = turned(text, names)
        new = re.sub(r"\b(leb-zero|eqb-suc-zero|get_or-append) as \1\b", r"\1", new)
        if new != text:
            open(path, "w", encoding="utf-8").write(new)
    for path in sorted(glob.glob("crates/*/src/**/*.rt", recursive=True)):
        text = open(path, encoding="utf-8").read()
        new = source(text, names)
        if new != text:
            open(path, "w", encoding="utf-8").write(new)


main()
