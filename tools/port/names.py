#!/usr/bin/env python3
"""Brings the repository's own definitions, fields, constructors and lemmas to the kit's spelling; run once, at the top.

usage: python3 tools/port/names.py [--dry]

A word is in snake case. A dash stays where it joins two names (a type, a definition of specs/ or a word of std) to one.
Functions of src/, strings, inputs and outputs keep their names. Text in comments goes with the names.
"""
import collections
import os
import re
import sys

ROOT = os.path.dirname(os.path.dirname(os.path.dirname(os.path.abspath(__file__))))
TOKEN = re.compile(r"[^\s(){}\[\],;.:\"`|]+")
DEF = re.compile(r"\s*(?:(?:abbrev|unfoldable|opaque|macro)\s+)*(?:pub\s+)?(?:(?:abbrev|unfoldable)\s+)?(?:(record|data|ruleset)\s+)?([^\s(){}\[\],;.:]+)\s+(?:[({].*)?:\s")
# words of std that a lemma's name may join
STD = set("length take drop map reverse append concat get_or set foldr splice replicate cond eqb ltb leb nat_le nat_lt".split())


def files(kinds):
    for folder, dirs, names in os.walk(os.path.join(ROOT, "crates")):
        dirs[:] = sorted(d for d in dirs if d not in ("out", "data"))
        for f in sorted(names):
            if f.endswith(kinds):
                yield os.path.join(folder, f)


def place(path):
    if "/specs/" in path:
        return "specs"
    return "lemmas" if re.search(r"/proofs/[^/]+$", path) else "function"


def read(path):
    with open(path, encoding="utf-8") as f:
        return f.read()


def defined():
    """Names that specs/ and proofs/*.antt define, by where they stand."""
    found = collections.defaultdict(set)
    for p in files((".antt",)):
        for line in read(p).split("\n"):
            m = DEF.match(line)
            if m and not line.lstrip().startswith("--"):
                found[place(p)].add(m.group(2))
                if place(p) == "specs" and not line.startswith(" "):
                    found["top"].add(m.group(2))
                continue
            m = re.match(r"\s*pub ruleset ([^\s(){}\[\],;.:]+)|\s*ruleset ([^\s(){}\[\],;.:]+)", line)
            if m:
                found[place(p)].add(m.group(1) or m.group(2))
    return found


def spelled(name, known):
    """The name in the kit's spelling: underscores, and a dash where it joins two known names."""
    parts = name.split("-")
    if "" in parts:
        return name
    if re.fullmatch(r"[A-Z]\w*'?", parts[0]) and len(parts) > 1:
        return parts[0] + "-" + "_".join(parts[1:])
    groups, i = [], 0
    while i < len(parts):
        for j in range(len(parts), i, -1):
            word = "-".join(parts[i:j])
            if word in known or word.replace("-", "_") in known:
                groups.append(("_".join(parts[i:j]), True))
                i = j
                break
        else:
            groups.append((parts[i], False))
            i += 1
    out = groups[0][0]
    for (a, ka), (b, kb) in zip(groups, groups[1:]):
        out += ("-" if ka and kb else "_") + b
    return out


def main():
    dry = "--dry" in sys.argv
    found = defined()
    known = {n for n in found["top"] if len(n) > 2} | STD
    old = {n for n in found["specs"] | found["lemmas"] if "-" in n and not n.startswith("+")}
    new = {}
    for n in sorted(old):
        if n in found["specs"]:
            s = n if re.match(r"[A-Z]", n) and "-" in n[1:] and n.split("-")[0] in found["specs"] else n.replace("-", "_")
        else:
            s = spelled(n, known)
        if s != n:
            new[n] = s
    # names that fall together
    every = found["specs"] | found["lemmas"] | found["function"]
    back = collections.defaultdict(list)
    for a, b in new.items():
        back[b].append(a)
    tokens = set()
    for p in files((".antt", ".rt")):
        tokens |= set(TOKEN.findall(read(p)))
    for b, olds in sorted(back.items()):
        if len(olds) > 1 or b in every or b in tokens:
            print("together:", b, olds, "defined" if b in every else "used" if b in tokens else "")
    # names that Rattle makes
    made = set()
    for p in files(("Proof.antt",)):
        for m in re.finditer(r"\bc((?:\.[^\s(){}\[\],;.:]+)+)", read(p)):
            made |= set(m.group(1).split("."))
    for n in sorted(made & set(new)):
        print("made too:", n)
    print(len(new), "names")
    if dry:
        for a, b in sorted(new.items()):
            if "-" in b:
                print("joined:", a, b)
        return
    changed = 0
    for p in files((".antt", ".rt", ".edit")):
        text = read(p)
        turned = TOKEN.sub(lambda m: new.get(m.group(0), m.group(0)), text)
        if turned != text:
            with open(p, "w", encoding="utf-8") as f:
                f.write(turned)
            changed += 1
    print(changed, "files")


main()
