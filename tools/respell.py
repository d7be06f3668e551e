#!/usr/bin/env python3
"""Respells this repository's own definitions and lemmas: run once, after the toolchain's own script, at the top.

    python3 tools/respell.py        (or with --dry: only prints what it would rename)

A name that begins small and has capitals within (`superOf`) is written in snake case (`super_of`). In a lemma's name a dash
stays only where it joins the names of two functions (`length-put`, `is_in-append`); a plain word is added with `_` (`went_dark`).
Types, facts, variants and modules keep their capitals, and what the checker names itself (the goals, invariants and measures of a function)
keeps its dashes. Functions of src/, exported names, strings, inputs and outputs are not touched.
A new name that already stands somewhere gets `_lem` behind it.
"""
import glob
import re
import sys

# a token of antt: whatever stands between spaces, brackets, dots, commas, semicolons
TOKEN = re.compile(r"[^\s(){}\[\].,;λ«»`|]+")

# lemmas whose dash joins the names of two functions: what the outer one says of the inner one
JOINED = {
    "apart-append", "apart-put", "isIn-append", "isIn-put", "length-add", "length-column", "length-put", "getD-add", "getD-noughts",
    "shl-xor", "place-index", "index-place", "true-T",
}

# lemmas that would have the name of a definition, now that it is respelled, and names that the search for declarations does not find
BESIDE = {"in_use": "in_use_lem", "get_d_map": "get_or-map", "hadAgain": "had_again", "isListed": "is_listed"}

# names that the library has too, and that are imported from it elsewhere
LIBRARY = {"not-true"}

# definitions whose new name stands elsewhere, in a crate that knows nothing of them, or as the name of the function that they mirror
APART = {"fourWords", "threeWords", "isOpen", "journalWord", "rebuildWords", "oneMore", "inUse", "inQ"}


def sources():
    specs = sorted(glob.glob("crates/*/specs/*.antt"))
    proofs = sorted(glob.glob("crates/*/proofs/**/*.antt", recursive=True))
    return specs, proofs


def declared(path):
    """Names that a file declares, at the top, as fields and constructors, or inside a module; each with whether it is a definition."""
    out = []
    for line in open(path):
        m = re.match(r"^\s*\(?(?:(?:abbrev|unfoldable|pub|data|record) )*([^\s():]+) (?:\{\S+\} )?: (.*)", line)
        if m and not line.lstrip().startswith("--") and not re.match(r"goal\b", m.group(2)):
            out.append(m.group(1))
        m = re.match(r"^(?:pub )?(?:record|data|module) (\S+)", line)
        if m:
            out.append(m.group(1))
    return out


def snake(word):
    if word == "getD":
        return "get_or"
    word = re.sub(r"([a-z0-9])([A-Z])", r"\1_\2", word)
    return word.lower()


def main():
    specs, proofs = sources()
    names = {n for p in specs + proofs for n in declared(p)}
    tokens = set()
    for p in specs + proofs + sorted(glob.glob("crates/*/src/**/*.rt", recursive=True)):
        tokens |= set(TOKEN.findall(open(p).read()))

    def respell(name):
        if "-" not in name:
            return snake(name) if name[0].islower() else name
        parts = [p if p == "T" else snake(p) for p in name.split("-")]
        return ("-" if name in JOINED else "_").join(parts)

    table = {}
    for name in sorted(names):
        if not re.search(r"[a-z0-9][A-Z]|-", name) or re.search(r"[^\w\-']", name.replace("+", "x")):
            continue
        new = respell(name)
        if new == name or name in LIBRARY:
            continue
        if name not in APART and (new in tokens or new in table.values()):
            new += "_lem"
        table[name] = new
    table.update(BESIDE)
    if "--dry" in sys.argv:
        for name in sorted(names):
            if name in table or "-" in name:
                print(name, "→", table.get(name, name))
        return

    def turn(text, code=False):
        return TOKEN.sub(lambda m: m.group(0) if code and m.group(0) == "in_use" else table.get(m.group(0), m.group(0)), text)

    changed = 0
    for p in specs + proofs + sorted(glob.glob("crates/*/src/**/*.rt", recursive=True)) + sorted(glob.glob("crates/*/must-fail/*.edit")):
        old = open(p).read()
        new = "\n".join(l if '"' in l and p.endswith(".rt") else turn(l, not p.endswith(".antt")) for l in old.split("\n"))
        if new != old:
            open(p, "w").write(new)
            changed += 1
    pages = ["README.md"] + sorted(glob.glob("docs/*.md"))
    for p in pages:
        old = open(p).read()
        new = re.sub(r"`[^`\n]+`", lambda m: turn(m.group(0), True), old)
        if new != old:
            open(p, "w").write(new)
            changed += 1
    print(f"{len(table)} names respelled in {changed} files")


if __name__ == "__main__":
    main()
