#!/usr/bin/env python3
"""Brings the names of this repository's own definitions and lemmas to the spelling of today's Rattle.

Usage: tools/respell.py [--check]      once, at the top, after the kit's port.py

A definition, lemma, constructor or field of specs/ and proofs/ that is written in camel case or with dashes is written in
snake case: firstFrom is first_from, found-below found_below. A name with a capital before its dash (At-seat) keeps the
dash. Types, modules, and whatever the kit's library or the sources in src/ name keep their spelling. A lemma that would get the name
of a definition gets _lem after it; a definition may have the name of the function that computes it. The new names go into
specs/, proofs/, the clauses of src/, the edits in must-fail/ and wrong/, and what README and docs/ set between backticks.
Where two names would fall together in one file it changes nothing and says which. With --check it only says what it would do.
"""
import collections
import pathlib
import re
import sys

root = pathlib.Path(__file__).resolve().parent.parent
crates = sorted(d.name for d in (root / "crates").iterdir() if d.is_dir())
TOKEN = re.compile(r"[^\s(){}\[\].,;\"`]+")
DEFINED = re.compile(r"^\s*(?:(?:abbrev|unfoldable|pub)\s+)*([^\s:(){}|,;.]+)((?:\s+[^\s:(){}|,;.=]+)*)\s*:(?!:)", re.M)
BRACED = re.compile(r"[{;(]\s*([a-z][^\s:(){}|,;.]*)\s*:")
USED = re.compile(r"^\s*(?:pub |ghost )*use ([^\s{}]+?)(?:\.\{([^}]*)\})?(?: as \S+)?;?\s*$", re.M)
# what Rattle generates for a function's goals and loops
MADE = re.compile(r"^(returns|loop|invariant|decreases|overflow|slice|array|frame|if|in|else|then|statement)(-|$).*|^.*-(spec|requires|ensures|preserved|invariant)(-[0-9]+)?$")

# lemmas that the general rule would let fall together with a definition; each is renamed in the crate that declares it alone
APART = ["data_head", "moved_here", "header_of", "moved_on", "turn_in", "on_step", "host-header", "header-bytes", "awaits-fit"]


def snake(name):
    if re.match(r"^[A-Z][A-Za-z]*-", name):
        return name
    name = re.sub(r"(?<=[a-z0-9])([A-Z])", lambda m: "_" + m[1].lower(), name) if name[0].islower() else name
    return name.replace("-", "_")


def crate_of(path):
    return path.relative_to(root).parts[1]


def texts():
    for crate in crates:
        for part in "specs", "proofs", "src":
            for path in sorted((root / "crates" / crate / part).rglob("*")):
                if path.suffix in (".antt", ".rt"):
                    yield path


def own(path, text):
    """The names that a file of specs/ or proofs/ declares."""
    if path.suffix == ".rt":
        return set()
    said = re.sub(r"--.*", "", text)
    found = {m[1] for m in DEFINED.finditer(said)} | {n for m in DEFINED.finditer(said) for n in m[2].split()} | set(BRACED.findall(said))
    return {n for n in found if re.match(r"[A-Za-z]", n)}


def main():
    text = {p: p.read_text() for p in texts()}
    library = set()
    for t in text.values():
        for m in USED.finditer(t):
            if m[1].split(".")[0] != "Rattle" or m[1].split(".")[1] not in crates:
                library |= {w.split(" as ")[0].strip() for w in (m[2] or "").split(",")}
    declared = {p: own(p, t) for p, t in text.items()}
    names = {n for p in declared for n in declared[p]}
    outer = {n for p in declared if p.parts[-2] in ("specs", "proofs") for n in declared[p]}
    rename = {n: snake(n) for n in names - library if snake(n) != n and (n in outer or not MADE.match(n))}
    defined = {n for p in declared if p.parts[-2] == "specs" for n in declared[p]}
    defs = {rename.get(n, n) for n in defined}
    lemma = {n: new + "_lem" for n, new in rename.items() if n not in defined and (new in defs or new in names or new in library)}
    rename |= lemma | {n: n.replace("-", "_") + "_lem" for n in APART}
    functions = {n for p, t in text.items() if p.suffix == ".rt" for n in re.findall(r"\b(?:fn|ensures) (\w+)", t)}
    clash = []
    into = collections.defaultdict(set)
    for old, new in rename.items():
        into[new].add(old)
    for path, t in text.items():
        tokens = set(TOKEN.findall(re.sub(r"--.*|//.*", "", t)))
        for new, olds in into.items():
            here = (olds & tokens) | ({new} & tokens - functions - rename.keys())
            if len(here) > 1:
                clash.append(f"{path.relative_to(root)}: {' '.join(sorted(here))}")
        for old in tokens & rename.keys():
            if rename[old] in library:
                clash.append(f"{path.relative_to(root)}: {old} becomes a word of the library")
    for line in sorted(set(clash)):
        print("clash:", line)
    print(f"{len(rename)} names, {len(clash)} clashes")
    if "--check" in sys.argv:
        for old in sorted(rename):
            print(old, "->", rename[old])
        return 0
    if clash:
        return 1

    at_home = {(crate_of(p), n) for p in declared for n in declared[p] if n in APART}

    def turned(t, crate):
        return TOKEN.sub(lambda m: m[0] if m[0] in APART and (crate, m[0]) not in at_home else rename.get(m[0], m[0]), t)

    for path, t in text.items():
        if turned(t, crate_of(path)) != t:
            path.write_text(turned(t, crate_of(path)))
    for path in sorted([*root.glob("wrong/*/*.edit"), *root.glob("crates/*/must-fail/*.edit")]):
        path.write_text(turned(path.read_text(), crate_of(path)))
    for path in sorted([root / "README.md", *(root / "docs").rglob("*.md")]):
        t = path.read_text()
        # what port.py has respelled in the code stands in the pages as it was
        path.write_text(re.sub(r"`[^`\n]+`", lambda m: TOKEN.sub(lambda w: rename.get(w[0], snake(w[0]) if snake(w[0]) in names else w[0]), m[0]), t))
    return 0


sys.exit(main())
