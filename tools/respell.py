#!/usr/bin/env python3
"""Respells this repository's own definitions, lemmas and record fields from camel case to snake case, after the kit's port.py has run.

usage: tools/respell.py [--check]        at the top of the repository, with everything committed
What it respells: each name in camel case that specs/ or proofs/ declares, wherever it stands as a whole word (or a whole part of a name joined by
dashes): in .antt and .rt files, in must-fail edits, in README.md, docs/ and scripts/ (there also the names that port.py has respelled). Functions, fields and variants of src/ are in Rust's
spelling already, and no declared name stands in code outside clauses. A name that would fall together with another is listed, and
nothing is written: put the other one's new name into OTHER first. --check writes nothing.
"""
import os
import re
import sys

OTHER = {"first_below": "first_below_lem", "sum_over": "sum_over_lem"}
RESERVED = {"record", "ruleset", "data", "open", "use", "mod", "let", "in", "pub", "abbrev", "unfolding", "search", "grind", "simp", "omega", "ground", "assumption"}
PAGES = ("README.md", "docs", "scripts")


def files(exts):
    for folder, dirs, names in os.walk("crates"):
        dirs[:] = sorted(d for d in dirs if d != "out")
        yield from (os.path.join(folder, f) for f in sorted(names) if f.endswith(exts))


def pages():
    for p in PAGES:
        if os.path.isfile(p):
            yield p
        for f in sorted(os.listdir(p)) if os.path.isdir(p) else []:
            if f != "LANDINGS.md":  # its notes keep the names of their time
                yield os.path.join(p, f)


def declarations():
    """(name, whether at the left margin) of each declaration of the .antt files."""
    for p in files((".antt",)):
        for l in open(p, encoding="utf-8"):
            m = re.match(r"(\s*)(?:(?:abbrev|unfoldable|pub|opaque)\s+)*([^\s:(){},.=|◌]+)(?:\s+\([^=]*\))?\s*:\s", l)
            if m and not l.lstrip().startswith("--"):
                yield m[2], not m[1]


def snake(name):
    return re.sub(r"(?<=[a-z0-9])([A-Zℤ])", lambda m: "_" + m[1].lower(), name).lower()


def swap(table):
    words = "|".join(sorted(map(re.escape, table), key=len, reverse=True))
    pattern = re.compile(rf"(?<![\w'])({words})(?![\w'])")
    return lambda t: pattern.sub(lambda m: table[m[1]], t)


def main(argv):
    names, top = set(), set()
    for name, outer in declarations():
        names |= {p for p in name.split("-") if re.fullmatch(r"[a-z][a-z0-9]*[A-Zℤ][A-Za-z0-9'ℤ]*", p)}
        if outer:
            top.add(name)
    table = {n: snake(n) for n in names}
    bad = [f"{n} is a word of the language as {s}" for n, s in table.items() if s in RESERVED]
    bad += [f"{n} falls together with {s}" for n, s in table.items() if s in top and s not in OTHER]
    back = {}
    for n, s in table.items():
        back.setdefault(s, []).append(n)
    bad += [f"{' and '.join(v)} fall together as {s}" for s, v in back.items() if len(v) > 1]
    if bad or not table:
        print("\n".join(sorted(bad)) or "no name in camel case is declared")
        return 1
    first, then, changed = swap(OTHER), swap(table), 0
    declared = {OTHER.get(p, table.get(p, p)) for n, _ in declarations() for p in [n, *n.split("-")]}
    older = lambda t: re.sub(r"(?<![\w'])[a-z][a-z0-9]*[A-Z]\w*(?![\w'])", lambda m: snake(m[0]) if snake(m[0]) in declared else m[0], t)  # what port.py respelled
    for p in [*files((".antt", ".rt", ".edit")), *pages()]:
        with open(p, encoding="utf-8") as f:
            text = f.read()
        new = then(first(text) if p.endswith(".antt") else text)
        if not p.startswith("crates"):
            new = older(new)
        if new != text:
            changed += 1
            if "--check" not in argv:
                with open(p, "w", encoding="utf-8") as f:
                    f.write(new)
    print(f"{len(table)} names in {changed} files" + (" (nothing written)" if "--check" in argv else ""))
    return 0


if __name__ == "__main__":
    if any(a not in ("--check",) for a in sys.argv[1:]) or not os.path.isdir("crates"):
        print(__doc__)
        sys.exit(2)
    sys.exit(main(sys.argv[1:]))
