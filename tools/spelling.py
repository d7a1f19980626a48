#!/usr/bin/env python3
"""Spells the repository's own definitions and lemmas in snake case: `shelf-at` becomes `shelf_at`.

Run once, at the top, after the toolchain's own script. Names of the standard library, names that the toolchain
makes (goals, calls, loops, cases) and names with a type in them keep their spelling, as do strings and comments.
"""
import glob
import re

NAME = r"[A-Za-z][\w']*(?:-[\w']+)+"
LIBRARY = r"use (?:Rattle\.std|mathlib|native|lib|Prim|borrow|denote|mir)\.[^\s{]*\{([^}]*)\}"
# what would fall together with the function of the same file
APART = {"arc-words": "words_of_arc"}


def files():
    return sorted(p for kind in ("rt", "antt") for p in glob.glob("crates/**/*." + kind, recursive=True) if "/out/" not in p)


def text(path):
    return open(path, encoding="utf-8").read()


def own_names(bodies):
    """Names with a dash that a spec or a lemma file defines: definitions, fields, constructors, local names, aliases."""
    defined, others = set(), set()
    for path, body in bodies.items():
        for group in re.findall(LIBRARY, body):
            others.update(item.split(" as ")[0].strip() for item in group.split(","))
        others.update(re.findall(r"goal\.(%s)" % NAME, body))
        defined.update(re.findall(r" as (%s)" % NAME, body))
        if path.endswith(".antt"):
            defined.update(re.findall(r"^\s*(?:(?:abbrev|pub|record|data) )*(%s)(?: [^:=\n]*)? :" % NAME, body, re.M))
            defined.update(re.findall(r"\b(%s) = " % NAME, body))
            defined.update(re.findall(r"(?:λ|let|\(|\{|, )\s*(%s)(?=[ .:)}])" % NAME, body))
            defined.update(re.findall(r"^\s*(?:pub )?(%s)(?: [\w'{}()\[\], ∷.\-]*)? =(?= |$)" % NAME, body, re.M))
    return {n for n in defined - others if not re.search(r"(^|-)[A-Z]", n) and not re.match(r"(else|then|returns|if|in)-", n)}


def main():
    plain = {p: re.sub(r"^\s*(--|//).*$", "", text(p), flags=re.M) for p in files()}
    names = own_names(plain)
    pattern = re.compile(r"(?<![\w'·\-])(%s)(?![\w'·+\-])" % "|".join(sorted(map(re.escape, names), key=len, reverse=True)))
    spell = lambda m: APART.get(m.group(1), m.group(1).replace("-", "_"))
    keep = re.compile(r'("(?:[^"\\]|\\.)*"|^\s*(?:--|//).*$)', re.M)
    for path in plain:
        old = text(path)
        new = "".join(part if keep.fullmatch(part) else pattern.sub(spell, part) for part in keep.split(old))
        if new != old:
            open(path, "w", encoding="utf-8").write(new)
    print("%d names" % len(names))


if __name__ == "__main__":
    main()
