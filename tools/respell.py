#!/usr/bin/env python3
"""Respells the repository's own definitions and lemmas: usage: python3 tools/respell.py [FOLDER]

Each name that a file of specs/ or proofs/ declares with a dash (a definition, a lemma, a constructor, a field of a
record, a section) gets underscores, and upper camel case if it begins with a capital; it is turned wherever it stands, in
specs/, proofs/, the ghost lines and clauses of src/, and must-fail/. Names that rt generates (goals, their facts, and what
is answered at `goal.NAME`) keep their dashes, and so do names of the library. The script stops where two names fall
together. It is run once, after the respelling of the toolchain's own words.
"""
import glob
import os
import re
import sys

DECLARED = re.compile(
    r"(?m)^\s*(?:(?:abbrev|unfoldable|pub|data|record|ruleset) )*([A-Za-z][^\s(){};,.]*) (?:\([^=]*?\) |\{[^=]*?\} )*: (.*)$"
)
TOKEN = re.compile(r"[^\s(){}\[\]:;,.λ→≡⌜⌝\"`]+")


def files(root):
    for pattern in ("specs/**/*.antt", "proofs/**/*.antt", "src/**/*.rt", "must-fail/*.edit"):
        yield from sorted(glob.glob(os.path.join(root, "crates", "*", pattern), recursive=True))


def declared(root):
    """The names with a dash that specs/ and proofs/ declare, but for answers to goals."""
    own, answers = set(), set()
    for path in files(root):
        if not path.endswith(".antt"):
            continue
        with open(path, encoding="utf-8") as f:
            text = f.read()
        for name, kind in DECLARED.findall(text):
            if "-" in name and not name.startswith("--"):
                (answers if kind.startswith("goal.") else own).add(name)
    return own - answers


def respelled(name):
    if name[0].isupper():
        return "".join(part[0].upper() + part[1:] for part in name.split("-"))
    return name.replace("-", "_")


def main(root):
    own = declared(root)
    turned = {}
    for name in sorted(own):
        new = respelled(name)
        if new in turned.values():
            raise SystemExit(f"respell: {name} falls together with another name, {new}")
        turned[name] = new
    count = 0
    for path in files(root):
        with open(path, encoding="utf-8") as f:
            text = f.read()
        new = TOKEN.sub(lambda m: turned.get(m.group(), m.group()), text)
        if new != text:
            with open(path, "w", encoding="utf-8") as f:
                f.write(new)
            count += 1
    print(f"respell: {len(turned)} names in {count} files")


if __name__ == "__main__":
    main(sys.argv[1] if len(sys.argv) > 1 else ".")
