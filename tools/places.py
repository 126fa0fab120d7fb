#!/usr/bin/env python3
"""Lists the places in crates/*/src that may call for a newer form of the language.

usage: tools/places.py [FOLDER]     (the top of a checkout; the current folder if none is named)

One section for each kind of place, with its count. A row is a place to look at, and no verdict.
"""

import collections
import itertools
import pathlib
import re
import sys

TOP = pathlib.Path(sys.argv[1] if len(sys.argv) > 1 else ".")
FILES = sorted(TOP.glob("crates/*/src/**/*.rt"))

# what is found line by line: the kind of place, and the pattern
BY_LINE = [
    ("1a own enums", r"^\s*(pub(\([a-z]+\))? )?enum "),
    ("1b flags in structs, and calls that answer a flag and leave a value behind", r"^\s+(pub(\([a-z]+\))? )?[a-z_]+: bool,$|fn [a-z_]+\(&mut self[^)]*\) -> bool"),
    ("1c numbers that tell a kind or a refusal", r"-> (u8|\(u8|Option<\(u8|\(usize, Option<u8>)|^\s+(pub )?(kind|answer): (u8|\(u8)"),
    ("1d a Result or an Option that is taken apart to be put together again",
     r"Ok\(([a-z_()]*)\) => Ok\(\1\)|Some\([a-z]+\) => Some\(|Ok\([a-z_]*\) => (true|Some|None)|Ok\([a-z_]*(\(\))?\) => (\(0|None|Some)|Err\([a-zA-Z_]+\) => (None|false|\()|None => None,"),
    ("3 loops", r"^\s+(for|while|loop)\b"),
    ("4 equality, conversion and printing by hand",
     r"^impl.* (PartialEq|Eq|PartialOrd|Ord|Clone|Copy|Hash|fmt::Display|fmt::Debug) for|fn (equals\(&self|number\(self|from_number|word\(self|from_word|letter|layer\(self|case\(self|code\(root|told|shown|value\(answer|is\(answer|is_node|refused\(answer|number\(answer|new\(word|of_text)"),
    ("6 buffers with a length beside", r"^\s+(pub(\([a-z]+\))? )?(len|depth|[a-z]+_count): usize"),
    ("7 dyn values, function pointers and tables of them", r"\bdyn |: fn\(|\[fn"),
]


def by_line():
    for title, pattern in BY_LINE:
        rows = []
        for file in FILES:
            for number, line in enumerate(file.read_text().splitlines(), 1):
                if re.search(pattern, line) and not line.lstrip().startswith("//"):
                    rows.append(f"{file.relative_to(TOP)}:{number}: {line.strip()}")
        show(title, rows)


def show(title, rows):
    print(f"== {title}: {len(rows)}")
    for row in rows:
        print("  ", row)


def head_of(text):
    """The signature and the clauses of the function with which a text begins."""
    lines = []
    for line in text.splitlines():
        lines.append(line)
        clause = re.match(r"\s*(requires|ensures)\b", line)
        if line.endswith(";") or (not clause and line.endswith(("{", "{}"))):
            break
    return "\n".join(lines)


def functions():
    """Each function: its crate, file, name, parameters and clauses."""
    for file in FILES:
        text = file.read_text()
        for start in re.finditer(r"\bfn (\w+)", text):
            head = head_of(text[start.start():])
            inside = head[head.find("(") + 1:]
            params = re.findall(r"(?:^|[(,]\s*)(?:mut )?(\w+): ([^,)]+)", "(" + inside.split(") ->")[0].split("\n    requires")[0].split("\n    ensures")[0])
            clauses = re.findall(r"(?:requires|ensures)(?: \w+)? \{ (.*) \}", head)
            yield file.parts[-3] if file.parts[-2] == "src" else file.relative_to(TOP).parts[1], file, start.group(1), params, clauses


def travelling():
    """Facts that stand in the contracts of three or more functions, and pairs of parameters that do."""
    facts = collections.defaultdict(set)
    pairs = collections.defaultdict(set)
    for _, file, name, params, clauses in functions():
        crate = file.relative_to(TOP).parts[1]
        for clause in clauses:
            plain = re.sub(r"\.(old|new|now)\b", ".it", clause)
            facts[(crate, plain)].add(f"{file.stem}::{name}")
        for pair in itertools.combinations(sorted({f"{p}: {t.strip()}" for p, t in params if p != "rt"}), 2):
            pairs[(crate, pair)].add(f"{file.stem}::{name}")
    rows = [f"{crate}: {fact}  ({len(who)}: {', '.join(sorted(who))})" for (crate, fact), who in sorted(facts.items()) if len(who) > 2]
    show("5a facts in the contracts of three or more functions", rows)
    rows = [f"{crate}: {pair[0]}, {pair[1]}  ({len(who)}: {', '.join(sorted(who))})" for (crate, pair), who in sorted(pairs.items()) if len(who) > 2]
    show("5b pairs of parameters in three or more functions", rows)


def proofs():
    rows = []
    for crate in sorted(TOP.glob("crates/*")):
        answers = list(crate.glob("proofs/**/Answers.antt")) + list(crate.glob("proofs/**/Proof.antt"))
        count = sum(len(re.findall(r"^pub [^ ]+ : goal", f.read_text(), re.M)) for f in answers)
        lines = sum(len(f.read_text().splitlines()) for f in crate.glob("proofs/**/*.antt"))
        if lines:
            rows.append(f"{crate.name}: {count} answers in {len(answers)} files, {lines} lines of proofs in all")
    show("8 proofs, crate by crate", rows)


by_line()
travelling()
proofs()
