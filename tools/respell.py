#!/usr/bin/env python3
"""Spells this repository's own definitions and lemmas in snake case, by tools/respell.tsv: run once, after port.py.

Whole names alone, in the texts of crates/ (.rt, .antt, must-fail edits) and, in backticks, in docs/, README.md and outside/.
With --table the table is made anew from what the .antt files declare, and printed; it is committed as it was when it ran.
Where two names would fall together the lemma gets `_lem`, and those pairs are written out below.
"""
import collections
import glob
import re
import sys

NAME = r'[^\s(){}.;,@"«»`]+'
TABLE = "tools/respell.tsv"
# what falls together: a lemma's name beside a definition's, or beside a name of the logic that the same files import
BESIDE = {
    "line_marked": "line_marked_lem", "laid_out": "laid_out_lem", "rows_in": "rows_in_lem", "kind_fits": "kind_fits_lem", "no_line": "no_line_case",
    "number-of": "number_of_lem", "run-at": "run_at_lem", "bit-and": "bit_and_lem", "bit-or": "bit_or_lem", "bit-xor": "bit_xor_lem",
}


def texts():
    return sorted(glob.glob("crates/*/specs/**/*.antt", recursive=True) + glob.glob("crates/*/proofs/**/*.antt", recursive=True))


def snake(name):
    return re.sub(r"(?<=[a-z0-9])([A-Z])(?=[a-z0-9]|$|-|_|')", lambda m: "_" + m.group(1).lower(), name).replace("-", "_")


def table():
    declared = collections.defaultdict(list)
    for path in texts():
        for line in open(path, encoding="utf-8"):
            if line.lstrip().startswith(("--", "use ", "pub use", "open ", "mod ", "pub mod")):
                continue
            found = re.match(rf"\s*(?:abbrev |unfoldable )?(?:pub )?(?:record |data )?({NAME})(?:\s*\{{[^{{}}]*\}})*\s*(?:\([^()]*\)\s*)*:(?=\s|$)(.*)", line)
            if found:
                declared[found.group(1)].append((path, found.group(2)))
    brought = set()
    for path in texts():
        for names in re.findall(r"use (?:Rattle\.std|Prim|mathlib|lib|native|borrow)\b[^\s{;]*\.\{([^}]*)\}", open(path, encoding="utf-8").read()):
            brought.update(name.strip().split(" as ")[0] for name in names.split(","))
    rows = dict(BESIDE)
    for name, where in declared.items():
        if name[0].isupper() or not ("-" in name or re.search("[a-z0-9][A-Z]", name)) or name in rows:
            continue
        # the parts of a function's proof are named by the check
        if all("/Proof.antt" in p and re.search(r"\btie\.|statement|\brules\.|\bneeds\.|-lts\.", kind) for p, kind in where):
            continue
        # std's and the logic's names stay, also where a lemma of ours has the same
        if name not in brought:
            rows[name] = snake(name)
    fall = collections.defaultdict(list)
    for old, new in rows.items():
        fall[new].append(old)
    for new, olds in fall.items():
        if len(olds) > 1:
            for old in olds:
                if "-" in old:
                    rows[old] = new + "_lem"
    return rows


def main():
    if "--table" in sys.argv:
        rows = table()
        print("\n".join(f"{old}\t{rows[old]}" for old in sorted(rows)))
        return
    rows = dict(line.rstrip("\n").split("\t") for line in open(TABLE, encoding="utf-8"))
    word = re.compile(NAME)

    def turn(text):
        return word.sub(lambda m: rows.get(m.group(0), m.group(0)), text)

    for path in texts() + sorted(glob.glob("crates/*/src/*.rt") + glob.glob("crates/*/must-fail/*.edit")):
        old = open(path, encoding="utf-8").read()
        if path.endswith(".antt"):
            new = turn(old)
        else:
            # Rust has names of its own that are spelled as a row, with plain underscores; a camel-case or dashed one is antt's
            new = word.sub(lambda m: rows.get(m.group(0), m.group(0)) if "_" not in m.group(0) else m.group(0), old)
        if new != old:
            open(path, "w", encoding="utf-8").write(new)
    for path in sorted(glob.glob("docs/**/*.md", recursive=True) + glob.glob("README.md") + glob.glob("outside/*.md")):
        old = open(path, encoding="utf-8").read()
        new = re.sub(r"`([^`\n]+)`", lambda m: "`" + turn(m.group(1)) + "`", old)
        if new != old:
            open(path, "w", encoding="utf-8").write(new)


main()
