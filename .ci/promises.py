#!/usr/bin/env python3
"""docs/PROMISES.md is never ahead of what is true: each name that it cites stands in the repository.

A name in backticks, in a row of a table, must be a definition or theorem of an .antt file, a function
of an .rt file, or, in the last column, the label of a must-fail edit. Exit status 1 where one is not.
"""
import glob
import re
import sys

names = set()
for path in glob.glob("crates/*/specs/**/*.antt", recursive=True) + glob.glob("crates/*/proofs/**/*.antt", recursive=True):
    for line in open(path, encoding="utf-8"):
        found = re.match(r"\s*(?:abbrev |unfoldable )?(?:pub )?(?:record |data )?([^\s:({]+)\s.*", line)
        if found and not line.lstrip().startswith(("--", "use ")):
            names.add(found.group(1))
for path in glob.glob("crates/*/src/*.rt"):
    names.update(re.findall(r"\b(?:fn|struct|enum|const) (\w+)", open(path, encoding="utf-8").read()))
edits = {re.sub(r".*/must-fail/(.*)\.edit", r"\1", p) for p in glob.glob("crates/*/must-fail/*.edit")}
missing = []
cited = set()
for number, line in enumerate(open("docs/PROMISES.md", encoding="utf-8"), 1):
    if not line.startswith("|"):
        continue
    for name in re.findall(r"`([^`]+)`", line):
        cited.add(name)
        if name not in names and name not in edits:
            missing.append(f"docs/PROMISES.md:{number}: `{name}` is not in the repository")
for label in sorted(edits - cited):
    missing.append(f"docs/PROMISES.md: must-fail edit {label} is not listed")
print("\n".join(missing) if missing else f"promises: {len(cited)} names cited, all there")
sys.exit(1 if missing else 0)
