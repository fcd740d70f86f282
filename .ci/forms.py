#!/usr/bin/env python3
"""docs/FORMS.md is never ahead of the code: each item that its table names stands in the file named, and has the line given.

An item is a function, struct or enum of an .rt file, or a definition of an .antt file; the line is compared without
regard to layout. With -l the line's number is printed for each. Exit status 1 where an item or a line is gone.
"""
import re
import sys


def extent(lines, name, antt):
    """The item's first line and the one after its last: an .rt item, a method too, ends with a brace under its first column or on its first line, an .antt one with an empty line."""
    start = rf"(abbrev |unfoldable )*(pub )?{re.escape(name)} :" if antt else rf"( *)(pub )?(fn|struct|enum) {re.escape(name)}\b"
    for i, line in enumerate(lines):
        if found := re.match(start, line):
            for j in range(i, len(lines)):
                if lines[j] == "" if antt else lines[j].startswith(found.group(1) + "}") or (j == i and line.endswith(";")):
                    return i, j + 1
            return i, len(lines)
    return None


def flat(text):
    return " ".join(text.split())


gone, where, places, items = [], [], 0, set()
for number, row in enumerate(open("docs/FORMS.md", encoding="utf-8"), 1):
    cells = [c.strip() for c in row.strip().strip("|").split("|")]
    if not row.startswith("|") or len(cells) != 5 or cells[0] == "place" or cells[0].startswith("---"):
        continue
    places += cells[0] != ""
    if not cells[2].startswith("`"):
        continue
    path, name, shown = (c.strip("`") for c in cells[2:])
    items.add((path, name))
    try:
        lines = open(path, encoding="utf-8").read().split("\n")
    except OSError:
        gone.append(f"docs/FORMS.md:{number}: {path} is gone")
        continue
    found = extent(lines, name, path.endswith(".antt"))
    if not found:
        gone.append(f"docs/FORMS.md:{number}: {name} is not in {path}")
    elif flat(shown) not in flat(" ".join(lines[slice(*found)])):
        gone.append(f"docs/FORMS.md:{number}: {name} of {path} has no {shown}")
    else:
        at = next((i for i in range(*found) if flat(shown) in flat(lines[i])), found[0])
        where.append(f"{path}:{at + 1}: {name}: {shown}")
if "-l" in sys.argv:
    print("\n".join(where))
print("\n".join(gone) if gone else f"forms: {places} places, {len(items)} items, all there")
sys.exit(1 if gone or not items else 0)
