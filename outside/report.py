#!/usr/bin/env python3
"""The benchmark's table and plot.

usage: report.py table TIMES...       Markdown: geometric means over each group of the median time of a call
       report.py plot SIZES SVG       cost of a call against lines and against tries

A line of TIMES: group, index, name, nanoseconds, places (-1: given up), tries. Exit status 1 where two
names do not list equally many places.
"""
import math
import sys


def rows(paths):
    for path in paths:
        for line in open(path, encoding="utf-8"):
            group, index, name, ns, places, tries = line.split()
            yield group, int(index), name, float(ns), int(places), int(tries)


def mean(values):
    return math.exp(sum(map(math.log, values)) / len(values))


def short(ns):
    for unit, size in (("s", 1e9), ("ms", 1e6), ("µs", 1e3)):
        if ns >= size:
            return f"{ns / size:.3g} {unit}"
    return f"{ns:.3g} ns"


def table(paths):
    times, places, given_up, names, groups = {}, {}, {}, [], []
    for group, index, name, ns, found, _ in rows(paths):
        names += [] if name in names else [name]
        groups += [] if group in groups else [group]
        times.setdefault((group, name), []).append(ns)
        if found < 0:
            given_up[group, name] = given_up.get((group, name), 0) + 1
        else:
            places.setdefault((group, index), {})[name] = found
    apart = {case: by_name for case, by_name in places.items() if len(set(by_name.values())) > 1}
    print("| group | cases | " + " | ".join(names) + " |")
    print("|---" * (len(names) + 2) + "|")
    for group in groups:
        cells = []
        first = mean(times[group, names[0]])
        for name in names:
            if (group, name) not in times:
                cells.append("")
                continue
            ns = mean(times[group, name])
            above = "over " if (group, name) in given_up else ""
            factor = "" if name == names[0] else f" ({ns / first:.2f}×)" if ns < 10 * first else f" ({ns / first:.0f}×)"
            cells.append(above + short(ns) + factor)
        print(f"| {group} | {len(times[group, names[0]])} | " + " | ".join(cells) + " |")
    for (group, name), count in given_up.items():
        print(f"\n{name} was given up on {count} of the {group} cases after 5 s each, which count as that.")
    for case, by_name in apart.items():
        print(f"DISAGREEMENT: places of {case}: {by_name}")
    return 1 if apart else 0


COLOURS = {"library": "#b5332e", "plain": "#2e5fb5"}


def even(values):
    """Marks of an axis from 0 by even steps, and where a value lies on it, from 0 to 1."""
    most = max(values)
    power = 10 ** math.floor(math.log10(most))
    step = next(k * power for k in (0.2, 0.5, 1, 2) if most / (k * power) <= 6)
    return [step * k for k in range(int(most / step) + 1)], lambda value: value / (1.05 * most)


def powers(values):
    """The same by powers of ten."""
    low, high = math.floor(math.log10(min(values))), math.ceil(math.log10(max(values)))
    return [10 ** k for k in range(low, high + 1)], lambda value: (math.log10(value) - low) / (high - low)


def panel(points, left, title, unit, scale):
    width, height, top = 340, 260, 40
    x_marks, x_at = scale([x for series in points.values() for x, _ in series])
    y_marks, y_at = scale([y for series in points.values() for _, y in series])
    across = lambda x: left + width * x_at(x)
    up = lambda y: top + height * (1 - y_at(y))
    out = [f'<rect x="{left}" y="{top}" width="{width}" height="{height}" fill="none" stroke="#888"/>',
           f'<text x="{left + width / 2}" y="24" text-anchor="middle" font-weight="bold">{title}</text>',
           f'<text x="{left + width / 2}" y="{top + height + 36}" text-anchor="middle">{unit}</text>']
    for mark in y_marks:
        out.append(f'<line x1="{left}" x2="{left + width}" y1="{up(mark):.1f}" y2="{up(mark):.1f}" stroke="#ddd"/>')
        out.append(f'<text x="{left - 6}" y="{up(mark) + 4:.1f}" text-anchor="end">{short(mark) if mark else 0}</text>')
    for mark in x_marks:
        out.append(f'<line x1="{across(mark):.1f}" x2="{across(mark):.1f}" y1="{top}" y2="{top + height}" stroke="#ddd"/>')
        out.append(f'<text x="{across(mark):.1f}" y="{top + height + 16}" text-anchor="middle">{mark:,.0f}</text>')
    for i, (name, series) in enumerate(points.items()):
        colour = COLOURS.get(name, "#555")
        path = " ".join(f"{across(x):.1f},{up(y):.1f}" for x, y in series)
        out.append(f'<polyline points="{path}" fill="none" stroke="{colour}" stroke-width="2"/>')
        out.append(f'<text x="{left + 10}" y="{top + 18 + 16 * i}" fill="{colour}">{name}</text>')
    return out


def plot(sizes, svg):
    lines, tries = {}, {}
    for what, value, name, ns, _, spent in rows([sizes]):
        if what == "lines":
            lines.setdefault(name, []).append((value, ns))
        elif what == "tries":
            tries.setdefault(name, []).append((spent, ns))
    body = panel(lines, 70, "An easy call, by patch lines", "lines of a patch of 512 vertices", even)
    body += panel(tries, 500, "A hard call, by tries", "tries", powers)
    text = ['<svg xmlns="http://www.w3.org/2000/svg" width="870" height="350" font-family="sans-serif" font-size="12">',
            '<rect width="870" height="350" fill="white"/>', *body, "</svg>"]
    open(svg, "w", encoding="utf-8").write("\n".join(text) + "\n")
    return 0


if len(sys.argv) >= 3 and sys.argv[1] == "table":
    sys.exit(table(sys.argv[2:]))
if len(sys.argv) == 4 and sys.argv[1] == "plot":
    sys.exit(plot(sys.argv[2], sys.argv[3]))
sys.exit(__doc__)
