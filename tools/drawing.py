"""A patch or a figure as Graphviz DOT, and as SVG or PNG where Graphviz is installed. Not proved, only tested.

Modules are boxes; output jacks point to the right and input jacks are round, inputs left of their
module and outputs right of it; blank panels are dotted boxes. Cables are solid, normalled lines
dashed, panel lines thin. A place is filled, each of its vertices with u and its figure number, and
the patch lines that the figure's lines lie on are coloured.
"""
import os
import shutil
import subprocess

from sheets import Refused

SHAPES = {
    "module": "shape=box, margin=\"0.12,0.06\"",
    "output": "shape=cds, margin=\"0.12,0.03\", fontsize=9, height=0.3",
    "input": "shape=ellipse, margin=\"0.02,0.02\", fontsize=9, height=0.3",
    "blank": "shape=box, style=dotted",
}
LINES = {"panel": "penwidth=0.5, color=gray40", "cable": "penwidth=1.4", "normalled": "penwidth=1.4, style=dashed"}
# from left to right a line goes out of a module, into a jack, into a module
ORDER = {("module", "input"), ("output", "module"), ("input", "output")}


def dot(sheet, row=(), figure=None):
    """The drawing of a Sheet; `row` is a place in it, entry u the image of figure vertex u."""
    image = {v: u for u, v in enumerate(row)}
    lain = set()
    for _, a, b in figure.lines if figure else ():
        lain.add(tuple(sorted((row[a], row[b]))))
    out = ["digraph sheet {", "  rankdir=LR; nodesep=0.12; ranksep=0.35;", "  node [fontname=Helvetica, fontsize=11, width=0, height=0]; edge [dir=none];"]
    for v, (word, kind) in enumerate(sheet.kinds):
        label = f"{v}\\n{word} {kind}" if word in ("module", "blank") else f"{v} {word[:-3] if word.endswith('put') else word} {kind}"
        style = SHAPES[word]
        if v in image:
            label += f"\\nu{image[v]}" if word in ("module", "blank") else f" u{image[v]}"
            style += ", style=filled, fillcolor=\"#ffd894\", color=\"#a04000\""
        out.append(f"  {v} [label=\"{label}\", {style}];")
    for sort, a, b in sheet.lines:
        style = LINES[sort]
        if (a, b) in lain:
            style = style.replace(", color=gray40", "") + ", color=\"#d05000\""
        if (sheet.kinds[a][0], sheet.kinds[b][0]) in ORDER:
            a, b = b, a
        out.append(f"  {a} -> {b} [{style}];")
    out.append("}")
    return "\n".join(out) + "\n"


def save(path, drawing):
    """The drawing as the file's ending says: .dot, .svg or .png."""
    ending = os.path.splitext(path)[1]
    if ending not in (".dot", ".svg", ".png"):
        raise Refused(f"{path}: a drawing ends in .dot, .svg or .png", 2)
    try:
        if ending == ".dot":
            with open(path, "w", encoding="utf-8") as f:
                f.write(drawing)
            return
        if not shutil.which("dot"):
            raise Refused(f"{path}: Graphviz is not installed (Debian: apt-get install graphviz); .dot needs none", 2)
        with open(path, "wb") as f:
            subprocess.run(["dot", "-T" + ending[1:]], input=drawing.encode(), stdout=f, check=True)
    except OSError as error:
        raise Refused(f"{path}: {error.strerror}", 2)
