#!/usr/bin/env python3
"""Prints the places in crates/*/src that docs/DESIGN-PASS.md counts, a list for each of its points, in this tree or, given a
commit, in that one. It goes by text: what it finds is a place to look at, not a fault.

    python3 tools/places.py [COMMIT] [-c]      -c: counts alone
"""
import re
import subprocess
import sys
from collections import defaultdict

arguments = [a for a in sys.argv[1:] if a != "-c"]
counts_only = "-c" in sys.argv
commit = arguments[0] if arguments else None


def git(*what):
    return subprocess.run(["git", *what], capture_output=True, text=True, check=True).stdout


def files():
    """The sources, name and text."""
    listed = git("ls-tree", "-r", "--name-only", commit) if commit else git("ls-files", "-co", "--exclude-standard")
    for name in sorted(listed.splitlines()):
        if re.fullmatch(r"crates/\w+/src/.*\.rt", name):
            yield name, git("show", f"{commit}:{name}") if commit else open(name, encoding="utf-8").read()


def without_comments(text):
    return re.sub(r"(?m)//.*$", "", text)


def functions(text):
    """Each function: its line, name, signature with clauses, and body."""
    for m in re.finditer(r"(?m)^( *)(?:pub(?:\(\w+\))? )?(?:const )?(?:extern \"C\" )?fn (\w+)", text):
        indent = m.group(1)
        end = text.find(f"\n{indent}}}", m.end())
        if end < 0:
            continue
        whole = text[m.start():end]
        brace = re.search(rf"(?m)^{indent}\{{$|\) (?:-> [^{{\n]+ )?\{{$", whole)
        at = brace.end() if brace else whole.find("{")
        yield text.count("\n", 0, m.start()) + 1, m.group(2), whole[:at], whole[at:]


def clauses(signature):
    """The facts of a signature's clauses, parts of a product apart."""
    for m in re.finditer(r"(?m)^\s*(?:requires|ensures)(?: \w+)? \{ (.*) \}$", signature):
        yield from (p.strip() for p in re.split(r" × (?![^()]*\))", m.group(1)))


def normal(fact):
    """A fact with its own names left out."""
    return re.sub(r"\b[a-z]\w*(?=\.(?:now|old|new|0)\b)|\bresult\b", "_", fact).strip("()")


found = defaultdict(list)
facts = defaultdict(list)
travel = defaultdict(list)
shapes = defaultdict(list)
for name, raw in files():
    text = without_comments(raw)

    def place(point, offset, what):
        found[point].append((name, text.count("\n", 0, offset) + 1, " ".join(what.split())))

    # 1: own enums in which a case says nothing or stopped; answers that are a number or a flag beside values; codes that stand for
    # "none"; numbers tested for a kind, a type or a refusal
    for m in re.finditer(r"(?m)^(?:pub(?:\(crate\))? )?enum (\w+) \{\n((?:.|\n)*?)^\}", text):
        cases = re.findall(r"(?m)^    (\w+)(\(|,| \{)", m.group(2))
        if any(c[1] == "(" for c in cases) and any(c[1] == "," for c in cases) and len(cases) <= 4 and not re.search(r"Refusal|Fault", m.group(1)):
            place("1", m.start(), f"enum {m.group(1)}")
    for m in re.finditer(r"(?m)^(?:pub(?:\(crate\))? )?struct (\w+)[^;{]*\{\n((?:.|\n)*?)^\}", text):
        if re.search(r"(?m)^    (?:pub )?(?:number|reached|kept): ", m.group(2)):
            place("1", m.start(), f"struct {m.group(1)}")
    for m in re.finditer(r"\b(?:65535|1000000|60000|999|NONE)\b(?=;|,?\n| ?\})|=> 3\b|\b3\n\}|\b64\n\}", text):
        line = text[text.rfind("\n", 0, m.start()) + 1:text.find("\n", m.start())]
        if not re.search(r"allowance|ensures", line):
            place("1", m.start(), line)
    for m in re.finditer(r"\b(?:\w+\.)?(?:number|sort|part|which|head|class\([^)]*\)|lowest|choice)\b\)? (?:==|!=) \d+|if (?:kind|sort) (?:<|==) \d+|(?m:^ +\d+ => )|return (?:\w+\.)?ten \+ \d", text):
        if not re.search(r"=> Ok\(", text[m.start():text.find("\n", m.start())]):
            place("1", m.start(), text[text.rfind("\n", 0, m.start()) + 1:text.find("\n", m.start())])

    # 3: loops that count
    for m in re.finditer(r"\b(?:while|loop)\b (?!let)[^\n]*\{", text):
        place("3", m.start(), m.group(0))

    for line, function, signature, body in functions(text):
        inner = " ".join(body.split())
        # 4: a function, not a method, that is one conversion, a comparison or a copy of fields
        if "self" not in signature and re.fullmatch(r"\{? ?\(?\w+(?:\.\w+)? as \w+\)? ?\}?", inner) or re.fullmatch(r"(?:equal|same_row|same_counts|number_of|refusal|refused|unread|unwritten)", function):
            found["4"].append((name, line, f"fn {function}"))
        # 4: printing by hand, label and number
        if re.search(r"&impl E?[Pp]rint", signature) and re.fullmatch(r"(?:tell\w*|print|print_count|end_line|say_line)", function):
            found["4"].append((name, line, f"fn {function}"))
        # 5: facts said again, parameters together
        for fact in set(normal(f) for f in clauses(signature)):
            if re.search(r"\.|≤|<|≡", fact) and not fact.startswith(("_ ≡", "verdict_of _")):
                facts[fact].append((name, line, function))
        parameters = re.findall(r"(\w+): (?!Self|&self)", re.split(r"\)(?: ->|\n|$)", signature)[0])
        for i in range(len(parameters)):
            for j in range(i + 1, len(parameters)):
                for k in range(j + 1, len(parameters)):
                    travel[tuple(parameters[i:i + 1] + parameters[j:j + 1] + parameters[k:k + 1])].append((name, line, function))
        # 6: an array with a count beside it
        if re.search(r"\w+: &(?:mut )?\[\w+; \d+\]", signature) and re.search(r"\b(?:n|m|count|size|k|l|o|e): usize", signature):
            found["6"].append((name, line, f"fn {function}: an array and a count"))
        # 7: a step chosen by a number
        if re.search(r"\bpart: u\d+|\bwhich: u\d+", signature):
            found["7"].append((name, line, f"fn {function}"))
        # 2: bodies that are the same but for names and numbers
        shape = re.sub(r"\b\d[\d_]*\b", "0", re.sub(r"\b[a-z]\w*\b", lambda w: w.group(0) if w.group(0) in ("if", "else", "return", "while", "for", "match", "let", "mut") else "x", inner))
        if len(shape) > 60:
            shapes[shape].append((name, line, f"fn {function}"))
    for m in re.finditer(r"(?m)^(?:pub(?:\(crate\))? )?struct (\w+)[^;{]*\{\n((?:.|\n)*?)^\}", text):
        if re.search(r": \[", m.group(2)) and re.search(r"\b(?:n|count|k): usize", m.group(2)):
            place("6", m.start(), f"struct {m.group(1)}: arrays and a count")
        fields = re.findall(r"(\w+): ([^,\n]+)", m.group(2))
        shapes["fields " + str([f[0] for f in fields])].append((name, text.count("\n", 0, m.start()) + 1, f"struct {m.group(1)}"))

for shape, places in shapes.items():
    if len(places) > 1:
        found["2"].extend((n, l, f"{w} ({len(places)} alike)") for n, l, w in places)
for fact, places in facts.items():
    if len({p[2] for p in places}) >= 3:
        found["5"].append((f"{len(places)} functions", 0, fact))
for names, places in travel.items():
    if len(places) >= 5:
        found["5"].append((f"{len(places)} functions", 0, "parameters " + ", ".join(names)))
for name, raw in files():
    for m in re.finditer(r"pub fn in_run", raw):
        found["6"].append((name, raw.count("\n", 0, m.start()) + 1, "fn in_run: a sorted list searched by hand"))

titles = {"1": "own Option or Result, flags, numbers for kinds and refusals", "2": "twins", "3": "loops by while", "4": "by hand: conversion, equality, printing", "5": "facts and parameters said again", "6": "buffers with a length, parallel arrays", "7": "a switch on which step"}
for point in "1234567":
    places = sorted(set(found[point]))
    print(f"{point}. {titles[point]}: {len(places)}")
    if not counts_only:
        for n, l, what in places:
            print(f"   {n}:{l}: {what}")
