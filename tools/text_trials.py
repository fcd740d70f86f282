#!/usr/bin/env python3
"""What crates/text_trials must print.

usage: text_trials.py > crates/text_trials/stdout

The text form is written here a second time, from docs/TEXT.md alone: lines, comments and blanks by
Python's own splitting, words by their spelling, the writer's refusals from document 01. It shares
with the program only which sheets and which damage are tried (the sequence of numbers, how sheets
are drawn) and the digest.
"""
import re

WORDS = [("module", 0, 15), ("output", 16, 31), ("input", 32, 59), ("blank", 60, 63)]
TYPES = ["panel", "cable", "normalled"]


def kind_word(kind):
    return next(word for word, low, high in WORDS if low <= kind <= high)


def text_of(kinds, lines):
    items = [f"vertex {i} {kind_word(k)} {k}\n" for i, k in enumerate(kinds)]
    items += [f"{TYPES[t]} {a} {b}\n" for t, a, b in lines]
    return "".join(items).encode()


def number(word):
    return int(word) if re.fullmatch(rb"[0-9]+", word) and int(word) <= 65535 else None


def item(words):
    """An item's numbers, or the number of what is wrong with it."""
    head, rest = words[0].decode("latin-1"), words[1:] + [b""] * 4
    if head == "vertex":
        at = number(rest[0])
        if at is None:
            return 72
        named = [(low, high) for word, low, high in WORDS if word == rest[1].decode("latin-1")]
        if not named:
            return 73
        kind = number(rest[2])
        if kind is None:
            return 72
        if kind <= 63 and not named[0][0] <= kind <= named[0][1]:
            return 74
        return 75 if len(words) > 4 else ("vertex", at, kind)
    if head not in TYPES:
        return 71
    a, b = number(rest[0]), number(rest[1])
    if a is None or b is None:
        return 72
    return 75 if len(words) > 3 else (TYPES.index(head), a, b)


def refusal(text):
    """0, or the number of the refusal; and the line of the text."""
    rows = text.split(b"\n")
    if not rows[-1]:
        rows.pop()
    kinds, lines = [], []
    for row, content in enumerate(rows, 1):
        words = [w for w in re.split(rb"[ \t\r]+", content.split(b"#")[0]) if w]
        if not words:
            continue
        found = item(words)
        if isinstance(found, int):
            return found, row
        if found[0] == "vertex":
            if found[1] != len(kinds):
                return 76, row
            if len(kinds) == 512:
                return 22, row
            kinds.append((found[2], row))
        else:
            if len(lines) == 2048:
                return 22, row
            lines.append((found, row))
    last = max(1, len(rows))
    if not kinds:
        return 22, last
    for kind, row in kinds:
        if kind > 63:
            return 35, row
    before = (-1, -1)
    for (_, a, b), row in lines:
        if not a < b < len(kinds):
            return 24, row
        if not before < (a, b):
            return 25, row
        before = (a, b)
    return 0, last


def follow(seed):
    return (seed * 1103515245 + 12345) % 2147483648


def below(seed, limit):
    return seed // 32768 % limit


def mix(digest, x):
    return (digest % 2147483647 * 48271 + x % 2147483647) % 2147483647


class Trials:
    def __init__(self, seed):
        self.seed, self.digest, self.sheets, self.refused = seed, 1, 0, 0

    def draw(self):
        self.seed = follow(self.seed)
        return self.seed

    def sheet(self, n, gap):
        kinds = [below(self.draw(), 64) for _ in range(512)][:n]
        lines, first, second = [], 0, 0
        while len(lines) < 2048:
            second += 1 + below(self.draw(), gap)
            if second >= n:
                first += 1
                second = first + 1
            if second >= n:
                break
            lines.append((below(self.draw(), 3), first, second))
        return kinds, lines

    def trial(self, n, gap):
        text = text_of(*self.sheet(n, gap))
        assert refusal(text)[0] == 0
        self.sheets += 1
        for byte in text:
            self.digest = mix(self.digest, byte)
        for _ in range(20):
            at = self.draw() // 32 % len(text)
            letter = b" \t\r\n#vertxpanlcbiomdku0123456789A,"[below(self.draw(), 34)]
            number, row = refusal(text[:at] + bytes([letter]) + text[at + 1:])
            self.refused += number != 0
            self.digest = mix(mix(self.digest, number), row)

    def one(self, i):
        a, b = self.draw(), self.draw()
        self.trial(below(a, 40 if i % 8 else 512) + 1, below(b, 40) + 1)


def main():
    trials = Trials(20261115)
    print("seed", trials.seed)
    for i in range(160):
        trials.one(i)
    trials.trial(512, 2)
    print("sheets the same", trials.sheets)
    print("texts the same", trials.sheets)
    print("damaged texts refused", trials.refused)
    print("digest", trials.digest)


if __name__ == "__main__":
    main()
