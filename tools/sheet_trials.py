#!/usr/bin/env python3
"""What crates/sheet_trials must print, worked out from document 01 and Wish 6 of document 02 alone.

usage: sheet_trials.py > crates/sheet_trials/stdout

"The sheet" and "Numbers that come back" are written here a second time, over strings
of the characters 0 and 1 and over sets of pairs, with nothing taken from the Rattle code or its
definitions. What the two share is only which sheets are tried: the sequence of numbers, how
sheets are drawn and damaged, and the digest.
"""

FIGURE = (32, 64, 10)
PATCH = (512, 2048, 20)
MODULUS = 2147483647
NO_LINE = 65535


# ---- document 01, "The sheet"

def bits_of(sheet):
    return "".join(f"{b:08b}" for b in sheet)


def number(bits):
    return int(bits, 2) if bits else 0


def take_apart(sheet):
    """The counts, the kinds and the lines of a sheet whose length is right, and the bits left over."""
    s = bits_of(sheet)
    n, m, rest = number(s[:10]), number(s[10:22]), s[22:]
    kinds, rest = [number(rest[6 * i:6 * i + 6]) for i in range(n)], rest[6 * n:]
    lines = []
    for j in range(m):
        f = rest[20 * j:20 * j + 20]
        lines.append((number(f[:2]), number(f[2:11]), number(f[11:])))
    return n, m, kinds, lines, rest[20 * m:]


def put_together(kinds, lines):
    s = f"{len(kinds):010b}{len(lines):012b}" + "".join(f"{k:06b}" for k in kinds)
    s += "".join(f"{t:02b}{a:09b}{b:09b}" for t, a, b in lines)
    while len(s) % 8:
        s += "0"
    return [int(s[i:i + 8], 2) for i in range(0, len(s), 8)]


# ---- document 01, "Numbers that come back", each with the number of the line that it is about (document 02, Wish 6)

def line_trouble(lines, n, ten):
    """14 or 15 (24 or 25) and the first line in trouble, 14 before 15 on one line; 0 where none is."""
    latest = None
    for at, (t, a, b) in enumerate(lines):
        if t > 2 or not (a < n and b < n) or not a < b:
            return ten + 4, at
        if latest is not None and not latest < (a, b):
            return ten + 5, at
        latest = (a, b)
    return 0, NO_LINE


def check(sheet, table):
    """The number and the line."""
    most_vertices, most_lines, ten = table
    if len(sheet) < 3:
        return ten + 1, NO_LINE
    head = bits_of(sheet[:3])
    n, m = number(head[:10]), number(head[10:22])
    if not (1 <= n <= most_vertices and m <= most_lines):
        return ten + 2, NO_LINE
    if len(sheet) != -(-(22 + 6 * n + 20 * m) // 8):
        return ten + 1, NO_LINE
    n, m, kinds, lines, filling = take_apart(sheet)
    if "1" in filling:
        return ten + 3, NO_LINE
    return line_trouble(lines, n, ten)


def reader(sheet, kinds, lines):
    """The number, the line and the counts; the two lists are changed in place."""
    trouble, at = check(sheet, PATCH)
    if trouble:
        return trouble, at, 0, 0
    n, m, ks, ls, _ = take_apart(sheet)
    if len(kinds) < n or len(lines) < 3 * m:
        return 33, NO_LINE, 0, 0
    kinds[:n] = ks
    lines[:3 * m] = [x for line in ls for x in line]
    return 0, NO_LINE, n, m


def writer(kinds, lines, out):
    """The number, the line and the byte count; the bytes are changed in place."""
    if len(lines) % 3:
        return 34, NO_LINE, 0
    n, m = len(kinds), len(lines) // 3
    if not (1 <= n <= 512 and m <= 2048):
        return 22, NO_LINE, 0
    if max(kinds) > 63:
        return 35, NO_LINE, 0
    threes = [tuple(lines[i:i + 3]) for i in range(0, len(lines), 3)]
    trouble, at = line_trouble(threes, n, 20)
    if trouble:
        return trouble, at, 0
    sheet = put_together(kinds, threes)
    if len(out) < len(sheet):
        return 33, NO_LINE, 0
    out[:len(sheet)] = sheet
    return 0, NO_LINE, len(sheet)


# ---- which sheets are tried, and the digest

def following(seed):
    return (seed * 1103515245 + 12345) % 2147483648


def below(seed, limit):
    return seed // 32768 % limit


class Part:
    """A part of the trials: its digest and its counts by number."""

    def __init__(self, start):
        self.digest, self.counts = start, {}

    def mix(self, *xs):
        for x in xs:
            self.digest = (self.digest % MODULUS * 48271 + x % MODULUS) % MODULUS

    def note(self, k):
        self.counts[k] = self.counts.get(k, 0) + 1

    def show(self):
        print(" ".join([str(self.digest)] + [f"{k}:{c}" for k, c in sorted(self.counts.items())]))

    def write(self, kinds, lines, out):
        k, at, count = writer(kinds, lines, out)
        self.note(k)
        self.mix(k, at, count, *out)

    def trial(self, sheet, k=40, l=200):
        small = len(sheet) <= 128
        kinds = [7001] * (k if small else 520)
        lines = [7002] * (l if small else 6200)
        out = [171] * (128 if small else 5520)
        f, p = check(sheet, FIGURE), check(sheet, PATCH)
        *r, n, m = reader(sheet, kinds, lines)
        for x in (f, p, r):
            self.note(x[0])
        self.mix(*f, *p, *r, n, m, *kinds, *lines)
        if r[0] == 0:
            self.write(kinds[:n], lines[:3 * m], out)

    def flips(self, sheet, skip=0):
        for i in range(0, 8 * len(sheet), 1 + skip):
            damaged = list(sheet)
            damaged[i // 8] ^= 128 >> i % 8
            self.trial(damaged)

    def cuts(self, sheet, skip=0):
        for k in range(0, len(sheet), 1 + skip):
            self.trial(sheet[:k])

    def lends(self, sheet):
        for k in range(40):
            self.trial(sheet, k, 200)
            self.trial(sheet, 40, 5 * k)


def draw_list(size, seed, limit):
    out = []
    for _ in range(size):
        seed = following(seed)
        out.append(below(seed, limit))
    return out, seed


def draw_lines(most, n, seed):
    out, a, b = [], 0, 0
    while len(out) < 3 * most:
        seed = following(seed)
        b += 1 + below(seed, 3)
        if b >= n:
            a += 1
            b = a + 1
            if b >= n:
                break
        seed = following(seed)
        out += [below(seed, 3), a, b]
    return out, seed


def benches():
    part = Part(1)
    for sheet in ("00 80 04 10 90 00 04", "00 40 00 50"):
        sheet = list(bytes.fromhex(sheet))
        part.trial(sheet)
        part.flips(sheet)
        part.cuts(sheet)
        part.lends(sheet)
    part.show()


def drawn():
    part, seed = Part(2), 11
    for _ in range(12):
        n = 1 + below(seed, 20)
        kinds, seed = draw_list(20, following(seed), 64)
        lines, seed = draw_lines(40, n, seed)
        sheet = [0] * 128
        _, _, count = writer(kinds[:n], lines, sheet)
        sheet = sheet[:count]
        part.trial(sheet)
        part.flips(sheet)
        part.cuts(sheet)
        part.lends(sheet)
    part.show()


def random():
    part, seed = Part(2), 11
    for _ in range(3000):
        s = following(seed)
        t = following(s)
        u = following(t)
        n, m = 1 + below(s, 8), below(t, 6)
        sheet, seed = draw_list(64, u, 256)
        head = f"{n:010b}{m:012b}" + f"{sheet[2]:08b}"[6:]
        sheet[:3] = [int(head[i:i + 8], 2) for i in (0, 8, 16)]
        part.trial(sheet[:(29 + 6 * n + 20 * m) // 8 + below(u, 8) // 7])
    part.show()


def noise():
    part, seed = Part(2), 11
    for _ in range(2000):
        s = following(seed)
        sheet, seed = draw_list(64, s, 256)
        part.trial(sheet[:below(s, 40)])
    part.show()


def written():
    part, seed = Part(2), 11
    for _ in range(4000):
        n = below(seed, 21)
        kinds, seed = draw_list(20, following(seed), 64)
        lines, seed = draw_lines(40, n, seed)
        count = len(lines)
        lines += [0] * (120 - count)
        t = following(seed)
        u = following(t)
        v = following(u)
        kinds[below(t, 20)] = below(u, 66)
        lines[below(u, 120)] = below(v, 20)
        count = max(0, count - below(t, 8) // 7)
        part.write(kinds[:n], lines[:count], [171] * below(v, 129))
        seed = v
    part.show()


def large():
    part = Part(6)
    kinds, seed = draw_list(512, following(15), 64)
    lines, seed = draw_lines(2048, 512, seed)
    sheet = [0] * 5507
    k, _, _ = writer(kinds, lines, sheet)
    part.note(k)
    part.trial(sheet)
    part.flips(sheet, 330)
    part.cuts(sheet, 418)
    part.show()


if __name__ == "__main__":
    for part in (benches, drawn, random, noise, written, large):
        part()
