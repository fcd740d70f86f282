"""Sheets and texts for the commands for people: the proved programs built and started, text told from sheets, kinds in words.

Not proved, only tested (.ci/examples). What a text or a sheet says is never worked out here: the
programs text_to_sheet and sheet_to_text do that, over the proved reader and writer. The one thing
that no program says is what stands on the line for which a sheet is refused; `Line` has its words.
"""
import functools
import os
import re
import subprocess
import sys

ROOT = os.path.dirname(os.path.dirname(os.path.abspath(__file__)))
# one byte more than the programs read is enough: longer files are refused by their length
MOST = 131_073


class Refused(Exception):
    """A message for the user, and the exit status: 1 where a sheet or text was refused, 2 otherwise."""

    def __init__(self, message, status=1):
        super().__init__(message)
        self.status = status


def rt(folder, *words):
    """The Rattle kit's command, in a folder; nothing on standard input."""
    try:
        return subprocess.run(["rt", *words], cwd=folder, capture_output=True, text=True, stdin=subprocess.DEVNULL)
    except FileNotFoundError:
        raise Refused("the Rattle kit's command rt is not there; README says what is needed", 2)


def sources(name):
    """The Rattle files of a crate and of those below it."""
    below = {}
    with open(os.path.join(ROOT, "crates.txt"), encoding="utf-8") as f:
        for line in f:
            crate, colon, rest = line.split("#")[0].partition(":")
            if colon:
                below[crate.strip()] = rest.split()
    due, found = [name], set()
    while due:
        crate = due.pop()
        if crate in below and crate not in found:
            found.add(crate)
            due += below[crate]
    for crate in found:
        for folder, _, files in os.walk(os.path.join(ROOT, "crates", crate, "src")):
            yield from (os.path.join(folder, f) for f in files)


@functools.lru_cache(None)
def built(name):
    """The program's path, after building and proving it where that is missing: rt run does both, and then runs it once."""
    folder = os.path.join(ROOT, "crates", name)
    path = os.path.join(folder, "out", name)

    def is_new():
        return os.path.exists(path) and all(os.path.getmtime(path) >= os.path.getmtime(f) for f in sources(name))

    if not is_new():
        print(f"building and proving the program {name}, which takes some minutes", file=sys.stderr)
        before = os.path.getmtime(path) if os.path.exists(path) else None
        done = rt(folder, "run")
        # what rt says when nothing had to be built anew, too, ends with the program's own run
        if "rt: running out/" in done.stderr + done.stdout and os.path.exists(path) and os.path.getmtime(path) == before:
            os.utime(path)
        if not is_new():
            last = "\n".join((done.stdout + done.stderr).splitlines()[-20:])
            raise Refused(f"{last}\nthe program {name} could not be built", 2)
    return path


def run(name, given=b"", folder=None):
    """What a program writes to standard output and standard error."""
    path = built(name)
    done = subprocess.run([path], input=given, cwd=folder, capture_output=True)
    if done.returncode:
        raise Refused(f"the program {name} ended with status {done.returncode}", 2)
    return done.stdout, done.stderr.decode()


def contents(path):
    if not os.path.exists(path):
        raise Refused(f"{path}: there is no such file", 2)
    if not os.path.isfile(path):
        raise Refused(f"{path}: not a file", 2)
    if not os.access(path, os.R_OK):
        raise Refused(f"{path}: may not be read", 2)
    with open(path, "rb") as f:
        return f.read(MOST)


def is_text(data):
    """Whether no byte is a control byte other than tab, newline and return."""
    return all(byte in b"\t\n\r" or (byte >= 32 and byte != 127) for byte in data)


def sheet_bytes(path):
    """A file's sheet. What the reader takes is a sheet; of the rest, what has text's bytes only is text.

    A sheet that the reader refuses comes back as it is: the search names what is wrong with it.
    """
    data = contents(path)
    text, _ = run("sheet_to_text", data)
    if text or not is_text(data):
        return data
    sheet, message = run("text_to_sheet", data)
    if not sheet:
        raise Refused(f"{path}: {message.strip()}")
    return sheet


class Line:
    """A line of a sheet whose length is right, by its number from 0; as words, what the sheet's text would say."""

    def __init__(self, sheet, number):
        bits = "".join(f"{byte:08b}" for byte in sheet)
        self.sheet, self.number, self.vertices = sheet, number, int(bits[:10], 2)
        at = 22 + 6 * self.vertices + 20 * number
        self.type, self.first, self.second = (int(bits[at + a:at + b], 2) for a, b in ((0, 2), (2, 11), (11, 20)))

    def __str__(self):
        if self.type == 3:
            return f"of type 3 with ends {self.first} and {self.second}"
        return f"{('panel', 'cable', 'normalled')[self.type]} {self.first} {self.second}"

    @property
    def before(self):
        return Line(self.sheet, self.number - 1)


def text_of(sheet):
    """A sheet's text; refused with the program's message and, where that names a line, what stands there."""
    text, message = run("sheet_to_text", sheet)
    if text:
        return text
    message = message.strip()
    named = re.match(r"(24|25): line (\d+) of the sheet,", message)
    if named:
        line = Line(sheet, int(named[2]))
        beside = f"the vertex count is {line.vertices}" if named[1] == "24" else f"the one before it is {line.before}"
        message += f"; it is {line}, and {beside}"
    raise Refused(message)


class Sheet:
    """The kinds, and the lines as (type in words, first, second)."""

    def __init__(self, sheet):
        text = text_of(sheet)
        self.kinds, self.lines = [], []
        for line in text.decode().splitlines():
            head, *rest = line.split()
            if head == "vertex":
                self.kinds.append((rest[1], int(rest[2])))
            else:
                self.lines.append((head, int(rest[0]), int(rest[1])))


def command(name, main):
    """Runs a command's main on its arguments; a refusal is one message on standard error."""
    try:
        main(sys.argv[1:])
    except Refused as refused:
        print(f"{name}: {refused}", file=sys.stderr)
        sys.exit(refused.status)
    except BrokenPipeError:
        os.dup2(os.open(os.devnull, os.O_WRONLY), sys.stdout.fileno())
