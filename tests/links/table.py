"""The table of folders and logs: its rows, and what the words in them stand for."""

import base64
import dataclasses
import os
import re
from pathlib import Path

TABLE = Path(__file__).resolve().parent / "links.table"

# The map that rows are about: line 1, column 1 of the script is line 11, column 3 of the source.
MAP = '{"version":3,"sources":["%s"],"mappings":"AAUE"}'

# What tells a line of the table from the others is its first word, and this the words that there are.
WORDS = "section row file map link pipe folder give option < > stays says leaves differs without =".split()
ESCAPE = re.compile(r"\\(?:([nrtvfs\\])|x([0-9a-f]{2})|u([0-9a-f]{4})|(.?))", re.DOTALL)
PLAIN = {"n": "\n", "r": "\r", "t": "\t", "v": "\v", "f": "\f", "s": " ", "\\": "\\"}
PLACEHOLDER = re.compile(r"<(temp|times (\d+) (.*?)|base64|[a-z][a-z0-9]*(?:-[a-z0-9]+)+)>", re.DOTALL)


class Wrong(Exception):
    """What is wrong with the table, and in which line."""


@dataclasses.dataclass
class Answer:
    """What a tool has to write for a row, with which status, and why that isn't what the rules say."""

    lines: list = dataclasses.field(default_factory=list)
    status: int = 0
    reason: str = ""
    stays: bool = False


@dataclasses.dataclass
class Row:
    """A folder, a log, and what becomes of it."""

    section: str
    name: str
    answer: Answer
    files: list = dataclasses.field(default_factory=list)
    places: list = dataclasses.field(default_factory=list)
    options: list = dataclasses.field(default_factory=list)
    log: list = dataclasses.field(default_factory=list)
    own: dict = dataclasses.field(default_factory=dict)
    without: dict = dataclasses.field(default_factory=dict)
    says: list = dataclasses.field(default_factory=list)

    @property
    def title(self):
        return f"{self.section}: {self.name}"

    def answer_of(self, tool):
        return self.own.get(tool, self.answer)

    def written(self, tool, temp):
        """What the tool has to write."""
        answer = self.answer_of(tool)
        return joined(self.log if answer.stays else answer.lines, temp)


def joined(lines, temp):
    """Lines of the table as those of a log."""
    return b"".join(text(line, temp) + b"\n" for line in lines)


# ---- maps inside comments

def padded(length, rest):
    """The map, made so long by spaces that its length leaves this rest when it is divided by three."""
    made = MAP % "a.ts" + " " * length
    return (made + " " * ((rest - len(made)) % 3)).encode()


def encoded(data):
    return base64.b64encode(data).decode()


def with_all_signs():
    """A map whose base64 has `+`, `/` and `=`."""
    for front in range(3):
        made = '{"x":"%s~~~???","version":3,"sources":["a.ts"],"mappings":"AAUE"}' % ("x" * front)
        made += " " * ((1 - len(made)) % 3)
        if {"+", "/", "="} <= set(encoded(made.encode())):
            return made.encode()
    raise Wrong("no map has all signs of base64")


def loose(data):
    """Base64 with padding, in which bits that belong to no byte are set."""
    text_of_it = encoded(data)
    assert text_of_it.endswith("==") and text_of_it[-3] in "AQgw"
    return text_of_it[:-3] + chr(ord(text_of_it[-3]) + 1) + "=="


def escaped(data):
    return "".join({"+": "%2B", "/": "%2f", "=": "%3D"}.get(sign, sign) for sign in encoded(data))


def folded(data):
    """Base64 in lines of twenty characters; their ends are percent-encoded, as a URL has them."""
    return "%0A".join(re.findall(".{1,20}", encoded(data)))


def large():
    """A map of a megabyte."""
    made = '{"version":3,"sources":["a.ts"],"names":["%s"],"mappings":"AAUE"}' % ("x" * 1_000_000)
    return encoded(made.encode())


# What a `data:` URL has behind its comma, in each spelling, of the map of a.ts.
BODIES = {
    "base64": lambda: encoded(padded(0, 1)),
    "base64-unpadded": lambda: encoded(padded(0, 1)).rstrip("="),
    "base64-url-safe": lambda: encoded(with_all_signs()).replace("+", "-").replace("/", "_"),
    "base64-all-signs": lambda: encoded(with_all_signs()),
    "base64-escaped": lambda: escaped(with_all_signs()),
    "base64-folded": lambda: folded(padded(0, 1)),
    "base64-loose-bits": lambda: loose(padded(0, 1)),
    "base64-one-left": lambda: encoded(padded(0, 0)) + "A",
    "base64-star": lambda: encoded(padded(0, 0)) + "****",
    "base64-large": large,
    "percent-encoded": lambda: "".join("%%%02X" % byte for byte in padded(0, 0)),
    "percent-encoded-small": lambda: "".join("%%%02x" % byte for byte in padded(0, 0)),
}


# ---- words

def filled(match, temp):
    """What a placeholder stands for."""
    if match[2]:
        return match[3] * int(match[2])
    if match[1] == "temp":
        return temp.decode("utf-8", "surrogateescape")
    if match[1] not in BODIES:
        raise Wrong(f"no such placeholder: {match[0]}")
    return BODIES[match[1]]()


def unescaped(match):
    if match[1]:
        return PLAIN[match[1]]
    if match[4] is not None:
        raise Wrong(f"no such escape: {match[0]}")
    code = int(match[2] or match[3], 16)
    # a byte that is no character of ASCII stands as half of a surrogate pair, as it does in names of files
    return chr(0xDC00 + code if match[2] and code > 127 else code)


def text(words, temp):
    """The bytes that words of the table stand for, in the folder of a row."""
    words = PLACEHOLDER.sub(lambda match: filled(match, temp), words)
    return ESCAPE.sub(unescaped, words).encode("utf-8", "surrogateescape")


# ---- the table

class Reader:
    """Reads the table line by line. Lines before the first row of a section belong to each of its rows."""

    def __init__(self, tools):
        self.tools = tools
        self.rows = []
        self.section = ""
        self.shared = []
        self.name = None
        self.lines = []

    def read(self, path):
        for number, line in enumerate(path.read_bytes().decode("utf-8").split("\n"), 1):
            if not line or line.startswith("#"):
                continue
            word, _, rest = line.partition(" ")
            if word not in WORDS:
                raise Wrong(f"line {number}: no such word: {word}")
            if word == "section":
                self.end()
                self.section, self.shared, self.name = rest, [], None
            elif word == "row":
                self.end()
                self.name = rest
            elif self.name is None:
                self.shared.append((number, word, rest))
            else:
                self.lines.append((number, word, rest))
        self.end()
        return self.rows

    def end(self):
        """Makes a row of the lines that were read since it began."""
        if self.name is None:
            return
        row = Row(self.section, self.name, Answer())
        if any(other.title == row.title for other in self.rows):
            raise Wrong(f"two rows are called {row.title}")
        own = {word for _, word, _ in self.lines}
        # what a row has itself takes the place of the section's
        shared = [line for line in self.shared if line[1] not in own & {"give", "<", "option"}]
        self.rows.append(Made(row, self.tools).row_of(shared, self.lines))
        self.lines = []


class Made:
    """A row that is made of its lines."""

    def __init__(self, row, tools):
        self.row = row
        self.tools = tools
        # the answers that lines of output belong to
        self.answers = []

    def row_of(self, shared, own):
        for lines in (shared, own):
            self.answers = [self.row.answer]
            for number, word, rest in lines:
                try:
                    self.take(word, rest)
                except Wrong as wrong:
                    raise Wrong(f"line {number}: {wrong}") from None
        try:
            self.judge()
        except Wrong as wrong:
            raise Wrong(f"row {self.row.title}: {wrong}") from None
        return self.row

    def take(self, word, rest):
        row = self.row
        if word in ("file", "map", "link", "pipe", "folder"):
            row.files.append((word, *rest.split(" ", 1)))
        elif word == "give":
            row.places.append(rest)
        elif word == "option":
            row.options.append(rest)
        elif word == "<":
            row.log.append(rest)
        elif word == ">":
            for answer in self.answers:
                answer.lines.append(rest)
        elif word == "=":
            for answer in self.answers:
                answer.status = int(rest)
        elif word == "stays":
            row.answer.stays = True
        else:
            self.take_own(word, *self.with_tools(rest))

    def with_tools(self, rest):
        """The tools before a colon, and what follows."""
        names, colon, reason = rest.partition(": ")
        names = names.split()
        if not colon or not reason or not names or any(name not in self.tools for name in names):
            raise Wrong(f"expected TOOL..: TEXT: {rest}")
        return names, reason

    def take_own(self, word, names, reason):
        """What concerns some tools."""
        if word == "says":
            self.row.says += [(name, reason) for name in names]
        elif word == "without":
            self.row.without.update((name, reason) for name in names)
        else:
            self.answers = [Answer(reason=reason, stays=word == "leaves") for _ in names]
            self.row.own.update(zip(names, self.answers))

    def judge(self):
        """Whether the row says all that it has to, and nothing that can't fail."""
        row = self.row
        if not row.log or not row.places or not row.files:
            raise Wrong("no log, no place or no file")
        if row.answer.stays == bool(row.answer.lines):
            raise Wrong("it needs lines of the answer, or `stays`")
        for tool, answer in row.own.items():
            if tool in row.without:
                raise Wrong(f"{tool} is left out, and has an answer")
            if answer.stays and answer.lines:
                raise Wrong(f"{tool} leaves the log, and has lines of an answer")
            same = joined(answer.lines, b"") == joined(row.answer.lines, b"")
            if (answer.stays, answer.status) == (row.answer.stays, row.answer.status) and same:
                raise Wrong(f"{tool} has a reason and no difference")
        if any(tool in row.without for tool, _ in row.says):
            raise Wrong("a tool that is left out says nothing")


# ---- folders

def lay_out(row, temp):
    """Makes the files of a row in its folder. Of two of one name the later one counts, which is the row's."""
    for kind, name, *rest in {name: (kind, name, *rest) for kind, name, *rest in row.files}.values():
        path = os.path.join(temp, text(name, temp))
        os.makedirs(os.path.dirname(path), exist_ok=True)
        words = text(rest[0], temp) if rest else b""
        if kind == "link":
            os.symlink(words, path)
        elif kind == "pipe":
            os.mkfifo(path)
        elif kind == "folder":
            os.mkdir(path)
        else:
            made = words if kind == "file" else MAP.encode() % words
            with open(path, "wb") as file:
                file.write(made)
