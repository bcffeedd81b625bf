"""Where the fault of a source map is in its text, found by a scanner of its own: see docs/ERRORS.md for the
messages of faults. Nothing here is taken from the program under test but the message."""

import dataclasses
import re

MESSAGE = re.compile(r"(?:section ([\d.]+): )?(?:line (\d+) segment (\d+): )?(.*)", re.DOTALL)
SPACE = b" \t\n\r"
ESCAPES = {ord(c): d.encode() for c, d in zip('"\\/bfnrt', '"\\/\b\f\n\r\t')}
# The member that a fault is about, in its map, or in its section.
OF_MAP = {
    "version": "version",
    "file": "file",
    "sections beside mappings": "mappings",
    "sourceRoot": "sourceRoot",
    "sources": "sources",
    "sourcesContent": "sourcesContent",
    "names": "names",
    "mappings": "mappings",
    "sections": "sections",
}
OF_SECTION = {"offset": "offset", "order": "offset", "overlap": "offset", "map": "map"}


@dataclasses.dataclass
class Node:
    """A value, and where it is written. A string has its bytes, and where each of them is spelled."""

    start: int
    end: int = 0
    members: dict | None = None
    entries: list | None = None
    text: bytes | None = None
    places: list | None = None
    null: bool = False


class Scanner:
    """Reads JSON that is known to be valid."""

    def __init__(self, text, at):
        self.text = text
        self.at = at

    def space(self):
        while self.at < len(self.text) and self.text[self.at] in SPACE:
            self.at += 1

    def take(self, byte):
        self.space()
        if self.text[self.at : self.at + 1] != byte:
            return False
        self.at += 1
        return True

    def value(self):
        self.space()
        node = Node(self.at)
        first = self.text[self.at : self.at + 1]
        if first == b"{":
            self.object(node)
        elif first == b"[":
            self.array(node)
        elif first == b'"':
            self.string(node)
        else:
            word = re.compile(rb"[^\s,\]}]+").match(self.text, self.at)
            node.null = word[0] == b"null"
            self.at = word.end()
        node.end = self.at
        return node

    def object(self, node):
        node.members = {}
        self.at += 1
        if self.take(b"}"):
            return
        while True:
            self.space()
            key = Node(self.at)
            self.string(key)
            self.take(b":")
            # The last of several members with one name counts.
            node.members[key.text] = self.value()
            if not self.take(b","):
                break
        self.take(b"}")

    def array(self, node):
        node.entries = []
        self.at += 1
        if self.take(b"]"):
            return
        while True:
            node.entries.append(self.value())
            if not self.take(b","):
                break
        self.take(b"]")

    def string(self, node):
        node.text, node.places = b"", []
        self.at += 1
        while self.text[self.at] != 0x22:
            start = self.at
            piece = self.character()
            node.text += piece
            node.places += [start] * len(piece)
        node.places.append(self.at)
        self.at += 1

    def character(self):
        """The bytes that are spelled next."""
        if self.text[self.at] != 0x5C:
            self.at += 1
            return self.text[self.at - 1 : self.at]
        letter = self.text[self.at + 1]
        self.at += 2
        if letter != ord("u"):
            return ESCAPES[letter]
        unit = self.unit()
        if 0xD800 <= unit < 0xDC00:
            self.at += 2
            unit = 0x10000 + ((unit - 0xD800) << 10) + (self.unit() - 0xDC00)
        return chr(unit).encode()

    def unit(self):
        self.at += 4
        return int(self.text[self.at - 4 : self.at], 16)


def down(node, path):
    """The value that a path leads to, or the last one on the way to it."""
    for step in path:
        if isinstance(step, str):
            inner = (node.members or {}).get(step.encode())
        else:
            inner = (node.entries or [])[step] if step < len(node.entries or []) else None
        if inner is None:
            break
        node = inner
    return node


def segment(mappings, line, index):
    """The range of a segment of a mappings string."""
    lines = mappings.text.split(b";")
    before = b";".join(lines[:line]) + (b";" if line else b"")
    segments = lines[line].split(b",")
    before += b",".join(segments[:index]) + (b"," if index else b"")
    start = len(before)
    return mappings.places[start], mappings.places[start + len(segments[index])]


def range_of(text, message):
    """Where the fault with this message is in a map's text; None where it has no place."""
    start = text.index(b"\n") + 1 if text.startswith(b")]}'") and b"\n" in text else 0
    section, line, index, words = MESSAGE.fullmatch(message).groups()
    if words == "prefix without line feed":
        return None
    root = Scanner(text, start).value()
    path = []
    for number in section.split(".") if section else []:
        path += ["sections", int(number), "map"]
    if line is not None:
        return segment(down(root, path + ["mappings"]), int(line), int(index))
    path_in = OF_SECTION.get(words)
    source = re.fullmatch(r"source (\d+) (?:is no|has an unstable) URL", words)
    if words == "not an object":
        path = path[:-1]
    elif words == "nested sections":
        path += ["sections"]
    elif path_in:
        path = path[:-1] + [path_in]
    elif source:
        path += ["sources", int(source[1])]
    elif words == "ignoreList":
        newer = (down(root, path).members or {}).get(b"ignoreList")
        path += ["ignoreList" if newer and not newer.null else "x_google_ignoreList"]
    elif words != "too many sources or names":
        path += [OF_MAP[words]]
    node = down(root, path)
    return node.start, node.end


def point(text, at):
    """The line and the column of a place, from 1, the column in UTF-16 code units."""
    lines = re.split("\r\n|\r|\n", text[:at].decode("utf-8", "surrogateescape"))
    return f"{len(lines)}:{len(lines[-1].encode('utf-16-le', 'surrogatepass')) // 2 + 1}"
