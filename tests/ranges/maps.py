"""Spoiled source maps, made by chance: flat maps and index maps with one fault or more, each written in a way
of its own, with white space, escapes, names that come twice, and characters of every length before it."""

import random

DIGITS = "ABCDEFGHIJKLMNOPQRSTUVWXYZabcdefghijklmnopqrstuvwxyz0123456789+/"
LETTERS = ["a", "Z", "/", ".", " ", '"', "\\", "\n", "\t", "é", "ß", "中", "￿", "😀", "𝒳", "\u2028"]
WRONG = [None, True, 7, -1, 1.5, "x", "", [], [None], [7], [[]], {}, {"a": 1}, "é😀"]
TEXTS = ["file", "sourceRoot"]
LISTS = ["sources", "sourcesContent", "names", "ignoreList", "x_google_ignoreList"]


class Raw(bytes):
    """Bytes that are written as they are."""


def number(value):
    """A number of a segment, in base 64."""
    left = abs(value) << 1 | (value < 0)
    out = ""
    while left > 31:
        out += DIGITS[left & 31 | 32]
        left >>= 5
    return out + DIGITS[left]


class Writer:
    """Writes a value as JSON, in a way of its own. An object is a list of pairs in a tuple."""

    def __init__(self, chance):
        self.chance = chance
        self.newline = chance.choice(["\n", "\r\n", "\r"])
        self.spaces = chance.choice([0, 0, 0.1, 0.5])
        self.escapes = chance.choice([0, 0, 0.02, 0.3])

    def space(self):
        if self.chance.random() >= self.spaces:
            return ""
        spaces = [" ", "\t", self.newline]
        return "".join(self.chance.choice(spaces) for _ in range(self.chance.randrange(1, 3)))

    def character(self, c):
        if c in '"\\' or ord(c) < 32:
            short = {'"': '\\"', "\\": "\\\\", "\n": "\\n", "\t": "\\t"}
            if self.chance.random() < 0.5:
                return short[c]
        elif self.chance.random() >= self.escapes:
            return c
        if c == "/" and self.chance.random() < 0.5:
            return "\\/"
        units = c.encode("utf-16-be")
        form = self.chance.choice(["\\u%02x%02x", "\\u%02X%02X"])
        return "".join(form % (units[i], units[i + 1]) for i in range(0, len(units), 2))

    def text(self, value):
        if isinstance(value, Raw):
            return value.decode()
        if value is None or isinstance(value, bool):
            return {None: "null", True: "true", False: "false"}[value]
        if isinstance(value, str):
            return '"' + "".join(map(self.character, value)) + '"'
        if isinstance(value, list):
            return "[" + self.joined([self.text(v) for v in value]) + "]"
        if isinstance(value, dict):
            value = tuple(value.items())
        if isinstance(value, tuple):
            return "{" + self.joined([self.member(name, inner) for name, inner in value]) + "}"
        return repr(value)

    def member(self, name, value):
        return f"{self.text(name)}{self.space()}:{self.space()}{self.text(value)}"

    def joined(self, parts):
        return self.space() + f"{self.space()},{self.space()}".join(parts) + self.space()


class Maker:
    """Makes maps, by a seed."""

    def __init__(self, seed):
        self.chance = random.Random(seed)

    def some(self, most):
        return self.chance.randrange(most + 1)

    def words(self):
        return "".join(self.chance.choice(LETTERS) for _ in range(self.some(6)))

    def segment(self, sources, names):
        """A segment that is mostly right where those before it have the same numbers, since each is 0."""
        column = number(self.some(40))
        if not sources or self.chance.random() < 0.3:
            return column
        return column + "AAA" + ("A" if names and self.chance.random() < 0.4 else "")

    def wrong_segment(self):
        big = number(2**31)
        wrong = ["", "A!", "g", "AB", "AA", "AAA", "AAAAAA", "D", big, "gggggggggE", "A" + number(50) + "AA"]
        wrong += ["ADAA", "AADA", "AAAD", "AA" + big + "A", "AAA" + big, "AAAAD", "AAAA" + number(99)]
        wrong += ["Aé", '"', "A😀", "中"]
        return self.chance.choice(wrong)

    def mappings(self, sources, names, wrong):
        count = self.chance.choice([1, 2, 4, 9])
        lines = [[self.segment(sources, names) for _ in range(self.some(5))] for _ in range(count)]
        if wrong:
            self.chance.choice(lines).insert(0, self.wrong_segment())
            self.chance.shuffle(lines)
        far = ";" * 100 if wrong and self.chance.random() < 0.1 else ""
        return far + ";".join(",".join(line) for line in lines)

    def spoiled(self, members):
        """The members of a map, one of them spoiled."""
        way = self.some(5)
        at = self.some(len(members) - 1)
        name = members[at][0]
        if way == 0:
            members.pop(at)
        elif way == 1:
            members.insert(self.some(len(members)), (name, self.chance.choice(WRONG)))
        elif way == 2:
            members[at] = (name, [self.words(), self.chance.choice(WRONG), 3, None])
        elif way == 3:
            members.append(("sections", self.chance.choice(WRONG)))
        else:
            members[at] = (name, self.chance.choice(WRONG))

    def with_wrong_list(self, members):
        lists = {
            "sources": ["a", "http://[", None] if self.some(1) else ["a"] * 21,
            "names": ["n"] * 21 if self.some(1) else ["a", 7],
            "sourcesContent": [None, {}],
            "ignoreList": [0, 1000],
            "x_google_ignoreList": [-1],
        }
        name = self.chance.choice(LISTS)
        members[:] = [(k, v) for k, v in members if k not in (name, "ignoreList")] + [(name, lists[name])]
        if self.some(3) == 0:
            members.append(("ignoreList", None))

    def flat(self, fault):
        """A flat map, with or without a fault."""
        sources = [self.chance.choice([None, "a.js", "é/中.js", "😀.ts", "b\\c"]) for _ in range(self.some(3))]
        names = [self.words() for _ in range(self.some(3))]
        way = self.some(2) if fault else None
        members = [
            ("version", 3),
            ("sources", sources),
            ("names", names),
            ("mappings", self.mappings(sources, names, way == 0)),
        ]
        if self.some(1):
            members.append(("sourcesContent", [self.chance.choice([None, self.words()]) for _ in sources]))
        if self.some(2) == 0:
            members.append((self.chance.choice(LISTS[3:]), [0] if sources else []))
        for _ in range(self.some(2)):
            members.append((self.chance.choice([*TEXTS, "x_" + self.words()]), self.words()))
        members = [(k, v) for k, v in members if k != "sourceRoot" or ":" not in v]
        self.chance.shuffle(members)
        if way == 1:
            self.spoiled(members)
        elif way == 2:
            self.with_wrong_list(members)
        return tuple(members)

    def offset(self, line):
        return {"line": line, "column": self.some(1)}

    def wrong_section(self, line):
        way = self.some(6)
        offset = self.offset(line)
        inner = self.flat(False)
        if way == 0:
            return self.chance.choice(WRONG)
        if way == 1:
            return (("map", inner), ("offset", self.chance.choice(WRONG)))
        if way == 2:
            return (("offset", offset), ("map", self.chance.choice(WRONG)))
        if way == 3:
            return (("offset", {"line": line, "column": 2**31}), ("map", inner))
        if way == 4:
            return (("offset", {"line": 0, "column": 0}), ("map", inner))
        if way == 5:
            return (("offset", offset), ("map", self.deep(9)))
        return (("url", "x"), ("offset", offset))

    def deep(self, levels):
        """Index maps within one another."""
        inner = self.flat(False)
        for _ in range(levels):
            inner = {"version": 3, "sections": [{"offset": self.offset(0), "map": inner}]}
        return inner

    def index(self, level):
        """An index map with a fault in one of its sections, if it isn't an earlier one."""
        count = self.chance.randrange(1, 4)
        at = self.some(count - 1)
        sections = []
        for i in range(count):
            line = i * 20
            if i != at:
                sections.append({"offset": self.offset(line), "map": self.flat(False)})
            elif self.some(2) == 0:
                sections.append(self.wrong_section(line))
            else:
                inner = self.index(level + 1) if level < 7 and self.some(1) else self.flat(True)
                sections.append((("x", self.words()), ("offset", self.offset(line)), ("map", inner)))
        members = [("version", 3), ("sections", sections)]
        members += [(self.words(), self.words()) for _ in range(self.some(2))]
        self.chance.shuffle(members)
        if self.some(9) == 0:
            self.spoiled(members)
        return tuple(members)

    def map(self):
        """The bytes of a map."""
        way = self.some(9)
        tree = self.chance.choice(WRONG) if way == 0 else self.index(1) if way < 5 else self.flat(True)
        writer = Writer(self.chance)
        text = writer.space() + writer.text(tree) + writer.space()
        if self.some(5) == 0:
            ends = ["\n", "\r\n"] if "\n" in text else ["\n", ""]
            text = ")]}'" + self.words().replace("\n", "") + self.chance.choice(ends) + text
        return text.encode()

    def broken(self):
        """The bytes of a text that isn't JSON, and the place where it isn't: a byte that begins no value."""
        writer = Writer(self.chance)
        mark = "\x01here"
        tree = tuple((name, value) for name, value in self.flat(False) if name not in TEXTS)
        at = self.some(len(tree) - 1)
        tree = (*tree[:at], (self.words(), Raw(mark.encode())), *tree[at:])
        prefix = self.chance.choice(["", ")]}' é\n"])
        text = (prefix + writer.text(tree)).encode()
        place = text.index(mark.encode())
        if self.some(1):
            # The text ends before the value.
            return text[:place], place
        byte = self.chance.choice([b"#", b"'", b"\xff", b":", b","])
        return text.replace(mark.encode(), byte), place
