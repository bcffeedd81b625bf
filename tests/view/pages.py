"""Maps and scripts to look at, made together with what they mean, with which a page can be compared."""

import json
import random

DIGITS = "ABCDEFGHIJKLMNOPQRSTUVWXYZabcdefghijklmnopqrstuvwxyz0123456789+/"


def spell(number):
    """A number in Base64 VLQ."""
    value, text = abs(number) * 2 + (number < 0), ""
    while True:
        value, digit = value >> 5, value & 31
        text += DIGITS[digit | (32 if value else 0)]
        if not value:
            return text


def units(text):
    """The length of a text in UTF-16 code units."""
    return len(text.encode("utf-16-le")) // 2


class Maker:
    """Puts a generated text and its mappings together, piece by piece."""

    def __init__(self):
        self.text, self.mappings, self.sums, self.made = [], [], [0, 0, 0, 0, 0], []
        self.line = self.column = self.count = 0
        self.first = True

    def add(self, text, *numbers):
        """Adds a piece without a line end. The numbers are those of its mapping, after the column; None stands
        for no mapping."""
        if numbers != (None,):
            values = (self.column, *numbers)
            self.made.append((self.line, *values))
            if not self.first:
                self.mappings.append(",")
            self.mappings += [spell(value - last) for value, last in zip(values, self.sums)]
            self.sums[:len(values)] = values
            self.first = False
            self.count += 1
        self.text.append(text)
        self.column += units(text)

    def end_line(self, end="\n"):
        self.text.append(end)
        self.mappings.append(";")
        self.sums[0] = self.column = 0
        self.line += 1
        self.first = True

    def write(self, folder, name, **members):
        text = "".join(self.text).encode()
        whole = {"version": 3, "file": name, "names": [], **members, "mappings": "".join(self.mappings)}
        (folder / name).write_bytes(text)
        (folder / f"{name}.map").write_text(json.dumps(whole, ensure_ascii=False), encoding="utf-8")
        return text


WORDS = ["render", "state", "props", "=>", "(", ")", "{", "}", "return", "42", '"text"', "élan", "漢字", "🙂",
         "\t", ";"]
SOURCES = ["src/app.js", "src/parts/list.js", "src/parts/item.js", "src/util/dates.js",
           "node_modules/lib/index.js", "node_modules/lib/deep/core.js", None, "no-content.js"]
NAMES = ["render", "state", "<b>name</b>"]


def source_lines(rng, lines):
    return [" ".join(rng.choice(WORDS) for _ in range(rng.randint(1, 9))) for _ in range(lines)]


def small(folder):
    """A script of all kinds: long and short lines, ends of several kinds, sources that are ignored, without
    content or without a URL, mappings without a source, several in one place, characters of one to four
    bytes."""
    rng = random.Random(46)
    contents = [source_lines(rng, 60) for _ in SOURCES]
    made, sizes = Maker(), [0] * (len(SOURCES) + 2)
    for line in range(40):
        part = ""
        if line % 4 == 1:
            part = "/* no mapping */"
            made.add(part, None)
            sizes[-1] += len(part.encode())
        owner = -1
        for _ in range(0 if line % 9 == 5 else 400 if line in (3, 20) else rng.randint(1, 25)):
            text, kind = rng.choice(WORDS) + " ", rng.random()
            if kind < 0.1:
                owner = -2
                made.add(text)
            else:
                owner = rng.randrange(len(SOURCES))
                row = rng.randrange(60)
                place = [owner, row, rng.randrange(units(contents[owner][row]) + 1)]
                if kind > 0.95:
                    made.add("", (owner + 1) % len(SOURCES), 0, 0)
                made.add(text, *place, *([rng.randrange(3)] if kind < 0.3 else []))
            sizes[owner] += len(text.encode())
        # the end of a line belongs to the line's last mapping
        end = ["\n", "\r\n", "\u2028", "\r"][line % 4 if line % 5 == 0 else 0]
        made.end_line(end)
        sizes[owner] += len(end.encode())
    sizes = sizes[:-2] + [sizes[-2], sizes[-1]]
    text = made.write(folder, "small.js", sources=SOURCES, ignoreList=[4, 5], names=NAMES,
                      sourcesContent=["\n".join(lines) for lines in contents[:-1]])
    assert sum(sizes) == len(text)
    return {"name": "small.js", "text": text.decode(), "sizes": sizes, "count": made.count, "made": made.made}


def large(folder, mappings=1_000_000, sources=300):
    """A script as bundlers write it: four lines, a mapping for every ten columns."""
    rng = random.Random(10)
    pieces = ["".join(rng.choice("abcdefghij(){};=.") for _ in range(9)) + ";" for _ in range(1000)]
    line = mappings // 4
    each = -(-mappings // sources)
    # by where it is in its source: at its beginning, at that of a line, or within one
    first = ",U" + spell(1) + spell(-((each - 1) // 5)) + spell(-((each - 1) % 5 * 8))
    step = {0: ",UA" + spell(1) + spell(-32)}
    segments = [first if number % each == 0 else step.get(number % each % 5, ",UAA" + spell(8))
                for number in range(mappings)]
    for start in range(0, mappings, line):
        segments[start] = ";A" + segments[start][2:]
    segments[0] = ";AAAA"
    text = "".join(pieces) * (line // 1000)
    (folder / "large.js").write_text((text + "\n") * 4)
    content = "let value = call(one, two, three, four);\n" * (each // 5 + 1)
    members = {"version": 3, "names": [], "sources": [f"src/{n % 20}/part{n}.js" for n in range(sources)],
               "sourcesContent": [content] * sources, "mappings": "".join(segments)[1:]}
    (folder / "large.js.map").write_text(json.dumps(members))
    return {"name": "large.js", "bytes": (len(text) + 1) * 4, "count": mappings, "each": each}


HOSTILE = [
    "</script><script>alert(1)</script>", "<!--<script>",
    "<img src=http://127.0.0.1:PORT/img onerror=alert(2)>",
    "<style>@import 'http://127.0.0.1:PORT/css';</style>", "javascript:alert(3)", "]]>-->",
    "\u2028\u2029\u0000\u202e",
    "<svg onload=alert(4)>", "${alert(5)}", "__proto__", "constructor", "'\"`\\",
    "<link rel=prefetch href=//127.0.0.1:PORT/>",
]


def hostile(folder, port):
    """A map whose contents, names and URLs try to become markup or script, or to request something."""
    texts = [text.replace("PORT", str(port)) for text in HOSTILE]
    made = Maker()
    for number, text in enumerate(texts):
        made.add(text.replace("\u2028", "").replace("\u2029", ""), number, 0, 0, number)
    made.write(folder, "hostile.js", sources=[f"x:{text}" for text in texts], names=texts, sourcesContent=texts)
