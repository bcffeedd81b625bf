"""Files of sources that have hostile URLs: where `smap maps extract` puts them, by a model of docs/OUTPUT.md."""

import json
import os
import random
import re
import subprocess
import tempfile
from pathlib import Path

from answers import test

DEVICE = re.compile(rb"(con|prn|aux|nul|conin\$|conout\$|(com|lpt)([0-9]|\xc2[\xb2\xb3\xb9]))([. ]|$)", re.I | re.S)
PARTS = [
    *("..", ".", "/", "//", "\\", "/../", "a", "A", "b", "a.ts", "A.TS", "a~2.ts", "~2", "/x", ".d.ts", " ", "%2e"),
    *("CON", "nul", "aux.txt", "com1", "LPT\u00b9", "conin$", "_", "C:", "a:b", "*", "?", "#", "|", '"', "<", ">"),
    *("\0", "\x1f", "\x7f", "\n", "\u00e9", "\u65e5\u672c", "x" * 300, "\u00e9" * 150, "\udcff"),
]


def clean(name):
    """The name of a file or a folder."""
    if len(name) > 240:
        end = 240
        while name[end] & 0xC0 == 0x80:
            end -= 1
        name = name[:end]
    return sealed(name)


def sealed(name):
    name = re.sub(rb'[\0-\x1f"*/:<>?\\|\x7f]', b"_", name)
    if name[-1:] in (b".", b" "):
        name += b"_"
    return b"_" + name if DEVICE.match(name) else name


def path_of(name):
    """The path of x://h/ and a name of which each byte is percent-encoded: a list of names."""
    try:
        name.decode()
    except UnicodeDecodeError:
        name = encoded(name).encode()
    steps = [step for step in re.split(rb"[/\\]", b"h/" + name) if step not in (b"", b".", b"..")]
    return [clean(step) for step in steps[-32:]]


def encoded(name):
    return "".join(f"%{byte:02X}" for byte in name)


def numbered(name, number):
    stem, dot, end = name.rpartition(b".")
    mark = f"~{number}".encode()
    return sealed(stem + mark + dot + end if stem else name + mark)


def placed(paths):
    """The paths, of which no two are one, and none is in the folder that another is, in any case."""
    key = lambda path: b"/".join(path).lower()
    taken = {key(path[:size]) for path in paths for size in range(1, len(path))}
    numbers = {}
    for path in paths:
        other, number = path, 1
        while key(other) in taken:
            number = numbers[key(path)] = numbers.get(key(path), 1) + 1
            other = [*path[:-1], numbered(path[-1], number)]
        taken.add(key(other))
        yield b"/".join(other)


class Extraction:
    """A map whose sources have these names, and the files that are made of it."""

    def __init__(self, sources):
        self.sources = sources

    def expected(self):
        wanted = list(dict.fromkeys((tuple(path_of(name)), content) for name, content in self.sources))
        return dict(zip(placed([list(path) for path, _ in wanted]), (content for _, content in wanted)))

    def faults(self, program):
        with tempfile.TemporaryDirectory() as folder:
            Path(folder, "x.map").write_text(json.dumps({
                "version": 3, "mappings": "",
                "sources": ["x://h/" + encoded(name) for name, _ in self.sources],
                "sourcesContent": [content for _, content in self.sources],
            }))
            words = [program, "maps", "extract", "x.map", "-o", "out"]
            run = subprocess.run(words, cwd=folder, capture_output=True, check=False)
            top = os.fsencode(folder)
            found = {
                os.path.relpath(os.path.join(at, name), os.path.join(top, b"out")): Path(os.fsdecode(at), os.fsdecode(name))
                for at, _, names in os.walk(top) for name in names
            }
            found = {path: file.read_text() for path, file in found.items() if path != b"../x.map"}
        expected = self.expected()
        counts = f"{len(expected)} written, 0 unchanged, 0 without content\n".encode()
        if (run.returncode, run.stdout) != (0, counts):
            yield f"status {run.returncode}, wrote {run.stdout!r}, not {counts!r}: {run.stderr[-400:]!r}"
        for path in sorted(set(found.items()) ^ set(expected.items()))[:6]:
            yield f"{path} is in {'what was written' if path in found.items() else 'the model'} alone"


@test
def a_thousand_hostile_names_of_sources_become_files_below_the_folder():
    chance = random.Random(1)
    names = ["".join(chance.choices(PARTS, k=chance.randint(1, 5))).encode(errors="surrogateescape") for _ in range(1000)]
    yield Extraction([(name, str(chance.randrange(600))) for name in names])


@test
def ten_thousand_sources_of_one_path_get_numbers():
    yield Extraction([(b"a.ts", str(i)) for i in range(10_000)])
