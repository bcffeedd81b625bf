"""corpus.py FOLDER: fills a folder with maps, scripts and logs, the same each time: those of the tests, maps
of bench/make_map.py, and small ones that were spoiled by a few bytes."""

import random
import shutil
import subprocess
import sys
from pathlib import Path

TOP = Path(__file__).resolve().parents[2]
SPOILED = 120
# What replaces bytes of a map: what JSON, VLQ and URLs give a meaning to.
PIECES = [b"", b'"', b",", b";", b"A", b"g", b"[", b"]", b"{", b"}", b"null", b"-1", b"\\u0000", b"\xff",
          b"\xef\xbb\xbf", b"\\ud800", b"1e999", b"http://x y/", b"../../", b"AAAA", b"gggggggggggggB", b"\n",
          b'"version":"3",']


def made(*words):
    command = [sys.executable, "-B", TOP / "bench/make_map.py", *words]
    return subprocess.run(command, check=True, capture_output=True).stdout


def spoil(text, rng):
    for _ in range(rng.randrange(1, 4)):
        start = rng.randrange(len(text))
        text = text[:start] + rng.choice(PIECES) + text[start + rng.randrange(3):]
    return text if rng.random() < 0.9 else text[:rng.randrange(len(text))]


def main():
    folder = Path(sys.argv[1])
    build = folder / "build"
    build.mkdir(parents=True)
    shutil.copytree(TOP / "tests/rows/maps", build / "rows")
    shutil.copytree(TOP / "tests/rows/engines", build / "engines", ignore=shutil.ignore_patterns("*.py"))
    folders = TOP / "tests/allocation_failures/rows", TOP / "tests/rows/maps"
    small = [file for one in folders for file in sorted(one.glob("*.map"))]
    (build / "small").mkdir()
    for file in small:
        shutil.copy(file, build / "small")
        (build / "small" / file.stem).write_text(f"f(1,2,3);\n//# sourceMappingURL={file.name}\n")
    sizes = ["--segments", "30000", "--sources", "50", "--names", "200"]
    for name, words in (("flat", []), ("index", ["--index", "--sections", "20"])):
        (build / f"{name}.js.map").write_bytes(made(*words, *sizes))
    (folder / "mappings.txt").write_bytes(made("--mappings", "--segments", "30000"))
    (folder / "large.bundle").write_bytes(made("--bundle", "--segments", "10000", "--frames", "3000"))
    (build / "spoiled").mkdir()
    rng = random.Random(83)
    texts = [file.read_bytes() for file in small + [TOP / "tests/rows/engines/shop.js.map"]]
    for number in range(SPOILED):
        (build / "spoiled" / f"{number}.js.map").write_bytes(spoil(rng.choice(texts), rng))
    logs = folder / "logs"
    logs.mkdir()
    for file in [*(TOP / "tests/rows/maps").glob("*.log"), *(TOP / "tests/rows/engines").glob("*.log")]:
        shutil.copy(file, logs)
    scripts = "flat", "index"
    frames = (f"    at f{n} (http://localhost/out/{scripts[n % 2]}.js:{1 + n % 40}:{n * 37 % 900})\n"
              for n in range(3000))
    (logs / "large.log").write_text("".join(frames))


main()
