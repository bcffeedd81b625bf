"""Times the C library from C and from Python, beside the program.

    python3 bench/capi.py crates/smap/out/smap LIB

LIB is the folder that tools/build-capi made. Prints a table: opens of a map a second, lookups a second at
positions that rise and at positions far from each other, lines of a log translated a second. The program's
figures are those of whole runs: one open and one lookup, or all maps and lines of a bundle. Time is processor
time. Let nothing else run meanwhile.
"""

import argparse
import os
import resource
import subprocess
import sys
import tempfile
import time
from pathlib import Path

import make_map

TOP = Path(__file__).resolve().parent.parent
SIZES = [1_000, 100_000, 1_000_000]


def bundle_parts(data):
    """The script's URL, the map's base, the map and the log of a bundle with one map."""
    header, _, rest = data.partition(b"\n")
    _, url, base, length = header.split(b" ")
    text, log = rest[: int(length)], rest[int(length) :]
    return url.decode(), base.decode(), text, log.partition(b"trace\n")[2]


def children():
    used = resource.getrusage(resource.RUSAGE_CHILDREN)
    return used.ru_utime + used.ru_stime


def program_rates(program, base, map_path, bundle_path, lines):
    """How often a second the program runs a lookup, and how many lines a second it translates."""
    rates = {}
    for name, words, path, times, many in [
        ("opens", ["lookup", base, "1", "1"], map_path, 5, 1),
        ("lines", ["translate"], bundle_path, 3, lines),
    ]:
        start = children()
        for _ in range(times):
            with open(path, "rb") as data:
                subprocess.run([program, *words], stdin=data, stdout=subprocess.DEVNULL, check=True)
        rates[name] = times * many / (children() - start)
    return rates


def c_rates(timer, lib, words):
    told = subprocess.run([timer, *words], capture_output=True, text=True, check=True).stdout
    return {name: int(n) / float(s) for name, n, s in (line.split("\t") for line in told.splitlines())}


def python_rates(smap, text, base, log, url):
    rates = {}

    def timed(name, many, call):
        start = time.process_time()
        call()
        rates[name] = many / (time.process_time() - start)

    timed("opens", 5, lambda: [smap.Map.open(text, base).close() for _ in range(5)])
    with smap.Map.open(text, base) as m:
        places = [(found.line, found.column + 1) for found, _ in zip(m.mappings(), range(50_000))]
        far = [places[i * 10_007 % len(places)] for i in range(len(places))]
        timed("rising lookups", len(places), lambda: [m.find(*place) for place in places])
        timed("random lookups", len(places), lambda: [m.find(*place) for place in far])
        some = b"".join(log.splitlines(True)[:50_000])
        timed("lines", some.count(b"\n"), lambda: m.translate(some, url))
    return rates


def main():
    layout = argparse.RawDescriptionHelpFormatter
    parser = argparse.ArgumentParser(description=__doc__, formatter_class=layout)
    parser.add_argument("program")
    parser.add_argument("lib", type=Path)
    words = parser.parse_args()
    os.environ["SMAP_LIBRARY"] = str(words.lib / "libsmap.so")
    sys.path.insert(0, str(TOP / "capi" / "python"))
    import smap

    print("| map | from | opens/s | rising lookups/s | random lookups/s | lines/s |")
    print("|---|---|---|---|---|---|")
    with tempfile.TemporaryDirectory() as folder:
        temp = Path(folder)
        source = TOP / "bench" / "capi.c"
        subprocess.run(
            ["cc", "-O2", f"-I{words.lib}", "-o", temp / "timer", source, words.lib / "libsmap.a"], check=True
        )
        for size in SIZES:
            with open(temp / "bundle", "w", encoding="utf-8") as out:
                given = ["--bundle", "--segments", str(size), "--frames", "100000", "--content", "0"]
                make_map.write(out, given + ["--sources", "40", "--names", "2000"])
            url, base, text, log = bundle_parts((temp / "bundle").read_bytes())
            (temp / "map").write_bytes(text)
            (temp / "log").write_bytes(log)
            lines = log.count(b"\n")
            rows = {
                "C": c_rates(temp / "timer", words.lib, [temp / "map", base, temp / "log", url]),
                "Python": python_rates(smap, text, base, log, url),
                "the program": program_rates(words.program, base, temp / "map", temp / "bundle", lines),
            }
            for name, rates in rows.items():
                cells = [rates.get(key) for key in ("opens", "rising lookups", "random lookups", "lines")]
                told = " | ".join("" if cell is None else f"{cell:,.0f}" for cell in cells)
                print(f"| {size:,} mappings, {len(text) / 1e6:.1f} MB | {name} | {told} |")


main()
