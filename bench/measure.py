"""Times the built program over inputs of 1, 2, 4 and 8 times a size.

    python3 bench/measure.py crates/smap/out/smap
    python3 bench/measure.py crates/smap/out/smap --into docs/PERFORMANCE.md

Prints for each command and kind of input the processor time (the median of some runs) and the peak memory at the
largest size, and the exponent of growth: time goes with the size to that power, from the smallest size on. With
--into the table is put between the two lines of that file that hold `figures of measure.py`. A command that the
program doesn't have is left out. Let nothing else run meanwhile.
"""

import argparse
import functools
import io
import math
import os
import statistics
import subprocess
import sys
import tempfile
from pathlib import Path

import make_map

SIZES = (1, 2, 4, 8)

# The name of a kind of input, the words of make_map.py for it at the smallest size (with what grows), and the
# commands that read it: all of one map once, and elsewhere one that writes a map and one that writes none.
KINDS = [
    ("mappings text", ["--mappings"], {"--segments": 500_000}, ["respell"]),
    (
        "flat map",
        ["--sources", "40", "--names", "20000", "--content", "0"],
        {"--segments": 500_000},
        ["check", "tidy", "flatten", "lookup"],
    ),
    (
        "contents of sources",
        ["--sources", "400", "--names", "20000"],
        {"--segments": 250_000, "--content": 20_000},
        ["check", "tidy"],
    ),
    (
        "many sources and names",
        ["--content", "0"],
        {"--segments": 100_000, "--sources": 12_500, "--names": 125_000},
        ["check", "tidy"],
    ),
    (
        "index map",
        ["--index", "--content", "0"],
        {"--segments": 500_000, "--sections": 25, "--sources": 500, "--names": 12_500},
        ["check", "flatten"],
    ),
    (
        "index map of small sections",
        ["--index", "--content", "0", "--names", "0"],
        {"--segments": 100_000, "--sections": 12_500, "--sources": 12_500},
        ["check", "flatten"],
    ),
    (
        "bundle with a trace",
        ["--bundle", "--sources", "40", "--names", "2000", "--content", "0"],
        {"--segments": 100_000, "--frames": 100_000},
        ["translate"],
    ),
]

WORDS = {
    "respell": ["respell"],
    "translate": ["translate"],
    "lookup": ["lookup", make_map.BASE, "2000", "90"],
}


def words_of(command):
    return WORDS.get(command, [command, make_map.BASE])


# Runs programs, one for each line of its input. A process begins with the peak memory of the one that it was
# forked from: so this one stays small, and holds no input.
STARTER = """
import os, sys
for line in sys.stdin:
    source, sink, *words = line.rstrip("\\n").split("\\t")
    pid = os.fork()
    if pid == 0:
        os.dup2(os.open(source, os.O_RDONLY), 0)
        os.dup2(os.open(sink, os.O_WRONLY | os.O_CREAT | os.O_TRUNC), 1)
        os.dup2(os.open(os.devnull, os.O_WRONLY), 2)
        os.execv(words[0], words)
    _, status, used = os.wait4(pid, 0)
    print(os.waitstatus_to_exitcode(status), used.ru_utime + used.ru_stime, used.ru_maxrss, flush=True)
"""


@functools.cache
def starter():
    words = [sys.executable, "-S", "-E", "-c", STARTER]
    return subprocess.Popen(words, stdin=subprocess.PIPE, stdout=subprocess.PIPE, text=True)


def run(program, words, path, output=os.devnull):
    """The status of one run, its processor time in seconds and its peak memory in MB. (It isn't told from the
    starter's own where it is below that, which is some 8 MB.)"""
    process = starter()
    process.stdin.write("\t".join(map(str, [path, output, program, *words])) + "\n")
    process.stdin.flush()
    status, seconds, kilobytes = process.stdout.readline().split()
    return int(status), float(seconds), int(kilobytes) / 1024


def exponent(smaller, larger):
    """By which power of the size time grows, from (size, time) to (size, time)."""
    (a, s), (b, t) = smaller, larger
    return math.log(max(t, 1e-4) / max(s, 1e-4)) / math.log(b / a)


def make(folder, words, growing, times):
    """An input so many times as large as the smallest."""
    for word, size in growing.items():
        words = words + [word, str(size * times)]
    path = folder / "input"
    with open(path, "w", encoding="utf-8") as out:
        make_map.write(out, words)
    return path


def rows(program, folder, runs):
    """Each kind of input and command, with the size, time and memory at each size."""
    for kind, words, growing, commands in KINDS:
        commands = [command for command in commands if has_command(program, command)]
        points = {}
        for times in SIZES if commands else ():
            path = make(folder, words, growing, times)
            for command in commands:
                seen = [run(program, words_of(command), path) for _ in range(runs)]
                if any(status for status, _, _ in seen):
                    raise SystemExit(f"{command} refuses {kind}")
                seconds = statistics.median(s for _, s, _ in seen)
                memory = max(m for _, _, m in seen)
                points.setdefault(command, []).append((path.stat().st_size, seconds, memory))
        for command, measured in points.items():
            yield command, kind, measured


def table(measured):
    """The figures as a table in Markdown."""
    out = io.StringIO()
    out.write("| command | input | MB | time, ms | memory, MB | exponent |\n")
    out.write("|---|---|---|---|---|---|\n")
    for command, kind, points in measured:
        size, seconds, memory = points[-1]
        grows = exponent(points[0][:2], points[-1][:2])
        figures = f"{size / 1e6:.1f} | {seconds * 1e3:.0f} | {memory:.0f} | {grows:.2f}"
        out.write(f"| `{command}` | {kind} | {figures} |\n")
        print(out.getvalue().splitlines()[-1], flush=True)
    return out.getvalue()


def has_command(program, command):
    """Whether the program knows a command: an unknown one ends with status 2, whatever there is to read."""
    return run(program, words_of(command), os.devnull)[0] != 2


def machine():
    """On what the figures were measured, as a sentence."""
    cpu = Path("/proc/cpuinfo")
    models = [line.partition(": ")[2] for line in cpu.read_text().split("\n") if line.startswith("model name")]
    model = models[0] if models else "unknown processor"
    return f"Measured on {os.cpu_count()} processors ({model}), at a load of {os.getloadavg()[0]:.1f} when it was done."


def put_into(path, mark, text):
    """Puts a table, and what it was measured on, between the two lines of a file that hold a mark."""
    lines = Path(path).read_text(encoding="utf-8").split("\n")
    first, last = [i for i, line in enumerate(lines) if mark in line]
    lines[first + 1 : last] = ["", text.rstrip("\n"), "", machine(), ""]
    Path(path).write_text("\n".join(lines), encoding="utf-8")


def main():
    parser = argparse.ArgumentParser(description=__doc__, formatter_class=argparse.RawDescriptionHelpFormatter)
    parser.add_argument("program", help="the built program")
    parser.add_argument("--runs", type=int, default=5, help="how often each run is made")
    parser.add_argument("--into", help="a file to put the table into")
    options = parser.parse_args()
    with tempfile.TemporaryDirectory() as folder:
        text = table(rows(options.program, Path(folder), options.runs))
    if options.into:
        put_into(options.into, "figures of measure.py", text)


if __name__ == "__main__":
    sys.exit(main())
