"""Times smap-trace: its start by the number of maps, a large log beside `smap translate`, and its memory.

    python3 bench/trace.py crates/smap/out/smap
    python3 bench/trace.py crates/smap/out/smap --into docs/PERFORMANCE.md
    python3 bench/trace.py crates/smap/out/smap --before FOLDER
    python3 bench/trace.py crates/smap/out/smap --names
    python3 bench/trace.py crates/smap/out/smap --once

Prints three tables. The first is of a short log that names three scripts, by the number of maps in the folder;
the second of a log of --megabytes; the third of logs that name many maps, by their number. The log is a file,
or comes through a pipe. With --into the tables are put between the two lines of that file that hold `figures of
trace.py`. With --before the shell scripts that were smap-trace earlier, those of the commit c31943b, are put
into FOLDER and measured beside. With --names only another table is printed, of logs without and with
that option. Before anything is timed, each way has to write of a log what `smap translate`
writes of it. Takes twice the megabytes of disk. Let nothing else run meanwhile.

With --once all is small, and each run is made once, and has to keep within bounds: on the time of the
processors, by that of `smap translate`, and on memory, by that of a start with one map. The last line is `N
passed, M failed`.
"""

import argparse
import io
import json
import os
import random
import re
import shutil
import signal
import statistics
import subprocess
import sys
import tempfile
from dataclasses import dataclass, replace
from pathlib import Path

import make_map
from measure import put_into

TOP = Path(__file__).resolve().parent.parent
URL = "http://h/m/"
BEFORE = "c31943b"
SCRIPTS = ["smap-trace", "smap-trace-log.sh", "smap-trace-maps.sh", "smap-check.sh", "smap-common.sh"]

# How many mappings a map of the first table has. It has 4.9 KB then.
START_SEGMENTS = 700
# How many scripts the log of the second table names.
MAPS_OF_LOG = 10
# How many lines of a log are made; they come again until it is as long as it has to be.
LINES = 200_000

# A function of a source, the tokens of it that have mappings, and how many functions have 1 MB.
FUNCTION = "function total{0}(items, rate) {{ return items.reduce(scale{0}, rate) * {0}; }}\n"
NAME = re.compile(r"(?!function|return)[a-z]\w*")
FUNCTIONS_OF_MB = 12_000

# What a run may take with --once: so many times the seconds of `smap translate` and so many more; and so many
# MB more than a start with one map, and for each map that is named.
MOST_TIMES = 3
MOST_SECONDS = 1
MOST_MEMORY = 12
MOST_FOR_MAP = 1


@dataclass
class Sizes:
    """How much is measured."""

    megabytes: int
    runs: int
    maps: list
    named: list
    segments: int


ONCE = Sizes(megabytes=20, runs=1, maps=[1, 40], named=[1, 20], segments=2_000)


# ---- inputs


def make_maps(folder, many, segments):
    """A folder of maps, each a file of its own, with what a bundler writes for so many mappings."""
    text = io.StringIO()
    sizes = ["--sources", str(min(40, max(3, segments // 100))), "--names", str(segments // 25)]
    make_map.write(text, ["--segments", str(segments), "--content", "0", *sizes])
    folder.mkdir()
    for number in range(many):
        (folder / f"{number}.js.map").write_text(text.getvalue(), encoding="utf-8")
    return folder


def map_of_functions(functions):
    """A map of a source of so many functions, of which each is a line there and in the script."""
    names, rows, last = {}, [], [0, 0, 0, 0]
    lines = [FUNCTION.format(number) for number in range(functions)]
    for line, text in enumerate(lines):
        row = []
        for token in NAME.finditer(text):
            place = [0, line, token.start(), names.setdefault(token[0], len(names))]
            row.append((2 if row else 0, *(now - before for now, before in zip(place, last))))
            last = place
        rows.append(",".join("".join(map(make_map.difference, one)) for one in row))
    made = {"sources": ["a.js"], "sourcesContent": ["".join(lines)], "names": list(names)}
    return json.dumps({"version": 3, **made, "mappings": ";".join(rows)})


def log_lines(maps, lines, segments):
    """Lines of a log: a message, and four frames in these scripts. Each script is named, if there are enough."""
    draw = random.Random(maps)
    for line in range(lines):
        if line % 5 == 0:
            yield f"2026-11-26 Error: number {line}\n"
        else:
            frame = line // 5 * 4 + line % 5 - 1
            script = f"{URL}{frame if frame < maps else draw.randrange(maps)}.js"
            place = f"{draw.randint(1, max(1, segments // 40))}:{draw.randint(1, 400)}"
            yield f"    at call{line % 999} ({script}:{place})\n"


def write_log(path, lines, size=0, head=""):
    """A file of these lines, which come again until they have about this size."""
    text = "".join(lines).encode()
    with open(path, "wb") as out:
        out.write(head.encode())
        for _ in range(max(1, round(size / len(text)))):
            out.write(text)
    return path


def bundle_of(folder, maps):
    """What stands before the log for `smap translate`."""
    parts = []
    for number in range(maps):
        text = (folder / f"{number}.js.map").read_text(encoding="utf-8")
        parts.append(f"map {URL}{number}.js {URL}{number}.js.map {len(text)}\n{text}\n")
    return "".join(parts) + "trace\n"


# ---- runs

# Runs programs, one for each line of its input. A process begins with the peak memory of the one that it was
# forked from: so this one stays small. Through a pipe the log comes from another process, which isn't counted.
STARTER = """
import json, os, sys, time
def child(source, sink, said, words):
    os.dup2(source, 0)
    os.dup2(sink, 1)
    os.dup2(said, 2)
    os.execvp(words[0], words)
for line in sys.stdin:
    words, source, sink, piped = json.loads(line)
    source = os.open(source, os.O_RDONLY)
    sink = os.open(sink, os.O_WRONLY | os.O_CREAT | os.O_TRUNC)
    nothing = os.open(os.devnull, os.O_WRONLY)
    feeder = None
    start = time.monotonic()
    if piped:
        source_of_feeder, (source, into) = source, os.pipe()
        feeder = os.fork()
        if feeder == 0:
            os.close(source)
            child(source_of_feeder, into, nothing, ["cat"])
        os.close(source_of_feeder)
        os.close(into)
    pid = os.fork()
    if pid == 0:
        child(source, sink, nothing, words)
    for one in (source, sink, nothing):
        os.close(one)
    _, status, used = os.wait4(pid, 0)
    passed = time.monotonic() - start
    if feeder:
        os.waitpid(feeder, 0)
    status = os.waitstatus_to_exitcode(status)
    print(json.dumps([status, passed, used.ru_utime + used.ru_stime, used.ru_maxrss / 1024]), flush=True)
"""


@dataclass
class Used:
    """Seconds as they pass, those of the processors, user and system, and MB at the peak."""

    passed: float
    processors: float
    memory: float


class Runner:
    """Runs programs. What they start counts with them."""

    def __init__(self, runs):
        words = [sys.executable, "-S", "-E", "-c", STARTER]
        self.process = subprocess.Popen(words, stdin=subprocess.PIPE, stdout=subprocess.PIPE, text=True)
        self.runs = runs

    def once(self, words, log, piped=False, sink=os.devnull):
        self.process.stdin.write(json.dumps([list(map(str, words)), str(log), str(sink), piped]) + "\n")
        self.process.stdin.flush()
        status, *used = json.loads(self.process.stdout.readline())
        if status != 0:
            raise SystemExit(f"status {status}: {' '.join(map(str, words))}")
        return Used(*used)

    def median(self, words, log, piped=False):
        seen = [self.once(words, log, piped) for _ in range(self.runs)]
        return Used(
            statistics.median(one.passed for one in seen),
            statistics.median(one.processors for one in seen),
            max(one.memory for one in seen),
        )


@dataclass
class Way:
    """A program that translates a log by a folder of maps."""

    name: str
    program: str
    piped: bool = False
    alone: bool = False

    def words(self, folder):
        return [self.program, folder if self.alone else f"{URL}={folder}/"]


def ways_of(before):
    """The ways that are measured. The scripts of `before` are asked as they were: they know no folder alone."""
    ways = [
        Way("a file", "smap-trace"),
        Way("a pipe", "smap-trace", piped=True),
        Way("a file, FOLDER alone", "smap-trace", alone=True),
    ]
    if before:
        ways.append(Way("a file, before", before / "smap-trace"))
        ways.append(Way("a pipe, before", before / "smap-trace", piped=True))
    return ways


# ---- what is measured


def different(runner, temp, program, ways):
    """The ways that write otherwise than `smap translate` does."""
    folder = make_maps(temp / "same", 3, 2_000)
    lines = list(log_lines(3, 20_000, 2_000))
    bundle = write_log(temp / "bundle", lines, head=bundle_of(folder, 3))
    log = write_log(temp / "log", lines)
    runner.once([program, "translate"], bundle, sink=temp / "wanted")
    wanted = (temp / "wanted").read_bytes()
    if wanted == log.read_bytes():
        raise SystemExit("smap translates nothing")
    for way in ways:
        runner.once(way.words(folder), log, way.piped, temp / "written")
        if (temp / "written").read_bytes() != wanted:
            yield way.name


def starts(runner, temp, ways, sizes):
    """For each number of maps, what each way takes for a log that names three of their scripts."""
    for maps in sizes.maps:
        folder = make_maps(temp / f"start{maps}", maps, START_SEGMENTS)
        log = write_log(temp / "log", log_lines(min(3, maps), 20, START_SEGMENTS))
        yield maps, [runner.median(way.words(folder), log, way.piped) for way in ways]


def large(runner, temp, program, ways, sizes):
    """The MB of the log, and what each way takes for it; first `smap translate`."""
    folder = make_maps(temp / "large", MAPS_OF_LOG, sizes.segments)
    size = sizes.megabytes * 1_000_000
    # a line has 38 bytes or more
    lines = list(log_lines(MAPS_OF_LOG, min(LINES, size // 38), sizes.segments))
    bundle = write_log(temp / "bundle", lines, size, head=bundle_of(folder, MAPS_OF_LOG))
    seen = [runner.median([program, "translate"], bundle)]
    bundle.unlink()
    log = write_log(temp / "log", lines, size)
    seen += [runner.median(way.words(folder), log, way.piped) for way in ways]
    return log.stat().st_size / 1e6, seen


def memories(runner, temp, ways, sizes):
    """For each number of maps that a log names, what each way takes."""
    folder = make_maps(temp / "many", max(sizes.named), sizes.segments)
    for named in sizes.named:
        log = write_log(temp / "log", log_lines(named, max(20_000, 2 * named), sizes.segments))
        yield named, [runner.median(way.words(folder), log, way.piped) for way in ways]


def with_and_without_names(runner, temp, maps, functions, size):
    """What a log takes whose frames are in such maps, without names of functions and with them; its MB."""
    folder, text = temp / f"functions{maps}", map_of_functions(functions)
    folder.mkdir()
    for number in range(maps):
        (folder / f"{number}.js.map").write_text(text)
    draw = random.Random(maps)
    lines = [
        f"    at t ({URL}{line % maps}.js:{draw.randint(1, functions)}:{draw.randint(1, 14)})\n"
        for line in range(max(maps, min(LINES, size // 38)))
    ]
    log = write_log(temp / "log", lines, size)
    seen = [runner.median(["smap-trace", *words, f"{URL}={folder}/"], log) for words in ([], ["--names"])]
    shutil.rmtree(folder)
    return log.stat().st_size / 1e6, seen


# ---- tables


def row_of(cells):
    row = "| " + " | ".join(cells) + " |"
    print(row, flush=True)
    return row + "\n"


def head_of(cells):
    rule = "|---" * len(cells) + "|"
    head = row_of(cells)
    print(rule)
    return head + rule + "\n"


def in_seconds(used):
    return f"{used.passed:.3f} ({used.processors:.3f})"


def table_of_starts(runner, temp, ways, sizes):
    out = head_of(["maps", *(way.name for way in ways)])
    for maps, seen in starts(runner, temp, ways, sizes):
        out += row_of([f"{maps:,}", *map(in_seconds, seen)])
    return out + (
        "\nSeconds as they pass, and in brackets those of the processors, user and system. "
        "The maps have 4.9 KB, and the log names three.\n"
    )


def table_of_large(runner, temp, program, ways, sizes):
    megabytes, seen = large(runner, temp, program, ways, sizes)
    out = head_of(["the log", "seconds", "of the processors", "MB a second", "memory, MB"])
    for name, used in zip(["`smap translate`", *(way.name for way in ways)], seen):
        speed = f"{megabytes / used.passed:,.0f}"
        out += row_of([name, f"{used.passed:.2f}", f"{used.processors:.2f}", speed, f"{used.memory:.0f}"])
    return out + (
        f"\nA log of {megabytes:,.0f} MB, in which four lines of five are frames, in {MAPS_OF_LOG} scripts. "
        f"Each map has {sizes.segments:,} mappings.\n"
    )


def table_of_memory(runner, temp, ways, sizes):
    out = head_of(["maps that the log names", *(f"{way.name}, MB" for way in ways)])
    for named, seen in memories(runner, temp, ways, sizes):
        out += row_of([f"{named:,}", *(f"{used.memory:.1f}" for used in seen)])
    size = (temp / "many" / "0.js.map").stat().st_size
    return out + (
        f"\nThe folder has {max(sizes.named):,} maps, each of {size / 1e3:,.0f} KB "
        f"with {sizes.segments:,} mappings and no contents.\n"
    )


def tell_names(runner, temp, megabytes):
    """Prints the table of logs whose frames all get names, and of one frame in each of some large sources."""
    head_of(["sources", "functions of each", "MB of the log", "seconds", "with `--names`"])
    large = [(maps, FUNCTIONS_OF_MB, 0) for maps in (1, 10, 100)]
    for maps, functions, size in [(MAPS_OF_LOG, 1_000, megabytes * 1_000_000), *large]:
        length, seen = with_and_without_names(runner, temp, maps, functions, size)
        seconds = [f"{used.processors:.2f}" for used in seen]
        row_of([f"{maps:,}", f"{functions:,}", f"{length:,.1f}", *seconds])


# ---- with --once


class Checks:
    """How many things were as they have to be."""

    def __init__(self):
        self.passed = 0
        self.failed = 0
        # the MB of a start with one map
        self.least = None

    def hold(self, what, used, seconds, maps=0):
        """Whether it took at most so many seconds, and the memory for so many maps."""
        self.least = self.least or used.memory
        megabytes = self.least + MOST_MEMORY + MOST_FOR_MAP * maps
        wrong = []
        if used.processors > seconds:
            wrong.append(f"not {seconds:.2f} s")
        if used.memory > megabytes:
            wrong.append(f"not {megabytes:.1f} MB")
        self.tell(f"{used.processors:6.2f} s {used.memory:6.1f} MB  {what}", ", ".join(wrong))

    def tell(self, what, wrong):
        print(what, f"FAILED: {wrong}" if wrong else "", flush=True)
        self.passed += not wrong
        self.failed += bool(wrong)


def check(runner, temp, program, sizes):
    """Makes each run once, and holds it to its bounds."""
    checks, ways = Checks(), ways_of(None)
    other = list(different(runner, temp, program, ways))
    checks.tell("each way writes what smap translate does", ", ".join(other))
    for maps, seen in starts(runner, temp, ways, sizes):
        for way, used in zip(ways, seen):
            checks.hold(f"a start with {maps} maps: {way.name}", used, MOST_SECONDS, min(3, maps))
    megabytes, [translated, *seen] = large(runner, temp, program, ways, sizes)
    most = MOST_TIMES * translated.processors + MOST_SECONDS
    for way, used in zip(ways, seen):
        checks.hold(f"a log of {megabytes:.0f} MB: {way.name}", used, most, MAPS_OF_LOG)
    for named, seen in memories(runner, temp, ways, sizes):
        for way, used in zip(ways, seen):
            checks.hold(f"{named} of {max(sizes.named)} maps: {way.name}", used, most, named)
    print(f"{checks.passed} passed, {checks.failed} failed")
    return 1 if checks.failed else 0


# ---- the programs


def put_on_path(program, temp):
    """Makes the program the one that is called by the name smap-trace."""
    (temp / "bin").mkdir()
    (temp / "bin" / "smap-trace").symlink_to(program)
    os.environ["PATH"] = f"{temp / 'bin'}:{os.environ['PATH']}"
    # by which the scripts of --before find it
    os.environ["SMAP"] = str(program)


def put_scripts_into(folder):
    """Writes the shell scripts of the earlier commit into a folder."""
    folder.mkdir(parents=True, exist_ok=True)
    for name in SCRIPTS:
        words = ["git", "-C", str(TOP), "show", f"{BEFORE}:scripts/{name}"]
        (folder / name).write_bytes(subprocess.run(words, check=True, stdout=subprocess.PIPE).stdout)
        (folder / name).chmod(0o755)


def measure(runner, temp, program, ways, sizes):
    """The tables."""
    other = list(different(runner, temp, program, ways))
    if other:
        raise SystemExit(f"not what smap translate writes: {', '.join(other)}")
    tables = [table_of_starts(runner, temp, ways, sizes)]
    tables.append(table_of_large(runner, temp, program, ways, sizes))
    tables.append(table_of_memory(runner, temp, ways, sizes))
    return "\n".join(tables)


def main():
    signal.signal(signal.SIGTERM, lambda *_: sys.exit("ended from outside"))
    layout = argparse.RawDescriptionHelpFormatter
    parser = argparse.ArgumentParser(description=__doc__, formatter_class=layout)
    parser.add_argument("program", type=Path, help="the built program smap")
    parser.add_argument("--once", action="store_true", help="all small, once, within bounds")
    parser.add_argument("--before", type=Path, metavar="FOLDER", help="where the earlier scripts are put")
    parser.add_argument("--into", help="a file to put the tables into")
    parser.add_argument("--names", action="store_true", help="the table of names of functions alone")
    parser.add_argument("--megabytes", type=int, help="of the log of the second table, 1,000")
    parser.add_argument("--runs", type=int, default=5, help="how often each run is made")
    parser.add_argument("--maps", type=int, nargs="+", default=[1, 500, 2000], help="of the first table")
    parser.add_argument("--named", type=int, nargs="+", default=[1, 10, 100, 1000], help="of the third table")
    parser.add_argument("--segments", type=int, default=50_000, help="of a map of the last two tables")
    words = parser.parse_args()
    before = words.before and words.before.resolve()
    if before:
        put_scripts_into(before)
    with tempfile.TemporaryDirectory() as folder:
        temp, program = Path(folder), words.program.resolve()
        put_on_path(program, temp)
        if words.once:
            sizes = replace(ONCE, megabytes=words.megabytes or ONCE.megabytes)
            return check(Runner(1), temp, program, sizes)
        if words.names:
            tell_names(Runner(words.runs), temp, words.megabytes or 1000)
            return 0
        sizes = Sizes(words.megabytes or 1000, words.runs, words.maps, words.named, words.segments)
        text = measure(Runner(sizes.runs), temp, program, ways_of(before), sizes)
    if words.into:
        put_into(words.into, "figures of trace.py", text)
    return 0


if __name__ == "__main__":
    sys.exit(main())
