"""Times logs by many maps: the store of the Python module, smap-trace, GNU parallel and a cluster.

    python3 bench/scale.py crates/smap/out/smap LIB

LIB is the folder that tools/build-capi made. Prints two tables. The first is of one process by the number of
maps that the log names, in processor time; the second of several by their number, in time as it passes. All
lines of the logs are frames, at random positions. What needs a tool that isn't at hand (parallel,
dask.distributed) is a gap in its table. Takes about 1 GB of disk and 4 GB of memory. Let nothing else run
meanwhile.
"""

import argparse
import io
import json
import os
import random
import resource
import shutil
import signal
import subprocess
import sys
import tempfile
import time
from pathlib import Path

import make_map

TOP = Path(__file__).resolve().parent.parent
URL = "http://h/m/"


def put_on_path(program, temp):
    """Makes the program the one that is called by the name smap-trace."""
    (temp / "bin").mkdir()
    (temp / "bin" / "smap-trace").symlink_to(program.resolve())
    os.environ["PATH"] = f"{temp / 'bin'}:{os.environ['PATH']}"


def make_maps(temp, many, segments):
    """A folder of maps, all links to one file: its text is what a bundler writes for so many mappings."""
    folder = temp / "dist"
    folder.mkdir()
    sizes = ["--segments", str(segments), "--sources", "40", "--names", "2000", "--content", "0"]
    with open(temp / "map", "w", encoding="utf-8") as out:
        make_map.write(out, sizes)
    for number in range(many):
        os.link(temp / "map", folder / f"{number}.js.map")
    return folder


def write_log(path, maps, lines, generated):
    """A log of frames in so many scripts, at positions on so many lines of the generated text."""
    numbers = random.Random(maps)
    with open(path, "w", encoding="utf-8") as out:
        for line in range(lines):
            script = f"{URL}{line % maps if line < maps else numbers.randrange(maps)}.js"
            out.write(f"    at f ({script}:{numbers.randint(1, generated)}:{numbers.randint(1, 900)})\n")
    return path


# ---- one process

CHILD = """
import json, sys, time
import smap
folder, log, url, maps = sys.argv[1:4] + [int(sys.argv[4])]
def resident():
    with open("/proc/self/statm") as pages:
        return int(pages.read().split()[1]) * 4096
store = smap.Store({url: folder}, cache_bytes=1 << 40)
data = open(log, "rb").read()
before, start = resident(), time.process_time()
for number in range(maps):
    store.lookup(f"{url}{number}.js", 0, 0)
opened, memory = time.process_time() - start, resident() - before
times = []
for _ in range(3):
    start = time.process_time()
    store.translate(data)
    times.append(time.process_time() - start)
counts = store.counts
print(json.dumps([opened / maps, memory / maps, sorted(times)[1], counts.translated]))
"""


def in_store(folder, log, maps):
    """Seconds to open a map, bytes of memory that it takes, seconds for the log."""
    words = [sys.executable, "-B", "-c", CHILD, str(folder), str(log), URL, str(maps)]
    told = subprocess.run(words, check=True, capture_output=True, text=True).stdout
    opened, memory, seconds, translated = json.loads(told)
    if not translated:
        raise SystemExit("the store translates nothing")
    return opened, memory, seconds


def by_trace(folder, log):
    """Seconds of processor time of smap-trace."""
    before = resource.getrusage(resource.RUSAGE_CHILDREN)
    with open(log, "rb") as data:
        words = ["smap-trace", f"{URL}={folder}/"]
        subprocess.run(words, stdin=data, stdout=subprocess.DEVNULL, check=True)
    after = resource.getrusage(resource.RUSAGE_CHILDREN)
    return after.ru_utime + after.ru_stime - before.ru_utime - before.ru_stime


def table_of_maps(temp, folder, words, size):
    out = io.StringIO()
    out.write("| maps that the log names | store: to open a map, ms | memory of an open map, MB ")
    out.write("| of a mapping, bytes | lines a second, maps open | `smap-trace`: lines a second |\n")
    out.write("|---|---|---|---|---|---|\n")
    for maps in words.maps:
        log = write_log(temp / "log", maps, words.lines, words.segments // 50)
        opened, memory, seconds = in_store(folder, log, maps)
        traced = by_trace(folder, log)
        out.write(f"| {maps:,} | {opened * 1e3:.1f} | {memory / 1e6:.2f} | {memory / words.segments:.0f} ")
        out.write(f"| {words.lines / seconds:,.0f} | {words.lines / traced:,.0f} |\n")
        print(out.getvalue().splitlines()[-1], flush=True)
    out.write(f"\n{words.lines:,} lines; each map has {words.segments:,} mappings in {size / 1e6:.1f} MB, ")
    out.write(f"and no contents. The folder has {max(words.maps):,}; `smap-trace` is timed with its start.\n")
    return out.getvalue()


# ---- several processes


def timed(words, **more):
    start = time.time()
    subprocess.run(words, check=True, stdout=subprocess.DEVNULL, stderr=subprocess.DEVNULL, **more)
    return time.time() - start


def by_parallel(folder, logs, workers):
    """Seconds of the recipe of docs/SCALE.md over the logs, one after the other; None without the program."""
    if not shutil.which("parallel"):
        return None
    seconds = 0.0
    for log in logs:
        block = max(1, log.stat().st_size // workers + 100)
        trace = f"smap-trace {URL}={folder}/ <{{}}"
        words = ["parallel", "-j", str(workers), "--pipepart", "-a", str(log), "--block", str(block)]
        seconds += timed([*words, "-k", "--cat", trace])
    return seconds


def python_with_dask():
    for python in ("python3", "/usr/bin/python3"):
        words = [python, "-c", "import dask.bytes, distributed"]
        if subprocess.run(words, stderr=subprocess.DEVNULL).returncode == 0:
            return python
    return None


WAIT = """
import sys
from distributed import Client
Client(scheduler_file=sys.argv[1]).wait_for_workers(int(sys.argv[2]))
"""


def by_cluster(temp, folder, logs, workers):
    """Seconds of the example cluster.py, with its start, once the workers run; None without Dask."""
    python = python_with_dask()
    if python is None:
        return None
    file = temp / f"scheduler{workers}.json"
    common = ["--no-dashboard", "--scheduler-file", str(file)]
    quiet = {"stdout": subprocess.DEVNULL, "stderr": subprocess.DEVNULL, "cwd": temp}
    words = [python, "-m", "distributed.cli.dask_scheduler", "--host", "127.0.0.1", "--port", "0", *common]
    running = [subprocess.Popen(words, **quiet)]
    try:
        while not (file.exists() and file.stat().st_size):
            if running[0].poll() is not None:
                raise SystemExit("the scheduler ended")
            time.sleep(0.1)
        for number in range(workers):
            own = ["--no-nanny", "--nthreads", "1", "--local-directory", str(temp / f"{workers}.{number}")]
            words = [python, "-m", "distributed.cli.dask_worker", *own, *common]
            running.append(subprocess.Popen(words, **quiet))
        subprocess.run([python, "-c", WAIT, str(file), str(workers)], check=True, **quiet)
        example = [python, str(TOP / "capi" / "examples" / "cluster.py"), "--scheduler-file", str(file)]
        example += ["--out", str(temp / f"out{workers}"), "--map", f"{URL}={folder}", "--block", "10000000"]
        return timed([*example, *map(str, logs)])
    finally:
        for process in running:
            process.kill()
            process.wait()


def table_of_workers(temp, folder, words):
    out = io.StringIO()
    out.write("| workers | GNU `parallel`: MB a second | lines a second ")
    out.write("| cluster: MB a second | lines a second | lines a day |\n|---|---|---|---|---|---|\n")
    logs = []
    for number in range(words.files):
        lines = words.megabytes * 1_000_000 // words.files // 44
        logs.append(write_log(temp / f"{number}.log", min(100, max(words.maps)), lines, words.segments // 50))
    size = sum(log.stat().st_size for log in logs)
    lines = sum(log.read_bytes().count(b"\n") for log in logs)
    for workers in words.workers:
        cells = []
        for seconds in (by_parallel(folder, logs, workers), by_cluster(temp, folder, logs, workers)):
            cells += [f"{size / 1e6 / seconds:.1f}", f"{lines / seconds:,.0f}"] if seconds else ["", ""]
        day = f"{lines / seconds * 86_400 / 1e9:,.1f} billion" if seconds else ""
        out.write(f"| {workers} | {' | '.join(cells)} | {day} |\n")
        print(out.getvalue().splitlines()[-1], flush=True)
    maps = min(100, max(words.maps))
    out.write(f"\n{size / 1e6:.0f} MB in {words.files} files, {lines:,} lines, {maps} maps; ")
    out.write("timed with the start of `smap-trace` for each part of each file, and of `cluster.py`.\n")
    return out.getvalue()


def main():
    signal.signal(signal.SIGTERM, lambda *_: sys.exit("ended from outside"))
    layout = argparse.RawDescriptionHelpFormatter
    parser = argparse.ArgumentParser(description=__doc__, formatter_class=layout)
    parser.add_argument("program", type=Path)
    parser.add_argument("lib", type=Path)
    parser.add_argument("--maps", type=int, nargs="+", default=[1, 10, 100, 1000])
    parser.add_argument("--workers", type=int, nargs="+", default=[1, 2, 4])
    parser.add_argument("--lines", type=int, default=500_000, help="of the log of the first table")
    parser.add_argument("--segments", type=int, default=50_000, help="of a map")
    parser.add_argument("--megabytes", type=int, default=200, help="of the logs of the second table")
    parser.add_argument("--files", type=int, default=20, help="in which these are")
    words = parser.parse_args()
    os.environ["SMAP_LIBRARY"] = str(words.lib.resolve() / "libsmap.so")
    os.environ["PYTHONPATH"] = str(TOP / "capi" / "python")
    with tempfile.TemporaryDirectory() as folder:
        temp = Path(folder)
        put_on_path(words.program, temp)
        dist = make_maps(temp, max(words.maps), words.segments)
        table_of_maps(temp, dist, words, (temp / "map").stat().st_size)
        table_of_workers(temp, dist, words)


main()
