"""Times translation by the number of scripts that have maps.

    python3 bench/scripts.py crates/smap/out/smap LIB [CLI]

LIB is the folder that tools/build-capi made, CLI that of the Node package, if it is built. Prints three tables.
The first: a line through a pipe to `smap-trace`, once it has seen so many distinct names. The second: a log of
--lines lines, each with a query of its own, as it is, with `--context` and with `--source-prefix`. The third: a
call of `smap_translate` with a log of five lines, by so many scripts, in C, in Python and in Node. None of the
figures should grow with the number. Let nothing else run meanwhile.
"""

import argparse
import io
import os
import resource
import statistics
import subprocess
import sys
import tempfile
import time
from pathlib import Path

import make_map

TOP = Path(__file__).resolve().parent.parent
NUMBERS = [1, 1_000, 10_000, 90_000]
SCRIPTS = [1, 100, 10_000]
CALLS = 300
C = r"""
#include <smap.h>
#include <stdio.h>
#include <stdlib.h>
#include <time.h>
#define LINE "    at f (http://h/m/0.js:1:2)\n"
static double now(void) { struct timespec t; clock_gettime(CLOCK_MONOTONIC, &t); return t.tv_sec * 1e6 + t.tv_nsec / 1e3; }
int main(int count, char **words)
{
    static char text[1 << 26], url[64];
    size_t size = fread(text, 1, sizeof text - 1, stdin);
    smap_map map = {0};
    if (!size || smap_open_text(&map, text, "http://h/m/0.js.map", NULL, NULL) != SMAP_OK) return 1;
    for (int i = 1; i < count; i++) {
        smap_scripts scripts = {0};
        for (long j = 0; j < atol(words[i]); j++) {
            snprintf(url, sizeof url, "http://h/m/%ld.js", j);
            if (smap_add_script_text(&scripts, url, &map) != SMAP_OK) return 1;
        }
        double start = 0;
        for (int call = 0; call <= CALLS; call++) {
            smap_bytes out = {0};
            if (call == 1) start = now();
            if (smap_translate_text(&scripts, LINE LINE LINE LINE LINE, 0, &out, NULL) != SMAP_OK) return 1;
            smap_bytes_free(&out);
        }
        printf("%f\n", (now() - start) / CALLS);
        smap_close_scripts(&scripts);
    }
    return 0;
}
"""
NODE = """
const { SourceMap, Scripts } = require(process.argv[1]);
const { readFileSync } = require("fs");
const map = new SourceMap(readFileSync(process.argv[2]), "http://h/m/0.js.map");
for (const number of JSON.parse(process.argv[3])) {
  const scripts = new Scripts();
  for (let i = 0; i < number; i++) scripts.add(`http://h/m/${i}.js`, map);
  const log = "    at f (http://h/m/0.js:1:2)\\n".repeat(5);
  scripts.translate(log);
  const start = process.hrtime.bigint();
  for (let i = 0; i < CALLS; i++) scripts.translate(log);
  console.log(Number(process.hrtime.bigint() - start) / CALLS / 1000);
}
""".replace("CALLS", str(CALLS))


def frame(number, line=1):
    return f"    at f (http://h/m/0.js?v={number}:{line}:2)\n".encode()


def pipe_times(program, folder, numbers):
    """Microseconds for a line with a name that was seen, once so many distinct ones were."""
    words = [program, f"http://h/m/={folder}/"]
    with subprocess.Popen(words, stdin=subprocess.PIPE, stdout=subprocess.PIPE) as run:
        seen = 0
        for number in numbers:
            while seen < number:
                part = min(1_000, number - seen)
                run.stdin.write(b"".join(frame(seen + i) for i in range(part)))
                run.stdin.flush()
                for _ in range(part):
                    run.stdout.readline()
                seen += part
            passed = []
            for i in range(CALLS):
                start = time.perf_counter()
                run.stdin.write(frame(i % number))
                run.stdin.flush()
                if not run.stdout.readline():
                    raise SystemExit("smap-trace ended")
                passed.append(time.perf_counter() - start)
            yield number, statistics.median(passed) * 1e6
        run.stdin.close()
        run.stdout.read()


def log_times(program, folder, log):
    """Seconds of a processor for a log, by the options."""
    for options in [[], ["--context", "1"], ["--source-prefix", "http://h/=x/"]]:
        before = resource.getrusage(resource.RUSAGE_CHILDREN)
        words = [program, *options, f"http://h/m/={folder}/", log]
        subprocess.run(words, stdout=subprocess.DEVNULL, stderr=subprocess.DEVNULL, check=True)
        after = resource.getrusage(resource.RUSAGE_CHILDREN)
        yield " ".join(options[:1]) or "none", after.ru_utime + after.ru_stime - before.ru_utime - before.ru_stime


def c_times(lib, folder, text):
    """Microseconds of a call in C, by the number of scripts."""
    timer = folder / "timer"
    words = ["cc", "-O2", f"-DCALLS={CALLS}", "-x", "c", "-", "-I", lib, "-x", "none", lib / "libsmap.a", "-o", timer]
    subprocess.run(words, input=C, text=True, check=True)
    told = subprocess.run([timer, *map(str, SCRIPTS)], input=text, stdout=subprocess.PIPE, check=True).stdout
    return [float(line) for line in told.split()]


def python_times(lib, text):
    """Microseconds of a call in Python, by the number of scripts."""
    os.environ["SMAP_LIBRARY"] = str(lib / "libsmap.so")
    sys.path.insert(0, str(TOP / "capi" / "python"))
    import smap

    log = b"    at f (http://h/m/0.js:1:2)\n" * 5
    with smap.Map.open(text, "http://h/m/0.js.map") as one:
        for number in SCRIPTS:
            with smap.Scripts({f"http://h/m/{i}.js": one for i in range(number)}) as scripts:
                scripts.translate(log)
                start = time.perf_counter()
                for _ in range(CALLS):
                    scripts.translate(log)
                yield (time.perf_counter() - start) / CALLS * 1e6


def main():
    layout = argparse.RawDescriptionHelpFormatter
    parser = argparse.ArgumentParser(description=__doc__, formatter_class=layout)
    parser.add_argument("program")
    parser.add_argument("lib", type=Path)
    parser.add_argument("node", nargs="?")
    parser.add_argument("--lines", type=int, default=160_000)
    parser.add_argument("--most", type=int, default=NUMBERS[-1])
    words = parser.parse_args()
    with tempfile.TemporaryDirectory() as temp:
        folder = Path(temp) / "maps"
        folder.mkdir()
        text = io.StringIO()
        make_map.write(text, ["--segments", "700", "--names", "20"])
        (folder / "0.js.map").write_text(text.getvalue(), encoding="utf-8")
        trace = Path(temp) / "smap-trace"
        trace.symlink_to(Path(words.program).resolve())
        print("| distinct names so far | a line through a pipe, µs |\n|---|---|")
        for number, passed in pipe_times(trace, folder, [n for n in NUMBERS if n <= words.most]):
            print(f"| {number:,} | {passed:.0f} |", flush=True)
        log = Path(temp) / "log"
        log.write_bytes(b"".join(frame(i) for i in range(words.lines)))
        print(f"\n| option | {words.lines:,} lines, seconds |\n|---|---|")
        for name, used in log_times(trace, folder, log):
            print(f"| {name} | {used:.1f} |", flush=True)
        data = text.getvalue().encode()
        columns = {"C": c_times(words.lib, Path(temp), data), "Python": list(python_times(words.lib, data))}
        if words.node:
            given = [words.node, folder / "0.js.map", str(SCRIPTS)]
            told = subprocess.run(["node", "-e", NODE, *given], capture_output=True, text=True, check=True).stdout
            columns["Node"] = [float(line) for line in told.split()]
        print(f"\n| scripts | {' | '.join(f'a call in {name}, µs' for name in columns)} |")
        print("|---|" + "---|" * len(columns))
        for number, row in zip(SCRIPTS, zip(*columns.values())):
            print(f"| {number:,} | {' | '.join(f'{passed:.0f}' for passed in row)} |")


if __name__ == "__main__":
    main()
