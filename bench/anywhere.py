"""Times traces in which positions are found in frames, and anywhere, with few scripts and with many.

    python3 bench/anywhere.py crates/smap/out/smap

Prints the processor time of each way (the median of some runs) less that of the same bundle with an empty
trace, for 10 scripts and for 1,000, over the same lines: frames alone, log lines with a frame in them, and
lines that have a colon and a digit but no position. Let nothing else run meanwhile.
"""

import argparse
import resource
import statistics
import subprocess
import tempfile

WAYS = [[], ["--anywhere"], ["--anywhere", "--ignore-query"]]
KINDS = [
    ("frames", "    at f{0} (https://example.com/static/js/chunk-{1}.js:1:{2})\n"),
    (
        "frames in log lines",
        "2026-11-25T10:20:30.123Z error [{0}] at https://example.com/static/js/chunk-{1}.js:1:{2}, done\n",
    ),
    ("times and ports", "2026-11-25T10:20:30.123Z info [{0}] GET 127.0.0.1:8080 chunk {1} in {2} ms\n"),
]
MAP = '{"version":3,"sources":["a.js"],"names":[],"mappings":"' + "AAAA,EAAE," * 500 + 'EAAE"}'


def bundle(scripts):
    """The header and map of each script, up to the line `trace`."""
    url = "https://example.com/static/js/chunk-{}.js"
    entries = (f"map {url.format(n)} {url.format(n)}.map {len(MAP)}\n{MAP}\n" for n in range(scripts))
    return "".join(entries) + "trace\n"


def seconds(program, words, text):
    """The processor time of a run over the text."""
    with tempfile.TemporaryFile() as file:
        file.write(text)
        file.seek(0)
        before = resource.getrusage(resource.RUSAGE_CHILDREN)
        whole = [program, "translate", *words]
        done = subprocess.run(whole, stdin=file, stdout=subprocess.DEVNULL, check=False)
        after = resource.getrusage(resource.RUSAGE_CHILDREN)
    if done.returncode:
        raise SystemExit(f"translate {' '.join(words)}: status {done.returncode}")
    return after.ru_utime + after.ru_stime - before.ru_utime - before.ru_stime


def main():
    parser = argparse.ArgumentParser(description=__doc__.splitlines()[0])
    parser.add_argument("program")
    parser.add_argument("--lines", type=int, default=1_000_000)
    parser.add_argument("--runs", type=int, default=5)
    given = parser.parse_args()
    print("| lines | scripts | way | seconds | to frames | to 10 scripts |\n|---|---|---|---|---|---|")
    for kind, form in KINDS:
        lines = "".join(form.format(n % 97, n % 10, n % 1000 + 1) for n in range(given.lines))
        few = {}
        for scripts in 10, 1000:
            front = bundle(scripts).encode()
            of_frames = None
            for words in WAYS:
                def median(text):
                    return statistics.median(seconds(given.program, words, text) for _ in range(given.runs))

                taken = median(front + lines.encode()) - median(front)
                of_frames = of_frames or taken
                few.setdefault(tuple(words), taken)
                way = " ".join(words) or "frames"
                ratio = taken / few[tuple(words)]
                figures = f"{taken:.2f} | {taken / of_frames:.2f} | {ratio:.2f}"
                print(f"| {kind} | {scripts} | {way} | {figures} |", flush=True)


if __name__ == "__main__":
    main()
