"""Times smap-events: how many events of each shape a process translates in a second of a processor.

    python3 bench/events.py capi/out/libsmap.so [--events N]

Each event has 15 frames in two scripts, whose positions are 2,000 at random, so that frames come again; the
maps have 20,000 mappings and the contents of 50 sources each. `bare` is without lines of the sources and without
the stacks as they were (--no-raw --context 0), `all` with both, where no two events have the same stack; `again`
is as `all`, of 100 different stacks, and `new` of frames at any of 100,000 positions, few of which come again.
`json` is what Python's json takes to read such events and to write them again, with nothing translated. The start
of the program is left out.
"""

import argparse
import json
import os
import random
import resource
import subprocess
import sys
import tempfile
import time
from pathlib import Path

TOP = Path(__file__).resolve().parent.parent
PROGRAM = TOP / "capi" / "python" / "smap-events"
DIGITS = "ABCDEFGHIJKLMNOPQRSTUVWXYZabcdefghijklmnopqrstuvwxyz0123456789+/"
FRAMES, SOURCES, LINES, MAPPINGS, POSITIONS, STACKS = 15, 50, 400, 20_000, 2_000, 100
FOLDER = "https://shop.example/assets/"


def vlq(number):
    left, text = -number * 2 + 1 if number < 0 else number * 2, ""
    while True:
        digit, left = left & 31, left >> 5
        text += DIGITS[digit + 32 * (left > 0)]
        if not left:
            return text


def map_of(dice, name):
    """A map of one generated line, with a mapping at each fifth column."""
    content = "".join(f"  const value{line} = compute(item{line}, {line});\n" for line in range(LINES))
    segments, before = [], (0, 0, 0)
    for number in range(MAPPINGS):
        place = number * SOURCES // MAPPINGS, dice.randrange(LINES), dice.randrange(40)
        moved = [now - then for now, then in zip(place, before)]
        segments.append("".join(map(vlq, [5 * (number > 0), *moved])))
        before = place
    sources = [f"src/{name}/{number}.ts" for number in range(SOURCES)]
    contents = [content] * SOURCES
    return {"version": 3, "sources": sources, "sourcesContent": contents, "mappings": ",".join(segments)}


def sentry(places):
    frames = [
        {"filename": script, "function": "f", "in_app": True, "lineno": 1, "colno": column}
        for script, column in places
    ]
    crumbs = [{"timestamp": 1764115200.5, "category": "ui.click", "message": "button"}] * 10
    value = {"type": "TypeError", "value": "x is undefined", "stacktrace": {"frames": frames}}
    return {"platform": "javascript", "breadcrumbs": crumbs, "exception": {"values": [value]}}


def bugsnag(places):
    stack = [
        {"file": script, "method": "f", "lineNumber": 1, "columnNumber": column} for script, column in places
    ]
    exception = {"errorClass": "TypeError", "message": "x is undefined", "stacktrace": stack}
    return {"payloadVersion": "5", "events": [{"exceptions": [exception], "severity": "error"}]}


def rollbar(places):
    frames = [{"filename": script, "lineno": 1, "colno": column, "method": "f"} for script, column in places]
    trace = {"frames": frames, "exception": {"class": "TypeError", "message": "x is undefined"}}
    return {"data": {"environment": "production", "body": {"trace": trace}, "level": "error"}}


def text(places):
    return "\n".join(["TypeError: x is undefined", *(f"    at f ({url}:1:{column})" for url, column in places)])


def ecs(places):
    error = {"type": "TypeError", "message": "x is undefined", "stack_trace": text(places)}
    return {"@timestamp": "2026-11-26T00:00:00.000Z", "log.level": "error", "error": error}


def otlp(places):
    stack = {"key": "exception.stacktrace", "value": {"stringValue": text(places)}}
    record = {"timeUnixNano": "1764115200000000000", "severityNumber": 17, "attributes": [stack]}
    return {"resourceLogs": [{"scopeLogs": [{"logRecords": [record]}]}]}


def seconds(words, environment):
    """What a program takes of a processor."""
    before = resource.getrusage(resource.RUSAGE_CHILDREN)
    none = subprocess.DEVNULL
    done = subprocess.run(words, stdout=none, stderr=subprocess.PIPE, env=environment, check=False)
    if done.returncode:
        sys.exit(done.stderr.decode())
    after = resource.getrusage(resource.RUSAGE_CHILDREN)
    return after.ru_utime + after.ru_stime - before.ru_utime - before.ru_stime


def of_json(lines):
    before = time.process_time()
    for line in lines:
        json.dumps(json.loads(line), separators=(",", ":"))
    return time.process_time() - before


def main():
    raw = argparse.RawDescriptionHelpFormatter
    parser = argparse.ArgumentParser(description=__doc__, formatter_class=raw)
    parser.add_argument("library")
    parser.add_argument("--events", type=int, default=20_000)
    given = parser.parse_args()
    environment = {**os.environ, "SMAP_LIBRARY": os.path.abspath(given.library)}
    environment.update(PYTHONPATH=str(PROGRAM.parent), PYTHONDONTWRITEBYTECODE="1")
    dice = random.Random(1)
    scripts = ["a.js", "b.js"]
    columns = [dice.randrange(1, 5 * MAPPINGS) for _ in range(POSITIONS)]
    with tempfile.TemporaryDirectory() as temp:
        dist = Path(temp, "dist")
        dist.mkdir()
        for name in scripts:
            (dist / f"{name}.map").write_text(json.dumps(map_of(dice, name)))
        words = [sys.executable, str(PROGRAM), f"{FOLDER}={dist}/"]
        empty, file = Path(temp, "empty"), Path(temp, "events")
        print("shape     bytes     json     bare      all    again      new  events a second of a processor")
        for shape in (sentry, bugsnag, rollbar, ecs, otlp):

            def events_of(positions):
                found = []
                for _ in range(given.events):
                    places = [(FOLDER + dice.choice(scripts), dice.choice(positions)) for _ in range(FRAMES)]
                    found.append(json.dumps(shape(places), separators=(",", ":")).encode() + b"\n")
                return found

            lines, new = events_of(columns), events_of(range(1, 5 * MAPPINGS + 1))
            empty.write_bytes(lines[0])
            figures = [of_json(lines)]
            again = (lines[:STACKS] * (given.events // STACKS + 1))[: given.events]
            bare = ["--no-raw", "--context", "0"]
            for options, events in [(bare, lines), ([], lines), ([], again), ([], new)]:
                file.write_bytes(b"".join(events))
                start = seconds([*words, *options, str(empty)], environment)
                figures.append(seconds([*words, *options, str(file)], environment) - start)
            rates = " ".join(f"{given.events / figure:8,.0f}" for figure in figures)
            print(f"{shape.__name__:8} {len(lines[0]):6} {rates}", flush=True)


if __name__ == "__main__":
    main()
