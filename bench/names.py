"""Counts the right and wrong names of functions in translated stacks, by several rules.

    python3 bench/names.py PROGRAM
    python3 bench/names.py PROGRAM --into docs/LOGS.md

PROGRAM is smap-trace. An application of small functions, which names_app.py makes as TypeScript and JavaScript,
and some libraries of Debian's packages (LIBRARIES) are built by Debian's packages (BUILDS, LIBRARY_BUILDS) and run
in Node, Chromium and Firefox. The true name of a frame is the one that the same engine writes at the same frame
of a run of the sources as they are, where TypeScript's parser finds that name around the frame's position. Frames
without such a frame aren't counted, most of which have no original position (Babel's helpers), nor those for which
engine and parser differ; but a name that PROGRAM writes there must be one of the two. The rules of
source-map-support and Sentry are restated in names_rules.js, Node's is `node --enable-source-maps`. Where a rule
gives no name, the log's is taken: a wrong one is counted as left.

Prints the counts of each build, each wrong name of PROGRAM, and a table. What isn't at hand is named, and left
out; but nodejs, node-typescript and node-ampproject-remapping are needed, and esbuild for most builds. With --into
the table is put between the two lines of that file that hold `figures of names.py`. The status is 1 if a name of
PROGRAM is wrong.
"""

import argparse
import collections
import functools
import http.server
import json
import os
import re
import shutil
import subprocess
import sys
import tempfile
import threading
from pathlib import Path

import names_app

HERE = Path(__file__).resolve().parent
sys.path.insert(0, str(HERE.parent / "tests/view"))
import browsers  # noqa: E402

# How each build is made, with OUT for the script.
ESBUILD = "esbuild {} --bundle --minify --format=iife --sourcemap --outfile=OUT"
CHAIN = "{} --source-map \"content='{}/out.js.map',includeSources,url=out.js.map\" {}/out.js -o OUT"
BUNDLE = "esbuild ts/main.ts --bundle --format=iife --sourcemap --outfile=bundle/out.js"
TSC = "tsc --target es2017 --module es2020 --moduleResolution node --sourceMap --inlineSources --outDir tsc"
BABEL = "babeljs bundle/out.js --no-babelrc --presets @babel/preset-env --source-type script --source-maps"
ROLLUP = "rollup js/main.js --format iife --sourcemap --file rollup/out.js"
WEBPACK = """node -e "require('webpack')({mode: 'production', devtool: 'source-map', entry: './js/main.js',\
 output: {path: require('path').resolve('OUT', '..'), filename: 'out.js'}},\
 (error, done) => process.exitCode = error || done.hasErrors() ? 1 : 0)" """
BUILDS = {
    "esbuild": ESBUILD.format("ts/main.ts"),
    "esbuild, ES2016": ESBUILD.format("js/main.js --target=es2016"),
    "esbuild, names kept": ESBUILD.format("js/main.js --keep-names"),
    "tsc, esbuild": f"{TSC} ts/main.ts && {ESBUILD.format('tsc/main.js')}",
    "esbuild, terser": CHAIN.format("terser -c -m", "bundle", "bundle"),
    "esbuild, terser thrice": CHAIN.format("terser -c passes=3,unsafe -m --toplevel", "bundle", "bundle"),
    "esbuild, uglifyjs": CHAIN.format("uglifyjs -c -m", "bundle", "bundle"),
    "esbuild, uglifyjs thrice": CHAIN.format("uglifyjs -c passes=3 -m --toplevel", "bundle", "bundle"),
    "esbuild, babel, terser": f"{BABEL} -o babel/out.js && {CHAIN.format('terser -c -m', 'babel', 'babel')}",
    "rollup, terser": f"{ROLLUP} && {CHAIN.format('terser -c -m --toplevel', 'rollup', 'rollup')}",
    "webpack": WEBPACK,
}
# And of a library, FILE.
LIBRARY_BUILDS = {
    "esbuild": "esbuild FILE --minify --sourcemap --outfile=OUT",
    "terser": "terser FILE -c -m --source-map includeSources,url=out.js.map -o OUT",
    "uglifyjs": "uglifyjs FILE -c -m --source-map includeSources,url=out.js.map -o OUT",
}
# The file of each library, and its global variable.
LIBRARIES = {
    "/usr/share/nodejs/lodash/lodash.js": "_",
    "/usr/share/javascript/underscore/underscore.js": "_",
    "/usr/share/nodejs/acorn/dist/acorn.js": "acorn",
    "/usr/share/nodejs/js-yaml/dist/js-yaml.js": "jsyaml",
}
RULES = {
    "log": "the log",
    "smap": "`smap-trace --names`",
    "caller": "source-map-support",
    "token": "Sentry",
    "node": "Node, in Node",
}
V8 = re.compile(r"    at (?:(.*) \()?([^ ()]+):(\d+):(\d+)\)?")
FIREFOX = re.compile(r"(.*)@([^@]+):(\d+):(\d+)")
WORD = re.compile(r"#?[\w$]+", re.ASCII)
URL = "http://h/m/out.js"
NODE_PATH = os.pathsep.join([*filter(None, [os.environ.get("NODE_PATH")]), "/usr/share/nodejs"])
ENVIRONMENT = {**os.environ, "NODE_PATH": NODE_PATH}
MOST_SHOWN = 20


# ---- frames and names


def read_frame(line):
    """The name, script, line and column of a line, or None if it is no frame of a script."""
    found = V8.fullmatch(line) or FIREFOX.fullmatch(line)
    return found and (found[1] or "", found[2], int(found[3]), int(found[4]))


def bare(name):
    """A name of a log without what engines put around it: a class and a function, or one."""
    name = re.sub(r" \[as .*\]$", "", name).split("*")[-1]
    return re.sub(r"^(async |new |get |set )*", "", name)


def last(name):
    """The function's own name, or None."""
    word = re.split(r"[./]", bare(name or ""))[-1]
    return word if WORD.fullmatch(word) else None


# ---- building


class Script:
    """A script: its name, the key of its sources, its file, and the global variable of a library."""

    def __init__(self, name, source, file, variable):
        self.name, self.source, self.file, self.variable = name, source, file, variable


def lacks(command):
    """The tools of a command that aren't there."""
    tools = [part.split()[0] for part in command.split(" && ")]
    if command == WEBPACK and run(["node", "-e", "require.resolve('webpack')"]).returncode:
        tools.append("webpack")
    return [tool for tool in tools if not shutil.which(tool)]


def run(command, **options):
    options = {"env": ENVIRONMENT, "capture_output": True, "text": True, "check": False, **options}
    return subprocess.run(command, **options)


def sources_in(folder, app):
    """The sources as they are, by their keys."""
    app.write(folder)
    (folder / "js/package.json").write_text('{"type": "module"}')
    sources = {"app": Script("app", "app", folder / "js/main.js", "")}
    for file, variable in LIBRARIES.items():
        if Path(file).exists():
            key = Path(file).name
            shutil.copy(file, folder)
            sources[key] = Script(key, key, folder / key, variable)
        else:
            print(f"LEFT OUT: {file}, which isn't there")
    return sources


def build_all(folder, sources):
    """What is built of the sources."""
    todo = [(name, "app", command) for name, command in BUILDS.items()]
    for key in list(sources)[1:]:
        for name, command in LIBRARY_BUILDS.items():
            todo.append((f"{key}, {name}", key, command.replace("FILE", key)))
    run(BUNDLE, shell=True, cwd=folder)
    for i, (name, source, command) in enumerate(todo):
        out = folder / f"build{i}/out.js"
        out.parent.mkdir()
        missing = lacks(command)
        done = None if missing else run(command.replace("OUT", f"build{i}/out.js"), shell=True, cwd=folder)
        if missing:
            print(f"LEFT OUT: {name}: no {', '.join(missing)}")
        elif done.returncode or not out.exists():
            print(f"LEFT OUT: {name}: {(done.stderr or done.stdout).strip()[:300]}")
        else:
            yield Script(name, source, out, sources[source].variable)


# ---- running


class QuietHandler(http.server.SimpleHTTPRequestHandler):
    def log_message(self, *words):
        pass


class Pages:
    """Serves the folder, with a page that has names_page.js."""

    def __init__(self, folder):
        self.folder = folder
        shutil.copy(HERE / "names_page.js", folder)
        text = '<!DOCTYPE html><meta charset="utf-8"><script src="names_page.js"></script>'
        (folder / "page.html").write_text(text)

    def __enter__(self):
        handler = functools.partial(QuietHandler, directory=self.folder)
        self.server = http.server.ThreadingHTTPServer(("127.0.0.1", 0), handler)
        threading.Thread(target=self.server.serve_forever, daemon=True).start()
        self.url = f"http://127.0.0.1:{self.server.server_port}"
        return self

    def __exit__(self, *error):
        self.server.shutdown()
        self.server.server_close()


def by_key(stacks):
    """The lines of each stack by its key."""
    return {key: text.split("\n") for key, text in json.loads(stacks)}


def in_node(script, *flags):
    """The stacks of a script in Node."""
    words = ["node", *flags, HERE / "names_page.js", script.file, script.variable]
    return by_key(run(words, check=True).stdout)


def in_browser(browser, pages, script):
    """And in a browser."""
    browser.open(f"{pages.url}/page.html")
    file = f"{pages.url}/{script.file.relative_to(pages.folder)}"
    browser.run("runScript(...arguments)", file, script.variable)
    return by_key(browser.wait("return self.finished && JSON.stringify(stacks)", seconds=120))


def engines(pages):
    """The name of each engine at hand, and what runs a script in it."""
    yield "Node", in_node
    for kind in browsers.Chromium, browsers.Firefox:
        if missing := kind.missing():
            print(f"LEFT OUT: {kind.name}: no {missing}")
            continue
        with kind() as browser:
            version = browser.version.split(".")[0]
            yield f"{kind.name} {version}", functools.partial(in_browser, browser, pages)


# ---- the truth


def rules(**job):
    """What names_rules.js says."""
    done = run(["node", HERE / "names_rules.js"], input=json.dumps(job), check=True)
    return json.loads(done.stdout)


class Truth:
    """The frames of the sources as they are, in one engine: of each stack (name, file, line, column); of equal
    stacks the first. And the parser's name of the function around each place."""

    def __init__(self, source, stacks):
        files = source.file.parent.glob("*.js") if source.source == "app" else [source.file]
        texts = {file.name: file for file in files if file.name != "names_page.js"}
        self.stacks, seen = {}, set()
        for key, lines in stacks.items():
            frames = [frame for frame in map(read_frame, lines) if frame]
            frames = [(frame[0], frame[1].rsplit("/", 1)[-1], *frame[2:]) for frame in frames]
            frames = tuple((name, Path(file).stem, *place) for name, file, *place in frames if file in texts)
            if frames and frames not in seen:
                seen.add(frames)
                self.stacks[key] = frames
        places = sorted({frame[1:] for frames in self.stacks.values() for frame in frames})
        files = {file: texts[f"{file}.js"].read_text(encoding="utf-8") for file, _, _ in places}
        self.parsed = dict(zip(places, rules(files=files, places=places)["places"]))


def likenesses(places, truth):
    """How well each original position fits to each true frame: at the same position, or at the same line, if
    both stacks have as many frames there, so that no function was put into another."""
    lines = collections.Counter(place[:2] for place in places if place)
    lines.subtract(frame[1:3] for frame in truth)

    def likeness(place, frame):
        if not place or place[:2] != frame[1:3]:
            return 0
        return 1000 if place[2] == frame[3] else lines[place[:2]] == 0

    return [[likeness(place, frame) for frame in truth] for place in places]


def paired(places, truth):
    """For each original position of a stack the number of its frame in the true stack, or None: the best pairs
    in order, and between two pairs all, if there are as many frames in both stacks."""
    like = likenesses(places, truth)
    score = [[0] * (len(truth) + 1) for _ in range(len(places) + 1)]
    for i in reversed(range(len(places))):
        for j in reversed(range(len(truth))):
            pair = like[i][j] and like[i][j] + score[i + 1][j + 1]
            score[i][j] = max(score[i + 1][j], score[i][j + 1], pair)
    found, i, j = [None] * len(places), 0, 0
    while i < len(places) and j < len(truth):
        if like[i][j] and score[i][j] == like[i][j] + score[i + 1][j + 1]:
            found[i] = j
            i, j = i + 1, j + 1
        elif score[i][j] == score[i + 1][j]:
            i += 1
        else:
            j += 1
    ends = [(-1, -1)] + [(i, j) for i, j in enumerate(found) if j is not None] + [(len(places), len(truth))]
    for (i, j), (next_i, next_j) in zip(ends, ends[1:]):
        if next_i - i == next_j - j:
            found[i + 1 : next_i] = range(j + 1, next_j)
    return found


# ---- counting


class Counts:
    def __init__(self, program):
        self.program = program
        self.of = {rule: collections.Counter() for rule in RULES}
        self.all = collections.Counter()
        self.wrong = []

    def add(self, rule, said, logged, truth):
        """Counts a name that a rule gave, or None, for one in the log."""
        of = self.of[rule]
        of["frames"] += truth is not None
        if truth is None:
            of["nameless"] += said is not None
        elif last(said or logged) == truth:
            of["right"] += 1
        else:
            of["left" if said is None else "wrong"] += 1


def traced(program, build, lines):
    """Each line of a log, and it as smap-trace translates it, which goes by the line alone."""
    lines = sorted(set(lines))
    log = "".join(f"{line}\n" for line in lines)
    done = run([program, "--names", f"{URL}={build.file}.map"], input=log, check=True)
    return dict(zip(lines, done.stdout.split("\n")))


def frames_of(build, lines):
    """The frames of a stack: a frame of the build, 0 for one of another script, and None for no position."""
    end = f"/{build.file.parent.name}/{build.file.name}"
    return [frame and (frame if frame[1].endswith(end) else 0) for frame in map(read_frame, lines)]


def count_build(counts, build, stacks, truth, node):
    """Counts the frames of a build in one engine. `node` has Node's own translations, if that is Node."""
    keys = [key for key in truth.stacks if key in stacks]
    frames = [frames_of(build, stacks[key]) for key in keys]
    positions = [[frame and frame[2:] for frame in some] for some in frames]
    script, of_map = (Path(f"{build.file}{end}").read_text(encoding="utf-8") for end in ("", ".map"))
    said = rules(script=script, map=of_map, files={}, places=[], stacks=positions)["stacks"]
    log = [[line.replace(frame[1], URL) if frame else "" for line, frame in zip(stacks[key], some)]
           for key, some in zip(keys, frames)]
    after = traced(counts.program, build, [line for lines in log for line in lines])
    for key, some, lines, names in zip(keys, frames, log, said):
        mine = [i for i, frame in enumerate(some) if frame]
        places = [names[i][0] and tuple(names[i][0]) for i in mine]
        for i, pair in zip(mine, paired(places, truth.stacks[key])):
            counts.all["frames"] += 1
            if pair is None:
                counts.all["unpaired" if names[i][0] else "unmapped"] += 1
                continue
            texts = lines[i], after[lines[i]], node[key][i] if key in node else None
            count_frame(counts, some[i][0], texts, names[i][1:], truth.stacks[key][pair], truth.parsed)


def count_frame(counts, logged, lines, names, true, parsed):
    """Counts one frame by all rules."""
    name, parser = last(true[0]), parsed[true[1:]]
    after = read_frame(lines[1])[0]
    new = None if after == logged else bare(after)
    if new is not None and new != parser and (name == last(parser) or last(new) != name):
        counts.wrong.append(f"{lines[0].strip()} -> {lines[1].strip()}, but {parser or name}")
    if name != last(parser):
        counts.all["unsettled"] += 1
        return
    counts.add("log", None, logged, name)
    counts.add("smap", new, logged, name)
    counts.add("caller", names[0], logged, name)
    counts.add("token", names[1], logged, name)
    if lines[2] is not None:
        own = read_frame(lines[2])
        is_new = own and last(own[0]) not in (None, last(logged))
        counts.add("node", own[0] if is_new else None, logged, name)


def count_all(counts, folder, app):
    """Counts all builds in all engines."""
    sources = sources_in(folder, app)
    builds = list(build_all(folder, sources))
    with Pages(folder) as pages:
        for engine, run_script in engines(pages):
            truth = {key: Truth(source, run_script(source)) for key, source in sources.items()}
            for build in builds:
                node = in_node(build, "--enable-source-maps") if engine == "Node" else {}
                before, known = counts.of["smap"].copy(), len(counts.wrong)
                count_build(counts, build, run_script(build), truth[build.source], node)
                figures = ", ".join(f"{word} {count}" for word, count in (counts.of["smap"] - before).items())
                print(f"{engine}, {build.name}: {figures}", flush=True)
                for text in counts.wrong[known : known + MOST_SHOWN]:
                    print(f"  WRONG: {text}", flush=True)


def table(counts):
    lines = ["| names by | frames | right | wrong | left | in nameless functions |", "|---" * 6 + "|"]
    for rule, title in RULES.items():
        figures = [counts.of[rule][word] for word in ("frames", "right", "wrong", "left", "nameless")]
        lines.append(f"| {title} | " + " | ".join(f"{figure:,}" for figure in figures) + " |")
    return "\n".join(lines)


def put_into(path, text):
    """Puts a table between the two lines of a file that hold the mark."""
    lines = Path(path).read_text(encoding="utf-8").split("\n")
    first, end = [i for i, line in enumerate(lines) if "figures of names.py" in line]
    lines[first + 1 : end] = ["", *text.split("\n"), ""]
    Path(path).write_text("\n".join(lines), encoding="utf-8")


def main():
    raw = argparse.RawDescriptionHelpFormatter
    parser = argparse.ArgumentParser(description=__doc__, formatter_class=raw)
    parser.add_argument("program", help="smap-trace")
    parser.add_argument("--seed", type=int, default=1, help="of the application (1)")
    parser.add_argument("--rounds", type=int, default=3, help="how often each of its templates is used (3)")
    parser.add_argument("--into", help="a file to put the table into")
    options = parser.parse_args()
    counts = Counts(options.program)
    with tempfile.TemporaryDirectory() as folder:
        count_all(counts, Path(folder), names_app.App(options.seed, options.rounds))
    words = "frames", "unmapped", "unpaired", "unsettled"
    print(", ".join(f"{counts.all[word]} {word}" for word in words) + f", {len(counts.wrong)} wrong")
    print(table(counts))
    if options.into:
        put_into(options.into, table(counts))
    return 1 if counts.wrong else 0


if __name__ == "__main__":
    sys.exit(main())
