"""Runs the built program over hostile inputs at four sizes, and checks each answer.

    python3 bench/hostile.py crates/smap/out/smap
    python3 bench/hostile.py crates/smap/out/smap --only sections
    python3 bench/hostile.py crates/smap/out/smap --library capi/out --write
    python3 bench/hostile.py crates/smap/out/smap --once
    python3 bench/hostile.py crates/smap/out/smap --library capi/out

Each input is long or deep in one respect, and its answer is made beside it, without the program. Prints the
processor time and the peak memory at the largest size, and the exponent of growth from an eighth of it: time
goes with the bytes that are read and written to that power. The last line says how many answers were wrong.
With --write the rows that were run are put into bench/hostile.tsv, and the others stay there. A command that
the program doesn't have is left out. With --library, which takes the folder that tools/build-capi made, the C
library also opens inputs, without and with a bound on the bytes of their URLs, by the Python module.

With --once each input is run at its largest size alone, and the run has to keep to what bench/hostile.tsv
states of it. It passes where the answer is right, the processor time is at most five times that of the table
and a second more, and in any case at most 60 seconds, and the peak memory is at most one and a quarter times
that of the table and 8 MB more. An input without figures there fails, and so does a command that the program
doesn't have; a run that passes its 60 seconds is ended. What failed is reported with the reason, and the last
line is `N passed, N failed`.
"""

import argparse
import json
import math
import resource
import sys
import tempfile
from pathlib import Path

from make_map import BASE, SCRIPT, difference, spelled
from measure import exponent, has_command, machine, run, starter, words_of

HERE = BASE.rpartition("/")[0] + "/"
GREATEST = 2**31 - 1

# How deep lists and objects may stand in one another in a JSON text, and index maps.
DEEPEST = 127
MOST_INDEX_MAPS = 8

# The table that says what a run takes, its first lines, and the time that none may pass.
FIGURES = Path(__file__).resolve().parent / "hostile.tsv"
PURPOSE = "# What each run of bench/hostile.py takes at its largest size; with --once it is held to that."
HEAD = "\t".join(["# command", "input", "MB read and written", "time, ms", "memory, MB", "exponent"])
MOST_SECONDS = 60


def compact(tree):
    return json.dumps(tree, separators=(",", ":"), ensure_ascii=False)


def canonical(mappings="", names=(), sources=(), contents=None, ignored=None):
    tree = {"ignoreList": ignored, "mappings": mappings, "names": list(names), "sources": list(sources)}
    tree |= {"sourcesContent": contents, "version": 3}
    return compact({name: value for name, value in tree.items() if value is not None})


def map_of(**members):
    return compact({"version": 3, "mappings": ""} | members)


def refused(words):
    return f"refused: {words}\n"


# Each of these takes a size, and gives an input and its answer.


def long_number(n):
    return "g" * n + "A", "A\n"


def unfinished_number(n):
    return "g" * n, refused("line 0 segment 0: number 1: unfinished")


def many_numbers(n):
    return "A" * n, refused("line 0 segment 0: 255 numbers")


def empty_lines(n):
    return ";" * n, "\n"


def falling_columns(n):
    return spelled(n - 1) + ",D" * (n - 1), "A" + ",C" * (n - 1) + "\n"


def zigzag_columns(n):
    """Columns n, 1, n - 1, 2 .. in the text, each once: they go up and down by less and less."""
    order = [n - i // 2 if i % 2 == 0 else 1 + i // 2 for i in range(n)]
    steps = [b - a for a, b in zip([0] + order, order)]
    return ",".join(map(difference, steps)), ",".join(["C"] * n) + "\n"


def one_position(n):
    text = "AAAA" + ",AACA" * (n - 1)
    return text, text + "\n"


def falling_lines_of_a_map(n):
    """Each line holds two columns that fall."""
    return map_of(mappings=";".join(["CAAA,DAAA"] * n), sources=[None]), canonical(
        mappings=";".join(["AAAA,CAAA"] * n), sources=[None]
    )


def one_source(n):
    return map_of(sources=["a.js", "x/../a.js"] * (n // 2)), canonical(sources=[HERE + "a.js"])


def no_source(n):
    return map_of(sources=[None] * n), canonical(sources=[None])


def sources_with_one_front(n):
    paths = ["front/" * 20 + f"{i:07}" for i in range(n)]
    return map_of(sources=paths), canonical(sources=[HERE + p for p in paths])


def contents_alone(n):
    contents = [f"content {i}" for i in range(n)]
    return map_of(sources=["a.js"] * n, sourcesContent=contents), canonical(
        sources=[HERE + "a.js"] * n, contents=contents
    )


def one_long_name(n):
    mappings = "AAAAA" + ",CAAAA" * (n // 10 - 1)
    name = ["n" * n]
    return map_of(sources=[None], names=name, mappings=mappings), canonical(mappings, name, [None])


def one_name_listed_often(n):
    text = map_of(sources=[None], names=["n"] * n, mappings="AAAAA" + ",CAAAC" * (n - 1))
    return text, canonical("AAAAA" + ",CAAAA" * (n - 1), ["n"], [None])


def names_with_one_front(n):
    names = ["front" * 20 + f"{i:07}" for i in range(n)]
    mappings = "AAAAA" + ",CAAAC" * (n - 1)
    return map_of(sources=[None], names=names, mappings=mappings), canonical(mappings, names, [None])


def escaped_name(n):
    text = '{"version":3,"sources":[null],"mappings":"AAAAA","names":["' + "\\u001F\\/\\u0041" * n + '"]}'
    return text, canonical("AAAAA", ["\x1f/A" * n], [None])


def long_source(n):
    return map_of(sources=["a" * n]), canonical(sources=[HERE + "a" * n])


def escaped_source(n):
    return map_of(sources=["a" + " " * n + "b"]), canonical(sources=[HERE + "a" + "%20" * n + "b"])


def steps_up(n):
    return map_of(sources=["a/" * n + "../" * n + "b"]), canonical(sources=[HERE + "b"])


def many_steps_up(n):
    return map_of(sources=["../" * n + "b"]), canonical(sources=["http://localhost/b"])


def long_host(n):
    return map_of(sources=["http://" + "a" * n + "/b"]), canonical(sources=["http://" + "a" * n + "/b"])


def long_root(n):
    text = map_of(sourceRoot="r" * n, sources=[f"{i}.js" for i in range(100)])
    return text, canonical(sources=[HERE + "r" * n + f"/{i}.js" for i in range(100)])


def many_times_a_root(n):
    """A fifth as many sources as the root has bytes: the URLs take the square of the text."""
    text = map_of(sourceRoot="r" * n, sources=[str(i) for i in range(n // 5)])
    return text, f"{n // 5} sources\n"


def beyond_the_bound(n):
    return many_times_a_root(n)[0], refused("too many bytes of URLs")


def every_source_ignored(n):
    paths = [f"{i}.js" for i in range(n)]
    text = map_of(sources=paths, ignoreList=list(range(n - 1, -1, -1)))
    return text, canonical(sources=[HERE + p for p in paths], ignored=list(range(n)))


def one_ignored_often(n):
    sources = [HERE + "a", HERE + "b"]
    return map_of(sources=["a", "b"], ignoreList=[1] * n), canonical(sources=sources, ignored=[1])


def sections_at(offsets, mappings):
    sections = [
        {"offset": {"line": line, "column": column}, "map": {"version": 3, "mappings": mappings}}
        for line, column in offsets
    ]
    return compact({"version": 3, "sections": sections})


def rising_sections(n):
    return sections_at([(i, 0) for i in range(n)], "A"), canonical(";".join(["A"] * n))


def sections_in_one_line(n):
    return sections_at([(0, i) for i in range(n)], "A,C"), canonical(",".join(["A,C"] + ["A,C"] * (n - 1)))


def sections_at_one_offset(n):
    return sections_at([(0, 0)] * n, "A"), canonical(",".join(["A"] * n))


def sections_far_out(n):
    return sections_at([(GREATEST, GREATEST)] * n, ""), canonical()


def sections_of_one_source(n):
    part = {"version": 3, "sources": ["a.js"], "names": ["n"], "mappings": "AAAAA"}
    sections = [{"offset": {"line": i, "column": 0}, "map": part} for i in range(n)]
    return compact({"version": 3, "sections": sections}), canonical(
        "AAAAA" + ";AAAAA" * (n - 1), ["n"], [HERE + "a.js"]
    )


def sections_in_the_first_section(n):
    """The first section holds an index map of as many sections as the map has."""
    inner = json.loads(sections_at([(i, 0) for i in range(n)], "A"))
    outer = json.loads(sections_at([(0, 0)] + [(n + i, 0) for i in range(n - 1)], "A"))
    outer["sections"][0]["map"] = inner
    return compact(outer), canonical(";".join(["A"] * (2 * n - 1)))


def sections_of_sections(n):
    """As many as each of them has, all on one line, where the columns of both levels are added up."""
    side = math.isqrt(n)
    inner = json.loads(sections_at([(0, i) for i in range(side)], "A"))
    outer = json.loads(sections_at([(0, i * side) for i in range(side)], ""))
    for section in outer["sections"]:
        section["map"] = inner
    return compact(outer), canonical(",".join(["A"] + ["C"] * (side * side - 1)))


def if_not_too_deep(levels, output):
    return output if levels <= DEEPEST else refused("not json")


def lists(n):
    return "[" * n + "]" * n


def lists_in_sections(n):
    output = canonical() if n == 1 else refused("section 0: not an object")
    return '{"version":3,"sections":' + lists(n) + "}", if_not_too_deep(n + 1, output)


def lists_in_sources(n):
    output = canonical() if n == 1 else refused("sources")
    return '{"version":3,"mappings":"","sources":' + lists(n) + "}", if_not_too_deep(n + 1, output)


def lists_in_an_ignored_member(n):
    return '{"version":3,"mappings":"","x":' + lists(n) + "}", if_not_too_deep(n + 1, canonical())


def objects_in_an_ignored_member(n):
    text = '{"version":3,"mappings":"","x":' + '{"a":' * n + "0" + "}" * n + "}"
    return text, if_not_too_deep(n + 1, canonical())


def index_maps_in_one_another(n):
    """Each of them takes three levels: its object, its list, and the section."""
    front = '{"version":3,"sections":[{"offset":{"line":0,"column":0},"map":'
    deepest = ".".join(["0"] * MOST_INDEX_MAPS)
    output = canonical() if n <= MOST_INDEX_MAPS else refused(f"section {deepest}: nested sections")
    return front * n + map_of() + "}]}" * n, if_not_too_deep(3 * n + 1, output)


def listed_sections(n):
    """What is flattened keeps each section's source and name."""
    text, _ = sections_of_one_source(n)
    return text, canonical("AAAAA" + ";ACAAC" * (n - 1), ["n"] * n, [HERE + "a.js"] * n)


def last_of_many(n):
    """The mapping that is looked up is the last of those at one position."""
    mappings = ";" * 2000 + "AAAA" + ",AACA" * (n - 1)
    return map_of(sources=[None], mappings=mappings), f"2000:0 null:{n - 1}:0\n"


def equal_members(n):
    return "{" + '"version":2,' * n + '"version":3,"mappings":""}', canonical()


def other_members(n):
    members = "".join(f'"x{i}":[],' for i in range(n))
    return "{" + members + '"version":3,"mappings":""}', canonical()


def long_fraction(n):
    return '{"version":3,"mappings":"","x":0.' + "5" * n + "}", canonical()


def long_integer(n):
    return '{"mappings":"","version":' + "3" * n + "}", refused("not json")


def open_lists(n):
    return "[" * n, refused("not json")


def many_small_values(n):
    return '{"version":3,"mappings":"","x":[' + "{},[0]," * n + "0]}", canonical()


def faulty_last_segment(n):
    return map_of(mappings="A," * n + "!"), refused(f"line 0 segment {n}: number 1: bad character")


def bundle(maps, trace):
    """A bundle of pairs of a script and its map's text, and a trace."""
    entries = "".join(f"map {script} {BASE} {len(text.encode())}\n{text}\n" for script, text in maps)
    return entries + "trace\n" + trace


SMALL_MAP = '{"version":3,"sources":["a.js"],"mappings":"AAAA"}'
ORIGINAL = HERE + "a.js:1:1"


def many_maps(n):
    maps = [(f"http://localhost/{i}.js", SMALL_MAP) for i in range(n)]
    places = [(i * 7919 % n, i) for i in range(n)]
    trace = "".join(f"    at f{i} (http://localhost/{s}.js:1:9)\n" for s, i in places)
    return bundle(maps, trace), "".join(f"    at f{i} ({ORIGINAL})\n" for _, i in places)


def many_frames(n):
    trace = f"    at f ({SCRIPT}:1:1)\n" * n
    return bundle([(SCRIPT, SMALL_MAP)], trace), f"    at f ({ORIGINAL})\n" * n


def kept(trace):
    return bundle([(SCRIPT, SMALL_MAP)], trace), trace


def one_long_line(n):
    return kept("x" * n)


def lines_without_frames(n):
    return kept("Error: nothing is here\n" * n)


def empty_trace_lines(n):
    return kept("\n" * n)


def long_line_number(n):
    return kept(f"@{SCRIPT}:" + "1" * n + ":1\n")


def long_column_number(n):
    return kept(f"    at f ({SCRIPT}:1:" + "1" * n + ")\n")


def long_numbers_in_frames(n):
    """As line and as column, in the frames of both browsers, too large or with zeros in front."""
    numbers = ["1" * n, "0" * n + "1"]
    places = [f"{SCRIPT}:{x}:1" for x in numbers] + [f"{SCRIPT}:1:{x}" for x in numbers]
    return kept("".join(f"    at f ({p})\n    at {p}\n    at async {p}\nf@{p}\n" for p in places))


def many_colons(n):
    return kept("    at f (" + ":" * n + ")\n@" + ":1" * n + "x\n")


def many_brackets(n):
    return kept("    at " + " (" * n + "\n    at" + " f (x:1:1)" * n + "x\n")


def many_at_signs(n):
    return kept("@" * n + "\n" + "    at " * n + "\n" + " " * n + "\n")


def long_name_of_a_function(n):
    name = "f" * n
    trace = f"    at {name} ({SCRIPT}:1:1)\n"
    return bundle([(SCRIPT, SMALL_MAP)], trace), f"    at {name} ({ORIGINAL})\n"


def long_script(n):
    """Scripts of 60,000 bytes that differ at their end, and frames in each."""
    scripts = ["http://localhost/" + "s" * 60000 + f"{i:05}" for i in range(n)]
    trace = "".join(f"@{s}:1:1\n" for s in scripts)
    return bundle([(s, SMALL_MAP) for s in scripts], trace), f"@{ORIGINAL}\n" * n


# The commands that read an input, the largest size, and the input.
ROWS = [
    ("respell", 8_000_000, long_number),
    ("respell", 8_000_000, unfinished_number),
    ("respell", 8_000_000, many_numbers),
    ("respell", 20_000_000, empty_lines),
    ("respell", 268_435_456, empty_lines),
    ("respell", 1_000_000, falling_columns),
    ("respell", 1_000_000, zigzag_columns),
    ("respell", 1_000_000, one_position),
    ("tidy", 1_000_000, falling_lines_of_a_map),
    ("tidy", 1_000_000, one_source),
    ("tidy", 1_000_000, no_source),
    ("tidy", 100_000, sources_with_one_front),
    ("tidy", 100_000, contents_alone),
    ("tidy", 1_000_000, one_long_name),
    ("tidy", 1_000_000, one_name_listed_often),
    ("tidy", 100_000, names_with_one_front),
    ("tidy", 1_000_000, escaped_name),
    ("tidy", 8_000_000, long_source),
    ("tidy", 1_000_000, escaped_source),
    ("tidy", 1_000_000, steps_up),
    ("tidy", 1_000_000, many_steps_up),
    ("tidy", 1_000_000, long_host),
    ("tidy", 1_000_000, long_root),
    ("tidy", 100_000, every_source_ignored),
    ("tidy", 1_000_000, one_ignored_often),
    ("tidy", 10_000, rising_sections),
    ("tidy", 10_000, sections_in_one_line),
    ("tidy", 10_000, sections_at_one_offset),
    ("tidy", 10_000, sections_far_out),
    ("tidy", 10_000, sections_of_one_source),
    ("tidy", 10_000, sections_in_the_first_section),
    ("tidy", 10_000, sections_of_sections),
    ("tidy", 126, lists_in_sections),
    ("tidy", 127, lists_in_sections),
    ("tidy", 126, lists_in_sources),
    ("tidy", 127, lists_in_sources),
    ("tidy", 126, lists_in_an_ignored_member),
    ("tidy", 127, lists_in_an_ignored_member),
    ("tidy", 126, objects_in_an_ignored_member),
    ("tidy", 127, objects_in_an_ignored_member),
    ("tidy", 42, index_maps_in_one_another),
    ("tidy", 43, index_maps_in_one_another),
    ("tidy", 1_000_000, equal_members),
    ("tidy", 1_000_000, other_members),
    ("tidy", 1_000_000, long_fraction),
    ("tidy", 1_000_000, long_integer),
    ("tidy", 1_000_000, open_lists),
    ("tidy", 1_000_000, many_small_values),
    ("tidy", 1_000_000, faulty_last_segment),
    ("flatten", 10_000, listed_sections),
    ("lookup", 1_000_000, last_of_many),
    ("translate", 10_000, many_maps),
    ("translate", 1_000_000, many_frames),
    ("translate", 100_000_000, one_long_line),
    ("translate", 1_000_000, lines_without_frames),
    ("translate", 8_000_000, empty_trace_lines),
    ("translate", 8_000_000, long_line_number),
    ("translate", 8_000_000, long_column_number),
    ("translate", 1_000_000, long_numbers_in_frames),
    ("translate", 8_000_000, many_colons),
    ("translate", 1_000_000, many_brackets),
    ("translate", 8_000_000, many_at_signs),
    ("translate", 8_000_000, long_name_of_a_function),
    ("translate", 500, long_script),
]

# The same for the library, with the bound on the bytes of URLs if there is one.
LIBRARY_ROWS = [
    ("open", 20_000, many_times_a_root),
    ("open within", 20_000, beyond_the_bound),
    ("open within", 200_000, beyond_the_bound),
]
BOUNDS = {"open": [], "open within": ["1048576"]}
OPENED = Path(__file__).resolve().parent / "opened.py"


def command_line(program, library, command):
    """The program that runs a command, and its words."""
    if command in BOUNDS:
        return sys.executable, ["-B", OPENED, library / "libsmap.so", BASE, *BOUNDS[command]]
    return program, words_of(command)


def answered(program, library, command, make, size, folder):
    """The bytes, time and memory of one run, and whether its answer was right."""
    source, sink = folder / "input", folder / "output"
    text, output = make(size)
    source.write_text(text, encoding="utf-8")
    status, seconds, memory = run(*command_line(program, library, command), source, sink)
    expected = output.encode()
    right = status == (1 if output.startswith("refused: ") else 0) and sink.read_bytes() == expected
    return source.stat().st_size + len(expected), seconds, memory, right


def label_of(size, make):
    """What a row is called in the table."""
    return f"{make.__name__.replace('_', ' ')}, {size:,}"


def has(program, command):
    return command in BOUNDS or has_command(program, command)


def rows_of(part, library):
    """The rows with this part of a name, each with its label."""
    rows = ROWS + LIBRARY_ROWS if library else ROWS
    rows = [(command, size, make, label_of(size, make)) for command, size, make in rows]
    return [row for row in rows if part.replace("_", " ") in row[3].rpartition(", ")[0]]


def rows_in(path):
    """The rows of a table, each as its line, by the command and the label."""
    lines = Path(path).read_text(encoding="utf-8").splitlines()
    return {tuple(line.split("\t")[:2]): line for line in lines if not line.startswith("#")}


def figures_in(path):
    """The seconds and the memory in MB that a table states, by the command and the label."""
    cells = {row: line.split("\t") for row, line in rows_in(path).items()}
    return {row: (float(each[3]) / 1e3, float(each[4])) for row, each in cells.items()}


def write_figures(path, measured):
    """Puts the lines that were measured into a table, in the order of the rows; others stay as they are."""
    lines = rows_in(path) | measured
    names = [(command, label) for command, _, _, label in rows_of("", library=True)]
    kept = [lines[name] for name in names if name in lines]
    Path(path).write_text("\n".join([PURPOSE, f"# {machine()}", HEAD, *kept, ""]), encoding="utf-8")


def faults_of(right, seconds, memory, stated):
    """What is wrong with a run, in words."""
    if not right:
        yield "another answer"
    if stated is None:
        yield f"no figures of it in {FIGURES.name}"
        return
    most_seconds = min(5 * stated[0] + 1, MOST_SECONDS)
    most_memory = 1.25 * stated[1] + 8
    if seconds > most_seconds:
        yield f"{seconds:.1f} s, and not {most_seconds:.1f} s at most"
    if memory > most_memory:
        yield f"{memory:.0f} MB, and not {most_memory:.0f} MB at most"


def run_once(program, library, part):
    """Runs each input at its largest size, tells what fails, and answers how many did."""
    resource.prlimit(starter().pid, resource.RLIMIT_CPU, (MOST_SECONDS + 1, MOST_SECONDS + 1))
    stated = figures_in(FIGURES)
    rows = rows_of(part, library)
    failed = 0
    with tempfile.TemporaryDirectory() as folder:
        for command, size, make, label in rows:
            if has(program, command):
                _, seconds, memory, right = answered(program, library, command, make, size, Path(folder))
                faults = list(faults_of(right, seconds, memory, stated.get((command, label))))
            else:
                faults = ["the program doesn't have this command"]
            if faults:
                failed += 1
                print(f"FAILED: {command}: {label}: {'; '.join(faults)}", flush=True)
    print(f"{len(rows) - failed} passed, {failed} failed")
    return failed


def run_at_four_sizes(program, library, part, write):
    """Prints the table, and answers how many rows were answered wrongly."""
    print(HEAD, flush=True)
    measured = {}
    wrong = 0
    with tempfile.TemporaryDirectory() as folder:
        for command, size, make, label in rows_of(part, library):
            if not has(program, command):
                print(f"{command}, {label}: the program doesn't have this command", file=sys.stderr)
                continue
            sizes = [size * k // 8 for k in (1, 2, 4, 8)]
            seen = [answered(program, library, command, make, n, Path(folder)) for n in sizes]
            if not all(right for _, _, _, right in seen):
                wrong += 1
                print(f"{command}, {label}: WRONG", file=sys.stderr)
            (small, before, _, _), (large, seconds, memory, _) = seen[0], seen[-1]
            grows = exponent((small, before), (large, seconds))
            figures = [f"{large / 1e6:.1f}", f"{seconds * 1e3:.0f}", f"{memory:.0f}", f"{grows:.2f}"]
            measured[command, label] = "\t".join([command, label, *figures])
            print(measured[command, label], flush=True)
    print(f"{wrong} wrong", file=sys.stderr)
    if write:
        write_figures(FIGURES, measured)
    return wrong


def main():
    raw = argparse.RawDescriptionHelpFormatter
    parser = argparse.ArgumentParser(description=__doc__, formatter_class=raw)
    parser.add_argument("program", help="the built program")
    parser.add_argument("--library", type=Path, help="the folder of the built C library")
    parser.add_argument("--only", default="", help="a part of the names of the inputs that are run")
    parser.add_argument("--write", action="store_true", help="put what is run into bench/hostile.tsv")
    parser.add_argument("--once", action="store_true", help="run each input once, and hold it to the table")
    options = parser.parse_args()
    if options.once:
        wrong = run_once(options.program, options.library, options.only)
    else:
        wrong = run_at_four_sizes(options.program, options.library, options.only, options.write)
    return 1 if wrong else 0


if __name__ == "__main__":
    sys.exit(main())
