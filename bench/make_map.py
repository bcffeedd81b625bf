"""Writes a large source map, or what else the program reads, to standard output, the same bytes each time.

    python3 bench/make_map.py > large.map                 a flat map of about 35 MB
    python3 bench/make_map.py --index > large.map         an index map of 100 sections, about as large
    python3 bench/make_map.py --mappings > large.txt      a mappings text of about 25 MB with 4,000,000 segments
    python3 bench/make_map.py --bundle > large.bundle     a flat map with a trace of 200,000 frames after it

--segments, --sources, --names, --content and --segments-in-a-line give other sizes, --sections and --frames
those of index maps and traces.
"""

import argparse
import io
import sys

DIGITS = "ABCDEFGHIJKLMNOPQRSTUVWXYZabcdefghijklmnopqrstuvwxyz0123456789+/"

SCRIPT = "http://localhost/out/large.js"
BASE = SCRIPT + ".map"


def spelled(number):
    """A number in Base64 VLQ: the sign in the lowest bit, five bits a digit, the lowest first."""
    rest = -number * 2 + 1 if number < 0 else number * 2
    digits = ""
    while rest > 31:
        digits += DIGITS[32 + rest % 32]
        rest //= 32
    return digits + DIGITS[rest]


SMALL = {number: spelled(number) for number in range(-4096, 4097)}


def difference(number):
    return SMALL.get(number) or spelled(number)


def numbers(seed):
    """Numbers that look random: the high bits of a linear congruential generator."""
    state = seed
    while True:
        state = (state * 6364136223846793005 + 1442695040888963407) % 2**64
        yield state >> 33


def pieces_of_mappings(segments, sources, names, in_a_line):
    """A mappings text, line by line. Each segment has four numbers, each fifth one a name besides; original
    lines fall where another source begins, and columns rise along a line."""
    random = numbers(1)
    source = line = column = name = 0
    for first in range(0, segments, in_a_line):
        texts = []
        for i in range(first, min(first + in_a_line, segments)):
            draw = next(random)
            now = i * sources // segments
            if now != source:
                to_line, to_column = draw % 3, draw // 4 % 40
            elif draw % 4 == 0:
                to_line, to_column = line + 1 + draw // 4 % 3, draw // 16 % 40
            else:
                to_line, to_column = line, column + 1 + draw // 4 % 20
            text = (
                difference(1 + draw // 1024 % 24 if texts else 0)
                + difference(now - source)
                + difference(to_line - line)
                + difference(to_column - column)
            )
            if names and i % 5 == 0:
                to_name = draw // 32768 % names
                text += difference(to_name - name)
                name = to_name
            texts.append(text)
            source, line, column = now, to_line, to_column
        yield ",".join(texts)


def content_of(source, length):
    """The text of a source, with the marks that JSON has to escape."""
    random = numbers(source + 2)
    lines = []
    size = 0
    while size < length:
        draw = next(random)
        line = f'  const value{draw % 9973} = part{draw % 97}("text {draw % 31}", {draw}) / 2;\n'
        lines.append(line)
        size += len(line)
    return "".join(lines)[:length]


def quoted(text):
    escaped = text.replace("\\", "\\\\").replace('"', '\\"').replace("\n", "\\n")
    return f'"{escaped}"'


def write_list(out, items):
    out.write("[")
    for i, item in enumerate(items):
        out.write("," if i else "")
        out.write(item)
    out.write("]")


def write_mappings(out, sizes):
    pieces = pieces_of_mappings(sizes.segments, sizes.sources, sizes.names, sizes.segments_in_a_line)
    for i, piece in enumerate(pieces):
        out.write(";" if i else "")
        out.write(piece)


def write_map(out, sizes):
    out.write('{"version":3,"file":"large.js","sourceRoot":"","sources":')
    write_list(out, (quoted(f"../src/part{i % 40}/module{i}.ts") for i in range(sizes.sources)))
    if sizes.content:
        out.write(',"sourcesContent":')
        write_list(out, (quoted(content_of(i, sizes.content)) for i in range(sizes.sources)))
    out.write(',"names":')
    write_list(out, (quoted(f"identifier{i}") for i in range(sizes.names)))
    out.write(',"mappings":"')
    write_mappings(out, sizes)
    out.write('"}')


def line_count(sizes):
    return -(-sizes.segments // sizes.segments_in_a_line)


def write_index(out, sizes):
    """An index map, whose sections share segments, sources and names evenly, and are alike."""
    part = argparse.Namespace(**vars(sizes))
    part.segments = max(1, sizes.segments // sizes.sections)
    part.sources = max(1, sizes.sources // sizes.sections)
    part.names = sizes.names // sizes.sections
    section = io.StringIO()
    write_map(section, part)
    out.write('{"version":3,"sections":[')
    for i in range(sizes.sections):
        offset = i * line_count(part)
        out.write("," if i else "")
        out.write(f'{{"offset":{{"line":{offset},"column":0}},"map":{section.getvalue()}}}')
    out.write("]}")


def write_trace(out, sizes):
    """Frames of both kinds in the script of the bundle, and now and then a line that is none."""
    random = numbers(1)
    for i in range(sizes.frames):
        draw = next(random)
        place = f"{SCRIPT}:{draw % line_count(sizes) + 1}:{draw // 65536 % 400 + 1}"
        if i % 50 == 0:
            out.write(f"Error: number {i}\n")
        elif draw % 3:
            out.write(f"    at call{draw % 999} ({place})\n")
        else:
            out.write(f"call{draw % 999}@{place}\n")


def write_bundle(out, sizes):
    text = io.StringIO()
    write_map(text, sizes)
    out.write(f"map {SCRIPT} {BASE} {len(text.getvalue())}\n{text.getvalue()}\ntrace\n")
    write_trace(out, sizes)


WRITERS = {"map": write_map, "mappings": write_mappings, "index": write_index, "bundle": write_bundle}


def sizes_of(words):
    parser = argparse.ArgumentParser(description=__doc__, formatter_class=argparse.RawDescriptionHelpFormatter)
    kind = parser.add_mutually_exclusive_group()
    for name, what in [
        ("mappings", "a mappings text alone, and no map"),
        ("index", "an index map"),
        ("bundle", "a bundle: a flat map and a trace"),
    ]:
        kind.add_argument(f"--{name}", dest="kind", action="store_const", const=name, help=f"write {what}")
    parser.set_defaults(kind="map")
    parser.add_argument("--segments", type=int, help="how many segments the mappings have")
    parser.add_argument("--sources", type=int, default=2000, help="how many sources are listed")
    parser.add_argument("--names", type=int, default=5000, help="how many names are listed")
    parser.add_argument("--content", type=int, default=11500, help="how many characters each content has; 0: none")
    parser.add_argument("--segments-in-a-line", type=int, default=40, help="how many segments a generated line has")
    parser.add_argument("--sections", type=int, default=100, help="how many sections an index map has")
    parser.add_argument("--frames", type=int, default=200000, help="how many lines a trace has")
    sizes = parser.parse_args(words)
    if sizes.segments is None:
        sizes.segments = 4000000 if sizes.kind == "mappings" else 1750000
    return sizes


def write(out, words):
    """Writes what the words of a command line ask for."""
    sizes = sizes_of(words)
    WRITERS[sizes.kind](out, sizes)
    out.write("" if sizes.kind == "bundle" else "\n")


if __name__ == "__main__":
    write(sys.stdout, sys.argv[1:])
