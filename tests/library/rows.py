"""The commands of the program smap that ask one map, one text or one log, over the Python module."""

import json
import sys
from pathlib import Path

sys.path.insert(0, str(Path(__file__).resolve().parents[2] / "capi" / "python"))
import smap  # noqa: E402


def looked_up(m, line, column):
    found = m.lookup(line, column)
    if found is None:
        return "none"
    if found.source is None:
        return f"{found.line}:{found.column} unmapped"
    text = f"{found.line}:{found.column} {found.url or 'null'}:{found.source_line}:{found.source_column}"
    return text if found.name is None else text + " " + json.dumps(found.name, ensure_ascii=False)


def checked(m):
    c = m.counts()
    most, length = 36 * c.mappings + c.lines, len(m.canonical_mappings())
    return (
        f"accepted: {c.sources} sources, {c.names} names, {c.mappings} mappings, {c.lines} lines\n"
        f"canonical mappings: {length} bytes, at most {most}"
    )


def translated(data, flags):
    scripts, open_maps = smap.Scripts(), []
    while not data.startswith(b"trace\n"):
        header, _, data = data.partition(b"\n")
        _, url, base, length = header.decode().split(" ")
        open_maps.append(smap.Map.open(data[: int(length)], base))
        scripts.add(url, open_maps[-1])
        data = data[int(length) + 1 :]
    anywhere, ignore_query = "--anywhere" in flags, "--ignore-query" in flags
    hide, names = "--hide-ignored" in flags, "--names" in flags
    return scripts.translate(data[6:], hide, anywhere=anywhere, ignore_query=ignore_query, names=names)[0]


def composed(data, flags):
    links = []
    while data != b"end\n":
        header, _, data = data.partition(b"\n")
        _, url, base, length = header.decode().split(" ")
        links.append((url, smap.Map.open(data[: int(length)], base)))
        data = data[int(length) + 1 :]
    later = {}
    for url, link in reversed(links):
        found = {i: later.get(link.url(i)) for i in range(link.counts().sources)}
        later[url] = composed = link.compose({i: inner for i, inner in found.items() if inner})
    if "--thin" in flags:
        composed = composed.thinned()
    if "--used" in flags:
        composed = composed.used()
    return composed.canonical("--relative" in flags)


def named(data):
    return b"".join(b"%d %s\n" % (lines, url) for url, lines in smap.named_scripts(data).items())


def answer(words, data):
    if words == ["scripts"]:
        return named(data)
    if words[0] == "translate":
        return translated(data, words[1:])
    if words[0] == "compose":
        return composed(data, words[1:])
    if words[0] == "respell":
        return smap.respell(data[:-1] if data.endswith(b"\n") else data) + b"\n"
    relative = words[1] == "--relative"
    with smap.Map.open(data, words[2 if relative else 1]) as m:
        if words[0] == "tidy":
            return m.canonical(relative)
        if words[0] == "flatten":
            return m.flatten()
        text = checked(m) if words[0] == "check" else looked_up(m, int(words[2]), int(words[3]))
        return text.encode() + b"\n"


def main():
    try:
        text, status = answer(sys.argv[1:], sys.stdin.buffer.read()), 0
    except smap.Refused as fault:
        text, status = f"refused: {fault}\n".encode(), 1
    sys.stdout.buffer.write(text)
    sys.exit(status)


main()
