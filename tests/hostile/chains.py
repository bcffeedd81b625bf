"""Chains of maps, made at random, and their compositions by a model of the pages: each original is looked up
in one map after another, by a linear scan."""

import json
import random

from answers import Run, test
from one_byte import spelled

CHAINS = 10_000
SCRIPTS = "a.js", "b.js", "c.js"
HERE = "http://h/"

# ---- a map: sources, each a URL, a content and whether it is ignored, and mappings, each a line, a column and
# an original: the place of a source, its line and column, and a name


def made(chance):
    sources = [
        (chance.choice([*SCRIPTS, "x.ts", None]), chance.choice([None, "1", "2"]), chance.random() < 0.3)
        for _ in range(chance.randint(1, 3))
    ]
    mappings = []
    for _ in range(chance.randint(0, 6)):
        original = (
            chance.randrange(len(sources)),
            chance.randint(0, 2),
            chance.randint(0, 3),
            chance.choice([None, "n", "m"]),
        )
        original = chance.choice([original, original, None])
        mappings.append((chance.randint(0, 2), chance.randint(0, 4), original))
    return sources, sorted(mappings, key=lambda mapping: mapping[:2])


def distinct(items):
    return list(dict.fromkeys(items))


def spelled_mappings(mappings, names):
    """The string of mappings whose originals are lists of numbers."""
    lines = [[] for _ in range(mappings[-1][0] + 1)] if mappings else []
    before = [0, 0, 0]
    name_before = 0
    columns = {}
    for line, column, original in mappings:
        segment = spelled(column - columns.get(line, 0))
        columns[line] = column
        if original:
            segment += "".join(spelled(new - old) for new, old in zip(original[:3], before))
            before = original[:3]
            if original[3] is not None:
                number = names.index(original[3])
                segment += spelled(number - name_before)
                name_before = number
        lines[line].append(segment)
    return ";".join(map(",".join, lines))


def written(sources, mappings):
    """A map as JSON, in the canonical order of members."""
    names = distinct(o[3] for _, _, o in mappings if o and o[3] is not None)
    tree = {"ignoreList": [i for i, source in enumerate(sources) if source[2]]}
    if not tree["ignoreList"]:
        del tree["ignoreList"]
    tree["mappings"] = spelled_mappings(mappings, names)
    tree["names"] = names
    tree["sources"] = [url and HERE + url for url, _, _ in sources]
    if any(content is not None for _, content, _ in sources):
        tree["sourcesContent"] = [content for _, content, _ in sources]
    tree["version"] = 3
    return json.dumps(tree, separators=(",", ":"))


# ---- the model


def found(mappings, line, column):
    """The original of a position: that of the last mapping on the line that isn't after the column."""
    here = [o for mapped, at, o in mappings if mapped == line and at <= column]
    return here[-1] if here else None


def under(ignored, source):
    return source[0], source[1], source[2] or ignored


def walked(source, line, column, name, links):
    """Where an original leads, one lookup after another, or None."""
    for i, (script, (sources, mappings)) in enumerate(links):
        if source[0] == script:
            original = found(mappings, line, column)
            if original is None:
                return None
            inner = under(source[2], sources[original[0]])
            return walked(inner, *original[1:3], name if original[3] is None else original[3], links[i + 1 :])
    return source, line, column, name


def standing(source, links):
    """The sources that stand for one."""
    for i, (script, (sources, _)) in enumerate(links):
        if source[0] == script:
            return distinct(
                under(source[2], s) for inner in distinct(sources) for s in standing(inner, links[i + 1 :])
            )
    return [source]


def thinned(mappings):
    kept = []
    for i, mapping in enumerate(mappings):
        line, _, original = mapping
        before = kept[-1][2] if kept and kept[-1][0] == line else None
        if mappings[i + 1 : i + 2] and mappings[i + 1][:2] == mapping[:2] or original == before:
            continue
        kept.append(mapping)
    return kept


def composed(outer, links, thin, used):
    sources = distinct(s for source in distinct(outer[0]) for s in standing(source, links))
    mappings = [
        (line, column, o and walked(outer[0][o[0]], *o[1:], links)) for line, column, o in outer[1]
    ]
    if thin:
        mappings = thinned(mappings)
    if used:
        had = {o[0] for _, _, o in mappings if o}
        sources = [source for source in sources if source in had]
    return written(sources, [(line, at, o and (sources.index(o[0]), *o[1:])) for line, at, o in mappings])


def unled(outer, links):
    """The first map that no source of an earlier one leads to."""
    waiting = {url for url, _, _ in outer[0]}
    for i, (script, (sources, _)) in enumerate(links):
        if script not in waiting:
            return i + 1
        waiting = waiting - {script} | {url for url, _, _ in sources}
    return None


def bundle(outer, links):
    """The input of `compose`."""
    entries = [("out.js", outer), *links]
    texts = [(script, written(sources, mappings)) for script, (sources, mappings) in entries]
    return "".join(
        f"map {HERE}{script} {HERE}{script}.map {len(text)}\n{text}\n" for script, text in texts
    ) + "end\n"


@test
def chains_lead_where_their_lookups_lead():
    chance = random.Random(84)
    for _ in range(CHAINS):
        outer = made(chance)
        links = []
        for _ in range(chance.choice([0, 1, 2, 2, 3])):
            urls = {url for _, (sources, _) in [("", outer), *links] for url, _, _ in sources}
            known = [script for script in SCRIPTS if script in urls]
            links.append((chance.choice(known or SCRIPTS), made(chance)))
        flags = [flag for flag in ("--thin", "--used") if chance.random() < 0.3]
        first = unled(outer, links)
        if first is None:
            answer = 0, composed(outer, links, "--thin" in flags, "--used" in flags)
        else:
            answer = 1, f"refused: map {first}: no source leads to it\n"
        yield Run(("compose", *flags), bundle(outer, links).encode(), answer[0], answer[1].encode())
