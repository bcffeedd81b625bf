"""Lists of sources and names, whose numbers among the distinct ones are found by a linear scan. The program
finds them by hashing."""

import json

from answers import counted, test, tidied
from one_byte import spelled

HERE = "http://h/m/"


def compact(tree):
    return json.dumps(tree, separators=(",", ":"), ensure_ascii=False)


def scan(items):
    """The distinct items in order, and for each item its place among them."""
    distinct = []
    places = []
    for item in items:
        if item not in distinct:
            distinct.append(item)
        places.append(distinct.index(item))
    return distinct, places


def differences(numbers):
    return [number - before for before, number in zip([0, *numbers], numbers)]


# ---- names


LISTED_NAMES = 240
MAPPINGS = 100

# The number in each listed name; some names are listed often.
NAMES = [i * i // 3 % 59 for i in range(LISTED_NAMES)]


def has_original(i):
    return i % 7 != 6


def has_name(i):
    return has_original(i) and i % 5 != 4


def mappings_with(names):
    """Mappings to the start of the first source, each one column after the previous one, where those that have a
    name have these in turn."""
    rest = iter(differences(names))
    segments = []
    for i in range(MAPPINGS):
        segment = ("A" if i == 0 else "C") + ("AAA" if has_original(i) else "")
        segments.append(segment + (spelled(next(rest)) if has_name(i) else ""))
    return ",".join(segments)


@test
def names_are_numbered_as_a_scan_numbers_them():
    used = [(i * i // 3 + i) % LISTED_NAMES for i in range(MAPPINGS) if has_name(i)]
    distinct, places = scan(NAMES[name] for name in used)
    # Of 45 distinct names 37 are used, by 68 mappings.
    assert (len(set(NAMES)), len(distinct), len(places)) == (45, 37, 68)
    names = [f"n{number}" for number in NAMES]
    text = compact({"version": 3, "sources": ["a.js"], "names": names, "mappings": mappings_with(used)})
    yield from counted(text, "accepted: 1 sources, 240 names, 100 mappings, 1 lines\n")
    members = {"mappings": mappings_with(places), "names": [f"n{number}" for number in distinct]}
    yield from tidied(text, compact(members | {"sources": [HERE + "a.js"], "version": 3}))


# ---- sources


def mappings_to(sources):
    """A mapping to the start of each of these sources in turn, one column after another."""
    steps = differences(sources)
    return ",".join(("A" if i == 0 else "C") + spelled(step) + "AA" for i, step in enumerate(steps))


def are_numbered(written, sources):
    """A map whose sources are written like this lists these, each of them a URL, a content and whether it is
    ignored. Mappings to each of them tell the numbers."""
    distinct, places = scan(sources)
    members = {"version": 3, "mappings": mappings_to(range(len(sources))), "sources": written}
    members["sourcesContent"] = [content for _, content, _ in sources]
    members["ignoreList"] = [i for i, (_, _, ignored) in enumerate(sources) if ignored]
    text = compact(members)
    counts = f"{len(distinct)} sources, 0 names, {len(sources)} mappings, 1 lines"
    yield from counted(text, f"accepted: {counts}\n")

    ignored = [i for i, (_, _, ignored) in enumerate(distinct) if ignored]
    contents = [content for _, content, _ in distinct]
    members = {"ignoreList": ignored} if ignored else {}
    members |= {"mappings": mappings_to(places), "names": [], "sources": [url for url, _, _ in distinct]}
    members |= {"sourcesContent": contents} if any(c is not None for c in contents) else {}
    yield from tidied(text, compact(members | {"version": 3}))


def numbered_files(numbers):
    written = [f"s{number}.js" for number in numbers]
    return are_numbered(written, [(HERE + name, None, False) for name in written])


@test
def five_thousand_sources_are_five():
    yield from numbered_files([i % 5 for i in range(5000)])


@test
def many_urls_are_numbered_as_a_scan_numbers_them():
    # 2,000 numbers below 811 in a scrambled order, some of them often and some not at all.
    yield from numbered_files([i * i // 3 % 811 for i in range(2000)])


A = "http://h/m/a.js"
B = "http://h/b.js"

# Sources of several kinds: how each is written, its URL, its content, and whether it is ignored. Some that are
# written differently are equal, and some that are written alike are not.
KINDS = [
    ("a.js", A, None, False),
    ("a.js", A, "t", False),
    ("a.js", A, "u", False),
    ("a.js", A, "", False),
    ("a.js", A, None, True),
    ("a.js", A, "t", True),
    ("./x/../a.js", A, None, False),
    ("HTTP://H:80/m/a.js", A, "t", False),
    ("/m/a.js", A, None, True),
    (None, None, None, False),
    (None, None, "t", False),
    (None, None, "", False),
    (None, None, None, True),
    ("../b.js", B, None, False),
    ("//h/b.js", B, None, False),
    ("/b.js", B, "u", True),
    ("http://h/m/%2e./b.js", B, "u", True),
]


@test
def sources_of_all_kinds_are_numbered_as_a_scan_numbers_them():
    # In a scrambled order.
    kinds = [KINDS[i * i // 9 % 17] for i in range(500)]
    sources = [kind[1:] for kind in kinds]
    # Found by hand: the rows of the table without those that are equal to an earlier one.
    assert len(scan(sources)[0]) == 12
    yield from are_numbered([written for written, *_ in kinds], sources)
