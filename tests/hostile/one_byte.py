"""A model of the format for a small map with one byte changed: what `tidy` writes for flat maps with the members
that a changed byte can leave. It is written over Python's json, with a reading of mappings of its own, and
shares nothing with the crates."""

import json

DIGITS = "ABCDEFGHIJKLMNOPQRSTUVWXYZabcdefghijklmnopqrstuvwxyz0123456789+/"
VALUE = {c: i for i, c in enumerate(DIGITS)}
MAXPOS = 2**31 - 1
LINES = 2**24


class Fault(Exception):
    pass


def refuse(condition, words):
    if condition:
        raise Fault(words)


def no_constant(_):
    raise ValueError("no JSON")


def finite(text):
    number = float(text)
    if number in (float("inf"), float("-inf")):
        raise ValueError("out of range")
    return number


def tree_of(data):
    try:
        text = data.decode("utf-8")
        if text.startswith("\ufeff"):
            raise ValueError("byte order mark")
        tree = json.loads(text, parse_constant=no_constant, parse_float=finite)
        json.dumps(tree, ensure_ascii=False).encode("utf-8")  # no lone surrogate
        return tree
    except (ValueError, RecursionError):
        raise Fault("not json") from None


def numbers_of(segment):
    """The numbers of a segment."""
    refuse(segment == "", "empty segment")
    numbers, at = [], 0
    while at < len(segment):
        which = min(len(numbers) + 1, 255)
        end = at
        while end < len(segment) and VALUE.get(segment[end], 0) >= 32:
            end += 1
        refuse(end == len(segment), f"number {which}: unfinished")
        refuse(segment[end] not in VALUE, f"number {which}: bad character")
        unsigned = sum((VALUE[c] % 32) * 32**i for i, c in enumerate(segment[at : end + 1]))
        refuse(unsigned >= 2**32, f"number {which}: too large")
        refuse(unsigned == 1, f"number {which}: negative zero")
        numbers.append(-(unsigned // 2) if unsigned % 2 else unsigned // 2)
        at = end + 1
    refuse(len(numbers) not in (1, 4, 5), f"{min(len(numbers), 255)} numbers")
    return numbers


def decoded(text, sources, names):
    tokens = []
    running = [0, 0, 0, 0]
    for line, part in enumerate(text.split(";")):
        column = 0
        for i, segment in enumerate(part.split(",") if part else []):
            try:
                numbers = numbers_of(segment)
                refuse(line >= LINES, "generated line")
                column += numbers[0]
                refuse(not 0 <= column <= MAXPOS, "generated column")
                original = None
                if len(numbers) > 1:
                    running = [a + b for a, b in zip(running, (numbers[1:] + [0])[:4])]
                    refuse(not 0 <= running[0] < sources, "source index")
                    refuse(not 0 <= running[1] <= MAXPOS, "original line")
                    refuse(not 0 <= running[2] <= MAXPOS, "original column")
                    refuse(len(numbers) == 5 and not 0 <= running[3] < names, "name index")
                    original = (running[0], running[1], running[2], running[3] if len(numbers) == 5 else None)
                tokens.append((line, column, original))
            except Fault as fault:
                raise Fault(f"line {line} segment {i}: {fault}") from None
    return sorted(tokens, key=lambda t: t[:2])


def spelled(n):
    rest = -2 * n + 1 if n < 0 else 2 * n
    digits = ""
    while rest > 31:
        digits += DIGITS[32 + rest % 32]
        rest //= 32
    return digits + DIGITS[rest]


def encoded(tokens):
    lines, running, at, column = [], [0, 0, 0, 0], 0, 0
    segments = []
    for line, to, original in tokens:
        while at < line:
            lines.append(",".join(segments))
            segments, at, column = [], at + 1, 0
        text = spelled(to - column)
        column = to
        if original:
            for k in range(4):
                if original[k] is not None:
                    text += spelled(original[k] - running[k])
                    running[k] = original[k]
        segments.append(text)
    lines.append(",".join(segments))
    return ";".join(lines)


ESCAPED_IN_A_PATH = ' "#<>?^`{}\x7f'


def url_of(source):
    """The URL of a short relative source against http://h/m/out.js.map, or one with a scheme of its own and
    no slash behind it: what a single changed byte makes of a.js."""
    source = source.strip("".join(map(chr, range(33))))
    scheme, colon, rest = source.partition(":")
    if colon and scheme[:1].isalpha() and all(c.isalnum() or c in "+-." for c in scheme):
        assert not rest.startswith("/")
        return source
    if source[:1] in ("?", "#"):
        return "http://h/m/out.js.map" + source
    cut = min([i for i in map(source.find, "?#") if i >= 0], default=len(source))
    path = "".join("%%%02X" % ord(c) if c in ESCAPED_IN_A_PATH else c for c in source[:cut])
    assert not path.startswith("//") and "." not in path.split("/") and ".." not in path.split("/")
    return ("http://h" if path.startswith("/") else "http://h/m/") + path + source[cut:]


def is_text(x):
    return isinstance(x, str)


def is_whole(x):
    return type(x) is int and 0 <= x < 2**64


def record(data):
    tree = tree_of(data)
    refuse(not isinstance(tree, dict), "not an object")
    get = tree.get
    refuse(not (is_whole(get("version")) and get("version") == 3), "version")
    refuse(get("file") is not None and not is_text(get("file")), "file")
    assert get("sections") is None
    sources = get("sources") if get("sources") is not None else []
    names = get("names") if get("names") is not None else []
    refuse(get("sourceRoot") is not None and not is_text(get("sourceRoot")), "sourceRoot")
    refuse(not (isinstance(sources, list) and all(s is None or is_text(s) for s in sources)), "sources")
    assert get("sourcesContent") is None
    refuse(not (isinstance(names, list) and all(map(is_text, names))), "names")
    assert get("ignoreList") is None and get("x_google_ignoreList") is None and get("sourceRoot") is None
    refuse(not is_text(get("mappings")), "mappings")
    urls = [s if s is None else url_of(s) for s in sources]
    tokens = decoded(get("mappings"), len(sources), len(names))
    return get("file"), urls, [
        (l, c, o and (o[0], o[1], o[2], None if o[3] is None else names[o[3]])) for l, c, o in tokens
    ]


def tidied(data):
    try:
        file, urls, tokens = record(data)
    except Fault as fault:
        return f"refused: {fault}\n"
    distinct = list(dict.fromkeys(urls))
    used = list(dict.fromkeys(o[3] for _, _, o in tokens if o and o[3] is not None))
    numbered = [
        (l, c, o and (distinct.index(urls[o[0]]), o[1], o[2], None if o[3] is None else used.index(o[3])))
        for l, c, o in tokens
    ]
    members = {"mappings": encoded(numbered), "names": used, "sources": distinct, "version": 3}
    if file is not None:
        members["file"] = file
    return json.dumps(members, sort_keys=True, separators=(",", ":"), ensure_ascii=False)
