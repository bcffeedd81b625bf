"""Random calls of the Python module about the names of scripts and maps, for calls.py.

What they return is compared with the steps of ECMA-426, with Python's own modules, or with the way back.
"""

import base64
import re
import sys
from pathlib import Path
from urllib.parse import quote, quote_from_bytes, urljoin

sys.path.insert(0, str(Path(__file__).resolve().parents[2] / "capi" / "python"))
import smap  # noqa: E402
from asserted import is_error, raised, same  # noqa: E402

# The white space of ECMAScript, and a comment that names a map.
WHITE = "\t\v\f \u00a0\u1680\u202f\u205f\u3000\ufeff" + "".join(map(chr, range(0x2000, 0x200B)))
COMMENT = re.compile(f"[@#][{WHITE}]*sourceMappingURL=([^{WHITE}]*)[{WHITE}]*")

# What scripts consist of that are looked at.
PIECES = ["//", "/*", "*/", "/", "*", "#", "@", " ", "sourceMappingURL=", "a", "b.map", "\n", "\r\n", "f()"]
PIECES += ["\u2028", "\u00a0", "\ufeff", "\u200b", "\x85", "//# sourceMappingURL=", "/*@ sourceMappingURL="]
PIECES += ["\n//# sourceMappingURL=c\n"]


def link_by_standard(text, css):
    """The URL that a script names, as the standard finds it without parsing: from the beginning."""
    last = None
    for line in re.split("[\n\r\u2028\u2029]", text):
        at = 0
        while at < len(line):
            first, second = line[at], line[at + 1 : at + 2]
            at += 1
            if first == "/" and second == "/" and not css:
                last = _named(line[at + 1 :], last)
                break
            if first == "/" and second == "*":
                end = line.find("*/", at + 1)
                if end >= 0:
                    last = _named(line[at + 1 : end], last)
                # the last character of a comment without an end is looked at as code
                at = end + 2 if end >= 0 else max(at + 1, len(line) - 1)
            elif first not in WHITE:
                last = None
    return last


def _named(comment, last):
    found = COMMENT.fullmatch(comment)
    return found[1] if found else last


def ask_link(dice):
    text = "".join(dice.choices(PIECES, k=dice.randrange(20)))
    if dice.random() < 0.02:
        text = dice.choice(["\n", "f()\n", "x", "/*", " "]) * dice.randrange(1 << 18) + text
    for css in (False, True):
        wanted = link_by_standard(text, css)
        same(smap.script_link(text, css), wanted, text, css)
        same(smap.script_link(text.encode(), css=css), wanted if wanted is None else wanted.encode(), text)


def ask_data(dice):
    data = dice.randbytes(dice.choice([0, 1, 2, 3, 600, dice.randrange(1 << 12)]))
    coded = base64.b64encode(data).decode()
    if dice.random() < 0.5:
        coded = coded.rstrip("=")
    at = dice.randrange(len(coded) + 1)
    coded = coded[:at] + dice.choice(["", " ", "\n", "\t"]) + coded[at:]
    kind = dice.choice(["", "application/json", "a;charset=x"])
    same(smap.data_url(f"data:{kind};{dice.choice(['base64', 'BASE64'])},{coded}"), data)
    same(smap.data_url(f"Data:{kind}," + quote(data)), data)
    broken = bytearray(f"data:{kind};base64,{coded}".encode())
    broken[dice.randrange(len(broken))] = dice.randrange(256)
    found = raised(smap.data_url, bytes(broken))
    is_error(found, (bytes, type(None), smap.Error), bytes(broken))


def path_like(dice):
    """The bytes of a path, mostly of one with a `file:` URL."""
    pieces = [b"a", b"b.js", b" ", b"%", b"%41", b"\\", b"?x", b"#", b"\xc3\xa9", b"..", b".", b"\t", b"[]"]
    pieces += [b"^`{}", b"!$&'()*+,;=@|~"]
    names = [b"".join(dice.choices(pieces, k=dice.randrange(1, 4))) for _ in range(dice.randrange(1, 4))]
    if dice.random() < 0.2:
        names.append(dice.choice([b"\xff", b"\xc3", b"\xed\xa0\x80", b"x" * dice.randrange(1 << 16)]))
    return b"/" + b"/".join(names)


def is_utf8(path):
    return not isinstance(raised(path.decode), UnicodeDecodeError)


def ask_paths(dice):
    path = path_like(dice)
    found = raised(smap.file_url, path)
    if is_utf8(path):
        same(found, b"file://" + quote_from_bytes(path, "/!$&'()*+,:;=@[]|").encode(), path)
        same(smap.file_path(found), path)
        same(smap.file_path(found + dice.choice([b"?x", b"#", b"?a#b"])), path)
        same(smap.normal_form(path), smap.normal_form(found), path)
        same(smap.file_url(path[1:]), None, path)
    else:
        is_error(found, smap.Error, path)
        same(found.code, 10)
    changed = bytearray(b"file://" + quote_from_bytes(path).encode())
    changed[dice.randrange(len(changed))] = dice.randrange(256)
    is_error(raised(smap.file_path, bytes(changed)), (bytes, type(None), smap.Error), bytes(changed))


def ask_names(dice):
    """A name below a folder comes back from its URL, if a file can have it."""
    name = path_like(dice)[1:]
    fits = all(part not in (b"", b".", b"..") for part in name.split(b"/"))
    for folder in (b"http://h/m/", b"/s/", b"C:/s/", b"file:///s/"):
        url = smap.script_url(folder, name)
        same(smap.script_name(folder, url), name if fits else None, folder, name)
        same(smap.script_name(folder, b"x" + url), None)
    if b"\\" not in name:
        url = smap.script_url(b"C:\\s\\", name)
        same(url, b"C:\\s\\" + name.replace(b"/", b"\\"))
        same(smap.script_name(b"C:\\s\\", url), name if fits else None, name)


def ask_resolved(dice):
    script = "http://h/" + "".join(dice.choices(["m/", "n/", "../"], k=dice.randrange(4))) + "out.js"
    script = urljoin("http://h/", script[len("http://h/") :])
    rest = "/".join(dice.choices(["a", "b.map", "..", "."], k=dice.randrange(5)))
    rest += dice.choice(["", "?v=3", "#x"])
    # urljoin leaves `..` in a URL that has a host
    begin, base = dice.choice([("", script), ("/", "http://h/"), ("//k/", "http://k/")])
    url = begin + rest
    same(smap.resolve(script, url), urljoin(base, rest), script, url)
    wild = dice.choice([b"\xff", b"http://[", b"%", b"x:y", b"\0", b"a b", b"\\\\k\\x"]) + url.encode()
    is_error(raised(smap.resolve, script.encode(), wild), (bytes, smap.Error), wild)
    is_error(raised(smap.resolve, "out.js", url), smap.Error, url)


def ask_alike_names(dice):
    names = ["http://h/a.js", "HTTP://H:80/./a.js", "/a.js", "file:///a.js", "c:/a.js", "C:\\a.js", "a", ""]
    one, other = (dice.choice(names) + dice.choice(["", "", "?x", "#", "/.."]) for _ in range(2))
    same(smap.alike(one, other), smap.normal_form(one) == smap.normal_form(other), one, other)
    same(smap.alike(one, one.encode()), True, one)
    is_error(raised(smap.alike, one, "\ud800"), smap.Error)
    wild = dice.randbytes(dice.randrange(40))
    same(smap.alike(wild, wild), True, wild)
    smap.normal_form("http://h/" + dice.choice(["%", "../", "a/", "?", "\u00e4"]) * dice.randrange(1 << 14))


LINK_CALLS = [ask_link, ask_data, ask_paths, ask_names, ask_resolved, ask_alike_names]
