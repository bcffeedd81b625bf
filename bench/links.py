"""Times the calls of the C library that tie scripts to their maps, over large and hostile texts.

    python3 bench/links.py capi/out/libsmap.so
    python3 bench/links.py capi/out/libsmap.so --once

Each text is long in one respect, and its answer is known without the library. Prints the milliseconds of the
fastest of five calls, without those of making the text; the last line is `N passed, M failed`. A call fails
that answers otherwise, or takes more than its row says. With --once each call is made once, the texts are a
tenth as long, and may take ten times their part, as on a machine that does other work.
"""

import argparse
import base64
import os
import sys
import time
from pathlib import Path

TOP = Path(__file__).resolve().parent.parent

COMMENT = b"//# sourceMappingURL=a.map\n"
LINE = b"function f(a) { return a + 1 }\n"
SEPARATOR = "\u2028".encode()


def repeated(text, size):
    return text * (size // len(text))


# ---- what is asked of the library: a size gives the text, and its answer


def script(size):
    return repeated(LINE, size) + COMMENT, b"a.map"


def one_line(size):
    return repeated(b"f(1);", size) + b"\n" + COMMENT, b"a.map"


def no_comment(size):
    return repeated(LINE, size), None


def code_in_the_last_line(size):
    return COMMENT + repeated(b"f(1);", size), None


def blank_lines(size):
    return COMMENT + repeated(b" \n", size), b"a.map"


def separators(size):
    return COMMENT + repeated(SEPARATOR, size), b"a.map"


def halves_of_separators(size):
    return COMMENT + repeated(b"\xe2", size), None


def other_comments(size):
    return COMMENT + repeated(b"/**/", size), b"a.map"


def long_comment(size):
    url = repeated(b"x", size)
    return b"//# sourceMappingURL=" + url, url


def slashes(size):
    return COMMENT + repeated(b"/", size), b"a.map"


def base64_of_a_map(size):
    data = repeated(b'{"version":3}', size)
    return b"data:application/json;base64," + base64.b64encode(data), data


def escapes_of_a_map(size):
    return b"data:," + repeated(b"%7B", size), repeated(b"{", size // 3)


def half_an_escape(size):
    return b"data:," + repeated(b"%", size), repeated(b"%", size)


def many_names(size):
    urls = [b"HTTPS://shop.example:443/a/%d/../static/%d.js?v=1" % (n, n) for n in range(size)]
    return urls, [b"https://shop.example/a/static/%d.js" % n for n in range(size)]


def forms_of(smap):
    return lambda names: [smap.normal_form(name) for name in names]


def calls(smap):
    """Each call with its size in bytes or names, the text, and the milliseconds that it may take."""
    link, data = smap.script_link, smap.data_url
    return [
        (link, 10_000_000, script, 1),
        (link, 10_000_000, one_line, 1),
        (link, 10_000_000, no_comment, 1),
        (link, 10_000_000, code_in_the_last_line, 300),
        (link, 10_000_000, blank_lines, 600),
        (link, 10_000_000, separators, 600),
        (link, 10_000_000, halves_of_separators, 1000),
        (link, 10_000_000, other_comments, 300),
        (link, 10_000_000, long_comment, 300),
        (link, 10_000_000, slashes, 300),
        (data, 375_000_000, base64_of_a_map, 6000),
        (data, 500_000_000, escapes_of_a_map, 6000),
        (data, 100_000_000, half_an_escape, 3000),
        # Most of it is Python's: bench/names.c takes a fifth.
        (forms_of(smap), 110_000, many_names, 3000),
    ]


def measured(call, text, times):
    """The answer of a call, and the milliseconds of its fastest run."""
    best = None
    for _ in range(times):
        start = time.perf_counter()
        answer = call(text)
        taken = (time.perf_counter() - start) * 1e3
        best = taken if best is None else min(best, taken)
    return answer, best


def main():
    parser = argparse.ArgumentParser(description=__doc__.splitlines()[0])
    parser.add_argument("library", help="the file of the shared library")
    parser.add_argument("--once", action="store_true", help="each call once, over a tenth of the text")
    words = parser.parse_args()
    os.environ["SMAP_LIBRARY"] = words.library
    sys.path.insert(0, str(TOP / "capi" / "python"))
    import smap  # the library is named above

    failed, rows = 0, calls(smap)
    for call, size, make, most in rows:
        if words.once:
            size //= 10
        text, expected = make(size)
        answer, taken = measured(call, text, 1 if words.once else 5)
        wrong = "another answer" if answer != expected else f"not {most} ms" if taken > most else ""
        print(f"{taken:9.2f} ms  {make.__name__.replace('_', ' ')}, {size:,}", f"FAILED: {wrong}" if wrong else "")
        failed += bool(wrong)
    print(f"{len(rows) - failed} passed, {failed} failed")
    return 1 if failed else 0


if __name__ == "__main__":
    sys.exit(main())
