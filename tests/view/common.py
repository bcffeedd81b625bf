"""What the tests of the page share: how a page is made, and what it is asked."""

import os
import pathlib
import random
import re
import subprocess
import time

import pages

TOP = pathlib.Path(__file__).resolve().parents[2]
SMAP = os.environ.get("SMAP", f"{TOP}/crates/smap/out/smap")


def equal(got, wanted):
    assert got == wanted, f"{got!r}, not {wanted!r}"


def view(folder, *words, status=0):
    """Runs smap-view, which is the program by another name, and gives its page and what it said."""
    program = folder / "smap-view"
    if not program.is_symlink():
        program.symlink_to(SMAP)
    done = subprocess.run([program, *words], cwd=folder, stdin=subprocess.DEVNULL, capture_output=True,
                          timeout=600)
    equal((done.returncode, done.stderr.decode() if not status else ""), (status, ""))
    return done.stdout.decode(), done.stderr.decode()


def make_page(folder, name, *words, **more):
    page, _ = view(folder, *words, **more)
    (folder / f"{name}.html").write_text(page)
    return f"file://{folder}/{name}.html"

POINT = """
    const [line, column] = arguments;
    for (const row of document.querySelectorAll('#generated .row')) {
        if (Number(row.dataset.line) !== line) continue;
        let at = Number(row.dataset.column);
        for (const span of row.children) {
            if (span.className === 'number') continue;
            const length = span.textContent.length;
            if (column >= at && column < at + length) {
                const range = document.createRange();
                range.setStart(span.firstChild, column - at);
                range.setEnd(span.firstChild, column - at + 1);
                const pane = document.getElementById('generated'), edge = pane.getBoundingClientRect();
                pane.scrollLeft += Math.max(0, range.getBoundingClientRect().right - edge.right + 30);
                const box = range.getBoundingClientRect();
                return [box.left + Math.min(box.width / 2, 5), box.top + box.height / 2];
            }
            at += length;
        }
    }
    return null;"""

MARKED = """
    const text = pane => [...document.querySelectorAll(`#${pane} .mark`)].map(span => span.textContent)
        .join('').toWellFormed();
    return { generated: text('generated'), source: text('source'),
             status: document.getElementById('status').textContent,
             shown: document.getElementById('sources').title };"""

SAYS = re.compile(r"(\d+):(\d+)(?: to \d+:\d+)? comes from (\d+):(\d+) of (.*?)( \(ignored\))?"
                  r"(?:, name (\".*\"))?"
                  r"(?:; place \d+ of [\d,]+ with this original position)?$", re.DOTALL)


def lookup(folder, name, line, column):
    with open(folder / f"{name}.map", "rb") as file:
        return subprocess.run([SMAP, "lookup", f"http://h/m/{name}.map", str(line), str(column)], stdin=file,
                              capture_output=True, check=True).stdout.decode().rstrip("\n")


def as_lookup(status):
    """The line that `smap lookup` has for what the page says of a place."""
    if status.endswith(" has no mapping"):
        return "none"
    if status.endswith(" has a mapping without a source"):
        line, column = status.split(" ")[0].split(":")
        return f"{int(line) - 1}:{int(column) - 1} unmapped"
    found = SAYS.match(status)
    if not found:
        return f"what the page says isn't known: {status!r}"
    line, column, row, offset, url, _, name = found.groups()
    if url.startswith("source "):
        url = "null"
    text = f"{int(line) - 1}:{int(column) - 1} {url}:{int(row) - 1}:{int(offset) - 1}"
    return text if name is None else f"{text} {name}"


def lines_of(text):
    """The lines of a text, as ECMAScript counts them."""
    return re.split("\r\n|[\n\r\u2028\u2029]", text)


def places(made, count):
    """Places in a generated text: line, column, and the characters before it."""
    rng = random.Random(7)
    lines = [(number, line) for number, line in enumerate(lines_of(made["text"])) if line]
    found = []
    for _ in range(count):
        number, line = rng.choice(lines)
        before = line[:rng.randrange(len(line))]
        found.append((number, pages.units(before)))
    return found


CLEAR = "document.getElementById('status').textContent = ''"


# A link within the page is followed by two navigations, and the page makes one more each 300 ms at most.
# Chromium ignores those above 200 within 10 s, and says so.
FOLLOW_SECONDS = 0.15
next_follow = 0


def follow(browser, link):
    """Follows a link within the page, no oftener than browsers let a page do, and waits until it says
    something."""
    global next_follow
    time.sleep(max(0, next_follow - time.monotonic()))
    next_follow = time.monotonic() + FOLLOW_SECONDS
    browser.run(f"{CLEAR}; history.replaceState(null, '', '#'); location.hash = arguments[0]", link)
    return browser.wait("return document.getElementById('status').textContent")


def status(browser):
    return browser.run("return document.getElementById('status').textContent")


TABLE = """
    return [...document.querySelectorAll('tbody tr')].map(row =>
        [...row.children].map(cell => cell.textContent));"""
