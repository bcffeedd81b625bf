"""Tests of what is in a page: its parts as they are, hostile maps and refused ones."""

import base64
import hashlib
import http.server
import json
import re
import subprocess
import threading
import time

import browsers
import pages
from common import SMAP, TOP, equal, follow, make_page, status, view


# ---- the page as a text


def data_of(page):
    """The data of a page, and the elements that they are in."""
    found = re.findall(r'<script type="application/json" id="([\w-]+)">(.*)</script>', page)
    return {name: json.loads(text) for name, text in found}, [text for _, text in found]


def numbers_in(text):
    """The numbers of a page's mappings, as docs/OUTPUT.md has them."""
    value, scale = 0, 1
    for character in text:
        digit = ord(character) - 61
        value += digit % 16384 * scale
        scale *= 16384
        if digit < 16384:
            yield value
            value, scale = 0, 1


def mappings_in(text):
    """The mappings: line, column and, where they have them, source, row, offset and name."""
    numbers, found = numbers_in(text), []
    line = column = 0
    last = [0, 0, 0, 0]
    for number in numbers:
        if number % 4 == 3:
            line, column = line + number // 4, 0
            number = next(numbers)
        column += number // 4
        for field in range((0, 3, 4)[number % 4]):
            step = next(numbers)
            last[field] += -(step + 1) // 2 if step % 2 else step // 2
        found.append((line, column, *last[:(0, 3, 4)[number % 4]]))
    return found


def holds_its_parts(folder, made, page):
    data, texts = data_of(page)
    equal(list(data), ["about", "map", "text"])
    equal(data["text"], made["text"])
    with open(folder / "small.js.map", "rb") as file:
        tidied = subprocess.run([SMAP, "tidy", "http://h/m/small.js.map"], stdin=file, capture_output=True,
                                check=True).stdout
    canonical = json.loads(tidied)
    for member in "sources", "sourcesContent", "ignoreList":
        equal((member, data["map"][member]), (member, canonical[member]))
    equal(data["map"]["names"], pages.NAMES)
    equal(mappings_in(data["map"]["mappings"]), made["made"])
    equal(data["map"]["bytes"], made["sizes"])
    owners = [mapping[2] if len(mapping) > 2 else len(pages.SOURCES) for mapping in made["made"]]
    equal(data["map"]["counts"], [owners.count(owner) for owner in range(len(pages.SOURCES) + 1)])
    assert not any("<" in text for text in texts)
    template = (TOP / "crates/smap_view_run/smap-view.html").stat().st_size
    parts = template + len(tidied) + len(made["text"].encode())
    assert len(page.encode()) < parts, "the page is larger than its parts"


def names_its_hashes():
    page = (TOP / "crates/smap_view_run/smap-view.html").read_text()
    for kind in "script", "style":
        [text] = re.findall(rf"<{kind}>(.*?)</{kind}>", page, re.DOTALL)
        value = base64.b64encode(hashlib.sha256(text.encode()).digest()).decode()
        assert f"{kind}-src 'sha256-{value}'" in page, f"the policy has to name '{kind}-src sha256-{value}'"


def uses_no_markup():
    """Nothing of the page's script takes a string for markup or script, or asks for anything."""
    page = (TOP / "crates/smap_view_run/smap-view.html").read_text()
    for word in ("innerHTML", "outerHTML", "insertAdjacentHTML", "document.write", "DOMParser", "eval(",
                 "Function(", "fetch(", "XMLHttpRequest", "import(", "http://", "https://", "src=", "href="):
        assert word not in page, word


def escapes_everything(folder):
    """Every character of one byte, and some of more, come through the page as they are."""
    text = "".join(map(chr, range(128))) + "\r\né漢🙂\u2028</script><!--" + "\\u0041\\\"\n\n"
    for ending in "", "\n", "x", ".\n.":
        (folder / "all.js").write_bytes((text + ending).encode())
        (folder / "all.js.map").write_text('{"version":3,"mappings":""}')
        page, _ = view(folder, "all.js.map")
        equal(data_of(page)[0]["text"], text + ending)
    (folder / "none.js").write_bytes(b"")
    equal(data_of(view(folder, "all.js.map", "none.js")[0])[0]["text"], "")


# ---- hostile maps


class Server:
    """A server that notes whatever is asked of it."""

    def __enter__(self):
        asked = self.asked = []

        class Handler(http.server.BaseHTTPRequestHandler):
            def do_GET(self):
                asked.append(self.path)
                self.send_response(204)
                self.end_headers()

            def log_message(self, *_):
                pass

        self.server = http.server.ThreadingHTTPServer(("127.0.0.1", 0), Handler)
        threading.Thread(target=self.server.serve_forever, daemon=True).start()
        return self

    def __exit__(self, *_):
        self.server.shutdown()


ELEMENTS = "return document.querySelectorAll('script, style, link, img, svg, iframe, object').length"


def hostile(browser, folder):
    with Server() as server:
        pages.hostile(folder, server.server.server_port)
        url = make_page(folder, "hostile.js.map", "hostile.js.map")
        browser.complaints()
        if isinstance(browser, browsers.Chromium):
            browser.requests()
        browser.open(url)
        before = browser.run(ELEMENTS)
        names = [text.replace("PORT", str(server.server.server_port)) for text in pages.HOSTILE]
        for number, name in enumerate(names):
            said = follow(browser, f"#source={number + 1}:1:1")
            assert said.endswith(f", name {json.dumps(name, ensure_ascii=False)}"), (said, name)
            equal(browser.run("return document.querySelectorAll('#source .mark').length > 0"), True)
        for view_name in "bytes", "texts":
            browser.run("document.getElementById(`${arguments[0]}-tab`).click()", view_name)
        time.sleep(0.5)
        equal(browser.dialog(), None)
        equal(browser.complaints(), [])
        if isinstance(browser, browsers.Chromium):
            asked = [one for one in browser.requests() if not re.match("file:///|about:blank$", one)]
            equal(asked, [])
        equal(server.asked, [])
        equal(browser.run(ELEMENTS), before)
        # the same server is asked by a page without the policy: the test would notice
        (folder / "open.html").write_text(f"<img src=http://127.0.0.1:{server.server.server_port}/seen>")
        browser.open(f"file://{folder}/open.html")
        equal(server.asked, ["/seen"])


# ---- refused maps

REFUSED = """
    return ['error', 'where', 'place'].map(id => document.getElementById(id))
        .map(one => one.hidden ? null : one.textContent)
        .concat([[...document.querySelectorAll('mark')].map(one => one.textContent)]);"""


def refusals(browser, folder):
    deep = ('{"version":3,"sections":[{"offset":{"line":0,"column":0},"map":{"version":3,"sources":["a.js"],'
            '"mappings":"AAAA"}},{"offset":{"line":1,"column":0},"map":{"version":3,"sections":[{"offset":'
            '{"line":0,"column":0},"map":{"version":3,"sources":["b.js"],"mappings":";AAAA,CCCC"}}]}}]}')
    # the text before the place of the error, where that isn't all before what is marked
    for text, error, mark, before in (
            ('{"version":3,"sources":["a.js"],"mappings":"AAAA,CCAA"}',
             "line 0 segment 1: source index", "CCAA", None),
            ('{"version":3,"sources":["a.js"],"mappings":";;A,,AAAA"}', "line 2 segment 1: empty segment",
             "\u2038", '{"version":3,"sources":["a.js"],"mappings":";;A,'),
            ('{"version":3,"sources":["a.js"],"mappings":";\\u0041,B"}',
             "line 1 segment 1: number 1: negative zero", "B", None),
            (deep, "section 1.0: line 1 segment 1: source index", "CCCC", None),
            (")]}'\n" + '{"version":3,"names":1,"names":[1],"mappings":""}', "names", "[1]", None),
            ('{"version":3,"sources":["x","http://a b/"],"mappings":""}',
             "source 1 is no URL", '"http://a b/"', None),
            ('{"version":3,"sections":[{"offset":{"line":-1,"column":0},"map":{}}]}', "section 0: offset",
             '{"line":-1,"column":0}', None),
            ('{"version":3,"x_google_ignoreList":[7],"mappings":""}', "ignoreList", "[7]", None),
            ('{"version":"</script><b>","mappings":""}', "version", '"</script><b>"', None),
            ("<html>", "not json", "\u2038", "")):
        (folder / "bad.map").write_text(text)
        url = make_page(folder, "bad.map", "bad.map", status=1)
        browser.open(url)
        shown_error, where, place, marks = browser.run(REFUSED)
        equal(shown_error, f"Refused: {error}")
        equal(marks, [mark])
        if before is None:
            before = text[:text.rindex(mark)]
            equal(place, text)
        line, column = before.count("\n") + 1, len(before.rpartition("\n")[2]) + 1
        assert where.startswith(f"It is at line {line}, column {column} of the map."), where
        equal("segment" in error, where.endswith(" Lines and segments of mappings count from 0."))
    equal(browser.run("return document.getElementById('main').hidden"), True)


def long_refusal(browser, folder):
    """Of a long map the page has what is around the error, and no more."""
    names = ",".join(f'"name{number}"' for number in range(20000))
    (folder / "long.map").write_text(f'{{"version":3,"names":[{names}],"mappings":"AAAA",'
                                     f'"sources":7,"file":"{"x" * 9000}"}}')
    url = make_page(folder, "long.map", "long.map", status=1)
    template = (TOP / "crates/smap_view_run/smap-view.html").stat().st_size
    assert (folder / "long.map.html").stat().st_size < template + 5000
    browser.open(url)
    _, _, place, marks = browser.run(REFUSED)
    equal(marks, ["7"])
    assert place.startswith("\u2026") and place.endswith("\u2026") and len(place) < 3100, place


# ---- a page of several scripts


BUNDLES = "return [...document.getElementById('bundles').options].map(one => one.textContent)"


def wait_for_sizes(browser):
    browser.wait("""
        return [...document.getElementById('bundles').options].every(one => one.textContent.endsWith(' bytes'))""")


def several(browser, folder):
    """A folder of a build is one page with a list of its scripts; a script is followed to its map."""
    build = folder / "build"
    (build / "lib").mkdir(parents=True, exist_ok=True)
    scripts = {"a.js": "a()\n//# sourceMappingURL=maps/a.map\n", "lib/b.js": "bb()", "c.js": "none"}
    for place, text in scripts.items():
        (build / place).write_text(text)
    (build / "maps").mkdir(exist_ok=True)
    for place, source in ("maps/a.map", "../src/a.ts"), ("lib/b.js.map", "b.ts"):
        (build / place).write_text(json.dumps(
            {"version": 3, "sources": [source], "sourcesContent": [f"{source}!"], "mappings": "AAAA"}))
    url = make_page(folder, "build", "--base", "http://h/m", "build")
    browser.open(url)
    wait_for_sizes(browser)
    equal(browser.run(BUNDLES), ["a.js, 36 bytes", "b.js, 4 bytes"])
    equal(browser.run("return document.getElementById('name').textContent"), "a.js")
    browser.open(f"{url}#2/generated=1:2")
    browser.wait("return document.getElementById('name').textContent === 'b.js'")
    equal(status(browser), "1:1 to 1:5 comes from 1:1 of http://h/m/lib/b.ts")
    browser.run("""
        const list = document.getElementById('bundles');
        list.value = '0';
        list.dispatchEvent(new Event('change'));""")
    browser.wait("return document.getElementById('name').textContent === 'a.js'")
    equal(follow(browser, "#generated=1:1"), "1:1 to 1:4 comes from 1:1 of http://h/m/src/a.ts")
    browser.open(make_page(folder, "a.js", "--base", "http://h/m", "build/a.js"))
    equal(follow(browser, "#generated=1:1"), "1:1 to 1:4 comes from 1:1 of http://h/m/src/a.ts")


def scripts_of_one_name(browser, folder):
    """Scripts of one name are told apart by their maps, and each has an address of its own."""
    build = folder / "chunks"
    for place in "a", "b":
        (build / place).mkdir(parents=True, exist_ok=True)
        (build / place / "main.js").write_text(f"{place}()")
        (build / place / "main.js.map").write_text(json.dumps(
            {"version": 3, "sources": [f"{place}.ts"], "mappings": "AAAA"}))
    (build / "c.js").write_text("c()")
    (build / "c.js.map").write_text('{"version":3,"sources":["c.ts"],"mappings":"AAAA"}')
    url = make_page(folder, "chunks", "--base", "http://h/m", "chunks")
    for number, name in enumerate(("a", "b", "c"), 1):
        browser.open("about:blank")
        browser.open(f"{url}#{number}/bytes")
        browser.wait("return document.getElementById('tree').checkVisibility()")
        equal(browser.run("return document.querySelector('tbody td').textContent"), f"{name}.ts")
        wait_for_sizes(browser)
        equal(browser.run(BUNDLES), ["main.js (a/main.js.map), 3 bytes", "main.js (b/main.js.map), 3 bytes",
                                     "c.js, 3 bytes"])


def many_sources(browser, folder):
    """Each source is listed, also where there are more than a call takes arguments."""
    sources = [f"{number}.js" for number in range(150000)]
    (folder / "many.js").write_text("f()")
    (folder / "many.js.map").write_text(json.dumps({"version": 3, "sources": sources, "mappings": "AAAA"}))
    browser.open(make_page(folder, "many.js.map", "--base", "http://h/m", "many.js.map"))
    browser.run("document.getElementById('sources').click()")
    equal(browser.run("return document.querySelector('#picker output').textContent"),
          "150,000 sources in http://h/m/")
    last = """
        const box = document.querySelector('#picker .options');
        box.scrollTop = box.scrollHeight;
        const lines = [...document.querySelectorAll('#source-list [role=option]')];
        return lines.at(-1)?.querySelector('bdi').textContent;"""
    browser.wait(f"return (() => {{{last}}})() === '{sources[-1]}'")


# ---- what isn't there


def no_content(browser, folder):
    """A source without contents has a line that says so, and no text."""
    (folder / "bare.js").write_text("f()")
    (folder / "bare.js.map").write_text('{"version":3,"sources":["a.js"],"mappings":"AAAA"}')
    browser.open(make_page(folder, "bare.js.map", "bare.js.map"))
    note, rows = browser.run("""
        const note = document.getElementById('no-content');
        return [note.checkVisibility() && note.textContent,
                [...document.querySelectorAll('#source .row')].filter(one => one.checkVisibility()).length];""")
    equal((note, rows), ("The map has no content for this source.", 0))


def without_scripts(browser, url):
    """Where scripts are off the page says that, and not that it has no map."""
    browser.devtools("Emulation.setScriptExecutionDisabled", value=True)
    try:
        browser.open("about:blank")
        browser.open(url)
        tree = browser.devtools("DOM.getDocument", depth=-1)["root"]
    finally:
        browser.devtools("Emulation.setScriptExecutionDisabled", value=False)
    texts = []

    def walk(node):
        if node["nodeName"] not in ("SCRIPT", "STYLE"):
            texts.append(node.get("nodeValue", "") if node["nodeName"] == "#text" else "")
            for child in node.get("children", []):
                walk(child)

    walk(tree)
    said = " ".join(texts)
    assert "by JavaScript, which is off" in said and "no map" not in said, said
