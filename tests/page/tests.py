"""Tests the page that is the programs, in browsers: see tests/page/run. Expected values are what the program
itself writes, or by hand."""

import argparse
import json
import os
import pathlib
import shutil
import signal
import subprocess
import sys
import tempfile
import time
import traceback

TOP = pathlib.Path(__file__).resolve().parents[2]
sys.path.insert(0, str(TOP / "tests/view"))

import browsers  # noqa: E402
from selenium_parts import Chromium, Firefox  # noqa: E402

SMAP = os.environ["SMAP"]
MODULE = pathlib.Path(os.environ.get("SMAP_CAPI") or TOP / "capi/node/out") / "smap-programs.wasm"
MAPS = TOP / "tests/rows/maps"
EXAMPLE = [
    "TypeError: Cannot read properties of undefined (reading 'toFixed')",
    "    at t (https://shop.example/src/cart.ts:3:42)",
    "    at https://shop.example/src/cart.ts:5:1",
]
counts = {"passed": 0, "failed": 0}
names = []


def test(name, function, *values):
    """Runs a test, and shows why it failed."""
    if names and not any(text in name for text in names):
        return
    try:
        function(*values)
        counts["passed"] += 1
    except Exception:  # whatever it is, it is told
        counts["failed"] += 1
        print(f"FAILED: {name}")
        print("  " + "\n  ".join(traceback.format_exc(limit=-2).splitlines()[-8:])[:2000], flush=True)


def equal(got, wanted):
    assert got == wanted, f"{got!r}, not {wanted!r}"


# ---- the builds, and what the program says of them


class Build:
    """A folder with maps and scripts, and its files."""

    def __init__(self, folder):
        self.folder = folder
        self.name = folder.name

    def put(self, name, text):
        file = self.folder / name
        file.parent.mkdir(parents=True, exist_ok=True)
        file.write_text(text, encoding="utf-8")
        return self

    def files(self):
        return sorted(file for file in self.folder.rglob("*") if file.is_file())

    def run(self, name, *words):
        """Runs a program above the folder, as the page does, where it is alone."""
        above = self.folder.parent
        program = above.parent / "programs" / name
        program.parent.mkdir(exist_ok=True)
        if not program.is_symlink():
            program.symlink_to(SMAP)
        done = subprocess.run([program, *words], cwd=above, stdin=subprocess.DEVNULL, capture_output=True,
                              timeout=60)
        # In the page the folder above is /work.
        texts = [text.decode().replace(f"file://{above}/", "file:///work/")
                 for text in (done.stdout, done.stderr)]
        return done.returncode, *texts


def builds(temp):
    good = Build(temp / "good/dist")
    shutil.copytree(MAPS / "dist", good.folder)
    good.put("out.js", "f()\n//# sourceMappingURL=out.js.map\n")
    broken = Build(temp / "broken/broken")
    shutil.copytree(MAPS / "broken", broken.folder)
    return good, broken


# ---- what the page shows


def shown(browser, tab, seconds=60):
    """Waits until the page shows a tab's results."""
    browser.wait("""return document.body.dataset.shown === arguments[0] &&
        document.getElementById('busy').hidden""", tab, seconds=seconds)


def text_of(browser, name):
    return browser.run("""
        const it = document.getElementById(arguments[0]);
        return it.hidden ? '' : it.textContent""", name)


def is_bad(browser, name):
    return browser.run("return document.getElementById(arguments[0]).classList.contains('bad')", name)


def choose(browser, tab):
    browser.run("document.getElementById('tab-' + arguments[0]).click()", tab)
    shown(browser, tab)


def paste(browser, text):
    """Pastes a text, as one does outside of any field."""
    browser.run("""
        const [data] = arguments, dataType = 'text/plain', clipboardData = new DataTransfer();
        clipboardData.setData(dataType, data);
        const how = { clipboardData, data, dataType, bubbles: true };
        document.body.dispatchEvent(new ClipboardEvent('paste', how));""", text)


def opened(browser, page):
    browser.open(f"file://{page}")
    browser.wait("return document.body.dataset.ready", seconds=60)
    shown(browser, "trace")


def holds(browser, count):
    browser.wait("return document.body.dataset.files === arguments[0]", str(count))


def start(browser, page, build, log=None):
    """Opens the page and puts a build in, and a log if one is given."""
    opened(browser, page)
    browser.pick(build)
    holds(browser, len(build.files()))
    if log is not None:
        paste(browser, log)
    shown(browser, "trace")


# ---- the tests


def traces(browser, page, build, log, folder):
    start(browser, page, build, log)
    (folder / "pasted.log").write_text(log)
    status, output, errors = build.run("smap-trace", build.name, str(folder / "pasted.log"))
    equal(text_of(browser, "traced"), output)
    equal(text_of(browser, "trace-said"), errors.rstrip("\n"))
    equal(is_bad(browser, "trace-said"), status != 0)
    changed = [line for line, old in zip(output.splitlines(), log.splitlines()) if line != old]
    marked = "return [...document.querySelectorAll('#traced span')].map(one => one.textContent)"
    equal(browser.run(marked), changed)


def hides(browser, page, build, folder):
    log = "x\n    at f (http://h/m/out.js:1:2)\n"
    start(browser, page, build, log)
    browser.run("document.getElementById('context').click()")
    shown(browser, "trace")
    (folder / "pasted.log").write_text(log)
    words = "--context", "2", build.name, str(folder / "pasted.log")
    equal(text_of(browser, "traced"), build.run("smap-trace", *words)[1])


def long_log(browser, page, build, folder):
    """A log that is a file, too long for the field."""
    text = "    at f (http://h/m/out.js:1:2)\nquiet\n" * 40_000
    file = folder / "long.log"
    file.write_text(text)
    start(browser, page, build)
    browser.pick_log(file)
    browser.wait("return document.getElementById('log').hidden")
    shown(browser, "trace")
    lines = text_of(browser, "traced").splitlines()
    equal((len(lines), lines[:2]), (20_000, ["    at f (http://h/m/a.js:11:3)", "quiet"]))
    assert "more in the file" in text_of(browser, "trace-state")
    written = build.run("smap-trace", build.name, str(file))[1]
    equal(browser.written(), written)


def lints(browser, page, build):
    start(browser, page, build)
    choose(browser, "lint")
    written = build.run("smap-maps", "lint", "--format", "json", build.name)[1]
    wanted = [json.loads(line) for line in written.splitlines()]
    at = {True: "", False: ":{line}:{column}"}
    wanted = [[one["level"], one["file"] + at[one["line"] is None].format(**one), one["message"], one["rule"]]
              for one in wanted]
    rows = browser.run("""return [...document.querySelectorAll('#linted tbody tr')].map(row =>
        [...row.cells].map(cell => cell.textContent))""")
    equal(rows, wanted)
    assert rows


def views(browser, page, build):
    start(browser, page, build)
    maps = [str(file.relative_to(build.folder.parent)) for file in build.files() if file.suffix == ".map"]
    listed = "return [...document.getElementById('map').options].map(one => one.value)"
    equal(browser.run(listed), [*maps, build.name])
    choose(browser, "view")
    for name in [*maps, build.name]:
        browser.run("""
            const map = document.getElementById('map');
            map.value = arguments[0];
            map.dispatchEvent(new Event('change'))""", name)
        shown(browser, "view")
        status, output, errors = build.run("smap-view", name)
        equal(text_of(browser, "view-said"), errors.rstrip("\n"))
        equal(is_bad(browser, "view-said"), status != 0)
        equal(browser.run("return document.getElementById('viewed').hidden"), not output)
        if output:
            equal(browser.written(), output)


def shows_in_frame(browser, page, build):
    build.put("out.js", "f()\n//# sourceMappingURL=out.js.map\n")
    start(browser, page, build)
    choose(browser, "view")
    browser.run("const map = document.getElementById('map'); map.value = arguments[0]; map.onchange()",
                f"{build.name}/out.js.map")
    shown(browser, "view")
    equal(browser.in_frame("return document.querySelector('h1').textContent"), "out.js")
    assert "mapping" in browser.in_frame("return document.getElementById('summary').textContent")
    equal(browser.in_frame("return self.origin"), "null")


def refuses(browser, page, build, folder):
    log = "    at f (http://h/m/lazy/one.js:1:5)\n"
    traces(browser, page, build, log, folder)
    assert "version is 2, not 3" in text_of(browser, "trace-said")
    assert is_bad(browser, "trace-said")
    choose(browser, "lint")
    assert "version is 2, not 3" in text_of(browser, "linted")
    browser.run("document.getElementById('map').value = 'broken/lazy/one.js.map'")
    choose(browser, "view")
    equal(browser.written(), build.run("smap-view", "broken/lazy/one.js.map")[1])
    assert is_bad(browser, "view-said")


FAKE_DROP = """
    const [list, text] = arguments;
    const entryOf = (name, kids) => kids instanceof File
        ? { name, isFile: true, file: answer => answer(kids) }
        : { name, isFile: false, createReader: () => {
              const left = Object.entries(kids).map(([one, below]) => entryOf(one, below));
              return { readEntries: answer => answer(left.splice(0, 1)) };
          } };
    const tree = {};
    for (const [path, content] of list) {
        const parts = path.split('/'), name = parts.pop();
        let at = tree;
        for (const part of parts) at = at[part] ??= {};
        at[name] = new File([content], name);
    }
    const items = Object.entries(tree).map(([name, kids]) =>
        ({ kind: 'file', webkitGetAsEntry: () => entryOf(name, kids) }));
    const event = new Event('drop', { cancelable: true });
    event.dataTransfer = { items, files: [], getData: () => text };
    dispatchEvent(event);"""


def dropped(browser, page, build, log):
    """A drop of a folder and a log, entry by entry, as browsers pass it; folders of packages are left out."""
    opened(browser, page)
    files = [[str(file.relative_to(build.folder.parent)), file.read_text()] for file in build.files()]
    more = [["dist/node_modules/x/index.js", "x"], ["crash.log", log]]
    browser.run(FAKE_DROP, files + more, "")
    holds(browser, len(files))
    browser.wait("return document.getElementById('log').value")
    shown(browser, "trace")
    assert "a.js:11:3" in text_of(browser, "traced")
    assert "Without node_modules" in text_of(browser, "build-said")
    browser.run(FAKE_DROP, [], "    at f (http://h/m/out.js:1:2)")
    browser.wait("return document.getElementById('log').value.length < 40")
    shown(browser, "trace")
    equal(text_of(browser, "traced"), "    at f (http://h/m/a.js:11:3)\n")


def really_dropped(browser, page, build, folder):
    """A drop of a folder of the disk, or where that can't be made, of its files."""
    (folder / "crash.log").write_text("    at f (http://h/m/out.js:1:2)\n")
    opened(browser, page)
    browser.drop(build, folder / "crash.log")
    holds(browser, len(build.files()))
    browser.wait("return document.getElementById('log').value")
    shown(browser, "trace")
    equal(text_of(browser, "traced"), "    at f (http://h/m/a.js:11:3)\n")


def example(browser, page):
    opened(browser, page)
    browser.run("document.getElementById('example').click()")
    holds(browser, 2)
    shown(browser, "trace")
    equal(text_of(browser, "traced").splitlines(), EXAMPLE)
    choose(browser, "lint")
    equal(text_of(browser, "lint-hint"), "Nothing is wrong with this build.")
    browser.run("document.getElementById('clear').click()")
    holds(browser, 0)
    shown(browser, "lint")
    equal(text_of(browser, "lint-hint"), "The findings appear here once there is a build.")


def large(browser, page, folder, tell):
    """A build of 100 MB: the page answers while it is read."""
    build = Build(folder / "large/build")
    command = [sys.executable, "-B", TOP / "bench/make_map.py", "--segments", "400000"]
    made = subprocess.run(command, check=True, capture_output=True).stdout.decode()
    for number in range(1 + 100_000_000 // len(made)):
        build.put(f"large{number}.js.map", made)
    start(browser, page, build)
    browser.run("""
        self.longest = 0;
        let last = performance.now();
        setInterval(() => {
            const now = performance.now();
            longest = Math.max(longest, now - last);
            last = now;
        }, 10);""")
    began = time.monotonic()
    browser.run("document.getElementById('tab-lint').click()")
    browser.wait("return / MB read$/.test(document.getElementById('busy-said').textContent)", seconds=60)
    shown(browser, "lint", seconds=300)
    taken, longest = time.monotonic() - began, browser.run("return longest")
    size = sum(file.stat().st_size for file in build.files()) / 1e6
    tell(f"{browser.name}: {size:.0f} MB linted in {taken:.1f} s, the page busy for {longest:.0f} ms at most")
    assert longest < 1000, longest
    shutil.rmtree(build.folder)


def requests_nothing(browser, page, build, log):
    browser.requests()
    start(browser, page, build, log)
    for tab in "lint", "view":
        choose(browser, tab)
    time.sleep(0.5)
    wanted = [f"file://{page}"]
    equal([url for url in browser.requests() if not url.startswith("blob:")], wanted)
    equal(browser.run("return performance.getEntriesByType('resource').map(one => one.name)"
                      ".filter(one => !one.startsWith('blob:'))"), [])


def asks_nobody(browser, page):
    """What the policy keeps: no script of the page can send anything."""
    opened(browser, page)
    tried = """
        return Promise.all([
            fetch('http://127.0.0.1:9/').then(() => 'sent', () => 'kept'),
            new Promise(ok => {
                const one = new Image();
                one.onload = () => ok('sent');
                one.onerror = () => ok('kept');
                one.src = 'http://127.0.0.1:9/';
            }),
            Promise.resolve(document.querySelector('meta[http-equiv]').content.split(';')[0]),
        ]);"""
    equal(browser.run(tried), ["kept", "kept", "default-src 'none'"])
    browser.complaints()


def console_is_quiet(browser, page, build, log):
    browser.complaints()
    start(browser, page, build, log)
    for tab in "lint", "view":
        choose(browser, tab)
    time.sleep(0.5)
    equal(browser.complaints(), [])


NAMELESS = """
    const texts = list => list.map(one => one?.textContent.trim() ?? '').join('');
    const ids = one => (one.getAttribute('aria-labelledby') ?? '').split(' ');
    const names = one => one.getAttribute('aria-label') || one.title || texts([...(one.labels ?? [])]) ||
        (one.matches('button, a') && texts([one])) || texts(ids(one).map(id => document.getElementById(id)));
    const all = 'button, a, input, select, textarea, iframe, progress, [tabindex], [role]:not([role=status])';
    return [...document.querySelectorAll(all)].filter(one => !names(one)).map(one => one.outerHTML.slice(0, 100));"""

CONTRASTS = """
    const numbers = text => text.match(/[\\d.]+/g).map(Number);
    const linear = v => v <= 0.04045 ? v / 12.92 : ((v + 0.055) / 1.055) ** 2.4;
    const light = ([r, g, b]) => 0.2126 * linear(r / 255) + 0.7152 * linear(g / 255) + 0.0722 * linear(b / 255);
    const under = one => {
        for (; one; one = one.parentElement) {
            const color = numbers(getComputedStyle(one).backgroundColor);
            if (color.length < 4 || color[3] > 0) return color;
        }
        return [255, 255, 255];
    };
    const hasText = one => [...one.childNodes].some(node => node.nodeType === 3 && node.data.trim());
    const low = [];
    for (const one of document.querySelectorAll('body *')) {
        if (!hasText(one) || !one.checkVisibility()) continue;
        const [a, b] = [light(numbers(getComputedStyle(one).color)), light(under(one))].sort((x, y) => y - x);
        if ((a + 0.05) / (b + 0.05) < 4.5) low.push(one.outerHTML.slice(0, 80));
    }
    return low;"""


def names_and_contrasts(browser, page, broken):
    for scheme in "light", "dark":
        browser.scheme(scheme)
        start(browser, page, broken, "x\n    at f (http://h/m/out.js:1:2)\n")
        equal(browser.run(NAMELESS), [])
        for tab in "trace", "lint", "view":
            choose(browser, tab)
            equal(browser.run(CONTRASTS), [])
    browser.scheme("light")


def keyboard(browser, page, build, log):
    start(browser, page, build, log)
    browser.run("document.getElementById('tab-trace').focus()")
    for key, tab in (browsers.RIGHT, "lint"), (browsers.RIGHT, "view"), (browsers.RIGHT, "trace"), \
            (browsers.LEFT, "view"), (browsers.HOME, "trace"), (browsers.END, "view"):
        browser.press(key)
        shown(browser, tab)
        equal(browser.run("return document.activeElement.id"), f"tab-{tab}")
    browser.press(browsers.TAB)
    browser.press(browsers.TAB)
    equal(browser.run("return document.activeElement.id"), "map")
    browser.run("document.getElementById('tab-trace').click(); document.activeElement.blur()")
    shown(browser, "trace")
    reached = set()
    for _ in range(25):
        browser.press(browsers.TAB)
        reached.add(browser.run("return document.activeElement.id"))
    wanted = "folder files clear log log-pick hide context tab-trace trace-save trace-copy"
    assert set(wanted.split()) <= reached, set(wanted.split()) - reached


def fits(browser, page, broken, width):
    browser.size(width, 800)
    start(browser, page, broken, "    at f (http://h/m/" + "long/" * 60 + "out.js:1:2)\n")
    for tab in "trace", "lint", "view":
        choose(browser, tab)
        equal(browser.run("return document.scrollingElement.scrollWidth <= innerWidth"), True)
    browser.size(1280, 800)


def too_old(browser, page, folder):
    """A browser without 64-bit memory: the worker is made to think so."""
    text = page.read_text()
    wide = "0, 0x61, 0x73, 0x6d, 1, 0, 0, 0, 5, 3, 1, 4, 1"
    assert text.count(wide) == 1
    (folder / "old.html").write_text(text.replace(wide, wide.replace("4, 1", "64, 1")))
    browser.open(f"file://{folder}/old.html")
    browser.wait("return !document.getElementById('trace-said').hidden", seconds=60)
    said = text_of(browser, "trace-said")
    wanted = "This browser can't run the programs: it has no WebAssembly with 64-bit memory. Chrome"
    assert said.startswith(wanted), said
    equal(text_of(browser, "trace-hint"), "")


def screens(browser, page, good, broken, folder):
    """Pictures of the page, to be looked at."""
    for width, height in (1280, 900), (390, 844):
        for scheme in "light", "dark":
            browser.size(width, height)
            browser.scheme(scheme)
            name = f"{folder}/{browser.name}-{width}-{scheme}"
            opened(browser, page)
            browser.shot(f"{name}-empty.png")
            start(browser, page, good, (MAPS / "crash.log").read_text())
            browser.shot(f"{name}-trace.png")
            browser.run("document.getElementById('map').value = 'dist/out.js.map'")
            choose(browser, "view")
            time.sleep(0.5)
            browser.shot(f"{name}-view.png")
            start(browser, page, broken, "    at f (http://h/m/lazy/one.js:1:5)\n")
            browser.shot(f"{name}-refused.png")
            choose(browser, "lint")
            browser.shot(f"{name}-lint.png")
    browser.size(1280, 800)
    browser.scheme("light")


def try_browser(browser, page, temp, given):
    good, broken = builds(temp / browser.name)
    log = (MAPS / "crash.log").read_text()
    folder = temp / browser.name
    browser.size(1280, 800)

    def one(name, function, *values):
        test(f"{browser.name}: {name}", function, browser, page, *values)

    one("a folder and a pasted log", traces, good, log, folder)
    one("source lines", hides, good, folder)
    one("a long log", long_log, good, folder)
    one("lint", lints, good)
    one("lint of a refused map", lints, broken)
    one("the pages of maps", views, good)
    one("a map in its frame", shows_in_frame, good)
    one("a refused map", refuses, broken, folder)
    one("a drop, entry by entry", dropped, good, log)
    one("a drop", really_dropped, good, folder)
    one("the example", example)
    one("requests", requests_nothing, good, log)
    one("what the policy keeps", asks_nobody)
    one("the console", console_is_quiet, good, log)
    one("names and contrasts", names_and_contrasts, broken)
    one("the keyboard", keyboard, good, log)
    for width in 1280, 390:
        one(f"a width of {width}", fits, broken, width)
    one("no 64-bit memory", too_old, folder)
    if not given.quick:
        one("a build of 100 MB", large, folder, print)
    if given.screens:
        one("pictures", screens, good, broken, given.screens)


def page_to_test(folder):
    """The path of the page, and why there is none."""
    if "SMAP_PAGE" in os.environ:
        return pathlib.Path(os.environ["SMAP_PAGE"]).resolve(), ""
    if not MODULE.exists():
        return None, f"no {MODULE}: tools/build-wasm makes it"
    page = folder / "smap.html"
    subprocess.run([TOP / "tools/build-page", page], check=True, stdout=subprocess.DEVNULL)
    return page, ""


def main():
    parser = argparse.ArgumentParser(prog="tests/page/run")
    parser.add_argument("--quick", action="store_true")
    parser.add_argument("--screens", metavar="FOLDER", type=pathlib.Path)
    parser.add_argument("names", nargs="*")
    given = parser.parse_args()
    names.extend(given.names)
    if given.screens:
        given.screens.mkdir(parents=True, exist_ok=True)
    # so that the browsers end too
    signal.signal(signal.SIGTERM, lambda *_: sys.exit(1))
    left_out = []
    with tempfile.TemporaryDirectory() as temp:
        temp = pathlib.Path(temp).resolve()
        page, why = page_to_test(temp)
        for kind in (Chromium, Firefox) if page else ():
            missing = kind.missing()
            if missing:
                left_out.append(f"the page in {kind.name} (no {missing} here)")
                continue
            begun = time.monotonic()
            (temp / kind.name).mkdir()
            with kind() as browser:
                print(f"{kind.name} {browser.version}", flush=True)
                try_browser(browser, page, temp, given)
            print(f"{kind.name}: {time.monotonic() - begun:.0f} s", flush=True)
        if not page:
            left_out.append(f"the page ({why})")
    for one in left_out:
        print(f"LEFT OUT: {one}")
    skipped = f", {len(left_out)} skipped" if left_out else ""
    print(f"{counts['passed']} passed, {counts['failed']} failed{skipped}")
    return 1 if counts["failed"] else 0


if __name__ == "__main__":
    sys.exit(main())
