"""Tests the page of smap-view in browsers: see tests/view/run. Expected values come from `smap lookup`, the
makers of the maps in pages.py, or by hand."""

import pathlib
import signal
import sys
import tempfile
import time
import traceback

import areas
import browsers
import contents
import controls
import lists
import looks
import marks
import pages
import wraps
from common import equal, make_page

NAMES = [word for word in sys.argv[1:] if word != "--quick"]
counts = {"passed": 0, "failed": 0}


def test(name, function, *values):
    """Runs a test, and shows why it failed."""
    if NAMES and not any(text in name for text in NAMES):
        return
    try:
        function(*values)
        counts["passed"] += 1
    except Exception:  # whatever it is, it is told
        counts["failed"] += 1
        print(f"FAILED: {name}")
        print("  " + "\n  ".join(traceback.format_exc(limit=-2).splitlines()[-8:])[:1500], flush=True)


def console_is_quiet(browser, url):
    """Nothing is told there, whatever was done before, and while the panes are scrolled."""
    browser.open(url)
    for top in 100, 300, 200:
        browser.run("for (const pane of document.querySelectorAll('.pane')) pane.scrollTop = arguments[0]", top)
        time.sleep(0.2)
    assert browser.run("return Number(document.querySelector('#generated .row').dataset.column)") > 0
    equal(browser.complaints(), [])


def try_browser(browser, folder, made, url, simple_url, count):
    browser.size(1280, 800)
    refused = make_page(folder, "refused.map", "refused.map", status=1)
    test(f"{browser.name}: {count} clicks", marks.clicks, browser, folder, made, url, count)
    test(f"{browser.name}: clicks in lines that aren't wrapped", marks.clicks, browser, folder, made, url,
         count // 5, False)
    test(f"{browser.name}: bytes", areas.bytes_add_up, browser, made, url)
    test(f"{browser.name}: folders", areas.folders_nest, browser, url)
    test(f"{browser.name}: sizes of folders", areas.folders_have_sizes, browser, made, url)
    test(f"{browser.name}: labels of areas", areas.labels_end, browser, url)
    test(f"{browser.name}: a folder of the areas", areas.zooms, browser, url)
    test(f"{browser.name}: keys in the areas", areas.walks_areas, browser, url)
    test(f"{browser.name}: a click on an area", areas.goes_to_first, browser, made, url)
    test(f"{browser.name}: a source in very many folders", areas.long_paths, browser, folder)
    test(f"{browser.name}: sizes after gzip", areas.estimates_gzip, browser, made, url)
    test(f"{browser.name}: all scripts", areas.all_scripts, browser, folder)
    test(f"{browser.name}: the comment with the map", areas.comment_with_map, browser, folder)
    test(f"{browser.name}: growth", areas.growth, browser, folder)
    test(f"{browser.name}: areas of many sources", areas.many_areas, browser, folder, print)
    test(f"{browser.name}: the table", areas.table_sorts, browser, url)
    test(f"{browser.name}: keyboard", marks.keyboard, browser, simple_url)
    test(f"{browser.name}: keyboard and bytes", marks.keyboard_bytes, browser, simple_url)
    test(f"{browser.name}: keys at once", marks.keys_at_once, browser, simple_url)
    test(f"{browser.name}: keys and the address", marks.address_follows, browser, simple_url)
    test(f"{browser.name}: lines that fit", marks.scrolls_nowhere, browser, simple_url)
    test(f"{browser.name}: places", marks.search, browser, simple_url)
    test(f"{browser.name}: search", marks.finds, browser, simple_url)
    test(f"{browser.name}: the list of sources", lists.filters, browser, simple_url)
    test(f"{browser.name}: the ends of paths", lists.shows_ends, browser, folder)
    test(f"{browser.name}: the search of everything", lists.finds_all, browser, simple_url)
    test(f"{browser.name}: the mappings of a name", lists.walks_names, browser, folder)
    test(f"{browser.name}: escapes", lists.reads_escapes, browser, folder)
    test(f"{browser.name}: the line between the panes", marks.ties, browser, simple_url)
    test(f"{browser.name}: wrapping by a button and a key", wraps.has_button, browser, url)
    test(f"{browser.name}: all of a line that isn't wrapped", wraps.shows_all, browser, made, url)
    test(f"{browser.name}: marks in lines that aren't wrapped", wraps.keeps_marks, browser, made, url)
    test(f"{browser.name}: search in lines that aren't wrapped", wraps.goes_to_found, browser, made, url)
    test(f"{browser.name}: the longest lines, not wrapped", wraps.cuts_longest, browser, folder)
    test(f"{browser.name}: a minified line", wraps.breaks_lines, browser, folder)
    test(f"{browser.name}: the place of a mark", wraps.stands_in_middle, browser, folder)
    test(f"{browser.name}: links", marks.links, browser, simple_url)
    test(f"{browser.name}: clicks in a source, and the pointer", marks.source_clicks, browser, simple_url)
    growth = areas.make_growth(folder)
    test(f"{browser.name}: contrasts", looks.contrasts, browser, url, refused, growth)
    test(f"{browser.name}: calm colours", looks.colours_are_calm, browser, url)
    test(f"{browser.name}: colours of sources", looks.colours_mean_sources, browser, folder)
    test(f"{browser.name}: paper", looks.prints_table, browser, folder, url)
    test(f"{browser.name}: names of controls", controls.have_names, browser, url, refused)
    test(f"{browser.name}: the focus", controls.focus_is_seen, browser, simple_url)
    test(f"{browser.name}: lines of a list", controls.options_are_told, browser, simple_url)
    test(f"{browser.name}: refused maps", contents.refusals, browser, folder)
    test(f"{browser.name}: an error on a phone", looks.errors_have_room, browser, folder)
    test(f"{browser.name}: a long refused map", contents.long_refusal, browser, folder)
    test(f"{browser.name}: several scripts", contents.several, browser, folder)
    test(f"{browser.name}: scripts of one name", contents.scripts_of_one_name, browser, folder)
    test(f"{browser.name}: many sources", contents.many_sources, browser, folder)
    test(f"{browser.name}: a source without contents", contents.no_content, browser, folder)
    test(f"{browser.name}: the console", console_is_quiet, browser, url)
    test(f"{browser.name}: hostile maps", contents.hostile, browser, folder)


def main():
    # so that the browsers end too
    signal.signal(signal.SIGTERM, lambda *_: sys.exit(1))
    left_out = []
    with tempfile.TemporaryDirectory() as temp:
        folder = pathlib.Path(temp)
        made = pages.small(folder)
        (folder / "refused.map").write_text('{"version":3,"sources":["a.js"],"mappings":"AAAA,CCAA"}')
        url = make_page(folder, "small.js.map", "--base", "http://h/m", "small.js.map")
        simple_url = marks.simple(folder)
        page = (folder / "small.js.map.html").read_text()
        test("the page holds its parts", contents.holds_its_parts, folder, made, page)
        test("the page names its hashes", contents.names_its_hashes)
        test("the page uses no markup", contents.uses_no_markup)
        test("every character comes through", contents.escapes_everything, folder)
        for kind, count in (browsers.Chromium, 200), (browsers.Firefox, 40):
            if NAMES and all(": " in text and not text.startswith(kind.name) for text in NAMES):
                continue
            missing = kind.missing()
            if missing:
                left_out.append(f"{kind.name} (no {missing} here)")
                print(f"LEFT OUT: {left_out[-1]}")
                continue
            start = time.monotonic()
            with kind() as browser:
                print(f"{kind.name} {browser.version}", flush=True)
                try_browser(browser, folder, made, url, simple_url, count)
                if kind is browsers.Chromium:
                    test("Chromium: sizes of the window", looks.fits, browser, url)
                    test("Chromium: fields on a phone", looks.fields_have_room, browser, url)
                    test("Chromium: without scripts", contents.without_scripts, browser, url)
                    if "--quick" in sys.argv:
                        left_out.append("a large map (--quick)")
                    else:
                        test("Chromium: a large map", looks.large, browser, folder, print)
            print(f"{kind.name}: {time.monotonic() - start:.0f} s", flush=True)
    if left_out:
        print(f"left out, and so not tested here: {', '.join(left_out)}")
    if NAMES and not any(counts.values()):
        print(f"tests/view/run: no test's name holds {' or '.join(NAMES)}")
        counts["failed"] = 1
    print(f"{counts['passed']} passed, {counts['failed']} failed")
    sys.exit(1 if counts["failed"] else 0)


main()
