"""Tests the package for Node in Chromium and Firefox, over WebAssembly: browsers.py FOLDER, the files of the site,
which tests/node/run puts together. The last line is `N passed, M failed`."""

import functools
import http.server
import sys
import threading
import traceback
from pathlib import Path

sys.path.insert(0, str(Path(__file__).resolve().parents[1] / "view"))
import browsers  # noqa: E402

SECONDS = 120

# What capi/node/test/browser/checks.mjs has to find: by hand.
ANSWER = {
    "found": ["http://h/m/%C3%A4.js", 12, 2, "\u20ac"],
    "listed": ["\u20ac"],
    "far": [199999, 200001, 150000, 200001],
    "canonical": '{"mappings":"AAUE,IAEAA","names":["\u20ac"],"sources":["http://h/m/%C3%A4.js"],"version":3}',
    "bytes": True,
    "log": ["@http://h/a.js:11:3", 1, True],
    "later": True,
    "built": "IACE",
    "links": ["a.map", "http://h/a/c.map", "{}", "file:///C:/a.js", "/a b.js", True],
    "frame": {"url": "http://h/\u00e4.js", "line": 1, "column": 2},
    "refused": "SMAP_REFUSED",
    "closed": "SMAP_CLOSED",
    "lacking": True,
}


class Handler(http.server.SimpleHTTPRequestHandler):
    """Serves files, with the types that modules need, and says nothing."""

    extensions_map = {".html": "text/html", ".mjs": "text/javascript", ".js": "text/javascript",
                      ".wasm": "application/wasm", "": "application/octet-stream"}

    def log_message(self, *_):
        pass


def check(browser, url, wanted):
    browser.open(url)
    answer = browser.wait("return window.answer", seconds=SECONDS)
    for name in {*wanted, *answer}:
        if answer.get(name) != wanted.get(name):
            raise AssertionError(f"{name}: {answer.get(name)!r}, not {wanted.get(name)!r}")


def try_browser(browser, folder, address):
    """The pages, each with what it has to find."""
    pages = {"module.html": ANSWER}
    if (folder / "bundled").exists():
        told = f"2026 x {address}/a.js:11:3\n"
        pages["bundled.html"] = {**ANSWER, "worker": {"log": told}}
    failed = 0
    for page, wanted in pages.items():
        try:
            check(browser, f"{address}/{page}", wanted)
        except Exception:  # whatever it is, it is told
            failed += 1
            print(f"FAILED: {browser.name} {browser.version}: {page}")
            print("  " + "\n  ".join(traceback.format_exc(limit=-2).splitlines()[-8:])[:1500], flush=True)
    return len(pages) - failed, failed


def main():
    folder = Path(sys.argv[1])
    handler = functools.partial(Handler, directory=str(folder))
    server = http.server.ThreadingHTTPServer(("127.0.0.1", 0), handler)
    threading.Thread(target=server.serve_forever, daemon=True).start()
    address = f"http://127.0.0.1:{server.server_address[1]}"
    passed = failed = 0
    for kind in (browsers.Chromium, browsers.Firefox):
        missing = kind.missing()
        if missing:
            print(f"LEFT OUT: WebAssembly in {kind.name} (no {missing} here)")
            continue
        try:
            with kind() as browser:
                counts = try_browser(browser, folder, address)
        except browsers.DriverError as error:
            counts = 0, 1
            print(f"FAILED: {kind.name}: {error}")
        passed, failed = passed + counts[0], failed + counts[1]
    server.shutdown()
    print(f"{passed} passed, {failed} failed")
    return 1 if failed else 0


if __name__ == "__main__":
    sys.exit(main())
