#!/usr/bin/env python3
"""Records shop.js in a browser: NAME.log gets the stacks that it sends, NAME-console.log what the browser's
console prints. Firefox records asynchronous callers too, as it does while its developer tools are open.

    python3 tests/rows/engines/record.py chromium
    python3 tests/rows/engines/record.py firefox-esr

shop.js and shop.js.map are what esbuild 0.17 makes of src/, in this folder:

    esbuild src/shop.js --bundle --minify --sourcemap --sources-content=false --outfile=shop.js
"""
import http.server
import pathlib
import re
import subprocess
import sys
import tempfile
import threading

HERE = pathlib.Path(__file__).parent
PORT = 8137
PAGE = b'<!doctype html><title>shop</title><script src="/assets/shop.js"></script>'
PREFERENCES = """\
user_pref("devtools.console.stdout.content", true);
user_pref("javascript.options.asyncstack_capture_debuggee_only", false);
"""
# what the browsers write besides their consoles
OTHER = re.compile(rb"\[(?!.*:CONSOLE:)|\*\*\*|/|Exiting")
received = threading.Event()
stacks = []


class Handler(http.server.BaseHTTPRequestHandler):
    def do_GET(self):
        script = self.path == "/assets/shop.js"
        self.send_response(200)
        self.send_header("Content-Type", "text/javascript" if script else "text/html")
        self.end_headers()
        self.wfile.write((HERE / "shop.js").read_bytes() if script else PAGE)

    def do_POST(self):
        stacks.append(self.rfile.read(int(self.headers["Content-Length"])))
        self.send_response(204)
        self.end_headers()
        received.set()

    def log_message(self, *_):
        pass


def command(browser, profile):
    page = f"http://localhost:{PORT}/"
    if browser.startswith("firefox"):
        (pathlib.Path(profile) / "user.js").write_text(PREFERENCES)
        return [browser, "--headless", "--no-remote", "--profile", profile, page]
    options = ["--headless", "--no-sandbox", "--enable-logging=stderr", f"--user-data-dir={profile}"]
    return [browser, *options, page]


def main():
    browser = sys.argv[1]
    name = browser.removesuffix("-esr")
    server = http.server.ThreadingHTTPServer(("localhost", PORT), Handler)
    threading.Thread(target=server.serve_forever, daemon=True).start()
    with tempfile.TemporaryDirectory() as profile, tempfile.TemporaryFile() as written:
        process = subprocess.Popen(command(browser, profile), stdout=written, stderr=written)
        received.wait(60)
        process.terminate()
        process.wait()
        written.seek(0)
        console = [line for line in written if not OTHER.match(line)]
    (HERE / f"{name}.log").write_bytes(stacks[0])
    (HERE / f"{name}-console.log").write_bytes(b"".join(console))


if __name__ == "__main__":
    main()
