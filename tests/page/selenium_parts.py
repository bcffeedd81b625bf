"""What the tests of the page want of browsers besides tests/view/browsers.py: files that are picked and dropped,
what programs wrote, frames and pictures."""

import base64

import browsers
from selenium.webdriver.common.by import By
from selenium.webdriver.remote.command import Command
from selenium.webdriver.remote.file_detector import UselessFileDetector

# Keeps what the page makes links to, which its policy lets no script read again.
KEEP = """
    if (!self.kept) {
        self.kept = [];
        const make = URL.createObjectURL;
        URL.createObjectURL = blob => (kept.push(blob), make.call(URL, blob));
    }"""


class Parts:
    """What both browsers have in common."""

    def open(self, url):
        super().open(url)
        self.run(KEEP)

    def written(self):
        """The text of the last link that the page made."""
        return self.run("return kept.at(-1).text()")

    def pick_log(self, file):
        self.driver.find_element(By.CSS_SELECTOR, "#log-pick").send_keys(str(file))

    def in_frame(self, script):
        """What a script gives in the frame of the page."""
        self.driver.switch_to.frame(self.driver.find_element(By.CSS_SELECTOR, "iframe"))
        try:
            return self.wait(script)
        finally:
            self.driver.switch_to.default_content()

    def shot(self, file):
        with open(file, "wb") as out:
            out.write(base64.b64decode(self.driver.get_screenshot_as_base64()))


class Chromium(Parts, browsers.Chromium):
    def pick(self, build):
        """Picks a folder."""
        self.driver.find_element(By.CSS_SELECTOR, "#folder").send_keys(str(build.folder))

    def drop(self, build, *files):
        """Drops a folder and files of the disk."""
        data = {"items": [], "files": [str(file) for file in (build.folder, *files)], "dragOperationsMask": 1}
        for kind in "dragEnter", "dragOver", "drop":
            self.devtools("Input.dispatchDragEvent", type=kind, x=200, y=200, data=data)


class Firefox(Parts, browsers.Firefox):
    def start(self):
        super().start()
        self.driver.command_executor.names.update({
            Command.FIND_ELEMENT: "WebDriver:FindElement",
            Command.SEND_KEYS_TO_ELEMENT: "WebDriver:ElementSendKeys",
            Command.SWITCH_TO_FRAME: "WebDriver:SwitchToFrame",
            Command.SCREENSHOT: "WebDriver:TakeScreenshot",
        })
        self.driver.file_detector = UselessFileDetector()

    def pick(self, build):
        """Picks files, with the paths that a folder's would have: Marionette picks no folders."""
        above = build.folder.parent
        for file in build.files():
            path = str(file.relative_to(above))
            self.run("""
                const [path] = arguments;
                const asked = { configurable: true, get: () => path };
                Object.defineProperty(File.prototype, 'webkitRelativePath', asked);""", path)
            count = self.run("return Number(document.body.dataset.files ?? 0)")
            self.driver.find_element(By.CSS_SELECTOR, "#files").send_keys(str(file))
            self.wait("return Number(document.body.dataset.files) > arguments[0]", count)

    def drop(self, build, *files):
        """Drops the files of a folder, and others: Marionette drops nothing, so they are picked first."""
        self.run("""
            const input = document.createElement('input');
            input.type = 'file';
            input.multiple = true;
            input.id = 'dropped';
            document.body.append(input);""")
        names = "\n".join(str(file) for file in [*build.files(), *files])
        self.driver.find_element(By.CSS_SELECTOR, "#dropped").send_keys(names)
        self.run("""
            const input = document.getElementById('dropped'), dataTransfer = new DataTransfer();
            for (const file of input.files) dataTransfer.items.add(file);
            input.remove();
            const how = { dataTransfer, bubbles: true, cancelable: true };
            document.body.dispatchEvent(new DragEvent('drop', how));""")

    def requests(self):
        return [self.run("return location.href")]
