"""Drives Chromium and Firefox by Selenium, with the same methods for both.

Debian has no geckodriver, by which Selenium drives Firefox, so Selenium's commands go to Firefox itself, by
Marionette.
"""

import json
import os
import shutil
import signal
import socket
import subprocess
import tempfile
import time

try:
    from selenium import webdriver
    from selenium.common.exceptions import NoAlertPresentException
    from selenium.webdriver.chrome.service import Service
    from selenium.webdriver.common.actions.action_builder import ActionBuilder
    from selenium.webdriver.remote.command import Command
except ImportError:
    webdriver = None

# The characters that stand for keys, as WebDriver has them.
CONTROL = "\ue009"
LEFT, UP, RIGHT, DOWN = "\ue012", "\ue013", "\ue014", "\ue015"
ESCAPE = "\ue00c"
TAB, ENTER, END, HOME = "\ue004", "\ue007", "\ue010", "\ue011"


class DriverError(Exception):
    """A browser that doesn't start, or something that it doesn't do in time."""


def lacking(*tools):
    """What isn't at hand to drive a browser, of these tools and Selenium."""
    wanted = [tool for tool in tools if not shutil.which(tool)]
    return ", ".join(wanted + ([] if webdriver else ["python3-selenium"]))


class Browser:
    """What both browsers have in common."""

    driver = None

    def __init__(self):
        self.temp = tempfile.mkdtemp()

    def __enter__(self):
        try:
            self.start()
            self.version = self.driver.capabilities["browserVersion"]
        except BaseException:
            self.close()
            raise
        return self

    def __exit__(self, *error):
        self.close()

    def close(self):
        self.end()
        shutil.rmtree(self.temp, ignore_errors=True)

    def open(self, url):
        self.driver.get(url)

    def run(self, script, *values):
        return self.driver.execute_script(script, *values)

    def wait(self, script, *values, seconds=20):
        """Waits until a script gives something true, in a document that has been read to its end: one that
        takes the place of another has none of its elements at first."""
        end = time.monotonic() + seconds
        whole = f"if (document.readyState !== 'complete') return null;\n{script}"
        while True:
            found = self.run(whole, *values)
            if found:
                return found
            if time.monotonic() > end:
                raise DriverError(f"not within {seconds} s: {script}")
            time.sleep(0.02)

    def actions(self):
        return ActionBuilder(self.driver, duration=0)

    def point(self, x, y):
        actions = self.actions()
        actions.pointer_action.move_to_location(round(x), round(y))
        actions.perform()

    def click(self, x, y):
        actions = self.actions()
        actions.pointer_action.move_to_location(round(x), round(y)).click()
        actions.perform()

    def press(self, *keys):
        """Presses keys one after another."""
        actions = self.actions()
        actions.key_action.send_keys("".join(keys))
        actions.perform()

    def press_with(self, held, key):
        actions = self.actions()
        actions.key_action.key_down(held).send_keys(key).key_up(held)
        actions.perform()

    def dialog(self):
        """The text of a dialog that is open, or None."""
        try:
            return self.driver.switch_to.alert.text
        except NoAlertPresentException:
            return None


class Chromium(Browser):
    name = "Chromium"

    @staticmethod
    def missing():
        return lacking("chromium", "chromedriver")

    def start(self):
        options = webdriver.ChromeOptions()
        options.binary_location = shutil.which("chromium")
        for word in ("--headless=new", "--no-sandbox", "--disable-gpu", "--disable-dev-shm-usage",
                     "--disable-background-networking", f"--user-data-dir={self.temp}/profile"):
            options.add_argument(word)
        options.unhandled_prompt_behavior = "ignore"
        options.set_capability("goog:loggingPrefs", {"browser": "ALL", "performance": "ALL"})
        self.driver = webdriver.Chrome(options=options, service=Service(shutil.which("chromedriver")))

    def end(self):
        if self.driver:
            self.driver.quit()

    def devtools(self, name, **values):
        return self.driver.execute_cdp_cmd(name, values)

    def size(self, width, height):
        self.devtools("Emulation.setDeviceMetricsOverride", width=width, height=height, deviceScaleFactor=1,
                      mobile=False)

    def scheme(self, name):
        feature = {"name": "prefers-color-scheme", "value": name}
        self.devtools("Emulation.setEmulatedMedia", features=[feature])

    def paper(self, is_on):
        """Shows the page as on paper, or on the screen again."""
        self.devtools("Emulation.setEmulatedMedia", media="print" if is_on else "")

    def complaints(self):
        """Lines in the console since the last call."""
        return [line["message"] for line in self.driver.get_log("browser")]

    def requests(self):
        """URLs that were requested since the last call."""
        events = [json.loads(line["message"])["message"] for line in self.driver.get_log("performance")]
        sent = [event["params"] for event in events if event["method"] == "Network.requestWillBeSent"]
        return [event["request"]["url"] for event in sent]


class Marionette:
    """What Selenium calls to execute a command: a JSON array over TCP, which geckodriver would send."""

    def __init__(self, link):
        self.link = link
        self.count = 0
        self.names = {
            Command.NEW_SESSION: "WebDriver:NewSession", Command.GET: "WebDriver:Navigate",
            Command.W3C_EXECUTE_SCRIPT: "WebDriver:ExecuteScript",
            Command.W3C_ACTIONS: "WebDriver:PerformActions",
            Command.W3C_GET_ALERT_TEXT: "WebDriver:GetAlertText",
            Command.SET_WINDOW_RECT: "WebDriver:SetWindowRect", "context": "Marionette:SetContext",
        }
        self.receive()

    def receive(self):
        length = b""
        while not length.endswith(b":"):
            length += self.link.recv(1) or self.ended()
        text, left = b"", int(length[:-1])
        while len(text) < left:
            text += self.link.recv(left - len(text)) or self.ended()
        return json.loads(text)

    def ended(self):
        raise DriverError("Firefox has closed the connection")

    def execute(self, command, values):
        if command == Command.NEW_SESSION:
            wanted = values["capabilities"]["alwaysMatch"]
            values = {name: value for name, value in wanted.items() if ":" not in name}
        self.count += 1
        text = json.dumps([0, self.count, self.names[command], values]).encode()
        self.link.sendall(b"%d:%s" % (len(text), text))
        _, _, error, answer = self.receive()
        if error:
            return {"status": 500, "value": json.dumps({"value": error})}
        return answer if "value" in answer else {"value": answer}


class Firefox(Browser):
    name = "Firefox"
    process = None

    @staticmethod
    def missing():
        return lacking("firefox-esr")

    def start(self):
        with socket.socket() as probe:
            probe.bind(("127.0.0.1", 0))
            port = probe.getsockname()[1]
        os.mkdir(f"{self.temp}/profile")
        settings = {
            "marionette.port": port, "browser.shell.checkDefaultBrowser": False,
            "app.update.enabled": False, "datareporting.policy.dataSubmissionEnabled": False,
            "toolkit.telemetry.reportingpolicy.firstRun": False,
            "browser.aboutwelcome.enabled": False, "network.captive-portal-service.enabled": False,
            "network.connectivity-service.enabled": False, "services.settings.server": "data:,x",
        }
        with open(f"{self.temp}/profile/user.js", "w") as file:
            for name, value in settings.items():
                file.write(f"user_pref({json.dumps(name)}, {json.dumps(value)});\n")
        command = ["firefox-esr", "--headless", "--marionette", "--remote-allow-system-access", "--no-remote",
                   "--profile", f"{self.temp}/profile"]
        with open(f"{self.temp}/log", "wb") as log:
            self.process = subprocess.Popen(command, stdin=subprocess.DEVNULL, stdout=log, stderr=log,
                                            start_new_session=True)
        options = webdriver.FirefoxOptions()
        options.unhandled_prompt_behavior = "ignore"
        self.driver = webdriver.Remote(Marionette(self.connect(port)), options=options)

    def connect(self, port):
        """Waits until Firefox takes a connection."""
        end = time.monotonic() + 120
        while time.monotonic() < end and self.process.poll() is None:
            try:
                return socket.create_connection(("127.0.0.1", port), timeout=300)
            except OSError:
                time.sleep(0.1)
        with open(f"{self.temp}/log", errors="replace") as log:
            raise DriverError(f"Firefox doesn't start: {log.read()[-500:]}")

    def end(self):
        """Ends Firefox and what it started, which is its group."""
        for number in (signal.SIGTERM, signal.SIGKILL) if self.process else ():
            try:
                os.killpg(self.process.pid, number)
                self.process.wait(5)
            except (ProcessLookupError, subprocess.TimeoutExpired):
                pass
            time.sleep(0.2)

    def with_rights(self, script, *values):
        """Runs a script with the rights of the browser itself."""
        self.driver.execute("context", {"value": "chrome"})
        try:
            return self.run(script, *values)
        finally:
            self.driver.execute("context", {"value": "content"})

    def size(self, width, height):
        """Sets the size of the page, which the window exceeds."""
        inner = self.run("return [outerWidth - innerWidth, outerHeight - innerHeight]")
        self.driver.set_window_rect(width=width + inner[0], height=height + inner[1])

    def scheme(self, name):
        self.with_rights("Services.prefs.setIntPref(...arguments)",
                         "layout.css.prefers-color-scheme.content-override", {"dark": 0, "light": 1}[name])

    def paper(self, is_on):
        self.with_rights("""
            const { browsingContext } = window.gBrowser.selectedBrowser;
            browsingContext.mediumOverride = arguments[0] ? 'print' : '';""", is_on)

    def complaints(self):
        """Errors and warnings of pages in the console since the last call."""
        return self.with_rights("""
            const lines = Services.console.getMessageArray().filter(one => one instanceof Ci.nsIScriptError &&
                /^(file|http):/.test(one.sourceName)).map(one => one.errorMessage);
            Services.console.reset();
            return lines;""")
