"""A real browser for tests of the page: Debian's chromium, driven by selenium. What is missing is installed where root
runs the test."""
import base64
import json
import os
import shutil
import subprocess
import sys
import time
from pathlib import Path

ROOT = Path(__file__).resolve().parent.parent
PACKAGES = "chromium:chromium", "chromium-driver:chromedriver", "python3-selenium"
SYSTEM = "/usr/bin/python3"  # for which Debian's selenium is
# Waiting for an answer, in seconds: far more than any takes.
PATIENCE = 60


def missing():
    """What is missing for a browser, in words; nothing where there is one. Where selenium is there for the system's
    python alone, that one runs the test in the place of this process."""
    ran = subprocess.run([ROOT / "tools/need", *PACKAGES], capture_output=True, text=True)
    if ran.returncode:
        return ran.stderr.splitlines()[-1]
    try:
        import selenium  # noqa: F401
    except ModuleNotFoundError:
        if os.path.realpath(sys.executable) == os.path.realpath(SYSTEM):
            return "selenium cannot be imported"
        os.execv(SYSTEM, [SYSTEM, *sys.argv])
    return ""


class Browser:
    """One window with one page."""

    def __init__(self, downloads):
        from selenium import webdriver
        from selenium.webdriver.chrome.service import Service

        options = webdriver.ChromeOptions()
        for word in ("--headless=new", "--no-sandbox", "--disable-gpu", "--disable-dev-shm-usage"):
            options.add_argument(word)
        options.binary_location = shutil.which("chromium")
        options.set_capability("goog:loggingPrefs", {"browser": "ALL", "performance": "ALL"})
        options.add_experimental_option("prefs", {"download.default_directory": str(downloads),
                                                  "download.prompt_for_download": False})
        self.driver = webdriver.Chrome(service=Service(shutil.which("chromedriver")), options=options)
        self.driver.set_script_timeout(PATIENCE)
        self.look()

    def quit(self):
        self.driver.quit()

    def open(self, path):
        """Opens a page from disk. Breaches of its policy are counted from then on."""
        self.driver.get(Path(path).as_uri())
        self.run("window.breaches = []; addEventListener('securitypolicyviolation', "
                 "(e) => breaches.push(e.violatedDirective))")

    def look(self, dark=False, width=1000):
        """The scheme of colours, and the width of the window."""
        self.command("Emulation.setEmulatedMedia",
                     features=[{"name": "prefers-color-scheme", "value": "dark" if dark else "light"}])
        self.command("Emulation.setDeviceMetricsOverride", width=width, height=800, deviceScaleFactor=1,
                     mobile=width < 600)

    def command(self, name, **values):
        return self.driver.execute_cdp_cmd(name, values)

    def run(self, script, *values):
        return self.driver.execute_script(script, *values)

    def all(self, selector):
        return self.driver.find_elements("css selector", selector)

    def one(self, selector):
        return self.driver.find_element("css selector", selector)

    def text(self, selector):
        """The text of an element as it stands in the page, seen or not."""
        return self.run("return document.querySelector(arguments[0]).textContent", selector)

    def texts(self, selector):
        return self.run("return [...document.querySelectorAll(arguments[0])].map((one) => one.textContent)", selector)

    def fill(self, **values):
        """Files for file inputs and texts for others, by their ids with _ for -."""
        for name, value in values.items():
            element = self.one(f"#{name.replace('_', '-')}")
            if element.get_attribute("type") != "file":
                element.clear()
            element.send_keys(str(value))

    def press(self, form):
        """Presses a form's button, and waits for the answer."""
        self.run("document.querySelector(arguments[0]).querySelector('button.main').click()", form)
        self.wait(lambda: not self.all("[aria-busy]"))

    def wait(self, until):
        end = time.monotonic() + PATIENCE
        while not until():
            if time.monotonic() > end:
                raise TimeoutError("the page does not answer")
            time.sleep(0.02)

    def shot(self, path):
        """The whole page as a picture."""
        size = self.run("return [document.documentElement.scrollWidth, document.documentElement.scrollHeight]")
        clip = {"x": 0, "y": 0, "width": size[0], "height": size[1], "scale": 1}
        Path(path).write_bytes(base64.b64decode(
            self.command("Page.captureScreenshot", captureBeyondViewport=True, clip=clip)["data"]))

    def errors(self):
        """What the browser has written to its console since the last look: errors and warnings."""
        return [entry["message"] for entry in self.driver.get_log("browser") if entry["level"] in ("SEVERE", "WARNING")]

    def requests(self):
        """The addresses that were asked for since the last look, and of each whether the page's policy kept the request
        from leaving."""
        events = [json.loads(entry["message"])["message"] for entry in self.driver.get_log("performance")]

        def told(name):
            return [event["params"] for event in events if event["method"] == f"Network.{name}"]

        asked = {of["requestId"]: of["request"]["url"] for of in told("requestWillBeSent")}
        kept = {of["requestId"] for of in told("loadingFailed") if of.get("blockedReason") == "csp"}
        return [(url, number in kept) for number, url in asked.items()]
