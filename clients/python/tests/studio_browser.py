"""The studio's page in headless Chromium, for tests and benchmarks."""

import importlib.util
import os
import re
import shutil
import subprocess
import sys
import time

from program import HERE, PROGRAM

# What tests with a browser need, and this machine lacks.
COMMANDS = {"chromium": "chromium", "chromedriver": "chromium-driver"}
ABSENT = [*(["python3-selenium"] * (importlib.util.find_spec("selenium") is None)),
          *(package for command, package in COMMANDS.items() if shutil.which(command) is None),
          *(["FEQYLDAN_PROGRAM"] * (not PROGRAM))]
CONTROL = "\ue009"
SHIFT = "\ue008"
# The options of a browser without a window, also for the user root, and without a network.
OPTIONS = ("--headless=new", "--no-sandbox", "--disable-gpu", "--disable-dev-shm-usage",
           "--hide-scrollbars", "--disable-extensions", "--disable-background-networking",
           "--no-first-run", "--host-resolver-rules=MAP rebound.example 127.0.0.1")
# Whether the page has shown the last change, in JavaScript.
IDLE = ("return !!(window.studio && !studio.runs.isRunning && !studio.runs.isDue && "
        "Object.keys(studio.result.shown).length + studio.result.faults.length)")


class StudioProcess:
    """`python3 -m feqyldan studio` in a folder, with the address that it prints."""

    def __init__(self, folder, *words):
        environment = {**os.environ, "FEQYLDAN_PROGRAM": PROGRAM,
                       "PYTHONPATH": os.path.realpath(os.path.join(HERE, ".."))}
        self.process = subprocess.Popen(
            [sys.executable, "-m", "feqyldan", "studio", "--no-browser", *words], cwd=folder,
            env=environment, stdout=subprocess.PIPE, text=True)
        line = self.process.stdout.readline()
        self.address, self.port, self.token = re.search(
            r"(http://127\.0\.0\.1:([0-9]+)/#(\S+))", line).groups()

    def end(self):
        self.process.terminate()
        self.process.wait()
        self.process.stdout.close()


def browser(width=1440, height=900, scale=1, is_dark=False):
    from selenium import webdriver
    from selenium.webdriver.chrome.options import Options
    from selenium.webdriver.chrome.service import Service

    options = Options()
    options.binary_location = shutil.which("chromium")
    for word in (*OPTIONS, f"--window-size={width},{height}"):
        options.add_argument(word)
    options.set_capability("goog:loggingPrefs", {"browser": "ALL"})
    made = webdriver.Chrome(service=Service(shutil.which("chromedriver")), options=options)
    made.set_script_timeout(300)
    made.execute_cdp_cmd("Emulation.setDeviceMetricsOverride", {
        "width": width, "height": height, "deviceScaleFactor": scale, "mobile": False})
    set_theme(made, is_dark)
    return made


def set_theme(driver, is_dark):
    driver.execute_cdp_cmd("Emulation.setEmulatedMedia", {"features": [
        {"name": "prefers-color-scheme", "value": "dark" if is_dark else "light"}]})


class Page:
    """A page of the studio: keys, clicks, and what it shows."""

    def __init__(self, driver, address):
        from selenium.webdriver.common.action_chains import ActionChains
        from selenium.webdriver.common.by import By
        self.driver, self._chains, self._css = driver, ActionChains, By.CSS_SELECTOR
        driver.get("about:blank")
        driver.get(address)
        self.idle()

    def run(self, script, *arguments):
        return self.driver.execute_script(script, *arguments)

    def until(self, script, seconds=120):
        """Waits until a script returns a true value, and returns it."""
        end = time.monotonic() + seconds
        while time.monotonic() < end:
            value = self.run(script)
            if value:
                return value
            time.sleep(0.03)
        raise TimeoutError(f"{script}: {self.run('return document.body.innerText')[:400]} "
                           f"{self.logs()}")

    def idle(self, seconds=120):
        self.until(IDLE, seconds)

    def filled(self):
        """Waits until all pictures are shown."""
        self.idle()
        self.until("return !document.querySelector('#strip .stale')")

    def logs(self):
        return [entry["message"] for entry in self.driver.get_log("browser")]

    def find(self, selector):
        return self.driver.find_element(self._css, selector)

    def count(self, selector):
        return len(self.driver.find_elements(self._css, selector))

    def actions(self, milliseconds=20):
        return self._chains(self.driver, duration=milliseconds)

    def click(self, selector, shift=False):
        from selenium.common.exceptions import StaleElementReferenceException
        for _ in range(5):
            try:
                self._click(selector, shift)
                break
            except StaleElementReferenceException:
                # A run has drawn the cards anew between finding and clicking.
                self.idle()
        self.idle()

    def _click(self, selector, shift):
        actions = self.actions()
        if shift:
            actions.key_down(SHIFT)
        actions.click(self.find(selector))
        if shift:
            actions.key_up(SHIFT)
        actions.perform()

    def choose(self, name):
        self.click(f'[data-cell="{name}"]')

    def add(self, name, shift=False):
        """Adds a function or an image by the palette."""
        self.click(f'#palette [data-name="{name}"]', shift)

    def pick(self, selector, words):
        """Chooses an option of a menu."""
        from selenium.webdriver.support.ui import Select
        Select(self.find(selector)).select_by_visible_text(words)
        self.idle()

    def keys(self, *keys):
        self.actions().send_keys(*keys).perform()
        self.idle()

    def control(self, letter, shift=False):
        """Presses a letter with Control, and with Shift if wanted."""
        actions = self.actions().key_down(CONTROL)
        if shift:
            actions.key_down(SHIFT)
        actions.send_keys(letter)
        if shift:
            actions.key_up(SHIFT)
        actions.key_up(CONTROL).perform()
        self.idle()

    @property
    def contents(self):
        return self.run("return studio.model.contents")

    @property
    def functions(self):
        return [node["function"] for node in self.contents["nodes"]]

    @property
    def faults(self):
        return self.run("return studio.result.faults")

    @property
    def status(self):
        return self.find("#status").text

    def samples(self, name):
        """Returns the samples of an image, as the page has them, in bytes."""
        return bytes(self.run(
            "studio.choose(arguments[0]);"
            "const full = studio.result.fulls.get(arguments[0]);"
            "return full ? [...new Uint8Array(full.samples.buffer, full.samples.byteOffset, "
            "full.samples.byteLength)] : null", name) or b"")
