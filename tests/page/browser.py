"""A headless Chromium that resolves the site's name to this machine, and no other name."""

import contextlib
import os
import re
import time
from collections.abc import Callable, Iterator
from pathlib import Path
from typing import Any, TypeVar

from selenium import webdriver
from selenium.common.exceptions import StaleElementReferenceException
from selenium.webdriver.chrome.options import Options
from selenium.webdriver.chrome.service import Service
from selenium.webdriver.common.by import By
from selenium.webdriver.remote.webelement import WebElement

from tests.page.list_desk import PlainSite
from tests.page.site import NAME, PASSWORD, USER, Site
from tests.program.room import SECONDS
from tests.program.serving import HOST

# All of Chromium, and its windowless shell, whose pages are the same and open in half the processor time. The shell is
# named itself, since the driver would end only /usr/bin/chromium-headless-shell, which starts it and waits.
CHROMIUM = "/usr/bin/chromium"
SHELL = "/usr/lib/chromium/chromium-headless-shell"
DRIVER = "/usr/bin/chromedriver"

STRANGER = "stranger.example.net"

WIDE = (1100, 900)

# How long a wait is between two looks.
FIRST_PAUSE, LONGEST_PAUSE = 0.04, 0.3

# The texts of the functions that run in a page.
SCRIPTS = Path(__file__).with_name("functions.js").read_text(encoding="utf-8")
FUNCTIONS = {found[1]: found[0] for found in re.finditer(r"^function (\w+)\(.*?^}", SCRIPTS, re.M | re.S)}

Found = TypeVar("Found")


def load() -> str:
    """A busy machine takes longer than a shop's, so no time in seconds decides anything."""
    return f"on a machine with {os.getloadavg()[0] / (os.cpu_count() or 1):.1f} processes a core"


def options(is_whole: bool) -> Options:
    chosen = Options()
    chosen.binary_location = CHROMIUM if is_whole else SHELL
    names = f"MAP {NAME} {HOST}, MAP {STRANGER} {HOST}, MAP * ~NOTFOUND, EXCLUDE {HOST}"
    for word in [
        "--headless=new",
        # Chromium's sandbox refuses root, as whom a gate runs.
        "--no-sandbox",
        "--disable-dev-shm-usage",
        "--disable-gpu",
        "--ignore-certificate-errors",
        "--disable-background-networking",
        # On a busy machine a page that counts as in the background gets no time for minutes.
        "--disable-renderer-backgrounding",
        "--disable-backgrounding-occluded-windows",
        "--disable-background-timer-throttling",
        # A page that is opened again shares the old one's process: making one takes a third of what the page does.
        "--process-per-site",
        f"--host-resolver-rules={names}",
    ]:
        chosen.add_argument(word)
    chosen.set_capability("goog:loggingPrefs", {"browser": "ALL"})
    return chosen


class Browser:
    """`is_whole` is Chromium with all that surrounds a page."""

    def __init__(self, site: Site | PlainSite, is_whole: bool = True) -> None:
        self.site = site
        self.opened = 0
        self.driver = webdriver.Chrome(options=options(is_whole), service=Service(DRIVER))
        self.size(*WIDE)
        # The browser asks for the name and the password once, and then knows them. Nothing is kept.
        self.driver.get(site.address("/nothing", user=f"{USER}:{PASSWORD}@"))
        self.driver.get("about:blank")

    def size(self, width: int, height: int) -> None:
        """The size of what the page sees of the window."""
        metrics = {"width": width, "height": height, "deviceScaleFactor": 1, "mobile": False}
        self.driver.execute_cdp_cmd("Emulation.setDeviceMetricsOverride", metrics)

    def open(self, address: str) -> None:
        """Opens a view in a new page: an address that differs only behind the `#` would stay."""
        self.opened += 1
        self.driver.get(self.site.address(f"/?{self.opened}{address}"))

    def one(self, selector: str) -> WebElement:
        return self.driver.find_element(By.CSS_SELECTOR, selector)

    def all(self, selector: str) -> list[WebElement]:
        return self.driver.find_elements(By.CSS_SELECTOR, selector)

    def count(self, selector: str) -> int:
        return int(self.run("return document.querySelectorAll(arguments[0]).length", selector))

    def text(self, selector: str) -> str:
        return str(self.one(selector).text)

    def shows(self, selector: str, words: str = "") -> bool:
        """Whether a part is visible, and has these words. Waits ask this: WebDriver's own reading of a text takes six
        times as long, all of it from the browser that is waited for."""
        return bool(self.call("shows", selector, words))

    def texts(self, selector: str) -> list[str]:
        return [found.text for found in self.all(selector)]

    def run(self, script: str, *given: object) -> Any:
        """What the script returns, as Python's types."""
        return self.driver.execute_script(script, *given)

    def call(self, name: str, *given: object) -> Any:
        """What the function of that name in functions.js returns."""
        return self.run(f"{FUNCTIONS[name]}\nreturn {name}(...arguments);", *given)

    def wait(self, holds: Callable[[], Found], seconds: float = SECONDS) -> Found | None:
        """Waits until it holds, and returns what it gave; after so many seconds, what it gave last. It looks less often
        the longer it waits, since each look takes time of the browser that is waited for."""
        end = time.monotonic() + seconds
        pause = FIRST_PAUSE
        while True:
            came: Found | None = None
            with contextlib.suppress(StaleElementReferenceException):
                came = holds()
            if came or time.monotonic() > end:
                return came
            time.sleep(pause)
            pause = min(1.5 * pause, LONGEST_PAUSE)

    def wait_for_text(self, selector: str, words: str, seconds: float = SECONDS) -> str:
        """Waits until a text has these words; returns that text, or the last one."""
        texts = [""]

        def holds() -> bool:
            if self.shows(selector, words):
                texts.append(self.text(selector))
            return words in texts[-1]

        return texts[-1] if self.wait(holds, seconds) else self.text(selector)

    def rows(self, selector: str) -> list[list[str]]:
        """The cells of a table's rows."""
        script = """return [...document.querySelectorAll(arguments[0] + ' tbody tr')]
            .map((row) => [...row.children].map((cell) => cell.textContent))"""
        rows: list[list[str]] = self.run(script, selector)
        return rows

    def complaints(self) -> list[str]:
        """What the browser wrote to its console since the last look."""
        return [entry["message"] for entry in self.driver.get_log("browser")]


@contextlib.contextmanager
def browsing(site: Site | PlainSite, is_whole: bool = True) -> Iterator[Browser]:
    browser = Browser(site, is_whole)
    try:
        yield browser
    finally:
        browser.driver.quit()
