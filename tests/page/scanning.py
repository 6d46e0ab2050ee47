"""A scanner, which types like a keyboard."""

import time

from tests.page.browser import Browser

KEYS = {"\n": ("Enter", 13, "\r"), "\t": ("Tab", 9, "")}


def scan(browser: Browser, text: str, begun: float | None = None) -> None:
    """Types a text like a scanner, five milliseconds a key from a time on, whatever else the machine does."""
    begun = begun or time.time()
    for at, sign in enumerate(text):
        key, code, typed = KEYS.get(sign, (sign, ord(sign), sign))
        pressed = {"key": key, "windowsVirtualKeyCode": code, "timestamp": begun + at * 0.005}
        browser.driver.execute_cdp_cmd("Input.dispatchKeyEvent", {"type": "keyDown", "text": typed, **pressed})
        browser.driver.execute_cdp_cmd("Input.dispatchKeyEvent", {"type": "keyUp", **pressed})
