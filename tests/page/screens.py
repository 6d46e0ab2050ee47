"""Each view on wide and narrow screens, by day and by night: nothing beyond the window, no weak text, no small target,
no control without a name."""

import contextlib
from collections.abc import Callable, Iterator

from tests.page import articles, orders
from tests.page.browser import Browser
from tests.page.list_desk import PlainSite, isbn_of, state
from tests.running import Outcome

WIDTHS = (1440, 1280, 390)
SCHEMES = ("light", "dark")
LEAST_CONTRAST = 4.5
LEAST_BORDER = 3


@contextlib.contextmanager
def preferring(browser: Browser, scheme: str) -> Iterator[None]:
    """Emulates what a buyer's system prefers."""
    media = {"features": [{"name": "prefers-color-scheme", "value": scheme}]}
    browser.driver.execute_cdp_cmd("Emulation.setEmulatedMedia", media)
    yield
    browser.driver.execute_cdp_cmd("Emulation.setEmulatedMedia", {"features": []})


def show_article(site: PlainSite, browser: Browser) -> None:
    articles.fill(site)
    site.files["/state/alpha.json"] = state(quarantined=1)
    articles.open_article(browser, articles.article(articles.BOOK, quantity="9"), "RRP")
    browser.wait_for_text("#notes", "special sale")
    browser.run("document.querySelectorAll('details').forEach((part) => { part.open = true; })")


def show_list(site: PlainSite, browser: Browser) -> None:
    orders.fill_for_checks(site.begin())
    numbers = [0, 1, 9001, 9002, 9003, 9004, 9005, 9006]
    text = "\n".join(f"{isbn_of(number)} 9 # Mrs Lindqvist" for number in numbers)
    orders.open_list(browser, f"{text}\nDear Sirs, {'x' * 200}\n{isbn_of(3)}\n# {isbn_of(4)}\n")
    orders.looked_up(browser, len(numbers))


def show_orders(site: PlainSite, browser: Browser) -> None:
    site.begin()
    orders.open_list(browser, f"{isbn_of(0)} 2\n{isbn_of(1)} 1\n# {isbn_of(4)} 3\n")
    orders.looked_up(browser, 2)
    browser.one("#get-orders").click()
    browser.wait(lambda: browser.shows("#orders"))


def show_table(site: PlainSite, browser: Browser) -> None:
    site.begin()
    orders.open_list(browser, f"ISBN;Title;Copies\n{isbn_of(0)};{'W' * 300};2\n")


def show_missing(site: PlainSite, browser: Browser) -> None:
    site.begin().missing = {"alpha": [[2, 3]]}
    browser.open("#missing")
    browser.wait_for_text("#missing-status", "look")


VIEWS: dict[str, Callable[[PlainSite, Browser], None]] = {
    "an article": show_article,
    "a list": show_list,
    "orders": show_orders,
    "a table": show_table,
    "missing messages": show_missing,
}


def screens(site: PlainSite, browser: Browser) -> Iterator[Outcome]:
    for name, show in VIEWS.items():
        show(site, browser)
        for width in WIDTHS:
            browser.size(width, 900)
            is_wider = browser.run("return document.documentElement.scrollWidth > innerWidth")
            yield Outcome(f"{name}, {width}: no scrolling to the side", is_wider, False)
            yield Outcome(f"{name}, {width}: what can be pressed", browser.call("smallTargets"), [])
        browser.size(1280, 900)
        for scheme in SCHEMES:
            with preferring(browser, scheme):
                weak = [text for text in browser.call("contrasts") if text[1] < LEAST_CONTRAST]
                yield Outcome(f"{name}, {scheme}: weak texts", weak, [])
                border = browser.call("leastBorder")
                yield Outcome(f"{name}, {scheme}: borders of fields, {border:.1f}", border >= LEAST_BORDER, True)
        yield Outcome(f"{name}: controls without a name, doubled ids", browser.call("unnamed"), [])


def first_sight(site: PlainSite, browser: Browser) -> Iterator[Outcome]:
    """On a phone, and at twice the size, the answer begins in the upper half of the window."""
    for width, height in ((390, 844), (640, 450)):
        browser.size(width, height)
        show_article(site, browser)
        top = browser.run("return document.querySelector('#verdict').getBoundingClientRect().top + scrollY")
        yield Outcome(f"{width} pixels: the answer begins at {top}", top < height / 2, True)
    browser.size(1100, 900)


CASES = [screens, first_sight]
