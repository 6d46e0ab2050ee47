"""The view of missing messages, before a stand-in for the desk and files of the inbox."""

import re
import time
from collections.abc import Iterator

from tests.page.browser import Browser
from tests.page.list_desk import PlainSite, settings, state
from tests.running import Outcome


def card(browser: Browser, series: str) -> list[str]:
    """The text of a wholesaler's card."""
    script = "return document.getElementById(arguments[0]).parentElement.innerText"
    return [line for line in str(browser.run(script, f"series-{series}")).splitlines()[1:] if line]


def three_states(site: PlainSite, browser: Browser) -> Iterator[Outcome]:
    """Complete; only the time of the last file; stop, look. What cannot be seen is never green."""
    site.begin()
    site.desk.missing = {"alpha": [[2, 3]]}
    site.files["/state/beta.json"] = state(numbered=False, older_terms=12)
    browser.open("#missing")
    told = browser.wait_for_text("#missing-status", "look")
    yield Outcome("states: what to look at", told, "Stop, and look at: Alpha Books.")
    stands = "Messages in use: 1. The next one is 2."
    letter = "This page asks no wholesaler: copy the letter, paste it into a mail and send it yourself."
    reasons = ["2 messages are missing: 2 to 3", "later messages that wait for what is missing: 1"]
    yield Outcome("states: stop", card(browser, "alpha"), [*reasons, stands, letter, "Copy a letter to Alpha Books"])
    [last, *rest] = card(browser, "beta")
    clock = time.strftime("%H:%M")
    unnumbered = re.fullmatch(r"Last file today .*\. It has no numbers: a lost file would not show\.", last)
    yield Outcome(f"states: without numbers, at {clock}", unnumbered is not None, True)
    yield Outcome("states: older terms", rest, [stands, "Articles whose price is by an older table of terms: 12."])
    yield Outcome("states: complete", card(browser, "gamma"), ["Complete: nothing is missing.", stands])
    tab = " ".join(browser.text("#to-missing").split())
    yield Outcome("states: at the tab", tab, "Missing messages 1 to look at")
    ids = "return [...document.querySelectorAll('.complete')].map((part) => part.parentElement.querySelector('h2').id)"
    green = browser.run(ids)
    yield Outcome("states: green alone where all is numbered and there", green, ["series-gamma"])


def unseen(site: PlainSite, browser: Browser) -> Iterator[Outcome]:
    site.begin()
    site.files["/state/alpha.json"] = "{"
    site.files["/state/beta.json"] = state(at=int(time.time()) - 1000)
    del site.files["/state/gamma.json"]
    browser.open("#missing")
    told = browser.wait_for_text("#missing-status", "look")
    yield Outcome("damaged, old, not there", told, "Stop, and look at: Alpha Books, Beta & Sons, Gamma.")
    for series in ("alpha", "beta", "gamma"):
        came = card(browser, series)[0]
        yield Outcome(f"cannot be seen: {series}", came, "whether a file is stopped or lost cannot be seen")
    yield Outcome("cannot be seen: nothing is green", browser.count(".complete"), 0)
    site.begin()
    site.files["/desk.json"] = settings().replace('"gamma"', '"delta"')
    site.files["/state/delta.json"] = state()
    browser.open("#missing")
    browser.wait_for_text("#missing-status", "look")
    told = "The desk has no agreement with the name “delta”. Look at desk.json, or make the agreement."
    yield Outcome("a series that the desk does not have", told in card(browser, "delta"), True)


def letter(site: PlainSite, browser: Browser) -> Iterator[Outcome]:
    """The letter has the wholesaler's own numbers; if the browser does not copy, it is shown."""
    site.begin()
    site.files["/desk.json"] = settings().replace(
        '"account"', '"number_offset": 3, "mail": "edi@alpha.example", "account"'
    )
    site.desk.missing = {"alpha": [[2, 6]]}
    browser.open("#missing")
    browser.wait_for_text("#missing-status", "look")
    browser.run("navigator.clipboard.writeText = async () => { throw new Error('no'); }")
    browser.one(".card .main").click()
    text = browser.wait(lambda: browser.run("return document.querySelector('.copied textarea')?.value")) or ""
    yield Outcome("letter: no number below 1", "have not reached us: 1 to 3 (3 messages in all)" in str(text), True)
    link = browser.one(".card a.button").get_attribute("href") or ""
    yield Outcome("letter: as a mail", link.startswith("mailto:edi@alpha.example?subject=ONIX%20messages"), True)


CASES = [three_states, unseen, letter]
