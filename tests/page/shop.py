"""The page as a shop has it: before nginx and the real program, with the questions of examples/shop/README.md."""

from collections.abc import Iterator

from tests.page.browser import Browser
from tests.page.site import Site
from tests.page.week import article
from tests.running import Outcome


def answered(site: Site, browser: Browser) -> Iterator[Outcome]:
    """The page understands the real desk's answers, in each view."""
    browser.complaints()
    browser.open(article())
    came = browser.wait_for_text("#article-status", "North Books").splitlines()[0]
    yield Outcome("the real desk: the sentence", came, "10 April 2025: North Books: retail price £11.50")
    browser.wait(lambda: browser.count("#picture .lane") == 3 and not browser.shows("#offers", "…"))
    rows = [[" ".join(cell.split()) for cell in row][1:4] for row in browser.rows("#offers")]
    wanted = [
        ["in stock", "£11.50", "–"],
        ["out of stock", "£8.00", "-£3.50 rules 1 to 2 do not take it"],
        ["in stock", "£11.80", "+£0.30"],
    ]
    yield Outcome("the real desk: the offers", rows, wanted)
    ends = [row[5] for row in browser.rows("#offers")]
    yield Outcome("the real desk: until when the price holds", ends, ["until 14 Apr 2025, then £10.75", "", ""])
    browser.open("#missing")
    browser.wait_for_text("#missing-status", "look")
    told = "5 messages are missing: 3 to 4, 6 to 8" in browser.text("#series")
    yield Outcome("the real desk: what is missing", told, True)
    yield Outcome("the real desk: what cannot be seen", "cannot be seen" in browser.text("#series"), True)
    complaints = [text for text in browser.complaints() if "/state/" not in text]
    yield Outcome("nothing for the browser to complain of", complaints, [])


def stopped(site: Site, browser: Browser) -> Iterator[Outcome]:
    """The page reports a stopped desk and a stopped web server, and goes on by itself."""
    browser.open("")
    site.stop_desk()
    browser.run("location.hash = arguments[0]", article())
    again = " The page asks again by itself every 5 seconds."
    words = "The desk is not running, or is just being started." + again
    yield Outcome("a stopped desk is told", browser.wait_for_text("#down", words), words)
    site.start_desk()
    came = browser.wait_for_text("#article-status", "£11.50")
    yield Outcome("a started desk answers by itself", "£11.50" in came, True)
    yield Outcome("the note is gone", browser.one("#down").is_displayed(), False)
    browser.open("")
    site.stop_nginx()
    browser.run("location.hash = arguments[0]", article())
    words = "The web server of this page cannot be reached." + again
    yield Outcome("a stopped web server is told", browser.wait_for_text("#down", words), words)
    site.start_nginx()
    came = browser.wait_for_text("#article-status", "£11.50")
    yield Outcome("a started one answers by itself", "£11.50" in came, True)


CASES = [answered, stopped]
