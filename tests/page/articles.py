"""The view of an article, before a stand-in for the desk."""

import json
from collections.abc import Iterator
from decimal import Decimal

from tests.page.browser import Browser
from tests.page.list_desk import Book, Offer, PlainSite, isbn_of, state
from tests.page.scanning import scan
from tests.running import Outcome

BOOK, UNADMITTED, NOBODYS, FREE, FAR = (isbn_of(number) for number in (9001, 9002, 9003, 9004, 9005))
WRONG = BOOK[:12] + str((int(BOOK[12]) + 1) % 10)

# Texts that a feed may have, which mean something in HTML or change the direction of others.
HOSTILE = "<img src=x onerror=alert(1)>"
TURNING = "one\u202etwo"


def title_file(isbn: str) -> str:
    return f"/state/titles/{isbn[:5]}/{isbn[:8]}.json"


def fill(site: PlainSite) -> None:
    desk = site.begin(quantities=[1, 10], recommended_type="02")
    desk.books |= {
        BOOK: Book([Offer("alpha", Decimal("14.00")), Offer("beta", Decimal("8.00")), Offer("gamma", None, "34")]),
        UNADMITTED: Book([Offer("alpha", Decimal("7.00"), "40")], None),
        FREE: Book([Offer("alpha", Decimal(0))]),
        FAR: Book([Offer("alpha", Decimal("1.00")), Offer("beta", Decimal("9.00"))]),
    }
    desk.others = {
        (BOOK, "02"): [Offer("alpha", Decimal("20.00")), Offer("beta", Decimal("10.00"))],
        (BOOK, "15"): [Offer("beta", Decimal("5.00"))],
    }
    site.files["/state/beta.json"] = state(prices=[["05", "GBP"], ["15", "GBP"], ["17", "EUR"]])
    titles = [["alpha", 1, 1, HOSTILE, TURNING, "Éilís Byrne (A01)", "Quay"], ["beta", 1, 1, "Another", "", "", ""]]
    site.files[title_file(BOOK)] = json.dumps({BOOK: titles})


def article(isbn: str, **given: str) -> str:
    return "#article?" + "&".join(f"{name}={value}" for name, value in {"isbn": isbn, **given}.items())


def open_article(browser: Browser, address: str, words: str) -> str:
    """Opens a view; returns its text once it has these words."""
    browser.open(address)
    return browser.wait_for_text("#article-status", words)


def chosen(site: PlainSite, browser: Browser) -> Iterator[Outcome]:
    """What is chosen, what speaks against it, and all offers."""
    fill(site)
    browser.complaints()
    came = open_article(browser, article(BOOK, quantity="9"), "Buy 9")
    wanted = f"Buy 9 from Alpha Books at £14.00 a copy\n£126.00\nISBN {BOOK} · in stock · RRP £20.00 · margin 30%"
    browser.wait_for_text("#article-status", "RRP")
    said = (came.splitlines()[:2], browser.text("#article-status"))
    yield Outcome("chosen: the sentence", said, (wanted.splitlines()[:2], wanted))
    browser.wait(lambda: not browser.shows("#offers", "…"))
    cells = [[" ".join(cell.split()) for cell in row] for row in browser.rows("#offers")]
    rows = [
        ["Alpha Books alpha-1 chosen, rule 1", "in stock", "£14.00", "–", "1: £14.009: £14.0010: £14.00", ""],
        ["Beta & Sons beta-1", "in stock", "£8.00", "-£6.00 rule 1 does not take it", "1: £8.009: £8.0010: £8.00", ""],
        ["Gamma gamma-1", "temporarily withdrawn from sale", "no price of type 05 for 9 copies in GBP", "",
         "1: no price9: no price10: no price", ""],
    ]  # fmt: skip
    yield Outcome("chosen: the offers", cells, rows)
    notes = [
        "Beta & Sons also has £5.00 a copy, 15 – special sale, supplier's net price, without tax: ask which one counts.",
        "Recommended prices differ: Alpha Books £20.00, Beta & Sons £10.00.",
    ]
    yield Outcome("chosen: special and recommended prices", browser.texts("#notes li"), notes)
    title = browser.run("return document.getElementById('title').textContent")
    said = f"{HOSTILE}: onetwo · Éilís Byrne · Quay · Beta & Sons says: Another as Alpha Books said last, not proved"
    yield Outcome("chosen: what a feed says, as it stands", title, said)
    weights = "return [...document.querySelectorAll('#title q')].map((text) => getComputedStyle(text).fontWeight)"
    quoted = browser.run(weights)
    yield Outcome("chosen: it is quoted, in plain weight", quoted, ["400", "400"])
    first = browser.run("return document.querySelector('#verdict').firstElementChild.id")
    yield Outcome("chosen: which book it is comes first", first, "title")
    yield Outcome("chosen: no element of a feed's", browser.all("main img, main script"), [])
    lanes = "return [...document.querySelectorAll('#picture .lane')].map((lane) => lane.textContent.slice(0, 10))"
    bars = browser.run(lanes)
    yield Outcome("chosen: the year has a lane for each offer", bars, ["14.00£14.0", "8.00£8.00,", "no price, "])
    complaints = [text for text in browser.complaints() if "/nothing" not in text]
    yield Outcome("chosen: no complaint of the browser", complaints, [])


def not_chosen(site: PlainSite, browser: Browser) -> Iterator[Outcome]:
    """Why nothing is bought: the rules show, and nobody with missing messages is said to have no offer."""
    fill(site)
    came = open_article(browser, article(UNADMITTED), "No rule")
    yield Outcome("no rule", came.splitlines()[0], "No rule of the shop allows any of these offers")
    rules = ["any wholesaler: available, in stock, at most 15.00", "any wholesaler: available, in stock, to order"]
    browser.wait(lambda: browser.shows("#rules-list"))
    yield Outcome("no rule: they stand open", browser.texts("#rules-list li"), rules)
    browser.wait(lambda: site.asked.count("/state/gamma.json") > 0)
    came = open_article(browser, article(NOBODYS), "No wholesaler")
    yield Outcome("nobody offers it", came.splitlines()[0], "No wholesaler offers this book")
    site.desk.missing = {"beta": [[3, 4]]}
    site.files["/state/gamma.json"] = state(quarantined=1)
    browser.open(article(NOBODYS))
    browser.wait_for_text("#notes", "quarantine")
    sentence = "No offer of this book has come, but something of Beta & Sons, Gamma is missing or cannot be seen"
    yield Outcome("nobody, as far as it can be seen", browser.text("#article-status").splitlines()[0], sentence)
    notes = [
        "Beta & Sons: 2 messages are missing: 3 to 4; later messages that wait for what is missing: 1. "
        "Its prices may be old. Missing messages",
        "Gamma: 1 file is in quarantine. Its prices may be old. Missing messages",
    ]
    yield Outcome("nobody, as far as it can be seen: why", browser.texts("#notes li"), notes)
    del site.files["/state/alpha.json"]
    browser.open(article(BOOK))
    told = browser.wait_for_text("#notes", "cannot be seen")
    yield Outcome("a file of the inbox that is not there", "Alpha Books: whether a file is stopped" in told, True)


def careful(site: PlainSite, browser: Browser) -> Iterator[Outcome]:
    """A price of 0, one far from others, a wrong ISBN, changed fields, a later answer."""
    fill(site)
    came = open_article(browser, article(FREE), "ask before")
    yield Outcome("a price of 0", came.splitlines()[0], "Alpha Books says £0.00: ask before you order")
    yield Outcome("a price of 0: no button to order", browser.one("#to-list").is_displayed(), False)
    open_article(browser, article(FAR), "Buy 1")
    far = "£1.00 is far below the next offer, £9.00: ask before you order."
    yield Outcome("a price far from others", browser.texts("#notes li"), [far])
    scan(browser, f"{BOOK}\n")
    browser.wait_for_text("#article-status", BOOK)
    yield Outcome("a scan is asked for wherever the focus is", BOOK in browser.run("return location.hash"), True)
    before = len(site.desk.asked)
    browser.one("#isbn").send_keys(f"{WRONG}\n")
    told = browser.wait_for_text("#isbn-wrong", "ISBN")
    yield Outcome("a wrong ISBN", told, "This is no ISBN, which has thirteen digits, or ten: compare it with the book.")
    asked = [path for path in site.desk.asked[before:] if WRONG in path]
    came = (asked, browser.text("#article-status"))
    yield Outcome("a wrong ISBN: it is not asked for, and no answer stands", came, ([], ""))
    open_article(browser, article(FREE, day="2025-04-10", country="DE"), "10 April 2025 · DE:")
    usual = browser.one("#as-usual").is_displayed()
    yield Outcome("what is not as usual is said, and can be reset", usual, True)
    browser.one("#quantity").send_keys("5")
    told = browser.wait_for_text("#outdated", "not for what")
    wanted = f"This is the answer for ISBN {FREE}, 1 copy, not for what the fields say now."
    yield Outcome("fields that differ from the answer", told, wanted)


def without_the_desk(site: PlainSite, browser: Browser) -> Iterator[Outcome]:
    """A password that is no longer right is reported, and a desk that is down is asked again."""
    fill(site)
    site.status = 401
    browser.open(article(BOOK))
    told = "The web server asks for the password: load the page anew, and give it."
    yield Outcome("401", browser.wait_for_text("#question-wrong", "password"), told)
    site.status = 502
    browser.open(article(BOOK))
    told = "The desk is not running, or is just being started. The page asks again by itself every 5 seconds."
    yield Outcome("502", browser.wait_for_text("#down", "not running"), told)
    site.status = None
    yield Outcome("502: it goes on by itself", "Buy 1" in browser.wait_for_text("#article-status", "Buy 1"), True)


CASES = [chosen, not_chosen, careful, without_the_desk]
