"""The order list in a browser: its text with the marks, the form of a table, and the way to each wholesaler's file."""

import csv
import io
import re
import tempfile
import time
from collections.abc import Iterator
from decimal import Decimal
from pathlib import Path

from selenium.webdriver.common.action_chains import ActionChains
from selenium.webdriver.common.keys import Keys

from tests.page.browser import Browser, load
from tests.page.list_desk import WHOLESALERS, Book, ListDesk, Offer, PlainSite, book_of, isbn_of
from tests.page.scanning import scan
from tests.running import Outcome

# With all that a list asks before it is looked up.
SECONDS = 240

# The orders are reached by keyboard: how many keys a till's export of thirty lines may take.
MOST_KEYS = 45


class Keyboard:
    """Presses keys one after the other, and counts them."""

    def __init__(self, browser: Browser) -> None:
        self.browser = browser
        self.count = 0

    def press(self, *keys: str) -> None:
        for key in keys:
            self.count += 1
            ActionChains(self.browser.driver).send_keys(key).perform()

    def undo(self) -> None:
        self.count += 1
        undo = ActionChains(self.browser.driver).key_down(Keys.CONTROL).send_keys("z").key_up(Keys.CONTROL)
        undo.perform()


def open_list(browser: Browser, text: str = "") -> None:
    """The view of a newly opened page with these lines."""
    browser.open("")
    browser.run("sessionStorage.clear()")
    browser.open("#order")
    browser.wait(lambda: browser.shows("#get-orders"))
    if text:
        paste(browser, text)


def paste(browser: Browser, text: str) -> None:
    browser.call("pasteLines", text)


def lines(browser: Browser) -> str:
    return str(browser.run("return document.getElementById('lines').value"))


def focus(browser: Browser) -> str:
    return str(browser.run("const { id, textContent } = document.activeElement; return id || textContent"))


def bar(browser: Browser, words: str) -> str:
    return browser.wait_for_text("#list-bar-words", words, SECONDS)


def status(browser: Browser, words: str) -> str:
    return browser.wait_for_text("#list-status", words, SECONDS)


def looked_up(browser: Browser, books: int) -> None:
    """Waits until so many books are looked up."""
    browser.wait(
        lambda: browser.count("#list tbody tr") == books and not browser.shows("#list-bar-words", "looking up"), SECONDS
    )


def note_of(browser: Browser, number: int) -> str:
    """The remarks below a row's cells."""
    script = """return [...document.querySelectorAll('#list tbody tr')]
      .find((row) => row.textContent.includes(arguments[0])).querySelector('.said').innerText"""
    return str(browser.run(script, isbn_of(number)))


def money(amount: Decimal) -> str:
    return f"£{amount:,.2f}"


def saved_in(folder: Path, browser: Browser, files: int) -> dict[str, list[list[str]]]:
    """The rows of each wholesaler's file, once so many files are there."""
    browser.wait(lambda: len(list(folder.glob("*.csv"))) >= files)
    return {
        path.stem.rsplit("-", 1)[1]: list(csv.reader(io.StringIO(path.read_bytes().decode("utf-8-sig"))))
        for path in sorted(folder.glob("*.csv"))
    }


def save_to(browser: Browser, folder: str) -> None:
    browser.driver.execute_cdp_cmd("Browser.setDownloadBehavior", {"behavior": "allow", "downloadPath": folder})


def get_orders(browser: Browser) -> None:
    browser.one("#get-orders").click()
    browser.wait(lambda: browser.shows("#orders"), SECONDS)


def marks(site: PlainSite, browser: Browser) -> Iterator[Outcome]:
    """Each line that orders nothing is marked in place; it stays until it is put right or struck out."""
    site.begin()
    open_list(browser, f"{isbn_of(0)} 2\nDear Sirs\n{isbn_of(1)}\n{isbn_of(3)} 2,0\n")
    looked_up(browser, 1)
    marked = browser.run("return [...document.querySelectorAll('#lines-marks span')].map((line) => line.className)")
    yield Outcome("marks: in their places", marked, ["", "is-marked", "is-marked", "is-marked", ""])
    told = browser.texts("#marked-lines .go")
    reasons = ["no ISBN", "no number of copies", "copies are a whole number from 1 to 9999"]
    yield Outcome("marks: why", told, [f"Line {at}: {reason}" for at, reason in enumerate(reasons, 2)])
    browser.one("#get-orders").click()
    wanted = "Some lines order nothing: put them right, or strike them out. Nothing is saved."
    yield Outcome("marks: nothing is saved", status(browser, "Nothing is saved"), wanted)
    keys = Keyboard(browser)
    before = lines(browser)
    browser.one("#strike-out").click()
    struck = f"{isbn_of(0)} 2\n# Dear Sirs\n{isbn_of(1)}\n{isbn_of(3)} 2,0\n"
    yield Outcome("struck out: lines without an ISBN alone", lines(browser), struck)
    focused = browser.run("return document.activeElement.getAttribute('aria-label')")
    yield Outcome("struck out: the focus is at the next line", focused, "Copies of line 3")
    browser.one("#lines").click()
    keys.undo()
    yield Outcome("struck out: undone", lines(browser), before)
    browser.one("#one-copy").click()
    yield Outcome("an ISBN alone: one copy by a button", lines(browser).split("\n")[2], f"{isbn_of(1)} 1")
    looked_up(browser, 2)
    browser.one("#list button.number").click()
    chosen = "const { selectionStart, selectionEnd, value } = document.activeElement; return value.slice(selectionStart, selectionEnd)"
    yield Outcome("copies: the row leads to their number in the text", browser.run(chosen), "2")
    browser.open("#order")
    browser.wait(lambda: browser.shows("#get-orders"))
    yield Outcome("the list outlives a reload", lines(browser).split("\n")[0], f"{isbn_of(0)} 2")
    open_list(browser, f"{isbn_of(0)} 2\n{isbn_of(0)} 3\n")
    looked_up(browser, 1)
    shown = "return [document.querySelector('#list tbody .copies').textContent, document.querySelector('#list button.number')]"
    yield Outcome("copies: of two lines none has the sum to set", browser.run(shown), ["5", None])


# How mails write copies.
SAID = "3 ex {} A title/{} - 3 copies/{}: 3/{}, 3/3 {}/3 x {}/{} 3 x/{} (3)/- {} 3/> {} 3/{} 3 Stk/{}".split("/")


def mail(site: PlainSite, browser: Browser) -> Iterator[Outcome]:
    """The lines of a mail are marked; the buyer gives each its copies, by keyboard alone, and nothing else does."""
    site.begin()
    said = [words.format(isbn_of(number)) for number, words in enumerate(SAID)]
    open_list(browser, "\n".join(["Dear Anna,", *said, "Kind regards", "Tel. 020 7946 0958"]))
    yield Outcome("mail: nothing is ordered", browser.count("#lines-marks .is-marked"), len(said) + 3)
    keys = Keyboard(browser)
    keys.press(Keys.TAB, Keys.TAB, Keys.ENTER, "2", " ", "S", Keys.ENTER)
    yield Outcome("mail: no number", lines(browser).split("\n")[1], said[0])
    keys.press(Keys.BACKSPACE, Keys.BACKSPACE, Keys.ENTER)
    for number in range(1, len(said)):
        keys.press(str(number % 4 + 2), Keys.ENTER)
    came = lines(browser).split("\n")
    wanted = [f"{isbn_of(number)} {number % 4 + 2}" for number in range(len(said))]
    yield Outcome("mail: the copies that were given", [line.split(" #")[0] for line in came[1:-2]], wanted)
    yield Outcome("mail: its words stay", came[1], f"{wanted[0]} # {said[0]}")
    yield Outcome("mail: what may be an ISBN stays", came[-2:], ["# Kind regards", "Tel. 020 7946 0958"])
    yield Outcome("mail: the focus is at that", focus(browser).partition(":")[0], f"Line {len(said) + 3}")


def scanned(site: PlainSite, browser: Browser) -> Iterator[Outcome]:
    """A scan is a line of its own, wherever the cursor is, or one copy more; an article adds to the list likewise."""
    site.begin()
    text = f"{isbn_of(0)} 2 # Mrs Lindqvist"
    open_list(browser, text)
    browser.run("document.getElementById('lines').setSelectionRange(5, 5)")
    scan(browser, f"{isbn_of(1)}\n")
    browser.wait(lambda: isbn_of(1) in lines(browser))
    yield Outcome("scan: a line of its own", lines(browser), f"{text}\n{isbn_of(1)} 1\n")
    yield Outcome("scan: it is told", browser.text("#list-status"), f"Scanned: {isbn_of(1)}.")
    Keyboard(browser).press("7")
    yield Outcome("scan: what is typed next is behind it", lines(browser), f"{text}\n{isbn_of(1)} 1\n7")
    Keyboard(browser).press(Keys.BACKSPACE)
    Keyboard(browser).undo()
    yield Outcome("scan: undone", lines(browser), text)
    browser.one("#open-file").send_keys("")
    scan(browser, f"{isbn_of(0)}\n")
    browser.wait(lambda: "3 #" in lines(browser))
    yield Outcome("scan: one copy more", lines(browser), f"{isbn_of(0)} 3 # Mrs Lindqvist\n")
    browser.run("location.hash = arguments[0]", f"#article?isbn={isbn_of(3)}&quantity=4")
    browser.wait(lambda: browser.shows("#add-to-list"))
    browser.one("#add-to-list").click()
    yield Outcome("an article is added", lines(browser), f"{isbn_of(0)} 3 # Mrs Lindqvist\n{isbn_of(3)} 4\n")
    kept = browser.run("return sessionStorage.getItem('onixdesk-list')")
    yield Outcome("an article is added: it is kept", kept, lines(browser))


def tables(site: PlainSite, browser: Browser) -> Iterator[Outcome]:
    """A buyer turns a table into lines: nothing is proposed, and nothing is looked up before."""
    rows = [f'{isbn_of(number)};"Title; {number}";12;{number % 4}' for number in range(12)]
    table = "ISBN;Title;Qty;Buy\n" + "\n".join(rows) + f"\n;Total;;18\n{isbn_of(20)};x;3\n"
    desk = site.begin()
    open_list(browser, table)
    fields = [browser.one(f"#{name}-column").get_attribute("value") for name in ("isbn", "copies")]
    yield Outcome("table: both fields are empty", fields, ["", ""])
    yield Outcome("table: ten rows of it", len(browser.all("#table-rows tbody tr")), 10)
    told = "Rows with another number of cells (1) are not shown: they become lines to put right."
    yield Outcome("table: what is not shown", browser.text("#table-others"), told)
    offered = "return [...document.getElementById('copies-column').options].map((option) => option.text)"
    columns = ["", f"1: ISBN, {isbn_of(0)}", "2: Title, Title; 0", "3: Qty, 12", "4: Buy, 0"]
    yield Outcome("table: the columns with their first cells", browser.run(offered), columns)
    yield Outcome("table: no line", lines(browser), "")
    yield Outcome("table: the focus", focus(browser), "isbn-column")
    browser.one("#get-orders").click()
    wanted = "A table waits: take it, or cancel it. Nothing is saved."
    yield Outcome("table: nothing is saved", status(browser, "Nothing is saved"), wanted)
    Keyboard(browser).press("1", Keys.TAB, "1")
    twice = "One column cannot have both: please choose another one."
    yield Outcome("table: one column twice", browser.wait_for_text("#table-count", "both:"), twice)
    Keyboard(browser).press(Keys.END)
    told = "Lines: 9. Copies: 18 in all, at most 3 in a line. 2 lines to put right. 3 rows of 0 copies are left out."
    yield Outcome("table: what it becomes", browser.wait_for_text("#table-count", "Lines:"), told)
    asked = [path for path in desk.asked if path.startswith("/articles/")]
    yield Outcome("table: nothing is looked up", asked, [])
    Keyboard(browser).press(Keys.TAB, Keys.ENTER)
    taken = [f"{isbn_of(number)} {number % 4}" for number in range(12) if number % 4]
    marked = ["; Total; ; 18", f"{isbn_of(20)}; x; 3"]
    yield Outcome("table: the lines", lines(browser), "\n".join([*taken, *marked, ""]))
    Keyboard(browser).undo()
    yield Outcome("table: undone", lines(browser), "")
    word = "W" * 300
    for width in (390, 1280):
        browser.size(width, 900)
        open_list(browser, f"ISBN;Blurb;Buy\n{isbn_of(0)};{word} {'blurb ' * 300};2\n")
        height, wide = browser.run(
            "return [document.getElementById('table-form').offsetHeight, document.documentElement.scrollWidth]"
        )
        yield Outcome(f"table: {height} pixels high at {width}, no wider", (height < 600, wide <= width), (True, True))
    browser.size(1100, 900)


def till(site: PlainSite, browser: Browser) -> Iterator[Outcome]:
    """A till's export of thirty lines, three of them wrong, becomes three files by keyboard alone."""
    numbers = range(30)
    copies = {number: number % 5 + 1 for number in numbers}
    rows = [f"{isbn_of(number)};Title {number};{40 + number};{copies[number]}" for number in numbers]
    rows[7] = rows[7].replace(isbn_of(7), isbn_of(7)[:12] + str((int(isbn_of(7)[12]) + 1) % 10))
    rows[12] = rows[12].replace(f";{copies[12]}", ";2 Stk")
    rows[20] = ";Title 20;60;1"
    order = "2026-118"
    site.begin()
    with tempfile.TemporaryDirectory() as name:
        folder = Path(name)
        save_to(browser, name)
        open_list(browser)
        keys = Keyboard(browser)
        keys.count += 1
        paste(browser, "EAN;Titel;Bestand;Vorschlag\n" + "\n".join(rows))
        keys.press("1", Keys.TAB, "4", Keys.TAB, Keys.ENTER)
        # Of the wrong lines, the first is struck out, the second gets its copies, the third is struck out.
        keys.press(Keys.TAB, Keys.ENTER, "2", Keys.ENTER, Keys.TAB, Keys.ENTER)
        copies[12] = 2
        ordered = [number for number in numbers if number not in (7, 20)]
        looked_up(browser, len(ordered))
        keys.press(Keys.ENTER)
        browser.wait(lambda: browser.shows("#orders"))
        yield Outcome("till: the focus is at no button", focus(browser), "orders-heading")
        keys.press(Keys.ENTER)
        yield Outcome("till: a second Enter saves nothing", [*folder.iterdir()], [])
        keys.press(Keys.TAB, *order, Keys.TAB, Keys.ENTER)
        saved_in(folder, browser, 1)
        keys.press(Keys.ENTER)
        for files in (2, 3):
            browser.wait(lambda: "Saved as" in focus(browser))
            keys.press(Keys.TAB, Keys.ENTER)
            saved_in(folder, browser, files)
        saved = saved_in(folder, browser, 3)
        yield Outcome(f"till: {keys.count} keys", keys.count <= MOST_KEYS, True)
        yield from files_of(saved, ordered, copies, order)
        rest = [f"# {isbn_of(7)[:12]}{(int(isbn_of(7)[12]) + 1) % 10} {copies[7]}"]
        yield Outcome("till: what is in no order", browser.texts("#rest-lines li"), rest)
        yield Outcome("till: nothing is to check any longer", "to check" in browser.text("#list-bar-words"), False)


def files_of(
    files: dict[str, list[list[str]]], numbers: list[int], copies: dict[int, int], order: str
) -> Iterator[Outcome]:
    """Each wholesaler's file of those books."""
    yield Outcome("till: a file for each wholesaler", sorted(files), sorted(WHOLESALERS))
    for series, (_, *rows) in files.items():
        wanted = []
        for number in numbers:
            offers, chosen, _ = book_of(number)
            offer = offers[chosen or 0]
            if offer.series == series and offer.amount:
                total = offer.amount * copies[number]
                wanted.append([isbn_of(number), str(copies[number]), f"{offer.amount:.2f}", f"{total:.2f}"])
        yield Outcome(f"till: the file of {series}", [row[:4] for row in rows], wanted)
        yield Outcome(f"till: its reference, {series}", {row[6] for row in rows}, {order})


def to_check(site: PlainSite, browser: Browser) -> Iterator[Outcome]:
    """What a person has to check is counted and filtered; a wholesaler with missing messages is confirmed once."""
    desk = site.begin()
    fill_for_checks(desk)
    numbers = [0, 1, 4, 9001, 9002, 9003, 9004, 9005, 9006]
    open_list(browser, "\n".join([*(f"{isbn_of(number)} 9" for number in numbers), f"{isbn_of(6)} 1 @alhpa"]))
    numbers.append(6)
    looked_up(browser, len(numbers))
    noted = {number: note_of(browser, number) for number in numbers}
    wanted = {
        0: "",
        1: "price may be old",
        4: "price may be old",
        9001: "No offer has come, but messages are missing: Beta & Sons.",
        9002: "No rule of the shop allows any of the offers.",
        9003: "Offered, but no price of type 05 for 9.",
        9004: "It costs nothing: ask before you order. Confirm",
        9005: "£54.00 less from Beta & Sons (in stock); rule 1 prefers Alpha Books",
        9006: "£1.00 is far below the next offer, £9.00: ask before you order. Confirm",
        6: "No wholesaler has the short name “alhpa”: there are alpha, beta, gamma.",
    }
    yield Outcome("to check: what each row says", noted, wanted)
    told = "4 to check · 4 in no order"
    yield Outcome("to check: it is counted", told in bar(browser, told), True)
    browser.one("#show-needs").click()
    yield Outcome("to check: those alone", browser.count("#list tbody tr"), 8)
    sums = sum((offer_amount(number) * 9 for number in (0, 1, 4)), Decimal(0)) + 9 * Decimal("15.00")
    yield Outcome("to check: the sum is of what is ordered", money(sums) in browser.text("#list-bar-words"), True)
    for _ in range(3):
        browser.one("#get-orders").click()
        status(browser, "Nothing is saved")
        script = "arguments[0].click(); const at = document.activeElement; at.click(); return at.className"
        came = browser.run(script, browser.one("#show-needs"))
        yield Outcome("to check: the focus outlives a drawing", came, "small confirm")
    yield Outcome("to check: all is confirmed", browser.text("#list-status"), "")
    get_orders(browser)
    yield Outcome("to check: confirmed, each once", browser.count("#list .confirm, #list-doubts .confirm"), 0)
    alpha = browser.rows("#orders-table")[0][:4]
    sum_of_alpha = Decimal("9") * (offer_amount(0) + Decimal("15.00"))
    yield Outcome("to check: the order of alpha", alpha, ["Alpha Books", "4", "36", money(sum_of_alpha)])


def offer_amount(number: int) -> Decimal:
    offers, chosen, _ = book_of(number)
    return offers[chosen or 0].amount or Decimal(0)


def fill_for_checks(desk: ListDesk) -> None:
    desk.missing = {"beta": [[3, 4]]}
    desk.books |= {
        isbn_of(9002): Book([Offer("alpha", Decimal("7.00"), "40")], None),
        isbn_of(9003): Book([Offer("alpha", None)], None),
        isbn_of(9004): Book([Offer("alpha", Decimal(0))]),
        isbn_of(9005): Book([Offer("alpha", Decimal("14.00")), Offer("beta", Decimal("8.00"))]),
        isbn_of(9006): Book([Offer("alpha", Decimal("1.00")), Offer("beta", Decimal("9.00"))]),
    }


def changed(site: PlainSite, browser: Browser) -> Iterator[Outcome]:
    """Each book is asked for once more before an order leaves the page: if one has changed, nothing is saved."""
    desk = site.begin()
    with tempfile.TemporaryDirectory() as name:
        save_to(browser, name)
        open_list(browser, f"{isbn_of(0)} 2\n{isbn_of(3)} 1\n{isbn_of(1)} 1 @alpha\n")
        looked_up(browser, 3)
        before = desk.books[isbn_of(0)]
        desk.books[isbn_of(0)] = Book([Offer("alpha", Decimal("6.00"))])
        browser.one("#get-orders").click()
        wanted = "Changed since they were looked up: 1 of 3 books. Nothing is saved: look at them first."
        yield Outcome("changed: nothing is saved", status(browser, "Changed since"), wanted)
        yield Outcome("changed: no order is shown", browser.shows("#orders"), False)
        was = f"Changed: it was Alpha Books at {money(before.offers[0].amount or Decimal(0))}. Confirm"
        yield Outcome("changed: what it was", note_of(browser, 0), was)
        browser.one("#list .confirm").click()
        get_orders(browser)
        rows = browser.rows("#orders-table")
        yield Outcome(
            "by hand: it is ordered from the wholesaler behind @", [row[:2] for row in rows], [["Alpha Books", "3"]]
        )
        browser.one("#order-reference").send_keys("=7")
        browser.one("[data-way=csv]").click()
        told = "An order reference begins with a letter or a digit. Nothing is saved."
        yield Outcome("a reference that is a formula", status(browser, "reference"), told)
        yield Outcome("a reference that is a formula: no file", [*Path(name).iterdir()], [])
        browser.run("window.print = () => window.dispatchEvent(new Event('afterprint'))")
        browser.one("#order-reference").clear()
        browser.one("#order-reference").send_keys("2026-7")
        browser.one("[data-way=print]").click()
        browser.wait(lambda: browser.count("#paper tbody tr") > 0)
        paper = browser.run("return document.getElementById('paper').textContent")
        parts = ["Purchase order 2026-7", "To: Alpha Books", "Our account: 1177", isbn_of(0), isbn_of(1), "£22.04"]
        total = 2 * Decimal("6.00") + offer_amount(3) + (book_of(1).offers[0].amount or Decimal(0))
        parts[-1] = money(total)
        yield Outcome("on paper", [part for part in parts if part not in paper], [])
        yield Outcome("on paper: no other wholesaler", "Beta" in paper or "Gamma" in paper, False)


def twice(site: PlainSite, browser: Browser) -> Iterator[Outcome]:
    """The page says that this list was saved; no other order has its file name, nor the next one its reference."""
    site.begin()
    with tempfile.TemporaryDirectory() as name:
        save_to(browser, name)
        open_list(browser, f"{isbn_of(0)} 2\n")
        looked_up(browser, 1)
        get_orders(browser)
        browser.one("[data-way=csv]").click()
        browser.wait_for_text("[data-saved]", "Saved as")
        # The name of a file has its second.
        time.sleep(1)
        browser.open("#order")
        looked_up(browser, 1)
        get_orders(browser)
        yield Outcome("twice: a reload forgets nothing", "Saved as" in browser.text("[data-saved]"), True)
        browser.one("#order-reference").send_keys("2026-7")
        browser.one("[data-way=csv]").click()
        browser.wait(lambda: len(list(Path(name).glob("*.csv"))) == 2)
        names = [re.fullmatch(r"order-\d{4}(-\d\d){2}-\d{6}-alpha\.csv", path.name) for path in Path(name).iterdir()]
        yield Outcome("twice: two names", [found is not None for found in names], [True, True])
        paste(browser, f"{isbn_of(3)} 1\n")
        looked_up(browser, 2)
        reference = browser.run("return document.getElementById('order-reference').value")
        yield Outcome("twice: the reference is gone", reference, "")
        get_orders(browser)
        yield Outcome("twice: of another list nothing is told", browser.text("[data-saved]"), "")


def password(site: PlainSite, browser: Browser) -> Iterator[Outcome]:
    """A password that is no longer right is reported while an order is saved, and the list stays as it is."""
    site.begin()
    open_list(browser, f"{isbn_of(0)} 2\n{isbn_of(1)} 2\n")
    looked_up(browser, 2)
    site.status = 401
    browser.one("#get-orders").click()
    told = "The web server asks for the password: load the page anew, and give it. Nothing is saved."
    yield Outcome("401 while saving", status(browser, "password"), told)
    yield Outcome("401 while saving: no order", (browser.shows("#orders"), browser.count("#list .need")), (False, 0))
    site.status = None
    get_orders(browser)
    yield Outcome("401 while saving: then the orders", browser.shows("#orders"), True)


def long_list(site: PlainSite, browser: Browser) -> Iterator[Outcome]:
    """Five hundred books: how long they take, and whether the page responds to keys meanwhile."""
    site.begin()
    open_list(browser)
    browser.call("noteBlocks")
    begun = browser.run("return performance.now()")
    paste(browser, "\n".join(f"{isbn_of(number)} {number % 9 + 1}" for number in range(500)))
    looked_up(browser, 500)
    seconds = (browser.run("return performance.now()") - begun) / 1000
    blocks = browser.run("return window.blocks")
    longest = max(blocks, default=0)
    name = f"500 books: {seconds:.1f} seconds, {len(blocks)} blocks, the longest {longest:.0f} ms, {load()}"
    # The time on a busy machine decides nothing.
    yield Outcome(name, browser.count("#list tbody tr"), 500)
    wanted = sum((offer_amount(number) * (number % 9 + 1) for number in range(500)), Decimal(0))
    yield Outcome("500 books: their sum", money(wanted) in browser.text("#list-bar-words"), True)


CASES = [marks, mail, scanned, tables, till, to_check, changed, twice, password, long_list]
