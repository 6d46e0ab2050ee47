"""Which feeds are quarantined, by the answers of the built program."""

from collections.abc import Iterator
from dataclasses import replace
from typing import Any
from unittest.mock import patch

from onixdesk_shop.inbox import comparing
from onixdesk_shop.shop_json import Shop
from tests.program.inbox.files import inbox_in
from tests.program.room import Room
from tests.running import Outcome
from tests.shop.feeds import Book, feed, supply
from tests.shop.inboxes import SHOP, FakeInbox

BOOKS = [Book(number) for number in range(40)]

RULES = '[[rule]]\nseries = "*"\ncodes = ["20", "21"]\n'

Feed = list[Book]


def all_with(**changes: Any) -> Feed:
    return [replace(book, **changes) for book in BOOKS]


def some_with(count: int, **changes: Any) -> Feed:
    return [*all_with(**changes)[:count], *BOOKS[count:]]


# After a feed of forty books at 10.00 in GBP for GB.
QUARANTINED: dict[str, Feed] = {
    "a hundredfold": all_with(price="1000.00"),
    "in pence, eleven of forty": some_with(11, price="1000.00"),
    "a hundredfold from a later day on": all_with(later=("20261202", "1000.00")),
    "a third of the price": all_with(price="3.33"),
    "a half less for all": all_with(price="5.50"),
    "in another currency": all_with(currency="EUR"),
    "for another market": all_with(country="US"),
    "all deleted": all_with(kind="05"),
    "no prices": all_with(price=""),
    "new references": [replace(book, reference=f"N{book.number}") for book in BOOKS],
    "ISBNs shifted by one": [replace(book, reference=f"R{book.number + 1}") for book in BOOKS],
    "none to be had": all_with(availability="40"),
    "deleted by another identifier": all_with(kind="05", id_type="01"),
    "with other ISBNs": [replace(book, number=book.number + 500, reference=f"R{book.number}") for book in BOOKS],
}

PASSES: dict[str, Feed] = {
    "the same again": BOOKS,
    "a sale of a third off": all_with(price="6.67"),
    "a rise of a tenth": all_with(price="11.00"),
    "new titles alone": [Book(number) for number in range(100, 112)],
    "in pence, ten of forty": some_with(10, price="1000.00")[1:],
    "deletions of a few": some_with(5, kind="05"),
    "an update of few": [replace(book, kind="04", price="10.50") for book in BOOKS[:12]],
}


def behind_a_first_feed(
    room: Room, name: str, books: Feed, shop: Shop | None = SHOP, **settings: Any
) -> tuple[FakeInbox, str]:
    inbox = inbox_in(room, name.replace(" ", "-"), program=room.program, **settings)
    inbox.shop = shop
    inbox.places.rules.write_text(RULES)
    inbox.take("first.xml", feed(1, BOOKS))
    inbox.take("second.xml", feed(2, books, extra="" if books else "<NoProduct/>"))
    return inbox, inbox.states()["second.xml"]


def feeds_that_look_wrong(room: Room) -> Iterator[Outcome]:
    for name, books in QUARANTINED.items():
        yield Outcome(name, behind_a_first_feed(room, name, books)[1], "quarantined")
    for name, books in PASSES.items():
        yield Outcome(name, behind_a_first_feed(room, name, books)[1], "applied")


def for_whom_the_last_feed_was(room: Room) -> Iterator[Outcome]:
    """That is asked for if no settings of the shop name it, and if they are for others."""
    others = replace(SHOP, country="DE", currency="EUR")
    for case, shop in ("without desk.json", None), ("desk.json is for others", others):
        for name in ("in another currency", "for another market", "all deleted"):
            state = behind_a_first_feed(room, f"{name}, {case}", QUARANTINED[name], shop)[1]
            yield Outcome(f"{name}, {case}", state, "quarantined")


def several_supplies(room: Room) -> Iterator[Outcome]:
    """Of an article with two offers both are compared; of several markets, each with its own currency; and for each
    quantity of desk.json."""
    markets = [Book(0, country=country, currency="EUR") for country in "IE DE FR NL BE ES IT PT AT".split()]
    for name, others, last, price in (
        ("the dearer of two offers", markets[:0], Book(0, "20.00"), "2000.00"),
        ("the cheaper of two offers", markets[:0], Book(0, "9.00"), "0.09"),
        ("the middle of three offers", [Book(0, "3000.00")], Book(0, "12.00"), "1200.00"),
        ("a dearer offer more", markets[:0], Book(0, ""), "25.00"),
        ("in the last of many markets", markets, Book(0, "12.00", country="US", currency="USD"), "1200.00"),
    ):
        inbox = inbox_in(room, name.replace(" ", "-"), program=room.program)
        inbox.shop = replace(SHOP, quantities=[1, 10, 25])
        for number, book in enumerate((last, replace(last, price=price)), 1):
            supplies = "".join(map(supply, [*others, book] if book.price else []))
            inbox.take(f"{number}.xml", feed(number, BOOKS).replace("</Product>", f"{supplies}</Product>"))
        yield Outcome(name, inbox.states()["2.xml"], "quarantined" if last.price else "applied")
    found = inbox.work(lambda each: [kind.quantity for kind in comparing.kinds_of(each, {})])
    yield Outcome("quantities", sorted({*found}), [1, 10, 25])


def unpriced(room: Room) -> Iterator[Outcome]:
    """Articles without a price that are deleted count too."""
    inbox = inbox_in(room, "unpriced", program=room.program)
    inbox.take("1.xml", feed(1, all_with(price="")))
    inbox.take("2.xml", feed(2, all_with(kind="05")))
    yield Outcome("all deleted", inbox.states()["2.xml"], "quarantined")


def few_deletions_of_many(room: Room) -> Iterator[Outcome]:
    inbox = FakeInbox(room.folder, room.program)
    books = [Book(number) for number in range(300)]
    inbox.take("first.xml", feed(1, books))
    inbox.take("second.xml", feed(2, [replace(book, kind="05") for book in books[:40]]))
    yield Outcome("forty of three hundred", inbox.states()["second.xml"], "applied")
    inbox.take("third.xml", feed(3, [replace(book, kind="05") for book in books[40:100]]))
    yield Outcome("sixty of what is left", inbox.states()["third.xml"], "quarantined")


def few_among_many_new(room: Room) -> Iterator[Outcome]:
    """With a bound that the new titles alone exceed, what the desk has is looked at first."""
    books = [*all_with(price="1000.00")[:12], *(Book(number) for number in range(100, 400))]
    with patch.object(comparing, "MOST_ASKED", 30):
        state = behind_a_first_feed(room, "twelve among three hundred", books)[1]
    yield Outcome("twelve of a hundredfold among three hundred new titles", state, "quarantined")


def other_reasons(room: Room) -> Iterator[Outcome]:
    _, state = behind_a_first_feed(room, "no stop", QUARANTINED["a hundredfold"], stop=False)
    yield Outcome("STOP=no", state, "applied")
    inbox = FakeInbox(room.folder, room.program)
    inbox.send("1.xml", feed(1, []))
    inbox.send("2.xml", feed(102, [], extra="<NoProduct/>"))
    inbox.take("3.xml", feed(103, [], extra="<NoProduct/>"))
    yield Outcome("neither a Product nor a NoProduct", inbox.states()["1.xml"], "quarantined")
    yield Outcome("what is behind it waits", inbox.states()["2.xml"], "new")
    yield Outcome("and is counted", (inbox.shown()["waiting"], inbox.shown()["quarantined"]), (2, 1))
    inbox.decide("let-in", "1.xml")
    inbox.run()
    yield Outcome("let in", inbox.states(), {"1.xml": "applied", "2.xml": "held", "3.xml": "quarantined"})
    why = next(file.why for file in inbox.files() if file.name == "3.xml")
    yield Outcome("far ahead", why, "its number is 101 ahead of the one that the series waits for")
    inbox = inbox_in(room, "wrong", program=room.program, words=("--wrong", "all"))
    books = [*all_with(country="XX")[:11], *all_with(price="12,99")[11:22], *BOOKS[22:]]
    regions = "CountriesIncluded>XX</CountriesIncluded", "RegionsIncluded>ECZ</RegionsIncluded"
    inbox.take("1.xml", feed(1, books).replace(*regions))
    wanted = "11 of 40 products are emptied, and 11 wrong"
    yield Outcome("emptied or wrong", inbox.files()[0].why, wanted)
