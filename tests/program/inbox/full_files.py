"""What full files no longer name."""

from collections.abc import Iterator
from contextlib import suppress

from onixdesk_shop.inbox import report
from onixdesk_shop.settings import NEXT
from tests.program.inbox.files import inbox_in
from tests.program.room import Room
from tests.running import Outcome
from tests.shop.fake_machine import FakeMachine, Killed
from tests.shop.fake_program import feed_of
from tests.shop.inboxes import FakeInbox

Prices = dict[str, str]


def books(*numbers: int) -> Prices:
    return {f"B{number}": "5.00" for number in numbers}


def send_all(inbox: FakeInbox, **files: Prices) -> None:
    for name, products in files.items():
        inbox.take(f"{name}.xml", feed_of(None, products, sent=name))


def named(inbox: FakeInbox) -> list[str]:
    return sorted(inbox.series.catalogue())


def deleted(room: Room) -> Iterator[Outcome]:
    inbox = inbox_in(room, "one", number=NEXT, full=1, full_names=("full*",))
    send_all(inbox, full1=books(1, 2, 3), delta=books(4))
    lines = inbox.take("full2.xml", feed_of(None, books(2, 3), sent="full2"))
    yield Outcome("it says how many", "products deleted that it does not name: 2" in lines[-1], True)
    yield Outcome("all that the last full file has not", named(inbox), ["B2", "B3"])
    inbox.send("full3.xml", feed_of(None, books(3)))
    with suppress(Killed):
        inbox.run(FakeMachine(inbox.disk, inbox.desk, inbox.clock, ("kill", "renamed", 2)))
    inbox.run()
    yield Outcome("also by a name that it got amid a removal", named(inbox), ["B3"])
    inbox = inbox_in(room, "three", number=NEXT, full=3)
    send_all(inbox, a=books(1), b=books(2), c=books(3), d=books(4), e=books(5))
    yield Outcome("a load in three files", named(inbox), ["B3", "B4", "B5"])
    inbox = inbox_in(room, "too many", number=NEXT, full=1)
    send_all(inbox, a=books(*range(60)), b=books(*range(40)))
    yield Outcome("too many", (inbox.states()["b.xml"], len(named(inbox))), ("quarantined", 60))
    send_all(inbox, c=books(*range(55)))
    yield Outcome("a newer one takes its place", (inbox.states()["b.xml"], len(named(inbox))), ("replaced", 55))
    lines = inbox.take("again.xml", feed_of(None, books(*range(40)), sent="b"))
    yield Outcome("its bytes again are told", (len(lines), inbox.states()["again.xml"]), (1, "replaced"))
    send_all(inbox, d=books(*range(6, 49)) | dict.fromkeys(books(*range(6)), "-"))
    yield Outcome("with those that it deletes itself", inbox.states()["d.xml"], "quarantined")
    inbox = inbox_in(room, "let in", number=NEXT, full=1, stop=False)
    send_all(inbox, a=books(*range(60)), b=books(*range(40)))
    yield Outcome("too many, whatever STOP says", inbox.states()["b.xml"], "quarantined")
    inbox.decide("let-in", "quarantined")
    inbox.run()
    yield Outcome("let in", len(named(inbox)), 40)


def not_deleted(room: Room) -> Iterator[Outcome]:
    inbox = inbox_in(room, "missing", full=1)
    inbox.send("1.xml", feed_of(1, books(1, 2)))
    inbox.take("3.xml", feed_of(3, books(2)))
    inbox.take("2.xml", feed_of(2, books(1, 2, 3)))
    yield Outcome("a number is missing below", named(inbox), ["B1", "B2", "B3"])
    inbox = inbox_in(room, "left out", number=NEXT, full=1)
    said = "onixdesk: Product left out: no RecordReference: 1\n"
    inbox.take("a.xml", feed_of(None, books(1, 2)))
    told = []
    for name in ("b", "c", "d"):
        inbox.send(f"{name}.xml", feed_of(None, books(2), sent=name, said=said))
        told += [line for line in inbox.run() if "in a row" in line]
    yield Outcome("a product was left out", named(inbox), ["B1", "B2"])
    yield Outcome("told", told, ["3 full files in a row deleted nothing: the converter left a product out"])
    found = "1 article not named since number 4\n  B1\n" in inbox.says(report.report)
    yield Outcome("what the last one did not name", found, True)


def of_a_resend(room: Room) -> Iterator[Outcome]:
    inbox = inbox_in(room, "resend", full=1)
    inbox.take("1.xml", feed_of(1, books(1, 2)))
    inbox.take("2.xml", feed_of(2, books(2)))
    inbox.take("2-again.xml", feed_of(2, books(2), sent="again"))
    yield Outcome("had", (inbox.states()["2-again.xml"], named(inbox)), ("had", ["B2"]))
    for days, wanted in (6, "1 article deleted in seven days"), (2, "0 articles deleted in seven days"):
        inbox.clock += days * 86_400
        yield Outcome(wanted, f"\n{wanted}\n" in inbox.says(report.report), True)


def a_load_in_files(room: Room) -> Iterator[Outcome]:
    """A file of a load does not replace another one of it that waits for a person."""
    inbox = inbox_in(room, "load", number=NEXT, full=5)
    for price in ("1.00", "3.00"):
        for part in "abc":
            products = {f"{part}{number}": price if part == "a" or price == "1.00" else "1.10" for number in range(12)}
            inbox.send(f"{part}-{price}.xml", feed_of(None, products))
        inbox.run()
    yield Outcome("it waits", [*inbox.states().values()], [*["applied"] * 3, "quarantined", "new", "new"])
    inbox.decide("let-in", "quarantined")
    inbox.run()
    yield Outcome("let in", {*inbox.states().values()}, {"applied"})
