"""Files whose sender and addressee belong to another series, or to none, until the agreement is corrected."""

from collections.abc import Iterator
from contextlib import suppress
from dataclasses import replace
from itertools import product
from typing import Any

from onixdesk_shop.inbox import decide, report
from onixdesk_shop.settings import NEXT
from tests.program.inbox.files import inbox_in, price_of
from tests.program.room import Room
from tests.running import Outcome
from tests.shop.fake_desk import FakeDesk, Series
from tests.shop.fake_machine import FakeMachine, Killed
from tests.shop.fake_program import SENDER, feed_of, message_of, product_of
from tests.shop.inboxes import SHOP, START

ADDRESSEE = "06", "5012345678900"


def mistyped(room: Room) -> Iterator[Outcome]:
    """Files refused for want of an agreement are taken once that is corrected, under their numbers."""
    for number, parts in ("own", 1), (NEXT, 1), ("own", 2), (NEXT, 2):
        inbox = inbox_in(room, f"{number}{parts}", number=number, words=("--parts", str(parts)))
        inbox.series.parties = (*SENDER, *ADDRESSEE)
        inbox.send("1.xml", feed_of(1, {"R1": "1.00", "R2": "1.00"}))
        said = {line.rpartition("refused: ")[2] for line in inbox.run()}
        wanted = {"no series of its sender and addressee is agreed; 1.xml"}
        name = f"{number}, {parts}"
        yield Outcome(f"{name}: no agreement", (said, inbox.shown()["refused"], inbox.run()), (wanted, 1, []))
        line = f"the desk has another agreement than Agree,north,{','.join(SENDER)},,,1\n"
        yield Outcome(f"{name}: the report", line in inbox.says(report.report), True)
        inbox.series.parties = (*SENDER, "", "")
        inbox.run()
        found = inbox.states(), price_of(inbox, "R1"), price_of(inbox, "R2")
        yield Outcome(f"{name}: corrected", found, ({"1.xml": "applied"}, "1.000", "1.000"))
        inbox.take("2.xml", feed_of(2, {"R1": "2.00"}))
        found = sorted(inbox.series.had), price_of(inbox, "R1"), inbox.run()
        yield Outcome(f"{name}: the next one", found, ([*range(1, 2 * parts + 1)], "2.000", []))


# The report on an agreement, desk.json or terms that differ from the settings.
ALIKE: dict[str, Any] = {"first": 1, "page": {"name": "north", "parts": 2}, "net": "02"}
OTHERWISE: dict[str, dict[str, Any]] = {
    "": {},
    "no feed of 2 parts begins with the agreed first number, 2": {"first": 2},
    "desk.json: name is none, not north": {"page": {"name": "south", "parts": 2}},
    "desk.json: parts is 1, not 2": {"page": {"name": "north"}},
    "desk.json: number_offset is 3, not 0": {"page": {"name": "north", "parts": 2, "number_offset": 3}},
    "desk.json: price_type is 02, not 05 as in TERMS": {"net": "05"},
    "desk.json: price_type is 02, not 06 as in TERMS": {"net": '06" wrong'},
}


def otherwise(room: Room) -> Iterator[Outcome]:
    inbox = inbox_in(room, "otherwise", words=("--parts", "2"))
    inbox.take("1.xml", feed_of(1, {"R1": "1.00"}))
    for wanted, given in OTHERWISE.items():
        given = ALIKE | given
        inbox.series.first = given["first"]
        inbox.shop = replace(SHOP, given={"series": [given["page"]]})
        inbox.terms = f'term = [{{ net = "{given["net"]}" }}]'.encode()
        found = [*inbox.work(lambda each: [*report.not_alike(each, each.gaps())])]
        yield Outcome(wanted or "nothing", wanted in found if wanted else not found, True)


def without_one(room: Room) -> Iterator[Outcome]:
    """The agreement to be made has the addressee of the first file."""
    inbox = inbox_in(room, "new")
    inbox.desk = FakeDesk()
    yield Outcome("nothing waits", inbox.run(), [])
    ours, theirs = ",".join([*SENDER, "", ""]), ",".join([*SENDER, *ADDRESSEE])
    (line,) = inbox.take("1.csv", message_of(1, [product_of("R1", "1.00", None)]).replace(ours, theirs))
    yield Outcome("its line", (line.partition(";")[0], inbox.run()), (f"Agree,north,{theirs},1", []))


def of_others(room: Room) -> Iterator[Outcome]:
    """A file that waits for an agreement keeps its number, whatever comes meanwhile."""
    for number, wanted in ("own", ([1, 2], "2.000")), (NEXT, ([1, 2, 3], "3.000")):
        inbox = inbox_in(room, f"others {number}", number=number)
        for place in (1, 2):
            inbox.take(f"{place}.xml", feed_of(place, {"R1": f"{place}.00", f"S{place}": "1.00"}))
        inbox.take("cut.xml", b"<cut")
        inbox.begin_desk(ADDRESSEE)
        inbox.run()
        found = inbox.series.had, inbox.shown()["refused"], inbox.run()
        yield Outcome(f"{number}: over a restored desk, once", found, ({}, 3, []))
        inbox.take("other.xml", feed_of(2, {"R1": "3.00"}))
        inbox.series.parties = (*SENDER, "", "")
        inbox.run()
        yield Outcome(f"{number}: numbers and price", (sorted(inbox.series.had), price_of(inbox, "R1")), wanted)
        has_all = {"R1", "S1", "S2"} <= set(inbox.series.catalogue())
        yield Outcome(f"{number}: nothing is lost", has_all, True)


def corrected(room: Room) -> Iterator[Outcome]:
    """A wholesaler's message to another addressee leaves its number to the corrected one, which is in the ledger."""
    inbox = inbox_in(room, "corrected")
    ours, theirs = ",".join([*SENDER, "", ""]), ",".join([*SENDER, *ADDRESSEE])
    inbox.take("1.csv", message_of(1, [product_of("R1", "1.00", None)]).replace(ours, theirs))
    inbox.take("2.csv", message_of(1, [product_of("R1", "2.00", None)]))
    yield Outcome("its state", inbox.states(), {"1.csv": "refused", "2.csv": "applied"})
    inbox.begin_desk()
    inbox.run()
    yield Outcome("over a restored desk", price_of(inbox, "R1"), "2.000")


def refused_half(room: Room) -> Iterator[Outcome]:
    """A file that waited for an agreement keeps no number once a person refused it, not even a waived one."""
    inbox = inbox_in(room, "half", words=("--parts", "2"))
    inbox.work(lambda each: decide.waive(each, [1]))
    inbox.series.parties = (*SENDER, *ADDRESSEE)
    inbox.take("1.xml", feed_of(1, {"R1": "1.00", "R2": "1.00"}))
    inbox.decide("refuse", "1.xml")
    inbox.series.parties = (*SENDER, "", "")
    inbox.take("other.xml", feed_of(1, {"R1": "2.00", "R2": "2.00"}))
    found = inbox.states(), price_of(inbox, "R2")
    yield Outcome("the other part of the next file", found, ({"1.xml": "rejected", "other.xml": "refused"}, "2.000"))


def older(room: Room) -> Iterator[Outcome]:
    """What a desk took before, and this one does not take yet, keeps its place in the order."""
    inbox = inbox_in(room, "older", number=NEXT)
    inbox.take("1.xml", feed_of(None, {"R1": "1.00"}))
    inbox.begin_desk(ADDRESSEE)
    inbox.take("old.xml", feed_of(None, {"R1": "2.00"}), START - 100)
    yield Outcome("a late file", inbox.states(), {"1.xml": "refused", "old.xml": "quarantined"})


def compared(room: Room) -> Iterator[Outcome]:
    """What came before its series was agreed, even twice, is compared with what came before it, once the series is
    agreed."""
    for number, again in product(("own", NEXT), range(4)):
        inbox = inbox_in(room, f"compared {number} {again}", number=number)
        inbox.series.parties = (*SENDER, *ADDRESSEE)
        for place, price in enumerate(("4.50", "1000.00", "5.00"), 1):
            inbox.take(f"{place}.xml", feed_of(place, {f"R{each}": price for each in range(12)}), START + place)
        for file in inbox.files()[:again]:
            inbox.send(file.name, inbox.stored(file), file.time / 1e9)
        inbox.series.parties = (*SENDER, "", "")
        inbox.run()
        wanted = {"1.xml": "applied", "2.xml": "quarantined", "3.xml": "new"}
        yield Outcome(f"{number}, {again}: in its turn", (inbox.states(), price_of(inbox, "R1")), (wanted, "4.500"))
        inbox.decide("let-in", "quarantined")
        inbox.run()
        found = price_of(inbox, "R1"), inbox.states()["3.xml"], [*inbox.series.had]
        yield Outcome(f"{number}, {again}: let in", found, ("1000.000", "quarantined", [1, 2]))


def numbered_anew(room: Room) -> Iterator[Outcome]:
    """A file that got another number, once its series was agreed, is posted again under that alone."""
    inbox = inbox_in(room, "anew", number=NEXT)
    inbox.series.parties = (*SENDER, *ADDRESSEE)
    for place, price in (1, "4.50"), (2, "1000.00"), (3, "4.60"):
        inbox.take(f"{place}.xml", feed_of(place, {f"R{each}": price for each in range(12)}))
    inbox.series.parties = (*SENDER, "", "")
    inbox.run()
    inbox.decide("refuse", "quarantined")
    inbox.run()
    yield Outcome("the next number", ([*inbox.series.had], price_of(inbox, "R1")), ([1, 2], "4.600"))
    for addressee in ADDRESSEE, ("", ""):
        inbox.begin_desk(addressee)
        inbox.run()
    yield Outcome("posted again", ([*inbox.series.had], price_of(inbox, "R1")), ([1, 2], "4.600"))


def given_up(room: Room) -> Iterator[Outcome]:
    """A number that no desk took is free once a person refused its file: none below it is left out, even if its file
    came twice before the others were judged anew."""
    inbox = inbox_in(room, "given up", number=NEXT)
    inbox.series.parties = (*SENDER, *ADDRESSEE)
    for name in "1.xml", "2.xml":
        inbox.take(name, feed_of(None, {"R1": f"{name[0]}.00"}))
    inbox.send("2.xml", feed_of(None, {"R1": "2.00"}))
    inbox.terms = b"50"
    inbox.run()
    inbox.decide("refuse", "2.xml")
    inbox.series.parties = (*SENDER, "", "")
    inbox.run()
    yield Outcome("nothing is left out", (inbox.series.next, price_of(inbox, "R1")), (2, "1.000"))


def tried_again(room: Room) -> Iterator[Outcome]:
    """What the desk took when it was tried again is final, even if the run dies then; and a number below a wrong first
    one is tried again, too."""
    inbox = inbox_in(room, "killed", number=NEXT)
    parties, other = inbox.series.parties, (*SENDER, *ADDRESSEE)
    inbox.series.parties = other
    inbox.take("1.xml", feed_of(1, {"R1": "1.00"}))
    inbox.series.parties = parties
    with suppress(Killed):
        inbox.run(FakeMachine(inbox.disk, inbox.desk, inbox.clock, ("kill", "answered", 2)))
    yield Outcome("the desk took it", [*inbox.series.had], [1])
    inbox.terms = b"50"
    for inbox.series.parties in other, parties:
        inbox.run()
    yield Outcome("it is final", inbox.states(), {"1.xml": "applied"})
    inbox = inbox_in(room, "first", words=("--parts", "2"))
    inbox.series.parties = other
    inbox.take("1.xml", feed_of(1, {"R1": "1.00", "R2": "2.00"}))
    inbox.series.parties = parties
    for inbox.series.first in 2, 1:
        inbox.run()
    yield Outcome("both halves", (inbox.states(), price_of(inbox, "R1")), ({"1.xml": "applied"}, "1.000"))
    inbox = inbox_in(room, "answer")
    inbox.send("2.xml", feed_of(2, {"R1": "1.00"}))
    with suppress(Killed):
        inbox.run(FakeMachine(inbox.disk, inbox.desk, inbox.clock, ("kill", "answered", 3)))
    yield Outcome("the desk took this, too", [*inbox.series.had], [2])
    for inbox.series.first in 3, 1:
        inbox.run()
    yield Outcome("its answer was lost", inbox.states(), {"2.xml": "held"})


def of_another_series(room: Room) -> Iterator[Outcome]:
    """A file that goes into another series is refused here, and posted once."""
    for number in ("own", NEXT):
        inbox = inbox_in(room, number, number=number)
        assert inbox.desk
        inbox.desk.series["other"] = Series((*SENDER, "", ""), 1)
        inbox.series.parties = (*SENDER, *ADDRESSEE)
        inbox.send("1.xml", feed_of(1, {"R1": "1.00"}))
        said = [line.rpartition("refused: ")[2] for line in inbox.run()]
        wanted = ["it went into the series other, which has its sender and addressee; 1.xml"]
        yield Outcome(f"{number}: refused", said, wanted)
        yield Outcome(f"{number}: once", (inbox.run(), inbox.states()), ([], {"1.xml": "refused"}))
