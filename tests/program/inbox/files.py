"""What becomes of files: the order in which they are judged, their numbers, and what people read about them."""

import contextlib
import os
from collections.abc import Iterator
from dataclasses import replace
from typing import Any
from unittest.mock import patch

from onixdesk_shop.faults import BadEnd
from onixdesk_shop.inbox import decide, keeping, report, show
from onixdesk_shop.inbox.command_line import numbers_word
from onixdesk_shop.inbox.context import DAY
from onixdesk_shop.settings import NEXT
from tests.program.room import Room
from tests.running import Outcome
from tests.shop.fake_desk import WAIVED
from tests.shop.fake_program import SENDER, feed_of, isbn_of, message_of, product_of
from tests.shop.fake_machine import FakeMachine, Killed
from tests.shop.inboxes import SERIES, START, FakeInbox


def inbox_in(room: Room, name: str, **settings: Any) -> FakeInbox:
    folder = room.path(name)
    folder.mkdir()
    return FakeInbox(folder, **settings)


def price_of(inbox: FakeInbox, reference: str) -> str:
    assert inbox.desk
    return "".join(amount for *_, amount in inbox.desk.offers(isbn_of(reference)))


def order(room: Room) -> Iterator[Outcome]:
    """Files are judged in the order of their server's times, whatever they are named."""
    inbox = inbox_in(room, "names", number=NEXT)
    inbox.send("delta-10.xml", feed_of(None, {"R1": "10.00"}), START - 100)
    inbox.take("delta-9.xml", feed_of(None, {"R1": "9.00"}), START - 200)
    yield Outcome("by their times", price_of(inbox, "R1"), "10.000")
    inbox.take("late.xml", feed_of(None, {"R1": "8.00"}), START - 300)
    found = inbox.states()["late.xml"], price_of(inbox, "R1")
    yield Outcome("older than the last one", found, ("quarantined", "10.000"))
    inbox.decide("refuse", "quarantined")
    lines = inbox.take("twice.xml", feed_of(None, {"R1": "10.00"}))
    found = len(inbox.series.had), [line.partition(":")[0] for line in lines]
    yield Outcome("the same bytes", found, (2, ["had it already"]))


def lost_answer(room: Room) -> Iterator[Outcome]:
    """A message whose answer was lost, and which a desk without the agreement refused, keeps its number."""
    inbox = inbox_in(room, "lost answer", number=NEXT, words=("--parts", "2"))
    assert inbox.desk
    empty = inbox.desk.copy()
    inbox.take("a.xml", feed_of(None, {"R1": "1.00"}, parts=2))
    inbox.send("b.xml", feed_of(None, {"R1": "2.00"}, parts=2))
    with contextlib.suppress(Killed):
        inbox.run(FakeMachine(inbox.disk, inbox.desk, inbox.clock, ("kill", "answered", 5)))
    inbox.desk, had = empty, inbox.desk
    inbox.series.parties = "06", "5012345678900", "", ""
    inbox.run()
    inbox.desk = had
    inbox.run()
    yield Outcome("its file has no other numbers", sorted(inbox.series.had), [1, 2, 3, 4])


def clock_ahead(room: Room) -> Iterator[Outcome]:
    """A file that came while the clock was ahead is taken once the clock is right."""
    inbox = inbox_in(room, "ahead", number=NEXT)
    inbox.take("1.xml", feed_of(None, {"R1": "1.00"}), START + 30 * DAY)
    inbox.take("2.xml", feed_of(None, {"R1": "2.00"}))
    yield Outcome("it is taken, and a later one", inbox.states(), {"1.xml": "applied", "2.xml": "applied"})
    inbox.settings = replace(inbox.settings, unchanged_seconds=60)
    lines = inbox.take("3.xml", feed_of(None, {"R1": "3.00"}), inbox.clock + 210)
    inbox.clock += 160
    yield Outcome("a server's clock is ahead", (lines, len(inbox.run()), len(inbox.states())), ([], 1, 3))


def order_without_ledger(room: Room) -> Iterator[Outcome]:
    """A file in the store keeps its time, even if its row is lost and it comes again."""
    inbox = inbox_in(room, "lost")
    inbox.desk, desk = None, inbox.desk
    inbox.take("a.xml", feed_of(1, {"R1": "1.00"}))
    inbox.ledger.unlink()
    for amount in "2.00", "1.00":
        inbox.send(f"{amount}.xml", feed_of(1, {"R1": amount}))
    inbox.desk = desk
    inbox.run()
    yield Outcome("the first one", price_of(inbox, "R1"), "1.000")


def order_of_one_number(room: Room) -> Iterator[Outcome]:
    """Of the files of one number the first gets it once it is free, even if that one comes again after the others."""
    inbox = inbox_in(room, "one")
    for amount in "1.00", "2.00", "3.00":
        inbox.take(f"{amount}.xml", feed_of(1, {"R1": amount}))
    inbox.decide("refuse", "applied")
    inbox.series.had.clear()
    inbox.take("again.xml", feed_of(1, {"R1": "2.00"}))
    yield Outcome("the first one", price_of(inbox, "R1"), "2.000")


def numbers(room: Room) -> Iterator[Outcome]:
    """Which number a file gets if the inbox gives it."""
    inbox = inbox_in(room, "others", number=NEXT, words=("--parts", "2"))
    inbox.series.had[1] = inbox.series.had[2] = inbox.series.had[3] = ()
    inbox.take("a.xml", feed_of(None, {"R1": "1.00"}))
    yield Outcome("behind all that the desk has, a whole group", sorted(inbox.series.had), [1, 2, 3, 5, 6])
    inbox = inbox_in(room, "first", number=NEXT)
    inbox.series.first = 500
    inbox.take("a.xml", feed_of(None, {"R1": "1.00"}))
    yield Outcome("the first", sorted(inbox.series.had), [500])
    inbox.take("b.xml", feed_of(None, {"R1": "2.00"}))
    inbox.begin_desk(first=500)
    inbox.take("c.xml", feed_of(None, {"R1": "3.00"}))
    yield Outcome("a desk of before", (sorted(inbox.series.had), price_of(inbox, "R1")), ([500, 501, 502], "3.000"))
    inbox.decide("refuse", "c.xml")
    inbox.run()
    yield Outcome("refused, it stays at the desk", price_of(inbox, "R1"), "3.000")
    inbox.begin_desk(first=500)
    inbox.run()
    found = inbox.series.had[502], price_of(inbox, "R1")
    yield Outcome("and is waived once the desk lacks it", found, (WAIVED, "2.000"))
    inbox.decide("again", "a.xml")
    inbox.run()
    yield Outcome("taken again", (sorted(inbox.series.had), price_of(inbox, "R1")), ([500, 501, 502, 503], "1.000"))


def texts(room: Room) -> Iterator[Outcome]:
    """A number that comes again is converted like its first file."""
    inbox = inbox_in(room, "terms")
    inbox.terms = b"50"
    inbox.take("a.xml", feed_of(1, {"R1": "1.00"}))
    inbox.terms = b"60"
    inbox.take("resent.xml", feed_of(1, {"R1": "1.00"}, sent="again"))
    yield Outcome("the same contents", inbox.states()["resent.xml"], "had")
    yield Outcome("an older table", inbox.shown()["older_terms"], 1)
    lines = inbox.take("other.xml", feed_of(1, {"R1": "2.00"}))
    yield Outcome("others", inbox.states()["other.xml"], "refused")
    why = "the desk has another message of number 1; a correction needs a number of its own; other.xml"
    yield Outcome("the line", lines[0].partition("refused: ")[2], why)
    inbox.desk = None
    wanted = ["files wait: no desk answers at /run/onixdesk/batches"]
    yield Outcome("no desk", (inbox.run(), inbox.run(), inbox.shown()["desk"]), (wanted, [], False))


def gone(room: Room) -> Iterator[Outcome]:
    """What is no longer kept, and what the desk has not agreed on."""
    inbox = inbox_in(room, "texts")
    inbox.take("a.xml", feed_of(1, {"R1": "1.00"}))
    inbox.clock += 121 * DAY
    inbox.run()
    kept = inbox.work(lambda each: each.ledger.value("SELECT min(number) FROM message WHERE text IS NOT NULL"))
    yield Outcome("a clock of later takes nothing away", (kept, len(os.listdir(inbox.store))), (1, 1))
    before = keeping.KEPT_FILES, keeping.KEPT_NUMBERS
    keeping.KEPT_FILES = keeping.KEPT_NUMBERS = 0
    inbox.take("b.xml", feed_of(2, {"R1": "2.00"}))
    kept = [file.name for file in inbox.files() if (inbox.store / f"{file.digest}.xml").exists()]
    keeping.KEPT_FILES, keeping.KEPT_NUMBERS = before
    yield Outcome("bytes are kept for 120 days", kept, ["b.xml"])
    inbox.series.had.clear()
    lines = inbox.take("c.xml", feed_of(3, {"R1": "3.00"}))
    yield Outcome("nothing is posted", (inbox.series.had, inbox.states()["c.xml"]), ({}, "new"))
    (line,) = [line for line in lines if "number 1" in line]
    command, _, why = line.partition("; ")
    yield Outcome("the line", why, "the desk lacks number 1, whose texts are not kept any more")
    word = command.removeprefix("onixdesk-inbox waive north ").partition(" ")[0]
    inbox.work(lambda each: decide.waive(each, numbers_word(word)))
    inbox.run()
    yield Outcome("the command waives it", ([*inbox.series.had], inbox.states()["c.xml"]), ([1, 2, 3], "applied"))
    inbox.series.had.clear()
    assert inbox.desk
    inbox.desk.series.clear()
    lines = inbox.run()
    yield Outcome("the agreement", lines[0].partition(";")[0], f"Agree,{SERIES},06,{SENDER[1]},,,1")


def gone_with_the_machine(room: Room) -> Iterator[Outcome]:
    """A ledger on a new machine, without its files: what was refused is not judged anew, and nothing waits for it."""
    inbox = inbox_in(room, "moved")
    for name, data in {
        "1.xml": feed_of(1, {"R1": "1.00"}),
        "1-other.csv": message_of(1, [product_of("R1", "2.00", None)]).encode(),
        "1-other.xml": feed_of(1, {"R1": "3.00"}),
    }.items():
        inbox.take(name, data)
    for path in inbox.store.iterdir():
        path.unlink()
    inbox.settings = replace(inbox.settings, silent_days=5)
    lines = inbox.take("2.xml", feed_of(2, {"R1": "2.00"}))
    wanted = {"1.xml": "applied", "1-other.csv": "refused", "1-other.xml": "refused", "2.xml": "applied"}
    yield Outcome("the states", inbox.states(), wanted)
    yield Outcome("the lines", sum("its bytes are not kept any more" in line for line in lines), 2)
    inbox = inbox_in(room, "not agreed")
    parties, inbox.series.parties = inbox.series.parties, ("06", "5012345678900", "", "")
    inbox.take("1.xml", feed_of(1, {"R1": "1.00"}))
    next(inbox.store.iterdir()).unlink()
    inbox.settings = replace(inbox.settings, silent_days=5)
    inbox.take("1-other.xml", feed_of(1, {"R1": "2.00"}))
    inbox.series.parties = parties
    inbox.run()
    yield Outcome("its number is free", inbox.states(), {"1.xml": "refused", "1-other.xml": "applied"})


def renewed(room: Room) -> Iterator[Outcome]:
    """A desk that begins later, with all that came before: nothing below is posted, and a repeat is known."""
    inbox = inbox_in(room, "renewed")
    for number in (1, 2, 3):
        inbox.send(f"{number}.xml", feed_of(number, {"R1": f"{number}.00"}))
    inbox.run()
    inbox.series.first = 3
    del inbox.series.had[1], inbox.series.had[2]
    inbox.send("1-again.xml", feed_of(1, {"R1": "1.00"}))
    inbox.send("2-resent.xml", feed_of(2, {"R1": "2.00"}, sent="again"))
    inbox.send("2-other.xml", feed_of(2, {"R1": "9.00"}))
    inbox.take("0.xml", feed_of(4, {"R1": "4.00"}))
    states = inbox.states()
    found = states["1-again.xml"], states["2-resent.xml"]
    yield Outcome("the same bytes, the same contents", found, ("applied", "had"))
    yield Outcome("others", (states["2-other.xml"], states["0.xml"]), ("refused", "applied"))
    yield Outcome("nothing below is posted", sorted(inbox.series.had), [3, 4])


def asked(room: Room) -> Iterator[Outcome]:
    """What the ledger shows. After an update without supplies a price is still that of the message before it."""
    inbox = inbox_in(room, "asked")
    inbox.send("a.xml", feed_of(1, {"R1": "1.00"}))
    inbox.send("b.xml", feed_of(2, {"R2": "1.00"}))
    inbox.take("c.csv", message_of(3, [[["Product", "R1", "04", "15", isbn_of("R1")]]]))
    for wanted, words in {
        "1: applied": (1, None, None),
        "1: Price,02,1.00,GBP": (None, isbn_of("R1"), None),
        "a.xml": (None, None, "a.xml"),
    }.items():
        said = inbox.says(lambda each: show.show(each, *words))
        yield Outcome(wanted, wanted in said and "b.xml" not in said, True)
    yield Outcome("report", "next: 4" in inbox.says(report.report), True)
    room.path("fetch").mkdir()
    for value in ("no", "yes", '"yes"'):
        room.write("fetch/north.env", f"FROM=north:\nUNVERIFIED={value}\n".encode())
        with patch.object(report, "FETCH_SETTINGS", room.path("fetch")):
            is_said = "anybody on the way to that server can change a feed" in inbox.says(report.report)
        yield Outcome(f"report: a server that nobody verifies: {value}", is_said, value != "no")


def begins_again(room: Room) -> Iterator[Outcome]:
    """A newer file of number 1, with other contents, is refused with the setting that accepts it."""
    inbox = inbox_in(room, "again")
    for number in (1, 2, 3):
        inbox.take(f"{number}.xml", feed_of(number, {"R1": f"{number}.00"}))
    (line,) = inbox.take("new.xml", feed_of(1, {"R1": "9.00"}))
    yield Outcome("the setting", line.partition(";")[0], "if it begins again at 1: WORDS=--number-offset 3")
    inbox.send("2.xml", feed_of(2, {"R1": "9.00"}))
    yield Outcome("another one that was had", "begins again" in "".join(inbox.run()), False)
    inbox.settings = replace(inbox.settings, words=("--number-offset", "3"))
    inbox.run()
    yield Outcome("it is number 4", price_of(inbox, "R1"), "9.000")
    inbox.send("newer.xml", feed_of(1, {"R1": "8.00"}))
    line = next(line for line in inbox.run() if line.endswith("newer.xml"))
    yield Outcome("once more", line.partition(";")[0], "if it begins again at 1: WORDS=--number-offset 5")
    inbox = inbox_in(room, "waived")
    inbox.take("2.xml", feed_of(2, {"R1": "2.00"}))
    inbox.work(lambda each: decide.waive(each, [1]))
    inbox.run()
    (line,) = inbox.take("new.xml", feed_of(1, {"R1": "9.00"}))
    yield Outcome("its number is waived", line.partition(";")[0], "if it begins again at 1: WORDS=--number-offset 2")


def said_of_products(room: Room) -> Iterator[Outcome]:
    """Offers of several suppliers, and an update of a record that the desk lacks, are a warning."""
    inbox = inbox_in(room, "said")
    records = message_of(1, [product_of("R1", "1.00", None) + [["SupplyDetail", "04", "", "", "South", "21", ""]]])
    lines = inbox.take("two.csv", records)
    yield Outcome("several suppliers", lines[0].partition(":")[0], "2 suppliers")
    lines = inbox.take("gone.csv", message_of(2, [product_of("R2", "-", None)]))
    yield Outcome("what is not there", lines[0].partition(":")[0], "1 change of records that the desk lacks")


def returned(room: Room) -> Iterator[Outcome]:
    """The next file gets a number that the desk gave back, over a restored desk too; the first gets another one."""
    inbox = inbox_in(room, "returned", number=NEXT)
    assert inbox.desk
    with patch.object(inbox.desk, "deliver", lambda _: ["refused", "malformed", "1"]):
        inbox.take("a.xml", feed_of(None, {"R1": "1.00"}))
    yield Outcome("refused by the desk", (inbox.states()["a.xml"], inbox.series.had), ("refused", {}))
    before = inbox.desk.copy()
    for name, amount in ("b.xml", "2.00"), ("c.xml", "3.00"):
        inbox.take(name, feed_of(None, {"R1": amount}))
    texts, inbox.desk = inbox.series.had, before
    inbox.take("a.xml", feed_of(None, {"R1": "1.00"}))
    yield Outcome("each number has its text", [inbox.series.had[number] for number in texts], [*texts.values()])
    yield Outcome("put there again", (sorted(inbox.series.had), price_of(inbox, "R1")), ([1, 2, 3], "1.000"))
    inbox = inbox_in(room, "half", number=NEXT, words=("--parts", "2"))
    assert inbox.desk
    deliver, before = inbox.desk.deliver, inbox.desk.copy()
    refused = ["refused", "malformed", "1"]
    with patch.object(inbox.desk, "deliver", lambda message: deliver(message) if message[0][6] == "1" else refused):
        inbox.take("a.xml", feed_of(None, {"R1": "1.00"}))
    texts, inbox.desk = inbox.series.had, before
    inbox.settings = replace(inbox.settings, words=())
    inbox.take("b.xml", feed_of(None, {"R1": "2.00"}))
    yield Outcome("a number that the desk took is not given back", inbox.series.had[1], texts[1])
    yield Outcome("nor is that of its other half", sorted(inbox.series.had), [1, 3])
    inbox.decide("refuse", "a.xml")
    inbox.run()
    yield Outcome("and the other half is waived once a person refused the file", inbox.series.had.get(2), WAIVED)


def refused(room: Room) -> Iterator[Outcome]:
    """What a person refused is not posted again, even once the missing number is there."""
    inbox = inbox_in(room, "refused")
    inbox.take("2.xml", feed_of(2, {"R1": "1.00"}))
    inbox.decide("refuse", "2.xml")
    inbox.send("1.xml", feed_of(1, {"R2": "1.00"}))
    machine = inbox.machine()
    inbox.run(machine)
    yield Outcome("the other one alone", sum(text.startswith(b"Message") for text in machine.posted), 1)
    inbox = inbox_in(room, "unanswered")
    inbox.send("1.xml", feed_of(1, {"R1": "1.00"}))
    machine = FakeMachine(inbox.disk, inbox.desk, inbox.clock, ("kill", "answered", 3))
    with contextlib.suppress(Killed):
        inbox.run(machine)
    inbox.decide("refuse", "1.xml")
    inbox.take("1-other.xml", feed_of(1, {"R1": "2.00"}))
    state = inbox.work(lambda each: each.ledger.value("SELECT state FROM message WHERE number = 1"))
    wanted = {"1.xml": "rejected", "1-other.xml": "refused"}
    yield Outcome("a text without an answer", (inbox.states(), state), (wanted, "posted"))
    inbox = inbox_in(room, "parts", words=("--parts", "5"))
    inbox.take("far.xml", feed_of(1000, {"R1": "1.00"}))
    said = inbox.decide("refuse", "far.xml")
    yield Outcome("all numbers of its parts", "waive north 4996-5000; " in said, True)


def halves(room: Room) -> Iterator[Outcome]:
    """A feed of which the desk has half keeps its number; another one gets all of it, once a person refused the first
    and it is taken out."""
    inbox = inbox_in(room, "halves", words=("--parts", "2"))
    assert inbox.desk
    deliver, refused = inbox.desk.deliver, ["refused", "malformed", "1"]
    with patch.object(inbox.desk, "deliver", lambda message: deliver(message) if message[0][6] == "1" else refused):
        inbox.take("a.xml", feed_of(1, {"R1": "1.00", "R2": "1.00"}))
    inbox.take("other.xml", feed_of(1, {"R1": "1.00", "R2": "2.00"}))
    wanted = {"a.xml": "refused", "other.xml": "refused"}
    yield Outcome("half of the first", (inbox.states(), [*inbox.series.had]), (wanted, [1]))
    inbox.decide("refuse", "a.xml")
    inbox.series.had.clear()
    inbox.run()
    found = inbox.states()["other.xml"], price_of(inbox, "R1"), price_of(inbox, "R2")
    yield Outcome("all of the next", found, ("applied", "1.000", "2.000"))


def waived(room: Room) -> Iterator[Outcome]:
    """A waived number is waived again at a restored desk, before a file that came to it meanwhile."""
    inbox = inbox_in(room, "waived")
    assert inbox.desk
    before, begun = inbox.desk.copy(), inbox.desk.copy()
    inbox.work(lambda each: decide.waive(each, [1]))
    inbox.run()
    inbox.send("1.xml", feed_of(1, {"R1": "1.00"}))
    machine = FakeMachine(inbox.disk, inbox.desk, inbox.clock, ("kill", "answered", 4))
    try:
        inbox.run(machine)
    except Killed:
        inbox.desk = before
    states = inbox.work(lambda each: [row.state for row in each.ledger.messages_of(each.ledger.files("1")[0])])
    yield Outcome("killed amid its post", states, ["posted"])
    inbox.run()
    yield Outcome("waived again", (inbox.series.had[1], inbox.states()), (WAIVED, {"1.xml": "refused"}))
    inbox.take("other.xml", feed_of(1, {"R1": "2.00"}))
    inbox.decide("refuse", "other.xml")
    inbox.work(lambda each: decide.take_back(each, [1]))
    inbox.desk = begun
    inbox.run()
    yield Outcome("a number that nobody has any more", inbox.states(), {"1.xml": "applied", "other.xml": "rejected"})
    inbox.series.parties = (*inbox.series.parties[:2], "06", "5012345678900")
    inbox.run()
    yield Outcome("under another agreement", inbox.states()["1.xml"], "applied")


def waived_half(room: Room) -> Iterator[Outcome]:
    """A part of a feed that came to a waived number is posted again at a desk that no longer has that waiver."""
    inbox = inbox_in(room, "waived half", words=("--parts", "2"))
    assert inbox.desk
    before = inbox.desk.copy()
    inbox.work(lambda each: decide.waive(each, [2]))
    inbox.run()
    inbox.take("1.xml", feed_of(1, {"R1": "1.00", "R2": "2.00"}))
    yield Outcome("its other part alone", (inbox.states(), price_of(inbox, "R2")), ({"1.xml": "refused"}, ""))
    inbox.work(lambda each: decide.take_back(each, [2]))
    yield Outcome("taken back again", inbox.work(lambda each: decide.take_back(each, [2])), 0)
    inbox.desk = before
    inbox.run()
    yield Outcome("both", (inbox.states(), price_of(inbox, "R2")), ({"1.xml": "applied"}, "2.000"))


def waived_before(room: Room) -> Iterator[Outcome]:
    """An older desk has a waiver again that was taken back: that is reported, and what came since is posted unchanged
    once the desk lacks it."""
    for number, state in (1, "applied"), (2, "held"):
        inbox = inbox_in(room, f"waived before {state}")
        assert inbox.desk
        before = inbox.desk.copy()
        inbox.work(lambda each: decide.waive(each, [number]))
        inbox.run()
        waived = inbox.desk
        inbox.work(lambda each: decide.take_back(each, [number]))
        inbox.desk = before.copy()
        inbox.take("a.xml", feed_of(number, {"R1": "1.00"}))
        had = inbox.series.had[number]
        yield Outcome(f"{state}: it came", (inbox.states(), inbox.run()), ({"a.xml": state}, []))
        inbox.desk = waived
        said = [line.rpartition("; ")[0].rpartition("; ")[2] for line in inbox.run()]
        articles = inbox.work(lambda each: each.ledger.articles())
        found = said, inbox.states(), inbox.shown()["refused"], articles, inbox.run()
        wanted: tuple[Any, ...] = [f"refused: number {number} was waived"], {"a.xml": "refused"}, 1, 0, []
        yield Outcome(f"{state}: waived again", found, wanted)
        inbox.desk, inbox.terms = before, b"50"
        inbox.run()
        yield Outcome(f"{state}: once more", (inbox.series.had[number], inbox.states()), (had, {"a.xml": state}))


def endings(room: Room) -> Iterator[Outcome]:
    """A file that came under a wrong ending is put there again under the right one."""
    inbox = inbox_in(room, "ending")
    inbox.take("a.csv", feed_of(1, {"R1": "1.00"}))
    inbox.take("a.xml", feed_of(1, {"R1": "1.00"}))
    yield Outcome("by its new ending", inbox.states(), {"a.xml": "applied"})
    yield Outcome("the old one is gone", len(os.listdir(inbox.store)), 1)


def left(room: Room) -> Iterator[Outcome]:
    """Files that stay in their folder are taken once, even two with the same bytes; after 60 days they are removed."""
    inbox = inbox_in(room, "left", leave=True)
    for name in ("full.xml", "full-20261130.xml"):
        inbox.send(name, feed_of(1, {"R1": "1.00"}))
    inbox.run()
    heard = inbox.shown()["heard_at"]
    inbox.clock += DAY
    yield Outcome("nothing more is said or heard", (inbox.run(), inbox.shown()["heard_at"]), ([], heard))
    inbox.clock += 61 * DAY
    inbox.run()
    yield Outcome("removed", os.listdir(inbox.incoming), [])


def lacking(room: Room) -> Iterator[Outcome]:
    """What the desk lacks and cannot have again counts as waiting on the page."""
    inbox = inbox_in(room, "lacking")
    inbox.take("1.xml", feed_of(1, {"R1": "1.00"}))
    yield Outcome("it has all", inbox.shown()["waiting"], 0)
    inbox.series.had.clear()
    inbox.work(lambda each: each.ledger.do("UPDATE message SET text = NULL"))
    inbox.run()
    yield Outcome("it lacks one whose text is gone", (inbox.shown()["waiting"], inbox.shown()["desk"]), (1, True))


def unforeseen(room: Room) -> Iterator[Outcome]:
    """An unexpected failure on a file stops the series with a line, never passes, and a person has it tried again."""
    for name, target, error in (
        ("mistake", "onixdesk_shop.inbox.quarantine.look_at", ValueError("no digit")),
        ("conversion", "tests.shop.fake_program.convert", BadEnd("onixdesk was killed by signal 9")),
    ):
        inbox = inbox_in(room, name)
        inbox.take("1.xml", feed_of(1, {"R1": "1.00"}))
        inbox.send("2.xml", feed_of(2, {"R1": "2.00"}))
        with patch(target, side_effect=error):
            lines = inbox.run()
        found = inbox.states()["2.xml"], len(lines), str(error) in lines[0]
        yield Outcome(name, found, ("quarantined", 1, True))
        inbox.decide("let-in", "2.xml")
        inbox.run()
        yield Outcome(f"{name}: let in", price_of(inbox, "R1"), "2.000")


def slow(room: Room) -> Iterator[Outcome]:
    """A conversion and its check have a minute, and half an hour once a person let the file in."""
    inbox = inbox_in(room, "slow")
    inbox.send("1.xml", feed_of(1, {"R1": "1.00"}))
    for takes, wanted in (31, "quarantined"), (901, "quarantined"), (890, "applied"):
        machine = inbox.machine()
        machine.program_seconds = takes
        (line,) = inbox.run(machine)
        is_told = "quarantined: it cannot be judged: onixdesk takes too long" in line
        yield Outcome(f"{takes} seconds", (inbox.states(), is_told), ({"1.xml": wanted}, wanted == "quarantined"))
        if is_told:
            inbox.decide("let-in", "1.xml")
