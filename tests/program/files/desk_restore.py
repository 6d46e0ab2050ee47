"""A restored copy: what is said before, what is made again, and what the inboxes post."""

import argparse
import os
import shutil
import sqlite3
from collections.abc import Iterator
from contextlib import closing, suppress
from dataclasses import replace
from functools import partial
from pathlib import Path
from typing import Any

from onixdesk_shop.ends import status_of
from onixdesk_shop.inbox import decide
from onixdesk_shop.restores.command_line import work as restore
from onixdesk_shop.settings import NEXT
from tests.program.room import Group, Room
from tests.running import Outcome
from tests.shop.desk_files import UNITS, Shop, ShopMachine, read, text_of
from tests.shop.fake_desk import WAIVED, FakeDesk
from tests.shop.fake_machine import Killed
from tests.shop.fake_program import SENDER, feed_of, isbn_of
from tests.shop.inboxes import SERIES

OPTIONS: dict[str, Any] = dict.fromkeys(("yes", "gaps", "before_correction", "text", "refuse"))
OPTIONS["said"] = "it was wrong"

# Every so many'th call of a restore is tried; ONIXDESK_STRIDE=1 tries all.
STRIDE = int(os.environ.get("ONIXDESK_STRIDE", "9"))


def shop_in(room: Room, name: str, **settings: object) -> Shop:
    folder = room.path(name)
    folder.mkdir()
    return Shop(folder, **settings)


def run(shop: Shop, copy: Path, machine: ShopMachine | None = None, **more: object) -> int:
    """The status of a restore; the shop has its lines and its output."""
    machine = machine or shop.machine()
    options = argparse.Namespace(**shop.options, **{**OPTIONS, **more}, copy=copy)
    try:
        return status_of(machine, lambda each: restore(each, options))
    finally:
        shop.lines = [line for _, line in machine.lines]
        shop.written = machine.written
        shop.inbox.clock = max(shop.inbox.clock, int(machine.clock) + 1)


def price(shop: Shop, reference: str = "R1") -> str:
    desk = shop.inbox.desk
    return "".join(amount for *_, amount in desk.offers(isbn_of(reference))) if desk else "no desk"


def four_days(shop: Shop) -> Path:
    """A feed, a copy, and three feeds after it."""
    shop.send(("1.xml", feed_of(1, {"R1": "10.00"})))
    copy = shop.take_copy("2026-11-27T02-30-12Z")
    shop.send(*((f"{day}.xml", feed_of(day, {"R1": f"1{day}.00"})) for day in (2, 3, 4)))
    return copy


def has(shop: Shop) -> list[int]:
    return sorted(shop.inbox.series.had) if shop.inbox.desk else []


def what_came_since(room: Room) -> Iterator[Outcome]:
    for number in ("own", NEXT):
        shop = shop_in(room, number, number=number)
        copy = four_days(shop)
        yield Outcome("the status", (number, run(shop, copy)), (number, 0))
        yield Outcome("all feeds again, under their numbers", (has(shop), price(shop)), ([1, 2, 3, 4], "14.000"))
        refusals = [line for line in shop.written.splitlines() if line.startswith("onixdesk-inbox --refuse ")]
        found = [line.rpartition("; ")[2] for line in refusals]
        yield Outcome("each with its refusal", found, ["2.xml", "3.xml", "4.xml"])
        yield Outcome("what runs again", shop.started, {*UNITS})
        kept = [path for path in shop.database.parent.iterdir() if path.name.startswith("shop.db.")]
        yield Outcome("those of before", [has_of(path) for path in kept if "-wal" not in path.name], [[1, 2, 3, 4]])
        shop.send(("5.xml", feed_of(5, {"R1": "15.00"})))
        yield Outcome("the next feed", (has(shop), price(shop)), ([1, 2, 3, 4, 5], "15.000"))


def has_of(path: Path) -> list[int]:
    return sorted(read(path).series[SERIES].had)


def refused_before(room: Room) -> Iterator[Outcome]:
    """A bad feed that the printed line refuses does not come back."""
    shop = shop_in(room, "refused", number=NEXT)
    copy = four_days(shop)
    wrong = shop.take_copy("2026-11-30T02-30-12Z")
    machine = shop.machine()
    machine.said = "no"
    yield Outcome("without a yes", (run(shop, copy, machine), has(shop), shop.units), (1, [1, 2, 3, 4], []))
    line = next(line for line in shop.written.splitlines() if line.endswith("; 4.xml"))
    mark = line.split()[2]
    machine.written = ""
    run(shop, copy, machine, refuse=[mark, SERIES])
    yield Outcome("what is refused after the yes", [f"; {day}.xml" in shop.written for day in (3, 4)], [True, False])
    shop.inbox.work(lambda inbox: decide.decide(inbox, "refuse", mark))
    yield Outcome("the others", (run(shop, copy), price(shop), shop.inbox.states()["4.xml"]), (0, "13.000", "rejected"))
    shop.inbox.run()
    yield Outcome("its number is waived", shop.inbox.series.had[4], WAIVED)
    lying = shop.copies / "elsewhere"
    shutil.copytree(wrong, lying)
    for one in wrong, lying:
        yield Outcome(f"a copy that has it, {one.name}", (run(shop, one), has(shop)), (1, [1, 2, 3, 4]))
    yield Outcome("one from before", (run(shop, copy), price(shop)), (0, "13.000"))


def output_that_breaks(room: Room) -> Iterator[Outcome]:
    shop = shop_in(room, "broken")
    copy = four_days(shop)
    shop.is_output_broken = True
    yield Outcome("nobody can read what comes", (run(shop, copy), has(shop), shop.units), (1, [1, 2, 3, 4], []))
    yield Outcome("--yes", (run(shop, copy, yes=True), has(shop), price(shop)), (0, [1, 2, 3, 4], "14.000"))


def desk_that_does_not_start(room: Room) -> Iterator[Outcome]:
    """Nothing is lost: the line starts the desk, and the inbox does the rest."""
    shop = shop_in(room, "start", number=NEXT)
    copy = four_days(shop)
    shop.failing = UNITS[0]
    yield Outcome("the status", run(shop, copy), 1)
    command = "systemctl start onixdesk.service; that does not run"
    yield Outcome("the command", [line for line in shop.lines if line.startswith("systemctl start")], [command])
    yield Outcome("what does run", shop.started, {*UNITS[1:]})
    shop.failing = ""
    shop.systemctl(["start", UNITS[0]])
    shop.send(("5.xml", feed_of(None, {"R1": "15.00"})))
    yield Outcome("then", (has(shop), price(shop)), ([1, 2, 3, 4, 5], "15.000"))


def inbox_that_is_off(room: Room) -> Iterator[Outcome]:
    """For a wholesaler that is gone, nobody waits, and the line posts again what the desk lacks."""
    shop = shop_in(room, "off")
    copy = four_days(shop)
    shop.started, shop.is_inbox_run = {*UNITS[:2]}, False
    before = shop.inbox.clock
    yield Outcome("the status", (run(shop, copy), has(shop), shop.started), (1, [1], {*UNITS[:2]}))
    yield Outcome("nobody waits", shop.inbox.clock - before < 10, True)
    command = "onixdesk-inbox north; no unit runs this inbox, and the desk lacks 3 numbers from 2 to 4"
    yield Outcome("the command", [line for line in shop.lines if "inbox north" in line], [command])
    shop.inbox.run()
    copy = shop.take_copy("2026-11-30T02-30-12Z")
    yield Outcome("where nothing is lacking", (run(shop, copy), has(shop)), (0, [1, 2, 3, 4]))


def what_cannot_come_again(room: Room) -> Iterator[Outcome]:
    shop = shop_in(room, "gone")
    copy = four_days(shop)
    shop.inbox.work(lambda inbox: inbox.ledger.do("UPDATE message SET text = NULL WHERE number > 1"))
    yield Outcome("texts that are gone", (run(shop, copy), has(shop), shop.units), (1, [1, 2, 3, 4], []))
    yield Outcome("say so", "the texts of 3 numbers from 2 to 4 are not kept any more" in shop.lines[-1], True)
    before = shop.inbox.clock
    yield Outcome("are not waited for", (run(shop, copy, gaps=True), shop.inbox.clock - before < 10), (1, True))
    shop = shop_in(room, "posted")
    copy = four_days(shop)
    shop.inbox.series.had[5] = ()
    found = run(shop, copy), has(shop), shop.started
    yield Outcome("what comes while it asks", found, (1, [1, 2, 3, 4, 5], {*UNITS}))
    shop.write()
    yield Outcome("what no inbox has", (run(shop, copy), has(shop)), (1, [1, 2, 3, 4, 5]))
    yield Outcome("is said", "no inbox has number 5, which the copy lacks" in shop.lines[-1], True)
    yield Outcome("--gaps", (run(shop, copy, gaps=True), has(shop)), (0, [1, 2, 3, 4]))


def agreements_and_waivers(room: Room) -> Iterator[Outcome]:
    """What was made since is made again; what the copy lacks and nobody knows is reported, and its files wait."""
    shop = shop_in(room, "since")
    assert shop.inbox.desk
    series = shop.inbox.desk.series.pop(SERIES)
    shop.write()
    copy = shop.take_copy("2026-11-27T02-30-12Z")
    shop.inbox.desk.series[SERIES] = series
    shop.send(("1.xml", feed_of(1, {"R1": "10.00"})), ("3.xml", feed_of(3, {"R1": "13.00"})))
    series.had[2] = WAIVED
    yield Outcome("made again", (run(shop, copy), price(shop), shop.inbox.series.had[2]), (0, "13.000", WAIVED))
    shop.database.unlink()
    shop.inbox.desk = None
    yield Outcome("nobody knows it", run(shop, copy), 1)
    agreement = "Agree,north,06,4012345000009,,,1"
    lines = [line for line in shop.lines if line.startswith(agreement)]
    yield Outcome("is told", (len(lines), shop.written.startswith(agreement)), (1, True))
    shop.inbox.run()
    shop.inbox.desk = shop.inbox.desk or FakeDesk()
    yield Outcome("its files wait", ([*shop.inbox.desk.series], {*shop.inbox.states().values()}), ([], {"applied"}))
    shop.inbox.desk.batch(f"{agreement}\n")
    shop.inbox.run()
    yield Outcome("once it is agreed", has(shop), [1, 3])


def copies_that_are_refused(room: Room) -> Iterator[Outcome]:
    shop = shop_in(room, "refused")
    good = four_days(shop)
    before = shop.database.read_bytes()
    damaged, more, none = (shop.copies / name for name in ("damaged", "more", "none"))
    for folder in (damaged, more, none):
        folder.mkdir()
    damaged.joinpath("shop.db").write_bytes(b"no database" * 1000)
    for name in ("shop.db", "other.db"):
        more.joinpath(name).write_bytes(good.joinpath("shop.db").read_bytes())
    for copy, status in ((damaged, 1), (more, 3), (none, 3)):
        yield Outcome(copy.name, (run(shop, copy), shop.units), (status, []))
    yield Outcome("the desk", shop.database.read_bytes() == before, True)


def ledgers(room: Room) -> Iterator[Outcome]:
    """A ledger of the copy is put in place only if there is none."""
    shop = shop_in(room, "ledgers", number=NEXT)
    copy = four_days(shop)
    yield Outcome("where there is one", (run(shop, copy), has(shop)), (0, [1, 2, 3, 4]))
    for path in shop.inbox.ledger.parent.glob("ledger.db*"):
        path.unlink()
    yield Outcome("where there is none", run(shop, copy, gaps=True), 0)
    shop.inbox.run()
    yield Outcome("what lies in the store behind it", price(shop), "14.000")
    yield Outcome("it knows the first feed", shop.inbox.states()["1.xml"], "applied")
    for path in *shop.inbox.ledger.parent.glob("ledger.db*"), *shop.inbox.store.iterdir():
        path.unlink()
    shop.inbox.run()
    run(shop, copy, gaps=True)
    yield Outcome("where one has no file", [*shop.inbox.states()], ["1.xml"])
    damage = "UPDATE sqlite_schema SET rootpage = 2 WHERE name = 'decision_by_subject'"
    with closing(sqlite3.connect(copy / f"ledgers/{SERIES}.db")) as ledger:
        ledger.executescript(f"PRAGMA writable_schema=ON; {damage};")
    shop.inbox.ledger.unlink()
    for left in (shop.inbox.files(), None):
        if left is None:
            shop.inbox.ledger.unlink()
        found = run(shop, copy, gaps=True) > 0, shop.inbox.files() if shop.inbox.ledger.exists() else None
        yield Outcome("where the copy's is not sound", found, (True, left))
    shop.inbox.ledger.write_bytes(b"no ledger" * 999)
    line = f"{shop.inbox.ledger}: file is not a database; if it is damaged: desk-restore COPY, once it is moved away"
    yield Outcome("one that SQLite cannot read", (run(shop, copy, gaps=True), shop.lines[-1]), (3, line))
    shop.inbox.ledger.unlink()
    (copy / f"ledgers/{SERIES}.db").unlink()
    (shop.inbox.store / "1.xml").touch()
    for name in ("where neither has one", "where the present one has no bytes"):
        status, line = run(shop, copy, gaps=True), f"{shop.inbox.ledger} is gone"
        yield Outcome(name, (status, line in "".join(shop.lines)), (1, True))
        shop.inbox.ledger.touch()


def log_of_a_lost_ledger(room: Room) -> Iterator[Outcome]:
    """A ledger was moved away after a power loss, and its log stayed: nothing of that gets into the copy's ledger."""
    shop = shop_in(room, "log")
    copy, path = four_days(shop), shop.inbox.ledger
    log = path.with_name(f"{path.name}-wal")
    with closing(sqlite3.connect(path, isolation_level=None)) as ledger:
        ledger.execute("UPDATE file SET why = 'late'")
        data = log.read_bytes()
    path.unlink()
    log.write_bytes(data)
    yield Outcome("the status", run(shop, copy, gaps=True), 0)
    yield Outcome("it knows what the copy knew", [file.why for file in shop.inbox.files()], [""])


def corrections(room: Room) -> Iterator[Outcome]:
    """A desk made from a corrected text: what came meanwhile is there too, and an earlier copy is recognized, by any
    name."""
    shop = shop_in(room, "corrections")
    night = four_days(shop)
    assert shop.inbox.desk
    copy = shop.take_copy("before")
    text = room.path("after.csv")
    text.write_text(text_of(shop.inbox.desk).replace(",14.000,", ",99.000,"))
    series = shop.inbox.series
    series.had[6] = WAIVED
    shop.send(("5.xml", feed_of(5, {"R2": "15.00"})))
    yield Outcome("the status", run(shop, copy, text=text), 0)
    yield Outcome("the prices", (price(shop), price(shop, "R2")), ("99.000", "15.000"))
    yield Outcome("what was waived meanwhile", (has(shop), shop.inbox.series.had[6]), ([1, 2, 3, 4, 5, 6], WAIVED))
    made = shop.database.with_name("corrections")
    made.write_text(f"{made.read_text()} later: and more\n")
    yield Outcome("a copy from before", run(shop, night.rename(shop.copies / "night")), 1)
    yield Outcome("says all that was made", shop.lines[-1].endswith(": it was wrong;  later: and more"), True)
    text.write_text(text.read_text().partition("\n")[2])
    before = shop.database.read_bytes()
    yield Outcome("a text that the desk refuses", (run(shop, copy, text=text) > 0, shop.started), (True, {*UNITS}))
    yield Outcome("the desk", shop.database.read_bytes() == before, True)
    latest, shop.inbox.desk = shop.take_copy("2026-12-01T02-30-12Z"), None
    shutil.rmtree(shop.database.parent)
    shop.database.parent.mkdir()
    yield Outcome("on another machine", (run(shop, latest), price(shop)), (0, "99.000"))
    yield Outcome("a copy from before, there", run(shop, shop.copies / "night"), 1)


def held_at_a_wrong_number(room: Room) -> Iterator[Outcome]:
    """A date was taken for a number, and let in: the file is refused, taken out of the text, and taken again under the
    next number."""
    shop = shop_in(room, "held")
    shop.send(("1.xml", feed_of(1, {"R1": "10.00"})), ("date.xml", feed_of(2025, {"R1": "12.00"})))
    mark = next(file.mark for file in shop.inbox.files() if file.name == "date.xml")
    shop.inbox.work(lambda inbox: decide.decide(inbox, "let-in", mark))
    shop.inbox.run()
    yield Outcome("let in, and held", shop.inbox.states()["date.xml"], "held")
    copy = shop.take_copy("before")
    text = room.path("after.csv")
    assert shop.inbox.desk
    text.write_text(text_of(shop.inbox.desk).rpartition("\nMessage,")[0] + "\n")
    shop.inbox.work(lambda inbox: decide.decide(inbox, "refuse", mark))
    yield Outcome("the status", (run(shop, copy, text=text), has(shop)), (0, [1]))
    shop.inbox.run()
    shop.inbox.settings = replace(shop.inbox.settings, number=NEXT)
    shop.inbox.work(lambda inbox: decide.decide(inbox, "again", mark))
    shop.inbox.run()
    yield Outcome("under the next number", (has(shop), price(shop)), ([1, 2], "12.000"))


def waiver_taken_back(room: Room) -> Iterator[Outcome]:
    """The message of a waived number came: the waiver is taken out of the text, and not made again."""
    shop = shop_in(room, "waived")
    shop.send(("1.xml", feed_of(1, {"R1": "10.00"})))
    shop.inbox.work(lambda inbox: decide.waive(inbox, range(2, 3)))
    shop.send(("3.xml", feed_of(3, {"R1": "13.00"})), ("2.xml", feed_of(2, {"R2": "12.00"})))
    yield Outcome("refused", (shop.inbox.states()["2.xml"], shop.inbox.series.had[2]), ("refused", WAIVED))
    shop.inbox.work(lambda inbox: decide.take_back(inbox, range(2, 3)))
    copy = shop.take_copy("before")
    text = room.path("after.csv")
    assert shop.inbox.desk
    text.write_text(text_of(shop.inbox.desk).replace(f"Waive,{SERIES},2\n", ""))
    yield Outcome("the status", run(shop, copy, text=text), 0)
    shop.inbox.run()
    yield Outcome("it has its place", (price(shop), price(shop, "R2")), ("13.000", "12.000"))


OTHER = "06", "4012345000016"


def renamed(shop: Shop, name: str) -> int:
    """The sender changes in the desk's text: the status of the restore, by a copy of that name."""
    assert shop.inbox.desk
    copy = shop.take_copy(name)
    text = shop.copies.with_name(f"{name}.csv")
    text.write_text(text_of(shop.inbox.desk).replace(SENDER[1], OTHER[1]))
    return run(shop, copy, text=text)


def another_identifier(room: Room) -> Iterator[Outcome]:
    """A copy from before the correction is restored: what came since waits until the correction is made again."""
    shop = shop_in(room, "identifier")
    copy = four_days(shop)
    shop.inbox.settings = replace(shop.inbox.settings, sender=OTHER)
    settings = shop.settings / f"{SERIES}.conf"
    settings.write_text(settings.read_text().replace(SENDER[1], OTHER[1]))
    yield Outcome("corrected", (renamed(shop, "first"), has(shop)), (0, [1, 2, 3, 4]))
    shop.send(("5.xml", feed_of(5, {"R1": "15.00"}, sender=OTHER)))
    yield Outcome("the next feed", (has(shop), price(shop)), ([1, 2, 3, 4, 5], "15.000"))
    yield Outcome("a copy from before", (run(shop, copy, before_correction=True), has(shop)), (1, [1, 2, 3, 4]))
    yield Outcome("says what is lacking", "north: the desk still lacks number 5" in shop.lines, True)
    found = [line for line in shop.lines if line.startswith("has to be made again: ")] != []
    yield Outcome("and to make again", found, True)
    yield Outcome("corrected again", renamed(shop, "again"), 0)
    shop.inbox.run()
    yield Outcome("it has all", (has(shop), price(shop), shop.inbox.run()), ([1, 2, 3, 4, 5], "15.000", []))


def killed(kind: str, room: Room) -> Iterator[Outcome]:
    """At each call: then no desk is there, or one of the two; the next run finishes it, and nothing is lost."""
    wrong, at = [], 1
    while True:
        at += STRIDE
        shop = shop_in(room, f"{kind}{at}", number=NEXT)
        copy = four_days(shop)
        machine = shop.machine(kind, at)
        status = -9
        with suppress(Killed, SystemExit):
            status = run(shop, copy, machine)
        if machine.calls < at:
            break
        if shop.database.exists() and has_of(shop.database) not in ([1], [1, 2, 3, 4]):
            wrong.append(f"{at}: {has_of(shop.database)} stands there")
        if status == 0 and kind != "error":
            wrong.append(f"{at}: it ended well")
        again = run(shop, copy)
        shop.inbox.run()
        if (again, has(shop), price(shop)) != (0, [1, 2, 3, 4], "14.000") or shop.started != {*UNITS}:
            wrong.append(f"{at}: {again} {has(shop)} {price(shop)} {shop.started} {shop.lines}")
    yield Outcome(f"{kind} at each of the calls", wrong, [])
    yield Outcome("there are some", at > 60, True)


def killed_on_a_new_machine(room: Room) -> Iterator[Outcome]:
    """Where no desk was: once one is there, so are the ledger and the corrections of the copy."""
    for at in range(20, 50):
        shop = shop_in(room, f"new {at}", number=NEXT)
        corrections = shop.database.with_name("corrections")
        corrections.write_text(" 2026-11-26T00-00-00Z: it was wrong\n")
        copy = four_days(shop)
        for path in *shop.inbox.ledger.parent.glob("ledger.db*"), *shop.database.parent.iterdir():
            path.unlink()
        shop.started = set()
        with suppress(Killed):
            run(shop, copy, shop.machine("kill", at))
        run(shop, copy)
        left = [path.exists() for path in (shop.database, shop.inbox.ledger, corrections)]
        yield Outcome(f"killed at call {at}", left, [True] * 3)


GROUPS = [Group(f"restore, {kind}", partial(killed, kind)) for kind in ("kill", "power", "error", "signal")]
