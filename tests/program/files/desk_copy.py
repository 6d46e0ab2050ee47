"""Copies by desk-copy: of a desk that takes messages all the while, and of files that change, are wrong or missing;
with the ledgers of its inboxes."""

import os
import random
import re
import sqlite3
import subprocess
import threading
import time
from collections.abc import Iterator
from concurrent.futures import ThreadPoolExecutor
from contextlib import closing, contextmanager, suppress
from functools import partial
from pathlib import Path

from onixdesk_shop.copies.command_line import command_line, tell_room, work as take
from onixdesk_shop.copies.copying import Copied
from onixdesk_shop.ends import status_of
from tests.program.databases import DATABASE, batch
from tests.program.messages import AGREEMENT, priced_by_number
from tests.program.room import Group, Ran, Room
from tests.program.serving import Serving, posted, serving
from tests.running import Outcome
from tests.shop.desk_files import Shop, ShopMachine
from tests.shop.fake_machine import Killed
from tests.shop.fake_program import feed_of
from tools.root import ROOT
from tools.words import Row, Word

PROGRAM = ROOT / "bin/desk-copy"

COPIES = 20
AT_ONCE = 2

# Products of a message, which gives each of them a new price. The log is copied into the database about every fifty
# messages.
PRODUCTS = 40

# The pause between two messages: none, or one in which a copy can be taken.
PAUSES = [0, 0, 0, 0.002, 0.15, 0.4, 0.8]


def copy(room: Room, *words: Word) -> Ran:
    done = subprocess.run([PROGRAM, *words], cwd=room.folder, capture_output=True)
    return Ran(done.returncode, done.stdout, done.stderr)


class Sender:
    """Sends messages to a desk, one after the other, and counts the answered ones."""

    def __init__(self, desk: Serving) -> None:
        self.desk = desk
        self.sent = self.answered = 0
        self.unexpected: list[bytes] = []
        self.is_to_end = threading.Event()
        self.thread = threading.Thread(target=self.send)

    def send(self) -> None:
        seeded = random.Random(20250301)
        while not self.is_to_end.is_set():
            self.sent += 1
            reply = self.desk.reply([posted(priced_by_number(self.sent, PRODUCTS))])
            if not reply.startswith(b"HTTP/1.1 200 "):
                self.unexpected.append(reply)
                return
            self.answered = self.sent
            self.is_to_end.wait(seeded.choice(PAUSES))


@contextmanager
def sending(room: Room) -> Iterator[Sender]:
    """A desk that takes messages all the while."""
    batch(room, AGREEMENT)
    with serving(room, ["--db", DATABASE], None) as desk:
        # Somebody reads the lines of `serve`, or it would wait.
        assert desk.process.stdout
        threading.Thread(target=desk.process.stdout.read, daemon=True).start()
        sender = Sender(desk)
        sender.thread.start()
        try:
            yield sender
        finally:
            sender.is_to_end.set()
            sender.thread.join()


COUNTED = """\
SELECT (SELECT next_number FROM series), (SELECT count(*) FROM applied), (SELECT count(*) FROM price),
    (SELECT min(amount) FROM price), (SELECT max(amount) FROM price)"""


def counted(database: Path) -> Row:
    """The next number, how many messages and prices a copy has, and the least and the greatest amount, as SQLite reads
    it."""
    with closing(sqlite3.connect(f"{database.as_uri()}?mode=ro", uri=True)) as connection:
        (found,) = connection.execute(COUNTED).fetchall()
    return tuple(found)


def taken(room: Room, sender: Sender, place: int) -> str:
    """What is wrong with a copy that is taken now."""
    folder = room.path(f"taken-{place}")
    folder.mkdir()
    before = sender.answered
    ran = copy(room, DATABASE, folder / "copy")
    after = sender.sent
    if ran.status or ran.errors:
        return f"not taken: {ran}"
    database = folder / "copy" / DATABASE
    as_of, messages, *prices = counted(database)
    amounts = [PRODUCTS, 1000 * messages, 1000 * messages] if messages else [0, None, None]
    if (messages, prices) != (as_of - 1, amounts):
        return f"rows of no moment: {(as_of, messages, *prices)}"
    if not before <= messages <= after:
        return f"{messages} messages, where {before} were answered before and {after} sent at its end"
    ran = room.run("--db", database, "--existing", "gaps", "north")
    found = re.fullmatch(rb"gaps,north,first=1,next=(\d+),greatest=\d*,held=0,missing=0\n", ran.output)
    opened = int(found[1]) if found else -1
    return "" if opened == as_of else f"the desk finds {opened} in place of {as_of}"


def under_messages(room: Room) -> Iterator[Outcome]:
    with sending(room) as sender:
        with ThreadPoolExecutor(AT_ONCE) as pool:
            wrong = [*filter(None, pool.map(lambda place: taken(room, sender, place), range(COPIES)))]
    yield Outcome("copies of a desk that takes messages", wrong[:3], [])
    yield Outcome("the desk takes them all the while", (sender.unexpected, sender.answered > 10), ([], True))


# Over files of the tests, in this process

OLD = "2025-01-01T00-00-00Z", "2025-01-02T00-00-00Z", "2025-01-03T00-00-00Z"


def shop_in(room: Room, name: str) -> Shop:
    folder = room.path(name)
    folder.mkdir()
    shop = Shop(folder)
    shop.send(("1.xml", feed_of(1, {"R1": "10.00"})))
    return shop


def run(shop: Shop, *words: object, machine: ShopMachine | None = None) -> int:
    machine = machine or shop.machine()
    options = command_line().parse_args([str(word) for word in words])
    try:
        return status_of(machine, lambda each: take(each, options))
    finally:
        shop.lines = [line for _, line in machine.lines]
        shop.written = machine.written
        shop.inbox.clock = int(machine.clock) + 1


def files(folder: Path) -> dict[str, bytes]:
    return {str(each.relative_to(folder)): each.read_bytes() for each in folder.rglob("*") if each.is_file()}


def numbers_of(ledger: Path) -> list[int]:
    with closing(sqlite3.connect(ledger)) as connection:
        return [number for (number,) in connection.execute("SELECT number FROM message WHERE text IS NOT NULL")]


def of_a_desk_at_rest(room: Room) -> Iterator[Outcome]:
    shop = shop_in(room, "rest")
    log = shop.database.with_name("shop.db-wal")
    log.write_bytes(b"")
    corrections = shop.database.with_name("corrections")
    corrections.write_text("a list\n")
    wanted = {path.name: path.read_bytes() for path in (shop.database, log, corrections)}
    target = shop.copies / "friday"
    yield Outcome("status", run(shop, shop.database, target), 0)
    yield Outcome("the files, byte by byte", files(target), wanted)
    yield Outcome("for its owner alone", target.stat().st_mode & 0o777, 0o700)
    yield Outcome("a folder that exists", run(shop, shop.database, target), 3)
    yield Outcome("a desk that is missing", run(shop, shop.database.with_name("none.db"), shop.copies / "none"), 3)
    yield Outcome("nothing else is left", [path.name for path in shop.copies.iterdir()], ["friday"])
    shop.database.write_bytes(b"no database" * 1000)
    yield Outcome("what is no desk", run(shop, shop.database, shop.copies / "damaged"), 1)
    yield Outcome("there is no such copy", [path.name for path in shop.copies.iterdir()], ["friday"])


def each_night(room: Room) -> Iterator[Outcome]:
    shop = shop_in(room, "night")
    for name in (*OLD, "of the shop", ".desk-copy"):
        (shop.copies / name).mkdir()
    words = "--keep", 3, "--inboxes", shop.inbox.places.inboxes, shop.database, shop.copies
    yield Outcome("status", run(shop, *words), 0)
    names = sorted(path.name for path in shop.copies.iterdir())
    yield Outcome("the latest three, and what is no copy", [*names[:2], *names[3:]], [*OLD[1:], "of the shop"])
    ledger = shop.copies / names[2] / "ledgers/north.db"
    yield Outcome("the ledger, with its texts", numbers_of(ledger), [1])
    yield Outcome("nothing is left beside it", [path.name for path in ledger.parent.iterdir()], ["north.db"])
    ahead = shop.copies / "2999-01-01T00-00-00Z"
    ahead.mkdir()
    yield Outcome("a clock that was ahead", run(shop, "--keep", 1, *words[2:]), 0)
    names = sorted(path.name for path in shop.copies.iterdir())
    yield Outcome("leaves the new one", (len(names), names[0] > OLD[2], names[1]), (2, True, "of the shop"))
    corrected = [f"2025-01-04T1{hour}-00-00Z" for hour in range(4)]
    for name in (*OLD, *corrected):
        (shop.copies / name).mkdir()
    run(shop, "--keep", 4, *words[2:])
    left = sorted(path.name for path in shop.copies.iterdir())[:3]
    yield Outcome("corrections of a day push no night out", left, [*OLD[1:], corrected[3]])
    unread = shop.inbox.places.inboxes / "east/ledger.db"
    unread.parent.joinpath("store/file").mkdir(parents=True)
    before = {*shop.copies.iterdir()}
    sound = unread.parent.with_name("north").joinpath(unread.name).read_bytes()
    for data in None, b"no database" * 1000, sound[:-4096] + b"\xff" * 4096, b"":
        if data is not None:
            unread.write_bytes(data)
        status, copied = run(shop, *words), Path(shop.written.partition(": ")[0], "ledgers")
        found = status, [path.name for path in copied.iterdir()], shop.lines[0].startswith(f"{unread}: ")
        yield Outcome(f"a ledger that begins with {data and data[:6]!r}", found, (1, ["north.db"], True))
    yield Outcome("no earlier copy goes", before <= {*shop.copies.iterdir()}, True)


def two_in_a_second(room: Room) -> Iterator[Outcome]:
    shop = shop_in(room, "two")
    moment, found = shop.inbox.clock, []
    for _ in range(2):
        shop.inbox.clock = moment
        found.append(run(shop, "--keep", 3, shop.database, shop.copies))
    yield Outcome("both are there", (found, len([*shop.copies.iterdir()])), ([0, 0], 2))


class Writing(ShopMachine):
    """A desk that is written to while its files are copied, so many times."""

    times = 1

    def copy(self, source: Path, target: Path) -> str:
        digest = super().copy(source, target)
        if self.times and source.name == "shop.db":
            self.times -= 1
            shop = self.shop
            shop.inbox.series.had[2 + self.times] = ()
            shop.write()
            os.utime(shop.database, (time.time() + self.times, time.time() + self.times))
        return digest


def written_meanwhile(room: Room) -> Iterator[Outcome]:
    shop = shop_in(room, "written")
    machine = Writing(shop, ("", -1))
    yield Outcome("once", run(shop, shop.database, shop.copies / "one", machine=machine), 0)
    same = (shop.copies / "one/shop.db").read_bytes() == shop.database.read_bytes()
    yield Outcome("it has that", (same, machine.times), (True, 0))
    os.utime(shop.database, (shop.inbox.clock + 900, shop.inbox.clock + 900))
    yield Outcome("a time to come", run(shop, shop.database, shop.copies / "two"), 3)


def memory(room: Room) -> Iterator[Outcome]:
    """If a start may need more than half of its memory, that is an error, after the copy is made."""
    shop = shop_in(room, "memory")
    for megabytes, is_told in ((750, False), (850, True)):
        machine = shop.machine()
        found = Copied(0, 100 << 20, megabytes - 100 << 20)
        tell_room(machine, shop.database, found)
        said = [line for priority, line in machine.lines if priority == 3 and line.startswith("desk-renew; ")]
        yield Outcome(f"{megabytes} MB", len(said), int(is_told))


STRIDE = int(os.environ.get("ONIXDESK_STRIDE", "3"))


def killed(kind: str, room: Room) -> Iterator[Outcome]:
    """At each call: each folder named as a copy is whole, there are as many as before, and the next run cleans up."""
    wrong, at = [], 1
    while True:
        shop = shop_in(room, f"{kind}{at}")
        words = "--keep", 2, "--inboxes", shop.inbox.places.inboxes, shop.database, shop.copies
        for name in OLD[:2]:
            (shop.copies / name).mkdir()
        machine = shop.machine(kind, at)
        with suppress(Killed):
            run(shop, *words, machine=machine)
        if machine.calls < at:
            break
        names = [path.name for path in shop.copies.iterdir() if path.name[0] != "."]
        new = [files(shop.copies / name) for name in names if name not in OLD]
        if any({*each} != {"shop.db", "ledgers/north.db"} for each in new) or len(names) < 2:
            wrong.append(f"{at}: {names} {[[*each] for each in new]}")
        status = run(shop, *words)
        names = sorted(path.name for path in shop.copies.iterdir())
        if status or len(names) != 2 or "ledgers/north.db" not in files(shop.copies / names[1]):
            wrong.append(f"{at}: then {status} {names} {shop.lines}")
        at += STRIDE
    yield Outcome(f"{kind} at each of the calls", wrong, [])
    yield Outcome("there are some", at > 20, True)


GROUPS = [Group(f"copies, {kind}", partial(killed, kind)) for kind in ("kill", "power", "error")]
