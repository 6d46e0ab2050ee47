"""A renewed desk: what the new one has, what the inboxes do then, and a renewal that ends anywhere."""

import os
from collections.abc import Iterator
from contextlib import suppress
from functools import partial
from typing import Any

from onixdesk_shop.children import Ended, Words
from onixdesk_shop.ends import status_of
from onixdesk_shop.machine import Machine
from onixdesk_shop.renewals import catalogue
from onixdesk_shop.renewals.command_line import command_line, work as renew
from tests.program.databases import DATABASE, all_rows, batch
from tests.program.inbox.inboxes import script
from tests.program.room import Group, Ran, Room
from tests.running import Outcome
from tests.shop.desk_files import UNITS, Shop, ShopMachine, read
from tests.shop.fake_desk import WAIVED
from tests.shop.fake_machine import Killed
from tests.shop.fake_program import feed_of
from tests.shop.inboxes import SERIES

# Over the built program

NORTH, SOUTH, WEST, EAST = "06,N,06,S", "06,T,,", "06,W,06,S", '06,"E, ""Ltd"" ",,'

AGREEMENTS = f"""\
Agree,north,{NORTH},1
Agree,south,{SOUTH},5
Agree,west,{WEST},7
Agree,east,{EAST},1
"""


def message(parties: str, number: int, *lines: str) -> str:
    records = [f"Message,2,{parties},{number},1,,,", *lines, f"EndMessage,{len(lines) + 1}"]
    return "".join(f"{record}\n" for record in records)


def product(reference: str, notification: str = "03", *, amount: str = "8") -> list[str]:
    return [
        f"Product,{reference},{notification},03,9781234567897,15,9781234567897",
        "ProductSupply,GB IE,,",
        "SupplyDetail,04,06,4012345000009,North,21,",
        f"Price,05,{amount},GBP,,,,,20250331",
        f"Price,05,{amount}.125,GBP,FR GB,,,20250401,,10",
        "SupplyDetail,04,,,N,40,01",
        "ProductSupply,,WORLD,US",
        'SupplyDetail,01,,,"No ""4"", Ltd",20,',
        f"Price,02,{amount},EUR,,WORLD,AT,,",
    ]


# Of north, messages 1 to 5 are applied, with a repeat, an update, a deletion and a waiver, and 7, 8 and 10 wait; south
# has all articles deleted; west has got nothing; of east a number waits before the first one.
DESK = (
    AGREEMENTS
    + message(NORTH, 1, *product("R1"), *product("R2"), *product('"R 3,""x"'))
    + message(NORTH, 1, *product("R1"), *product("R2"), *product('"R 3,""x"'))
    + message(NORTH, 2, *product("R1", "04", amount="7"), "Product,R2,05,03,9781234567897")
    + "Waive,north,3\n"
    + message(NORTH, 4, *product("R4"), "Product,R5,03,01,none")
    + message(NORTH, 5)
    + message(NORTH, 7, *product("R1", amount="9"))
    + "Waive,north,8\n"
    + message(NORTH, 10)
    + message(SOUTH, 5, *product("S1"))
    + message(SOUTH, 6, "Product,S1,05,03,9781234567897")
    + message(EAST, 2, *product("E1"))
)


SAID = """\
east: begins at 1 in place of 1, next is 1
north: begins at 5 in place of 1, next is 6; 1 to 4 are before-first then; 5 to 5 are other-contents then
south: begins at 6 in place of 5, next is 7; 5 to 5 are before-first then; 6 to 6 are other-contents then
west: begins at 7 in place of 7, next is 7
given up are the answers to and the contents of these messages, with their NotificationTypes and counts, and the waivers
below the next numbers; corrections of the desk's text reach back to the new first numbers
"""


def kept(room: Room, file: str) -> dict[str, list[tuple[object, ...]]]:
    """What a renewed desk has like the old one: all rows except those of applied numbers, and no first number."""
    rows = all_rows(room, file)
    del rows["applied"]
    return rows | {"series": [row[:5] + row[6:] for row in rows["series"]]}


class RealMachine(Machine):
    """One without systemd."""

    def __init__(self) -> None:
        super().__init__("test")
        self.lines: list[str] = []
        self.written = ""

    def run(self, words: Words, *others: Any, **more: Any) -> Ended:
        return Ended(0, b"", b"") if words[0] == "systemctl" else super().run(words, *others, **more)

    def tell(self, priority: int, line: str) -> None:
        self.lines.append(line)

    def write(self, text: str) -> None:
        self.written += text


def renewed(room: Room, machine: Machine, **more: object) -> int:
    words = {"db": room.path(DATABASE), "program": room.program}
    options = command_line().parse_args([f"--{name}={value}" for name, value in (words | more).items()] + ["--yes"])
    return status_of(machine, lambda each: renew(each, options))


def of_before(room: Room) -> list[str]:
    """The names of the old files."""
    return sorted({path.name.removesuffix("-wal") for path in room.folder.glob(f"{DATABASE}.2*")})


def with_what_it_has(room: Room) -> Iterator[Outcome]:
    batch(room, DESK.encode())
    wanted = kept(room, DATABASE)
    machine = RealMachine()
    status = renewed(room, machine)
    yield Outcome("what is said", machine.written, SAID)
    stopped = "systemctl start onixdesk.service; the desk did not run, and is not started"
    yield Outcome("a desk that did not run", (status, machine.lines[1:]), (1, [stopped]))
    yield Outcome("what it has", kept(room, DATABASE), wanted)
    yield Outcome("what stood there", [kept(room, each) for each in of_before(room)], [wanted])
    yield Outcome("nothing else is left", [*room.folder.glob(".*")], [])
    report = room.run("--db", DATABASE, "--existing", "gaps", "north")
    gaps = b"gaps,north,first=5,next=6,greatest=10,held=3,missing=2\nmissing,6,6\nmissing,9,9\n"
    yield Outcome("the gaps", report, Ran(0, gaps))


def too_few_numbers(room: Room) -> Iterator[Outcome]:
    batch(room, (f"Agree,south,{SOUTH},5\n" + message(SOUTH, 5, *product("S1"), *product("S2"))).encode())
    machine, most = RealMachine(), catalogue.MOST_RECORDS
    catalogue.MOST_RECORDS = 11
    try:
        yield Outcome("a message for each record", renewed(room, machine), 1)
    finally:
        catalogue.MOST_RECORDS = most
    line = "the desk is left as it is: south: its catalogue needs 2 numbers before 6, and it begins at 5"
    yield Outcome("says so", (machine.lines, of_before(room)), ([line], []))


def what_differs(room: Room) -> Iterator[Outcome]:
    """A different row is a failure, and so is a program that is killed while it makes the new desk."""
    batch(room, DESK.encode())
    told = catalogue.territory
    catalogue.territory = lambda included, world, excluded: told(included, world, "")
    machine = RealMachine()
    try:
        yield Outcome("a row", (renewed(room, machine), of_before(room)), (1, []))
    finally:
        catalogue.territory = told
    said = "the renewed desk differs, and the desk is as it was: offer: on"
    yield Outcome("says which", [line[: len(said)] for line in machine.lines], [said])
    machine = RealMachine()
    program = script(room, "killed", "kill -9 $$")
    found = renewed(room, machine, program=program), of_before(room), machine.lines
    yield Outcome("killed", found, (3, [], ["killed was killed by signal 9"]))


# Over files of the tests, in this process


def shop_in(room: Room, name: str) -> Shop:
    folder = room.path(name)
    folder.mkdir()
    shop = Shop(folder)
    shop.send(*((f"{day}.xml", feed_of(day, {})) for day in (1, 2, 3)), ("5.xml", feed_of(5, {})))
    return shop


def run(shop: Shop, machine: ShopMachine | None = None) -> int:
    machine = machine or shop.machine()
    options = command_line().parse_args([f"--{name}={place}" for name, place in shop.options.items()])
    try:
        return status_of(machine, lambda each: renew(each, options))
    finally:
        shop.lines, shop.written = [line for _, line in machine.lines], machine.written
        shop.inbox.clock = max(shop.inbox.clock, int(machine.clock) + 1)


def standing(shop: Shop) -> tuple[int, list[int]]:
    found = read(shop.database).series[SERIES]
    return found.first, sorted(found.had)


RENEWED = 3, [3, 5]


def and_its_inbox(room: Room) -> Iterator[Outcome]:
    shop = shop_in(room, "inbox")
    yield Outcome("renewed", (run(shop), standing(shop), shop.started), (0, RENEWED, {*UNITS}))
    shop.inbox.run()
    found = shop.inbox.lines, sorted(shop.inbox.series.had)
    yield Outcome("below the first number nothing is posted", found, ([], [3, 5]))
    shop.inbox.send("again.xml", feed_of(2, {}))
    lines = [line.partition(":")[0] for line in shop.inbox.run()]
    yield Outcome("a repeat", (lines, sorted(shop.inbox.series.had)), (["had it already"], [3, 5]))
    shop.send(("4.xml", feed_of(4, {"R1": "14.00"})))
    yield Outcome("the next feed", (shop.inbox.states()["4.xml"], shop.inbox.series.next), ("applied", 6))


def without_a_yes(room: Room) -> Iterator[Outcome]:
    shop = shop_in(room, "no")
    machine = shop.machine()
    machine.said = ""
    yield Outcome("without a yes", (run(shop, machine), shop.units), (1, []))
    shop.is_output_broken = True
    yield Outcome("nobody can read what is given up", (run(shop), shop.units), (1, []))
    shop.is_output_broken = False
    shop.failing = UNITS[0]
    yield Outcome("a desk that does not start", (run(shop), standing(shop)), (1, RENEWED))


def unanswered(room: Room) -> Iterator[Outcome]:
    """A message that is being posted gets its answer before the inboxes stop; the run of each minute sees to that."""
    shop = shop_in(room, "unanswered")
    shop.inbox.work(lambda inbox: inbox.ledger.set_message(5, "posted"))
    yield Outcome("renewed", (run(shop), standing(shop)), (0, RENEWED))
    shop = shop_in(room, "never")
    shop.inbox.work(lambda inbox: inbox.ledger.set_message(5, "posted"))
    shop.is_inbox_run = False
    status, stopped = run(shop), [words for words in shop.units if words.startswith("stop")]
    yield Outcome("never answered", (status, stopped, standing(shop)), (1, [], (1, [1, 2, 3, 5])))
    shop.started, before = {*UNITS[:2]}, shop.inbox.clock
    yield Outcome("no unit runs its inbox", (run(shop), standing(shop)), (1, (1, [1, 2, 3, 5])))
    yield Outcome("nobody waits", shop.inbox.clock - before < 10, True)


def unanswered_below(room: Room) -> Iterator[Outcome]:
    """A text whose answer was lost is not posted below the first number, and an error says so."""
    shop = shop_in(room, "below")
    run(shop)
    shop.inbox.work(lambda inbox: inbox.ledger.set_message(2, "posted"))
    machine = shop.inbox.machine()
    lines = [line.partition("; ")[2] for line in shop.inbox.run(machine)]
    posted = [text for text in machine.posted if text.startswith(b"Message")]
    line = "refused: number 2 is below the first number of the series, 3; 2.xml"
    yield Outcome("below the first number", (posted, lines, shop.inbox.shown()["refused"]), ([], [line], 1))


class WrittenMeanwhile(ShopMachine):
    """A desk where a number is waived, and a feed comes, while the new one is made."""

    def run(self, words: Words, *others: Any, **more: Any) -> Ended:
        if words[-1] == "batch" and 10 not in self.shop.inbox.series.had:
            self.shop.inbox.series.had[10] = WAIVED
            self.shop.send(("4.xml", feed_of(4, {"R1": "14.00"})))
        return super().run(words, *others, **more)


def written_meanwhile(room: Room) -> Iterator[Outcome]:
    """The waiver is made again, and the inbox posts the feed again."""
    shop = shop_in(room, "meanwhile")
    status = run(shop, WrittenMeanwhile(shop, ("", -1)))
    yield Outcome("written meanwhile", (status, standing(shop)), (0, (3, [3, 5, 10])))
    yield Outcome("the new desk has both", sorted(shop.inbox.series.had), [3, 4, 5, 10])


STRIDE = int(os.environ.get("ONIXDESK_STRIDE", "9"))


def killed(kind: str, room: Room) -> Iterator[Outcome]:
    """At each call: then no desk is there, or one of the two; the same command finishes it."""
    wrong, at = [], 1
    while True:
        at += STRIDE
        shop = shop_in(room, f"{kind}{at}")
        old = standing(shop)
        machine = shop.machine(kind, at)
        with suppress(Killed, SystemExit):
            run(shop, machine)
        if machine.calls < at:
            break
        if shop.database.exists() and standing(shop) not in (old, RENEWED):
            wrong.append(f"{at}: {standing(shop)} stands there")
        status = run(shop)
        if status or standing(shop) != RENEWED or shop.started != {*UNITS}:
            wrong.append(f"{at}: {status} {standing(shop)} {shop.started} {shop.lines}")
    yield Outcome(f"{kind} at each of the calls", wrong, [])
    yield Outcome("there are some", at > 40, True)


GROUPS = [Group(f"renewals, {kind}", partial(killed, kind)) for kind in ("kill", "power", "error", "signal")]
