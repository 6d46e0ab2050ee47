"""A shop of the tests whose desk is two files: a database whose tables say what the desk was told, asked by a stand-in
of its program, and served by the tests' desk once its unit is started."""

import contextlib
import shutil
import sqlite3
import time
from pathlib import Path
from typing import Any

from onixdesk_shop.children import Ended, Words
from onixdesk_shop.faults import BadEnd
from onixdesk_shop.places import LEDGER, LEDGERS
from tests.shop.fake_desk import WAIVED, FakeDesk, Series, records_of
from tests.shop.fake_machine import FakeMachine
from tests.shop.fake_program import SENDER
from tests.shop.inboxes import SERIES, FakeInbox

SCHEMA = """
CREATE TABLE meta (item TEXT, amount INTEGER); INSERT INTO meta VALUES ('version', 2);
CREATE TABLE series (name TEXT, sender_type TEXT, sender_value TEXT, addressee_type TEXT, addressee_value TEXT,
    first_number INTEGER, next_number INTEGER);
CREATE TABLE applied (series TEXT, number INTEGER, contents TEXT);
CREATE TABLE held (series TEXT, number INTEGER, contents TEXT);
CREATE TABLE record (series TEXT, reference TEXT);
CREATE TABLE article (series TEXT, reference TEXT, id_place INTEGER, id_type TEXT, id_value TEXT);
CREATE TABLE offer (series TEXT, reference TEXT, place INTEGER, supply INTEGER, included TEXT, world INTEGER,
    excluded TEXT, role TEXT, supplier_type TEXT, supplier_value TEXT, supplier_name TEXT, availability TEXT,
    unpriced TEXT);
CREATE TABLE price (series TEXT, reference TEXT, place INTEGER, price_place INTEGER, price_type TEXT, amount INTEGER,
    currency TEXT, included TEXT, world INTEGER, excluded TEXT, from_day INTEGER, until_day INTEGER);
CREATE TABLE price_minimum (series TEXT, reference TEXT, place INTEGER, price_place INTEGER, minimum INTEGER);
"""

UNITS = ["onixdesk.service", "onixdesk-copy.timer", "onixdesk-inbox@north.path", "onixdesk-inbox@north.timer"]
LISTED = [*UNITS, "onixdesk-second.service", "onixdesk-inbox@north.service"]


def write(desk: FakeDesk, database: Path) -> None:
    database.unlink(missing_ok=True)
    with contextlib.closing(sqlite3.connect(database)) as connection:
        connection.executescript(SCHEMA)
        for name, series in desk.series.items():
            row = (name, *series.parties, series.first, series.next)
            connection.execute("INSERT INTO series VALUES (?, ?, ?, ?, ?, ?, ?)", row)
            for number, contents in series.had.items():
                table = "applied" if number < series.next else "held"
                lines = [contents] if isinstance(contents, str) else [f"{','.join(record)}\n" for record in contents]
                connection.execute(f"INSERT INTO {table} VALUES (?, ?, ?)", (name, number, "".join(lines)))
        connection.commit()


def read(database: Path) -> FakeDesk:
    desk = FakeDesk()
    with contextlib.closing(sqlite3.connect(f"{database.as_uri()}?mode=ro", uri=True)) as connection:
        for name, *parties, first, _ in connection.execute("SELECT * FROM series"):
            desk.series[name] = Series(tuple(parties), first)
        for name, number, text in connection.execute("SELECT * FROM applied UNION ALL SELECT * FROM held"):
            desk.series[name].had[number] = text if text == WAIVED else tuple(map(tuple, records_of(text)))
    return desk


def text_of(desk: FakeDesk) -> str:
    """A desk as the batch that makes it again."""
    lines = []
    for name, series in desk.series.items():
        parties = ",".join(series.parties)
        lines.append(f"Agree,{name},{parties},{series.first}")
        for number, contents in sorted(series.had.items()):
            if isinstance(contents, str):
                lines.append(f"Waive,{name},{number}")
            else:
                records = map(",".join, contents)
                lines += [f"Message,2,{parties},{number},1,,,", *records, f"EndMessage,{len(contents) + 1}"]
    return "".join(f"{line}\n" for line in lines)


class ShopMachine(FakeMachine):
    """One run of a program of root."""

    def __init__(self, shop: "Shop", fault: tuple[str, int]) -> None:
        super().__init__(shop.inbox.disk, shop.inbox.desk, shop.inbox.clock, (fault[0], "", fault[1]))
        self.shop = shop
        self.said = "yes"

    def run(self, words: Words, known: tuple[int, ...] = (0,), text: Any = b"", *_: Any, **__: Any) -> Ended:
        self.step("child")
        if words[0] == "systemctl":
            output = self.shop.systemctl([str(word) for word in words[1:]])
        else:
            output = self.shop.program([str(word) for word in words], text.decode())
        self.desk = self.shop.inbox.desk
        self.step("ended")
        return Ended(0, output.encode(), b"")

    def sleep(self, seconds: float) -> None:
        self.step("sleep")
        super().sleep(seconds)
        if self.shop.inbox.desk and self.shop.is_inbox_run:
            self.shop.inbox.run()

    def make_folder(self, path: Path, mode: int = 0o700) -> None:
        self.step("folder")
        super().make_folder(path, mode)

    def remove_tree(self, folder: Path) -> None:
        self.step("tree")
        super().remove_tree(folder)
        self.step("trees")

    def backup(self, database: Path, target: Path) -> None:
        self.step("backup")
        super().backup(database, target)

    def ask(self, question: str) -> str:
        self.write(question)
        return "" if self.is_output_broken else self.said


class Shop:
    def __init__(self, folder: Path, **settings: Any) -> None:
        self.inbox = FakeInbox(folder, **settings)
        self.inbox.clock = int(time.time()) + 100
        for name in ("desk", "copies", "settings"):
            (folder / name).mkdir()
        self.database = folder / "desk/shop.db"
        self.copies = folder / "copies"
        self.settings = folder / "settings"
        number = f"NUMBER={settings.get('number', 'own')}\n"
        self.options: dict[str, Any] = {"db": self.database, "settings": self.settings, "program": Path("true")}
        self.settings.joinpath(f"{SERIES}.conf").write_text(f"SENDER={','.join(SENDER)}\n{number}")
        self.units: list[str] = []
        self.failing = ""
        self.started: set[str] = set(UNITS)
        self.lines: list[str] = []
        self.written = ""
        self.is_output_broken = False
        self.is_inbox_run = True
        self.write()

    def write(self) -> None:
        """The desk's contents are in its files."""
        if self.inbox.desk:
            write(self.inbox.desk, self.database)

    def send(self, *files: tuple[str, bytes]) -> None:
        for name, data in files:
            self.inbox.send(name, data)
            self.inbox.run()
        self.write()

    def systemctl(self, words: list[str]) -> str:
        command, *units = words
        if command == "list-units":
            running = [unit for unit in LISTED if unit in self.started | {*LISTED[-2:]}]
            return "".join(f"{unit} loaded active running\n" for unit in running)
        self.units.append(" ".join(words))
        if command == "stop":
            self.started -= {*units}
            if UNITS[0] in units:
                self.write()
                self.inbox.desk = None
        if command == "start":
            if self.failing and self.failing in units:
                raise BadEnd(f"systemctl ended with status 1: {self.failing}")
            self.started |= {*units}
            if UNITS[0] in units:
                self.inbox.desk = read(self.database)
        return ""

    def program(self, words: list[str], text: str) -> str:
        database = Path(words[words.index("--db") + 1])
        desk = read(database) if database.exists() else FakeDesk()
        if words[-1] == "gaps":
            return "".join(f"{','.join(row)}\n" for name in desk.series for row in desk.gaps(name))
        answers = desk.batch(text)
        write(desk, database)
        return answers

    def machine(self, kind: str = "", at: int = -1) -> ShopMachine:
        found = ShopMachine(self, (kind, at))
        found.is_output_broken = self.is_output_broken
        return found

    def take_copy(self, name: str) -> Path:
        """A copy as desk-copy makes it."""
        folder = self.copies / name
        (folder / LEDGERS).mkdir(parents=True)
        self.write()
        for file in filter(Path.exists, (self.database, self.database.with_name("corrections"))):
            shutil.copy(file, folder / file.name)
        self.inbox.work(lambda inbox: inbox.machine.backup(inbox.folder / LEDGER, folder / LEDGERS / f"{SERIES}.db"))
        return folder
