"""The inbox of a wholesaler without numbers, killed over four files, one of which is refused."""

import itertools
import json
import os
import shutil
import sqlite3
import urllib.request
from collections.abc import Iterator, Sequence
from contextlib import closing
from typing import Any

from tests.kills.scenarios import Scenario, run_again
from tests.program.databases import DATABASE, batch
from tests.program.room import Room
from tests.program.serving import started
from tests.shop.feeds import Book, feed
from tools.root import ROOT
from tools.words import Word

# Each run has a series of its own; the desk agrees on so many.
SERIES = 600

# Our files are older than any clock.
BEGINNING = 1_600_000_000


class OfInbox(Scenario):
    """Each run begins with new files and an empty ledger. After the kill another file comes, behind the others."""

    status = 1

    def __init__(self, room: Room) -> None:
        super().__init__(room)
        batch(room, "".join(f"Agree,s{place},06,S{place},,,1\n" for place in range(SERIES)).encode())
        self.desk = started(room, ["--db", DATABASE, "--existing"], None, ["--batches", str(room.path("batches"))])
        self.places = itertools.count()
        for name in ("settings", "incoming", "inboxes", "state"):
            room.path(name).mkdir()

    def prepare(self) -> None:
        for name in ("incoming", "inboxes"):
            shutil.rmtree(self.room.path(name))
            self.room.path(name).mkdir()
        self.series = f"s{next(self.places)}"
        settings = f"BATCHES={self.room.path('batches')}\nNUMBER=next\n"
        more = f"SENDER=06,S{self.series[1:]}\nUNCHANGED_SECONDS=0\n"
        self.room.write(f"settings/{self.series}.conf", f"{settings}{more}".encode())
        for name in ("incoming", "inboxes"):
            self.room.path(f"{name}/{self.series}").mkdir()
        self.sent: dict[str, bytes] = {}
        for name, price in {"d.xml": "1.00", "b.csv": "", "c.xml": "3.00", "a.xml": "4.00"}.items():
            self.put(name, price)

    def put(self, name: str, price: str) -> None:
        """Puts a file there, a minute younger than the one before; one without a price is refused."""
        text = feed(None, [Book(1, price)], sender=f"S{self.series[1:]}") if price else "Foo\n"
        path = self.room.path(f"incoming/{self.series}/{name}")
        path.write_text(text)
        self.sent[name] = text.encode()
        os.utime(path, (BEGINNING + 60 * len(self.sent),) * 2)

    def words(self) -> Sequence[Word]:
        places = [word for name in ("settings", "incoming", "inboxes", "state") for word in (f"--{name}", name)]
        more = ["--rules", "none", "--page", "none", "--program", str(self.room.program)]
        return [ROOT / "bin/onixdesk-inbox", *places, *more, self.series]

    def asked(self, target: str) -> dict[str, Any]:
        with urllib.request.urlopen(f"http://127.0.0.1:{self.desk.port}{target}") as reply:
            found: dict[str, Any] = json.load(reply)
            return found

    def wrong_then(self) -> Iterator[str]:
        """The bytes of each file are in its folder, or in the store."""
        paths = [path for name in ("incoming", "inboxes") for path in self.room.path(name).rglob("*")]
        there = [path.read_bytes() for path in paths if path.is_file()]
        yield from (f"{name} is lost" for name, data in self.sent.items() if data not in there)

    def wrong_at_end(self) -> Iterator[str]:
        self.put("z.xml", "5.00")
        ran = run_again(self.room, self.words(), self.environment())
        if ran.status not in (0, 1):
            yield f"{ran}"
        with closing(sqlite3.connect(self.room.path(f"inboxes/{self.series}/ledger.db"))) as ledger:
            states = dict(ledger.execute("SELECT name, state FROM file"))
            numbers = [
                name for (name,) in ledger.execute("SELECT name FROM file WHERE state = 'applied' ORDER BY number")
            ]
        ordered = ["d.xml", "c.xml", "a.xml", "z.xml"]
        # A name is ours if the inbox was killed while it removed the file.
        if len(numbers) != 4 or [name for name in numbers if not name.startswith("taken-")] != [
            name for name in ordered if name in numbers
        ]:
            yield f"the files by number are {numbers}"
        if "refused" not in states.values() or len(states) != 5:
            yield f"the states are {states}"
        price = "/articles/9780000000001/price?day=20261130&country=GB&currency=GBP&type=02"
        offers = [offer["amount"] for offer in self.asked(price)["offers"] if offer["series"] == self.series]
        if offers != ["5.000"]:
            yield f"the price is {offers}"
        gaps = self.asked(f"/series/{self.series}/gaps")
        if (gaps["next"], gaps["greatest"], gaps["held"]) != (5, 4, 0):
            yield f"the desk says {gaps}"
        if left := os.listdir(self.room.path(f"incoming/{self.series}")):
            yield f"left is {left}"

    def close(self) -> None:
        self.desk.process.kill()
        self.desk.process.communicate()
