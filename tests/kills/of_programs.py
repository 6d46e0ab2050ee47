"""desk-prices, which replaces a file; and desk-renew and correct.sh, which replace a desk, with all that they call."""

import json
import os
import shutil
from collections.abc import Iterator, Sequence

from tests.kills.of_copies import Files, OfRestore, files_in_desk
from tests.kills.scenarios import Scenario, run_again
from tests.program.databases import DATABASE, batch
from tests.program.files.desk_renew import AGREEMENTS, NORTH, kept, message, product
from tests.program.room import Room
from tools.root import ROOT
from tools.words import Row, Word

BEFORE = b"isbn;price\r\n9781234567897;7.00\r\n"
SHOP = {
    "country": "GB",
    "currency": "GBP",
    "price_type": "05",
    "price_file": {"columns": ["isbn", "price"], "separator": ";"},
}
RULES = b'[[rule]]\nseries = "*"\ncodes = ["21"]\n'


class OfPrices(Scenario):
    """The till's file is the old one or the new one, whole."""

    def __init__(self, room: Room) -> None:
        super().__init__(room)
        batch(room, (AGREEMENTS + message(NORTH, 1, *product("R1"))).encode())
        room.write("desk.json", json.dumps(SHOP).encode())
        room.write("rules.toml", RULES)

    def prepare(self) -> None:
        shutil.rmtree(self.room.path("till"), ignore_errors=True)
        self.room.path("till").mkdir()
        self.room.write("till/prices.csv", BEFORE)

    def words(self) -> Sequence[Word]:
        places: list[Word] = ["--settings", "desk.json", "--rules", "rules.toml", "--program", self.room.program]
        return [ROOT / "bin/desk-prices", *places, "--day", "20250301", DATABASE, "till"]

    def wrong_then(self) -> Iterator[str]:
        now = self.room.path("till/prices.csv").read_bytes()
        if now not in (BEFORE, BEFORE.replace(b"7.00", b"8.00")):
            yield f"the till has {now!r}"

    def wrong_at_end(self) -> Iterator[str]:
        if (ran := run_again(self.room, self.words(), self.environment())).status:
            yield f"{ran}"
        if b"8.00" not in self.room.path("till/prices.csv").read_bytes():
            yield "the till has the old prices"


class OfRenewal(OfRestore):
    """A desk of two messages is replaced by one that begins with its catalogue, on a machine where no unit runs."""

    def __init__(self, room: Room) -> None:
        Scenario.__init__(self, room)
        for name in ("desk", "programs"):
            room.path(name).mkdir()
        text = AGREEMENTS + message(NORTH, 1, *product("R1")) + message(NORTH, 2, *product("R1", amount="9"))
        batch(room, text.encode())
        self.old = self.new = self.moved("before")
        self.rows = self.rows_in("before")
        self.script("systemctl", "exit 0")

    def words(self) -> Sequence[Word]:
        places = ["--settings=none", f"--program={self.room.program}"]
        return [ROOT / "bin/desk-renew", "--db", f"desk/{DATABASE}", *places, "--yes"]

    def rows_in(self, folder: str) -> dict[str, list[Row]]:
        """The rows of a desk, read from a copy: SQLite would change the desk."""
        looked = self.room.path("looked")
        looked.mkdir()
        for name in (DATABASE, f"{DATABASE}-wal"):
            if self.room.path(f"{folder}/{name}").exists():
                shutil.copy(self.room.path(f"{folder}/{name}"), looked / name)
        found = kept(self.room, f"looked/{DATABASE}")
        shutil.rmtree(looked)
        return found

    def is_sound(self) -> bool:
        return self.rows_in("desk") == self.rows

    def wrong_then(self) -> Iterator[str]:
        """A desk that can be started is one of the two, whole."""
        if self.room.path(f"desk/{DATABASE}").exists() and not self.is_sound():
            yield "what stands there is neither desk"

    def wrong_at_end(self) -> Iterator[str]:
        if (ran := run_again(self.room, self.words(), self.environment())).status != self.status:
            yield f"{ran}"
        if not self.is_sound():
            yield "what stands there has other rows"
        if self.old not in self.befores():
            yield f"what stood there is {os.listdir(self.room.path('desk'))}"

    def befores(self) -> list[Files]:
        data = files_in_desk(self.room)
        names = [name for name in data if name.startswith(f"{DATABASE}.") and not name.endswith("-wal")]
        logs = [f"{name}-wal" for name in names]
        return [{DATABASE: data[name], f"{DATABASE}-wal": data[log]} for name, log in zip(names, logs) if log in data]


class OfCorrection(OfRenewal):
    """The restore in which correct.sh takes the second message out of a desk, on a machine where no unit runs; what is
    run then is correct.sh."""

    def __init__(self, room: Room) -> None:
        super().__init__(room)
        batch(room, (AGREEMENTS + message(NORTH, 1, *product("R1"))).encode())
        room.write("after.csv", room.run("--db", DATABASE, "export").output)
        self.moved("wanted")
        self.wanted = self.rows_in("wanted")
        self.restore = f"{ROOT}/bin/desk-restore --db={room.path('desk')}/{DATABASE} --settings=none --yes"
        self.script("onixdesk", f'exec "{room.program}" "$@"')
        self.script("desk-copy", f'exec "{ROOT}/bin/desk-copy" "$@"')
        self.script("desk-restore", f'exec {self.restore} "$@"')
        text = ROOT.joinpath("programs/desk-restore/correct.sh").read_text(encoding="utf-8")
        text = text.replace("/var/lib/onixdesk/shop.db", f"{room.path('desk')}/{DATABASE}")
        self.script("correct", text.partition("\n")[2].replace("/var/tmp/", f"{room.folder}/"))

    def words(self) -> Sequence[Word]:
        return [*self.restore.split(), "--text", "after.csv", "before"]

    def is_sound(self) -> bool:
        return self.rows_in("desk") in (self.rows, self.wanted)

    def wrong_at_end(self) -> Iterator[str]:
        take_out = "/^Message,2,06,N,06,S,2,/,/^EndMessage,/d"
        ran = run_again(self.room, [self.room.path("programs/correct"), take_out], self.environment())
        if ran.status != self.status or self.rows_in("desk") != self.wanted or self.old not in self.befores():
            yield f"{ran}: there is {os.listdir(self.room.path('desk'))}"
