"""Commands of docs/PRICES.md, each run as the page has it, in a room that stands for a shop's machine."""

import csv
from collections.abc import Iterator

from tests.program.documents.examples import block_with, written
from tests.program.documents.mistakes import AGREED
from tests.program.files.machines import Machine, machine
from tests.program.room import Room
from tests.running import Outcome

PAGE = "docs/PRICES.md"

ISBN = "9781234567897"
NIGHT = "var/lib/onixdesk-prices/prices.csv"


def message(number: int, amount: str) -> str:
    """What the shop pays for the article, and what readers pay."""
    lines = [
        f"Message,1,06,4012345000009,06,5012345678900,{number},1,20250401,02,GBP",
        f"Product,R1,03,15,{ISBN}",
        "ProductSupply,,WORLD,",
        "SupplyDetail,04,06,4012345000009,North Books,21,",
        f"Price,05,{amount},GBP,,WORLD,,,",
        "Price,02,12.00,GBP,,WORLD,,,",
    ]
    return written([*lines, f"EndMessage,{len(lines)}"]).decode()


def line_of(desk: Machine, name: str) -> dict[str, str]:
    """The line of the one article."""
    with open(desk.room.path(name), encoding="utf-8", newline="") as file:
        (row,) = csv.DictReader(file)
    return row


def first_command(room: Room) -> Iterator[Outcome]:
    """Without a rule no line has a price."""
    with machine(room, AGREED + message(1, "8.00")) as desk:
        room.path("FOLDER").mkdir()
        (command,) = block_with(PAGE, "/var/lib/onixdesk/shop.db FOLDER")
        yield Outcome(f"{PAGE}: {command}", desk.run([command]).status, 0)
        row = line_of(desk, "FOLDER/prices.csv")
        yield Outcome(f"{PAGE}: without a rule", (row["isbn"], row["price"]), (ISBN, ""))


def set_up(room: Room) -> Iterator[Outcome]:
    with machine(room, AGREED + message(1, "8.00")) as desk:
        ran = desk.run(["set -e", *block_with(PAGE, "printf '[[rule]]")])
        yield Outcome(f"{PAGE}: the rule", (ran.status, ran.errors), (0, b""))
        ran = desk.run(["set -e", *block_with(PAGE, "systemctl enable --now onixdesk-prices.timer")])
        yield Outcome(f"{PAGE}: each night", (ran.status, ran.errors), (0, b""))
        shown = ran.output.decode().splitlines()[:2]
        yield Outcome(f"{PAGE}: what head shows", shown, room.path(NIGHT).read_text().splitlines())
        row = line_of(desk, NIGHT)
        found = {name: row[name] for name in ("isbn", "wholesaler", "price", "rrp")}
        wanted = {"isbn": ISBN, "wholesaler": "North Books", "price": "8.00", "rrp": "12.00"}
        yield Outcome(f"{PAGE}: its line", found, wanted)
        desk.ask(*message(2, "9.00").splitlines())
        desk.run(["systemctl start onixdesk-prices"])
        changed = desk.run(block_with(PAGE, "prices.before.csv")).output.decode().splitlines()
        found = [line[:1] for line in changed if "8.00" in line or "9.00" in line]
        yield Outcome(f"{PAGE}: what changed", found, ["<", ">"])


def form_for_a_till(room: Room) -> Iterator[Outcome]:
    """The block is put where the page says."""
    with machine(room, AGREED + message(1, "8.00")) as desk:
        desk.run(["set -e", *block_with(PAGE, "printf '[[rule]]")])
        path = room.path("etc/onixdesk/page/desk.json")
        form = "\n".join(block_with(PAGE, '"price_file"'))
        path.write_text(f"{path.read_text().rstrip().removesuffix('}').rstrip()},\n{form}\n}}\n", encoding="utf-8")
        ran = desk.run(["set -e", "systemctl start onixdesk-prices"])
        yield Outcome(f"{PAGE}: the form", (ran.status, ran.errors), (0, b""))
        lines = room.path(NIGHT).read_text(encoding="utf-8").splitlines()
        yield Outcome(f"{PAGE}: the till's file", lines, ["EAN;Net;From", f"{ISBN};8.00;North Books"])
