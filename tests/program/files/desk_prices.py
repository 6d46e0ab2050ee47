"""The till's file, over a desk of the built program."""

import json
import time
from collections.abc import Iterator
from typing import Any

from onixdesk_shop.machine import Machine
from onixdesk_shop.prices.rows import may_be_old
from tests.program.databases import DATABASE, batch
from tests.program.room import Ran, Room
from tests.running import Outcome
from tools.root import ROOT

ONE, TWO, THREE = "9780000000001", "9780000000002", "9780000000003"

AGREEMENTS = "Agree,north,06,N,,,1\nAgree,south,06,S,,,1\n"

HEADER = "Message,2,06,{},,,1,,,,GBP\n"


def product(reference: str, isbn: str, code: str, *prices: str) -> list[str]:
    rows = [f"Product,{reference},03,15,{isbn}", "ProductSupply,,,", f"SupplyDetail,04,,,W,{code},"]
    return [*rows, *(f"Price,{price}" for price in prices)]


def message(sender: str, *rows: str) -> str:
    lines = [HEADER.format(sender).rstrip(), *rows]
    return "\n".join([*lines, f"EndMessage,{len(lines)}\n"])


# North has the first two, the second one not available, and a recommended price only for the first; south has the first
# one dearer, and a recommended price for the second.
NORTH = message(
    "N",
    *product(
        "A",
        ONE,
        "21",
        "05,6.00,,,,,20250101,20250331",
        "05,7.00,,,,,20250401,",
        "05,5.50,,,,,20250101,,10",
        "02,10.00,,,,,,",
    ),
    *product("B", TWO, "40", "05,5.00,,,,,,"),
)
SOUTH = message("S", *product("X", ONE, "21", "05,8.00,,,,,,"), *product("Y", TWO, "40", "02,12.00,,,,,,"))

SETTINGS = {
    "series": [{"name": "north", "words": "North & Co"}, {"name": "south", "words": "South"}],
    "country": "GB",
    "currency": "GBP",
    "price_type": "05",
    "recommended_type": "02",
    "quantities": [1, 10],
}

RULES = '[[rule]]\nseries = "*"\ncodes = ["21"]\n'

WANTED = [
    "isbn,wholesaler,series,reference,availability,price,currency,rrp,day,may_be_old",
    f"{ONE},North & Co,north,A,21,6.00,GBP,10.00,20250310,",
    f"{TWO},,,,,,GBP,12.00,20250310,yes",
]


def run(room: Room, *words: str) -> Ran:
    places = ["--settings", "desk.json", "--rules", "rules.toml", "--state", "state", "--program", str(room.program)]
    return room.call([ROOT / "bin/desk-prices", *places, "--day", "20250310", *words, DATABASE, "till"])


# The report of north's inbox while nothing waits; and each value that makes its rows old.
SHOWN: dict[str, Any] = {"desk": True, "silent": False, "next": 2, "greatest": 1}
SHOWN |= dict.fromkeys(("quarantined", "refused", "waiting"), 0)
OLD = {"desk": False, "silent": True, "greatest": 3, "quarantined": 1, "refused": 1, "waiting": 1}


def a_file_of_prices(room: Room) -> Iterator[Outcome]:
    batch(room, (AGREEMENTS + NORTH + SOUTH).encode())
    for name in ("till", "state"):
        room.path(name).mkdir()
    room.write("rules.toml", RULES.encode())
    room.write("desk.json", json.dumps(SETTINGS).encode())
    shown = SHOWN | {"at": int(time.time())}
    room.write("state/north.json", json.dumps(shown).encode())
    came = run(room)
    yield Outcome("status", (came.status, came.errors), (0, b""))
    yield Outcome("lines", room.path("till/prices.csv").read_text().splitlines(), WANTED)
    form = {"columns": ["isbn", "price"], "heading": False, "decimal": ","}
    room.write("desk.json", json.dumps(SETTINGS | {"price_file": form}).encode())
    room.write("state/north.json", json.dumps(shown | {"quarantined": 1}).encode())
    came = run(room)
    yield Outcome("another form", room.path("till/prices.csv").read_text(), f'{ONE};"6,00"\n{TWO};\n')
    yield Outcome("the file of before", room.path("till/prices.before.csv").read_text().splitlines(), WANTED)
    room.write("desk.json", json.dumps(SETTINGS | {"price_file": {"columns": ["isbn"], "file": "x"}}).encode())
    came = run(room)
    yield Outcome("a wrong key", (came.status, came.errors), (2, b"desk-prices: desk.json: price_file: file\n"))
    room.write("desk.json", json.dumps(SETTINGS | {"price_type": "03"}).encode())
    came, kept = run(room), room.path("till/prices.csv").read_text()
    yield Outcome("nothing is chosen", (came.status, kept), (1, f'{ONE};"6,00"\n{TWO};\n'))
    came = run(room, "--day", "20250230")
    yield Outcome("no day of the calendar", (came.status, b"20250230 is not a day YYYYMMDD" in came.errors), (2, True))


def rows_that_may_be_old(room: Room) -> Iterator[Outcome]:
    machine, path = Machine("test"), room.path("north.json")
    for name, value in [("version", 1), *OLD.items()]:
        path.write_text(json.dumps(SHOWN | {"at": machine.now(), name: value}))
        yield Outcome(f"{name} is {value}", bool(may_be_old(machine, path)), name in OLD)
