"""Tables of the shop's terms that the command `terms` reads or refuses, with the lines on standard error."""

import tomllib
from collections.abc import Iterator
from typing import Any

from tests.program.room import UNREADABLE, Ran, Room
from tests.program.written_cases import TESTS, Written, read_file, repeated, unescaped
from tests.running import Outcome

TERM = b'[[term]]\ntypes = ["01"]\nnet = "05"\npercent = "42.5"\n'


# The types of prices that include tax.
WITH_TAX = frozenset("02 04 07 09 12 14 17 22 24 27 34 42".split())


def preceded(later: int, earlier: int) -> bytes:
    return b"onixdesk: terms: term %d never counts: term %d always precedes it\n" % (later, earlier)


def doubt(term: dict[str, Any]) -> str:
    """Why the types of a term do not fit its tax; empty if they do."""
    have_tax = {kind in WITH_TAX for kind in term["types"]}
    net_has_tax = term["net"] in WITH_TAX
    if "tax" not in term:
        mixed = "has no tax, and its types and net are of prices with tax and without"
        return "" if have_tax == {net_has_tax} else mixed
    takes_none = term["tax"] != "feed" and float(term["tax"]) == 0
    fits = have_tax == {True} and not net_has_tax
    return "" if takes_none or fits else "has a tax, and a type is of prices without, or net with it"


def lines(text: str, earlier: dict[int, int]) -> Iterator[bytes]:
    for number, term in enumerate(tomllib.loads(text).get("term", []), 1):
        if number in earlier:
            yield preceded(number, earlier[number])
        elif doubt(term):
            yield f"onixdesk: terms: term {number} {doubt(term)}\n".encode()


def wanted(case: Written) -> Ran:
    said, *warned = [head for head, _ in case.parts]
    if not said.startswith("terms "):
        return Ran(2, b"", f"onixdesk: terms: {said}\n".encode())
    if warned == ["all preceded"]:
        earlier = dict.fromkeys(range(2, 1000), 1)
    else:
        earlier = {int(later): int(first) for later, first in [line.split()[1:] for line in warned]}
    text = unescaped(repeated(case.text)).decode()
    return Ran(0, f"{said}\n".encode(), b"".join(lines(text, earlier)))


def tables(room: Room) -> Iterator[Outcome]:
    for case in read_file(TESTS / "rules/terms.txt"):
        room.write("north.toml", unescaped(repeated(case.text)))
        came = room.run("terms", "north.toml", given=UNREADABLE)
        yield Outcome(f"terms: {case.name}", came, wanted(case))
        came = room.told("convert", "--terms", "north.toml", "absent.xml", given=UNREADABLE)
        # The FILE is opened only after a table that is read.
        is_read = wanted(case).status == 0
        found = Ran(came.status) if is_read else came
        yield Outcome(f"convert by terms: {case.name}", found, Ran(3) if is_read else wanted(case))


# Name, text that is not TOML, and the line that is wrong.
UNREAD = [
    ("no value", b"term = ", 1),
    ("a text that is not closed", b'[[term]]\n\nnet = "05\n', 3),
    ("a key twice", TERM + b'net = "07"\n', 5),
    ("not UTF-8", b"# The shop\n# \xff\n", 2),
    ("a byte 0", b"# The shop\nterm = []\0\n", 2),
    ("deep arrays", b"term = " + b"[" * 100_000, 1),
]


def tables_that_are_no_toml(room: Room) -> Iterator[Outcome]:
    """The cause is in the parser's own words."""
    for name, text, line in UNREAD:
        room.write("north.toml", text)
        came = room.run("terms", "north.toml", given=UNREADABLE)
        place, _, cause = came.errors.removesuffix(b"\n").rpartition(b": ")
        place_wanted = 2, b"", b"onixdesk: terms: not TOML: line %d" % line
        yield Outcome(f"terms: {name}", (came.status, came.output, place), place_wanted)
        yield Outcome(f"terms: {name}: the cause", (cause != b"", b"\n" in cause), (True, False))


def what_else_it_reads(room: Room) -> Iterator[Outcome]:
    room.write("north.toml", TERM)
    full = room.run("terms", "north.toml", is_full=True)
    yield Outcome("terms: a full output", full, Ran(3, b"", b"onixdesk: output\n"))
    came = room.run("--db", "shop.db", "--rules", "absent.toml", "terms", "north.toml")
    yield Outcome("terms: behind other options", came, Ran(0, b"terms 1\n"))
    room.write("-", TERM)
    yield Outcome("terms: a file of the name -", room.run("terms", "-", given=UNREADABLE), Ran(0, b"terms 1\n"))
    for words in (), ("north.toml", "north.toml"):
        status = room.run("terms", *words).status
        yield Outcome(f"terms: {len(words)} files", status, 2)
    names = sorted(path.name for path in room.folder.iterdir())
    yield Outcome("terms: no desk is opened", names, ["-", "north.toml"])
