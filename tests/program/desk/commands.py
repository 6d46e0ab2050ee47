"""The commands `deliver` and `gaps`."""

from collections.abc import Iterator
from functools import partial
from typing import NamedTuple

from tests.program.databases import DATABASE, batch
from tests.program.messages import AGREED, AGREEMENT, applied, bare, held, priced
from tests.program.room import UNREADABLE, Group, Ran, Room
from tests.running import Outcome

# The file with the text of a case.
FILE = "message.csv"

# Message 1 of the series `north`, and its answer.
FIRST = priced(1, "R1", "1")

APPLIED = applied(1, 1)

# Message 2 of it, without products, and its answer.
SECOND = bare(2)

HELD = held(2, 1)

SECOND_APPLIED = applied(2)


class Delivery(NamedTuple):
    """A text, the delivered files, the result at a desk with `north`, and the standard input."""

    name: str
    text: bytes
    files: list[str]
    wanted: Ran
    given: bytes | None = UNREADABLE


DELIVERIES = [
    Delivery("a message", FIRST, [FILE], Ran(0, APPLIED)),
    Delivery("a message again", FIRST, [FILE, FILE], Ran(0, APPLIED * 2)),
    Delivery(
        "an unnumbered message",
        b"Message,1,06,4012345000009,06,5012345678900,,,,,\nEndMessage,1\n",
        [FILE],
        Ran(1, b"refused,unnumbered\n"),
    ),
    Delivery("an empty file", b"", [FILE], Ran(1, b"refused,malformed,1\n")),
    Delivery("two messages in a file", bare(1) * 2, [FILE], Ran(1, b"refused,malformed,3\n")),
    Delivery(
        "a message, and a file that is not there",
        FIRST,
        [FILE, "absent.csv", FILE],
        Ran(3, APPLIED, b"onixdesk: file: absent.csv\n"),
    ),
    Delivery(
        "a refused message, and a folder",
        b"Foo,1\n",
        [FILE, "."],
        Ran(3, b"refused,malformed,1\n", b"onixdesk: file: .\n"),
    ),
    Delivery(
        "a file that is not UTF-8",
        b"Message,\xff\n",
        [FILE, FILE],
        Ran(3, b"", b"onixdesk: input: not UTF-8\n"),
    ),
    Delivery("a file of 4,194,305 bytes", b"\n" * 4_194_305, [FILE], Ran(3, b"", b"onixdesk: input: too large\n")),
    Delivery("a file of 4,194,304 bytes", b"\n" * 4_194_304, [FILE], Ran(1, b"refused,malformed,1\n")),
    Delivery("standard input", b"", ["-"], Ran(0, APPLIED), FIRST),
    Delivery("a file, and standard input", FIRST, [FILE, "-"], Ran(0, APPLIED + SECOND_APPLIED), SECOND),
    Delivery("standard input, and a file", FIRST, ["-", FILE], Ran(0, HELD + APPLIED), SECOND),
    Delivery("standard input, twice", b"", ["-", "-"], Ran(1, APPLIED + b"refused,malformed,1\n"), FIRST),
    Delivery(
        "a file, and a standard input that cannot be read",
        FIRST,
        [FILE, "-", FILE],
        Ran(3, APPLIED, b"onixdesk: file: -\n"),
    ),
    Delivery("a file whose name is a path to -", b"", ["./-"], Ran(3, b"", b"onixdesk: file: ./-\n"), FIRST),
]


def deliver(case: Delivery, room: Room) -> Iterator[Outcome]:
    room.write(FILE, case.text)
    agreed = batch(room, AGREEMENT)
    came = room.run("--db", DATABASE, "deliver", *case.files, given=case.given)
    wanted = Ran(0, AGREED), case.wanted
    yield Outcome(f"deliver: {case.name}", (agreed, came), wanted)


def without_agreements(room: Room) -> Iterator[Outcome]:
    """Without a database the desk has no agreements."""
    room.write("north.csv", FIRST)
    for words in ["deliver", "north.csv"], ["gaps", "north"], ["gaps", "North"], ["gaps", ""]:
        came = room.run(*words, given=UNREADABLE)
        wanted = Ran(1, b"refused,unknown-series\n")
        yield Outcome(f"without agreements: {words}", came, wanted)
        came = room.run(*words, given=UNREADABLE, is_full=True)
        wanted = Ran(3, b"", b"onixdesk: output\n")
        yield Outcome(f"without agreements, unwritten: {words}", came, wanted)


GROUPS = [Group(case.name, partial(deliver, case)) for case in DELIVERIES]
