"""Inputs that are long or bad, or do not end."""

import subprocess
from collections.abc import Iterator

from tests.program.databases import batch
from tests.program.messages import AGREED, AGREEMENT, applied
from tests.program.room import SECONDS, Ran, Room, without_reasons
from tests.running import Outcome

OPENING = b"Message,1,06,4012345000009,06,5012345678900,1,,,,\n"

PRODUCT = b"Product,R1,03,15,9781234567897\n"

INPUTS = [
    ("a text of 4,194,304 bytes", AGREEMENT + b"\n" * 4_194_256, Ran(0, AGREED)),
    ("a text of 4,194,305 bytes", AGREEMENT + b"\n" * 4_194_257, Ran(3, b"", b"onixdesk: input: too large\n")),
    (
        "a message of 20,000 records",
        AGREEMENT + OPENING + PRODUCT * 19_998 + b"EndMessage,19999\n",
        Ran(
            0,
            b"agreed,north,1\n" b"applied,north,1,replaced=19998,updated=0,deleted=0,unknown=0,ignored=0\n",
        ),
    ),
    (
        "a message of 20,001 records",
        OPENING + PRODUCT * 19_999 + b"EndMessage,20000\n",
        Ran(1, b"refused,malformed,20001\n"),
    ),
    ("a text that is not UTF-8", AGREEMENT + b"\xff", Ran(3, b"", b"onixdesk: input: not UTF-8\n")),
]


def long_and_bad_inputs(room: Room) -> Iterator[Outcome]:
    for name, text, wanted in INPUTS:
        yield Outcome(name, room.run("batch", given=text), wanted)


def largest_record(room: Room) -> Iterator[Outcome]:
    """A message of 20,000 records with one product, in a file, from which another run reads it."""
    supply = b"ProductSupply,GB IE,,\n" + b"SupplyDetail,04,06,4012345000009,North Books,21,\n" * 19_996
    came = batch(room, AGREEMENT + OPENING + PRODUCT + supply + b"EndMessage,19999\n")
    yield Outcome("the largest record", came, Ran(0, AGREED + applied(1, 1)))
    came = batch(room, b"AskCatalogue,north\n")
    kept = b"catalogue,north,1\nrecord,R1,15,9781234567897\n" + supply
    yield Outcome("the largest record, as it is kept", came, Ran(0, kept))


def unended_input(room: Room) -> Iterator[Outcome]:
    """A text above the limit is read to one byte past it, without waiting for its end."""
    with room.start("batch", stdin=subprocess.PIPE) as process:
        try:
            assert process.stdin and process.stdout and process.stderr
            process.stdin.write(b"\n" * 4_194_305)
            process.stdin.flush()
            status = process.wait(timeout=SECONDS)
            came = Ran(status, process.stdout.read(), without_reasons(process.stderr.read()))
        finally:
            process.kill()
    yield Outcome("an input that does not end", came, Ran(3, b"", b"onixdesk: input: too large\n"))
