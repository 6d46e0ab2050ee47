"""Commands of the pages with one thing wrong: what is said is enough to mend it.

The commands are in tests/refusals/mistakes.txt: the name of a case has the line that says what to do.
"""

from collections.abc import Iterator

from tests.program.messages import AGREEMENT, priced
from tests.program.room import Room
from tests.program.written_cases import TESTS, read_file
from tests.running import Outcome

MISTAKES = read_file(TESTS / "refusals/mistakes.txt")

FEED = b"""<?xml version="1.0"?>
<ONIXMessage release="3.0"/>
"""


def slips(room: Room) -> Iterator[Outcome]:
    message = priced(1, "R1", "4.14")
    for case in MISTAKES:
        number, _, line = case.name.partition(": ")
        for file in room.folder.iterdir():
            file.unlink()
        room.write("first.csv", AGREEMENT + message)
        room.write("message.csv", message)
        room.write("feed.xml", FEED)
        room.run("--db", "shop.db", "batch", given=AGREEMENT + message)
        came = room.call(["sh", "-c", f'onixdesk() {{ "$0" "$@"; }}; {case.text}', room.program], b"")
        yield Outcome(f"a slip: {number}: the status", came.status in (1, 2, 3), True)
        said = came.errors.decode().splitlines()
        yield Outcome(f"a slip: {number}: {line}", line if line in said else said, line)
