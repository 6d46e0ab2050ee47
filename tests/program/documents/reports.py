"""docs/REPORTS.md: each of its questions in SQL is asked as it stands, and its output compared."""

import json
from collections.abc import Iterator

from tests.program.documents.examples import blocks, commands, example, like_the_repository, written
from tests.program.room import Ran, Room, needs
from tests.running import Outcome

PAGE = "docs/REPORTS.md"
TITLES = "/var/lib/onixdesk-state"

# The form in which an inbox keeps titles: series, number, moment, title, subtitle, contributors and publisher.
KEPT = {
    "9781234567897": [["north", 2, 1741100000, "A Week of Books", "", "Ann Author", "House"], ["west", 40, 1740000000]]
}


def desks(room: Room) -> Ran:
    """The page's first commands, and the copies of two days."""
    like_the_repository(room)
    room.path("titles/97812").mkdir(parents=True)
    room.write("titles/97812/97812345.json", json.dumps(KEPT).encode())
    (batch, copy), *_ = blocks(PAGE)
    room.call(["sh", "-c", batch])
    ran = room.call(["sh", "-c", copy])
    for day in ("monday", "tuesday"):
        room.run("--db", "days/shop.db", "batch", given=example(f"examples/shop/{day}.csv"))
        room.call(["bin/desk-copy", "days/shop.db", day])
    return ran


@needs("sqlite3")
def questions(room: Room) -> Iterator[Outcome]:
    room.path("days").mkdir()
    yield Outcome(f"{PAGE}: the copy", desks(room).status, 0)
    asked = [lines for lines in blocks(PAGE) if lines[0].startswith("sqlite3 ")]
    for ((command, shown),) in map(commands, asked):
        came = room.call(["sh", "-c", command.replace(TITLES, str(room.folder))])
        yield Outcome(f"{PAGE}: {command}", came, Ran(0, written(shown)))
    yield Outcome(f"{PAGE}: its questions", len(asked), 5)
