"""A desk in the database of another program: one is made there if that is asked for, and then answers as any other;
with `--existing`, and by the commands that only list, none is, and the file stays byte for byte."""

from collections.abc import Iterator
from functools import partial

from tests.program.desk.commands import FIRST
from tests.program.databases import DATABASE, batch, complaints, execute, rows, table_names
from tests.program.desk.existing import EXISTING, UNUSABLE
from tests.program.messages import AGREED, AGREEMENT, applied, bare, held, priced
from tests.program.room import UNREADABLE, Group, Ran, Room
from tests.running import Outcome

STRANGERS = """
CREATE TABLE dashboard (id INTEGER PRIMARY KEY, title TEXT NOT NULL);
CREATE TABLE panel (dashboard INTEGER REFERENCES dashboard, title TEXT);
CREATE INDEX panel_by_title ON panel (title);
INSERT INTO dashboard VALUES (1, 'north'), (2, 'south');
INSERT INTO panel VALUES (1, 'price'), (2, 'record');
"""

STRANGERS_ROWS = [(1, "north", "price"), (2, "south", "record")]

MESSAGE = "message.csv"


def strangers_rows(room: Room) -> list[tuple[object, ...]]:
    return rows(room, "SELECT d.id, d.title, p.title FROM dashboard d JOIN panel p ON p.dashboard = d.id ORDER BY d.id")


# The commands that only list, also over a database without `--existing`.
LISTING = ["agreements", "export", "gaps"]

# Those that may change a desk, with `--existing`.
CHANGING = ["batch", f"deliver {MESSAGE}", "gaps north", "serve --port 1 --requests 1", "migrate"]

REFUSED = [*((["--db", DATABASE], command) for command in LISTING), *((EXISTING, command) for command in CHANGING)]


def is_left(words: list[str], command: str, room: Room) -> Iterator[Outcome]:
    """SQLite reads the file as before, too."""
    execute(room, STRANGERS)
    room.write(MESSAGE, FIRST)
    found = room.path(DATABASE).read_bytes()
    name = f"another program's database: {' '.join([*words, command])}"
    for time in "once", "again":
        came = room.run(*words, *command.split(), given=UNREADABLE)
        yield Outcome(f"{name}, {time}", came, UNUSABLE)
        yield Outcome(f"{name}, {time}: is the file as it was", room.path(DATABASE).read_bytes() == found, True)
    yield Outcome(f"{name}: the tables", table_names(room), ["dashboard", "panel"])
    yield Outcome(f"{name}: the rows", (strangers_rows(room), complaints(room)), (STRANGERS_ROWS, []))


def is_not_made(command: str, room: Room) -> Iterator[Outcome]:
    """Commands that list a desk make none from a missing or an empty file."""
    for words in ["--db", DATABASE], EXISTING:
        came = room.run(*words, *command.split(), given=UNREADABLE)
        yield Outcome(f"a missing file: {' '.join([*words, command])}", came, UNUSABLE)
    yield Outcome(f"a missing file: the folder after {command}", [path.name for path in room.folder.iterdir()], [])
    room.write(DATABASE, b"")
    came = room.run("--db", DATABASE, *command.split(), given=UNREADABLE)
    yield Outcome(f"an empty file: {command}", came, UNUSABLE)
    yield Outcome(f"an empty file: the file after {command}", room.path(DATABASE).read_bytes(), b"")
    # Nor does a sound database without a table have a desk.
    execute(room, "CREATE TABLE book (title TEXT); DROP TABLE book;")
    found = room.path(DATABASE).read_bytes()
    came = room.run("--db", DATABASE, *command.split(), given=UNREADABLE)
    yield Outcome(f"a database without a table: {command}", came, UNUSABLE)
    yield Outcome(
        f"a database without a table: the file after {command}", room.path(DATABASE).read_bytes() == found, True
    )


def beside_a_desk(room: Room) -> Iterator[Outcome]:
    """A desk that is made there answers as any other, in later runs too, and the other program's rows stay."""
    execute(room, STRANGERS)
    answers = AGREED + applied(1, 1) + held(3, 2)
    came = batch(room, AGREEMENT + priced(1, "R1", "12.99") + bare(3))
    yield Outcome("a desk beside strangers' tables: the first day", came, Ran(0, answers))
    came = batch(room, bare(2) + bare(3)), room.run(*EXISTING, "gaps", "north", given=UNREADABLE)
    report = b"gaps,north,first=1,next=4,greatest=3,held=0,missing=0\n"
    yield Outcome("a desk beside strangers' tables: the next", came, (Ran(0, applied(2) + applied(3)), Ran(0, report)))
    kept = strangers_rows(room), complaints(room)
    yield Outcome("a desk beside strangers' tables: their rows", kept, (STRANGERS_ROWS, []))


GROUPS = [
    *(Group(f"{' '.join(words)} {command}", partial(is_left, words, command)) for words, command in REFUSED),
    *(Group(f"not made: {command}", partial(is_not_made, command)) for command in LISTING),
]
