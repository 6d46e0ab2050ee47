"""Files that are no desk and no database: each command refuses them, and leaves them byte for byte as they were. It
also refuses a desk with a damaged page, which has to be restored and not begun anew."""

from collections.abc import Callable, Iterator
from functools import partial

from tests.program.desk.commands import FIRST
from tests.program.databases import DATABASE
from tests.program.messages import AGREED, AGREEMENT
from tests.program.room import Group, Ran, Room
from tests.running import Outcome

# The size of a page in a desk's file.
PAGE = 4096

MESSAGE = "message.csv"

COMMANDS = ["batch", f"deliver {MESSAGE}", "gaps north", "serve --port 1 --requests 1", "migrate"]


def letter(room: Room) -> bytes:
    return b"Dear bookseller,\n\nour prices for the spring are enclosed.\n\nNorth Books\n"


def zero_byte(room: Room) -> bytes:
    """The making of a database begins with this byte, after its log."""
    return b"\0"


def desk_without_page(number: int, room: Room) -> bytes:
    """A desk with an agreement and a message, and zeros for the page of that number, from 1 on."""
    room.run("--db", "whole.db", "batch", given=AGREEMENT + FIRST)
    whole = room.path("whole.db").read_bytes()
    return whole[: (number - 1) * PAGE] + bytes(PAGE) + whole[number * PAGE :]


# The contents of each file. The first page of a database has its header; the second belongs to a table.
FILES = {
    "a letter": letter,
    "a zero": zero_byte,
    "a desk without its first page": partial(desk_without_page, 1),
    "a desk without its second page": partial(desk_without_page, 2),
}


def is_refused(name: str, contents: Callable[[Room], bytes], room: Room) -> Iterator[Outcome]:
    held = contents(room)
    room.write(DATABASE, held)
    room.write(MESSAGE, FIRST)
    for command in COMMANDS:
        came = room.run("--db", DATABASE, *command.split(), given=AGREEMENT)
        yield Outcome(f"{name}: {command}", (came.status, came.output), (3, b""))
        is_same = room.path(DATABASE).read_bytes() == held
        yield Outcome(f"{name}: the file after {command} is as it was", is_same, True)


def is_begun(room: Room) -> Iterator[Outcome]:
    """Beside the log of a stopped opening, one byte is a desk that is not made yet."""
    room.run("--db", "other.db", "batch")
    room.write(DATABASE, b"\0")
    room.write(f"{DATABASE}-wal", room.path("other.db-wal").read_bytes())
    came = room.run("--db", DATABASE, "--existing", "batch", given=AGREEMENT)
    yield Outcome("one byte beside a log", came, Ran(0, AGREED))


def a_log_of_somebody(room: Room) -> Iterator[Outcome]:
    """A new desk overwrites a file with the name of its log."""
    room.write(f"{DATABASE}-wal", b"notes of somebody\n" * 20)
    came = room.run("--db", DATABASE, "batch", given=AGREEMENT)
    is_kept = room.path(f"{DATABASE}-wal").read_bytes().startswith(b"notes")
    yield Outcome("somebody's file with the name of a log", (came, is_kept), (Ran(0, AGREED), False))


GROUPS = [Group(f"no database: {name}", partial(is_refused, name, contents)) for name, contents in FILES.items()]
