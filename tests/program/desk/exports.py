"""The commands that list the desk in a file: `export`, `agreements`, and `gaps` of all series."""

from collections.abc import Iterator

from tests.program.databases import DATABASE, all_rows, batch
from tests.program.room import UNREADABLE, Ran, Room
from tests.program.written_cases import TESTS
from tests.running import Outcome

FOLDER = TESTS / "exports"


def text_of(name: str) -> bytes:
    return FOLDER.joinpath(f"{name}.csv").read_bytes()


# Three series, not in order of name: one with a message of form 1 whose defaults are filled in, one that is held
# behind a gap and one that comes again, and a waiver; one whose first number is waived; one with nothing. The second
# contents of number 4 and the number before the first are refused.
REQUESTS, ANSWERS = text_of("requests"), text_of("answers")

# The same desk, series by series and number by number, and a new desk's answers to that.
EXPORT, AGAIN = text_of("export"), text_of("answers-to-export")

GAPS = text_of("gaps")

LISTS = {"agreements": text_of("agreements"), "export": EXPORT, "gaps": GAPS}


def listed(room: Room, command: str, database: str = DATABASE) -> Ran:
    return room.run("--db", database, command, given=UNREADABLE)


def lists(room: Room) -> Iterator[Outcome]:
    """Each list leaves the rows of the file as they were."""
    yield Outcome("lists: the requests", batch(room, REQUESTS), Ran(1, ANSWERS))
    rows = all_rows(room)
    for command, text in LISTS.items():
        yield Outcome(f"lists: {command}", listed(room, command), Ran(0, text))
        yield Outcome(f"lists: the rows behind {command}", all_rows(room), rows)
    yield Outcome(
        "lists: the gaps of one", room.run("--db", DATABASE, "gaps", "south"), Ran(0, GAPS.splitlines(True)[-1])
    )


def again(room: Room) -> Iterator[Outcome]:
    """A new desk gives a text back that it was given as an export, and answers a further message as the first desk."""
    batch(room, REQUESTS)
    room.write("desk.csv", listed(room, "export").output)
    came = room.run("--db", "again.db", "batch", given=room.path("desk.csv").read_bytes())
    yield Outcome("an export: the answers to it", came, Ran(0, AGAIN))
    yield Outcome("an export: the export again", listed(room, "export", "again.db"), Ran(0, EXPORT))
    late = b"Message,2,06,4012345000009,06,5012345678900,3,1,,,\nEndMessage,1\nAskCatalogue,north\n"
    wanted = Ran(
        0,
        b"applied,north,3,replaced=0,updated=0,deleted=0,unknown=0,ignored=0\n"
        b"catalogue,north,1\nrecord,R1,15,9781234567897\nProductSupply,GB IE,,\n"
        b'SupplyDetail,04,06,4012345000009,"North, Books",21,\nPrice,02,9.000,GBP,,WORLD,,,\n',
    )
    for database in (DATABASE, "again.db"):
        came = room.run("--db", database, "batch", given=late)
        yield Outcome(f"an export: a late message, {database}", came, wanted)
    first, second = (listed(room, "export", database) for database in (DATABASE, "again.db"))
    yield Outcome("an export: both desks behind it", second, first)


def cut_between_requests(room: Room) -> Iterator[Outcome]:
    """However an export is cut before a record that begins a request, the parts make the desk again."""
    lines = EXPORT.splitlines(keepends=True)
    begins = [place for place, line in enumerate(lines) if line.startswith((b"Agree,", b"Message,", b"Waive,"))]
    for place in begins[1:]:
        database = f"cut-{place}.db"
        for part in lines[:place], lines[place:]:
            room.run("--db", database, "batch", given=b"".join(part))
        yield Outcome(
            f"an export that is cut before line {place + 1}", listed(room, "export", database), Ran(0, EXPORT)
        )


def empty_desks(room: Room) -> Iterator[Outcome]:
    """A new desk has nothing to list, and a desk in memory cannot be listed."""
    batch(room, b"")
    for command in LISTS:
        yield Outcome(f"an empty desk: {command}", listed(room, command), Ran(0))
        why = b"write the database file before the command, as in: onixdesk --db FILE COMMAND"
        wanted = Ran(2, b"", b"onixdesk: this command needs --db\nonixdesk: " + why + b"\n")
        yield Outcome(f"no desk: {command}", room.told(command, given=UNREADABLE), wanted)


def too_large(room: Room) -> Iterator[Outcome]:
    """A message with quotation marks outside quotes is longer when written: here each product has 100 of them in its
    reference, so that the message comes with less than 4,194,304 bytes and is written with more."""
    marks = '"' * 100
    products = "".join(f"Product,R{place}{marks},05,15,9781234567897\n" for place in range(19_998))
    agreement = "Agree,north,06,4012345000009,06,5012345678900,1\n"
    text = f"{agreement}Message,2,06,4012345000009,06,5012345678900,1,1,,,\n{products}EndMessage,19999\n".encode()
    yield Outcome("a message that is too large: as it comes", len(text) < 4_194_304, True)
    answers = b"agreed,north,1\napplied,north,1,replaced=0,updated=0,deleted=0,unknown=19998,ignored=0\n"
    yield Outcome("a message that is too large: it is applied", batch(room, text), Ran(0, answers))
    came = listed(room, "export")
    line = b"onixdesk: export: north 1: too large\n"
    yield Outcome("a message that is too large: the export", came, Ran(3, agreement.encode(), line))
