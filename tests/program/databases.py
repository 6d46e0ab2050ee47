"""The desk in a database file: its tables after a batch, as SQLite itself reads them, and databases that are refused or
migrated."""

import sqlite3
from collections.abc import Iterator
from contextlib import closing
from functools import partial

from tests.program.room import UNREADABLE, Group, Ran, Room
from tests.program.written_cases import TESTS, Written, read_file
from tests.running import Outcome
from tools.words import Row

# The database of each room.
DATABASE = "cases.db"

FOLDER = TESTS / "databases"

# The tables of version 1, the table that version 2 adds, and the rows of messages of a price.
TABLES, MINIMUM, PRICED = (
    FOLDER.joinpath(f"{name}.sql").read_text(encoding="utf-8") for name in ("version-1", "version-2", "priced")
)


def execute(room: Room, statements: str, file: str = DATABASE) -> None:
    """Executes statements in the database, which is made if it is missing."""
    with closing(sqlite3.connect(room.path(file))) as connection:
        connection.executescript(statements)


def rows(room: Room, query: str, file: str = DATABASE) -> list[Row]:
    with closing(sqlite3.connect(room.path(file))) as connection:
        return connection.execute(query).fetchall()


def numbers(room: Room, query: str) -> list[int]:
    return [number for (number,) in rows(room, query)]


def table_names(room: Room, file: str = DATABASE) -> list[str]:
    return [name for (name,) in rows(room, "SELECT name FROM sqlite_schema WHERE type = 'table' ORDER BY name", file)]


def all_rows(room: Room, file: str = DATABASE) -> dict[str, list[Row]]:
    """The rows of each table, in order of their columns."""
    return {table: sorted(rows(room, f"SELECT * FROM {table}", file)) for table in table_names(room, file)}


def made(statements: str, tables: str = TABLES) -> str:
    """The statements that make tables, of version 1 if no others are given, with rows: those of statements, and those of
    messages of the series `north` that these put into `priced`, each of which puts a record at a price of some pounds.
    """
    return f"{tables} CREATE TEMP TABLE priced (number INTEGER, amount INTEGER); {statements} {PRICED}"


def rows_made(room: Room, statements: str) -> dict[str, list[Row]]:
    """The rows of the tables of version 2 with those of the statements."""
    room.path("wanted.db").unlink(missing_ok=True)
    execute(room, made(statements, f"{TABLES} {MINIMUM} UPDATE meta SET amount = 2;"), "wanted.db")
    return all_rows(room, "wanted.db")


def complaints(room: Room) -> list[Row]:
    """What SQLite finds wrong with the file and its foreign keys."""
    found = rows(room, "PRAGMA integrity_check") + rows(room, "PRAGMA foreign_key_check")
    return [row for row in found if row != ("ok",)]


VERSION = "SELECT amount FROM meta"


def batch(room: Room, text: bytes) -> Ran:
    return room.run("--db", DATABASE, "batch", given=text)


def gaps(room: Room) -> Ran:
    return room.run("--db", DATABASE, "gaps", "north")


def after_batches(case: Written, room: Room) -> Iterator[Outcome]:
    """The parts of a case are answers, rows, a report on gaps, which leaves the rows, and a further batch."""
    asked = wanted_rows = None
    for number, (head, text) in enumerate([("batch", case.text), *case.parts]):
        name = f"tables after a batch: {case.name}, {number}"
        kind, _, status = head.partition(" ")
        if kind == "batch":
            asked = text.encode()
        if kind == "status":
            yield Outcome(name, batch(room, asked or b""), Ran(int(status), text.encode()))
        if kind == "rows":
            wanted_rows = rows_made(room, text)
        if kind == "gaps":
            yield Outcome(name, gaps(room), Ran(0, text.encode()))
        if kind in ("rows", "gaps"):
            yield Outcome(f"{name}, rows", (all_rows(room), complaints(room)), (wanted_rows, []))


META = "CREATE TABLE meta (item TEXT PRIMARY KEY, amount INTEGER);"

# Statements that make a database, and what the program says of it.
REFUSED = [
    (f"{META} INSERT INTO meta VALUES ('version', 7);", b"onixdesk: storage: other version 7\n"),
    (f"{META} INSERT INTO meta VALUES ('version', 1);", b"onixdesk: storage: other version 1\n"),
    (META, b"onixdesk: storage: unusable\n"),
    (
        "CREATE TABLE meta (item TEXT, amount TEXT); INSERT INTO meta VALUES ('version', 'two');",
        b"onixdesk: storage: unusable\n",
    ),
    ("CREATE TABLE meta (title TEXT);", b"onixdesk: storage: unusable\n"),
    ("CREATE TABLE series (title TEXT);", b"onixdesk: storage: unusable\n"),
    # What the desk deletes from its own tables would be deleted here too.
    (
        "CREATE TABLE shelf (s TEXT, r TEXT, FOREIGN KEY (s, r) REFERENCES record ON DELETE CASCADE);",
        b"onixdesk: storage: unusable\n",
    ),
    ("CREATE TABLE note (name TEXT REFERENCES Series (name));", b"onixdesk: storage: unusable\n"),
]


def is_refused(statements: str, line: bytes, room: Room) -> Iterator[Outcome]:
    """The database is opened before anything is read."""
    execute(room, statements)
    yield Outcome(f"refused: {statements}", room.run("--db", DATABASE, "batch", given=UNREADABLE), Ran(3, b"", line))


def is_opened_first(room: Room) -> Iterator[Outcome]:
    """A refused database is reported before anything that the command itself would meet."""
    statements, line = REFUSED[0]
    execute(room, statements)
    for words in "deliver absent.csv", "gaps North", "serve --port 1 --requests 1":
        came = room.run("--db", DATABASE, *words.split(), given=UNREADABLE)
        yield Outcome(f"the database before the command: {words}", came, Ran(3, b"", line))


def rules_come_first(room: Room) -> Iterator[Outcome]:
    execute(room, REFUSED[-1][0])
    for command in "batch", "migrate":
        came = room.run("--db", DATABASE, "--rules", "absent.toml", command, given=UNREADABLE)
        yield Outcome(f"rules before the database: {command}", came, Ran(2, b"", b"onixdesk: file: absent.toml\n"))


def migration_of_an_empty_file(room: Room) -> Iterator[Outcome]:
    """It becomes a desk without agreements, and one of version 2 stays as it is."""
    room.write(DATABASE, b"")
    migrate = "--db", DATABASE, "migrate"
    came = room.run(*migrate, given=UNREADABLE)
    yield Outcome("migrate: an empty file", came, Ran(0, b"migrated\n"))
    came = room.run(*migrate, given=UNREADABLE)
    yield Outcome("migrate: once more", came, Ran(0, b"schema 2\n"))
    came = room.run(*migrate, given=UNREADABLE, is_full=True)
    yield Outcome("migrate: unwritten", came, Ran(3, b"", b"onixdesk: output\n"))
    came = room.run("--db", DATABASE, "gaps", "north", given=UNREADABLE)
    yield Outcome("migrate: the gaps then", came, Ran(1, b"refused,unknown-series\n"))


def refused_migrations(room: Room) -> Iterator[Outcome]:
    """A missing database file for a migration is reported before a bad rules file."""
    came = room.run("--rules", "absent.toml", "migrate", given=UNREADABLE)
    yield Outcome("migrate: no database", came, Ran(2, b"", b"onixdesk: migrate needs --db\n"))

    statements, line = REFUSED[0]
    execute(room, statements)
    came = room.run("--db", DATABASE, "migrate", given=UNREADABLE), numbers(room, VERSION)
    yield Outcome("migrate: version 7", came, (Ran(3, b"", line), [7]))


GROUPS = [
    *(Group(case.name, partial(after_batches, case)) for case in read_file(FOLDER / "batches.txt")),
    *(Group(sql, partial(is_refused, sql, line)) for sql, line in REFUSED),
]
