"""Database files of version 1, made by SQLite from statements that are not the desk's: they are refused
until they are migrated, and then the desk in them goes on. Files of version 2 made so, which have the tables
alone and no index beside their keys, are answered as those that a desk makes, and get the index."""

from collections.abc import Iterator
from functools import partial
from typing import NamedTuple

from tests.program.databases import (
    DATABASE,
    FOLDER,
    MINIMUM,
    TABLES,
    all_rows,
    batch,
    complaints,
    execute,
    made,
    rows,
    table_names,
)
from tests.program.room import Group, Ran, Room
from tests.program.written_cases import Written, read_file
from tests.running import Outcome
from tools.words import Row


class Case(NamedTuple):
    """The statements that make the file, what the desk is asked once it is of version 2, and the expected status and
    answers."""

    name: str
    made: str
    asked: bytes
    status: int
    answers: bytes


def case_of(written: Written) -> Case:
    (_, asked), (head, answers) = written.parts
    return Case(written.name, made(written.text), asked.encode(), int(head.removeprefix("status ")), answers.encode())


CASES = [case_of(written) for written in read_file(FOLDER / "migrations.txt")]


def check(case: Case, room: Room) -> Iterator[Outcome]:
    execute(room, case.made)
    refused = Ran(3, b"", b"onixdesk: storage: other version 1\n")
    yield Outcome(f"not opened: {case.name}", batch(room, b""), refused)

    migrate = "--db", DATABASE, "migrate"
    kept = all_rows(room) | {"meta": [("version", 2)], "price_minimum": []}
    came = room.run(*migrate), complaints(room), all_rows(room)
    yield Outcome(f"migrated: {case.name}", came, (Ran(0, b"migrated\n"), [], kept))
    came = room.run(*migrate), all_rows(room)
    yield Outcome(f"migrated again: {case.name}", came, (Ran(0, b"schema 2\n"), kept))

    came = batch(room, case.asked), complaints(room)
    yield Outcome(f"goes on: {case.name}", came, (Ran(case.status, case.answers), []))


def indexes(room: Room) -> list[Row]:
    """The indexes beside those of keys, with their columns."""
    return rows(
        room,
        "SELECT s.name, s.tbl_name, c.name FROM sqlite_schema s, pragma_index_info(s.name) c"
        " WHERE s.type = 'index' AND s.sql IS NOT NULL",
    )


INDEX: list[Row] = [("article_by_value", "article", "id_value"), ("article_by_value", "article", "id_type")]


def without_index(case: Case, room: Room) -> Iterator[Outcome]:
    """The tables of version 2 with the same rows: a migration leaves them, and whatever opens them makes the index."""
    execute(room, f"{case.made} {MINIMUM} UPDATE meta SET amount = 2;")
    kept = all_rows(room)
    came = room.run("--db", DATABASE, "migrate"), indexes(room), all_rows(room)
    yield Outcome(f"without an index, migrated: {case.name}", came, (Ran(0, b"schema 2\n"), [], kept))
    came = batch(room, b""), indexes(room), complaints(room), all_rows(room)
    yield Outcome(f"without an index, opened: {case.name}", came, (Ran(0), INDEX, [], kept))
    execute(room, "DROP INDEX article_by_value")
    came = batch(room, case.asked), indexes(room), complaints(room)
    yield Outcome(f"without an index: {case.name}", came, (Ran(case.status, case.answers), INDEX, []))


STRANGER = """
CREATE TABLE meta (item TEXT NOT NULL PRIMARY KEY, amount INTEGER NOT NULL) STRICT;
INSERT INTO meta (item, amount) VALUES ('version', 2);
CREATE TABLE price_minimum (item TEXT) STRICT;
"""


def without_articles(room: Room) -> Iterator[Outcome]:
    """If the index cannot be made, since its table is missing, the file is refused and stays."""
    execute(room, STRANGER)
    kept = room.path(DATABASE).read_bytes()
    came = batch(room, b""), room.path(DATABASE).read_bytes() == kept
    yield Outcome("without an index and articles", came, (Ran(3, b"", b"onixdesk: storage: unusable\n"), True))


def keys(room: Room, table: str, file: str) -> list[list[Row]]:
    """The columns of each primary or unique key of a table, and how they compare."""
    found: list[list[Row]] = []
    for _, name, _, origin, _ in rows(room, f"PRAGMA index_list({table})", file):
        if origin != "c":
            columns = rows(room, f"PRAGMA index_xinfo({name})", file)
            found.append([(column, order) for _, _, column, _, order, is_key in columns if is_key])
    return sorted(found)


def shapes(room: Room, file: str) -> dict[str, dict[str, list[Row] | list[list[Row]]]]:
    """For each table whether it is strict, its columns, its keys and its parents."""
    return {
        table: {
            "strict": rows(room, f"SELECT strict FROM pragma_table_list('{table}')", file),
            "columns": rows(room, f"PRAGMA table_info({table})", file),
            "keys": keys(room, table, file),
            "parents": rows(room, f"PRAGMA foreign_key_list({table})", file),
        }
        for table in table_names(room, file)
    }


def tables_of_version_2(room: Room) -> Iterator[Outcome]:
    """New files and migrated ones have the same tables."""
    execute(room, TABLES + MINIMUM, "wanted.db")
    wanted = shapes(room, "wanted.db")
    came = batch(room, b""), shapes(room, DATABASE)
    yield Outcome("the tables of a new file", came, (Ran(0), wanted))
    execute(room, TABLES, "older.db")
    came = room.run("--db", "older.db", "migrate"), shapes(room, "older.db")
    yield Outcome("the tables of a migrated file", came, (Ran(0, b"migrated\n"), wanted))


GROUPS = [
    *(Group(case.name, partial(check, case)) for case in CASES),
    *(Group(f"without an index: {case.name}", partial(without_index, case)) for case in CASES),
]
