"""Runs of bin/desk-follow, and the contents of the database and the desk's file after them."""

import sqlite3
from collections.abc import Callable
from contextlib import closing
from pathlib import Path

import psycopg2

from tests.program.databases import DATABASE
from tests.program.room import Ran, Room
from tools.words import Row, Word

PROGRAM = Path(__file__).resolve().parent.parent.parent / "bin/desk-follow"

# The rows of each table.
Tables = dict[str, list[Row]]

TABLES = ["series", "held", "applied", "record", "article", "offer", "price", "price_minimum"]


def words_of(room: Room, database: str, *words: Word) -> list[Word]:
    return [PROGRAM, "--program", room.program, "--database", database, *words, DATABASE]


def follow(room: Room, database: str, *words: Word) -> Ran:
    return room.call(words_of(room, database, *words))


def ask(database: str, query: str, *values: object) -> list[Row]:
    with closing(psycopg2.connect(database)) as connection, connection.cursor() as cursor:
        cursor.execute(query, values)
        return cursor.fetchall()


def execute(database: str, statements: str) -> None:
    with closing(psycopg2.connect(database)) as connection, connection.cursor() as cursor:
        cursor.execute(statements)
        connection.commit()


def state_of(call: Callable[[], object]) -> str | None:
    """The SQLSTATE with which the database refuses it; None if it does not."""
    try:
        call()
    except psycopg2.Error as error:
        return error.pgcode
    return None


def in_postgres(database: str) -> Tables:
    """The rows of each table at one moment, since psql may outlive its parent; None without a schema."""
    with closing(psycopg2.connect(database)) as connection, connection.cursor() as cursor:
        connection.set_session(isolation_level="REPEATABLE READ")
        cursor.execute("SELECT FROM pg_namespace WHERE nspname = 'desk'")
        found: Tables = {}
        for table in TABLES if cursor.fetchall() else []:
            cursor.execute(f"SELECT * FROM desk.{table}")
            found[table] = sorted(cursor.fetchall(), key=repr)
        return found


def in_file(room: Room) -> Tables:
    """The rows of the desk's file, which no program has open."""
    with closing(sqlite3.connect(f"{room.path(DATABASE).as_uri()}?mode=ro", uri=True)) as connection:
        return {table: sorted(connection.execute(f"SELECT * FROM {table}"), key=repr) for table in TABLES}
