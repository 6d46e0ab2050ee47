"""The script for psql that gives the tables in PostgreSQL the rows of a copy of the desk: all anew, in one transaction,
while others see the old ones."""

import hashlib
import itertools
import sqlite3
from collections.abc import Iterator
from decimal import Decimal
from pathlib import Path
from typing import Any

from onixdesk_shop.faults import Fault

# The version of the tables that the follower knows, and these tables.
VERSION = 2
TABLES = ("series", "held", "applied", "record", "article", "offer", "price", "price_minimum")

# How PostgreSQL's COPY reads a value: \N is NULL.
ESCAPES = [("\\", "'\\\\'"), ("\t", "'\\t'"), ("\n", "'\\n'"), ("\r", "'\\r'")]

FOLDER = Path(__file__).resolve().parent
BEGIN, TABLE, KEYS, FUNCTIONS = (
    FOLDER.joinpath(f"{name}.sql").read_text(encoding="utf-8") for name in ("begin", "tables", "keys", "functions")
)

# The comment of the schema, by which the follower recognizes its own.
MARK = f"Kept by desk-follow of onixdesk, layout {hashlib.sha256((TABLE + KEYS + FUNCTIONS).encode()).hexdigest()[:16]}"


def check_version(source: sqlite3.Connection) -> None:
    (version,) = source.execute("SELECT max(amount) FROM meta WHERE item = 'version'").fetchone()
    if version != VERSION:
        raise Fault(f"its tables are of version {version} of a desk's, in place of {VERSION}")


def escaped(column: str) -> str:
    for character, text in ESCAPES:
        column = f"replace({column}, char({ord(character)}), {text})"
    return f"coalesce({column}, '\\N')"


def lines_of(source: sqlite3.Connection, table: str) -> Iterator[bytes]:
    """The rows of a table, in UTF-8."""
    columns = [name for (name,) in source.execute("SELECT name FROM pragma_table_info(?)", [table])]
    line = f"{' || char(9) || '.join(map(escaped, columns))} || char(10)"
    for (row,) in source.execute(f"SELECT CAST({line} AS BLOB) FROM {table}"):
        yield row


def call_of(database: str) -> list[str]:
    """The command line of psql."""
    words = "psql --no-psqlrc --quiet --set=ON_ERROR_STOP=1 --set=VERBOSITY=terse".split()
    return [*words, f"--set=mark={MARK}", f"--dbname={database}"]


def where_new(text: str) -> str:
    """What is done only if there was no schema."""
    return f"\\if :is_there\n\\else\n{text}\n\\endif\n"


def rows_of(table: str, lines: Iterator[bytes]) -> Iterator[bytes]:
    """Gives a table the rows of these lines."""
    yield f"DELETE FROM desk.{table}; COPY desk.{table} FROM STDIN;\n".encode()
    yield from lines
    yield b"\\.\n"


def rule_line(number: int, rule: dict[str, Any]) -> bytes:
    """The greatest amount, in thousandths, or empty."""
    greatest = str(int(Decimal(rule["max"]) * 1000)) if "max" in rule else "\\N"
    return "\t".join([str(number), rule["series"], f"{{{','.join(rule['codes'])}}}", f"{greatest}\n"]).encode()


def script(source: sqlite3.Connection, rules: list[dict[str, Any]], moment: int) -> Iterator[bytes]:
    """Replaces the schema's rows by those of the copy, whose moment is in nanoseconds since 1970."""
    yield f"{BEGIN}{where_new(f'CREATE SCHEMA desk;{TABLE}')}".encode()
    for table in TABLES:
        yield from rows_of(table, lines_of(source, table))
    yield from rows_of("rule", map(rule_line, itertools.count(1), rules))
    yield f"DELETE FROM desk.moment; INSERT INTO desk.moment VALUES (to_timestamp({moment / 1e9}));\n".encode()
    # Keys are made after the rows, which is quicker.
    yield where_new(f"{KEYS}{FUNCTIONS}COMMENT ON SCHEMA desk IS :'mark';").encode()
    yield f"ANALYZE {', '.join(f'desk.{table}' for table in TABLES)}; COMMIT;\n".encode()
