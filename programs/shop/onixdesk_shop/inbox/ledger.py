"""The ledger: all that an inbox knows. Each call that writes is a transaction, or a part of the caller's."""

import contextlib
import hashlib
import json
import zlib
from collections.abc import Iterable, Iterator
from dataclasses import dataclass
from enum import StrEnum
from pathlib import Path
from typing import Any, NamedTuple

from onixdesk_shop.desk import Gaps
from onixdesk_shop.machine import Machine
from onixdesk_shop.messages import Product, header_of, products_of
from onixdesk_shop.places import LEDGER, STORE

SCHEMA = Path(__file__).with_name("ledger.sql")


class State(StrEnum):
    """The states of files and messages. A file has one of the first two once the desk has all of it."""

    HELD, APPLIED, REFUSED = "held", "applied", "refused"
    NEW, QUARANTINED, POSTING, HAD, REJECTED, REPLACED = "new", "quarantined", "posting", "had", "rejected", "replaced"
    READY, POSTED, RETURNED = "ready", "posted", "returned"


class Decision(StrEnum):
    LET_IN, REFUSE, DISMISS, AGAIN = "let-in", "refuse", "dismiss", "again"
    WAIVE, UNWAIVE, TOLD, WELL = "waive", "unwaive", "told", "well"


@dataclass(frozen=True)
class File:
    """A row of the table `file`."""

    id: int
    digest: str
    taking: int
    name: str
    ending: str
    size: int
    time: int
    seen: int
    state: str
    why: str
    at: int
    words: str
    terms: bytes | None
    basis: str
    number: int | None
    products: int | None
    is_full: int
    not_deleted: str
    titled: int

    @property
    def mark(self) -> str:
        """The name of the file in commands."""
        return self.digest[:12] if self.taking == 1 else f"{self.digest[:12]}.{self.taking}"


class Row(NamedTuple):
    """A row of the table `message`, without its text."""

    number: int
    file: int
    digest: str
    deletions: int
    state: str
    answer: str
    has_text: int

    @property
    def was_taken(self) -> bool:
        """Whether the desk took its text, now or before."""
        return bool(self.has_text) and self.answer.startswith(("held,", "applied,"))


@dataclass(frozen=True)
class Message:
    """A text to be kept at a number."""

    number: int
    text: bytes
    deletions: int = 0
    kinds: tuple[tuple[str, str], ...] = ()

    @property
    def digest(self) -> str:
        return hashlib.sha256(self.text).hexdigest()


STANDING = State.READY, State.POSTED, State.HELD, State.APPLIED

ROW = "SELECT number, file, digest, deletions, state, answer, text IS NOT NULL FROM message"


def is_lost(machine: Machine, folder: Path) -> bool:
    """Whether an inbox has files, and no ledger any more: SQLite takes one without bytes for a new one."""
    size = machine.entry(folder / LEDGER).size if machine.exists(folder / LEDGER) else 0
    return not size and bool(machine.paths(folder / STORE, "*"))


class Ledger:
    def __init__(self, machine: Machine, path: Path) -> None:
        self.machine = machine
        self.connection = machine.connect(path, SCHEMA.read_text(encoding="utf-8"))

    def close(self) -> None:
        self.connection.close()

    @contextlib.contextmanager
    def step(self) -> Iterator[None]:
        """One transaction, or a part of the one around it."""
        if self.connection.in_transaction:
            yield
            return
        with self.machine.transaction(self.connection):
            yield

    def do(self, statement: str, *values: Any) -> int:
        with self.step():
            return self.connection.execute(statement, values).rowcount

    def rows(self, query: str, *values: Any) -> list[tuple[Any, ...]]:
        return self.connection.execute(query, values).fetchall()

    def value(self, query: str, *values: Any) -> Any:
        found = self.connection.execute(query, values).fetchone()
        return found[0] if found else None

    # Files

    def files(self, where: str, *values: Any) -> list[File]:
        return [File(*row) for row in self.rows(f"SELECT * FROM file WHERE {where} ORDER BY time, name, id", *values)]

    def file(self, number: int) -> File:
        return self.files("id = ?", number)[0]

    def take(self, digest: str, name: str, ending: str, size: int, time: int, is_new: bool) -> File:
        """Writes a row for bytes that came in. Bytes that came before keep their state, unless they were refused: those
        are tried again, as new ones if `is_new`, or else in their old place, before others of their number."""
        now, time = int(self.machine.now()), min(time, int(self.machine.now() * 1e9))
        with self.step():
            known = self.latest(digest)
            if not known:
                self.do(
                    "INSERT INTO file (digest, name, ending, size, time, seen, state, at) VALUES (?, ?, ?, ?, ?, ?, ?, ?)",
                    *(digest, name, ending, size, time, now, State.NEW, now),
                )
                return self.files("digest = ?", digest)[0]
            self.set_of_file(known, name=name, seen=now)
            if known.state == State.NEW:
                self.set_of_file(known, time=min(time, known.time))
            if known.state == State.REFUSED and not self.is_final(known):
                # Files that keep their number until the series is agreed also keep their place.
                is_new &= not self.messages("file = ? AND answer = 'refused,unknown-series'", known.id)
                self.set_of_file(known, time=time if is_new else min(time, known.time), ending=ending)
                self.set_state(known, State.NEW, "its bytes were put there again")
            return self.file(known.id)

    def take_again(self, file: File) -> None:
        """Another row for the same bytes, as if they came in now."""
        now = self.machine.now()
        self.do(
            "INSERT INTO file (digest, taking, name, ending, size, time, seen, state, at)"
            " SELECT digest, (SELECT max(taking) + 1 FROM file WHERE digest = one.digest), name, ending, size,"
            " ?, ?, 'new', ? FROM file AS one WHERE id = ?",
            *(int(now * 1e9), int(now), int(now), file.id),
        )

    def latest(self, digest: str) -> File | None:
        """The last row of these bytes."""
        found = self.files("digest = ?", digest)
        return max(found, key=lambda file: file.taking) if found else None

    def has_stood(self, file: File, states: tuple[State, ...] = (State.POSTED, State.HELD, State.APPLIED)) -> bool:
        """Whether the desk has, or may have, a message of a file."""
        return any(row.state in states for row in self.messages_of(file))

    def is_final(self, file: File) -> bool:
        """Whether a text of a file is final: the desk has it or may have it, or took it before."""
        refused = [row for row in self.messages_of(file) if row.state == State.REFUSED]
        return any(row.was_taken for row in refused) or self.has_stood(file)

    def set_state(self, file: File, state: str, why: str = "") -> None:
        self.do("UPDATE file SET state = ?, why = ?, at = ? WHERE id = ?", state, why, int(self.machine.now()), file.id)

    def set_of_file(self, file: File, **columns: Any) -> None:
        names = ", ".join(f"{name} = ?" for name in columns)
        self.do(f"UPDATE file SET {names} WHERE id = ?", *columns.values(), file.id)

    def full_files(self) -> list[File]:
        """The full files that have numbers, the last one first."""
        found = self.files("is_full AND state IN ('posting', 'held', 'applied')")
        return sorted(found, key=lambda file: file.number or 0, reverse=True)

    def last_taken(self) -> int | None:
        """The time of the latest file of which the desk has, may have or had something, at a number that we gave."""
        query = "SELECT max(time) FROM file JOIN message ON message.file = file.id WHERE ending <> '.csv'"
        stands = "message.state IN ('ready', 'posted', 'held', 'applied')"
        is_kept = "message.state = 'refused' AND (answer LIKE 'held,%' OR answer LIKE 'applied,%')"
        found: int | None = self.value(f"{query} AND ({stands} OR {is_kept})")
        return found

    def count_waiting(self, gaps: Gaps | None) -> int:
        """The files that wait for the desk or for a number, or that the desk now lacks in part."""
        waiting = {file.id for file in self.files("state IN ('new', 'posting', 'held')")}
        return len(waiting | {row.file for row in (self.to_post(gaps) if gaps else [])})

    def count_undecided(self) -> int:
        """The refused files that nobody has decided on since."""
        decided = "SELECT 1 FROM decision WHERE what = 'dismiss' AND decision.file = file.id AND decision.at >= file.at"
        return int(self.value(f"SELECT count(*) FROM file WHERE state = 'refused' AND NOT EXISTS ({decided})"))

    def heard_at(self) -> int | None:
        """When the last file with products came."""
        found: int | None = self.value("SELECT max(seen) FROM file WHERE size > 0 AND coalesce(products, 1) > 0")
        return found

    def kinds_since(self, second: int) -> list[list[str]]:
        """The types and currencies of prices in messages since then, in order."""
        found = {
            tuple(kind)
            for (kinds,) in self.rows("SELECT DISTINCT kinds FROM message WHERE at >= ?", second)
            for kind in json.loads(kinds)
        }
        return [list(kind) for kind in sorted(found)]

    def count_older_terms(self, terms: bytes | None) -> int:
        """How many articles were last converted with another table of terms."""
        query = (
            "SELECT count(*) FROM reference JOIN message USING (number) JOIN file ON file.id = message.file"
            " WHERE NOT deleted AND ending <> '.csv' AND file.terms IS NOT ?"
        )
        return int(self.value(query, terms))

    def agreement(
        self, series: str, sender: tuple[str, str], first: int | None = None, addressee: tuple[str, str] = ("", "")
    ) -> str:
        """The record that agrees on the series, as far as messages tell the addressee and the first number."""
        number = self.value("SELECT min(number) FROM message WHERE text IS NOT NULL")
        addressee = header_of(self.text(number)).addressee if number else addressee
        first = first or self.value("SELECT min(number) FROM message") or 1
        return ",".join(["Agree", series, *sender, *addressee, str(first)])

    # Messages

    def messages(self, where: str, *values: Any) -> list[Row]:
        return [Row(*row) for row in self.rows(f"{ROW} WHERE {where} ORDER BY number", *values)]

    def row(self, number: int) -> Row | None:
        return next(iter(self.messages("number = ?", number)), None)

    def messages_of(self, file: File) -> list[Row]:
        return self.messages("file = ?", file.id)

    def text(self, number: int) -> bytes:
        return zlib.decompress(self.value("SELECT text FROM message WHERE number = ?", number))

    def put(self, file: File, messages: Iterable[Message]) -> None:
        """Puts texts at their numbers. SQLite refuses to replace a final one."""
        now = int(self.machine.now())
        with self.step():
            for message in messages:
                self.do(
                    "INSERT INTO message (number, file, text, digest, deletions, state, at, kinds)"
                    " VALUES (?, ?, ?, ?, ?, 'ready', ?, ?) ON CONFLICT (number) DO UPDATE SET file = excluded.file,"
                    " text = excluded.text, digest = excluded.digest, deletions = excluded.deletions,"
                    " state = excluded.state, answer = '', at = excluded.at, kinds = excluded.kinds",
                    *(message.number, file.id, zlib.compress(message.text), message.digest, message.deletions),
                    *(now, json.dumps(sorted(message.kinds))),
                )

    def set_message(self, number: int, state: str, answer: str = "") -> None:
        """Without a new answer, the old one stays."""
        values = "state = ?, at = ?, answer = coalesce(nullif(?, ''), answer)"
        self.do(f"UPDATE message SET {values} WHERE number = ?", state, int(self.machine.now()), answer, number)

    def to_post(self, gaps: Gaps) -> list[Row]:
        """What to post, in order of number: messages without an answer, messages no longer held, and messages that the
        desk had and now lacks; nothing of a file that a person refused."""
        where = (
            "(state IN ('ready', 'posted') OR state = 'held' AND number >= ? OR state = 'applied' AND number >= ?)"
            " AND file NOT IN (SELECT id FROM file WHERE state = 'rejected')"
        )
        found, new = self.messages(where, gaps.first, gaps.next), (State.READY, State.POSTED)
        return [row for row in found if row.number < gaps.next or row.state in new or gaps.lacks(row.number)]

    def last_final(self) -> int:
        """The greatest number that a file has for good, or that is waived."""
        found = [row.number for row in self.messages("1") if row.was_taken or row.state in STANDING]
        return max([*found, *self.waived()], default=0)

    def next_number(self, gaps: Gaps, parts: int) -> int:
        """The number for a new file: above all given ones and all that the desk has, and the first of a whole group of
        parts."""
        given = self.value("SELECT max(number) FROM message WHERE state <> 'returned'") or 0
        before = max(given, gaps.greatest or 0, gaps.first - 1)
        return (before + parts - 1) // parts * parts + 1

    # References

    def name_references(self, number: int, products: Iterable[Product]) -> None:
        """Notes what an applied message names, unless a later message named it. A block makes a record; an update or a
        deletion changes an existing one."""
        with self.step():
            for product in products:
                if product.is_block:
                    self.do(
                        "INSERT INTO reference VALUES (?, ?, ?, 0) ON CONFLICT (reference) DO UPDATE SET"
                        " isbns = excluded.isbns, number = excluded.number, deleted = 0"
                        " WHERE excluded.number >= number",
                        *(product.reference, " ".join(product.isbns), number),
                    )
                else:
                    self.do(
                        "UPDATE reference SET number = ?, deleted = deleted OR ? WHERE reference = ? AND number <= ?",
                        *(number, product.is_deletion, product.reference, number),
                    )

    def forget_references(self, number: int) -> None:
        """What a rejected message named is again as the messages before it named it, as far as their texts are kept."""
        with self.step():
            self.do("UPDATE reference SET number = 0, deleted = 1 WHERE number = ?", number)
            query = "SELECT number FROM message WHERE state = 'applied' AND text IS NOT NULL ORDER BY number"
            for (before,) in self.rows(query):
                self.name_references(before, products_of(self.text(before)))

    def articles(self) -> int:
        """How many records the series has, as far as the ledger knows."""
        return int(self.value("SELECT count(*) FROM reference WHERE NOT deleted"))

    def isbns_of(self, reference: str) -> list[str]:
        """By which the desk finds a record, as far as the ledger knows."""
        query = "SELECT isbns FROM reference WHERE reference = ? AND NOT deleted"
        return str(self.value(query, reference) or "").split()

    def references_before(self, number: int) -> list[str]:
        """The references that no message from that number on has named."""
        query = "SELECT reference FROM reference WHERE NOT deleted AND number < ? ORDER BY reference"
        return [reference for (reference,) in self.rows(query, number)]

    # Decisions

    def decide(self, what: str, file: File | None = None, number: int | None = None, subject: str = "") -> None:
        self.do(
            "INSERT INTO decision (at, what, file, number, subject) VALUES (?, ?, ?, ?, ?)",
            *(int(self.machine.now()), what, file.id if file else None, number, subject),
        )

    def stands(self, number: int, states: tuple[State, ...] = STANDING) -> bool:
        """Whether a file that nobody refused has that number, in one of these states."""
        row = self.row(number)
        if row is None or row.state not in states:
            return False
        return self.file(row.file).state != State.REJECTED

    def waived(self, decision: Decision = Decision.WAIVE) -> list[int]:
        """The numbers whose last decision is this one: that they are waived, or no longer."""
        last = "SELECT number, what, max(id) FROM decision WHERE what IN ('waive', 'unwaive') GROUP BY number"
        return [number for number, what, _ in self.rows(last) if what == decision]

    def left(self, subject: str) -> File | None:
        """The file that was taken but left in its folder."""
        number = self.value("SELECT file FROM decision WHERE what = 'told' AND subject = ?", subject)
        return None if number is None else self.file(number)

    def is_told(self, subject: str) -> bool:
        last = "SELECT what FROM decision WHERE what IN ('told', 'well') AND subject = ? ORDER BY id DESC LIMIT 1"
        return bool(self.value(last, subject) == Decision.TOLD)
