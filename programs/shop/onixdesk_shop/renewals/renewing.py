"""One renewal: makes a new desk of a copy, with its new first numbers, and restores it."""

import itertools
import sqlite3
from collections.abc import Iterator
from dataclasses import dataclass
from pathlib import Path

from onixdesk_shop.batches import send
from onixdesk_shop.copies.copying import copy_desk
from onixdesk_shop.desk_files import SERIES, contents_of
from onixdesk_shop.faults import Failed
from onixdesk_shop.lines import cut
from onixdesk_shop.machine import Machine
from onixdesk_shop.messages import text_of
from onixdesk_shop.renewals.catalogue import contents_in
from onixdesk_shop.restores.inboxes import PATIENCE
from onixdesk_shop.restores.restoring import Restore

GIVEN_UP = """\
given up are the answers to and the contents of these messages, with their NotificationTypes and counts, and the waivers
below the next numbers; corrections of the desk's text reach back to the new first numbers"""

# The columns of tables that the renewed desk has as the old one.
OF_SERIES = "name, sender_type, sender_value, addressee_type, addressee_value, next_number"
RENEWED = {"series": OF_SERIES} | dict.fromkeys(("held", "record", "article", "offer", "price", "price_minimum"), "*")

# The contents of a waived number.
WAIVED = "waived"
HELD = "SELECT number, contents FROM held WHERE series = ? ORDER BY number"


@dataclass(frozen=True)
class Renewal:
    """A series, its first and next number, and how many messages its catalogue takes before the next one."""

    series: str
    parties: str
    first_before: int
    next: int
    messages: int

    @property
    def first(self) -> int:
        """The new first number."""
        return self.next - self.messages

    def __str__(self) -> str:
        told = f"{self.series}: begins at {self.first} in place of {self.first_before}, next is {self.next}"
        spans = [("before-first", self.first_before, self.first), ("other-contents", self.first, self.next)]
        return told + "".join(f"; {low} to {end - 1} are {word} then" for word, low, end in spans if low < end)

    def at(self, number: int, contents: str) -> str:
        """The request that records these contents at a number."""
        if contents == WAIVED:
            return f"Waive,{self.series},{number}\n"
        lines = contents.count("\n") + 1
        return f"Message,2,{self.parties},{number},1,,,\n{contents}EndMessage,{lines}\n"


def renewals_in(copy: sqlite3.Connection) -> list[Renewal]:
    """All series of a copy; raises Failed if some have too few numbers for their catalogue."""
    found, left = [], []
    for series, *parties, first, after in copy.execute(SERIES).fetchall():
        messages = sum(1 for _ in contents_in(copy, series)) if first < after else 0
        if after - messages < first:
            left.append(f"{series}: its catalogue needs {messages} numbers before {after}, and it begins at {first}")
        found.append(Renewal(series, text_of([parties]).rstrip("\n"), first, after, messages))
    if left:
        raise Failed(f"the desk is left as it is: {'; '.join(left)}")
    return found


def requests(copy: sqlite3.Connection, renewal: Renewal) -> Iterator[str]:
    """The agreement, the catalogue, and what is held or waived from the next number on."""
    yield f"Agree,{renewal.series},{renewal.parties},{renewal.first}\n"
    if renewal.messages:
        for number, contents in enumerate(contents_in(copy, renewal.series), renewal.first):
            yield renewal.at(number, contents)
    for number, contents in copy.execute(HELD, [renewal.series]):
        yield renewal.at(number, contents)


def lines(copy: sqlite3.Connection, renewals: list[Renewal]) -> Iterator[bytes]:
    """The text of the renewed desk. No field has a line end."""
    for text in itertools.chain.from_iterable(requests(copy, renewal) for renewal in renewals):
        yield from text.encode().splitlines(keepends=True)


class Renewing(Restore):
    remedy = "run it again"

    def lay_out(self) -> None:
        """Makes the new desk of a copy, and compares the rows that answers about articles depend on."""
        machine, folder = self.machine, self.options.copy
        self.work.begin()
        machine.remove_tree(folder)
        machine.make_folder(folder)
        copy_desk(machine, self.options.db, folder)
        copy = folder / self.options.db.name
        self.base = contents_of(machine, copy)
        with machine.reading(copy) as connection:
            renewals = renewals_in(connection)
            send(self.desk, lines(connection, renewals))
        if found := difference(machine, copy, self.work.new):
            raise Failed(f"the renewed desk differs, and the desk is as it was: {found}")
        self.said = [*map(str, renewals), GIVEN_UP]

    def stop(self) -> None:
        """Stops everything once each message has its answer: below the new first numbers none would get one."""
        self.wait_for_answers()
        super().stop()
        if any(inbox.has_unanswered() for inbox in self.inboxes()):
            raise Failed("a message came meanwhile, and has no answer yet; the desk is as it was: run it again")

    def wait_for_answers(self) -> None:
        end = self.machine.now() + PATIENCE
        while waiting := [inbox for inbox in self.inboxes() if inbox.has_unanswered()]:
            off = [inbox for inbox in waiting if not inbox.goes_on(self.units.begun)]
            if off or self.machine.now() > end:
                series = [*off, *waiting][0].series
                raise Failed(f"onixdesk-inbox {series}; a message of it has no answer yet; the desk is as it was")
            self.machine.sleep(1)


def difference(machine: Machine, one: Path, other: Path) -> str:
    """What a table has in one and not in the other; empty if they are the same."""
    with machine.reading(other), machine.reading(one) as connection:
        connection.execute("ATTACH ? AS other", [f"{other.resolve().as_uri()}?mode=ro"])
        for table, columns in RENEWED.items():
            for has, lacks, name in ("main", "other", one), ("other", "main", other):
                query = f"SELECT {columns} FROM {has}.{table} EXCEPT SELECT {columns} FROM {lacks}.{table} LIMIT 1"
                if found := connection.execute(query).fetchone():
                    return f"{table}: only {name} has {cut(str(found))}"
    return ""
