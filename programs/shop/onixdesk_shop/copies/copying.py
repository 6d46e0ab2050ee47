"""Copies the database and the log of a desk as of one moment, while the desk goes on.

A write sets a file's times before it changes the file, by a clock that steps some milliseconds at a time. So if a file
was last changed a good while before we look at it, and looks the same afterwards, nobody wrote to it in between.
"""

from collections.abc import Iterator
from contextlib import contextmanager
from pathlib import Path
from typing import NamedTuple

from onixdesk_shop.desk_files import log_of
from onixdesk_shop.faults import Fault
from onixdesk_shop.machine import Entry, Machine

# Longer than any step of that clock, which is at most 10 ms; in nanoseconds.
REST = 100_000_000

# How long to wait for a moment in which the desk writes nothing, in seconds.
PATIENCE = 600

# The head of the log. It changes as soon as the log was copied into the database.
HEAD = 32


class Copied(NamedTuple):
    """A copy: the moment of both files, in nanoseconds since 1970, and their size in bytes."""

    moment: int
    database: int
    log: int


class Rest:
    """Waits for moments without writes, for so many seconds in all."""

    def __init__(self, machine: Machine, seconds: float) -> None:
        self.machine = machine
        self.end = machine.now() + seconds

    def spend(self, file: Path, seconds: float) -> None:
        if self.machine.now() + seconds > self.end:
            raise Fault(f"{file}: it changes too often to be copied, or the clock was set back")
        self.machine.sleep(seconds)

    def standing(self, file: Path) -> Entry | None:
        """Size and times of the file, or None if it does not exist."""
        try:
            return self.machine.entry(file)
        except FileNotFoundError:
            return None

    def at_rest(self, file: Path) -> Entry | None:
        """The same, once no write that is under way can leave them as they are."""
        while True:
            began = int(self.machine.now() * 1e9)
            found = self.standing(file)
            latest = max(found.modified, found.changed) if found else 0
            if latest <= began - REST:
                return found
            self.spend(file, (latest + REST - began) / 1e9)


def head_of(machine: Machine, log: Path) -> bytes:
    return machine.read(log, HEAD) if machine.exists(log) else b""


def copy_log(rest: Rest, database: Path, found: Entry, head: bytes, folder: Path) -> Copied | None:
    """Copies the log beside a database that was copied in this state, while the log has this head; returns None if the
    database changed or the log began anew."""
    machine, log = rest.machine, log_of(database)
    while True:
        log_found = rest.at_rest(log)
        moment = int(machine.now() * 1e9)
        machine.remove(folder / log.name)
        if log_found:
            try:
                machine.copy(log, folder / log.name)
            except FileNotFoundError:
                continue
        if rest.standing(database) != found or head_of(machine, log) != head:
            return None
        if rest.standing(log) == log_found:
            return Copied(moment, found.size, log_found.size if log_found else 0)
        rest.spend(log, 0)


def copy_desk(machine: Machine, database: Path, folder: Path, seconds: float = PATIENCE) -> Copied:
    """Copies both files of a desk into the folder, under their names, within that time.

    Nobody wrote to the database from before its copy to the end, nor to the log from before its copy to the end: so
    both files had these bytes when the copy of the log began. Nor did the log begin anew: so it has each page that a
    delayed write to the database may still have been about to change.
    """
    rest = Rest(machine, seconds)
    while True:
        found = rest.at_rest(database)
        if found is None:
            raise Fault(f"{database}: there is no such file")
        head = head_of(machine, log_of(database))
        machine.copy(database, folder / database.name)
        if copied := copy_log(rest, database, found, head, folder):
            return copied
        rest.spend(database, 0)


# Where temporary copies go, which are as large as the desk.
ROOM = Path("/var/tmp")


@contextmanager
def copied(machine: Machine, database: Path) -> Iterator[tuple[Path, Copied]]:
    """A temporary copy of a desk."""
    with machine.scratch(ROOM) as folder:
        yield folder / database.name, copy_desk(machine, database, folder)
