"""Runs that leave a desk's rows as they were: those that end with status 3 before anything is asked, or whose answer
cannot be written; and a migration whose line cannot be written."""

from collections.abc import Iterator
from functools import partial
from typing import NamedTuple

from tests.program.desk.commands import FIRST
from tests.program.databases import DATABASE, all_rows, batch, complaints, execute
from tests.program.messages import AGREEMENT
from tests.program.desk.migrations import CASES, Case
from tests.program.room import UNREADABLE, Group, Ran, Room
from tests.running import Outcome


class Fault(NamedTuple):
    """The words of a command, whether its output takes nothing, and the line that says what went wrong."""

    words: str
    is_full: bool
    line: bytes


FAULTS = [
    Fault("batch", False, b"onixdesk: input: read\n"),
    Fault("deliver -", False, b"onixdesk: file: -\n"),
    Fault("deliver absent.csv", False, b"onixdesk: file: absent.csv\n"),
    Fault("gaps north", True, b"onixdesk: output\n"),
    Fault("gaps nowhere", True, b"onixdesk: output\n"),
]


def stays(room: Room, name: str, ran: Ran, wanted: Ran, before: object) -> Iterator[Outcome]:
    """The run ended so, and the rows are as they were."""
    yield Outcome(name, ran, wanted)
    yield Outcome(f"{name}: the rows", (complaints(room), all_rows(room)), ([], before))


def after_a_fault(fault: Fault, room: Room) -> Iterator[Outcome]:
    batch(room, AGREEMENT + FIRST)
    before = all_rows(room)
    words = "--db", DATABASE, *fault.words.split()
    came = room.run(*words, given=UNREADABLE, is_full=fault.is_full)
    yield from stays(room, fault.words, came, Ran(3, b"", fault.line), before)


def migrated_unwritten(case: Case, room: Room) -> Iterator[Outcome]:
    """The file is migrated, with its contents in version 2."""
    execute(room, case.made)
    kept = all_rows(room) | {"meta": [("version", 2)], "price_minimum": []}
    for name in "unwritten", "unwritten again":
        came = room.run("--db", DATABASE, "migrate", given=UNREADABLE, is_full=True)
        wanted = Ran(3, b"", b"onixdesk: output\n")
        yield from stays(room, f"migrate, {name}: {case.name}", came, wanted, kept)


GROUPS = [
    *(Group(f"rows behind {it.words}", partial(after_a_fault, it)) for it in FAULTS),
    *(Group(f"rows behind migrate: {it.name}", partial(migrated_unwritten, it)) for it in CASES),
]
