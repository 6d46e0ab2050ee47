"""Files in which another program left values that no desk has: a request that meets one is answered by a fault, none of
it is kept, and once the value is put right the desk goes on."""

import sqlite3
from collections.abc import Iterator
from contextlib import closing
from functools import partial

from tests.program.databases import DATABASE, FOLDER, batch, execute
from tests.program.messages import AGREED, AGREEMENT, applied, bare, held, priced
from tests.program.room import Group, Ran, Room
from tests.program.written_cases import read_file
from tests.running import Outcome

# What the desk is asked before, and its answers.
BEFORE = (
    AGREEMENT + priced(1, "R1", "12.99") + bare(3) + bare(4),
    AGREED + applied(1, 1) + held(3, 2) + held(4, 2),
)

# The question, and its answer without a bad value, by the name of the case.
QUESTIONS: dict[str, tuple[bytes, bytes]] = {}

# A statement that leaves a bad value, one that puts it right, and the name of the case.
CASES: list[tuple[str, str, str]] = []

for case in read_file(FOLDER / "damage.txt"):
    (_, asked), (_, answers) = case.parts
    QUESTIONS[case.name] = asked.encode(), answers.strip("\n").encode() + b"\n"
    statements = case.text.splitlines()
    CASES += [(damage, repair, case.name) for damage, repair in zip(statements[::2], statements[1::2], strict=True)]

FAULT = Ran(3, b"", b"onixdesk: storage: unusable\n")


def dump(room: Room) -> list[str]:
    """The whole file, as statements."""
    with closing(sqlite3.connect(room.path(DATABASE))) as connection:
        return list(connection.iterdump())


def check(damage: str, repair: str, asked: bytes, answers: bytes, room: Room) -> Iterator[Outcome]:
    first, first_answers = BEFORE
    came = batch(room, first)
    yield Outcome(f"before: {damage}", came, Ran(0, first_answers))

    execute(room, damage)
    damaged = dump(room)
    came = batch(room, asked), batch(room, asked), dump(room) == damaged
    yield Outcome(f"damaged: {damage}", came, (FAULT, FAULT, True))

    execute(room, repair)
    yield Outcome(f"repaired: {damage}", batch(room, asked), Ran(0, answers))


GROUPS = [Group(damage, partial(check, damage, repair, *QUESTIONS[name])) for damage, repair, name in CASES]
