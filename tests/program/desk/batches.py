"""Batches and what each is to write, over a desk in memory and over one in a new database file.

They stand in tests/batches (`written_cases`): the text of a case is the batch, and its part `status N` has the answers.
Before its batch a case may have the text of a rules file, and then a part `batch`. Those in escaped.txt have escapes.
"""

from collections.abc import Callable, Iterator
from functools import partial
from pathlib import Path
from typing import NamedTuple

from tests.program.databases import DATABASE, complaints
from tests.program.room import Group, Ran, Room
from tests.program.written_cases import TESTS, Written, read_file, repeated, unescaped
from tests.running import Outcome

FOLDER = TESTS / "batches"


class Case(NamedTuple):
    name: str
    batch: bytes
    status: int
    answers: bytes
    rules: bytes | None = None


Check = Callable[[Case, Room], Iterator[Outcome]]


def case_of(path: Path, written: Written) -> Case:
    head, answers = written.parts[-1]
    texts = [written.text, *(text for _, text in written.parts[:-1])]
    *rules, batch = [unescaped(repeated(text)) if path.stem == "escaped" else text.encode() for text in texts]
    return Case(written.name, batch, int(head.removeprefix("status ")), answers.encode(), *rules)


def words(case: Case, room: Room) -> list[str]:
    """The words for its rules."""
    if case.rules is None:
        return []
    room.write("rules.toml", case.rules)
    return ["--rules", "rules.toml"]


def in_memory(case: Case, room: Room) -> Iterator[Outcome]:
    came = room.run(*words(case, room), "batch", given=case.batch)
    yield Outcome(f"in memory: {case.name}", came, Ran(case.status, case.answers))


def in_a_file(case: Case, room: Room) -> Iterator[Outcome]:
    came = room.run("--db", DATABASE, *words(case, room), "batch", given=case.batch)
    yield Outcome(f"in a file: {case.name}", (came, complaints(room)), (Ran(case.status, case.answers), []))


def groups(check: Check, cases: list[Case]) -> list[Group]:
    return [Group(case.name, partial(check, case)) for case in cases]


# The cases of each file.
FILES = [[case_of(path, each) for each in read_file(path)] for path in sorted(FOLDER.glob("*.txt"))]
CASES = [case for cases in FILES for case in cases]

GROUPS = [*groups(in_memory, CASES), *groups(in_a_file, CASES)]
