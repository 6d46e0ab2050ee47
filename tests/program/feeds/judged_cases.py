"""The cases of tests/conversions expect what the oracle says of them, so that each tests the other."""

import re
import tomllib
from collections.abc import Iterator

from tests.program.feeds.convert import case_files
from tests.program.feeds.feed_oracle import judge
from tests.program.feeds.feed_reading import is_read, read_or_none
from tests.program.feeds.feed_trees import Term, Words
from tests.program.room import Room
from tests.running import Outcome

# expat knows the fourth edition of XML, and accepts other versions; it has no limit of depth.
OTHERWISE = [
    "names that the fifth edition has and the fourth has not",
    "versions that are none",
    "one element too deep",
]


def agreed(room: Room) -> Iterator[Outcome]:
    for path in sorted(case_files.FOLDER.glob("*.txt")):
        for case in case_files.read_cases(path):
            if case.name in OTHERWISE:
                continue
            for feed in filter(lambda feed: is_read(feed.data), case.feeds()):
                yield Outcome(f"the oracle: {feed.name}", *judged(case, feed))


def judged(case: case_files.Case, feed: case_files.Feed) -> tuple[object, object]:
    """What the oracle says of a case, and what the case expects: the records, the places of the notes and whether each
    is wrong, and whether it is refused."""
    wanted = feed.wanted
    lines = [(line, False) for line in wanted.notes] + [(line, True) for line in wanted.wrong]
    places = sorted((*map(int, re.findall("^([0-9]+):([0-9]+)", line)[0]), is_wrong) for line, is_wrong in lines)
    hoped = wanted.records or b"", places, wanted.refused != ""
    words = words_of(case.words, case.table)
    found = read_or_none(feed.data, words)
    if found is None:
        return (b"", [], True), hoped
    verdict = judge(found.message, words)
    notes = verdict.refusal.notes if verdict.refusal else verdict.notes
    told = sorted((*found.starts[note.about], note.is_wrong) for note in notes)
    return (b"".join(part.text() for part in verdict.parts), told, verdict.refusal is not None), hoped


def terms_of(table: str) -> tuple[Term, ...] | None:
    """The items of an array in TOML if each is as the desk wants it; None if there is no array."""
    lists = "types", "codes"
    tables = tomllib.loads(f"term = {table}")["term"] if table else None
    made = (Term(**each | {name: tuple(each.get(name, ())) for name in lists}) for each in tables or ())
    return None if tables is None else tuple(made)


def words_of(line: list[str], table: str) -> Words:
    """The words of a command line, by their names, and the terms of a table."""
    given = dict(zip(line[::2], line[1::2], strict=True))

    def pair(name: str) -> tuple[str, str] | None:
        id_type, _, value = given.get(name, "").partition(",")
        return (id_type, value) if name in given else None

    return Words(
        int(given.get("--parts", "1")),
        given.get("--number", ""),
        given.get("--number-offset", ""),
        pair("--sender"),
        pair("--addressee"),
        given.get("--id-type", ""),
        given.get("--wrong", ""),
        terms_of(table),
        pair("--supplier"),
    )
