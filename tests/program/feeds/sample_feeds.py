"""The sample feeds in tests/feeds: whole messages, their records, byte for byte, and the places of notes. Two products
of `left-out` are wrong."""

import re
from collections.abc import Iterator
from functools import partial
from pathlib import Path

from tests.program.feeds.convert.records_and_notes import LINE
from tests.program.feeds.feed_notes import NOTES, WRONG, read_errors, read_summary
from tests.program.feeds.feed_trees import Place
from tests.program.room import Group, Room
from tests.running import Outcome
from tools.root import ROOT

FOLDER = ROOT / "tests/feeds"

PATHS = sorted(FOLDER.glob("*.xml"))

# The notes on the feed `left-out`: the RecordReference, and the element whose start tag is at the line and column.
NOTED = [
    ("fr.librairie.0001", "Price"),
    ("fr.librairie.0001", "Price"),
    ("fr.librairie.0001", "Price"),
    ("fr.librairie.0001", "Price"),
    ("fr.librairie.0001", "Price"),
    ("fr.librairie.0001", "Price"),
    ("fr.librairie.0001", "Price"),
    ("fr.librairie.0001", "Territory"),
    ("fr.librairie.0001", "Price"),
    ("fr.librairie.0002", "Territory"),
    ("fr.librairie.0002", "Market"),
    ("fr.librairie.0003", "Price"),
    ("fr.librairie.0004", "ProductSupply"),
    ("fr.librairie.0005", "ProductIdentifier"),
]


def element_at(feed: list[str], place: Place) -> str:
    """The element whose start tag is at a place in the feed."""
    found = re.match("<([A-Za-z]+)", feed[place.line - 1][place.column - 1 :])
    return found[1] if found else ""


def noted(path: Path, errors: bytes) -> list[tuple[str, str]]:
    """The RecordReference of each note, and the element at its place."""
    feed = path.read_text(encoding="latin-1").splitlines()
    found = []
    for line in errors.decode().splitlines():
        if said := LINE.fullmatch(line.removeprefix("onixdesk: ")):
            row, column = map(int, said[2].split(":"))
            found.append((said[4].partition(": ")[0], element_at(feed, Place(row, column))))
    return found


def sample(path: Path, room: Room) -> Iterator[Outcome]:
    records = path.with_suffix(".csv").read_bytes()
    room.write("1.xml", path.read_bytes())
    came = room.run("convert", "1.xml")
    is_noted = path.stem == "left-out"
    status = 1 if is_noted else 0
    yield Outcome(f"convert {path.name}", (came.status, came.output), (status, records))
    hoped = NOTED if is_noted else []
    yield Outcome(f"convert {path.name}: its notes", noted(path, came.errors), hoped)
    found = read_summary(read_errors(came.errors).summary)
    counts = [found.get(words, 0) for words in (WRONG, NOTES)]
    wanted = [2, len(hoped)] if is_noted else [0, 0]
    yield Outcome(f"convert {path.name}: the count", counts, wanted)
    came = room.run("convert", given=path.read_bytes())
    yield Outcome(f"convert {path.name}, from standard input", (came.status, came.output), (status, records))


GROUPS = [Group(f"convert {path.name}", partial(sample, path)) for path in PATHS]
