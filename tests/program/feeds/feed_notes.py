"""What `onixdesk convert` says of its files on standard error, compared with what is expected."""

import re
from collections.abc import Iterable
from typing import NamedTuple

from tests.program.feeds.feed_oracle import COUNTED, Note
from tests.program.feeds.feed_trees import Place

# The most lines of notes on a file, and the most further ones on products that are left out or emptied.
MOST_LINES = 1000

# How many characters of a text a line shows.
MOST_SHOWN = 100


class Said(NamedTuple):
    """A line about a place in a file; the column is None if none is named."""

    place: tuple[int, int | None]
    what: str


class Errors(NamedTuple):
    """The lines about each file, in order, and those after them all."""

    of_files: dict[str, list[Said]]
    summary: list[str]


def read_errors(errors: bytes) -> Errors:
    of_files: dict[str, list[Said]] = {}
    summary: list[str] = []
    for line in errors.decode().splitlines():
        found = re.fullmatch(r"onixdesk: ([^ :]+):([0-9]+)(?::([0-9]+))?: (.*)", line)
        if found:
            column = int(found[3]) if found[3] else None
            of_files.setdefault(found[1], []).append(Said((int(found[2]), column), found[4]))
        else:
            summary.append(line.removeprefix("onixdesk: "))
    return Errors(of_files, summary)


def is_named(name: str, text: str) -> bool:
    """Whether a text has the name, as a word of its own."""
    return name == "" or re.search(rf"(?<![\w-]){re.escape(name)}(?![\w-])", text) is not None


def shown(name: str) -> str:
    """A text of a feed as a line shows it."""
    return name if len(name) <= MOST_SHOWN else f"{name[:MOST_SHOWN]}.."


def tells(said: Said, note: Note) -> bool:
    """Whether a line says what the note says: the reference, one of the reasons, and one of the names."""
    is_plain = note.reference.isprintable() and len(note.reference) < 100
    return (
        (not is_plain or note.reference in said.what)
        and any(reason.lower() in said.what.lower() for reason in note.reasons)
        and any(is_named(shown(name), said.what) for name in note.names)
    )


class Compared(NamedTuple):
    """What is missing, and what is not expected."""

    missing: list[tuple[Place, Note]]
    surplus: list[Said]


def lines_of(notes: list[Note]) -> int:
    """How many lines there are to be on them."""
    of_products = sum(note.is_of_product for note in notes)
    return min(of_products, MOST_LINES) + min(len(notes) - of_products, MOST_LINES)


def compared(wanted: list[Note], starts: dict[object, Place], said: Iterable[Said]) -> Compared:
    """Each line is one note, in any order. If there are more notes than lines, some may be missing."""
    missing = [(starts[note.about], note) for note in wanted]
    surplus = []
    for line in said:
        for at, (place, note) in enumerate(missing):
            if line.place == place and tells(line, note):
                del missing[at]
                break
        else:
            surplus.append(line)
    if len(wanted) - len(missing) == lines_of(wanted) < len(wanted):
        missing = [(place, note) for place, note in missing if note.is_of_product]
    return Compared(missing, surplus)


# The first line, if a FILE has nothing from the requested supplier.
LACKING = "no SupplyDetail of the supplier of --supplier in a FILE with others"

# How many products and notes there are, and how many of the products are wrong.
PRODUCTS, WRONG, NOTES = "products", "products wrong", "notes"


def read_summary(lines: list[str]) -> dict[str, int]:
    """How often each reason was given, and each other count; raises ValueError if a line comes twice, or in the wrong
    place."""
    found = [line.rpartition(": ") for line in lines]
    counts = {words: int(count) for words, _, count in found}
    words = list(counts)
    if len(words) != len(lines) or LACKING in words[1:] or NOTES in words[:-1]:
        raise ValueError(lines)
    return counts


def notes_in(summary: dict[str, int]) -> int:
    """How many notes it counts by their reasons."""
    others = [*COUNTED, LACKING, PRODUCTS, WRONG, NOTES]
    return sum(count for reason, count in summary.items() if reason not in others)


def summed(counts: dict[str, int]) -> list[str]:
    """The lines of what is counted."""
    return [f"{words}: {count}" for words, count in counts.items() if count]
