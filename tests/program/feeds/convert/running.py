"""Runs of `onixdesk convert`."""

import re
from collections.abc import Iterator
from typing import NamedTuple

from tests.program.feeds.convert.memory_of import converted
from tests.program.room import Ran, Room
from tools.words import Word

# The file with the feed of a case.
FEED = "feed.xml"


def convert(room: Room, *words: Word | bytes, given: bytes = b"") -> Ran:
    return room.run("convert", *words, given=given)


REFUSED = re.compile(r"onixdesk: ([^ ]+):([0-9]+):[0-9]+: refused: .")


def refused_lines(came: Ran) -> list[tuple[str, int]]:
    """The refused files, and the line of each at the place."""
    found = map(REFUSED.match, came.errors.decode().splitlines())
    return [(each[1], int(each[2])) for each in found if each]


class Measured(NamedTuple):
    """How a run ended, its seconds of processor time, and its peak memory in bytes."""

    ran: Ran
    seconds: float
    memory: int


def measured(room: Room, pieces: Iterator[bytes], *words: str) -> Measured:
    """Converts a feed from standard input."""
    came = converted(room.program, room.folder, pieces, *words)
    return Measured(Ran(came.status, came.output, came.errors), came.seconds, came.memory)
