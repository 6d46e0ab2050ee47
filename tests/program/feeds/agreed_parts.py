"""The number of parts belongs to the agreement on a series: what another number does, and how docs/ONIX.md changes it.
"""

from collections.abc import Iterator
from functools import partial
from typing import NamedTuple

from tests.program.feeds.convert.case_files import FRAMES
from tests.program.feeds.convert.running import convert
from tests.program.feeds.convert.wanted_runs import PRODUCT
from tests.program.room import Group, Ran, Room
from tests.running import Outcome

FRAME = FRAMES["products"]

AGREEMENT = "Agree,north,06,S,,,1\n"


class Change(NamedTuple):
    """From so many parts to others, after a message."""

    before: int
    after: int
    message: int

    def offset(self) -> int:
        """The least offset that puts the next message after the given numbers."""
        offset = 0
        while (self.message + offset) * self.after < self.message * self.before:
            offset += 1
        return offset

    def waived(self) -> range:
        first = self.message * self.before + 1
        return range(first, (self.message + self.offset()) * self.after + 1)


def message(number: int, room: Room, *words: str) -> bytes:
    feed = FRAME.before.replace("<MessageNumber>1<", f"<MessageNumber>{number}<")
    room.write("feed.xml", (feed + PRODUCT.format(f"R{number}") + FRAME.behind).encode())
    return convert(room, *words, "feed.xml").output


def applied(first: int, count: int) -> str:
    """The answers to the parts of a message; the first part has its product."""
    effects = ["replaced=1", *["replaced=0"] * (count - 1)]
    rest = "updated=0,deleted=0,unknown=0,ignored=0"
    return "".join(f"applied,north,{first + part},{effect},{rest}\n" for part, effect in enumerate(effects))


def answers_before(change: Change) -> str:
    firsts = [number * change.before + 1 for number in range(change.message)]
    return "agreed,north,1\n" + "".join(applied(first, change.before) for first in firsts)


def requests_before(change: Change, room: Room) -> bytes:
    words = ["--parts", str(change.before)]
    return AGREEMENT.encode() + b"".join(message(number, room, *words) for number in range(1, change.message + 1))


def changed(change: Change, room: Room) -> Iterator[Outcome]:
    """As the document says."""
    words = ["--parts", str(change.after)]
    if change.offset():
        words += ["--number-offset", str(change.offset())]
    waivers = "".join(f"Waive,north,{number}\n" for number in change.waived())
    following = message(change.message + 1, room, *words)
    given = requests_before(change, room) + waivers.encode() + following + b"AskGaps,north\n"
    first = change.waived().stop
    last = first + change.after - 1
    wanted = answers_before(change)
    wanted += "".join(f"waived,north,{number}\n" for number in change.waived())
    wanted += applied(first, change.after)
    wanted += f"gaps,north,first=1,next={last + 1},greatest={last},held=0,missing=0\n"
    yield Outcome(f"{change}", room.run("batch", given=given), Ran(0, wanted.encode()))


CHANGES = [Change(2, 3, 3), Change(1, 2, 1), Change(3, 2, 3), Change(4, 2, 2), Change(5, 3, 2)]

GROUPS = [Group(f"{change}", partial(changed, change)) for change in CHANGES]
