"""Programs that are killed at some of their system calls or moments, and the desk; tests/killed tries more of them."""

from collections.abc import Iterator
from functools import partial

from tests.kills import AT_EACH_CALL, BY_CHANCE, killed
from tests.kills.of_desk import at_some_moments
from tests.kills.of_fetch import disk_that_takes_nothing
from tests.program.room import Group, Room, needs
from tests.running import Outcome

# For each program so many calls that rename a file, and half as many of the others, or so many moments.
MOST = 4


def by_chance(name: str, room: Room) -> Iterator[Outcome]:
    judged = killed(name, room, MOST)
    yield Outcome(f"kills: {name}", judged.wrong, [])
    yield Outcome(f"kills: {name}: it was killed", judged.tried >= MOST // 2, True)


@needs("strace")
def at_calls(name: str, room: Room) -> Iterator[Outcome]:
    return by_chance(name, room)


def desk(room: Room) -> Iterator[Outcome]:
    return at_some_moments(room)


@needs("sshd", "rclone")
def fetch_without_a_disk(room: Room) -> Iterator[Outcome]:
    return disk_that_takes_nothing(room)


# One kill of the script that fetches takes as long as all of the others; fetching.py has one.
GROUPS = [
    *(Group(name, partial(at_calls, name)) for name in AT_EACH_CALL),
    *(Group(name, partial(by_chance, name)) for name in BY_CHANCE if name != "fetch"),
]
