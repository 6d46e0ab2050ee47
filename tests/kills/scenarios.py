"""What a program is killed over, and how the state that it leaves is judged."""

import os
import signal
import time
from collections import Counter
from collections.abc import Iterator, Mapping, Sequence
from random import Random
from typing import NamedTuple

from tests.kills.calls import Failed, Point, kill_after, kill_at, points_of
from tests.program.room import Ran, Room
from tools.words import Word

# How often a program is killed by chance, unless a number is given.
MOMENTS = 40


class Scenario:
    """One program over one state, in a room."""

    # How an undisturbed run ends.
    status = 0

    def __init__(self, room: Room) -> None:
        self.room = room

    def prepare(self) -> None:
        """Prepares the state that each run begins with."""
        raise NotImplementedError

    def words(self) -> Sequence[Word]:
        raise NotImplementedError

    def environment(self) -> Mapping[str, str]:
        return os.environ

    def wrong_then(self) -> Iterator[str]:
        """What is wrong after the kill."""
        return iter(())

    def wrong_at_end(self) -> Iterator[str]:
        """What is wrong after another run, as somebody would run it."""
        raise NotImplementedError

    def close(self) -> None:
        """Ends what runs beside it."""


class Judged(NamedTuple):
    """How many points there are of each call, or moments; how many were tried; and what was wrong at which."""

    points: Counter[str]
    tried: int
    wrong: list[str]


def spread(points: list[Point], most: int) -> list[Point]:
    """So many of them, as far apart as possible."""
    if most >= len(points):
        return points
    return [points[(2 * place + 1) * len(points) // (2 * most)] for place in range(most)]


def chosen(points: list[Point], most: int | None) -> list[Point]:
    """All points; or so many of those that rename a file, and half as many of the others."""
    if most is None:
        return points
    renaming = [point for point in points if point.call.startswith("rename")]
    others = [point for point in points if point not in renaming]
    some = {*spread(renaming, most), *spread(others, most // 2)}
    return [point for point in points if point in some]


def check(scenario: Scenario, ran: Ran) -> None:
    """Fails if an undisturbed run ends in another way, or leaves something wrong."""
    if ran.status != scenario.status or (wrong := [*scenario.wrong_at_end()]):
        raise Failed(f"a run that nobody kills: {ran}: {wrong if ran.status == scenario.status else ''}")


def wrong_after(scenario: Scenario, ended: Ran) -> Iterator[str]:
    """What is wrong with the state that a killed run leaves, and with what the next run makes of it."""
    # A run that came to fewer such calls than the first run, or was quicker, has finished.
    if ended.status not in (-signal.SIGKILL, scenario.status):
        yield f"{ended}"
        return
    yield from (f"then: {wrong}" for wrong in scenario.wrong_then())
    yield from (f"at the end: {wrong}" for wrong in scenario.wrong_at_end())


def at_each_call(scenario: Scenario, most: int | None) -> Judged:
    """Kills a program at its calls, or at so many of them."""
    folder = scenario.room.folder
    scenario.prepare()
    ran, points = points_of(scenario.words(), folder, scenario.environment())
    check(scenario, ran)
    tried, found = chosen(points, most), []
    for point in tried:
        scenario.prepare()
        ended = kill_at(point, scenario.words(), folder, scenario.environment())
        found += [f"{point}: {wrong}" for wrong in wrong_after(scenario, ended)]
    return Judged(Counter(point.call for point in points), len(tried), found)


def by_chance(scenario: Scenario, most: int | None) -> Judged:
    """Kills a program at so many moments of its run."""
    moments, found = Random(41), []
    scenario.prepare()
    began = time.monotonic()
    check(scenario, run_again(scenario.room, scenario.words(), scenario.environment()))
    took, count = time.monotonic() - began, most or MOMENTS
    for _ in range(count):
        scenario.prepare()
        moment = moments.uniform(0, took)
        ended = kill_after(moment, scenario.words(), scenario.room.folder, scenario.environment())
        found += [f"{moment:.3f} s: {wrong}" for wrong in wrong_after(scenario, ended)]
    return Judged(Counter(moment=count), count, found)


def told(name: str, judged: Judged) -> str:
    points = ", ".join(f"{count} {point}" for point, count in sorted(judged.points.items()))
    return f"{name}: {judged.tried} of {judged.points.total()} points ({points}), {len(judged.wrong)} wrong"


def run_again(room: Room, words: Sequence[Word], environment: Mapping[str, str]) -> Ran:
    return room.call(words, environment=environment)
