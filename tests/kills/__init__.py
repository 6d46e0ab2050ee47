"""Kills programs: the inbox, copies and restores at each of their system calls that writes, renames, syncs or sends,
the others by chance."""

from collections.abc import Callable

from tests.kills.of_copies import OfCopy, OfRestore
from tests.kills.of_fetch import OfFetch
from tests.kills.of_inbox import OfInbox
from tests.kills.of_programs import OfCorrection, OfPrices, OfRenewal
from tests.kills.scenarios import Judged, Scenario, at_each_call, by_chance
from tests.program.room import Room

AT_EACH_CALL: dict[str, Callable[[Room], Scenario]] = {
    "inbox": OfInbox,
    "copy": OfCopy,
    "restore": OfRestore,
    "correction": OfCorrection,
}
BY_CHANCE: dict[str, Callable[[Room], Scenario]] = {"renewal": OfRenewal, "prices": OfPrices, "fetch": OfFetch}

NAMES = [*AT_EACH_CALL, *BY_CHANCE]


def killed(name: str, room: Room, most: int | None) -> Judged:
    """Kills a program at its calls, or at so many of them, or at so many moments."""
    scenario = {**AT_EACH_CALL, **BY_CHANCE}[name](room)
    try:
        return (at_each_call if name in AT_EACH_CALL else by_chance)(scenario, most)
    finally:
        scenario.close()
