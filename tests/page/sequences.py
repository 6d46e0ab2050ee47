"""Cases that run one after the other at one site."""

import os
import tempfile
from collections import abc
from collections.abc import Callable, Iterator
from functools import partial
from pathlib import Path
from typing import Any, NamedTuple

from tests.page import articles, missing, orders, origins, passwords, screens, shop
from tests.page.browser import browsing
from tests.page.list_desk import PlainSite
from tests.page.site import running
from tests.page.week import fill
from tests.program.room import Room
from tests.running import Cases, Chosen, Counted, Outcome, count_all

# A function of a site and a browser.
Check = Callable[[Any, Any], Iterator[Outcome]]


class Sequence(NamedTuple):
    """Cases at one site, by their functions; `is_plain` if the site is the page before a stand-in for the desk."""

    name: str
    cases: abc.Sequence[Check]
    is_plain: bool = True


SEQUENCES = [
    Sequence("views", [*articles.CASES, *missing.CASES]),
    Sequence("orders", orders.CASES),
    Sequence("screens", screens.CASES),
    Sequence("shop", [*shop.CASES, *origins.CASES, *passwords.CASES], is_plain=False),
]


class Group(Cases):
    """Runs cases at the site of their sequence, which is put up before."""

    def __init__(self, check: Check, is_plain: bool) -> None:
        super().__init__(check.__name__, check.__module__)
        self.check = check
        self.is_plain = is_plain
        self.place: tuple[Any, Any] | None = None

    def outcomes(self) -> Iterator[Outcome]:
        if self.place is None:
            raise RuntimeError(f"{self.id()} has no site")
        return self.check(*self.place)


def count_at(place: tuple[Any, Any], groups: list[Group], case: str) -> Counted:
    for group in groups:
        group.place = place
    return count_all(groups, case)


def try_at_a_site(program: Path, groups: list[Group], case: str) -> Counted:
    if groups[0].is_plain:
        plain = PlainSite()
        with browsing(plain, is_whole=False) as browser:
            return count_at((plain, browser), groups, case)
    with tempfile.TemporaryDirectory(prefix="onixdesk-page-") as folder:
        # nginx's workers read the page as another user.
        os.chmod(folder, 0o755)
        room = Room(program, Path(folder))
        fill(room)
        with running(room) as site, browsing(site) as browser:
            return count_at((site, browser), groups, case)


def chosen_groups(sequences: list[Sequence], chosen: Chosen) -> list[list[Group]]:
    """The chosen groups of each sequence, without empty sequences."""
    found = [[Group(check, sequence.is_plain) for check in sequence.cases] for sequence in sequences]
    kept = [[group for group in groups if chosen.has(group)] for groups in found]
    return [groups for groups in kept if groups]


def lanes(program: Path, sequences: list[list[Group]], case: str) -> list[Callable[[], Counted]]:
    return [partial(try_at_a_site, program, groups, case) for groups in sequences]
