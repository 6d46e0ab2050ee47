"""Tests of the built program and of what stands beside it, a folder for each room and a module for each subject.

What a case wants is taken from the desk's written rules, never from what the program wrote.

A group is a generator function over a `Room`, a folder of its own in which the program is run, and yields one
`Outcome` for each of its cases. In a module of tests each function over a room alone is one, and a list `GROUPS` has
those that take more. Groups run side by side. What calls a program of Debian's packages is marked by `needs`, or its
module has a list NEEDS, and is left out where that program is missing.
"""

import importlib
import inspect
import pkgutil
from collections.abc import Callable, Iterator
from typing import Any

from tests.program.room import Group, Room
from tests.running import Cases, Outcome

# These start first: the first two wait for clients, and the others have the groups that take longest.
FIRST = ["clients", "open_desks", "generated_feeds", "kills", "broken_streams"]


def checks_of(module: Any, *over: type) -> list[tuple[str, Callable[..., Iterator[Outcome]]]]:
    """The functions of a module that give cases over values of just these types, each by its name in words."""
    return [
        (name.replace("_", " "), check)
        for name, check in vars(module).items()
        if inspect.isfunction(check)
        and check.__module__ == module.__name__
        and [*check.__annotations__.values()] == [*over, Iterator[Outcome]]
    ]


def groups_of(module: Any) -> list[Cases]:
    return [*getattr(module, "GROUPS", []), *(Group(name, check) for name, check in checks_of(module, Room))]


def needing(module: Any) -> list[Cases]:
    """Its groups, each with what the whole module needs."""
    found = groups_of(module)
    for group in found:
        group.needs.extend(getattr(module, "NEEDS", []))
    return found


def groups() -> list[Cases]:
    """The groups of all modules below this one."""
    names = [module.name for module in pkgutil.walk_packages(__path__, f"{__name__}.") if not module.ispkg]
    names.sort(key=lambda name: (FIRST.index(last) if (last := name.rpartition(".")[2]) in FIRST else len(FIRST), name))
    modules: list[Any] = [importlib.import_module(name) for name in names]
    return [group for module in modules for group in needing(module)]
