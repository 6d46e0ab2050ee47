"""Keeps copies side by side, each in a folder named by its second."""

import re
import time
from pathlib import Path

from onixdesk_shop.machine import Machine

UNFINISHED = ".desk-copy"

NAME = "%Y-%m-%dT%H-%M-%SZ"

# The length of the day in such a name.
DAY = 10

# Lies beside a desk, and in each of its copies: a line for each correction, after the name of the last copy that is
# right without it, if there is one.
CORRECTIONS = "corrections"

is_name = re.compile(r"\d{4}-\d\d-\d\dT\d\d-\d\d-\d\dZ").fullmatch


def named(second: float) -> str:
    return time.strftime(NAME, time.gmtime(second))


def corrections_in(machine: Machine, folder: Path) -> list[str]:
    file = folder / CORRECTIONS
    return machine.read(file).decode().splitlines() if machine.exists(file) else []


def corrections_since(machine: Machine, desk: Path, copy: Path) -> list[str]:
    """The corrections made after a copy, whatever its name is now and wherever it lay."""
    lacking = [line for line in corrections_in(machine, desk) if line not in corrections_in(machine, copy)]
    return [line for line in lacking if not is_name(copy.name) or copy.name > line.partition(" ")[0]]


def keep_latest(machine: Machine, folder: Path, count: int, newest: Path) -> None:
    """Removes all but the latest copies. The newest stays, even if a clock that was ahead gave others later names. A
    copy gets a hidden name before it is removed, since a killed run would leave a part of it."""
    others = [path for path in machine.paths(folder, "*") if is_name(path.name) and path != newest]
    # Corrections make several copies a day. All but the last of a day go first, so that earlier nights stay.
    doubled = [old for old, later in zip(others, [*others[1:], newest]) if old.name[:DAY] == later.name[:DAY]]
    others = [*doubled, *(copy for copy in others if copy not in doubled)]
    for old in others[: max(0, len(others) + 1 - count)]:
        machine.rename(old, folder / UNFINISHED)
        machine.remove_tree(folder / UNFINISHED)
