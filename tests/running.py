"""Runs groups of cases side by side, all of them or the named ones, and counts the failed cases."""

import argparse
import os
import sys
import traceback
from collections.abc import Callable, Iterable, Iterator
from concurrent.futures import ThreadPoolExecutor
from fnmatch import fnmatchcase
from pathlib import Path
from typing import Any, NamedTuple

from tests import needs
from tools.root import ROOT

# The default program.
PROGRAM = ROOT / "crates/onixdesk/out/onixdesk"

# How much of a value a line shows.
SHOWN = 2000


class Outcome(NamedTuple):
    """The result of a case, and the expected one."""

    name: str
    came: Any
    wanted: Any


def left_out(why: str) -> Outcome:
    """What a group yields instead of cases that cannot be tried here, for that reason. It is reported, and fails if
    NOTHING_LEFT_OUT is set, as in .ci/run."""
    print(f"left out: {why}", file=sys.stderr, flush=True)
    return Outcome(f"left out: {why}", needs.nothing_may_be_left_out(), False)


class Cases:
    """A group of cases, each of which may build on those before it: its name, its module, and the programs without
    which it is left out (tests/needs.py)."""

    def __init__(self, name: str, module: str, needs: Iterable[str] = ()) -> None:
        self.name = name
        self.module = module.rpartition(".")[2]
        self.needs = list(needs)

    def id(self) -> str:
        return f"{self.module}: {self.name}"

    def outcomes(self) -> Iterator[Outcome]:
        raise NotImplementedError


def shown(value: object) -> str:
    text = repr(value)
    return text if len(text) <= SHOWN else f"{text[:SHOWN]}.. ({len(text)} characters)"


class Counted:
    """The results of groups: how many cases ran, and a line for each that failed."""

    def __init__(self) -> None:
        self.count = 0
        self.lines: list[str] = []

    def add(self, name: str, failure: str | None) -> None:
        self.count += 1
        if failure is not None:
            self.lines.append(f"{name}: {failure}")


class Chosen(NamedTuple):
    """Which cases run: in groups whose name matches one of the patterns, those whose name has a text."""

    patterns: list[str]
    case: str = ""

    def has(self, group: Cases) -> bool:
        return not self.patterns or any(fnmatchcase(group.id(), pattern) for pattern in self.patterns)


def pattern_of(text: str) -> str:
    """A text without a wildcard may be anywhere in the name."""
    return text if "*" in text else f"*{text}*"


def command_line(name: str, text: str | None) -> argparse.ArgumentParser:
    """The words that select the cases and the tested program."""
    parser = argparse.ArgumentParser(name, description=text, formatter_class=argparse.RawDescriptionHelpFormatter)
    parser.add_argument("program", metavar="PROGRAM", type=Path, nargs="?")
    parser.add_argument(
        "-k",
        metavar="PATTERN",
        action="append",
        type=pattern_of,
        default=[],
        dest="patterns",
        help="only the groups 'MODULE: NAME' that have this text, or keep to it where it has a *; several are joined",
    )
    parser.add_argument(
        "--case",
        metavar="TEXT",
        default="",
        help="of these only the cases whose name has this text;" " what the others before them do is done",
    )
    parser.add_argument("--list", action="store_true", help="write the names of the groups, and try none")
    return parser


def left_out_whole(label: str, why: str) -> int:
    """Says that none of these tests runs, and returns the status."""
    print(f"{label}: left out, since it {why}")
    return 2 if needs.nothing_may_be_left_out() else 0


def why_not(program: Path, is_listed: bool = False) -> str | None:
    """Why that program cannot be tested; listing the cases needs no program."""
    if not is_listed and not os.access(program, os.X_OK):
        return f"no program {program}; make build builds it"
    return None


def choice(given: argparse.Namespace) -> Chosen:
    return Chosen(given.patterns, given.case)


def count_all(groups: Iterable[Cases], case: str = "") -> Counted:
    """Runs groups one after the other, counting cases whose name has a text. A group that ends by an exception, or has
    no case, counts as a failed case."""
    counted = Counted()
    for group in groups:
        try:
            is_empty = True
            for name, came, wanted in group.outcomes():
                is_empty = False
                if case in name:
                    counted.add(name, None if came == wanted else f"wanted {shown(wanted)}, came {shown(came)}")
            if is_empty:
                counted.add(group.id(), "wanted a case, came none")
        except Exception:
            counted.add(group.id(), f"wanted its cases to run, came {traceback.format_exc().strip()}")
    return counted


def called(lane: Callable[[], Counted]) -> Counted:
    return lane()


def tell_all(label: str, found: Iterable[Counted]) -> int:
    """Prints what failed and the last line `LABEL: N cases, M failed`, and returns the status: 0; 1 if a case failed; 2
    if none ran."""
    count = failed = 0
    for counted in found:
        count += counted.count
        failed += len(counted.lines)
        for line in counted.lines:
            print(line, flush=True)
    print(f"{label}: {count} cases, {failed} failed")
    return 1 if failed else 0 if count else 2


def run_side_by_side(label: str, lanes: list[Callable[[], Counted]], most: int | None = None) -> int:
    """Runs lanes side by side in threads, and returns the status of all."""
    with ThreadPoolExecutor(most or os.cpu_count()) as pool:
        return tell_all(label, pool.map(called, lanes))
