"""Runs programs, and measures their processor time and memory."""

import os
import shutil
import subprocess
import sys
from collections.abc import Iterable, Sequence
from pathlib import Path
from typing import NamedTuple, TypeAlias

Word: TypeAlias = str | os.PathLike[str]

# How many turns are timed: the least counts, since other work only makes a run longer.
TURNS = 3

NOTHING = Path(os.devnull)

# Runs a program, and writes its status, its microseconds of processor time and its peak memory in kilobytes. The runner
# is small, since a process starts with the memory of its parent.
MEASURING = """
import os, sys
nowhere = [(os.POSIX_SPAWN_OPEN, 1, os.devnull, os.O_WRONLY, 0)]
child = os.posix_spawn(sys.argv[1], sys.argv[1:], os.environ, file_actions=nowhere)
_, status, usage = os.wait4(child, 0)
print(os.waitstatus_to_exitcode(status), round((usage.ru_utime + usage.ru_stime) * 1e6), usage.ru_maxrss)
"""


class BenchmarkFault(Exception):
    """A run that did not do what is measured."""


class Run(NamedTuple):
    """The words of a program, its input, and the expected status."""

    words: Sequence[Word]
    given: Path = NOTHING
    status: int = 0


class Work(NamedTuple):
    """A measured run, relative to another one that only starts and ends and comes first. The folder of what both make
    is emptied before."""

    run: Run
    start: Run
    made: Path | None = None


class Taken(NamedTuple):
    """Microseconds of processor time, the system's included, and peak memory in bytes."""

    microseconds: int
    memory: int


def taken(run: Run) -> Taken:
    """Runs a program whose output nobody reads; raises BenchmarkFault if it ends with another status."""
    with open(run.given, "rb") as given:
        words: list[Word] = [sys.executable, "-I", "-S", "-c", MEASURING, *run.words]
        done = subprocess.run(words, stdin=given, capture_output=True, text=True, errors="replace")
    status, microseconds, kilobytes = map(int, done.stdout.split() or [str(done.returncode), "0", "0"])
    if status != run.status or not kilobytes:
        raise BenchmarkFault(f"status {status} of {' '.join(map(str, run.words))}: {done.stderr[-300:]}")
    return Taken(microseconds, kilobytes * 1_024)


def output_of(run: Run) -> bytes:
    with open(run.given, "rb") as given:
        return subprocess.run(run.words, stdin=given, stdout=subprocess.PIPE, check=True).stdout


def turn_of(work: Work) -> tuple[Taken, Taken]:
    if work.made:
        shutil.rmtree(work.made, ignore_errors=True)
        work.made.mkdir()
    return taken(work.start), taken(work.run)


def least_of(works: Iterable[Work]) -> list[Taken]:
    """The least time of several turns for each; each turn runs all, so that other work affects all alike."""
    found = []
    for turns in zip(*([turn_of(work) for work in works] for _ in range(TURNS))):
        starts, runs = zip(*turns)
        beyond = min(run.microseconds for run in runs) - min(start.microseconds for start in starts)
        found.append(Taken(max(1, beyond), max(run.memory for run in runs)))
    return found
