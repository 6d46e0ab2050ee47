"""The system calls by which a program changes files or says something, and how strace kills it at one of them, or at
some moment."""

import os
import re
import signal
import subprocess
from collections import Counter
from collections.abc import Mapping, Sequence
from pathlib import Path
from typing import NamedTuple

from tests.program.room import SECONDS, Ran
from tools.words import Word

WRITES = """
    write pwrite64 writev pwritev pwritev2 sendfile copy_file_range truncate ftruncate fallocate
    rename renameat renameat2 link linkat symlink symlinkat unlink unlinkat mkdir mkdirat rmdir
    fsync fdatasync sync_file_range sendto sendmsg chmod fchmod fchmodat chown fchown fchownat utimensat
""".split()

# Only some of these change a file.
OPENS = {"openat": re.compile(r"O_(CREAT|TRUNC|WRONLY|RDWR)"), "ioctl": re.compile("FICLONE")}

LINE = re.compile(r"([a-z0-9_]+)\(.*")


class Point(NamedTuple):
    """The program's call of that name and number."""

    call: str
    place: int


class Failed(Exception):
    """A run that nobody killed failed, or one that was to be killed ended by itself."""


def points_in(trace: str) -> list[Point]:
    """The points of a trace, in order."""
    counts: Counter[str] = Counter()
    found = []
    for line in trace.splitlines():
        if not (call := LINE.match(line)):
            continue
        name = call[1]
        counts[name] += 1
        if name not in OPENS or OPENS[name].search(line):
            found.append(Point(name, counts[name]))
    return found


def tracing(*how: str) -> list[str]:
    """The command by which strace writes a program's calls, without its children's."""
    names = ",".join([*WRITES, *OPENS])
    return ["strace", "-o", "trace", "-e", f"trace={names}", "-e", "signal=none", *how]


def traced(words: Sequence[Word], folder: Path, environment: Mapping[str, str], *how: str) -> Ran:
    """A run of a program under strace."""
    done = subprocess.run(
        [*tracing(*how), *words],
        cwd=folder,
        env=environment,
        stdin=subprocess.DEVNULL,
        capture_output=True,
        timeout=SECONDS,
    )
    return Ran(done.returncode, done.stdout, done.stderr)


def points_of(words: Sequence[Word], folder: Path, environment: Mapping[str, str]) -> tuple[Ran, list[Point]]:
    """How an undisturbed run ends, and its points."""
    ran = traced(words, folder, environment)
    trace = folder / "trace"
    found = points_in(trace.read_text(encoding="utf-8", errors="replace"))
    trace.unlink()
    return ran, found


def kill_at(point: Point, words: Sequence[Word], folder: Path, environment: Mapping[str, str]) -> Ran:
    """A run that is killed at a point, before the call has done anything."""
    ran = traced(words, folder, environment, "-e", f"inject={point.call}:signal=KILL:when={point.place}")
    (folder / "trace").unlink(missing_ok=True)
    return ran


def kill_after(seconds: float, words: Sequence[Word], folder: Path, environment: Mapping[str, str]) -> Ran:
    """A run that is killed with its children, so many seconds after its start."""
    run = subprocess.Popen(
        words,
        cwd=folder,
        env=environment,
        stdin=subprocess.DEVNULL,
        stdout=subprocess.PIPE,
        stderr=subprocess.PIPE,
        start_new_session=True,
    )
    try:
        output, errors = run.communicate(timeout=seconds)
    except subprocess.TimeoutExpired:
        os.killpg(run.pid, signal.SIGKILL)
        output, errors = run.communicate(timeout=SECONDS)
    return Ran(run.returncode, output, errors)
