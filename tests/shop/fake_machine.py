"""A machine with real files, and the tests' desk, program and clock; with faults at each of its calls."""

import contextlib
import io
import os
import shutil
import sqlite3
from collections import Counter
from collections.abc import Callable, Iterable, Iterator
from pathlib import Path

from onixdesk_shop.children import Ended, Words
from onixdesk_shop.faults import BadEnd
from onixdesk_shop.machine import Entry, Machine
from tests.shop import fake_program
from tests.shop.fake_desk import FakeDesk


class Killed(BaseException):
    """The program is killed here."""


class Disk:
    """What was done to folders and is not synced: it can be undone."""

    def __init__(self) -> None:
        self.undo: list[tuple[Path, Callable[[], None]]] = []

    def note(self, folder: Path, undo: Callable[[], None]) -> None:
        self.undo.append((folder, undo))

    def sync(self, folder: Path) -> None:
        self.undo = [(each, undo) for each, undo in self.undo if each != folder]

    def lose_power(self, is_torn: bool) -> None:
        """What is not synced is gone: in all folders, or, torn, in the one that changed first."""
        first = self.undo[0][0] if is_torn and self.undo else None
        for folder, undo in reversed(self.undo):
            if folder == (first or folder):
                with contextlib.suppress(FileNotFoundError):
                    undo()
        self.undo = []


def put_back(now: Path, before: Path) -> None:
    """A name is as it was, unless somebody has used it since for a later file."""
    if not before.exists():
        os.rename(now, before)


class ClosedOutput(io.StringIO):
    def write(self, _text: str) -> int:
        raise BrokenPipeError(32, "Broken pipe")


class FakeMachine(Machine):
    """One run of a program: `fault` is what happens, at which step or at any, and at the how many'th."""

    def __init__(
        self, disk: Disk, desk: FakeDesk | None, clock: float, fault: tuple[str, str, int] = ("", "", 0)
    ) -> None:
        super().__init__("test")
        self.disk = disk
        self.desk = desk
        self.clock = clock
        self.kind, *self.at = fault
        # What somebody else does then, if the kind is `meanwhile`.
        self.meanwhile: Callable[[], object] = lambda: None
        self.steps: Counter[str] = Counter()
        self.is_dead = False
        self.lines: list[tuple[int, str]] = []
        self.errors = io.StringIO()
        self.posted: list[bytes] = []
        self.program_seconds = 0
        self.written = ""

    @property
    def calls(self) -> int:
        """How many steps there were."""
        return self.steps[""]

    def step(self, what: str) -> None:
        """Before and after each call: the fault, when it is due."""
        if self.is_dead:
            raise Killed
        self.steps.update([what, ""])
        if self.at not in ([what, self.steps[what]], ["", self.steps[""]]):
            return
        if self.kind == "meanwhile":
            self.meanwhile()
            return
        if self.kind == "error":
            raise OSError(28, "No space left on device", what)
        if self.kind == "signal":
            # The program goes on with what it does at its end.
            raise SystemExit(143)
        self.is_dead = True
        if self.kind in ("power", "torn"):
            self.disk.lose_power(self.kind == "torn")
        raise Killed

    def now(self) -> float:
        self.clock += 0.001
        return self.clock

    def today(self) -> str:
        return "20261130"

    def sleep(self, seconds: float) -> None:
        self.clock += seconds

    def entry(self, path: Path) -> Entry:
        found = super().entry(path)
        # The tests set times of files, but nobody can set the one by which the machine sees a change.
        return found._replace(changed=found.modified)

    def copy(self, source: Path, target: Path) -> str:
        self.step("copy")
        digest = super().copy(source, target)
        self.disk.note(target.parent, target.unlink)
        self.step("copied")
        return digest

    def write_whole(self, path: Path, data: bytes, mode: int = 0o644) -> None:
        self.step("write")
        super().write_whole(path, data, mode)
        self.step("written")

    def rename(self, old: Path, new: Path) -> None:
        self.step("rename")
        super().rename(old, new)
        self.disk.note(new.parent, lambda: put_back(new, old))
        self.step("renamed")

    def remove(self, path: Path) -> None:
        self.step("remove")
        if path.exists():
            kept = path.parent.parent / f"lost-{path.name}"
            shutil.copy2(path, kept)
            super().remove(path)
            self.disk.note(path.parent, lambda: put_back(kept, path))
        self.step("removed")

    def sync_folder(self, folder: Path) -> None:
        self.step("sync")
        self.disk.sync(folder)
        self.step("synced")

    @contextlib.contextmanager
    def transaction(self, connection: sqlite3.Connection) -> Iterator[None]:
        self.step("begin")
        with super().transaction(connection):
            yield
            self.step("commit")
        self.step("committed")

    def batch(self, address: Path, text: bytes) -> bytes:
        self.step("batch")
        if not self.desk:
            raise ConnectionRefusedError(111, "Connection refused")
        self.posted.append(text)
        answer = self.desk.batch(text.decode()).encode()
        self.step("answered")
        return answer

    def run(
        self,
        words: Words,
        known: tuple[int, ...] = (0,),
        text: bytes | Iterable[bytes] = b"",
        seconds: float | None = None,
    ) -> Ended:
        self.step("child")
        if {"convert", "check"}.intersection(words):
            self.clock += self.program_seconds
            if (seconds or 0) < self.program_seconds:
                raise BadEnd("onixdesk takes too long")
        ended = fake_program.ended([str(word) for word in words], text if isinstance(text, bytes) else b"".join(text))
        if ended.status not in known:
            raise BadEnd(f"{words[0]} ended with status {ended.status}")
        return ended

    def tell(self, priority: int, line: str) -> None:
        self.lines.append((priority, line))
        with contextlib.redirect_stderr(self.errors):
            super().tell(priority, line)

    def close_output(self) -> None:
        """Nobody reads it any more."""
        self.errors = ClosedOutput()

    def write(self, text: str) -> None:
        self.written += text
