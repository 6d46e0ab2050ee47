"""desk-copy, which puts a copy beside others, and desk-restore."""

import os
import shutil
import stat
from collections.abc import Iterator, Mapping, Sequence
from pathlib import Path

from onixdesk_shop.copies.keeping import is_name
from tests.kills.scenarios import Scenario, run_again
from tests.program.databases import DATABASE, batch
from tests.program.messages import AGREEMENT, bare
from tests.program.room import Room
from tools.root import ROOT
from tools.words import Word

LOG = f"{DATABASE}-wal"

Files = dict[str, bytes]


def files_in(folder: Path) -> Files:
    return {each.name: each.read_bytes() for each in folder.iterdir()} if folder.is_dir() else {}


OLD = ["2025-01-01T00-00-00Z", "2025-01-02T00-00-00Z"]


class OfCopy(Scenario):
    """Beside two others; the older one is removed."""

    def __init__(self, room: Room) -> None:
        super().__init__(room)
        batch(room, AGREEMENT)
        self.desk = {name: room.path(name).read_bytes() for name in (DATABASE, LOG)}

    def prepare(self) -> None:
        copies = self.room.path("copies")
        shutil.rmtree(copies, ignore_errors=True)
        for name in OLD:
            (copies / name).mkdir(parents=True)
            for each in self.desk:
                (copies / name / each).write_text(f"{each} of {name}")

    def words(self) -> Sequence[Word]:
        return [ROOT / "bin/desk-copy", "--keep", "2", DATABASE, "copies"]

    def wrong_then(self) -> Iterator[str]:
        """A folder with the name of a copy is a whole copy."""
        whole = 0
        for folder in self.room.path("copies").iterdir():
            if not is_name(folder.name):
                continue
            wanted = {each: f"{each} of {folder.name}".encode() for each in self.desk}
            if files_in(folder) not in (wanted, self.desk):
                yield f"{folder.name} is called a copy and has {sorted(files_in(folder))}"
            whole += 1
        if whole < 2:
            yield f"{whole} copies are left of two"
        if {name: self.room.path(name).read_bytes() for name in self.desk} != self.desk:
            yield "the desk is another one"

    def wrong_at_end(self) -> Iterator[str]:
        if (ran := run_again(self.room, self.words(), self.environment())).status:
            yield f"{ran}"
        yield from self.wrong_then()
        names = sorted(each.name for each in self.room.path("copies").iterdir())
        if len(names) != 2 or files_in(self.room.path("copies") / names[-1]) != self.desk:
            yield f"there are {names}"


class OfRestore(Scenario):
    """A copy replaces a desk that has other rows, on a machine where no unit runs."""

    # No desk ran that could be started.
    status = 1

    def __init__(self, room: Room) -> None:
        super().__init__(room)
        room.path("desk").mkdir()
        room.path("programs").mkdir()
        batch(room, AGREEMENT)
        self.new = self.moved("copy")
        batch(room, AGREEMENT + bare(1))
        self.old = self.moved("before")
        self.script("systemctl", "exit 0")
        self.script("onixdesk", "echo gaps,north,first=1,next=1,greatest=,held=0,missing=0")

    def moved(self, name: str) -> Files:
        """The contents of a desk's files, which are moved into a folder of that name."""
        folder = self.room.path(name)
        folder.mkdir()
        for each in (DATABASE, LOG):
            self.room.path(each).rename(folder / each)
        return files_in(folder)

    def script(self, name: str, text: str) -> None:
        self.room.write(f"programs/{name}", f"#!/bin/sh\n{text}\n".encode())
        self.room.path(f"programs/{name}").chmod(stat.S_IRWXU)

    def prepare(self) -> None:
        shutil.rmtree(self.room.path("desk"))
        self.room.path("desk").mkdir()
        for name, data in self.old.items():
            self.room.write(f"desk/{name}", data)

    def words(self) -> Sequence[Word]:
        # The desk's messages beyond the copy were posted by hand.
        return [ROOT / "bin/desk-restore", "--db", f"desk/{DATABASE}", "--settings=none", "--gaps", "--yes", "copy"]

    def environment(self) -> Mapping[str, str]:
        return {**os.environ, "PATH": f"{self.room.path('programs')}:{os.environ['PATH']}"}

    def standing(self) -> Files:
        return {name: data for name, data in files_in_desk(self.room).items() if name in (DATABASE, LOG)}

    def wrong_then(self) -> Iterator[str]:
        """A desk that can be started is one of the two, whole."""
        if DATABASE in (found := self.standing()) and found not in (self.old, self.new):
            yield "what stands there is neither desk"
        if files_in(self.room.path("copy")) != self.new:
            yield "the copy is another one"

    def wrong_at_end(self) -> Iterator[str]:
        """The old desk is there, even after a killed run."""
        if self.standing() != self.new or ".cases.db.work" in os.listdir(self.room.path("desk")):
            if (ran := run_again(self.room, self.words(), self.environment())).status != self.status:
                yield f"{ran}"
        if self.standing() != self.new:
            yield "what stands there is not the copy"
        names = [name for name in files_in_desk(self.room) if name not in (DATABASE, LOG) and "-wal" not in name]
        data = files_in_desk(self.room)
        if self.old not in [{DATABASE: data[name], LOG: data.get(f"{name}-wal", b"")} for name in names]:
            yield f"what stood there is {names}"


def files_in_desk(room: Room) -> Files:
    return {each.name: each.read_bytes() for each in room.path("desk").iterdir() if each.is_file()}
