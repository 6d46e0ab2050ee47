"""What `bin/onixdesk` and `tools/build` do in a repository of two crates, with a stand-in for `rt`."""

import os
import shutil
from collections.abc import Iterator

from onixdesk_shop.batches import MOST_BYTES
from tests.program.room import Ran, Room
from tests.running import Outcome
from tools.root import ROOT

SOURCE = "crates/onixdesk/src/main.rt"

FILES = {
    "crates.txt": "# A remark.\nlow: csv\nonixdesk: low clap # and another\n",
    "HANDLES": "Handles allowed: none.\n",
    SOURCE: "fn main() {}\n",
    "crates/low/src/lib.rt": "",
    "crates/low/must-fail/wrong.edit": "",
    "crates/low/mutants/more.edit": "",
    "crates/program_words/src/commands.rt": 'const VERSION: &str = "9.8.7";\n',
    "crates/desk_example/stdin": "",
}

# What is proved: the program's crates, without their mutants.
PROVED = ["HANDLES", "crates.txt", "crates/low/src/lib.rt", SOURCE]

# What `rt try` says of a program that has ended: the program's line, and two of its own.
SAID = "onixdesk: a line of the program\ninterpreter: no-answer: a call\nrun=ended status=0 runners=1 proved=no\n"

TO_BUILD = "'make build' proves and builds it, in half an hour or more the first time"
UNBUILT = "the program is not built"
CHANGED = "a source has changed since the program was built"

BATCH = b"AskGaps,north\nAskGaps,south\n"


def told(*lines: str) -> bytes:
    return "".join(f"onixdesk: {line}\n" for line in lines).encode()


def unproved(why: str) -> bytes:
    return told(f"{why}, so this batch is answered without any proof, in about a minute; {TO_BUILD}")


def wanting(why: str) -> Ran:
    to_try = "'make try' builds it in minutes, without any proof"
    return Ran(3, b"", told(f"{why}, and this wants it; {TO_BUILD}; {to_try}"))


def answered(why: str, given: bytes = BATCH, status: int = 0) -> Ran:
    """A batch that the stand-in has tried."""
    said = unproved(why) + told("a line of the program")
    return Ran(status, b"in crates/desk_example: try\n" + given, said)


def lay_out(room: Room) -> None:
    """Makes the repository in the room."""
    for name in ("tools", "bin"):
        shutil.copytree(ROOT / name, room.path(name))
    files = {**FILES, "said": SAID, "status": "0"}
    for name, text in files.items():
        room.path(name).parent.mkdir(parents=True, exist_ok=True)
        room.path(name).write_text(text)
    shutil.copy(ROOT / "tests/launcher/rt", room.path("tools/rt"))
    room.path("tmp").mkdir()


def command(room: Room, *words: str, given: bytes = b"") -> Ran:
    """The toolchain is on the PATH, and temporary files are in the room."""
    path = f"{room.path('tools')}{os.pathsep}{os.environ['PATH']}"
    environment = {**os.environ, "ROOM": str(room.folder), "PATH": path, "TMPDIR": str(room.path("tmp"))}
    return room.call([room.path(words[0]), *words[1:]], given, environment=environment)


def launch(room: Room, *words: str, given: bytes = BATCH) -> Ran:
    return command(room, "bin/onixdesk", *words, given=given)


def without_a_program(room: Room) -> Iterator[Outcome]:
    """A batch is answered: standard output has only the answers, and the status is the batch's."""
    lay_out(room)
    for status in (0, 1, 2, 3):
        room.path("status").write_text(f"{status}\n")
        yield Outcome(f"launcher: a batch of status {status}", launch(room, "batch"), answered(UNBUILT, status=status))
    for words in ("gaps north", "--db shop.db batch", "--help", "serve --port 8080"):
        yield Outcome(f"launcher: unbuilt, {words}", launch(room, *words.split()), wanting(UNBUILT))
    yield Outcome("launcher: unbuilt, --version", launch(room, "--version"), Ran(0, b"onixdesk 9.8.7\n"))
    # The program refuses one byte more than a batch may have.
    room.path("status").write_text("0")
    came = launch(room, "batch", given=b"\n" * (MOST_BYTES + 9))
    wanted = answered(UNBUILT, given=b"\n" * (MOST_BYTES + 1))
    yield Outcome("launcher: a batch that is too large", came == wanted or len(came.output), True)
    room.path("said").write_text("| shown\nchecked: why\nrun=fault proved=no\n")
    last = told(f"only the proved program can answer this batch; {TO_BUILD}")
    wanted = Ran(3, b"", unproved(UNBUILT) + b"checked: why\nrun=fault proved=no\n" + last)
    yield Outcome("launcher: no answer", launch(room, "batch"), wanted)
    yield Outcome("launcher: its temporary files", os.listdir(room.path("tmp")), [])


def a_built_program(room: Room) -> Iterator[Outcome]:
    """It runs, on the words and the input that it gets, until a source changes."""
    lay_out(room)
    came = command(room, "tools/build")
    yield Outcome("tools/build: it builds", (came.status, came.output), (0, b""))
    yield Outcome("tools/build: what is proved", room.path("proved").read_text().split(), PROVED)
    wanted = Ran(1, b"ran --db shop.db batch\n" + BATCH)
    yield Outcome("launcher: a built program", launch(room, "--db", "shop.db", "batch"), wanted)
    room.path(SOURCE).write_text("fn main() { }\n")
    yield Outcome("launcher: an old program, a batch", launch(room, "batch"), answered(CHANGED))
    yield Outcome("launcher: an old program, a question", launch(room, "gaps", "north"), wanting(CHANGED))
    room.path("fails").touch()
    yield Outcome("tools/build: it fails", command(room, "tools/build").status, 1)
    yield Outcome("launcher: after a build that fails", launch(room, "gaps", "north"), wanting(CHANGED))
