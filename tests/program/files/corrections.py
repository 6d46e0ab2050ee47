"""correct.sh, with stand-ins for the programs that it calls, which write down each call."""

import os
import signal
import stat
import subprocess
from collections.abc import Iterator
from functools import partial
from pathlib import Path

from tests.program.room import Room
from tests.running import Outcome
from tools.root import ROOT

TEXT = """\
Agree,north,06,N,06,S,1
Message,2,06,N,06,S,1,1,,,
EndMessage,1
Message,2,06,N,06,S,2,1,,,
EndMessage,1
"""

# The restore keeps the corrected text, and its status is that of a file.
PROGRAMS = {
    "desk-copy": "mkdir before",
    "onixdesk": 'if [ "$4" = gaps ]; then echo "gaps,north,first=1,next=3,greatest=2"; else cat "$ROOM/text"; fi',
    "desk-restore": 'cp after.csv "$ROOM/corrected"; [ ! -e "$ROOM/hangs-up" ] || kill -HUP $PPID; exit "$(cat "$ROOM/status")"',
    "systemctl": '[ ! -e "$ROOM/no-copy" ]',
}

REFUSE = ["--refuse", "3f9a0c51d2b7", "north"]
TAKE_OUT = ["/^Message,2,06,N,06,S,2,/,/^EndMessage,/d", "/^Agree,north,/aWaive,north,2"]

CALLS = ["desk-copy", "onixdesk", "onixdesk", "desk-restore", "systemctl"]


def corrected(room: Room, *words: str, status: int = 0) -> tuple[int, list[str]]:
    """The status, and the calls."""
    folder = room.path("programs")
    folder.mkdir(exist_ok=True)
    for name, text in PROGRAMS.items():
        path = folder / name
        path.write_text(f'#!/bin/sh\necho {name} >>"$ROOM/calls"\n{text}\n')
        path.chmod(stat.S_IRWXU)
    room.write("text", TEXT.encode())
    room.write("status", str(status).encode())
    for name in ("calls", "corrected"):
        room.path(name).unlink(missing_ok=True)
    environment = {**os.environ, "PATH": f"{folder}:{os.environ['PATH']}", "ROOM": str(room.folder)}
    script: list[str | Path] = [ROOT / "programs/desk-restore/correct.sh", *words]
    hears = partial(signal.signal, signal.SIGHUP, signal.SIG_DFL)
    done = subprocess.run(script, env=environment, capture_output=True, preexec_fn=hears)
    calls = room.path("calls")
    return done.returncode, calls.read_text().splitlines() if calls.exists() else []


def a_message_is_taken_out(room: Room) -> Iterator[Outcome]:
    yield Outcome("a new copy at the end", corrected(room, *REFUSE, *TAKE_OUT), (0, CALLS))
    lines = TEXT.splitlines(keepends=True)
    wanted = "".join([lines[0], "Waive,north,2\n", *lines[1:3]])
    yield Outcome("the text", room.path("corrected").read_text(), wanted)
    yield Outcome("no file", corrected(room, *TAKE_OUT), (0, CALLS))


def what_ends_it(room: Room) -> Iterator[Outcome]:
    yield Outcome("no line changes", corrected(room, "s/^Agree,south/x/"), (1, CALLS[:3]))
    yield Outcome("a wrong expression", corrected(room, "s/x")[1], CALLS[:3])
    yield Outcome("no expression", corrected(room), (1, []))
    yield Outcome("a restore that lacks something", corrected(room, *TAKE_OUT, status=1), (1, CALLS))
    room.write("no-copy", b"")
    for status, wanted in (0, 1), (3, 3):
        yield Outcome(f"no copy after {status}", corrected(room, *TAKE_OUT, status=status), (wanted, CALLS))
    room.path("no-copy").unlink()
    room.write("hangs-up", b"")
    yield Outcome("a terminal that hangs up", corrected(room, *TAKE_OUT), (0, CALLS))
