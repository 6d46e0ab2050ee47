"""Commands of docs/RELIABILITY.md, each run as the page has it, in a room that stands for a shop's machine."""

import re
import sqlite3
from collections.abc import Iterator
from contextlib import closing

from tests.program.documents.examples import block_with, blocks
from tests.program.documents.mistakes import AGREED, AGREEMENT, mark
from tests.program.files.machines import DESK, Machine, feed, machine
from tests.program.room import Room
from tests.running import Outcome
from tools.root import ROOT

PAGE = "docs/RELIABILITY.md"

# The copy that the page names.
SECOND = "2026-11-27T02-30-12Z"


def without_numbers(text: str) -> str:
    return re.sub("[0-9]+", "N", text)


def a_copy_is_restored(room: Room) -> Iterator[Outcome]:
    with machine(room, AGREEMENT.format("4012345000009", 7)) as desk:
        desk.run(["systemctl start onixdesk-copy.service"])
        full = feed(7, a="8.00")
        desk.take({"full-20261127.xml": full})
        (copy,) = (path.name for path in room.path("var/lib/onixdesk-copies").iterdir() if path.is_dir())
        ran = desk.run(["\n".join(block_with(PAGE, "ls /var/lib/onixdesk-copies")).replace(SECOND, copy)])
        said = "\n".join([copy, *block_with(PAGE, "the copy waits for number")]).replace("3f9a0c51d2b7", mark(full))
        yield Outcome(f"{PAGE}: a restore", (ran.status, ran.output.decode().strip()), (0, said))
        yield Outcome(f"{PAGE}: what came since", desk.prices(), {"a": ["8.000"]})


def moved_to_another_machine(room: Room) -> Iterator[Outcome]:
    """There is no desk there, nor a ledger; the copy has both."""
    with machine(room, AGREED) as desk:
        desk.take({"1.xml": feed(1, a="8.00")})
        desk.run(["systemctl stop onixdesk.service"])
        ran = desk.run(["set -e", *block_with(PAGE, "desk-copy --inboxes")])
        yield Outcome(f"{PAGE}: the old machine", (ran.status, ran.errors), (0, b""))
        desk.run(["rm -r /var/lib/onixdesk/* /var/lib/onixdesk-inbox/*"])
        ran = desk.run(block_with(PAGE, "desk-restore --yes friday"))
        yield Outcome(f"{PAGE}: the other machine", (ran.status, b"there was none before" in ran.errors), (0, True))
        states = desk.take({"2.xml": feed(2, b="9.00")})
        yield Outcome(f"{PAGE}: the ledger goes on", states, {"1.xml": "applied", "2.xml": "applied"})
        yield Outcome(f"{PAGE}: the prices there", desk.prices(), {"a": ["8.000"], "b": ["9.000"]})


def renewed_and_back(room: Room) -> Iterator[Outcome]:
    """The desk has all that it had, and its inbox goes on; the old desk, put back, gets what came since."""
    with machine(room, AGREED) as desk:
        files = {"1.xml": feed(1, a="8.00", b="9.00"), "2.xml": feed(2, a="8.50"), "4.xml": feed(4, c="7.00")}
        desk.take(files)
        before = {"a": ["8.500"], "b": ["9.000"]}
        yield Outcome("renewal: before", desk.prices(), before)
        (line,) = (lines for lines in blocks(PAGE) if lines == ["desk-renew"])
        ran = desk.run(line)
        said = ran.output.decode().splitlines()[0]
        (shown,) = block_with(PAGE, "north: begins at")
        yield Outcome("renewal: its status", (ran.status, ran.status and ran.errors), (0, 0))
        yield Outcome("renewal: what is said", without_numbers(said), without_numbers(shown))
        yield Outcome("renewal: the prices", desk.prices(), before)
        yield Outcome("renewal: the inbox", desk.take({"3.xml": feed(3, b="9.50")})["4.xml"], "applied")
        behind = {"a": ["8.500"], "b": ["9.500"], "c": ["7.000"]}
        yield Outcome("renewal: the prices then", desk.prices(), behind)
        (kept,) = (path.name.split(".")[-1] for path in room.folder.glob("var/lib/onixdesk/shop.db.2*Z"))
        ran = desk.run(["\n".join(["set -e", *block_with(PAGE, "mkdir /var/tmp/before")]).replace(SECOND, kept)])
        yield Outcome("renewal: the way back", (ran.status, ran.status and ran.errors), (0, 0))
        report = ["gaps,north,first=1,next=5,greatest=4,held=0,missing=0"]
        yield Outcome("renewal: the old desk", (desk.ask("AskGaps,north"), desk.prices()), (report, behind))


def mails_are_sent(room: Room) -> Iterator[Outcome]:
    desk = Machine(room)
    room.write("etc/onixdesk/mail.conf", (ROOT / "programs/onixdesk-mail/mail.conf").read_bytes())
    ran = desk.run(block_with(PAGE, "/etc/onixdesk/mail.conf"))
    text = room.path("etc/onixdesk/mail.conf").read_text()
    yield Outcome(f"{PAGE}: mails", (ran.status, "\nADDRESS=buying@example.org\n" in f"\n{text}"), (0, True))
    yield Outcome(f"{PAGE}: their timer", room.path("units").read_text(), "enable --now onixdesk-mail.timer\n")


def an_unusable_storage(room: Room) -> Iterator[Outcome]:
    """First the desk itself has its file open; then there are another program's database, a text, and nothing."""
    lines = block_with(PAGE, "namei -l $file")
    with machine(room, AGREED) as desk:
        pid = room.path("pid").read_text().strip()
        found = desk.run(lines)
        shown = found.output.decode()
        yield Outcome(f"{PAGE}: a desk", (found.status, f"/proc/{pid}/fd/" in shown), (0, True))
        owners = [line.split()[1] for line in shown.splitlines() if line.endswith(" shop.db")]
        yield Outcome(f"{PAGE}: its file", ("SQLite format 3" in shown, owners), (True, [room.path(DESK).owner()]))
        yield Outcome(f"{PAGE}: what was tried is gone", room.path("var/tmp/tried").exists(), False)
    for path in room.path(DESK).parent.iterdir():
        path.unlink()
    with closing(sqlite3.connect(room.path(DESK))) as connection:
        connection.execute("CREATE TABLE other (a)")
    found = desk.run(lines)
    yield Outcome(f"{PAGE}: no desk", (found.status, b"a copy of it is not sound" in found.errors), (1, True))
    room.write(DESK, b"no database" * 1000)
    shown = desk.run(lines).output.decode()
    yield Outcome(f"{PAGE}: no database", ("SQLite format 3" in shown, "no database" in shown), (False, True))
    room.path(DESK).unlink()
    found = desk.run(lines)
    yield Outcome(f"{PAGE}: no file", b"No such file or directory" in found.output + found.errors, True)
