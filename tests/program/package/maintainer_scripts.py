"""What the package's scripts do when it is removed: each runs on a root of its own, where a stand-in for what stops
units writes down its calls."""

import os
from collections.abc import Iterator
from fnmatch import fnmatch
from pathlib import Path

from tests.program.inbox.inboxes import script
from tests.program.room import Ran, Room
from tests.running import Outcome
from tools.root import ROOT

# Units belong to the machine.
TOLD = ["deb-systemd-invoke"]

# What a desk, its copies and an inbox with a file keep; and what is made again from that, or no longer of use.
DATA = [
    "onixdesk/shop.db",
    "onixdesk/shop.db-wal",
    "onixdesk-copies/2026-11-27T02-30-12Z/shop.db",
    "onixdesk-inbox/north/ledger.db",
    "onixdesk-inbox/north/store/1.csv",
]
MADE = [
    "onixdesk-prices/prices.csv",
    "onixdesk-mail/read",
    "onixdesk-state/titles/97812/97812345.json",
    "onixdesk-fetch/north/succeeded",
]

OWN_UNIT = "etc/systemd/system/onixdesk-away.timer"
OWN_LINK = "etc/systemd/system/timers.target.wants/onixdesk-away.timer"


def unit_files() -> list[Path]:
    return sorted(
        path for path in (ROOT / "programs").rglob("onixdesk*") if path.suffix in (".service", ".timer", ".path")
    )


def at(room: Room, name: str, *words: str) -> Ran:
    """How that script ends; the file `told` has the calls of stand-ins."""
    text = (ROOT / f"packaging/debian/onixdesk.{name}").read_text(encoding="utf-8").replace("#DEBHELPER#", "")
    for place in ("/etc/", "/run/", "/var/"):
        text = text.replace(place, f"{room.folder}{place}")
    for program in TOLD:
        script(room, f"bin/{program}", f'echo {program} "$@" >>"{room.path("told")}"')
    room.write(name, text.encode())
    room.path("told").unlink(missing_ok=True)
    return room.call(
        ["sh", name, *words], environment={**os.environ, "PATH": f"{room.path('bin')}:{os.environ['PATH']}"}
    )


def told(room: Room) -> list[str]:
    return room.path("told").read_text().splitlines() if room.path("told").exists() else []


def make(room: Room, *names: str) -> None:
    for name in names:
        room.path(name).parent.mkdir(parents=True, exist_ok=True)
        room.path(name).write_text("")


def found(room: Room) -> list[str]:
    """All files below /var and /etc, and the empty folders."""
    paths = [path for place in ("var", "etc") for path in room.path(place).rglob("*")]
    return sorted(str(path.relative_to(room.folder)) for path in paths if not path.is_dir() or not any(path.iterdir()))


def a_removal(room: Room) -> Iterator[Outcome]:
    """Each unit of the package is stopped, those that send to the desk before it; an upgrade stops none here."""
    for folder in ("bin", "run/systemd/system"):
        room.path(folder).mkdir(parents=True)
    came = at(room, "prerm", "remove")
    stopped = told(room)[0].split()[2:] if told(room) else []
    names = [path.name.replace("@", "@north") for path in unit_files()]
    left = [name for name in names if not any(fnmatch(name, pattern) for pattern in stopped)]
    yield Outcome("prerm remove: each unit is stopped", (came, len(names) > 10, left), (Ran(0), True, []))
    yield Outcome("prerm remove: the desk is the last", stopped[-1:], ["onixdesk.service"])
    yield Outcome("prerm upgrade", (at(room, "prerm", "upgrade", "0.3.0"), told(room)), (Ran(0), []))
    room.path("run/systemd/system").rmdir()
    yield Outcome("prerm without systemd", (at(room, "prerm", "remove"), told(room)), (Ran(0), []))


def shop(room: Room, data: list[str]) -> None:
    """A shop's files, with enabled units: those of the package, which are gone by then, and one of its own."""
    room.path("bin").mkdir()
    make(room, *(f"var/lib/{name}" for name in [*data, *MADE]), OWN_UNIT)
    wants = room.path("etc/systemd/system/timers.target.wants")
    wants.mkdir()
    for name in ("onixdesk-copy.timer", "onixdesk-inbox@north.timer"):
        wants.joinpath(name).symlink_to(room.path("lib/systemd/system") / name)
    room.path(OWN_LINK).symlink_to(room.path(OWN_UNIT))


def a_purge(room: Room) -> Iterator[Outcome]:
    """The shop's data stay; what is made from them goes, and so do the links of the package's units."""
    shop(room, DATA)
    make(room, "etc/onixdesk/inbox/north.conf")
    room.path("var/lib/onixdesk-incoming/north").mkdir(parents=True)
    before = found(room)
    yield Outcome("postrm remove", (at(room, "postrm", "remove"), found(room)), (Ran(0), before))
    kept = [f"var/lib/{name}" for name in DATA] + ["etc/onixdesk/inbox/north.conf", OWN_UNIT, OWN_LINK]
    wanted = sorted([*kept, "var/lib/onixdesk-incoming/north"])
    for name in ("postrm purge", "postrm purge, once more"):
        yield Outcome(name, (at(room, "postrm", "purge"), found(room)), (Ran(0), wanted))


def a_purge_without_data(room: Room) -> Iterator[Outcome]:
    """Nothing is left."""
    shop(room, [])
    for folder in ("onixdesk", "onixdesk-copies", "onixdesk-incoming", "onixdesk-inbox"):
        room.path(f"var/lib/{folder}").mkdir(parents=True)
    wanted = sorted(["var/lib", OWN_UNIT, OWN_LINK])
    yield Outcome("postrm purge without data", (at(room, "postrm", "purge"), found(room)), (Ran(0), wanted))
