"""What the settings of an inbox may be."""

from collections.abc import Iterator
from pathlib import Path

from onixdesk_shop.faults import Fault
from onixdesk_shop.machine import Machine
from onixdesk_shop.settings import read_settings, terms_of
from tests.program.room import Room
from tests.running import Outcome
from tools.root import ROOT

SENDER = "SENDER=06,4012345000009\n"

WRONG = {
    "": "SENDER is missing: the sender that messages must have",
    "SENDER=any\n": "SENDER: it is TYPE,VALUE with a TYPE of two digits",
    f"{SENDER}{SENDER}": "SENDER is given twice",
    f"{SENDER}NUMBER=last\n": "NUMBER: it is own|next",
    f"{SENDER}NUMBER=next\nWORDS=--number-offset 5\n": "NUMBER=next and --number-offset do not go together",
    f"{SENDER}WORDS=-o there\n": "WORDS: -o is no word of WORDS: the inbox gives it, or leaves it out",
    f"{SENDER}STOP=no # today\n": "a remark has a line of its own, which begins with #",
    f"{SENDER}TERMS=north.toml\n": "TERMS: it is a file, whose name begins with /, or nothing",
    f"{SENDER}STATE_BYTES=1\n": "STATE_BYTES is none of BATCHES, WORDS, NUMBER, SENDER, UNCHANGED_SECONDS, LEAVE,"
    " TERMS, STOP, SILENT_DAYS, FULL, FULL_NAMES",
}


def why(path: Path) -> str:
    try:
        read_settings(Machine("test"), path)
    except Fault as fault:
        return str(fault)
    return ""


def wrong_settings(room: Room) -> Iterator[Outcome]:
    for text, wanted in WRONG.items():
        room.write("north.conf", text.encode())
        yield Outcome(text, why(room.path("north.conf")).endswith(f": {wanted}"), True)
    example = (ROOT / "programs/onixdesk-inbox/example.conf").read_text().replace("SENDER=\n", SENDER)
    room.write("example.conf", example.encode())
    room.write("least.conf", SENDER.encode())
    found = [read_settings(Machine("test"), room.path(name)) for name in ("example.conf", "least.conf")]
    yield Outcome("the example has the defaults", found[0], found[1])
    room.write("none.conf", f"{SENDER}WORDS=--parts 0\n".encode())
    settings = read_settings(Machine("test"), room.path("none.conf"))
    yield Outcome("that there are no parts the converter has to refuse", settings.parts, 1)


def dated_terms(room: Room) -> Iterator[Outcome]:
    for name in ("north.toml", "north.toml.2026-12-01", "north.toml.2027-01-01", "north.toml.2027-01-01~"):
        room.write(name, name.encode())
    for today, wanted in {
        "20261130": "north.toml",
        "20261201": "north.toml.2026-12-01",
        "20270405": "north.toml.2027-01-01",
    }.items():
        yield Outcome(today, terms_of(Machine("test"), room.path("north.toml"), today).decode(), wanted)
