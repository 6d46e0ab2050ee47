"""What `onixdesk convert` makes of CDATA sections, which are read in pieces."""

import os
import threading
from collections.abc import Iterator
from pathlib import Path

from tests.program.feeds.convert.case_files import FRAMES
from tests.program.feeds.convert.running import measured
from tests.program.feeds.convert.wanted_runs import PRODUCT, message_of
from tests.program.room import Ran, Room
from tests.running import Outcome

FRAME = FRAMES["products"]

# How much memory a conversion may take.
MEMORY = 16 * 1_048_576

# Pieces of sections, all of odd lengths, so that a read may end at each of their bytes.
PIECES = ["x", "]", "]]x", "]x]> ", "&<]]]\n<"]

LONG = 9_000_000


def section(text: str) -> str:
    return f"<![CDATA[{text}]]>"


def passed_over(room: Room) -> Iterator[Outcome]:
    """In an ignored element a section has no limit."""
    for piece in PIECES:
        feed = f"{FRAME.before}<x>{section(piece * (LONG // len(piece)))}</x>{PRODUCT.format('R1')}{FRAME.behind}"
        came = measured(room, iter([feed.encode()]))
        yield Outcome(f"a section of 9 MB of {piece!r}", came.ran, Ran(0, message_of("R1")))
        yield Outcome(f"a section of 9 MB of {piece!r}, memory", came.memory <= MEMORY or came.memory, True)


def write_bytes(path: Path, data: bytes) -> None:
    with open(path, "wb", buffering=0) as pipe:
        for at in range(len(data)):
            pipe.write(data[at : at + 1])


def byte_by_byte(room: Room) -> Iterator[Outcome]:
    """The marks of a section are found wherever a read ends."""
    os.mkfifo(room.path("pipe.xml"))
    references = {"]": section("]"), "]]]": section("]]]"), "a]b]]c]>d": section("a]b]]c]>d") + section("")}
    products = "".join(map(PRODUCT.format, references.values()))
    feed = f"{FRAME.before}{products}{FRAME.behind}".encode()
    writer = threading.Thread(target=write_bytes, args=(room.path("pipe.xml"), feed))
    writer.start()
    came = room.run("convert", "pipe.xml")
    writer.join()
    yield Outcome("sections that are written byte by byte", came, Ran(0, message_of(*references)))
