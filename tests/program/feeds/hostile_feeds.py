"""Feeds that are made to harm: `onixdesk convert` refuses each by one line, and writes nothing, or ignores what is in
it, within limits of memory and time; it opens no other file and no address."""

import contextlib
import os
import re
import socket
from collections.abc import Callable, Iterator
from functools import partial
from typing import NamedTuple

from tests.program.feeds.convert.case_files import FRAMES
from tests.program.feeds.convert.running import convert, measured
from tests.program.feeds.convert.wanted_runs import PRODUCT, message_of
from tests.program.room import Group, Ran, Room
from tests.program.written_cases import REPEATED, TESTS, Written, read_file, unescaped
from tests.running import Outcome

# More memory than a message takes, and far less than these feeds have.
MEMORY = 48 * 1_048_576

PLACE = re.compile("onixdesk: -:[12]:[0-9]+: refused: .+\n")

# Limits of processor time, including the program's start: for what is refused at once, and for what is read to its end.
BOMB_SECONDS, LARGE_SECONDS = 1, 120

FRAME = FRAMES["products"]

# Words of the cases of tests/hostile: the beginning of a feed up to its products, what follows these, a product, and
# the beginning of a feed that is so long that its entities may give a gigabyte.
ENTITIES = '<!DOCTYPE ONIXMessage [<!ENTITY e "(x){100000}"><!ENTITY f "(&e;){100}">]>'
WORDS = {
    "MUCH": f"{ENTITIES}BEFORE{'<x>(x){1000000}</x>' * 12}",
    "BEFORE": FRAME.before,
    "BEHIND": FRAME.behind,
    "PRODUCT": PRODUCT.format("R1"),
}

# How much of what is repeated is made at once.
AT_ONCE = 1_000_000


def numbered(piece: str, number: int) -> str:
    return piece.replace("{n}", str(number)).replace("{n+1}", str(number + 1))


def pieces(text: str) -> Iterator[bytes]:
    """The bytes of a text with Python's escapes. In repeated text {n} is how many went before, {n+1} one more."""
    at = 0
    for found in REPEATED.finditer(text):
        piece, count = found[1], int(found[2])
        yield unescaped(text[at : found.start()])
        size = max(AT_ONCE // len(piece), 1)
        for begin in range(0, count, size):
            numbers = range(begin, min(begin + size, count))
            is_numbered = "{n" in piece
            yield unescaped("".join(numbered(piece, each) for each in numbers) if is_numbered else piece * len(numbers))
        at = found.end()
    yield unescaped(text[at:])


class Case(NamedTuple):
    """A feed, and the words with which it is converted; if it is accepted nevertheless, since its excess is ignored,
    the references of its products."""

    name: str
    pieces: Callable[[], Iterator[bytes]]
    words: list[str] = []
    taken: list[str] | None = None


def case_of(written: Written) -> Case:
    """A feed stands between BEFORE and BEHIND, unless they or an XML declaration are in it."""
    text = written.text.strip("\n")
    if not any(word in text for word in ("<?xml", "MUCH", "BEFORE")):
        text = f"BEFORE{text}BEHIND"
    for word, meant in WORDS.items():
        text = text.replace(word, meant)
    parts = {head.partition(" ")[0]: head.split()[1:] for head, _ in written.parts}
    return Case(written.name, partial(pieces, text), parts.get("words", []), parts.get("taken"))


def read(name: str) -> list[Case]:
    return [case_of(written) for written in read_file(TESTS / f"hostile/{name}.txt")]


def wide_identifiers() -> Iterator[bytes]:
    yield f"{FRAME.before}{PRODUCT.format('R1').partition('<ProductIdentifier>')[0]}".encode()
    identifier = f"<ProductIDType>15</ProductIDType><IDValue>{chr(0x1F600) * 256}</IDValue>"
    for _ in range(16_000):
        yield f"<ProductIdentifier>{identifier}</ProductIdentifier>".encode()
    yield f"</Product>{FRAME.behind}".encode()


LARGE = [
    *read("large"),
    *read("tokens"),
    Case("identifiers of characters that have four bytes", wide_identifiers),
]


def check(case: Case, seconds: float, room: Room) -> Iterator[Outcome]:
    came = measured(room, case.pieces(), *case.words)
    errors = came.ran.errors.decode()
    if case.taken is None:
        found = came.ran.status, came.ran.output, bool(PLACE.fullmatch(errors)) or errors
        yield Outcome(f"hostile: {case.name}", found, (1, b"", True))
    else:
        said = b"" if case.taken else b"onixdesk: a FILE without a Product: 1\n"
        yield Outcome(f"hostile: {case.name}", came.ran, Ran(0, message_of(*case.taken), said))
    bounds = came.memory <= MEMORY or came.memory, came.seconds <= seconds or came.seconds
    yield Outcome(f"hostile: {case.name}, within bounds", bounds, (True, True))


@contextlib.contextmanager
def listening() -> Iterator[tuple[int, socket.socket]]:
    """A port, and the connections to it."""
    with socket.socket() as listener:
        listener.bind(("127.0.0.1", 0))
        listener.listen()
        listener.setblocking(False)
        yield listener.getsockname()[1], listener


def nothing_else_is_opened(room: Room) -> Iterator[Outcome]:
    """Neither a file nor an address that a feed names is opened: a pipe as the file would block whoever opens it, and
    the port notes each connection."""
    os.mkfifo(room.path("pipe"))
    with listening() as (port, listener):
        for address in [f"http://127.0.0.1:{port}/x", room.path("pipe").as_uri(), "pipe"]:
            feed = (
                f'<!DOCTYPE ONIXMessage PUBLIC "x" "{address}" [<!ENTITY own SYSTEM "{address}">]>'
                f'<?xml-stylesheet href="{address}"?>'
                + FRAME.before
                + f'<x xmlns:xi="http://www.w3.org/2001/XInclude"><xi:include href="{address}"/></x>'
                + PRODUCT.format("R1")
            )
            came = convert(room, given=(feed + FRAME.behind).encode())
            yield Outcome(f"an address in a feed: {address}", came, Ran(0, message_of("R1")))
            came = convert(room, given=f"{feed}<x>&own;</x>{FRAME.behind}".encode())
            found = came.status, came.output, bool(PLACE.fullmatch(came.errors.decode()))
            yield Outcome(f"an entity by address: {address}", found, (1, b"", True))
        try:
            connections = listener.accept()
        except BlockingIOError:
            connections = None
        yield Outcome("an address in a feed: connections", connections, None)


GROUPS = [
    *(Group(case.name, partial(check, case, BOMB_SECONDS)) for case in read("bombs")),
    *(Group(case.name, partial(check, case, LARGE_SECONDS)) for case in LARGE),
]
