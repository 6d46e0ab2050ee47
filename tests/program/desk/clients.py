"""Clients of a port that close early, fall silent, send more than they announced or less; how a port is written; and a
desk whose lines cannot be written."""

import contextlib
import signal
import socket
import struct
from collections.abc import Iterator
from pathlib import Path
from typing import NamedTuple

from tests.program.desk.commands import APPLIED, FIRST
from tests.program.databases import DATABASE, batch
from tests.program.messages import AGREED, AGREEMENT, bare
from tests.program.room import UNREADABLE, Ran, Room
from tests.program.serving import TRIES, Exchange, Serving, connected, free_port, posted, receive, serving
from tests.running import Outcome
from tools.words import sought


class Client(NamedTuple):
    """What a client sends, whether it then closes its connection, and the line that the desk writes for it."""

    sends: bytes
    closes: bool
    line: str


CLIENTS = [
    Client(posted(bare(1)), False, "200"),
    Client(b"", True, "400"),
    # Falls silent in its head. The desk waits for it for 10 seconds.
    Client(b"GET /series/north/gaps", False, "fault"),
    Client(b"POST /messages HTTP/1.1\r\nContent-Length: 2\r\n\r\nMessage", False, "422"),
    Client(b"POST /messages HTTP/1.1\r\nContent-Length: 63\r\n\r\nMessage", True, "400"),
    Client(b"GET /series/north/gaps HTTP/1.1\r\n\r\n", False, "200"),
]

# The reply to the last client.
GAPS = Exchange(
    "the gaps",
    CLIENTS[-1].sends,
    "200 OK",
    '{"answer":"gaps","first":1,"greatest":1,"held":0,"missing":[],"next":2,"series":"north"}',
)


# How many connections are served by a desk without a limit.
UNENDED = 40


def clients_of_a_port(room: Room) -> Iterator[Outcome]:
    """None of them stops the desk. All are connected before the first that is waited for is let go."""
    yield Outcome("the agreement", batch(room, AGREEMENT), Ran(0, AGREED))
    with serving(room, ["--db", DATABASE], len(CLIENTS)) as desk, contextlib.ExitStack() as connections:
        for client in CLIENTS:
            last = connected(desk.port)
            last.sendall(client.sends)
            if client.closes:
                last.close()
            else:
                connections.enter_context(last)
        yield Outcome("the last of six clients", receive(last), GAPS.reply())
        wanted = desk.wanted([client.line for client in CLIENTS])
        yield Outcome("the lines of six clients", desk.ended(), wanted)


GAPS_AFTER_TWO = GAPS._replace(
    body='{"answer":"gaps","first":1,"greatest":2,"held":0,"missing":[],"next":3,"series":"north"}',
)

# An end of a connection that waits for nothing, and resets the other side.
RESET = struct.pack("ii", 1, 0)


def clients_that_are_gone(room: Room) -> Iterator[Outcome]:
    """What they sent counts, though they closed their connections before their turn."""
    yield Outcome("the agreement", batch(room, AGREEMENT), Ran(0, AGREED))
    with serving(room, ["--db", DATABASE], 5) as desk:
        first, whole, reset, part = [connected(desk.port) for _ in range(4)]
        whole.sendall(posted(bare(1)))
        whole.close()
        reset.sendall(posted(bare(2)))
        reset.setsockopt(socket.SOL_SOCKET, socket.SO_LINGER, RESET)
        reset.close()
        part.sendall(posted(bare(3))[:-1])
        part.close()
        first.sendall(GAPS.input)
        receive(first)
        first.close()
        yield Outcome("the gaps after clients that were gone", desk.reply([GAPS.input]), GAPS_AFTER_TWO.reply())
        wanted = desk.wanted(["200", "200", "fault", "400", "200"])
        yield Outcome("the lines of clients that were gone", desk.ended(), wanted)


def served_until_it_is_stopped(room: Room) -> Iterator[Outcome]:
    """Without a number of connections no client ends the desk."""
    yield Outcome("the agreement and a message", batch(room, AGREEMENT + FIRST), Ran(0, AGREED + APPLIED))
    with serving(room, ["--db", DATABASE], None) as desk:
        for number in range(UNENDED):
            yield Outcome(f"connection {number}", desk.reply([GAPS.input]), GAPS.reply())
        yield Outcome("the desk after them", desk.process.poll(), None)
        wanted = desk.wanted(["200"] * UNENDED, -signal.SIGTERM)
        yield Outcome("the desk that is stopped", desk.stopped(), wanted)


# The longest body that is read.
LARGEST = 4_194_304

SHORT = Exchange("a short body", b"", "400 Bad Request", '{"answer":"refused","reason":"short-body"}')


def most_memory(desk: Serving) -> int:
    """The peak memory of the desk, in bytes."""
    return 1024 * int(sought(r"^VmHWM:\s*([0-9]+) kB", Path(f"/proc/{desk.process.pid}/status").read_text()))


def bodies_that_do_not_come(room: Room) -> Iterator[Outcome]:
    """A client takes memory for the bytes that it sends, not for those that it announces."""
    head = b"POST /messages HTTP/1.1\r\nContent-Length: %d\r\n\r\n" % LARGEST
    with serving(room, [], 4) as desk:
        desk.reply([GAPS.input])
        before = most_memory(desk)
        yield Outcome("the reply to a body that does not come", desk.reply([head, b"Message"]), SHORT.reply())
        said = most_memory(desk) - before
        yield Outcome("memory for a body that does not come", said < LARGEST // 4, True)
        desk.reply([head, b"\n" * (LARGEST - 1)])
        sent = most_memory(desk) - before
        yield Outcome("memory for one that comes but for a byte", sent > LARGEST // 2, True)
        desk.reply([GAPS.input])
        yield Outcome("the lines of short bodies", desk.ended(), desk.wanted(["404", "400", "400", "404"]))


def unwritten_lines(room: Room) -> Iterator[Outcome]:
    """The desk ends before it serves a client if it cannot say that it listens."""
    wanted = Ran(3, b"", b"onixdesk: output\n")
    for _ in range(TRIES):
        came = room.run("serve", "--port", str(free_port()), "--requests", "1", given=UNREADABLE, is_full=True)
        if came == wanted:
            break
    yield Outcome("a port whose lines cannot be written", came, wanted)
