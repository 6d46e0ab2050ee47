"""Clients that come while the desk's file is still checked: they wait, and nobody else can have the port."""

import contextlib
import errno
import select
import signal
import socket
import time
from collections.abc import Iterator

from tests.program.databases import DATABASE, batch
from tests.program.messages import AGREEMENT, applied
from tests.program.room import SECONDS, UNREADABLE, Ran, Room
from tests.program.serving import HOST, free_port, got, receive, send
from tests.running import Outcome

# Two messages of so many records take a part of a second to check.
RECORDS = 10_000
PRODUCTS = "".join(f"Product,R{number},03,15,9781234567897\n" for number in range(RECORDS))

GAPS = got(
    "/series/north/gaps",
    "200 OK",
    '{"answer":"gaps","first":1,"greatest":2,"held":0,"missing":[],"next":3,"series":"north"}',
)

UNUSABLE = Ran(3, b"", b"onixdesk: storage: unusable\n")


def large(number: int) -> bytes:
    """A message whose records no other message has."""
    products = PRODUCTS.replace("Product,R", f"Product,R{number}-")
    return f"Message,1,06,4012345000009,06,5012345678900,{number},,,,\n{products}EndMessage,{RECORDS + 1}\n".encode()


def connected_early(port: int) -> socket.socket:
    """A connection as soon as the port takes one."""
    end = time.monotonic() + SECONDS
    while True:
        try:
            return socket.create_connection((HOST, port), timeout=SECONDS)
        except ConnectionRefusedError:
            if time.monotonic() > end:
                raise


def taken_by(port: int) -> str | None:
    """Why nobody else can listen at the port."""
    with socket.socket() as other:
        try:
            other.bind((HOST, port))
            other.listen()
        except OSError as fault:
            return errno.errorcode[fault.errno or 0]
    return None


def wait_in_line(room: Room) -> Iterator[Outcome]:
    """The desk is stopped as soon as a client is connected, before it says that it listens."""
    for text, answer in (
        (AGREEMENT, b"agreed,north,1\n"),
        (large(1), applied(1, RECORDS)),
        (large(2), applied(2, RECORDS)),
    ):
        yield Outcome("an early client: the desk", batch(room, text), Ran(0, answer))
    port = free_port()
    desk = room.start("--db", DATABASE, "serve", "--port", str(port), "--requests", "1")
    assert desk.stdout
    try:
        with connected_early(port) as peer:
            desk.send_signal(signal.SIGSTOP)
            ready, _, _ = select.select([desk.stdout], [], [], 0.2)
            yield Outcome("an early client comes before the desk listens", ready, [])
            yield Outcome("an early client: the port then", taken_by(port), "EADDRINUSE")
            desk.send_signal(signal.SIGCONT)
            send(peer, [GAPS.input])
            yield Outcome("an early client: its reply", receive(peer), GAPS.reply())
        output, errors = desk.communicate(timeout=SECONDS)
        wanted = Ran(0, b"listening %d\n200\n" % port)
        yield Outcome("an early client: the desk's lines", Ran(desk.returncode, output, errors), wanted)
    finally:
        desk.kill()
        desk.communicate()


def a_database_comes_first(room: Room) -> Iterator[Outcome]:
    """If neither can be had, the fault is the database's."""
    room.write("letter.db", b"Dear bookseller")
    with contextlib.closing(socket.create_server((HOST, 0))) as listener:
        port = listener.getsockname()[1]
        words = "serve", "--port", str(port), "--requests", "1"
        for name, options in ("no database", ["--db", "letter.db"]), ("missing", ["--db", "absent.db", "--existing"]):
            came = room.run(*options, *words, given=UNREADABLE)
            yield Outcome(f"a port that is taken, and a database: {name}", came, UNUSABLE)
        wanted = Ran(3, b"", b"onixdesk: port %d\n" % port)
        yield Outcome("a port that is taken, over a new file", room.run("--db", DATABASE, *words), wanted)
