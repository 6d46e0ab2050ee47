"""Batches to an open desk: real sockets beside the port, and the command `batch` that sends one there."""

import contextlib
import os
import signal
import socket
import stat
import subprocess
import time
from collections.abc import Iterator, Sequence
from contextlib import AbstractContextManager
from typing import NamedTuple

from tests.program.desk.commands import APPLIED, FIRST
from tests.program.databases import DATABASE, batch, gaps
from tests.program.messages import AGREED, AGREEMENT, applied, bare
from tests.program.room import SECONDS, UNREADABLE, Ran, Room, without_reasons
from tests.program.serving import Exchange, Serving, connected, free_port, receive, send, serving
from tests.running import Outcome
from tools.words import Word

SOCKET = "desk.socket"

# The longest text of a batch.
LARGEST = 4_194_304


QUESTION = b"AskGaps,north\n"
NO_GAPS = b"gaps,north,first=1,next=%d,greatest=%s,held=0,missing=0\n"

UNKNOWN = b"refused,unknown-series\n"

FAULT = Ran(3, b"", b"onixdesk: socket\n")

HEAD = b"GET /series/north/gaps HTTP/1.1\r\n\r\n"

GAPS = Exchange(
    "the gaps",
    HEAD,
    "200 OK",
    '{"answer":"gaps","first":1,"greatest":1,"held":0,"missing":[],"next":2,"series":"north"}',
)


def open_desk(
    room: Room, connections: int | None, words: Sequence[str] = ("--db", DATABASE)
) -> AbstractContextManager[Serving]:
    """A run of `serve` with a socket beside its port."""
    return serving(room, [*words], connections, ["--batches", SOCKET])


def reached(room: Room) -> socket.socket:
    """A client of the socket."""
    peer = socket.socket(socket.AF_UNIX)
    peer.settimeout(SECONDS)
    # The path of a socket is short; that of the room need not be.
    folder = os.open(room.folder, os.O_RDONLY)
    try:
        peer.connect(f"/proc/self/fd/{folder}/{SOCKET}")
    finally:
        os.close(folder)
    return peer


def answered(room: Room, text: bytes) -> bytes:
    """The answers to a batch that a client sends to the socket."""
    with reached(room) as peer:
        send(peer, [text])
        return receive(peer)


def sent(room: Room, text: bytes | None, is_full: bool = False) -> Ran:
    """How `batch` ends when it sends its input to the socket."""
    return room.run("--batches", SOCKET, "batch", given=text, is_full=is_full)


class Batch(NamedTuple):
    """A batch, how the command that sends it ends, and the desk's line."""

    name: str
    text: bytes
    wanted: Ran
    line: str


BATCHES = [
    Batch("an agreement and a message", AGREEMENT + FIRST, Ran(0, AGREED + APPLIED), "batch 0"),
    Batch("an empty batch", b"", Ran(0, b""), "batch 0"),
    Batch("a series that is not agreed", b"AskGaps,south\n", Ran(1, UNKNOWN), "batch 1"),
    Batch(
        "two refusals about an answer",
        b"AskGaps,south\n" + QUESTION + b"Waive,north,1\n",
        Ran(1, UNKNOWN + NO_GAPS % (2, b"1") + b"refused,had,north,1\n"),
        "batch 2",
    ),
    Batch("rows that are no request", b"north\n", Ran(1, b"refused,malformed,1\n"), "batch 1"),
    Batch(
        "a catalogue, the last line without an end",
        b"AskCatalogue,north",
        Ran(
            0,
            b"catalogue,north,1\nrecord,R1,15,9781234567897\nProductSupply,GB IE,,\n"
            b"SupplyDetail,04,06,4012345000009,North Books,21,\nPrice,02,1.000,GBP,,WORLD,,,\n",
        ),
        "batch 0",
    ),
]


def batches_to_an_open_desk(room: Room) -> Iterator[Outcome]:
    """Each is answered as by the command over the file, and the desk keeps what it did."""
    with open_desk(room, len(BATCHES) + 2) as desk:
        for case in BATCHES:
            yield Outcome(f"open desk: {case.name}", sent(room, case.text), case.wanted)
        came = answered(room, bare(2) + QUESTION)
        yield Outcome("open desk: a client of its own", came, applied(2) + NO_GAPS % (3, b"2"))
        gaps_now = GAPS.body.replace('"greatest":1', '"greatest":2').replace('"next":2', '"next":3')
        yield Outcome("open desk: the port", desk.reply([HEAD]), GAPS._replace(body=gaps_now).reply())
        lines = [*(case.line for case in BATCHES), "batch 0", "200"]
        yield Outcome("open desk: the lines", desk.ended(), desk.wanted(lines))
    yield Outcome("open desk: what is kept", gaps(room), Ran(0, NO_GAPS % (3, b"2")))


def in_turn(room: Room) -> Iterator[Outcome]:
    """While clients wait at both, port and socket are served in turn."""
    yield Outcome("in turn: the desk", batch(room, AGREEMENT + bare(1)), Ran(0, AGREED + applied(1)))
    with open_desk(room, 7) as desk, contextlib.ExitStack() as clients:
        first = clients.enter_context(connected(desk.port))
        first.sendall(HEAD[:4])
        # The desk waits for the rest of the first head; meanwhile all others come.
        time.sleep(0.5)
        at_port = [clients.enter_context(connected(desk.port)) for _ in range(4)]
        at_socket = [clients.enter_context(reached(room)) for _ in range(2)]
        for peer in at_port:
            send(peer, [HEAD])
        for peer in at_socket:
            send(peer, [QUESTION])
        send(first, [HEAD[4:]])
        came = [receive(peer) for peer in [first, *at_port]]
        yield Outcome("in turn: the replies", came, [GAPS.reply()] * 5)
        yield Outcome("in turn: the answers", [receive(peer) for peer in at_socket], [NO_GAPS % (2, b"1")] * 2)
        lines = ["200", "batch 0", "200", "batch 0", "200", "200", "200"]
        yield Outcome("in turn: the lines", desk.ended(), desk.wanted(lines))


def a_client_that_stalls(room: Room) -> Iterator[Outcome]:
    """The desk waits for it for 10 seconds, asks nothing of its batch, and serves the next one."""
    yield Outcome("a stall: the desk", batch(room, AGREEMENT), Ran(0, AGREED))
    with open_desk(room, 2) as desk, reached(room) as silent:
        silent.sendall(bare(1))
        began = time.monotonic()
        came = sent(room, QUESTION)
        waited = time.monotonic() - began
        yield Outcome("a stall: the batch behind it", came, Ran(0, NO_GAPS % (1, b"")))
        yield Outcome("a stall: how long it was waited for", 9 < waited < 100, True)
        yield Outcome("a stall: its answers", receive(silent), b"")
        yield Outcome("a stall: the lines", desk.ended(), desk.wanted(["fault", "batch 0"]))


def a_client_that_is_slow(room: Room) -> Iterator[Outcome]:
    """Time that the desk spends between reads and writes does not count: a client that takes its answers late, but
    waits for none, is served whole."""
    text = AGREEMENT + b"".join(bare(number) for number in range(1, 201))
    with open_desk(room, 1) as desk, reached(room) as peer:
        for at in range(0, len(text), 4096):
            time.sleep(0.05)
            peer.sendall(text[at : at + 4096])
        peer.shutdown(socket.SHUT_WR)
        wanted = AGREED + b"".join(applied(number) for number in range(1, 201))
        yield Outcome("a slow client: its answers", receive(peer), wanted)
        yield Outcome("a slow client: the line", desk.ended(), desk.wanted(["batch 0"]))


def texts_that_are_none(room: Room) -> Iterator[Outcome]:
    """The limits are those of a batch. A client gets no answer; the command checks them itself, and sends nothing."""
    largest = AGREEMENT + b"\n" * (LARGEST - len(AGREEMENT))
    words = AGREEMENT + b"AskGaps,\xff\n"
    with open_desk(room, 4) as desk:
        yield Outcome("no text: a byte more than the longest", answered(room, largest + b"\n"), b"")
        yield Outcome("no text: no UTF-8", answered(room, words), b"")
        yield Outcome("no text: nothing was asked", sent(room, QUESTION), Ran(1, UNKNOWN))
        yield Outcome("no text: the longest", sent(room, largest), Ran(0, AGREED))
        lines = ["fault", "fault", "batch 1", "batch 0"]
        yield Outcome("no text: the lines", desk.ended(), desk.wanted(lines))
    # Nobody listens any more, and nobody has to.
    for name, text, words in [
        ("too large", largest + b"\n", b"input: too large"),
        ("no UTF-8", words, b"input: not UTF-8"),
        ("unreadable", UNREADABLE, b"input: read"),
    ]:
        wanted = Ran(3, b"", b"onixdesk: " + words + b"\n")
        yield Outcome(f"no text: sent, {name}", sent(room, text), wanted)


def whose_it_is(room: Room) -> Iterator[Outcome]:
    """Only the program's user and group can use the socket."""
    with open_desk(room, None):
        found = os.lstat(room.path(SOCKET))
        came = stat.S_ISSOCK(found.st_mode), oct(stat.S_IMODE(found.st_mode)), found.st_uid, found.st_gid
        yield Outcome("the socket: its mode", came, (True, "0o660", os.geteuid(), os.getegid()))


def start_beside(room: Room) -> Ran:
    words = "--db", "other.db", "serve", "--port", str(free_port()), "--requests", "1", "--batches", SOCKET
    return room.run(*words, given=UNREADABLE)


def sockets_that_are_there(room: Room) -> Iterator[Outcome]:
    """A left-over socket is replaced; one that answers, and any other file, ends the program."""
    with open_desk(room, None) as desk:
        yield Outcome("a socket that answers", start_beside(room), FAULT)
        yield Outcome("a socket that answers: its desk", sent(room, AGREEMENT), Ran(0, AGREED))
        desk.process.send_signal(signal.SIGKILL)
        desk.process.wait(timeout=SECONDS)
    yield Outcome("a socket at which nobody listens", sent(room, QUESTION), FAULT)
    with open_desk(room, 1) as desk:
        yield Outcome("a socket that was left over", sent(room, QUESTION), Ran(0, NO_GAPS % (1, b"")))
        yield Outcome("a socket that was left over: the line", desk.ended(), desk.wanted(["batch 0"]))
    room.path(SOCKET).unlink()
    yield Outcome("no socket", sent(room, QUESTION), FAULT)
    room.write(SOCKET, b"a shop's own file")
    yield Outcome("a file that is no socket", start_beside(room), FAULT)
    yield Outcome("a file that is no socket: what it holds", room.path(SOCKET).read_bytes(), b"a shop's own file")


# So many messages are sent, and the desk is killed after so many answers.
MANY = 3000
COME = 300


def killed_amid_a_batch(room: Room) -> Iterator[Outcome]:
    """Whatever a client was answered is in the file, and of the rest at most what comes next."""
    yield Outcome("a kill: the desk", batch(room, AGREEMENT), Ran(0, AGREED))
    with open_desk(room, None) as desk:
        words: list[Word] = [room.program, "--batches", SOCKET, "batch"]
        room.write("many.csv", b"".join(bare(number) for number in range(1, MANY + 1)))
        with open(room.path("many.csv"), "rb") as many:
            # Without a buffer, since `communicate` would lose what that holds beyond the lines that were read.
            client = subprocess.Popen(
                words, 0, cwd=room.folder, stdin=many, stdout=subprocess.PIPE, stderr=subprocess.PIPE
            )
        assert client.stdout
        come = b"".join(client.stdout.readline() for _ in range(COME))
        desk.process.send_signal(signal.SIGKILL)
        rest, errors = client.communicate(timeout=SECONDS)
    # The last may be cut.
    lines = [line for line in (come + rest).splitlines(keepends=True) if line.endswith(b"\n")]
    yield Outcome("a kill: the client", (client.returncode, without_reasons(errors)), (3, b"onixdesk: socket\n"))
    wanted = [applied(number) for number in range(1, len(lines) + 1)]
    yield Outcome("a kill: what was answered", lines, wanted)
    yield Outcome("a kill: before the end", len(lines) < MANY, True)
    kept = gaps(room).output
    found = int(kept.split(b"next=")[1].split(b",")[0]) - 1
    yield Outcome("a kill: what is kept", kept, NO_GAPS % (found + 1, b"%d" % found))
    yield Outcome("a kill: no answer is lost", len(lines) <= found < MANY, True)


def outputs_that_are_full(room: Room) -> Iterator[Outcome]:
    """The requests have taken effect, like those of `batch`."""
    with open_desk(room, 2) as desk:
        yield Outcome("a full output", sent(room, AGREEMENT, is_full=True), Ran(3, b"", b"onixdesk: output\n"))
        yield Outcome("a full output: the desk", sent(room, QUESTION), Ran(0, NO_GAPS % (1, b"")))
        yield Outcome("a full output: the lines", desk.ended(), desk.wanted(["batch 0", "batch 0"]))
