"""The desk over HTTP: a run of `serve`, its clients, and a stand-in for it."""

import contextlib
import http.server
import socket
import subprocess
import threading
from collections.abc import Iterator, Sequence
from typing import NamedTuple

from tests.program.room import SECONDS, Ran, Room, without_reasons
from tools.ports import HOST as HOST, free_port as free_port

# How often to look for a port that no other program takes in the meantime.
TRIES = 20

# How many seconds a server goes on after its end: it looks for that so often.
LOOK = 0.02


class Exchange(NamedTuple):
    """What a client sends, and the reply: the status line without its version, the Allow line if there is one, and the
    body."""

    name: str
    input: bytes
    line: str
    body: str

    def reply(self) -> bytes:
        body = self.body.encode()
        head = (
            f"HTTP/1.1 {self.line}\r\n"
            "Content-Type: application/json\r\n"
            f"Content-Length: {len(body)}\r\n"
            "Connection: close\r\n\r\n"
        )
        return head.encode() + body

    def status(self) -> str:
        return self.line.split(" ")[0]


def posted(records: bytes) -> bytes:
    return b"POST /messages HTTP/1.1\r\nContent-Length: %d\r\n\r\n" % len(records) + records


def got(target: str, line: str, body: str) -> Exchange:
    return Exchange(target, f"GET {target} HTTP/1.1\r\n\r\n".encode(), line, body)


def in_pieces(text: bytes, size: int) -> list[bytes]:
    return [text[at : at + size] for at in range(0, len(text), size)]


def connected(port: int) -> socket.socket:
    peer = socket.create_connection((HOST, port), timeout=SECONDS)
    peer.setsockopt(socket.IPPROTO_TCP, socket.TCP_NODELAY, 1)
    return peer


def send(peer: socket.socket, pieces: list[bytes], keeps_open: bool = False) -> None:
    """Sends the pieces, and then closes this direction of the connection. The desk may reply and close before it has
    taken all of them."""
    with contextlib.suppress(OSError):
        for piece in pieces:
            peer.sendall(piece)
        if not keeps_open:
            peer.shutdown(socket.SHUT_WR)


def receive(peer: socket.socket) -> bytes:
    """All that the desk sends."""
    reply = b""
    with contextlib.suppress(ConnectionResetError):
        while piece := peer.recv(65536):
            reply += piece
    return reply


class Serving:
    """A run of `serve`."""

    def __init__(self, process: subprocess.Popen[bytes], port: int, first_line: bytes) -> None:
        self.process = process
        self.port = port
        self.first_line = first_line

    def reply(self, pieces: list[bytes], keeps_open: bool = False) -> bytes:
        """The reply to a client that sends these pieces."""
        with connected(self.port) as peer:
            send(peer, pieces, keeps_open)
            return receive(peer)

    def told(self) -> Ran:
        """How the run ended, once it has served its connections."""
        output, errors = self.process.communicate(timeout=SECONDS)
        return Ran(self.process.returncode, self.first_line + output, errors)

    def ended(self) -> Ran:
        """The same without the lines that only say why."""
        ran = self.told()
        return ran._replace(errors=without_reasons(ran.errors))

    def stopped(self) -> Ran:
        """How a run without a limit ended, once it was told to."""
        self.process.terminate()
        return self.ended()

    def wanted(self, lines: list[str], status: int = 0) -> Ran:
        """The expected end after connections with these lines."""
        text = "".join(f"{line}\n" for line in [f"listening {self.port}", *lines])
        return Ran(status, text.encode())


def started(room: Room, words: list[str], connections: int | None, more: Sequence[str] = ()) -> Serving:
    """Starts `serve` for so many connections, or until it is stopped, on a free port; `more` follows its own words."""
    requests = [] if connections is None else ["--requests", str(connections)]
    for _ in range(TRIES):
        port = free_port()
        process = room.start(*words, "serve", "--port", str(port), *requests, *more)
        assert process.stdout
        if line := process.stdout.readline():
            return Serving(process, port, line)
        output, errors = process.communicate(timeout=SECONDS)
        if not errors.startswith(b"onixdesk: port %d\n" % port):
            break
    raise RuntimeError(f"serve does not listen: {errors!r}")


@contextlib.contextmanager
def serving(room: Room, words: list[str], connections: int | None, more: Sequence[str] = ()) -> Iterator[Serving]:
    desk = started(room, words, connections, more)
    try:
        yield desk
    finally:
        desk.process.kill()
        desk.process.communicate()


class StandIn(http.server.BaseHTTPRequestHandler):
    """A server whose handlers for GET and POST decide the replies."""

    kind = "application/json"

    def reply(self, status: int, body: bytes) -> None:
        self.send_response(status)
        self.send_header("Content-Type", self.kind)
        self.send_header("Content-Length", str(len(body)))
        # The client may have left.
        with contextlib.suppress(BrokenPipeError, ConnectionResetError):
            self.end_headers()
            self.wfile.write(body)

    def posted(self) -> bytes:
        return self.rfile.read(int(self.headers["Content-Length"]))

    def log_message(self, *_: object) -> None:
        pass


@contextlib.contextmanager
def standing_in(handler: type[StandIn], port: int = 0) -> Iterator[int]:
    """A server that replies so, on the given port or a free one. A client has one connection at a time; a thread for
    each would take twice as long as a reply."""
    with http.server.HTTPServer((HOST, port), handler) as server:
        thread = threading.Thread(target=server.serve_forever, args=[LOOK])
        thread.start()
        try:
            yield server.server_port
        finally:
            server.shutdown()
            thread.join()
