"""Ports of this machine for a test or a benchmark alone."""

import errno
import fcntl
import itertools
import os
import socket
import tempfile
from pathlib import Path
from threading import Lock

HOST = "127.0.0.1"

# They are below those that the system gives to clients and to servers without one (net.ipv4.ip_local_port_range), so
# that no other program gets one by chance.
PORTS = range(20_000, 30_000)


class Ports:
    """The ports given to this process. Each is locked, so that no other process gets it until this one ends."""

    def __init__(self) -> None:
        self.lock = Lock()
        self.file = -1
        # Each process begins at a place of its own.
        self.places = itertools.count(os.getpid() * 97)

    def next(self) -> int:
        """A free port."""
        with self.lock:
            if self.file < 0:
                path = Path(tempfile.gettempdir(), f"onixdesk-ports-{os.geteuid()}")
                self.file = os.open(path, os.O_RDWR | os.O_CREAT | os.O_CLOEXEC, 0o600)
            for place in itertools.islice(self.places, len(PORTS)):
                port = PORTS[place % len(PORTS)]
                if self.is_locked(port) and is_free(port):
                    return port
        raise OSError(errno.EADDRINUSE, "no port is free")

    def is_locked(self, port: int) -> bool:
        """Whether this process has it now."""
        try:
            fcntl.lockf(self.file, fcntl.LOCK_EX | fcntl.LOCK_NB, 1, port)
        except OSError:
            return False
        return True


def is_free(port: int) -> bool:
    with socket.socket() as listener:
        listener.setsockopt(socket.SOL_SOCKET, socket.SO_REUSEADDR, 1)
        try:
            listener.bind((HOST, port))
        except OSError:
            return False
    return True


free_port = Ports().next
