"""Runs children to their end. An unknown exit status is a failure."""

import contextlib
import os
import subprocess
import tempfile
import threading
import time
from collections.abc import Iterable, Sequence
from pathlib import Path
from typing import IO, NamedTuple

from onixdesk_shop.faults import BadEnd

Words = Sequence[str | Path]

ENVIRONMENT = {"PATH": os.environ.get("PATH", os.defpath), "HOME": "/nonexistent", "LC_ALL": "C.UTF-8"}


class Ended(NamedTuple):
    """A child's exit status, and what it wrote."""

    status: int
    output: bytes
    errors: bytes


def run(words: Words, known: tuple[int, ...], pieces: Iterable[bytes], seconds: float | None) -> Ended:
    """Runs a child that reads these pieces, or as many as it wants."""
    name = Path(words[0]).name
    with tempfile.TemporaryFile() as written, tempfile.TemporaryFile() as errors:
        try:
            child = subprocess.Popen(words, stdin=subprocess.PIPE, stdout=written, stderr=errors, env=ENVIRONMENT)
        except OSError as error:
            raise BadEnd(f"{words[0]} cannot be run: {error.strerror}") from None
        limit = seconds or threading.TIMEOUT_MAX
        late, end = threading.Timer(limit, child.kill), time.monotonic() + limit
        late.start()
        try:
            assert child.stdin
            with contextlib.suppress(BrokenPipeError), child.stdin:
                for piece in pieces:
                    child.stdin.write(piece)
            status = child.wait()
        finally:
            late.cancel()
            child.kill()
            child.wait()
        ended = Ended(status, read(written), read(errors))
    if status in known:
        return ended
    how = f"was killed by signal {-status}" if status < 0 else f"ended with status {status}"
    lines = ended.errors.decode("utf-8", "backslashreplace").splitlines()
    raise BadEnd(f"{name} takes too long" if time.monotonic() > end else ": ".join([f"{name} {how}", *lines[-1:]]))


def read(written: IO[bytes]) -> bytes:
    written.seek(0)
    return written.read()
