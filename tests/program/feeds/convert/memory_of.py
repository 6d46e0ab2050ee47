"""A measured conversion: its processor time and its memory."""

import contextlib
import subprocess
import sys
import threading
from collections.abc import Iterator
from pathlib import Path
from typing import BinaryIO, NamedTuple

# How long a conversion may take.
SECONDS = 300

# Runs a program and then writes its peak resident memory, in kilobytes, and its seconds of processor time. The runner
# is small, since a process starts with the memory of its parent.
MEASURING = """
import os, sys
child = os.posix_spawn(sys.argv[1], sys.argv[1:], os.environ)
_, status, usage = os.wait4(child, 0)
with open("usage", "w") as file:
    file.write(f"{usage.ru_maxrss} {usage.ru_utime + usage.ru_stime}")
sys.exit(os.waitstatus_to_exitcode(status) % 256)
"""


class Converted(NamedTuple):
    """How a run ended and what it wrote, its seconds of processor time, and its peak memory in bytes."""

    status: int
    output: bytes
    errors: bytes
    seconds: float
    memory: int


def feed_in(pieces: Iterator[bytes], stream: BinaryIO) -> None:
    """Writes the pieces, as far as they are read."""
    with contextlib.suppress(BrokenPipeError), stream:
        for piece in pieces:
            stream.write(piece)


def converted(program: Path, folder: Path, pieces: Iterator[bytes], *words: str) -> Converted:
    """Converts a feed from standard input, in a folder."""
    process = subprocess.Popen(
        [sys.executable, "-I", "-S", "-c", MEASURING, program, "convert", *words],
        cwd=folder,
        stdin=subprocess.PIPE,
        stdout=subprocess.PIPE,
        stderr=subprocess.PIPE,
    )
    assert process.stdin
    feeder = threading.Thread(target=feed_in, args=(pieces, process.stdin))
    feeder.start()
    # Its standard input is the feeder's.
    process.stdin = None
    output, errors = process.communicate(timeout=SECONDS)
    feeder.join(SECONDS)
    kilobytes, seconds = folder.joinpath("usage").read_text().split()
    return Converted(process.returncode, output, errors, float(seconds), int(kilobytes) * 1_024)
