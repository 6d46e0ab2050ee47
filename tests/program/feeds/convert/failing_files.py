"""`onixdesk convert` when it cannot write, when files appear meanwhile, or when nobody reads its output: what is left,
and the status."""

import contextlib
import os
import subprocess
import time
from collections.abc import Iterator
from pathlib import Path

from tests.program.feeds.convert.case_files import said
from tests.program.feeds.convert.running import convert
from tests.program.feeds.convert.wanted_runs import BAD, FRAME, ONE, PRODUCT, WRONG, feed_of, message_of
from tests.program.room import SECONDS, Ran, Room
from tests.running import Outcome, left_out
from tools.words import Word

# The longest name of a file.
LONGEST = 255

# More than the small file system has room for.
LARGE = feed_of(*(f"R{number:05}" for number in range(6_000)))

FULL = "No space left on device"


def names(folder: Path) -> list[str]:
    return sorted(path.name for path in folder.iterdir())


@contextlib.contextmanager
def small_disk(room: Room) -> Iterator[Path | None]:
    """A folder on a file system of 100 kB, or None if none may be mounted."""
    folder = room.path("disk")
    folder.mkdir()
    words: list[Word] = ["mount", "-t", "tmpfs", "-o", "size=100k", "none", folder]
    if os.geteuid() != 0 or subprocess.run(words, stderr=subprocess.DEVNULL).returncode:
        yield None
        return
    try:
        yield folder
    finally:
        subprocess.run(["umount", folder], check=True)


def full_disk(room: Room) -> Iterator[Outcome]:
    """A disk that fills up amid a message: one line, and nothing is left on it."""
    room.write("a.xml", LARGE)
    with small_disk(room) as folder:
        if folder is None:
            yield left_out("a full disk, since no file system can be mounted")
            return
        for parts in ["1", "60"]:
            came = convert(room, "--parts", parts, "-o", "disk", "a.xml")
            wanted = Ran(3, b"", said([f"disk: {FULL}"]))
            yield Outcome(f"convert: a full disk, {parts} parts", (came, names(folder)), (wanted, []))
        status = run_without_error(room, "-o", "disk", "a.xml")
        yield Outcome("convert: a full disk, standard error closed", (status, names(folder)), (3, []))


def largest_file(room: Room) -> Iterator[Outcome]:
    """A limit on file sizes stands for a full disk if none may be mounted."""
    room.write("a.xml", LARGE)
    room.path("out").mkdir()
    script = f'ulimit -f 20; trap "" XFSZ; exec "{room.program}" convert -o out a.xml'
    came = room.call(["sh", "-c", script])
    found = came.status, came.errors, names(room.path("out"))
    yield Outcome("convert: a file that grows too large", found, (3, said(["out: File too large"]), []))


def run_without_error(room: Room, *words: str) -> int:
    """The status of a run whose standard error is closed."""
    script = 'exec "$@" 2>&-'
    return room.call(["sh", "-c", script, "sh", room.program, "convert", *words]).status


def closed_error(room: Room) -> Iterator[Outcome]:
    """The statuses are the same if standard error is closed, or takes nothing."""
    room.write("a.xml", ONE)
    room.write("b.xml", BAD)
    room.write("w.xml", WRONG)
    for words, status in [
        (["a.xml"], 0),
        (["b.xml"], 1),
        (["--wrong", "all", "w.xml"], 1),
        (["--parts", "none"], 2),
        (["absent.xml"], 3),
        (["-o", "absent", "a.xml"], 3),
    ]:
        yield Outcome(f"convert: standard error closed: {words}", run_without_error(room, *words), status)
        with open("/dev/full", "wb") as full:
            command: list[Word] = [room.program, "convert", *words]
            done = subprocess.run(command, cwd=room.folder, stdout=subprocess.DEVNULL, stderr=full, timeout=SECONDS)
        yield Outcome(f"convert: standard error full: {words}", done.returncode, status)


def long_names(room: Room) -> Iterator[Outcome]:
    """The file beside has the longest name, of a dot, the name of the message, and the process."""
    room.path("out").mkdir()
    room.write("x" * 200 + ".xml", ONE)
    came = convert(room, "-o", "out", "x" * 200 + ".xml")
    found = came, names(room.path("out"))
    yield Outcome("convert: a long name", found, (Ran(0), ["x" * 200 + ".csv"]))
    name = "y" * (LONGEST - 4)
    room.write(name + ".xml", ONE)
    came = convert(room, "-o", "out", name + ".xml")
    found = came.status, came.output, came.errors.count(b"\n"), b"File name too long" in came.errors
    yield Outcome("convert: a name that is too long", found, (3, b"", 1, True))
    yield Outcome("convert: a name that is too long: what is left", names(room.path("out")), ["x" * 200 + ".csv"])


def begun(room: Room, *words: str) -> subprocess.Popen[bytes]:
    """A run over standard input, into the folder `out`."""
    room.path("out").mkdir()
    command: list[Word] = [room.program, "convert", *words, "-o", "out", "-"]
    return subprocess.Popen(command, cwd=room.folder, stdin=subprocess.PIPE, stderr=subprocess.PIPE)


def empty_files(room: Room) -> Iterator[Outcome]:
    """An empty regular file counts as missing; a link to one does not, nor does any other file."""
    room.write("a.xml", ONE)
    room.write("empty", b"")
    place = room.path("a.csv")
    wanted = Ran(3, b"", said(["a.csv: already exists, with different content"]))
    place.symlink_to("empty")
    yield Outcome(
        "convert: a link to an empty file", (convert(room, "-o", ".", "a.xml"), place.is_symlink()), (wanted, True)
    )
    place.unlink()
    os.mkfifo(place)
    yield Outcome("convert: a pipe", (convert(room, "-o", ".", "a.xml"), place.is_fifo()), (wanted, True))
    place.unlink()
    place.write_bytes(b"")
    found = convert(room, "-o", ".", "a.xml"), place.read_bytes()
    yield Outcome("convert: an empty file", found, (Ran(0), message_of("R1")))


def came_meanwhile(room: Room) -> Iterator[Outcome]:
    """A file that appears while a message is read is not overwritten, and no part of the message is placed."""
    process = begun(room, "--parts", "2")
    assert process.stdin
    # So many products that the first part is written before the last of them has come.
    products = "".join(PRODUCT.format(f"R{number:05}") for number in range(20_000))
    process.stdin.write(f"{FRAME.before}{products}".encode())
    process.stdin.flush()
    for _ in range(SECONDS * 100):
        if names(room.path("out")):
            break
        time.sleep(0.01)
    room.write("out/message.part-02.csv", b"other")
    _, errors = process.communicate(FRAME.behind.encode(), timeout=SECONDS)
    wanted = 3, said(["out/message.part-02.csv: already exists, with different content"])
    yield Outcome("convert: a file that came meanwhile", (process.returncode, errors), wanted)
    found = names(room.path("out")), room.path("out/message.part-02.csv").read_bytes()
    yield Outcome("convert: a file that came meanwhile stays alone", found, (["message.part-02.csv"], b"other"))
