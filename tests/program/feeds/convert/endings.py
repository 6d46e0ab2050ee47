"""What `onixdesk convert` says of a feed that is no message, its progress, and what an ended run leaves."""

import contextlib
import os
import pty
import re
import signal
import subprocess
import time
from collections.abc import Iterator
from functools import partial
from pathlib import Path
from typing import NamedTuple

from tests.program.feeds.convert.case_files import in_short_tags, said
from tests.program.feeds.convert.words_and_statuses import LARGE, large_part
from tests.program.feeds.convert.running import FEED
from tests.program.feeds.convert.wanted_runs import FRAME, ONE, PRODUCT, TWO, message_of
from tests.program.room import SECONDS, Group, Ran, Room
from tests.program.written_cases import TESTS, read_file, repeated, unescaped
from tests.running import Outcome

CUT = "the file ends too early"
NO_XML = "no well-formed XML at"

# Longer than the kept beginning of a feed, and than what is read of it at once.
LONG = f"<!--{' ' * 70_000}-->"


class Case(NamedTuple):
    """A feed that is refused, and why."""

    name: str
    feed: bytes
    why: str


def feeds() -> Iterator[Case]:
    """The feeds in tests/refusals/feeds.txt, with escapes; a case's name begins like the reason for its refusal."""
    for case in read_file(TESTS / "refusals/feeds.txt"):
        for text in case.text.removesuffix("\n").splitlines():
            yield Case(f"the feed {text}", unescaped(repeated(text)), case.name)


# The sizes of feeds that break off: too few bytes to tell the encoding, as many as are kept, and so on.
SIZES = [512, 1_023, 1_024, 2_000, 65_535, 65_536, 65_537, 200_000]

BEGUN = FRAME.before + PRODUCT.format("R1")


def begun(size: int) -> str:
    """A feed of that many bytes whose root is open."""
    comment = "<!---->"
    return f"{BEGUN}<!--{' ' * (size - len(BEGUN) - len(comment))}-->"


ENDS = [
    Case("a prolog", b'<?xml version="1.0"?>\n<!-- a message\n', CUT),
    Case("white space", b" \n", CUT),
    Case("short tags", in_short_tags(BEGUN).encode(), CUT),
    Case("a prolog that is long", f"{LONG}<!--".encode(), CUT),
    *(
        Case(f"{size} bytes and {behind!r}", f"{begun(size)}{behind}".encode(), why)
        for size in SIZES
        for behind, why in [
            ("", CUT),
            ("<Product><Record", CUT),
            ("<Product>R", CUT),
            ("<!-- ", CUT),
            ("</Other>", f"{NO_XML} </Other>"),
            (f"{FRAME.behind}</Other>", f"{NO_XML} </Other>"),
        ]
    ),
]


def packed(room: Room) -> Iterator[Outcome]:
    """A FILE that is packed by its name is refused, with the command that unpacks it."""
    for name in "a.xml.gz", "A.GZ", "a.zip", "A.Zip":
        room.write(name, b"")
        why = "packed; gunzip -c or unzip -p unpacks it"
        wanted = Ran(1, b"", f"onixdesk: {name}:1:1: refused: {why}\n".encode())
        yield Outcome(f"convert: packed, {name}", room.run("convert", name), wanted)


def standing(feed: bytes, head: str) -> str:
    """What stands in a feed at the place that a line begins with."""
    line, column = map(int, head.split(":")[-2:])
    return feed.decode("utf-8-sig", "replace").split("\n")[line - 1][column - 1 :]


def refused(cases: list[Case], room: Room) -> Iterator[Outcome]:
    """Why each is refused, as a file and on standard input, and what stands where it is malformed."""
    for case in cases:
        room.write(FEED, case.feed)
        for name, came in [
            (FEED, room.run("convert", FEED)),
            ("-", room.run("convert", given=case.feed)),
        ]:
            head, between, why = came.errors.decode().partition(": refused: ")
            cause = case.why if why.startswith(case.why) else why
            found = came.status, came.output, head.startswith(f"onixdesk: {name}:"), between, cause
            yield Outcome(f"convert: {case.name}, {name}", found, (1, b"", True, ": refused: ", case.why))
            if why.startswith(NO_XML):
                there = why.removeprefix(NO_XML)[1:3]
                yield Outcome(f"convert: {case.name}, {name}: what stands there", there, standing(case.feed, head)[:2])


def unread(room: Room) -> Iterator[Outcome]:
    """A file that cannot be read is a fault with its reason."""
    came = room.run("convert", ".")
    yield Outcome("convert: a folder", came, Ran(3, b"", b"onixdesk: .: Is a directory\n"))
    came = room.run("convert", given=None)
    yield Outcome("convert: a folder as standard input", came, Ran(3, b"", b"onixdesk: -: Is a directory\n"))


def all_of(terminal: int) -> bytes:
    """The output on a terminal that nobody has open any more, whose end is a fault."""
    found = b""
    with contextlib.suppress(OSError):
        while piece := os.read(terminal, 65_536):
            found += piece
    return found


def terminal(room: Room) -> Iterator[Outcome]:
    """On a terminal a line shows the progress of a feed, and is removed at the end."""
    os.mkfifo(room.path("pipe.xml"))
    runs: list[tuple[str, list[str]]] = [("-", []), ("pipe.xml", ["pipe.xml"])]
    for name, words in runs:
        ours, theirs = pty.openpty()
        process = subprocess.Popen(
            [room.program, "convert", *words],
            cwd=room.folder,
            stdin=subprocess.PIPE,
            stdout=subprocess.PIPE,
            stderr=theirs,
        )
        os.close(theirs)
        assert process.stdin
        with open(room.path("pipe.xml"), "wb") if words else process.stdin as feed:
            feed.write(FRAME.before.encode())
            for _ in range(4):
                feed.write(b"<Note/>" * 30_000)
                feed.flush()
                time.sleep(0.25)
            feed.write(f"<NoProduct/>{FRAME.behind}".encode())
        assert process.stdout
        output = process.stdout.read()
        status = process.wait(SECONDS)
        shown = all_of(ours).decode()
        os.close(ours)
        yield Outcome(f"convert: a terminal, {name}: the records", (status, output), (0, message_of()))
        first, *lines, last = shown.split("\033[K")
        is_so = all(re.fullmatch(r"0\.[0-9] MB\r", line) for line in lines)
        found = first, len(lines) > 1, is_so, last
        yield Outcome(f"convert: a terminal, {name}", found, ("", True, True, ""))


PARTS = {"message.part-01.csv": large_part(1, "R1"), "message.part-02.csv": large_part(2, "R2")}
INTO = ["convert", "--parts", "2", "-o", "out"]


def names(folder: Path) -> list[str]:
    return sorted(path.name for path in folder.iterdir())


def contents(folder: Path) -> dict[str, bytes]:
    return {path.name: path.read_bytes() for path in folder.iterdir()}


# The rest of a run's input after its first part.
REST = b"</ONIXmessage>"


def first_parts(folder: Path) -> dict[str, int]:
    """The hidden files of complete first parts, and when each was written."""
    size = len(PARTS["message.part-01.csv"])
    states = {}
    for path in folder.glob(".message.onixdesk.*.1"):
        # The run renames it meanwhile.
        with contextlib.suppress(FileNotFoundError):
            states[path.name] = path.stat()
    return {name: state.st_mtime_ns for name, state in states.items() if state.st_size == size}


def started(room: Room) -> subprocess.Popen[bytes]:
    """A run that has made its first part."""
    room.path("out").mkdir(exist_ok=True)
    before = first_parts(room.path("out"))
    process = room.start(*INTO, stdin=subprocess.PIPE)
    assert process.stdin
    process.stdin.write(LARGE.removesuffix(REST))
    process.stdin.flush()
    for _ in range(SECONDS * 100):
        # The hidden file of an earlier run is written anew, and is not complete meanwhile.
        if first_parts(room.path("out")).items() - before.items() and len(names(room.path("out"))) == 2:
            break
        time.sleep(0.01)
    return process


def stopped(number: signal.Signals, room: Room) -> Iterator[Outcome]:
    """What a run that a signal ended left, the next one of the same NAME replaces."""
    for turn in (1, 2):
        process = started(room)
        process.send_signal(number)
        process.communicate(timeout=SECONDS)
        left = names(room.path("out"))
        is_hidden = all(name.startswith(".message.onixdesk.0") for name in left)
        found = process.returncode, len(left), is_hidden
        yield Outcome(f"convert: {number.name}, {turn}: what is left", found, (-number, 2, True))
    came = room.run(*INTO, given=LARGE)
    yield Outcome(f"convert: {number.name}: the next run", (came, contents(room.path("out"))), (Ran(0), PARTS))


def together(room: Room) -> Iterator[Outcome]:
    """Of two runs of one NAME the second ends with its line, whatever it converts, and does not disturb the first,
    which finishes. A run of another NAME, or into another folder, is not affected."""
    process = started(room)
    living = contents(room.path("out"))
    room.write("message.xml", ONE)
    room.write("other.xml", ONE)
    room.path("elsewhere").mkdir()
    line = said(["out/.message.onixdesk.0: another run makes files of this NAME"])
    for words, given in (INTO, LARGE), (["convert", "-o", "out", "message.xml"], b""):
        came = room.run(*words, given=given)
        found = came, contents(room.path("out"))
        yield Outcome(f"convert: beside a run that lives: {' '.join(words)}", found, (Ran(3, b"", line), living))
    came = room.run("convert", "-o", "out", "other.xml", "message.xml")
    found = came, contents(room.path("out"))
    other = {"other.csv": message_of("R1")}
    yield Outcome("convert: beside a run that lives: two FILEs", found, (Ran(3, b"", line), living | other))
    came = room.run("convert", "-o", "elsewhere", "message.xml")
    yield Outcome("convert: beside a run that lives: another folder", came, Ran(0))
    _, errors = process.communicate(REST, timeout=SECONDS)
    found_then = process.returncode, errors, contents(room.path("out"))
    yield Outcome("convert: a run beside which another one was", found_then, (0, b"", PARTS | other))
    yield Outcome("convert: behind both", room.run(*INTO, given=LARGE), Ran(0))


def strangers(room: Room) -> Iterator[Outcome]:
    """A hidden name that is not a run's file is neither followed nor overwritten."""
    room.write("precious", b"precious")
    room.path("out").mkdir()
    room.path("out/.feed.onixdesk.0").symlink_to(room.path("precious"))
    os.mkfifo(room.path("out/.feed.onixdesk.1"))
    room.path("out/.feed.onixdesk.2").mkdir()
    room.write(FEED, ONE)
    came = room.run("convert", "-o", "out", FEED)
    found = came, names(room.path("out")), room.path("precious").read_bytes()
    hidden = [f".feed.onixdesk.{number}" for number in range(3)]
    yield Outcome("convert: strangers with hidden names", found, (Ran(0), [*hidden, "feed.csv"], b"precious"))
    room.write("a.xml", TWO)
    room.path("out/.a.onixdesk.0.1").symlink_to(room.path("precious"))
    came = room.run("convert", "-o", "out", "a.xml")
    found = came, names(room.path("out")), room.path("precious").read_bytes()
    wanted = Ran(0), [*hidden, "a.csv", "feed.csv"], b"precious"
    yield Outcome("convert: a link in the place of a part", found, wanted)


GROUPS = [
    Group("convert: files that are no message", partial(refused, [*feeds()])),
    Group("convert: files that end too early", partial(refused, ENDS)),
    *(
        Group(f"convert: {number.name}", partial(stopped, number))
        for number in (signal.SIGTERM, signal.SIGINT, signal.SIGKILL)
    ),
]
