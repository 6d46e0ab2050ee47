"""How children end, and how files are written whole."""

import os
import threading
from collections.abc import Callable, Iterator
from typing import Any

from onixdesk_shop.faults import BadEnd
from onixdesk_shop.machine import Machine
from tests.program.room import WITHIN, Ran, Room
from tests.running import Outcome
from tools.words import Word


def why(work: Callable[[], object]) -> str:
    try:
        work()
    except BadEnd as end:
        return str(end)
    return ""


def ends(_room: Room) -> Iterator[Outcome]:
    """An unknown end is a failure."""
    machine = Machine("test")

    def run(script: str, **more: Any) -> Callable[[], object]:
        return lambda: machine.run(["sh", "-c", script], (0, 1), **more)

    found = machine.run(["sh", "-c", "cat; echo told >&2; exit 1"], (0, 1), b"given")[:]
    yield Outcome("known", found, (1, b"given", b"told\n"))
    yield Outcome("another", why(run("echo no >&2; exit 3")), "sh ended with status 3: no")
    yield Outcome("killed", why(run("kill -9 $$")), "sh was killed by signal 9")
    yield Outcome("too long", why(run("sleep 60", seconds=0.1, text=[b"y" * 999_999])), "sh takes too long")
    yield Outcome("not there", why(lambda: machine.run(["/none"])), "/none cannot be run: No such file or directory")
    yield Outcome("pieces", machine.run(["cat"], text=iter([b"one\n", b"two\n"])).output, b"one\ntwo\n")
    yield Outcome("not all is read", machine.run(["head", "-c", "3"], text=[b"y\n" * 99_999] * 9).output, b"y\ny")


def whole_files(room: Room) -> Iterator[Outcome]:
    """A reader of a file meanwhile gets one of the written versions, whole."""
    path, texts = room.path("file"), [bytes([65 + place]) * 100_000 for place in range(4)]
    machine = Machine("test")
    machine.write_whole(path, texts[0])
    writers = [threading.Thread(target=machine.write_whole, args=(path, text)) for text in texts * 5]
    for writer in writers:
        writer.start()
    found = {path.read_bytes() for _ in range(100)}
    for writer in writers:
        writer.join()
    yield Outcome("whole", found <= set(texts), True)
    yield Outcome("nothing else is left", os.listdir(room.folder), ["file"])


WORK = """\
import os, signal, sys
from onixdesk_shop.ends import call, parser_of
def work(machine, options):
    {lines}
    machine.tell(5, "done")
    return 0
parser = parser_of("test", "")
parser.set_defaults(goes_on={goes_on})
sys.exit(call(parser, work))
"""


def program(lines: str, goes_on: bool = False) -> list[Word]:
    """The words of a program that does this, and says so."""
    return [*WITHIN, WORK.format(lines=lines, goes_on=goes_on)]


def broken_output(room: Room) -> Iterator[Outcome]:
    """A program whose output nobody reads goes on, and ends with 3."""
    words = program("for _ in range(9): machine.write('x' * 99_999)")
    ran = room.call(["bash", "-c", '"$@" | true; exit "${PIPESTATUS[0]}"', "bash", *words])
    yield Outcome("it goes on", (ran.status, ran.errors), (3, b"test: done\n"))
    ran = room.call(["bash", "-c", '"$@" >&-', "bash", *words])
    yield Outcome("closed from the beginning", (ran.status, ran.errors), (3, b"test: done\n"))


def signals(room: Room) -> Iterator[Outcome]:
    """A program that replaces a desk goes on if a terminal hangs up; all others end with the signal's status."""
    done = Ran(0, b"", b"test: done\n")
    for name, goes_on, wanted in ("HUP", True, done), ("HUP", False, Ran(129)), ("TERM", True, Ran(143)):
        ran = room.call(program(f"os.kill(os.getpid(), signal.SIG{name})", goes_on))
        yield Outcome(f"SIG{name}, {goes_on}", ran, wanted)
