"""A folder of its own in which the program runs, and the result of a case."""

import contextlib
import os
import re
import subprocess
import sys
import tempfile
from collections.abc import Callable, Iterator, Mapping, Sequence
from pathlib import Path
from typing import NamedTuple

from tests.running import PROGRAM, Cases, Outcome
from tools.root import PACKAGES
from tools.words import Word

Check = Callable[..., Iterator[Outcome]]

# No run of a case takes a tenth of it, even on a busy machine; a program that hangs fails its case.
SECONDS = 1200

# The words before a text of Python that runs with what ships.
WITHIN: list[Word] = ["env", f"PYTHONPATH={':'.join(PACKAGES)}", sys.executable, "-P", "-s", "-S", "-B", "-c"]

# An input of which each read fails, like a folder's.
UNREADABLE = None


class Ran(NamedTuple):
    """How a run of the program ended, and what it wrote."""

    status: int
    output: bytes = b""
    errors: bytes = b""


# A line on a refusal; and the line of a fault, after which another one says why.
MALFORMED = re.compile(
    rb"onixdesk: (?!rules: |terms: )(?:[^\n]*: )?(?:line|row) [0-9]+: |onixdesk: [0-9]+ more are malformed\n"
    rb"|onixdesk: without --db |onixdesk: refused,[a-z-]+: |onixdesk: bad-query: "
)
FAULT = re.compile(
    rb"onixdesk: (?:storage|file|rules): |onixdesk: port [0-9]+\n|onixdesk: socket\n|onixdesk: [^\n]*: no folder\n"
    rb"|onixdesk: [a-zA-Z ]+ needs --db\n|onixdesk: --batches goes with batch\n|onixdesk: output\n"
    rb"|onixdesk: input: (?:not UTF-8|too large)\n"
)


def without_reasons(errors: bytes) -> bytes:
    """What a run wrote, without the lines that only say why: those of malformed.py and reasons.py."""
    kept: list[bytes] = []
    for line in errors.splitlines(keepends=True):
        is_second = bool(kept) and FAULT.match(kept[-1]) and line.startswith(b"onixdesk: ")
        if not is_second and not MALFORMED.match(line):
            kept.append(line)
    return b"".join(kept)


class Room:
    def __init__(self, program: Path, folder: Path) -> None:
        self.program = program
        self.folder = folder

    def path(self, name: str) -> Path:
        return self.folder / name

    def write(self, name: str, data: bytes) -> None:
        self.path(name).write_bytes(data)

    def call(
        self,
        words: Sequence[Word | bytes],
        given: bytes | int | None = b"",
        output: int = subprocess.PIPE,
        environment: Mapping[str, str] | None = None,
        folder: str = ".",
    ) -> Ran:
        """How a program in the room ends, and what it writes. Its input is bytes or an open file, given by its number,
        and so is another output; `environment` replaces this one."""
        with contextlib.ExitStack() as opened:
            text, stream = (given, None) if isinstance(given, bytes) else (None, given)
            if given is UNREADABLE:
                stream = os.open(self.folder, os.O_RDONLY)
                opened.callback(os.close, stream)
            done = subprocess.run(
                words,
                cwd=self.path(folder),
                env=environment,
                input=text,
                stdin=stream,
                stdout=output,
                stderr=subprocess.PIPE,
                timeout=SECONDS,
            )
        return Ran(done.returncode, done.stdout or b"", done.stderr)

    def run(self, *words: Word | bytes, given: bytes | None = b"", is_full: bool = False) -> Ran:
        """Runs the program on these words and this input; `is_full` gives it an output that takes nothing. Lines that
        only say why are left out."""
        if not is_full:
            ran = self.call([self.program, *words], given)
        else:
            with open("/dev/full", "wb") as full:
                ran = self.call([self.program, *words], given, full.fileno())
        return ran._replace(errors=without_reasons(ran.errors))

    def told(self, *words: Word | bytes, given: bytes | None = b"") -> Ran:
        """The same with the lines that say why."""
        return self.call([self.program, *words], given)

    def start(self, *words: Word, stdin: int = subprocess.DEVNULL) -> subprocess.Popen[bytes]:
        """Starts the program, to be asked while it runs. SIGINT ends it even if a shell that runs the tests in the
        background has it ignored."""
        return subprocess.Popen(
            ["env", "--default-signal=INT", self.program, *words],
            cwd=self.folder,
            stdin=stdin,
            stdout=subprocess.PIPE,
            stderr=subprocess.PIPE,
        )


def needs(*programs: str) -> Callable[[Check], Check]:
    """Marks a function whose cases call these programs of Debian's packages."""

    def marked(check: Check) -> Check:
        vars(check)["needs"] = programs
        return check

    return marked


class Group(Cases):
    """Cases over a room of their own."""

    # The tested program, and the folder in which rooms are made, or None for the usual one.
    program = PROGRAM
    place: str | None = None

    def __init__(self, name: str, check: Callable[[Room], Iterator[Outcome]]) -> None:
        function = getattr(check, "func", check)
        super().__init__(name, function.__module__, getattr(function, "needs", ()))
        self.check = check

    def outcomes(self) -> Iterator[Outcome]:
        with tempfile.TemporaryDirectory(prefix="onixdesk-", dir=self.place) as folder:
            yield from self.check(Room(self.program, Path(folder)))
