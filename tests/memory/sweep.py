"""Runs a test of the libraries with one request for memory refused, for each request in turn.

Each such run has to pass, which says that a call answered that memory ran out and did nothing, or answered
as always, and that no other call answered so; or to end by the words of a test that was refused memory
itself, or whose disk in memory could not grow. No fault has these words."""

import os
import resource
import subprocess
import tempfile
from collections.abc import Collection
from concurrent.futures import ThreadPoolExecutor
from pathlib import Path
from typing import IO, NamedTuple

from tests.preloaded import NoCompiler, build

SOURCE = Path(__file__).resolve().parent / "refuse.c"

# The words of a test that was itself refused memory.
ENDED = ["refused to the test itself", "a disk in memory that could not grow"]

# The greatest number of seconds of one process.
SECONDS = 3600


class MemoryFault(Exception):
    """Why a test could not be run."""


class Sweep(NamedTuple):
    """A test, the name of its cases, which of its requests for memory are refused, the first one and each so many from
    there, and whether a run ends behind the case in which a call lacked memory, or goes on."""

    test: str
    cases: str
    first: int = 1
    step: int = 1
    ends: bool = False

    def name(self) -> str:
        return f"{self.test}, {self.cases}"

    def parts(self, count: int) -> list["Sweep"]:
        """So many sweeps that together refuse the same requests."""
        return [self._replace(first=self.first + part * self.step, step=self.step * count) for part in range(count)]


class Run(NamedTuple):
    """How the run ended in which this request was refused, and what it said then."""

    request: int
    status: int
    said: str

    def is_ended(self) -> bool:
        """Whether the test itself lacked memory."""
        return self.status != 0 and any(words in self.said for words in ENDED)

    def is_failed(self) -> bool:
        return self.status != 0 and not self.is_ended()


class Swept(NamedTuple):
    """The runs of a sweep."""

    sweep: Sweep
    runs: list[Run]

    def failed(self) -> list[Run]:
        return [run for run in self.runs if run.is_failed()]

    def line(self) -> str:
        ended = sum(run.is_ended() for run in self.runs)
        last = max(run.request for run in self.runs)
        return f"{self.sweep.name()}: {len(self.runs)} requests refused in turn, of {last}; in {ended} runs the test itself ended by it"


class Tests:
    """The program of tests, and the library that refuses memory, built in that folder."""

    def __init__(self, program: Path, folder: Path) -> None:
        self.program = program
        self.folder = folder
        self.library = folder / "refuse.so"
        try:
            build(SOURCE, self.library)
        except NoCompiler as none:
            raise MemoryFault(str(none)) from None
        # A failing test would leave a core file.
        resource.setrlimit(resource.RLIMIT_CORE, (0, 0))

    def process(
        self, sweep: Sweep, environment: dict[str, str], said: IO[bytes], passed: Collection[int] = ()
    ) -> bytes:
        """What the test writes on standard error, the file `said`, in this environment, if it passes."""
        status = subprocess.run(
            [self.program, sweep.test],
            env={"CASES": sweep.cases, **environment},
            stdin=subprocess.DEVNULL,
            stdout=subprocess.DEVNULL,
            stderr=said,
            timeout=SECONDS,
            pass_fds=passed,
        ).returncode
        text = contents(said)
        if status:
            words = text.decode(errors="replace")
            raise MemoryFault(f"{sweep.name()}: status {status} where no memory was refused, {words}")
        return text

    def file(self) -> IO[bytes]:
        return tempfile.TemporaryFile(dir=self.folder)

    def run(self, sweep: Sweep) -> list[Run]:
        """The runs of a sweep, in copies of one process that is never refused memory itself."""
        with self.file() as told, self.file() as said:
            environment = {
                "LD_PRELOAD": str(self.library),
                "REFUSED": "case" if sweep.ends else "list",
                "START": str(sweep.first),
                "STEP": str(sweep.step),
                "TOLD": str(told.fileno()),
            }
            texts = self.process(sweep, environment, said, [told.fileno()])
            return [run_of(line, texts) for line in contents(told).splitlines()]

    def swept(self, sweep: Sweep) -> Swept:
        """A sweep in as many processes as there are processors, after one without a refusal."""
        with self.file() as said:
            self.process(sweep, {}, said)
        count = os.cpu_count() or 1
        with ThreadPoolExecutor(count) as pool:
            runs = [run for part in pool.map(self.run, sweep.parts(count)) for run in part]
        if not runs:
            raise MemoryFault(f"{sweep.name()}: no request was refused")
        return Swept(sweep, sorted(runs))


def contents(file: IO[bytes]) -> bytes:
    file.seek(0)
    return file.read()


def run_of(line: bytes, texts: bytes) -> Run:
    request, status, start, end = map(int, line.split())
    return Run(request, status, texts[start:end].decode(errors="replace"))
