"""Reports sweeps, a line for each, and counts the runs that failed."""

import sys
import tempfile
from pathlib import Path

from tests.memory.sweep import MemoryFault, Sweep, Swept, Tests
from tools.root import ROOT

# How many failed runs of a sweep are shown.
SHOWN = 5

PROGRAM = ROOT / "crates/desk_tests/out/desk_tests_tests"


def is_stale(program: Path) -> bool:
    """Whether a source has changed since the program was built."""
    built = program.stat().st_mtime
    sources = [ROOT / "crates.txt"]
    for crate in (ROOT / "crates").iterdir():
        for folder in ("src", "specs", "proofs"):
            sources += [path for path in (crate / folder).rglob("*") if path.is_file()]
    return any(path.stat().st_mtime > built for path in sources)


def tell(swept: Swept) -> int:
    """Prints a sweep and its first failed runs; returns how many failed."""
    print(swept.line(), flush=True)
    failed = swept.failed()
    for run in failed[:SHOWN]:
        print(f"  request {run.request}: status {run.status}, {run.said.strip()}", flush=True)
    return len(failed)


def report(program: Path, sweeps: list[Sweep]) -> int:
    """Runs sweeps of a test program; returns 1 if a run failed or a test did not begin, else 0."""
    count = failed = 0
    with tempfile.TemporaryDirectory(prefix="onixdesk-") as folder:
        try:
            tests = Tests(program, Path(folder))
            for sweep in sweeps:
                swept = tests.swept(sweep)
                count += len(swept.runs)
                failed += tell(swept)
        except MemoryFault as fault:
            print(f"memory: {fault}", file=sys.stderr)
            return 1
    print(f"memory: {count} requests refused, {failed} runs failed")
    return 1 if failed else 0
