"""Refuses one request for memory in each run of the tests of the desks: of messages, waivers, questions, choices with
calendars and exchanges over the desk in memory and over tables; of forty messages that are applied at once, over the
desk in memory and over files with the rows of their tables; and of a migration.

    tests/refused-memory [--longer] [-k TEXT] [PROGRAM]

PROGRAM has the tests of the libraries, by default crates/desk_tests/out/desk_tests_tests, which is rejected if a
source has changed since it was built. --longer adds what takes too long for the gate. -k selects the tests with that
text in their names. The last line is `memory: N requests refused, M runs failed`. Status 0; 1 if a run failed; 2 if
there is no such program or test.
"""

import argparse
import os
import sys
from pathlib import Path

from tests.memory.report import PROGRAM, is_stale, report
from tests.memory.sweep import Sweep

MEMORY = "stores::desks::desk_in_memory"
TABLES = "stores::desks::tables_in_memory"
FILES = "stores::desks::tables_in_files"

# The first runs to the end of its list. The forty messages are applied over tables once, in files.
SWEEPS = [
    Sweep(MEMORY, "steps"),
    Sweep(TABLES, "steps", ends=True),
    Sweep(MEMORY, "questions", ends=True),
    Sweep(TABLES, "questions", ends=True),
    Sweep(MEMORY, "exchanges", ends=True),
    Sweep(TABLES, "exchanges", ends=True),
    Sweep(MEMORY, "drain", ends=True),
    Sweep(FILES, "rows", ends=True),
    Sweep(FILES, "migration", ends=True),
]


# Each run to the end of its list. The longer tests refuse only every so many'th request, so that they end in minutes.
LONGER = [
    Sweep(MEMORY, "questions"),
    Sweep(MEMORY, "exchanges"),
    Sweep(MEMORY, "drain"),
    Sweep(TABLES, "steps", step=3),
    Sweep(TABLES, "questions", step=3),
    Sweep(TABLES, "exchanges", step=7),
    Sweep(TABLES, "drain", step=31),
    Sweep("stores::desks::desk_in_files", "steps", step=499),
    Sweep("stores::desks::desk_in_files", "drain", step=97),
]


def main() -> int:
    parser = argparse.ArgumentParser(description=__doc__, formatter_class=argparse.RawDescriptionHelpFormatter)
    parser.add_argument("--longer", action="store_true", help="try what takes too long for the gate")
    parser.add_argument("-k", metavar="TEXT", default="", dest="text")
    parser.add_argument("program", metavar="PROGRAM", type=Path, nargs="?")
    given = parser.parse_args()
    program = (given.program or PROGRAM).resolve()
    if not os.access(program, os.X_OK):
        print(f"tests/refused-memory: no program {program}; make test builds it", file=sys.stderr)
        return 2
    if not given.program and is_stale(program):
        print(f"tests/refused-memory: a source has changed since {program} was built", file=sys.stderr)
        return 2
    chosen = [sweep for sweep in (LONGER if given.longer else SWEEPS) if given.text in sweep.name()]
    if not chosen:
        print(f"tests/refused-memory: no test has {given.text} in its name", file=sys.stderr)
        return 2
    return report(program, chosen)


if __name__ == "__main__":
    sys.exit(main())
