"""Kills programs beside the desk, and runs them again.

    tests/killed [--most N] [--program PROGRAM] [NAME..]
    tests/killed --list

Debian's strace kills (SIGKILL) the inbox, copies and restores at each system call that writes, renames, syncs or sends;
the others are killed with their children at 40 moments of a run. It judges the state that is left, and the one that the
next run makes of it: no taken file is lost or taken as two, no incomplete folder is called a copy, no number is given
twice. --most tries only N calls of each that rename a file, and half as many others, as far apart as possible, or N
moments.

It writes a line with the counts for each program, and one for each wrong state. Status 0; 1 if there is one; 2 if there
is no strace, program or such a NAME.
"""

import argparse
import shutil
import sys
import tempfile
from pathlib import Path

from tests.kills import NAMES, killed
from tests.kills.scenarios import told
from tests.program.room import Room
from tests.running import PROGRAM


def arguments() -> argparse.Namespace:
    parser = argparse.ArgumentParser(
        "tests/killed", description=__doc__, formatter_class=argparse.RawDescriptionHelpFormatter
    )
    parser.add_argument("--most", type=int, metavar="N")
    parser.add_argument("--program", type=Path, default=PROGRAM, help="the built desk; the proved one without it")
    parser.add_argument("--list", action="store_true", help="write the names, and kill nothing")
    parser.add_argument("names", metavar="NAME", nargs="*")
    return parser.parse_args()


def try_one(name: str, program: Path, most: int | None) -> int:
    """Kills a program; returns how many states were wrong."""
    with tempfile.TemporaryDirectory(prefix="onixdesk-") as folder:
        judged = killed(name, Room(program, Path(folder)), most)
    for line in judged.wrong:
        print(f"{name}: {line}", flush=True)
    print(told(name, judged), flush=True)
    return len(judged.wrong)


def main() -> int:
    given = arguments()
    names = given.names or NAMES
    if given.list:
        print("\n".join(NAMES))
        return 0
    why = next((f"there is no {name}; --list tells which there are" for name in names if name not in NAMES), "")
    why = why or ("" if shutil.which("strace") else "no strace is here (apt-get install strace)")
    if why := why or ("" if given.program.exists() else f"no program {given.program}; make build builds it"):
        print(f"tests/killed: {why}", file=sys.stderr)
        return 2
    return 1 if sum(try_one(name, given.program.resolve(), given.most) for name in names) else 0


if __name__ == "__main__":
    sys.exit(main())
