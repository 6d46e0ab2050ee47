"""Runs the tests of the built program, from outside: its words, streams, files and sockets.

    tests/run [-k PATTERN].. [--case TEXT] [--jobs N] [PROGRAM]
    tests/run --list

PROGRAM is by default crates/onixdesk/out/onixdesk, which is rejected if a source has changed since it was built. -k
selects the groups with that text in their names, which --list prints; --case counts only cases with that text. N
processes, by default three for each two processors and at most six, run one group after the other, in folders in memory
if there is enough (tests/program/places.py), or where TMPDIR says. It writes a line for each failed case, in the order
of --list, and at the end `program: N cases, M failed`. It first names each group that it leaves out because a program
is missing. Status 0; 1 if a case failed; 2 if no case ran, there is no such program, or a group is left out and
NOTHING_LEFT_OUT is set.
"""

import compileall
import os
import subprocess
import sys

from tests import needs, processes
from tests.program import groups, places
from tests.program.room import Group
from tests.running import PROGRAM, choice, command_line, tell_all, why_not
from tools.root import ROOT


def is_old() -> bool:
    """Whether a source has changed since the program was built."""
    return subprocess.run([ROOT / "tools/build", "sources"], stdout=subprocess.DEVNULL).returncode != 0


def number_of_processes(text: str) -> int:
    if (number := int(text)) < 1:
        raise ValueError
    return number


def main() -> int:
    parser = command_line("tests/run", __doc__)
    parser.add_argument(
        "--jobs", metavar="N", type=number_of_processes, default=processes.usual(), help="so many at a time"
    )
    given = parser.parse_args()
    # A daemon is not on every user's path.
    os.environ["PATH"] += ":/usr/sbin"
    chosen = choice(given)
    found = [group for group in groups() if chosen.has(group)]
    if given.list:
        print("\n".join(group.id() for group in found))
        return 0
    lacking = {group: reason for group in found if (reason := needs.why(group.needs))}
    for group, reason in lacking.items():
        print(f"left out: {group.id()}, which {reason}", file=sys.stderr)
    if lacking and needs.nothing_may_be_left_out():
        return 2
    found = [group for group in found if group not in lacking]
    Group.program = (given.program or PROGRAM).resolve()
    Group.place = places.usual()
    why = why_not(Group.program)
    if not why and not given.program and is_old():
        why = f"a source has changed since {PROGRAM} was built"
    if why:
        print(f"tests/run: {why}", file=sys.stderr)
        return 2
    # With -B they would compile their modules at each start, a quarter of the time.
    compileall.compile_dir(ROOT / "programs", quiet=2)
    return tell_all("program", processes.tried(found, chosen.case, given.jobs))


if __name__ == "__main__":
    sys.exit(main())
