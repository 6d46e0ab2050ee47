"""Tests bin/desk-follow: tables of a desk in PostgreSQL, and the desk's questions as functions there.

    tests/postgres/run [-k PATTERN].. [--case TEXT] [PROGRAM]
    tests/postgres/run --list

It makes a cluster in a folder of its own, with only a socket there, and removes it at the end; root runs it as the user
postgres. It needs Debian's packages postgresql-15 and python3-psycopg2, and Debian's own Python. PROGRAM is by default
crates/onixdesk/out/onixdesk. -k selects the groups with that text in their names, which --list prints; --case counts
only cases with that text. It writes a line for each failed case, and at the end `postgres: N cases, M failed`. If a
package is missing, it says so and tries nothing. Status 0; 1 if a case failed; 2 if no case ran, if the program is
missing, or if a package is missing and NOTHING_LEFT_OUT is set.
"""

import sys
from collections.abc import Callable
from functools import partial
from pathlib import Path

from tests import needs
from tests.running import PROGRAM, Counted, choice, command_line, count_all, left_out_whole, run_side_by_side, why_not

PROGRAMS = Path("/usr/lib/postgresql/15/bin")
AT_ONCE = 4


def main() -> int:
    given = command_line("tests/postgres/run", __doc__).parse_args()
    program = (given.program or PROGRAM).resolve()
    if lacking := needs.why(needs.POSTGRES):
        return left_out_whole("postgres", lacking)
    if why := why_not(program, given.list):
        print(f"tests/postgres/run: {why}", file=sys.stderr)
        return 2
    # They need psycopg2.
    from tests.postgres.cluster import started
    from tests.postgres.groups import OverCluster, groups

    chosen = choice(given)
    found = [group for group in groups() if chosen.has(group)]
    if given.list:
        print("\n".join(group.id() for group in found))
        return 0
    OverCluster.program = program
    with started(PROGRAMS) as OverCluster.cluster:
        lanes: list[Callable[[], Counted]] = [partial(count_all, [group], chosen.case) for group in found]
        return run_side_by_side("postgres", lanes, most=AT_ONCE)


if __name__ == "__main__":
    sys.exit(main())
