"""Names what `make test` leaves out, since a program that it needs is missing.

    tests/lacks

It writes a line for each group of tests, and for each command whose groups all need the same. Status 0; 1 if
NOTHING_LEFT_OUT is set and something is missing.
"""

import sys

from tests import needs
from tests.program import groups

COMMANDS = {"tests/page/modules/run": needs.NODE, "tests/page/run": needs.PAGE, "tests/postgres/run": needs.POSTGRES}


def main() -> int:
    wanted = {**{group.id(): group.needs for group in groups()}, **COMMANDS}
    lines = [f"left out: {name}, which {why}" for name, programs in wanted.items() if (why := needs.why(programs))]
    print("".join(f"{line}\n" for line in lines), end="", file=sys.stderr)
    return 1 if lines and needs.nothing_may_be_left_out() else 0


if __name__ == "__main__":
    sys.exit(main())
