"""Tests the buyers' page: a real nginx, the real program over a file, and Chromium without a window.

    tests/page/run [-k PATTERN].. [--case TEXT] [PROGRAM]
    tests/page/run --list

It needs Debian's packages nginx, openssl, chromium, chromium-headless-shell, chromium-driver and python3-selenium,
and Debian's own Python. If only the page itself counts, Chromium's shell opens it. PROGRAM is by default
crates/onixdesk/out/onixdesk. -k selects the groups with that text in their names, which --list prints, and those that
they build on; --case counts only cases with that text. It writes a line for each failed case, and at the end
`page: N cases, M failed`; no file of the repository changes. Status 0; 1 if a case failed; 2 if no case ran, or the
program or a package is missing.
"""

import os
import sys

from tests import needs
from tests.running import PROGRAM, choice, command_line, left_out_whole, run_side_by_side, why_not


def main() -> int:
    given = command_line("tests/page/run", __doc__).parse_args()
    os.environ["PATH"] += ":/usr/sbin"
    program = (given.program or PROGRAM).resolve()
    if lacking := needs.why(needs.PAGE):
        return left_out_whole("page", lacking)
    if why := why_not(program, given.list):
        print(f"tests/page/run: {why}", file=sys.stderr)
        return 2
    # It needs Selenium.
    from tests.page.sequences import SEQUENCES, chosen_groups, lanes

    chosen = choice(given)
    found = chosen_groups(SEQUENCES, chosen)
    if given.list:
        print("\n".join(group.id() for groups in found for group in groups))
        return 0
    return run_side_by_side("page", lanes(program, found, chosen.case), most=len(found) or 1)


if __name__ == "__main__":
    sys.exit(main())
