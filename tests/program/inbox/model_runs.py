"""The inbox as a state machine (tests/shop/model.py), some runs of it; ONIXDESK_MODEL_SECONDS adds so many seconds of
runs, with other seeds each time. Failures are written to standard error as they are."""

import os
import sys
import time
import unittest
from collections.abc import Iterator

from tests.needs import DEBIAN_PYTHON
from tests.program.room import Room
from tests.running import Outcome

NEEDS = [f"{DEBIAN_PYTHON}/hypothesis"]

EXAMPLES, STEPS = 60, 25


def model(room: Room) -> Iterator[Outcome]:
    # Here, since Hypothesis may be missing.
    from tests.shop.model import case

    yield Outcome("the same runs each time", failures(case(EXAMPLES, STEPS, room.folder, is_same=True)), [])
    end = time.monotonic() + float(os.environ.get("ONIXDESK_MODEL_SECONDS", "0"))
    while time.monotonic() < end:
        if found := failures(case(EXAMPLES, STEPS * 2, room.folder)):
            yield Outcome("others", found, [])
            return


def failures(case: type[unittest.TestCase]) -> list[str]:
    result = unittest.TestResult()
    case("runTest").run(result)
    found = [text for _, text in [*result.failures, *result.errors]]
    print(*found, sep="\n", end="", file=sys.stderr)
    return [text.partition("Falsifying example:")[0].splitlines()[-1] for text in found]
