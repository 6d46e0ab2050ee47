"""A run that ends at each of its calls: the next one has what it would have had."""

import os
from collections.abc import Iterator
from contextlib import suppress
from functools import partial

from onixdesk_shop.settings import NEXT
from tests.program.inbox.files import inbox_in
from tests.program.room import Group, Room
from tests.running import Outcome
from tests.shop.fake_machine import FakeMachine, Killed
from tests.shop.fake_program import feed_of
from tests.shop.inboxes import FakeInbox

# Every so many'th call of a run is tried; ONIXDESK_STRIDE=1 tries all.
STRIDE = int(os.environ.get("ONIXDESK_STRIDE", "4"))

FILES = {"b.xml": feed_of(None, {"R1": "1.00"}), "a.xml": feed_of(None, {"R1": "2.00"}), "c.xml": b"<cut"}
STATES = {"b.xml": "applied", "a.xml": "applied", "c.xml": "refused"}


def wrong_with(inbox: FakeInbox) -> str:
    """What two undisturbed runs do not make of what was left."""
    for _ in range(2):
        inbox.run()
    states = {inbox.stored(file): file.state for file in inbox.files()}
    prices = [[record[2] for record in contents if record[0] == "Price"] for contents in inbox.series.had.values()]
    left = os.listdir(inbox.incoming)
    wanted = {FILES[name]: state for name, state in STATES.items()}
    is_right = (states, prices, left) == (wanted, [["1.000"], ["2.000"]], [])
    return "" if is_right else f"{states} {prices} {left}"


def interrupted(kind: str, room: Room) -> Iterator[Outcome]:
    wrong, at = [], 1
    while True:
        inbox = inbox_in(room, f"{kind}{at}", number=NEXT)
        for name, data in FILES.items():
            inbox.send(name, data)
        machine = FakeMachine(inbox.disk, inbox.desk, inbox.clock, (kind, "", at))
        with suppress(Killed, SystemExit, OSError):
            inbox.run(machine)
        if machine.calls < at:
            break
        if found := wrong_with(inbox):
            wrong.append(f"{at}: {found}")
        at += STRIDE
    yield Outcome(f"{kind} at each of the calls", wrong, [])
    yield Outcome("there are some", at > 60, True)


def written_to(room: Room) -> Iterator[Outcome]:
    """A file that somebody writes to amid a run is taken whole, whatever was copied of it before."""
    for step, wanted in ("copied", []), ("rename", ["refused"]):
        inbox = inbox_in(room, step, number=NEXT)
        inbox.send("b.xml", FILES["b.xml"][:-9])
        machine = FakeMachine(inbox.disk, inbox.desk, inbox.clock, ("meanwhile", step, 1))
        machine.meanwhile = partial(inbox.send, "b.xml", FILES["b.xml"], inbox.clock - 1)
        inbox.run(machine)
        yield Outcome(f"before it is {step}", [*inbox.states().values()], wanted)
        # Its old bytes come again before what replaced them is taken.
        inbox.take("a.xml", FILES["b.xml"][:-9])
        inbox.run()
        found = sorted(inbox.states().values()), os.listdir(inbox.incoming)
        yield Outcome(f"{step}, and all is taken", found, (["applied", "refused"], []))


KINDS = "kill", "power", "torn", "error", "signal"
GROUPS = [Group("written to", written_to), *(Group(f"a run, {kind}", partial(interrupted, kind)) for kind in KINDS)]
