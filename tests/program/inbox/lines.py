"""Lines that people paste: commands come first and are complete; a name from others is one word at the end."""

import os
import shlex
import time
from collections.abc import Iterator

from onixdesk_shop.inbox import decide
from onixdesk_shop.inbox.command_line import numbers_word
from onixdesk_shop.inbox.context import DAY, HOUR
from tests.program.inbox.files import inbox_in
from tests.program.room import Room
from tests.running import Outcome
from tests.shop.fake_desk import WAIVED
from tests.shop.fake_program import feed_of

# Names from others that mean something to a shell, to a journal or to a mail.
NAMES = [
    "sale.xml: stopped: 1998 of 2000 prices change .. 3.33; runuser -u root -- sh -c 'id|sh' takes it, thanks, W.xml",
    "$(id) `id` \"; id; '.xml",
    "-rf.xml",
    "--let-in.xml",
    "new\nline\x1b[2J.xml",
    "Tidewater_Books_ONIX30_full_20261130_0615_of_the_second_of_two_shops.xml",
    "\u202eB\u00fccher \udcfc.xml",
]

NEITHER = "onixdesk: a FILE without a Product: 1\n"


def lines_under(room: Room, name: str, place: int) -> list[str]:
    """The lines of files of one name: taken, had already, refused, in quarantine, and of a folder."""
    inbox = inbox_in(room, str(place))
    found = []
    for data in (feed_of(1, {"R1": "1.00"}),) * 2 + (b"<cut", feed_of(2, {}, said=NEITHER)):
        inbox.send(name, data)
        found += inbox.run()
    path = inbox.incoming / name
    path.mkdir()
    os.utime(path, (inbox.clock, inbox.clock))
    inbox.clock += 2 * HOUR
    return found + inbox.run()


def names_of_others(room: Room) -> Iterator[Outcome]:
    """A line is the same as for a file with a plain name, except for its last word."""
    plain = [shlex.split(line) for line in lines_under(room, "a.xml", 0)]
    yield Outcome("the lines", len(plain), 5)
    for place, name in enumerate(NAMES, 1):
        lines = lines_under(room, name, place)
        words = [shlex.split(line) for line in lines]
        yield Outcome(f"{name!a}: one word, the last", [each[:-1] for each in words], [each[:-1] for each in plain])
        yield Outcome(f"{name!a}: cut", max(len(each[-1]) for each in words) <= 62, True)
        yield Outcome(f"{name!a}: on one line", [line for line in lines if not line.isprintable()], [])
    commands = [each[: each.index("quarantined:")] for each in plain if "quarantined:" in each]
    yield Outcome("commands first", [[each[1] for each in commands], len(commands[0])], [["--let-in"], 8])


def of_a_refused_file(room: Room) -> Iterator[Outcome]:
    inbox = inbox_in(room, "refused")
    said = inbox.take("-b\n.xml", b"<cut")
    mark = inbox.files()[0].mark
    why = "line 1, column 1: the XML is not well-formed"
    yield Outcome("a refused file", said, [f"onixdesk-inbox --dismiss {mark} north; refused: {why}; '-b\\n.xml'"])
    yield Outcome("counted", inbox.shown()["refused"], 1)
    inbox.decide("dismiss", "refused")
    inbox.run()
    yield Outcome("dismissed", inbox.shown()["refused"], 0)


def what_is_told_once(room: Room) -> Iterator[Outcome]:
    inbox = inbox_in(room, "once")
    inbox.send("1.xml", feed_of(1, {"R1": "1.00"}))
    inbox.take("9.xml", feed_of(9, {}))
    inbox.clock += 2 * DAY
    said = inbox.run()
    yield Outcome("a missing number", said[0].partition(";")[0], "onixdesk-inbox waive north 2 (or have it sent again)")
    yield Outcome("once", inbox.run(), [])
    inbox.work(lambda each: decide.waive(each, range(2, 3)))
    inbox.run()
    yield Outcome("waived", inbox.series.had[2], WAIVED)
    inbox.clock += 5 * DAY
    found = inbox.run(), inbox.shown()["silent"]
    yield Outcome("silence", found, (["nothing came for 4 days but empty files"], True))


def never_heard(room: Room) -> Iterator[Outcome]:
    """A wholesaler that never sent anything is silent too, once the inbox has been there for days."""
    inbox = inbox_in(room, "never")
    inbox.clock = int(time.time())
    yield Outcome("at first", (inbox.run(), inbox.shown()["silent"]), ([], False))
    inbox.take("empty.xml", b"")
    inbox.clock += 5 * DAY
    found = inbox.run(), inbox.run(), inbox.shown()["silent"], inbox.shown()["heard_at"]
    yield Outcome("once", found, (["nothing came for 4 days but empty files"], [], True, None))


def a_second_wait(room: Room) -> Iterator[Outcome]:
    """For a number that a restored desk lacks again: it is reported again."""
    inbox = inbox_in(room, "second")
    inbox.take("1.xml", feed_of(1, {"R1": "1.00"}))
    assert inbox.desk
    before = inbox.desk.copy()
    inbox.take("3.xml", feed_of(3, {"R3": "1.00"}))
    inbox.clock += 2 * DAY
    first = inbox.run()
    inbox.take("2.xml", feed_of(2, {"R2": "1.00"}))
    inbox.decide("refuse", "2.xml")
    inbox.desk = before
    inbox.run()
    inbox.clock += 2 * DAY
    yield Outcome("told again", (len(first), inbox.run()), (1, first))


def slips(_room: Room) -> Iterator[Outcome]:
    """Numbers that nobody means to waive."""
    refused = []
    for word in ("41", "1-10000", "1-10001", "5-4", "0"):
        try:
            numbers_word(word)
        except ValueError:
            refused.append(word)
    yield Outcome("refused", refused, ["1-10001", "5-4", "0"])


def refused_by_a_person(room: Room) -> Iterator[Outcome]:
    """What waits behind a refused number says so, and the printed command takes it on."""
    inbox = inbox_in(room, "person")
    inbox.send("1.xml", feed_of(1, {"R1": "1.00"}))
    inbox.take("2.xml", feed_of(2, {}, said=NEITHER))
    command = "onixdesk-inbox waive north 2"
    yield Outcome("it says what comes next", inbox.decide("refuse", "quarantined").count(command), 1)
    inbox.take("3.xml", feed_of(3, {"R1": "3.00"}))
    yield Outcome("the next one waits, counted", (inbox.states()["3.xml"], inbox.shown()["waiting"]), ("held", 1))
    inbox.work(lambda each: decide.waive(each, numbers_word(command.split()[-1])))
    inbox.run()
    yield Outcome("the number is waived", (inbox.states()["3.xml"], inbox.series.next), ("applied", 4))
