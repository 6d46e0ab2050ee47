"""The words, files and statuses of `onixdesk convert`."""

import gzip
import re
from collections.abc import Iterator
from functools import partial

from tests.program.feeds.convert import argument_grammar, wanted_runs
from tests.program.feeds.convert.case_files import FRAMES, in_short_tags, records_of
from tests.program.feeds.convert.running import FEED
from tests.program.feeds.convert.wanted_runs import (
    DETAIL,
    FRAME,
    ISBN,
    ONE,
    PRICE,
    TWO,
    Case,
    message_of,
    supplied,
)
from tests.program.feeds.convert.argument_grammar import HEADER, SENDER
from tests.program.room import Group, Ran, Room
from tests.running import Outcome

NAMES = {"a.xml": "a", "b.c.onix": "b.c", "d": "d", "j.gz.xml": "j.gz"}

# Two products that together have more records than a message may have.
PRICES = 10_000
PRODUCTS = [supplied(reference, DETAIL.format(PRICE * PRICES)) for reference in ("R1", "R2")]
LARGE = in_short_tags("\n".join([FRAME.before, *PRODUCTS, FRAME.behind])).encode()


def large_part(number: int, *references: str) -> bytes:
    """The message of that part, with these of the two products."""
    begin = FRAME.records.replace(",1,", f",{number},")
    supply = "ProductSupply,,,\nSupplyDetail,04,,,North,21,\n" + "Price,,1,,,,,,\n" * PRICES
    records = begin + "".join(f"Product,{each},03,15,{ISBN}\n{supply}" for each in references)
    return f"{records}EndMessage,{records.count(chr(10))}\n".encode()


# A feed of a Price, the shop's terms, and the message that both give.
PRICED = "".join(FRAMES["price"][:2]).encode()
TERMS = b'[[term]]\ntypes = ["02"]\nnet = "05"\npercent = "42.5"\n'
PAID = records_of("price", "Price,,12.99,,,,,,\nPrice,05,7.47,,,,,,\n").encode()

LARGE_PARTS = {1: large_part(1, "R1"), 2: large_part(2, "R2"), 3: large_part(3)}

CASES = [
    *wanted_runs.CASES,
    Case(
        "names of files",
        {name: ONE for name in NAMES},
        ["-o", ".", *NAMES],
        Ran(0),
        {f"{name}.csv": message_of("R1") for name in NAMES.values()},
    ),
    Case(
        "a message that needs more parts",
        {FEED: LARGE},
        ["-o", ".", FEED],
        Ran(1, b"", b"onixdesk: feed.xml:3:1: refused\n"),
    ),
    Case(
        "a message that needs two parts and has three",
        {FEED: LARGE},
        ["--parts", "3", "-o", ".", FEED],
        Ran(0),
        {f"feed.part-0{part}.csv": records for part, records in LARGE_PARTS.items()},
    ),
    Case(
        "a packed file by standard input", {}, [], Ran(1, b"", b"onixdesk: -:1:1: refused\n"), given=gzip.compress(ONE)
    ),
    Case("terms in a file of the name -", {"-": TERMS, FEED: PRICED}, ["--terms", "-", FEED], Ran(0, PAID)),
    Case(
        "terms in a file of the name -, a feed by standard input",
        {"-": TERMS},
        ["--terms", "-"],
        Ran(0, PAID),
        given=PRICED,
    ),
    Case(
        "terms are no standard input",
        {FEED: PRICED},
        ["--terms", "-", "-o", ".", FEED],
        Ran(2, b"", b"onixdesk: file: -\n"),
        given=TERMS,
    ),
    Case(
        "terms that cannot be read, before a file that is not there",
        {},
        ["--terms", "absent.toml", "-o", ".", FEED],
        Ran(2, b"", b"onixdesk: file: absent.toml\n"),
    ),
    Case(
        "a bad command line goes before terms that cannot be read",
        {FEED: PRICED},
        ["--terms", "absent.toml", "--parts", "0", "-o", ".", FEED],
        Ran(2),
    ),
    Case("a file of nothing", {FEED: b""}, ["-o", ".", FEED], Ran(1, b"", b"onixdesk: feed.xml:1:1: refused\n")),
]

# How a line begins: with a FILE, and perhaps a place and that it is refused.
HEAD = re.compile(r"onixdesk: ([^ :]+)((?::[0-9]+:[0-9]+)?)(: refused\b)?")


def heads(errors: bytes) -> list[tuple[str, ...]]:
    """The lines about files, without reasons; not the summary."""
    found = map(HEAD.match, errors.decode().splitlines())
    return [each.groups("") for each in found if each]


def check(case: Case, room: Room) -> Iterator[Outcome]:
    for name, data in case.files.items():
        room.write(name, data)
    came = room.run("convert", *case.words, given=case.given)
    left = {path.name: path.read_bytes() for path in room.folder.iterdir()}
    found = came.status, came.output, heads(came.errors), left
    wanted = case.wanted.status, case.wanted.output, heads(case.wanted.errors), case.files | case.made
    yield Outcome(f"convert: {case.name}", found, wanted)


def bad_words(room: Room) -> Iterator[Outcome]:
    feed = argument_grammar.feed_of(HEADER.format(SENDER))
    files = {"a.xml": ONE, "b.xml": TWO, FEED: feed, "shop.toml": b""}
    for name, data in files.items():
        room.write(name, data)
    for words in argument_grammar.bad():
        came = room.run("convert", *words, *([] if b"a.xml" in words or words == [b"-o"] else [FEED]))
        yield Outcome(f"convert {words}", (came.status, came.output, came.errors != b""), (2, b"", True))
    left = {path.name: path.read_bytes() for path in room.folder.iterdir()}
    yield Outcome("convert: nothing is written on bad words", left, files)


def good_words(room: Room) -> Iterator[Outcome]:
    header = HEADER.format("<Sender><SenderName>North</SenderName></Sender>")
    room.write(FEED, argument_grammar.feed_of(f"{header}<NoProduct/>"))
    for words, sender, number in argument_grammar.GOOD:
        came = room.run("convert", *words, FEED)
        records = f"Message,2,{sender},,,{number},,,,\nEndMessage,1\n"
        yield Outcome(f"convert {words}", came, Ran(0, records.encode()))


def streams(room: Room) -> Iterator[Outcome]:
    """An output that takes nothing, and an input that cannot be read."""
    room.write(FEED, ONE)
    came = room.run("convert", FEED, is_full=True)
    yield Outcome("convert: an output that takes nothing", (came.status, came.errors != b""), (3, True))
    came = room.run("convert", given=None)
    yield Outcome("convert: an input that cannot be read", (came.status, came.output), (3, b""))


GROUPS = [Group(f"convert: {case.name}", partial(check, case)) for case in CASES]
