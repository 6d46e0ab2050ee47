"""A desk with bounded memory, as by LimitDATA of its unit: an answer that needs more is a fault, nothing is lost, and
the next question is answered."""

import json
import resource
from collections.abc import Iterator

from tests.program.databases import batch, gaps
from tests.program.inbox.inboxes import WORDS, of_series
from tests.program.messages import AGREEMENT, priced
from tests.program.room import Ran, Room
from tests.program.serving import Serving, posted, serving
from tests.running import Outcome

ISBN, OTHER_ISBN = "9781234567897", "9780000000002"
TERMS = "country=GB&currency=GBP&type=02"
CALENDAR = f"/articles/{ISBN}/calendar?from=20250301&to=20260228&{TERMS}"
PRICE = f"/articles/{{}}/price?day=20250401&{TERMS}"
CHOICE = f"/articles/{ISBN}/choice?day=20250401&{TERMS}"
CATALOGUE = "/series/north/catalogue"
GAPS = "/series/north/gaps"

MEMORY = '503 {"answer":"fault","reason":"memory"}'

# Together offers of one article whose calendar has some 2.7 MB.
MESSAGES, PRODUCTS = 4, 4_999

# How much more memory the desk may have than at its start.
MORE = 2_000_000

# How many bytes an offer a price and a choice may take, including how their lists grow. A list of all offers takes
# more, as a calendar does.
ANSWERED = 450


def offers(number: int) -> bytes:
    """A message of as many products as fit."""
    lines = [f"Message,1,06,4012345000009,06,5012345678900,{number},1,20250301,02,GBP"]
    for product in range(PRODUCTS):
        lines += [
            f"Product,R{number}-{product},03,15,{ISBN}",
            "ProductSupply,,WORLD,",
            "SupplyDetail,04,06,4012345000009,N,21,",
            "Price,02,12.99,GBP,,WORLD,,,",
        ]
    return "".join(f"{line}\n" for line in [*lines, f"EndMessage,{len(lines)}"]).encode()


def data_of(process: int) -> int:
    """How many bytes of memory of its own a process has, as RLIMIT_DATA counts them."""
    with open(f"/proc/{process}/status", encoding="ascii") as lines:
        return next(int(line.split()[1]) for line in lines if line.startswith("VmData:")) * 1024


def bound(process: int, most: int) -> None:
    _soft, hard = resource.prlimit(process, resource.RLIMIT_DATA)
    resource.prlimit(process, resource.RLIMIT_DATA, (most, hard))


def asked(desk: Serving, request: bytes) -> str:
    """The status of a reply, and its body."""
    head, _, body = desk.reply([request]).decode().partition("\r\n\r\n")
    return f"{head.split(' ')[1]} {body}"


def ask(desk: Serving, target: str) -> str:
    return asked(desk, f"GET {target} HTTP/1.1\r\n\r\n".encode())


def want_of_memory(room: Room) -> Iterator[Outcome]:
    batch(room, AGREEMENT + b"".join(offers(number) for number in range(1, MESSAGES + 1)))
    message = priced(MESSAGES + 1, "S1", "12.99").replace(ISBN.encode(), OTHER_ISBN.encode())
    report = '200 {{"answer":"gaps","first":1,"greatest":{},"held":0,"missing":[],"next":{},"series":"north"}}'
    questions = [CALENDAR, PRICE.format(ISBN), CATALOGUE]
    with serving(room, WORDS, len(questions) + 5) as desk:
        process = desk.process.pid
        bound(process, data_of(process) + MORE)
        for target in questions:
            yield Outcome(f"want of memory: {target}", ask(desk, target), MEMORY)
        yield Outcome("want of memory: the next question", ask(desk, GAPS), report.format(MESSAGES, MESSAGES + 1))
        yield Outcome("want of memory: a message", asked(desk, posted(message)), of_series(MESSAGES + 1, replaced=1))
        wanted = (
            f'200 {{"answer":"price","isbn":"{OTHER_ISBN}","offers":'
            '[{"amount":"12.990","availability":"21","place":1,"reference":"S1","series":"north"}]}'
        )
        yield Outcome("want of memory: a price", ask(desk, PRICE.format(OTHER_ISBN)), wanted)
        bound(process, resource.RLIM_INFINITY)
        status, _, body = ask(desk, CALENDAR).partition(" ")
        found = status, len(json.loads(body)["offers"])
        yield Outcome("memory enough: the calendar", found, ("200", MESSAGES * PRODUCTS))
        yield Outcome("memory enough: the gaps", ask(desk, GAPS), report.format(MESSAGES + 1, MESSAGES + 2))
        lines = ["503"] * len(questions) + ["200"] * 5
        yield Outcome("want of memory: the lines of the desk", desk.ended(), desk.wanted(lines))
    number = MESSAGES + 1
    line = f"gaps,north,first=1,next={number + 1},greatest={number},held=0,missing=0\n"
    yield Outcome("want of memory: nothing is lost", gaps(room), Ran(0, line.encode()))


def offers_that_are_not_held(room: Room) -> Iterator[Outcome]:
    """A price and a choice have no room for the article's offers, and need none."""
    batch(room, AGREEMENT + b"".join(offers(number) for number in range(1, MESSAGES + 1)))
    room.write("rules.toml", b'[[rule]]\nseries = "*"\ncodes = ["21"]\n')
    with serving(room, [*WORDS, "--rules", "rules.toml"], 3) as desk:
        process = desk.process.pid
        bound(process, data_of(process) + ANSWERED * MESSAGES * PRODUCTS)
        wanted = (
            f'200 {{"answer":"choice","choice":{{"amount":"12.990","availability":"21","place":1,"reference":"R1-0",'
            f'"rule":1,"series":"north"}},"isbn":"{ISBN}"}}'
        )
        yield Outcome("offers that are not held: a choice", ask(desk, CHOICE), wanted)
        status, _, body = ask(desk, PRICE.format(ISBN)).partition(" ")
        found = status, len(json.loads(body).get("offers", []))
        yield Outcome("offers that are not held: a price", found, ("200", MESSAGES * PRODUCTS))
        yield Outcome("offers that are not held: a calendar", ask(desk, CALENDAR), MEMORY)
