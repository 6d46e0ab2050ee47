"""Exchanges over real sockets with one run of `serve` for each group, over a database that a batch prepared.
`exchange_cases` has what is sent and replied."""

from collections.abc import Callable, Iterator
from functools import partial

from tests.program.databases import DATABASE, batch, execute
from tests.program.desk.exchange_cases import (
    AGREEMENTS,
    APPLIED,
    DELIVERY,
    NO_NUMBERS,
    NOT_ALLOWED,
    ONE_NUMBER,
    OPEN_INPUTS,
    RULES,
    exchanges,
    inputs,
    refusal,
)
from tests.program.room import Group, Ran, Room
from tests.program.serving import Exchange, Serving, in_pieces, serving
from tests.running import Outcome

WORDS = ["--db", DATABASE, "--rules", "rules.toml"]


def agreed(room: Room) -> Outcome:
    """Prepares the desk."""
    room.write("rules.toml", RULES)
    answers = b"agreed,north,1\nagreed,south,5\nwaived,south,7\n"
    return Outcome("the agreements", batch(room, AGREEMENTS), Ran(0, answers))


def at_once(exchange: Exchange) -> list[bytes]:
    return [exchange.input]


def byte_by_byte(exchange: Exchange) -> list[bytes]:
    return in_pieces(exchange.input, 1)


# How the input of an exchange is cut into pieces.
Way = Callable[[Exchange], list[bytes]]


def all_replied(exchanges: list[Exchange], ways: list[Way], room: Room) -> Iterator[Outcome]:
    """Each exchange gives the expected reply, however its input comes, and once more."""
    yield agreed(room)
    with serving(room, WORDS, len(exchanges) * len(ways)) as desk:
        for exchange in exchanges:
            came = [desk.reply(way(exchange)) for way in ways]
            yield Outcome(exchange.name, came, [exchange.reply()] * len(ways))
        lines = [exchange.status() for exchange in exchanges for _ in ways]
        yield Outcome("the lines of exchanges", desk.ended(), desk.wanted(lines))


def cut_inputs() -> list[Exchange]:
    """A delivery is cut off after each of its bytes. Nothing is delivered."""
    text = DELIVERY.input
    head = text.index(b"\r\n\r\n") + len(b"\r\n\r\n")
    cut = [
        Exchange(
            f"a delivery cut off behind {given} bytes",
            text[:given],
            "400 Bad Request",
            refusal("bad-head" if given < head else "short-body"),
        )
        for given in range(len(text))
    ]
    return [*cut, NO_NUMBERS]


def most_input(room: Room) -> Iterator[Outcome]:
    """A head and a body at their limits, in many pieces."""
    [exchange] = [each for each in inputs("limits") if each.line.startswith("422")]
    yield agreed(room)
    with serving(room, WORDS, 1) as desk:
        yield Outcome("most input", desk.reply(in_pieces(exchange.input, 1_000)), exchange.reply())
        yield Outcome("the line of most input", desk.ended(), desk.wanted([exchange.status()]))


def whole_replies(room: Room) -> Iterator[Outcome]:
    """These texts are whole, so that the parts of the other replies are known to be right."""
    yield agreed(room)
    with serving(room, WORDS, 2) as desk:
        yield Outcome("a whole reply: applied", desk.reply([DELIVERY.input]), APPLIED)
        came = desk.reply([b"GET /messages HTTP/1.1\r\n\r\n"])
        yield Outcome("a whole reply: not allowed", came, NOT_ALLOWED)
        yield Outcome("the lines of whole replies", desk.ended(), desk.wanted(["200", "405"]))


def in_turn(desk: Serving, exchanges: list[Exchange]) -> Iterator[Outcome]:
    """Each exchange once, one after the other."""
    for exchange in exchanges:
        yield Outcome(exchange.name, desk.reply([exchange.input]), exchange.reply())
    wanted = desk.wanted([exchange.status() for exchange in exchanges])
    yield Outcome("the lines of exchanges in turn", desk.ended(), wanted)


def a_waived_number(room: Room) -> Iterator[Outcome]:
    """A batch waives it, since no request over HTTP does."""
    yield agreed(room)
    before, after = [DELIVERY, *exchanges("before-a-waiver")], [*exchanges("after-a-waiver")]
    with serving(room, WORDS, len(before)) as desk:
        yield from in_turn(desk, before)
    came = batch(room, b"Waive,north,2\nWaive,north,2\n")
    yield Outcome("the waiver", came, Ran(0, b"waived,north,2\nwaived,north,2\n"))
    with serving(room, WORDS, len(after)) as desk:
        yield from in_turn(desk, after)


def a_desk_in_memory(room: Room) -> Iterator[Outcome]:
    """Without a database the desk has no agreements."""
    delivery = DELIVERY._replace(line="422 Unprocessable Content", body=refusal("unknown-series"))
    asked = [delivery, *exchanges("no-agreements")]
    with serving(room, [], len(asked)) as desk:
        yield from in_turn(desk, asked)


def open_inputs(room: Room) -> Iterator[Outcome]:
    """Clients that keep their end open."""
    yield agreed(room)
    with serving(room, WORDS, len(OPEN_INPUTS) + 1) as desk:
        for exchange in [*OPEN_INPUTS, ONE_NUMBER]:
            came = desk.reply([exchange.input], keeps_open=True)
            yield Outcome(f"an open input: {exchange.name}", came, exchange.reply())
        yield Outcome("the lines of open inputs", desk.ended(), desk.wanted(["200", "400", "200"]))


def faults_of_storage(room: Room) -> Iterator[Outcome]:
    """A value that no desk has is a fault of each request that meets it, and serving goes on."""
    yield agreed(room)
    execute(room, "UPDATE series SET next_number = -1")
    fault = '{"answer":"fault","reason":"unusable"}'
    with serving(room, WORDS, 2) as desk:
        for asked in DELIVERY, NO_NUMBERS:
            exchange = asked._replace(line="503 Service Unavailable", body=fault)
            came = desk.reply([exchange.input])
            yield Outcome(f"a fault of storage: {exchange.name}", came, exchange.reply())
        yield Outcome("the lines of faults", desk.ended(), desk.wanted(["503", "503"]))
    execute(room, "UPDATE series SET next_number = first_number")
    with serving(room, WORDS, 1) as desk:
        yield Outcome("after the repair", desk.reply([NO_NUMBERS.input]), NO_NUMBERS.reply())


BOTH_WAYS = [at_once, byte_by_byte]

GROUPS = [
    Group("deliveries and questions", partial(all_replied, [*exchanges("deliveries")], BOTH_WAYS)),
    Group("refused targets", partial(all_replied, [*exchanges("refused-targets")], BOTH_WAYS)),
    Group("whole inputs", partial(all_replied, [*inputs("inputs")], BOTH_WAYS)),
    Group("inputs at the limits", partial(all_replied, [*inputs("limits")], [at_once])),
    Group("cut inputs", partial(all_replied, cut_inputs(), BOTH_WAYS)),
]
