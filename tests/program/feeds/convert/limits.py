"""What `onixdesk convert` makes of messages up to the desk's limits of 20,000 records and 4,194,304 bytes, beyond them,
and in parts."""

from collections.abc import Iterator

from tests.program.feeds.convert.case_files import FRAMES, said
from tests.program.feeds.convert.running import FEED, convert
from tests.program.feeds.convert.wanted_runs import DETAIL, ISBN, PRICE, PRODUCT, feed_of, message_of, supplied
from tests.program.feeds.feed_notes import NOTES, PRODUCTS, WRONG, summed
from tests.program.feeds.feed_oracle import EMPTIED, UNPRICED
from tests.program.room import Ran, Room
from tests.running import Outcome

RECORDS = 20_000
BYTES = 4_194_304

# The most products of one record each beside Message and EndMessage.
MOST = RECORDS - 2

FRAME = FRAMES["products"]

# What is said of parts to the person who has to act.
AGREED = (
    "the number of parts is a part of the agreement on the series, and with another one its numbers no"
    " longer follow each other"
)


def references(count: int) -> list[str]:
    return [f"R{number:05}" for number in range(count)]


def records(room: Room) -> Iterator[Outcome]:
    names = references(MOST + 1)
    room.write(FEED, feed_of(*names[:MOST]))
    came = convert(room, FEED)
    yield Outcome("as many records as a message may have", came, Ran(0, message_of(*names[:MOST])))

    room.write(FEED, feed_of(*names))
    came = convert(room, FEED)
    line = MOST + 2
    wanted = f"{FEED}:{line}:1: refused: the message needs 2 parts, not 1; {AGREED}"
    yield Outcome("one record more", came, Ran(1, b"", said([wanted])))
    came = convert(room, "--parts", "2", FEED)
    wanted = message_of(*names[:MOST], number=1) + message_of(names[MOST], number=2)
    yield Outcome("one record more, in two parts", came, Ran(0, wanted))

    names = references(2 * MOST + 1)
    room.write(FEED, feed_of(*names))
    came = convert(room, "--parts", "2", FEED)
    line = 2 * MOST + 2
    wanted = f"{FEED}:{line}:1: refused: the message needs 3 parts, not 2; {AGREED}"
    yield Outcome("more records than two parts may have", came, Ran(1, b"", said([wanted])))


def long_references(size: int) -> list[str]:
    """References of products whose message has that many bytes."""
    count = size // 1_024
    names = [f"R{number:04}".ljust(990, "x") for number in range(count)]
    missing = size - len(message_of(*names))
    last, missing = min(missing, 25), missing - min(missing, 25)
    names[0] += "y" * last
    for number in range(1, count):
        more = min(missing, 25)
        names[number] += "y" * more
        missing -= more
    assert len(message_of(*names)) == size
    return names


def size(room: Room) -> Iterator[Outcome]:
    names = long_references(BYTES)
    room.write(FEED, feed_of(*names))
    came = convert(room, FEED)
    yield Outcome("as many bytes as a message may have", came, Ran(0, message_of(*names)))
    room.write("message.csv", came.output)
    # Without agreements this is the answer to what is a message.
    came = room.run("deliver", "message.csv")
    wanted = Ran(1, b"refused,unknown-series\n")
    yield Outcome("as many bytes as a message may have, delivered", came, wanted)

    names = long_references(BYTES + 1)
    room.write(FEED, feed_of(*names))
    came = convert(room, "--parts", "2", "-o", ".", FEED)
    parts = [room.path(f"feed.part-0{part}.csv").read_bytes() for part in (1, 2)]
    wanted = [message_of(*names[:-1], number=1), message_of(names[-1], number=2)]
    yield Outcome("one byte more, in two parts", (came, parts), (Ran(0), wanted))


def product_of(details: int, prices: int) -> str:
    """A product of 2 records, one for each supply detail, and so many prices of the first."""
    supply = DETAIL.format(PRICE * prices) + DETAIL.format("") * (details - 1)
    return supplied("R1", supply)


def between_others(product: str) -> bytes:
    """A feed of three products; this is the second."""
    return f"{FRAME.before}{PRODUCT.format('R0')}\n{product}\n{PRODUCT.format('R2')}{FRAME.behind}".encode()


def emptied_between_others() -> bytes:
    """The reference of the second stands for its identifiers."""
    return message_of("R0", "R1", "R2").replace(f"Product,R1,03,15,{ISBN}".encode(), b"Product,R1,03,01,R1")


def one_product(room: Room) -> Iterator[Outcome]:
    """A product with as many prices as it may have, and with one more."""
    why = "too large for a message of 20,000 records and 4,194,304 bytes"
    prices = MOST - 3
    whole = (
        f"{FRAME.records}Product,R1,03,15,{ISBN}\nProductSupply,,,\nSupplyDetail,04,,,North,21,\n"
        + "Price,,1,,,,,,\n" * prices
        + "EndMessage,19999\n"
    )
    room.write(FEED, (FRAME.before + product_of(1, prices) + FRAME.behind).encode())
    came = convert(room, FEED)
    yield Outcome("a product of 19,998 records", came, Ran(0, whole.encode()))

    room.write(FEED, between_others(product_of(1, prices + 1)))
    emptied = f"Product emptied: {why}"
    counts = {emptied: 1, EMPTIED: 1, UNPRICED: 1, PRODUCTS: 3, WRONG: 1, NOTES: 1}
    said_of = said([f"{FEED}:2:1: R1: {emptied}", *summed(counts)])
    came = convert(room, FEED)
    yield Outcome("a product of 19,999 records", came, Ran(1, emptied_between_others(), said_of))


def many_identifiers(room: Room) -> Iterator[Outcome]:
    """A product that is too large even without its supplies."""
    pair = (
        f"<ProductIdentifier><ProductIDType>01</ProductIDType><IDValue>{'&quot;' * 1_024}</IDValue></ProductIdentifier>"
    )
    product = PRODUCT.format("R1").replace("</Product>", f"{pair * 2_500}</Product>")
    room.write(FEED, between_others(product))
    came = convert(room, FEED)
    found = came.status, came.output, came.errors.count(b"\n")
    yield Outcome("a product of 2,500 identifiers that are quoted", found, (1, emptied_between_others(), 6))


def large_product(room: Room) -> Iterator[Outcome]:
    """A product of elements of more than 4,194,304 bytes, each 64 beside its text, is refused at once."""
    room.write(FEED, between_others(product_of(MOST - 2, 0)))
    said_of = said([f"{FEED}:2:1: refused: a Header or a Product of more than 4,194,304 bytes"])
    for option in (), ("--wrong", "all"):
        came = convert(room, *option, FEED)
        yield Outcome(f"a product of 19,998 supply details {option}", came, Ran(1, b"", said_of))


def a_whole_product_in_the_next_part(room: Room) -> Iterator[Outcome]:
    """A product that does not fit into the rest of a part begins the next."""
    names = references(MOST - 1)
    feed = feed_of(*names).replace(FRAME.behind.encode(), (product_of(1, 0) + FRAME.behind).encode())
    room.write(FEED, feed)
    came = convert(room, "--parts", "2", FEED)
    second = (
        FRAME.records.replace(",1,", ",2,")
        + f"Product,R1,03,15,{ISBN}\nProductSupply,,,\nSupplyDetail,04,,,North,21,\nEndMessage,4\n"
    )
    wanted = Ran(0, message_of(*names, number=1) + second.encode())
    yield Outcome("a whole product in the next part", came, wanted)
