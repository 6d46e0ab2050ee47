"""What `onixdesk convert` makes of products that the desk would not take as they are: how many it lets through, and
what it says of a FILE with too many."""

from collections.abc import Iterator
from functools import partial

from tests.program.feeds.convert.case_files import FRAMES, said
from tests.program.feeds.convert.running import FEED, convert
from tests.program.feeds.convert.limits import MOST
from tests.program.feeds.convert.wanted_runs import DETAIL, ISBN, PRICE, PRODUCT, supplied
from tests.program.feeds.feed_notes import NOTES, PRODUCTS, WRONG as WRONG_ONES, summed
from tests.program.feeds.feed_oracle import EMPTIED
from tests.program.room import Group, Ran, Room
from tests.running import Outcome

FRAME = FRAMES["products"]


# How many of how many products are wrong, and whether `--wrong few` and `--wrong none` let them through.
COUNTS = [
    (0, 2, True, True),
    (1, 1, True, False),
    (1, 2, True, False),
    (2, 3, False, False),
    (2, 4, True, False),
    (10, 19, False, False),
    (10, 20, True, False),
    (11, 1_099, False, False),
    (11, 1_100, True, False),
    (12, 1_100, False, False),
]

WRONG = PRODUCT.replace("<NotificationType>03</NotificationType>", "")


def few(wrong: int, products: int, few_go: bool, none_go: bool, room: Room) -> Iterator[Outcome]:
    """The wrong ones come last, each on a line of its own."""
    right = products - wrong
    texts = [PRODUCT.format(f"R{number}") for number in range(right)]
    texts += [WRONG.format(f"W{number}") for number in range(wrong)]
    room.write(FEED, "\n".join([FRAME.before, *texts, FRAME.behind]).encode())
    records = FRAME.records + "".join(f"Product,R{number},03,15,{ISBN}\n" for number in range(right))
    records += "".join(f"Product,W{number},03,15,{ISBN}\n" for number in range(wrong))
    records += f"EndMessage,{products + 1}\n"
    why = "Product emptied: NotificationType"
    notes = [f"{FEED}:{right + number + 2}:1: W{number}: {why} missing" for number in range(wrong)]
    counts = {f"{why} ..": wrong, EMPTIED: wrong, PRODUCTS: products, WRONG_ONES: wrong, NOTES: wrong}
    summary = summed(counts) if wrong else []
    written = Ran(1 if wrong else 0, records.encode(), said(notes + summary))
    for word, goes in [("", few_go), ("few", few_go), ("none", none_go), ("all", True)]:
        words = ["--wrong", word] if word else []
        came = convert(room, *words, FEED)
        name = f"convert: {wrong} wrong products of {products}, {' '.join(words)}"
        if goes:
            yield Outcome(name, came, written)
            continue
        lines = came.errors.decode().splitlines(keepends=True)
        head = f"onixdesk: {FEED}:{right + 2}:1: refused: "
        says = lines[-1].startswith(head) and f"{wrong} of {products} products" in lines[-1] and "W0" in lines[-1]
        found = came.status, came.output, "".join(lines[:-1]).encode(), says or lines[-1]
        yield Outcome(name, found, (1, b"", said(notes), True))


# A Price that is left out as foreign, and a wrong one.
FOREIGN_PRICE = "<Price><PriceQualifier>06</PriceQualifier><PriceAmount>1</PriceAmount></Price>"
WRONG_PRICE = "<Price><PriceAmount>1,00</PriceAmount></Price>"


def priced(reference: str, prices: str) -> str:
    return supplied(reference, DETAIL.format(prices))


def before_refusal(products: list[str], room: Room) -> tuple[int, bytes, list[str]]:
    """What becomes of these products, each on a line of its own, if none may be wrong: the status, the output, and of
    each line on standard error the place and what follows it, up to the reason."""
    room.write(FEED, "\n".join([FRAME.before, *products, FRAME.behind]).encode())
    came = convert(room, "--wrong", "none", FEED)
    lines = [line.removeprefix(f"onixdesk: {FEED}:") for line in came.errors.decode().splitlines()]
    refused = ": refused: "
    cut = [f"{line.partition(refused)[0]}: refused" if refused in line else line.rpartition(":")[0] for line in lines]
    return came.status, came.output, cut


def others_notes(room: Room) -> Iterator[Outcome]:
    """Before the refusal come all notes on wrong products, and no others: even if others have the reference of a wrong
    one, or there are more notes than lines."""
    right, namesake = priced("R1", FOREIGN_PRICE), priced("W", FOREIGN_PRICE)
    wrong = priced("W", FOREIGN_PRICE + "\n" + WRONG_PRICE)
    column = wrong.index("<Price>") + 1
    cases = {
        "one behind a right one": [right, wrong],
        "one behind and before one of its name": [namesake, wrong, namesake],
        "one behind one of 1001 notes": [priced("R1", FOREIGN_PRICE * 1001), wrong],
    }
    for name, products in cases.items():
        line = 2 + products.index(wrong)
        said_lines = [f"{line}:{column}: W: Price left out", f"{line + 1}:1: W: Price left out", f"{line}:1: refused"]
        yield Outcome(
            f"convert: the notes before a refusal, of {name}", before_refusal(products, room), (1, b"", said_lines)
        )


def before_parts(room: Room) -> Iterator[Outcome]:
    """If a message has too many wrong products and also needs more parts, the refusal is for the products."""
    large = supplied("R1", DETAIL.format(PRICE * (MOST - 3)))
    texts = [WRONG.format("W1"), large, WRONG.format("W2")]
    room.write(FEED, "\n".join([FRAME.before, *texts, FRAME.behind]).encode())
    cases: list[tuple[list[str], str]] = [([], "2 of 3 products"), (["--wrong", "all"], " 3 parts")]
    for words, what in cases:
        came = convert(room, *words, FEED)
        found = came.status, came.output, what in came.errors.decode().splitlines()[-1]
        yield Outcome(f"convert: wrong products and parts {words}", found, (1, b"", True))


GROUPS = [
    *(
        Group(f"convert: {wrong} wrong products of {products}", partial(few, wrong, products, few_go, none_go))
        for wrong, products, few_go, none_go in COUNTS
    ),
]
