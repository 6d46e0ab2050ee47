"""A large feed and tables of the shop's terms: 20,000 products in both kinds of names."""

import csv
import io
from collections.abc import Iterator
from fractions import Fraction

from tests.program.feeds.convert.case_files import FRAMES, SUPPLIER, in_short_tags
from tests.program.feeds.convert.running import measured
from tests.program.feeds.convert.wanted_runs import PRODUCT
from tests.program.feeds.feed_net_prices import net_of
from tests.program.room import Room
from tests.running import Outcome

PRODUCTS = 20_000

# A product's records: its own, the supply, the detail, a price and the computed one.
RECORDS_OF_ONE = 5
PARTS = PRODUCTS * RECORDS_OF_ONE // 19_998 + 1

# A thousand codes; each of fifteen terms has so many of them.
CODES, TERMS = 1_000, 15

# How much memory a conversion takes at most.
MOST_MEMORY = 16_000_000


def percent_of(code: int) -> Fraction:
    return Fraction(30 + code % TERMS)


def table() -> bytes:
    terms = []
    for place in range(TERMS):
        codes = [f"02,C{code}" for code in range(CODES) if code % TERMS == place]
        terms.append(f'[[term]]\ntypes = ["02"]\ncodes = {codes}\nnet = "05"\npercent = "{30 + place}"\n')
    return "".join(terms).encode()


def amount_of(number: int) -> str:
    return f"{number % 90 + 1}.{number % 100:02}"


def product(number: int) -> str:
    code = f"<DiscountCodeType>02</DiscountCodeType><DiscountCode>C{number % CODES}</DiscountCode>"
    price = f"<Price><DiscountCoded>{code}</DiscountCoded><PriceAmount>{amount_of(number)}</PriceAmount></Price>"
    supply = f"<ProductSupply><SupplyDetail>{SUPPLIER}{price}</SupplyDetail></ProductSupply>"
    return PRODUCT.format(f"R{number:05}").replace("</Product>", f"{supply}</Product>")


def pieces(is_short: bool) -> Iterator[bytes]:
    """The feed, a hundred products a piece."""
    frame = FRAMES["products"]
    before, behind = frame.before, frame.behind
    yield (in_short_tags(before) if is_short else before).encode()
    for first in range(0, PRODUCTS, 100):
        text = "\n".join(product(number) for number in range(first, first + 100))
        yield (in_short_tags(text) if is_short else text).encode()
    yield (in_short_tags(behind) if is_short else behind).encode()


def wanted_prices() -> list[list[str]]:
    found = []
    for number in range(PRODUCTS):
        net = net_of(amount_of(number), percent_of(number % CODES), Fraction(0))
        found.append(["Price", "", amount_of(number), *[""] * 6])
        found.append(["Price", "05", f"{net // 100}.{net % 100:02}", *[""] * 6])
    return found


def many_products(room: Room) -> Iterator[Outcome]:
    room.write("shop.toml", table())
    wanted = wanted_prices()
    for is_short in False, True:
        name = f"terms: {PRODUCTS} products{' in short tags' * is_short}"
        came = measured(room, pieces(is_short), "--parts", str(PARTS), "--terms", "shop.toml")
        prices = [row for row in csv.reader(io.StringIO(came.ran.output.decode())) if row[0] == "Price"]
        others = next((pair for pair in zip(prices, wanted, strict=False) if pair[0] != pair[1]), None)
        found = came.ran.status, came.ran.errors, len(prices), others
        yield Outcome(name, found, (0, b"", 2 * PRODUCTS, None))
        yield Outcome(f"{name}: its memory", came.memory <= MOST_MEMORY, True)
