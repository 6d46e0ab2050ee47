"""SupplyDetails of many prices, which might each be compared with each: what comes of them, in limited time."""

from collections.abc import Iterator
from functools import partial
from typing import NamedTuple

from tests.program.feeds.convert.case_files import FRAMES, records_of
from tests.program.feeds.convert.running import measured
from tests.program.feeds.feed_territories import EVERY_COUNTRY, READ_AS
from tests.program.feeds.feed_trees import TERMS
from tests.program.room import Group, Room
from tests.running import Outcome

# Processor time, including the start of the program.
SECONDS = 20

FRAME = FRAMES["prices"]

# So many and one more fit into a field.
COUNTRIES = " ".join(sorted(EVERY_COUNTRY - READ_AS.keys())[:340])

CODED = "<DiscountCoded><DiscountCodeType>02</DiscountCodeType><DiscountCode>A</DiscountCode></DiscountCoded>"
TERM = 'types = ["02"], net = "05", percent = "50"'


def price(amount: str, countries: str = "", minimum: int = 1, more: str = "") -> str:
    territory = f"<Territory><CountriesIncluded>{countries}</CountriesIncluded></Territory>" if countries else ""
    own = f"<PriceAmount>{amount}</PriceAmount><MinimumOrderQuantity>{minimum}</MinimumOrderQuantity>"
    return f"<Price>{own}{territory}{more}</Price>"


def record(amount: str, place: str, minimum: int = 1, own: str = "") -> str:
    return f"Price,{own},{amount},,{place or ',,'},,,{minimum}\n"


class Case(NamedTuple):
    """Prices, the table of terms, and the records of the prices; None if the product is emptied."""

    name: str
    prices: list[str]
    records: list[str]
    table: str = ""


def cases() -> Iterator[Case]:
    world, country = [price("7.99")] * 2_500, [price("9.99", "GB")] * 5_000
    less = [record("7.99", ",WORLD,GB")] * 2_500
    yield Case(
        "5,000 for a country among as many for the world",
        world + country + world,
        less + [record("9.99", "GB,,")] * 5_000 + less,
    )
    each = range(1, 5_001)
    yield Case(
        "5,000 least quantities, for a country and for the world",
        [price("9.99", "GB", at) for at in each] + [price("7.99", "", at) for at in each],
        [record("9.99", "GB,,", at) for at in each] + [record("7.99", ",WORLD,GB", at) for at in each],
    )
    narrow = price("9.99", COUNTRIES)
    yield Case(
        "340 countries beside 3,000 for the world",
        [narrow] + [price("7.99")] * 3_000,
        [record("9.99", f"{COUNTRIES},,")] + [record("7.99", f",WORLD,{COUNTRIES}")] * 3_000,
    )
    yield Case("340 countries beside 9,999 for the world", [narrow] + [price("7.99")] * 9_999, [])
    held = [price("12.00", more=CODED)] * 9_998
    yield Case(
        "9,998 and one that no term fits",
        [*held, price("12.00")],
        [record("12.00", "")] * 9_999,
        f'{{ {TERM}, codes = ["02,A"] }}',
    )
    # The first net price is the feed's for four copies: computed prices for as many or more are held back.
    nets = [at % 4 == 0 for at in range(8_001)]
    yield Case(
        "8,000 least quantities, of which each fourth has a net price",
        [price("12.00", "", at, "<PriceType>05</PriceType>" * nets[at]) for at in range(1, 8_001)],
        [
            record("12.00", "", at, "05" * nets[at]) + (f"Price,05,6.00,,,,,,{f',{at}' * (at > 1)}\n" if at < 4 else "")
            for at in range(1, 8_001)
        ],
        f"{{ {TERM} }}",
    )
    others = f'{{ {TERM}, codes = ["02,B"] }}, ' * 999
    yield Case(
        "1,000 terms, of which the last fits",
        [price("12.00", more=CODED)] * 1_000,
        [record("12.00", "") + "Price,05,6.00,,,,,,\n"] * 1_000,
        f"{others}{{ {TERM} }}",
    )


def check(case: Case, room: Room) -> Iterator[Outcome]:
    room.write(TERMS, f"term = [{case.table}]\n".encode())
    words = ["--wrong", "all", *(["--terms", TERMS] if case.table else [])]
    came = measured(room, iter([f"{FRAME.before}{''.join(case.prices)}{FRAME.behind}".encode()]), *words)
    written = records_of("prices", "".join(case.records))
    emptied = records_of("products", "Product,R1,03,01,R1\n")
    hoped = (0, written.encode()) if case.records else (1, emptied.encode())
    yield Outcome(f"prices: {case.name}", (came.ran.status, came.ran.output), hoped)
    yield Outcome(f"prices: {case.name}, within its time", came.seconds <= SECONDS or came.seconds, True)


GROUPS = [Group(case.name, partial(check, case)) for case in cases()]
