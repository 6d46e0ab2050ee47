"""The catalogue of a series in a desk's tables, as the messages that make it."""

import itertools
import sqlite3
from collections.abc import Iterable, Iterator
from datetime import date
from typing import Any

from onixdesk_shop.batches import MOST_BYTES
from onixdesk_shop.faults import Failed
from onixdesk_shop.lines import token
from onixdesk_shop.messages import text_of

# The NotificationType that replaces a whole record.
CONFIRMED = "03"

# The limits of a message with its first and last record, and the room for these two.
MOST_RECORDS = 20_000
ROOM = 8_192

# Days are counted from here.
EPOCH = date(1970, 1, 1).toordinal()

REFERENCES = "SELECT reference FROM record WHERE series = ? ORDER BY reference"
ARTICLES = "SELECT id_type, id_value FROM article WHERE series = ? AND reference = ? ORDER BY id_place"
OFFERS = """\
SELECT place, supply, included, world, excluded, role, supplier_type, supplier_value, supplier_name, availability,
    unpriced
FROM offer WHERE series = ? AND reference = ? ORDER BY place"""
PRICES = """\
SELECT place, price_type, amount, currency, included, world, excluded, from_day, until_day, coalesce(minimum, 1)
FROM price LEFT JOIN price_minimum USING (series, reference, place, price_place)
WHERE series = ? AND reference = ? ORDER BY place, price_place"""


def territory(included: str, world: int, excluded: str) -> list[str]:
    return [included, "WORLD" if world else "", excluded]


def day(number: int | None) -> str:
    return "" if number is None else date.fromordinal(EPOCH + number).isoformat().replace("-", "")


def prices_by_offer(rows: Iterable[tuple[Any, ...]]) -> dict[int, list[list[str]]]:
    found: dict[int, list[list[str]]] = {}
    for place, kind, amount, currency, *where, first, last, minimum in rows:
        whole = f"{amount // 1000}.{amount % 1000:03}"
        quantity = [str(minimum)] if minimum > 1 else []
        row = ["Price", kind, whole, currency, *territory(*where), day(first), day(last), *quantity]
        found.setdefault(place, []).append(row)
    return found


def product(database: sqlite3.Connection, *record: str) -> list[list[str]]:
    """The records of the product that makes a record, of a series and reference, as it is."""
    articles, offers, prices = (database.execute(query, record) for query in (ARTICLES, OFFERS, PRICES))
    rows = [["Product", record[1], CONFIRMED, *itertools.chain.from_iterable(articles)]]
    of_offers, before = prices_by_offer(prices), None
    for place, supply, included, world, excluded, *detail in offers:
        if supply != before:
            rows.append(["ProductSupply", *territory(included, world, excluded)])
            before = supply
        rows += [["SupplyDetail", *detail], *of_offers.get(place, [])]
    return rows


def contents_in(database: sqlite3.Connection, series: str) -> Iterator[str]:
    """A catalogue as the contents of as few messages as possible, at least one; Failed if a record fits into none."""
    pieces, count, size = [""], 0, 0
    for (reference,) in database.execute(REFERENCES, [series]):
        rows = product(database, series, reference)
        text = text_of(rows)
        length = len(text.encode())
        if len(rows) > MOST_RECORDS - 2 or length > MOST_BYTES - ROOM:
            raise Failed(f"{series}: no message accepts its record {token(reference)}; the desk is left as it is")
        if count + len(rows) > MOST_RECORDS - 2 or size + length > MOST_BYTES - ROOM:
            yield "".join(pieces)
            pieces, count, size = [], 0, 0
        pieces.append(text)
        count, size = count + len(rows), size + length
    yield "".join(pieces)
