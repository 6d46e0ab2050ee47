"""The one reader of messages in records (docs/FORMATS.md). It gets only what `onixdesk check` accepts."""

import csv
import io
from collections.abc import Iterator
from dataclasses import dataclass, field
from typing import NamedTuple

BLOCKS, UPDATE, DELETION = ("01", "02", "03"), "04", "05"

ISBN_TYPES = "03", "15"

Records = list[list[str]]


class Header(NamedTuple):
    """The first record of a message; `number` is None without one."""

    sender: tuple[str, str]
    addressee: tuple[str, str]
    number: int | None
    price_type: str
    currency: str


@dataclass
class Product:
    """A product with its records; the first is its own."""

    records: Records
    kinds: set[tuple[str, str]] = field(default_factory=set)

    @property
    def reference(self) -> str:
        return self.records[0][1]

    @property
    def is_deletion(self) -> bool:
        return self.records[0][2] == DELETION

    @property
    def is_block(self) -> bool:
        """Whether it makes its record, or replaces all of it."""
        return self.records[0][2] in BLOCKS

    @property
    def has_supply(self) -> bool:
        return len(self.records) > 1

    @property
    def suppliers(self) -> set[tuple[str, ...]]:
        """By type and identifier, or else by name."""
        details = [record for record in self.records if record[0] == "SupplyDetail"]
        return {tuple(record[2:4]) if record[2] else (record[4],) for record in details}

    @property
    def isbns(self) -> list[str]:
        """The ISBNs by which the desk finds it, each once."""
        pairs = self.records[0][3:]
        found = [value for kind, value in zip(pairs[::2], pairs[1::2]) if kind in ISBN_TYPES]
        return list(dict.fromkeys(value for value in found if len(value) == 13 and value.isascii() and value.isdigit()))


def records_of(given: bytes) -> Iterator[list[str]]:
    text = given.decode("utf-8-sig")
    return (record for record in csv.reader(io.StringIO(text, newline="")) if record)


def header_of(message: bytes) -> Header:
    record = next(records_of(message))
    number = int(record[6]) if record[6] else None
    return Header((record[2], record[3]), (record[4], record[5]), number, record[9], record[10])


def products_of(message: bytes) -> Iterator[Product]:
    """The products of a message, in order, with the header's defaults filled into their prices."""
    header = header_of(message)
    product: Product | None = None
    for record in records_of(message):
        if record[0] == "Product" or is_end(record):
            if product:
                yield product
            product = Product([record])
        elif product:
            if record[0] == "Price":
                record[1], record[3] = record[1] or header.price_type, record[3] or header.currency
                product.kinds.add((record[1], record[3]))
            product.records.append(record)


def is_end(record: list[str]) -> bool:
    return record[0] == "EndMessage"


def is_message(message: bytes) -> bool:
    """Whether well-formed records are one message, and nothing else."""
    names = [record[0] for record in records_of(message)]
    is_one = len(names) > 1 and names[0] == "Message" and names[-1] == "EndMessage"
    return is_one and {*names[1:-1]} <= {"Product", "ProductSupply", "SupplyDetail", "Price"}


def text_of(records: Records) -> str:
    """Writes records as the desk reads them."""
    written = io.StringIO()
    csv.writer(written, lineterminator="\n").writerows(records)
    return written.getvalue()
