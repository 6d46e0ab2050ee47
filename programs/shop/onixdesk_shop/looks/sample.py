"""A sample of a feed, converted as an inbox would, and counted."""

import itertools
import json
import re
from collections import Counter
from dataclasses import dataclass, field
from pathlib import Path

from onixdesk_shop.batches import cut_into_batches, send
from onixdesk_shop.desk import answers_in
from onixdesk_shop.desk_files import DeskFile
from onixdesk_shop.faults import BadEnd
from onixdesk_shop.feeds import Refusal, Said, convert, read_by
from onixdesk_shop.machine import Machine
from onixdesk_shop.messages import Header, header_of, products_of

# The converter's refusals, and the option that avoids each.
NUMBER, WRONG = "NUMBER=next gives one", "--wrong all in WORDS"
PARTS = re.compile(r"the message needs ([0-9]+) parts")

# A code, its scheme, and the type of the prices that have it.
Code = tuple[str, str, str]


@dataclass
class Sample:
    """The messages, what the converter said, and why it needed which more options; counts of products by
    NotificationType, prices by type and currency, suppliers by SupplyDetails, and discount codes by prices."""

    messages: list[bytes]
    said: Said
    words: dict[str, str]
    remarks: list[str]
    types: Counter[str] = field(default_factory=Counter)
    prices: Counter[tuple[str, str]] = field(default_factory=Counter)
    suppliers: Counter[str] = field(default_factory=Counter)
    codes: dict[Code, int] = field(default_factory=dict)
    isbns: dict[str, None] = field(default_factory=dict)

    @property
    def header(self) -> Header:
        return header_of(self.messages[0])

    @property
    def parts(self) -> int:
        return int(self.words.get("--parts", 1))

    @property
    def number(self) -> int | None:
        """The feed's number, by that of its first part; None if it has none."""
        return None if "--number" in self.words else ((self.header.number or 1) - 1) // self.parts + 1

    def count(self) -> None:
        for product in itertools.chain.from_iterable(map(products_of, self.messages)):
            self.types[product.records[0][2]] += 1
            self.prices.update((record[1], record[3]) for record in product.records if record[0] == "Price")
            self.suppliers.update(supplier_in(record) for record in product.records if record[0] == "SupplyDetail")
            self.isbns.update(dict.fromkeys(product.isbns))

    def read_facts(self, machine: Machine, file: Path) -> None:
        """Counts what the records do not have."""
        try:
            found = json.loads(read_by(machine, "feed_facts", file))
            self.codes = {(kind, code, scheme): number for (kind, code, scheme), number in found}
        except BadEnd as end:
            self.remarks.append(f"discount codes are not known: {end}")


def supplier_in(supply: list[str]) -> str:
    """The supplier of a SupplyDetail: identifier, name and role."""
    return " ".join(filter(None, [",".join(supply[2:4]).strip(","), supply[4], f"(SupplierRole {supply[1]})"]))


def converted(
    machine: Machine, program: Path, file: Path, words: tuple[str, ...], terms: bytes | None, work: Path
) -> Sample:
    """Converts a feed with all its products, as number 1 if it has none, in as many parts as it needs. Raises Refusal
    if that fails."""
    more: dict[str, str] = {}
    remarks: list[str] = []
    while True:
        try:
            messages, said = convert(machine, program, file, [*words, *itertools.chain(*more.items())], terms, work)
        except Refusal as refusal:
            word = word_for(str(refusal))
            if not word or word.items() <= more.items():
                raise
            more |= word
            remarks.append(str(refusal))
        else:
            return Sample(messages, said, more, remarks)


def word_for(refusal: str) -> dict[str, str]:
    """The option that avoids this refusal."""
    if needed := PARTS.search(refusal):
        return {"--parts": needed[1]}
    return {"--number": "1"} if NUMBER in refusal else {"--wrong": "all"} if WRONG in refusal else {}


def agreement(series: str, header: Header, first: int) -> str:
    """The record that agrees on a series with that sender and addressee."""
    return f"Agree,{series},{','.join(header.sender)},{','.join(header.addressee)},{first}"


def count_priced(desk: DeskFile, sample: Sample, question: str) -> int:
    """For how many articles a desk over these files gives a price, once it took the messages."""
    agreed = f"{agreement('sample', sample.header, sample.header.number or 1)}\n".encode()
    lines = (line for message in sample.messages for line in message.splitlines(keepends=True))
    send(desk, itertools.chain([agreed], lines))
    count = 0
    for batch in cut_into_batches(f"AskPrice,{isbn},{question}\n".encode() for isbn in sample.isbns):
        for answer in answers_in(desk.batch(batch.decode())):
            count += any(offer[5] for offer in answer[1:])
    return count
