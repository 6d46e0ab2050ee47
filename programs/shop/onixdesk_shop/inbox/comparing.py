"""What a file would change in the desk's answers: asks the open desk, and one that has nothing but the file's records.
It computes no price."""

from __future__ import annotations

import hashlib
import itertools
from collections import Counter, defaultdict
from collections.abc import Iterator
from dataclasses import dataclass, field
from datetime import date, timedelta
from pathlib import Path
from typing import TYPE_CHECKING, NamedTuple

from onixdesk_shop.desk import answers_in
from onixdesk_shop.faults import DONE, FAILED
from onixdesk_shop.inbox.context import Inbox
from onixdesk_shop.messages import Product, Records, products_of, records_of, text_of

if TYPE_CHECKING:
    from onixdesk_shop.inbox.judging import Feed

# How many references it asks for, and how many of those that the desk has it compares; how many questions it asks about
# all of them together, and how many at once, since others wait meanwhile.
MOST_ASKED, MOST_LOOKED_AT, MOST_QUESTIONS, MOST_KINDS, AT_ONCE = 4_000, 1_000, 12_000, 100, 200

DAYS = 90

# How large the one message of the other desk may be.
MOST_BYTES, MOST_RECORDS = 3 << 20, 19_998

# The spans of a reference's offers: first day, last day, and an amount in thousandths, or None without a price.
Spans = list[tuple[str, str, int | None]]


class Kind(NamedTuple):
    """The country, currency, price type and quantity of a price."""

    country: str
    currency: str
    price_type: str
    quantity: int


@dataclass
class Findings:
    """The references of each finding."""

    looked_at: int = 0
    jumped: list[str] = field(default_factory=list)
    moved: list[str] = field(default_factory=list)
    lost: list[str] = field(default_factory=list)


@dataclass
class Answers:
    """By ISBN and kind, the spans of each series and reference; by ISBN, the record of the choice."""

    offers: dict[tuple[str, Kind], dict[tuple[str, str], Spans]] = field(default_factory=dict)
    choices: dict[str, list[str]] = field(default_factory=dict)


def look_at(inbox: Inbox, feed: Feed) -> tuple[Findings, int] | None:
    """What the file would change, and of how many articles the desk has something; None if it has nothing."""
    products, total = drawn(inbox, feed)
    kinds = kinds_of(inbox, products)
    known = known_of(inbox, products, kinds[0])
    if not known:
        return None
    most = min(MOST_LOOKED_AT, max(1, MOST_QUESTIONS // len(kinds)))
    records = fitting({reference: products[reference] for reference in list(known)[:most]})
    isbns = {reference: known[reference] for reference in records}
    old, new = both_answers(inbox, records, list(dict.fromkeys(isbns.values())), kinds)
    findings = Findings(len(isbns))
    for reference, isbn in isbns.items():
        makes_record = any(product.is_block for product in products[reference])
        key = inbox.series, reference
        spans = [(old.offers[isbn, kind].get(key, []), new.offers[isbn, kind].get(key, [])) for kind in kinds]
        is_unchosen = old.choices[isbn][3:5] == [*key] and new.choices[isbn][2:] == ["none"]
        compare(findings, isbn, spans, makes_record, is_unchosen or products[reference][-1].is_deletion)
    return findings, len(known) * total // len(products)


def products_in(feed: Feed) -> Iterator[Product]:
    """The products that change what the desk finds; an update without supplies does not."""
    for message in feed.messages:
        for product in products_of(message.text):
            if product.has_supply or product.is_block or product.is_deletion:
                yield product


def drawn(inbox: Inbox, feed: Feed) -> tuple[dict[str, list[Product]], int]:
    """The products of some references, first of those that the ledger has, then by digest; and for how many of these they
    stand."""
    lots = {}
    for product in products_in(feed):
        lot = hashlib.sha256(f"{feed.file.digest} {product.reference}".encode()).hexdigest()
        lots[product.reference] = not inbox.ledger.isbns_of(product.reference), lot
    found: dict[str, list[Product]] = {reference: [] for reference in sorted(lots, key=lots.__getitem__)[:MOST_ASKED]}
    for product in products_in(feed):
        if product.reference in found:
            found[product.reference].append(product)
    had = sum(not is_new for is_new, _ in lots.values())
    return found, max(had, len(found)) if had else len(lots)


def fitting(products: dict[str, list[Product]]) -> dict[str, Records]:
    """The records of as many references as fit into a message. Before each stands one without supplies, as if the
    reference had been there."""
    found: dict[str, Records] = {}
    count, size = 0, 0
    for reference, many in products.items():
        empty = ["Product", reference, "03", *many[0].records[0][3:]]
        records = [empty, *(record for product in many for record in product.records)]
        count, size = count + len(records), size + len(text_of(records).encode())
        if found and (count > MOST_RECORDS or size > MOST_BYTES):
            break
        found[reference] = records
    return found


def kinds_of(inbox: Inbox, products: dict[str, list[Product]]) -> list[Kind]:
    """The kinds of prices to compare: the shop's, then those of the file, the most frequent first."""
    shop, found = inbox.shop, Counter[Kind]()
    # And those of the last message with prices: a file that deletes, or is for others now, does not show them.
    query = "SELECT max(number) FROM message WHERE state = 'applied' AND kinds <> '[]' AND text IS NOT NULL"
    number = inbox.ledger.value(query)
    last = products_of(inbox.ledger.text(number)) if number else ()
    for product in itertools.chain(last, *products.values()):
        country = usual = shop.country if shop else "GB"
        for record in product.records:
            if record[0] == "ProductSupply":
                country = (record[1].split() or [usual])[0]
            if record[0] == "Price":
                place = [*record[4].split(), country][0]
                found[Kind(place, record[3], record[1], int("".join(record[9:10]) or 1))] += 1
    of_shop = [Kind(shop.country, shop.currency, shop.price_type, copies) for copies in shop.quantities] if shop else []
    kinds = [*of_shop, *(kind for kind, _ in found.most_common())]
    return list(dict.fromkeys(kinds))[:MOST_KINDS] or [Kind("GB", "GBP", "02", 1)]


def ask(inbox: Inbox, questions: list[str]) -> Iterator[Records]:
    """The answers of the open desk."""
    for start in range(0, len(questions), AT_ONCE):
        yield from answers_in(inbox.desk.batch("\n".join(questions[start : start + AT_ONCE]) + "\n"))


def known_of(inbox: Inbox, products: dict[str, list[Product]], kind: Kind) -> dict[str, str]:
    """The references whose ISBN the desk has from this series, each with its ISBN: the file's, or else the one that the
    ledger has, since a file may delete a record, or replace it, by another identifier."""
    day, where = inbox.machine.today(), f"{kind.country},{kind.currency},{kind.price_type}"
    pairs = [
        (reference, isbn)
        for reference, many in products.items()
        for isbn in dict.fromkeys([*many[0].isbns[:1], *inbox.ledger.isbns_of(reference)[:1]])
    ]
    answers = ask(inbox, [f"AskPrice,{isbn},{day},{where}" for _, isbn in pairs])
    found: dict[str, str] = {}
    for (reference, isbn), answer in zip(pairs, answers, strict=True):
        if any(record[1] == inbox.series for record in answer[1:]):
            found.setdefault(reference, isbn)
    return found


def questions_of(isbns: list[str], kinds: list[Kind], today: str) -> list[str]:
    """Questions for calendars from today on, and for today's choice."""
    last = date(int(today[:4]), int(today[4:6]), int(today[6:])) + timedelta(DAYS)
    found = []
    for isbn in isbns:
        for kind in kinds:
            found.append(f"AskCalendar,{isbn},{today},{last:%Y%m%d},{','.join(map(str, kind))}")
        found.append(f"AskChoice,{isbn},{today},{','.join(map(str, kinds[0]))}")
    return found


def both_answers(
    inbox: Inbox, records: dict[str, Records], isbns: list[str], kinds: list[Kind]
) -> tuple[Answers, Answers]:
    """The answers of the desk, and of one that has the file's records alone."""
    questions = questions_of(isbns, kinds, inbox.machine.today())
    parties = [*inbox.settings.sender, "", ""]
    body = [record for group in records.values() for record in group]
    message = [["Message", "2", *parties, "1", "", "", "", ""], *body, ["EndMessage", str(len(body) + 1)]]
    batch = text_of([["Agree", inbox.series, *parties, "1"], *message]) + "\n".join(questions) + "\n"
    rules: list[str | Path] = ["--rules", inbox.places.rules] if inbox.machine.exists(inbox.places.rules) else []
    left = inbox.until - inbox.machine.now()
    ended = inbox.machine.run([inbox.places.program, *rules, "batch"], (DONE, FAILED), batch.encode(), left)
    made = itertools.islice(answers_in(records_of(ended.output)), 2, None)
    return answers_of(ask(inbox, questions), isbns, kinds), answers_of(made, isbns, kinds)


def answers_of(given: Iterator[Records], isbns: list[str], kinds: list[Kind]) -> Answers:
    found = Answers()
    for isbn in isbns:
        for kind in kinds:
            found.offers[isbn, kind] = offers_in(next(given))
        found.choices[isbn] = next(given)[0]
    return found


def offers_in(answer: Records) -> dict[tuple[str, str], Spans]:
    """The offers in an answer to AskCalendar."""
    found: dict[tuple[str, str], Spans] = defaultdict(list)
    for record in answer[1:]:
        if record[0] == "offer":
            spans = found[record[1], record[2]]
        else:
            spans.append((record[1], record[2], int(record[3].replace(".", "")) if record[3] else None))
    return dict(found)


def compare(findings: Findings, isbn: str, spans: list[tuple[Spans, Spans]], makes_record: bool, is_gone: bool) -> None:
    """Adds the differences of a reference to the findings: its spans before and after the file, of each kind."""
    if not any(before for before, _ in spans):
        if makes_record:
            findings.jumped.append(isbn)
        return
    pairs = [pair for before, after in spans for pair in amounts(before, after)]
    both = [(one, other) for one, other in pairs if one is not None and other is not None]
    if any(other > 2 * one or 2 * other < one for one, other in both):
        findings.jumped.append(isbn)
    if any(5 * abs(one - other) > 2 * one for one, other in both):
        findings.moved.append(isbn)
    if is_gone or any(one is not None and other is None for one, other in pairs):
        findings.lost.append(isbn)


def amounts(old: Spans, new: Spans) -> Iterator[tuple[int | None, int | None]]:
    """The amounts in both in order, the least alone if one has more, for each day on which one of them changes."""
    for day in sorted({first for first, _, _ in [*old, *new]}):
        before, after = on(old, day), on(new, day)
        least = min(before, default=None), min(after, default=None)
        yield from zip(before, after) if len(before) == len(after) else [least]


def on(spans: Spans, day: str) -> list[int]:
    return sorted(amount for first, last, amount in spans if first <= day <= last and amount is not None)
