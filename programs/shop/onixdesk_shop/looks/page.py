"""What onixdesk-look says of a sample: its contents, what follows from them, and what to paste."""

import json
import re
import shlex
from collections.abc import Iterable, Iterator, Mapping
from functools import partial

from onixdesk_shop.lines import count, cut
from onixdesk_shop.looks.sample import Code, Sample, agreement
from onixdesk_shop.messages import UPDATE

# A feed may grow, but its number of parts is agreed once.
TIMES, ALMOST_FULL = 4, 1_048_576

# How many rows of a section are shown.
MOST_ROWS = 20

# A number that is a date makes a gap on each day without a feed.
is_date = re.compile(r"(?:20)?[0-9]{2}(?:0[1-9]|1[0-2])(?:0[1-9]|[12][0-9]|3[01])").fullmatch

# The types of prices that readers pay.
is_retail = re.compile("[0-4][1-4]").fullmatch

# A text as TOML has it.
in_toml = partial(json.dumps, ensure_ascii=False)

TERM = """\
[[term]]
types = ["{kind}"]
codes = [{code}]
{scheme}net = "{net}"
percent = ""  # the discount that is agreed, as 42.5
"""


def counted(rows: Mapping[str, int]) -> Iterator[str]:
    """The greatest counts first."""
    ordered = sorted(rows.items(), key=lambda row: (-row[1], row[0]))
    yield from (f"{number:>7}  {cut(words)}" for words, number in ordered[:MOST_ROWS])
    if len(ordered) > MOST_ROWS:
        yield f"         and {len(ordered) - MOST_ROWS} more"


def section_of(title: str, lines: Iterable[str]) -> Iterator[str]:
    """Writes nothing if there are no lines."""
    found = [*lines]
    yield from [f"\n{title}", *(f"  {line}" for line in found)] if found else []


def of_feed(sample: Sample) -> Iterator[str]:
    """The contents."""
    header = sample.header
    yield f"sender: {','.join(header.sender)}"
    yield f"addressee: {','.join(header.addressee).strip(',') or 'none'}"
    yield f"number: {sample.number or 'none'}; messages: {len(sample.messages)}"
    yield from section_of("Products by NotificationType", counted(sample.types))
    yield from section_of("Suppliers by SupplyDetails", counted(sample.suppliers))
    prices = {" ".join(kind): number for kind, number in sample.prices.items()}
    yield from section_of("Prices by type and currency", counted(prices))
    yield from section_of("Discount codes by prices", counted({in_words(code): n for code, n in sample.codes.items()}))
    yield from section_of("What the converter says", counted(sample.said.reasons))


def in_words(code: Code) -> str:
    kind, words, scheme = code
    return f"{words}{f' of {scheme}' if scheme else ''}, of prices of type {kind or 'none'}"


def remarks(sample: Sample, net: str) -> Iterator[str]:
    """What follows, for a shop that pays prices of the type `net`."""
    yield from sample.remarks
    if updates := sample.types[UPDATE]:
        yield f"{count(updates, 'update')} of products: ask for a full feed first, since a desk drops those it has not"
    if len(sample.suppliers) > 1 and not sample.said.count("SupplyDetail of another supplier"):
        yield "several suppliers: where they are other firms, ask for the sender's own offers (--supplier TYPE,VALUE in WORDS)"
    if sample.number and is_date(str(sample.number)):
        yield "its number is a date, so that a gap does not show: NUMBER=next"
    if needs_terms(sample, net):
        yield f"no price of type {net}, and what readers pay says nothing of what the shop pays: write terms (TERMS)"


def needs_terms(sample: Sample, net: str) -> bool:
    kinds = {kind for kind, _ in sample.prices}
    return net not in kinds and any(map(is_retail, kinds))


def terms_to_paste(sample: Sample, net: str) -> str:
    """A table with a term for each discount code, those with a scheme first, since the first term that fits counts. The
    converter takes it once each percent is filled in."""
    found = []
    for kind, code, scheme in sorted(sample.codes, key=lambda code: not code[2]):
        if is_retail(kind):
            line = f"scheme = {in_toml(scheme)}\n" if scheme else ""
            found.append(TERM.format(kind=kind, code=in_toml(code), scheme=line, net=net))
    return "".join(found)


def lines_to_paste(name: str, sample: Sample, words: tuple[str, ...]) -> list[str]:
    """The agreement, and the settings of the inbox."""
    is_small = sample.parts == 1 and all(len(message) < ALMOST_FULL for message in sample.messages)
    parts = 1 if is_small or "--parts" in words else TIMES * sample.parts
    number = 0 if sample.number is None or is_date(str(sample.number)) else sample.number
    stem = re.sub("[^a-z0-9]+", "-", name.lower().partition(".")[0])
    series = stem.strip("-0123456789")[:32].strip("-") or "wholesaler"
    more = () if parts == 1 else ("--parts", str(parts))
    return [
        agreement(series, sample.header, (number - 1) * parts + 1 if number else 1),
        f"SENDER={','.join(sample.header.sender)}",
        f"NUMBER={'own' if number else 'next'}",
        f"WORDS={shlex.join([*words, *more])}",
    ]
