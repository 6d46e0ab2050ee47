"""What the shop's terms compute of the prices of trees: by which term, how much, and what the feed's own prices hold back;
and what is said of the terms themselves.

It goes by what the documents say: fractions, and each price held against all of its SupplyDetail.
"""

import re
from fractions import Fraction
from functools import cache
from typing import NamedTuple

from tests.program.feeds.feed_prices import Priced, amount_of, days_of
from tests.program.feeds.feed_terms import is_code, is_currency, is_quantity
from tests.program.feeds.feed_trees import Discount, Price, Term

# Instead of a percent: what the feed says.
OF_FEED = "feed"

ORDINARY_DISCOUNTS = ("", "01")

# The TaxRateCode of no tax.
ZERO_RATED = "Z"

# The reasons to leave out a Price that is for others, for another unit or of 0.
OF_OTHERS = {"PriceQualifier", "PriceCondition", "PriceConstraint", "PricePer", "PriceAmount"}
OF_OTHERS |= {"EpubLicense", "EpubLicenseWithDate"}

# The PriceTypes of prices with tax.
WITH_TAX = {"02", "04", "07", "09", "12", "14", "17", "22", "24", "27", "34", "42"}


class Computed(NamedTuple):
    """A price that a term computes: its type, the amount in hundredths, and its least number of copies."""

    net: str
    amount: int
    minimum: int


class Outcome(NamedTuple):
    """What becomes of a price: whether no term fits it, though one has its type and currency; how many computed prices
    are held back; whether one comes to nothing; and those that are written."""

    is_unfitted: bool
    held: int
    is_free: bool
    written: list[Computed]


# Many prices of a feed have few percents and amounts.
@cache
def percent_of(text: str, is_of_feed: bool = False) -> Fraction | None:
    """A percent of one to three digits and at most two decimals; in a feed zeros after these are ignored, and a value
    between 0 and 1 is none."""
    found = re.fullmatch(r"([0-9]{1,3})(?:\.([0-9]{1,2})(0*))?", text, re.ASCII)
    if not found or found[3] and not is_of_feed:
        return None
    percent = Fraction(f"{found[1]}.{found[2] or 0}")
    return None if is_of_feed and 0 < percent < 1 else percent


def is_said(discount: Discount) -> bool:
    percent = percent_of(discount.percent, is_of_feed=True)
    is_from = discount.quantity.strip("0") == "" or is_quantity(discount.quantity)
    return percent is not None and percent <= 100 and discount.discount_type in ORDINARY_DISCOUNTS and is_from


def has_code(price: Price, term: Term) -> bool:
    wanted = [tuple(code.split(",", 1)) for code in term.codes]
    return any((kind, code) in wanted and term.scheme in ("", name) for kind, name, code in price.codes)


def tax_of(price: Price) -> Fraction | None:
    """That of the only Tax."""
    if len(price.taxes) != 1:
        return None
    [(percent, code)] = price.taxes
    return Fraction(0) if (percent, code) == ("", ZERO_RATED) else percent_of(percent, is_of_feed=True)


def is_for(term: Term, one: Priced) -> bool:
    return one.price_type in term.types and term.currency in ("", one.currency)


def is_fitting(term: Term, one: Priced, supplier: str) -> bool:
    price = one.price
    return (
        not price.is_garbled
        and is_for(term, one)
        and (not term.codes or has_code(price, term))
        and term.supplier in ("", supplier)
        and (term.percent != OF_FEED or any(map(is_said, price.percents)))
        and (term.tax != OF_FEED or tax_of(price) is not None)
    )


@cache
def net_of(amount: str, percent: Fraction, tax: Fraction) -> int:
    """Hundredths of the currency, halves rounded up; never more than the amount."""
    exact = Fraction(amount) * (100 - percent) / (100 + tax) * 100
    return min(int(exact + Fraction(1, 2)), int(Fraction(amount) * 100))


def computed_of(term: Term, one: Priced) -> list[Computed]:
    """What a fitting term computes: the least for each quantity, in the place of the first."""
    price = one.price
    tax = (tax_of(price) if term.tax == OF_FEED else percent_of(term.tax)) or Fraction(0)
    discounts = [(percent_of(term.percent), one.minimum())]
    if term.percent == OF_FEED:
        said = filter(is_said, price.percents)
        discounts = [(percent_of(each.percent, True), max(one.minimum(), int(each.quantity or 0))) for each in said]
    found: dict[int, int] = {}
    for percent, minimum in discounts:
        assert percent is not None
        amount = net_of(amount_of(price), percent, tax)
        found[minimum] = min(amount, found.get(minimum, amount))
    return [Computed(term.net, amount, minimum) for minimum, amount in found.items()]


class Bought:
    """What the shop pays by its terms, for the prices of a SupplyDetail with that supplier."""

    def __init__(self, terms: tuple[Term, ...], found: list[Priced], supplier: str) -> None:
        self.terms = terms
        written = [one for one in found if one.is_written()]
        self.fitting = {one: next((term for term in terms if is_fitting(term, one, supplier)), None) for one in written}
        # What holds computed prices back, and the least written price of the feed for each type and currency.
        self.least: dict[tuple[str, str], tuple[int, str]] = {}
        for one in written:
            rank = one.minimum(), days_of(one.price)[0]
            self.least[one.kind()] = min(rank, self.least.get(one.kind(), rank))
        # The types and currencies of prices that the desk cannot hold; an empty one counts as any.
        self.unwritten = {
            (one.price_type if is_code(one.price_type) else "", one.currency if is_currency(one.currency) else "")
            for one in found
            if not one.is_written() and not OF_OTHERS & set(one.foreign)
        }
        self.unfitted = {(*one.kind(), *one.territory) for one, term in self.fitting.items() if not term}

    def is_held_back(self, computed: Computed, one: Priced) -> bool:
        kind = computed.net, one.currency
        least = self.least.get(kind)
        is_outdone = least is not None and least <= (computed.minimum, days_of(one.price)[0])
        either = {(price_type, currency) for price_type in ("", kind[0]) for currency in ("", kind[1])}
        return is_outdone or bool(either & self.unwritten) or (*one.kind(), *one.territory) in self.unfitted

    def outcome_of(self, one: Priced) -> Outcome:
        """Of one that is written."""
        term = self.fitting[one]
        if not term:
            return Outcome(any(is_for(each, one) for each in self.terms), 0, False, [])
        computed = computed_of(term, one)
        left = [each for each in computed if not self.is_held_back(each, one)]
        written = [each for each in left if each.amount]
        return Outcome(False, len(computed) - len(left), len(written) < len(left), written)


def computed_record(one: Computed, record: list[str]) -> list[str]:
    """After the record of its price."""
    amount = f"{one.amount // 100}.{one.amount % 100:02}"
    return [record[0], one.net, amount, *record[3:9], *([str(one.minimum)] if one.minimum > 1 else [])]


# What `onixdesk terms` says of terms.
NEVER, MIXED, TAXED = "never", "mixed", "taxed"


def always_precedes(one: Term, other: Term) -> bool:
    """Whether it fits each price that the other one fits."""
    return (
        set(other.types) <= set(one.types)
        and (not one.codes or other.codes != () and set(other.codes) <= set(one.codes))
        and one.scheme in ("", other.scheme)
        and one.supplier in ("", other.supplier)
        and one.currency in ("", other.currency)
        and (one.percent != OF_FEED or other.percent == OF_FEED)
        and (one.tax != OF_FEED or other.tax == OF_FEED)
    )


def told_of(terms: tuple[Term, ...]) -> list[tuple[int, str]]:
    """The number of each term with a remark, and the remark."""
    told = []
    for number, term in enumerate(terms, 1):
        are_with_tax = {each in WITH_TAX for each in (*term.types, term.net)}
        has_tax = term.tax == OF_FEED or bool(percent_of(term.tax))
        if any(always_precedes(earlier, term) for earlier in terms[: number - 1]):
            told.append((number, NEVER))
        elif not term.tax and len(are_with_tax) > 1:
            told.append((number, MIXED))
        elif has_tax and (not set(term.types) <= WITH_TAX or term.net in WITH_TAX):
            told.append((number, TAXED))
    return told
