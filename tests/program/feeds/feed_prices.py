"""Prices of the trees: which are left out and why, and the records of the others."""

import calendar
import re
from dataclasses import dataclass
from fractions import Fraction
from functools import cache

from tests.program.feeds.feed_terms import is_amount, is_code, is_currency, is_day, is_empty_or, is_field, is_quantity
from tests.program.feeds.feed_territories import (
    WORLD,
    are_taken,
    countries_in,
    is_world,
    places_of,
    regions_in_the_way,
    territory_fields,
    wrong_in,
)
from tests.program.feeds.feed_trees import Detail, Message, Price, PriceDate

# The reason, if a region is in the way.
REGION = "Region"

# Parts of a Price that are not read and would change it.
DISCOUNTS = ["Discount", "DiscountCoded"]

FIRST, LAST, BOTH = "14", "15", "24"

# The formats of a day, with or without a time after it, of a month and of a year.
DAYS, MONTH, YEAR = ("00", "13", "14"), "01", "05"

# The formats that a Date may have in each role that counts.
FORMATS = {FIRST: (*DAYS, MONTH, YEAR), LAST: (*DAYS, MONTH, YEAR), BOTH: ("06",)}

# The first and last of what a Date says, in its format: a year, a month and a day.
FORMS = {
    **dict.fromkeys(DAYS, r"([0-9]{4})([0-9]{2})([0-9]{2})(?:T.*)?|([0-9]{4})-([0-9]{2})-([0-9]{2})(?:T.*)?"),
    MONTH: r"([0-9]{4})([0-9]{2})|([0-9]{4})-([0-9]{2})",
    YEAR: r"([0-9]{4})",
}


# PriceQualifiers of the ordinary price, which is also the consumer's.
ORDINARY = ("", "00", "05")


def is_unusual(code: str) -> bool:
    return code not in ("", "00")


def format_of(date: PriceDate) -> str:
    return date.attribute or date.element or "00"


def days_between(date_format: str, text: str) -> tuple[str, str]:
    """The first and the last day of a day, a month or a year; two empty texts if it is none."""
    found = re.fullmatch(FORMS[date_format], text, re.ASCII)
    if not found:
        return "", ""
    year, month, day = ([each for each in found.groups() if each] + ["", ""])[:3]
    if not month:
        return f"{year}0101", f"{year}1231"
    if not day and 1 <= int(month) <= 12:
        return f"{year}{month}01", f"{year}{month}{calendar.monthrange(int(year) or 4, int(month))[1]:02}"
    return year + month + day, year + month + day


def days_of_date(date: PriceDate) -> dict[str, str]:
    """The days that a Date gives by its format and role; an empty text if it does not have that format."""
    if date.role == BOTH:
        return {FIRST: date.text[:8], LAST: date.text[8:] if len(date.text) == 16 else ""}
    return {date.role: days_between(format_of(date), date.text)[date.role == LAST]}


def days_of(price: Price) -> list[str]:
    """The first day and the last one, from dates in formats that count."""
    days = {FIRST: "", LAST: ""}
    for date in reversed(dates_of(price)):
        days |= days_of_date(date)
    return [days[FIRST], days[LAST]]


def dates_of(price: Price) -> list[PriceDate]:
    return [date for date in price.dates if date.role in FORMATS]


def has_other_format(date: PriceDate) -> bool:
    return format_of(date) not in FORMATS[date.role]


def is_dated(price: Price) -> bool:
    """Whether each of its dates has a role that counts and the form of its format, no element in one comes again, and
    none gives another first or last day than one before it."""
    found: dict[str, set[str]] = {FIRST: set(), LAST: set()}
    for date in dates_of(price):
        for role, day in ({} if has_other_format(date) else days_of_date(date)).items():
            found[role].add(day)
    are_days = all(is_day(day) for days in found.values() for day in days)
    are_single = all(len(days) <= 1 for days in found.values())
    counts = all(date.role in FORMATS and not date.again for date in price.dates)
    return counts and are_days and are_single


# An amount of more than three decimals.
LONGER = re.compile(r"([0-9]{1,9})\.([0-9]{3})([0-9]*[1-9])0*", re.ASCII)


def amount_of(price: Price) -> str:
    """Without zeros after the third decimal; with more decimals it is rounded, halves up."""
    if found := LONGER.fullmatch(price.amount):
        thousandths = int(found[1] + found[2]) + (found[3] >= "5")
        return f"{thousandths // 1000}.{thousandths % 1000:03}"
    found = re.fullmatch(r"([0-9]+\.[0-9]{3})0+", price.amount, re.ASCII)
    return found[1] if found else price.amount


def is_rounded(price: Price) -> bool:
    return LONGER.fullmatch(price.amount) is not None


def own_quantity(price: Price) -> str:
    """One of zeros alone counts as absent."""
    return "" if set(price.quantity) <= {"0"} else price.quantity


def quantity_of(price: Price, detail: Detail) -> str:
    """Its own, or that of its SupplyDetail if that is greater or it has none."""
    own, other = own_quantity(price), detail.minimum
    if not is_quantity(other):
        return own
    return other if own == "" or is_quantity(own) and int(other) > int(own) else own


def gives_nothing(price: Price, unpriced: str) -> bool:
    """Whether it says that there is no price, itself or by the UnpricedItemType in its SupplyDetail's record."""
    return price.amount == "" and not price.is_coded and (is_code(price.unpriced) or unpriced != "")


def foreign_reasons(price: Price) -> list[str]:
    """Its parts that the desk has no field for."""
    found = {
        "PriceQualifier": price.qualifier not in ORDINARY,
        "PricePer": is_unusual(price.per),
        "PriceCondition": any(each != "00" for each in price.conditions),
        "PriceConstraint": any(each != "00" for each in price.constraints),
        "PriceCoded": price.is_coded,
        "EpubLicense": price.is_licensed,
        "EpubLicenseWithDate": price.has_dated_licence,
        "CurrencyZone": price.zone != "",
        "PriceAmount": is_amount(amount_of(price)) and Fraction(amount_of(price)) == 0,
        REGION: price.territory is not None and regions_in_the_way(price.territory) != [],
        "Date": any(map(has_other_format, dates_of(price))),
    }
    return [reason for reason, is_so in found.items() if is_so]


def wrong_reasons(price: Price, message: Message) -> list[str]:
    """What the desk would not take in it, though it has fields for all of it."""
    included, _world, excluded = territory_fields(price.territory)
    found = {
        "PriceType": not is_code(price.price_type or message.price_type),
        "PriceAmount": not is_amount(amount_of(price)),
        "CurrencyCode": not is_currency(price.currency or message.currency),
        "MinimumOrderQuantity": not is_empty_or(is_quantity, own_quantity(price)),
        "CountriesIncluded": not are_taken([included, "", ""]),
        "CountriesExcluded": not are_taken(["", "", excluded]),
        "comes again": price.again != "",
        "Date": not is_dated(price),
    }
    wrong = wrong_in(price.territory) if price.territory else []
    return [reason for reason, is_so in found.items() if is_so] + list(price.old) + wrong


# A type and a currency; the least quantity, the first day and the last.
Kind = tuple[str, str]
Alike = tuple[Kind, int, str, str]


@dataclass(eq=False)
class Priced:
    """A Price as it would be written, and why it is not: what the desk has no field for, and what it would not take.
    The type and the currency are the header's if it has none; `is_unpriced` if it says that there is no price."""

    price: Price
    price_type: str
    currency: str
    quantity: str
    territory: list[str]
    is_unpriced: bool
    foreign: list[str]
    wrong: list[str]

    def reasons(self) -> set[str]:
        return {*self.foreign, *self.wrong}

    def is_written(self) -> bool:
        return not self.is_unpriced and not self.reasons()

    def is_written_but_for_amount(self) -> bool:
        """One without an amount is included, except for its type and currency."""
        of_amount = {"PriceAmount"} if self.price.amount else {"PriceAmount", "PriceType", "CurrencyCode"}
        return self.reasons() <= of_amount

    def kind(self) -> Kind:
        return self.price_type, self.currency

    def minimum(self) -> int:
        return int(self.quantity or "1")

    def alike(self) -> Alike:
        first, last = days_of(self.price)
        return self.kind(), self.minimum(), first, last

    def record(self) -> list[str]:
        first = ["Price", self.price.price_type, amount_of(self.price), self.price.currency]
        behind = [*days_of(self.price), self.quantity]
        return [*first, *self.territory, *(behind if self.quantity else behind[:2])]


def priced(price: Price, detail: Detail, message: Message, unpriced: str) -> Priced:
    return Priced(
        price,
        price.price_type or message.price_type,
        price.currency or message.currency,
        quantity_of(price, detail),
        territory_fields(price.territory),
        gives_nothing(price, unpriced),
        foreign_reasons(price),
        wrong_reasons(price, message),
    )


def prices_of(detail: Detail, message: Message, unpriced: str) -> list[Priced]:
    """Those of a SupplyDetail. If only its dates keep a Price out, it closes others of its type and currency."""
    found = [priced(each, detail, message, unpriced) for each in detail.prices]
    closed = {each.kind() for each in found if each.reasons() == {"Date"}}
    for each in found:
        if each.is_written() and each.kind() in closed:
            each.foreign.append("PriceDates")
    put_narrower_first(found)
    return found


def is_as(kind: Kind, other: Kind) -> bool:
    return kind[0] in ("", other[0]) and kind[1] in ("", other[1])


def put_narrower_first(found: list[Priced]) -> None:
    """A price for the world does not hold in the countries of one that is alike."""
    narrow = [each for each in found if each.is_written_but_for_amount() and not is_world(each.territory)]

    @cache
    def narrower(alike: Alike) -> list[str]:
        """The countries of those that are alike; a part that one without an amount lacks counts as any."""
        kind, *rest = alike
        those = [each for each in narrow if [*each.alike()[1:]] == rest and is_as(each.kind(), kind)]
        return [country for each in those for country in countries_in(each.territory)]

    for each in found:
        if each.is_written() and is_world(each.territory):
            excluded = each.territory[2].split()
            both = list(dict.fromkeys(excluded + narrower(each.alike())))
            if set(both) != set(excluded):
                each.territory = ["", WORLD, " ".join(both)]
            if not is_field(each.territory[2]):
                each.foreign.append("CountriesExcluded")


def count_differing(written: list[Priced]) -> int:
    """How many follow one that is alike, for the same countries, with another amount."""
    amounts: dict[object, set[Fraction]] = {}
    count = 0
    for each in written:
        before = amounts.setdefault((each.alike(), places_of(each.territory)), set())
        amount = Fraction(amount_of(each.price))
        count += bool(before - {amount})
        before.add(amount)
    return count
