"""Messages of ONIX as trees: what stands in each element that counts, as its text, right or wrong.

Composites are equal only to themselves, so that a note can name the one that it speaks of.
"""

from dataclasses import dataclass, field
from typing import NamedTuple

# The NotificationType of a deletion.
DELETION = "05"

# The file of the shop's terms.
TERMS = "shop.toml"


class Place(NamedTuple):
    """A line and a column, both from 1."""

    line: int
    column: int


@dataclass(eq=False)
class Identifier:
    id_type: str
    value: str


@dataclass(eq=False)
class Territory:
    included: str = ""
    regions: str = ""
    excluded: str = ""
    excluded_regions: str = ""
    # An element in it that comes again, or its own name, if another one follows.
    again: str = ""


@dataclass(eq=False)
class Market:
    """`territory` is None if there is none."""

    territory: Territory | None


@dataclass(eq=False)
class PriceDate:
    """A date with its format in an attribute, in an element, in both or nowhere."""

    role: str
    text: str
    attribute: str = ""
    element: str = ""
    again: str = ""


@dataclass(eq=False)
class Discount:
    """A discount in percent, or in another way."""

    percent: str
    quantity: str = ""
    discount_type: str = ""


@dataclass(eq=False)
class Price:
    """A price. `again` is the name of an element that comes again in it. `conditions` and `constraints` have the type of
    each PriceCondition and PriceConstraint, which may be empty; `old` has the texts of elements of ONIX 2.1 by their
    names; `discounts` names the elements that are counted. For the terms of the shop `codes` has the type, its name and
    the code of each DiscountCoded, `percents` its Discounts and `taxes` the TaxRatePercent and the TaxRateCode of each
    Tax; `is_garbled` where one of the elements that they read does not count, or comes again."""

    price_type: str
    amount: str
    currency: str
    quantity: str = ""
    territory: Territory | None = None
    dates: list[PriceDate] = field(default_factory=list)
    unpriced: str = ""
    qualifier: str = ""
    per: str = ""
    conditions: list[str] = field(default_factory=list)
    constraints: list[str] = field(default_factory=list)
    is_coded: bool = False
    is_licensed: bool = False
    # With an EpubLicenseWithDate, as ONIX 3.1 has it.
    has_dated_licence: bool = False
    zone: str = ""
    again: str = ""
    old: dict[str, str] = field(default_factory=dict)
    discounts: list[str] = field(default_factory=list)
    codes: list[tuple[str, str, str]] = field(default_factory=list)
    percents: list[Discount] = field(default_factory=list)
    taxes: list[tuple[str, str]] = field(default_factory=list)
    is_garbled: bool = False


@dataclass(eq=False)
class Detail:
    """A SupplyDetail. `identifiers` is None if it has no Supplier; `minimum` is its OrderQuantityMinimum; `old` has the
    texts of elements of ONIX 2.1 by their names."""

    role: str
    identifiers: list[Identifier] | None
    name: str
    availability: str
    unpriced: str
    prices: list[Price]
    minimum: str = ""
    old: dict[str, str] = field(default_factory=dict)


class Stranger(NamedTuple):
    """An element in the first composite of that name that has the name of one that counts there, but does not count: it
    is in another namespace than the root's, of the other kind of names, or in another case of letters."""

    within: str
    name: str


@dataclass(eq=False)
class Supply:
    markets: list[Market]
    details: list[Detail]


@dataclass(eq=False)
class Product:
    """A product. If one supplier is requested, `details_of_it` and `details_of_others` count the product's
    SupplyDetails of it and of others, which are not in `supplies`."""

    reference: str
    notification: str
    identifiers: list[Identifier]
    supplies: list[Supply] = field(default_factory=list)
    stranger: Stranger | None = None
    # With a SalesRights in its PublishingDetail, which is counted and not read.
    has_rights: bool = False
    details_of_it: int = 0
    details_of_others: int = 0

    def is_of_others_alone(self) -> bool:
        return self.details_of_others > 0 and not any(supply.details for supply in self.supplies)


@dataclass(eq=False)
class Message:
    """A message. `sender` is None if it has no Sender; `is_header_first` is false if its Header comes after its
    products, and `has_two_headers` true if one comes there too; `says_none` if it has a NoProduct; `again` counts the
    elements without a note that come again in what is read."""

    sender: list[Identifier] | None
    addressees: list[list[Identifier]]
    number: str
    repeat: str
    sent: str
    price_type: str
    currency: str
    products: list[Product] = field(default_factory=list)
    is_header_first: bool = True
    has_two_headers: bool = False
    says_none: bool = False
    stranger: Stranger | None = None
    again: int = 0


@dataclass(frozen=True)
class Term:
    """One of the shop's terms; `codes`, `scheme`, `supplier`, `currency` and `tax` are empty if it has none."""

    types: tuple[str, ...]
    net: str
    percent: str
    codes: tuple[str, ...] = ()
    scheme: str = ""
    supplier: str = ""
    currency: str = ""
    tax: str = ""

    def toml(self) -> str:
        values = {name: value for name, value in vars(self).items() if value}
        lines = [f"{name} = {list(value) if isinstance(value, tuple) else value!r}\n" for name, value in values.items()]
        return "".join(["[[term]]\n", *lines])


@dataclass(frozen=True)
class Words:
    """The words of the command line that decide what is written. The shop's terms, if there are any, are in a file."""

    parts: int = 1
    number: str = ""
    offset: str = ""
    sender: tuple[str, str] | None = None
    addressee: tuple[str, str] | None = None
    id_type: str = ""
    wrong: str = ""
    terms: tuple[Term, ...] | None = None
    supplier: tuple[str, str] | None = None

    def line(self) -> list[str]:
        valued = {
            "--parts": str(self.parts) if self.parts > 1 else "",
            "--number": self.number,
            "--number-offset": self.offset,
            "--sender": ",".join(self.sender or ()),
            "--addressee": ",".join(self.addressee or ()),
            "--supplier": ",".join(self.supplier or ()),
            "--id-type": self.id_type,
            "--wrong": self.wrong,
            "--terms": TERMS if self.terms is not None else "",
        }
        return [word for name, value in valued.items() if value for word in (name, value)]

    def files(self, stem: str | int) -> list[str]:
        """The files that a feed of that name becomes."""
        if self.parts == 1:
            return [f"{stem}.csv"]
        digits = max(2, len(str(self.parts)))
        return [f"{stem}.part-{part:0{digits}}.csv" for part in range(1, self.parts + 1)]
