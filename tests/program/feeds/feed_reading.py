"""Feeds in XML read by expat as trees, of which `feed_oracle` says what is to come: a reader that shares nothing with that
of the program, for feeds that nobody made as a tree.

It reads UTF-8 without a mark and without a DOCTYPE, as `is_read` asks.
"""

import codecs
import re
from bisect import bisect_right
from dataclasses import dataclass, field
from html.entities import html5
from typing import NamedTuple, TypeVar
from xml.parsers import expat

from tests.program.feeds.convert.case_files import SHORT_TAGS
from tests.program.feeds.feed_prices import DISCOUNTS
from tests.program.feeds.feed_trees import (
    DELETION,
    Detail,
    Discount,
    Identifier,
    Market,
    Message,
    Place,
    Price,
    PriceDate,
    Product,
    Stranger,
    Supply,
    Territory,
    Words,
)

DECLARED = re.compile(r"""<\?xml\s+version\s*=\s*["']1\.0["'](?:\s+encoding\s*=\s*["']([A-Za-z][\w.-]*)["'])?""")

# With it expat refuses HTML's names, which are declared outside the document.
ALONE = re.compile(rb"""<\?xml\s[^>]*\bstandalone\s*=\s*["']yes""")

# A name with two colons, which Namespaces in XML forbids.
TWO_COLONS = re.compile(rb"</?[^<>\s/:]*:[^<>\s/:]*:|</?:|<[^<>\s/]*:[\s/>]")

# The elements that count below each composite.
COUNTED = {
    "ONIXMessage": "Header Product NoProduct",
    "Header": "Sender Addressee MessageNumber MessageRepeat SentDateTime DefaultPriceType DefaultCurrencyCode",
    "Sender": "SenderIdentifier",
    "SenderIdentifier": "SenderIDType IDValue",
    "Addressee": "AddresseeIdentifier",
    "AddresseeIdentifier": "AddresseeIDType IDValue",
    "Product": "RecordReference NotificationType ProductIdentifier ProductSupply PublishingDetail",
    "PublishingDetail": "SalesRights",
    "ProductIdentifier": "ProductIDType IDValue",
    "ProductSupply": "Market SupplyDetail",
    "Market": "Territory",
    "Territory": "CountriesIncluded RegionsIncluded CountriesExcluded RegionsExcluded",
    "SupplyDetail": "OrderQuantityMinimum Supplier ProductAvailability UnpricedItemType Price SupplyToCountry"
    " SupplyToRegion SupplyToCountryExcluded SupplyToTerritory",
    "Supplier": "SupplierRole SupplierIdentifier SupplierName",
    "SupplierIdentifier": "SupplierIDType IDValue",
    "Price": "PriceType PriceQualifier PricePer PriceCondition PriceConstraint MinimumOrderQuantity PriceCoded"
    " PriceAmount UnpricedItemType CurrencyCode CurrencyZone EpubLicense EpubLicenseWithDate PriceTypeCode"
    " ClassOfTrade PriceEffectiveFrom PriceEffectiveUntil CountryCode CountryExcluded TerritoryExcluded (j303) Territory"
    " PriceDate Discount DiscountCoded",
    "PriceCondition": "PriceConditionType",
    "PriceConstraint": "PriceConstraintType",
    "PriceDate": "PriceDateRole DateFormat Date",
}

# Those that count besides if the shop has terms.
COUNTED_WITH_TERMS = COUNTED | {
    "Price": f"{COUNTED['Price']} Tax",
    "DiscountCoded": "DiscountCodeType DiscountCodeTypeName DiscountCode",
    "Discount": "DiscountType Quantity DiscountPercent",
    "Tax": "TaxRateCode TaxRatePercent",
}

# The elements that are no texts, and count even if they are empty.
COMPOSITES = {*COUNTED_WITH_TERMS, "PriceCoded", "EpubLicense", "EpubLicenseWithDate"}

# Those of them that are only counted, and are no strangers.
COUNTED_ALONE = ["PublishingDetail", "SalesRights", *DISCOUNTS]

REFERENCE_NAMES = {tag: name for name, tag in SHORT_TAGS.items()}

OLD = [
    "PriceTypeCode",
    "ClassOfTrade",
    "PriceEffectiveFrom",
    "PriceEffectiveUntil",
    "CountryCode",
    "CountryExcluded",
    "TerritoryExcluded",
    "(j303)",
]
OLD_OF_DETAIL = ["SupplyToCountry", "SupplyToRegion", "SupplyToCountryExcluded", "SupplyToTerritory"]

# What the shop's terms read in a Price: a mistake there has no other effect.
OF_TERMS = [*DISCOUNTS, "Tax"]

# Elements that repeat, are only counted, or have nothing to read; and those with notes on what comes again.
REPEATABLE = "NoProduct Product Addressee SenderIdentifier AddresseeIdentifier ProductIdentifier ProductSupply Market"
REPEATABLE += (
    " SupplyDetail SupplierIdentifier Price PublishingDetail SalesRights PriceCondition PriceConstraint PriceDate"
)
REPEATING = {*REPEATABLE.split(), *OF_TERMS}
NOTED = ["Market", "Price"]

OF_XML = "http://www.w3.org/XML/1998/namespace"


class Malformed(Exception):
    """It is not well-formed XML."""


class NoMessage(Exception):
    """Its root is not that of a message, or it has an unknown name."""


class Read(NamedTuple):
    """A message, and the places where its composites begin."""

    message: Message
    starts: dict[object, Place]


def is_read(data: bytes) -> bool:
    """Whether this reader can read the feed."""
    declared = DECLARED.match(data.decode("latin-1"))
    encoding = (declared[1] if declared else None) or "UTF-8"
    is_marked = data.startswith((codecs.BOM_UTF8, codecs.BOM_UTF16_LE, codecs.BOM_UTF16_BE))
    is_plain = encoding.upper() == "UTF-8" and not is_marked and b"<!D" not in data
    return is_plain and not ALONE.match(data) and not TWO_COLONS.search(data)


def declarations(data: bytes) -> str:
    """Declarations of HTML's names in a feed, without those of XML."""
    found = {name.decode() for name in re.findall(rb"&([A-Za-z0-9]+);", data)} - {"amp", "lt", "gt", "apos", "quot"}
    texts = {name: html5[f"{name};"] for name in sorted(found) if f"{name};" in html5}
    return "".join(
        f'<!ENTITY {name} "{"".join(f"&#38;#{ord(letter)};" for letter in text)}">' for name, text in texts.items()
    )


def words_of(text: str) -> str:
    return " ".join(filter(None, re.split("[ \t\r\n]+", text)))


@dataclass(eq=False)
class Element:
    """An element: its reference name, empty if it does not count, where it begins, and its contents."""

    name: str
    start: int
    date_format: str
    texts: list[str] = field(default_factory=list)
    below: list["Element"] = field(default_factory=list)
    strangers: list[Stranger] = field(default_factory=list)

    def all(self, name: str) -> list["Element"]:
        return [each for each in self.below if each.name == name]

    def first(self, name: str) -> "Element | None":
        return next(iter(self.all(name)), None)

    def own_text(self) -> str:
        return words_of("".join(self.texts))

    def text(self, name: str) -> str:
        """That of the first of this name that has one."""
        return next(filter(None, (each.own_text() for each in self.all(name))), "")

    def repeated(self) -> list["Element"]:
        """Elements in it that do not repeat and come again: a text after the first one that is not empty."""
        seen: set[str] = set()
        again = []
        for each in self.below:
            if each.name not in REPEATING and (each.name in COMPOSITES or each.own_text()):
                again += [each] * (each.name in seen)
                seen.add(each.name)
        return again

    def again(self) -> str:
        """The name of an element that comes again, outside a PriceDate and what terms read; empty if there is none."""
        below = [each.again() for each in self.below if each.name not in ("PriceDate", *OF_TERMS)]
        return next(filter(None, [each.name for each in self.repeated()] + below), "")

    def count_again(self) -> int:
        """How many elements come again in what is read of it, without those with notes on that."""
        unread = [*NOTED, "ProductSupply"] if self.text("NotificationType") == DELETION else NOTED
        again = self.repeated()
        read = [each for each in self.below if each.name not in unread and each not in again]
        return len(again) + sum(each.count_again() for each in read)

    def all_strangers(self) -> list[Stranger]:
        """The elements in it, without what terms read."""
        own = [each for each in self.strangers if each.name not in OF_TERMS]
        below = [each for each in self.below if each.name not in OF_TERMS]
        return own + [stranger for each in below for stranger in each.all_strangers()]

    def is_garbled(self) -> bool:
        """Whether an element of a Price that terms would read does not count, or comes again and does not repeat."""
        read = [each for each in self.below if each.name in OF_TERMS]
        is_strange = any(each.name in OF_TERMS for each in self.strangers)
        return is_strange or any(each.strangers or each.repeated() for each in read)

    def suppliers(self) -> list[tuple[str, str]]:
        """The types and values of the first Supplier of a SupplyDetail, or two empty texts if it has only a name; None
        if it is nobody's."""
        first = self.first("Supplier")
        found = first.all("SupplierIdentifier") if first else []
        pairs = [(each.text("SupplierIDType"), each.text("IDValue")) for each in found]
        return [pair for pair in pairs if any(pair)] or [("", "")] * bool(first and first.text("SupplierName"))

    def leave_out_others(self, supplier: tuple[str, str]) -> tuple[int, int]:
        """Removes the SupplyDetails of other suppliers from a Product, and the ProductSupplies that have only such
        ones. Strangers below a SupplyDetail stay if they are a Supplier or in one. Returns how many SupplyDetails are
        from that supplier, and from others."""
        of_it = of_others = 0
        for supply in self.all("ProductSupply"):
            details = supply.all("SupplyDetail")
            others = [each for each in details if each.suppliers() and supplier not in each.suppliers()]
            of_it += sum(supplier in each.suppliers() for each in details)
            of_others += len(others)
            for each in others:
                supply.below.remove(each)
                supply.strangers += [one for one in each.strangers if one.name == "Supplier"]
                supply.strangers += [one for within in each.all("Supplier") for one in within.all_strangers()]
            if others and len(others) == len(details):
                self.below.remove(supply)
                self.strangers += supply.all_strangers()
        return of_it, of_others


class Elements:
    """Reads the elements of a document that count by their namespace; with terms of the shop more do."""

    def __init__(self, has_terms: bool) -> None:
        self.has_terms = has_terms
        self.root: Element | None = None
        self.address = ""
        self.around: list[Element] = []
        self.bound: list[dict[str, str]] = [{"": "", "xml": OF_XML}]
        self.release = ""
        self.is_short = False
        self.has_unknown_name = False

    def read(self, data: bytes) -> Element:
        parser = expat.ParserCreate()
        parser.UseForeignDTD(True)
        parser.SetParamEntityParsing(expat.XML_PARAM_ENTITY_PARSING_ALWAYS)

        def names(context: str, *_: object) -> int:
            outside = parser.ExternalEntityParserCreate(context)
            outside.DefaultHandlerExpand = None
            outside.Parse(declarations(data), True)
            return 1

        def other(text: str) -> None:
            self.has_unknown_name |= re.fullmatch("&[^;#]+;", text) is not None

        parser.ExternalEntityRefHandler = names
        parser.StartElementHandler = lambda name, attributes: self.begin(name, attributes, parser.CurrentByteIndex)
        parser.EndElementHandler = lambda _name: self.end()
        parser.CharacterDataHandler = lambda text: self.around[-1].texts.append(text)
        parser.DefaultHandlerExpand = other
        # Not a text, and not checked.
        parser.CommentHandler = lambda _text: None
        parser.ProcessingInstructionHandler = lambda _target, _text: None
        try:
            parser.Parse(data, True)
        except expat.ExpatError as error:
            raise Malformed(str(error)) from None
        if self.has_unknown_name or self.root is None or self.release not in ("3.0", "3.1"):
            raise NoMessage
        return self.root

    def begin(self, name: str, attributes: dict[str, str], start: int) -> None:
        declared = {key[6:]: value for key, value in attributes.items() if key == "xmlns" or key.startswith("xmlns:")}
        self.bound.append(self.bound[-1] | declared)
        prefix, _, local = name.rpartition(":")
        address = self.bound[-1].get(prefix, "")
        if not self.around:
            self.begin_root(local, address, attributes)
        element = Element(self.counted(local, address), start, words_of(attributes.get("dateformat", "")))
        if self.around and element.name:
            self.around[-1].below.append(element)
        self.root = self.root or element
        self.around.append(element)

    def begin_root(self, local: str, address: str, attributes: dict[str, str]) -> None:
        if local not in ("ONIXMessage", "ONIXmessage"):
            self.has_unknown_name = True
        self.is_short = local == "ONIXmessage"
        self.address = address
        self.release = attributes.get("release", "")

    def counted(self, local: str, address: str) -> str:
        """The reference name of an element, empty if it does not count; a stranger is reported to the element around
        it."""
        if not self.around:
            return "ONIXMessage"
        parent = self.around[-1]
        counted = (COUNTED_WITH_TERMS if self.has_terms else COUNTED).get(parent.name, "").split()
        name = REFERENCE_NAMES.get(local, "") if self.is_short else local
        if name in counted and address == self.address:
            return name
        called = [each for each in counted if local.lower() in (each.lower(), SHORT_TAGS[each].lower())]
        alone = [each for each in COUNTED_ALONE if not self.has_terms or each not in OF_TERMS]
        parent.strangers += [Stranger(parent.name, each) for each in called if each not in alone]
        return ""

    def end(self) -> None:
        self.around.pop()
        self.bound.pop()


Made = TypeVar("Made")


class Trees:
    """Makes the trees of elements, and keeps where each composite begins."""

    def __init__(self, data: bytes, supplier: tuple[str, str] | None) -> None:
        self.data = data
        self.supplier = supplier
        self.lines = [0, *(found.end() for found in re.finditer(b"\n", data))]
        self.starts: dict[object, Place] = {}

    def at(self, element: Element, made: Made) -> Made:
        line = bisect_right(self.lines, element.start)
        before = self.data[self.lines[line - 1] : element.start]
        self.starts[made] = Place(line, len(before.decode()) + 1)
        return made

    def identifiers(self, of: Element | None, name: str) -> list[Identifier]:
        found = of.all(f"{name}Identifier") if of else []
        return [self.at(each, Identifier(each.text(f"{name}IDType"), each.text("IDValue"))) for each in found]

    def territory(self, of: Element) -> Territory | None:
        found = of.first("Territory")
        names = "CountriesIncluded", "RegionsIncluded", "CountriesExcluded", "RegionsExcluded"
        return self.at(found, Territory(*map(found.text, names))) if found else None

    def price(self, of: Element) -> Price:
        price = Price(of.text("PriceType"), of.text("PriceAmount"), of.text("CurrencyCode"))
        price.quantity, price.unpriced = of.text("MinimumOrderQuantity"), of.text("UnpricedItemType")
        price.qualifier, price.per, price.zone = map(of.text, ("PriceQualifier", "PricePer", "CurrencyZone"))
        price.territory = self.territory(of)
        price.dates = [date_of(each) for each in of.all("PriceDate")]
        price.conditions = [each.text("PriceConditionType") for each in of.all("PriceCondition")]
        price.constraints = [each.text("PriceConstraintType") for each in of.all("PriceConstraint")]
        price.is_coded, price.is_licensed = bool(of.all("PriceCoded")), bool(of.all("EpubLicense"))
        price.has_dated_licence = bool(of.all("EpubLicenseWithDate"))
        price.again = of.again()
        price.old = {name.strip("()"): of.text(name) for name in OLD if of.text(name)}
        price.discounts = [name for name in DISCOUNTS for _ in of.all(name)]
        # Without terms nothing of these counts.
        price.codes = [code_of(each) for each in of.all("DiscountCoded")]
        price.percents = [discount_of(each) for each in of.all("Discount")]
        price.taxes = [(each.text("TaxRatePercent"), each.text("TaxRateCode")) for each in of.all("Tax")]
        price.is_garbled = of.is_garbled()
        return self.at(of, price)

    def detail(self, of: Element) -> Detail:
        supplier = of.first("Supplier")
        role, name = (supplier.text(each) if supplier else "" for each in ("SupplierRole", "SupplierName"))
        identifiers = self.identifiers(supplier, "Supplier") if supplier else None
        prices = [self.price(each) for each in of.all("Price")]
        availability, unpriced = map(of.text, ("ProductAvailability", "UnpricedItemType"))
        minimum = of.text("OrderQuantityMinimum")
        old = {name: of.text(name) for name in OLD_OF_DETAIL if of.text(name)}
        return self.at(of, Detail(role, identifiers, name, availability, unpriced, prices, minimum, old))

    def market(self, of: Element) -> Market:
        market = Market(self.territory(of))
        if market.territory:
            market.territory.again = of.again()
        return self.at(of, market)

    def supply(self, of: Element) -> Supply:
        markets = [self.market(each) for each in of.all("Market")]
        return self.at(of, Supply(markets, [self.detail(each) for each in of.all("SupplyDetail")]))

    def product(self, of: Element) -> Product:
        of_it, of_others = of.leave_out_others(self.supplier) if self.supplier else (0, 0)
        supplies = [self.supply(each) for each in of.all("ProductSupply")]
        identifiers = self.identifiers(of, "Product")
        product = Product(of.text("RecordReference"), of.text("NotificationType"), identifiers, supplies)
        # In a deletion those count that stand before others.
        own = sorted(of.all_strangers(), key=lambda each: each.within not in ("Product", "ProductIdentifier"))
        product.stranger = next(iter(own), None)
        product.details_of_it, product.details_of_others = of_it, of_others
        product.has_rights = any(each.all("SalesRights") for each in of.all("PublishingDetail"))
        return self.at(of, product)

    def message(self, root: Element) -> Message:
        header = root.first("Header")
        names = "MessageNumber", "MessageRepeat", "SentDateTime", "DefaultPriceType", "DefaultCurrencyCode"
        number, repeat, sent, price_type, currency = (header.text(name) if header else "" for name in names)
        sender = header.first("Sender") if header else None
        addressees = [self.identifiers(each, "Addressee") for each in header.all("Addressee")] if header else []
        identifiers = self.identifiers(sender, "Sender")
        message = Message(identifiers, addressees, number, repeat, sent, price_type, currency)
        message.is_header_first = bool(root.below) and root.below[0].name == "Header"
        message.has_two_headers = len(root.all("Header")) > 1
        strangers = root.strangers + (header.all_strangers() if header else [])
        message.stranger = next(iter(strangers), None)
        message.says_none = bool(root.all("NoProduct"))
        message.products = [self.product(each) for each in root.all("Product")]
        message.again = root.count_again()
        return message


def date_of(element: Element) -> PriceDate:
    dates = [each for each in element.all("Date") if each.own_text()]
    return PriceDate(
        element.text("PriceDateRole"),
        element.text("Date"),
        dates[0].date_format if dates else "",
        element.text("DateFormat"),
        element.again(),
    )


def discount_of(element: Element) -> Discount:
    percent, quantity, kind = map(element.text, ("DiscountPercent", "Quantity", "DiscountType"))
    return Discount(percent, quantity, kind)


def code_of(element: Element) -> tuple[str, str, str]:
    kind, name, code = map(element.text, ("DiscountCodeType", "DiscountCodeTypeName", "DiscountCode"))
    return kind, name, code


def read(data: bytes, words: Words) -> Read:
    """The message of a feed, including what the shop's terms read if it has any, and without the SupplyDetails of
    others if one supplier is requested. Malformed, or NoMessage, if it is none."""
    trees = Trees(data, words.supplier)
    return Read(trees.message(Elements(words.terms is not None).read(data)), trees.starts)


def read_or_none(data: bytes, words: Words) -> Read | None:
    try:
        return read(data, words)
    except (Malformed, NoMessage):
        return None
