"""What should become of a message, read off its tree: the written messages, and the notes; or that it is refused."""

import re
from collections import Counter
from dataclasses import dataclass, field

from tests.program.feeds.feed_net_prices import Bought, computed_record
from tests.program.feeds.feed_prices import DISCOUNTS, REGION, Priced, count_differing, is_rounded, prices_of
from tests.program.feeds.feed_terms import (
    is_code,
    is_country,
    is_currency,
    is_empty_or,
    is_field,
    is_filled,
    is_number,
    is_repeat,
    matches,
)
from tests.program.feeds.feed_territories import (
    are_taken,
    read_as_others,
    regions_in_the_way,
    regions_left_out,
    territory_fields,
    union_fields,
    wrong_in,
)
from tests.program.feeds.feed_trees import (
    DELETION,
    Detail,
    Identifier,
    Market,
    Message,
    Product,
    Supply,
    Territory,
    Words,
)

GLN = "06"
GREATEST_NUMBER = 999_999_999
MOST_RECORDS = 20_000
MOST_BYTES = 4_194_304

BLOCK, UPDATE = "03", "04"
KNOWN_TYPES = ("01", "02", "03", "04", "05")

# Types of identifiers by which the desk finds an article, and the characters removed from their values if that leaves
# thirteen digits.
ARTICLES = ("03", "15")
HYPHENS = "-\u00ad\u2010\u2011\u2012\u2013\u2014\u2015\u2212"
SPACES = " \u00a0\u2009\u202f"

Record = list[str]


# What the summary counts without a note.
EMPTIED, UNPRICED = "products emptied", "products left without a Price"
OF_WORLD = "products for the world without a Market, with SalesRights, not read"
OF_OTHERS, OF_SEVERAL = "products of other suppliers alone", "products of several suppliers"
NOT_READ = {name: f"{name} not read" for name in DISCOUNTS}
DETAIL_OF_ANOTHER = "SupplyDetail of another supplier, not read"
ROUNDED, DIFFERING = "PriceAmount rounded", "Price beside another of another amount"
UNFITTED, HELD_BACK = "Price that no term fits", "Price with a computed price held back"
AGAIN, WITHOUT_PRODUCT = "an element comes again, not read", "a FILE without a Product"
COUNTED = [
    *(EMPTIED, UNPRICED, OF_WORLD, OF_OTHERS, OF_SEVERAL, *NOT_READ.values(), DETAIL_OF_ANOTHER),
    *(ROUNDED, DIFFERING, UNFITTED, HELD_BACK, AGAIN, WITHOUT_PRODUCT),
]

# A reason, if any will do.
ANY = ("",)


@dataclass(frozen=True)
class Note:
    """A note on a composite. It gives one of the reasons and one of the names. `is_wrong` if the desk would not take
    the composite, `is_of_product` if the note says that a product is left out or emptied."""

    about: object
    reference: str
    reasons: tuple[str, ...]
    names: tuple[str, ...] = ANY
    is_wrong: bool = False
    is_of_product: bool = False


class Refused(Exception):
    """The message is refused, for something in this composite, or in none, and the line names each of these; before it
    come these notes."""

    def __init__(self, about: object = None, names: tuple[str, ...] = (), notes: list[Note] | None = None) -> None:
        self.about = about
        self.names = names
        self.notes = notes or []


@dataclass(frozen=True)
class Wrong:
    """The desk would not take a composite; the note on it gives one of these reasons."""

    reasons: tuple[str, ...]


@dataclass
class Part:
    """One of the written messages."""

    number: int
    records: list[Record]
    size: int

    def text(self) -> bytes:
        return records_text(self.records)

    def has_room(self, records: list[Record]) -> bool:
        """For these records, and an end after them."""
        count = len(self.records) + len(records)
        size = self.size + size_of(records) + size_of([["EndMessage", str(count)]])
        return count + 1 <= MOST_RECORDS and size <= MOST_BYTES


@dataclass
class Verdict:
    """What should become of a message; `lacks_supplier` if it has nothing of the requested supplier, and something of
    others."""

    parts: list[Part] = field(default_factory=list)
    notes: list[Note] = field(default_factory=list)
    products: int = 0
    wrong_products: int = 0
    counts: Counter[str] = field(default_factory=Counter)
    lacks_supplier: bool = False
    refusal: Refused | None = None

    def status(self) -> int:
        is_wrong = any(note.is_wrong for note in self.notes)
        return int(self.refusal is not None or is_wrong or self.lacks_supplier)


def quoted(text: str) -> str:
    return '"' + text.replace('"', '""') + '"' if "," in text or '"' in text else text


def records_text(records: list[Record]) -> bytes:
    return "".join(",".join(map(quoted, record)) + "\n" for record in records).encode()


def is_identifier(id_type: str, value: str) -> bool:
    return is_code(id_type) and is_filled(value)


def those_there(identifiers: list[Identifier]) -> list[Identifier]:
    """One with neither type nor value counts as absent."""
    return [each for each in identifiers if each.id_type or each.value]


def chosen(every: list[Identifier], words: Words) -> list[str] | None:
    """The identifier that is written of several, chosen by its type alone; two empty fields if there is none; None if
    the chosen one is not an identifier."""
    identifiers = those_there(every)
    if not identifiers:
        return ["", ""]
    wanted = words.id_type or GLN
    found = ([each for each in identifiers if each.id_type == wanted] or identifiers)[0]
    return [found.id_type, found.value] if is_identifier(found.id_type, found.value) else None


# The header.


def sender_of(message: Message, words: Words) -> list[str]:
    identifiers = message.sender or []
    if words.sender and not any(each.id_type and each.value for each in identifiers):
        return list(words.sender)
    sender = chosen(identifiers, words)
    if not sender or sender == ["", ""]:
        raise Refused
    return sender


def addressee_of(message: Message, words: Words) -> list[str]:
    addressees = message.addressees
    if not any(map(those_there, addressees)):
        return ["", ""]
    if len(addressees) > 1:
        wanted = words.addressee
        addressees = [each for each in addressees if wanted in [(one.id_type, one.value) for one in each]]
        if not addressees:
            raise Refused
    addressee = chosen(addressees[0] if addressees else [], words)
    if addressee is None:
        raise Refused
    return addressee


def number_of(message: Message, words: Words) -> int:
    """The number of the first written message."""
    text = words.number or message.number.lstrip("0")
    if not is_number(text):
        raise Refused
    number = int(text) + int(words.offset or "0")
    if number * words.parts > GREATEST_NUMBER:
        raise Refused
    return (number - 1) * words.parts + 1


def opening_of(message: Message, words: Words) -> tuple[int, list[str], list[str]]:
    """The number of the first written message, and what stands before and after it."""
    if message.stranger or message.has_two_headers or not message.is_header_first:
        raise Refused
    sender, addressee = sender_of(message, words), addressee_of(message, words)
    number = number_of(message, words)
    repeat = message.repeat if is_repeat(message.repeat) else ""
    if not (
        is_field(message.sent)
        and is_empty_or(is_code, message.price_type)
        and is_empty_or(is_currency, message.currency)
    ):
        raise Refused
    behind = [repeat, message.sent, message.price_type, message.currency]
    return number, ["Message", "2", *sender, *addressee], behind


# Products.


def as_article(identifier: Identifier) -> Identifier:
    """An identifier by which the desk finds an article, as its thirteen digits alone; another one as it is."""
    digits = re.sub(f"[{HYPHENS}{SPACES}]", "", identifier.value)
    if identifier.id_type in ARTICLES and matches("[0-9]{13}", digits):
        return Identifier(identifier.id_type, digits)
    return identifier


def finds_article(identifier: Identifier) -> bool:
    return identifier.id_type in ARTICLES and matches("[0-9]{13}", identifier.value)


def has_stranger(product: Product) -> bool:
    """Whether an element that would count is in another namespace; in a deletion only its identifiers and their
    surroundings are checked."""
    stranger = product.stranger
    if stranger is None or product.notification != DELETION:
        return stranger is not None
    return stranger.within in ("Product", "ProductIdentifier")


class Judge:
    """Reads one product of a message."""

    def __init__(self, message: Message, words: Words, product: Product) -> None:
        self.message = message
        self.words = words
        self.product = product
        self.notes: list[Note] = []
        # What is counted without a note in the written message.
        self.counts: Counter[str] = Counter()
        # What is written if it is emptied.
        self.emptied: list[Record] = []
        self.is_emptied = False
        # Whether a ProductSupply without a Market is written.
        self.is_of_world = False
        # Whether it is written, and all its SupplyDetails are from other suppliers than the requested one.
        self.is_of_others = False

    def note(
        self,
        about: object,
        *reasons: str,
        names: tuple[str, ...] = ANY,
        is_wrong: bool = False,
        of_product: bool = False,
    ) -> None:
        self.notes.append(Note(about, self.product.reference, reasons or ANY, names, is_wrong, of_product))

    def note_territory(self, territory: Territory | None) -> None:
        """What a written territory leaves out or reads as something else."""
        for region in regions_left_out(territory) if territory else []:
            self.note(territory, REGION, names=(region,), is_wrong=is_country(region))
        for country in read_as_others(territory) if territory else []:
            self.note(territory, "country", names=(country,))

    def empty(self, *reasons: str, is_wrong: bool = True) -> list[Record]:
        self.is_emptied = True
        self.note(self.product, *reasons, is_wrong=is_wrong, of_product=True)
        return self.emptied

    def records(self) -> list[Record] | None:
        """What is written in a message with room for all of it; None if it is left out."""
        product = self.product
        if not is_filled(product.reference):
            self.note(product, "RecordReference", is_wrong=True, of_product=True)
            return None
        identifiers = self.identifiers()
        self.emptied = [self.record(self.type_of_emptied(), identifiers)]
        if not is_code(product.notification):
            return self.empty("NotificationType")
        if not identifiers and product.notification != DELETION:
            return self.empty("Identifier")
        if has_stranger(product):
            return self.empty("namespace")
        if product.notification == DELETION:
            return [self.record(DELETION, identifiers)]
        notification = self.type_of_emptied() if product.is_of_others_alone() else product.notification
        return self.with_supplies(self.record(notification, identifiers), identifiers)

    def with_supplies(self, own: Record, identifiers: list[Identifier]) -> list[Record]:
        supplied = [(supply, self.supply(supply)) for supply in self.product.supplies]
        self.is_of_world = any(records and not supply.markets for supply, records in supplied)
        self.is_of_others = self.product.is_of_others_alone()
        records = [record for _, records in supplied for record in records]
        lost = [supply for supply, _ in supplied if supply.details]
        if lost and not records:
            kinds = [note.is_wrong for note in self.notes if note.about is lost[0]]
            return self.empty("Supply", is_wrong=kinds[0])
        if not any(map(finds_article, identifiers)):
            self.note(self.product, "ISBN")
        if self.product.notification not in KNOWN_TYPES:
            self.note(self.product, "NotificationType", names=(self.product.notification,))
        return [own, *records]

    def records_too_large(self) -> list[Record]:
        """What is written if no message has room for all of it."""
        if not self.is_emptied:
            self.notes = [note for note in self.notes if isinstance(note.about, Identifier)]
            self.counts.clear()
            self.is_of_others = False
            self.empty("large")
        return [self.record(self.type_of_emptied(), [])]

    def type_of_emptied(self) -> str:
        notification = self.product.notification
        return BLOCK if notification == UPDATE or not is_code(notification) else notification

    def record(self, notification: str, identifiers: list[Identifier]) -> Record:
        """Its own record, in which the reference stands for missing identifiers."""
        reference = self.product.reference
        return ["Product", reference, notification, *pairs(identifiers or [Identifier("01", reference)])]

    def identifiers(self) -> list[Identifier]:
        kept = []
        is_found = any(finds_article(as_article(each)) for each in self.product.identifiers)
        for each in those_there(self.product.identifiers):
            article = as_article(each)
            if is_identifier(article.id_type, article.value):
                kept.append(article)
            else:
                self.note(each, "IDType", "IDValue", is_wrong=not is_found)
        return kept

    def supply(self, supply: Supply) -> list[Record]:
        if not supply.details:
            self.note(supply, "SupplyDetail")
            return []
        found = [(market, market_fields(market)) for market in supply.markets]
        kept = [fields for _, fields in found if isinstance(fields, list)]
        if found and not kept:
            is_wrong = all(isinstance(fields, Wrong) for _, fields in found)
            self.note(supply, "every Market", names=why_market(*found[0]), is_wrong=is_wrong)
            return []
        market = union_fields(kept or [["", "", ""]])
        if not all(map(is_field, market)):
            self.note(supply, "Market")
            return []
        details = [(detail, self.detail_record(detail)) for detail in supply.details]
        wrong = [record for _, record in details if isinstance(record, Wrong)]
        if len(wrong) == len(details):
            self.note(supply, "every SupplyDetail", names=wrong[0].reasons, is_wrong=True)
            return []
        for each, fields in found:
            self.note_market(each, fields)
        return [["ProductSupply", *market], *(record for one, its in details for record in self.detail(one, its))]

    def note_market(self, market: Market, fields: list[str] | Wrong | None) -> None:
        if isinstance(fields, Wrong):
            self.note(market, *fields.reasons, is_wrong=True)
        elif fields is None:
            self.note(market, REGION, names=tuple(regions_in_the_way(market.territory or Territory())))
        else:
            self.note_territory(market.territory)

    def detail_record(self, detail: Detail) -> Record | Wrong:
        role = "" if detail.identifiers is None else detail.role
        name = "" if detail.identifiers is None else detail.name
        supplier = chosen(detail.identifiers or [], self.words)
        codes = [price.unpriced for price in detail.prices if price.amount == "" and is_code(price.unpriced)]
        unpriced = detail.unpriced or (codes + [""])[0]
        found = {
            "SupplierRole": not is_code(role),
            "SupplierIDType": supplier is None,
            "IDValue": supplier is None,
            "Supplier": supplier == ["", ""] and name == "",
            "SupplierName": not is_field(name),
            "ProductAvailability": not is_code(detail.availability),
            "UnpricedItemType": not is_empty_or(is_code, unpriced),
            **dict.fromkeys(detail.old, True),
        }
        if any(found.values()):
            return Wrong(tuple(reason for reason, is_so in found.items() if is_so))
        return ["SupplyDetail", role, *(supplier or []), name, detail.availability, unpriced]

    def detail(self, detail: Detail, record: Record | Wrong) -> list[Record]:
        if isinstance(record, Wrong):
            self.note(detail, *record.reasons, is_wrong=True)
            return []
        found = prices_of(detail, self.message, record[-1])
        for each in found:
            self.note_price(each)
        written = [each for each in found if each.is_written()]
        self.counts[ROUNDED] += sum(is_rounded(each.price) for each in written)
        self.counts[DIFFERING] += count_differing(written)
        if self.words.terms is None:
            self.counts.update(NOT_READ[name] for each in written for name in each.price.discounts)
            return [record, *(each.record() for each in written)]
        bought = Bought(self.words.terms, found, ",".join(record[2:4]))
        return [record, *(one for each in written for one in self.computed(each, bought))]

    def computed(self, priced: Priced, bought: Bought) -> list[Record]:
        """The record of a written price, and after it those that the terms compute from it."""
        found = bought.outcome_of(priced)
        self.counts[UNFITTED] += found.is_unfitted
        self.counts[HELD_BACK] += found.held
        if found.is_free:
            self.note(priced.price, "computed price of 0")
        record = priced.record()
        return [record, *(computed_record(one, record) for one in found.written)]

    def note_price(self, priced: Priced) -> None:
        price, foreign = priced.price, priced.foreign
        if priced.is_unpriced:
            return
        if foreign:
            regions = regions_in_the_way(price.territory) if price.territory and foreign == [REGION] else ANY
            self.note(price, *foreign, names=tuple(regions))
        elif priced.wrong:
            self.note(price, *priced.wrong, is_wrong=True)
        else:
            self.note_territory(price.territory)


def market_fields(market: Market) -> list[str] | Wrong | None:
    """Its fields, or None if the desk has none for it."""
    if market.territory is None:
        return Wrong(("Territory",))
    if regions_in_the_way(market.territory):
        return None
    if wrong := wrong_in(market.territory):
        return Wrong(tuple(wrong))
    fields = territory_fields(market.territory)
    return fields if are_taken(fields) else Wrong(("CountriesIncluded", "CountriesExcluded"))


def why_market(market: Market, fields: list[str] | Wrong | None) -> tuple[str, ...]:
    """Names, one of which the line gives as the reason why a Market is left out."""
    return fields.reasons if isinstance(fields, Wrong) else tuple(regions_in_the_way(market.territory or Territory()))


def pairs(identifiers: list[Identifier]) -> Record:
    return [text for each in identifiers for text in (each.id_type, each.value)]


# Messages.


def size_of(records: list[Record]) -> int:
    return len(records_text(records))


class Filling:
    """Fills messages with products, one after the other."""

    def __init__(self, number: int, before: Record, behind: Record) -> None:
        self.number = number
        self.before = before
        self.behind = behind
        self.parts = [self.begun(0)]

    def begun(self, place: int) -> Part:
        opening = [*self.before, str(self.number + place), *self.behind]
        return Part(self.number + place, [opening], size_of([opening]))

    def following(self) -> Part:
        return self.begun(len(self.parts))

    def have_room(self, records: list[Record]) -> bool:
        """The last one, or the next."""
        return self.parts[-1].has_room(records) or self.following().has_room(records)

    def add(self, records: list[Record]) -> None:
        if not self.parts[-1].has_room(records):
            self.parts.append(self.following())
        part = self.parts[-1]
        part.records += records
        part.size += size_of(records)

    def end(self, count: int) -> list[Part]:
        if len(self.parts) > count:
            raise Refused(names=(str(len(self.parts)),))
        self.parts += [self.begun(place) for place in range(len(self.parts), count)]
        for part in self.parts:
            part.records.append(["EndMessage", str(len(part.records))])
        return self.parts


def had_price(product: Product) -> bool:
    """Whether it had a Price with an amount; those of a deletion are not checked."""
    details = [detail for supply in product.supplies for detail in supply.details]
    return product.notification != DELETION and any(price.amount for detail in details for price in detail.prices)


def are_several(records: list[Record]) -> bool:
    """Whether the suppliers of these SupplyDetails differ: by type and value, or by name if neither has them."""
    suppliers = [record[2:5] for record in records if record[0] == "SupplyDetail"]
    return len({(*pair, "" if any(pair) else name) for *pair, name in suppliers}) > 1


@dataclass
class Judged:
    """What was found in the products of a message: the wrong ones, without those of other suppliers alone, the notes on
    each, and the counts."""

    wrong: list[Product] = field(default_factory=list)
    notes: dict[Product, list[Note]] = field(default_factory=dict)
    counts: Counter[str] = field(default_factory=Counter)

    def put(self, one: Judge, filling: Filling) -> None:
        """Adds a product to the messages."""
        records = one.records()
        if records is not None:
            records = records if filling.have_room(records) else one.records_too_large()
            filling.add(records)
        self.count(one, records)
        self.notes[one.product] = one.notes
        if any(note.is_wrong for note in one.notes) and not one.is_of_others:
            self.wrong.append(one.product)

    def count(self, one: Judge, records: list[Record] | None) -> None:
        product, written = one.product, records or []
        self.counts.update(one.counts)
        self.counts[EMPTIED] += one.is_emptied
        self.counts[UNPRICED] += had_price(product) and not any(record[0] == "Price" for record in written)
        self.counts[OF_WORLD] += product.has_rights and one.is_of_world and not one.is_emptied
        self.counts[OF_SEVERAL] += one.words.supplier is None and are_several(written)
        self.counts[OF_OTHERS] += one.is_of_others
        if records is not None and not one.is_emptied and product.notification != DELETION:
            self.counts[DETAIL_OF_ANOTHER] += product.details_of_others

    def number(self) -> int:
        """How many products there are, without those of other suppliers alone."""
        return len(self.notes) - self.counts[OF_OTHERS]

    def is_let_through(self, wrong: str) -> bool:
        """Whether that word of the command line lets these wrong products through."""
        count, products = len(self.wrong), self.number()
        if wrong == "all" or count == 0:
            return True
        is_many = count > 10 and count * 100 > products or count >= 2 and count * 2 > products
        return wrong != "none" and not is_many

    def refusal(self) -> Refused:
        first = self.wrong[0]
        notes = [note for product in self.wrong for note in self.notes[product]]
        reference = first.reference if first.reference.isprintable() and len(first.reference) < 100 else ""
        return Refused(first, (str(len(self.wrong)), str(self.number()), reference), notes)


def lacks_supplier(message: Message) -> bool:
    """Whether no SupplyDetail is from the requested supplier, and one is from another; a deletion has none."""
    products = [each for each in message.products if each.notification != DELETION]
    has_of_others = any(each.details_of_others for each in products)
    return has_of_others and not any(each.details_of_it for each in products)


def judge(message: Message, words: Words) -> Verdict:
    """What should become of a message."""
    judged = Judged()
    try:
        filling = Filling(*opening_of(message, words))
        for product in message.products:
            judged.put(Judge(message, words, product), filling)
        if not judged.is_let_through(words.wrong):
            raise judged.refusal()
        parts = filling.end(words.parts)
    except Refused as refusal:
        return Verdict(refusal=refusal)
    notes = [note for found in judged.notes.values() for note in found]
    judged.counts[AGAIN] = message.again
    judged.counts[WITHOUT_PRODUCT] = not message.products and not message.says_none
    products, wrong = len(message.products), len(judged.wrong)
    return Verdict(parts, notes, products, wrong, judged.counts, lacks_supplier(message))
