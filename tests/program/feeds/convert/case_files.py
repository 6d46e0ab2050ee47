"""Feeds in XML, and what `onixdesk convert` is to write of them.

The cases stand in tests/conversions (`written_cases`), and have these parts:

    -- PLACE      the XML at that place of a message that is else usual (`FRAMES`), or, where PLACE is
                  `file`, the whole file
    -- each PLACE lines with the escapes of Python, each of which stands at that place of a feed of its own; `prolog`
                  and `epilog` are places too, before the root and behind it
    -- words ..   words of the command line
    -- table ..   the terms of the shop, as TOML has an array of tables
    -- term ..    the one term, beside types = ["02"] and net = "05"
    -- records    the records that come of the XML at that place, each with LF; those around it and the
                  count of EndMessage are added
    -- all-records, of a file, or where those around the place are others
    -- notes      the notes on what the desk has no field for, behind the name of the file
    -- wrong      the notes on what the desk would not take; the status is then 1
    -- status 1   where neither these nor a refusal say so
    -- summary    the lines behind the notes, where they are not only added up; none where it is empty
    -- refused    the place in the file, or `anywhere`, and perhaps a part of the line that says why

In each `(PIECE){N}` is N times the piece. A place is a line and a column, as `2:7`, or a line and the first start tag
of an element there, as `2:<Price>`. Notes stand in the order of their places. Each case is converted in reference names
without a namespace and, but for whole files and `each`, in short tags in their namespace, in which columns are others.
"""

import re
from pathlib import Path
from typing import NamedTuple

from tests.program.written_cases import TESTS, Written, read_file, repeated, unescaped

FOLDER = TESTS / "conversions"

WHOLE_FILE, EACH = "file", "each "

# The reference names that count, with their short tags, as in ONIX. In ONIX 2.1 the Territory of a Price had another
# tag.
SHORT_TAGS = dict(
    pair.split("=")
    for pair in """
    ONIXMessage=ONIXmessage NoProduct=x507
    Header=header Sender=sender SenderIdentifier=senderidentifier
    SenderIDType=m379 IDValue=b244 Addressee=addressee AddresseeIdentifier=addresseeidentifier
    AddresseeIDType=m380 MessageNumber=m180 MessageRepeat=m181 SentDateTime=x307 DefaultPriceType=x310
    DefaultCurrencyCode=m186 Product=product RecordReference=a001 NotificationType=a002
    ProductIdentifier=productidentifier ProductIDType=b221 ProductSupply=productsupply Market=market
    Territory=territory CountriesIncluded=x449 RegionsIncluded=x450 CountriesExcluded=x451
    RegionsExcluded=x452 SupplyDetail=supplydetail Supplier=supplier SupplierRole=j292
    SupplierIdentifier=supplieridentifier SupplierIDType=j345 SupplierName=j137 ProductAvailability=j396
    UnpricedItemType=j192 Price=price PriceType=x462 PriceQualifier=j261 PricePer=j239
    PriceCondition=pricecondition PriceConditionType=x463 PriceConstraint=priceconstraint
    PriceConstraintType=x529 MinimumOrderQuantity=j263 PriceCoded=pricecoded PriceAmount=j151
    CurrencyCode=j152 CurrencyZone=x475 EpubLicense=epublicense EpubLicenseWithDate=epublicensewithdate
    PriceTypeCode=j148 ClassOfTrade=j149 PriceEffectiveFrom=j161 PriceEffectiveUntil=j162 CountryCode=b251
    CountryExcluded=j304 TerritoryExcluded=j308 (j303)=j303 SupplyToCountry=j138 SupplyToRegion=j139
    SupplyToCountryExcluded=j140 SupplyToTerritory=j397 OrderQuantityMinimum=x532 PriceDate=pricedate PriceDateRole=x476
    DateFormat=j260 Date=b306 Discount=discount DiscountCoded=discountcoded
    PublishingDetail=publishingdetail SalesRights=salesrights DiscountCodeType=j363 DiscountCode=j364
    DiscountCodeTypeName=j378 DiscountType=x467 Quantity=x320 DiscountPercent=j267 Tax=tax TaxRateCode=x471
    TaxRatePercent=x472
    """.split()
)


class Frame(NamedTuple):
    """What stands before and after a place in the XML, and before it in the records."""

    before: str
    behind: str
    records: str = ""


def within(frame: Frame, before: str, behind: str, records: str = "") -> Frame:
    return Frame(frame.before + before, behind + frame.behind, frame.records + records)


MESSAGE = Frame('<ONIXMessage release="3.0">', "</ONIXMessage>")
PRODUCTS = within(
    MESSAGE,
    "<Header><Sender><SenderIdentifier><SenderIDType>06</SenderIDType><IDValue>S</IDValue>"
    "</SenderIdentifier></Sender><MessageNumber>1</MessageNumber>"
    "<DefaultPriceType>02</DefaultPriceType><DefaultCurrencyCode>GBP</DefaultCurrencyCode></Header>",
    "",
    "Message,2,06,S,,,1,,,02,GBP\n",
)
PRODUCT = within(
    PRODUCTS,
    "<Product><RecordReference>R1</RecordReference><NotificationType>03</NotificationType>"
    "<ProductIdentifier><ProductIDType>15</ProductIDType><IDValue>9781234567897</IDValue>"
    "</ProductIdentifier>",
    "</Product>",
    "Product,R1,03,15,9781234567897\n",
)
SUPPLIER = (
    "<Supplier><SupplierRole>04</SupplierRole><SupplierName>North</SupplierName></Supplier>"
    "<ProductAvailability>21</ProductAvailability>"
)
SUPPLY = within(PRODUCT, "<ProductSupply>", "</ProductSupply>")
DETAILS = within(
    SUPPLY,
    "<Market><Territory><CountriesIncluded>GB</CountriesIncluded></Territory></Market>",
    "",
    "ProductSupply,GB,,\n",
)

FRAMES = {
    "header": within(MESSAGE, "<Header>", "</Header>"),
    "message": MESSAGE,
    "products": PRODUCTS,
    "product": PRODUCT,
    "market": within(SUPPLY, "<Market>", f"</Market><SupplyDetail>{SUPPLIER}</SupplyDetail>"),
    "supply": SUPPLY,
    "details": DETAILS,
    "detail": within(DETAILS, "<SupplyDetail>", "</SupplyDetail>"),
    "prices": within(DETAILS, f"<SupplyDetail>{SUPPLIER}", "</SupplyDetail>", "SupplyDetail,04,,,North,21,\n"),
}
FRAMES["prolog"] = Frame("", PRODUCTS.before + PRODUCTS.behind, PRODUCTS.records)
FRAMES["epilog"] = Frame(PRODUCTS.before + PRODUCTS.behind, "", PRODUCTS.records)
FRAMES["price"] = within(FRAMES["prices"], "<Price><PriceAmount>12.99</PriceAmount>", "</Price>")


PLACE = re.compile("([0-9]+):(?:([0-9]+)|(<[A-Za-z]+))>?(.*)", re.DOTALL)

# The place of a refusal that is not compared.
ANYWHERE = "anywhere"


class Converted(NamedTuple):
    """What comes of a feed: its records, None where it is refused; the notes, the wrong ones apart; the place of the
    refusal with a part of why, empty where there is none; and whether the status is 1 though nothing of these says so.
    """

    records: bytes | None
    notes: list[str]
    wrong: list[str]
    refused: str
    is_told: bool = False

    def wrong_products(self) -> int:
        """How many wrong products are let through; each has a reference of its own, or none."""
        references = [line.split(": ")[1] for line in self.wrong] if self.records is not None else []
        return len({*references} - {"missing"}) + references.count("missing")

    def status(self) -> int:
        return 1 if self.wrong or self.refused or self.is_told else 0


class Case(NamedTuple):
    name: str
    place: str
    xml: str
    words: list[str]
    table: str
    wanted: Converted
    summary: list[str] | None

    def lines(self) -> list[bytes]:
        """The feeds of a case that has one on each line."""
        frame = FRAMES.get(self.place.removeprefix(EACH), Frame("", ""))
        return [unescaped(f"{frame.before}{line}{frame.behind}") for line in self.xml.splitlines()]

    def texts(self) -> dict[str, str]:
        """The feed in each kind of names. What stands at the place begins on line 2."""
        if self.place == WHOLE_FILE:
            return {"": self.xml}
        frame = FRAMES[self.place]
        text = f"{frame.before}\n{self.xml}{frame.behind}"
        return {"": text, " in short tags": in_short_tags(text)}

    def feeds(self) -> list["Feed"]:
        if self.place.startswith(EACH):
            lines = enumerate(self.lines(), 1)
            return [Feed(f"{self.name}, {number}", line, self.wanted, self.summary) for number, line in lines]
        texts = self.texts()
        return [
            Feed(self.name + names, text.encode(), placed_all(self.wanted, texts[""], text), self.summary)
            for names, text in texts.items()
        ]


class Feed(NamedTuple):
    """A case in one kind of names."""

    name: str
    data: bytes
    wanted: Converted
    summary: list[str] | None


def said(lines: list[str]) -> bytes:
    """These lines of the converter on standard error."""
    return "".join(f"onixdesk: {line}\n" for line in lines).encode()


def in_short_tags(text: str) -> str:
    """The XML with the short tags of these names."""

    def short(found: re.Match[str]) -> str:
        return f"{found[1]}{SHORT_TAGS.get(found[2], found[2])}"

    namespace = ' xmlns="http://ns.editeur.org/onix/3.0/short"'
    text = re.sub(r"(</?(?:[a-z]+:)?)([A-Za-z]+)", short, text)
    return text.replace("<ONIXmessage", "<ONIXmessage" + namespace, 1)


def placed(said: str, text: str, written: str) -> str:
    """A line about a place in the text, with the line and the column of that place in the text as it is written in
    either kind of names."""
    found = PLACE.fullmatch(said)
    if not found:
        return said
    line, column, element, rest = found.groups()
    begin = sum(len(each) + 1 for each in text.split("\n")[: int(line) - 1])
    if element:
        tag = re.compile(rf"{element}\b").search(text, begin)
        assert tag
        at = tag.start()
    else:
        at = begin + int(column) - 1
    before = text[:at] if written == text else in_short_tags(text[:at])
    return f"{line}:{len(before) - before.rfind(chr(10))}{rest}"


def placed_all(wanted: Converted, text: str, written: str) -> Converted:
    return Converted(
        wanted.records,
        [placed(line, text, written) for line in wanted.notes],
        [placed(line, text, written) for line in wanted.wrong],
        placed(wanted.refused, text, written),
        wanted.is_told,
    )


def records_of(place: str, text: str) -> str:
    records = FRAMES[place.removeprefix(EACH)].records + text
    return f"{records}EndMessage,{records.count(chr(10))}\n"


def case_of(written: Written) -> Case:
    """The case in this form: the text of a part that has only its head."""
    parts = {}
    for head, body in written.parts:
        key, _, value = (head, "", "") if head.startswith(EACH) else head.partition(" ")
        parts[key] = repeated(value or (body.rstrip("\n") + "\n" if body.strip() else ""))
    place = next(key for key in parts if key in FRAMES or key == WHOLE_FILE or key.startswith(EACH))
    words = parts.get("words", "").split()
    table = parts.get("table", f'[{{ types = ["02"], net = "05", {parts["term"]} }}]' if "term" in parts else "")
    records = None
    if "refused" not in parts:
        records = (parts.get("all-records") or records_of(place, parts["records"])).encode()
    lines = {key: text.rstrip("\n").split("\n") if text else [] for key, text in parts.items()}
    summary = lines.get("summary")
    notes, wrong = lines.get("notes", []), lines.get("wrong", [])
    wanted = Converted(records, notes, wrong, parts.get("refused", ""), "status" in parts)
    return Case(written.name, place, parts[place], words, table, wanted, summary)


def read_cases(path: Path) -> list[Case]:
    return [case_of(written) for written in read_file(path)]
