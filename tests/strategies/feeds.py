"""Feeds, and the words to convert them with, as strategies of Hypothesis. Each choice has its simplest first, so that a
failing feed shrinks to one that is short and right except for what makes it fail."""

import re
from typing import Any, TypeVar

from hypothesis import strategies as st
from hypothesis.strategies import SearchStrategy

from tests.program.feeds.convert.case_files import FRAMES, in_short_tags
from tests.program.feeds.feed_trees import Term, Words

Text = SearchStrategy[str]
Made = TypeVar("Made")

CONTROL = "x&#127;"
# More than the 1,024 bytes of a field.
LONG = "é" * 513

SENDER = ("06", "S,1")
SHOP = ("06", "5012345678900")


def element(name: str, inside: str, attributes: str = "") -> str:
    return f"<{name}{attributes}>{inside}</{name}>"


def rarely(odd: SearchStrategy[Made], usual: SearchStrategy[Made], of: int) -> SearchStrategy[Made]:
    """The odd once in so many."""
    return st.integers(1, of).flatmap(lambda number: odd if number == of else usual)


def parts(*texts: Text) -> Text:
    return st.tuples(*texts).map("".join)


def composite(name: str, *texts: Text) -> Text:
    """One with these in it, in any order."""
    return st.builds(element, st.just(name), rarely(parts(*reversed(texts)), parts(*texts), 6))


def few(text: Text, most: int, least: int = 0) -> Text:
    return st.lists(text, min_size=least, max_size=most).map("".join)


def some(text: Text, most: int) -> Text:
    """Mostly one or more, which shrink to none."""
    any_of, one_or_more = few(text, most), few(text, most, 1)
    return st.integers(0, 9).flatmap(lambda number: one_or_more if number else any_of)


def leaf(name: str, usual: str, odd: str | None = None, of: int = 40) -> Text:
    """An element with one of the usual texts, which bars separate, or with an odd one; it is missing if that text is
    empty."""

    def texts(text: str) -> Text:
        return st.sampled_from([element(name, each) if each else "" for each in text.split("|")])

    return texts(usual) if odd is None else rarely(texts(odd), texts(usual), of)


def some_of(*texts: str) -> Text:
    return st.sampled_from(texts)


def identifier(name: str, id_type: Text, value: Text) -> Text:
    return composite(f"{name}Identifier", id_type, value)


def identifiers(name: str, most: int) -> Text:
    value = "5012345678900|5030670000009|S,1|a &quot;b&quot; &lt;é"
    id_type = leaf(f"{name}IDType", "06|01|02", "|6|GLN")
    return few(identifier(name, id_type, leaf("IDValue", value, f"|{CONTROL}|{LONG}")), most)


# Territories.

COUNTRIES = ["GB", "IE", "FR", "US", "UK", "EL"]
# Those whose lists become longer than a field, or almost.
LETTERS = "ABCDEFGHIJKLMNOPQRSTUVWXYZ"
MANY = " ".join([first + second for first in LETTERS for second in LETTERS][:341])


def listed(name: str, found: list[str]) -> str:
    return element(name, " ".join(found)) if found else ""


def countries(name: str, most: int) -> Text:
    usual = st.builds(listed, st.just(name), st.lists(st.sampled_from(COUNTRIES), max_size=most))
    return rarely(leaf(name, f"gb|GBR|GB,IE|{MANY}|{MANY} ZZ"), usual, 25)


TERRITORY = composite(
    "Territory",
    countries("CountriesIncluded", 3),
    leaf("RegionsIncluded", "||WORLD", "WORLD WORLD|GB-NIR|ECZ WORLD|ROW|GB|world", 8),
    countries("CountriesExcluded", 2),
    leaf("RegionsExcluded", "", "CA-QC|GB-NIR US-NY2|ECZ|IE|GB-|WORLD", 8),
)

# Markets are of countries, or of the world without some, so that several of a ProductSupply merge in every way.
WORLD_BUT = composite("Territory", leaf("RegionsIncluded", "WORLD|"), countries("CountriesExcluded", 2))
MARKET = composite("Market", rarely(some_of(""), st.one_of(TERRITORY, WORLD_BUT), 20), leaf("SalesRestriction", "|x"))


# Prices.

# A text and its format, of one day, month or year, and of two days.
DAYS = [("20250101", ""), ("20250630", "00"), ("2025-01-31", "14"), ("20250630T0900", "13"), ("202502", "01")]
DAYS += [("2024-02", "01"), ("2025", "05")]
TWO_DAYS = [("2025010120250630", "06"), ("2025063020251231", "06")]
NO_DAYS = [("", ""), ("20250230", "00"), ("2025-0101", "00"), ("202513", "01"), ("0000", "05"), ("00000000", "")]
NO_DAYS += [("20250101", "02"), ("20250101", "06"), ("2025010120250230", "06"), ("2025010120250630", "")]


def dated(role: str, day: tuple[str, str], in_element: bool) -> str:
    """The format is in an element, or in an attribute, which takes precedence."""
    text, form = day
    attribute = f' dateformat="{form}"' if form and not in_element else ""
    told = element("DateFormat", form if in_element else "13") if form else ""
    date = element("Date", text, attribute) if text else ""
    return element("PriceDate", element("PriceDateRole", role) + date + told)


ROLES = st.sampled_from(["14", "15"])
DATE = st.one_of(
    st.builds(dated, ROLES, st.sampled_from(DAYS), st.booleans()),
    st.builds(dated, st.just("24"), st.sampled_from(TWO_DAYS), st.booleans()),
)
ODD_DATE = st.builds(dated, st.sampled_from(["14", "15", "24", "13"]), st.sampled_from(NO_DAYS + DAYS), st.booleans())

# What leaves a Price out, or is ignored in one.
ODD_IN_PRICE = some_of(
    "<PriceStatus>02</PriceStatus>",
    "<PriceCondition><PriceConditionType>00</PriceConditionType></PriceCondition>",
    "<PriceQualifier>05</PriceQualifier>",
    "<PriceQualifier>06</PriceQualifier>",
    "<PricePer>01</PricePer>",
    "<PriceCondition><PriceConditionType>10</PriceConditionType></PriceCondition>",
    "<PriceCondition/>",
    "<PriceConstraint><PriceConstraintType>06</PriceConstraintType></PriceConstraint>",
    "<PriceCoded/>",
    "<EpubLicense><EpubLicenseName>x</EpubLicenseName></EpubLicense>",
    "<EpubLicenseWithDate/>",
    "<CurrencyZone>EUR</CurrencyZone>",
    "<UnpricedItemType>01</UnpricedItemType>",
    "<PriceTypeCode>02</PriceTypeCode>",
    "<CountryCode>GB</CountryCode>",
    "<PriceEffectiveFrom>20250101</PriceEffectiveFrom>",
    "<PriceType>02</PriceType>",
    "<Territory/>",
)

CODED = composite(
    "DiscountCoded",
    leaf("DiscountCodeType", "02|01", "", 20),
    leaf("DiscountCodeTypeName", "|House|Press"),
    leaf("DiscountCode", "A|B C|é,1", "", 20),
)
DISCOUNT = composite(
    "Discount",
    leaf("DiscountType", "|01", "02", 10),
    leaf("Quantity", "|5|10|0010|0", "1234567|x", 20),
    leaf("DiscountPercent", "40|45.25|42.5000|100.00|0|1", "100.01|12,5||.5|1000|0.40", 8),
)
TAX = composite("Tax", leaf("TaxRateCode", "|Z|S"), leaf("TaxRatePercent", "20|5.50|0|", "x|0.2", 8))

AMOUNT = leaf(
    "PriceAmount",
    "9.00|12.99|12.345|0.01|7|9.8765|11.9990|999999999.999",
    "0.000|12,99|.99|1.23449|0009.99950||1234567890|999999999.9996|0.0004|1234567890.1234",
    12,
)
ODD = rarely(few(ODD_IN_PRICE, 2, 1), some_of(""), 8)
PRICED = parts(few(CODED, 2), few(DISCOUNT, 2), AMOUNT, rarely(few(TAX, 2), few(TAX, 1), 4), ODD)
DATES = few(rarely(ODD_DATE, DATE, 15), 2)
KIND = parts(
    leaf("PriceType", "|02|42|05|04|07", "3|RRP"),
    leaf("MinimumOrderQuantity", "||1|5|10|010|0", "1.5|1234567|two"),
    leaf("CurrencyCode", "|GBP|EUR", "gbp|EURO"),
)
PRICE = composite("Price", KIND, PRICED, rarely(TERRITORY, some_of(""), 3), DATES)


def territory(included: str, world: str = "", excluded: str = "") -> str:
    named = {"CountriesIncluded": included, "RegionsIncluded": world, "CountriesExcluded": excluded}
    return element("Territory", "".join(listed(name, text.split()) for name, text in named.items()))


# Prices that differ only in where they hold and in their amount.
WHERE = ["", territory("GB"), territory("", "WORLD"), territory("IE GB IE"), territory("", "WORLD", "US UK")]
WHERE += [territory("FR GB", "", "GB"), territory("FR", "WORLD"), territory("", "", MANY)]


def alike(same: tuple[str, str]) -> Text:
    kind = rarely(KIND, st.just(same[0]), 8)
    return few(composite("Price", kind, PRICED, rarely(TERRITORY, some_of(*WHERE), 8), st.just(same[1])), 4, 2)


ALIKE = st.tuples(KIND, rarely(DATES, some_of(""), 3)).flatmap(alike)


# Supplies, products and messages.

# The supplier that may be requested and another one, who may have a number of the same value.
THESE = [("06", "5030670000009"), ("01", "5030670000009"), ("06", "5012345678900")]


def of_this(pair: tuple[str, str]) -> Text:
    return identifier("Supplier", leaf("SupplierIDType", pair[0]), leaf("IDValue", pair[1]))


SUPPLIED = composite(
    "Supplier",
    leaf("SupplierRole", "04|01", "|4"),
    rarely(identifiers("Supplier", 2), few(st.sampled_from(THESE).flatmap(of_this), 2), 3),
    leaf("SupplierName", "North|South &amp; Sons", f"|{CONTROL}|{LONG}", 15),
    leaf("SupplierRole", "", "02", 15),
)

DETAIL = composite(
    "SupplyDetail",
    rarely(some_of(""), SUPPLIED, 40),
    leaf("OrderQuantityMinimum", "|||5|0012", "0|two"),
    leaf("ProductAvailability", "21|40", "|2|x"),
    leaf("UnpricedItemType", "||01", "x"),
    leaf("SupplyToCountry", "", "GB"),
    st.one_of(some(PRICE, 4), ALIKE),
)

SUPPLY = composite("ProductSupply", few(MARKET, 3), some(DETAIL, 3))

ISBN = composite(
    "ProductIdentifier",
    leaf("ProductIDType", "15|03|01"),
    leaf("IDValue", "9780000000002|978-0-00-000000-2|978\u20110 000\u00a0000002", "978000000000|97800000000022", 6),
)

PRODUCT = composite(
    "Product",
    leaf("RecordReference", "R1|R2|R,3|R &quot;4&quot;", f"|{CONTROL}|{LONG}"),
    leaf("NotificationType", "03|04|05|01|02|88", "|3|three"),
    rarely(identifiers("Product", 3), ISBN, 5),
    leaf("PublishingDetail", "|<SalesRights/>|<Note><SalesRights/></Note>"),
    leaf("RecordReference", "", "R5", 12),
    some(SUPPLY, 2),
)

ADDRESSEE = composite("Addressee", identifiers("Addressee", 2))

# Most are accepted, with the words below.
HEADER = composite(
    "Header",
    rarely(composite("Sender", identifiers("Sender", 2)), some_of(element("Sender", "")), 4),
    rarely(few(ADDRESSEE, 2), some_of("", element("Addressee", "")), 8),
    leaf("MessageNumber", "1|7|0012|00000000400000", "|0|x|1234567890|999999999", 15),
    leaf("MessageRepeat", "|2", "x|1234567890"),
    leaf("SentDateTime", "|20250303T0615Z", f"{CONTROL}|{LONG}"),
    leaf("DefaultPriceType", "02|02|02|", "2"),
    leaf("DefaultCurrencyCode", "GBP|GBP|GBP|", "gbp"),
)

MESSAGE = rarely(parts(PRODUCT, HEADER), parts(HEADER, some(PRODUCT, 3)), 60)


# What is put before or after an end tag: what comes again, with the NAME in that tag; what changes nothing, or is a
# stranger; and what makes it no message.
AGAIN = ["<NAME/>", "<NAME>7</NAME>"]
ASIDE = [
    " \n",
    "<!-- a -->",
    "<?a b?>",
    "<Note><Price/><IDValue>7</IDValue></Note>",
    "&#65;",
    "&eacute;",
    "<![CDATA[ <x> & ]]>",
    "<NoProduct/>",
    "<Market/>",
    "<SupplyDetail/>",
    "<Product/>",
    "<CountriesIncluded>FR</CountriesIncluded>",
    "<Supplier/>",
    "<NotificationType>05</NotificationType>",
    "<PriceType>05</PriceType>",
    "<DiscountPercent>5</DiscountPercent>",
    "<PriceAmount>8.00</PriceAmount>",
    "<SupplierIDType>01</SupplierIDType>",
    "<Tax><TaxRatePercent/></Tax>",
    "<Price xmlns='urn:z'/>",
    "<z:Market xmlns:z='urn:z'/>",
    "<supplydetail/>",
    "<PRODUCTIDENTIFIER/>",
    "<Idvalue/>",
    "<supplier/>",
    "<discountcoded/>",
]
NO_MESSAGE = ["<Header/>", "&nobody;", "&", "<x y='1' y='1'/>", "<x", "</x>", "]]>"]

PUT = rarely(some_of(*NO_MESSAGE), st.one_of(some_of(*ASIDE), some_of(*AGAIN)), 15)
AMONG = st.lists(st.tuples(st.integers(0, 999), st.booleans(), PUT), max_size=3)


def with_aside(message: str, among: list[tuple[int, bool, str]]) -> str:
    for place, is_behind, aside in among:
        ends = [*re.finditer("</([A-Za-z]+)>", message)]
        end = ends[place % len(ends)]
        at = end.end() if is_behind else end.start()
        message = message[:at] + aside.replace("NAME", end[1]) + message[at:]
    return message


# Namespaces of a root: none, one of its own that a prefix has too, that of reference names, or short tags in theirs.
OWN = ' xmlns="urn:own" xmlns:o="urn:own"'
SHORT = "short tags"
ROOTS = ["", OWN, ' xmlns="http://ns.editeur.org/onix/3.0/reference"', SHORT]
# The elements whose names have the prefix, which puts them into the root's namespace, or, undeclared, into none.
PREFIXED = st.sets(some_of("Product", "Price", "IDValue", "Territory", "PriceAmount"), max_size=2)


def written(message: str, root: str, prefixed: set[str], release: str) -> str:
    for name in sorted(prefixed) if root in ("", OWN) else ():
        message = re.sub(rf"(</?)(?={name}\b)", r"\1o:", message)
    attributes = f'{root if root != SHORT else ""} release="{release}"'
    feed = element("ONIXMessage", message, attributes)
    return in_short_tags(feed) if root == SHORT else feed


FEEDS: Text = st.builds(
    written,
    st.builds(with_aside, MESSAGE, rarely(AMONG, st.just([]), 3)),
    st.sampled_from(ROOTS),
    PREFIXED,
    rarely(some_of("2.1", "3"), some_of("3.0", "3.1"), 60),
)


# Messages whose products have so many identifiers of 1,024 bytes: two of 2,040 are just too many for one part, and one
# of 2,042 where each byte is written twice.
SIZES = [(2_040, "x"), (2_039, "x"), (1_300, "x"), (3_400, "x"), (1, "x"), (2_041, '"'), (2_042, '"')]


def wide(size: int, letter: str) -> str:
    own = element("RecordReference", "R1") + element("NotificationType", "04")
    pair = element("ProductIDType", "01") + element("IDValue", letter * 1_024)
    return element("Product", own + (element("ProductIdentifier", pair) + "\n") * size)


def filled(sizes: list[tuple[int, str]]) -> str:
    return FRAMES["products"].before + "\n".join(wide(*size) for size in sizes) + FRAMES["products"].behind


LARGE: Text = st.builds(filled, st.lists(st.sampled_from(SIZES), min_size=2, max_size=3))


# Words, and tables of terms.

NUMBERS = [("", ""), ("7", ""), ("", "1000"), ("", "007")]


def words(tables: SearchStrategy[tuple[Term, ...] | None], more: int) -> SearchStrategy[Words]:
    """Words that let through what is wrong, or, once in so many, any."""

    def of(parts: int, numbers: tuple[str, str], id_type: str, wrong: str, *others: Any) -> Words:
        return Words(parts, *numbers, SENDER, SHOP, id_type, wrong, *others)

    wrong = rarely(some_of("", "few", "none"), some_of("all"), more)
    choices = st.sampled_from([1, 2, 100]), st.sampled_from(NUMBERS), some_of("", "01"), wrong, tables
    return st.builds(of, *choices, st.sampled_from([None, THESE[0]]))


def term(types: tuple[str, ...], percent: str, codes: set[str], scheme: str, *others: str) -> Term:
    return Term(types, "07" if "05" in types else "05", percent, tuple(sorted(codes)), scheme if codes else "", *others)


TERM = st.builds(
    term,
    st.sampled_from([("02",), ("02", "42"), ("04", "02"), ("05",), ("01", "02")]),
    some_of("50", "feed", "0", "42.5", "33.33", "007.5", "100"),
    st.sets(some_of("02,A", "01,A", "02,B C", "02,é,1"), max_size=2),
    some_of("", "", "House"),
    some_of("", "", ",".join(THESE[0])),
    some_of("", "", "GBP", "EUR"),
    some_of("", "", "20", "5.5", "250", "feed", "0"),
)


def table(terms: list[Term]) -> tuple[Term, ...]:
    return tuple(terms)


TABLES = st.lists(TERM, max_size=4).map(table)

WORDS = words(st.none(), 4)
WORDS_WITH_TERMS = words(TABLES, 20)
