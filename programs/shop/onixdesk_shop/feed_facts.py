"""Reads a feed from standard input, and writes as JSON what its records do not have: its discount codes, and how many
Prices of which type have each."""

import json
from collections import Counter
from collections.abc import Iterator
from xml.etree.ElementTree import Element

from onixdesk_shop.feed_products import text_in

# The elements that count, by their short tags.
TAGS = """
header=Header x310=DefaultPriceType product=Product productsupply=ProductSupply supplydetail=SupplyDetail
price=Price x462=PriceType discountcoded=DiscountCoded j363=DiscountCodeType j378=DiscountCodeTypeName
j364=DiscountCode
"""


def write(elements: Iterator[Element]) -> None:
    codes: Counter[tuple[str, str, str]] = Counter()
    default = ""
    for element in elements:
        default = default or text_in(element, "DefaultPriceType")
        for price in element.iterfind("ProductSupply/SupplyDetail/Price"):
            kind = text_in(price, "PriceType") or default
            codes.update({(kind, *code_of(coded)) for coded in price.iterfind("DiscountCoded")})
    print(json.dumps(codes.most_common()))


def code_of(coded: Element) -> tuple[str, str]:
    """A code, TYPE,CODE, and its scheme."""
    code = f"{text_in(coded, 'DiscountCodeType')},{text_in(coded, 'DiscountCode')}"
    return code, text_in(coded, "DiscountCodeTypeName")
