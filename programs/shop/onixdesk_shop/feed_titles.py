"""Reads a feed from standard input, and writes a line of JSON for each product with an ISBN: the ISBN, whether it is a
deletion, title, subtitle, contributors, publisher."""

import json
import re
from collections.abc import Iterator
from typing import Any
from xml.etree.ElementTree import Element

from onixdesk_shop.feed_products import LONGEST, text_in

# How many contributors are kept.
CONTRIBUTORS = 3

# The elements that count, by their short tags.
TAGS = """
product=Product a002=NotificationType productidentifier=ProductIdentifier b221=ProductIDType b244=IDValue
descriptivedetail=DescriptiveDetail titledetail=TitleDetail b202=TitleType titleelement=TitleElement
x409=TitleElementLevel b203=TitleText b030=TitlePrefix b031=TitleWithoutPrefix b029=Subtitle contributor=Contributor
b035=ContributorRole b036=PersonName b037=PersonNameInverted b047=CorporateName
publishingdetail=PublishingDetail publisher=Publisher b081=PublisherName imprint=Imprint b079=ImprintName
"""


def isbn_of(product: Element) -> str:
    found: dict[str, str] = {}
    for each in product.iterfind("ProductIdentifier"):
        value = re.sub(r"[\s\u00ad\u2010-\u2015\u2212-]", "", text_in(each, "IDValue"))
        if re.fullmatch("[0-9]{13}", value, re.ASCII):
            found.setdefault(text_in(each, "ProductIDType"), value)
    return found.get("15") or found.get("03") or ""


def title_of(product: Element) -> tuple[str, str]:
    for title in product.iterfind("DescriptiveDetail/TitleDetail"):
        if text_in(title, "TitleType") == "01":
            for element in title.iterfind("TitleElement"):
                if text_in(element, "TitleElementLevel") == "01":
                    parts = text_in(element, "TitlePrefix"), text_in(element, "TitleWithoutPrefix")
                    return text_in(element, "TitleText") or " ".join(filter(None, parts)), text_in(element, "Subtitle")
    return "", ""


def contributors_of(product: Element) -> str:
    found = []
    for each in product.iterfind("DescriptiveDetail/Contributor"):
        names = (text_in(each, tag) for tag in ("PersonName", "PersonNameInverted", "CorporateName"))
        role = text_in(each, "ContributorRole")
        if name := next(filter(None, names), ""):
            found.append(f"{name} ({role})" if role else name)
    return "; ".join(found[:CONTRIBUTORS])[:LONGEST]


def row_of(product: Element) -> list[Any]:
    publisher = text_in(product, "PublishingDetail/Publisher/PublisherName")
    imprint = text_in(product, "PublishingDetail/Imprint/ImprintName")
    is_deletion = text_in(product, "NotificationType") == "05"
    return [isbn_of(product), is_deletion, *title_of(product), contributors_of(product), publisher or imprint]


def write(elements: Iterator[Element]) -> None:
    for row in map(row_of, elements):
        if row[0] and (row[1] or row[2]):
            print(json.dumps(row))
