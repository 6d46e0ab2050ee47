"""The program's commands over feeds of the tests: a JSON object instead of XML."""

import json
import zlib
from collections.abc import Sequence
from pathlib import Path
from typing import Any

from onixdesk_shop.children import Ended
from tests.shop.fake_desk import FakeDesk, Records, is_message, records_of

SENDER = ("06", "4012345000009")

Feed = dict[str, Any]


def feed_of(number: int | None, products: dict[str, str], **more: Any) -> bytes:
    """A feed with the price of each reference; an empty price is a product without supplies, `-` a deletion."""
    return json.dumps({"number": number, "products": products, "parts": 1, **more}).encode()


def isbn_of(reference: str) -> str:
    return f"978{zlib.crc32(reference.encode()):010}"


def product_of(reference: str, price: str, percent: int | None) -> Records:
    kind = "05" if price == "-" else "03"
    records = [["Product", reference, kind, "15", isbn_of(reference)]]
    if price and price != "-":
        records += [["ProductSupply", "GB", "", ""], ["SupplyDetail", "04", "", "", "North", "21", ""]]
        records.append(["Price", "02", price, "GBP", "", "", "", "", ""])
        if percent is not None:
            records.append(["Price", "05", f"{float(price) * percent / 100:.2f}", "GBP", "", "", "", "", ""])
    return records


def message_of(number: int, products: list[Records], sent: str = "", sender: Sequence[str] = SENDER) -> str:
    records = [["Message", "2", *sender, "", "", str(number), "", sent, "", ""]]
    records += [record for product in products for record in product]
    return "".join(",".join(record) + "\n" for record in [*records, ["EndMessage", str(len(records))]])


def ended(words: list[str], text: bytes) -> Ended:
    """How a run of the program, or of the reader of titles, ends."""
    if "convert" in words:
        return convert(text, words)
    if "check" in words or "batch" in words:
        return check(text) if "check" in words else Ended(0, FakeDesk().batch(text.decode()).encode(), b"")
    return titles(text)


def convert(text: bytes, words: list[str]) -> Ended:
    try:
        feed: Feed = json.loads(text)
        feed["products"]
    except (ValueError, KeyError):
        return Ended(1, b"", b"onixdesk: -:1:1: refused: the XML is not well-formed\n")
    given = dict(zip(words, words[1:]))
    parts = int(given.get("--parts", 1))
    number = int(given["--number"]) if "--number" in given else feed["number"]
    if number is None:
        return Ended(1, b"", b"onixdesk: -: refused: no MessageNumber, and --number N gives one\n")
    number += int(given.get("--number-offset", 0))
    terms = Path(given["--terms"]).read_bytes() if "--terms" in given else None
    for part, text in enumerate(messages_of(feed, number, parts, terms)):
        (Path(given["-o"]) / f"message.part-{part:02}.csv").write_text(text)
    return Ended(0, b"", feed.get("said", "").encode())


def messages_of(feed: Feed, number: int, parts: int, terms: bytes | None) -> list[str]:
    percent = None if terms is None else int(terms)
    products = [product_of(reference, price, percent) for reference, price in feed["products"].items()]
    sender = feed.get("sender", SENDER)
    return [
        message_of((number - 1) * parts + part + 1, products[part::parts], feed.get("sent", ""), sender)
        for part in range(parts)
    ]


def titles(text: bytes) -> Ended:
    feed: Feed = json.loads(text)
    rows = [[isbn_of(name), price == "-", f"Title {name}", "", "", ""] for name, price in feed["products"].items()]
    return Ended(0, "\n".join(map(json.dumps, rows)).encode(), b"")


def check(text: bytes) -> Ended:
    records = records_of(text.decode())
    return Ended(0, b"", b"") if is_message(records) else Ended(1, b"", b"onixdesk: -: line 1: it is malformed\n")
