"""The real desk for trying the page: the week of the shop, and later messages of one of its wholesalers."""

from tests.page.site import DATABASE
from tests.program.room import Room
from tools.root import ROOT

ISBN = "9781234567897"

SENDER = "06,4012345000009"
SHOP = "06,5012345678900"


def empty_message(number: int, sender: str = SENDER) -> str:
    return f"Message,1,{sender},{SHOP},{number},1,20250306,02,GBP\nEndMessage,1\n"


# North's messages 1 and 2 are applied; with 5 and 9 the numbers 3 to 4 and 6 to 8 are missing.
GAPS = empty_message(5) + empty_message(9)


def fill(room: Room) -> None:
    """Makes the database of the week with the gaps; some of the week's answers are refusals."""
    batch = (ROOT / "examples/shop/week.csv").read_text(encoding="utf-8") + GAPS
    filled = room.run("--db", DATABASE, "--rules", ROOT / "examples/shop/rules.toml", "batch", given=batch.encode())
    if filled.status != 1:
        raise RuntimeError(f"the database of the test: {filled.output!r} {filled.errors!r}")


def article(isbn: str = ISBN, **given: str) -> str:
    """The address of the article view: the shop's questions of the week, unless others are given."""
    asked = {"isbn": isbn, "day": "2025-04-10", "country": "GB", "currency": "GBP", "type": "02"} | given
    return "#article?" + "&".join(f"{name}={value}" for name, value in asked.items())
