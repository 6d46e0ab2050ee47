"""The form of the file of prices, from desk.json: its columns, and what orders have too (docs/PAGE.md)."""

import re
from dataclasses import dataclass
from typing import Any

from onixdesk_shop.faults import BadCall
from onixdesk_shop.shop_json import Shop

COLUMNS = "isbn wholesaler series reference availability price currency rrp day may_be_old".split()

AMOUNTS = "price", "rrp"

BLANKS = re.compile("[\x00-\x1f\x7f-\x9f\u2028\u2029]+")

# Where a spreadsheet would read a formula: in a cell, or in a part that another separator would make a cell.
FORMULA = re.compile(r"(?:^|(?<=[,;|]))(?=[\s\ufeff'\"]*[=+\-@\uff1d\uff0b\uff0d\uff20])")


def cell_of(text: str) -> str:
    """A text as a cell: on one line, in quotation marks if some program might split it, and never a formula."""
    safe = FORMULA.sub("'", BLANKS.sub(" ", text).strip())
    return '"' + safe.replace('"', '""') + '"' if re.search('[",;|]', safe) else safe


@dataclass(frozen=True)
class Form:
    """The keys of `price_file`. `heading` has the first line, or nothing."""

    columns: list[str]
    separator: str
    heading: list[str]
    decimal: str = "."

    def cell(self, column: str, text: str) -> str:
        """The cell of a column; amounts are as the desk writes them."""
        if column in AMOUNTS:
            text = re.sub(r"(\.\d\d)0$", r"\1", text).replace(".", self.decimal)
        return cell_of(text)

    def line(self, cells: dict[str, str]) -> str:
        return self.separator.join(self.cell(name, cells[name]) for name in self.columns) + "\r\n"

    def head(self) -> str:
        """What a file begins with."""
        return self.separator.join(map(cell_of, self.heading)) + "\r\n" if self.heading else ""


def form_of(shop: Shop) -> Form:
    """The form in desk.json, or all columns without one; raises BadCall with the first wrong key."""
    given = shop.given.get("price_file", {})
    separator = ";" if given.get("decimal") == "," else ","
    form: dict[str, Any] = {"columns": COLUMNS, "heading": True, "separator": separator, "decimal": "."}
    form |= given
    if isinstance(form["heading"], bool):
        form["heading"] = form["columns"] if form["heading"] else []
    is_right = {
        "columns": form["columns"] and {*form["columns"]} <= {*COLUMNS},
        "heading": len(form["heading"]) in (0, len(form["columns"])),
        "separator": form["separator"] in (",", ";", "|", "\t") and form["separator"] != form["decimal"],
        "decimal": form["decimal"] in (".", ","),
    }
    for key in form:
        if not is_right.get(key):
            raise BadCall(f"desk.json: price_file: {key}")
    return Form(**form)
