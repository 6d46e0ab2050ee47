"""What desk.json says of the shop (docs/PAGE.md): one reader for all programs. The page reports unknown keys."""

import json
import re
from dataclasses import dataclass
from pathlib import Path
from typing import Any

from onixdesk_shop.faults import BadCall
from onixdesk_shop.machine import Machine

PATTERNS = {"country": "[A-Z]{2}", "currency": "[A-Z]{3}", "price_type": "[0-9]{2}", "recommended_type": "([0-9]{2})?"}


@dataclass(frozen=True)
class Shop:
    """The shop's questions: `quantities` has at least one number of copies, `recommended_type` is empty if the shop
    names none, `wholesalers` has their names by series. `given` is the whole object."""

    country: str
    currency: str
    price_type: str
    recommended_type: str
    quantities: list[int]
    wholesalers: dict[str, str]
    given: dict[str, Any]


def shop_of(given: Any) -> Shop:
    """The shop in the object of desk.json; raises ValueError, which names a key, if it is wrong."""
    texts = {key: given.get(key, "") for key in PATTERNS}
    for key, text in texts.items():
        if not isinstance(text, str) or not re.fullmatch(PATTERNS[key], text):
            raise ValueError(f"{key} is wrong, or missing")
    quantities = given.get("quantities") or [1]
    if not all(type(value) is int and 1 <= value <= 999_999 for value in quantities):
        raise ValueError("quantities is not a list of numbers of copies")
    wholesalers = {str(item["name"]): str(item.get("words", item["name"])) for item in given.get("series", [])}
    return Shop(**texts, quantities=quantities, wholesalers=wholesalers, given=given)


def read_shop(machine: Machine, path: Path) -> Shop:
    try:
        return shop_of(json.loads(machine.read(path)))
    except OSError as error:
        raise BadCall(f"{path}: {error.strerror}") from None
    except (ValueError, TypeError, AttributeError, KeyError) as error:
        raise BadCall(f"{path}: {error}") from None
