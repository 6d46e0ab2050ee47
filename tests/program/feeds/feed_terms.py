"""The grammar of the desk's fields, as the documents of its CSV form have it."""

import datetime
import re
from collections.abc import Callable
from functools import cache


# The same few texts occur in many places of a feed.
@cache
def matches(pattern: str, text: str) -> bool:
    return re.fullmatch(pattern, text, re.ASCII) is not None


CONTROL = re.compile(r"[\x00-\x1f\x7f]")


def is_field(text: str) -> bool:
    """At most 1,024 bytes, and no control character of ASCII."""
    return len(text.encode()) <= 1024 and (text.isprintable() or not CONTROL.search(text))


def is_filled(text: str) -> bool:
    return text != "" and is_field(text)


def is_code(text: str) -> bool:
    return matches("[0-9]{2}", text)


def is_number(text: str) -> bool:
    return matches("[0-9]{1,9}", text) and int(text) > 0


def is_repeat(text: str) -> bool:
    return matches("[0-9]{1,9}", text)


def is_amount(text: str) -> bool:
    return matches(r"[0-9]{1,9}(\.[0-9]{1,3})?", text)


def is_quantity(text: str) -> bool:
    return matches("[0-9]{1,6}", text) and int(text) > 0


def is_currency(text: str) -> bool:
    return matches("[A-Z]{3}", text)


def is_country(text: str) -> bool:
    return matches("[A-Z]{2}", text)


def are_countries(text: str) -> bool:
    return is_field(text) and all(map(is_country, text.split(" ")))


def is_day(text: str) -> bool:
    if not matches("[0-9]{8}", text):
        return False
    try:
        datetime.date(int(text[:4]), int(text[4:6]), int(text[6:]))
    except ValueError:
        return False
    return True


def is_empty_or(is_term: Callable[[str], bool], text: str) -> bool:
    return text == "" or is_term(text)
