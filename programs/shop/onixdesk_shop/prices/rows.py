"""A line of the file of prices, from the desk's answers and the state of the wholesaler's inbox."""

from pathlib import Path

from onixdesk_shop.machine import Machine
from onixdesk_shop.messages import Records
from onixdesk_shop.shop_json import Shop

# An inbox's report is believed for so many seconds.
SEEN_SECONDS = 900


def questions_about(isbn: str, day: str, shop: Shop) -> str:
    """Asks for the choice, all prices, and recommended ones if the shop names their type."""
    where = f"{isbn},{day},{shop.country},{shop.currency}"
    first = f"{where},{shop.price_type},{shop.quantities[0]}"
    lines = [f"AskChoice,{first}", f"AskPrice,{first}"]
    lines += [f"AskPrice,{where},{shop.recommended_type}"] * bool(shop.recommended_type)
    return "".join(f"{line}\n" for line in lines)


def recommended(answer: Records, key: tuple[str, ...]) -> str:
    """The recommended price that the page shows: the offer's, or its wholesaler's, or another one's. The key of an
    offer is its series, reference and place."""
    priced = {tuple(record[1:4]): record[5] for record in answer[1:] if record[5]}
    own = [amount for other, amount in priced.items() if other[:1] == key[:1]]
    return next(iter([*filter(None, [priced.get(key)]), *own, *priced.values()]), "")


def may_be_old(machine: Machine, state: Path) -> bool:
    """Whether the prices of a series may be old, by its SERIES.json: something waits for a person or a number, or
    nobody knows."""
    shown = machine.read_json(state)
    if machine.now() - shown.get("at", 0) > SEEN_SECONDS or not shown.get("desk") or shown.get("silent"):
        return True
    is_missing = shown["greatest"] is not None and shown["next"] <= shown["greatest"]
    return is_missing or any(shown.get(key) for key in ("quarantined", "refused", "waiting"))


def row(isbn: str, answers: list[Records], shop: Shop, old: set[str]) -> dict[str, str]:
    """The cells of an article by column; amounts are as the desk writes them."""
    choice, offers, *others = answers
    series, reference, place, availability, price = choice[0][3:] or [""] * 5
    offering = [series] if series else [record[1] for record in offers[1:]]
    return {
        "isbn": isbn,
        "wholesaler": shop.wholesalers.get(series, series),
        "series": series,
        "reference": reference,
        "availability": availability,
        "price": price,
        "currency": shop.currency,
        "rrp": recommended(others[0], (series, reference, place)) if others else "",
        "may_be_old": "yes" if old.intersection(offering) else "",
    }
