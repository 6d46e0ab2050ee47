"""The page with a stand-in for the desk: three wholesalers with net prices of any number of books. Expected values are
computed here, in decimals. No nginx, password or program stands between."""

import json
import threading
import time
from decimal import Decimal
from http.server import ThreadingHTTPServer
from typing import NamedTuple
from urllib.parse import parse_qs, urlsplit

from tests.program.serving import HOST, LOOK, StandIn
from tools.root import ROOT

PAGE = ROOT / "page"

KINDS = {"html": "text/html", "js": "text/javascript", "css": "text/css", "json": "application/json"}

WHOLESALERS = {"alpha": "Alpha Books", "beta": "Beta & Sons", "gamma": "Gamma"}


def isbn_of(number: int) -> str:
    """An ISBN-13, with the check digit of the standard."""
    twelve = f"97805{number:07d}"
    total = sum(int(digit) * (1, 3)[at % 2] for at, digit in enumerate(twelve))
    return twelve + str(-total % 10)


class Offer(NamedTuple):
    series: str
    amount: Decimal | None
    availability: str = "21"

    def body(self) -> dict[str, object]:
        amount = None if self.amount is None else f"{self.amount:.3f}"
        return {
            "series": self.series, "reference": f"{self.series}-1", "place": 1,
            "availability": self.availability, "amount": amount,
        }  # fmt: skip


class Book(NamedTuple):
    """The offers of a book, and which one the rules take, if any, by which rule."""

    offers: list[Offer]
    chosen: int | None = 0
    rule: int = 1


def book_of(number: int) -> Book:
    """Alpha has each book; one of three is taken from beta, and one from gamma, for less."""
    amount = Decimal(500 + number) / 100
    series = ["alpha", "beta", "gamma"][number % 3]
    if series == "alpha":
        return Book([Offer("alpha", amount)])
    return Book([Offer("alpha", amount), Offer(series, amount - Decimal("0.25"))], 1, 2)


class ListDesk:
    """The books, and how many messages of each wholesaler are missing; both may change. `asked` has the requests."""

    def __init__(self) -> None:
        self.books = {isbn_of(number): book_of(number) for number in range(1000)}
        self.missing: dict[str, list[list[int]]] = {}
        # Offers of other price types, by book and type.
        self.others: dict[tuple[str, str], list[Offer]] = {}
        self.asked: list[str] = []

    def reply(self, path: str) -> tuple[int, dict[str, object]]:
        self.asked.append(path)
        parts = urlsplit(path)
        kind, name, what = parts.path.strip("/").split("/")
        if kind == "series":
            if name not in WHOLESALERS:
                return 404, {"answer": "refused", "reason": "unknown-series"}
            missing = self.missing.get(name, [])
            after = {"next": missing[0][0] if missing else 2, "missing": missing, "held": len(missing)}
            return 200, {"answer": "gaps", "series": name, "first": 1, **after}
        book = self.books.get(name, Book([], None))
        keys = parse_qs(parts.query)
        own = book.offers if keys["type"] == ["05"] else self.others.get((name, keys["type"][0]), [])
        offers = [offer.body() for offer in own]
        if what == "calendar":
            for offer in offers:
                offer["spans"] = [{"first": keys["from"][0], "last": keys["to"][0], "amount": offer.pop("amount")}]
        if what != "choice":
            return 200, {"answer": what, "isbn": name, "offers": offers}
        choice = None if book.chosen is None else offers[book.chosen] | {"rule": book.rule}
        return 200, {"answer": "choice", "isbn": name, "choice": choice}


def settings(forms: dict[str, object] | None = None, **others: object) -> str:
    """desk.json with these wholesalers, some with forms for their files."""
    series: list[dict[str, object]] = [{"name": name, "words": words} for name, words in WHOLESALERS.items()]
    series[0]["account"] = "1177"
    for item in series:
        if forms and item["name"] in forms:
            item["csv"] = forms[str(item["name"])]
    shop = {"country": "GB", "currency": "GBP", "price_type": "05"}
    return json.dumps({"language": "en-GB", "series": series, **shop, **others})


def state(**others: object) -> str:
    """The inbox's report on a wholesaler whose numbered files are complete."""
    now = int(time.time())
    whole: dict[str, object] = {
        "version": 1, "at": now, "numbered": True, "desk": True, "silent": False, "waiting": 0, "quarantined": 0,
        "refused": 0, "first": 1, "next": 2, "greatest": None, "taken_at": now, "heard_at": now,
        "prices": [["05", "GBP"]], "older_terms": 0,
    }  # fmt: skip
    return json.dumps(whole | others)


# The rules of the shop, as the service writes them.
RULES = [{"series": "*", "codes": ["20", "21"], "max": "15.00"}, {"series": "*", "codes": ["20", "21", "22"]}]


class PlainSite:
    """The page, the stand-in below `/desk/`, and the shop's own files, by path; `asked` has the requests."""

    def __init__(self) -> None:
        self.begin()
        site = self

        class Handler(StandIn):
            def do_GET(self) -> None:
                status, self.kind, body = site.reply(self.path)
                self.reply(status, body)

        self.server = ThreadingHTTPServer((HOST, 0), Handler)
        self.server.daemon_threads = True
        threading.Thread(target=self.server.serve_forever, args=[LOOK], daemon=True).start()

    def begin(self, **others: object) -> ListDesk:
        """The desk and the shop's own files as at first, with other settings."""
        self.desk = ListDesk()
        self.files = {"/desk.json": settings(**others)}  # type: ignore[arg-type]
        self.files |= {f"/state/{name}.json": state() for name in WHOLESALERS}
        self.files["/state/rules.json"] = json.dumps({"version": 1, "at": 1, "rules": RULES})
        self.asked: list[str] = []
        # What the web server replies in the desk's place, if anything.
        self.status: int | None = None
        return self.desk

    def reply(self, path: str) -> tuple[int, str, bytes]:
        target = urlsplit(path).path
        self.asked.append(target)
        if target.startswith(("/desk/articles/", "/desk/series/")):
            if self.status:
                return self.status, KINDS["json"], b""
            status, body = self.desk.reply(path.removeprefix("/desk"))
            return status, KINDS["json"], json.dumps(body).encode()
        if target in self.files:
            return 200, KINDS["json"], self.files[target].encode()
        file = PAGE / ("index.html" if target == "/" else target.lstrip("/"))
        if not file.is_file():
            return (204 if target.startswith("/state/titles/") else 404), KINDS["json"], b""
        return 200, KINDS[file.suffix[1:]], file.read_bytes()

    def address(self, path: str = "/", user: str = "") -> str:
        return f"http://{user}{HOST}:{self.server.server_port}{path}"

    def stop(self) -> None:
        self.server.shutdown()
        self.server.server_close()
