"""A desk by the rules, as a dictionary: first deliveries by number, applied in order."""

import copy
import csv
import io
from dataclasses import dataclass, field

Records = list[list[str]]
Contents = tuple[tuple[str, ...], ...]

WAIVED = "waived"


def records_of(text: str) -> Records:
    return [record for record in csv.reader(io.StringIO(text, newline="")) if record]


def text_of(records: Records) -> str:
    written = io.StringIO()
    csv.writer(written, lineterminator="\n").writerows(records)
    return written.getvalue()


def amount(text: str) -> str:
    whole, _, rest = text.partition(".")
    return f"{int(whole)}.{rest:0<3}"


def is_message(records: Records) -> bool:
    """Whether the records are a message, as far as the tests make any."""
    if len(records) < 2 or records[0][0] != "Message" or records[-1] != ["EndMessage", str(len(records) - 1)]:
        return False
    lengths = {"ProductSupply": (4,), "SupplyDetail": (7,), "Price": (9, 10)}
    for record in records[1:-1]:
        if record[0] == "Product":
            if len(record) < 5 or len(record) % 2 == 0:
                return False
        elif record[0] not in lengths or len(record) not in lengths[record[0]]:
            return False
        if record[0] == "Price" and not record[2].replace(".", "", 1).isdigit():
            return False
    return True


def contents_of(records: Records) -> Contents:
    """The products with the header's defaults filled in."""
    kind, currency = records[0][9], records[0][10]
    found = []
    for record in records[1:-1]:
        if record[0] == "Price":
            record = ["Price", record[1] or kind, amount(record[2]), record[3] or currency, *record[4:]]
        found.append(tuple(record))
    return tuple(found)


def kinds_in(contents: Contents | str) -> list[tuple[str, str]]:
    """The reference and the NotificationType of each product."""
    return [(record[1], record[2]) for record in contents if record[0] == "Product"]


@dataclass
class Series:
    parties: tuple[str, ...]
    first: int
    had: dict[int, Contents | str] = field(default_factory=dict)

    @property
    def next(self) -> int:
        number = self.first
        while number in self.had:
            number += 1
        return number

    @property
    def missing(self) -> list[list[int]]:
        numbers = range(self.first, max(self.had, default=0))
        return [[number, number] for number in numbers if number not in self.had]

    def catalogue(self) -> dict[str, Records]:
        """The records by reference: the product's, and those below it."""
        found: dict[str, Records] = {}
        for number in range(self.first, self.next):
            contents = self.had[number]
            if not isinstance(contents, str):
                apply(found, contents)
        return found


def products_in(contents: Contents) -> list[Records]:
    found: list[Records] = []
    for record in contents:
        if record[0] == "Product":
            found.append([])
        found[-1].append(list(record))
    return found


def apply(catalogue: dict[str, Records], contents: Contents) -> None:
    for product in products_in(contents):
        _, reference, kind, *_ = product[0]
        if kind in ("01", "02", "03"):
            catalogue[reference] = product
        elif kind == "04" and reference in catalogue and len(product) > 1:
            catalogue[reference] = [catalogue[reference][0], *product[1:]]
        elif kind == "05":
            catalogue.pop(reference, None)


class FakeDesk:
    def __init__(self) -> None:
        self.series: dict[str, Series] = {}
        self.texts: dict[int, str] = {}

    def copy(self) -> "FakeDesk":
        return copy.deepcopy(self)

    def deliver(self, records: Records) -> list[str]:
        """The answer to a message."""
        if not is_message(records):
            return ["refused", "malformed", "1"]
        header = records[0]
        if not header[6]:
            return ["refused", "unnumbered"]
        name = next((name for name, series in self.series.items() if series.parties == tuple(header[2:6])), "")
        if not name:
            return ["refused", "unknown-series"]
        series, number = self.series[name], int(header[6])
        if number < series.first:
            return ["refused", "before-first", name, str(number), str(series.first)]
        contents = contents_of(records)
        before = series.had.get(number)
        if before == WAIVED:
            return ["refused", "waived", name, str(number)]
        if before is not None and before != contents:
            return ["refused", "other-contents", name, str(number)]
        before_it = {reference for each in series.had.values() for reference, _ in kinds_in(each)}
        series.had[number] = contents
        self.texts.setdefault(number, text_of(records))
        if number < series.next:
            unknown = sum(kind in ("04", "05") and reference not in before_it for reference, kind in kinds_in(contents))
            return ["applied", name, str(number), f"unknown={unknown}"]
        return ["held", name, str(number), f"waiting-for={series.next}"]

    def batch(self, text: str) -> str:
        written = io.StringIO()
        writer = csv.writer(written, lineterminator="\n")
        message: Records = []
        for record in records_of(text):
            if record[0] == "Message" or message:
                message.append(record)
                if record[0] == "EndMessage":
                    writer.writerow(self.deliver(message))
                    message = []
            else:
                writer.writerows(self.answer(record))
        if message:
            writer.writerow(self.deliver(message))
        return written.getvalue()

    def answer(self, record: list[str]) -> Records:
        kind, *words = record
        if kind == "Agree":
            agreed = self.series.setdefault(words[0], Series(tuple(words[1:5]), int(words[5])))
            is_same = [*agreed.parties, str(agreed.first)] == words[1:]
            return [["agreed", words[0], words[5]] if is_same else ["refused", "name-taken", words[0]]]
        if kind == "Waive":
            return [self.waive(self.series[words[0]], words[0], int(words[1]))]
        if kind == "AskGaps":
            return self.gaps(words[0])
        offers = self.offers(words[0])
        if kind == "AskPrice":
            lines = [["offer", name, ref, "1", code, price] for name, ref, code, price in offers]
            return [["price", words[0], str(len(offers))], *lines]
        if kind == "AskCalendar":
            lines = []
            for name, ref, code, price in offers:
                lines += [["offer", name, ref, "1", code], ["span", words[1], words[2], price]]
            return [["calendar", words[0], str(len(offers))], *lines]
        return [["choice", words[0], "none"]]

    def gaps(self, name: str) -> Records:
        series = self.series.get(name)
        if not series:
            return [["refused", "unknown-series"]]
        numbers = {"first": series.first, "next": series.next, "greatest": max(series.had, default="")}
        head = ["gaps", name, *(f"{word}={number}" for word, number in numbers.items()), "held=0", "missing=0"]
        return [head, *(["missing", *map(str, span)] for span in series.missing)]

    def waive(self, series: Series, name: str, number: int) -> list[str]:
        if isinstance(series.had.get(number), tuple):
            return ["refused", "had", name, str(number)]
        series.had[number] = WAIVED
        return ["waived", name, str(number)]

    def offers(self, isbn: str) -> list[tuple[str, str, str, str]]:
        """Series, reference, availability and amount of the first price, for each record with that ISBN."""
        found = []
        for name, series in sorted(self.series.items()):
            for reference, records in sorted(series.catalogue().items()):
                if isbn in records[0][4::2] and len(records) > 1:
                    prices = [record[2] for record in records if record[0] == "Price"]
                    found.append((name, reference, records[2][5], prices[0] if prices else ""))
        return found
