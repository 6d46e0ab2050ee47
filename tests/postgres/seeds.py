"""Seeded desks and questions: few articles, many offers and overlapping prices, all kinds of texts."""

from pathlib import Path
from random import Random

COUNTRIES = ["GB", "IE", "FR"]
CURRENCIES = ["GBP", "EUR"]
TYPES = ["01", "02"]
CODES = ["10", "20", "21", "31"]
ARTICLES = [f"978000000000{digit}" for digit in range(4)]
SERIES = {"north": "4012345000009", "south": 'S,"1"', "west-2": "\\N", "0": "a\u0085b\u2028c"}
REFERENCES = ["R1", "\\", "a,b", 'say "hi"', "\\.", "\\N", "null", " spaced ", "Bücher", "本屋 𝄞", "'; --", "%s"]
FIRST = {"north": 1, "south": 7, "west-2": 999_999_970, "0": 1}

RULES = Path(__file__).with_name("rules.toml").read_text(encoding="utf-8")

# The days are those around the turn of a year, and the first and the last ones.
DAYS = [f"2024123{day}" for day in (0, 1)] + [f"2025010{day}" for day in range(1, 8)] + ["00010101", "99991231"]


def field(text: str) -> str:
    return '"' + text.replace('"', '""') + '"'


class Maker:
    def __init__(self, seed: int) -> None:
        self.random = Random(seed)
        self.next = dict(FIRST)

    def one_in(self, count: int) -> bool:
        return self.random.randrange(count) == 0

    def countries(self, most: int) -> str:
        return " ".join(self.random.sample(COUNTRIES, self.random.randint(1, most)))

    def territory(self) -> str:
        included = "" if self.one_in(2) else self.countries(3)
        excluded = self.countries(2) if self.one_in(3) else ""
        region = "WORLD" if self.one_in(4) else ""
        return f"{included},{region},{excluded}"

    def day(self) -> str:
        return "" if self.one_in(3) else self.random.choice(DAYS)

    def price(self) -> str:
        amount = self.random.choice(["5", "7.5", "7.500", "12.99", "12.990", "13", "0.001", "999999999.999"])
        minimum = self.random.choice(["", "", "1", "2", "10"])
        kinds = f"{self.random.choice(TYPES)},{amount},{self.random.choice(CURRENCIES)}"
        return f"Price,{kinds},{self.territory()},{self.day()},{self.day()},{minimum}"

    def supply(self) -> list[str]:
        records = [f"ProductSupply,{self.territory()}"]
        for _ in range(self.random.randint(1, 2)):
            records.append(
                f"SupplyDetail,04,06,4012345000009,{field(self.random.choice(REFERENCES))},{self.random.choice(CODES)},"
            )
            records += [self.price() for _ in range(self.random.randint(0, 6))]
        return records

    def product(self) -> list[str]:
        kind = self.random.choices(["03", "01", "04", "05", "88"], [8, 2, 3, 1, 1])[0]
        article = self.random.choice(ARTICLES)
        identifiers = self.random.choice(
            [f"15,{article}", f"03,{article},15,{article}", f"03,{article}", f"01,{article}"]
        )
        records = [f"Product,{field(self.random.choice(REFERENCES))},{kind},{identifiers}"]
        for _ in range(0 if kind == "05" else self.random.randint(0, 2)):
            records += self.supply()
        return records

    def message(self, series: str, number: int) -> str:
        records = [f"Message,2,06,{field(SERIES[series])},,,{number},,,,"]
        for _ in range(self.random.randint(0, 6)):
            records += self.product()
        return "".join(f"{record}\n" for record in [*records, f"EndMessage,{len(records)}"])

    def messages(self, count: int) -> str:
        """Messages with numbers somewhat ahead of one another, so that some wait, and waivers."""
        requests = []
        for _ in range(count):
            series = self.random.choice([*SERIES])
            if self.one_in(4):
                number = self.next[series] + self.random.randint(1, 3)
            else:
                number = self.next[series]
                self.next[series] += 1
            if number <= 999_999_999:
                requests.append(f"Waive,{series},{number}\n" if self.one_in(12) else self.message(series, number))
        return "".join(requests)

    def question(self) -> str:
        if self.one_in(12):
            return f"AskGaps,{self.random.choice([*SERIES, 'unknown', 'No Name'])}"
        name = self.random.choice(["AskPrice", "AskChoice", "AskCalendar"])
        days = [self.random.choice(DAYS) for _ in range(2 if name == "AskCalendar" else 1)]
        fields = [
            self.random.choice([*ARTICLES, "9781234567897"]),
            *days,
            self.random.choice([*COUNTRIES, "AU"]),
            self.random.choice(CURRENCIES),
            self.random.choice(TYPES),
        ]
        if self.one_in(2):
            fields.append(self.random.choice(["1", "2", "9", "10", "11", "999999"]))
        if self.one_in(30):
            fields[self.random.randrange(len(fields))] = self.random.choice(
                ["", "0", "20250230", "gb", "978000000000", "1000000", "É1"]
            )
        return ",".join([name, *fields])


def agreements() -> str:
    return "".join(f"Agree,{name},06,{field(value)},,,{FIRST[name]}\n" for name, value in SERIES.items())
