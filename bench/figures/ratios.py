"""What the program takes of messages, questions and feeds, to what SQLite in C and the crate `csv` take alone for the
same bytes. Rows and answers are compared before a time is taken."""

import shutil
import sqlite3
from collections.abc import Iterable, Iterator, Sequence
from contextlib import closing
from pathlib import Path
from typing import Any, NamedTuple

from bench.figures import texts, tools
from bench.figures.runs import NOTHING, BenchmarkFault, Run, Taken, Work, Word, least_of, output_of, taken
from tools.root import ROOT

TABLES = ("series", "record", "article", "offer", "price", "price_minimum", "applied")

# How many messages bring how many products each, how many products a catalogue has, how many prices are asked for, how
# often the catalogue, and how many MB of XML a feed has.
MESSAGES, PRODUCTS, CATALOGUE, QUESTIONS, TIMES, MEGABYTES = 500, 20, 5_000, 10_000, 40, 400

# Sample feeds, each with the name of its products and what their references begin with.
FEEDS = {
    "reference names": ("two-products.xml", b"Product", b"com.tidewater.onix.00001"),
    "short tags": ("two-products-short.xml", b"product", b"com.tidewater.onix.00001"),
    "several Markets": ("block-update.xml", b"Product", b"nl-978190000"),
}


class Figure(NamedTuple):
    """What is measured, its values, and their target, below zero where it is the least."""

    what: str
    values: Sequence[float]
    target: float = 0

    def line(self) -> str:
        target = f"at {'most' if self.target > 0 else 'least'} {abs(self.target):g}" if self.target else ""
        missed = ": **not met**" if 0 < self.target < max(self.values) or min(self.values) < -self.target else ""
        return f"| {self.what} | {', '.join(f'{value:.3g}' for value in self.values)} | {target}{missed} |"


def ratio(one: Taken, other: Taken) -> float:
    return one.microseconds / other.microseconds


class Bench(NamedTuple):
    """The program, a folder for what is read and written, and by what all sizes are divided."""

    program: Path
    folder: Path
    divisor: int

    def size(self, whole: int) -> int:
        return max(1, whole // self.divisor)

    def text(self, name: str, pieces: Iterable[str | bytes]) -> Path:
        """A file of that name with a text."""
        path = self.folder / name
        with open(path, "wb") as file:
            file.writelines(piece.encode() if isinstance(piece, str) else piece for piece in pieces)
        return path

    @property
    def made(self) -> Path:
        """The folder of what is made anew in each turn."""
        return self.folder / "made"

    @property
    def file(self) -> Path:
        return self.made / "desk.db"

    def batch(self, given: Path, is_in_file: bool = False) -> Run:
        """The run that answers a batch over the file, or over a desk in memory."""
        place: list[Word] = ["--db", self.file] if is_in_file else []
        return Run([self.program, *place, "batch"], given)

    def fill(self, given: Path) -> None:
        """Answers a batch over a new file."""
        shutil.rmtree(self.made, ignore_errors=True)
        self.made.mkdir()
        taken(self.batch(given, True))


def rows(file: Path) -> list[list[tuple[Any, ...]]]:
    """The rows of each table, in order of their values."""
    with closing(sqlite3.connect(file)) as connection:
        return [sorted(connection.execute(f"SELECT * FROM {table}"), key=repr) for table in TABLES]


def messages_in_a_file(bench: Bench) -> Iterator[Figure]:
    count = bench.size(MESSAGES)
    brought = (texts.offers(number, PRODUCTS) for number in range(1, count + 1))
    given = bench.text("messages", [texts.AGREEMENT, *brought])
    bare = bench.folder / "bare.db"
    words: list[Word] = [tools.by_sqlite(bench.folder, "bare_rows"), bench.file, bare, str(PRODUCTS)]
    bench.fill(given)
    alone = Work(Run([*words, str(count)]), Run([*words, "0"]))
    taken(alone.run)
    if rows(bare) != rows(bench.file):
        raise BenchmarkFault("SQLite alone put other rows than the desk")
    both = least_of([Work(bench.batch(given, True), bench.batch(NOTHING, True), bench.made), alone])
    what = f"{count} messages of {PRODUCTS} products with a price each, into a new file"
    yield Figure(f"{what}, to SQLite alone writing their rows", [ratio(*both)], 4.6)


def messages_in_memory(bench: Bench) -> Iterator[Figure]:
    given = bench.text("messages", [texts.AGREEMENT, *texts.greatest_messages(bench.size(MESSAGES))])
    work, size = Work(bench.batch(given), bench.batch(NOTHING)), given.stat().st_size
    what = f"{size / 1e6:.2f} MB of messages of 20 products, each with 2 supplies and 4 prices, applied in memory"
    yield Figure(f"peak memory of {what}, to the text", [taken(work.run).memory / size], 12.2)
    wrong = [bench.text(last, [given.read_bytes(), f"{last}\n"]) for last in ("AskGaps,west", "AskGaps")]
    plain, *others = least_of([work, *(work._replace(run=bench.batch(text)._replace(status=1)) for text in wrong)])
    what = "these with one refused request, and with one malformed, to without"
    yield Figure(what, [ratio(other, plain) for other in others], 1.05)
    records = tools.records(bench.folder)
    alone = Work(Run([records, given]), Run([records, NOTHING]))
    yield Figure("these messages, to `csv` alone reading them", [ratio(*least_of([work, alone]))])


def catalogue(records: int, *questions: str) -> Iterator[str]:
    """A batch that makes a catalogue by five messages and asks about it."""
    yield texts.AGREEMENT
    yield from (texts.offers(number, records // 5) for number in range(1, 6))
    yield from questions


def offers_in(answers: bytes) -> list[bytes]:
    return [line for line in answers.splitlines() if line.startswith((b"price,", b"offer,"))]


def questions_for_prices(bench: Bench) -> Iterator[Figure]:
    size, count = bench.size(CATALOGUE), bench.size(QUESTIONS)
    questions = [*texts.price_questions(size, count)]
    plain = bench.batch(bench.text("catalogue", catalogue(size)))
    asked = bench.batch(bench.text("asked", catalogue(size, *questions)))
    bench.fill(plain.given)
    words = [tools.by_sqlite(bench.folder, "price_questions"), bench.file]
    alone = Work(Run(words, bench.text("questions", questions)), Run(words))
    if offers_in(output_of(alone.run)) != offers_in(output_of(asked)):
        raise BenchmarkFault("SQLite alone gave other answers than the desk")
    what = f"{count:,} price questions about {size:,} records in memory, to SQLite alone in memory"
    yield Figure(what, [ratio(*least_of([Work(asked, plain), alone]))], 1.5)


def questions_for_catalogues(bench: Bench) -> Iterator[Figure]:
    size, count = bench.size(CATALOGUE), bench.size(TIMES)
    records = tools.records(bench.folder)
    plain = bench.batch(bench.text("catalogue", catalogue(size)))
    asked = bench.batch(bench.text("asked", catalogue(size, *[texts.CATALOGUE_QUESTION] * count)))
    answers = output_of(bench.batch(bench.text("once", catalogue(size, texts.CATALOGUE_QUESTION))))
    answer = bench.text("answer", [answers[answers.index(b"catalogue,") :]])
    alone = Work(Run([records, answer, str(count)]), Run([records, answer, "0"]))
    what = f"{count} catalogues of {size:,} records answered, to `csv` alone writing their records"
    yield Figure(what, [ratio(*least_of([Work(asked, plain), alone]))], 6)


def pieces(name: str, element: bytes, reference: bytes, size: int) -> Iterator[bytes]:
    """A feed of about so many bytes: the products of a sample, a hundred times with the same references, and again."""
    text = (ROOT / "tests/feeds" / name).read_bytes()
    first, last = text.index(b"<%s" % element), text.rindex(b"</%s>" % element)
    end = text.index(b">", last) + 1
    products = text[first:end] * 100
    yield text[:first]
    for number in range(max(1, size // len(products))):
        yield products.replace(reference, b"%s%07d-" % (reference, number))
    yield text[end:]


def conversion(name: str, bench: Bench) -> tuple[float, float, float]:
    """MB a second, peak MB, and the ratio to `csv` alone."""
    megabytes = bench.size(MEGABYTES)
    feed = bench.text("feed.xml", pieces(*FEEDS[name], megabytes * 1_000_000))
    # More parts than the records need.
    words: list[Word] = [bench.program, "convert", "--parts", str(megabytes), "-o", bench.made, feed]
    work = Work(Run(words), Run([bench.program, "--version"]), bench.made)
    (plain,) = least_of([work])
    answer = bench.text("answer", (part.read_bytes() for part in sorted(bench.made.iterdir())))
    records = tools.records(bench.folder)
    (alone,) = least_of([Work(Run([records, answer]), Run([records, NOTHING]))])
    return feed.stat().st_size / plain.microseconds, plain.memory / 1e6, ratio(plain, alone)


def conversions(bench: Bench) -> Iterator[Figure]:
    speeds, memories, ratios = zip(*(conversion(name, bench) for name in FEEDS))
    yield Figure(f"MB of XML a second, of {bench.size(MEGABYTES)} MB: {', '.join(FEEDS)}", speeds, -60)
    yield Figure("peak memory of that, MB", memories, 16)
    yield Figure("that conversion, to `csv` alone reading the records that it makes", ratios)


ALL = [messages_in_a_file, messages_in_memory, questions_for_prices, questions_for_catalogues, conversions]
