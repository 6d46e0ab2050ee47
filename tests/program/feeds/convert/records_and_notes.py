"""The cases of tests/conversions over `onixdesk convert`: their records, statuses, places, notes and reasons."""

import re
from collections.abc import Iterator
from functools import partial
from typing import NamedTuple

from tests.program.feeds.convert.case_files import ANYWHERE, FOLDER, PLACE, Case, Converted, Feed, read_cases
from tests.program.feeds.feed_notes import NOTES, WRONG, notes_in, read_summary
from tests.program.room import Group, Room
from tests.running import Outcome

LINE = re.compile(r"([0-9]+)\.xml:([0-9]+:[0-9]+): (refused: )?(.*)")


class Noted(NamedTuple):
    """A note, in the order of lines and columns."""

    line: int
    column: int
    what: str


class Came(NamedTuple):
    """What a feed becomes: its records, None if it is refused; the notes; and what is compared of the refusal: its
    place, and a part of the reason, which stands alone if the line has it."""

    records: bytes | None
    notes: list[Noted]
    refused: tuple[str, str] | None


PART = re.compile("<(?:[Hh]eader|[Pp]roduct)>")


def of_part(place: str, data: bytes) -> str:
    """The start tag of the Header or Product around a place in a feed, and what follows it."""
    text = data.decode(errors="replace")
    lines = text.split("\n")
    line, column = map(int, place.split(":"))
    until = sum(len(each) + 1 for each in lines[: line - 1]) + column - 1
    starts = [found.start() for found in PART.finditer(text) if found.start() <= until]
    if not starts:
        return place
    before = text[: starts[-1]]
    return f"{before.count(chr(10)) + 1}:{len(before) - before.rfind(chr(10))}"


# The name of an element that does not count in its place, which differs in short tags; tests/refusals has it.
CALLED = re.compile("(?<=spelling: ).*")


def noted(line: str) -> Noted:
    found = PLACE.fullmatch(line)
    assert found
    return Noted(int(found[1]), int(found[2]), CALLED.sub("", found[4].removeprefix(": ")))


def refusal(wanted: Converted) -> tuple[str, str] | None:
    place, _, why = wanted.refused.partition(" ")
    return (place, why) if place else None


def wanted(feed: Feed) -> Came:
    notes = sorted(map(noted, feed.wanted.notes + feed.wanted.wrong))
    return Came(feed.wanted.records, notes, refusal(feed.wanted))


def came_as(said: list[tuple[str, str, str]], records: bytes | None, feed: Feed) -> Came:
    """The result, with as much of a refusal as is compared."""
    notes = [noted(f"{place}: {what}") for place, is_refused, what in said if not is_refused]
    refused = [(place, what) for place, is_refused, what in said if is_refused]
    if len(refused) != 1:
        return Came(records, sorted(notes), ("", str(refused)) if refused else None)
    (place, what), (hoped, why) = refused[0], refusal(feed.wanted) or ("", "")
    # What is wrong with a Header or a Product is reported at it, or at its place in it.
    is_there = hoped == ANYWHERE or hoped != "" and place in (hoped, of_part(hoped, feed.data))
    return Came(records, sorted(notes), (hoped if is_there else place, why if why in what else what))


def read_lines(errors: bytes) -> tuple[dict[int, list[tuple[str, str, str]]], list[str]]:
    """The lines about each feed, by its number: the place, whether it is refused, and what is said; and the summary
    after them."""
    of_feeds: dict[int, list[tuple[str, str, str]]] = {}
    summary = []
    for text in errors.decode().splitlines():
        line = text.removeprefix("onixdesk: ")
        if found := LINE.fullmatch(line):
            of_feeds.setdefault(int(found[1]), []).append((found[2], found[3] or "", found[4]))
        else:
            summary.append(line)
    return of_feeds, summary


def check(words: list[str], table: str, feeds: list[Feed], room: Room) -> Iterator[Outcome]:
    """Converts the feeds in one run, each into a file of its own."""
    if table:
        room.write("shop.toml", f"term = {table}\n".encode())
        words = [*words, "--terms", "shop.toml"]
    room.path("out").mkdir()
    for number, feed in enumerate(feeds):
        room.write(f"{number}.xml", feed.data)
    ran = room.run("convert", *words, "-o", "out", *(f"{number}.xml" for number in range(len(feeds))))
    of_feeds, summary = read_lines(ran.errors)
    for number, feed in enumerate(feeds):
        path = room.path(f"out/{number}.csv")
        records = path.read_bytes() if path.exists() else None
        yield Outcome(feed.name, came_as(of_feeds.get(number, []), records, feed), wanted(feed))
    name = f"{feeds[0].name} {' '.join(words)}{table}"
    yield Outcome(f"{name}: the status", ran.status, max(feed.wanted.status() for feed in feeds))
    yield from summed(name, feeds, summary)


def summed(name: str, feeds: list[Feed], summary: list[str]) -> Iterator[Outcome]:
    """The lines after the notes add up to the count of all; some cases have each of them."""
    written = [feed.wanted for feed in feeds if feed.wanted.records is not None]
    notes = sum(len(each.notes) + len(each.wrong) for each in written)
    wrong = sum(each.wrong_products() for each in written)
    came = read_summary(summary)
    counts = notes_in(came), came.get(NOTES, 0), came.get(WRONG, 0)
    yield Outcome(f"{name}: the summary", counts, (notes, notes, wrong))
    if feeds[0].summary is not None:
        yield Outcome(f"{name}: the lines of the summary", came, read_summary(feeds[0].summary))


# How many are converted together at most.
AT_ONCE = 30


def groups(cases: list[Case]) -> Iterator[Group]:
    """Feeds with the same words and terms are converted together, unless one has a summary of its own; --number is for
    one file alone."""
    together: dict[tuple[tuple[str, ...], str], list[list[Feed]]] = {}
    for case in cases:
        for feed in case.feeds():
            runs = together.setdefault((tuple(case.words), case.table), [[]])
            if feed.summary is not None:
                runs.insert(0, [feed])
                continue
            if len(runs[-1]) == AT_ONCE or "--number" in case.words and runs[-1]:
                runs.append([])
            runs[-1].append(feed)
    for (words, table), runs in together.items():
        for feeds in filter(None, runs):
            yield Group(f"convert: {feeds[0].name}", partial(check, list(words), table, feeds))


CASES = [case for path in sorted(FOLDER.glob("*.txt")) for case in read_cases(path)]

GROUPS = [*groups(CASES)]
