"""`onixdesk convert` over feeds that Hypothesis makes (tests/strategies/feeds.py): what is not well-formed, as expat
says, is refused, and of each other one comes what `feed_oracle` says of the tree that expat reads (`feed_reading`).

EXAMPLES in the environment is how many feeds a group has, where another number of them is wanted.
"""

import os
import re
from collections import Counter
from collections.abc import Callable, Iterator
from dataclasses import replace
from functools import partial
from typing import NamedTuple

from tests.needs import DEBIAN_PYTHON
from tests.program.feeds.convert.running import FEED, convert
from tests.program.feeds.feed_net_prices import MIXED, NEVER, TAXED, told_of
from tests.program.feeds.feed_notes import (
    LACKING,
    NOTES,
    PRODUCTS,
    WRONG,
    Said,
    compared,
    is_named,
    notes_in,
    read_errors,
    read_summary,
)
from tests.program.feeds.feed_oracle import (
    AGAIN,
    COUNTED,
    DIFFERING,
    HELD_BACK,
    NOT_READ,
    OF_OTHERS,
    OF_SEVERAL,
    ROUNDED,
    UNFITTED,
    Refused,
    Verdict,
    judge,
)
from tests.program.feeds.feed_reading import read_or_none
from tests.program.feeds.feed_trees import TERMS, Message, Place, Term, Words
from tests.program.room import Group, Ran, Room
from tests.running import Outcome

# Only the groups import what makes the feeds; without it they are left out.
NEEDS = [f"{DEBIAN_PYTHON}/hypothesis"]

# So many feeds a group has, and one of large feeds.
EXAMPLES, LARGE_EXAMPLES = 150, 20


class Wanted(NamedTuple):
    """What should become of a feed, and the places of its composites; no message if it has none."""

    verdict: Verdict
    message: Message | None
    starts: dict[object, Place]


def wanted_of(data: bytes, words: Words) -> Wanted:
    found = read_or_none(data, words)
    if found is None:
        return Wanted(Verdict(refusal=Refused()), None, {})
    return Wanted(judge(found.message, words), *found)


def outcomes(feed: str, words: Words, wanted: Wanted, room: Room) -> Iterator[Outcome]:
    """What becomes of a feed in one run."""
    table = "".join(term.toml() for term in words.terms or ())
    room.write(TERMS, table.encode())
    room.write(FEED, feed.encode())
    came = convert(room, *words.line(), FEED)
    verdict = wanted.verdict
    text = b"".join(part.text() for part in verdict.parts)
    name = f"convert {' '.join(words.line())}\n{table}{feed}\n"
    yield Outcome(f"{name}the records", Ran(came.status, came.output), Ran(verdict.status(), text))
    errors = read_errors(came.errors)
    yield Outcome(f"{name}what is said", said_of(wanted, errors.of_files.get(FEED, [])), [])
    yield Outcome(f"{name}the summary", *summed(wanted, errors.summary))


def said_of(wanted: Wanted, said: list[Said]) -> list[object]:
    """The missing notes, and the lines that nobody expects. A refusal follows the notes on it."""
    refusal = wanted.verdict.refusal
    if not refusal:
        missing, surplus = compared(wanted.verdict.notes, wanted.starts, said)
        return [*missing, *surplus]
    if not said or not said[-1].what.startswith("refused: "):
        return ["not refused", *said]
    missing, surplus = compared(refusal.notes, wanted.starts, said[:-1])
    unnamed = [name for name in refusal.names if not is_named(name, said[-1].what)]
    elsewhere = [said[-1].place] if refusal.about and said[-1].place != wanted.starts[refusal.about] else []
    return [*missing, *surplus, *unnamed, *elsewhere]


def summed(wanted: Wanted, lines: list[str]) -> tuple[object, object]:
    """The counts in the last lines: notes, products, and what has no note."""
    verdict = wanted.verdict
    if verdict.refusal or not wanted.message:
        return lines, []
    summary = read_summary(lines)
    notes = len(verdict.notes)
    hoped = verdict.counts + Counter({LACKING: verdict.lacks_supplier, WRONG: verdict.wrong_products, NOTES: notes})
    hoped += Counter({PRODUCTS: verdict.products if hoped else 0})
    found = {words: count for words, count in summary.items() if words in (*COUNTED, LACKING, PRODUCTS, WRONG, NOTES)}
    return (found, notes_in(summary)), (hoped, notes)


class Kind(NamedTuple):
    """Feeds of a kind: the names of the strategies in tests/strategies/feeds.py, how many a share has and how many
    shares there are, and what each must show."""

    name: str
    feeds: str
    words: str
    examples: int
    shares: int
    seen: list[str]


PLAIN = ["refused", "Product", "ProductSupply", "SupplyDetail", "Price", "wrong", *NOT_READ.values(), AGAIN]
PLAIN += [ROUNDED, DIFFERING, OF_OTHERS, OF_SEVERAL]
KINDS = [
    Kind("feeds", "FEEDS", "WORDS", EXAMPLES, 2, PLAIN),
    Kind("feeds and terms", "FEEDS", "WORDS_WITH_TERMS", EXAMPLES, 2, ["Price", "computed", UNFITTED, HELD_BACK]),
    Kind("feeds in parts", "LARGE", "WORDS", LARGE_EXAMPLES, 1, ["refused", "in parts"]),
]


def seen_in(wanted: Wanted, words: Words) -> Iterator[str]:
    """The features that a feed shows."""
    verdict = wanted.verdict
    yield from ["refused"] * (verdict.refusal is not None) + ["wrong"] * (verdict.wrong_products > 0)
    yield from {record[0] for part in verdict.parts for record in part.records}
    yield from +verdict.counts
    if verdict.parts and wanted.message:
        without = judge(wanted.message, replace(words, terms=None)).parts if words.terms else verdict.parts
        yield from ["computed"] * (without != verdict.parts)
    if sum(len(part.records) > 2 for part in verdict.parts) > 1:
        yield "in parts"


def tried(run: Callable[..., None], share: int, examples: int, *names: str) -> None:
    """Runs it on what these strategies make until it fails, and then on the smallest failing example."""
    from hypothesis import HealthCheck, Phase, Verbosity, given, seed, settings

    from tests.strategies import feeds as strategies

    bounds = settings(
        max_examples=int(os.environ.get("EXAMPLES", examples)),
        derandomize=True,
        database=None,
        deadline=None,
        phases=[Phase.generate, Phase.shrink],
        suppress_health_check=list(HealthCheck),
        verbosity=Verbosity.quiet,
    )
    seed(share)(bounds(given(*(getattr(strategies, name) for name in names))(run)))()


def check(kind: Kind, share: int, room: Room) -> Iterator[Outcome]:
    """The first feed of that kind that becomes something else than expected, made as small as possible; or what the
    desk says of the messages, all of which it can read."""
    seen: Counter[str] = Counter()
    wrong: list[Outcome] = []
    messages: list[str] = []

    def converts(feed: str, words: Words) -> None:
        wanted = wanted_of(feed.encode(), words)
        seen.update(seen_in(wanted, words))
        wrong[:] = [each for each in outcomes(feed, words, wanted, room) if each.came != each.wanted]
        for part in wanted.verdict.parts[:1]:
            messages.append(f"{len(messages)}.csv")
            room.write(messages[-1], part.text())
        assert not wrong

    try:
        tried(converts, share, kind.examples, kind.feeds, kind.words)
    except AssertionError:
        yield from wrong
        return
    yield Outcome(
        f"{kind.name}, share {share}: what none of them shows", [each for each in kind.seen if not seen[each]], []
    )
    came = room.run("deliver", *messages)
    yield Outcome(f"{kind.name}, share {share}, delivered", came, Ran(1, b"refused,unknown-series\n" * len(messages)))


# What `onixdesk terms` says of a term, by its first words.
TOLD = re.compile("onixdesk: terms: term ([0-9]+) (.*)")
SAID = {"never counts": NEVER, "has no tax": MIXED, "has a tax": TAXED}


def tables_of_terms(room: Room) -> Iterator[Outcome]:
    """The remarks on the first table that gets others than expected; or that all are as expected."""
    seen: Counter[str] = Counter()
    wrong: list[Outcome] = []

    def tells(terms: tuple[Term, ...]) -> None:
        table = "".join(term.toml() for term in terms)
        room.write(TERMS, table.encode())
        came = room.run("terms", TERMS)
        told = [
            (int(number), next((said for words, said in SAID.items() if why.startswith(words)), why))
            for number, why in TOLD.findall(came.errors.decode())
        ]
        outcome = Outcome(f"terms: {table}", (came.status, told), (0, told_of(terms)))
        wrong[:] = [outcome] * (outcome.came != outcome.wanted)
        seen.update(what for _, what in told_of(terms))
        assert not wrong

    try:
        tried(tells, 0, EXAMPLES, "TABLES")
    except AssertionError:
        yield from wrong
        return
    yield Outcome("terms: what is said of none", [each for each in SAID.values() if not seen[each]], [])


GROUPS = [
    Group(f"{kind.name}, share {share}", partial(check, kind, share)) for kind in KINDS for share in range(kind.shares)
]
