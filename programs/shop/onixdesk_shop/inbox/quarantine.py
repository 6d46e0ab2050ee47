"""Whether a file looks wrong. It computes no price: it compares the desk's answers with those of a desk that has only
the file's records."""

from __future__ import annotations

from typing import TYPE_CHECKING

from onixdesk_shop.desk import Gaps
from onixdesk_shop.inbox.comparing import Findings, look_at
from onixdesk_shop.inbox.context import Inbox

if TYPE_CHECKING:
    from onixdesk_shop.inbox.judging import Feed

# Smaller counts are ignored.
LEAST = 10

# How far a number may be ahead of the next one, in the sender's numbers.
MOST_AHEAD = 100


class Quarantine(Exception):
    """Why a person has to decide on a file."""


def look(inbox: Inbox, feed: Feed, gaps: Gaps) -> None:
    """Raises Quarantine if a person has to decide on a file that nobody has let in."""
    if inbox.is_let_in(feed.file):
        return
    judge_numbers(inbox, feed, gaps)
    judge_products(feed)
    if not inbox.settings.stop or gaps.greatest is None:
        return
    if found := look_at(inbox, feed):
        feed.lost = judge_findings(inbox, *found)


def judge_numbers(inbox: Inbox, feed: Feed, gaps: Gaps) -> None:
    if inbox.settings.gives_number(feed.file.ending):
        last = inbox.ledger.last_taken()
        if last is not None and feed.file.time < last:
            raise Quarantine("it is older than the last one that was taken")
        return
    ahead = (feed.messages[0].number - gaps.next) // inbox.settings.parts
    if ahead > MOST_AHEAD:
        raise Quarantine(f"its number is {ahead} ahead of the one that the series waits for")


def judge_products(feed: Feed) -> None:
    if feed.said.count("a FILE without a Product"):
        raise Quarantine("it has neither a Product nor a NoProduct")
    if feed.said.count("no SupplyDetail of the supplier"):
        raise Quarantine("it has no SupplyDetail of the supplier that WORDS names, and some of others")
    emptied = feed.bare if feed.file.ending == ".csv" else feed.said.count("Product emptied", "Product left out")
    total = feed.products + feed.said.count("Product left out")
    # The converter does not say which products are both: these count twice.
    count = emptied + feed.said.wrong
    if count >= LEAST and count * 2 > total:
        raise Quarantine(f"{emptied} of {total} products are emptied, and {feed.said.wrong} wrong")


def judge_findings(inbox: Inbox, found: Findings, known: int) -> int:
    """How many articles lose what they have; the compared ones stand for all. Quarantine if too many do, or are wrong."""
    total = found.looked_at
    for names, least, what in (
        (found.jumped, 0.2, "have a price more than twice or less than half of the desk's, or a new reference"),
        (found.moved, 0.5, "have a price that moved by more than two fifths"),
    ):
        if len(names) >= LEAST and len(names) > least * total:
            raise Quarantine(f"{len(names)} of {total} articles {what}: {', '.join(names[:3])}")
    lost = len(found.lost) * known // total if total else 0
    articles = max(inbox.ledger.articles(), known)
    if lost >= LEAST and lost * 5 > articles:
        raise Quarantine(
            f"{lost} of {articles} articles would lose their price, be deleted or no longer be chosen:"
            f" {', '.join(found.lost[:3])}"
        )
    return lost
