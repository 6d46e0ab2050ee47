"""Deletes what a full file no longer names, by records at its end, since the desk has no file that says all. These
records are the one thing that the desk is told without proof."""

from __future__ import annotations

from dataclasses import replace
from typing import TYPE_CHECKING

from onixdesk_shop.batches import MOST_BYTES
from onixdesk_shop.desk import Gaps
from onixdesk_shop.inbox.context import Inbox
from onixdesk_shop.inbox.ledger import File, Message, Row, State
from onixdesk_shop.inbox.quarantine import LEAST, Quarantine
from onixdesk_shop.lines import ERROR, count
from onixdesk_shop.messages import is_end, products_of, records_of, text_of

if TYPE_CHECKING:
    from onixdesk_shop.inbox.judging import Feed

# The type of the identifier in a record that deletes.
OF_REFERENCE = "01"

MOST_RECORDS = 20_000

# After so many full files in a row that for some reason deleted nothing, a person has to look.
IN_A_ROW = 3


def with_deletions(inbox: Inbox, feed: Feed, gaps: Gaps) -> list[Message]:
    """The messages of a file. If it is full, records at their ends delete what it no longer names."""
    if not inbox.settings.is_full(feed.file.name):
        return feed.messages
    gone = not_named(inbox, feed)
    why = why_not(feed, gaps) if gone else ""
    inbox.ledger.set_of_file(feed.file, not_deleted=why)
    if why or not gone:
        return feed.messages
    lost, articles = len(gone) + feed.lost, inbox.ledger.articles()
    if lost >= LEAST and lost * 5 > articles and not inbox.is_let_in(feed.file):
        raise Quarantine(f"{lost} of {articles} articles would be deleted, {len(gone)} not named, or lose their price")
    found = filled(feed.messages, gone)
    feed.said.reasons["products deleted that it does not name"] = sum(message.deletions for message in found)
    return found


def why_not(feed: Feed, gaps: Gaps) -> str:
    """Why nothing is deleted, or an empty text."""
    if feed.messages[0].number != gaps.next:
        return f"the series waits for number {gaps.next}"
    if feed.said.count("Product left out"):
        return "the converter left a product out"
    return ""


def not_named(inbox: Inbox, feed: Feed) -> list[str]:
    """The references that no file has named since the N-th last full file; this one counts."""
    ledger = inbox.ledger
    numbers = [file.number or 0 for file in ledger.full_files()][: inbox.settings.full - 1]
    if len(numbers) < inbox.settings.full - 1:
        return []
    since = min(numbers, default=feed.messages[0].number)
    named = {product.reference for message in feed.messages for product in products_of(message.text)}
    return [reference for reference in ledger.references_before(since) if reference not in named]


def filled(messages: list[Message], gone: list[str]) -> list[Message]:
    """The messages, with as many deletions at their ends as fit. The next full file deletes the others."""
    found, rest = [], list(gone)
    for message in messages:
        records, size = sum(1 for _ in records_of(message.text)), len(message.text)
        some: list[str] = []
        while rest and records < MOST_RECORDS:
            size += len(text_of([deletion(rest[0])]).encode()) + 2
            if size > MOST_BYTES:
                break
            some.append(rest.pop(0))
            records += 1
        found.append(with_records(message, [deletion(reference) for reference in some]))
    return found


def deletion(reference: str) -> list[str]:
    return ["Product", reference, "05", OF_REFERENCE, reference]


def with_records(message: Message, added: list[list[str]]) -> Message:
    """A message with more products before its end."""
    if not added:
        return message
    body = [record for record in records_of(message.text) if not is_end(record)]
    text = text_of([*body, *added, ["EndMessage", str(len(body) + len(added))]])
    return replace(message, text=text.encode(), deletions=len(added))


def with_deletions_of(inbox: Inbox, row: Row, message: Message) -> Message:
    """A message that comes again, with the records that were added to the first one of its number."""
    if not row.deletions or not row.has_text:
        return message
    records = [record for record in records_of(inbox.ledger.text(row.number)) if not is_end(record)]
    return with_records(message, records[-row.deletions :])


def replace_older(inbox: Inbox, file: File) -> None:
    """A full file that passes, and has a new number, says all: older files that wait for a person are not taken any
    more."""
    if not inbox.settings.says_all(file.name):
        return
    for older in inbox.ledger.files("state IN ('quarantined', 'new') AND time < ? AND ending <> '.csv'", file.time):
        inbox.ledger.set_state(older, State.REPLACED, f"the full file {file.mark} came after it")


def tell_in_a_row(inbox: Inbox) -> None:
    """Tells that several full files in a row deleted nothing."""
    last = inbox.ledger.full_files()[:IN_A_ROW]
    if len(last) == IN_A_ROW and all(file.not_deleted for file in last):
        why = last[0].not_deleted
        inbox.tell_once("not deleted", ERROR, f"{count(IN_A_ROW, 'full file')} in a row deleted nothing: {why}")
    else:
        inbox.is_well("not deleted")
