"""Judges one file: converts, checks and compares it, and writes the result into the ledger in one transaction."""

import json
import sqlite3
import traceback
from collections import Counter
from dataclasses import dataclass, field
from pathlib import Path

from onixdesk_shop.batches import MOST_BYTES
from onixdesk_shop.desk import Gaps, Refused
from onixdesk_shop.faults import BadEnd, Fault
from onixdesk_shop.feeds import Refusal, Said, check, convert
from onixdesk_shop.inbox import full, quarantine
from onixdesk_shop.inbox.context import Inbox
from onixdesk_shop.inbox.ledger import STANDING, File, Message, Row, State
from onixdesk_shop.inbox.posting import REASONS, begin_again, give_back, judge_anew, offset_for, why_refused
from onixdesk_shop.inbox.quarantine import Quarantine
from onixdesk_shop.lines import ERROR, NOTICE, WARNING, cut, ranges
from onixdesk_shop.messages import header_of, is_message, products_of
from onixdesk_shop.places import WORK

# With more records of one ISBN, a question about it keeps all others waiting.
MOST_RECORDS_OF_ONE_ISBN = 1000

# How long it may take to judge a file, and one that a person let in.
SECONDS, LET_IN_SECONDS = 60, 1800


@dataclass
class Feed:
    """A file as messages, with the options and terms that it was converted by, and what the converter said."""

    file: File
    messages: list[Message]
    words: list[str]
    terms: bytes | None
    said: Said = field(default_factory=Said)
    products: int = 0
    bare: int = 0
    lost: int = 0


def judge(inbox: Inbox, file: File, gaps: Gaps) -> None:
    """Brings a new file to its next state."""
    inbox.ledger.set_of_file(file, basis=inbox.basis(gaps.first))
    try:
        feed = feed_of(inbox, file, gaps, list(inbox.settings.words), inbox.terms)
        look_at(inbox, feed, gaps)
        others = {message.number: row for message in feed.messages if (row := final_row(inbox, file, message))}
        if others:
            post_again(inbox, feed, others, gaps)
        else:
            quarantine.look(inbox, feed, gaps)
            take(inbox, feed, full.with_deletions(inbox, feed, gaps))
    except Refusal as refusal:
        with inbox.ledger.step():
            give_back(inbox, file)
            inbox.ledger.set_state(file, State.REFUSED, str(refusal))
        inbox.tell_refused(file, str(refusal), None, *offset_for(inbox, inbox.ledger.file(file.id), gaps))
    except Quarantine as why:
        quarantine_file(inbox, file, str(why))
    except BadEnd as end:
        # As far as we know, this is not the file's fault: a person lets it be tried again.
        quarantine_file(inbox, file, f"it cannot be judged: {end}")
    except (Fault, OSError, sqlite3.Error):
        raise
    except Exception as error:
        # A bug of this program: the series neither stops without a word nor goes past the file.
        last = traceback.extract_tb(error.__traceback__)[-1]
        where = f"{Path(last.filename).name}:{last.lineno}"
        quarantine_file(inbox, file, f"it cannot be judged: {type(error).__name__} at {where}: {cut(str(error))}")


def quarantine_file(inbox: Inbox, file: File, why: str) -> None:
    with inbox.ledger.step():
        give_back(inbox, file)
        inbox.ledger.set_state(file, State.QUARANTINED, why)
    commands = inbox.command("let-in", file), inbox.command("refuse", file)
    inbox.tell_file(ERROR, file, f"quarantined: {why}; later files wait", *commands)


def feed_of(inbox: Inbox, file: File, gaps: Gaps, words: list[str], terms: bytes | None) -> Feed:
    """A file as messages, under the number that it has or would get."""
    seconds = LET_IN_SECONDS if inbox.is_let_in(file) else SECONDS
    source, inbox.until = inbox.stored(file), inbox.machine.now() + seconds
    if not inbox.machine.exists(source):
        raise Refusal("its bytes are not kept any more; have it sent again")
    if file.ending == ".csv":
        if inbox.machine.entry(source).size > MOST_BYTES:
            raise Refusal(f"it has more than {MOST_BYTES} bytes of records")
        texts, said = [inbox.machine.read(source)], Said()
    else:
        given = words
        if inbox.settings.gives_number(file.ending):
            kept = [row.number for row in inbox.ledger.messages_of(file) if row.state != State.RETURNED]
            first = kept[0] if kept else inbox.ledger.next_number(gaps, inbox.settings.parts)
            given = [*words, "--number", str((first - 1) // inbox.settings.parts + 1)]
        texts, said = convert(inbox.machine, inbox.places.program, source, given, terms, inbox.folder / WORK, seconds)
    return Feed(file, [message_of(inbox, text) for text in texts], words, terms, said)


def agreement(inbox: Inbox, file: File) -> str:
    """The record that agrees on a series without messages, with the addressee of this file."""
    try:
        feed = feed_of(inbox, file, Gaps(1, 1, None, ()), list(inbox.settings.words), inbox.terms)
        addressee = header_of(feed.messages[0].text).addressee
    except (Refusal, BadEnd):
        addressee = "", ""
    return inbox.ledger.agreement(inbox.series, inbox.settings.sender, addressee=addressee)


def message_of(inbox: Inbox, text: bytes) -> Message:
    """A text of this wholesaler, with a number, that the desk takes; raises Refusal for any other."""
    why = check(inbox.machine, inbox.places.program, text, inbox.until - inbox.machine.now())
    if why or not is_message(text):
        raise Refusal(why or "its records are not one message")
    header = header_of(text)
    if header.sender != inbox.settings.sender:
        senders = ",".join(header.sender), ",".join(inbox.settings.sender)
        raise Refusal("its sender is {}, and SENDER of the settings is {}".format(*senders))
    if header.number is None:
        raise Refusal("it has no number")
    kinds = sorted({kind for product in products_of(text) for kind in product.kinds})
    return Message(header.number, text, kinds=tuple(kinds))


def look_at(inbox: Inbox, feed: Feed, gaps: Gaps) -> None:
    """Counts its products. Refusal if one ISBN has too many records, or the desk does not take a number any more."""
    records: Counter[str] = Counter()
    suppliers: set[tuple[str, ...]] = set()
    for message in feed.messages:
        for product in products_of(message.text):
            feed.products += 1
            feed.bare += product.is_block and not product.has_supply
            suppliers |= product.suppliers
            if not product.is_deletion:
                records.update(product.isbns)
    if len(suppliers) > 1 and not any(word.startswith("--supplier") for word in feed.words):
        said = f"{len(suppliers)} suppliers: ask the wholesaler for its own offers (--supplier TYPE,VALUE in WORDS)"
        inbox.tell_file(WARNING, feed.file, said)
    for isbn, most in records.most_common(1):
        if most > MOST_RECORDS_OF_ONE_ISBN:
            raise Refusal(f"{most} of its records have the ISBN {isbn}, and {MOST_RECORDS_OF_ONE_ISBN} may")
    inbox.ledger.set_of_file(feed.file, products=feed.products)
    if not inbox.settings.gives_number(feed.file.ending):
        inbox.ledger.set_of_file(feed.file, number=feed.messages[0].number)
    for message in feed.messages:
        if message.number < gaps.first and not final_row(inbox, feed.file, message):
            raise Refusal(f"number {message.number} is below the first number of the series, {gaps.first}")


def final_row(inbox: Inbox, file: File, message: Message) -> Row | None:
    """The message that another file has for good at a number. One that waits for an agreement keeps its number too, but
    from none with another addressee, and not once a person refused its file."""
    row = inbox.ledger.row(message.number)
    if not row or row.file == file.id:
        return None
    if row.state == State.REFUSED and row.answer == "refused,unknown-series":
        is_waiting = inbox.ledger.file(row.file).state != State.REJECTED
        is_kept = is_waiting and header_of(inbox.ledger.text(row.number)).addressee == header_of(message.text).addressee
    else:
        is_kept = row.state in STANDING or row.state == State.REFUSED and row.was_taken
    return row if is_kept else None


def take(inbox: Inbox, feed: Feed, messages: list[Message]) -> None:
    """Gives the file its numbers and texts."""
    ledger, file = inbox.ledger, feed.file
    own = {row.number for row in ledger.messages_of(file) if row.state in (State.POSTED, State.HELD, State.APPLIED)}
    with ledger.step():
        ledger.put(file, [message for message in messages if message.number not in own])
        ledger.set_of_file(
            file,
            number=messages[0].number,
            words=json.dumps(feed.words),
            terms=feed.terms,
            is_full=inbox.settings.is_full(file.name),
        )
        full.replace_older(inbox, file)
        ledger.set_state(file, State.POSTING, feed.said.summary)


def post_again(inbox: Inbox, feed: Feed, others: dict[int, Row], gaps: Gaps) -> None:
    """Numbers that came again in other bytes: the file is converted as their first one was, and posted once after the
    ledger's text, but not kept. The desk says whether the contents are the same."""
    ledger, file = inbox.ledger, feed.file
    first = ledger.file(others[min(others)].file)
    words, terms = json.loads(first.words), first.terms
    if file.ending != ".csv" and (words, terms) != (feed.words, feed.terms):
        feed = feed_of(inbox, file, gaps, words, terms)
        look_at(inbox, feed, gaps)
    for message in feed.messages:
        if not (row := others.get(message.number)):
            raise Refusal(f"{first.mark} has not all of its numbers: {first.why or first.state}")
        text = full.with_deletions_of(inbox, row, message)
        if text.digest == row.digest or is_below_and_same(inbox, row, text, gaps):
            continue
        answer = inbox.desk.post(text.text)
        if isinstance(answer, Refused):
            raise Refusal(why_refused(answer))
    ledger.set_state(file, State.HAD, f"{first.mark} has its number")
    inbox.tell_file(NOTICE, file, f"had it already, by {first.mark}: {ranges([first.number or 0])}")


def is_below_and_same(inbox: Inbox, row: Row, message: Message, gaps: Gaps) -> bool:
    """Whether the desk no longer takes a message's number, but took these products there. Raises Refusal if it took
    others."""
    if message.number >= gaps.first:
        return False
    known = inbox.ledger.text(row.number) if row.has_text else b""
    if [each.records for each in products_of(known)] == [each.records for each in products_of(message.text)]:
        return True
    why = f"another message of number {message.number} was taken before"
    raise Refusal(f"{why}; a correction needs a number of its own")


def retry_refused(inbox: Inbox, gaps: Gaps) -> None:
    """Judges refused files anew once what they were judged by changed, or the desk may take their numbers now."""
    ledger = inbox.ledger
    judge_anew(inbox, "state = 'refused' AND basis <> ?", inbox.basis(gaps.first))
    beginnings = "refused,other-contents", "refused,waived", "refused,before-first", "held", "applied"
    answers = " OR ".join(f"answer LIKE '{beginning},%'" for beginning in beginnings)
    files = "file IN (SELECT id FROM file WHERE state = 'refused' AND why <> ?)"
    where = f"state = 'refused' AND text IS NOT NULL AND ({answers}) AND {files}"
    rows = ledger.messages(where, REASONS["unknown-series"])
    above = {row.file for row in rows if row.answer.startswith("refused,before-first") and row.number >= gaps.first}
    if lacking := above | {row.file for row in rows if gaps.lacks(row.number)}:
        with ledger.step():
            for file in map(ledger.file, lacking):
                if ledger.is_final(file):
                    begin_again(inbox, file)
            judge_anew(inbox)
