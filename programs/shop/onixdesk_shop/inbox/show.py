"""Shows what the ledger knows of a number, an ISBN or a file, and which message set a price."""

import json
import shlex
import time

from onixdesk_shop.faults import DONE, FAILED
from onixdesk_shop.inbox.context import Inbox
from onixdesk_shop.inbox.ledger import File
from onixdesk_shop.lines import cut, token
from onixdesk_shop.messages import products_of, text_of


def show(inbox: Inbox, number: int | None, isbn: str | None, name: str | None) -> int:
    if number is not None:
        lines = of_number(inbox, number)
    elif isbn is not None:
        lines = of_isbn(inbox, isbn)
    else:
        files = inbox.ledger.files("name = ? OR substr(digest, 1, ?) = ?", name, max(8, len(name or "")), name)
        lines = [line for file in files for line in of_file(inbox, file)]
    for line in lines or ["the ledger knows nothing of it"]:
        inbox.machine.write(f"{line}\n")
    return DONE if lines else FAILED


def moment(second: int) -> str:
    return time.strftime("%Y-%m-%d %H:%M:%S", time.localtime(second))


def of_file(inbox: Inbox, file: File) -> list[str]:
    words = shlex.join(json.loads(file.words))
    terms = f", terms of {len(file.terms)} bytes" if file.terms is not None else ""
    lines = [
        f"{file.mark}: {file.state} since {moment(file.at)}{': ' if file.why else ''}{cut(file.why)}; {token(file.name)}",
        f"  written {moment(file.time // 1_000_000_000)}, came last {moment(file.seen)}, {file.size} bytes,"
        f" {file.products if file.products is not None else 'unknown'} products, words: {words or 'none'}{terms}",
    ]
    for row in inbox.ledger.messages_of(file):
        lines.append(f"  number {row.number}: {'; '.join(filter(None, [row.state, cut(row.answer)]))}")
    query = "SELECT at, what FROM decision WHERE file = ? AND what <> 'told' ORDER BY id"
    return [*lines, *(f"  {moment(at)}: {what}" for at, what in inbox.ledger.rows(query, file.id))]


def of_number(inbox: Inbox, number: int) -> list[str]:
    row = inbox.ledger.row(number)
    if row:
        return of_file(inbox, inbox.ledger.file(row.file))
    return [f"number {number} is waived"] if number in inbox.ledger.waived() else []


def of_isbn(inbox: Inbox, isbn: str) -> list[str]:
    """The records with that ISBN, and what messages said of each, from the last back to the one that set its prices."""
    query = "SELECT reference, number, deleted FROM reference WHERE ' ' || isbns || ' ' LIKE '% ' || ? || ' %'"
    lines = []
    for reference, number, deleted in inbox.ledger.rows(f"{query} ORDER BY number", isbn):
        lines.append(f"{token(reference)}: {'deleted' if deleted else 'named last'} by number {number}")
        lines += of_number(inbox, number)
        for row in reversed(inbox.ledger.messages("state = 'applied' AND text IS NOT NULL AND number <= ?", number)):
            products = [each for each in products_of(inbox.ledger.text(row.number)) if each.reference == reference]
            records = [line for each in products for line in text_of(each.records).splitlines()]
            lines += [f"  {row.number}: {cut(line)}" for line in records]
            if any(each.has_supply or each.is_block or each.is_deletion for each in products):
                break
    return lines
