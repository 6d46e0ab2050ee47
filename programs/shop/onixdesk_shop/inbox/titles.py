"""Titles of books, for the buyers' page alone: what feeds said last. The page reads them from files, each for all ISBNs
that begin with the same digits. An object has a list for each ISBN; the list has an entry for each series, the last one
taken first: series, number, second, and, unless the title is deleted, title, subtitle, contributors, publisher."""

import json
from pathlib import Path

from onixdesk_shop.faults import BadEnd
from onixdesk_shop.feeds import read_by
from onixdesk_shop.inbox.context import Inbox
from onixdesk_shop.inbox.ledger import File
from onixdesk_shop.lines import WARNING

# The page fetches a file for all ISBNs that share so many digits; folders share five.
DIGITS, FOLDER_DIGITS = 8, 5

# Within a series, the message with the greatest number counts.
PUT = """\
INSERT INTO title (isbn, number, at, said) VALUES (?, ?, ?, ?) ON CONFLICT (isbn) DO UPDATE SET
    id = (SELECT max(id) + 1 FROM title), number = excluded.number, at = excluded.at, said = excluded.said
WHERE excluded.number >= number"""


def keep(inbox: Inbox) -> None:
    """Reads the titles of files that were applied since, and writes those that the page's files lack. A mark beside these
    has the last row that they have. All are written where there is none, or the ledger has not come so far."""
    ledger, machine, folder = inbox.ledger, inbox.machine, inbox.places.state / "titles"
    mark = folder / f"{inbox.series}.json"
    if not ledger.value("SELECT count(*) FROM title WHERE id >= ?", machine.read_json(mark) or 0):
        machine.remove(mark)
    since = machine.read_json(mark) or 0
    for file in ledger.files("NOT titled AND state = 'applied' AND ending <> '.csv'"):
        read(inbox, file)
    if rows := ledger.rows("SELECT isbn, id FROM title WHERE id > ? ORDER BY id", since):
        machine.make_folder(folder, 0o755)
        with machine.lock(folder):
            for digits in {isbn[:DIGITS] for isbn, _ in rows}:
                write(inbox, folder / digits[:FOLDER_DIGITS], digits)
            machine.write_whole(mark, str(rows[-1][1]).encode())


def read(inbox: Inbox, file: File) -> None:
    """Puts into the ledger what a file says of each ISBN."""
    said: dict[str, list[str]] = {}
    try:
        for line in read_by(inbox.machine, "feed_titles", inbox.stored(file)).splitlines():
            isbn, is_deletion, *texts = json.loads(line)
            if not is_deletion or isbn not in said:
                said[isbn] = [] if is_deletion else texts
    except BadEnd as end:
        inbox.tell_file(WARNING, file, f"no titles: {end}")
    with inbox.ledger.step():
        for isbn, texts in said.items():
            inbox.ledger.do(PUT, isbn, file.number, file.at, json.dumps(texts))
        inbox.ledger.set_of_file(file, titled=1)


def write(inbox: Inbox, folder: Path, digits: str) -> None:
    """Replaces what the file of these digits has of this series; other inboxes write it too."""
    machine, path = inbox.machine, folder / f"{digits}.json"
    machine.make_folder(folder, 0o755)
    kept = machine.read_json(path).items()
    found = {isbn: [each for each in entries if each[0] != inbox.series] for isbn, entries in kept}
    query = "SELECT isbn, number, at, said FROM title WHERE isbn BETWEEN ? AND ?"
    for isbn, number, at, said in inbox.ledger.rows(query, digits, f"{digits}99999"):
        entries = [*found.get(isbn, []), [inbox.series, number, at, *json.loads(said)]]
        found[isbn] = sorted(entries, key=lambda each: int(each[2]), reverse=True)
    machine.write_whole(path, json.dumps(found, separators=(",", ":"), ensure_ascii=False).encode())
