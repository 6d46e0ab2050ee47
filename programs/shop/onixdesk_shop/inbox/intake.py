"""Takes a wholesaler's files into the store: copies, syncs and writes them down, and only then removes them."""

import os
import re
from pathlib import Path

from onixdesk_shop.inbox.context import HOUR, Inbox
from onixdesk_shop.inbox.keeping import AT_END
from onixdesk_shop.inbox.ledger import Decision, State
from onixdesk_shop.lines import shown
from onixdesk_shop.machine import Entry

ENDINGS = {".csv": ".csv", ".xml": ".xml", ".onix": ".xml", ".onx": ".xml", ".gz": ".gz", ".zip": ".zip"}

# The endings of files that are still being written.
UNFINISHED = (".part", ".partial", ".filepart", ".tmp", ".uploading")

SECOND = 1_000_000_000

# A server that gives no times gives that of 1970.
FIRST_TIME = 315_532_800 * SECOND

# How long files stay in a folder that mirrors the server's.
LEFT_SECONDS = 60 * 86_400

COPY = ".new"

is_stored = re.compile(r"([0-9a-f]{64})(\.csv|\.xml|\.gz|\.zip)").fullmatch


def take_in(inbox: Inbox) -> None:
    """Takes each whole file in the folder, unless a program that fills it holds its lock."""
    adopt(inbox)
    with inbox.machine.lock(inbox.incoming, waits=False) as is_free:
        if is_free:
            for entry in inbox.machine.entries(inbox.incoming):
                take_entry(inbox, entry)


def take_entry(inbox: Inbox, entry: Entry) -> None:
    name = entry.name.lower()
    if name.startswith(".") or name.endswith(UNFINISHED):
        why = "it seems to be still being written"
    elif not entry.is_regular:
        why = "it is not a regular file"
    elif Path(name).suffix not in ENDINGS:
        why = f"it does not end in {', '.join(ENDINGS)}"
    elif -HOUR < inbox.machine.now() - entry.changed / 1e9 < inbox.settings.unchanged_seconds:
        return
    else:
        why = take_file(inbox, entry)
    if why:
        inbox.tell_waiting(entry, why)


def take_file(inbox: Inbox, entry: Entry) -> str:
    """Takes a whole file, or returns why it could not."""
    if inbox.settings.leave and (known := inbox.ledger.left(subject_of(entry))):
        # Once nothing was done with it for a long time, it is removed.
        is_old = inbox.machine.now() - max(known.seen, known.at) > LEFT_SECONDS
        if is_old and known.state in (*AT_END, State.REFUSED):
            inbox.machine.remove(inbox.incoming / entry.name)
        return ""
    machine, source = inbox.machine, inbox.incoming / entry.name
    copy = inbox.store / COPY
    try:
        digest = machine.copy(source, copy)
    except (FileNotFoundError, PermissionError) as error:
        return error.strerror
    if not is_as_it_was(inbox, entry):
        machine.remove(copy)
        return ""
    ending = ENDINGS[Path(entry.name.lower()).suffix]
    stored = inbox.store / f"{digest}{ending}"
    is_new = inbox.settings.gives_number(ending) or not machine.exists(stored)
    if machine.exists(stored):
        # With the time that it was judged by.
        machine.remove(copy)
    else:
        machine.rename(copy, stored)
    machine.sync_folder(inbox.store)
    before = inbox.ledger.latest(digest)
    file = inbox.ledger.take(digest, shown(name_of(entry)), ending, entry.size, time_of(entry), is_new)
    if before:
        if before.ending != file.ending:
            machine.remove(inbox.stored(before))
        inbox.tell_known(file, before)
    if inbox.settings.leave:
        inbox.ledger.decide(Decision.TOLD, file, subject=subject_of(entry))
    else:
        remove(inbox, entry, digest[:12])
    return ""


def time_of(entry: Entry) -> int:
    """When it was written, as its server says: never after its arrival, which counts if the server says nothing."""
    return min(entry.modified, entry.changed) if entry.modified >= FIRST_TIME else entry.changed


def name_of(entry: Entry) -> str:
    """The name under which it came, which FULL_NAMES matches."""
    return re.sub("^taken-[0-9a-f]{12}-", "", entry.name)


def is_as_it_was(inbox: Inbox, entry: Entry) -> bool:
    try:
        return inbox.machine.entry(inbox.incoming / entry.name) == entry
    except FileNotFoundError:
        return False


def remove(inbox: Inbox, entry: Entry, mark: str) -> None:
    """Removes a file that is in the store. It gets a name of ours first: the next run takes what took its place
    meanwhile, before that name is used again."""
    taken = inbox.incoming / f"taken-{mark}-{os.fsdecode(os.fsencode(name_of(entry))[-200:])}"
    if entry.name != taken.name and inbox.machine.exists(taken):
        return
    try:
        inbox.machine.rename(inbox.incoming / entry.name, taken)
    except FileNotFoundError:
        return
    found = inbox.machine.entry(taken)
    if (found.inode, found.size, found.modified) == (entry.inode, entry.size, entry.modified):
        inbox.machine.remove(taken)


def subject_of(entry: Entry) -> str:
    """By this a file that was left in its folder is recognized: several may have the same bytes."""
    return f"left {entry.size} {entry.modified} {shown(name_of(entry))}"


def adopt(inbox: Inbox) -> None:
    """Takes in files in the store without a row: a ledger was restored from a copy, or its writer was killed."""
    machine = inbox.machine
    for entry in machine.entries(inbox.store):
        found = is_stored(entry.name)
        if not found:
            machine.remove(inbox.store / entry.name)
        elif not inbox.ledger.latest(found[1]):
            inbox.ledger.take(found[1], entry.name, found[2], entry.size, time_of(entry), False)
