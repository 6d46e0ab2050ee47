"""The command line of desk-copy."""

import argparse
import sqlite3
import time
from pathlib import Path

from onixdesk_shop.copies.copying import Copied, copy_desk
from onixdesk_shop.copies.keeping import CORRECTIONS, UNFINISHED, keep_latest, named
from onixdesk_shop.desk_files import check
from onixdesk_shop.ends import parser_of
from onixdesk_shop.faults import DONE, FAILED, Fault
from onixdesk_shop.inbox.ledger import is_lost
from onixdesk_shop.lines import ERROR
from onixdesk_shop.machine import Machine
from onixdesk_shop.places import LEDGER, LEDGERS

DESCRIPTION = """\
Copies a running desk: the database FILE and its log FILE-wal, both as of one moment, under their names into a new
FOLDER, which appears only once it is sound and on the disk. With --inboxes it has the ledgers of the inboxes too."""

# The LimitDATA of the desk's unit.
LIMIT = 1800 << 20

# A start needs at most some memory of its own, and so much for each byte of its files (docs/SCALE.md).
OF_ITS_OWN, FOR_A_BYTE = 16_000_000, 1.1


def command_line() -> argparse.ArgumentParser:
    parser = parser_of("desk-copy", DESCRIPTION, inboxes=None)
    add = parser.add_argument
    add("--keep", metavar="N", type=int, help="FOLDER has a folder for each copy; N stay, the last of each day longest")
    add("file", metavar="FILE", type=Path, help="the database that the desk has open")
    add("folder", metavar="FOLDER", type=Path, help="a folder that does not exist yet; with --keep one that does")
    return parser


def copy_ledgers(machine: Machine, inboxes: Path, target: Path) -> int:
    """Copies each inbox's ledger after the desk: so the ledgers have the text of each message in the copy. Returns the
    status: a ledger that cannot be read, or is gone, is reported, and left out, and then no earlier copy goes."""
    status = DONE
    machine.make_folder(target)
    for folder in machine.paths(inboxes, "*/"):
        ledger, copy = folder / LEDGER, target / f"{folder.name}.db"
        try:
            if is_lost(machine, folder):
                raise sqlite3.DatabaseError("it is gone")
            if machine.exists(ledger):
                machine.backup(ledger, copy)
        except sqlite3.Error as error:
            machine.remove(copy)
            machine.tell(ERROR, f"{ledger}: {error}; the copy lacks this ledger")
            status = FAILED
    return status


def work(machine: Machine, options: argparse.Namespace) -> int:
    """Makes a copy under a hidden name. If a run is killed, the next one removes it."""
    folder = options.folder.absolute()
    parent = folder if options.keep else folder.parent
    with machine.lock(parent, waits=False) as is_alone:
        if not is_alone:
            raise Fault(f"{parent}: another program is at work there")
        new = parent / UNFINISHED
        try:
            place, found, status = copy_by(machine, new, folder, options)
        finally:
            machine.remove_tree(new)
        if options.keep and status == DONE:
            keep_latest(machine, folder, options.keep, place)
    machine.write(f"{place}: as of {time.strftime('%F %T UTC', time.gmtime(found.moment // 1_000_000_000))}\n")
    tell_room(machine, options.file, found)
    return status


def copy_by(machine: Machine, new: Path, folder: Path, options: argparse.Namespace) -> tuple[Path, Copied, int]:
    """Makes a copy that is checked and on the disk before it gets its name."""
    machine.remove_tree(new)
    machine.make_folder(new)
    found = copy_desk(machine, options.file, new)
    check(machine, new / options.file.name, options.file)
    if machine.exists(corrections := options.file.with_name(CORRECTIONS)):
        machine.copy(corrections, new / CORRECTIONS)
    status = copy_ledgers(machine, options.inboxes, new / LEDGERS) if options.inboxes else DONE
    machine.sync_tree(new)
    # Of several copies in a second the others have the names of later ones.
    place, second = folder, found.moment // 1_000_000_000
    while options.keep and machine.exists(place := folder / named(second)):
        second += 1
    if machine.exists(place):
        raise Fault(f"{place}: it already exists")
    machine.rename(new, place)
    machine.sync_folder(place.parent)
    return place, found, status


def tell_room(machine: Machine, file: Path, found: Copied) -> None:
    """Warns if the next start may need more than half of its memory limit."""
    needed = OF_ITS_OWN + int(FOR_A_BYTE * (found.database + found.log))
    if needed > LIMIT // 2:
        megabytes = f"{needed // 1_000_000} MB of memory, of {LIMIT // 1_000_000} MB"
        machine.tell(ERROR, f"desk-renew; the next start of the desk may take {megabytes}: {file} has grown")
