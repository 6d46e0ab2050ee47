"""The command line of onixdesk-inbox."""

import argparse
import contextlib
import os
import pwd
import sys
from collections.abc import Iterator
from pathlib import Path

from onixdesk_shop.desk import Desk
from onixdesk_shop.ends import parser_of, program_of
from onixdesk_shop.faults import BadCall, Fault
from onixdesk_shop.inbox import decide, report, run, show
from onixdesk_shop.inbox.context import Inbox, Places
from onixdesk_shop.inbox.ledger import Ledger, is_lost
from onixdesk_shop.lines import token
from onixdesk_shop.machine import Machine
from onixdesk_shop.places import DESK_JSON, INBOX_SETTINGS, INBOXES, INCOMING, LEDGER, PROGRAM, RULES, STATE, STORE
from onixdesk_shop.settings import Settings, is_series, read_settings, terms_of
from onixdesk_shop.shop_json import Shop, read_shop

USAGE = """\
onixdesk-inbox SERIES
   or: onixdesk-inbox --let-in MARK | --refuse MARK | --dismiss MARK | --again MARK SERIES
   or: onixdesk-inbox waive SERIES NUMBER | FIRST-LAST
   or: onixdesk-inbox show SERIES --number N | --isbn ISBN | --file NAME
   or: onixdesk-inbox report SERIES"""

DESCRIPTION = "Posts a wholesaler's files to a running desk, once each, in order. MARK is the beginning of a digest."

# How many numbers are waived at once: more are a slip.
MOST_NUMBERS = 10_000

PATHS = {
    "settings": INBOX_SETTINGS,
    "incoming": INCOMING,
    "inboxes": INBOXES,
    "state": STATE,
    "rules": RULES,
    "page": DESK_JSON,
    "program": PROGRAM,
}


def series_word(word: str) -> str:
    if not is_series(word):
        raise argparse.ArgumentTypeError(f"{token(word)} is no name of a series, or of a file beside SERIES.json")
    return word


def numbers_word(word: str) -> range:
    first, _, last = word.partition("-")
    found = range(int(first), int(last or first) + 1)
    if not found or found[0] < 1 or found[-1] > 999_999_999 or len(found) > MOST_NUMBERS:
        raise ValueError(word)
    return found


def command_line() -> argparse.ArgumentParser:
    """A series may be named like a command: a lone word is a series."""
    name = sys.argv[1] if len(sys.argv) > 2 and sys.argv[1] in ("waive", "show", "report") else ""
    parser = parser_of("onixdesk-inbox", DESCRIPTION, **PATHS)
    parser.usage = USAGE
    parser.set_defaults(command=name)
    if name:
        parser.add_argument("command", metavar=name)
    else:
        what = parser.add_mutually_exclusive_group()
        for decision in decide.DECISIONS:
            what.add_argument(f"--{decision}", metavar="MARK")
    parser.add_argument("series", metavar="SERIES", type=series_word)
    if name == "waive":
        parser.add_argument("--back", action="store_true", help="does not waive it again")
        parser.add_argument("numbers", metavar="NUMBER", type=numbers_word, help=f"or FIRST-LAST, up to {MOST_NUMBERS}")
    if name == "show":
        what = parser.add_mutually_exclusive_group(required=True)
        what.add_argument("--number", metavar="N", type=int)
        what.add_argument("--isbn", metavar="ISBN")
        what.add_argument("--file", metavar="NAME")
    return parser


def become_owner(folder: Path) -> None:
    """If root started the program, it goes on as the user who owns the inboxes."""
    owner = os.stat(folder).st_uid
    if os.geteuid() or not owner:
        return
    user = pwd.getpwuid(owner)
    os.initgroups(user.pw_name, user.pw_gid)
    os.setgid(user.pw_gid)
    os.setuid(owner)


def read_all(machine: Machine, options: argparse.Namespace) -> tuple[Settings, bytes | None, Shop | None]:
    """The settings, today's terms, and the shop in desk.json, if that exists."""
    settings = read_settings(machine, options.settings / f"{options.series}.conf")
    shop = read_shop(machine, options.page) if machine.exists(options.page) else None
    try:
        terms = terms_of(machine, settings.terms, machine.today()) if settings.terms else None
    except OSError as error:
        raise BadCall(f"{error.filename}: TERMS: {error.strerror}") from None
    return settings, terms, shop


@contextlib.contextmanager
def opened(machine: Machine, options: argparse.Namespace) -> Iterator[Inbox]:
    """Opens the inbox of the series, and locks it."""
    program = program_of(options.program)
    places = Places(program, options.incoming, options.inboxes, options.state, options.rules)
    settings, terms, shop = read_all(machine, options)
    folder = places.inboxes / options.series
    if machine.exists(folder):
        become_owner(folder)
    machine.make_folder(folder)
    machine.make_folder(folder / STORE)
    if is_lost(machine, folder):
        raise Fault(f"desk-restore COPY (puts it back), or empty {folder / STORE}; {folder / LEDGER} is gone")
    with machine.lock(folder), contextlib.closing(Ledger(machine, folder / LEDGER)) as ledger:
        desk = Desk(machine, settings.batches)
        yield Inbox(machine, options.series, settings, places, ledger, desk, shop, terms)


def work(machine: Machine, options: argparse.Namespace) -> int:
    with opened(machine, options) as inbox:
        if options.command == "waive":
            return (decide.take_back if options.back else decide.waive)(inbox, options.numbers)
        if options.command == "show":
            return show.show(inbox, options.number, options.isbn, options.file)
        if options.command == "report":
            return report.report(inbox)
        for decision in decide.DECISIONS:
            if mark := getattr(options, decision.replace("-", "_")):
                return decide.decide(inbox, decision, mark)
        return run.run(inbox)
