"""Reports how an inbox stands."""

import re
from collections.abc import Iterator

from onixdesk_shop.desk import Gaps, NoDesk
from onixdesk_shop.faults import DONE
from onixdesk_shop.inbox import series_json
from onixdesk_shop.inbox.context import Inbox
from onixdesk_shop.inbox.posting import REASONS
from onixdesk_shop.inbox.show import moment
from onixdesk_shop.lines import count, cut, token
from onixdesk_shop.places import FETCH_SETTINGS
from onixdesk_shop.settings import read_lines

WAITING = "state IN ('new', 'quarantined', 'refused', 'posting', 'held')"

LAST_FILES, WEEK = 3, 7 * 86_400

DELETED = """\
SELECT count(*) FROM reference WHERE deleted AND number IN (SELECT number FROM message WHERE state = 'applied' AND at >= ?)"""

# How many references are listed.
MOST = 1000


def report(inbox: Inbox) -> int:
    for line in lines(inbox):
        inbox.machine.write(f"{line}\n")
    return DONE


def lines(inbox: Inbox) -> Iterator[str]:
    try:
        gaps = inbox.desk.gaps(inbox.series)
    except NoDesk as fault:
        yield str(fault)
        gaps = None
    for name, value in series_json.members(inbox, gaps).items():
        yield f"{name}: {value}"
    if gaps and gaps.missing:
        yield "missing: " + ", ".join(f"{low} to {high}" for low, high in gaps.missing)
    yield from of_the_week(inbox)
    for file in sorted(inbox.ledger.files(WAITING), key=lambda file: file.state != "quarantined"):
        yield f"{file.mark}: {file.state} since {moment(file.at)}: {cut(file.why) or '-'}; {token(file.name)}"
    yield from not_alike(inbox, gaps)
    yield from not_verified(inbox)
    yield from not_named(inbox)


def of_the_week(inbox: Inbox) -> Iterator[str]:
    """The last files that were taken, and how many articles were deleted in seven days."""
    for file in inbox.ledger.files("state = 'applied'")[-LAST_FILES:]:
        yield f"{file.mark}: applied {moment(file.at)}; {token(file.name)}"
    yield f"{count(inbox.ledger.value(DELETED, int(inbox.machine.now()) - WEEK), 'article')} deleted in seven days"


def not_alike(inbox: Inbox, gaps: Gaps | None) -> Iterator[str]:
    """Where agreement, desk.json or terms differ from the settings."""
    settings, shop = inbox.settings, inbox.shop
    if gaps:
        if inbox.ledger.files("state = 'refused' AND why = ?", REASONS["unknown-series"]):
            agreement = inbox.ledger.agreement(inbox.series, settings.sender, gaps.first)
            yield f"the desk has another agreement than {agreement}"
        if (gaps.first - 1) % settings.parts:
            yield f"no feed of {settings.parts} parts begins with the agreed first number, {gaps.first}"
    if shop:
        of_page = (each for each in shop.given.get("series", []) if each["name"] == inbox.series)
        page = {"name": "none", "parts": 1, "number_offset": 0} | next(of_page, {})
        own = {"name": inbox.series, "parts": settings.parts, "number_offset": settings.given("--number-offset", 0)}
        yield from (f"desk.json: {key} is {page[key]}, not {value}" for key, value in own.items() if page[key] != value)
        nets = re.findall(rb'(?m)^[^#\n]*\bnet\s*=\s*"([0-9]{2})"', inbox.terms or b"")
        for net in sorted({net.decode() for net in nets} - {shop.price_type}):
            yield f"desk.json: price_type is {shop.price_type}, not {net} as in TERMS"


def not_named(inbox: Inbox) -> Iterator[str]:
    """What the last full files did not name; without full files, what any file named."""
    last = inbox.ledger.full_files()[: max(1, inbox.settings.full)]
    if not last:
        return
    number = last[-1].number or 0
    gone = inbox.ledger.references_before(number)
    yield f"{count(len(gone), 'article')} not named since number {number}"
    for reference in gone[:MOST]:
        yield f"  {token(reference)}"


def not_verified(inbox: Inbox) -> Iterator[str]:
    """Whether its files are fetched from an unverified server."""
    path = FETCH_SETTINGS / f"{inbox.series}.env"
    if inbox.machine.exists(path) and read_lines(inbox.machine, path).get("UNVERIFIED", (0, "no"))[1] != "no":
        yield f"UNVERIFIED=yes in {path}: anybody on the way to that server can change a feed"
