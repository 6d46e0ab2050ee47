"""The inboxes at a restore: what each posts again to the restored desk, and when it is done."""

from contextlib import closing
from dataclasses import dataclass, field
from pathlib import Path

from onixdesk_shop.desk import Desk, Gaps
from onixdesk_shop.faults import BadCall, Fault
from onixdesk_shop.inbox.ledger import File, Ledger, State, is_lost
from onixdesk_shop.lines import ERROR, ranges, token
from onixdesk_shop.machine import Machine
from onixdesk_shop.places import BATCHES, LEDGER
from onixdesk_shop.settings import Settings, read_settings
from onixdesk_shop.units import BEGIN

# How long to wait for a desk that starts, and for an inbox that posts nothing, in seconds.
PATIENCE = 600
PAUSE = 2.0


@dataclass
class Again:
    """What an inbox posts again: the numbers, those whose texts are gone, and a line for each file."""

    numbers: list[int] = field(default_factory=list)
    gone: list[int] = field(default_factory=list)
    lines: list[str] = field(default_factory=list)
    refused: set[int] = field(default_factory=set)


class Inbox:
    """The inbox of a series, with its ledger or one from a copy."""

    def __init__(self, machine: Machine, series: str, ledger: Path, settings: Path) -> None:
        self.machine = machine
        self.series = series
        self.file = ledger
        self.conf = settings / f"{series}.conf"

    def settings(self) -> Settings | None:
        """None if they are missing or wrong, which is reported."""
        try:
            return read_settings(self.machine, self.conf)
        except BadCall as fault:
            self.machine.tell(ERROR, str(fault))
            return None

    def again(self, gaps: Gaps) -> Again:
        """What it posts again to a desk with these gaps."""
        found = Again()
        files: dict[int, tuple[File, list[int]]] = {}
        with closing(Ledger(self.machine, self.file)) as ledger:
            # Below the first number nothing is posted.
            for row in (each for each in ledger.to_post(gaps) if each.number >= gaps.first):
                found.numbers.append(row.number)
                files.setdefault(row.file, (ledger.file(row.file), []))[1].append(row.number)
                if not row.has_text:
                    found.gone.append(row.number)
            query = "SELECT message.number FROM message JOIN file ON file.id = message.file WHERE file.state = ?"
            found.refused = {number for (number,) in ledger.rows(query, State.REJECTED)}
        for file, numbers in files.values():
            command = f"onixdesk-inbox --refuse {file.mark} {self.series}"
            found.lines.append(f"{command}; is posted again: {ranges(numbers)}; {token(file.name)}")
        return found

    def agreement(self) -> str:
        """The record that agrees on the series, as far as it is known here."""
        settings = self.settings()
        with closing(Ledger(self.machine, self.file)) as ledger:
            return ledger.agreement(self.series, settings.sender if settings else ("", ""))

    def is_unused(self) -> bool:
        """Whether its ledger has no file."""
        with closing(Ledger(self.machine, self.file)) as ledger:
            return not ledger.files("1")

    def goes_on(self, units: list[str]) -> bool:
        """Whether one of these units runs it."""
        return any(f"onixdesk-inbox@{self.series}{kind}" in units for kind in BEGIN)

    def has_unanswered(self) -> bool:
        """Whether a message has no answer of the desk yet."""
        with closing(Ledger(self.machine, self.file)) as ledger:
            return bool(ledger.value("SELECT count(*) FROM message WHERE state IN ('ready', 'posted')"))

    def has_refused(self, number: int) -> bool:
        """Whether the desk has refused that number since, or a person its file."""
        with closing(Ledger(self.machine, self.file)) as ledger:
            row = ledger.row(number)
            return not row or row.state == State.REFUSED or ledger.file(row.file).state == State.REJECTED


def inboxes_in(machine: Machine, folder: Path, settings: Path) -> list[Inbox]:
    """The inboxes that have a ledger."""
    found = machine.paths(folder, f"*/{LEDGER}")
    return [Inbox(machine, path.parent.name, path, settings) for path in found if not is_lost(machine, path.parent)]


def wait_for_inbox(inbox: Inbox, numbers: list[int], goes_on: bool) -> bool:
    """Waits until the desk has these numbers again, or the inbox stops; returns whether it has them."""
    machine, settings = inbox.machine, inbox.settings()
    if settings is None:
        return False
    desk, left = Desk(machine, settings.batches, PATIENCE), set(numbers)
    end = machine.now() + PATIENCE
    while True:
        gaps = desk.gaps(inbox.series)
        if gaps is None:
            machine.tell(ERROR, f"{inbox.agreement()}; no series {inbox.series} is agreed, and its files wait")
            return False
        again = inbox.again(gaps)
        before, left = left, {number for number in left if gaps.lacks(number)} | set(again.numbers)
        if not left:
            return True
        if not goes_on:
            command = f"onixdesk-inbox {inbox.series}"
            machine.tell(ERROR, f"{command}; no unit runs this inbox, and the desk lacks {ranges(sorted(left))}")
            return False
        if left != before:
            end = machine.now() + PATIENCE
        if again.gone or all(map(inbox.has_refused, left)) or machine.now() > end:
            machine.tell(ERROR, f"{inbox.series}: the desk still lacks {ranges(sorted(left))}")
            return False
        machine.sleep(PAUSE)


def wait_for_all(machine: Machine, inboxes: list[Inbox], planned: dict[str, list[int]], units: list[str]) -> bool:
    """Waits until the desk answers, and has again what the inboxes of these units post; returns whether it has all."""
    try:
        if not inboxes:
            Desk(machine, BATCHES, PATIENCE).gaps("north")
        return all([wait_for_inbox(each, planned.get(each.series, []), each.goes_on(units)) for each in inboxes])
    except Fault as fault:
        machine.tell(ERROR, str(fault))
        return False
