"""One inbox at work: its series, settings, places, ledger and desk, and the lines that it writes."""

import hashlib
from dataclasses import dataclass
from pathlib import Path

from onixdesk_shop.desk import Desk, Gaps
from onixdesk_shop.faults import Fault
from onixdesk_shop.inbox.ledger import Decision, File, Ledger, State
from onixdesk_shop.lines import ERROR, NOTICE, WARNING, token
from onixdesk_shop.machine import Entry, Machine
from onixdesk_shop.places import INCOMING, INBOXES, RULES, STATE, STORE
from onixdesk_shop.settings import OWN, Settings
from onixdesk_shop.shop_json import Shop

HOUR, DAY = 3_600, 86_400


class NotAgreed(Fault):
    """The desk has not agreed on the series."""


@dataclass(frozen=True)
class Places:
    """The folders of all inboxes, and the program."""

    program: Path
    incoming: Path = INCOMING
    inboxes: Path = INBOXES
    state: Path = STATE
    rules: Path = RULES


@dataclass
class Inbox:
    machine: Machine
    series: str
    settings: Settings
    places: Places
    ledger: Ledger
    desk: Desk
    shop: Shop | None = None
    terms: bytes | None = None
    has_error: bool = False
    # When the file that is judged has to be.
    until: float = 0

    @property
    def incoming(self) -> Path:
        return self.places.incoming / self.series

    @property
    def folder(self) -> Path:
        return self.places.inboxes / self.series

    @property
    def store(self) -> Path:
        return self.folder / STORE

    def stored(self, file: File) -> Path:
        return self.store / f"{file.digest}{file.ending}"

    def basis(self, first: int) -> str:
        """Everything that a file is judged by. If it changes, refused files are tried again."""
        program = self.machine.entry(self.places.program)
        parts = repr((self.settings, self.terms, first, program.size, program.modified))
        return hashlib.sha256(parts.encode()).hexdigest()

    def gaps(self) -> Gaps:
        """The desk's report on the series; raises NotAgreed if it has no such series."""
        found = self.desk.gaps(self.series)
        if found is None:
            raise NotAgreed(f"the desk has not agreed on the series {self.series}")
        return found

    def is_let_in(self, file: File) -> bool:
        query = "SELECT count(*) FROM decision WHERE file = ? AND what = ?"
        return bool(self.ledger.value(query, file.id, Decision.LET_IN))

    def is_silent(self) -> bool:
        """Whether nothing was heard for days, since the inbox began if it never was."""
        since = self.ledger.heard_at() or self.ledger.value("SELECT min(at) FROM decision")
        return bool(self.machine.now() - since > self.settings.silent_days * DAY)

    # Lines

    def tell(self, priority: int, line: str) -> None:
        self.has_error |= priority == ERROR
        self.machine.tell(priority, line)

    def command(self, what: str, file: File) -> str:
        return f"onixdesk-inbox --{what} {file.mark} {self.series}"

    def tell_file(self, priority: int, file: File, text: str, *commands: str) -> None:
        """Writes a line about a file: commands first, its name last."""
        self.tell(priority, "; ".join([*commands, text, token(file.name)]))

    def tell_refused(self, file: File, why: str, number: int | None = None, *remedies: str) -> None:
        """Writes that a file is refused, and what to do."""
        commands = [*remedies, self.command("dismiss", file)]
        if number is not None and self.settings.number == OWN:
            commands.append(f"onixdesk-inbox waive {self.series} {number} (or have it sent again under its number)")
        self.tell_file(ERROR, file, f"refused: {why}", *commands)

    def tell_once(self, subject: str, priority: int, line: str) -> None:
        """Tells once what holds until somebody does something."""
        if not self.ledger.is_told(subject):
            self.ledger.decide(Decision.TOLD, subject=subject)
            self.tell(priority, line)

    def is_well(self, subject: str) -> None:
        if self.ledger.is_told(subject):
            self.ledger.decide(Decision.WELL, subject=subject)

    def tell_waiting(self, entry: Entry, why: str) -> None:
        """Tells of what is not taken, once it has been there for an hour."""
        if self.machine.now() - entry.changed / 1e9 > HOUR:
            self.tell_once(f"not taken {entry.inode} {entry.changed}", ERROR, f"not taken: {why}; {token(entry.name)}")

    def tell_known(self, file: File, before: File) -> None:
        if before.state == State.REJECTED:
            self.tell_file(WARNING, file, "a person refused these bytes")
        elif before.state == State.REPLACED:
            self.tell_file(WARNING, file, "a newer full file replaced these bytes, and they are not taken any more")
        elif before.number is not None:
            self.tell_file(NOTICE, file, f"had it already: {before.state} from number {before.number} on")
