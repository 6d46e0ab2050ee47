"""The one client of the desk, at its socket for batches: it asks for gaps, delivers messages, asks questions."""

from collections.abc import Iterable, Iterator
from dataclasses import dataclass
from pathlib import Path

from onixdesk_shop.faults import Fault
from onixdesk_shop.lines import cut
from onixdesk_shop.machine import Machine
from onixdesk_shop.messages import records_of

# The pause between two tries at a desk that starts, in seconds.
PAUSE = 1.0


class NoDesk(Fault):
    """Nobody answers, or the answer breaks off."""


@dataclass(frozen=True)
class Gaps:
    """The desk's report on the gaps of a series."""

    first: int
    next: int
    greatest: int | None
    missing: tuple[tuple[int, int], ...]

    def lacks(self, number: int) -> bool:
        """Whether the desk has neither a message nor a waiver at that number, and would take one."""
        is_beyond = self.greatest is None or number > self.greatest
        return number >= self.first and (is_beyond or any(low <= number <= high for low, high in self.missing))


@dataclass(frozen=True)
class Taken:
    """The desk took a message: its series, and how many products had which effect, or the number for which it waits;
    `said` is the answer."""

    series: str
    counts: dict[str, int]
    said: str


@dataclass(frozen=True)
class Refused:
    """The desk refused a message: the reason, and the other fields of the answer."""

    reason: str
    words: list[str]

    @property
    def said(self) -> str:
        return ",".join(["refused", self.reason, *self.words])


class Desk:
    """An open desk. While nobody listens yet, it waits for so many seconds at most."""

    def __init__(self, machine: Machine, socket: Path, patience: float = 0) -> None:
        self.machine = machine
        self.socket = socket
        self.patience = patience

    def batch(self, text: str) -> list[list[str]]:
        """The records that answer a batch; raises NoDesk if the answer breaks off."""
        end = self.machine.now() + self.patience
        while True:
            try:
                said = self.machine.batch(self.socket, text.encode())
                break
            except (ConnectionRefusedError, FileNotFoundError):
                if self.machine.now() >= end:
                    raise NoDesk(f"no desk answers at {self.socket}") from None
                self.machine.sleep(PAUSE)
            except OSError as error:
                raise NoDesk(f"no desk answers at {self.socket}: {error.strerror or error}") from None
        if not said.endswith(b"\n"):
            raise NoDesk(f"the answer of the desk at {self.socket} breaks off")
        return [*records_of(said)]

    def gaps(self, series: str) -> Gaps | None:
        """The report on a series, or None if the desk has not agreed on it."""
        records = self.batch(f"AskGaps,{series}\n")
        return None if records[0][:2] == ["refused", "unknown-series"] else reports_in(records)[series]

    def post(self, message: bytes) -> Taken | Refused:
        """The answer to a message; raises Fault if it is neither yes nor no."""
        match self.batch(message.decode()):
            case [["applied" | "held", series, _, *words] as record]:
                counts = {name: int(value) for name, value in (word.split("=") for word in words)}
                return Taken(series, counts, ",".join(record))
            case [["refused", reason, *words]]:
                return Refused(reason, words)
            case records:
                raise Fault(f"the desk answers {cut(str(records))}")


# An answer is a record, followed by records of these kinds.
BEHIND = ("offer", "span", "missing")


def answers_in(records: Iterable[list[str]]) -> Iterator[list[list[str]]]:
    """Groups records by answer: those about articles and gaps."""
    answer: list[list[str]] = []
    for record in records:
        if record[0] not in BEHIND and answer:
            yield answer
            answer = []
        answer.append(record)
    if answer:
        yield answer


def reports_in(records: list[list[str]]) -> dict[str, Gaps]:
    """The reports on gaps, by series."""
    found = {}
    for (_, name, *words), *missing in answers_in(records):
        head = dict(word.split("=", 1) for word in words)
        greatest = int(head["greatest"]) if head["greatest"].isdigit() else None
        spans = tuple((int(low), int(high)) for _, low, high in missing)
        found[name] = Gaps(int(head["first"]), int(head["next"]), greatest, spans)
    return found
