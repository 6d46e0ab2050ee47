"""An inbox of the tests: its folders, its desk, and runs of it in this process."""

import json
import os
from collections.abc import Callable
from pathlib import Path
from typing import Any

from onixdesk_shop.children import Ended, Words
from onixdesk_shop.desk import Desk
from onixdesk_shop.inbox import decide, run
from onixdesk_shop.inbox.context import Inbox, Places
from onixdesk_shop.inbox.ledger import File, Ledger
from onixdesk_shop.machine import Machine
from onixdesk_shop.places import INBOXES, LEDGER, STORE
from onixdesk_shop.settings import Settings
from onixdesk_shop.shop_json import Shop
from tests.shop.fake_desk import FakeDesk, Series
from tests.shop.fake_machine import Disk, FakeMachine
from tests.shop.fake_program import SENDER

SERIES = "north"
START = 1_790_000_000
SHOP = Shop("GB", "GBP", "02", "", [1], {}, {})

AGREEMENT = f"Agree,{SERIES},{','.join(SENDER)},,,1\n"


class ProgramMachine(FakeMachine):
    """A machine on which the built program converts, checks and answers, instead of the tests' one. It also answers the
    desk's questions, over what the desk has taken."""

    def __init__(self, places: Places, *words: Any) -> None:
        super().__init__(*words)
        self.places = places

    def run(self, words: Words, *others: Any, **more: Any) -> Ended:
        self.step("child")
        return Machine.run(self, words, *others, **more)

    def batch(self, address: Path, text: bytes) -> bytes:
        assert self.desk
        if not text.startswith(b"Ask") or text.startswith(b"AskGaps"):
            return super().batch(address, text)
        taken = "".join([AGREEMENT, *(self.desk.texts[number] for number in sorted(self.desk.texts))]).encode()
        rules: list[str | Path] = ["--rules", self.places.rules] if self.places.rules.exists() else []
        answers = Machine.run(self, [self.places.program, *rules, "batch"], (0, 1), taken + text).output
        return b"".join(answers.splitlines(keepends=True)[1 + len(self.desk.texts) :])


class FakeInbox:
    def __init__(self, folder: Path, program: Path | None = None, **settings: Any) -> None:
        names = ("incoming", INBOXES.name, "state", "rules")
        self.places = Places(program or folder / "program", *(folder / name for name in names))
        for place in (self.places.incoming, self.places.inboxes, self.places.state):
            (place / SERIES).mkdir(parents=True)
        self.store.mkdir()
        (folder / "program").touch()
        self.program = program
        given: dict[str, Any] = {"unchanged_seconds": 0, **settings}
        self.settings = Settings(SENDER, **given)
        self.shop: Shop | None = SHOP
        self.terms: bytes | None = None
        self.disk = Disk()
        self.desk: FakeDesk | None = None
        self.begin_desk()
        self.clock = START
        self.lines: list[tuple[int, str]] = []

    def begin_desk(self, addressee: tuple[str, str] = ("", ""), first: int = 1) -> None:
        """A desk replaces another one, and has only the agreement."""
        self.desk = FakeDesk()
        self.desk.series[SERIES] = Series((*SENDER, *addressee), first)

    @property
    def incoming(self) -> Path:
        return self.places.incoming / SERIES

    @property
    def store(self) -> Path:
        return self.places.inboxes / SERIES / STORE

    @property
    def ledger(self) -> Path:
        return self.places.inboxes / SERIES / LEDGER

    @property
    def series(self) -> Series:
        assert self.desk
        return self.desk.series[SERIES]

    def machine(self) -> FakeMachine:
        words = self.disk, self.desk, self.clock
        return ProgramMachine(self.places, *words) if self.program else FakeMachine(*words)

    def send(self, name: str, data: bytes | str, time: float | None = None) -> None:
        """A file comes, a minute after the last event, or with a time of its server."""
        self.clock += 60
        path = self.incoming / name
        path.write_bytes(data if isinstance(data, bytes) else data.encode())
        os.utime(path, (time or self.clock, time or self.clock))
        self.clock += 60

    def work(self, work: Callable[[Inbox], Any], machine: FakeMachine | None = None) -> Any:
        machine = machine or self.machine()
        ledger = Ledger(machine, self.ledger)
        try:
            desk = Desk(machine, self.settings.batches)
            return work(Inbox(machine, SERIES, self.settings, self.places, ledger, desk, self.shop, self.terms))
        finally:
            ledger.close()
            self.lines = machine.lines
            self.clock = int(machine.clock) + 1

    def run(self, machine: FakeMachine | None = None) -> list[str]:
        """The lines of a run."""
        self.work(run.run, machine)
        return [line for _, line in self.lines]

    def take(self, name: str, data: bytes | str, time: float | None = None) -> list[str]:
        """A file comes, and a run takes it."""
        self.send(name, data, time)
        return self.run()

    def says(self, work: Callable[[Inbox], Any]) -> str:
        """What is written to standard output."""
        machine = self.machine()
        self.work(work, machine)
        return machine.written

    def decide(self, what: str, name: str) -> str:
        """What a person's decision on the last file of a name, or in a state, says."""
        query = "SELECT max(id) FROM file WHERE ? IN (name, state)"
        return self.says(lambda each: decide.decide(each, what, each.ledger.file(each.ledger.value(query, name)).mark))

    def files(self) -> list[File]:
        return list(self.work(lambda inbox: inbox.ledger.files("1")))

    def states(self) -> dict[str, str]:
        return {file.name: file.state for file in self.files()}

    def stored(self, file: File) -> bytes:
        return (self.store / f"{file.digest}{file.ending}").read_bytes()

    def shown(self) -> dict[str, Any]:
        found: dict[str, Any] = json.loads((self.places.state / f"{SERIES}.json").read_bytes())
        return found
