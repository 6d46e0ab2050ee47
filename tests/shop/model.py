"""The inbox as a state machine: whatever comes, breaks or is restored, the desk has what a plain list of first
deliveries in order gives, no number has two texts, and nothing that was taken is lost or waits unseen."""

import functools
import json
import os
import shutil
import sqlite3
import tempfile
import unittest
from collections.abc import Callable
from contextlib import closing
from copy import deepcopy
from dataclasses import dataclass, field, replace
from hashlib import sha256
from pathlib import Path
from typing import Any

from hypothesis import HealthCheck, Phase
from hypothesis import settings as hypothesis_settings
from hypothesis import strategies as st
from hypothesis.stateful import RuleBasedStateMachine, initialize, precondition, rule

from onixdesk_shop.faults import Fault
from onixdesk_shop.inbox import decide, posting
from onixdesk_shop.inbox.context import Inbox
from onixdesk_shop.inbox.ledger import File
from onixdesk_shop.settings import NEXT, OWN
from tests.shop import fake_program
from tests.shop.fake_desk import WAIVED, Contents, FakeDesk, Series, contents_of, products_in, records_of
from tests.shop.fake_machine import FakeMachine, Killed
from tests.shop.inboxes import SERIES, FakeInbox

FAULTS = ("error", "kill", "power", "torn", "signal")
STEPS = "copy copied rename renamed remove removed sync synced write written begin commit committed batch child".split()
# A lost answer of the desk is tried as often as all other faults.
STEPS += ["answered"] * len(STEPS)

# Calls amid which a file may be overwritten.
INTAKE = "copy copied rename renamed synced committed remove removed answered".split()

NUMBERS = range(1, 6)
REFERENCES = [f"R{number}" for number in range(4)]
MANY = [f"M{number}" for number in range(12)]

# A price that nobody asks: with it a feed looks wrong.
WRONG = 1000.0

# Records that end too early.
MALFORMED = b"Message,2,06,4012345000009,,,1,,,,\nProduct,R0,03,15,9780000000000\nPrice,02\nEndMessage,3\n"


@dataclass
class Sent:
    """Bytes that were sent: when first, whether the desk can take them, and what a person decided."""

    data: bytes
    time: float
    is_whole: bool
    number: int | None
    # Whether it may have come after files with a later time.
    is_late: bool = False
    is_rejected: bool = False
    # Its text when a person refused it: from then on it is not posted. (Parts of several feeds may be the same.)
    refused: set[bytes] = field(default_factory=set)
    is_let_in: bool = False
    # Whether a desk was seen without it after a person refused it.
    is_gone: bool = False
    # Whether a desk was corrected by it: then desk-restore takes no copy that has it.
    is_taken_out: bool = False
    # Whether a desk here or in a copy had it when an older ledger was restored.
    was_had: bool = False
    # Whether the machine with its bytes is gone.
    is_lost: bool = False
    terms: set[bytes | None] = field(default_factory=set)


def digest_of(data: bytes) -> str:
    return sha256(data).hexdigest()


@functools.cache
def contents(data: bytes, parts: int, terms: bytes | None) -> tuple[Contents, ...]:
    """The contents of the messages of a feed."""
    messages = fake_program.messages_of(json.loads(data), 1, parts, terms)
    return tuple(contents_of(records_of(message)) for message in messages)


def products_of(sent: Sent) -> list[tuple[str, str]]:
    """The products of a feed, in order, which is that of the contents."""
    return [*json.loads(sent.data)["products"].items()]


def bare(had: Contents | str | None) -> Contents | str | None:
    """Contents without what was added to a full file."""
    if isinstance(had, tuple):
        return tuple(record for record in had if record[:1] != ("Product",) or record[3] != "01")
    return had


class Model(RuleBasedStateMachine):
    place: Path | None = None

    @initialize(
        number=st.sampled_from([OWN, NEXT]), parts=st.integers(1, 2), leave=st.booleans(), full=st.integers(0, 2)
    )
    def begin(self, number: str, parts: int, leave: bool, full: int) -> None:
        self.folder = Path(tempfile.mkdtemp(prefix="model-", dir=self.place))
        self.inbox = FakeInbox(self.folder, words=("--parts", str(parts)), number=number, leave=leave, full=full)
        self.is_next, self.parts = number == NEXT, parts
        self.copies = [self.desk.copy()]
        # The ledger's, and what was known then.
        self.ledgers: list[Path] = []
        self.known: list[Any] = []
        self.sent: dict[str, Sent] = {}
        self.waived: set[int] = set()
        self.ever: dict[int, Contents] = {}
        self.unsure: set[int] = set()
        # The numbers that a person waived at the desk, and waives again after a restore.
        self.by_hand: set[int] = set()
        # What was judged over another desk may look wrong beside what this one has.
        self.is_restored = False

    def teardown(self) -> None:
        if hasattr(self, "folder"):
            shutil.rmtree(self.folder)

    # What comes

    def upload(self, name: str, data: bytes, is_whole: bool, number: int | None, is_late: bool = False) -> None:
        """A wholesaler that overwrites its file before it is taken has sent nothing: this one waits."""
        name = "g.csv" if data == MALFORMED else name
        if (self.inbox.incoming / name).exists():
            self.clean()
        is_new = is_whole and self.inbox.work(lambda inbox: self.is_refused(inbox, data))
        sent = self.put(name, data, is_whole, number, self.inbox.clock + 60 - (100_000 if is_late else 0))
        sent.is_late |= is_late or sent.is_lost
        if sent.is_lost or is_new and self.is_next:
            # What was refused whole is a new file then, unless something ends the run amid its copy.
            time = (self.inbox.incoming / name).stat().st_mtime
            sent.time = time if is_new else sent.time
            sent.is_lost = False
            self.clean()

    def put(self, name: str, data: bytes, is_whole: bool, number: int | None, time: float) -> Sent:
        self.inbox.send(name, data, time)
        sent = self.sent.setdefault(digest_of(data), Sent(data, time, is_whole, number))
        sent.terms.add(self.inbox.terms)
        return sent

    def is_refused(self, inbox: Inbox, data: bytes) -> bool:
        """Whether a file is refused, and no desk has anything of it."""
        file = inbox.ledger.latest(digest_of(data))
        is_kept = file and any("unknown-series" in row.answer for row in inbox.ledger.messages_of(file))
        return file is not None and file.state == "refused" and not inbox.ledger.is_final(file) and not is_kept

    # Which one of those that exist: a number, so that the printed steps of a run can be repeated.
    some = st.integers(0, 11)
    names = st.sampled_from(["a.xml", "b.xml", "c d'.xml", "-e.xml", "f.onix"])
    prices = st.sampled_from(["1.00", "1.50", "1.70", "", "-"])
    small = st.dictionaries(st.sampled_from(REFERENCES), prices, max_size=4)
    large = st.sampled_from(["4.50", "5.00", "6.00", f"{WRONG:.2f}", f"{WRONG * 2:.2f}"])
    numbers, moments = st.sampled_from(NUMBERS), st.sampled_from(["", "x"])

    @rule(name=names, number=numbers, sent=moments, is_late=st.booleans(), products=small)
    def send(self, name: str, number: int, sent: str, is_late: bool, products: dict[str, str]) -> None:
        of_sender = None if self.is_next else number
        # Other bytes of the same contents are a resend if the sender numbers its files, and else another file.
        data = fake_program.feed_of(of_sender, products, sent="" if self.is_next else sent)
        self.upload(name, data, True, of_sender, is_late and self.is_next and digest_of(data) not in self.sent)

    @rule(name=names, number=numbers, sent=moments, is_late=st.booleans(), price=large)
    def send_many(self, name: str, number: int, sent: str, is_late: bool, price: str) -> None:
        self.send(name, number, sent, is_late, dict.fromkeys(MANY, price))

    @rule(name=names, data=st.sampled_from([b"", b"<cut", b'{"number": null}', MALFORMED]))
    def send_broken(self, name: str, data: bytes) -> None:
        self.upload(name, data, False, None)

    @precondition(lambda self: bool(self.sent))
    @rule(name=names, which=some)
    def send_again(self, name: str, which: int) -> None:
        sent = self.one_of(which)
        self.upload(name, sent.data, sent.is_whole, sent.number)

    def one_of(self, which: int) -> Sent:
        found = sorted(self.sent.values(), key=lambda each: (each.time, each.data))
        return found[which % len(found)]

    # What breaks

    @rule(kind=st.sampled_from(FAULTS), what=st.sampled_from(STEPS), place=st.integers(1, 8))
    def run_with_fault(self, kind: str, what: str, place: int) -> None:
        self.run((kind, what, place))

    @rule()
    def run_without_desk(self) -> None:
        desk, self.inbox.desk = self.inbox.desk, None
        self.run()
        self.inbox.desk = desk
        assert not self.inbox.shown()["desk"]
        # Bytes that came twice may be skipped once.
        left = {digest_of(path.read_bytes()) for path in self.inbox.incoming.iterdir()}
        assert left <= {file.digest for file in self.inbox.files()}, self.inbox.lines

    @rule(what=st.sampled_from(STEPS), place=st.integers(1, 8))
    def run_with_closed_output(self, what: str, place: int) -> None:
        self.run(("meanwhile", what, place), FakeMachine.close_output)

    @precondition(lambda self: not any(sent.is_lost for sent in self.sent.values()))
    @rule(
        name=names,
        number=numbers,
        first=small,
        products=small,
        is_cut=st.booleans(),
        what=st.sampled_from(INTAKE),
        place=st.integers(1, 2),
    )
    def run_with_upload(
        self, name: str, number: int, first: Any, products: Any, is_cut: bool, what: str, place: int
    ) -> None:
        """Amid a run a file is overwritten, which may be taken by then, or is complete from then on."""
        self.clean()
        of_sender = None if self.is_next else number
        data = fake_program.feed_of(of_sender, products, sent="")
        before = data[:-9] if is_cut else fake_program.feed_of(of_sender, first, sent="")
        known = set(self.sent)
        self.upload(name, before, not is_cut, of_sender)
        self.run(("meanwhile", what, place), lambda machine: self.put(name, data, True, of_sender, machine.clock))
        if before != data and digest_of(before) not in known:
            is_taken = digest_of(before) in {file.digest for file in self.inbox.files()}
            assert not is_taken or (what, place) not in (("copy", 1), ("copied", 1)), before
            if not is_taken:
                del self.sent[digest_of(before)]

    @precondition(lambda self: bool(self.is_next))
    @rule(name=names, products=small, place=st.integers(1, 4))
    def run_with_waiver(self, name: str, products: dict[str, str], place: int) -> None:
        """Amid a run somebody waives the last number of a feed at the desk, which may have the feed's first half; and
        later what is missing below."""
        self.clean()
        self.send(name, 1, "", False, products)
        self.run(("meanwhile", "batch", place), lambda _: self.waive_at_desk())
        had = self.inbox.series.had
        self.by_hand |= {number for number in range(1, max(had, default=1)) if had.setdefault(number, WAIVED) == WAIVED}

    def waive_at_desk(self) -> None:
        last = (self.inbox.series.next + self.parts - 2) // self.parts * self.parts + self.parts
        self.inbox.series.had[last] = WAIVED
        self.by_hand.add(last)

    @rule(is_other=st.booleans(), first=st.integers(1, 3))
    def run_misagreed(self, is_other: bool, first: int) -> None:
        """The agreement is another one, until it is corrected."""
        series, parties = self.inbox.series, self.inbox.series.parties
        series.parties = (*parties[:2], "06", "5012345678900") if is_other else parties
        # No desk has a message below its first number.
        series.first = 1 if self.is_next else min([first, *series.had])
        self.run()
        series.parties, series.first = parties, 1

    @rule()
    def copy(self) -> None:
        if self.unsure:
            # A night's copy comes long after an older ledger was restored.
            self.clean()
        self.copies.append(self.desk.copy())
        target = self.folder / f"ledger-{len(self.ledgers)}"
        digests = {file.digest for file in self.inbox.files()}
        with closing(sqlite3.connect(self.inbox.ledger)) as old, closing(sqlite3.connect(target)) as new:
            old.backup(new)
        self.ledgers.append(target)
        sent = {digest: sent for digest, sent in self.sent.items() if digest in digests}
        self.known.append(deepcopy((sent, self.waived, self.ever, self.unsure)))

    @rule(which=some)
    def restore(self, which: int) -> None:
        desk = self.copies[which % len(self.copies)].copy()
        had = set(map(bare, desk.series[SERIES].had.values()))
        gone = [sent for sent in self.sent.values() if sent.is_gone or sent.is_taken_out]
        if any(not had.isdisjoint(self.all_parts(sent)) for sent in gone):
            # It has what was refused, and taken out since: desk-restore does not take it.
            return
        self.inbox.desk = desk
        for number in self.by_hand:
            desk.series[SERIES].had.setdefault(number, WAIVED)
        self.is_restored = True
        for sent in self.sent.values():
            sent.is_gone |= sent.is_rejected and not self.unsure and had.isdisjoint(self.all_parts(sent))

    def all_parts(self, sent: Sent) -> list[Contents | str | None]:
        return [each for part in range(self.parts) for each in self.may_be(sent, part)] if sent.is_whole else []

    @precondition(lambda self: bool(self.ledgers))
    @rule(which=some)
    def move(self, which: int) -> None:
        """Another machine gets a night's copy, of the desk and the ledger; what came since and all bytes of files are
        gone."""
        at = which % len(self.ledgers)
        del self.ledgers[at + 1 :], self.known[at + 1 :], self.copies[at + 2 :]
        self.inbox.desk, self.inbox.disk.undo = self.copies[-1].copy(), []
        self.sent, self.waived, self.ever, self.unsure = deepcopy(self.known[-1])
        self.by_hand = {number for number in self.by_hand if self.inbox.series.had.get(number) == WAIVED}
        self.is_restored = True
        for path in [*self.inbox.incoming.iterdir(), *self.inbox.store.iterdir()]:
            path.unlink()
        for sent in self.sent.values():
            sent.is_lost = True
        self.replace_ledger(self.ledgers[-1])

    def replace_ledger(self, before: Path) -> None:
        for ending in ("", "-wal", "-shm"):
            self.inbox.ledger.with_name(f"{self.inbox.ledger.name}{ending}").unlink(missing_ok=True)
        shutil.copyfile(before, self.inbox.ledger)

    def may_replace_ledger(self) -> bool:
        is_lost = any(sent.is_lost for sent in self.sent.values())
        return bool(self.ledgers) and not self.is_next and self.parts == 1 and not is_lost

    @precondition(may_replace_ledger)
    @rule(which=some)
    def put_back_ledger(self, which: int) -> None:
        self.replace_ledger(self.ledgers[which % len(self.ledgers)])
        with closing(sqlite3.connect(self.inbox.ledger)) as ledger:
            rejected = {digest for digest, in ledger.execute("SELECT digest FROM file WHERE state = 'rejected'")}
        # What came since is converted with the terms of that time, if a desk lacks it too.
        desks = [self.desk, *self.copies]
        numbers = (number for desk in desks for number in desk.series[SERIES].had)
        self.unsure |= {0, *self.ever, *numbers}
        for sent in self.sent.values():
            sent.is_rejected, sent.is_gone = digest_of(sent.data) in rejected, False
            sent.was_had = sent.was_had or any(self.is_at(sent, desk.series[SERIES]) for desk in desks)

    def is_at(self, sent: Sent, series: Series) -> bool:
        """Whether a desk has a part of a feed at its number."""
        had = [bare(series.had.get(at)) for at in self.numbers_of(sent.number or 0)]
        return sent.is_whole and any(each in self.may_be(sent, part) for part, each in enumerate(had))

    # What people do

    @rule(terms=st.sampled_from([None, b"50", b"60"]))
    def change_terms(self, terms: bytes | None) -> None:
        self.inbox.terms = terms
        for sent in self.sent.values():
            sent.terms.add(terms)

    @precondition(lambda self: bool(self.sent))
    @rule(which=some, is_clean=st.booleans(), is_corrected=st.booleans())
    def refuse(self, which: int, is_clean: bool, is_corrected: bool) -> None:
        """A file is refused, and its messages are taken out of the desk's text."""
        if is_clean or is_corrected:
            self.clean()
        sent = self.one_of(which)
        self.inbox.work(lambda inbox: self.refuse_file(inbox, sent))
        if is_corrected:
            self.inbox.work(lambda inbox: self.take_out(inbox, sent))

    def refuse_file(self, inbox: Inbox, sent: Sent) -> None:
        file = inbox.ledger.latest(digest_of(sent.data))
        if file and file.state not in ("rejected", "replaced"):
            decide.decide(inbox, "refuse", file.mark)
            sent.is_rejected = True
            if self.parts == 1:
                sent.refused = {inbox.ledger.text(row.number) for row in inbox.ledger.messages_of(file)}

    def take_out(self, inbox: Inbox, sent: Sent) -> None:
        file = inbox.ledger.latest(digest_of(sent.data))
        for row in inbox.ledger.messages_of(file) if file else []:
            if sent.is_rejected and row.state in ("posted", "held", "applied"):
                self.inbox.series.had.pop(row.number, None)
                self.is_restored = True
                sent.is_gone, sent.is_taken_out = not self.unsure, True

    @rule(days=st.integers(4, 6))
    def change_settings(self, days: int) -> None:
        """Which ones does not matter: what was refused is tried again."""
        self.inbox.settings = replace(self.inbox.settings, silent_days=days)

    @rule()
    def let_in(self) -> None:
        self.clean()
        self.inbox.work(self.let_in_first)

    def let_in_first(self, inbox: Inbox) -> None:
        for file in inbox.ledger.files("state = 'quarantined'")[:1]:
            decide.decide(inbox, "let-in", file.mark)
            self.sent[file.digest].is_let_in = True

    @precondition(lambda self: not self.is_next)
    @rule(number=st.integers(1, 8))
    def waive(self, number: int) -> None:
        self.clean()
        self.inbox.work(lambda inbox: self.waive_number(inbox, number))

    def waive_number(self, inbox: Inbox, number: int) -> None:
        try:
            decide.waive(inbox, range(number, number + 1))
            self.waived.add(number)
        except Fault:
            assert inbox.ledger.stands(number)

    @precondition(lambda self: bool(self.waived))
    @rule(which=some)
    def take_back(self, which: int) -> None:
        """A waiver is not made again; the desk has it until it is restored."""
        self.clean()
        number = sorted(self.waived)[which % len(self.waived)]
        self.inbox.work(lambda inbox: decide.take_back(inbox, [number]))

    # Running it

    @property
    def desk(self) -> FakeDesk:
        assert self.inbox.desk
        return self.inbox.desk

    def run(
        self, fault: tuple[str, str, int] = ("", "", 0), meanwhile: Callable[[FakeMachine], object] | None = None
    ) -> None:
        """One run, with a fault, or with what others do amid it without ending it."""
        machine = FakeMachine(self.inbox.disk, self.inbox.desk, self.inbox.clock, fault)
        if meanwhile:
            machine.meanwhile = functools.partial(meanwhile, machine)
        try:
            self.inbox.run(machine)
        except (Killed, SystemExit, OSError, Fault):
            assert not meanwhile
        assert not any(sent.is_rejected and not sent.refused.isdisjoint(machine.posted) for sent in self.sent.values())
        # A name stands quoted, behind the commands.
        assert not any("; c d'" in line for _, line in machine.lines), machine.lines

    @rule()
    def clean(self) -> None:
        """Nothing fails any more: after two runs all is as it should be, and nothing more is said of it."""
        for _ in range(2):
            self.run()
        assert not self.inbox.run(), self.inbox.lines
        self.inbox.work(self.check)

    # What holds then

    def check(self, inbox: Inbox) -> None:
        assert self.inbox.settings.leave or not os.listdir(self.inbox.incoming)
        files = inbox.ledger.files("1")
        self.check_seen(files)
        series = self.inbox.series
        waiting = [self.sent[file.digest] for file in files if file.state in ("new", "quarantined", "replaced")]
        refused = [file for file in files if file.state == "refused" and not inbox.ledger.has_stood(file)]
        waiting += [sent for file in refused if (sent := self.sent[file.digest]).is_lost]
        resent = [self.sent[file.digest] for file in files if file.state == "had"]
        whole = sorted((sent for sent in self.sent.values() if sent.is_whole), key=lambda sent: sent.time)
        judged = [sent for sent in whole if sent not in waiting]
        if self.is_next:
            # A file in quarantine that keeps its number below a waived one waits for a person.
            kept = inbox.ledger.messages("file IN (SELECT id FROM file WHERE state = 'quarantined')")
            self.check_next(series, judged, {row.number for row in kept})
            if not self.is_restored:
                self.check_prices(series)
        else:
            self.check_own(series, judged, [sent for sent in whole if sent in waiting], resent)
        self.check_texts(series)
        self.check_states(inbox, files, series)
        self.check_full(inbox, series)

    def check_seen(self, files: list[File]) -> None:
        """Each sent file has a row, its bytes are there, and files that wait, or are refused, are counted."""
        assert {file.digest for file in files} == set(self.sent)
        first = min(((file.time, file.name, file.id) for file in files if file.state == "quarantined"), default=None)
        for file in files:
            sent = self.sent[file.digest]
            assert sent.is_lost or self.inbox.stored(file) == sent.data, file
            if file.state == "new":
                assert first and (file.time, file.name, file.id) > first, file
            assert file.state != "posting", file
            assert sent.is_late or "older" not in file.why, file
            assert sent.is_whole or file.state not in ("applied", "held", "had"), file
        shown = self.inbox.shown()
        assert shown["waiting"] == sum(file.state in ("new", "posting", "held") for file in files)
        for state in ("quarantined", "refused"):
            assert shown[state] == sum(file.state == state for file in files)
        assert shown["desk"]

    def rejected(self) -> list[Contents | str | None]:
        """The contents of everything that a person refused."""
        return [each for sent in self.sent.values() if sent.is_rejected for each in self.all_parts(sent)]

    def check_states(self, inbox: Inbox, files: list[File], series: Series) -> None:
        """The desk has all of what is called taken, and does not have what is called refused."""
        if self.unsure:
            return
        rejected = self.rejected()
        for file in files:
            if file.state in ("applied", "held"):
                rows = [row for row in inbox.ledger.messages_of(file) if row.state != "returned"]
                assert len(rows) == self.parts, file
                for row in rows:
                    had, text = series.had.get(row.number), inbox.ledger.text(row.number).decode()
                    assert had == contents_of(records_of(text)) or bare(had) in rejected, (file, had)
            sent = self.sent[file.digest]
            if file.state == "refused" and sent.is_whole and not sent.is_lost:
                numbers = {row.number for row in inbox.ledger.messages_of(file)}
                assert not self.is_next or numbers & self.by_hand, file
                # A file that came again while no series was agreed is refused until it is sent once more.
                is_again = file.why == posting.REASONS["unknown-series"] and not numbers
                # Nor is one tried again since its number is waived no longer, and another file of it came.
                was_waived = file.why.endswith("was waived")
                assert is_again or was_waived or not self.is_had(sent, series), file

    def is_had(self, sent: Sent, series: Series) -> bool:
        """Whether the desk has a feed of that number with the same products, by any terms."""
        had = [bare(series.had.get(at)) for at in self.numbers_of(sent.number or 0)]
        others = [other for other in self.sent.values() if other.is_whole and other.number == sent.number]
        return any(self.fits(other, had) for other in others if products_of(other) == products_of(sent))

    def check_texts(self, series: Series) -> None:
        """No number ever has two texts, unless a person refused the first."""
        rejected = self.rejected()
        for number, had in series.had.items():
            if isinstance(had, str) or number in self.unsure:
                continue
            before = self.ever.setdefault(number, had)
            assert before == had or bare(before) in rejected, (number, before, had)
            self.ever[number] = had

    def may_be(self, sent: Sent, part: int) -> list[Contents | str | None]:
        """The possible texts of a part of a feed, by the tables of terms since it came."""
        return [contents(sent.data, self.parts, terms)[part] for terms in sent.terms]

    def check_own(self, series: Series, judged: list[Sent], waiting: list[Sent], resent: list[Sent]) -> None:
        for number in NUMBERS:
            candidates = [sent for sent in judged if sent.number == number]
            # What a person refused does not come back by a resend, nor what an older ledger took for one.
            refused = [products_of(sent) for sent in candidates if sent.is_rejected]
            had = [sent for sent in candidates if sent in resent] if refused else []
            over = [sent for sent in had if self.unsure or products_of(sent) in refused]
            standing = next((sent for sent in candidates if not sent.is_rejected and sent not in over), None)
            stays = [sent for sent in candidates if sent.is_rejected and not sent.is_gone]
            # Half of a feed that a person refused keeps others out, until it is corrected.
            is_kept_out = any(self.is_at(sent, series) for sent in stays)
            # An older ledger does not know what was posted or refused.
            stays += [sent for sent in [*candidates, *waiting] if sent.number == number and sent.was_had]
            for part, at in enumerate(self.numbers_of(number)):
                right = self.may_be(standing, part) if standing else [None]
                right += [None] if is_kept_out else []
                right += [each for sent in stays for each in self.may_be(sent, part)]
                right += [WAIVED] if at in self.waived else []
                if at in self.waived or standing and standing.was_had:
                    # The desk refused what came first, whose place the next file of the number takes.
                    right += [each for sent in candidates for each in self.may_be(sent, part)]
                assert bare(series.had.get(at)) in right, (at, series.had.get(at), right)
            for sent in candidates:
                # An older ledger may not know that a person refused it.
                sent.is_gone |= sent.is_rejected and not self.is_at(sent, series) and not self.unsure
        assert set(series.had) <= self.waived | {at for number in NUMBERS for at in self.numbers_of(number)}

    def numbers_of(self, number: int) -> range:
        """The desk's numbers for one of the sender's."""
        return range((number - 1) * self.parts + 1, number * self.parts + 1)

    def check_next(self, series: Series, judged: list[Sent], kept: set[int]) -> None:
        """The contents by number are those of the files in order of their times, except for what a person let in later;
        what a person refused is waived, or stays."""
        numbers = sorted(series.had)
        assert {*range(1, max(numbers, default=0))} <= {*numbers} | kept, series.had
        groups = [numbers[at : at + self.parts] for at in range(0, len(numbers), self.parts)]
        had = [([bare(series.had[number]) for number in group], group[-1] in self.by_hand) for group in groups]
        stay = [sent for sent in judged if not sent.is_gone]
        ordered, others = ([sent for sent in stay if sent.is_let_in == is_let_in] for is_let_in in (False, True))
        found = [(group, is_half) for group, is_half in had if {*group} != {WAIVED}]
        assert self.are_of(found, ordered, others), (found, ordered, others)

    def are_of(self, groups: list[Any], ordered: list[Sent], others: list[Sent]) -> bool:
        """Whether groups are the contents of files in order, and of others in any; of refused ones any may be missing."""
        if not groups:
            return all(sent.is_rejected for sent in [*ordered, *others])
        (group, is_half), *rest = groups
        for at, sent in enumerate(ordered):
            if self.fits(sent, group, sent.is_rejected or is_half) and self.are_of(rest, ordered[at + 1 :], others):
                return True
            if not sent.is_rejected:
                break
        fitting = (sent for sent in others if self.fits(sent, group, sent.is_rejected or is_half))
        return any(self.are_of(rest, ordered, [each for each in others if each is not sent]) for sent in fitting)

    def fits(self, sent: Sent, group: list[Contents | str | None], is_waived: bool = False) -> bool:
        """Whether a group has the contents of a feed; some parts may be waived."""
        return all(each in self.may_be(sent, part) or is_waived and each == WAIVED for part, each in enumerate(group))

    def check_prices(self, series: Series) -> None:
        """A feed with prices that nobody asks is not posted if the desk had others, unless a person let it in."""
        before: dict[str, float] = {}
        for number in range(series.first, series.next):
            had = series.had[number]
            prices = self.prices_of(had)
            wrong = [name for name, price in prices.items() if price >= WRONG and 0 < before.get(name, 0) * 2 < price]
            let_in = [sent for sent in self.sent.values() if sent.is_let_in]
            is_let_in = any(bare(had) in self.may_be(sent, number % self.parts - 1) for sent in let_in)
            assert not wrong or is_let_in, (number, wrong)
            before.update(prices)

    def prices_of(self, had: Contents | str) -> dict[str, float]:
        """The price of each product, 0 without one."""
        products = products_in(had) if isinstance(had, tuple) else []
        return {product[0][1]: float(product[3][2]) if len(product) > 3 else 0 for product in products}

    def check_full(self, inbox: Inbox, series: Series) -> None:
        """The desk has what the last full files named, if nothing was missing and nobody refused anything."""
        last = inbox.ledger.full_files()[: self.inbox.settings.full]
        refused = any(sent.is_rejected for sent in self.sent.values())
        if not self.is_next or not last or refused or self.by_hand or any(file.state != "applied" for file in last):
            return
        prices: dict[str, str] = {}
        for file in reversed(last):
            prices |= json.loads(self.sent[file.digest].data)["products"]
        assert set(series.catalogue()) == {name for name, price in prices.items() if price != "-"}, last


def case(examples: int, steps: int, place: Path | None = None, is_same: bool = False) -> type[unittest.TestCase]:
    """The model as a case of so many runs of so many steps each, always the same or random ones. Python prints the
    steps of a failing run as they can be repeated."""
    Model.place = place
    found: type[unittest.TestCase] = Model.TestCase
    found.settings = hypothesis_settings(  # type: ignore[attr-defined]
        max_examples=examples,
        stateful_step_count=steps,
        deadline=None,
        database=None,
        # Failures are not shrunk, which takes longer than a run of its own.
        phases=[Phase.generate],
        report_multiple_bugs=False,
        derandomize=is_same,
        suppress_health_check=list(HealthCheck),
    )
    return found
