"""One restore: what is put into place, what is said before, and the exchange."""

import argparse
import io

from onixdesk_shop.batches import send
from onixdesk_shop.copies.copying import copied
from onixdesk_shop.copies.keeping import CORRECTIONS, corrections_in, corrections_since, is_name, named
from onixdesk_shop.desk_files import Contents, DeskFile, check, contents_of, log_of
from onixdesk_shop.ends import program_of
from onixdesk_shop.faults import Failed, Fault
from onixdesk_shop.lines import ERROR, NOTICE, WARNING, cut, ranges, shown
from onixdesk_shop.machine import Machine
from onixdesk_shop.places import INBOXES, LEDGER, LEDGERS
from onixdesk_shop.restores.inboxes import Inbox, inboxes_in
from onixdesk_shop.restores.placing import Work
from onixdesk_shop.units import Units


class Restore:
    remedy = "--gaps restores it nevertheless"

    def __init__(self, machine: Machine, options: argparse.Namespace) -> None:
        self.machine = machine
        self.options = options
        # The inboxes are beside the folder of the desk.
        self.inboxes_folder = options.db.absolute().parent.parent / INBOXES.name
        self.work = Work(machine, options.db)
        self.units = Units(machine)
        self.desk = DeskFile(machine, program_of(options.program), self.work.new)
        self.base = Contents()
        self.said: list[str] = []
        self.planned: dict[str, list[int]] = {}
        self.has_all = True
        # Whether the present desk has a message that a person refused, and the copy lacks it.
        self.has_refused = False

    # The new files

    def lay_out(self) -> None:
        """Raises Failed if the copy, or the desk made of its corrected text, is not sound."""
        machine, options, name = self.machine, self.options, self.options.db.name
        made = corrections_since(machine, options.db.parent, options.copy)
        if made and not options.before_correction:
            raise Failed(f"{options.copy}: it is from before a correction (--before-correction): {'; '.join(made)}")
        for line in made:
            machine.tell(WARNING, f"has to be made again: {line}")
        # SQLite leaves the third file if somebody has looked at a copy.
        found = {entry.name for entry in machine.entries(options.copy)} - {f"{name}-shm", LEDGERS, CORRECTIONS}
        if name not in found or found - {name, f"{name}-wal"}:
            raise Fault(f"{options.copy}: it does not have {name} and its log alone")
        self.work.begin()
        for each in found:
            machine.copy(options.copy / each, self.work.new.parent / each)
        check(machine, self.work.new, options.copy / name)
        self.base = contents_of(machine, self.work.new)
        if options.text:
            self.work.begin()
            send(self.desk, io.BytesIO(machine.read(options.text)))

    def send_since(self, present: Contents) -> None:
        """Sends the new desk the agreements and waivers that the present one has and the copy lacked."""
        since = present.beyond(self.base)
        if not since.requests():
            return
        for record in self.desk.batch(since.requests()):
            if record[0] not in ("agreed", "waived"):
                self.has_all = False
                self.machine.tell(ERROR, f"an agreement or waiver is not made again: {cut(','.join(record))}")
        for line in since.requests().splitlines():
            self.machine.tell(NOTICE, f"is made again: {cut(line)}")
        self.base.agreements |= since.agreements
        self.base.waivers |= since.waivers

    def present(self) -> Contents:
        """What the present desk was told, by a copy; empty if that cannot be read, which is reported."""
        machine, database = self.machine, self.options.db
        if not machine.exists(database):
            return Contents()
        try:
            with copied(machine, database) as (copy, _):
                return contents_of(machine, copy)
        except Fault as fault:
            machine.tell(WARNING, f"it is unknown what the present desk was told since: {fault}")
            return Contents()

    # What is said before

    def plan(self, present: Contents) -> tuple[list[str], list[str]]:
        """What is posted again, and what is lost, in lines."""
        reports, said, lost = self.desk.gaps(), [], []
        refusal = "onixdesk-inbox --refuse {} {};".format(*self.options.refuse or ("", ""))
        had = present.beyond(self.base).messages
        for inbox in self.inboxes():
            gaps = reports.get(inbox.series)
            if gaps is None:
                said.append(f"{inbox.agreement()}; is missing in the copy, and the files of {inbox.series} wait")
                continue
            again = inbox.again(gaps)
            self.planned[inbox.series] = again.numbers
            self.has_refused |= any((inbox.series, number) in had for number in again.refused)
            said.append(f"{inbox.series}: the copy waits for number {gaps.next}")
            said += [line for line in again.lines if not line.startswith(refusal)]
            if again.gone:
                lost.append(f"{inbox.series}: the texts of {ranges(again.gone)} are not kept any more")
            had -= {(inbox.series, number) for number in {*again.numbers, *again.refused}}
        for name in sorted({name for name, _ in had}):
            numbers = sorted(number for series, number in had if series == name)
            lost.append(f"{name}: no inbox has {ranges(numbers)}, which the copy lacks")
        return said, lost

    def inboxes(self) -> list[Inbox]:
        """The present inboxes, and those that get the copy's ledger: they have none, or one without a file."""
        machine, options = self.machine, self.options
        found = {inbox.series: inbox for inbox in inboxes_in(machine, self.inboxes_folder, options.settings)}
        for kept in machine.paths(options.copy / LEDGERS, "*.db"):
            name, file = kept.stem, self.work.folder / kept.name
            if name not in found or found[name].is_unused():
                if not machine.exists(file):
                    machine.copy(kept, file)
                with machine.reading(file) as ledger:
                    if (wrong := ledger.execute("PRAGMA integrity_check").fetchone()[0]) != "ok":
                        raise Failed(f"{options.copy}: its ledger of {name} is not sound: {cut(wrong)}")
                found[name] = Inbox(machine, name, file, options.settings)
        return [*found.values()]

    def is_wanted(self, is_told: bool) -> bool:
        """Says what comes, and asks; raises Failed if something is lost and nobody allowed it."""
        for line in [*self.said, *self.prepare(self.present())]:
            self.machine.write(f"{line}\n")
        return is_told or self.machine.ask("put it into the desk's place? (yes) ") == "yes"

    def prepare(self, present: Contents) -> list[str]:
        """Makes again what the present desk was told since; returns what is posted again, in lines."""
        self.send_since(present)
        said, lost = self.plan(present)
        if lost and not self.options.gaps:
            raise Failed(f"{self.options.copy}: {'; '.join(lost)}; {self.remedy}")
        return [*said, *lost]

    # The exchange

    def replace(self) -> None:
        """Stops what runs, and puts the new files into place. Nothing is lost whatever ends this: each inbox posts what
        the desk lacks."""
        machine, options, work = self.machine, self.options, self.work
        self.stop()
        if machine.is_open(options.db):
            raise Fault(f"{options.db}: another program has it open; stop it before")
        if options.refuse:
            machine.run(["onixdesk-inbox", "--refuse", *options.refuse])
        self.prepare(self.present())
        # On a machine without a desk the next run takes a new one that is ready to be in place.
        self.put_ledgers_back()
        self.note_corrections()
        work.make_ready()
        self.note_corrections(is_made=True)
        before = work.put_in_place()
        stood = f"the one before is {before}" if machine.exists(before) else "there was none before"
        machine.tell(NOTICE, f"the desk is in place as {options.db}; {stood}")

    def stop(self) -> None:
        """Stops what runs, once the disk has the list of what to start again."""
        units = "\n".join(self.units.begun).encode()
        self.machine.write_whole(self.work.folder / "units", units, 0o600)
        if self.units.all:
            self.units.systemctl("stop", *self.units.all)

    def note_corrections(self, is_made: bool = False) -> None:
        """Adds those of the copy, which another machine lacks, and this one once `is_made`. Copies up to the restored one
        are right if they lack what was refused."""
        options, folder = self.options, self.options.db.parent
        found = dict.fromkeys([*corrections_in(self.machine, folder), *corrections_in(self.machine, options.copy)])
        if is_made and (options.text or self.has_refused):
            last = options.copy.name if not options.text and is_name(options.copy.name) else ""
            found[f"{last} {named(self.machine.now())}: {shown(options.said)}"] = None
        if found:
            self.machine.write_whole(folder / CORRECTIONS, "".join(f"{line}\n" for line in found).encode(), 0o600)

    def put_ledgers_back(self) -> None:
        """Puts a ledger of the copy in place if there is none, or one of an inbox that has never taken a file."""
        machine = self.machine
        found = self.inboxes() if machine.exists(self.inboxes_folder) else []
        for file in [inbox.file for inbox in found if inbox.file.parent == self.work.folder]:
            name, folder = file.stem, self.inboxes_folder / file.stem
            machine.make_folder(folder)
            machine.own(folder, self.inboxes_folder)
            new = folder / f".{LEDGER}"
            machine.copy(file, new)
            machine.own(new, self.inboxes_folder)
            # The log of a lost ledger would be replayed into this one.
            machine.remove(log_of(folder / LEDGER))
            machine.rename(new, folder / LEDGER)
            machine.sync_folder(folder)
            since = "it is unknown what was refused, let in or waived since"
            machine.tell(WARNING, f"onixdesk-inbox report {name}; its ledger is the copy's, as there was none: {since}")
