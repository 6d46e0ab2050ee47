"""The folder beside a desk where a new desk is prepared, and how that replaces the old one.

It has `units`, the units to start again; `new`, the desk in preparation; and instead of that `ready.SECOND`, once it is
whole and on the disk. If a run was killed, the next one sees there how far it came.
"""

from pathlib import Path

from onixdesk_shop.copies.keeping import named
from onixdesk_shop.desk_files import log_of
from onixdesk_shop.lines import WARNING
from onixdesk_shop.machine import Machine
from onixdesk_shop.units import Units, is_begun

READY = "ready."


class Work:
    def __init__(self, machine: Machine, database: Path) -> None:
        self.machine = machine
        self.database = database
        self.folder = database.with_name(f".{database.name}.work")
        self.new = self.folder / "new" / database.name
        self.started: list[str] = []
        self.is_started = False

    def begin(self) -> None:
        """Makes an empty folder for a new desk."""
        self.machine.make_folder(self.folder)
        self.machine.remove_tree(self.new.parent)
        self.machine.make_folder(self.new.parent)

    def ready(self) -> Path | None:
        """The folder of a new desk that is to replace the old one, or has replaced it."""
        return next(iter(self.machine.paths(self.folder, f"{READY}*")), None)

    def before(self, second: str) -> Path:
        """The name of the desk that was there before that second."""
        return self.database.with_name(f"{self.database.name}.{second}")

    def make_ready(self) -> None:
        """Syncs the new files, and gives them to the owner of the folder. There is a log too, so that a run that goes
        on knows whether it was moved."""
        machine = self.machine
        if not machine.exists(log_of(self.new)):
            machine.write_whole(log_of(self.new), b"", 0o600)
        for file in (self.new, log_of(self.new)):
            machine.own(file, self.database.parent)
        machine.sync_folder(self.new.parent)
        while machine.exists(self.before(second := named(machine.now()))):
            machine.sleep(0.2)
        machine.rename(self.new.parent, self.folder / f"{READY}{second}")
        machine.sync_folder(self.folder)

    def is_begun(self) -> bool:
        """Whether the old desk is moved away, and the new one not in its place: no desk starts."""
        return bool(self.ready() and not self.machine.exists(self.database))

    def put_in_place(self) -> Path:
        """Renames the old files, and moves the new ones into their place, or goes on with that. The database is moved
        away first and put in place last: without it no desk starts. As long as the new log is still where it was made,
        the log in place is the old one."""
        ready = self.ready()
        assert ready
        new, before = ready / self.database.name, self.before(ready.name.removeprefix(READY))
        if self.machine.exists(log_of(new)):
            self.move(self.database, before)
            self.move(log_of(self.database), log_of(before))
            self.move(log_of(new), log_of(self.database))
        self.move(new, self.database)
        return before

    def move(self, old: Path, new: Path) -> None:
        if self.machine.exists(old):
            self.machine.rename(old, new)
            self.machine.sync_folder(new.parent)
            self.machine.sync_folder(old.parent)

    def finish(self, units: Units) -> None:
        """Puts the new desk into place if the old one is moved away, and starts what was stopped."""
        if self.is_begun():
            self.put_in_place()
        stopped = [self.machine.read(file).decode() for file in self.machine.paths(self.folder, "units")]
        self.started = [unit for unit in " ".join(stopped).split() if is_begun(unit)]
        self.is_started = units.start(self.started)
        self.machine.remove_tree(self.folder)

    def end_killed(self, units: Units) -> bool:
        """Finishes what a killed run began; returns whether its desk is in place."""
        if not self.machine.exists(self.folder):
            return False
        ready = self.ready()
        is_done = self.is_begun() or bool(ready and not self.machine.exists(ready / self.database.name))
        stood = "has put its desk into place" if is_done else "has changed nothing"
        self.machine.tell(WARNING, f"a run that was killed {stood}, and is ended now")
        self.finish(units)
        return is_done
