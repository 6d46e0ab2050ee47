"""The two files of a desk that nobody has open, as SQLite and the desk's own program read them."""

from dataclasses import dataclass, field
from pathlib import Path

from onixdesk_shop.desk import Gaps, reports_in
from onixdesk_shop.faults import BadEnd, Failed, Fault
from onixdesk_shop.lines import cut
from onixdesk_shop.machine import Machine
from onixdesk_shop.messages import records_of

SERIES = """\
SELECT name, sender_type, sender_value, addressee_type, addressee_value, first_number, next_number
FROM series ORDER BY name"""
NUMBERS = "SELECT series, number, contents = 'waived' FROM {} ORDER BY series, number"


def log_of(database: Path) -> Path:
    return database.with_name(f"{database.name}-wal")


def check(machine: Machine, database: Path, source: Path) -> None:
    """Raises Failed unless SQLite finds the copy of that source to be a sound database of a desk."""
    try:
        with machine.reading(database) as connection:
            wrong = str(connection.execute("PRAGMA integrity_check").fetchone()[0])
            if orphan := connection.execute("PRAGMA foreign_key_check").fetchone():
                wrong = f"a row of {orphan[0]} has no parent"
            if not connection.execute("SELECT amount FROM meta WHERE item = 'version'").fetchone():
                wrong = "its tables have no version"
    except Fault as fault:
        wrong = str(fault)
    if wrong != "ok":
        raise Failed(f"{source}: a copy of it is not sound: {cut(wrong)}")


@dataclass
class Contents:
    """What a desk was told: the agreements by series, and the numbers it has, waived ones apart."""

    agreements: dict[str, str] = field(default_factory=dict)
    messages: set[tuple[str, int]] = field(default_factory=set)
    waivers: set[tuple[str, int]] = field(default_factory=set)

    def beyond(self, other: "Contents") -> "Contents":
        """What this desk has and the other lacks."""
        agreements = {name: line for name, line in self.agreements.items() if name not in other.agreements}
        known = other.messages | other.waivers
        return Contents(agreements, self.messages - known, self.waivers - known)

    def requests(self) -> str:
        """A batch that makes the agreements and waivers again."""
        waivers = [f"Waive,{series},{number}" for series, number in sorted(self.waivers)]
        return "".join(f"{line}\n" for line in [*self.agreements.values(), *waivers])


def contents_of(machine: Machine, database: Path) -> Contents:
    found = Contents()
    with machine.reading(database) as connection:
        for name, *parties, _ in connection.execute(SERIES):
            found.agreements[name] = ",".join(["Agree", name, *map(str, parties)])
        for table in ("applied", "held"):
            for name, number, is_waived in connection.execute(NUMBERS.format(table)):
                (found.waivers if is_waived else found.messages).add((name, number))
    return found


class DeskFile:
    """A desk over files; each batch is a run of its own program."""

    def __init__(self, machine: Machine, program: Path, database: Path, rules: Path | None = None) -> None:
        self.machine = machine
        table: list[str | Path] = ["--rules", rules] if rules else []
        self.words: list[str | Path] = [program, *table, "--db", database]

    def batch(self, text: str) -> list[list[str]]:
        """The records that answer a batch. It creates the desk if there is none."""
        return [*records_of(self.machine.run([*self.words, "batch"], (0, 1), text.encode()).output)]

    def gaps(self) -> dict[str, Gaps]:
        """The reports on all series; raises Failed if the program refuses the files."""
        try:
            answers = self.machine.run([*self.words, "--existing", "gaps"], (0, 1)).output
        except BadEnd as error:
            raise Failed(f"the desk does not take the files: {error}") from None
        return reports_in([*records_of(answers)])
