"""Converts feeds, and checks messages by `onixdesk check`."""

import re
import sys
from dataclasses import dataclass, field
from pathlib import Path

from onixdesk_shop.faults import BAD_CALL, DONE, FAILED, BadCall, BadEnd
from onixdesk_shop.feed_stream import Damaged, pieces_of
from onixdesk_shop.lines import cut, shown
from onixdesk_shop.machine import Machine

# How long a reading for people may take.
READING_SECONDS = 600

PROGRAM_SAYS = "onixdesk: "
ON_INPUT = re.compile(r"onixdesk: -(?::([0-9]+):([0-9]+))?: ")
COUNTED = re.compile(r"(.*): ([0-9]+)")

# The converter proposes command-line options. Except for the number, they go into WORDS of an inbox.
REMEDY = re.compile(r"(--(?:sender|addressee|supplier|wrong) \S+)")


class Refusal(Exception):
    """Why a file is refused."""


@dataclass
class Said:
    """What the converter said of a feed, and how often it gave each reason or counted something else."""

    lines: list[str] = field(default_factory=list)
    reasons: dict[str, int] = field(default_factory=dict)

    @property
    def wrong(self) -> int:
        return self.reasons.get("products wrong", 0)

    def count(self, *beginnings: str) -> int:
        return sum(number for reason, number in self.reasons.items() if reason.startswith(beginnings))

    @property
    def summary(self) -> str:
        return "; ".join(f"{cut(reason)}: {number}" for reason, number in list(self.reasons.items())[:20])


def said_in(errors: bytes) -> Said:
    said = Said()
    for line in errors.decode("utf-8", "backslashreplace").splitlines():
        said.lines.append(shown(line))
        if ON_INPUT.match(line):
            continue
        if counted := COUNTED.fullmatch(line.removeprefix(PROGRAM_SAYS)):
            said.reasons[counted[1]] = said.reasons.get(counted[1], 0) + int(counted[2])
    return said


def refusal_of(said: Said) -> str:
    """Why the converter refused a feed, and where, with the remedies that an inbox has."""
    last = said.lines[-1] if said.lines else ""
    place = ON_INPUT.match(last)
    why = cut(ON_INPUT.sub("", last).removeprefix(PROGRAM_SAYS).removeprefix("refused: "))
    why = f"line {place[1]}, column {place[2]}: {why}" if place and place[1] else why
    return REMEDY.sub(r"\1 in WORDS", why).replace("--number N gives", "NUMBER=next gives")


def read_by(machine: Machine, module: str, source: Path) -> bytes:
    """What a module of the package, run as a child, writes about a feed. BadEnd if it does not read all of it."""
    package = Path(__file__).parent
    modules = f"from {package.name} import feed_products, {module} as said"
    start = f"import sys; sys.path[0] = {str(package.parent)!r}; {modules}"
    call = [sys.executable, "-EsSB", "-c", f"{start}; feed_products.read_input(said.TAGS, said.write)"]
    try:
        return machine.run(call, text=pieces_of(source), seconds=READING_SECONDS).output
    except Damaged as damaged:
        raise BadEnd(str(damaged)) from None


def convert(
    machine: Machine, program: Path, source: Path, words: list[str], terms: bytes | None, work: Path, limit: int = 1800
) -> tuple[list[bytes], Said]:
    """The messages of a feed, in order of number, and what the converter said. Raises Refusal if it has none that the
    desk would take, BadCall if the words or the table of terms are wrong. Empties the folder `work` first."""
    machine.remove_tree(work)
    machine.make_folder(work)
    call: list[str | Path] = [program, "convert", *words, "-o", work, "-"]
    if terms is not None:
        machine.write_whole(work / "terms.toml", terms)
        call[2:2] = ["--terms", work / "terms.toml"]
    try:
        ended = machine.run(call, (DONE, FAILED, BAD_CALL), pieces_of(source), limit)
    except Damaged as damaged:
        raise Refusal(str(damaged)) from None
    said = said_in(ended.errors)
    if ended.status == BAD_CALL:
        raise BadCall(f"WORDS or TERMS: {cut(said.lines[0].removeprefix(PROGRAM_SAYS)) if said.lines else ''}")
    messages = [machine.read(path) for path in machine.paths(work, "*.csv")]
    machine.remove_tree(work)
    if not messages:
        raise Refusal(refusal_of(said))
    return messages, said


def check(machine: Machine, program: Path, message: bytes, limit: float) -> str:
    """Why the desk would refuse a message, or an empty text."""
    if message.decode(errors="replace").encode() != message:
        return "it is not UTF-8"
    ended = machine.run([program, "check", "-"], (DONE, FAILED), message, seconds=limit)
    if ended.status == DONE:
        return ""
    lines = ended.errors.decode("utf-8", "backslashreplace").splitlines()
    return cut(ON_INPUT.sub("", lines[0]).removeprefix(PROGRAM_SAYS)) if lines else "its check says nothing"
