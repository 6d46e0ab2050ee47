"""Files of lines NAME=VALUE, and the settings of an inbox."""

import fnmatch
import re
import shlex
from collections.abc import Callable
from dataclasses import dataclass
from pathlib import Path
from typing import Any

from onixdesk_shop.faults import BadCall
from onixdesk_shop.machine import Machine
from onixdesk_shop.places import BATCHES

# Where the number of a feed comes from: its MessageNumber, or the next one of the series.
OWN, NEXT = "own", "next"

# Options of the converter that the inbox sets itself.
RESERVED = re.compile(r"-o.*|--(number|terms)(=.*)?|-h|--help|--?")

# The page's rules are beside SERIES.json.
is_series = re.compile("(?!rules$)[a-z0-9-]{1,32}").fullmatch


@dataclass(frozen=True)
class Settings:
    sender: tuple[str, str]
    batches: Path = BATCHES
    words: tuple[str, ...] = ()
    number: str = OWN
    unchanged_seconds: int = 60
    leave: bool = False
    terms: Path | None = None
    stop: bool = True
    silent_days: int = 4
    full: int = 0
    full_names: tuple[str, ...] = ()

    @property
    def parts(self) -> int:
        """How many messages the converter makes of a feed."""
        return self.given("--parts", 1)

    def given(self, word: str, usual: int) -> int:
        """The number after an option of the converter."""
        found = re.search(rf"{word}[ =]([1-9][0-9]{{0,8}})(?= |$)", " ".join(self.words))
        return int(found[1]) if found else usual

    def gives_number(self, ending: str) -> bool:
        """Whether the inbox gives a file its number. A file of records always has its own."""
        return self.number == NEXT and ending != ".csv"

    def is_full(self, name: str) -> bool:
        """Whether a file of that name is full."""
        if not self.full:
            return False
        return not self.full_names or any(fnmatch.fnmatchcase(name, pattern) for pattern in self.full_names)

    def says_all(self, name: str) -> bool:
        """Whether a file of that name is a whole load, and the inbox gives numbers."""
        return self.number == NEXT and self.full == 1 and self.is_full(name)


def read_lines(machine: Machine, path: Path) -> dict[str, tuple[int, str]]:
    """The value of each NAME in a file, and its line."""
    try:
        text = machine.read(path).decode("utf-8", "replace")
    except OSError as error:
        raise BadCall(f"{path}: {error.strerror}") from None
    found: dict[str, tuple[int, str]] = {}
    for place, line in enumerate(text.split("\n"), 1):
        if not line.strip() or line.lstrip().startswith("#"):
            continue
        name, equals, value = (part.strip() for part in line.partition("="))
        if not equals:
            raise BadCall(f"{path}:{place}: no line of the form NAME=VALUE")
        if name in found:
            raise BadCall(f"{path}:{place}: {name} is given twice")
        if re.search(r"(^|\s)#", value):
            raise BadCall(f"{path}:{place}: a remark has a line of its own, which begins with #")
        found[name] = place, value
    return found


def words(value: str) -> tuple[str, ...]:
    found = tuple(shlex.split(value))
    for word in filter(RESERVED.fullmatch, found):
        raise ValueError(f"{word} is no word of WORDS: the inbox gives it, or leaves it out")
    return found


# The attribute that each line sets, what its value may be, and how it is read.
READERS: dict[str, tuple[str, str, Callable[[str], Any]]] = {
    "BATCHES": ("batches", "/.+", Path),
    "WORDS": ("words", ".*", words),
    "NUMBER": ("number", "own|next", str),
    "SENDER": ("sender", "[0-9]{2},.+", lambda value: (value[:2], value[3:])),
    "UNCHANGED_SECONDS": ("unchanged_seconds", "[0-9]{1,6}", int),
    "LEAVE": ("leave", "yes|no", lambda value: value == "yes"),
    "TERMS": ("terms", "|/.+", lambda value: Path(value) if value else None),
    "STOP": ("stop", "yes|no", lambda value: value == "yes"),
    "SILENT_DAYS": ("silent_days", "[1-9][0-9]{0,3}", int),
    "FULL": ("full", "[0-9]{1,4}", int),
    "FULL_NAMES": ("full_names", ".*", lambda value: tuple(value.split())),
}

WHAT = {
    "SENDER": "TYPE,VALUE with a TYPE of two digits",
    "TERMS": "a file, whose name begins with /, or nothing",
}


def read_settings(machine: Machine, path: Path) -> Settings:
    """The settings of an inbox; raises BadCall, which names the line, if one is wrong."""
    found: dict[str, Any] = {}
    for name, (place, value) in read_lines(machine, path).items():
        if name not in READERS:
            raise BadCall(f"{path}:{place}: {name} is none of {', '.join(READERS)}")
        attribute, pattern, read = READERS[name]
        try:
            if not re.fullmatch(pattern, value):
                raise ValueError(f"it is {WHAT.get(name, pattern)}")
            found[attribute] = read(value)
        except ValueError as error:
            raise BadCall(f"{path}:{place}: {name}: {error}") from None
    if "sender" not in found:
        raise BadCall(f"{path}: SENDER is missing: the sender that messages must have")
    settings = Settings(**found)
    if settings.number == NEXT and any(word.startswith("--number-offset") for word in settings.words):
        raise BadCall(f"{path}: NUMBER=next and --number-offset do not go together")
    return settings


def terms_of(machine: Machine, path: Path, today: str) -> bytes:
    """Today's table of terms: the file, or the latest FILE.YYYY-MM-DD beside it whose day has come."""
    dated = re.compile(re.escape(path.name) + r"\.[0-9]{4}-[0-9]{2}-[0-9]{2}").fullmatch
    last = f"{path.name}.{today[:4]}-{today[4:6]}-{today[6:]}"
    begun = [entry.name for entry in machine.entries(path.parent) if dated(entry.name) and entry.name <= last]
    return machine.read(path.with_name(max(begun)) if begun else path)
