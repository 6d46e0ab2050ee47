"""Rules files that are read or refused. With each the program answers no requests, and writes the line of a fault or
nothing; the command `rules` says what is wrong."""

from collections.abc import Iterator

from tests.program.room import UNREADABLE, Ran, Room
from tests.program.written_cases import TESTS, read_file, repeated, unescaped
from tests.running import Outcome

RULE = b'[[rule]]\nseries="*"\ncodes=["20"]\n'


def files(part: str) -> Iterator[tuple[str, bytes, str]]:
    """Those of tests/rules/files.txt, which have escapes, that have such a part: the name, the text, and what is said of
    it: by a desk that is started with it, or by the command `rules`."""
    for case in read_file(TESTS / "rules/files.txt"):
        parts = dict(head.partition(" ")[::2] for head, _ in case.parts)
        if part in parts:
            yield case.name, unescaped(repeated(case.text)), parts[part]


def said_by_desk(fault: str) -> bytes:
    return f"onixdesk: {fault}\n".encode() if fault else b""


def texts(room: Room) -> Iterator[Outcome]:
    for name, text, fault in files("desk"):
        room.write("rules.toml", text)
        came = room.run("--rules", "rules.toml", "batch")
        yield Outcome(f"a rules file: {name}", came, Ran(2 if fault else 0, b"", said_by_desk(fault)))


def tried(room: Room) -> Iterator[Outcome]:
    """By the command `rules`, which reads a file as a starting desk does."""
    for name, text, line in files("rules"):
        room.write("rules.toml", text)
        is_read = line.startswith("rules ")
        wanted = Ran(0, f"{line}\n".encode()) if is_read else Ran(2, b"", said_by_desk(f"rules.toml: {line}"))
        yield Outcome(f"rules: {name}", room.told("rules", "rules.toml", given=UNREADABLE), wanted)
        status = room.run("--rules", "rules.toml", "batch").status
        yield Outcome(f"rules: {name}: as a desk reads it", status, wanted.status)


def is_no_toml(room: Room) -> Iterator[Outcome]:
    """Behind the line that is wrong stands the cause, in the parser's own words."""
    room.write("rules.toml", RULE + b'series = "north"\n')
    came = room.told("rules", "rules.toml", given=UNREADABLE)
    is_told = came.errors.startswith(b"onixdesk: rules.toml: line 4: ")
    yield Outcome("rules: a key twice", (came.status, came.output, is_told), (2, b"", True))


def cannot_be_tried(room: Room) -> Iterator[Outcome]:
    room.write("rules.toml", RULE)
    wanted = Ran(3, b"", b"onixdesk: output\n")
    yield Outcome("rules: a full output", room.run("rules", "rules.toml", is_full=True), wanted)
    came = room.run("--db", "shop.db", "--rules", "absent.toml", "rules", "rules.toml")
    yield Outcome("rules: behind other options", came, Ran(0, b"rules 1\n"))
    yield Outcome("rules: no desk is opened", [path.name for path in room.folder.iterdir()], ["rules.toml"])


def come_before_the_input(room: Room) -> Iterator[Outcome]:
    """After a fault of the rules file nothing is read from the input and nothing is written."""
    room.write("bad.toml", b"rule = ")
    for file, line in [
        ("absent.toml", b"onixdesk: file: absent.toml\n"),
        (".", b"onixdesk: file: .\n"),
        ("bad.toml", b"onixdesk: rules: not TOML\n"),
    ]:
        came = room.run("--rules", file, "batch", given=UNREADABLE, is_full=True)
        yield Outcome(f"rules before the input: {file}", came, Ran(2, b"", line))
