"""The second line of a fault, which says why, by its subject: the storage, a file, an input, an output, a port, a
socket, a rules file; and the line on a refusal over HTTP. The wording is not tested here."""

import os
import socket
import threading
from collections.abc import Iterator
from typing import NamedTuple

from tests.program.databases import DATABASE, META, batch, execute
from tests.program.messages import AGREEMENT
from tests.program.room import Ran, Room
from tests.program.serving import HOST, posted, serving
from tests.running import Outcome


class Told(NamedTuple):
    """How a run ended, its first line on standard error, and whether each later line is about this subject."""

    status: int
    line: str
    others: list[bool]


def told(came: Ran, name: str) -> Told:
    first, *others = came.errors.decode().splitlines()
    return Told(came.status, first, [other.startswith(f"onixdesk: {name}: ") for other in others])


def fault(line: str, status: int = 3) -> Told:
    return Told(status, f"onixdesk: {line}", [True])


def storage(room: Room) -> Iterator[Outcome]:
    """What the system says of a desk's files, and how the lines begin."""
    batch(room, AGREEMENT)
    whole = room.path(DATABASE).read_bytes()
    room.write("text.db", b"no database" * 1000)
    room.write("empty.db", b"")
    room.path("folder").mkdir()
    execute(room, "CREATE TABLE customers (name TEXT)", "other.db")
    for name, words in [
        ("missing.db", ["--existing", "batch"]),
        ("missing.db", ["agreements"]),
        ("none/shop.db", ["batch"]),
        ("folder", ["migrate"]),
        ("empty.db", ["export"]),
        ("text.db", ["batch"]),
        ("other.db", ["gaps"]),
        (":memory:", ["batch"]),
    ]:
        came = told(room.told("--db", name, *words), name)
        yield Outcome(f"why: {name}: {' '.join(words)}", came, fault("storage: unusable"))
    room.write("cut.db", whole[: len(whole) // 2])
    yield Outcome("why: cut.db", told(room.told("--db", "cut.db", "batch"), "cut.db"), fault("storage: disk"))
    with serving(room, ["--db", DATABASE], None):
        for command in "batch", "export":
            came = told(room.told("--db", DATABASE, command), DATABASE)
            yield Outcome(f"why: open elsewhere: {command}", came, fault("storage: unusable"))
    for version in 1, 7:
        name = f"{version}.db"
        execute(room, f"{META} INSERT INTO meta VALUES ('version', {version});", name)
        came = told(room.told("--db", name, "batch"), name)
        yield Outcome(f"why: version {version}", came, fault(f"storage: other version {version}"))


def files(room: Room) -> Iterator[Outcome]:
    for name in "none.csv", ".":
        for command in "deliver", "check":
            came = told(room.told(command, name), name)
            yield Outcome(f"why: {command} {name}", came, fault(f"file: {name}"))
        for words in ["--rules", name, "batch"], ["rules", name], ["terms", name], ["convert", "--terms", name]:
            came = told(room.told(*words), name)
            yield Outcome(f"why: {' '.join(words)}", came, fault(f"file: {name}", status=2))
    room.write("rules.toml", b'[[rule]]\nserie = "*"\n')
    came = told(room.told("--rules", "rules.toml", "batch"), "rules.toml: rule 1")
    yield Outcome("why: a rules file", came, fault("rules: bad rule 1", status=2))


# What is wrong in files, with the words in which `pipe` stands for the file, and how the last line begins.
PIPED = {
    ("--rules", "pipe", "batch"): (b'[[rule]]\nserie = "*"\n', 2, "pipe: rule 1: "),
    ("rules", "pipe"): (b"rule = 1\n", 2, "pipe: rule is not an array"),
    ("terms", "pipe"): (b"term = 1\n", 2, "terms: not TOML: term is not an array"),
    ("convert", "--terms", "pipe"): (b"\nterm = 1\n", 2, "terms: not TOML: term is not an array"),
    ("deliver", "pipe"): (b"\n<ONIXMessage>", 1, "pipe: line 2: <ONIXMessage>: "),
    ("check", "pipe"): (b"AskGaps,north\nAskGaps\n", 1, "pipe: line 2: AskGaps: "),
}


def pipes(room: Room) -> Iterator[Outcome]:
    """A file that is a pipe is opened once, even if it is wrong."""
    path = room.path("pipe")
    os.mkfifo(path)
    for words, (text, status, line) in PIPED.items():
        writer = threading.Thread(target=path.write_bytes, args=[text])
        writer.start()
        came = room.told("--db", DATABASE, *words) if words[0] == "deliver" else room.told(*words)
        writer.join()
        found = came.status, came.errors.decode().splitlines()[-1].startswith(f"onixdesk: {line}")
        yield Outcome(f"why: a pipe: {' '.join(words)}", found, (status, True))


# After an `é` in UTF-8 one in ISO-8859-1, and half of one at an end.
WRONG_TEXTS = {b"AskGaps,\xc3\xa9\r\n\nAskGaps,\xe9\n": (3, "E9"), b"AskGaps,north\nAskGaps,\xc3": (2, "C3")}


def texts(room: Room) -> Iterator[Outcome]:
    """The line of a text that is not UTF-8, with the name of its file, even if another text was right before."""
    room.write("right.csv", b"Message,1,06,S,,,1,1,20250301,,\nEndMessage,1\n")
    for text, (line, byte) in WRONG_TEXTS.items():
        room.write("wrong.csv", text)
        said = f"line {line}: byte {byte} is not UTF-8;"
        wanted = 3, b"onixdesk: input: not UTF-8"
        for words, name in (["batch"], ""), (["check", "right.csv", "wrong.csv"], "wrong.csv: "):
            came = room.told(*words, given=text)
            first, *others = came.errors.splitlines()
            yield Outcome(f"why: {words} {text!r}", (came.status, first), wanted)
            found = [other.decode().startswith(f"onixdesk: {name}{said}") for other in others]
            yield Outcome(f"why: {words} {text!r}: the line", found, [True])


def outputs(room: Room) -> Iterator[Outcome]:
    """An output that takes no more, once for each command that writes to it."""
    batch(room, AGREEMENT)
    full = os.open("/dev/full", os.O_WRONLY)
    for words in ["--db", DATABASE, "agreements"], ["gaps", "north"], ["--help"], ["--db", DATABASE, "gaps", "north"]:
        came = told(room.call([room.program, *words], output=full), "standard output")
        yield Outcome(f"why: a full output: {' '.join(words)}", came, fault("output"))
    os.close(full)


def ports_and_sockets(room: Room) -> Iterator[Outcome]:
    """A port that another program has, and files in the place of a socket."""
    with socket.socket() as other:
        other.bind((HOST, 0))
        other.listen()
        port = other.getsockname()[1]
        came = told(room.told("serve", "--port", str(port)), f"port {port}")
        yield Outcome("why: a port", came, fault(f"port {port}"))
    room.write("file", b"")
    for name in "file", "none":
        came = told(room.told("--batches", name, "batch"), name)
        yield Outcome(f"why: a batch to {name}", came, fault("socket"))


# Questions over HTTP with a bad query, by the wrong key; and a good one.
PRICE = "/articles/9781234567897/price?"
TERMS = "day=20250301&country=GB&currency=GBP&type=02"
QUESTIONS = {
    f"{PRICE}{TERMS}".replace("20250301", "2025-03-01"): "day",
    f"{PRICE}{TERMS}".replace("GB&", "gb&"): "country",
    f"{PRICE}{TERMS}".replace("9781234567897", "978-1-234-56789-7"): "the article",
    f"{PRICE}{TERMS}".replace("&type=02", ""): "type",
    f"{PRICE}{TERMS}&country=IE": "country",
    f"{PRICE}{TERMS}&quantity=": "quantity",
}


def bad_queries(room: Room) -> Iterator[Outcome]:
    """A line of the desk names the wrong key of each, and of no other question."""
    with serving(room, [], len(QUESTIONS) + 1) as desk:
        for target in QUESTIONS:
            reply = desk.reply([f"GET {target} HTTP/1.1\r\n\r\n".encode()])
            yield Outcome(f"why: 400: {target}", reply.endswith(b'{"answer":"refused","reason":"bad-query"}'), True)
        desk.reply([f"GET {PRICE}{TERMS}&more=1 HTTP/1.1\r\n\r\n".encode()])
        came = desk.told().errors.decode().splitlines()
    found = [line.startswith(f"onixdesk: bad-query: {key} ") for line, key in zip(came, QUESTIONS.values())]
    yield Outcome("why: the lines of the desk", (len(came), found), (len(QUESTIONS), [True] * len(QUESTIONS)))


# Posted messages, each with how the desk's line on it begins; None if it says nothing.
POSTED = {
    b"Message,1,06,4012345000009,06,5012345678900,1,1,20250301,,\nEndMessage,5\n": "row 2: EndMessage: ",
    b"<ONIXMessage>": "row 1: <ONIXMessage>: ",
    b"Message,1,06,4012345000009,06,5012345678900,,,,,\nEndMessage,1\n": None,
}


def posted_messages(room: Room) -> Iterator[Outcome]:
    """For a malformed message over HTTP a line of the desk says where it is wrong."""
    with serving(room, [], len(POSTED)) as desk:
        for text, line in POSTED.items():
            reply = desk.reply([posted(text)])
            yield Outcome(f"why: posted: {text!r}", b'"malformed"' in reply, line is not None)
        came = desk.told().errors.decode().splitlines()
    wanted = [line for line in POSTED.values() if line]
    found = [line.startswith(f"onixdesk: {begins}") for line, begins in zip(came, wanted)]
    yield Outcome("why: the lines of the desk on posted messages", (len(came), found), (2, [True, True]))
