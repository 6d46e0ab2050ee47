"""The examples in documents: they are answered as shown."""

import os
import re
import shutil
import subprocess
from collections.abc import Iterator

from tests.commands.try_out import BUILT
from tests.program.messages import AGREEMENT, bare
from tests.program.room import Ran, Room, needs
from tests.program.serving import free_port, serving
from tests.running import Outcome
from tools.root import ROOT

MARGIN = "    "

TOUR = "docs/TOUR.md"


def blocks(document: str) -> list[list[str]]:
    """The blocks of lines that a document indents."""
    text = (ROOT / document).read_text(encoding="utf-8")
    paragraphs = [paragraph.splitlines() for paragraph in text.split("\n\n")]
    return [
        [line.removeprefix(MARGIN) for line in lines]
        for lines in paragraphs
        if lines and all(line.startswith(MARGIN) for line in lines)
    ]


def block(document: str, first: str) -> list[str]:
    """The first block that begins with that line."""
    return next(lines for lines in blocks(document) if lines[0].startswith(first))


def block_with(document: str, text: str) -> list[str]:
    """The one block that has this text."""
    (found,) = (lines for lines in blocks(document) if text in "\n".join(lines))
    return found


def written(lines: list[str]) -> bytes:
    return "".join(f"{line}\n" for line in lines).encode()


def example(name: str) -> bytes:
    return (ROOT / name).read_bytes()


# How commands begin, among lines that also show their output.
COMMAND = re.compile(r"(?:bin/|curl |sqlite3 )")

# A command that ends in `<<'END'` has further lines.
END = "END"


def commands(lines: list[str]) -> list[tuple[str, list[str]]]:
    """Each command of a block, and the lines that follow it."""
    found: list[tuple[str, list[str]]] = []
    is_within = False
    for line in lines:
        if is_within or COMMAND.match(line):
            before = f"{found.pop()[0]}\n" if is_within else ""
            found.append((f"{before}{line}", []))
            is_within = line != END if is_within else line.endswith(f"<<'{END}'")
        else:
            found[-1][1].append(line)
    return found


def like_the_repository(room: Room) -> None:
    """Gives the room what the commands name; bin/onixdesk is the tested program."""
    shutil.copytree(ROOT / "bin", room.path("bin"), ignore=shutil.ignore_patterns("onixdesk"))
    room.path("bin/onixdesk").symlink_to(room.program)
    for name in ("examples", "page", "programs"):
        room.path(name).symlink_to(ROOT / name)


def tried(room: Room, page: str, lines: list[str], port: int = 8080) -> Iterator[Outcome]:
    """Runs each command of a block as it stands, at a desk on that port, and compares its output."""
    for command, shown in commands(lines):
        came = room.call(["sh", "-c", command.replace(":8080", f":{port}")])
        # A reply has no line end, and curl shows that.
        ended = came.output + (b"\n" if command.startswith("curl ") else b"")
        yield Outcome(f"{page}: {command}", (came.status, ended), (0, written(shown)))


def first_batches(room: Room) -> Iterator[Outcome]:
    """The batch that README.md begins with, and that of the tour."""
    like_the_repository(room)
    gap = room.run("batch", given=written(block("README.md", "Agree,north,")))
    yield Outcome("README.md: a gap", gap, Ran(0, written(block("README.md", "agreed,north,1"))))
    yield from tried(room, TOUR, block(TOUR, "bin/onixdesk batch < examples/first.csv"))
    yield Outcome("docs/TOUR.md: the first batch", written(block(TOUR, "Agree,north,")), example("examples/first.csv"))


def own_file(room: Room) -> Iterator[Outcome]:
    """The block in README.md for a wholesaler's file, pasted once and again, with a feed of the examples that becomes
    one message or two."""
    like_the_repository(room)
    room.path(str(BUILT.parent.relative_to(ROOT))).mkdir(parents=True)
    room.path(str(BUILT.relative_to(ROOT))).symlink_to(room.program)
    room.write("my.xml", example("examples/shop/onix/north-1.xml"))
    text = "\n".join(block("README.md", "onixdesk() {"))
    rest = "updated=0,deleted=0,unknown=0,ignored=0"
    applied = [f"applied,mine,{number},replaced={count},{rest}" for number, count in ((1, 2), (2, 0))]
    for words, parts in (("convert", 1), ("convert --parts 2", 2)):
        for turn in ("once", "again"):
            came = room.call(["sh", "-e", "-c", text.replace("convert", words)])
            lines = came.output.decode().splitlines()
            found = [line for line in lines if line.startswith(("agreed,", "applied,", "price,", "catalogue,"))]
            wanted = ["agreed,mine,1", *applied[:parts], "price,9781234567897,1", "catalogue,mine,2"]
            yield Outcome(f"README.md: {words}, {turn}", (came.status, found), (0, wanted))
        shutil.rmtree(room.path("try"))


def week(room: Room) -> Iterator[Outcome]:
    """Each block after the command is part of the answers."""
    answers = [line for lines in blocks("examples/shop/README.md")[1:] for line in lines]
    rules = ROOT / "examples/shop/rules.toml"
    came = room.run("--rules", rules, "batch", given=example("examples/shop/week.csv"))
    yield Outcome("examples/shop/README.md: the week", came, Ran(1, written(answers)))


# The week in XML: its commands, and what they write.
OF_FEEDS = "examples/shop/onix/README.md"


def week_in_xml(room: Room) -> Iterator[Outcome]:
    like_the_repository(room)
    for command, *lines in blocks(OF_FEEDS):
        came = room.call(["sh", "-c", f"exec 2>&1; {command}"])
        yield Outcome(f"{OF_FEEDS}: {command}", came, Ran(0, written(lines)))


def over_http(room: Room, page: str) -> Iterator[Outcome]:
    """Starts the desk as the page does, on a port of its own."""
    (command,) = block(page, "bin/onixdesk --db shop.db serve")
    port = free_port()
    words = ["sh", "-c", f"exec {command.replace('8080', str(port))}"]
    with subprocess.Popen(words, cwd=room.folder, stdout=subprocess.PIPE) as desk:
        assert desk.stdout
        first = desk.stdout.readline().decode()
        yield from tried(room, page, block(page, "curl "), port)
        lines = first + desk.communicate()[0].decode()
    shown = written(block(page, "listening 8080")).decode().replace("8080", str(port))
    yield Outcome(f"{page}: the lines of serve", (lines, desk.returncode), (shown, 0))


@needs("curl")
def desk_in_a_file(room: Room) -> Iterator[Outcome]:
    """A desk on two days, and then over HTTP; and a feed."""
    like_the_repository(room)
    for first in ("db shop.db batch < examples/shop/monday.csv", "db shop.db gaps north", "db shop.db agreements"):
        yield from tried(room, TOUR, block(TOUR, f"bin/onixdesk --{first}"))
    yield from over_http(room, TOUR)
    room.write("sample.xml", example("examples/shop/onix/north-1.xml"))
    (of_tour,), (of_onix,) = block(TOUR, "bin/onixdesk-look "), block("docs/ONIX.md", "bin/onixdesk-look ")
    looked, sampled = (room.call(["sh", "-c", command]) for command in (of_tour, of_onix))
    found = sampled.status, sampled.output.replace(b"sample", b"north")
    yield Outcome(f"docs/ONIX.md: {of_onix}", found, (0, looked.output.replace(b"north-1", b"north")))
    agreement = block(TOUR, "bin/onixdesk --db shop.db agreements")[1].encode()
    yield Outcome("docs/TOUR.md: a feed is looked at", (looked.status, agreement in looked.output), (0, True))
    answers = room.run("--db", "shop.db", "batch", given=written(block(TOUR, "AskPrice,9781234567897,20250410")))
    kinds = [
        line.partition(b",")[0] for line in answers.output.splitlines() if not line.startswith((b"offer", b"span"))
    ]
    yield Outcome("docs/TOUR.md: its questions", kinds, [b"price", b"choice", b"calendar"])


# A message with a price, and rules that choose its offer.
PRICED = b"""\
Message,1,06,4012345000009,06,5012345678900,1,,,02,GBP
Product,R1,03,15,9781234567897
ProductSupply,GB IE,,
SupplyDetail,04,06,4012345000009,North Books,21,
Price,,12.99,,,,,,
EndMessage,5
"""
RULES = b'[[rule]]\nseries = "north"\ncodes = ["21"]\n'

HTTP = "docs/HTTP.md"


@needs("curl")
def page_of_http(room: Room) -> Iterator[Outcome]:
    """Each command on the page of HTTP with its reply, to desks in the states that it describes."""
    post, *deliveries = block(HTTP, "curl -H 'Expect:' --data-binary @message.csv")
    questions = [lines for lines in blocks(HTTP) if lines[0].startswith(("curl 'http", "curl http"))]
    of_articles = [lines for lines in questions if "/articles/" in lines[0]]
    of_series = [lines for lines in questions if "/series/" in lines[0]]

    room.write("rules.toml", RULES)
    room.run("--db", "priced.db", "batch", given=AGREEMENT)
    with serving(room, ["--db", "priced.db", "--rules", "rules.toml"], 2 + len(of_articles)) as desk:
        for message, reply in zip((PRICED, bare(3)), deliveries, strict=True):
            room.write("message.csv", message)
            yield from tried(room, HTTP, [post, reply], desk.port)
        for lines in of_articles:
            yield from tried(room, HTTP, lines, desk.port)

    messages = AGREEMENT + bare(1) + bare(2) + bare(5) + bare(9)
    room.run("--db", "bare.db", "batch", given=messages)
    with serving(room, ["--db", "bare.db"], len(of_series)) as desk:
        for lines in of_series:
            yield from tried(room, HTTP, lines, desk.port)
    yield Outcome("docs/HTTP.md: its questions", (len(of_articles), len(of_series)), (3, 2))


def served_as_told(room: Room) -> Iterator[Outcome]:
    """The two desks that the page of HTTP starts, on ports of their own, and a batch at the socket of the second."""
    like_the_repository(room)
    room.run("--db", "shop.db", "batch", given=AGREEMENT)
    room.write("agreements.csv", AGREEMENT)
    serve, batch = block(HTTP, "bin/onixdesk --db shop.db --existing serve --port 8080 --batches desk.socket")
    for command in (block(HTTP, "bin/onixdesk --db shop.db --existing serve --port 8080")[0], serve):
        port = free_port()
        words = ["sh", "-c", f"exec {command.replace('8080', str(port))}"]
        with subprocess.Popen(words, cwd=room.folder, stdout=subprocess.PIPE) as desk:
            assert desk.stdout
            yield Outcome(f"{HTTP}: {command}", desk.stdout.readline(), b"listening %d\n" % port)
            if command == serve:
                came = room.call(["sh", "-c", batch])
                yield Outcome(f"{HTTP}: {batch}", came, Ran(0, b"agreed,north,1\n"))
            desk.kill()


def terms_as_told(room: Room) -> Iterator[Outcome]:
    """The table in docs/ONIX.md, and what is said if a term follows one that is as wide."""
    table = written(block("docs/ONIX.md", "[[term]]"))
    command, *lines = block("docs/ONIX.md", "onixdesk terms ")
    words = command.split()[1:]
    room.write(words[-1], table)
    yield Outcome(f"docs/ONIX.md: {command}", room.run(*words), Ran(0, written(lines)))
    room.write(words[-1], table * 2)
    said = written(block("docs/ONIX.md", "onixdesk: terms: "))
    yield Outcome(f"docs/ONIX.md: {command}, twice", room.run(*words), Ran(0, b"terms 2\n", said))


def script(room: Room, name: str, *words: str) -> Ran:
    """How a script of the examples ends that runs the room's program."""
    return room.call([ROOT / name, *words], environment={**os.environ, "ONIXDESK": str(room.program)})


@needs("curl")
def script_of_http(room: Room) -> Iterator[Outcome]:
    """The script compares each reply with the one written in it; a line reports its bad query."""
    wanted = Ran(0, b"", b"onixdesk: bad-query: day is given more than once\n")
    yield Outcome("http.sh: its replies", script(room, "examples/http.sh", str(free_port())), wanted)
