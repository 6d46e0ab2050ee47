"""The option `--existing`: a missing database file is a fault, and none is made."""

from collections.abc import Iterator
from functools import partial

from tests.program.desk.commands import APPLIED, FIRST
from tests.program.databases import DATABASE, complaints
from tests.program.messages import AGREED, AGREEMENT
from tests.program.room import UNREADABLE, Group, Ran, Room
from tests.program.serving import got, serving
from tests.running import Outcome

UNUSABLE = Ran(3, b"", b"onixdesk: storage: unusable\n")

# The commands, each over a missing database. None of them reaches its own first fault.
COMMANDS = ["batch", "deliver absent.csv", "gaps north", "migrate", "serve --port 1 --requests 1", "serve --port 1"]

EXISTING = ["--db", DATABASE, "--existing"]

GAPS = b"gaps,north,first=1,next=2,greatest=1,held=0,missing=0\n"


def is_missing(command: str, room: Room) -> Iterator[Outcome]:
    for words in EXISTING, ["--existing", "--db", DATABASE], ["--db", f"absent/{DATABASE}", "--existing"]:
        came = room.run(*words, *command.split(), given=UNREADABLE)
        yield Outcome(f"missing: {words} {command}", came, UNUSABLE)
    yield Outcome(f"missing: the folder after {command}", list(room.folder.iterdir()), [])


def is_a_link_to_nothing(room: Room) -> Iterator[Outcome]:
    """The link's target is missing, and is not made either."""
    room.path(DATABASE).symlink_to("other.db")
    for command in "batch", "migrate":
        came = room.run(*EXISTING, command, given=UNREADABLE)
        yield Outcome(f"a link to nothing: {command}", came, UNUSABLE)
    names = [path.name for path in room.folder.iterdir()]
    yield Outcome("a link to nothing: the folder then", names, [DATABASE])


def is_there(room: Room) -> Iterator[Outcome]:
    """Each command does what it does without the option. An empty file is there too."""
    room.write(DATABASE, b"")
    room.write("message.csv", FIRST)
    for command, given, wanted in [
        ("batch", AGREEMENT, AGREED),
        ("deliver message.csv", UNREADABLE, APPLIED),
        ("gaps north", UNREADABLE, GAPS),
        ("migrate", UNREADABLE, b"schema 2\n"),
    ]:
        came = room.run(*EXISTING, *command.split(), given=given)
        yield Outcome(f"a database that is there: {command}", came, Ran(0, wanted))
    reply = '{"answer":"gaps","first":1,"greatest":1,"held":0,"missing":[],"next":2,"series":"north"}'
    question = got("/series/north/gaps", "200 OK", reply)
    with serving(room, EXISTING, 1) as desk:
        found = desk.reply([question.input]), desk.ended()
        yield Outcome("a database that is there: serve", found, (question.reply(), desk.wanted(["200"])))
    yield Outcome("a database that is there: the file then", complaints(room), [])


GROUPS = [Group(f"missing: {command}", partial(is_missing, command)) for command in COMMANDS]
