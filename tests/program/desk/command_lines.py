"""Command lines, each by what follows the program's name."""

from collections.abc import Iterator

from tests.program.room import Ran, Room
from tests.program.written_cases import TESTS, read_file
from tests.running import Outcome

REFUSED, HELP = (case.text.split("\n") for case in read_file(TESTS / "refusals/commands.txt"))


def seen(ran: Ran) -> dict[str, int | bool]:
    """How a command line is judged: its status, where it printed, and whether that is the program's own fault."""
    return {
        "status": ran.status,
        "printed": ran.output != b"",
        "complained": ran.errors != b"",
        "in its own words": ran.errors.startswith(b"onixdesk: "),
    }


def lines(room: Room) -> Iterator[Outcome]:
    """The program prints to standard output with status 0, else to standard error, and not as a fault of its own."""
    for status, lines in (2, ["", *filter(None, REFUSED)]), (0, [*filter(None, HELP)]):
        wanted = {"status": status, "printed": status == 0, "complained": status != 0, "in its own words": False}
        for words in lines:
            yield Outcome(f"command line: {words}", seen(room.run(*words.split())), wanted)
    # No database file was made.
    yield Outcome("command line: the folder then", list(room.folder.iterdir()), [])


AT_SOCKET = """
    agreements|check a.csv|convert a.xml|deliver a.csv|export|gaps|migrate|rules a.toml|serve --port 8080|terms a.toml
"""


def at_a_socket(room: Room) -> Iterator[Outcome]:
    """A batch alone is sent to one."""
    for words in AT_SOCKET.strip().split("|"):
        came = room.run("--batches", "socket", *words.split())
        wanted = Ran(2, b"", b"onixdesk: --batches goes with batch\n")
        yield Outcome(f"command line: at a socket, {words}", came, wanted)


COMMANDS = "agreements batch check convert deliver export gaps migrate rules serve terms".split()


def helps(room: Room) -> Iterator[Outcome]:
    """The program's help names each command, whose own help says how to use it."""
    came = room.run("--help")
    named = [line.split()[0] for line in came.output.decode().splitlines() if line.startswith("  ") and line[2] != " "]
    yield Outcome("help: the commands", (came.status, named[: len(COMMANDS) + 1]), (0, [*COMMANDS, "help"]))
    for command in COMMANDS:
        came = room.run(command, "--help")
        usage = f"Usage: {room.program.name} {command}".encode()
        yield Outcome(f"help: {command}", (came.status, usage in came.output, came.errors), (0, True, b""))


def version(room: Room) -> Iterator[Outcome]:
    """The program's name stands before its version."""
    came = room.run("--version")
    name, _, number = came.output.partition(b" ")
    wanted = b"onixdesk", True, Ran(0, came.output)
    yield Outcome("the version's text", (name, number.strip() != b"", came), wanted)


def bad_words(room: Room) -> Iterator[Outcome]:
    came = room.run(b"\xff")
    wanted = Ran(2, b"", b"error: a word is not UTF-8\n")
    yield Outcome("command line: a word that is not UTF-8", came, wanted)
