"""Inputs of which a read fails after some byte, outputs that take part of the answers, and full disks."""

import os
import socket
import subprocess
from collections.abc import Iterator
from pathlib import Path

from tests.program.desk.clients import RESET
from tests.program.databases import DATABASE, batch, complaints
from tests.program.desk.exchange_cases import AGREEMENTS, APPLIED, DELIVERY, NO_NUMBERS
from tests.program.messages import AGREED, applied
from tests.program.desk.open_desks import SOCKET, answered
from tests.program.room import Ran, Room, without_reasons
from tests.program.serving import Exchange, connected, posted, serving
from tests.running import Outcome
from tools.words import Word

BATCH = b"""\
Agree,north,06,4012345000009,06,5012345678900,1
Message,1,06,4012345000009,06,5012345678900,1,1,20250301,,
Product,R1,03,15,9781234567897
ProductSupply,GB IE,,
SupplyDetail,04,06,4012345000009,North Books,21,
EndMessage,4
AskGaps,north
"""
ANSWERS = AGREED + applied(1, 1) + b"gaps,north,first=1,next=2,greatest=1,held=0,missing=0\n"

AGREEMENT = BATCH.splitlines(keepends=True)[0]
OTHER_AGREEMENT = AGREEMENT.replace(b"north,06,4012345000009", b"south,06,5000000000005")

ASK_GAPS = b"AskGaps,north\n"
NOT_AGREED = Ran(1, b"refused,unknown-series\n")
NONE_APPLIED = Ran(0, b"gaps,north,first=1,next=1,greatest=,held=0,missing=0\n")
ONE_APPLIED = Ran(0, b"gaps,north,first=1,next=2,greatest=1,held=0,missing=0\n")

OVER_A_FILE = "--db", DATABASE, "batch"

# If given, no file may grow beyond so many blocks of 512 bytes.
BLOCKS = 8192
MOST_BYTES = BLOCKS * 512


def failing_behind(text: bytes) -> socket.socket:
    """An input with this text, whose next read fails: its writer has closed its end and left a byte unread there."""
    writer, reader = socket.socketpair()
    with writer:
        reader.sendall(b"a")
        writer.sendall(text)
    return reader


def unread_batches(room: Room) -> Iterator[Outcome]:
    """With a failed read after each byte. Nothing is asked of the desk in a file, not the agreement either, which would
    be in it from then on."""
    for given in range(len(BATCH) + 1):
        with failing_behind(BATCH[:given]) as reader:
            came = room.call([room.program, *OVER_A_FILE], reader.fileno())
        wanted = Ran(3, b"", b"onixdesk: input: read\n")
        yield Outcome(f"a read that fails behind {given} bytes", came, wanted)
    yield Outcome("the desk after reads that fail", batch(room, ASK_GAPS), NOT_AGREED)


class Limited(Room):
    """The same room, where no file may grow beyond so many blocks: a write beyond them fails."""

    def __init__(self, room: Room, blocks: int) -> None:
        super().__init__(Path("/bin/sh"), room.folder)
        script = f'trap \'\' XFSZ; ulimit -f {blocks}; exec "$0" "$@"'
        self.before = ["-c", script, str(room.program)]

    def run(self, *words: Word | bytes, given: bytes | None = b"", is_full: bool = False) -> Ran:
        return super().run(*self.before, *words, given=given, is_full=is_full)

    def start(self, *words: Word, stdin: int = subprocess.DEVNULL) -> subprocess.Popen[bytes]:
        return super().start(*self.before, *words, stdin=stdin)


def taken_answers(room: Room, count: int) -> tuple[Ran, bytes]:
    """How a batch ends whose output takes so many bytes, and these bytes: the output is a file that can grow only by
    them."""
    limited = Limited(room, BLOCKS)
    words: list[Word] = [limited.program, *limited.before, *OVER_A_FILE]
    start = MOST_BYTES - count
    with open(room.path("answers"), "w+b") as answers, open(room.path("batch"), "rb") as given:
        answers.seek(start)
        came = room.call(words, given.fileno(), answers.fileno())
        answers.seek(start)
        return came._replace(errors=without_reasons(came.errors)), answers.read()


def written_in_parts(room: Room) -> Iterator[Outcome]:
    """Outputs take each part of the answers: that part is written, and the requests up to the answer where it ends are
    asked, and no others."""
    room.write("batch", BATCH)
    for count in range(len(ANSWERS)):
        for file in room.folder.glob(f"{DATABASE}*"):
            os.remove(file)
        taken = ANSWERS[:count]
        wanted = Ran(3, b"", b"onixdesk: output\n"), taken
        yield Outcome(f"an output that takes {count} bytes", taken_answers(room, count), wanted)
        report = ONE_APPLIED if b"\n" in taken else NONE_APPLIED
        yield Outcome(f"the desk after {count} bytes of answers", batch(room, ASK_GAPS), report)


def unread_deliveries(room: Room) -> Iterator[Outcome]:
    """Connections are reset after each byte of a delivery. Nothing is delivered, and then the whole delivery gets its
    reply."""
    answers = b"agreed,north,1\nagreed,south,5\nwaived,south,7\n"
    yield Outcome("the agreements before resets", batch(room, AGREEMENTS), Ran(0, answers))
    text = DELIVERY.input
    with serving(room, ["--db", DATABASE], len(text) + 2) as desk:
        for given in range(len(text)):
            with connected(desk.port) as peer:
                peer.sendall(text[:given])
                peer.setsockopt(socket.SOL_SOCKET, socket.SO_LINGER, RESET)
        yield Outcome("the gaps after resets", desk.reply([NO_NUMBERS.input]), NO_NUMBERS.reply())
        yield Outcome("a delivery after resets", desk.reply([text]), APPLIED)
        wanted = desk.wanted([*["fault"] * len(text), "200", "200"])
        yield Outcome("the lines of resets", desk.ended(), wanted)


# A message with so many records takes more than so many blocks, and a new desk does not.
RECORDS, FULL = 10_000, 1024

# How many of them another message changes.
CHANGED = 10

PRODUCTS = "".join(f"Product,R{number},03,15,9781234567897\n" for number in range(RECORDS))
LARGE = f"Message,1,06,4012345000009,06,5012345678900,1,,,,\n{PRODUCTS}EndMessage,{RECORDS + 1}\n"


def full_disks(room: Room) -> Iterator[Outcome]:
    """A request for which the disk has no room is answered by a fault, and none of it is kept; it may be sent again
    once there is room."""
    full = Limited(room, FULL)
    yield Outcome("the agreement before the full disk", batch(full, AGREEMENT), Ran(0, AGREED))
    fault = Ran(3, b"", b"onixdesk: storage: disk\n")
    yield Outcome("a batch on a full disk", batch(full, LARGE.encode()), fault)
    yield Outcome("the desk after the full disk", batch(room, ASK_GAPS), NONE_APPLIED)
    line, body = "503 Service Unavailable", '{"answer":"fault","reason":"disk"}'
    exchange = Exchange("a delivery", posted(LARGE.encode()), line, body)
    with serving(full, ["--db", DATABASE], 2) as desk:
        yield Outcome("a delivery on a full disk", desk.reply([exchange.input]), exchange.reply())
        yield Outcome("a question on a full disk", desk.reply([NO_NUMBERS.input]), NO_NUMBERS.reply())
        yield Outcome("the lines on a full disk", desk.ended(), desk.wanted(["503", "200"]))
    found = batch(room, LARGE.encode()), complaints(room)
    yield Outcome("the batch once there is room", found, (Ran(0, applied(1, RECORDS)), []))
    yield Outcome("the desk then", batch(room, ASK_GAPS), ONE_APPLIED)


def large(number: int) -> bytes:
    """A message that takes more than so many blocks, and whose records no other message has."""
    return LARGE.replace("78900,1,", f"78900,{number},").replace("Product,R", f"Product,R{number}-").encode()


def changed(number: int, article: str) -> bytes:
    """A message that gives records from all parts of such a file another article."""
    products = "".join(f"Product,R1-{each},03,15,{article}\n" for each in range(0, RECORDS, RECORDS // CHANGED))
    return f"Message,1,06,4012345000009,06,5012345678900,{number},1,,,\n{products}EndMessage,{CHANGED + 1}\n".encode()


def a_file_that_cannot_be_closed(room: Room) -> Iterator[Outcome]:
    """The log cannot be copied into the file, which is longer than allowed: one line reports it, even if a request
    before met the full disk. What was answered is in the log."""
    yield Outcome("a large file", batch(room, AGREEMENT + large(1)), Ran(0, AGREED + applied(1, RECORDS)))
    size = room.path(DATABASE).stat().st_size
    yield Outcome("a large file: it is longer than it may be", size > FULL * 512, True)
    requests = [
        ("a file that cannot be closed", changed(2, "9789999999999"), 2),
        ("a fault, and a file that cannot be closed", changed(3, "9788888888888") + large(4), 3),
    ]
    for name, text, number in requests:
        wanted = Ran(3, applied(number, CHANGED), b"onixdesk: storage: disk\n")
        yield Outcome(name, batch(Limited(room, FULL), text), wanted)
        report = b"gaps,north,first=1,next=%d,greatest=%d,held=0,missing=0\n" % (number + 1, number)
        yield Outcome(f"{name}: what is kept", batch(room, ASK_GAPS), Ran(0, report))


def a_fault_within_a_batch(room: Room) -> Iterator[Outcome]:
    """At an open desk the batch ends there; answers before it and after it are kept, however the program ends."""
    full = Limited(room, FULL)
    with serving(full, ["--db", DATABASE], None, ["--batches", SOCKET]) as desk:
        text = AGREEMENT + LARGE.encode() + OTHER_AGREEMENT
        yield Outcome("a batch with a fault: its answers", answered(room, text), AGREED)
        yield Outcome("a batch with a fault: an exchange behind it", desk.reply([DELIVERY.input]), DELIVERY.reply())
        yield Outcome("a batch with a fault: a batch behind that", answered(room, OTHER_AGREEMENT), b"agreed,south,1\n")
        desk.process.kill()
        yield Outcome("a batch with a fault: the lines", desk.ended(), desk.wanted(["fault", "200", "batch 0"], -9))
    asked = ASK_GAPS + b"AskGaps,south\n"
    wanted = ONE_APPLIED.output + b"gaps,south,first=1,next=1,greatest=,held=0,missing=0\n"
    yield Outcome("a batch with a fault: what is kept", batch(room, asked), Ran(0, wanted))
    yield Outcome("a batch with a fault: the tables", complaints(room), [])
