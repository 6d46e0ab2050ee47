"""Why requests are malformed, as `check` says it of a file, and `batch` and `deliver` behind their answers. The mistakes
stand in tests/refusals/requests.txt: the name of a case is what its line says."""

import re
from collections.abc import Iterator
from random import Random

from tests.program.databases import DATABASE
from tests.program.room import Ran, Room
from tests.program.serving import serving
from tests.program.written_cases import TESTS, read_file
from tests.running import Outcome

MISTAKES = read_file(TESTS / "refusals/requests.txt")

# A batch without a mistake.
RIGHT = b"Agree,north,06,4012345000009,06,5012345678900,1\nAskGaps,north\n"

# How many lines a run writes of requests that are malformed.
MOST = 100


def line(why: str, name: str = "") -> bytes:
    """The line that says why, of a file of that name."""
    return f"onixdesk: {name}{why}\n".encode()


def checked(room: Room) -> Iterator[Outcome]:
    """`check` says of each mistake which field of which line is wrong, and why."""
    for case in MISTAKES:
        room.write("requests.csv", case.text.encode())
        wanted = Ran(1, b"", line(case.name, "requests.csv: "))
        yield Outcome(f"checked: {case.name}", room.told("check", "requests.csv"), wanted)


# A batch with right and wrong pieces, and how the lines on the wrong ones begin: one of two records, an empty line
# behind it, one with a line break in a field, a message, and one behind the message.
MIXED = b"""Agree,north,06,4012345000009,06,5012345678900,1
AskGaps
more,1

AskGaps,north
AskGaps,"a
b"
Message,1,06,4012345000009,06,5012345678900,1,1,20250301,,
EndMessage,9
AskGaps,North
"""
WRONG = ["line 2: AskGaps: ", "line 6: AskGaps: ", "line 9: EndMessage: ", "line 10: AskGaps: "]


def begin(lines: bytes) -> bool:
    """Whether these are the lines on the wrong pieces."""
    found = lines.decode().splitlines()
    return len(found) == len(WRONG) and all(map(str.startswith, found, [f"onixdesk: {wrong}" for wrong in WRONG]))


def mixed(room: Room) -> Iterator[Outcome]:
    """The lines come in the order of the text: of `batch`, of who sends a batch, and of the desk."""
    came = room.told("--db", DATABASE, "batch", given=MIXED)
    yield Outcome("mixed: answered", (came.status, begin(came.errors)), (1, True))
    with serving(room, ["--db", DATABASE], 1, ["--batches", "desk.socket"]) as desk:
        sent = room.told("--batches", "desk.socket", "batch", given=MIXED)
        yield Outcome("mixed: sent", (sent.status, begin(sent.errors)), (1, True))
        yield Outcome("mixed: by the desk", begin(desk.told().errors), True)


def right_texts(room: Room) -> Iterator[Outcome]:
    """Of what is right nothing is said, of several files each by its name, and of standard input by `-`."""
    room.write("right.csv", RIGHT)
    room.write("wrong.csv", RIGHT + b"AskGaps\n")
    room.write("empty.csv", b"")
    wrong = "line 3: AskGaps: 0 fields behind its name, not 1: AskGaps,Series"
    yield Outcome("checked: what is right", room.told("check", "right.csv"), Ran(0))
    yield Outcome("checked: nothing", room.told("check", "empty.csv"), Ran(0))
    yield Outcome("checked: standard input", room.told("check", "-", given=RIGHT), Ran(0))
    several = room.told("check", "wrong.csv", "right.csv", "-", given=b"Ask,1\n")
    last = "line 1: Ask: no request has this name; a text of requests has no heading"
    yield Outcome("checked: several", several, Ran(1, b"", line(wrong, "wrong.csv: ") + line(last, "-: ")))


def many_mistakes(room: Room) -> Iterator[Outcome]:
    """Of more than 100 the others are counted, of `batch`, of who sends a batch, of the desk, and of `deliver`."""
    given = b"AskGaps\n" * (MOST + 7)
    lines = [
        line(f"line {row}: AskGaps: 0 fields behind its name, not 1: AskGaps,Series") for row in range(1, MOST + 1)
    ]
    wanted = b"".join(lines) + b"onixdesk: 7 more are malformed\n"
    yield Outcome("answered: 107 mistakes", room.told("batch", given=given).errors, wanted)
    with serving(room, ["--db", DATABASE], 1, ["--batches", "desk.socket"]) as desk:
        sent = room.told("--batches", "desk.socket", "batch", given=given)
        yield Outcome("sent: 107 mistakes", sent, Ran(1, b"refused,malformed,1\n" * (MOST + 7), wanted))
        ended = desk.told()
        yield Outcome("by the desk: 107 mistakes", (ended.status, ended.errors), (0, wanted))
    room.write("cut.csv", b"Message,1,06,S,,,1,1,20250301,,\n")
    said = line("line 1: EndMessage: the message ends without it", "cut.csv: ") * MOST
    wanted = Ran(1, b"refused,malformed,2\n" * (MOST + 7), said + b"onixdesk: 7 more are malformed\n")
    yield Outcome("delivered: 107 mistakes", room.told("deliver", *["cut.csv"] * (MOST + 7)), wanted)


# Each record, as its name and then each field's name and a right text.
RECORDS = [re.split("[ =]", line) for line in (TESTS / "refusals/records.txt").read_text().splitlines()]
TEXTS = [",".join([record[0], *record[2::2]]) for record in RECORDS]
# A right request of each kind and a message in both forms, from which wrong ones are made with these texts.
REQUESTS, MESSAGE = TEXTS[:7], TEXTS[7:]
MESSAGES = ["|".join(MESSAGE), "|".join(MESSAGE).replace("Message,2", "Message,1").replace(",2|", "|")] * 6
WRONG_TEXTS = "|  |x|06|6|GB|gb|GB IE|GBP|20250229|12;5|WORLD|0|1|North|\t|Price".split("|")
# Fields that may have any text.
ANY = "SenderIDValue AddresseeIDValue SentDateTime SupplierIDValue SupplierName RecordReference IDValue".split()
SAID = re.compile(r"^onixdesk: (?:-: )?line (.*)$", re.MULTILINE)


def fuzzed_request(random: Random) -> str:
    """A request or a message with a field put in, left out or changed, and of which a record may be moved."""
    records = [record.split(",") for record in random.choice(REQUESTS + MESSAGES).split("|")]
    record = random.choice(records)
    place = random.randrange(len(record))
    record[place : place + random.randrange(2)] = random.choices(WRONG_TEXTS, k=random.randrange(2))
    if random.random() < 0.2:
        records.insert(random.randrange(len(records)), records.pop(random.randrange(len(records))))
    return "".join(",".join(record or ["x"]) + "\n" for record in records)


def fuzzed(room: Room) -> Iterator[Outcome]:
    """Each request that is malformed has its line and a reason of its own, of `batch` and of `check` alike."""
    for seed in range(40):
        random = Random(seed)
        given = "".join(fuzzed_request(random) for _ in range(60)).encode()
        came, checked = room.told("batch", given=given), room.told("check", "-", given=given)
        said = SAID.findall(came.errors.decode())
        yield Outcome(f"fuzzed: the lines, {seed}", len(said), came.output.count(b"refused,malformed,"))
        bare = [line for line in said if line.endswith("it is not allowed here")]
        yield Outcome(f"fuzzed: the reasons, {seed}", (SAID.findall(checked.errors.decode()), bare), (said, []))


def first_wrong(room: Room) -> Iterator[Outcome]:
    """Of a record whose fields are wrong from one on, the first that is wrong is named."""
    for at, (name, *fields) in enumerate(RECORDS):
        before, behind = ([], []) if at < 7 else (TEXTS[7:at], TEXTS[at + 1 :])
        for place in range(0, len(fields), 2):
            count = (len(fields) - place) // 2
            wrong = TEXTS[at].rsplit(",", count)[0] + ",?" * count
            named = [field for field in fields[place::2] if field not in ANY][:1]
            came = room.told("check", "-", given="\n".join([*before, wrong, *behind, ""]).encode())
            found = [line.split(": ")[2].split(" ")[0] for line in SAID.findall(came.errors.decode())]
            yield Outcome(f"first wrong: {name}, {fields[place]}", found, named)
