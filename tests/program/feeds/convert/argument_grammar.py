"""Which options for a sender, numbers and parts the converter accepts, and which not."""

import shlex

from tests.program.feeds.convert.case_files import FRAMES
from tests.program.written_cases import TESTS, read_file, repeated, unescaped

HEADER = "<Header>{}<MessageNumber>1</MessageNumber></Header>"
SENDER = "<Sender><SenderIdentifier><SenderIDType>06</SenderIDType><IDValue>S</IDValue></SenderIdentifier></Sender>"

FIELD_BYTES = 1_024


def feed_of(inside: str) -> bytes:
    frame = FRAMES["message"]
    return f"{frame.before}{inside}{frame.behind}".encode()


def bad() -> list[list[bytes]]:
    """The command lines of tests/refusals/words.txt, which have escapes."""
    [case] = read_file(TESTS / "refusals/words.txt")
    return [[unescaped(repeated(word)) for word in shlex.split(line)] for line in case.text.splitlines()]


# Words, and the fields of the sender and the number that they give a message without a sender.
GOOD = [
    (["--sender", "01,S"], "01,S", "1"),
    (["--sender", "06," + "s" * FIELD_BYTES], "06," + "s" * FIELD_BYTES, "1"),
    (["--sender", "06," + "é" * (FIELD_BYTES // 2)], "06," + "é" * (FIELD_BYTES // 2), "1"),
    (["--sender", "06, a ,b"], '06," a ,b"', "1"),
    (["--sender", "06,S", "--supplier", "06, a ,b"], "06,S", "1"),
    (["--sender", "06,S", "--number-offset", "000000000"], "06,S", "1"),
    (["--sender", "06,S", "--number-offset", "999999998"], "06,S", "999999999"),
    (["--sender", "06,S", "--number", "999999999"], "06,S", "999999999"),
]
