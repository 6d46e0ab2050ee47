"""What is sent to a desk over HTTP, and what is replied. See `exchanges`.

The cases stand in tests/exchanges (`written_cases`). The text of a case is what is sent, and it has one part: the status
line of the reply behind its version, and the body. What is sent is a message, which is posted; or targets, one a line,
which are got; or, in the files that say so, whole inputs with escapes, one a line. Several targets or inputs of a case
have the same reply.
"""

from collections.abc import Iterator

from tests.program.serving import Exchange, got, posted
from tests.program.written_cases import TESTS, read_file, repeated, unescaped

# The agreements of the desk: `north` from number 1 on, and `south` from number 5 on, with 7 waived.
AGREEMENTS = b"""\
Agree,north,06,4012345000009,06,5012345678900,1
Agree,south,06,5000000000005,06,5012345678900,5
Waive,south,7
"""

RULES = b'[[rule]]\nseries = "*"\ncodes = ["20", "21"]\n'


def refusal(reason: str) -> str:
    return f'{{"answer":"refused","reason":"{reason}"}}'


def exchanges(name: str) -> Iterator[Exchange]:
    """Messages to post, and targets to get."""
    for case in read_file(TESTS / f"exchanges/{name}.txt"):
        [(line, body)] = case.parts
        if case.text.startswith("/"):
            yield from (got(target, line, body.strip()) for target in case.text.splitlines())
        else:
            yield Exchange(case.name, posted(case.text.encode()), line, body.strip())


def inputs(name: str) -> Iterator[Exchange]:
    """Whole inputs."""
    for case in read_file(TESTS / f"exchanges/{name}.txt"):
        [(line, body)] = case.parts
        for text in case.text.splitlines():
            yield Exchange(f"input: {text}", unescaped(repeated(text)), unescaped(line).decode(), body.strip())


# A delivery without products, its reply, and the whole text of that.
DELIVERY = Exchange(
    "a delivery",
    b"POST /messages HTTP/1.1\r\nContent-Length: 63\r\n\r\n"
    b"Message,1,06,4012345000009,06,5012345678900,1,,,,\nEndMessage,1\n",
    "200 OK",
    '{"answer":"applied","deleted":0,"ignored":0,"number":1,"replaced":0,"series":"north","unknown":0,"updated":0}',
)

APPLIED = (
    b"HTTP/1.1 200 OK\r\nContent-Type: application/json\r\nContent-Length: 109\r\nConnection: close\r\n\r\n"
    b'{"answer":"applied","deleted":0,"ignored":0,"number":1,"replaced":0,"series":"north","unknown":0,"updated":0}'
)

# The whole text of the reply to a method that the path does not have.
NOT_ALLOWED = (
    b"HTTP/1.1 405 Method Not Allowed\r\nAllow: POST\r\nContent-Type: application/json\r\nContent-Length: 50\r\n"
    b'Connection: close\r\n\r\n{"answer":"refused","reason":"method-not-allowed"}'
)

# A question whose answer only a successful delivery changes.
NO_NUMBERS = got(
    "/series/north/gaps",
    "200 OK",
    '{"answer":"gaps","first":1,"greatest":null,"held":0,"missing":[],"next":1,"series":"north"}',
)

# The same after that delivery.
ONE_NUMBER = NO_NUMBERS._replace(body=NO_NUMBERS.body.replace('":null', '":1').replace('"next":1', '"next":2'))

# What a client sends that keeps its end open: the desk waits for no byte after the request.
OPEN_INPUTS = [DELIVERY, Exchange("a bad head", b"FOO\r\n\r\n", "400 Bad Request", refusal("bad-head"))]
