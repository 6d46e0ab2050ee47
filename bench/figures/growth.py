"""A desk in a file that `serve` keeps open, growing by messages of new articles: a record with one identifier, one
supply and one price each."""

import socket
import subprocess
from collections.abc import Iterator
from pathlib import Path
from statistics import mean, median
from typing import NamedTuple

from bench.figures import texts
from bench.figures.ratios import Bench
from bench.figures.runs import BenchmarkFault
from tools.ports import HOST, free_port

# The articles in a message, the number of messages for each size of desk, and the number of price questions.
ARTICLES, MESSAGES, QUESTIONS = 4_900, [2, 20, 65, 204], 300

GAPS = "/series/north/gaps"
PRICE = "/articles/{}/price?day=20250301&country=GB&currency=GBP&type=02"

HEAD = "| Articles | An article, µs | A price, µs | File, MB | Process, MB | Opened, MB | Opening, s |"


class Size(NamedTuple):
    """A desk of so many articles: the nanoseconds of processor time for an article of the last messages, for a price
    (the median), and for opening the file; the size of the file; and the peak memory of the process that took the
    messages, and of the one that answered the questions."""

    articles: int
    article: float
    price: float
    file: int
    process: int
    opened: int
    opening: int

    def line(self) -> str:
        times = f"{self.article / 1e3:,.0f} | {self.price / 1e3:,.0f}"
        memory = f"{self.process / 1e6:,.0f} | {self.opened / 1e6:,.0f}"
        return f"| {self.articles:,} | {times} | {self.file / 1e6:.1f} | {memory} | {self.opening / 1e9:.2f} |"


class Served:
    """A desk that stays open for so many connections and one more, which ends it."""

    def __init__(self, bench: Bench, connections: int) -> None:
        self.port = free_port()
        words = ["serve", "--port", str(self.port), "--requests", str(connections + 1)]
        self.process = subprocess.Popen([bench.program, "--db", bench.file, *words], stdout=subprocess.PIPE)
        if self.line() != f"listening {self.port}":
            self.process.kill()
            raise BenchmarkFault(f"{bench.program} does not listen")
        self.opening = self.processor()

    def line(self) -> str:
        assert self.process.stdout
        return self.process.stdout.readline().decode().strip()

    def told(self, name: str) -> str:
        return Path(f"/proc/{self.process.pid}/{name}").read_text()

    def processor(self) -> int:
        """The nanoseconds of processor time that it has used."""
        return int(self.told("schedstat").split()[0])

    def memory(self) -> int:
        """The peak of resident bytes since its start."""
        return 1_024 * int(self.told("status").partition("VmHWM:")[2].split()[0])

    def exchange(self, wanted: bytes, target: str, body: bytes | None = None) -> int:
        """The nanoseconds of processor time for a request whose reply must have what is wanted."""
        began = self.processor()
        head = f"{'GET' if body is None else 'POST'} {target} HTTP/1.1\r\n"
        head += "" if body is None else f"Content-Length: {len(body)}\r\n"
        with socket.create_connection((HOST, self.port)) as peer:
            peer.sendall(f"{head}\r\n".encode() + (body or b""))
            reply = b"".join(iter(lambda: peer.recv(65_536), b""))
        if self.line() != "200" or wanted not in reply:
            self.process.kill()
            raise BenchmarkFault(f"{target}: {reply[-300:]!r}")
        return self.processor() - began

    def end(self) -> None:
        self.exchange(b"", GAPS)
        assert self.process.stdout
        self.process.stdout.close()
        if self.process.wait():
            raise BenchmarkFault(f"serve: status {self.process.returncode}")


def grow(bench: Bench, first: int, last: int) -> tuple[float, int]:
    """Sends the desk the messages of these numbers; returns the time for an article, and the peak memory."""
    served, articles = Served(bench, last - first + 1), bench.size(ARTICLES)
    wanted = f'"replaced":{articles},'.encode()
    messages = (texts.offers(number, articles).encode() for number in range(first, last + 1))
    article = mean(served.exchange(wanted, "/messages", each) / articles for each in messages)
    memory = served.memory()
    served.end()
    return article, memory


def sizes(bench: Bench) -> Iterator[Size]:
    bench.fill(bench.text("agreement", [texts.AGREEMENT]))
    questions, had = bench.size(QUESTIONS), 0
    for count in MESSAGES if bench.divisor == 1 else MESSAGES[:1]:
        article, process = grow(bench, had + 1, count)
        had, articles = count, count * bench.size(ARTICLES)
        served = Served(bench, questions)
        targets = (PRICE.format(isbn) for isbn in texts.scattered(articles, questions))
        price = median(served.exchange(b'"amount":"12.990"', target) for target in targets)
        opened = served.memory()
        served.end()
        yield Size(articles, article, price, bench.file.stat().st_size, process, opened, served.opening)
