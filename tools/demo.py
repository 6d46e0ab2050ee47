"""Serves the buyers' page over a desk with a shop's week, on 127.0.0.1.

    tools/demo [--port N]

It needs no nginx, password or certificate: whoever works on this machine can open the page, and nobody else. The desk
has the week of examples/shop, the messages of examples/page/demo.csv, whose prices change in twenty days, and thirty
books for an order list. Ctrl-C ends it, and its folder is removed.
"""

import argparse
import contextlib
import datetime
import http.client
import http.server
import json
import shutil
import signal
import subprocess
import sys
import tempfile
import time
import tomllib
from collections.abc import Iterator
from pathlib import Path

from tools.ports import HOST, free_port
from tools.root import ROOT
from tools.words import Word

PORT = 8081

# The book of demo.csv.
VIEW = "#article?isbn=9780140328721&quantity=10"

RULES = ROOT / "examples/shop/rules.toml"

# The inbox's report on a wholesaler: its files have numbers, and none is stopped.
WHOLE = {
    "version": 1,
    "numbered": True,
    "desk": True,
    "silent": False,
    "waiting": 0,
    "quarantined": 0,
    "refused": 0,
    "older_terms": 0,
    "prices": [["05", "GBP"]],
}

# For how many days the first prices of demo.csv hold.
DAYS = 20

# The senders of the books for an order list, ten each: the sender, its name, and its next message.
SENDERS = [
    ("4012345000009", "North Books", 4),
    ("5000000000005", "South Books", 5),
    ("9300000000007", "Western Wholesale", 42),
]

# The longest wait for a reply of the desk, in seconds.
SECONDS = 60


def day_in(days: int) -> bytes:
    return f"{datetime.date.today() + datetime.timedelta(days):%Y%m%d}".encode()


def isbn(number: int) -> str:
    twelve = f"9781234{number:05d}"
    total = sum(int(digit) * (1, 3)[at % 2] for at, digit in enumerate(twelve))
    return twelve + str(-total % 10)


def books(sender: str, name: str, message: int, isbns: list[str]) -> str:
    """A message of books in stock, with net prices."""
    lines = [f"Message,2,06,{sender},06,5012345678900,{message},1,20250310,05,GBP"]
    for cents, number in enumerate(isbns, 650):
        lines += [f"Product,{number},03,15,{number}", "ProductSupply,GB,,", f"SupplyDetail,04,06,{sender},{name},21,"]
        lines.append(f"Price,,{cents / 100},,,,,,")
    return "\n".join([*lines, f"EndMessage,{len(lines)}", ""])


ISBNS = [[isbn(10 * sender + book) for book in range(10)] for sender in range(len(SENDERS))]


def requests() -> bytes:
    """The week and the messages after it."""
    more = (ROOT / "examples/page/demo.csv").read_bytes()
    dated = more.replace(b"LAST", day_in(DAYS)).replace(b"NEXT", day_in(DAYS + 1))
    stock = [books(*sender, isbns) for sender, isbns in zip(SENDERS, ISBNS, strict=True)]
    return (ROOT / "examples/shop/week.csv").read_bytes() + dated + "".join(stock).encode()


@contextlib.contextmanager
def desk(program: Path) -> Iterator[int]:
    """A desk with the week, at the given port."""
    print(
        "demo: a desk is given a shop's week, for which the unproved program takes a while", file=sys.stderr, flush=True
    )
    folder = tempfile.mkdtemp(prefix="onixdesk-")
    command: list[Word] = [program, "--db", "shop.db", "--rules", RULES]
    subprocess.run([*command, "batch"], cwd=folder, input=requests(), capture_output=True)
    port = free_port()
    serving = subprocess.Popen([*command, "serve", "--port", str(port)], cwd=folder, stdout=subprocess.PIPE)
    try:
        assert serving.stdout
        if not serving.stdout.readline():
            raise SystemExit("demo: the desk does not start")
        yield port
    finally:
        serving.kill()
        serving.communicate()
        shutil.rmtree(folder)


def state_of(target: str) -> dict[str, object]:
    """The files beside the page in a shop: the desk's rules, and how a wholesaler's files stand."""
    now = int(time.time())
    if target == "/state/rules.json":
        return {"version": 1, "at": now, "rules": tomllib.loads(RULES.read_text(encoding="utf-8"))["rule"]}
    return WHOLE | {"at": now, "taken_at": now, "heard_at": now}


class Page(http.server.SimpleHTTPRequestHandler):
    """The page's modules as they are, the desk's questions below `/desk/`, and the inbox's reports below `/state/`."""

    desk_port = 0
    extensions_map = {**http.server.SimpleHTTPRequestHandler.extensions_map, ".js": "text/javascript"}

    def __init__(self, *given: object) -> None:
        super().__init__(*given, directory=str(ROOT / "page"))  # type: ignore[arg-type]

    def do_GET(self) -> None:
        target = self.path
        if target.startswith(("/desk/articles/", "/desk/series/")):
            self.ask(target.removeprefix("/desk"))
        elif target.startswith("/state/titles/"):
            # There are no titles.
            self.reply(204, "application/json", b"")
        elif target.startswith("/state/"):
            self.reply(200, "application/json", json.dumps(state_of(target)).encode())
        else:
            super().do_GET()

    def ask(self, target: str) -> None:
        """Passes a question to the desk, and its reply back."""
        try:
            connection = http.client.HTTPConnection(HOST, self.desk_port, timeout=SECONDS)
            connection.request("GET", target)
            answer = connection.getresponse()
            self.reply(answer.status, "application/json", answer.read())
        except (OSError, http.client.HTTPException):
            self.reply(502, "application/json", b"")

    def reply(self, status: int, kind: str, body: bytes) -> None:
        self.send_response(status)
        self.send_header("Content-Type", kind)
        self.send_header("Content-Length", str(len(body)))
        self.end_headers()
        self.wfile.write(body)

    def end_headers(self) -> None:
        self.send_header("Cache-Control", "no-store")
        super().end_headers()

    def log_message(self, *_: object) -> None:
        pass


def page_at(port: int) -> http.server.ThreadingHTTPServer:
    """The page at that port, or at a free one if another program has it."""
    try:
        return http.server.ThreadingHTTPServer((HOST, port), Page)
    except OSError:
        return http.server.ThreadingHTTPServer((HOST, 0), Page)


def main() -> int:
    words = argparse.ArgumentParser("tools/demo", usage="tools/demo [--port N]")
    words.add_argument("program", type=Path)
    words.add_argument("--port", type=int, default=PORT)
    given = words.parse_args()
    signal.signal(signal.SIGTERM, signal.default_int_handler)
    with contextlib.suppress(KeyboardInterrupt), desk(given.program.resolve()) as Page.desk_port:
        with page_at(given.port) as page:
            print(f"http://{HOST}:{page.server_port}/{VIEW}", flush=True)
            print("demo: for an order list there are", *sum(ISBNS, []), file=sys.stderr)
            print("demo: the page of a shop with three wholesalers; Ctrl-C ends it", file=sys.stderr, flush=True)
            page.serve_forever()
    return 0


if __name__ == "__main__":
    sys.exit(main())
