"""The buyers' page that `make demo` serves, without nginx, and the desk behind it."""

import datetime
import http.client
import json
import signal
import subprocess
from collections.abc import Iterator
from urllib.parse import urlencode

from tests.program.room import SECONDS, Room
from tests.program.serving import HOST
from tests.running import Outcome
from tools.root import ROOT
from tools.words import Word

BOOK = "9780140328721"


def asked(port: int, method: str, target: str) -> tuple[int, str | None, bytes]:
    connection = http.client.HTTPConnection(HOST, port, timeout=SECONDS)
    connection.request(method, target)
    reply = connection.getresponse()
    return reply.status, reply.getheader("Content-Type"), reply.read()


def chosen(port: int, days: int) -> object:
    """From whom ten copies are bought in so many days, and at what price."""
    day = datetime.date.today() + datetime.timedelta(days=days)
    keys = {"day": f"{day:%Y%m%d}", "country": "GB", "currency": "GBP", "type": "05", "quantity": "10"}
    choice = json.loads(asked(port, "GET", f"/desk/articles/{BOOK}/choice?{urlencode(keys)}")[2])["choice"]
    return choice["series"], choice["amount"], choice["rule"]


def page_of_a_week(room: Room) -> Iterator[Outcome]:
    words: list[Word] = [ROOT / "tools/python", "-m", "tools.demo", room.program, "--port", "0"]
    running = subprocess.Popen(words, cwd=room.folder, stdout=subprocess.PIPE, stderr=subprocess.PIPE)
    try:
        assert running.stdout
        address, _, view = running.stdout.readline().decode().rstrip("\n").partition("/#")
        yield Outcome("demo: the view", view, f"article?isbn={BOOK}&quantity=10")
        port = int(address.removeprefix(f"http://{HOST}:"))
        for name, kind in {"index.html": "text/html", "desk/titles.js": "text/javascript"}.items():
            file = (ROOT / "page" / name).read_bytes()
            yield Outcome(f"demo: {name}", asked(port, "GET", f"/{name}"), (200, kind, file))
        rules = json.loads(asked(port, "GET", "/state/rules.json")[2])["rules"]
        yield Outcome("demo: the rules", rules[0], {"series": "south", "codes": ["21"], "max": "11.00"})
        yield Outcome("demo: no titles", asked(port, "GET", "/state/titles/97801/97801403.json")[0], 204)
        # South is first by rule 1, at its price for ten copies, which ends in twenty days.
        found = chosen(port, 0), chosen(port, 21)
        yield Outcome("demo: the choice", found, (("south", "4.140", 1), ("south", "4.580", 1)))
        report = json.loads(asked(port, "GET", "/desk/series/north/gaps")[2])
        yield Outcome("demo: what is missing", report["missing"], [[6, 8]])
        for method, target, status in [("POST", "/desk/messages", 501), ("GET", "/../README.md", 404)]:
            yield Outcome(f"demo: {method} {target}", asked(port, method, target)[0], status)
        running.send_signal(signal.SIGTERM)
        running.communicate(timeout=SECONDS)
        yield Outcome("demo: its end", running.returncode, 0)
    finally:
        running.kill()
        running.communicate()
