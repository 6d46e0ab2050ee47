"""The site as a shop puts it up: the page and `examples/page/nginx.conf` by a real nginx, before the real program over
a file."""

import base64
import contextlib
import http.client
import json
import os
import shutil
import socket
import ssl
import subprocess
import time
from collections.abc import Callable, Iterable, Iterator
from typing import Any

from tests.program.room import SECONDS, Room
from tests.program.serving import HOST, TRIES, connected, free_port, receive
from tools.root import ROOT
from tools.words import Word

PAGE = ROOT / "page"
RULES = ROOT / "examples/shop/rules.toml"

NAME = "desk.example.org"
USER = "buyer"
PASSWORD = "a-word-to-pass"
CONNECTIONS = 100_000
DATABASE = "shop.db"

# A driven browser opens more pages a second than a shop's buyers do.
RATES = ("rate=100r/s", "rate=10000r/s")

# The desk's line for a request that no other test makes.
MARK = "501"

MAIN = """
{user}
daemon off;
pid {folder}/nginx.pid;
error_log {folder}/error.log;
events {{}}
http {{
    include /etc/nginx/mime.types;
    default_type application/octet-stream;
    log_format asked '$status $request_method $host $request_uri';
    access_log {folder}/access.log asked;
    client_body_temp_path {folder}/body;
    proxy_temp_path {folder}/proxy;
    fastcgi_temp_path {folder}/fastcgi;
    uwsgi_temp_path {folder}/uwsgi;
    scgi_temp_path {folder}/scgi;
    include {folder}/site.conf;
}}
"""


def listens(port: int) -> bool:
    with contextlib.suppress(OSError), socket.create_connection((HOST, port), timeout=1):
        return True
    return False


Server = subprocess.Popen[bytes]


class NotStarted(Exception):
    """A server ended at once, as when another program has its port, or does not listen in time."""


def wait_until(holds: Callable[[], bool], server: Server | None) -> None:
    end = time.monotonic() + SECONDS
    while not holds():
        if not server or server.poll() is not None or time.monotonic() > end:
            raise NotStarted(server and server.args)
        time.sleep(0.02)


def openssl(*words: str) -> bytes:
    return subprocess.run(["openssl", *words], check=True, capture_output=True).stdout


def basic(password: str) -> str:
    """What a browser sends for the buyer with a password."""
    return "Basic " + base64.b64encode(f"{USER}:{password}".encode()).decode()


class Site:
    """nginx with the page, and the desk, each of which can be stopped and started."""

    def __init__(self, room: Room) -> None:
        self.room = room
        self.port = free_port()
        self.plain_port = free_port()
        self.desk_port = free_port()
        self.desk: Server | None = None
        self.nginx: Server | None = None
        self.page = room.path("page")
        subprocess.run([ROOT / "tools/put-up-page", self.page], check=True)
        # The shop's own files lie apart from the page.
        self.own = room.path("own")
        self.own.mkdir(exist_ok=True)
        (self.page / "desk.json").unlink()
        self.write_settings()
        self.state = room.path("state")
        self.state.mkdir(exist_ok=True)
        self.rules = room.path("rules.toml")
        shutil.copy(RULES, self.rules)
        self._prepare()

    def _prepare(self) -> None:
        folder = self.room.folder
        subject = ["-subj", f"/CN={NAME}", "-addext", f"subjectAltName=DNS:{NAME}"]
        key = ["-newkey", "ec", "-pkeyopt", "ec_paramgen_curve:prime256v1", "-nodes"]
        files = ["-keyout", f"{folder}/site.key", "-out", f"{folder}/site.pem"]
        openssl("req", "-x509", *key, *subject, *files, "-days", "2")
        secret = openssl("passwd", "-6", "-salt", "rounds=1000$0123456789abcdef", PASSWORD).decode()
        self.room.write("passwords", f"{USER}:{secret}".encode())
        self.configure()
        user = "user root;" if os.geteuid() == 0 else ""
        self.room.write("nginx.conf", MAIN.format(user=user, folder=folder).encode())

    def configure(self) -> None:
        """Writes the example, with the test's places and ports, and with another rate of requests."""
        folder = self.room.folder
        text = (ROOT / "examples/page/nginx.conf").read_text(encoding="utf-8")
        for written, here in [
            ("listen 443 ssl", f"listen {HOST}:{self.port} ssl"),
            ("listen 80;", f"listen {HOST}:{self.plain_port};"),
            RATES,
            ("127.0.0.1:8080", f"{HOST}:{self.desk_port}"),
            (f"/etc/ssl/{NAME}.pem", f"{folder}/site.pem"),
            (f"/etc/ssl/private/{NAME}.key", f"{folder}/site.key"),
            ("/etc/nginx/onixdesk.passwords", f"{folder}/passwords"),
            ("/usr/share/onixdesk/page", str(self.page)),
            ("/etc/onixdesk/page", str(self.own)),
            ("/var/lib/onixdesk-state", str(self.state)),
        ]:
            if written not in text:
                raise ValueError(f"examples/page/nginx.conf does not have {written}")
            text = text.replace(written, here)
        self.room.write("site.conf", text.encode())

    def write_settings(self) -> None:
        """Puts the sample into the shop's desk.json. The prices of the week are retail prices."""
        sample = json.loads((PAGE / "desk.json").read_text(encoding="utf-8")) | {"price_type": "02"}
        (self.own / "desk.json").write_text(json.dumps(sample), encoding="utf-8")

    def start_nginx(self) -> None:
        words: list[Word] = ["-e", self.room.path("error.log"), "-c", self.room.path("nginx.conf")]
        self.nginx = subprocess.Popen(["nginx", *words], stdin=subprocess.DEVNULL)
        wait_until(lambda: listens(self.port), self.nginx)

    def stop_nginx(self) -> None:
        """By its own signal, so that its workers end too."""
        if self.nginx:
            self.nginx.terminate()
            self.nginx.wait()

    def start_desk(self) -> None:
        """Starts `serve`, whose lines go to the end of a file."""
        words: list[Word] = ["--db", DATABASE, "--rules", self.rules]
        words += ["serve", "--port", str(self.desk_port), "--requests", str(CONNECTIONS)]
        starts = self.desk_lines().count(self._listening()) + 1
        with open(self.room.path("lines"), "ab") as lines:
            self.desk = subprocess.Popen([self.room.program, *words], cwd=self.room.folder, stdout=lines)
        wait_until(lambda: self.desk_lines().count(self._listening()) == starts, self.desk)

    def _listening(self) -> str:
        return f"listening {self.desk_port}"

    def stop_desk(self) -> None:
        if self.desk:
            self.desk.kill()
            self.desk.wait()

    def desk_lines(self) -> list[str]:
        """The lines of `serve`: one for each connection."""
        path = self.room.path("lines")
        return path.read_text().splitlines() if path.exists() else []

    def mark(self) -> int:
        """How many lines there are once the desk has served all that came before: it serves one connection after the
        other, and the last of these lines is that of a request made here."""
        marks = self.desk_lines().count(MARK)
        with connected(self.desk_port) as peer:
            peer.sendall(b"GET / HTTP/1.1\r\nTransfer-Encoding: chunked\r\n\r\n")
            receive(peer)
        wait_until(lambda: self.desk_lines().count(MARK) > marks, self.desk)
        return len(self.desk_lines()) - self.desk_lines()[::-1].index(MARK)

    def lines_since(self, mark: int) -> list[str]:
        """The desk's lines since a mark."""
        end = self.mark()
        return [line for line in self.desk_lines()[mark:end] if line != MARK]

    def requests(self) -> list[str]:
        """The requests to nginx: each line has the status, the method, the host and the target."""
        return self.room.path("access.log").read_text().splitlines()

    def ask_desk(self, target: str) -> dict[str, Any]:
        """The body of the desk's own reply, without nginx."""
        with connected(self.desk_port) as peer:
            peer.sendall(f"GET {target} HTTP/1.1\r\n\r\n".encode())
            reply = receive(peer)
        body: dict[str, Any] = json.loads(reply.partition(b"\r\n\r\n")[2])
        return body

    def address(self, path: str = "/", user: str = "") -> str:
        return f"https://{user}{NAME}:{self.port}{path}"

    def own_host(self) -> str:
        return f"{NAME}:{self.port}"

    def connected(self) -> http.client.HTTPSConnection:
        """A connection to nginx by a program that is no browser."""
        context = ssl._create_unverified_context()
        connection = http.client.HTTPSConnection(HOST, self.port, context=context, timeout=SECONDS)
        raw = socket.create_connection((HOST, self.port), timeout=SECONDS)
        connection.sock = context.wrap_socket(raw, server_hostname=NAME)
        return connection

    def fetch(
        self,
        path: str,
        method: str = "GET",
        host: str | None = None,
        fields: Iterable[tuple[str, str]] = (),
        password: str | None = PASSWORD,
    ) -> tuple[int, dict[str, str], bytes]:
        """The status, the fields and the body of nginx's reply to a program that is no browser."""
        with contextlib.closing(self.connected()) as connection:
            connection.putrequest(method, path, skip_host=True, skip_accept_encoding=True)
            connection.putheader("Host", host or self.own_host())
            if password:
                connection.putheader("Authorization", basic(password))
            for name, value in fields:
                connection.putheader(name, value)
            connection.endheaders()
            reply = connection.getresponse()
            return reply.status, dict(reply.getheaders()), reply.read()

    def stop(self) -> None:
        self.stop_nginx()
        self.stop_desk()


def started(room: Room) -> Site:
    """A site with both servers, at free ports."""
    tries = 0
    while True:
        site = Site(room)
        try:
            site.start_desk()
            site.start_nginx()
            return site
        except NotStarted:
            site.stop()
            tries += 1
            if tries == TRIES:
                raise


@contextlib.contextmanager
def running(room: Room) -> Iterator[Site]:
    """A site with both servers, over the database in the folder."""
    site = started(room)
    try:
        yield site
    finally:
        site.stop()
