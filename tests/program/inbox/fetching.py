"""What fetch.sh fetches by rclone from servers on this machine: OpenSSH for SFTP, vsftpd for FTPS and FTP, Python's for
HTTPS. Nothing may be lost, and a bad name affects one file."""

import contextlib
import http.server
import os
import shutil
import signal
import ssl
import subprocess
import threading
import time
from collections.abc import Iterator
from pathlib import Path
from typing import Any

from onixdesk_shop.inbox.context import DAY, HOUR
from onixdesk_shop.inbox.intake import name_of
from onixdesk_shop.machine import Machine
from tests.program.documents.examples import blocks
from tests.program.room import SECONDS, Ran, Room
from tests.program.serving import HOST, connected, free_port
from tests.running import Outcome
from tools.root import ROOT

SCRIPT = ROOT / "programs/onixdesk-fetch/fetch.sh"

NEEDS = ["sshd", "vsftpd", "rclone", "openssl"]


class Fetch:
    """Runs of the script over folders of a room; the server offers the folder `files`."""

    def __init__(self, room: Room, **settings: str) -> None:
        self.room = room
        self.files, self.incoming, self.state = (room.path(name) for name in ("files", "incoming", "state"))
        for folder in (self.files, self.incoming, self.state, room.path("credentials")):
            folder.mkdir(exist_ok=True)
        # The server's user has to get there.
        for folder in (room.folder, self.files):
            folder.chmod(0o755)
        self.settings = {"VERB": "copy", "NAMES": "*.xml", "FROM": f"north:{self.files}", **settings}

    def configure(self, **settings: object) -> None:
        lines = [f"{name} = {value}\n" for name, value in settings.items()]
        self.room.write("credentials/conf", "".join(["[north]\n", *lines]).encode())

    def offer(self, name: str | bytes, text: str, seconds_ago: float = HOUR) -> None:
        """Puts a file on the server, written so long ago."""
        path = os.path.join(os.fsencode(self.files), os.fsencode(name))
        with open(path, "w", encoding="ascii") as file:
            file.write(text)
        os.utime(path, times=(int(time.time() - seconds_ago),) * 2)

    @property
    def environment(self) -> dict[str, str]:
        folders = {"CREDENTIALS_DIRECTORY": str(self.room.path("credentials")), "STATE_DIRECTORY": str(self.state)}
        return {"PATH": os.environ["PATH"], "HOME": "/nonexistent", **folders, **self.settings}

    def run(self) -> Ran:
        return self.room.call([SCRIPT, "north", self.incoming], environment=self.environment)

    def errors(self) -> list[str]:
        """The lines of priority error in a run, which are mailed."""
        return [line for line in self.run().errors.decode().splitlines() if line.startswith("<3>")]

    def came(self) -> dict[bytes, str]:
        return {os.fsencode(path.name): path.read_text() for path in sorted(self.incoming.iterdir())}

    def take(self) -> None:
        """As an inbox takes the files."""
        for path in self.incoming.iterdir():
            path.unlink()


@contextlib.contextmanager
def server(room: Room, port: int, *words: str) -> Iterator[None]:
    """Runs a server until it listens, and ends it."""
    process = subprocess.Popen(words, cwd=room.folder, stdout=subprocess.DEVNULL, stderr=subprocess.DEVNULL)
    try:
        until = time.monotonic() + SECONDS
        while time.monotonic() < until:
            with contextlib.suppress(OSError):
                connected(port).close()
                break
            time.sleep(0.01)
        yield
    finally:
        process.send_signal(signal.SIGTERM)
        process.wait(SECONDS)


def key(room: Room, name: str) -> str:
    if not room.path(name).exists():
        room.call(["ssh-keygen", "-q", "-t", "ed25519", "-N", "", "-f", room.path(name)])
    return room.path(f"{name}.pub").read_text()


@contextlib.contextmanager
def sftp(fetch: Fetch) -> Iterator[dict[str, object]]:
    """OpenSSH; returns rclone's settings for it, without the known hosts."""
    room, port = fetch.room, free_port()
    room.write("authorized", key(room, "client").encode())
    host = key(room, "host")
    room.write("known", f"[{HOST}]:{port} {host}".encode())
    lines = [f"Port {port}", f"ListenAddress {HOST}", f"HostKey {room.path('host')}", "StrictModes no", "UsePAM no"]
    lines += [f"AuthorizedKeysFile {room.path('authorized')}", f"PidFile {room.path('pid')}"]
    room.write("sshd_config", "\n".join([*lines, "Subsystem sftp internal-sftp", ""]).encode())
    Path("/run/sshd").mkdir(exist_ok=True)
    pem = room.path("client").read_text().replace("\n", "\\n")
    with server(room, port, shutil.which("sshd") or "", "-D", "-f", str(room.path("sshd_config"))):
        user = subprocess.run(["id", "-un"], capture_output=True, text=True, check=True).stdout.strip()
        yield {"type": "sftp", "host": HOST, "port": port, "user": user, "key_pem": pem, "shell_type": "none"}


def certificate(room: Room) -> Path:
    name = ["-subj", "/CN=wholesaler.example", "-addext", f"subjectAltName=IP:{HOST}"]
    made = ["openssl", "req", "-x509", "-newkey", "rsa:2048", "-nodes", "-days", "2"]
    room.call([*made, "-keyout", "k.pem", "-out", "c.pem", *name])
    return room.path("c.pem")


@contextlib.contextmanager
def ftp(fetch: Fetch) -> Iterator[dict[str, object]]:
    """vsftpd, with TLS for those who ask for it."""
    room, port = fetch.room, free_port()
    certificate(room)
    words = {
        **{"listen": "YES", "listen_address": HOST, "listen_port": port, "background": "NO", "anonymous_enable": "YES"},
        **{"anon_root": fetch.files, "no_anon_password": "YES", "ssl_enable": "YES", "allow_anon_ssl": "YES"},
        **{"force_local_data_ssl": "NO", "force_local_logins_ssl": "NO", "require_ssl_reuse": "NO"},
        **{"rsa_cert_file": room.path("c.pem"), "rsa_private_key_file": room.path("k.pem"), "ssl_ciphers": "HIGH"},
        **{"secure_chroot_dir": "/run/sshd", "seccomp_sandbox": "NO", "anon_world_readable_only": "NO"},
    }
    room.write("vsftpd.conf", "".join(f"{name}={value}\n" for name, value in words.items()).encode())
    Path("/run/sshd").mkdir(exist_ok=True)
    secret = subprocess.run(["rclone", "obscure", "x"], capture_output=True, text=True, check=True).stdout.strip()
    with server(room, port, shutil.which("vsftpd") or "", str(room.path("vsftpd.conf"))):
        yield {"type": "ftp", "host": HOST, "port": port, "user": "anonymous", "pass": secret}


class Pages(http.server.SimpleHTTPRequestHandler):
    """A server whose files have no times, and which waits or lies when it is told to."""

    waits = 0.0
    lies: tuple[str, ...] = ()

    def send_header(self, keyword: str, value: str) -> None:
        if keyword == "Content-Length" and self.command == "HEAD" and self.path in self.lies:
            value = str(int(value) + 5)
        if keyword != "Last-Modified":
            super().send_header(keyword, value)

    def copyfile(self, source: Any, outputfile: Any) -> None:
        text = source.read()
        outputfile.write(text[: len(text) // 2])
        outputfile.flush()
        time.sleep(self.waits)
        with contextlib.suppress(OSError):
            outputfile.write(text[len(text) // 2 :])

    def log_message(self, *_: object) -> None:
        pass


@contextlib.contextmanager
def https(fetch: Fetch, waits: float = 0, lies: tuple[str, ...] = ()) -> Iterator[dict[str, object]]:
    handler = type("Handler", (Pages,), {"waits": waits, "lies": lies})
    pages = http.server.ThreadingHTTPServer((HOST, 0), lambda *given: handler(*given, directory=str(fetch.files)))
    context = ssl.SSLContext(ssl.PROTOCOL_TLS_SERVER)
    context.load_cert_chain(certificate(fetch.room), fetch.room.path("k.pem"))
    pages.socket = context.wrap_socket(pages.socket, server_side=True)
    thread = threading.Thread(target=pages.serve_forever, daemon=True)
    thread.start()
    fetch.settings |= {"FROM": "north:", "CERTIFICATE": str(fetch.room.path("c.pem"))}
    try:
        yield {"type": "http", "url": f"https://{HOST}:{pages.server_port}/"}
    finally:
        pages.shutdown()
        pages.server_close()


def sftp_is_copied(room: Room) -> Iterator[Outcome]:
    """Only from a known host; a name in Latin-1, and one that changed; not what is not asked for."""
    fetch = Fetch(room)
    with sftp(fetch) as settings:
        fetch.offer("a.xml", "one")
        fetch.offer(b"B\xfccher.XML", "two")
        fetch.offer("c.txt", "no")
        fetch.offer("-f 'of' \"all\" %41 $(id).xml", "odd")
        fetch.configure(**settings)
        yield Outcome("fetch: no known hosts", (fetch.run().status, fetch.came()), (1, {}))
        known = room.path("known").read_text()
        room.write("known", known.replace(known.split()[-2], key(room, "other").split()[1]).encode())
        fetch.configure(**settings, known_hosts_file=room.path("known"))
        yield Outcome("fetch: another host", (fetch.run().status, fetch.came()), (1, {}))
        room.write("known", known.encode())
        all_names = {b"B\xfccher.XML": "two", b"a.xml": "one", b"-f 'of' \"all\" %41 $(id).xml": "odd"}
        yield Outcome("fetch: sftp", (fetch.run(), fetch.came()), (Ran(0), all_names))
        times = [round(path.stat().st_mtime) for path in (fetch.files / "a.xml", fetch.incoming / "a.xml")]
        yield Outcome("fetch: the server's time", times[1], times[0])
        fetch.offer("a.xml", "new", HOUR / 2)
        found = fetch.run().status, sorted(fetch.came().values())
        yield Outcome("fetch: one changed", found, (0, ["new", "odd", "one", "two"]))
        fetch.take()
        fetch.offer("old.xml", "old", 40 * DAY)
        found = fetch.run().status, b"old.xml" in fetch.came()
        yield Outcome("fetch: older than the last success", found, (0, False))


def sftp_is_moved(room: Room) -> Iterator[Outcome]:
    """What is fetched is removed from the server, but not what may still grow, nor what waits in the folder."""
    fetch = Fetch(room, VERB="move")
    with sftp(fetch) as settings:
        fetch.configure(**settings, known_hosts_file=room.path("known"))
        fetch.offer("feed.xml", "one", 90 * DAY)
        fetch.offer("grows.xml", "half", 5)
        # An uploader may use the name under which files are written.
        (fetch.incoming / ".fetched.part").mkdir()
        yield Outcome("fetch: moved", (fetch.run(), fetch.came()), (Ran(0), {b"feed.xml": "one"}))
        left = {path.name for path in fetch.files.iterdir()}
        yield Outcome("fetch: what grows is left", left, {"grows.xml"})
        (fetch.files / "grows.xml").unlink()
        fetch.offer("feed.xml", "two", 90 * DAY)
        status = fetch.run().status
        yield Outcome("fetch: a name used daily", (status, sorted(fetch.came().values())), (0, ["one", "two"]))
        names = {name_of(entry) for entry in Machine("test").entries(fetch.incoming) if entry.is_regular}
        yield Outcome("fetch: the inbox knows both by that name", names, {"feed.xml"})
        fetch.take()
        yield Outcome("fetch: nothing is left", (fetch.run(), fetch.came()), (Ran(0), {}))


def ftp_is_verified(room: Room) -> Iterator[Outcome]:
    """FTPS by the named certificate; FTP only if the settings allow an unverified server."""
    fetch = Fetch(room, FROM="north:")
    with ftp(fetch) as settings:
        for place, name in enumerate(["a.xml", "b.xml", "c.xml"]):
            fetch.offer(name, name, HOUR - place)
        (fetch.files / "b.xml").chmod(0)
        fetch.configure(**settings)
        yield Outcome("fetch: plain ftp", (fetch.run().status, fetch.came()), (1, {}))
        fetch.settings["UNVERIFIED"] = "yes"
        ran = fetch.run()
        both = {b"a.xml": "a.xml", b"c.xml": "c.xml"}
        yield Outcome("fetch: one may not be read", (ran.status, fetch.came(), b"b.xml" in ran.errors), (1, both, True))
        fetch.take()
        del fetch.settings["UNVERIFIED"]
        (fetch.files / "b.xml").unlink()
        fetch.configure(**settings, explicit_tls="true", disable_tls13="true", no_check_certificate="true")
        yield Outcome("fetch: ftps unverified", (fetch.run().status, fetch.came()), (1, {}))
        fetch.configure(**settings, explicit_tls="true", disable_tls13="true")
        yield Outcome("fetch: ftps, nobody's certificate", (fetch.run().status, fetch.came()), (1, {}))
        fetch.settings["CERTIFICATE"] = str(room.path("c.pem"))
        yield Outcome("fetch: ftps", (fetch.run(), fetch.came()), (Ran(0), both))
        fetch.take()
        fetch.settings["VERB"] = "move"
        # rclone takes that for a removal: the files come anew in each run.
        for _ in range(2):
            ran = fetch.run()
            yield Outcome("fetch: what may not be removed comes", (ran.status, fetch.came()), (1, both))
            yield Outcome("fetch: it is told", b"of a server that forbids removal VERB=copy" in ran.errors, True)


def https_without_times(room: Room) -> Iterator[Outcome]:
    """Each run fetches all of it, since nobody knows what changed; a server that lies keeps nothing else back."""
    fetch = Fetch(room)
    with https(fetch, lies=("/b.xml",)) as settings:
        fetch.configure(**settings)
        yield Outcome("fetch: an empty page", (fetch.run().status, fetch.came()), (1, {}))
        for name in ("a.xml", "b.xml", "c.xml"):
            fetch.offer(name, "old")
        ran = fetch.run()
        both = {b"a.xml": "old", b"c.xml": "old"}
        found = ran.status, fetch.came(), b"b.xml" in ran.errors
        yield Outcome("fetch: it lies about a size", found, (1, both, True))
        (fetch.files / "b.xml").unlink()
        fetch.offer("c.xml", "new")
        ran = fetch.run()
        yield Outcome("fetch: as long as before", (ran, sorted(fetch.came().values())), (Ran(0), ["new", "old", "old"]))
        time_of_c = (fetch.incoming / "c.xml").stat().st_mtime
        yield Outcome("fetch: its time is its arrival's", time_of_c > DAY * 365, True)
        fetch.run()
        yield Outcome("fetch: the same again is none", (fetch.incoming / "c.xml").stat().st_mtime, time_of_c)


def killed_amid(room: Room) -> Iterator[Outcome]:
    """A partial file never appears where an inbox looks, and comes complete later."""
    fetch = Fetch(room)
    fetch.offer("a.xml", "whole" * 2000)
    with https(fetch, waits=2) as settings:
        fetch.configure(**settings)
        words = [str(SCRIPT), "north", str(fetch.incoming)]
        run = subprocess.Popen(words, env=fetch.environment, stderr=subprocess.DEVNULL, start_new_session=True)
        until = time.monotonic() + SECONDS
        while time.monotonic() < until and not (fetch.state / "new/a.xml").exists():
            time.sleep(0.01)
        os.killpg(run.pid, signal.SIGKILL)
        run.wait()
        yield Outcome("fetch: killed", ((fetch.state / "new/a.xml").exists(), fetch.came()), (True, {}))
        yield Outcome("fetch: after a kill", (fetch.run(), fetch.came()), (Ran(0), {b"a.xml": "whole" * 2000}))


class Login(http.server.BaseHTTPRequestHandler):
    """A server that asks for a login, whatever it is asked for."""

    def do_GET(self) -> None:
        self.send_response(200 if self.path == "/login" else 302)
        self.send_header("Location", "/login")
        self.end_headers()
        self.wfile.write(b"<html>Who is there?</html>")

    def log_message(self, *_: object) -> None:
        pass


def who_is_there(room: Room) -> Iterator[Outcome]:
    """The script for an address with a date does not take a page for a feed, and asks again."""
    (lines,) = (lines for lines in blocks("docs/INBOX.md") if lines[0] == "#!/bin/bash")
    folders = {f"/var/lib/onixdesk-{name}/north": room.path(name) for name in ("fetch", "incoming")}
    pages = http.server.ThreadingHTTPServer((HOST, 0), Login)
    threading.Thread(target=pages.serve_forever, daemon=True).start()
    text = "\n".join(lines).replace("https://example.org", f"http://{HOST}:{pages.server_port}")
    for place, folder in folders.items():
        folder.mkdir()
        text = text.replace(place, str(folder))
    room.call(["bash", "-c", text])
    pages.shutdown()
    pages.server_close()
    left = [path.name for folder in folders.values() for path in folder.iterdir() if path.name != "new"]
    yield Outcome("fetch: a page that asks who is there", left, [])


def what_fails_is_mailed(room: Room) -> Iterator[Outcome]:
    """After two hours, then daily, and once when it is well."""
    fetch = Fetch(room)
    fetch.offer("a.xml", "one")
    fetch.configure(type="http", url=f"https://{HOST}:{free_port()}/")

    def is_told() -> int:
        return len(fetch.errors())

    def pass_by(name: str, seconds: int) -> None:
        (fetch.state / name).write_text(f"{int(time.time()) - seconds}\n")

    yield Outcome("fetch: it fails first", (is_told(), is_told()), (0, 0))
    pass_by("failing", 2 * HOUR)
    yield Outcome("fetch: two hours later", (is_told(), is_told()), (1, 0))
    pass_by("told", DAY)
    yield Outcome("fetch: a day later", (is_told(), is_told()), (1, 0))
    with https(fetch) as settings:
        fetch.configure(**settings)
        yield Outcome("fetch: well again", (is_told(), is_told()), (1, 0))
