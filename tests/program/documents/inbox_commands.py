"""Commands of docs/INBOX.md, each run as the page has it, in a room that stands for a shop's machine."""

import datetime
import os
from collections.abc import Iterator

from tests.program.documents.examples import block_with, blocks, written
from tests.program.documents.mistakes import AGREED, AGREEMENT, TERMS, mark
from tests.program.files.machines import Machine, feed, machine
from tests.program.inbox.inboxes import script
from tests.program.room import Room, needs
from tests.running import Outcome
from tools.root import ROOT

PAGE = "docs/INBOX.md"

# The mark that the page shows.
MARK = "3f2a90c41b77"

ISBN = "9781234567897"


def what_is_shown(room: Room) -> Iterator[Outcome]:
    with machine(room, AGREEMENT.format("4012345000009", 41)) as desk:
        data = feed(41, a="8.00")
        desk.take({"feed.xml": data})
        *commands, _ = block_with(PAGE, "onixdesk-inbox report north")
        found = [desk.run([command]) for command in commands]
        yield Outcome(f"{PAGE}: its commands", [(ran.status, ran.errors) for ran in found], [(0, b"")] * 4)
        report, number, isbn, file = (ran.output.decode() for ran in found)
        yield Outcome(f"{PAGE}: {commands[0]}", f"{mark(data)}: applied" in report, True)
        yield Outcome(f"{PAGE}: {commands[1]}", (mark(data) in number, "applied" in number), (True, True))
        yield Outcome(f"{PAGE}: {commands[2]}", (f"15,{ISBN}" in isbn, "41" in isbn), (True, True))
        yield Outcome(f"{PAGE}: {commands[3]}", (mark(data) in file, "applied" in file), (True, True))


def problems(room: Room) -> Iterator[Outcome]:
    """Each command of docs/PROBLEMS.md that asks an inbox or converts a feed, and the one that waives a number."""
    run = "onixdesk-inbox ", "onixdesk convert "
    lines = [line for block in blocks("docs/PROBLEMS.md") for line in block if line.startswith(run)]
    with machine(room, AGREEMENT.format("4012345000009", 40)) as desk:
        desk.take({"before.xml": feed(40, a="7.00"), "friday.xml": feed(41, a="8.00")})
        room.write("feed.xml", feed(42, a="9.00"))
        room.write("etc/onixdesk/terms/north.toml", TERMS.encode())
        for line in lines:
            line = line.replace("north 41", "north 42")
            ran = desk.run([line])
            yield Outcome(f"docs/PROBLEMS.md: {line}", (ran.status, ran.errors), (0, b""))
    yield Outcome("docs/PROBLEMS.md: its commands", len(lines), 6)


def a_number_that_never_comes(room: Room) -> Iterator[Outcome]:
    with machine(room, AGREEMENT.format("4012345000009", 41)) as desk:
        desk.take({"feed.xml": feed(42, a="8.00")})
        *_, command = block_with(PAGE, "onixdesk-inbox report north")
        yield Outcome(f"{PAGE}: {command}", desk.run([command]).status, 0)
        yield Outcome(f"{PAGE}: what waited for it", desk.take({}), {"feed.xml": "applied"})


def numbers_of_more_parts(room: Room) -> Iterator[Outcome]:
    """The numbers that a change of parts leaves out, as docs/ONIX.md waives them; the first hundred are tried."""
    with machine(room, AGREEMENT.format("4012345000009", 15301)) as desk:
        (command,) = block_with("docs/ONIX.md", "onixdesk-inbox waive north")
        yield Outcome(f"docs/ONIX.md: {command}", desk.run([command.replace("-18000", "-15400")]).status, 0)
        desk.take({})
        wanted = "gaps,north,first=15301,next=15401,greatest=15400,held=0,missing=0"
        yield Outcome("docs/ONIX.md: the gaps", desk.ask("AskGaps,north"), [wanted])


def a_file_that_is_quarantined(room: Room) -> Iterator[Outcome]:
    """Its line begins with the commands; one of them is pasted."""
    with machine(room, AGREED) as desk:
        data = feed(1000, a="8.00")
        desk.put({"sale.xml": data})
        said = desk.run(["onixdesk-inbox -- north"]).errors.decode()
        (line,) = block_with(PAGE, "--let-in")
        begin = line.partition("40 of")[0].replace(MARK, mark(data))
        yield Outcome(f"{PAGE}: the line", (begin in said, said.strip().endswith("; sale.xml")), (True, True))
        let_in, refuse, _ = begin.split("; ", 2)
        yield Outcome(f"{PAGE}: {let_in}", (desk.run([let_in]).status, desk.take({})), (0, {"sale.xml": "held"}))
        yield Outcome(f"{PAGE}: {refuse}", (desk.run([refuse]).status, desk.take({})), (0, {"sale.xml": "rejected"}))


def taken_again(room: Room) -> Iterator[Outcome]:
    with machine(room, AGREED, NUMBER="next") as desk:
        data = feed(None, a="8.00")
        desk.take({"feed.xml": data})
        (command,) = block_with(PAGE, "--again")
        ran = desk.run([command.replace(MARK, mark(data))])
        desk.take({})
        wanted = ["gaps,north,first=1,next=3,greatest=2,held=0,missing=0"]
        yield Outcome(f"{PAGE}: {command}", (ran.status, desk.ask("AskGaps,north")), (0, wanted))
        for lose in ": >", "rm":
            ran = desk.run([f"{lose} /var/lib/onixdesk-inbox/north/ledger.db", "onixdesk-inbox -- north"])
            found = ran.status, "desk-restore COPY" in ran.errors.decode(), desk.ask("AskGaps,north")
            yield Outcome(f"without its ledger: {lose}", found, (3, True, wanted))


def set_up_and_removed(room: Room) -> Iterator[Outcome]:
    """Users, groups and owners are the machine's: stand-ins only write down what is called."""
    with machine(room, AGREED) as desk:
        example = (ROOT / "programs/onixdesk-inbox/example.conf").read_text(encoding="utf-8")
        example = desk.placed(example)
        room.write("etc/onixdesk/inbox/example.conf", example.encode())
        room.path("etc/onixdesk/inbox/north.conf").unlink()
        room.path("var/lib/onixdesk-incoming/north").rmdir()
        for name in ("addgroup", "adduser", "journalctl"):
            script(room, f"bin/{name}", f'echo "{name} $*" >>"{room.path("calls")}"')
        script(room, "bin/install", 'shift 5; exec /usr/bin/install -d "$@"')
        lines = [*block_with(PAGE, "addgroup"), *block_with(PAGE, "enable --now onixdesk-inbox@")]
        ran = desk.run(["set -e", *lines])
        yield Outcome(f"{PAGE}: an inbox is set up", (ran.status, ran.errors), (0, b""))
        yield Outcome(f"{PAGE}: its settings", desk.run(["onixdesk-inbox north"]).status, 0)
        mode = room.path("var/lib/onixdesk-incoming/north").stat().st_mode & 0o7777
        yield Outcome(f"{PAGE}: its folder", mode, 0o2770)
        lines = block_with(PAGE, "systemctl disable")
        yield Outcome(f"{PAGE}: it is removed", desk.run(lines).status, 0)
        units = room.path("units").read_text().splitlines()
        begun, ended = (line.split()[2:] for line in units if "north.path" in line)
        yield Outcome(f"{PAGE}: what began is ended", [*begun, "onixdesk-fetch@north.timer"], ended)


@needs("sshd")
def uploads_by_sftp(room: Room) -> Iterator[Outcome]:
    room.call(["ssh-keygen", "-q", "-t", "ed25519", "-N", "", "-f", "host"])
    os.makedirs("/run/sshd", exist_ok=True)
    for page, text in ((PAGE, "Match Group"), ("docs/PRICES.md", "Match User")):
        room.write("sshd.conf", written([f"HostKey {room.path('host')}", *block_with(page, text)]))
        ran = room.call(["/usr/sbin/sshd", "-t", "-f", room.path("sshd.conf")])
        yield Outcome(f"{page}: the lines of sshd_config", (ran.status, ran.errors), (0, b""))


@needs("sshd", "rclone")
def fetched_by_sftp(room: Room) -> Iterator[Outcome]:
    """rclone reads the key that the block writes; no server is asked."""
    desk = Machine(room)
    (folder := room.path("etc/onixdesk/fetch")).mkdir()
    for name in ("key", "host"):
        room.call(["ssh-keygen", "-q", "-t", "ed25519", "-N", "", "-f", folder / name])
    example = (ROOT / "programs/onixdesk-fetch/example.env").read_bytes()
    room.write("etc/onixdesk/fetch/example.env", example)
    script(room, "bin/ssh-keyscan", f'echo "$1 $(cat "{folder / "host.pub"}")"')
    script(room, "bin/journalctl", "")
    ran = desk.run(["set -e", *block_with(PAGE, "ssh-keyscan")])
    yield Outcome(f"{PAGE}: the block of SFTP", ran.status, 0)
    shown = room.call(["rclone", "--config", folder / "north.conf", "config", "show", "north"]).output.decode()
    values = dict(line.split(" = ", 1) for line in shown.splitlines() if " = " in line)
    key = values["key_pem"].replace("\\n", "\n")
    yield Outcome(f"{PAGE}: the key", key, (folder / "key").read_text())
    hosts = folder / "north.hosts"
    found = values["type"], values["known_hosts_file"], hosts.exists()
    yield Outcome(f"{PAGE}: the server", found, ("sftp", str(hosts), True))
    mode = (folder / "north.conf").stat().st_mode & 0o777
    lines = (folder / "north.env").read_text().splitlines()
    yield Outcome(f"{PAGE}: its files", (mode, "FROM=north:out" in lines), (0o600, True))


@needs("curl")
def an_address_with_a_date(room: Room) -> Iterator[Outcome]:
    """The script, from a folder instead of the server. What came once is not fetched again."""
    desk = Machine(room)
    for name in ("server", "var/lib/onixdesk-fetch/north"):
        room.path(name).mkdir(parents=True)
    days = [datetime.date.today() - datetime.timedelta(days=ago) for ago in (0, 2)]
    names = sorted(f"feed-{day:%Y%m%d}.xml" for day in days)
    for name in names:
        room.write(f"server/{name}", name.encode())
        os.utime(room.path(f"server/{name}"), (1_000_000_000, 1_000_000_000))
    text = "\n".join(block_with(PAGE, "#!/bin/bash")).replace("https://example.org", f"file://{room.path('server')}")
    incoming = room.path("var/lib/onixdesk-incoming/north")
    script(room, "bin/sync", "exit 1")
    desk.run([text])
    found = sorted(path.name for path in incoming.iterdir()), [*room.path("var/lib/onixdesk-fetch").rglob("*.done")]
    yield Outcome(f"{PAGE}: the script on a disk that takes nothing", found, ([".new.part"], []))
    room.path("bin/sync").unlink()
    desk.run([text])
    found = [(path.name, path.read_text(), int(path.stat().st_mtime)) for path in sorted(incoming.iterdir())]
    yield Outcome(f"{PAGE}: the script", found, [(name, name, 1_000_000_000) for name in names])
    for name in names:
        (incoming / name).unlink()
    desk.run([text])
    yield Outcome(f"{PAGE}: the script once more", [*incoming.iterdir()], [])
