"""The mails about the units, with stand-ins for the journal and the mail server, and the lines of `serve` that reach
the journal."""

import json
import os
import shutil
import signal
import subprocess
import time
from collections.abc import Iterator

from tests.program.inbox.inboxes import script
from tests.program.room import SECONDS, Ran, Room
from tests.running import Outcome
from tools.root import ROOT
from tools.words import Word

MAIL = ROOT / "programs/onixdesk-mail/mail.sh"
SERVE = ROOT / "programs/onixdesk/serve.sh"


def make_room(room: Room) -> None:
    room.path("state").mkdir(exist_ok=True)
    room.path("bin").mkdir(exist_ok=True)
    room.write("journal", b"")
    shutil.copy(ROOT / "tests/mails/journalctl", room.path("bin"))
    make_server(room)


def make_server(room: Room) -> None:
    script(room, "bin/sendmail", f'echo "words: $*" >"{room.path("mailed")}"; cat >>"{room.path("mailed")}"')


def say(room: Room, priority: int, *lines: str) -> None:
    with room.path("journal").open("a") as journal:
        journal.writelines(f"{priority} {line}\n" for line in lines)


def mail(room: Room, address: str = "buying@example.org", day: int = 2) -> Ran:
    """A mail on that day of the week, 1 for Monday."""
    room.path("mailed").unlink(missing_ok=True)
    script(room, "bin/date", f'[ "$*" = +%u ] && echo {day} || echo 2026-11-30')
    environment = {"PATH": f"{room.path('bin')}:/usr/bin:/bin", "ROOM": str(room.folder)}
    words: list[Word] = [MAIL, address, room.path("state"), room.path("settings"), room.path("bin/onixdesk-inbox")]
    return room.call(words, environment=environment)


def mailed(room: Room) -> list[str]:
    path = room.path("mailed")
    return path.read_text().splitlines() if path.exists() else []


DONE = "onixdesk-inbox@north[1]: a.csv: done: number 1 applied"
REFUSED = "onixdesk-inbox@north[1]: a.xml: refused: never"
FAULT = "serve.sh[2]: 503"

# As systemd writes it, the second as an error.
FAILED = "systemd[1]: onixdesk-copy.service: Failed with result 'exit-code'."
NOT_STARTED = "systemd[1]: Failed to start onixdesk-copy.service - Copies the desk while it goes on answering."


def bodies(room: Room) -> tuple[list[str], list[str]]:
    """The errors in a mail, and the whole journal in it."""
    lines = mailed(room)
    body = lines[lines.index("") + 1 :] if lines else ["", "All that was said:", ""]
    place = body.index("All that was said:")
    return body[: place - 1], body[place + 2 :]


def what_is_mailed(room: Room) -> Iterator[Outcome]:
    """Errors and failed units, with the whole journal, up to a limit each; and nothing if all went well."""
    make_room(room)
    say(room, 5, DONE)
    yield Outcome("mails: all went well", (mail(room), mailed(room)), (Ran(0), []))
    refused = [f"onixdesk-inbox@north[1]: {place}.xml: refused: {'x' * 600}" for place in range(150)]
    say(room, 3, *refused)
    say(room, 5, FAILED)
    say(room, 3, NOT_STARTED)
    came = mail(room)
    head = ["words: -i -t", "To: buying@example.org", "Subject: onixdesk: 152 lines to look at"]
    yield Outcome("mails: the head of one", (came, mailed(room)[:3]), (Ran(0), head))
    wanted = [*refused[:100], "and 52 more"]
    yield Outcome("mails: what is in it", bodies(room), (wanted, wanted))
    called = room.path("calls").read_text().splitlines()
    units = {f"--unit={path.name.replace('@', '@*')}" for path in ROOT.glob("programs/*/*.service")}
    yield Outcome("mails: not of which units", units - {*called[-1].split()}, {"--unit=onixdesk-mail.service"})
    yield Outcome("mails: at first of an hour", ["--since=-1h" in call for call in called], [True] * 2 + [False] * 2)


def from_mail_to_mail(room: Room) -> Iterator[Outcome]:
    """Each line once, whichever came last before."""
    make_room(room)
    for last, then in [(5, 3), (3, 3), (3, 5), (5, 5)]:
        say(room, last, DONE)
        mail(room)
        say(room, then, REFUSED, FAULT)
        mail(room)
        wanted = ([REFUSED, FAULT], [REFUSED, FAULT]) if then == 3 else ([], [])
        yield Outcome(f"mails: {then} behind {last}", bodies(room), wanted)
        yield Outcome(f"mails: {then} behind {last}, and no second time", (mail(room), mailed(room)), (Ran(0), []))
    say(room, 5, FAILED, FAILED)
    mail(room)
    yield Outcome("mails: a unit that failed", bodies(room), ([FAILED], [FAILED, FAILED]))


def what_cannot_be_mailed(room: Room) -> Iterator[Outcome]:
    """It is reported, and mailed the next time."""
    make_room(room)
    say(room, 3, REFUSED)
    script(room, "bin/sendmail", "exit 75")
    wanted = Ran(1, b"", b"mail.sh: sendmail ends with status 75, so nobody is mailed\n")
    yield Outcome("mails: a mail server that fails", mail(room), wanted)
    room.path("bin/sendmail").unlink()
    wanted = Ran(1, b"", b"mail.sh: no sendmail is here (apt-get install default-mta), so nobody is mailed\n")
    yield Outcome("mails: no mail server", mail(room), wanted)
    wanted = Ran(1, b"", b"mail.sh: no ADDRESS is set in /etc/onixdesk/mail.conf, so nobody is mailed\n")
    yield Outcome("mails: no address", mail(room, ""), wanted)
    make_server(room)
    say(room, 3, FAULT)
    mail(room)
    yield Outcome("mails: then both are", bodies(room), ([REFUSED, FAULT],) * 2)
    yield Outcome("mails: nothing else is kept", [path.name for path in room.path("state").iterdir()], ["read"])
    script(room, "bin/journalctl", "exit 1")
    wanted = Ran(1, b"", b"mail.sh: the journal cannot be read, so nobody is mailed\n")
    say(room, 3, NOT_STARTED)
    yield Outcome("mails: no journal", mail(room), wanted)
    shutil.copy(ROOT / "tests/mails/journalctl", room.path("bin"))
    mail(room)
    yield Outcome("mails: then it is", bodies(room), ([NOT_STARTED],) * 2)


def each_monday(room: Room) -> Iterator[Outcome]:
    """The report of each inbox, once on that day, though nothing failed; again if it could not be sent."""
    make_room(room)
    room.path("settings").mkdir()
    for name in ("example", "north", "south"):
        room.write(f"settings/{name}.conf", b"")
    script(room, "bin/onixdesk-inbox", 'echo "$*: 3 in quarantine"')
    yield Outcome("mails: no Monday", (mail(room), mailed(room)), (Ran(0), []))
    script(room, "bin/sendmail", "exit 75")
    yield Outcome("mails: a Monday that fails", mail(room, day=1).status, 1)
    make_server(room)
    came = mail(room, day=1)
    lines = mailed(room)
    wanted = ["north", "    report north: 3 in quarantine", "south", "    report south: 3 in quarantine"]
    yield Outcome("mails: each Monday", (came, lines[lines.index("") + 1 :]), (Ran(0), wanted))
    yield Outcome("mails: once on a Monday", (mail(room, day=1), mailed(room)), (Ran(0), []))


def lines_of_a_desk(room: Room) -> Iterator[Outcome]:
    """The lines of successful requests are left out, and by then the script is the desk."""
    said = ["listening 8080", "200", "202", "batch 0", "batch 2", "404", "fault", "503", "2000", "x 200"]
    room.write("said", "".join(f"{line}\n" for line in said).encode())
    text = f'echo $$ >"{room.path("process")}"; echo "$*" >&2; cat "{room.path("said")}"; exit 3'
    program = script(room, "desk", text)
    words = [str(SERVE), str(program), "serve", "--port", "1 2"]
    process = subprocess.Popen(words, stdout=subprocess.PIPE, stderr=subprocess.PIPE)
    output, errors = process.communicate(timeout=SECONDS)
    wanted = ["listening 8080", "batch 2", "404", "<4>fault", "<3>503", "2000", "x 200"]
    yield Outcome("the lines of a desk", output.decode().splitlines(), wanted)
    found = process.returncode, errors, int(room.path("process").read_text())
    yield Outcome("the desk is its script", found, (3, b"serve --port 1 2\n", process.pid))
    program = script(room, "desk", "exec sleep 60")
    process = subprocess.Popen([SERVE, program])
    process.send_signal(signal.SIGTERM)
    yield Outcome("a desk that is stopped", process.wait(SECONDS), -signal.SIGTERM)


def rules_for_the_page(room: Room) -> Iterator[Outcome]:
    """A starting desk writes the rules that it reads; if they cannot be read, no older ones are left."""
    program = script(room, "program", "exit 0")
    room.write("rules.toml", b'\xef\xbb\xbf[[rule]]\nseries = "north"\ncodes = ["20", "21"]\nmax = "15.00"\n')
    environment = {"PATH": os.environ["PATH"], "RULES": str(room.path("rules.toml")), "STATE": str(room.folder)}
    came = room.call([SERVE, program], environment=environment)
    found = json.loads(room.path("rules.json").read_text("ascii"))
    is_now = abs(found.pop("at") - time.time()) < SECONDS
    wanted = {"version": 1, "rules": [{"series": "north", "codes": ["20", "21"], "max": "15.00"}]}
    yield Outcome("rules for the page", (came, found, is_now), (Ran(0), wanted, True))
    room.write("rules.toml", b"[[rule]\n")
    came = room.call([SERVE, program], environment=environment)
    yield Outcome("rules that are none", (came.status, room.path("rules.json").exists()), (0, False))
