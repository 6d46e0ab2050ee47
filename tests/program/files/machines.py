"""A shop's machine in a room: the places that the pages' commands name are folders of the room, and the commands run as
the pages have them, at a running desk and inbox."""

import contextlib
import os
import sqlite3
import subprocess
from collections.abc import Iterator
from contextlib import closing

from tests.program.inbox.inboxes import script
from tests.program.room import SECONDS, Ran, Room
from tests.program.serving import free_port
from tools.root import ROOT

DESK = "var/lib/onixdesk/shop.db"
SOCKET = "run/onixdesk/batches"
FOLDERS = [
    "bin",
    "etc/onixdesk/inbox",
    "etc/onixdesk/page",
    "etc/onixdesk/terms",
    "run/onixdesk",
    "tmp",
    "usr/share/onixdesk",
    "var/lib/onixdesk",
    "var/lib/onixdesk-copies",
    "var/lib/onixdesk-inbox",
    "var/lib/onixdesk-incoming/north",
    "var/lib/onixdesk-prices",
    "var/lib/onixdesk-state",
    "var/tmp",
]

OF_DESK = f"--db ROOM/{DESK} --settings ROOM/etc/onixdesk/inbox"

# Stand-ins for the machine's commands, and the shop's programs with the room's places. The desk runs beside its parent;
# its process number is there while it runs. Starting an inbox's timer is one run of the inbox.
PROGRAMS = {
    "runuser": 'shift 3; exec "$@"',
    "onixdesk": 'exec "PROGRAM" "$@"',
    "desk-copy": f'exec "{ROOT}/bin/desk-copy" "$@"',
    "desk-prices": f'exec "{ROOT}/bin/desk-prices" --settings ROOM/etc/onixdesk/page/desk.json'
    ' --state ROOM/var/lib/onixdesk-state "$@"',
    "desk-restore": f'exec "{ROOT}/bin/desk-restore" {OF_DESK} "$@"',
    "desk-renew": f'exec "{ROOT}/bin/desk-renew" {OF_DESK} "$@"',
    "onixdesk-inbox": f"""case $1 in waive|show|report) name=$1; shift;; esac
set -- --rules ROOM/etc/onixdesk/rules.toml --page ROOM/etc/onixdesk/page/desk.json "$@"
set -- --inboxes ROOM/var/lib/onixdesk-inbox --state ROOM/var/lib/onixdesk-state "$@"
set -- --settings ROOM/etc/onixdesk/inbox --incoming ROOM/var/lib/onixdesk-incoming "$@"
exec "{ROOT}/bin/onixdesk-inbox" ${{name-}} "$@" """,
    "systemctl": f"""cd ROOM; echo "$*" >>units; word=$1; shift
start() {{ case $1 in
onixdesk|onixdesk.service)
    rm -f {SOCKET} lines
    sh -c 'onixdesk --rules etc/onixdesk/rules.toml --db {DESK} serve --port PORT --batches {SOCKET} & echo $! >pid
        wait $!; rm pid' >lines 2>&1 </dev/null &
    until grep -qs listening lines && [ -S {SOCKET} ]; do sleep 0.02; done ;;
onixdesk-inbox@north.timer) onixdesk-inbox -- north >>inbox 2>&1 || : ;;
onixdesk-prices) desk-prices --rules ROOM/etc/onixdesk/rules.toml {DESK} ROOM/var/lib/onixdesk-prices ;;
onixdesk-copy.service) desk-copy --keep 7 --inboxes ROOM/var/lib/onixdesk-inbox {DESK} ROOM/var/lib/onixdesk-copies ;;
esac; }}
stop() {{ case $1 in onixdesk|onixdesk.service)
    [ ! -e pid ] || kill "$(cat pid)"; while [ -e pid ]; do sleep 0.02; done ;; esac; }}
case $word in
list-units) for unit in onixdesk.service onixdesk-inbox@north.timer; do
    [ ! -e pid ] || echo "$unit loaded active running"; done ;;
start|enable) for unit; do start "$unit"; done ;;
restart) for unit; do stop "$unit"; start "$unit"; done ;;
stop) for unit; do stop "$unit"; done ;;
esac""",
}


class Machine:
    """It has the desk as a service, and the inbox of the series north, which is run by hand."""

    def __init__(self, room: Room) -> None:
        self.room = room
        self.port = free_port()
        for folder in FOLDERS:
            room.path(folder).mkdir(parents=True)
        room.write("etc/onixdesk/rules.toml", (ROOT / "programs/onixdesk/rules.toml").read_bytes())
        room.write("etc/onixdesk/page/desk.json", (ROOT / "page/desk.json").read_bytes())
        places = {"ROOM": str(room.folder), "PORT": str(self.port), "PROGRAM": str(room.program)}
        for name, text in PROGRAMS.items():
            for place, value in places.items():
                text = text.replace(place, value)
            script(room, f"bin/{name}", text)
        correct = ROOT.joinpath("programs/desk-restore/correct.sh").read_text(encoding="utf-8")
        script(room, "usr/share/onixdesk/correct.sh", self.placed(correct))

    def placed(self, text: str) -> str:
        """A text with the room's places instead of the machine's."""
        for place in ("/var/", "/etc/onixdesk", "/run/onixdesk/", "/usr/share/onixdesk/"):
            text = text.replace(place, f"{self.room.folder}{place}")
        return text

    def run(self, lines: list[str], said: str = "yes\n") -> Ran:
        """Runs lines as root pastes them: a command that asks reads the next line. If nothing asks, that line is a
        command that keeps the status."""
        folder = self.room.folder
        environment = {**os.environ, "PATH": f"{folder}/bin:{os.environ['PATH']}", "TMPDIR": f"{folder}/tmp"}
        pasted = "\n".join(["yes() { return $?; }", self.placed("\n".join(lines)), said])
        done = subprocess.run(
            ["bash"], cwd=folder, env=environment, input=pasted.encode(), capture_output=True, timeout=SECONDS
        )
        return Ran(done.returncode, done.stdout, done.stderr)

    def settings(self, **settings: object) -> None:
        lines = {
            "BATCHES": self.room.path(SOCKET),
            "UNCHANGED_SECONDS": 0,
            "NUMBER": "own",
            "SENDER": "06,4012345000009",
        } | settings
        text = "".join(f"{name}={value}\n" for name, value in lines.items())
        self.room.write("etc/onixdesk/inbox/north.conf", text.encode())

    def put(self, files: dict[str, bytes]) -> None:
        """Puts files there, one after the other."""
        for place, (name, data) in enumerate(files.items(), 1):
            path = self.room.path("var/lib/onixdesk-incoming/north") / name
            path.write_bytes(data)
            os.utime(path, (place, place))

    def take(self, files: dict[str, bytes]) -> dict[str, str]:
        """Has the inbox take files; returns the state of each file so far."""
        self.put(files)
        self.run(["onixdesk-inbox -- north"])
        with closing(sqlite3.connect(self.room.path("var/lib/onixdesk-inbox/north/ledger.db"))) as ledger:
            return dict(ledger.execute("SELECT name, state FROM file ORDER BY id"))

    def ask(self, *records: str) -> list[str]:
        """The answers of the desk to a batch."""
        given = "".join(f"{record}\n" for record in records).encode()
        ran = self.room.call([self.room.program, "--batches", SOCKET, "batch"], given)
        return ran.output.decode().splitlines()

    def prices(self, kind: str = "02") -> dict[str, list[str]]:
        """The offered amounts of each article of the tests."""
        found: dict[str, list[str]] = {}
        for line in self.ask(*(f"AskPrice,{isbn},20250501,GB,GBP,{kind}" for isbn in ARTICLES)):
            word, *fields = line.split(",")
            if word == "price":
                amounts = found[ARTICLES[fields[0]]] = []
            else:
                amounts.append(fields[-1])
        return {name: amounts for name, amounts in found.items() if amounts}


ARTICLES = {"9781234567897": "a", "9781234567880": "b", "9781234567873": "c"}


def feed(number: int | None, sender: str = "4012345000009", **prices: str) -> bytes:
    """A feed with a retail price for each of these articles."""
    isbns = {name: isbn for isbn, name in ARTICLES.items()}
    lines = [
        '<ONIXMessage release="3.0"><Header><Sender><SenderIdentifier><SenderIDType>06</SenderIDType>',
        f"<IDValue>{sender}</IDValue></SenderIdentifier></Sender><Addressee><AddresseeIdentifier>",
        "<AddresseeIDType>06</AddresseeIDType><IDValue>5012345678900</IDValue></AddresseeIdentifier></Addressee>",
        f"<MessageNumber>{number}</MessageNumber></Header>" if number else "</Header>",
    ]
    for name, amount in prices.items():
        lines += [
            f"<Product><RecordReference>R-{name}</RecordReference><NotificationType>03</NotificationType>",
            f"<ProductIdentifier><ProductIDType>15</ProductIDType><IDValue>{isbns[name]}</IDValue></ProductIdentifier>",
            "<ProductSupply><SupplyDetail><Supplier><SupplierRole>04</SupplierRole><SupplierName>North</SupplierName>",
            "</Supplier><ProductAvailability>21</ProductAvailability><Price><PriceType>02</PriceType>",
            f"<PriceAmount>{amount}</PriceAmount><CurrencyCode>GBP</CurrencyCode></Price></SupplyDetail>",
            "</ProductSupply></Product>",
        ]
    return "\n".join([*lines, "</ONIXMessage>\n"]).encode()


@contextlib.contextmanager
def machine(room: Room, records: str, **settings: object) -> Iterator[Machine]:
    """A machine whose desk was given a batch, and is served."""
    made = Machine(room)
    made.settings(**settings)
    room.write("batch.csv", records.encode())
    made.run([f"onixdesk --db {DESK} batch <batch.csv"])
    try:
        made.run(["systemctl start onixdesk.service"])
        yield made
    finally:
        made.run(["systemctl stop onixdesk.service"])
