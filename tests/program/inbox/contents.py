"""The contents of files: records and feeds, whole or not, packed or not, as the built program takes them."""

import gzip
import io
import json
import os
import shutil
import zipfile
from collections.abc import Iterator
from contextlib import suppress
from dataclasses import replace
from typing import Any

from onixdesk_shop.inbox import report
from onixdesk_shop.settings import NEXT
from tests.program.inbox.files import inbox_in
from tests.program.room import Room
from tests.running import Outcome
from tests.shop.fake_machine import FakeMachine, Killed
from tests.shop.fake_program import SENDER, feed_of, isbn_of, message_of, product_of
from tests.shop.feeds import Book, feed
from tests.shop.inboxes import SERIES, START, FakeInbox

DAY = 86_400


def zipped(*names: str) -> bytes:
    written = io.BytesIO()
    with zipfile.ZipFile(written, "w") as archive:
        for name in names:
            archive.writestr(name, feed(3, []).replace("</Header>", "</Header><NoProduct/>"))
    return written.getvalue()


def one_supplier(room: Room) -> Iterator[Outcome]:
    """Of several suppliers only the one in WORDS counts."""
    inbox = FakeInbox(room.folder, room.program, words=("--supplier", f"06,{SENDER[1]}"))
    form = "<SupplierIdentifier><SupplierIDType>06</SupplierIDType><IDValue>{}</IDValue></SupplierIdentifier>"
    own, other = (f"</SupplierRole>{form.format(value)}" for value in (SENDER[1], "4012345000010"))
    text = feed(1, [Book(1, "10.00"), Book(2, "20.00")]).replace("</SupplierRole>", own, 1)
    inbox.take("mixed.xml", text.replace("</SupplierRole><SupplierName>", f"{other}<SupplierName>"))
    yield Outcome("its prices", [record[2] for record in inbox.series.had[1] if record[0] == "Price"], ["10.000"])
    inbox.send("others.xml", feed(2, [Book(3)]).replace("</SupplierRole>", other))
    yield Outcome("none of its own", (len(inbox.run()), inbox.states()["others.xml"]), (1, "quarantined"))


# What is wrong in a message of twelve products, after a first one of as many, and its right form.
MALFORMED = {
    "amount": ("13.99", '"13,99"'),
    "currency": ("GBP", "£"),
    "blank": ("GBP", "G P"),
    "behind": ("GBP", "GBP "),
    "market": ("ProductSupply,GB", "ProductSupply, "),
    "number": (",2,,", ",²,,"),
    "digits": (",2,,", f",{'9' * 5000},,"),
}


def malformed(room: Room) -> Iterator[Outcome]:
    """Records that the desk would refuse are refused with their line, and the next file goes on."""
    inbox = FakeInbox(room.folder, room.program)
    products = [product_of(f"R{place}", "13.99", None) for place in range(12)]
    second = message_of(2, products)
    inbox.send("first.csv", message_of(1, products))
    for name, (right, wrong) in MALFORMED.items():
        inbox.send(f"{name}.csv", second.replace(right, wrong, 1))
    inbox.take("second.csv", second)
    taken = {name for name, state in inbox.states().items() if state == "applied"}
    yield Outcome("taken", taken, {"first.csv", "second.csv"})
    why = {file.name: file.why for file in inbox.files() if file.state == "refused"}
    yield Outcome("refused", sorted(why), sorted(f"{name}.csv" for name in MALFORMED))
    yield Outcome("by their lines", [text for text in why.values() if not text.startswith("line ")], [])
    yield Outcome("the field", why["amount.csv"].startswith("line 5: Price: PriceAmount"), True)


def of_the_program(room: Room) -> Iterator[Outcome]:
    """What the built program converts and checks."""
    inbox = FakeInbox(room.folder, room.program)
    records = message_of(1, [product_of("R1", "13.99", None)])
    inbox.send("other.csv", records.replace(SENDER[1], "4012345000010"))
    inbox.send("latin.csv", records.replace("North", "Nörd").encode("latin-1"))
    inbox.send("two.csv", records * 2)
    inbox.send("question.csv", records + "AskGaps,north\n")
    inbox.send("good.csv", records)
    inbox.send("packed.gz", gzip.compress(feed(2, [Book(1)]).encode()))
    inbox.send("cut.gz", gzip.compress(feed(2, [Book(2)]).encode())[:-9])
    inbox.send("packed.zip", zipped("a.xml"))
    inbox.send("two.zip", zipped("a.xml", "b.xml"))
    inbox.send("wide.xml", ('<?xml version="1.0" encoding="utf-16"?>' + feed(4, [Book(4)])).encode("utf-16"))
    inbox.take("crowded.xml", feed(5, [replace(Book(5), reference=f"X{number}") for number in range(1001)]))
    good = {"good.csv", "packed.gz", "packed.zip", "wide.xml"}
    yield Outcome("taken", {name for name, state in inbox.states().items() if state == "applied"}, good)
    yield Outcome("refused", {state for name, state in inbox.states().items() if name not in good}, {"refused"})
    path = inbox.places.state / "titles/97800/97800000.json"
    yield Outcome("titles", '"Book 4 é"' in path.read_text(), True)
    os.mkfifo(inbox.incoming / "pipe.xml")
    os.symlink("/etc/passwd", inbox.incoming / "link.xml")
    for name in ("pipe.xml", "link.xml"):
        os.utime(inbox.incoming / name, (inbox.clock, inbox.clock), follow_symlinks=False)
    inbox.take("unknown.txt", "")
    inbox.clock += 30 * DAY
    said = [line for line in inbox.run() if line.startswith("not taken")]
    yield Outcome("not taken, told once", (len(said), [line for line in inbox.run() if "taken" in line]), (3, []))


def page_files(inbox: FakeInbox) -> dict[str, Any]:
    """What the page may fetch of titles."""
    return {path.name: json.loads(path.read_text()) for path in inbox.places.state.glob("titles/*/*.json")}


def titles(room: Room) -> Iterator[Outcome]:
    """Within a series the greatest number counts. If the folder is lost, or a run dies, the next one writes all of it."""
    inbox = inbox_in(room, "titles")
    inbox.take("1.xml", feed_of(1, {"R1": "1.00", "R2": "2.00"}))
    said = [SERIES, 1, inbox.files()[0].at, "Title R1", "", "", ""]
    files = page_files(inbox)
    yield Outcome("said", files[f"{isbn_of('R1')[:8]}.json"], {isbn_of("R1"): [said]})
    shutil.rmtree(inbox.places.state / "titles")
    yield Outcome("a lost folder", (inbox.run(), page_files(inbox)), ([], files))
    inbox.ledger.unlink()
    with suppress(Killed):
        inbox.run(FakeMachine(inbox.disk, inbox.desk, inbox.clock, ("kill", "write", 2)))
    shutil.rmtree(inbox.places.state / "titles/97800")
    inbox.run()
    yield Outcome("a lost ledger, and a kill", {*page_files(inbox)}, {*files})
    inbox.send("3.xml", feed_of(3, {"R1": "-"}))
    inbox.send("2.xml", feed_of(2, {"R1": "1.00"}))
    with suppress(Killed):
        inbox.run(FakeMachine(inbox.disk, inbox.desk, inbox.clock, ("kill", "write", 2)))
    inbox.run()
    changed = page_files(inbox).pop(f"{isbn_of('R1')[:8]}.json")
    yield Outcome("deleted by the greatest", [entry[:2] for entry in changed[isbn_of("R1")]], [[SERIES, 3]])


def of_many_refused(room: Room) -> Iterator[Outcome]:
    """The first lines of a report, which are mailed, have the last files and what is quarantined."""
    inbox = inbox_in(room, "many", number=NEXT)
    for place in range(40):
        inbox.send(f"{place}.xml", b"<cut" * (place + 1))
    inbox.take("good.xml", feed_of(None, {"R1": "1.00"}))
    inbox.take("late.xml", feed_of(None, {"R1": "2.00"}), START - 100)
    names = [line.rpartition("; ")[2] for line in inbox.says(report.report).splitlines()[:25]]
    yield Outcome("the last file, and quarantine", {"good.xml", "late.xml"} <= {*names}, True)


def left_under_another_name(room: Room) -> Iterator[Outcome]:
    """A file that stays in its folder is not taken again under the name that it gets once the next one has its own."""
    inbox = inbox_in(room, "left", leave=True)
    inbox.take("daily.xml", b"<cut")
    (inbox.incoming / "daily.xml").rename(inbox.incoming / f"taken-{inbox.files()[0].mark}-daily.xml")
    lines = inbox.take("daily.xml", feed_of(1, {"R1": "1.00"}))
    yield Outcome("the next one alone", lines, ["applied: number 1; daily.xml"])
