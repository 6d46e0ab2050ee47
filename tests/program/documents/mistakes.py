"""The blocks of docs/MISTAKES.md: each is run as it stands, at a desk and an inbox where the mistake was made, and
prices are compared before and after it. Each line that the page calls wrong is tried too, and the right line beside it.
"""

import hashlib
import re
from collections.abc import Iterator

from tests.program.documents.examples import block_with, blocks, written
from tests.program.files.machines import Machine, feed, machine
from tests.program.room import Room
from tests.running import Outcome
from tools.root import ROOT

PAGE = "docs/MISTAKES.md"

AGREEMENT = "Agree,north,06,{},06,5012345678900,{}\n"
AGREED = AGREEMENT.format("4012345000009", 1)

GAPS = "gaps,north,first=1,next={},greatest={},held=0,missing=0"


def mark(data: bytes) -> str:
    return hashlib.sha256(data).hexdigest()[:12]


def undone(
    desk: Machine, text: str, before: dict[str, str], behind: dict[str, str], marks: dict[str, str] | None = None
) -> Iterator[Outcome]:
    """Runs the block of the page with that text, with the marks of the test's files, and compares prices."""
    yield Outcome(f"{text}: prices before", desk.prices(), {name: [amount] for name, amount in before.items()})
    lines = "\n".join(block_with(PAGE, text))
    for shown, own in (marks or {}).items():
        lines = lines.replace(shown, own)
    ran = desk.run([lines])
    yield Outcome(f"{text}: it is undone", (ran.status, ran.status and (ran.output, ran.errors)), (0, 0))
    desk.take({})
    yield Outcome(f"{text}: prices behind", desk.prices(), {name: [amount] for name, amount in behind.items()})


def copies_in(desk: Machine) -> list[str]:
    folder = "/var/lib/onixdesk-copies"
    return sorted(f"{folder}/{path.name}" for path in desk.room.path(folder[1:]).iterdir())


def undone_again(
    desk: Machine, text: str, before: dict[str, str], behind: dict[str, str], lacking: bytes
) -> Iterator[Outcome]:
    """The same after a restore of an earlier copy, which may say until then what the desk lacks."""
    desk.run(["systemctl start onixdesk-copy.service"])
    (copy,) = copies_in(desk)
    yield from undone(desk, text, before, behind)
    ran = desk.run([f"desk-restore --before-correction --yes {copy}"])
    found = ran.status, lacking in ran.errors
    yield Outcome(f"{text}: a copy from before it is restored", found, (1 if lacking else 0, True))
    yield from undone(desk, text, before, behind)


def a_mistyped_sender(room: Room) -> Iterator[Outcome]:
    with machine(room, AGREEMENT.format("4012345000008", 1), SENDER="06,4012345000008") as desk:
        states = desk.take({"1.xml": feed(1, a="10.00", b="20.00"), "2.xml": feed(2, a="11.00")})
        yield Outcome("a mistyped sender: its files", states, {"1.xml": "refused", "2.xml": "refused"})
        yield from undone(desk, "s/^Agree,north,06,4012345000008,", {}, {"a": "11.000", "b": "20.000"})


def a_first_number_too_high(room: Room) -> Iterator[Outcome]:
    with machine(room, AGREEMENT.format("4012345000009", 2)) as desk:
        files = {"1.xml": feed(1, a="14.00", b="9.00"), "2.xml": feed(2, c="12.99"), "3.xml": feed(3, a="16.00")}
        states = desk.take(files)
        wanted = {"1.xml": "refused", "2.xml": "applied", "3.xml": "applied"}
        yield Outcome("a first number too high: its files", states, wanted)
        before, behind = {"a": "16.000", "c": "12.990"}, {"a": "16.000", "b": "9.000", "c": "12.990"}
        yield from undone(desk, "s/^\\(Agree,north,.*\\),2$/", before, behind)


def a_first_number_too_low(room: Room) -> Iterator[Outcome]:
    with machine(room, AGREED) as desk:
        states = desk.take({"3.xml": feed(3, a="10.00")})
        yield Outcome("a first number too low: its file", states, {"3.xml": "held"})
        yield from undone(desk, "for number in 1 2", {}, {"a": "10.000"})


def another_identifier(room: Room) -> Iterator[Outcome]:
    with machine(room, AGREED) as desk:
        files = {"1.xml": feed(1, a="10.00", b="20.00"), "2.xml": feed(2, "4012345000016", a="11.00")}
        states = desk.take(files)
        yield Outcome("another identifier: its files", states, {"1.xml": "applied", "2.xml": "refused"})
        before, behind = {"a": "10.000", "b": "20.000"}, {"a": "11.000", "b": "20.000"}
        lacking = b"the desk still lacks number 2"
        yield from undone_again(desk, "s/^\\(Agree,[^,]*\\|Message", before, behind, lacking)


def numbers_that_begin_again(room: Room) -> Iterator[Outcome]:
    """Other options stay, here two numbers for each file."""
    with machine(room, AGREED, WORDS="--parts 2") as desk:
        desk.take({"1.xml": feed(1, a="10.00", b="20.00"), "2.xml": feed(2, a="11.00")})
        states = desk.take({"new.xml": feed(1, a="12.00")})
        yield Outcome("numbers that begin again: the file", states["new.xml"], "refused")
        before, behind = {"a": "11.000", "b": "20.000"}, {"a": "12.000", "b": "20.000"}
        yield from undone(desk, "s/$/ --number-offset 2/", before, behind)
        yield Outcome("numbers that begin again: the gaps", desk.ask("AskGaps,north")[0], GAPS.format(7, 6))


def numbers_that_begin_again_below_a_waiver(room: Room) -> Iterator[Outcome]:
    """The desk refuses the new file because of the waiver, and its line has no setting."""
    with machine(room, AGREED, WORDS="") as desk:
        desk.run(["onixdesk-inbox waive north 1"])
        desk.take({"2.xml": feed(2, a="11.00")})
        states = desk.take({"new.xml": feed(1, a="12.00")})
        yield Outcome("numbers that begin again below a waiver: the file", states["new.xml"], "refused")
        yield from undone(desk, "s/$/ --number-offset 2/", {"a": "11.000"}, {"a": "12.000"})
        yield Outcome(
            "numbers that begin again below a waiver: the gaps", desk.ask("AskGaps,north"), [GAPS.format(4, 3)]
        )


def a_wrong_number(room: Room) -> Iterator[Outcome]:
    """It is quarantined first, since its number is far ahead, and somebody lets it in."""
    with machine(room, AGREED) as desk:
        dated = feed(20250401, a="10.00")
        desk.take({"1.xml": feed(1, a="9.00", b="20.00"), "feed.xml": dated})
        desk.run([f"onixdesk-inbox --let-in {mark(dated)} north"])
        yield Outcome("a wrong number: its files", desk.take({}), {"1.xml": "applied", "feed.xml": "held"})
        before, behind = {"a": "9.000", "b": "20.000"}, {"a": "10.000", "b": "20.000"}
        yield from undone(desk, "20250401,/,/^EndMessage", before, behind, {"3f9a0c51d2b7": mark(dated)})
        yield Outcome("a wrong number: the gaps", desk.ask("AskGaps,north"), [GAPS.format(3, 2)])


def a_waiver_too_early(room: Room) -> Iterator[Outcome]:
    """After the block the inbox posts the file of number 5 by itself."""
    with machine(room, AGREEMENT.format("4012345000009", 4)) as desk:
        desk.take({"4.xml": feed(4, a="14.00", b="5.00")})
        desk.run(["onixdesk-inbox waive north 5"])
        states = desk.take({"6.xml": feed(6, b="6.00")}) | desk.take({"5.xml": feed(5, a="16.00", c="7.00")})
        yield Outcome("a waiver too early: its files", states["5.xml"], "refused")
        before, behind = {"a": "14.000", "b": "6.000"}, {"a": "16.000", "b": "6.000", "c": "7.000"}
        yield from undone_again(desk, "waive --back north 5", before, behind, b"")


def with_a_wrong_message(desk: Machine) -> tuple[dict[str, str], bytes]:
    """A copy of an earlier night, and a wrong message applied after it: the prices, and its file."""
    wrong = feed(2, a="1.00", b="1.00")
    desk.take({"1.xml": feed(1, a="10.00")})
    desk.run(["systemctl start onixdesk-copy.service"])
    desk.take({"wrong.xml": wrong, "3.xml": feed(3, c="7.00")})
    return {"a": "1.000", "b": "1.000", "c": "7.000"}, wrong


def what_comes_then(desk: Machine) -> Iterator[Outcome]:
    found = desk.ask("AskGaps,north"), desk.take({"4.xml": feed(4, a="10.50")})["4.xml"]
    yield Outcome("a wrong message: what comes then", found, ([GAPS.format(4, 3)], "applied"))


def a_wrong_message(room: Room) -> Iterator[Outcome]:
    with machine(room, AGREED) as desk:
        before, wrong = with_a_wrong_message(desk)
        marks, text = {"3f9a0c51d2b7": mark(wrong)}, ",2,/,/^EndMessage,"
        ran = desk.run(["\n".join(block_with(PAGE, text)).replace("3f9a0c51d2b7", mark(wrong))], said="no\n")
        found = ran.status, desk.take({})["wrong.xml"]
        yield Outcome("a wrong message: nobody said yes, and nothing is refused", found, (1, "applied"))
        yield from undone(desk, text, before, {"a": "10.000", "c": "7.000"}, marks)
        asked = [desk.run([f"desk-restore --yes {copy}"]) for copy in copies_in(desk)]
        found = [(ran.status, b"north next=4, --refuse " in ran.errors) for ran in asked]
        yield Outcome("a wrong message: copies from before, and a new one", found, [(1, True), (1, True), (0, False)])
        yield from what_comes_then(desk)


def a_wrong_file_of_parts(room: Room) -> Iterator[Outcome]:
    with machine(room, AGREED, WORDS="--parts 5") as desk:
        before, wrong = with_a_wrong_message(desk)
        page = (ROOT / PAGE).read_text(encoding="utf-8")
        ((numbers, number, all_of_it, last),) = re.findall(
            "write `(.*)` in place of `(.*)`, and `(.*)` in place of `(.*)`", page
        )
        edits = {"3f9a0c51d2b7": mark(wrong), number: numbers, last: all_of_it}
        yield from undone(desk, ",2,/,/^EndMessage,", before, {"a": "10.000", "c": "7.000"}, edits)
        yield Outcome("a wrong file of parts: the gaps", desk.ask("AskGaps,north"), [GAPS.format(16, 15)])


def a_copy_from_before_it(room: Room) -> Iterator[Outcome]:
    """The printed line refuses the wrong file, and the block waives its number."""
    with machine(room, AGREED) as desk:
        before, _ = with_a_wrong_message(desk)
        restoring = "desk-restore /var/lib/onixdesk-copies/*"
        asked = desk.run([restoring], said="no\n")
        (line,) = (line for line in asked.output.decode().splitlines() if line.endswith("; wrong.xml"))
        yield Outcome("a copy from before it: nothing is done yet", (asked.status, desk.prices()["a"]), (1, ["1.000"]))
        ran = desk.run([line.partition(";")[0], restoring])
        yield Outcome("a copy from before it: the restore", (ran.status, ran.status and ran.errors), (0, 0))
        (lines,) = (lines for lines in blocks(PAGE) if lines == ["onixdesk-inbox waive north 2"])
        yield Outcome("a copy from before it: its number", desk.run(lines).status, 0)
        desk.take({})
        yield Outcome("a copy from before it: prices", desk.prices(), {"a": ["10.000"], "c": ["7.000"]})
        yield from what_comes_then(desk)


TERMS = '[[term]]\ntypes = ["02"]\nnet = "05"\npercent = "4.25"\ntax = "0"\n'


def a_wrong_percent(room: Room) -> Iterator[Outcome]:
    """12.99, 10.00 and 1.00 less 4.25 %, and less 42.5 %, halves rounded up."""
    with machine(room, AGREED, NUMBER="next", TERMS=room.path("etc/onixdesk/terms/north.toml")) as desk:
        room.write("etc/onixdesk/terms/north.toml", TERMS.encode())
        full, update = feed(None, a="12.99", b="20.00"), feed(None, b="10.00", c="1.00")
        states = desk.take({"full.xml": full, "update.xml": update})
        yield Outcome("a wrong percent: its files", states, {"full.xml": "applied", "update.xml": "applied"})
        yield Outcome("a wrong percent: before", desk.prices("05"), {"a": ["12.440"], "b": ["9.580"], "c": ["0.960"]})
        lines = "\n".join(block_with(PAGE, "s/^percent = "))
        lines = lines.replace("3f9a0c51d2b7", mark(full)).replace("08be117c40f3", mark(update))
        ran = desk.run([lines])
        yield Outcome("a wrong percent: it is mended", (ran.status, ran.errors), (0, b""))
        desk.take({})
        yield Outcome("a wrong percent: behind", desk.prices("05"), {"a": ["7.470"], "b": ["5.750"], "c": ["0.580"]})


SUPPLY = ["ProductSupply,,WORLD,", "SupplyDetail,04,06,4012345000009,North Books,21,", "Price,02,20.00,GBP,,WORLD,,,"]


def with_products(number: int, products: list[str]) -> str:
    """An agreement from this number on, and its message."""
    lines = [f"Message,1,06,4012345000009,06,5012345678900,{number},1,20250401,02,GBP"]
    for product in products:
        lines += [f"Product,{product}", *SUPPLY]
    return AGREEMENT.format("4012345000009", number) + written([*lines, f"EndMessage,{len(lines)}"]).decode()


def a_wholesaler_that_is_gone(room: Room) -> Iterator[Outcome]:
    """References with quotation marks and commas, too."""
    references = ["R1", '"R,""2"""', '"A, B"']
    with machine(room, with_products(1, [f"{each},03,15,9781234567897" for each in references])) as desk:
        yield Outcome("a wholesaler that is gone: its offers", desk.prices(), {"a": ["20.000"] * 3})
        ran = desk.run(block_with(PAGE, "split -l 9998"))
        answer = b"applied,north,2,replaced=0,updated=0,deleted=3,unknown=0,ignored=0"
        found = ran.status, ran.output.splitlines()[-1]
        yield Outcome("a wholesaler that is gone: its records", found, (0, answer))
        yield Outcome("a wholesaler that is gone: prices", desk.prices(), {})


def very_many_records(room: Room) -> Iterator[Outcome]:
    """Those of one ISBN, with quotation marks and commas in their references too, none named like it."""
    a, b = "9781234567897", "9781234567880"
    products = [f"{a},03,15,{b}", f"R1,03,15,{a}", f'"R,""2""",03,01,X9,15,{a}', f"R3,02,03,{a}"]
    (edit,) = re.findall("`(/,.*978[0-9]+.*?/s)` in place of `(.*?)`", (ROOT / PAGE).read_text(encoding="utf-8"))
    with machine(room, with_products(6, products)) as desk:
        yield Outcome("many records: before", desk.prices(), {"a": ["20.000"] * 3, "b": ["20.000"]})
        ran = desk.run(["\n".join(block_with(PAGE, "split -l 9998")).replace(edit[1], edit[0])])
        answer = b"applied,north,7,replaced=0,updated=0,deleted=3,unknown=0,ignored=0"
        yield Outcome("many records are deleted", (ran.status, ran.output.splitlines()[-1]), (0, answer))
        yield Outcome("many records: behind", desk.prices(), {"b": ["20.000"]})


def a_desk_as_text(room: Room) -> Iterator[Outcome]:
    with machine(room, AGREED) as desk:
        desk.take({f"{number}.xml": feed(number, a=f"{number}.00") for number in (1, 2, 3, 4)})
        ran = desk.run(block_with(PAGE, "| cmp - shop.csv"))
        yield Outcome(f"{PAGE}: the desk as text", (ran.status, ran.errors), (0, b""))
        shown = desk.run(block_with(PAGE, "/^Waive,north,4$/p")).output.decode().splitlines()
        found = shown[0].split(",")[6], shown[-1].split(",")[0], len(shown)
        yield Outcome(f"{PAGE}: what is recorded at one number", found, ("4", "EndMessage", int(shown[-1][11:]) + 1))
        ran = desk.run(["desk-restore --text shop.csv friday"])
        yield Outcome(f"{PAGE}: a text is restored", (ran.status, desk.prices()), (0, {"a": ["4.000"]}))


def causes(room: Room) -> Iterator[Outcome]:
    """Each line that the page calls wrong is malformed, and the one beside it is a request."""
    text = (ROOT / PAGE).read_text(encoding="utf-8")
    rows = re.findall(r"^\| `(.+?)` \| .+? \| (?:`(.+?)` )?\|$", text, re.M)
    yield Outcome("why malformed: causes", len(rows), 11)
    for wrong, right in rows:
        found = room.run("batch", given=written([wrong])).output
        yield Outcome(f"why malformed: {wrong}", found, b"refused,malformed,1\n")
        answer = room.run("batch", given=written([right] if right else [])).output
        yield Outcome(f"why malformed: {right}", (bool(answer) == bool(right), b"malformed" in answer), (True, False))
