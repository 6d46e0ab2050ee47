"""The examples of docs/ONIX.md: each is XML, followed by its notes and records."""

import re
from collections.abc import Iterator
from typing import NamedTuple

from tests.program.feeds.convert.case_files import FRAMES, SUPPLIER, Frame, within
from tests.program.feeds.convert.running import FEED, convert
from tests.program.documents.examples import blocks
from tests.program.room import Room
from tests.running import Outcome

DOCUMENT = "docs/ONIX.md"

# Where an example belongs, by its first element. That of a Market has a SupplyDetail after it, which is not shown.
PLACES = {
    "Header": FRAMES["message"],
    "Product": FRAMES["products"],
    "ProductSupply": FRAMES["product"],
    "Market": within(FRAMES["supply"], "", f"<SupplyDetail>{SUPPLIER}</SupplyDetail>"),
    "SupplyDetail": FRAMES["details"],
    "Price": FRAMES["prices"],
}

NOT_SHOWN = {"Market": ["SupplyDetail,04,,,North,21,"]}

# A note, without its place, or a count of what is not read; some examples alone show the other counts.
NOTE = re.compile(r"onixdesk: (?:[^ ]+:[0-9]+:[0-9]+: (.*)|(.*, not read: [0-9]+)|(.*: [0-9]+|[0-9]+ of .*))")

# The words, or the one term, by which an example is converted.
WORDS, TERM = re.compile("--"), re.compile("types = ")


class Example(NamedTuple):
    """The name of the first element, the XML, and the lines after it."""

    first: str
    xml: str
    lines: list[str]

    def frame(self) -> Frame:
        return PLACES[self.first]


def examples() -> list[Example]:
    found = []
    for lines in blocks(DOCUMENT):
        if element := re.match("<([A-Za-z]+)/?>", lines[0]):
            xml = [line for line in lines if line.lstrip().startswith("<")]
            found.append(Example(element[1], "\n".join(xml), lines[len(xml) :]))
    return found


def shown(example: Example, room: Room) -> list[str]:
    """The notes and the records of an example, as the document has them."""
    frame = example.frame()
    room.write(FEED, f"{frame.before}\n{example.xml}{frame.behind}".encode())
    words, terms = ([line for line in example.lines if each.match(line)] for each in (WORDS, TERM))
    room.write("shop.toml", "".join(f"term = [{{ {line} }}]\n" for line in terms).encode())
    came = convert(room, *" ".join(words).split(), *(["--terms", "shop.toml"] if terms else []), FEED)
    said = [found for found in map(NOTE.fullmatch, came.errors.decode().splitlines()) if found]
    notes = [found[1] or found[2] or found[3] for found in said if not found[3] or found[3] in example.lines]
    records = came.output.decode().splitlines()[frame.records.count("\n") : -1]
    behind = NOT_SHOWN.get(example.first, [])
    shown_records = (
        records[: len(records) - len(behind)] if records[len(records) - len(behind) :] == behind else records
    )
    return words + terms + notes + shown_records


def each(room: Room) -> Iterator[Outcome]:
    found = examples()
    yield Outcome(f"{DOCUMENT}: examples", len(found) >= 20, True)
    for example in found:
        yield Outcome(f"{DOCUMENT}: {example.xml[:60]}", shown(example, room), example.lines)
