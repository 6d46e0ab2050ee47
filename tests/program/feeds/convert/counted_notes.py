"""How many notes `onixdesk convert` writes and counts, and fields too long for the files of tests/conversions."""

from collections.abc import Iterator
from itertools import product
from string import ascii_uppercase

from tests.program.feeds.convert.case_files import FRAMES, SUPPLIER, said
from tests.program.feeds.convert.running import FEED, convert
from tests.program.feeds.feed_notes import NOTES, PRODUCTS, WRONG, summed
from tests.program.feeds.feed_oracle import UNPRICED
from tests.program.room import Ran, Room
from tests.running import Outcome

# The most lines of notes on a file, and the most bytes in a field.
LINES = 1_000
FIELD_BYTES = 1_024

PRICE = "<Price><PriceQualifier>{}</PriceQualifier><PriceAmount>1</PriceAmount></Price>\n"

# Two letters each, but those that are read as another country.
COUNTRIES = [code for code in map("".join, product(ascii_uppercase, repeat=2)) if code not in ("EL", "UK")]


def feed_of(place: str, xml: str) -> bytes:
    """A feed with that at the place, from its second line on."""
    return f"{FRAMES[place].before}\n{xml}{FRAMES[place].behind}".encode()


def message_of(place: str, records: str = "") -> bytes:
    text = FRAMES[place].records + records
    return f"{text}EndMessage,{text.count(chr(10))}\n".encode()


def prices(count: int, qualifier: str) -> bytes:
    """A feed of so many Prices that are left out, each on a line of its own."""
    return feed_of("prices", PRICE.format(qualifier) * count)


def notes_on(file: str, count: int, qualifier: str) -> list[str]:
    first = 2
    return [f"{file}:{line}:1: R1: Price left out: PriceQualifier {qualifier}" for line in range(first, first + count)]


def bounded(room: Room) -> Iterator[Outcome]:
    """Each file has its lines, and the summary counts the notes of all."""
    room.write("a.xml", prices(LINES, "06"))
    room.write("b.xml", prices(LINES + 1, "06"))
    room.write("c.xml", prices(LINES + 500, "07"))
    came = convert(room, "-o", ".", "a.xml", "b.xml", "c.xml")
    why = "Price left out: PriceQualifier"
    summary = summed({f"{why} 06": 2001, f"{why} 07": 1500, UNPRICED: 3, PRODUCTS: 3, NOTES: 3501})
    lines = notes_on("a.xml", LINES, "06") + notes_on("b.xml", LINES, "06") + notes_on("c.xml", LINES, "07")
    found = came.status, came.errors.decode().splitlines()
    yield Outcome("files of many notes", found, (0, said(lines + summary).decode().splitlines()))


def products_besides(room: Room) -> Iterator[Outcome]:
    """Lines on products that are left out or emptied have a limit of their own, even after a thousand others."""
    frame = FRAMES["prices"]
    others = PRICE.format("06") * (LINES + 200)
    wrong = "<Product><RecordReference>W{}</RecordReference></Product>\n"
    products = "".join(wrong.format(number) for number in range(LINES + 2))
    text = f"{frame.before}\n{others}{frame.behind}".replace("</ONIXMessage>", f"\n{products}</ONIXMessage>")
    room.write(FEED, text.encode())
    came = convert(room, "--wrong", "all", FEED)
    lines = came.errors.decode().splitlines()
    found = [sum(what in line for line in lines) for what in (": Price left out: ", ": Product emptied: ")]
    # The summary has a line of each too.
    yield Outcome("lines on products besides others", (came.status, found), (1, [LINES + 1] * 2))
    counts = summed({WRONG: LINES + 2, NOTES: 2 * LINES + 202})
    yield Outcome("lines on products besides others, counted", lines[-2:], said(counts).decode().splitlines())


def regions(room: Room) -> Iterator[Outcome]:
    """Regions are read whole, however long their field is, and each of them is counted."""
    many = "GB-NIR " * 2_500
    territory = f"<Territory><RegionsIncluded>{many}WORLD</RegionsIncluded></Territory>"
    room.write(FEED, feed_of("market", territory))
    came = convert(room, FEED)
    why = "Territory without the region {} beside a country or WORLD"
    line = f"{FEED}:2:1: R1: {why.format('GB-NIR')}"
    wanted = Ran(
        0,
        message_of("market", "ProductSupply,,WORLD,\nSupplyDetail,04,,,North,21,\n"),
        said([line] * LINES + summed({why.format(".."): 2500, PRODUCTS: 1, NOTES: 2500})),
    )
    yield Outcome("the world behind 2,500 regions", came, wanted)

    long = "A" * (FIELD_BYTES + 1)
    territory = f"<Territory><RegionsExcluded>CA-{long} ECZ</RegionsExcluded></Territory>"
    room.write(FEED, feed_of("price", territory))
    came = convert(room, FEED)
    why = "Price left out: the region {}, no part of a country"
    at = FRAMES["price"].before.index("<Price>") + 1
    counts = summed({why.format(".."): 1, UNPRICED: 1, PRODUCTS: 1, NOTES: 1})
    told = [f"{FEED}:1:{at}: R1: {why.format('ECZ')}", *counts]
    yield Outcome("a region behind a long one", came, Ran(0, message_of("price"), said(told)))


def markets_of(*territories: list[str]) -> bytes:
    """A feed with a Market of each of these lists of countries."""
    markets = "".join(
        f"<Market><Territory><CountriesIncluded>{' '.join(countries)}</CountriesIncluded></Territory></Market>"
        for countries in territories
    )
    return feed_of("supply", f"{markets}<SupplyDetail>{SUPPLIER}</SupplyDetail>")


def unions(room: Room) -> Iterator[Outcome]:
    """A union has room for as many countries as fit into a field, and no more."""
    most = (FIELD_BYTES + 1) // 3
    room.write(FEED, markets_of(COUNTRIES[:200], COUNTRIES[100:most]))
    came = convert(room, FEED)
    records = f"ProductSupply,{' '.join(COUNTRIES[:most])},,\nSupplyDetail,04,,,North,21,\n"
    yield Outcome(f"Markets of {most} countries", came, Ran(0, message_of("supply", records)))

    room.write(FEED, markets_of(COUNTRIES[:200], COUNTRIES[100 : most + 1]))
    came = convert(room, FEED)
    records = FRAMES["product"].records + "EndMessage,2\n"
    found = came.status, came.output.decode(), came.errors.decode().splitlines()[-1]
    yield Outcome(f"Markets of {most + 1} countries", found, (0, records, "onixdesk: notes: 2"))
