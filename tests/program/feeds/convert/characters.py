"""How `onixdesk convert` reads a feed's bytes and named characters, compared with Python's codecs and HTML."""

import codecs
from collections.abc import Iterator
from html.entities import html5

from tests.program.feeds.convert.case_files import FRAMES
from tests.program.feeds.convert.running import convert, refused_lines
from tests.program.feeds.convert.wanted_runs import ISBN, PRODUCT
from tests.program.feeds.feed_oracle import records_text
from tests.program.room import Ran, Room
from tests.running import Outcome

FRAME = FRAMES["products"]

# Names of encodings, by Python's; UTF-16 declared over bytes without a mark is UTF-8.
NAMES = {
    "utf-8": ["UTF-8", "utf8", "UTF_8", "UTF-16", "utf-16"],
    "latin-1": ["ISO-8859-1", "ISO8859_1", "Latin1", "LATIN-1"],
    "iso8859-15": ["ISO-8859-15", "iso8859_15", "iso-8859_15"],
    "cp1252": ["Windows-1252", "windows1252", "cp1252", "CP-1252"],
    "ascii": ["US-ASCII", "us_ascii", "ASCII", "ascii"],
}
# A mark takes precedence over the declaration.
MARKED = [("utf-8", codecs.BOM_UTF8, name) for name in ("", "UTF-8", "ISO-8859-1", "EBCDIC")]
WHITE_SPACE = "\t\n"
OF_UNICODE = "é½€𐀀\U0010fffd"


def characters_of(codec: str) -> str:
    """All characters beyond ASCII, or some if it has all of Unicode."""
    return OF_UNICODE if codec.startswith("utf") else bytes(range(0x80, 0x100)).decode(codec, "ignore")


def feed_of(declared: str, *products: str) -> str:
    declaration = f'<?xml version="1.0" encoding="{declared}" ?>' if declared else ""
    return declaration + FRAME.before + "".join(products) + FRAME.behind


def message_of(*references: str) -> bytes:
    records = [["Product", reference, "03", "15", ISBN] for reference in references]
    return FRAME.records.encode() + records_text([*records, ["EndMessage", str(len(records) + 1)]])


def encodings(room: Room) -> Iterator[Outcome]:
    encoded = [(codec, b"", name) for codec, names in NAMES.items() for name in names]
    for codec, mark, name in encoded + MARKED:
        text = f"x{characters_of(codec)}x"
        came = convert(room, given=mark + feed_of(name, PRODUCT.format(text)).encode(codec))
        yield Outcome(f"convert: {name} in {codec}{' with a mark' if mark else ''}", came, Ran(0, message_of(text)))


def names_of_elements(room: Room) -> Iterator[Outcome]:
    """A letter of an encoding may be in a name, another sign may not."""
    for codec, name, letter in [("latin-1", "latin1", "é"), ("iso8859-15", "ISO-8859-15", "š")]:
        came = convert(room, given=feed_of(name, f"<{letter}/>", PRODUCT.format("R1")).encode(codec))
        yield Outcome(f"convert: a name in {codec}", came, Ran(0, message_of("R1")))
        came = convert(room, given=feed_of(name, "<×/>").encode(codec))
        yield Outcome(f"convert: no name in {codec}", (came.status, refused_lines(came)), (1, [("-", 1)]))


def utf_16(room: Room) -> Iterator[Outcome]:
    """A feed with this mark is refused, the line says how to recode it, and then it is read."""
    text = feed_of("UTF-16", PRODUCT.format("é"))
    for codec, mark in ("utf-16-le", codecs.BOM_UTF16_LE), ("utf-16-be", codecs.BOM_UTF16_BE):
        for data in mark + text.encode(codec), mark:
            came = convert(room, given=data)
            is_told = b"iconv -f UTF-16 -t UTF-8" in came.errors
            found = came.status, came.output, refused_lines(came), is_told
            yield Outcome(f"convert: {data[:20]!r}", found, (1, b"", [("-", 1)], True))
        recoded = room.call(["iconv", "-f", "UTF-16", "-t", "UTF-8"], mark + text.encode(codec)).output
        yield Outcome(f"convert: {codec}, recoded", convert(room, given=recoded), Ran(0, message_of("é")))
    came = convert(room, given=feed_of("UTF16", "<x>é</x>").encode("latin-1"))
    ended = came.status, came.output, len(refused_lines(came))
    yield Outcome("convert: UTF-16 that is neither it nor UTF-8", ended, (1, b"", 1))


def named_characters(room: Room) -> Iterator[Outcome]:
    """All of HTML, a hundred in a product; two of them are white space."""
    names = sorted(name for name in html5 if name.endswith(";"))
    some = [names[first : first + 100] for first in range(0, len(names), 100)]
    products = [PRODUCT.format("".join(f"x&{name}" for name in each)) for each in some]
    read = {name: html5[name] if html5[name] not in WHITE_SPACE else " " for name in names}
    texts = ["".join(f"x{read[name]}" for name in each) for each in some]
    came = convert(room, given=feed_of("", *products).encode())
    yield Outcome("convert: named characters", came, Ran(0, message_of(*texts)))
