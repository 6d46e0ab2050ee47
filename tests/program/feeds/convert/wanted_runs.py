"""Expected words, files and statuses of `onixdesk convert`."""

from typing import NamedTuple

from tests.program.feeds.convert.case_files import FRAMES, SUPPLIER, said
from tests.program.feeds.convert.running import FEED
from tests.program.feeds.feed_notes import NOTES, PRODUCTS, WRONG as WRONG_ONES, summed
from tests.program.room import Ran

FRAME = FRAMES["products"]

ISBN = "9781234567897"

PRODUCT = (
    "<Product><RecordReference>{}</RecordReference><NotificationType>03</NotificationType>"
    f"<ProductIdentifier><ProductIDType>15</ProductIDType><IDValue>{ISBN}</IDValue></ProductIdentifier></Product>"
)


# A SupplyDetail without its Prices, and a Price.
DETAIL = f"<SupplyDetail>{SUPPLIER}{{}}</SupplyDetail>"
PRICE = "<Price><PriceAmount>1</PriceAmount></Price>"


def supplied(reference: str, details: str) -> str:
    """A product with these SupplyDetails."""
    return PRODUCT.format(reference).replace("</Product>", f"<ProductSupply>{details}</ProductSupply></Product>")


def feed_of(*references: str) -> bytes:
    """A feed of products with these references, each on a line of its own, from the second on."""
    return "\n".join([FRAME.before, *map(PRODUCT.format, references), FRAME.behind]).encode()


def message_of(*references: str, number: int = 1) -> bytes:
    """The records that such a feed gives."""
    products = "".join(f"Product,{reference},03,15,{ISBN}\n" for reference in references)
    opening = FRAME.records.replace(",1,", f",{number},")
    return f"{opening}{products}EndMessage,{len(references) + 1}\n".encode()


ONE, TWO = feed_of("R1"), feed_of("R1", "R2")

# A feed that is refused at its Header, and the line about it.
BAD = ONE.replace(b"<MessageNumber>1</MessageNumber>", b"")
BAD_SAID = "1:28: refused: no MessageNumber; --number N gives one"

# A feed of two products; the first is left out.
WRONG = feed_of("", "R2")


def ends(status: int, *lines: str) -> Ran:
    """A run without records that ends so and says this."""
    return Ran(status, b"", said([*lines]))


class Case(NamedTuple):
    """Existing files, words, how the run ends, and the files that it leaves beside those."""

    name: str
    files: dict[str, bytes]
    words: list[str]
    wanted: Ran
    made: dict[str, bytes] = {}
    given: bytes = b""


CASES = [
    Case("standard input", {}, [], Ran(0, message_of("R1")), given=ONE),
    Case("standard input by its name", {}, ["-"], Ran(0, message_of("R1")), given=ONE),
    Case("standard input, refused", {}, ["-"], ends(1, f"-:{BAD_SAID}"), given=BAD),
    Case("standard input into a folder", {}, ["-o", "."], Ran(0), {"message.csv": message_of("R1")}, given=ONE),
    Case(
        "parts on standard output follow each other",
        {FEED: TWO},
        ["--parts", "3", "--number", "5", FEED],
        Ran(0, message_of("R1", "R2", number=13) + message_of(number=14) + message_of(number=15)),
    ),
    Case(
        "parts in files",
        {FEED: TWO},
        ["--parts", "2", "-o", ".", FEED],
        Ran(0),
        {"feed.part-01.csv": message_of("R1", "R2", number=1), "feed.part-02.csv": message_of(number=2)},
    ),
    Case(
        "a hundred parts have three digits",
        {FEED: TWO},
        ["--parts", "100", "-o", ".", FEED],
        Ran(0),
        {
            f"feed.part-{part:03}.csv": message_of(*(["R1", "R2"] if part == 1 else []), number=part)
            for part in range(1, 101)
        },
    ),
    Case(
        "a refused file among others",
        {"a.xml": ONE, "b.xml": BAD, "c.xml": TWO},
        ["-o", ".", "a.xml", "b.xml", "c.xml"],
        ends(1, f"b.xml:{BAD_SAID}"),
        {"a.csv": message_of("R1"), "c.csv": message_of("R1", "R2")},
    ),
    Case(
        "a file that is not there outweighs one that is refused",
        {"b.xml": BAD, "c.xml": TWO},
        ["-o", ".", "absent.xml", "b.xml", ".", "c.xml"],
        ends(3, "absent.xml: No such file or directory", f"b.xml:{BAD_SAID}", ".: Is a directory"),
        {"c.csv": message_of("R1", "R2")},
    ),
    Case(
        "a wrong product left out",
        {FEED: WRONG},
        ["--wrong", "few", FEED],
        Ran(
            1,
            message_of("R2"),
            said(
                [
                    f"{FEED}:2:1: missing: Product left out: RecordReference missing",
                    *summed({"Product left out: RecordReference ..": 1, PRODUCTS: 2, WRONG_ONES: 1, NOTES: 1}),
                ]
            ),
        ),
    ),
    Case(
        "a file is there that has the same bytes",
        {"a.xml": ONE, "a.csv": message_of("R1")},
        ["-o", ".", "a.xml"],
        Ran(0),
    ),
    Case(
        "a file is there that has other bytes",
        {"a.xml": ONE, "a.csv": message_of("R2")},
        ["-o", ".", "a.xml"],
        ends(3, "a.csv: already exists, with different content"),
    ),
    Case(
        "the file of a later part exists with different content, and no part is written",
        {"a.xml": ONE, "a.part-02.csv": b"other"},
        ["--parts", "2", "-o", ".", "a.xml"],
        ends(3, "a.part-02.csv: already exists, with different content"),
    ),
    Case(
        "an empty file, as a signal may leave it, counts as not there",
        {"a.xml": ONE, "a.part-02.csv": b""},
        ["--parts", "2", "-o", ".", "a.xml"],
        Ran(0),
        {"a.part-01.csv": message_of("R1"), "a.part-02.csv": message_of(number=2)},
    ),
    Case(
        "a file that becomes the same as another",
        {"a.xml": ONE, "a.onix": TWO},
        ["-o", ".", "a.xml", "a.onix"],
        ends(3, "a.csv: already exists, with different content"),
        {"a.csv": message_of("R1")},
    ),
    Case("a folder that is not there", {"a.xml": ONE}, ["-o", "absent", "a.xml"], ends(3, "absent: no folder")),
    Case("a folder that is a file", {"a.xml": ONE}, ["-o", "a.xml", "a.xml"], ends(3, "a.xml: no folder")),
]
