"""What bin/onixdesk-look says of a sample."""

import json
import re
from collections.abc import Iterator

from tests.program.feeds.convert.case_files import FRAMES
from tests.program.feeds.convert.wanted_runs import BAD, PRICE, PRODUCT
from tests.program.inbox.inboxes import script
from tests.program.room import Ran, Room
from tests.program.feeds.sample_feeds import FOLDER
from tests.running import Outcome
from tools.root import ROOT
from tools.words import Word, sought

PROGRAM = ROOT / "bin/onixdesk-look"

LIKE = {"country": "GB", "currency": "GBP", "price_type": "02"}
DAY = "20250401"


def look(room: Room, *words: Word, **like: str) -> Ran:
    room.write("like.json", json.dumps(LIKE | like).encode())
    return room.call([PROGRAM, "--program", room.program, "--like", "like.json", "--day", DAY, *words])


def sections(ran: Ran) -> dict[str, list[str]]:
    """The lines below each title, without leading spaces."""
    found = {}
    for part in ran.output.decode().split("\n\n"):
        title, *lines = part.splitlines()
        found[title] = [line.strip() for line in lines]
    return found


def supplied(price: str, supplier: str = "North", role: str = "04") -> str:
    return (
        "<ProductSupply><Market><Territory><CountriesIncluded>GB IE</CountriesIncluded></Territory></Market>"
        f"<SupplyDetail><Supplier><SupplierRole>{role}</SupplierRole><SupplierName>{supplier}</SupplierName></Supplier>"
        f"<ProductAvailability>21</ProductAvailability>{price}</SupplyDetail></ProductSupply>"
    )


def coded(code: str, scheme: str = "") -> str:
    name = f"<DiscountCodeTypeName>{scheme}</DiscountCodeTypeName>" if scheme else ""
    text = f"<DiscountCoded><DiscountCodeType>02</DiscountCodeType>{name}<DiscountCode>{code}</DiscountCode></DiscountCoded>"
    return PRICE.replace("</Price>", f"{text}</Price>")


def ended(day: str) -> str:
    date = f"<PriceDate><PriceDateRole>15</PriceDateRole><Date>{day}</Date></PriceDate>"
    return PRICE.replace("</Price>", f"{date}</Price>")


def product(place: int, supply: str, notification: str = "03") -> str:
    text = PRODUCT.format(f"R{place}").replace("9781234567897", f"97812345{place:05}")
    text = text.replace("<NotificationType>03<", f"<NotificationType>{notification}<")
    return text.replace("</Product>", f"{supply}</Product>")


def feed(products: list[str], number: str = "<MessageNumber>1</MessageNumber>") -> bytes:
    frame = FRAMES["products"]
    text = "\n".join([frame.before, *products, frame.behind])
    return text.replace("<MessageNumber>1</MessageNumber>", number).encode()


def what_is_in_it(room: Room) -> Iterator[Outcome]:
    euros = PRICE.replace("</Price>", "<CurrencyCode>EUR</CurrencyCode></Price>")
    products = [
        product(0, supplied(PRICE)),
        product(1, supplied(ended("20250401"))),
        product(2, supplied(ended("20250331"))),
        product(3, supplied(PRICE, "South", "01") + supplied(euros)),
        product(4, supplied(PRICE), "04"),
        product(5, "", "05"),
    ]
    room.write("north-7.xml", feed(products))
    ran = look(room, "north-7.xml")
    found = sections(ran)
    yield Outcome("the status", (ran.status, ran.errors), (0, b""))
    yield Outcome("products", found["Products by NotificationType"], ["4  03", "1  04", "1  05"])
    suppliers = ["5  North (SupplierRole 04)", "1  South (SupplierRole 01)"]
    yield Outcome("suppliers", found["Suppliers by SupplyDetails"], suppliers)
    yield Outcome("prices", found["Prices by type and currency"], ["5  02 GBP", "1  02 EUR"])
    # The desk has neither what ended yesterday, nor what an update names that it never had.
    yield Outcome("articles", f"Of 6 articles 3 have a price: {DAY},GB,GBP,02" in found, True)
    remarks = [line.partition(":")[0] for line in found["To look at"]]
    yield Outcome("what follows", remarks, ["1 update of products", "several suppliers"])
    paste = ["Agree,north,06,S,,,1", "SENDER=06,S", "NUMBER=own", "WORDS="]
    yield Outcome("what to paste", [each for title, each in found.items() if title.startswith("To paste")], [paste])


# What a feed says of its number, the first number to agree on, and NUMBER.
NUMBERS = [
    ("<MessageNumber>7</MessageNumber>", 7, "own"),
    ("", 1, "next"),
    ("<MessageNumber>20250401</MessageNumber>", 1, "next"),
    ("<MessageNumber>250401</MessageNumber>", 1, "next"),
    ("<MessageNumber>251301</MessageNumber>", 251301, "own"),
]


def numbers(room: Room) -> Iterator[Outcome]:
    """A feed without a number is looked at as number 1; a number that is a date cannot be counted on."""
    for text, first, kind in NUMBERS:
        room.write("south.xml", feed([product(0, supplied(PRICE))], text))
        lines = look(room, "south.xml").output.decode()
        wanted = f"  Agree,south,06,S,,,{first}\n", f"  NUMBER={kind}\n", "Of 1 article 1 have a price"
        yield Outcome(f"number {text or 'none'}", [each in lines for each in wanted], [True] * 3)


# What the converter says of a feed that is too large for one message.
TOO_FEW = ROOT / "crates/feed_files/src/refusal.rt"


def parts(room: Room) -> Iterator[Outcome]:
    """If the converter says that two messages are needed, there are two, and four times as many to agree on."""
    needs = sought(r'"(the message needs \{count\} parts)', TOO_FEW.read_text(encoding="utf-8")).format(count=2)
    program = script(
        room,
        "onixdesk",
        f"""case "$*" in
*--parts*|--db*) exec "{room.program}" "$@" ;;
*) cat >/dev/null; echo "onixdesk: -:2:1: refused: {needs}, not 1" >&2; exit 1 ;;
esac""",
    )
    text = "<MessageNumber>3</MessageNumber>"
    room.write("large.xml", feed([product(place, supplied(PRICE)) for place in range(10)], text))
    lines = look(room, "--program", program, "large.xml").output.decode()
    # Number 3 of eight parts each begins at 17.
    wanted = "number: 3; messages: 2\n", "  Agree,large,06,S,,,17\n", "  WORDS=--parts 8\n", "Of 10 articles 10 have"
    yield Outcome("parts", [each in lines for each in wanted], [True] * 4)


def samples(room: Room) -> Iterator[Outcome]:
    """The samples, one in short tags and ISO-8859-1 with names of HTML."""
    for name in ("two-products", "two-products-short"):
        ran = look(room, FOLDER / f"{name}.xml")
        codes = len(re.findall(b"<(?:DiscountCode|j364)>", (FOLDER / f"{name}.xml").read_bytes()))
        found = [int(line.split()[0]) for line in sections(ran).get("Discount codes by prices", [])]
        yield Outcome(name, (ran.status, sum(found)), (0, codes))
    packed = room.call(["gzip", "-c", FOLDER / "two-products.xml"]).output
    room.write("sample.xml.gz", packed)
    yield Outcome("a packed one", look(room, "sample.xml.gz").status, 0)


def wrong_products(room: Room) -> Iterator[Outcome]:
    without = PRODUCT.format("").replace("<RecordReference></RecordReference>", "")
    room.write("wrong.xml", feed([without, without, product(0, supplied(PRICE))]))
    ran = look(room, "wrong.xml")
    said = "--wrong all in WORDS lets them through" in "".join(sections(ran)["To look at"])
    yield Outcome("too many wrong products", (ran.status, said), (1, True))


def refused(room: Room) -> Iterator[Outcome]:
    room.write("bad.xml", BAD.replace(b"<SenderIDType>06</SenderIDType><IDValue>S</IDValue>", b""))
    came = look(room, "bad.xml")
    found = (
        came.status,
        came.output.startswith(b"refused: line "),
        b"--sender TYPE,VALUE in WORDS gives one" in came.output,
    )
    yield Outcome("a feed without a sender", found, (1, True, True))
    came = look(room, "absent.xml")
    yield Outcome("no file", came, Ran(3, b"", b"onixdesk-look: absent.xml: there is no such file\n"))
    room.write("a.xml", feed([product(0, supplied(PRICE))]))
    for line in ("", "--words=-o a.xml", "--words=--unknown a.xml", "--day 20250230 a.xml", "--like none.json a.xml"):
        came = look(room, *line.split())
        yield Outcome(f"bad words {line}", (came.status, came.output), (2, b""))
    came = look(room, "--words=--id-type 01", "a.xml")
    yield Outcome("words of the converter", (came.status, b"WORDS=--id-type 01\n" in came.output), (0, True))


def terms(room: Room) -> Iterator[Outcome]:
    """With retail prices alone, a shop that pays net prices is told to write terms, with the table for their codes."""
    products = [
        product(place, supplied(price))
        for place, price in enumerate([coded("A", "Harper"), coded("B"), coded("B"), PRICE])
    ]
    room.write("north-7.xml", feed(products))
    found = sections(look(room, "north-7.xml", price_type="05"))
    codes = ["2  02,B, of prices of type 02", "1  02,A of Harper, of prices of type 02"]
    yield Outcome("discount codes", found["Discount codes by prices"], codes)
    yield Outcome("no price", f"Of 4 articles 0 have a price: {DAY},GB,GBP,05" in found, True)
    (remark,) = found["To look at"]
    yield Outcome("write terms", remark.endswith("write terms (TERMS)"), True)
    table = "\n".join(found["A table for TERMS, once each percent is written"])
    room.write("shop.toml", table.encode())
    yield Outcome("nobody has written a percent", room.run("terms", "shop.toml").status, 2)
    room.write("shop.toml", table.replace('percent = ""', 'percent = "40"').encode())
    yield Outcome("each is written", room.run("terms", "shop.toml").output, b"terms 2\n")
    yield Outcome(
        "that of a scheme goes first", 0 < table.find('scheme = "Harper"') < table.find('codes = ["02,B"]'), True
    )
    for scheme, net in ("Harper", 1), ("Pan", 0):
        lines = "[[term]]", 'types = ["02"]', 'codes = ["02,A"]', f'scheme = "{scheme}"', 'net = "05"', 'percent = "40"'
        room.write("a.toml", "\n".join(lines).encode())
        found = sections(look(room, "--terms", "a.toml", "north-7.xml", price_type="05"))
        yield Outcome(
            f"with terms of {scheme}", found["Prices by type and currency"], ["4  02 GBP", *["1  05 GBP"] * net]
        )
    room.write("shop.toml", b"shop = 1")
    came = look(room, "--terms", "shop.toml", "north-7.xml")
    yield Outcome("no terms", (came.status, b"terms: not TOML" in came.errors), (2, True))


def leaves_nothing(room: Room) -> Iterator[Outcome]:
    for name in ("feeds", "tmp"):
        room.path(name).mkdir()
    room.write("feeds/a.xml", feed([product(0, supplied(PRICE))]))
    words: list[Word] = ["env", f"TMPDIR={room.path('tmp')}", PROGRAM, "--program", room.program]
    room.write("like.json", json.dumps(LIKE).encode())
    came = room.call([*words, "--like", "like.json", "feeds/a.xml"])
    left = [path.name for folder in ("feeds", "tmp") for path in room.path(folder).iterdir()]
    yield Outcome("what it leaves", (came.status, left), (0, ["a.xml"]))
