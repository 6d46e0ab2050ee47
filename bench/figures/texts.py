"""The measured batches, as pieces of text: an agreement, messages of the series `north`, and questions."""

from collections.abc import Iterator

AGREEMENT = "Agree,north,06,4012345000009,06,5012345678900,1\n"
CATALOGUE_QUESTION = "AskCatalogue,north\n"

SUPPLY = "SupplyDetail,04,06,4012345000009,North Books,21,\n"
POUNDS = "Price,02,12.99,GBP,,WORLD,,20250101,20251231\n"
EUROS = "Price,01,15.50,EUR,IE FR DE,,,20250101,\n"


def message(number: int, records: list[str]) -> str:
    """A message with these records between its first and its last."""
    opening = f"Message,1,06,4012345000009,06,5012345678900,{number},1,20250301,,\n"
    return f"{opening}{''.join(records)}EndMessage,{len(records) + 1}\n"


def isbn(product: int) -> str:
    return f"978{product:010}"


def offered(product: int) -> list[str]:
    """The records of a product with one supply and one price."""
    return [f"Product,R{product},03,15,{isbn(product)}\n", "ProductSupply,GB,,\n", SUPPLY, POUNDS]


def offers(number: int, products: int) -> str:
    """The message of that number, with so many new products: number 1 has the first ones."""
    places = range((number - 1) * products + 1, number * products + 1)
    return message(number, [record for place in places for record in offered(place)])


def supplied(product: str) -> list[str]:
    """The records of a product with two supplies of two prices each."""
    records = [f"Product,{product},03,15,9781234567897,03,9781234567897\n"]
    for market in ("GB IE", "US CA AU"):
        records += [f"ProductSupply,{market},,\n", SUPPLY, POUNDS, EUROS]
    return records


def greatest_messages(count: int) -> Iterator[str]:
    """So many messages of 20 products each, with 2 supplies of 2 prices."""
    for number in range(1, count + 1):
        yield message(number, [line for place in range(20) for line in supplied(f"NORTH-{number}-{place}")])


def scattered(products: int, count: int) -> Iterator[str]:
    """So many ISBNs among so many products of `offers`, each far from the one before it."""
    return (isbn(place * 7919 % products + 1) for place in range(count))


def price_questions(products: int, count: int) -> Iterator[str]:
    return (f"AskPrice,{each},20250301,GB,GBP,02\n" for each in scattered(products, count))
