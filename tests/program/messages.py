"""Messages of the series `north`, as many cases send them, and the answers to them."""

AGREEMENT = b"Agree,north,06,4012345000009,06,5012345678900,1\n"
AGREED = b"agreed,north,1\n"


def bare(number: int) -> bytes:
    """A message without products."""
    return b"Message,1,06,4012345000009,06,5012345678900,%d,,,,\nEndMessage,1\n" % number


def priced(number: int, reference: str, amount: str) -> bytes:
    """A message that puts one record, at a price."""
    return f"""\
Message,1,06,4012345000009,06,5012345678900,{number},1,20250301,02,GBP
Product,{reference},03,15,9781234567897
ProductSupply,GB IE,,
SupplyDetail,04,06,4012345000009,North Books,21,
Price,,{amount},,,,,,
EndMessage,5
""".encode()


def priced_by_number(number: int, products: int) -> bytes:
    """A message that puts so many records, each with the number as its price."""
    records = "".join(
        f"Product,R{place},03,15,97800000000{place:02}\nProductSupply,GB IE,,\n"
        f"SupplyDetail,04,06,4012345000009,North Books,21,\nPrice,02,{number},GBP,,,,,\n"
        for place in range(products)
    )
    opening = f"Message,1,06,4012345000009,06,5012345678900,{number},1,20250301,,\n"
    return f"{opening}{records}EndMessage,{4 * products + 1}\n".encode()


def applied(number: int, replaced: int = 0) -> bytes:
    """The answer to a message that put so many records."""
    return b"applied,north,%d,replaced=%d,updated=0,deleted=0,unknown=0,ignored=0\n" % (number, replaced)


def held(number: int, waiting_for: int) -> bytes:
    return b"held,north,%d,waiting-for=%d\n" % (number, waiting_for)
