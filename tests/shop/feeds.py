"""Feeds in ONIX, as wholesalers send them."""

from collections.abc import Iterable
from dataclasses import dataclass

from tests.shop.fake_program import SENDER


@dataclass(frozen=True)
class Book:
    """A product; `later` is a price from a day on, an empty price none."""

    number: int
    price: str = "10.00"
    reference: str = ""
    kind: str = "03"
    country: str = "GB"
    currency: str = "GBP"
    availability: str = "21"
    later: tuple[str, str] | None = None
    id_type: str = "15"

    @property
    def isbn(self) -> str:
        return f"97800000{self.number:05}"


def price(book: Book, amount: str, dates: str = "") -> str:
    return (
        f"<Price><PriceType>02</PriceType><PriceAmount>{amount}</PriceAmount>"
        f"<CurrencyCode>{book.currency}</CurrencyCode>{dates}</Price>"
    )


def supply(book: Book) -> str:
    prices = price(book, book.price) if book.price else "<UnpricedItemType>02</UnpricedItemType>"
    if book.later:
        day, amount = book.later
        dates = f"<PriceDate><PriceDateRole>14</PriceDateRole><Date>{day}</Date></PriceDate>"
        prices += price(book, amount, dates)
    return (
        f"<ProductSupply><Market><Territory><CountriesIncluded>{book.country}</CountriesIncluded></Territory></Market>"
        "<SupplyDetail><Supplier><SupplierRole>04</SupplierRole><SupplierName>North</SupplierName></Supplier>"
        f"<ProductAvailability>{book.availability}</ProductAvailability>{prices}</SupplyDetail></ProductSupply>"
    )


def product(book: Book) -> str:
    return (
        f"<Product><RecordReference>{book.reference or f'R{book.number}'}</RecordReference>"
        f"<NotificationType>{book.kind}</NotificationType><ProductIdentifier><ProductIDType>{book.id_type}</ProductIDType>"
        f"<IDValue>{book.isbn}</IDValue></ProductIdentifier><DescriptiveDetail><TitleDetail><TitleType>01</TitleType>"
        f"<TitleElement><TitleElementLevel>01</TitleElementLevel><TitleText>Book {book.number} &eacute;</TitleText>"
        f"</TitleElement></TitleDetail></DescriptiveDetail>{'' if book.kind == '05' else supply(book)}</Product>"
    )


def feed(number: int | None, books: Iterable[Book], sender: str = SENDER[1], extra: str = "") -> str:
    of_number = "" if number is None else f"<MessageNumber>{number}</MessageNumber>"
    return (
        f'<ONIXMessage release="3.0"><Header><Sender><SenderIdentifier><SenderIDType>{SENDER[0]}</SenderIDType>'
        f"<IDValue>{sender}</IDValue></SenderIdentifier></Sender>{of_number}<SentDateTime>20261130</SentDateTime>"
        f"</Header>{''.join(map(product, books))}{extra}</ONIXMessage>\n"
    )
