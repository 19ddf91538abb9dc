"""What is printed of a certificate that passes: winners in order, with what they bid, their Vickrey prices and what
they pay."""

from __future__ import annotations

from collections.abc import Iterator
from fractions import Fraction

from cca_tools.rules.certificate import BookCertificate
from cca_tools.rules.money import gross_of, gross_price_of, total, unscaled
from cca_tools.rules.placement import PlaceCertificate
from cca_tools.rules.types import GrossPrice


def fraction(top: int | Fraction, den: int = 1) -> str:
    """A fraction as its whole part, or as `W+R/E` where R parts of E are left over."""
    whole, rest = divmod(Fraction(top, den), 1)
    return f"{whole}+{rest}" if rest else f"{whole}"


def revenue(certificate: BookCertificate) -> GrossPrice:
    """What all winners pay, reserves included."""
    book = certificate.book
    reserves = sum(book.reserve(book.winning(certificate.choice, j)[0]) for j in certificate.winners)
    return gross_price_of(unscaled(total(certificate.pay), certificate.den), reserves)


def price_lines(certificate: BookCertificate) -> Iterator[str]:
    """The lines of the prices of a book, without the line `yes`."""
    book = certificate.book
    for j in certificate.winners:
        package, amount = book.winning(certificate.choice, j)
        reserve = book.reserve(package)
        vickrey, pays = gross_of(certificate.vickrey(j), reserve), gross_price_of(certificate.pays(j), reserve)
        words = ["winner", book.names[j - 1], *package, "bid", amount, "vickrey", vickrey, "pays", fraction(pays)]
        yield " ".join(map(str, words))
    yield f"net {certificate.value}"
    yield f"revenue {fraction(revenue(certificate))}"


def place_lines(certificate: PlaceCertificate) -> Iterator[str]:
    """The lines of the prices of a placement, without the line `yes`."""
    slots, choice = certificate.book, certificate.choice
    starts = slots.starts(choice.order)
    for j in choice.order:
        yield f"placed {slots.names[j - 1]} {starts[j]} {slots.widths[j - 1]}"
    for j in certificate.winners:
        start, amount = slots.winning(choice, j)
        pays = fraction(certificate.pays(j))
        yield f"winner {slots.names[j - 1]} {start} bid {amount} vickrey {certificate.vickrey(j)} pays {pays}"
    yield f"value {certificate.value}"
    yield f"revenue {fraction(unscaled(total(certificate.pay), certificate.den))}"
