"""The certificate of the prices of a book with any number of winners, or the limit that it would exceed."""

from __future__ import annotations

import math
from collections.abc import Iterable, Iterator, Sequence
from dataclasses import dataclass
from fractions import Fraction
from typing import TypeAlias

from cca_tools.pricing.fewer_rows import Fewest, Shown, fewest
from cca_tools.pricing.search import Found, Market, Turn, core_point, market_of
from cca_tools.pricing.tables import Filler, Lines
from cca_tools.rules.book import Book, joined
from cca_tools.rules.certificate import Certificate, Row
from cca_tools.rules.lines import WIDE
from cca_tools.rules.printing import fraction
from cca_tools.rules.stops import MOST, Stop, limit
from cca_tools.rules.types import Choice, ScaledNet

GridCertificate: TypeAlias = Certificate[Book, Choice, Lines]


@dataclass(frozen=True)
class Priced:
    """A certificate, how its tables become numbers, and the turns of the search for its prices."""

    certificate: GridCertificate
    filler: Filler
    market: Market
    turns: list[Turn]

    def lines(self) -> Iterator[str]:
        """The lines of the certificate, without their line feeds."""
        return cert_lines(self.filler, self.certificate)

    def round_lines(self) -> Iterator[str]:
        """What `--rounds` prints of the turns (docs/FORMATS.md, "What is printed of winners and prices")."""
        return (round_line(self.market, number, turn) for number, turn in enumerate(self.turns, 1))


def certificate_of(book: Book, weights: Sequence[int] | None = None, seconds: float = 0) -> Priced:
    """The prices of a book and their certificate. Bidders without weights have weight 1. A search for fewer rows, if
    there are more than a certificate has, goes on for `seconds`. A `Stop` of status 7 if the certificate would exceed
    the limit of rows or of digits."""
    market = market_of(book)
    found = core_point(market, [(weights or [1] * book.bidders)[k] for k in market.winners])
    shown = within_rows(fewest(market, found, MOST["rows"], seconds), seconds)
    return Priced(certificate(market, found, shown), market.filler, market, found.turns)


def within_rows(found: Fewest, seconds: float) -> Shown:
    """The rows, if a certificate has room for them."""
    count = len(found.shown.rows)
    if count > MOST["rows"]:
        raise too_many_rows(count, found.is_least, seconds)
    return found.shown


def too_many_rows(count: int, is_least: bool, seconds: float) -> Stop:
    """The stop of a book whose prices need more rows than a certificate has, as far as is known."""
    if is_least:
        known = f"these prices need {count} rows"
    elif seconds:
        known = f"the fewest rows that were found for these prices are {count}"
    else:
        known = f"{count} rows were found for these prices, and --search SECONDS may find fewer"
    why = f"{known}; a certificate has at most {MOST['rows']}. Nothing is written. docs/MODELLED.md says what to do"
    return limit("rows", count, why)


def certificate(market: Market, found: Found, shown: Shown) -> GridCertificate:
    """The certificate of a point and the rows that show it, if its numbers are within the limits of the format."""
    parts = [*found.point.pays, *shown.first, *shown.second]
    den = math.lcm(1, *(part.denominator for part in parts))
    need_digits(market, shown, den)
    lowered = market.filler.scaled(found.lowered, den // found.den)
    rows = [row_of(market, shown, i, den) for i in range(len(shown.rows))]
    without = {k + 1: part for k, part in zip(market.winners, market.without)}
    pay = pay_of(market, found, den)
    return Certificate(market.book, den, market.value, market.choice, market.table, without, pay, rows, lowered)


def need_digits(market: Market, shown: Shown, den: int) -> None:
    """Stops if a number of the certificate isn't strictly between -2^120 and 2^120. After that, no entry of a table is
    too great either: each is at most `den * value`."""
    most = max([den * (market.value + 1), *(abs(whole(w * den)) for w in shown.second)])
    if most >= WIDE:
        raise limit("digits", len(str(most)), "a number of the certificate is 2^120 or more. Nothing is written")


def row_of(market: Market, shown: Shown, i: int, den: int) -> Row[Choice]:
    """A row of the certificate."""
    row = shown.rows[i]
    members = [k + 1 for place, k in enumerate(market.winners) if row.holds(place)]
    return Row(members, whole(shown.first[i] * den), whole(shown.second[i] * den), row.choice)


def pay_of(market: Market, found: Found, den: int) -> list[ScaledNet]:
    """What each bidder pays, times `den`."""
    pay = [ScaledNet(0)] * market.book.bidders
    for k, price in zip(market.winners, found.point.pays):
        pay[k] = ScaledNet(whole(price * den))
    return pay


def whole(part: Fraction) -> int:
    """The whole number that a fraction is."""
    assert part.denominator == 1
    return part.numerator


def round_line(market: Market, number: int, turn: Turn) -> str:
    """The line of a turn."""
    point = f"round {number} point {' '.join(map(fraction, turn.pays))}".rstrip()
    if turn.demand is None:
        return f"{point} end"
    members = [k + 1 for i, k in enumerate(market.winners) if turn.demand.holds(i)]
    return f"{point} {joined('row', members)} {joined('choice', turn.demand.choice)} excess {fraction(turn.excess)}"


# The text, as docs/CERTIFICATES.md has it.


def cert_lines(filler: Filler, cert: GridCertificate) -> Iterator[str]:
    """The lines of a certificate."""
    yield from first_lines(filler.book)
    yield from (f"den {cert.den}", f"value {cert.value}", joined("choice", cert.choice), "table")
    yield from table_lines(filler, cert.table)
    for j, (choice, table) in cert.without.items():
        yield from (f"without {j}", joined("choice", choice), "table")
        yield from table_lines(filler, table)
    yield from (joined("pay", cert.pay), f"rows {len(cert.rows)}")
    for row in cert.rows:
        yield from row_lines(row)
    yield "lowered"
    yield from table_lines(filler, cert.lowered)
    yield "end"


def first_lines(book: Book) -> list[str]:
    """The line of the version, and the line of the limits in the second version."""
    is_first = book.bidders <= MOST["first version bidders"] and book.states <= MOST["first version states"]
    return ["cert 1"] if is_first else ["cert 2", f"limits {MOST['bidders']} {MOST['states']}"]


def table_lines(filler: Filler, lines: Lines) -> Iterator[str]:
    """The lines of a table."""
    return (joined("t", filler.numbers(line)) for line in lines)


def row_lines(row: Row[Choice]) -> Iterable[str]:
    """The lines of a row."""
    return joined("row", row.members), joined("mult", [row.first, row.second]), joined("choice", row.choice)
