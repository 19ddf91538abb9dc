"""The tables of an auction that is over, as CSV: for a spreadsheet or for a program.

Bidders and categories have their short names. Amounts are in the unit of the award and include reserves, unless a
column says `net`. A price is exact, for example `79+2/3` if no decimal is, and the next column has its first six
decimals.
"""

from __future__ import annotations

import csv
import io
from collections.abc import Iterator, Sequence
from fractions import Fraction
from operator import mul

from cca_tools.data.numbers import decimal, exact
from cca_tools.page.source import Source, given
from cca_tools.page.winners import origins

FOLDER = "tables"
Row = Sequence[str | int]
Sheet = Iterator[Row]


def wide(widths: Sequence[Fraction], package: Sequence[int]) -> Fraction:
    """The MHz of a package."""
    return sum(map(mul, widths, package), Fraction(0))


def winners(source: Source) -> Sheet:
    """Who won what and pays what, with the price of a MHz if the names have the width of all lots."""
    widths = source.widths
    by_mhz = ["mhz", "price_per_mhz"] if widths else []
    yield ["bidder", "name", *source.short_categories, "reserve", "bid", "vickrey", "price", "price_decimal", *by_mhz]
    for j in source.winners:
        package, bid = source.won(j)
        pays, mhz = source.pays(j), wide(widths, package)
        more = [decimal(mhz), decimal(pays / mhz)] if widths else []
        names = [source.short_bidder(j), source.names.bidder(j)]
        amounts: list[str | int] = [source.reserve(j), bid, source.vickrey(j), exact(pays), decimal(pays)]
        yield [*names, *package, *amounts, *more]


def rounds(source: Source) -> Sheet:
    """The price of each category in each round, and how many lots were asked for."""
    supply = given(source.award).supply
    yield ["round", "category", "price", "asked", "supply", "excess"]
    for it in given(source.auction).rounds:
        for row in zip(source.short_categories, it.prices, it.demand, supply, it.excess):
            yield [it.number, *row]


def prices(source: Source) -> Sheet:
    """Of each category the reserve, the final clock price, and the lots sold, with prices of a MHz if known."""
    award, last = given(source.award), given(source.auction).rounds[-1].prices
    sold = [sum(source.won(j)[0][c] for j in source.winners) for c in range(len(award.categories))]
    widths = source.widths
    more = ["mhz", "reserve_per_mhz", "final_clock_price_per_mhz"] if widths else []
    yield ["category", "name", "supply", "sold", "reserve", "final_clock_price", *more]
    for c, (it, short) in enumerate(zip(award.categories, source.short_categories)):
        by_mhz = [widths[c], it.reserve / widths[c], last[c] / widths[c]] if widths else []
        yield [short, it.name, it.supply, sold[c], it.reserve, last[c], *map(decimal, by_mhz)]


def bids(source: Source) -> Sheet:
    """Each bid of the book: its package, its amount, where it comes from, and whether it won."""
    book, choice = given(source.book), given(source.certificate).choice
    yield ["bidder", "number", *source.short_categories, "amount", "net", "from", "won"]
    for j, (pairs, nets) in enumerate(zip(book.bids, book.net), 1):
        whence = origins(given(source.auction), j)
        for place, ((package, amount), net) in enumerate(zip(pairs, nets), 1):
            won = "yes" if choice[j - 1] == place else "no"
            yield [source.short_bidder(j), place, *package, amount, net, whence[package], won]


SHEETS = {"winners": winners, "rounds": rounds, "prices": prices, "bids": bids}


def text(rows: Sheet) -> bytes:
    """Rows as CSV."""
    made = io.StringIO()
    csv.writer(made, lineterminator="\n").writerows(rows)
    return made.getvalue().encode()


def sheets(source: Source) -> dict[str, bytes]:
    """The files of the tables by their names, such as `tables/winners.csv`."""
    return {f"{FOLDER}/{name}.csv": text(made(source)) for name, made in SHEETS.items()}
