"""Core constraint generation: the core point of least sum that is nearest to the Vickrey prices (Day and Raghavan 2007,
Day and Cramton 2012).

Each turn finds the coalition that blocks most, by a table of lowered worths (docs/CERTIFICATES.md, C9), and adds its
row. If the denominator of the point is too great for 64 bits, a table of rounded payments is filled first, and the
coalition that it finds is tested exactly; an exact table decides that no coalition blocks.
"""

from __future__ import annotations

import math
from collections.abc import Sequence
from dataclasses import dataclass
from fractions import Fraction
from typing import TypeAlias

from cca_tools.pricing.nearest import Demand, Nearest, Point
from cca_tools.pricing.program_rows import program_point
from cca_tools.pricing.tables import NARROW, Filler, Lines, filler_of, most_worth
from cca_tools.rules.book import Book
from cca_tools.rules.money import difference, less, price_total, scaled, total
from cca_tools.rules.stops import MOST
from cca_tools.rules.types import Choice, Net, NetPrice, ScaledNet
from cca_tools.terminal import progress


# For each bidder the lowered worth of each of its bids, times a denominator.
ScaledWorths: TypeAlias = list[list[ScaledNet]]


@dataclass(frozen=True)
class Market:
    """A book with its winning choice, the tables of it and without each winner, and the Vickrey prices, net."""

    filler: Filler
    choice: Choice
    value: Net
    table: Lines
    winners: list[int]  # bidders, from 0
    won: list[Net]  # the net amount of each winner's bid
    without: list[tuple[Choice, Lines]]  # of each winner
    vickrey: list[Net]  # of each winner

    @property
    def book(self) -> Book:
        """The book."""
        return self.filler.book


@dataclass(frozen=True)
class Turn:
    """The point of a turn, the coalition's row that was added, and how much its members paid too little; None after the
    last turn, when no coalition blocks."""

    pays: list[NetPrice]
    demand: Demand | None = None
    excess: Fraction = Fraction(0)


@dataclass(frozen=True)
class Found:
    """The core point, all rows that were added, and the last table of lowered worths, which shows that no coalition
    blocks. The table too is times `den`."""

    point: Point
    rows: list[Demand]
    den: int
    worths: ScaledWorths
    lowered: Lines
    turns: list[Turn]


def market_of(book: Book) -> Market:
    """The winners of a book, and all tables but the lowered one."""
    filler = filler_of(book)
    progress.step("finding the winners")
    table = filler.table(book.net)
    choice, value = filler.picked(table, book.net), Net(filler.top(table))
    winners = [k for k, number in enumerate(choice) if number]
    won = [book.net[k][choice[k] - 1] for k in winners]
    without = []
    for place, k in enumerate(winners, 1):
        progress.step(f"finding Vickrey price {place} of {len(winners)}")
        lines = filler.table_without(k, table, book.net)
        without.append((filler.picked(lines, book.net, k), lines))
    vickrey = [less(Net(filler.top(lines)), less(value, b)) for (_, lines), b in zip(without, won)]
    return Market(filler, choice, value, table, winners, won, without, vickrey)


def lowered_worths(market: Market, pays: Sequence[ScaledNet], den: int) -> ScaledWorths:
    """The worths of all bids times `den`, the winners' bids less what they would lose at payments of `pays / den`."""
    nothing = ScaledNet(0)
    lost = {k: max(nothing, less(scaled(b, den), n)) for k, b, n in zip(market.winners, market.won, pays)}
    return [[less(scaled(net, den), lost.get(k, nothing)) for net in nets] for k, nets in enumerate(market.book.net)]


def demand_of(market: Market, choice: Choice, pays: Sequence[NetPrice]) -> Demand:
    """The row of a choice. Its members are the winners that the choice doesn't use and that pay at most their bids."""
    members = [i for i, k in enumerate(market.winners) if not choice[k] and pays[i] <= market.won[i]]
    others = total(b for i, b in enumerate(market.won) if i not in members)
    return Demand(sum(1 << i for i in members), less(market.book.value(choice), others), choice)


def missing(demand: Demand, pays: Sequence[NetPrice]) -> Fraction:
    """How much the members of a row pay too little."""
    return difference(demand.bound, price_total(p for i, p in enumerate(pays) if demand.holds(i)))


def rough_den(market: Market, den: int) -> int:
    """The denominator of a table of 64 bits: `den` if it fits, and otherwise the greatest that fits."""
    most = most_worth(market.book.net) + 1
    return den if den * most < NARROW else max(1, NARROW // most - 1)


def most_blocking(market: Market, pays: Sequence[NetPrice], den: int) -> tuple[Demand | None, ScaledWorths, Lines]:
    """The row of a coalition that blocks most by payments rounded down to the denominator `den`, or None if that
    coalition doesn't block at `pays`. Also returns the worths and the table of that search."""
    worths = lowered_worths(market, [ScaledNet(math.floor(p * den)) for p in pays], den)
    lines = market.filler.table(worths)
    demand = demand_of(market, market.filler.picked(lines, worths), pays)
    return (demand if missing(demand, pays) > 0 else None), worths, lines


def shown(nearest: Nearest, point: Point) -> Point:
    """The last point. If the program prices this many winners, its rows are the ones that `cca price` uses."""
    is_priced = len(point.pays) <= MOST["winners"]
    return (program_point(nearest) if is_priced else None) or point


def core_point(market: Market, weights: Sequence[int]) -> Found:
    """The nearest core point of least sum by these weights of the winners."""
    nearest = Nearest(market.vickrey, list(weights))
    nearest.rows = [Demand(1 << i, market.vickrey[i], choice) for i, (choice, _) in enumerate(market.without)]
    turns = list[Turn]()
    while True:
        progress.step(f"finding the prices, turn {len(turns) + 1}")
        point = nearest.point()
        den = math.lcm(1, *(p.denominator for p in point.pays))
        rough = rough_den(market, den)
        demand, worths, lines = most_blocking(market, point.pays, rough)
        if demand is None and rough != den:
            demand, worths, lines = most_blocking(market, point.pays, den)
        if demand is None:
            return Found(shown(nearest, point), nearest.rows, den, worths, lines, [*turns, Turn(point.pays)])
        turns.append(Turn(point.pays, demand, missing(demand, point.pays)))
        nearest.rows.append(demand)
