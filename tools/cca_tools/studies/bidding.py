"""How a bidder with values bids.

In the clock it is straightforward: it asks for the package of greatest profit at the posted prices, of those within its
points, its spectrum caps, its budget and the supply. Of several it takes one with the most points, and of these the
first in the order of packages; if no profit is 0 or more, it asks for nothing and sends no line.

In the sealed round it lists every package with its value, or with a share of it less its shade, and never more than its
budget: at least what it asked for it at in the clock, and left out if that is below the reserve. A list has at most 300
entries: what it asked for in the clock comes first, then what is most profitable at the final prices.
"""

from __future__ import annotations

from collections.abc import Mapping, Sequence
from operator import mul

from cca_tools.pricing.tables import has_numpy
from cca_tools.rules.auction import Auction
from cca_tools.rules.award import Award, dot
from cca_tools.rules.book import Book
from cca_tools.rules.sealed import caps_of
from cca_tools.rules.stops import MOST
from cca_tools.rules.types import Amount, BidderNumber, Gross, Package, Prices
from cca_tools.studies.strategies import Strategy
from cca_tools.studies.values import Values

MANY = 100  # from this many packages on numpy is faster
WIDE = 2**62  # values below it are within 64 bits, and so are costs


class Straightforward:
    """A bidder of the clock. Points and profits only fall, so what is out of reach once stays so."""

    def __init__(self, award: Award, values: Values, strategy: Strategy = Strategy()) -> None:
        self.left = [
            (package, award.points_of(package), value, strategy.within_budget(value))
            for package, value in values.items()
        ]

    def ask(self, prices: Prices, eligibility: int) -> Package | None:
        """What it asks for, or None."""
        best: tuple[Amount, int] | None = None
        found, left = None, []
        for entry in self.left:
            package, points, value, most = entry
            cost = sum(map(mul, prices, package))
            if cost <= most and points <= eligibility:
                left.append(entry)
                if best is None or (value - cost, points) > best:
                    best, found = (value - cost, points), package
        self.left = left
        return found


class FastStraightforward:
    """A bidder of the clock with many packages, by arrays of numpy: it asks for what `Straightforward` asks for."""

    def __init__(self, award: Award, values: Values, strategy: Strategy = Strategy()) -> None:
        import numpy

        self.numpy = numpy
        self.packages = numpy.array(list(values), numpy.int64)
        self.points = self.packages @ numpy.array(award.points, numpy.int64)
        self.values = numpy.array(list(values.values()), numpy.int64)
        self.most = self.values if strategy.budget is None else numpy.minimum(self.values, strategy.budget)

    def ask(self, prices: Prices, eligibility: int) -> Package | None:
        """What it asks for, or None."""
        cost = self.packages @ self.numpy.array(prices, self.numpy.int64)
        is_left = (cost <= self.most) & (self.points <= eligibility)
        for name in ("packages", "points", "values", "most"):
            setattr(self, name, getattr(self, name)[is_left])
        if not len(self.values):
            return None
        profit = self.values - cost[is_left]
        best = self.numpy.flatnonzero(profit == profit.max())
        found = best[self.points[best].argmax()]
        return tuple(self.packages[found].tolist())


def bidder_of(award: Award, values: Values, strategy: Strategy) -> Straightforward | FastStraightforward:
    """The bidder of the clock with these values and this strategy, in the way that is fastest here."""
    is_many = len(values) >= MANY and max(values.values()) < WIDE and has_numpy()
    return FastStraightforward(award, values, strategy) if is_many else Straightforward(award, values, strategy)


def wanted_list(
    award: Award, values: Values, strategy: Strategy, clock: Mapping[Package, Gross], prices: Prices
) -> dict[Package, Gross]:
    """What a bidder lists before it looks at its caps, in the order of packages, after it asked for what `clock` has;
    the most profitable at these prices if not all have room."""
    most = Gross(MOST["amount"])
    named = {package: max(strategy.named(value), clock.get(package, Gross(0))) for package, value in values.items()}
    listed = {package: min(amount, most) for package, amount in named.items() if amount >= award.reserve_of(package)}
    if len(listed) > MOST["drafts"]:
        ranks = sorted(listed, key=lambda it: (it not in clock, dot(prices, it) - listed[it], it))
        listed = {package: listed[package] for package in sorted(ranks[: MOST["drafts"]])}
    return listed


def sealed_list(auction: Auction, j: BidderNumber, values: Values, strategy: Strategy) -> dict[Package, Gross]:
    """The list that bidder j submits, in the order of packages."""
    prices = auction.rounds[-1].prices
    listed = wanted_list(auction.award, values, strategy, auction.highest_in_clock(j), prices)
    if not strategy.fit:
        return listed
    fitted = caps_of(auction, j).fitted(listed)
    return dict(sorted(fitted.items()))


def sealed_book(award: Award, values: Sequence[Values], strategies: Sequence[Strategy]) -> Book:
    """The book of an auction with only sealed bids, without a clock: each bidder lists its packages, and has no
    caps."""
    lists = [wanted_list(award, *of_one, {}, award.reserves) for of_one in zip(values, strategies)]
    return Book(award.supply, award.reserves, list(award.names), [list(listed.items()) for listed in lists])
