"""The clock: rounds at posted prices, what each bidder asks for in them, and what a close leads to."""

from __future__ import annotations

import dataclasses
from collections.abc import Sequence

from cca_tools.rules.award import Award, dot
from cca_tools.rules.stops import MOST
from cca_tools.rules.types import Amount, Gross, Package, Prices


@dataclasses.dataclass
class Round:
    """A round of the clock: its posted prices, and for each bidder the points that it may ask for and the package that
    it asks for."""

    number: int
    prices: Prices
    eligibility: list[int]
    packages: list[Package]  # the empty one where a bidder asks for none
    supply: Package

    @property
    def demand(self) -> Package:
        """How many lots of each category are asked for."""
        return tuple(map(sum, zip(*self.packages))) if self.packages else (0,) * len(self.supply)

    @property
    def excess(self) -> Package:
        """How many lots of each category are asked for above the supply."""
        return tuple(max(0, asked - sold) for asked, sold in zip(self.demand, self.supply))


def first_round(award: Award) -> Round:
    """Round 1, at the reserves and with the eligibility of the award."""
    eligibility = [bidder.eligibility for bidder in award.bidders]
    return Round(1, award.reserves, eligibility, [award.nothing] * len(award.bidders), award.supply)


def raised_prices(award: Award, closing: Round) -> Prices:
    """The prices that a close of this round posts."""
    return tuple(award.raised(price, excess) for price, excess in zip(closing.prices, closing.excess))


def next_round(award: Award, closing: Round, prices: Prices) -> Round:
    """The round after this one: each bidder is eligible for the points of what it asked for."""
    eligibility = [award.points_of(package) for package in closing.packages]
    return Round(closing.number + 1, prices, eligibility, [award.nothing] * len(award.bidders), award.supply)


def price_fault(prices: Sequence[Amount]) -> tuple[int, Amount] | None:
    """The first category whose price is above the greatest one, with the price; or None."""
    return next(((c, price) for c, price in enumerate(prices, 1) if price > MOST["price"]), None)


def cost(closed: Round, package: Package) -> Gross:
    """What a package costs at the prices of a round."""
    return Gross(dot(closed.prices, package))
