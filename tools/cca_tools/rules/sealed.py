"""The sealed round: what a bidder may offer at most for a package.

The cap of a package comes from what its bidder asked for in the package's constraining round; in an award of version 2
the final round leads to a second one, and the lesser of the two applies.
"""

from __future__ import annotations

import dataclasses
import math
from collections.abc import Mapping, Sequence
from typing import TYPE_CHECKING

from cca_tools.rules.award import Award, dot
from cca_tools.rules.clock import Round, cost
from cca_tools.rules.types import Amount, Bid, BidderNumber, Gross, Package, Prices

if TYPE_CHECKING:
    from cca_tools.rules.auction import Auction


@dataclasses.dataclass(frozen=True)
class Cap:
    """The cap of a package, with all that it comes from."""

    package: Package
    constraining_round: int
    held: Package  # what the bidder asked for in that round
    standing: Gross  # the highest amount that its bidder named for `held`
    prices: Prices  # of that round
    by_round: Gross  # the cap that this round gives
    amount: Gross | None  # the cap; None for the package of the final round, which has none
    final: Cap | None = None  # in an award of version 2 what the final round gives


class Caps:
    """The caps of one bidder, from the rounds of the ended clock: its own packages, its eligibilities and the posted
    prices."""

    def __init__(
        self,
        award: Award,
        rounds: Sequence[Round],
        j: BidderNumber,
        highest_in_clock: Mapping[Package, Gross],
    ) -> None:
        self.award, self.clock = award, highest_in_clock
        self.prices = [closed.prices for closed in rounds]
        self.packages = [closed.packages[j - 1] for closed in rounds]
        self.eligibility = [closed.eligibility[j - 1] for closed in rounds]
        self.steps: dict[Package, list[tuple[Package, Amount]]] = {}
        self.in_clock: dict[Package, float] = {}
        self.last_rounds: dict[int, int] = {}  # by the points of a package

    def constraining_round(self, package: Package) -> int:
        """The last round at whose start the bidder had eligibility for the package's points; 0 if there is none."""
        points = self.award.points_of(package)
        if points not in self.last_rounds:
            rounds = range(len(self.eligibility), 0, -1)
            self.last_rounds[points] = next((r for r in rounds if self.eligibility[r - 1] >= points), 0)
        return self.last_rounds[points]

    def highest(self, amounts: Mapping[Package, Gross], package: Package) -> Gross:
        """The highest amount for a package, in the clock and in the list: 0 for the empty package."""
        if not any(package):
            return Gross(0)
        return max(self.clock.get(package, Gross(0)), amounts.get(package, Gross(0)))

    def step(self, number: int, package: Package) -> tuple[Package, Amount]:
        """The package that the bidder asked for in a round, and how much more `package` cost at the prices of the
        round."""
        held, prices = self.packages[number - 1], self.prices[number - 1]
        return held, dot(prices, package) - dot(prices, held)

    def steps_of(self, package: Package) -> list[tuple[Package, Amount]]:
        """The steps that bound a package: none for the package of the final round. They don't change any more."""
        if package not in self.steps:
            final = len(self.prices)
            rounds = [self.constraining_round(package), *([final] if self.award.has_final_cap else [])]
            self.steps[package] = (
                [] if package == self.packages[-1] else [self.step(number, package) for number in rounds]
            )
        return self.steps[package]

    def amount(self, amounts: Mapping[Package, Gross], package: Package) -> Gross | None:
        """The cap of a package if these amounts are listed; None if it has no cap."""
        return min((Gross(self.highest(amounts, held) + more) for held, more in self.steps_of(package)), default=None)

    def by(
        self,
        number: int,
        amounts: Mapping[Package, Gross],
        package: Package,
        amount: Gross | None,
        final: Cap | None = None,
    ) -> Cap:
        """The cap that one round gives."""
        held, more = self.step(number, package)
        standing = self.highest(amounts, held)
        return Cap(package, number, held, standing, self.prices[number - 1], Gross(standing + more), amount, final)

    def cap(self, amounts: Mapping[Package, Gross], package: Package) -> Cap | None:
        """The cap with all that it comes from; None if the bidder never had the points of the package."""
        number, last = self.constraining_round(package), len(self.prices)
        if not number:
            return None
        amount = self.amount(amounts, package)
        final = self.by(last, amounts, package, amount) if self.award.has_final_cap and amount is not None else None
        return self.by(number, amounts, package, amount, final)

    def least(self, package: Package) -> float:
        """The cap of a package if nothing is listed. A list can only raise it."""
        if package not in self.in_clock:
            amount = self.amount({}, package)
            self.in_clock[package] = math.inf if amount is None else amount
        return self.in_clock[package]

    def fault(self, listed: Sequence[Bid]) -> tuple[int, Gross] | None:
        """The first entry of a list that is above its cap, by its number, and the cap; or None."""
        amounts = dict(listed)
        for entry, (package, amount) in enumerate(listed, 1):
            if amount > self.least(package):
                most = self.amount(amounts, package)
                if most is not None and amount > most:
                    return entry, most
        return None

    def fitted(self, listed: Mapping[Package, Gross]) -> dict[Package, Gross]:
        """The greatest admitted list with no amount above the given list's amount.

        Lowering an entry lowers the caps that rest on it, so entries are lowered until none is above its cap. None
        falls below what may be drafted for it: prices don't fall, so a cap is at least what its package costs in its
        constraining round.
        """
        amounts, is_settled = dict(listed), False
        while not is_settled:
            is_settled = True
            for package, amount in sorted(amounts.items()):
                cap = self.amount(amounts, package)
                if cap is not None and amount > cap:
                    amounts[package], is_settled = cap, False
        return amounts

    def raised(self, listed: Mapping[Package, Gross], package: Package, amount: Gross) -> dict[Package, Gross] | None:
        """An admitted list with this amount for a package, if `listed` is admitted. The entries that the package's cap
        depends on are raised by no more than it needs. None if its cap depends on a round in which the bidder asked for
        nothing.

        Each step leads to a later round, since a bidder keeps the eligibility for what it asked for, or to the package
        of the final round, which has no cap. So the loop ends.
        """
        amounts, left = dict(listed), [(package, amount)]
        while left:
            entry, needed = left.pop()
            if self.highest(amounts, entry) >= needed and entry != package:
                continue
            if not any(entry):
                return None
            amounts[entry] = needed
            left += [(held, Gross(needed - more)) for held, more in self.steps_of(entry)]
        return amounts


def caps_of(auction: Auction, j: BidderNumber) -> Caps:
    """The caps of bidder j, once the clock has ended."""
    return Caps(auction.award, auction.rounds[: auction.final], j, auction.highest_in_clock(j))


def caps_if_ended(auction: Auction, j: BidderNumber) -> Caps:
    """The caps of bidder j as they would be if the clock ended with the open round as it is."""
    here, highest = auction.running_round, dict(auction.highest_in_clock(j))
    asked = here.packages[j - 1]
    highest[asked] = max(cost(here, asked), highest.get(asked, Gross(0)))
    return Caps(auction.award, [*auction.rounds, here], j, highest)
