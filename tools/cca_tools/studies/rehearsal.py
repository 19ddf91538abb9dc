"""A whole auction of bidders with values, line by line."""

from __future__ import annotations

from collections.abc import Iterator, Sequence

from cca_tools.rules.auction import Auction
from cca_tools.rules.award import Award
from cca_tools.rules.log import Line
from cca_tools.rules.types import BidderNumber, Gross, Kind, Package
from cca_tools.studies.bidding import bidder_of, sealed_list
from cca_tools.studies.strategies import Strategy
from cca_tools.studies.values import Values


class Rehearsal:
    """The bidders of an auction, each with its values and its strategy, and the auction as far as it went."""

    def __init__(self, award: Award, values: Sequence[Values], strategies: Sequence[Strategy]) -> None:
        self.auction, self.values, self.strategies = Auction(award), values, strategies
        self.bidders = [bidder_of(award, *of_one) for of_one in zip(values, strategies)]

    def line(self, kind: Kind, j: BidderNumber = 0, package: Package = (), amount: Gross = Gross(0)) -> Line:
        """The next line of the log."""
        number = len(self.auction.lines) + 1
        return Line(number, number, kind, self.auction.award.names[j - 1] if j else "", j, package, amount)

    def turn(self) -> Iterator[Line]:
        """What the bidders send until the next close, in the order of the award. Each line has to be taken before the
        next one is asked for."""
        yield from self.clock_lines() if self.auction.stage == "clock" else self.sealed_lines()

    def clock_lines(self) -> Iterator[Line]:
        """What each bidder asks for in the open round."""
        current = self.auction.running_round
        for j, bidder in enumerate(self.bidders, 1):
            package = bidder.ask(current.prices, current.eligibility[j - 1])
            if package is not None:
                yield self.line("bid", j, package)

    def sealed_lines(self) -> Iterator[Line]:
        """Each bidder's list, and its submission."""
        for j, (values, strategy) in enumerate(zip(self.values, self.strategies), 1):
            listed = sealed_list(self.auction, j, values, strategy)
            for package, amount in listed.items():
                yield self.line("draft", j, package, amount)
            if listed:
                yield self.line("submit", j)

    def right_lines(self) -> Iterator[Line]:
        """All lines up to the end, the closes too. A limit of rounds or of prices ends them. Each line has to be taken
        before the next one is asked for."""
        while self.auction.stage != "closed" and not self.auction.limit_stop:
            yield from self.turn()
            yield self.line("close")


def held(award: Award, values: Sequence[Values], strategies: Sequence[Strategy]) -> Auction:
    """The auction after all lines."""
    rehearsal = Rehearsal(award, values, strategies)
    for line in rehearsal.right_lines():
        rehearsal.auction.take(line)
    return rehearsal.auction
