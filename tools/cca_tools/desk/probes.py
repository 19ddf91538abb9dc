"""Lines that show the state of each bidder in both programs: its points, its room in spectrum caps, the caps of its
list.

They get replies on a copy of the auction and are never written. A line just within a bound and one just beyond it
compare the bound.
"""

from __future__ import annotations

import bisect
import itertools
from collections.abc import Callable, Iterable, Iterator, Sequence
from typing import TypeAlias

from cca_tools.rules.auction import Auction
from cca_tools.rules.award import Award, SpectrumCap, dot
from cca_tools.rules.log import Line
from cca_tools.rules.stops import MOST
from cca_tools.rules.types import BidderNumber, Gross, Kind, Package

Measure: TypeAlias = Callable[[Package], int]
TOP = Gross(MOST["amount"])


class Scale:
    """All packages that may be asked for, in the order of a measure."""

    def __init__(self, packages: Iterable[Package], measure: Measure) -> None:
        self.packages = sorted(packages, key=measure)
        self.sizes = [measure(package) for package in self.packages]

    def about(self, bound: int, suits: Callable[[Package], bool]) -> list[Package]:
        """The greatest package within the bound that suits, and the least one beyond it, as far as there are any."""
        at = bisect.bisect_right(self.sizes, bound)
        within, beyond = reversed(self.packages[:at]), iter(self.packages[at:])
        return [package for side in (within, beyond) for package in itertools.islice(filter(suits, side), 1)]


def weighted_by(cap: SpectrumCap) -> Measure:
    """How a spectrum cap measures a package."""
    return lambda package: dot(cap.weights, package)


class Probes:
    """What probing lines need of an award."""

    def __init__(self, award: Award) -> None:
        packages = list(itertools.product(*(range(count + 1) for count in award.supply)))
        self.award = award
        self.by_points = Scale(packages, award.points_of)
        self.by_caps = [Scale(packages, weighted_by(cap)) for cap in award.caps]

    def packages(self, j: BidderNumber, eligibility: int) -> list[Package]:
        """Packages about the bounds of bidder j: its points, and each spectrum cap."""
        award, holding = self.award, self.award.bidders[j - 1].holding
        found = self.by_points.about(eligibility, lambda package: award.cap_fault(j, package) is None)
        for cap, scale in zip(award.caps, self.by_caps):
            found += scale.about(cap.limit - dot(cap.weights, holding), lambda package: True)
        return list(dict.fromkeys(found))

    def lines(self, auction: Auction, j: BidderNumber) -> list[Line]:
        """The probing lines of bidder j at the auction's stage; none if it is closed."""
        if auction.stage == "clock":
            return [self.line("bid", j, it) for it in self.packages(j, auction.running_round.eligibility[j - 1])]
        return list(self.list_lines(auction, j)) if auction.stage == "sealed" else []

    def list_lines(self, auction: Auction, j: BidderNumber) -> Iterator[Line]:
        """The probing lines while lists are taken: the list as it is, then with each entry raised to the top, then only
        one package of the list or the clock, at the top. A refusal shows the cap."""
        for package in self.packages(j, self.award.eligibility(j)):
            yield from self.alone(auction, j, package)
        yield self.line("submit", j)
        drafts = auction.drafts(j)
        for package, amount in drafts:
            yield self.line("draft", j, package, TOP)
            yield self.line("submit", j)
            yield self.line("draft", j, package, amount)
        for package, _ in drafts:
            yield self.line("drop", j, package)
        for package in sorted({*dict(drafts), *auction.highest_in_clock(j)}):
            yield self.line("draft", j, package, TOP)
            yield self.line("submit", j)
            yield self.line("drop", j, package)

    def alone(self, auction: Auction, j: BidderNumber, package: Package) -> Iterator[Line]:
        """A draft at the top, taken out again."""
        before = auction.desks[j - 1].drafts.get(package)
        yield self.line("draft", j, package, TOP)
        yield self.line("drop", j, package) if before is None else self.line("draft", j, package, before)

    def line(self, kind: Kind, j: BidderNumber, package: Package = (), amount: Gross = Gross(0)) -> Line:
        """A line of bidder j. Its number has no meaning."""
        return Line(0, 0, kind, self.award.names[j - 1], j, package, amount)


def groups(of_bidders: Sequence[Sequence[Line]], most: int) -> Iterator[list[int]]:
    """The places of bidders in groups whose lines are at most this many together, or one bidder's."""
    group, size = list[int](), 0
    for place, lines in enumerate(of_bidders):
        if group and size + len(lines) > most:
            yield group
            group, size = [], 0
        group.append(place)
        size += len(lines)
    if group:
        yield group
