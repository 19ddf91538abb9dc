"""The nine tests of a placement's certificate. They are the same as for a book's, except for choices, which orders
allow, and for tables over sets."""

from __future__ import annotations

import itertools
from collections.abc import Collection, Sequence

from cca_tools.rules.certificate_tests import Failure, Fault, Tests, Worths
from cca_tools.rules.placement import PlaceCertificate, PlacedChoice, Slots
from cca_tools.rules.types import Amount, BidderNumber, TableLine


def first_fault(slots: Slots, certificate: PlaceCertificate) -> Fault | None:
    """The first fault of a placement's certificate, or None if it passes."""
    return PlaceTests(slots, certificate).first_fault()


class PlaceTests(Tests[Slots, PlacedChoice, TableLine]):
    """The tests of the certificate of a placement."""

    letter = "P"

    @property
    def past(self) -> int:
        return 1 << self.menu.bidders

    def top(self, table: TableLine) -> Amount:
        """What a table says before anybody is placed."""
        return table[0]

    def lines_of_head(self, table: TableLine) -> Collection[int]:
        return ()

    def misfit(self, choice: PlacedChoice) -> str:
        """Why the order of a known choice doesn't allow it; empty if it does."""
        if not self.menu.is_order(choice.order):
            return "its order doesn't list each bidder once"
        starts = self.menu.starts(choice.order)
        for j in range(1, self.menu.bidders + 1):
            bid = self.menu.won(choice, j)
            if bid is not None and bid[0] != starts[j]:
                return f"{self.name(j)} begins at slot {starts[j]}, and its bid is for slot {bid[0]}"
        return ""

    def earlier_bids(self, j: BidderNumber) -> Sequence[str]:
        """A table over sets doesn't show which of two equal choices comes first."""
        return []

    def breach(self, table: TableLine, worths: Worths, known: Collection[int] = ()) -> Failure | None:
        for members, j in itertools.product(range(self.past), range(self.menu.bidders)):
            if not members >> j & 1 and (why := self.entry_fault(table, worths[j], members, j)):
                return members, why
        return (self.past - 1, f"the entry of all bidders is {table[-1]}, below 0") if table[-1] < 0 else None

    def entry_fault(self, table: TableLine, worths: Sequence[Amount], members: int, j: int) -> str:
        """Why the entry of a set is too low for bidder j + 1 outside it, or nothing."""
        start, after = 1 + self.menu.width_of(members), table[members | 1 << j]
        bids = zip(self.menu.bids[j], worths)
        counts = max([worth for (at, _), worth in bids if at == start], default=0)
        if table[members] >= after + max(counts, 0):
            return ""
        placed = self.names(k for k in range(1, self.menu.bidders + 1) if members >> k - 1 & 1) or "nobody"
        return (
            f"entry {members}, with {placed} placed, is {table[members]}, which is too low: {self.menu.names[j]} placed"
            f" next counts {max(counts, 0)}, and the entry after it is {after}"
        )
