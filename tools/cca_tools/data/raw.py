"""What is sold, and bids as a file has them, before they are a book."""

from __future__ import annotations

from collections.abc import Sequence
from dataclasses import dataclass
from decimal import Decimal
from typing import NoReturn

from cca_tools.rules.award import Award
from cca_tools.rules.printable import clipped
from cca_tools.rules.stops import refused
from cca_tools.rules.types import Package

MOST_DIGITS = 30  # of a count


@dataclass(frozen=True)
class RawBid:
    """A bid as a file has it: where, whose, the counts, and the amount in the file's unit."""

    place: str  # as `row 3`
    bidder: str
    package: Package
    amount: Decimal


@dataclass
class Sold:
    """What is sold: the supply, the reserves of a lot in the file's unit, 0 if none are stated, and the categories'
    names if these are known."""

    supply: Package
    reserves: tuple[Decimal, ...] = ()
    names: tuple[str, ...] = ()

    def __post_init__(self) -> None:
        self.has_reserves = bool(self.reserves)
        self.reserves = tuple(map(Decimal, self.reserves or (0,) * len(self.supply)))

    @staticmethod
    def of_award(award: Award) -> Sold:
        """What an award sells."""
        names = tuple(category.name for category in award.categories)
        return Sold(award.supply, tuple(map(Decimal, award.reserves)), names)


def fault(why: str) -> NoReturn:
    """Stops, since bids aren't as they have to be."""
    raise refused("bids", why=why)


def listed(names: Sequence[str]) -> str:
    """Names in a sentence."""
    quoted = [f"`{clipped(name)}`" for name in names]
    return " and ".join(filter(None, [", ".join(quoted[:-1]), *quoted[-1:]]))
