"""How many bidders can win, and whether that many winners can be priced."""

from __future__ import annotations

from cca_tools.rules.award import Award
from cca_tools.rules.stops import MOST
from cca_tools.rules.types import BidderNumber


def can_win(award: Award, j: BidderNumber) -> bool:
    """Whether bidder j may ask for at least one lot, by its eligibility and the spectrum caps."""
    width = len(award.supply)
    lots = [tuple(int(at == place) for at in range(width)) for place in range(width) if award.supply[place]]
    return any(
        award.points_of(package) <= award.eligibility(j) and award.cap_fault(j, package) is None for package in lots
    )


def most_winners(award: Award) -> int:
    """The greatest number of bidders that could win: no more than can win a lot, and no more than there are lots."""
    able = sum(can_win(award, j) for j in range(1, len(award.names) + 1))
    return min(able, sum(award.supply))


def winners_warning(award: Award) -> list[str]:
    """The warning before the end of an auction if more bidders could win than `cca award` prices."""
    most, limit = most_winners(award), MOST["winners"]
    if most <= limit:
        return []
    return [
        f"Up to {most} bidders could win. `cca award` prices at most {limit} winners, and at most"
        f" {MOST['weighted winners']} if prices are weighted; `tools/price` is for more."
    ]
