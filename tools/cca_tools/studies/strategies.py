"""How each bidder bids, as a file of values has it: `share`, `shade` and `budget`, each a number or a range that one is
drawn from."""

from __future__ import annotations

from collections.abc import Mapping
from dataclasses import dataclass

from cca_tools.rules.types import Amount, Gross
from cca_tools.studies.draws import Draws
from cca_tools.studies.fields import MOST_VALUE, Fields, Range

PERCENT = 100
# The least and the greatest of each part of a strategy.
PARTS: dict[str, Range] = {"share": (1, 1_000), "shade": (0, MOST_VALUE), "budget": (0, MOST_VALUE)}


@dataclass(frozen=True)
class Strategy:
    """What a bidder names of each value in the sealed round: `share` percent of it less `shade`, and never more than
    `budget`, which limits it in the clock too (None for no limit). With `fit` its entries are lowered to their caps."""

    share: int = PERCENT
    shade: Amount = 0
    budget: Gross | None = None
    fit: bool = True

    def within_budget(self, amount: Gross) -> Gross:
        """The amount, or the budget if that is less."""
        return amount if self.budget is None else min(amount, self.budget)

    def named(self, value: Gross) -> Gross:
        """What is named of a value."""
        return self.within_budget(Gross(max(0, value * self.share // PERCENT - self.shade)))

    def cells(self) -> tuple[str, str, str]:
        """The parts as cells of a table; no budget is an empty one."""
        return str(self.share), str(self.shade), "" if self.budget is None else str(self.budget)


@dataclass(frozen=True)
class StrategyModel:
    """The ranges of the parts of a strategy that a file states."""

    ranges: tuple[tuple[str, Range], ...] = ()

    def drawn(self, draws: Draws, base: Strategy, fixed: Mapping[str, int]) -> Strategy:
        """A bidder's strategy: each part is from `fixed` if it is there, else from the file, else from `base`."""
        parts = {part: draws.of(part).whole(*ends) for part, ends in self.ranges} | dict(fixed)
        budget = Gross(parts["budget"]) if "budget" in parts else base.budget
        return Strategy(parts.get("share", base.share), parts.get("shade", base.shade), budget, base.fit)


def read_strategy(table: Fields) -> StrategyModel:
    """The strategy of a bidder's table."""
    stated = [(part, table.range(part, *ends)) for part, ends in PARTS.items() if table.has(part)]
    return StrategyModel(tuple(stated))
