"""The file of values: for each bidder a model of what packages are worth to it, and how it bids; both are drawn from a
seed."""

from __future__ import annotations

import functools
import itertools
from collections.abc import Mapping, Sequence
from dataclasses import dataclass

from cca_tools.rules.award import Award
from cca_tools.rules.types import BidderNumber, Gross, Package
from cca_tools.studies.draws import Draws, draws_of
from cca_tools.studies.fields import fields_of
from cca_tools.studies.models import Model, Valuation, read_model
from cca_tools.studies.strategies import Strategy, StrategyModel, read_strategy

# What each package is worth to a bidder, of those that it may be allocated and that are worth something to it: gross,
# as the bid that names it.
Values = Mapping[Package, Gross]


@dataclass(frozen=True)
class BidderModel:
    """What packages are worth to a bidder, and how it bids."""

    model: Model
    strategy: StrategyModel


def read_values(data: bytes, award: Award) -> list[BidderModel]:
    """The model of each bidder of the award, in its order. A table without `names` is for all that no other has."""
    top = fields_of(data, "values")
    top.whole("values", 1, 1)
    categories = [category.name for category in award.categories]
    found: dict[str, BidderModel] = {}
    rest: BidderModel | None = None
    for table in top.tables("bidder"):
        names = table.texts("names") if table.has("names") else []
        model = BidderModel(read_model(table, award.supply, categories), read_strategy(table))
        table.no_more()
        known = f"names of bidders of the award, which are {', '.join(award.names)}"
        table.need(all(map(award.number_of, names)), "names", known)
        for name in names:
            table.need(name not in found, "names", f"names that no other table has, and {name} is there twice")
            found[name] = model
        if not names:
            table.need(rest is None, "names", "there, since another table without it is for all other bidders already")
            rest = model
    top.no_more()
    return [found.get(name) or rest or top.stop(f"no table is for the bidder {name}") for name in award.names]


@functools.lru_cache(maxsize=1024)
def packages_of(award: Award, j: BidderNumber) -> list[Package]:
    """The packages that the rules let bidder j win, in order: within the supply, its spectrum caps and the points that
    it has in the first round. The empty one isn't among them."""
    points = award.eligibility(j)
    every = itertools.product(*(range(count + 1) for count in award.supply))
    return [
        package
        for package in every
        if any(package) and award.points_of(package) <= points and not award.cap_fault(j, package)
    ]


def values_of(award: Award, j: BidderNumber, valuation: Valuation) -> Values:
    """The packages that bidder j may win and that are worth something, in order, with their values."""
    worths = {package: Gross(valuation.value(package)) for package in packages_of(award, j)}
    return {package: worth for package, worth in worths.items() if worth > 0}


def drawn_values(award: Award, models: Sequence[BidderModel], draws: Draws) -> list[Values]:
    """The values of each bidder of the award; a bidder's values depend on its name, and not on other bidders."""
    valuations = [it.model.drawn(draws.of(name)) for name, it in zip(award.names, models)]
    return [values_of(award, j, valuation) for j, valuation in enumerate(valuations, 1)]


def drawn_strategies(
    award: Award,
    models: Sequence[BidderModel],
    draws: Draws,
    base: Strategy = Strategy(),
    fixed: Mapping[str, Mapping[str, int]] | None = None,
) -> list[Strategy]:
    """The strategy of each bidder of the award. `fixed` has parts that are set for bidders by their names. `base` has
    the parts that aren't in `fixed` or the file."""
    known = fixed or {}
    return [
        it.strategy.drawn(draws.of(name, "strategy"), base, known.get(name, {}))
        for name, it in zip(award.names, models)
    ]


def values_of_seed(award: Award, data: bytes, seed: int) -> list[Values]:
    """The values of each bidder by the bytes of a file of values and a seed."""
    return drawn_values(award, read_values(data, award), draws_of(seed))
