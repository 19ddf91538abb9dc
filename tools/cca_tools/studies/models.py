"""Models of what packages are worth to a bidder, in the award's unit. All values are whole numbers, rounded down.

A model is what a file of values says; with draws it makes a valuation, a function from packages to values.
"""

from __future__ import annotations

from abc import ABC, abstractmethod
from collections.abc import Mapping, Sequence
from dataclasses import dataclass
from decimal import Decimal, localcontext

from cca_tools.rules.types import Amount, Package
from cca_tools.studies.draws import Draws
from cca_tools.studies.fields import Fields, Range

PERCENT, MILLION = 100, 1_000_000
# Pairs of categories, by their places from 0.
Pairs = frozenset[tuple[int, int]]


class Valuation(ABC):
    """What packages are worth to one bidder."""

    @abstractmethod
    def value(self, package: Package) -> Amount:
        """The value of a package."""


class Model(ABC):
    """A model of values, as a file has it."""

    @abstractmethod
    def drawn(self, draws: Draws) -> Valuation:
        """A bidder's valuation."""


def draw(draws: Draws, ends: Range) -> int:
    """A number of a range."""
    return draws.whole(*ends)


@dataclass(frozen=True)
class Listed(Valuation):
    """Packages with their values; all others are worth nothing."""

    values: Mapping[Package, Amount]

    def value(self, package: Package) -> Amount:
        return self.values.get(package, 0)


@dataclass(frozen=True)
class ListedModel(Model):
    """`packages`: packages, each with a value or a range of it."""

    ranges: tuple[tuple[Package, Range], ...]

    def drawn(self, draws: Draws) -> Valuation:
        return Listed({package: draw(draws.of("package", *package), ends) for package, ends in self.ranges})


@dataclass(frozen=True)
class Additive(Valuation):
    """The sum of what lots are worth, and of what each complement adds whose lots are all in the package."""

    sums: tuple[tuple[Amount, ...], ...]  # of each category the value of each number of lots
    complements: tuple[tuple[Package, Amount], ...]

    def value(self, package: Package) -> Amount:
        added = sum(more for lots, more in self.complements if all(a <= b for a, b in zip(lots, package)))
        return sum(sums[count] for sums, count in zip(self.sums, package)) + added


@dataclass(frozen=True)
class AdditiveModel(Model):
    """`additive`: each lot of a category has a value in the category's range, the greatest first. With `decrease` only
    the first lot is drawn, and each further one is worth a given percentage less than the one before."""

    supply: Package
    lot: tuple[Range, ...]
    decrease: Range | None
    complements: tuple[tuple[Package, Range], ...]

    def drawn(self, draws: Draws) -> Valuation:
        sums = []
        for c, (count, ends) in enumerate(zip(self.supply, self.lot), 1):
            marginal = self.marginal(draws.of("lot", c), count, ends, draws.of("decrease", c))
            sums.append(tuple(sum(marginal[:n]) for n in range(count + 1)))
        pairs = enumerate(self.complements, 1)
        complements = tuple((lots, draw(draws.of("complement", at), ends)) for at, (lots, ends) in pairs)
        return Additive(tuple(sums), complements)

    def marginal(self, draws: Draws, count: int, ends: Range, decreases: Draws) -> list[Amount]:
        """What each lot of a category adds, never more than the one before."""
        if self.decrease is None:
            return sorted((draw(draws.of(n), ends) for n in range(1, count + 1)), reverse=True)
        kept = PERCENT - draw(decreases, self.decrease)
        found = [draw(draws.of(1), ends)]
        while len(found) < count:
            found.append(found[-1] * kept // PERCENT)
        return found


@dataclass(frozen=True)
class Global(Valuation):
    """The sum of what lots are worth, and for each lot after the first a given percentage of it more."""

    lot: tuple[Amount, ...]
    synergy: int
    most: int

    def value(self, package: Package) -> Amount:
        lots = sum(count for count, worth in zip(package, self.lot) if worth)
        if not 0 < lots <= self.most:
            return 0
        worth = sum(count * worth for count, worth in zip(package, self.lot))
        return worth * (PERCENT + self.synergy * (lots - 1)) // PERCENT


@dataclass(frozen=True)
class GlobalModel(Model):
    """`global`, in the manner of the Global Synergy Value Model: the lots of a category are worth alike."""

    lot: tuple[Range, ...]
    synergy: Range
    most: int

    def drawn(self, draws: Draws) -> Valuation:
        lot = tuple(draw(draws.of("lot", c), ends) for c, ends in enumerate(self.lot, 1))
        return Global(lot, draw(draws.of("synergy"), self.synergy), self.most)


def local_factor(a: int, b: int, lots: int) -> int:
    """The factor of the worth of a group of this many lots, in millionths: 1 + a / (100 (1 + e^(b - lots))), rounded
    down.

    The exponential is Decimal's. It is correctly rounded, so it is the same on every machine.
    """
    with localcontext() as context:
        context.prec = 40
        return int(MILLION * (1 + Decimal(a) / (PERCENT * (1 + Decimal(b - lots).exp()))))


@dataclass(frozen=True)
class Local(Valuation):
    """The sum over groups of neighbouring lots: the worth of its lots, times a factor that rises with their number."""

    lot: tuple[Amount, ...]
    factors: tuple[int, ...]  # by the number of lots, in millionths
    neighbours: Pairs
    most: int

    def value(self, package: Package) -> Amount:
        wanted = [c for c, count in enumerate(package) if count and self.lot[c]]
        if sum(package[c] for c in wanted) > self.most:
            return 0
        total = 0
        for group in groups_of(wanted, self.neighbours):
            lots = sum(package[c] for c in group)
            total += sum(package[c] * self.lot[c] for c in group) * self.factors[lots]
        return total // MILLION


def groups_of(wanted: Sequence[int], neighbours: Pairs) -> list[set[int]]:
    """The categories in groups that neighbours connect."""
    groups: list[set[int]] = []
    for c in wanted:
        near = [group for group in groups if any((min(c, d), max(c, d)) in neighbours for d in group)]
        groups = [group for group in groups if group not in near] + [{c}.union(*near)]
    return groups


@dataclass(frozen=True)
class LocalModel(Model):
    """`local`, in the manner of the Local Synergy Value Model: the lots of a category are neighbours of each other, and
    so are the lots of neighbouring categories."""

    lot: tuple[Range, ...]
    a: int
    b: int
    neighbours: Pairs
    most: int
    lots: int  # how many are sold

    def drawn(self, draws: Draws) -> Valuation:
        lot = tuple(draw(draws.of("lot", c), ends) for c, ends in enumerate(self.lot, 1))
        factors = tuple(local_factor(self.a, self.b, n) for n in range(self.lots + 1))
        return Local(lot, factors, self.neighbours, self.most)


# From a file.


def read_model(table: Fields, supply: Package, names: Sequence[str]) -> Model:
    """The model that a table states for these categories."""
    kind = table.text("model", list(READERS))
    return READERS[kind](table, supply, names)


def read_lots(table: Fields, supply: Package) -> Package:
    """The package of a field `lots`."""
    lots = tuple(table.wholes("lots", 0, max(supply), len(supply)))
    table.need(all(a <= b for a, b in zip(lots, supply)) and any(lots), "lots", "a package of what is sold")
    return lots


def read_valued(table: Fields, supply: Package) -> tuple[Package, Range]:
    """A package with the range of its value."""
    found = read_lots(table, supply), table.range("value")
    table.no_more()
    return found


def read_listed(table: Fields, supply: Package, names: Sequence[str]) -> Model:
    """A model `packages`."""
    found = tuple(read_valued(it, supply) for it in table.tables("package"))
    table.need(len({package for package, _ in found}) == len(found), "package", "a list of packages that all differ")
    table.need(bool(found), "package", "a list of tables, each begun by [[bidder.package]]")
    return ListedModel(found)


def read_additive(table: Fields, supply: Package, names: Sequence[str]) -> Model:
    """A model `additive`."""
    decrease = table.range("decrease", 0, PERCENT) if table.has("decrease") else None
    complements = tuple(read_valued(it, supply) for it in table.tables("complement"))
    return AdditiveModel(supply, tuple(table.ranges("lot", len(supply))), decrease, complements)


def read_most(table: Fields, supply: Package) -> int:
    """The greatest number of lots of a package that is worth something; all lots if it isn't given."""
    return table.whole("most", 1, sum(supply), sum(supply))


def read_global(table: Fields, supply: Package, names: Sequence[str]) -> Model:
    """A model `global`."""
    lot = tuple(table.ranges("lot", len(supply)))
    return GlobalModel(lot, table.range("synergy", 0, 1000, 20), read_most(table, supply))


def read_local(table: Fields, supply: Package, names: Sequence[str]) -> Model:
    """A model `local`. If no neighbours are given, each category is a neighbour of the next."""
    lot, a, b = tuple(table.ranges("lot", len(supply))), table.whole("a", 0, 10_000, 320), table.whole("b", 0, 100, 10)
    neighbours = frozenset(zip(range(len(supply)), range(1, len(supply))))
    if table.has("neighbours"):
        given = table.take("neighbours")
        right = isinstance(given, list) and all(isinstance(it, list) and len(it) == 2 for it in given)
        right = right and isinstance(given, list) and all(name in names for it in given for name in it)
        table.need(right, "neighbours", f"a list of pairs of categories, which are {', '.join(names)}")
        assert isinstance(given, list)
        places = [sorted((names.index(one), names.index(other))) for one, other in given]
        neighbours = frozenset((low, high) for low, high in places)
    return LocalModel(lot, a, b, neighbours, read_most(table, supply), sum(supply))


READERS = {"packages": read_listed, "additive": read_additive, "global": read_global, "local": read_local}
