"""What the table of a study says: the spread of each measure in a case, and the differences between two cases auction
by auction. All is computed in whole numbers, so it is the same on every machine."""

from __future__ import annotations

import functools
import math
import statistics
from collections.abc import Callable, Sequence
from dataclasses import dataclass
from fractions import Fraction
from typing import TypeAlias

from cca_tools.studies.plan import Case, Plan
from cca_tools.studies.rows import Row

Measure: TypeAlias = Callable[[Row], Fraction]
SHARES = (5, 25, 50, 75, 95)
UNIT = 10**12  # values are counted in whole numbers of its inverse, so that sums stay small
NORMAL = statistics.NormalDist().inv_cdf(0.975)


@dataclass(frozen=True)
class Spread:
    """A measure over auctions: how many, the mean with its standard error, which one auction doesn't have, and the
    values below which 5, 25, 50, 75 and 95 percent of them are. `share` is how many auctions have the property, if the
    measure is the share of auctions with a property."""

    count: int
    mean: float
    error: float | None
    quantiles: tuple[float, ...]
    share: int | None = None

    @property
    def interval(self) -> tuple[float, float] | None:
        """The 95 % interval of the mean: by Student's distribution, or by Wilson's rule for a share, in percent."""
        if self.share is not None:
            low, high = wilson(self.share, self.count)
            return 100 * low, 100 * high
        if self.error is None:
            return None
        reach = student(self.count - 1) * self.error
        return self.mean - reach, self.mean + reach

    def words(self, places: int = 2) -> str:
        """The mean with its standard error; of a share, with its interval."""
        mean = f"{self.mean:.{places}f}"
        if self.share is not None:
            return f"{mean} ({self.interval_words(places)})"
        return mean if self.error is None else f"{mean} ± {self.error:.{places}f}"

    def interval_words(self, places: int = 2) -> str:
        """The 95 % interval in words."""
        ends = self.interval
        return "n/a" if ends is None else f"{ends[0]:.{places}f} to {ends[1]:.{places}f}"


def wilson(some: int, every: int) -> tuple[float, float]:
    """The 95 % interval of a share, as E. B. Wilson (1927) has it."""
    square = NORMAL**2
    middle = some + square / 2
    reach = NORMAL * math.sqrt(some * (every - some) / every + square / 4)
    return max(0.0, (middle - reach) / (every + square)), min(1.0, (middle + reach) / (every + square))


@functools.lru_cache(maxsize=64)
def student(freedom: int) -> float:
    """The value that Student's distribution exceeds in one of 40 cases; from 1,000 degrees of freedom on the normal
    distribution's."""
    if freedom >= 1000:
        return NORMAL
    low, high = 0.0, 13.0
    while high - low > 1e-9:
        middle = (low + high) / 2
        low, high = (middle, high) if within(middle, freedom) < 0.95 else (low, middle)
    return (low + high) / 2


def within(value: float, freedom: int) -> float:
    """The probability that a value of Student's distribution is between minus and plus this one: its finite sum."""
    angle = math.atan(value / math.sqrt(freedom))
    is_odd, square = freedom % 2, math.cos(angle) ** 2
    term = total = math.cos(angle) if is_odd else 1.0
    for n in range(2 + is_odd, freedom - 1, 2):
        term *= square * (n - 1) / n
        total += term
    if is_odd:
        return 2 / math.pi * (angle + (math.sin(angle) * total if freedom > 1 else 0.0))
    return math.sin(angle) * total


def spread_of(values: Sequence[Fraction], is_share: bool = False) -> Spread:
    """The spread of at least one value, each rounded to a whole number of 10^-12. A quantile is interpolated between
    neighbours. Of a share each value is 0 or 100."""
    ordered, count = sorted(round(value * UNIT) for value in values), len(values)
    total = sum(ordered)
    error = None
    if count > 1:
        square = Fraction(sum((count * value - total) ** 2 for value in ordered), count**3 * (count - 1))
        error = math.sqrt(square) / UNIT
    quantiles = tuple(quantile(ordered, share) for share in SHARES)
    return Spread(count, total / (count * UNIT), error, quantiles, sum(map(bool, ordered)) if is_share else None)


def quantile(ordered: Sequence[int], share: int) -> float:
    """The value below which this percentage of ordered values is, in units."""
    place = Fraction(share * (len(ordered) - 1), 100)
    low = int(place)
    high = min(low + 1, len(ordered) - 1)
    return float((ordered[low] + (place - low) * (ordered[high] - ordered[low])) / UNIT)


@dataclass(frozen=True)
class OfBest:
    """A column in percent of what the best allocation is worth: of the same row, or of another one."""

    column: str

    def __call__(self, row: Row, of: Row | None = None) -> Fraction:
        return 100 * Fraction(row[self.column] or 0) / (Fraction((of or row)["best"]) or 1)


@dataclass(frozen=True)
class IsYes:
    """In how many of a hundred rows a column says yes."""

    column: str

    def __call__(self, row: Row) -> Fraction:
        return Fraction(100 * (row[self.column] == "yes"))


def per_cent(column: str) -> Measure:
    """A column in percent."""
    return lambda row: 100 * Fraction(row[column])


def plain(column: str) -> Measure:
    """A column as it is."""
    return lambda row: Fraction(row[column])


RULES: dict[str, Measure] = {"core": OfBest("core"), "Vickrey": OfBest("vickrey"), "pay as bid": OfBest("bids")}
MEASURES: dict[str, Measure] = {
    "efficiency, %": per_cent("efficiency"),
    "core revenue, % of best": RULES["core"],
    "Vickrey revenue, % of best": RULES["Vickrey"],
    "bids, % of best": RULES["pay as bid"],
    "core above Vickrey, % of auctions": IsYes("raised"),
    "rounds": plain("rounds"),
    "unsold lots": plain("unsold"),
}


@dataclass(frozen=True)
class Results:
    """The priced rows of each case, by the numbers of the auctions."""

    plan: Plan
    rows: dict[Case, dict[int, Row]]

    def spread(self, case: Case, measure: Measure) -> Spread:
        """The spread of a measure in a case."""
        return spread_of([measure(row) for row in self.rows[case].values()], isinstance(measure, IsYes))

    def difference(self, pair: Pair, measure: Measure) -> Spread:
        """The spread of the differences of a measure, the second case less the first, over the auctions that both
        have. What is measured by the best value is so in both by the best value of the first case."""
        first, second = self.rows[pair.first], self.rows[pair.second]
        common = [(first[n], second[n]) for n in first if n in second]
        if isinstance(measure, OfBest):
            return spread_of([measure(new, of=old) - measure(old) for old, new in common])
        return spread_of([measure(new) - measure(old) for old, new in common])


@dataclass(frozen=True)
class Pair:
    """Two cases that differ in one field; the second has the next value of it."""

    field: str
    first: Case
    second: Case


def results_of(plan: Plan, table: Sequence[Row]) -> Results:
    """The results of a table, without the rows that a limit stopped."""
    rows: dict[Case, dict[int, Row]] = {case: {} for case in plan.cases}
    for at, row in enumerate(table):
        if not row.get("stopped"):
            rows[plan.cases[at // plan.auctions]][int(row["auction"])] = row
    return Results(plan, rows)


def pairs_of(results: Results) -> list[Pair]:
    """The pairs of cases that differ in one field only, there by one step of the plan, and have auctions in common."""
    plan = results.plan
    steps = {name: list(dict.fromkeys(case.get(name) for case in plan.cases)) for name in plan.varied}
    found = []
    for first in plan.cases:
        for second in plan.cases:
            names = [name for name in plan.fields if first.get(name) != second.get(name)]
            if len(names) == 1 and is_step(steps[names[0]], first.get(names[0]), second.get(names[0])):
                if results.rows[first].keys() & results.rows[second].keys():
                    found.append(Pair(names[0], first, second))
    return found


def is_step(values: Sequence[object], first: object, second: object) -> bool:
    """Whether the second value is the next one."""
    return values.index(second) == values.index(first) + 1
