"""The nearest point of least sum that meets given rows, exactly, with the multipliers that show it.

The point that meets the rows and is nearest to a reference (the Vickrey prices, for `cca`) less a great multiple of
the weights has the least sum among those that meet the rows, and is the nearest of these. Its dual is solved by an
active set method (Lawson and Hanson, Solving Least Squares Problems, 1974) that starts from the rows of the turn
before. The multiplier of a row in the active set is `second + great * first`. Both parts are solved for separately, in
whole numbers (Bareiss). So `great` is part of no price, and whether it was great enough is tested at the end.

Winners are numbered from 0 here, and amounts are net of reserve.
"""

from __future__ import annotations

from collections.abc import Sequence
from dataclasses import dataclass, field
from fractions import Fraction

from cca_tools.rules.money import less, total
from cca_tools.rules.types import Choice, Net, NetPrice


@dataclass(frozen=True)
class Demand:
    """What a row asks for: the winners of `members` (bit i for winner i) pay at least `bound` together, since `choice`,
    which uses none of them, could otherwise block."""

    members: int
    bound: Net
    choice: Choice

    def holds(self, i: int) -> bool:
        """Whether winner i is a member."""
        return bool(self.members >> i & 1)


@dataclass(frozen=True)
class Point:
    """What each winner pays, and the rows, by their numbers, that show it, with both multipliers of each."""

    pays: list[NetPrice]
    kept: list[int]
    first: list[Fraction]
    second: list[Fraction]


def solved(matrix: Sequence[Sequence[int]], sides: Sequence[Sequence[int]]) -> list[list[Fraction]] | None:
    """The solution of the equations for each right side; None if the matrix is singular."""
    size = len(matrix)
    rows = [[*row, *(side[i] for side in sides)] for i, row in enumerate(matrix)]
    last = 1
    for i in range(size):
        pivot = next((r for r in range(i, size) if rows[r][i]), None)
        if pivot is None:
            return None
        rows[i], rows[pivot] = rows[pivot], rows[i]
        for r in range(size):
            if r != i:
                rows[r] = [(rows[i][i] * x - rows[r][i] * y) // last for x, y in zip(rows[r], rows[i])]
        last = rows[i][i]
    return [[Fraction(rows[i][size + s], rows[i][i]) for i in range(size)] for s in range(len(sides))]


@dataclass
class Nearest:
    """The reference (Vickrey prices or another point), the rows so far, and the active set of the last turn with its
    multipliers."""

    reference: list[Net]
    weights: list[int]
    rows: list[Demand] = field(default_factory=list)
    great: int = 2**160
    kept: list[int] = field(default_factory=list)
    held: dict[int, Fraction] = field(default_factory=dict)

    def weight(self, members: int) -> int:
        """The sum of the weights of members."""
        return sum(w for i, w in enumerate(self.weights) if members >> i & 1)

    def gap(self, row: Demand) -> Net:
        """How much the reference is short of a row."""
        return less(row.bound, total(v for i, v in enumerate(self.reference) if row.holds(i)))

    def gram(self, kept: Sequence[int]) -> list[list[int]]:
        """The weighted products of rows."""
        return [[self.weight(self.rows[r].members & self.rows[s].members) for s in kept] for r in kept]

    def parts(self, kept: Sequence[int]) -> list[list[Fraction]] | None:
        """Both multipliers of the rows if all of them are met exactly; None if the rows depend on each other."""
        rows = [self.rows[r] for r in kept]
        return solved(self.gram(kept), [[self.weight(r.members) for r in rows], [self.gap(r) for r in rows]])

    def shares(self, kept: Sequence[int], new: int) -> list[Fraction]:
        """How often each of these rows, which don't depend on each other, is taken to make another one."""
        found = solved(self.gram(kept), [[self.weight(self.rows[new].members & self.rows[r].members) for r in kept]])
        assert found is not None
        return found[0]

    def both(self, kept: Sequence[int]) -> tuple[list[Fraction], list[Fraction]]:
        """Both multipliers of rows that don't depend on each other; rows of the active set never do."""
        parts = self.parts(kept)
        assert parts is not None
        return parts[0], parts[1]

    def short(self, row: Demand) -> Fraction:
        """How much the point of the multipliers is short of a row."""
        shifts = (self.held[r] * self.weight(self.rows[r].members & row.members) for r in self.kept)
        return self.gap(row) + self.great * self.weight(row.members) - sum(shifts, Fraction(0))

    def point(self) -> Point:
        """The nearest point of least sum that meets all rows so far."""
        while True:
            self.settle()
            first, second = self.both(self.kept)
            if self.shows(first, second):
                return self.made(self.kept, first, second)
            self.great, self.kept, self.held = self.great**2, [], {}

    def settle(self) -> None:
        """Adds the row that is missed most to the active set, until no row is missed."""
        while True:
            shorts = [(self.short(row), -r) for r, row in enumerate(self.rows) if r not in self.kept]
            most, r = max(shorts, default=(Fraction(0), 0))
            if most <= 0:
                return
            self.take(-r)

    def take(self, new: int) -> None:
        """Adds a row to the active set, and drops the rows whose multipliers would fall below 0."""
        begun = self.make_room(new)
        self.kept.append(new)
        self.held[new] = begun
        while True:
            first, second = self.both(self.kept)
            wanted = {r: w + self.great * u for r, u, w in zip(self.kept, first, second)}
            if min(wanted.values()) > 0:
                self.held = wanted
                return
            self.move(wanted)

    def move(self, wanted: dict[int, Fraction]) -> None:
        """Moves towards the wanted multipliers until one reaches 0, and drops the rows that have reached it."""
        part = min(self.held[r] / (self.held[r] - wanted[r]) for r in self.kept if wanted[r] <= 0)
        self.keep({r: self.held[r] + part * (wanted[r] - self.held[r]) for r in self.kept})

    def keep(self, held: dict[int, Fraction]) -> None:
        """Keeps the rows whose multipliers are above 0."""
        self.kept = [r for r in self.kept if held[r] > 0]
        self.held = {r: held[r] for r in self.kept}

    def make_room(self, new: int) -> Fraction:
        """If the new row depends on the rows of the active set, it takes over from them until one is dropped. Returns
        how much it has taken over."""
        if self.parts([*self.kept, new]) is not None:
            return Fraction(0)
        share = dict(zip(self.kept, self.shares(self.kept, new)))
        part = min(self.held[r] / share[r] for r in self.kept if share[r] > 0)
        self.keep({r: self.held[r] - part * share[r] for r in self.kept})
        return part

    def shows(self, first: Sequence[Fraction], second: Sequence[Fraction]) -> bool:
        """Whether the multipliers show the least sum and the nearest point, so that `great` was great enough."""
        kept = [self.rows[r] for r in self.kept]
        sums = [sum(u for row, u in zip(kept, first) if row.holds(i)) for i in range(len(self.reference))]
        return all(whole == 1 for whole in sums) and all(u > 0 or u == 0 <= w for u, w in zip(first, second))

    def made(self, kept: Sequence[int], first: list[Fraction], second: list[Fraction]) -> Point:
        """The point of these multipliers of rows."""
        rows = [self.rows[r] for r in kept]
        pays = [
            NetPrice(Fraction(v) + w * sum(x for row, x in zip(rows, second) if row.holds(i)))
            for i, (v, w) in enumerate(zip(self.reference, self.weights))
        ]
        return Point(pays, list(kept), first, second)
