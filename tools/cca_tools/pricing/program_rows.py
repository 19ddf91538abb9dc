"""The rows that `cca price` uses to show a point if several sets of rows show it.

If the rows that a point meets exactly depend on each other, their multipliers aren't unique. The program solves each
turn from the start (crates/nearest_point/src/guess.rt), while `Nearest` goes on from the turn before, so that they may
end with other rows of one point. This takes the steps of the program: a set of rows leads to the point that meets them
exactly. The next set is without the rows whose multipliers are below 0, or with the row that is missed most.
"""

from __future__ import annotations

import functools
from collections.abc import Sequence
from fractions import Fraction
from typing import TypeAlias

from cca_tools.pricing.nearest import Demand, Nearest, Point

MOST_TRIES = 64  # sets of rows; after these the program searches in another way
# A part of the least sum, which decides, and one of the nearest point.
Pair: TypeAlias = tuple[Fraction, Fraction]
NONE = Fraction(0), Fraction(0)


def program_point(nearest: Nearest) -> Point | None:
    """The point of all rows, shown with the rows of the program; None if the steps don't end soon."""
    kept = last_independent(nearest.rows)
    for _ in range(MOST_TRIES):
        after = next_set(nearest, kept)
        if after is None:
            return nearest.made(sorted(kept), *nearest.both(sorted(kept)))
        kept = after
    return None


def last_independent(rows: Sequence[Demand]) -> list[int]:
    """The last rows, each with a member that the exclusive or of no others has."""
    kept, basis = list[int](), list[int]()
    for r in reversed(range(len(rows))):
        rest = functools.reduce(lambda rest, other: min(rest, rest ^ other), basis, rows[r].members)
        if rest:
            kept.append(r)
            basis.append(rest)
    return kept


def next_set(nearest: Nearest, kept: list[int]) -> list[int] | None:
    """The set of rows that is tried after another; None if that one shows the point."""
    parts = nearest.parts(kept)
    if parts is None:
        return exchanged(nearest, kept)
    pairs = {r: (first, second) for r, first, second in zip(kept, *parts)}
    if any(pair < NONE for pair in pairs.values()):
        return [r for r in kept if pairs[r] >= NONE]
    short, missed = max(((short_of(nearest, pairs, row), r) for r, row in enumerate(nearest.rows)), default=(NONE, 0))
    return [*sorted(kept, key=lambda r: (pairs[r], r)), missed] if short > NONE else None


def short_of(nearest: Nearest, pairs: dict[int, Pair], row: Demand) -> Pair:
    """How much the point of the multipliers is short of a row."""
    shared = {r: nearest.weight(nearest.rows[r].members & row.members) for r in pairs}
    first = nearest.weight(row.members) - sum((pairs[r][0] * shared[r] for r in pairs), Fraction(0))
    return first, nearest.gap(row) - sum((pairs[r][1] * shared[r] for r in pairs), Fraction(0))


def exchanged(nearest: Nearest, kept: list[int]) -> list[int]:
    """The set without the first row that its last one, which depends on the others, is made of with a share above
    0."""
    shares = zip(kept, nearest.shares(kept[:-1], kept[-1]))
    gone = next((r for r, share in shares if share > 0), None)
    return [r for r in kept if r != gone]
