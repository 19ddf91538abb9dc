"""Small auctions by going through all allocations: the best one, and the least sum of the core. Nothing of cca_tools
is in it."""

from __future__ import annotations

import itertools
from collections.abc import Collection, Iterator, Mapping, Sequence
from fractions import Fraction
from typing import TypeAlias

# Of each bidder the gross amount for each package.
Values: TypeAlias = Sequence[Mapping[tuple[int, ...], int]]


def best(supply: Sequence[int], reserves: Sequence[int], bids: Values, members: Collection[int]) -> int:
    """The greatest net value of an allocation where only these bidders win."""
    none: tuple[tuple[int, ...], int] = (0,) * len(supply), 0
    ways = [[none, *bids[j].items()] if j in members else [none] for j in range(len(bids))]
    choices: Iterator[tuple[tuple[tuple[int, ...], int], ...]] = itertools.product(*ways)
    return max(
        sum(amount - sum(n * r for n, r in zip(package, reserves)) for package, amount in choice)
        for choice in choices
        if all(sum(counts) <= most for counts, most in zip(zip(*(package for package, _ in choice)), supply))
    )


def solved(rows: Sequence[Sequence[int]]) -> list[Fraction] | None:
    """The solution of these equations, as many as unknowns; None if there isn't exactly one."""
    lines, size = [list(map(Fraction, row)) for row in rows], len(rows)
    for at in range(size):
        found = next((n for n in range(at, size) if lines[n][at]), None)
        if found is None:
            return None
        lines[at], lines[found] = lines[found], lines[at]
        lines[at] = [cell / lines[at][at] for cell in lines[at]]
        for n in range(size):
            if n != at:
                lines[n] = [cell - lines[n][at] * own for cell, own in zip(lines[n], lines[at])]
    return [line[-1] for line in lines]


def core_sum(supply: Sequence[int], reserves: Sequence[int], bids: Values, won: Mapping[int, int]) -> Fraction:
    """The least sum, net, that winners with these net amounts (by their places from 0) pay in the core.

    It is reached at a corner, so all corners are visited.
    """
    winners, every = sorted(won), set(range(len(bids)))
    if not winners:
        return Fraction(0)
    limits: list[list[int]] = []
    for size in range(1, len(winners) + 1):
        for out in itertools.combinations(winners, size):
            least = best(supply, reserves, bids, every - set(out)) - sum(won[j] for j in winners if j not in out)
            limits.append([*(int(j in out) for j in winners), least])
    limits += [[*(-int(j == k) for j in winners), -won[k]] for k in winners]
    corners = (solved(rows) for rows in itertools.combinations(limits, len(winners)))
    sums = [
        sum(point, Fraction(0))
        for point in corners
        if point is not None and all(holds(point, limit) for limit in limits)
    ]
    return min(sums)


def holds(point: Sequence[Fraction], limit: Sequence[int]) -> bool:
    return sum(a * b for a, b in zip(point, limit)) >= limit[-1]
