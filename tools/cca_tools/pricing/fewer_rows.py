"""Fewer rows that show a point, if the rows that showed it are more than a certificate may have.

Each set of winners whose demand is met exactly (a tight row) may be a row. `tight_rows` lists them from the choices
that reach the top of the last lowered table. `fewer` then exchanges rows as the simplex method does: a tight row takes
over from the others until one of them is idle. It goes on while there are fewer rows, or as many that were not seen
before. `searched` repeats that from other rows, at random, until a time is over.

Rows that don't depend on each other show each point (Caratheodory), so there are never more rows than winners. If all
tight rows are independent, their multipliers are unique and no fewer rows show the point.
"""

from __future__ import annotations

import itertools
import math
import random
import time
from collections.abc import Iterator, Sequence
from dataclasses import dataclass
from fractions import Fraction

from cca_tools.pricing.nearest import Demand, solved
from cca_tools.pricing.search import Found, Market, missing
from cca_tools.pricing.tables import rest_of
from cca_tools.rules.money import less, total
from cca_tools.rules.types import Choice, Package
from cca_tools.terminal import progress

FEW, MANY = (1_000, 65_536)  # how many states or tight rows are kept: at first, and in a longer search
STEPS = 60  # exchanges that don't lower the number of rows


@dataclass(frozen=True)
class Shown:
    """Rows with both multipliers, as parts of 1, that show a point."""

    rows: list[Demand]
    first: list[Fraction]
    second: list[Fraction]

    def without_idle(self) -> Shown:
        """The rows with a multiplier that isn't 0."""
        kept = [i for i in range(len(self.rows)) if self.first[i] or self.second[i]]
        return Shown([self.rows[i] for i in kept], [self.first[i] for i in kept], [self.second[i] for i in kept])


@dataclass(frozen=True)
class Tight:
    """The tight rows that were found, the largest first, and whether they are all."""

    rows: list[Demand]
    are_all: bool


@dataclass(frozen=True)
class Fewest:
    """The fewest rows that were found, and whether fewer are impossible."""

    shown: Shown
    is_least: bool


State = tuple[Package, int]  # what is left, and which winners are used


def choices_at_top(market: Market, found: Found, most: int) -> tuple[dict[int, Choice], bool]:
    """A choice that reaches the top of the lowered table for each set of winners that such a choice uses, and whether
    these are all such sets. At most `most` states are kept after each bidder."""
    filler, wins = market.filler, {k: 1 << i for i, k in enumerate(market.winners)}
    states: dict[State, Choice] = {(market.book.supply, 0): ()}
    are_all = True
    for k in range(market.book.bidders):
        after: dict[State, Choice] = {}
        for (left, used), choice in states.items():
            entry = filler.at(found.lowered[k], left)
            if filler.at(found.lowered[k + 1], left) == entry:
                after.setdefault((left, used), (*choice, 0))
            for i in filler.bids[k]:
                rest = rest_of(left, market.book.bids[k][i][0])
                if min(rest) >= 0 and found.worths[k][i] + filler.at(found.lowered[k + 1], rest) == entry:
                    after.setdefault((rest, used | wins.get(k, 0)), (*choice, i + 1))
        are_all = are_all and len(after) <= most
        states = dict(itertools.islice(after.items(), most))
    choices: dict[int, Choice] = {}
    for (_, used), choice in states.items():
        choices.setdefault(used, choice)
    return choices, are_all


def rows_of_choice(market: Market, found: Found, used: int, choice: Choice) -> Iterator[Demand]:
    """The tight rows of a choice at the top: its unused winners, with or without those that pay their whole bids."""
    unused = [i for i in range(len(market.winners)) if not used >> i & 1]
    free = [i for i in unused if found.point.pays[i] == market.won[i]]
    value, won = market.book.value(choice), total(market.won)
    for size in range(len(free) + 1):
        for left_out in itertools.combinations(free, size):
            members = [i for i in unused if i not in left_out]
            bound = less(value, less(won, total(market.won[i] for i in members)))
            yield Demand(sum(1 << i for i in members), bound, choice)


def tight_rows(market: Market, found: Found, most: int) -> Tight:
    """Rows that the point meets exactly, from the search and from the choices at the top."""
    choices, are_all = choices_at_top(market, found, most)
    rows = {row.members: row for row in found.rows if row.members and missing(row, found.point.pays) == 0}
    for used, choice in choices.items():
        for row in rows_of_choice(market, found, used, choice):
            if len(rows) >= most:
                are_all = False
                break
            if row.members:
                rows.setdefault(row.members, row)
    return Tight(sorted(rows.values(), key=lambda row: (-row.members.bit_count(), row.members)), are_all)


class Makers:
    """How the independent rows that show a point add up to others, with their multipliers in whole numbers: an exchange
    goes over many rows, and fractions would take most of its time."""

    def __init__(self, shown: Shown, size: int) -> None:
        self.shown, rows = shown, shown.rows
        self.members = {row.members for row in rows}
        gram = [[(r.members & s.members).bit_count() for s in rows] for r in rows]
        found = solved(gram, [[int(r.holds(i)) for r in rows] for i in range(size)])
        assert found is not None
        self.den = math.lcm(1, *(x.denominator for column in found for x in column))
        self.columns = [[int(x * self.den) for x in column] for column in found]  # of each winner
        self.holders = [[k for k, r in enumerate(rows) if r.holds(i)] for i in range(size)]
        self.first, self.first_den = in_whole_numbers(shown.first)
        self.second, self.second_den = in_whole_numbers(shown.second)

    def shares(self, new: Demand) -> list[int] | None:
        """How often each row is taken to make the new one, times `den`; None if they don't make it."""
        made = list(map(sum, zip(*(column for i, column in enumerate(self.columns) if new.members >> i & 1))))
        is_whole = len(made) == len(self.holders)  # (this many independent rows make each other one)
        return made if is_whole or self.make(new, made) else None

    def make(self, new: Demand, made: Sequence[int]) -> bool:
        """Whether the rows, taken so often, make the new one."""
        sums = (sum(made[k] for k in holders) for holders in self.holders)
        return all(total == new.holds(i) * self.den for i, total in enumerate(sums))

    def most_part(self, made: Sequence[int]) -> tuple[Fraction, int]:
        """The most of the first multipliers that a row can take over, and a row that is left without one; 0 and -1 if
        it can't."""
        gone = first_left(self.first, made, [k for k, x in enumerate(made) if x > 0])
        return Fraction(self.first[gone] * self.den, self.first_den * made[gone]) if gone >= 0 else Fraction(0), gone

    def moves(self, first: Sequence[int], made: Sequence[int]) -> list[tuple[Fraction, int]]:
        """The least and the most of the second multipliers that can be taken over so that no row without a first one
        has a second one below 0, and a row that is left without both; none if no row is like that."""
        rows = [k for k, (u, x) in enumerate(zip(first, made)) if u == 0 and x]
        ends = [first_left(self.second, made, [k for k in rows if made[k] * sign > 0]) for sign in (-1, 1)]
        moves = {Fraction(self.second[k] * self.den, self.second_den * made[k]): k for k in ends if k >= 0}
        return [*moves.items()] if [*moves] == sorted(moves) else []


def first_left(multipliers: Sequence[int], made: Sequence[int], rows: Sequence[int]) -> int:
    """The row whose multiplier reaches 0 first; -1 without rows."""
    gone = -1
    for k in rows:
        if gone < 0 or multipliers[k] * abs(made[gone]) < multipliers[gone] * abs(made[k]):
            gone = k
    return gone


def in_whole_numbers(parts: Sequence[Fraction]) -> tuple[list[int], int]:
    """Fractions as whole numbers, and their denominator."""
    den = math.lcm(1, *(part.denominator for part in parts))
    return [int(part * den) for part in parts], den


def left_over(multipliers: Sequence[int], made: Sequence[int], k: int) -> list[int]:
    """A positive multiple of the multipliers that are left after a new row took over all of row k's; -1 for none."""
    if k < 0:
        return list(multipliers)
    sign = 1 if made[k] > 0 else -1
    return [sign * (u * made[k] - multipliers[k] * x) for u, x in zip(multipliers, made)]


@dataclass(frozen=True)
class Exchange:
    """A new row that takes over a part of the first multipliers and a move of the second ones, and the rows that then
    have a multiplier."""

    makers: Makers
    new: Demand
    made: list[int]
    part: Fraction
    move: Fraction
    rows: list[Demand]

    def shown(self) -> Shown:
        """The rows after the exchange."""
        before, den = self.makers.shown, self.makers.den
        first = [u - self.part * x / den for u, x in zip(before.first, self.made)]
        second = [w - self.move * x / den for w, x in zip(before.second, self.made)]
        return Shown([*before.rows, self.new], [*first, self.part], [*second, self.move]).without_idle()


def exchanges(makers: Makers, new: Demand, made: list[int]) -> Iterator[Exchange]:
    """What a new row can take over: all of the first multipliers that it can, or none, together with as much of the
    second ones as makes a row idle that has no first one."""
    most, gone = makers.most_part(made)
    for part in {most, Fraction(0)}:
        first = left_over(makers.first, made, gone if part else -1)
        for move, k in makers.moves(first, made):
            if part > 0 or move >= 0:
                second = left_over(makers.second, made, k)
                rows = [row for row, u, w in zip(makers.shown.rows, first, second) if u or w]
                yield Exchange(makers, new, made, part, move, [*rows, *([new] if part or move else [])])


def exchanges_with(makers: Makers, new: Demand) -> Iterator[Exchange]:
    """The exchanges with a row, none if it is one of the rows or they don't make it."""
    made = None if new.members in makers.members else makers.shares(new)
    return exchanges(makers, new, made) if made else iter(())


def exchanged(shown: Shown, tight: Sequence[Demand], seen: set[frozenset[int]], size: int) -> Shown | None:
    """Fewer rows by one exchange, or else as many rows that were not seen before; None if there are neither."""
    level: Exchange | None = None
    makers = Makers(shown, size)
    for new in tight:
        for other in exchanges_with(makers, new):
            if len(other.rows) < len(shown.rows):
                return other.shown()
            names = frozenset(row.members for row in other.rows)
            if level is None and len(other.rows) == len(shown.rows) and names not in seen:
                seen.add(names)
                level = other
    return level.shown() if level else None


def fewer(shown: Shown, tight: Sequence[Demand], most: int, size: int) -> Shown:
    """The fewest rows that a row of exchanges reaches, at least until there are no more than `most`."""
    best, seen = shown, set[frozenset[int]]()
    for _ in range(STEPS):
        other = exchanged(shown, tight, seen, size) if len(best.rows) > most else None
        if other is None:
            return best
        shown = other
        best = min(best, shown, key=lambda it: len(it.rows))
    return best


def are_independent(rows: Sequence[Demand]) -> bool:
    """Whether no row is a combination of the others."""
    return solved([[(r.members & s.members).bit_count() for s in rows] for r in rows], []) is not None


def is_least(shown: Shown, tight: Tight, size: int) -> bool:
    """Whether no fewer rows show the point, since all tight rows are known and independent."""
    return tight.are_all and len(tight.rows) <= size and are_independent(tight.rows)


def searched(shown: Shown, tight: Tight, most: int, size: int, seconds: float) -> Shown:
    """The fewest rows that exchanges in random orders reach until the time is over."""
    ends, chance, best = time.monotonic() + seconds, random.Random(0), shown
    while len(best.rows) > most and time.monotonic() < ends:
        progress.step(f"looking for fewer than {len(best.rows)} rows")
        rows = tight.rows[:]
        chance.shuffle(rows)
        best = min(best, fewer(wandered(best, rows, size, chance), rows, most, size), key=lambda it: len(it.rows))
    return best


def wandered(shown: Shown, tight: Sequence[Demand], size: int, chance: random.Random) -> Shown:
    """The rows after some random exchanges that don't make them more."""
    for _ in range(chance.randint(0, 2 * size)):
        found = exchanges_with(Makers(shown, size), chance.choice(tight))
        others = [it for it in found if len(it.rows) <= len(shown.rows)]
        shown = chance.choice(others).shown() if others else shown
    return shown


def fewest(market: Market, found: Found, most: int, seconds: float = 0) -> Fewest:
    """The rows that show the point: the rows of the search, or fewer if they are more than `most`. The search for fewer
    takes at most this many seconds."""
    point, size = found.point, len(market.winners)
    shown = Shown([found.rows[r] for r in point.kept], point.first, point.second).without_idle()
    if len(shown.rows) <= most:
        return Fewest(shown, False)
    progress.step(f"looking for fewer than {len(shown.rows)} rows")
    tight = tight_rows(market, found, FEW)
    shown = fewer(shown, tight.rows, most, size)
    if len(shown.rows) > most and seconds and not is_least(shown, tight, size):
        tight = tight if tight.are_all else tight_rows(market, found, MANY)
        shown = searched(shown, tight, most, size, seconds)
    return Fewest(shown, is_least(shown, tight, size))
