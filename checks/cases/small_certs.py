"""Certificates of small books and placements, by a plain search: no part of cca or of its second program is in them."""

from __future__ import annotations

import itertools
import math
from collections.abc import Collection, Iterator, Sequence
from fractions import Fraction
from typing import TypeAlias

from checks.cases.samples import certificate_of, spaced
from checks.cases.searches import (
    Bidders,
    Bids,
    Choice,
    choices_of_book,
    choices_of_slots,
    core_point,
    dot,
    solution,
    starts_of,
    winning,
)

MOST_WINNERS = 3
# A row has its members, its two multipliers, and its choice. Parts are all that a certificate has of prices.
Row: TypeAlias = tuple[list[int], int, int, tuple[int, ...]]
Parts: TypeAlias = tuple[tuple[int, ...], dict[int, tuple[int, ...]], int, list[int], list[Row]]


class Prices:
    """The winning choice with its prices, and what shows that they are right; all by the numbers of bidders from 0.

    `rows` has for each set of winners the best choice without them and its bound; `first` and `second` are the
    multipliers of those that are tight.
    """

    def __init__(self, choices: Sequence[Choice], nets: Sequence[Sequence[int]], weights: Sequence[int]) -> None:
        self.choice, self.value = winning(choices)
        self.winners = [j for j, number in enumerate(self.choice) if number]
        own = {j: nets[j][self.choice[j] - 1] for j in self.winners}
        self.without = {j: winning([one for one in choices if not one[0][j]]) for j in self.winners}
        self.vickrey = [self.without[j][1] - self.value + own[j] for j in self.winners]
        self.rows: list[tuple[tuple[int, ...], int, tuple[int, ...]]] = []
        for members in (
            m for size in range(1, len(self.winners) + 1) for m in itertools.combinations(self.winners, size)
        ):
            best, worth = winning([one for one in choices if not any(one[0][j] for j in members)])
            self.rows.append((members, worth - sum(own[j] for j in self.winners if j not in members), best))
        self.weights = [weights[j] for j in self.winners]
        self.pay = core_point(
            [(self.coefficients(members), bound) for members, bound, _ in self.rows], self.vickrey, self.weights
        )
        self.den, self.first, self.second = self.multipliers()

    def coefficients(self, members: Collection[int]) -> list[int]:
        """1 for each winner among these members, else 0."""
        return [1 if j in members else 0 for j in self.winners]

    def multipliers(self) -> tuple[int, dict[int, int], dict[int, int]]:
        """A denominator, and of the tight rows both multipliers over it, by their places in the list of rows."""
        tight = [
            r for r, (members, bound, _) in enumerate(self.rows) if dot(self.coefficients(members), self.pay) == bound
        ]
        pull = [(paid - v) / w for paid, v, w in zip(self.pay, self.vickrey, self.weights)]
        for first in self.sums(tight, [Fraction(1)] * len(self.winners), ()):
            for second in self.sums(tight, pull, first):
                den = math.lcm(*(Fraction(x).denominator for x in [*self.pay, *first.values(), *second.values()]))
                whole, other = ({r: int(x * den) for r, x in one.items()} for one in (first, second))
                return den, whole, other
        raise ValueError("no multipliers of few rows")

    def sums(
        self, tight: Sequence[int], wanted: Sequence[Fraction], free: Collection[int]
    ) -> Iterator[dict[int, Fraction]]:
        """Ways to add up a few tight rows to what is wanted at each winner, with factors below 0 only for free rows."""
        for size in range(len(wanted) + 1):
            for rows in itertools.combinations(tight, size):
                found = self.combination(rows, wanted)
                if found is not None and all(x >= 0 or r in free for r, x in found.items()):
                    yield {r: x for r, x in found.items() if x}

    def combination(self, rows: Sequence[int], wanted: Sequence[Fraction]) -> dict[int, Fraction] | None:
        """The factors of these rows that add up to the wanted sums, or None if there are none."""
        lines = [self.coefficients(self.rows[r][0]) for r in rows]
        gram = [[dot(a, b) for b in lines] for a in lines]
        found = solution(gram, [dot(a, wanted) for a in lines]) if rows else []
        if found is None or any(
            sum(x * line[i] for x, line in zip(found, lines)) != wanted[i] for i in range(len(wanted))
        ):
            return None
        return dict(zip(rows, found))

    def parts(self, bidders: int) -> Parts:
        """What a certificate has of these prices, bidders counted from 1: choice, without, den, payments, rows."""
        pay = [int(self.den * self.pay[self.winners.index(j)]) if j in self.winners else 0 for j in range(bidders)]
        used = sorted({*self.first, *self.second})
        rows = [
            ([j + 1 for j in self.rows[r][0]], self.first.get(r, 0), self.second.get(r, 0), self.rows[r][2])
            for r in used
        ]
        return self.choice, {j + 1: choice for j, (choice, _) in self.without.items()}, self.den, pay, rows


def book_certificate(
    supply: Sequence[int], reserves: Sequence[int], bids: Bids, weights: Sequence[int] | None = None
) -> bytes | None:
    """The text of a certificate of a small book, or None if too many bidders win for a plain search."""
    choices = list(choices_of_book(supply, reserves, bids))
    if sum(map(bool, winning(choices)[0])) > MOST_WINNERS:
        return None
    nets = [[amount - dot(package, reserves) for package, amount in one] for one in bids]
    parts = Prices(choices, nets, weights or [1] * len(bids)).parts(len(bids))
    head = (
        ("cert 1",) if len(bids) <= 12 and math.prod(n + 1 for n in supply) <= 4096 else ("cert 2", "limits 16 16384")
    )
    return certificate_of(supply, bids, *parts, head=head, reserves=reserves)


def place_certificate(bidders: Bidders) -> bytes | None:
    """The text of a certificate of slots, of bidders as (width, bids), or None if too many win."""
    choices = list(choices_of_slots(bidders))
    if sum(map(bool, winning(choices)[0])) > MOST_WINNERS:
        return None
    nets = [[amount for _, amount in bids] for _, bids in bidders]
    choice, without, den, pay, rows = Prices(choices, nets, [1] * len(bidders)).parts(len(bidders))
    own = [net[number - 1] if number else 0 for net, number in zip(nets, choice)]
    text = [
        "pcert 1",
        f"den {den}",
        f"value {sum(own)}",
        *placed_lines(bidders, choice),
        "table",
        set_table(bidders, nets),
    ]
    for j, other in without.items():
        text += [
            f"without {j}",
            *placed_lines(bidders, other),
            "table",
            set_table(bidders, [[] if k == j else net for k, net in enumerate(nets, 1)]),
        ]
    text += [spaced("pay", pay), f"rows {len(rows)}"]
    for members, first, second, other in rows:
        text += [spaced("row", members), f"mult {first} {second}", *placed_lines(bidders, other)]
    lost = [den * one - paid if number else 0 for one, paid, number in zip(own, pay, choice)]
    lowered = set_table(bidders, [[den * amount - less for amount in net] for net, less in zip(nets, lost)])
    return "\n".join([*text, "lowered", lowered, "end", ""]).encode()


def placed_lines(bidders: Bidders, choice: Sequence[int]) -> list[str]:
    """The first order that allows a choice, and the choice."""

    def allows(order: Sequence[int]) -> bool:
        starts = starts_of(order, bidders)
        return all(
            not number or bids[number - 1][0] == starts[j] for j, (number, (_, bids)) in enumerate(zip(choice, bidders))
        )

    order = next(order for order in itertools.permutations(range(len(bidders))) if allows(order))
    return [spaced("order", [j + 1 for j in order]), spaced("choice", choice)]


def set_table(bidders: Bidders, worths: Sequence[Sequence[int]]) -> str:
    """The exact table of sets: what the bidders outside each set can still bring if the set is placed first."""
    best = [0] * 2 ** len(bidders)
    for members in reversed(range(len(best) - 1)):
        start = 1 + sum(width for j, (width, _) in enumerate(bidders) if members >> j & 1)
        ways = []
        for j, (_, bids) in enumerate(bidders):
            if not members >> j & 1:
                counts = [worth for (at, _), worth in zip(bids, worths[j]) if at == start]
                ways.append(best[members | 1 << j] + max([0, *counts]))
        best[members] = max(ways)
    return spaced("t", best)
