"""Prices of small books and placements by a plain search, without any table, surplus or turn.

It lists the choices that are allowed, asks of every set of winners what the best choice without it asks, finds the
least sum among the corners of these rows, and then the nearest point among all sets of rows that may be tight.
"""

from __future__ import annotations

import itertools
from collections.abc import Iterable, Iterator, Sequence
from fractions import Fraction
from typing import TypeAlias, overload

# A whole number or a fraction.
Rational: TypeAlias = int | Fraction
# Of each bidder its bids, each a package and a gross amount.
Bids: TypeAlias = Sequence[Sequence[tuple[Sequence[int], int]]]
# Of each bidder how many slots it needs, and its bids, each a first slot and an amount.
Bidders: TypeAlias = Sequence[tuple[int, Sequence[tuple[int, int]]]]
# For each bidder the number of its bid or 0, and the net value of them all.
Choice: TypeAlias = tuple[tuple[int, ...], int]
# The coefficients of a core constraint at each winner, and its bound.
CoreRow: TypeAlias = tuple[Sequence[int], int]


@overload
def dot(a: Iterable[int], b: Iterable[int]) -> int:
    ...


@overload
def dot(a: Iterable[Rational], b: Iterable[Rational]) -> Rational:
    ...


def dot(a: Iterable[Rational], b: Iterable[Rational]) -> Rational:
    """The sum of the products."""
    return sum(x * y for x, y in zip(a, b))


def solution(matrix: Sequence[Sequence[Rational]], right: Sequence[Rational]) -> list[Fraction] | None:
    """The only solution of a square system, or None."""
    n = len(matrix)
    lines = [[Fraction(x) for x in line] + [Fraction(y)] for line, y in zip(matrix, right)]
    for c in range(n):
        pivot = next((r for r in range(c, n) if lines[r][c] != 0), None)
        if pivot is None:
            return None
        lines[c], lines[pivot] = lines[pivot], lines[c]
        lines[c] = [x / lines[c][c] for x in lines[c]]
        for r in range(n):
            if r != c and lines[r][c] != 0:
                lines[r] = [x - lines[r][c] * y for x, y in zip(lines[r], lines[c])]
    return [line[n] for line in lines]


def choices_of_book(supply: Sequence[int], reserves: Sequence[int], bidders: Bids) -> Iterator[Choice]:
    """The choices that fit, with their net values."""
    for choice in itertools.product(*(range(len(bids) + 1) for bids in bidders)):
        won = [bids[number - 1] for bids, number in zip(bidders, choice) if number]
        if all(sum(package[c] for package, _ in won) <= most for c, most in enumerate(supply)):
            yield choice, sum(amount - dot(package, reserves) for package, amount in won)


def starts_of(order: Iterable[int], bidders: Bidders) -> dict[int, int]:
    """The first slot of each bidder in an order."""
    starts, start = {}, 1
    for j in order:
        starts[j] = start
        start += bidders[j][0]
    return starts


def best_of_order(order: Iterable[int], bidders: Bidders) -> list[int]:
    """The number of the bid that each bidder could win with in an order, or 0."""
    starts = starts_of(order, bidders)
    return [
        next((i for i, (start, _) in enumerate(bids, 1) if start == starts[j]), 0)
        for j, (_, bids) in enumerate(bidders)
    ]


def choices_of_slots(bidders: Bidders) -> Iterator[Choice]:
    """The choices that some order allows, with their values. A bidder is (width, bids)."""
    orders = itertools.permutations(range(len(bidders)))
    allowed = {
        choice
        for order in orders
        for choice in itertools.product(*({0, number} for number in best_of_order(order, bidders)))
    }
    for choice in allowed:
        yield choice, sum(bids[number - 1][1] for (_, bids), number in zip(bidders, choice) if number)


def core_point(rows: Sequence[CoreRow], vickrey: Sequence[int], weights: Sequence[int]) -> list[Fraction]:
    """Among the points of least sum that meet all rows, the nearest one to the Vickrey prices, each square divided by
    its weight."""
    n = len(vickrey)
    if n == 0:
        return []

    def meets(q: Sequence[Fraction]) -> bool:
        return all(dot(a, q) >= bound for a, bound in rows)

    corners = (solution([a for a, _ in tight], [b for _, b in tight]) for tight in itertools.combinations(rows, n))
    least = min(sum(q, Fraction(0)) for q in corners if q and meets(q))
    points: list[tuple[Fraction, list[Fraction]]] = []
    for tight in (t for k in range(n) for t in itertools.combinations(rows, k)):
        lines = [[1] * n, *(a for a, _ in tight)]
        bounds: list[Rational] = [least, *(b for _, b in tight)]
        gram = [[sum(x * y * w for x, y, w in zip(a, b, weights)) for b in lines] for a in lines]
        pulls = solution(gram, [b - dot(a, vickrey) for a, b in zip(lines, bounds)])
        if pulls is not None:
            each = enumerate(zip(vickrey, weights))
            point = [Fraction(v + w * dot(pulls, [a[i] for a in lines])) for i, (v, w) in each]
            if meets(point):
                squares = ((x - v) ** 2 / w for x, v, w in zip(point, vickrey, weights))
                points.append((sum(squares, Fraction(0)), point))
    return min(points)[1]


def winning(choices: Sequence[Choice]) -> Choice:
    """The first choice of the greatest value, and that value: at the first bidder where two differ the smaller number
    comes first, and 0 last."""
    most = max(value for _, value in choices)
    return min((c for c, value in choices if value == most), key=lambda c: [number or 10**6 for number in c]), most


def prices_of(choices: Sequence[Choice], own: Sequence[int], weights: Sequence[int]) -> list[tuple[int, int, Fraction]]:
    """For the winners of the winning choice, in order, their Vickrey prices and payments. `own` has what each bidder
    wins with."""
    first, most = winning(choices)
    winners = [j for j, number in enumerate(first) if number]
    vickrey = [max(value for c, value in choices if not c[j]) - most + own[j] for j in winners]
    rows: list[CoreRow] = []
    for members in (m for r in range(1, len(winners) + 1) for m in itertools.combinations(winners, r)):
        best = max(
            v - sum(own[j] for j in winners if j not in members) for c, v in choices if not any(c[j] for j in members)
        )
        rows.append(([1 if j in members else 0 for j in winners], best))
    return list(zip(winners, vickrey, core_point(rows, vickrey, [weights[j] for j in winners])))


def fraction_text(x: Fraction) -> str:
    """A fraction as the program prints it."""
    whole = x.numerator // x.denominator
    rest = x - whole
    return f"{whole}+{rest}" if rest else f"{whole}"


def book_prices(book: tuple[Sequence[int], Sequence[int], Bids], weights: Sequence[int] | None = None) -> str:
    """What is printed of the prices of a book by these weights, by 1 for each bidder without any."""
    supply, reserves, bidders = book
    choices = list(choices_of_book(*book))
    first, most = winning(choices)
    won = [bids[number - 1] if number else None for bids, number in zip(bidders, first)]
    own = [amount - dot(package, reserves) for package, amount in (bid or ((), 0) for bid in won)]
    lines, revenue = [], Fraction(0)
    for j, v, pays in prices_of(choices, own, weights or [1] * len(bidders)):
        package, amount = bidders[j][first[j] - 1]
        cost = dot(package, reserves)
        revenue += pays + cost
        lots = " ".join(map(str, package))
        lines.append(f"winner b{j + 1} {lots} bid {amount} vickrey {v + cost} pays {fraction_text(pays + cost)}")
    return "\n".join(lines + [f"net {most}", f"revenue {fraction_text(revenue)}"])


def place_prices(bidders: Bidders) -> str:
    """What is printed of a placement: the first order that allows the winning choice, and the prices."""
    choices = list(choices_of_slots(bidders))
    first, most = winning(choices)
    orders = itertools.permutations(range(len(bidders)))
    order = next(o for o in orders if all(not i or i == n for i, n in zip(first, best_of_order(o, bidders))))
    own = [bids[number - 1][1] if number else 0 for (_, bids), number in zip(bidders, first)]
    prices = prices_of(choices, own, [1] * len(bidders))
    lines = [f"placed b{j + 1} {start} {bidders[j][0]}" for j, start in starts_of(order, bidders).items()]
    for j, v, pays in prices:
        start, amount = bidders[j][1][first[j] - 1]
        lines.append(f"winner b{j + 1} {start} bid {amount} vickrey {v} pays {fraction_text(pays)}")
    return "\n".join(
        lines + [f"value {most}", f"revenue {fraction_text(sum((pays for _, _, pays in prices), Fraction(0)))}"]
    )
