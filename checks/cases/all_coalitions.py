"""Tests printed prices of small books by all choices and all coalitions, with exact fractions.

It shares no code with tools/price. All choices are listed. They determine who wins, the Vickrey prices, and what each
set of winners has to pay together. Multipliers of the rows that the printed payments meet exactly (Karush, Kuhn and
Tucker) show that these payments have the least sum and are nearest to the Vickrey prices. The simplex method finds such
multipliers if there are any.
"""

from __future__ import annotations

from collections.abc import Iterator, Mapping, Sequence
from fractions import Fraction
from typing import NamedTuple, TypeAlias

from checks.cases import samples  # noqa: F401, finds cca_tools

from cca_tools.rules.book import Book
from cca_tools.rules.types import Choice, Gross

Members: TypeAlias = frozenset[int]


class Winner(NamedTuple):
    """A printed winner: its number from 0, the number of its bid, its Vickrey price and its payment, net."""

    k: int
    bid: int
    vickrey: int
    pays: Fraction


def all_choices(book: Book) -> Iterator[tuple[Choice, int]]:
    """All choices that fit, with their values."""

    def after(k: int, choice: Choice, left: Sequence[int], value: int) -> Iterator[tuple[Choice, int]]:
        if k == book.bidders:
            yield choice, value
            return
        yield from after(k + 1, (*choice, 0), left, value)
        for i, (package, _) in enumerate(book.bids[k], 1):
            rest = [have - count for have, count in zip(left, package)]
            if min(rest) >= 0:
                yield from after(k + 1, (*choice, i), rest, value + book.net[k][i - 1])

    return after(0, (), book.supply, 0)


def rank(choice: Choice) -> list[int]:
    """The order of ties: at the first bidder that makes two choices differ, the smaller number comes first, and 0
    last."""
    return [number or 10**6 for number in choice]


def printed_winners(book: Book, lines: Sequence[str]) -> list[Winner]:
    """The winners of printed lines."""
    found = []
    for line in lines:
        if line.startswith("winner "):
            _, name, *counts, _, amount, _, vickrey, _, pays = line.split(" ")
            k, package = book.names.index(name), tuple(map(int, counts))
            reserve, bid = book.reserve(package), (package, Gross(int(amount)))
            whole, _, part = pays.partition("+")
            net = int(whole) + Fraction(part or 0) - reserve
            found.append(Winner(k, book.bids[k].index(bid) + 1, int(vickrey) - reserve, net))
    return found


def faults(book: Book, weights: Sequence[int], lines: Sequence[str]) -> Iterator[str]:
    """What is wrong with printed prices of these weights."""
    winners = printed_winners(book, lines)
    choices = list(all_choices(book))
    most = max(value for _, value in choices)
    first = min((choice for choice, value in choices if value == most), key=rank)
    if {it.k: it.bid for it in winners} != {k: number for k, number in enumerate(first) if number}:
        yield f"the winning choice is {first}"
        return
    if f"net {most}" not in lines:
        yield f"the value is {most}"
    won = {it.k: book.net[it.k][it.bid - 1] for it in winners}
    demands = all_demands(choices, won)
    yield from (f"bidder {it.k + 1}: Vickrey price" for it in winners if it.vickrey != demands[frozenset([it.k])])
    pays = {it.k: it.pays for it in winners}
    gaps = {members: sum(pays[k] for k in members) - bound for members, bound in demands.items()}
    yield from (f"{sorted(members)} pay too little" for members, gap in gaps.items() if gap < 0)
    yield from (f"bidder {k + 1} pays more than its bid" for k in pays if pays[k] > won[k])
    met = [members for members, gap in gaps.items() if gap == 0]
    columns = [[int(it.k in members) for it in winners] for members in met]
    if not has_solution(columns, [Fraction(1)] * len(winners)):
        yield "the sum isn't the least"
    ones = [[1] * len(winners), [-1] * len(winners)]
    if not has_solution([*columns, *ones], [(it.pays - it.vickrey) / weights[it.k] for it in winners]):
        yield "the point isn't the nearest"


def all_demands(choices: Sequence[tuple[Choice, int]], won: Mapping[int, int]) -> dict[Members, int]:
    """What each set of winners has to pay together: the value of the best choice without them, less what the other
    winners bid."""
    places = {k: 1 << i for i, k in enumerate(won)}
    best = [-1] * (1 << len(won))  # by the set of winners that a choice doesn't use, or that it may leave out
    for choice, value in choices:
        used = sum(bit for k, bit in places.items() if choice[k])
        best[~used] = max(best[~used], value)
    for bit in places.values():
        for members in range(len(best)):
            if members & bit:
                best[members ^ bit] = max(best[members ^ bit], best[members])
    total = sum(won.values())
    found = {}
    for members in range(1, len(best)):
        inside = frozenset(k for k, bit in places.items() if members & bit)
        found[inside] = best[members] - total + sum(won[k] for k in inside)
    return found


def has_solution(columns: Sequence[Sequence[int]], right: Sequence[Fraction]) -> bool:
    """Whether multiples of the columns, none below 0, add up to the right side: the first phase of the simplex method
    with Bland's rule, under which it ends."""
    count = len(columns)
    signs = [1 if entry >= 0 else -1 for entry in right]
    lines = [[*(Fraction(sign * column[i]) for column in columns), sign * right[i]] for i, sign in enumerate(signs)]
    basis = list(range(count, count + len(lines)))
    while True:
        open_lines = [line for line, b in zip(lines, basis) if b >= count]
        if not any(line[count] for line in open_lines):
            return True
        enter = next((c for c in range(count) if sum(line[c] for line in open_lines) > 0), None)
        if enter is None:
            return False
        ratios = [(line[count] / line[enter], basis[i], i) for i, line in enumerate(lines) if line[enter] > 0]
        leave = min(ratios)[2]
        pivot(lines, leave, enter)
        basis[leave] = enter


def pivot(lines: list[list[Fraction]], row: int, column: int) -> None:
    """Makes a column a unit vector, with 1 in the row."""
    lines[row] = [entry / lines[row][column] for entry in lines[row]]
    for i, line in enumerate(lines):
        if i != row and line[column]:
            lines[i] = [x - line[column] * y for x, y in zip(line, lines[row])]
