"""What `cca price --rounds` prints, read again, for general solvers."""

from __future__ import annotations

from fractions import Fraction
from typing import TypeAlias

from checks.cases.limit_books import RESERVE, SUPPLY

# The winners with their net amounts and Vickrey prices, the net value, and of each turn its point and greatest sum.
Priced: TypeAlias = tuple[list[tuple[int, int, int]], int, list[tuple[list[Fraction], Fraction]]]
# A winner determination: the surpluses by bidders, the bidder that is left out, and the greatest sum.
Wanted: TypeAlias = tuple[dict[int, Fraction | int], int | None, Fraction | int]


def fraction(word: str) -> Fraction:
    """The number of a text such as 3+2/3."""
    whole, _, rest = word.partition("+")
    return int(whole) + Fraction(rest or 0)


def prices_of(printed: str) -> Priced:
    """The winners with their net amounts and Vickrey prices, the net value, and of each turn the point with the
    greatest lowered sum."""
    winners: list[tuple[int, int, int]] = []
    turns: list[tuple[list[Fraction], Fraction]] = []
    net = 0
    for line in printed.splitlines():
        words = line.split()
        if words[0] == "round":
            end = words.index("row") if "row" in words else words.index("end")
            point = [fraction(w) for w in words[3:end]]
            row = fraction(words[-1]) if "row" in words else Fraction(0)
            turns.append((point, sum(point, row)))
        elif words[0] == "winner":
            lots = tuple(map(int, words[2 : 2 + len(SUPPLY)]))
            cost = sum(n * r for n, r in zip(lots, RESERVE))
            at = words.index("bid")
            winners.append((int(words[1][1:]) - 1, int(words[at + 1]) - cost, int(words[at + 3]) - cost))
        elif words[0] == "net":
            net = int(words[1])
    return winners, net, turns


def wanted_of(printed: str) -> list[Wanted]:
    """The winner determinations of a pricing: the surpluses, the bidder that is left out, and the greatest sum."""
    winners, net, turns = prices_of(printed)
    wanted: list[Wanted] = [({}, None, net)]
    wanted += [({}, j, vickrey + net - own) for j, own, vickrey in winners]
    return wanted + [({j: own - n for (j, own, _), n in zip(winners, point)}, None, most) for point, most in turns]
