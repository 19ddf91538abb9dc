"""Cases of vectors/ with more winners than the program prices: eight, ten and eleven. The prices are closed forms."""

from __future__ import annotations

from collections.abc import Collection, Sequence
from typing import TypeAlias

from checks.cases.samples import Row, book_of, certificate_of, lines
from checks.cases.vectors_of.cases import Cases, auction_of, edited

# Of each loser how many lots it bids for, and its amount.
Losers: TypeAlias = Sequence[tuple[int, int]]
EIGHT, TEN = [20] * 8, [100] * 10
FIRST_LOSERS = [(1, 50), (1, 40)]


def sale(
    amounts: Sequence[int], losers: Sequence[tuple[int, int]]
) -> tuple[tuple[int], list[list[tuple[tuple[int], int]]]]:
    """The supply and the bids if each amount is bid for one lot of as many, and the losers bid for their counts."""
    return (len(amounts),), [[((1,), amount)] for amount in amounts] + [
        [((count,), amount)] for count, amount in losers
    ]


def certificate(
    amounts: Sequence[int],
    losers: Losers,
    pay: Sequence[int],
    rows: Sequence[Row],
    without: Collection[int],
    den: int = 1,
) -> bytes:
    """A certificate where all except the losers win. `without` is, for each winner, the number of the loser's bid that
    takes its place; a row has its members, its multipliers and the losers that its choice uses."""
    supply, bids = sale(amounts, losers)
    size = len(amounts)

    def choice(members: Collection[int], used: Collection[int]) -> tuple[int, ...]:
        """All except the members win, and these losers."""
        return tuple(int(j not in members) for j in range(1, size + 1)) + tuple(
            int(n in used) for n in range(len(losers))
        )

    found = [(members, first, second, choice(members, used)) for members, first, second, used in rows]
    others = {j: choice((j,), without) for j in range(1, size + 1)}
    every = choice((), ())
    head = ("cert 1",) if len(bids) <= 12 else ("cert 2", "limits 16 16384")
    return certificate_of(supply, bids, every, others, den, [*pay, *[0] * len(losers)], found, head=head)


def shared(losing: int, pay: Sequence[int], second: int = 1) -> bytes:
    """Eight win, and a ninth bidder that bids for all of eight lots makes them pay `losing` together. Without one of
    them the others still win, so each Vickrey price is 0."""
    every = tuple(range(1, 9))
    return certificate(EIGHT, [(8, losing)], pay, [(every, 1, second, (0,))], ())


def own_rows(count: int, losers: Losers = FIRST_LOSERS, left_out: Collection[int] = ()) -> bytes:
    """The number of winners is the number of needed rows. Each pays the first loser's bid of 50, since without it that
    loser wins."""
    rows = [((j,), 1, 0, (0,)) for j in range(1, count + 1) if j not in left_out]
    return certificate([100] * count, losers, [50] * count, rows, (0,))


def add_winners(v: Cases) -> None:
    """Adds the cases."""

    def both(name: str, why: str, amounts: Sequence[int], losers: Losers, cert: bytes, answer: str) -> None:
        """A case of the book, and one of an auction with this book."""
        supply, bids = sale(amounts, losers)
        v.case(name, why, "check", (book_of(supply, bids), cert), answer)
        v.case(f"{name}-audited", why, "audit", (*auction_of(supply, bids), cert), answer)

    all_lots = [(8, 64)]
    why = "eight win, and share in equal parts what a ninth asks for"
    both("eight-winners", why, EIGHT, all_lots, shared(64, [8] * 8, 8), "yes")
    why = "eight pay as much together, but one a unit more and one a unit less"
    both("eight-winners-unequal", why, EIGHT, all_lots, shared(64, [9, 7, *[8] * 6], 8), "no C8 2")
    why = "eight pay more together than they have to"
    both("eight-winners-too-much", why, EIGHT, all_lots, shared(64, [9] * 8, 9), "no C6 1")
    why = "eight pay nothing, by a row of each"
    rows = [((j,), 1, 0, ()) for j in range(1, 9)]
    both("eight-winners-blocked", why, EIGHT, all_lots, certificate(EIGHT, all_lots, [0] * 8, rows, ()), "no C9 90")
    why = "ten win, and each needs a row of its own"
    both("ten-winners", why, TEN, FIRST_LOSERS, own_rows(10), "yes")
    why = "fourteen bidders, of whom ten win"
    losers = [*FIRST_LOSERS, (1, 30), (1, 20)]
    both("ten-winners-second-version", why, TEN, losers, own_rows(10, losers), "yes")
    why = "ten win, and the last has no row"
    both("ten-winners-nine-rows", why, TEN, FIRST_LOSERS, own_rows(10, left_out=(10,)), "no C7 19")
    why = "ten win, and one pays a unit less than its row asks for"
    cert = edited(own_rows(10), "pay 50", "pay 49")
    both("ten-winners-one-less", why, TEN, FIRST_LOSERS, cert, "no C6 1")
    cert, one = own_rows(11, FIRST_LOSERS[:1]), FIRST_LOSERS[:1]
    why = "eleven win and need a row each, and a certificate has at most ten"
    both("eleven-winners-eleven-rows", why, [100] * 11, one, cert, f"cca: refused cert {cert.index(b'rows 11')}")
    weighted(v)


def weighted(v: Cases) -> None:
    """With weights of 1 to 8 the winners pay 2 to 16 of the 72 that the ninth bids."""
    book = book_of(*sale(EIGHT, [(8, 72)]))
    weights = lines(" / ".join(["weights 1", *(f"weight b{j} {j}" for j in range(1, 9)), "weight b9 1", "end"]))
    files = book, weights, shared(72, range(2, 17, 2), 2)
    v.case(
        "eight-winners-weighed",
        "eight winners of weights 1 to 8 share what a ninth asks for",
        "weigh-check",
        files,
        "yes",
    )
    files = book, weights, shared(72, [9] * 8, 9)
    v.case(
        "eight-winners-weighed-equally",
        "eight winners of weights 1 to 8 pay equal parts",
        "weigh-check",
        files,
        "no C8 3",
    )
