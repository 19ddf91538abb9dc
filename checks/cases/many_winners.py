"""Drawn books where many bidders win, and books of the same kinds with few winners, with weights, or at the limits.

Each book is drawn from its number. There are ten families:

    symmetric  all bidders bid the same for one category
    concave    each further lot of a category is worth less, so that bidders are substitutes for each other
    additive   the worths of categories add up, and a bidder takes up to three lots
    synergy    worths grow with the package, and large bidders lose
    overlap    bidders of one lot, and bidders of overlapping sets of categories
    licences   bidders of different sizes near one market price, with noise
    all_small  more lots than all bidders ask for at least
    shares     large bidders against groups of small ones, which share what the large ones bid
    clock      what a clock leaves: each bidder's best package at each price, then a list of its best packages
    ring       bidders of one lot in five or six regions on a ring, and losers that bid for arcs of neighbouring regions

Every fourth book of a family has amounts up to the greatest of the format, and every fifth has weights.
"""

from __future__ import annotations

import itertools
import random
from collections.abc import Callable, Iterable, Sequence
from typing import NamedTuple, TypeAlias

from checks.cases import samples  # noqa: F401, finds cca_tools

from cca_tools.pricing.tables import filler_of
from cca_tools.rules.book import Book
from cca_tools.rules.stops import MOST
from cca_tools.rules.types import Amount, Gross, Package, Prices

Bids: TypeAlias = dict[Package, Amount]
GREAT, NOISE = 2**42 - 2**20, 2**20


class Sale(NamedTuple):
    """The supply, its reserves, and the bids of each bidder."""

    supply: Package
    reserves: Prices
    bids: list[Bids]


class Drawn(NamedTuple):
    """A drawn book, its family, and the weights of its bidders if it has any."""

    family: str
    book: Book
    weights: list[int] | None


def packages(most: Iterable[int]) -> list[Package]:
    """All packages with at most this many lots of each category, except the empty one."""
    return [package for package in itertools.product(*(range(count + 1) for count in most)) if any(package)]


def some(rng: random.Random, found: Sequence[Package], least: int, most: int) -> list[Package]:
    """Between `least` and `most` of the packages, or all if they are fewer."""
    return rng.sample(found, min(len(found), rng.randint(least, most)))


def unit(size: int, at: int) -> Package:
    """One lot of a category."""
    return tuple(int(c == at) for c in range(size))


def symmetric(rng: random.Random) -> Sale:
    """All bidders bid the same for one category."""
    bidders = rng.randint(8, 16)
    shape = rng.choice(["flat", "down", "up", "hump"])
    worths = [0]
    for q in range(1, rng.randint(2, 12) + 1):
        more = {"flat": 10, "down": max(1, 20 - 3 * q), "up": 5 + 3 * q, "hump": 8 + q % 3 * 4}[shape]
        worths.append(worths[-1] + more)
    return Sale((rng.randint(bidders, 40),), (0,), [{(q,): w for q, w in enumerate(worths) if q}] * bidders)


def concave(rng: random.Random) -> Sale:
    """Each further lot of a category is worth less."""
    bidders, size = rng.randint(10, 16), rng.randint(1, 3)
    supply = {1: (min(40, 2 * bidders + rng.randint(0, 8)),), 2: (bidders + 3, bidders + 3), 3: (9, 9, 9)}[size]
    most = (5, 4, 2)[size - 1]

    def bids() -> Bids:
        falling = [sorted((rng.randint(20, 200) for _ in range(most)), reverse=True) for _ in supply]
        return {p: sum(sum(of[:q]) for of, q in zip(falling, p)) for p in packages([most] * size)}

    return Sale(supply, (rng.choice([0, 5]),) * size, [bids() for _ in range(bidders)])


def additive(rng: random.Random) -> Sale:
    """The worths of categories add up, and a bidder takes up to three lots."""
    size, bidders = rng.randint(2, 4), rng.randint(11, 16)
    supply = tuple(rng.randint(3, 9 if size < 4 else 4) for _ in range(size))

    def bids() -> Bids:
        taste = [rng.randint(10, 60) for _ in supply]
        found = [p for p in packages(min(count, 2) for count in supply) if sum(p) <= 3]
        return {p: sum(x * y for x, y in zip(p, taste)) for p in found}

    return Sale(supply, (1,) * size, [bids() for _ in range(bidders)])


def synergy(rng: random.Random) -> Sale:
    """Worths grow with the package, and large bidders lose."""
    bidders, large, size = rng.randint(12, 16), rng.randint(1, 4), rng.randint(1, 3)
    supply = tuple(rng.randint(*((12, 30), (8, 12), (6, 9))[size - 1]) for _ in range(size))

    def bids(is_large: bool) -> Bids:
        found = some(rng, [p for p in packages(supply) if sum(p) <= (9 if is_large else 2)], 3, 80)
        return {p: int(sum(p) ** (1.15 if is_large else 1) * rng.randint(60, 100) * (1, 0.75)[is_large]) for p in found}

    return Sale(supply, (0,) * size, [bids(k < large) for k in range(bidders)])


def overlap(rng: random.Random) -> Sale:
    """Bidders of one lot, and bidders of overlapping sets of categories."""
    supply, single = tuple(rng.randint(1, 3) for _ in range(6)), rng.randint(9, 13)
    locals_ = [{unit(6, (k + at) % 6): rng.randint(50, 100) // (1 + at) for at in range(6)} for k in range(single)]
    found = [p for p in packages([1] * 6) if sum(p) > 1]
    wide = [{p: sum(p) * rng.randint(40, 75) for p in some(rng, found, 2, 57)} for _ in range(16 - single)]
    return Sale(supply, (0,) * 6, locals_ + wide)


def licences(rng: random.Random) -> Sale:
    """Bidders of different sizes near one market price, with noise."""
    size, bidders = rng.randint(2, 4), rng.randint(10, 16)
    supply = tuple(rng.randint(*((8, 12), (6, 9), (4, 5))[size - 2]) for _ in range(size))
    base = [rng.randint(100, 400) for _ in supply]

    def bids() -> Bids:
        large = rng.choice([1, 1, 1, 2, 2, 3, 5])
        found = [p for p in packages(min(large, count) for count in supply) if sum(p) <= large + 1]
        near = {p: sum(x * y for x, y in zip(p, base)) for p in some(rng, found, 5, 80)}
        return {p: int(cost * rng.uniform(0.8, 1.2) * (1 + 0.03 * sum(p))) for p, cost in near.items()}

    return Sale(supply, tuple(price // 2 for price in base), [bids() for _ in range(bidders)])


def all_small(rng: random.Random) -> Sale:
    """More lots than all bidders ask for at least."""
    size = rng.randint(1, 3)
    supply = {1: (40,), 2: (19, 19), 3: (12, 10, 9)}[size]

    def bids() -> Bids:
        found = some(rng, packages([(4, 4, 2)[size - 1]] * size), 4, 26)
        return {p: int(sum(p) ** rng.choice([0.6, 0.8, 1, 1.2]) * rng.randint(50, 100)) for p in found}

    return Sale(supply, (0,) * size, [bids() for _ in range(16)])


def shares(rng: random.Random) -> Sale:
    """Large bidders against groups of small ones, which share what the large ones bid."""
    large = rng.randint(1, 5)
    where = [rng.randrange(6) for _ in range(16 - large)]
    used = sorted(set(where))
    supply = tuple(where.count(c) for c in used)
    small = [{unit(len(used), used.index(c)): rng.randint(60, 100)} for c in where]
    found = [p for p in packages(supply) if sum(p) > 1]
    wide = [{p: int(sum(p) * rng.uniform(20, 62)) for p in some(rng, found, 1, 80)} for _ in range(large)]
    return Sale(supply, (0,) * len(used), small + wide)


def clock(rng: random.Random) -> Sale:
    """What a clock leaves: each bidder's best package at each price, then a list of its best packages."""
    size, bidders = rng.randint(2, 3), rng.randint(10, 16)
    supply = tuple(rng.randint(5, 9) for _ in range(size))
    reserves = tuple(rng.randint(10, 40) for _ in supply)
    worths = [clock_worths(rng, supply, reserves) for _ in range(bidders)]
    bids: list[Bids] = [{} for _ in worths]
    prices, is_over = reserves, False
    while not is_over:
        asked = [max(of, key=lambda p: (of[p] - cost(p, prices), p)) for of in worths]
        asked = [p if of[p] >= cost(p, prices) else (0,) * size for p, of in zip(asked, worths)]
        for own, p in zip(bids, asked):
            own.update({p: cost(p, prices)} if any(p) else {})
        excess = [sum(counts) - most for counts, most in zip(zip(*asked), supply)]
        prices, is_over = tuple(p + (p // 20 + 1) * (e > 0) for p, e in zip(prices, excess)), max(excess) <= 0
    for own, of in zip(bids, worths):
        best = sorted(of, key=lambda p: (cost(p, prices) - of[p], p))[: rng.randint(10, 40)]
        own.update({p: of[p] for p in best if of[p] >= cost(p, reserves)})
    return Sale(supply, reserves, bids)


def cost(package: Package, prices: Prices) -> Amount:
    """What a package costs."""
    return sum(count * price for count, price in zip(package, prices))


def clock_worths(rng: random.Random, supply: Package, reserves: Prices) -> Bids:
    """What each package up to a bidder's size is worth to it: more than the reserves, with or without synergies."""
    large, growth = rng.choice([1, 2, 2, 3, 4]), rng.choice([-0.06, -0.03, 0, 0.04])
    taste = [price * rng.uniform(1.2, 4) for price in reserves]
    found = [p for p in packages(min(count, large) for count in supply) if sum(p) <= large]
    return {p: int(sum(x * y for x, y in zip(p, taste)) * (1 + growth * (sum(p) - 1))) for p in found}


def ring(rng: random.Random) -> Sale:
    """Bidders of one lot in five or six regions on a ring, and losers that bid for arcs of neighbouring regions."""
    size, lots = rng.choice([(5, 2), (5, 3), (6, 2)])
    singles = min(size * lots, rng.randint(8, 13))
    small = [
        {unit(size, (k + at) % size): rng.randint(60, 100) // (1 + 2 * at) for at in range(rng.randint(1, 3))}
        for k in range(singles)
    ]
    arcs = [
        tuple(many * ((c - first) % size < length) for c in range(size))
        for first, length, many in itertools.product(range(size), range(2, size), range(1, lots + 1))
    ]
    wide = [{p: int(sum(p) * rng.uniform(25, 70)) for p in some(rng, arcs, 8, 60)} for _ in range(16 - singles)]
    return Sale((lots,) * size, (rng.choice([0, 7]),) * size, small + wide)


FAMILIES: tuple[Callable[[random.Random], Sale], ...] = (
    *(symmetric, concave, additive, synergy, overlap, licences, all_small, shares, clock, ring),
)


def drawn(number: int, seed: int = 1) -> Drawn:
    """The book of a number."""
    rng = random.Random(f"{seed} {number}")
    family, place = FAMILIES[number % len(FAMILIES)], number // len(FAMILIES)
    sale = family(rng)
    if place % 4 == 3:
        sale = enlarged(rng, sale, NOISE if family is not symmetric else 1)
    rng.shuffle(sale.bids)
    book = book_of(sale)
    return Drawn(family.__name__, book, weights_of(rng, book) if place % 5 == 4 else None)


def enlarged(rng: random.Random, sale: Sale, noise: int) -> Sale:
    """The sale with amounts up to the greatest of the format, and noise so that they have no common factor."""
    times = GREAT // max(amount for bids in sale.bids for amount in bids.values())
    bids = [{p: amount * times + rng.randrange(noise) for p, amount in of.items()} for of in sale.bids]
    return Sale(sale.supply, tuple(min(MOST["price"], price * times) for price in sale.reserves), bids)


def weights_of(rng: random.Random, book: Book) -> list[int]:
    """A weight of each bidder."""
    return [rng.choice([1, 1, 2, 3, 5, 7, 11, 13, 17, 19, 20]) for _ in book.names]


def book_of(sale: Sale) -> Book:
    """The book of a sale: each bidder's packages rise, and no amount is below its reserve."""
    bids = [sorted((p, Gross(max(a, cost(p, sale.reserves)))) for p, a in of.items()) for of in sale.bids]
    return Book(sale.supply, sale.reserves, [f"b{j}" for j in range(1, len(bids) + 1)], bids)


def with_few_winners(number: int, seed: int = 1) -> Drawn:
    """The book of a number with only the lots for sale that some of its winners win, and without the other winners. So
    the losers that are left compete for all of it."""
    rng, made = random.Random(f"few {seed} {number}"), drawn(number, seed)
    choice = greatest_choice(made.book)
    winners = [k for k, bid in enumerate(choice) if bid]
    gone = {*winners} - {*rng.sample(winners, min(len(winners), rng.randint(1, 6)))}
    won = [made.book.bids[k][choice[k] - 1][0] for k in winners if k not in gone]
    supply = tuple(max(1, sum(counts)) for counts in zip(*won))
    bids: list[Bids] = [
        {p: a for p, a in of if all(have <= most for have, most in zip(p, supply))}
        for k, of in enumerate(made.book.bids)
        if k not in gone
    ]
    return Drawn(made.family, book_of(Sale(supply, made.book.reserves, bids)), None)


def greatest_choice(book: Book) -> tuple[int, ...]:
    """The winning choice of a book, by the tables of tools/price. It only decides which books are kept. The checkers
    test who wins."""
    filler = filler_of(book)
    return filler.picked(filler.table(book.net), book.net)


def small(number: int, seed: int = 1) -> Drawn:
    """A book of so few bids that all choices can be listed, with weights. Books of odd numbers have up to ten
    winners, and the others up to four."""
    rng = random.Random(f"small {seed} {number}")
    sale = many_singles(rng) if number % 2 else few_bidders(rng)
    rng.shuffle(sale.bids)
    book = book_of(sale)
    return Drawn("up to ten winners" if number % 2 else "up to four winners", book, weights_of(rng, book))


def many_singles(rng: random.Random) -> Sale:
    """Five to ten bidders of single lots, and two to four that bid for more."""
    singles, size = rng.randint(5, 10), rng.randint(1, 3)
    where = [*range(size), *(rng.randrange(size) for _ in range(singles - size))]
    supply = tuple(where.count(c) for c in range(size))
    bids = [{unit(size, c): rng.randint(20, 60)} for c in where]
    found = [p for p in packages(supply) if sum(p) > 1]
    bids += [{p: int(sum(p) * rng.uniform(15, 50)) for p in some(rng, found, 1, 3)} for _ in range(rng.randint(2, 4))]
    return Sale(supply, tuple(rng.choice([0, 5]) for _ in supply), bids)


def few_bidders(rng: random.Random) -> Sale:
    """Two to four bidders, or as many with a rival that loses or wins nothing."""
    size = rng.randint(1, 3)
    supply = tuple(rng.randint(1, 3) for _ in range(size))
    found = packages(supply)
    bids = [{p: int(sum(p) * rng.uniform(5, 40)) for p in some(rng, found, 1, 4)} for _ in range(rng.randint(2, 5))]
    return Sale(supply, tuple(rng.choice([0, 3]) for _ in supply), bids)


def at_limits(number: int, seed: int = 1) -> Drawn:
    """A book of sixteen bidders with 600 bids each for six categories of 16,384 states. The worths of one bidder in
    four grow with its package, by more the greater the number modulo five is, so that fewer win."""
    rng = random.Random(f"limits {seed} {number}")
    supply = ((3, 3, 3, 3, 7, 7), (7, 7, 7, 7, 1, 1))[number % 2]
    reserves = (100, 150, 200, 120, 50, 60)
    smallest = sorted(packages(supply), key=lambda p: (sum(p), p))[: MOST["bids"]]

    def bids(growth: float) -> Bids:
        taste = [price * rng.uniform(2, 3) for price in reserves]
        worth = {p: sum(x * y for x, y in zip(p, taste)) * (1 + growth * (sum(p) - 1)) for p in smallest}
        return {p: int(w) + rng.randrange(20) for p, w in worth.items()}

    growth = (0, 0.01, 0.02, 0.03, 0.06)[number % 5]
    sale = Sale(supply, reserves, [bids(-0.06 if k % 4 else growth) for k in range(MOST["bidders"])])
    is_great = number % 3 == 2
    book = book_of(enlarged(rng, sale, NOISE) if is_great else sale)
    return Drawn("great" if is_great else "small", book, weights_of(rng, book) if number % 4 == 3 else None)


PRIMES = (17, 19, 23, 29, 31, 37)


def wide(number: int, seed: int = 1) -> Drawn:
    """A book of great amounts, with weights, whose prices most often have a denominator so great that 64 bits don't
    suffice.

    For each of five categories two or three winners, whose weights add up to a prime, share what a loser bids for all
    of it. Some losers also bid for two categories."""
    rng = random.Random(f"wide {seed} {number}")
    lots, left = [2, 2, 2, 2, rng.randint(2, 3)], {*PRIMES}
    bidders = list[tuple[Bids, int]]()
    for c, count in enumerate(lots):
        weights = weights_of_sum(rng, count, left)
        left.remove(sum(weights))
        small = [rng.randint(GREAT // 4, GREAT // 3) for _ in weights]
        bidders += [({unit(5, c): amount}, weight) for amount, weight in zip(small, weights)]
        large = {all_of(lots, [c]): int(sum(small) * rng.uniform(0.6, 0.95))}
        if rng.random() < 0.5:
            large[all_of(lots, [c, c - 1])] = rng.randint(GREAT // 4 * 3, GREAT)
        bidders.append((large, rng.randint(1, MOST["weight"])))
    rng.shuffle(bidders)
    book = book_of(Sale(tuple(lots), (0,) * 5, [bids for bids, _ in bidders]))
    return Drawn("wide", book, [weight for _, weight in bidders])


def weights_of_sum(rng: random.Random, count: int, sums: set[int]) -> list[int]:
    """This many weights that add up to one of these sums."""
    weights = list[int]()
    while sum(weights) not in sums:
        weights = [rng.randint(1, MOST["weight"]) for _ in range(count)]
    return weights


def all_of(lots: Sequence[int], categories: Sequence[int]) -> Package:
    """All lots of some categories."""
    chosen = {c % len(lots) for c in categories}
    return tuple(count * (c in chosen) for c, count in enumerate(lots))
