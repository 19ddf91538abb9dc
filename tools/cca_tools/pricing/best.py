"""The greatest value of a choice, and whether several choices have it.

A line has a value for each remaining supply, by its place. With numpy all packages within all supplies are looked at
in one step for each bidder, if they aren't too many; otherwise a filler looks at the bids one by one. Both ways have
equal results.
"""

from __future__ import annotations

import functools
import math
from typing import Any

from cca_tools.pricing.tables import filler_of, has_numpy
from cca_tools.rules.book import Book
from cca_tools.rules.ties import ties_of
from cca_tools.rules.types import Net, Package

MOST_PAIRS = 2_000_000  # of a supply and a package within it
NONE = -(2**60)  # a value below all others, for a package without a bid
MANY = 2  # the most choices that are counted


class Pairs:
    """For each remaining supply, in order, the places of all packages within it, and of what each leaves."""

    def __init__(self, supply: Package) -> None:
        import numpy

        taken, left, starts = [numpy.zeros(1, int)], [numpy.zeros(1, int)], numpy.zeros(1, int)
        packages, rest, sizes = taken[0], left[0], numpy.ones(1, int)
        for most in supply:
            counts = numpy.repeat(numpy.arange(most + 1), numpy.arange(1, most + 2))
            own = numpy.concatenate([numpy.arange(have + 1) for have in range(most + 1)])
            packages, rest, sizes = self.product(packages, rest, sizes, own, counts - own, most)
        self.packages, self.rest = packages, rest
        self.starts = numpy.concatenate([starts, numpy.cumsum(sizes)[:-1]])
        self.sizes = sizes

    @staticmethod
    def product(packages: Any, rest: Any, sizes: Any, own: Any, left: Any, most: int) -> tuple[Any, Any, Any]:
        """The pairs of the categories so far and of one more."""
        import numpy

        ends, begins = numpy.cumsum(sizes), numpy.cumsum(sizes) - sizes
        taken, kept, count = [], [], []
        for begin, end in zip(begins, ends):
            for have in range(most + 1):
                part = slice(have * (have + 1) // 2, (have + 1) * (have + 2) // 2)
                taken.append(numpy.add.outer(packages[begin:end] * (most + 1), own[part]).ravel())
                kept.append(numpy.add.outer(rest[begin:end] * (most + 1), left[part]).ravel())
                count.append(len(taken[-1]))
        return numpy.concatenate(taken), numpy.concatenate(kept), numpy.array(count)


@functools.lru_cache(maxsize=8)
def pairs_of(supply: Package) -> Pairs | None:
    """The pairs of a supply; None without numpy, or if they are too many."""
    count = math.prod((most + 1) * (most + 2) // 2 for most in supply)
    return Pairs(supply) if has_numpy() and count <= MOST_PAIRS else None


def worths_of(book: Book, j: int) -> Any:
    """What each package is worth by the bids of a bidder, net, by its place; the empty one 0."""
    import numpy

    worths = numpy.full(book.states, NONE, numpy.int64)
    worths[0] = 0
    for (package, _), net in zip(book.bids[j], book.net[j]):
        worths[book.place(package)] = net
    return worths


def best_value(book: Book) -> Net:
    """The greatest net value of a choice."""
    pairs = pairs_of(book.supply)
    if pairs is None:
        filler = filler_of(book)
        return Net(filler.top(filler.table(book.net)))
    import numpy

    line = numpy.zeros(book.states, numpy.int64)
    for j in range(book.bidders):
        reached = worths_of(book, j)[pairs.packages] + line[pairs.rest]
        line = numpy.maximum.reduceat(reached, pairs.starts)
    return Net(int(line[-1]))


def has_tie(book: Book) -> bool:
    """Whether several choices have the greatest net value, so that the order of bidders and packages decides."""
    pairs = pairs_of(book.supply)
    if pairs is None:
        filler = filler_of(book)
        return bool(ties_of(book, 1, [filler.numbers(line) for line in filler.table(book.net)]))
    import numpy

    line, count = numpy.zeros(book.states, numpy.int64), numpy.ones(book.states, numpy.int64)
    for j in range(book.bidders):
        reached = worths_of(book, j)[pairs.packages] + line[pairs.rest]
        line = numpy.maximum.reduceat(reached, pairs.starts)
        is_best = reached == numpy.repeat(line, pairs.sizes)
        count = numpy.minimum(numpy.add.reduceat(numpy.where(is_best, count[pairs.rest], 0), pairs.starts), MANY)
    return bool(count[-1] > 1)
