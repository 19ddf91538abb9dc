"""Tables of a book (docs/CERTIFICATES.md, "The tests"): line k has, for each remaining supply, the greatest worth that
the bidders after k can reach.

`filler_of` returns a filler that uses numpy, or one that uses only Python's integers if numpy isn't installed. Both
give equal tables. Worths are net of reserve, and scaled for a lowered table, whose entries are then scaled too.
"""

from __future__ import annotations

import importlib.util
from abc import ABC, abstractmethod
from collections.abc import Sequence
from operator import le
from typing import TYPE_CHECKING, Any, TypeAlias

from cca_tools.rules.book import Book
from cca_tools.rules.tables import places_with
from cca_tools.rules.types import Amount, Bid, Choice, Package

if TYPE_CHECKING:
    from types import ModuleType

# A line of a table: an array of numpy with an axis for each category, or a list by places.
Line: TypeAlias = Any
Lines: TypeAlias = list[Line]
# For each bidder the worth of each of its bids: all `Net`, or all `ScaledNet`.
Worths: TypeAlias = Sequence[Sequence[Amount]]
# Sums below this are taken in 64 bits.
NARROW = 2**62


def undominated(bids: Sequence[Bid], nets: Sequence[Amount]) -> list[int]:
    """The bids, numbered from 0, that no other bid of the bidder dominates by a package within theirs and a net amount
    that isn't lower. The others never change a table, at any scale of the worths and at any price."""
    kept = list[int]()
    for i in sorted(range(len(bids)), key=lambda i: (-nets[i], i)):
        if not any(all(map(le, bids[other][0], bids[i][0])) for other in kept):
            kept.append(i)
    return sorted(kept)


def most_worth(worths: Worths) -> Amount:
    """An upper bound of each sum that a table of these worths has."""
    return sum(max([0, *of]) for of in worths)


class Filler(ABC):
    """Fills tables of one book."""

    def __init__(self, book: Book) -> None:
        self.book = book
        self.bids = [undominated(bids, nets) for bids, nets in zip(book.bids, book.net)]

    @abstractmethod
    def last(self, worths: Worths) -> Line:
        """The last line, of zeros, of a type that all sums of these worths fit into."""

    @abstractmethod
    def line(self, k: int, after: Line, worths: Sequence[Amount]) -> Line:
        """The line before bidder k + 1, from the line after it and the worths of its bids."""

    @abstractmethod
    def at(self, line: Line, left: Package) -> Amount:
        """The entry of a line at a remaining supply."""

    @abstractmethod
    def numbers(self, line: Line) -> list[Amount]:
        """The entries of a line by places."""

    @abstractmethod
    def scaled(self, lines: Lines, times: int) -> Lines:
        """The lines with each entry multiplied."""

    def table(self, worths: Worths) -> Lines:
        """The table of these worths."""
        return self.completed([self.last(worths)], worths)

    def table_without(self, k: int, table: Lines, worths: Worths) -> Lines:
        """The table of these worths if bidder k + 1 has no bid. The lines after that bidder are the lines of
        `table`."""
        after = table[k + 1 :]
        return self.completed([after[0], *after], worths)

    def completed(self, lines: Lines, worths: Worths) -> Lines:
        """A table from its last lines."""
        found = lines[::-1]
        for k in range(self.book.bidders - len(lines), -1, -1):
            found.append(self.line(k, found[-1], worths[k]))
        return found[::-1]

    def top(self, lines: Lines) -> Amount:
        """The greatest worth of a choice."""
        return self.at(lines[0], self.book.supply)

    def useful(self, k: int, worths: Sequence[Amount]) -> list[int]:
        """The bids of bidder k + 1, from 0, that can raise an entry."""
        return [i for i in self.bids[k] if worths[i] > 0]

    def picked(self, lines: Lines, worths: Worths, without: int = -1) -> Choice:
        """The first choice, in the order of ties, of the greatest worth. Bidder `without` + 1 has no bid."""
        left, choice = self.book.supply, list[int]()
        for k in range(self.book.bidders):
            number, left = (0, left) if k == without else self.step(k, lines, worths[k], left)
            choice.append(number)
        return tuple(choice)

    def step(self, k: int, lines: Lines, worths: Sequence[Amount], left: Package) -> tuple[int, Package]:
        """The number of the first bid of bidder k + 1 that reaches the entry, and what it leaves; 0 if none does."""
        entry = self.at(lines[k], left)
        for i in self.bids[k]:
            rest = rest_of(left, self.book.bids[k][i][0])
            if min(rest) >= 0 and worths[i] + self.at(lines[k + 1], rest) == entry:
                return i + 1, rest
        return 0, left


def rest_of(left: Package, package: Package) -> Package:
    """What a package leaves of a remaining supply, below 0 if it doesn't fit."""
    return tuple(have - count for have, count in zip(left, package))


class ListFiller(Filler):
    """Fills tables with Python's integers: lines are lists by places."""

    def last(self, worths: Worths) -> Line:
        return [0] * self.book.states

    def line(self, k: int, after: Line, worths: Sequence[Amount]) -> Line:
        best = list(after)
        for i in self.useful(k, worths):
            package = self.book.bids[k][i][0]
            taken, worth = self.book.place(package), worths[i]
            for place in places_with(self.book.supply, package):
                reached = worth + after[place - taken]
                if reached > best[place]:
                    best[place] = reached
        return best

    def at(self, line: Line, left: Package) -> Amount:
        entry: Amount = line[self.book.place(left)]
        return entry

    def numbers(self, line: Line) -> list[Amount]:
        return list(line)

    def scaled(self, lines: Lines, times: int) -> Lines:
        return [[entry * times for entry in line] for line in lines] if times != 1 else lines


class ArrayFiller(Filler):
    """Fills tables with numpy, in 64 bits if no sum can overflow, and otherwise with Python's integers: great amounts
    with weights need these, since five groups of winners can have prices whose denominator is the product of five sums
    of weights.

    The longest category is the last axis, which is the fastest.
    """

    def __init__(self, book: Book) -> None:
        super().__init__(book)
        self.numpy: ModuleType = importlib.import_module("numpy")
        self.axes = sorted(range(len(book.supply)), key=lambda c: book.supply[c])
        self.shape = self.turned(tuple(count + 1 for count in book.supply))
        self.order = sorted(range(len(self.axes)), key=lambda axis: self.axes[axis])

    def turned(self, counts: Package) -> Package:
        """The counts in the order of the axes."""
        return tuple(counts[c] for c in self.axes)

    def last(self, worths: Worths) -> Line:
        return self.numpy.zeros(self.shape, self.numpy.int64 if most_worth(worths) < NARROW else object)

    def line(self, k: int, after: Line, worths: Sequence[Amount]) -> Line:
        best, spare = after.copy(), self.numpy.empty(after.size, after.dtype)
        for i in self.useful(k, worths):
            package = self.turned(self.book.bids[k][i][0])
            into = best[tuple(slice(count, None) for count in package)]
            rest = after[tuple(slice(0, size - count) for count, size in zip(package, self.shape))]
            reached = spare[: rest.size].reshape(rest.shape)
            self.numpy.add(rest, worths[i], out=reached)
            self.numpy.maximum(into, reached, out=into)
        return best

    def at(self, line: Line, left: Package) -> Amount:
        return int(line[self.turned(left)])

    def numbers(self, line: Line) -> list[Amount]:
        entries: list[Amount] = line.transpose(self.order).ravel().tolist()
        return entries

    def scaled(self, lines: Lines, times: int) -> Lines:
        if times == 1:
            return lines
        is_narrow = int(lines[0].max()) * times < NARROW
        return [(line if is_narrow else line.astype(object)) * times for line in lines]


def has_numpy() -> bool:
    """Whether numpy is installed (Debian: python3-numpy)."""
    return importlib.util.find_spec("numpy") is not None


def filler_of(book: Book) -> Filler:
    """The fastest filler that can run here."""
    return ArrayFiller(book) if has_numpy() else ListFiller(book)
