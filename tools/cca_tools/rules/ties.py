"""Ties: the other choices of the same net value as the winning one.

The winning choice is the first one with the greatest net value. The first bidder whose bids differ decides which of two
such choices comes first: one with a bid before one without, and of two bids the one whose package comes first. So if
there is a tie the order decides, and the program's winners don't show that.
"""

from __future__ import annotations

import dataclasses
from collections.abc import Callable
from typing import TypeAlias

from cca_tools.rules.book import Book
from cca_tools.rules.reasons import counts
from cca_tools.rules.types import Choice, Package, Table
from cca_tools.rules.winners import table_of

MOST_TOLD = 20
DECIDES = "The order of the bidders, then that of their packages, decides."
PackageWords: TypeAlias = Callable[[Package], str]


@dataclasses.dataclass(frozen=True)
class Ties:
    """The choices of the greatest net value other than the winning one. There are more than these where `has_more`."""

    winners: Choice
    others: tuple[Choice, ...]
    has_more: bool

    def __bool__(self) -> bool:
        """Whether there is a tie."""
        return bool(self.others)


def branches(book: Book, table: Table, choice: Choice, place: int) -> list[tuple[Choice, int]]:
    """The ways to go on from the first bidders' numbers that still reach the greatest net value: a bid each, then
    none."""
    j, found = len(choice) + 1, list[tuple[Choice, int]]()
    for number, ((package, _), net) in enumerate(zip(book.bids[j - 1], book.net[j - 1]), 1):
        left = tuple(have - count for have, count in zip(book.counts(place), package))
        if min(left) >= 0 and net + table[j][book.place(left)] == table[j - 1][place]:
            found.append(((*choice, number), book.place(left)))
    if table[j][place] == table[j - 1][place]:
        found.append(((*choice, 0), place))
    return found


def best_choices(book: Book, most: int, known: Table | None = None) -> list[Choice]:
    """The choices of the greatest net value in the order of ties, at most this many. The table of the book may be
    known, as from a certificate that passes."""
    table, found = known or table_of(book), list[Choice]()
    stack: list[tuple[Choice, int]] = [((), book.states - 1)]
    while stack and len(found) < most:
        choice, place = stack.pop()
        if len(choice) == book.bidders:
            found.append(choice)
        else:
            stack.extend(reversed(branches(book, table, choice, place)))
    return found


def ties_of(book: Book, most: int = MOST_TOLD, known: Table | None = None) -> Ties:
    """The ties of a book, at most `most` of them. The table of the book may be known."""
    won, *others = best_choices(book, most + 2, known)
    return Ties(won, tuple(others[:most]), len(others) > most)


def differences(book: Book, ties: Ties, other: Choice, words: PackageWords = counts) -> str:
    """What another choice gives instead of what the winning one gives: `west 2 instead of east 2`."""
    gives, takes = list[str](), list[str]()
    for j, (ours, theirs) in enumerate(zip(ties.winners, other), 1):
        for number, found in ((theirs, gives), (ours, takes)) if ours != theirs else ():
            if number:
                found.append(f"{book.names[j - 1]} {words(book.bids[j - 1][number - 1][0])}")
    return f"{', '.join(gives) or 'nothing'} instead of {', '.join(takes) or 'nothing'}"


def how_many(ties: Ties) -> str:
    """How many other choices there are, as the subject of a sentence with its verb."""
    count = len(ties.others)
    if ties.has_more:
        return f"more than {count} other choices have"
    return "one other choice has" if count == 1 else f"{count} other choices have"


def tie_sentences(book: Book, ties: Ties) -> list[str]:
    """The ties in words, a line each; no line without a tie."""
    if not ties:
        return []
    head = f"There is a tie: {how_many(ties)} the same net value. {DECIDES}"
    return [head, *(f"  {differences(book, ties, other)}" for other in ties.others)]
