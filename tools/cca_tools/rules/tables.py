"""The rules that a table of a book's certificate obeys, which are Bellman's inequalities.

Line k of a table says, for each remaining supply, what the bidders after k can reach at most. A line is nowhere below
the next one, the last line nowhere below 0, and a line isn't below what a bid of the next bidder brings together with
the next line's value for the supply that it leaves.
"""

from __future__ import annotations

import functools
from collections.abc import Callable, Collection, Iterator, Sequence
from dataclasses import dataclass
from operator import itemgetter, lt, sub

from cca_tools.rules.book import Book
from cca_tools.rules.stops import MOST
from cca_tools.rules.types import Amount, Package, Table, TableLine

# The places as numbers that are kept once: there are millions in the lists below.
PLACES = {place: place for place in range(MOST["states"])}


@dataclass(frozen=True)
class Breach:
    """The first place where a table breaks the rules: line k says `says` there, and has to say at least `asked`."""

    k: int
    place: int
    says: Amount
    asked: Amount
    bid: int = 0  # the number of the bid of bidder k + 1 that asks for it, 0 for the next line
    after: Amount = 0  # the next line's value for the supply that the bid leaves


@functools.lru_cache(maxsize=None)
def places_with(supply: Package, package: Package) -> list[int]:
    """The places, rising, of the remaining supplies that contain a package."""
    places = [0]
    for count, most in zip(package, supply):
        places = [PLACES[place * (most + 1) + left] for place in places for left in range(count, most + 1)]
    return places


@functools.lru_cache(maxsize=None)
def entries_with(supply: Package, package: Package) -> Callable[[Sequence[Amount]], tuple[Amount, ...]]:
    """Takes the entries of a line at these places. The last is there twice, so that there are several."""
    places = places_with(supply, package)
    return itemgetter(*places, places[-1])


def first_breach(
    book: Book, table: Table, worths: Sequence[Sequence[Amount]], known: Collection[int] = ()
) -> Breach | None:
    """The first breach by lines and places for these worths of the bids, or None. The known lines aren't tested."""
    for k in (k for k in range(len(table)) if k not in known):
        after = table[k + 1] if k < book.bidders else [0] * book.states
        found = list(breaches(book, k, table[k], after, worths[k] if k < book.bidders else []))
        if found:
            return min(found, key=lambda breach: breach.place)
    return None


def breaches(book: Book, k: int, line: TableLine, after: TableLine, worths: Sequence[Amount]) -> Iterator[Breach]:
    """The first breach of line k by the next line, and by each bid of bidder k + 1."""
    if any(map(lt, line, after)):
        s = next(s for s in range(book.states) if line[s] < after[s])
        yield Breach(k, s, line[s], after[s])
    for i, worth in enumerate(worths, 1):
        package, _ = book.bids[k][i - 1]
        taken, entries = book.place(package), entries_with(book.supply, package)
        # What a package leaves at a place is as much lower as its own place.
        if min(map(sub, entries(line), entries([0] * taken + after))) < worth:
            s = next(s for s in places_with(book.supply, package) if line[s] < worth + after[s - taken])
            yield Breach(k, s, line[s], worth + after[s - taken], i, after[s - taken])
