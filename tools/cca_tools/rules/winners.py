"""The winners of a book: the first of the choices of greatest net value."""

from __future__ import annotations

from collections.abc import Iterator

from cca_tools.rules.book import Book
from cca_tools.rules.tables import places_with
from cca_tools.rules.types import BidderNumber, Choice, Net, Table, TableLine


def line_before(book: Book, j: BidderNumber, line: TableLine) -> TableLine:
    """The line of a table before bidder j: at each place what the bidders from j on can reach, where those after j
    reach `line`."""
    best = list(line)
    for (package, _), net in zip(book.bids[j - 1], book.net[j - 1]):
        cost = book.place(package)
        for place in places_with(book.supply, package):
            worth = net + line[place - cost]
            if worth > best[place]:
                best[place] = worth
    return best


def table_of(book: Book) -> Table:
    """Line k has at each place the greatest net value of what the bidders after k can win of what is left."""
    table = [[0] * book.states]
    for j in range(book.bidders, 0, -1):
        table.append(line_before(book, j, table[-1]))
    return table[::-1]


def number_at(book: Book, j: BidderNumber, table: Table, place: int) -> tuple[int, int]:
    """The first bid of bidder j that reaches the entry, and the place that it leaves; 0 where none does."""
    for number, ((package, _), net) in enumerate(zip(book.bids[j - 1], book.net[j - 1]), 1):
        left = tuple(have - count for have, count in zip(book.counts(place), package))
        if min(left) >= 0 and net + table[j][book.place(left)] == table[j - 1][place]:
            return number, book.place(left)
    return 0, place


def winning_choice(book: Book) -> tuple[Choice, Net]:
    """The number of each bidder's bid in the winning choice, or 0, and its net value."""
    table, place, choice = table_of(book), book.states - 1, list[int]()
    for j in range(1, book.bidders + 1):
        number, place = number_at(book, j, table, place)
        choice.append(number)
    return tuple(choice), Net(table[0][-1])


def winner_lines(book: Book) -> Iterator[str]:
    """What `cca win` prints of the winners."""
    choice, value = winning_choice(book)
    for j, number in enumerate(choice, 1):
        if number:
            package, amount = book.winning(choice, j)
            yield " ".join(map(str, ["winner", book.names[j - 1], *package, amount]))
    yield f"net {value}"
