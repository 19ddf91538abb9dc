"""The book: what is sold, and for each bidder its bids. Bidders and bids are numbered from 1, and bidder 1 is first in
the lists."""

from __future__ import annotations

import math
from collections.abc import Iterable, Sequence
from dataclasses import dataclass, field
from typing import Generic, TypeVar

from cca_tools.rules.lines import Text
from cca_tools.rules.money import net_of, total
from cca_tools.rules.stops import MOST, within
from cca_tools.rules.types import Amount, Bid, BidderNumber, Choice, Gross, Net, Package, Prices

# What a bid is for: a package, or the first slot of a bidder in a band.
What = TypeVar("What")


class Menu(Generic[What]):
    """The common part of a book and a band's slots: bidders with names and with bids. Each choice names one bid of a
    bidder, or none."""

    names: list[str]
    bids: list[list[tuple[What, Gross]]]  # of each bidder
    net: list[list[Net]]  # of each bid

    @property
    def bidders(self) -> int:
        """How many bidders there are."""
        return len(self.names)

    def value(self, choice: Choice) -> Net:
        """The sum of the net amounts of a known choice."""
        return total(net[number - 1] for net, number in zip(self.net, choice) if number)

    def won_net(self, choice: Choice, j: BidderNumber) -> Net:
        """The net amount of bidder j's winning bid in a known choice, 0 if it doesn't win."""
        return self.net[j - 1][choice[j - 1] - 1] if choice[j - 1] else Net(0)

    def won(self, choice: Choice, j: BidderNumber) -> tuple[What, Gross] | None:
        """The winning bid of bidder j, or None."""
        return self.bids[j - 1][choice[j - 1] - 1] if choice[j - 1] else None

    def winning(self, choice: Choice, j: BidderNumber) -> tuple[What, Gross]:
        """The winning bid of a winner."""
        return self.bids[j - 1][choice[j - 1] - 1]


@dataclass
class Book(Menu[Package]):
    """The supply with its reserves, and the bids of each bidder in the order of packages."""

    supply: Package
    reserves: Prices
    names: list[str]
    bids: list[list[Bid]]
    net: list[list[Net]] = field(init=False)
    states: int = field(init=False)  # how many remaining supplies there are

    def __post_init__(self) -> None:
        self.net = [[net_of(amount, self.reserve(package)) for package, amount in bids] for bids in self.bids]
        self.states = math.prod(count + 1 for count in self.supply)

    def reserve(self, package: Package) -> Amount:
        """The reserves of a package together."""
        return sum(count * price for count, price in zip(package, self.reserves))

    def place(self, counts: Iterable[int]) -> int:
        """The place of a remaining supply: the first category weighs most."""
        place = 0
        for count, most in zip(counts, self.supply):
            place = place * (most + 1) + count
        return place

    def counts(self, place: int) -> Package:
        """The remaining supply of a place."""
        counts = []
        for most in reversed(self.supply):
            place, count = divmod(place, most + 1)
            counts.append(count)
        return tuple(reversed(counts))

    def left(self, choice: Sequence[int]) -> Package:
        """What a known choice leaves of each category, below 0 where it doesn't fit. It may be shorter."""
        packages = [bids[number - 1][0] for bids, number in zip(self.bids, choice) if number]
        return tuple(most - sum(package[c] for package in packages) for c, most in enumerate(self.supply))

    def fits(self, choice: Sequence[int]) -> bool:
        """Whether no more is chosen than is sold."""
        return min(self.left(choice)) >= 0


def read_book(data: bytes) -> Book:
    """The book that bytes are."""
    text = Text("book", data)
    text.words("book 1")
    supply = read_supply(text)
    reserves = text.numbers(b"reserve", len(supply), 0, MOST["price"], "a reserve")
    book = Book(supply, reserves, [], [])
    while (fields := text.line().split(b" ")) != [b"end"]:
        if fields[0] == b"bid" and book.names:
            read_bid(text, book, fields[1:])
        else:
            read_bidder(text, book, fields)
    text.no_more()
    return Book(supply, reserves, book.names, book.bids)


def read_supply(text: Text) -> Package:
    """The line of the supply, within the limits."""
    fields = text.fields(b"supply", 1, "supply ..")
    supply = tuple(text.number(field, 1, MOST["supply"], "a supply") for field in fields)
    within("categories", len(supply), MOST["categories"])
    within("lots", sum(supply), MOST["lots"])
    within("states", math.prod(count + 1 for count in supply), MOST["states"])
    return supply


def read_bidder(text: Text, book: Book, fields: list[bytes]) -> None:
    """Reads the line of a bidder into the book."""
    form = "here a line `bidder NAME`, `bid ..` of a bidder or `end` has to be"
    text.need(fields[0] == b"bidder" and len(fields) == 2, form)
    name = text.name(fields[1])
    text.need(name not in book.names, f"there is a bidder {name} already")
    within("bidders", len(book.names) + 1, MOST["bidders"])
    book.names.append(name)
    book.bids.append([])


def read_bid(text: Text, book: Book, fields: list[bytes]) -> None:
    """Reads the line of a bid into the book; `fields` are its fields after `bid`."""
    size, bids = len(book.supply), book.bids[-1]
    form = f"`bid` is followed by {len(fields)} fields, and has to be followed by {size} counts and an amount"
    text.need(len(fields) == size + 1, form)
    package = tuple(
        text.number(field, 0, most, f"a count of category {c}")
        for c, (field, most) in enumerate(zip(fields, book.supply), 1)
    )
    text.need(any(package), "a package isn't empty")
    what = "the amount (its least value is the package's reserve)"
    amount = text.number(fields[-1], book.reserve(package), MOST["amount"], what)
    rises = "the packages of a bidder rise, and this one isn't after the one before it"
    text.need(not bids or bids[-1][0] < package, rises)
    within("bids", len(bids) + 1, MOST["bids"])
    bids.append((package, Gross(amount)))


def book_text(book: Book) -> bytes:
    """The book as its bytes."""
    lines = ["book 1", joined("supply", book.supply), joined("reserve", book.reserves)]
    for name, bids in zip(book.names, book.bids):
        lines.append(f"bidder {name}")
        lines += [joined("bid", [*package, amount]) for package, amount in bids]
    return "\n".join([*lines, "end", ""]).encode()


def joined(word: str, numbers: Iterable[int]) -> str:
    """A line that is a word and numbers."""
    return " ".join(map(str, [word, *numbers]))
