"""The certificate of the prices of a book: its parts, and how they are read from its text.

All amounts in it are net of reserve, and payments are scaled: times its denominator. Bidders are numbered from 1, and
so are the winners, the members of rows and the keys of `without`.
"""

from __future__ import annotations

from abc import ABC, abstractmethod
from dataclasses import dataclass
from typing import Any, Generic, TypeVar

from cca_tools.rules.book import Book, Menu
from cca_tools.rules.lines import Text
from cca_tools.rules.money import less, scaled, unscaled
from cca_tools.rules.stops import MOST
from cca_tools.rules.types import BidderNumber, Choice, Net, NetPrice, ScaledNet, Table

MenuT = TypeVar("MenuT", bound=Menu[Any])
ChoiceT = TypeVar("ChoiceT", bound=Choice)
TableT = TypeVar("TableT")


@dataclass(frozen=True)
class Row(Generic[ChoiceT]):
    """The winners that have to pay as much together as the choice asks, with the row's two multipliers."""

    members: list[BidderNumber]
    first: int
    second: int
    choice: ChoiceT


@dataclass(frozen=True)
class Certificate(Generic[MenuT, ChoiceT, TableT]):
    """A certificate of a book, or of the slots of a band, with another form of choices and tables."""

    book: MenuT
    den: int  # the denominator of the payments
    value: Net  # of the winning choice
    choice: ChoiceT
    table: TableT
    without: dict[BidderNumber, tuple[ChoiceT, TableT]]  # of each winner the best choice without it
    pay: list[ScaledNet]  # of each bidder
    rows: list[Row[ChoiceT]]
    lowered: TableT  # times `den`

    @property
    def winners(self) -> list[BidderNumber]:
        """The winners, in order."""
        return winners_of(self.choice)

    def won(self, j: BidderNumber) -> Net:
        """b_j: the net amount of a bidder's winning bid, 0 for a loser."""
        return self.book.won_net(self.choice, j)

    def vickrey(self, j: BidderNumber) -> Net:
        """v_j: what would win without the winner, less the net amounts of the other winners."""
        return less(self.book.value(self.without[j][0]), less(self.value, self.won(j)))

    def pays(self, j: BidderNumber) -> NetPrice:
        """What a bidder pays, net."""
        return unscaled(self.pay[j - 1], self.den)

    def lost(self, j: BidderNumber) -> ScaledNet:
        """What a bidder would lose if it didn't win, times `den`: 0 for a loser."""
        return less(scaled(self.won(j), self.den), self.pay[j - 1]) if self.choice[j - 1] else ScaledNet(0)


BookCertificate = Certificate[Book, Choice, Table]
BookRow = Row[Choice]


def winners_of(choice: Choice) -> list[BidderNumber]:
    """The bidders with a bid in a choice."""
    return [j for j, number in enumerate(choice, 1) if number]


def read_certificate(data: bytes, book: Book) -> BookCertificate:
    """The certificate that bytes are, for this book. Whether it passes its tests is asked by `first_fault`."""
    return BookReader(Text("cert", data), book).read()


class Reader(ABC, Generic[MenuT, ChoiceT, TableT]):
    """Reads the parts of a certificate one after the other."""

    def __init__(self, text: Text, menu: MenuT) -> None:
        self.text, self.menu = text, menu

    @abstractmethod
    def first_lines(self) -> list[str]:
        """The first lines of a certificate."""

    @abstractmethod
    def choice(self) -> ChoiceT:
        """The next choice."""

    @abstractmethod
    def table(self, word: str) -> TableT:
        """The next table, which begins with this word."""

    def read(self) -> Certificate[MenuT, ChoiceT, TableT]:
        """The whole certificate."""
        text = self.text
        for line in self.first_lines():
            text.words(line)
        (den,), (value,) = text.signed(b"den", 1), text.signed(b"value", 1)
        choice, table = self.choice(), self.table("table")
        without = {j: self.without(j) for j in winners_of(choice)}
        pay = [ScaledNet(amount) for amount in text.signed(b"pay", self.menu.bidders)]
        rows, lowered = self.rows(), self.table("lowered")
        text.words("end")
        text.no_more()
        return Certificate(self.menu, den, Net(value), choice, table, without, pay, rows, lowered)

    def without(self, j: BidderNumber) -> tuple[ChoiceT, TableT]:
        """The part without winner j."""
        self.text.words(f"without {j}")
        return self.choice(), self.table("table")

    def numbers_of_bids(self) -> Choice:
        """The line of a choice."""
        return self.text.numbers(b"choice", self.menu.bidders, 0, MOST["count"], "the number of a bid")

    def rows(self) -> list[Row[ChoiceT]]:
        """The rows, after the line with their number. A book without bidders has none."""
        most = MOST["rows"] if self.menu.bidders else 0
        (count,) = self.text.numbers(b"rows", 1, 0, most, "the number of rows")
        return [self.row() for _ in range(count)]

    def row(self) -> Row[ChoiceT]:
        """The next row."""
        fields = self.text.fields(b"row", 1, "row ..")
        members = [self.text.number(field, 1, self.menu.bidders, "a bidder") for field in fields]
        self.text.need(all(one < other for one, other in zip(members, members[1:])), "the members of a row rise")
        first, second = self.text.signed(b"mult", 2)
        return Row(members, first, second, self.choice())


class BookReader(Reader[Book, Choice, Table]):
    """Reads the certificate of a book."""

    def first_lines(self) -> list[str]:
        book = self.menu
        is_first = book.bidders <= MOST["first version bidders"] and book.states <= MOST["first version states"]
        return ["cert 1"] if is_first else ["cert 2", f"limits {MOST['bidders']} {MOST['states']}"]

    def choice(self) -> Choice:
        return self.numbers_of_bids()

    def table(self, word: str) -> Table:
        """The lines of a table: line k has, at each place, what the bidders after k can reach at most."""
        self.text.words(word)
        return [self.text.signed(b"t", self.menu.states) for _ in range(self.menu.bidders + 1)]
