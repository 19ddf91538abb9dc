"""The nine tests of a certificate, as docs/CERTIFICATES.md has them. Each returns the places where it fails, in order,
with a sentence.

A placement's tests are these too, except for what a choice and a table are; they are in placement_tests.py.
"""

from __future__ import annotations

from abc import ABC, abstractmethod
from collections.abc import Collection, Iterable, Iterator, Sequence
from dataclasses import dataclass
from typing import Generic, TypeAlias

from cca_tools.rules.book import Book
from cca_tools.rules.certificate import BookCertificate, Certificate, ChoiceT, MenuT, Row, TableT
from cca_tools.rules.lines import WIDE
from cca_tools.rules.money import less, scaled, total
from cca_tools.rules.printing import fraction
from cca_tools.rules.tables import Breach, first_breach
from cca_tools.rules.types import Amount, BidderNumber, Choice, Net, ScaledNet, Table

# A place where a test fails, and why.
Failure: TypeAlias = tuple[int, str]
# For each bidder what each of its bids is worth: net, and scaled for a lowered table.
Worths: TypeAlias = Sequence[Sequence[Amount]]

# What each test shows.
SHOWS = [
    "the numbers of the head",
    "the head's choice",
    "no choice is worth more",
    "the Vickrey prices",
    "what each bidder pays",
    "what the rows ask for",
    "the sum of the payments is the least",
    "the payments are the nearest to the Vickrey prices",
    "nobody can block",
]


@dataclass(frozen=True)
class Fault:
    """The first test that fails, the first of its places, and why."""

    test: str
    place: int
    why: str

    @property
    def line(self) -> str:
        """The line that the program prints."""
        return f"no {self.test} {self.place}"

    def text(self) -> str:
        """The fault in a sentence, without its period."""
        return f"test {self.test} ({SHOWS[int(self.test[1:]) - 1]}) fails at its place {self.place}: {self.why}"


def first_fault(book: Book, certificate: BookCertificate, weights: Sequence[int] | None = None) -> Fault | None:
    """The first fault of a certificate, or None if it passes. Without weights each bidder weighs 1."""
    return BookTests(book, certificate, weights).first_fault()


class Tests(ABC, Generic[MenuT, ChoiceT, TableT]):
    """The tests of one certificate. `den`, `value`, `choice`, `pay` and `rows` are the certificate's."""

    letter: str

    def __init__(
        self, menu: MenuT, certificate: Certificate[MenuT, ChoiceT, TableT], weights: Sequence[int] | None = None
    ) -> None:
        self.menu, self.certificate, self.weights = menu, certificate, weights or [1] * menu.bidders
        self.den, self.value = certificate.den, certificate.value
        self.choice, self.pay, self.rows = certificate.choice, certificate.pay, certificate.rows
        self.winners, self.won = certificate.winners, certificate.won

    def first_fault(self) -> Fault | None:
        """The first fault, or None if all tests pass."""
        tests = (
            self.numbers,
            self.head,
            self.greatest,
            self.without,
            self.payments,
            self.demands,
            self.least,
            self.nearest,
            self.unblocked,
        )
        for number, test in enumerate(tests, 1):
            for place, why in test():
                return Fault(f"{self.letter}{number}", place, why)
        return None

    # What a placement has in another form.

    @property
    @abstractmethod
    def past(self) -> int:
        """The place after the places of a table's rules."""

    @abstractmethod
    def top(self, table: TableT) -> Amount:
        """The value in a table for the whole supply."""

    @abstractmethod
    def breach(self, table: TableT, worths: Worths, known: Collection[int] = ()) -> Failure | None:
        """The first place where a table breaks its rules, with a sentence, or None. The known lines were tested
        before."""

    @abstractmethod
    def lines_of_head(self, table: TableT) -> Collection[int]:
        """The lines of a table without a winner that C3 has tested."""

    @abstractmethod
    def misfit(self, choice: ChoiceT) -> str:
        """Why a known choice doesn't fit, or nothing."""

    @abstractmethod
    def earlier_bids(self, j: BidderNumber) -> Iterable[str]:
        """The bids of j that come earlier in the order of ties than the head's choice and might reach the value."""

    # Words.

    def name(self, j: BidderNumber) -> str:
        return self.menu.names[j - 1]

    def names(self, members: Iterable[BidderNumber]) -> str:
        return " and ".join(map(self.name, members))

    def unfair(self, choice: ChoiceT, members: Collection[BidderNumber]) -> str:
        """Why a choice isn't known, doesn't fit, or gives one of the members a bid, or nothing."""
        for j, (number, bids) in enumerate(zip(choice, self.menu.bids), 1):
            if number > len(bids):
                return f"its choice names bid {number} of {self.name(j)}, which has {len(bids)}"
            if number and j in members:
                return f"its choice gives {self.name(j)} a bid"
        why = self.misfit(choice)
        return f"its choice doesn't fit: {why}" if why else ""

    # The tests, C1 to C9.

    def numbers(self) -> Iterator[Failure]:
        if self.den < 1:
            yield 1, f"the denominator is {self.den}, and has to be at least 1"
        if self.value < 0:
            yield 2, f"the value is {self.value}, and has to be at least 0"
        if self.den * (self.value + 1) >= WIDE:
            yield 3, f"the denominator {self.den} times ({self.value} + 1) isn't below 2^120"

    def head(self) -> Iterator[Failure]:
        for j, (number, bids) in enumerate(zip(self.choice, self.menu.bids), 1):
            if number > len(bids):
                yield j, f"the head's choice names bid {number} of {self.name(j)}, which has {len(bids)}"
                return
        if why := self.misfit(self.choice):
            yield self.menu.bidders + 1, f"the head's choice doesn't fit: {why}"
        if (value := self.menu.value(self.choice)) != self.value:
            why = f"the head's choice is worth {value} net, and the certificate says {self.value}"
            yield self.menu.bidders + 2, why

    def greatest(self) -> Iterator[Failure]:
        table = self.certificate.table
        if breach := self.breach(table, self.menu.net):
            place, why = breach
            yield place, f"in the head's table {why}"
        if self.top(table) > self.value:
            why = f"the head's table says {self.top(table)} for all that can be sold, above the value {self.value}"
            yield self.past, why
        for j in range(1, self.menu.bidders + 1):
            for why in self.earlier_bids(j):
                yield self.past + j, why

    def without(self) -> Iterator[Failure]:
        for j in self.winners:
            choice, table = self.certificate.without[j]
            if why := self.unfair(choice, [j]) or self.table_fault(j, choice, table):
                yield j, f"in the part without {self.name(j)} {why}"

    def table_fault(self, j: BidderNumber, choice: ChoiceT, table: TableT) -> str:
        """Why a table doesn't show that no choice without j is worth more than this one, or nothing."""
        worths = [list[Net]() if k == j else net for k, net in enumerate(self.menu.net, 1)]
        if breach := self.breach(table, worths, self.lines_of_head(table)):
            return breach[1]
        top, value = self.top(table), self.menu.value(choice)
        above = f"the table says {top} for all that can be sold, above the {value} that its choice is worth"
        return above if top > value else ""

    def payments(self) -> Iterator[Failure]:
        for j, pay in enumerate(self.pay, 1):
            if not 0 <= pay <= scaled(self.won(j), self.den):
                wins = f"wins with a bid of {self.won(j)}" if self.choice[j - 1] else "wins nothing, so it pays 0"
                paid = f"{self.name(j)} pays {self.money(pay)} net of reserve, and it {wins}"
                yield j, f"{paid}; a payment is at least 0 and at most the bid"

    def money(self, amount: ScaledNet) -> str:
        """A scaled amount over the denominator."""
        return fraction(amount, self.den)

    def demands(self) -> Iterator[Failure]:
        for r, row in enumerate(self.rows, 1):
            if why := self.row_fault(row):
                yield r, f"in row {r} {why}"

    def row_fault(self, row: Row[ChoiceT]) -> str:
        """Why a row isn't a demand that its members meet, or nothing."""
        losers = [j for j in row.members if not self.choice[j - 1]]
        if losers:
            return f"{self.name(losers[0])} is a member, and it wins nothing"
        return self.unfair(row.choice, row.members) or self.demand_fault(row)

    def demand_fault(self, row: Row[ChoiceT]) -> str:
        """Why the members of a row don't pay just what its choice asks of them, or nothing."""
        paid, worth = total(self.pay[j - 1] for j in row.members), self.menu.value(row.choice)
        others = total(self.won(j) for j in self.winners if j not in row.members)
        if paid == scaled(less(worth, others), self.den):
            return ""
        return (
            f"{self.names(row.members)} pay {self.money(paid)} net of reserve, and have to pay {worth - others}: the"
            f" row's choice is worth {worth}, and the other winners win with {others}"
        )

    def least(self) -> Iterator[Failure]:
        for r, row in enumerate(self.rows, 1):
            if row.first < 0:
                yield r, f"the first multiplier of row {r} is {row.first}, below 0"
        for j in self.winners:
            if (whole := sum(row.first for row in self.rows if j in row.members)) != self.den:
                has = f"the first multipliers of the rows of {self.name(j)} come to {whole}"
                yield len(self.rows) + j, f"{has}, and have to come to the denominator {self.den}"

    def nearest(self) -> Iterator[Failure]:
        for r, row in enumerate(self.rows, 1):
            if row.second < 0 and row.first <= 0:
                below = f"the second multiplier of row {r} is {row.second}, below 0"
                yield r, f"{below}, and its first, {row.first}, isn't above 0"
        for j in self.winners:
            above = less(self.pay[j - 1], scaled(self.certificate.vickrey(j), self.den))
            pull = sum(row.second for row in self.rows if j in row.members)
            if above != self.weights[j - 1] * pull:
                yield len(self.rows) + j, self.nearest_text(j, above, pull)

    def nearest_text(self, j: BidderNumber, above: ScaledNet, pull: int) -> str:
        weight, where = self.weights[j - 1], f" (over the denominator {self.den})" if self.den != 1 else ""
        return (
            f"{self.name(j)} pays {above} more than its Vickrey price{where}. The second multipliers of its rows come"
            f" to {pull}, times its weight {weight} to {weight * pull}, and the two have to be the same"
        )

    def unblocked(self) -> Iterator[Failure]:
        table, paid = self.certificate.lowered, total(self.pay)
        if breach := self.breach(table, self.lowered_worths()):
            yield breach[0], f"in the lowered table {breach[1]}"
        if self.top(table) > paid:
            why = f"the lowered table says {self.top(table)} for all that can be sold, above the {paid} that is paid"
            yield self.past, why

    def lowered_worths(self) -> list[list[ScaledNet]]:
        """What each bid is worth, times the denominator, less what its bidder gets now."""
        lost = [self.certificate.lost(j) for j in range(1, self.menu.bidders + 1)]
        return [[less(scaled(net, self.den), gone) for net in nets] for gone, nets in zip(lost, self.menu.net)]


class BookTests(Tests[Book, Choice, Table]):
    """The tests of the certificate of a book."""

    letter = "C"

    @property
    def past(self) -> int:
        return (self.menu.bidders + 1) * self.menu.states

    def top(self, table: Table) -> Amount:
        return table[0][-1]

    def breach(self, table: Table, worths: Worths, known: Collection[int] = ()) -> Failure | None:
        found = first_breach(self.menu, table, worths, known)
        return (found.k * self.menu.states + found.place, breach_text(self.menu, found)) if found else None

    def lines_of_head(self, table: Table) -> Collection[int]:
        """The lines that C3 has tested: each of them and the next one are the same in the head's table, and this
        table's bidders have no bid that the head's lack."""
        head = self.certificate.table
        return {k for k in range(len(table)) if table[k : k + 2] == head[k : k + 2]}

    def misfit(self, choice: Choice) -> str:
        short = [(c, -left) for c, left in enumerate(self.menu.left(choice), 1) if left < 0]
        return f"its packages ask for {short[0][1]} more of category {short[0][0]} than are sold" if short else ""

    def earlier_bids(self, j: BidderNumber) -> Iterator[str]:
        number, before = self.choice[j - 1], self.choice[: j - 1]
        rest, still = self.menu.left(before), self.value - self.menu.value(before)
        for i, (package, _) in enumerate(self.menu.bids[j - 1][: number - 1 if number else None]):
            left = [have - take for have, take in zip(rest, package)]
            if min(left) < 0:
                continue
            net, after = self.menu.net[j - 1][i], self.certificate.table[j][self.menu.place(left)]
            if net + after >= still:
                yield (
                    f"bid {i + 1} of {self.name(j)} comes earlier in the order of ties than what the head's choice"
                    f" gives it. It is worth {net} net, with the {after} that the head's table says after it"
                    f" {net + after}, and that has to be less than {still}, what the head's choice gives these bidders"
                )


def breach_text(book: Book, breach: Breach) -> str:
    """Why a line of a table is too low."""
    left = " ".join(map(str, book.counts(breach.place)))
    of = f" (of the bidders after {book.names[breach.k - 1]})" if breach.k else ""
    says = f"line {breach.k}{of} says {breach.says} where {left} is left"
    if breach.bid:
        package = " ".join(map(str, book.bids[breach.k][breach.bid - 1][0]))
        asked = (
            f"bid {breach.bid} of {book.names[breach.k]}, for {package}, counts {breach.asked - breach.after}, and with"
            f" the {breach.after} that line {breach.k + 1} says after it {breach.asked}"
        )
    else:
        asked = (
            f"line {breach.k + 1} says {breach.asked}"
            if breach.k < book.bidders
            else "the last line is nowhere below 0"
        )
    return f"{says}, which is too low: {asked}"
