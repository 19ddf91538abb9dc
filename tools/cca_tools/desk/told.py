"""What a line does, in sentences with names, currency and unit, and which amounts are out of proportion.

Nothing is written here, and no markup is made. Amounts are gross.
"""

from __future__ import annotations

from collections.abc import Iterator, Sequence
from dataclasses import dataclass

from cca_tools.desk.lines import PROPORTION
from cca_tools.page.words import Names, count, number
from cca_tools.rules.auction import Auction
from cca_tools.rules.award import Award
from cca_tools.rules.clock import cost
from cca_tools.rules.log import Line
from cca_tools.rules.names import LongNames
from cca_tools.rules.reasons import counts
from cca_tools.rules.types import Amount, Bid, BidderNumber, Gross, Package


class Speech:
    """How bidders, packages and amounts are named."""

    def __init__(self, award: Award, names: LongNames) -> None:
        self.award, self.names = award, names
        self.unit = names.amounts()
        self._packages = Names(award.names, [names.category(it.name) for it in award.categories])

    def bidder(self, name: str) -> str:
        """A bidder by its long name, with its short one after it."""
        long = self.names.bidder(name)
        return name if long == name else f"{long} ({name})"

    def package(self, package: Package) -> str:
        """A package in words, such as `1 x a800, 3 x c2600`; no line breaks between a count and its category."""
        return self._packages.package(package)

    def amount(self, amount: Amount) -> str:
        """An amount with its unit and currency."""
        return f"{number(amount)} {self.unit}" if self.unit else number(amount)

    def caption(self, text: str) -> str:
        """A caption that names the unit of its amounts."""
        return f"{text}, in {self.unit}" if self.unit else text


@dataclass(frozen=True)
class Told:
    """A line in sentences, and what is surprising about it."""

    sentences: Sequence[str]
    warnings: Sequence[str] = ()


def last_line_of(auction: Auction, line: Line) -> Line | None:
    """The last admitted line of the same kind and bidder, and for drafts of the same package, since the last close."""
    for before, reply in zip(reversed(auction.lines), reversed(auction.replies)):
        if before.kind == "close" and reply.is_ok and line.kind == "bid":
            return None
        is_same = before.kind == line.kind and before.bidder == line.bidder
        if reply.is_ok and is_same and (line.kind != "draft" or before.package == line.package):
            return before
    return None


def last_cost(auction: Auction, package: Package) -> Gross:
    """What a package costs at the posted prices of the open round, or of the final one."""
    return cost(auction.open_round or auction.rounds[-1], package)


def times_words(amount: Gross, base: Gross) -> str:
    """How many times an amount is another one."""
    return f"{number(amount // base)} times"


def proportion_warnings(speech: Speech, auction: Auction, j: BidderNumber, bid: Bid) -> list[str]:
    """Why an amount of a list is out of proportion to the package's price at the final clock prices, and to the amount
    that its list had before."""
    package, amount = bid
    found, price = list[str](), last_cost(auction, package)
    named = f"{speech.amount(amount)} for {speech.package(package)}"
    if price and amount > PROPORTION * price:
        many = times_words(amount, price)
        at = speech.amount(price)
        found.append(f"{named} is {many} its price at the final clock prices, {at}. Is it a typing error?")
    desk = auction.desks[j - 1]
    before = desk.drafts.get(package, desk.submitted.get(package, Gross(0)))
    if before and amount > PROPORTION * before:
        found.append(f"{named} is {times_words(amount, before)} the amount before, {speech.amount(before)}.")
    if before > PROPORTION * amount:
        found.append(f"{named} is less than a tenth of the amount before, {speech.amount(before)}.")
    return found


def list_warnings(speech: Speech, auction: Auction, j: BidderNumber) -> list[str]:
    """The entries of a submitted list that are out of proportion to the final clock prices."""
    found = list[str]()
    for package, amount in auction.submitted(j):
        price = last_cost(auction, package)
        if price and amount > PROPORTION * price:
            found.append(
                f"{speech.bidder(auction.award.names[j - 1])} offers {speech.amount(amount)} for"
                f" {speech.package(package)}, {times_words(amount, price)} its price at the final clock prices."
            )
    return found


def bid_told(speech: Speech, auction: Auction, line: Line) -> Told:
    """A line of the clock."""
    award, here = auction.award, auction.running_round
    points, may = award.points_of(line.package), here.eligibility[line.bidder - 1]
    price = cost(here, line.package)
    found = [
        f"{speech.bidder(line.name)} asks for {speech.package(line.package)}.",
        f"Cost at the posted prices of round {here.number}: {speech.amount(price)}. Points: {number(points)} of"
        f" {number(may)}.",
    ]
    if points < may:
        found.append(
            f"It gives up {count(may - points, 'point')} of eligibility if the clock goes on after this round."
        )
    if before := last_line_of(auction, line):
        found.append(f"It replaces line {number(before.number)} of this bidder: {speech.package(before.package)}.")
    is_idle = not any(line.package) and may > 0
    return Told(found, ["Nothing is asked for: the bidder leaves the clock if the clock goes on."] if is_idle else [])


def draft_told(speech: Speech, auction: Auction, line: Line) -> Told:
    """A draft of a list."""
    j, package = line.bidder, line.package
    desk = auction.desks[j - 1]
    found = [f"{speech.bidder(line.name)} drafts {speech.amount(line.amount)} for {speech.package(package)}."]
    cap = auction.caps(j).amount({**desk.drafts, package: line.amount}, package)
    price = last_cost(auction, package)
    found.append(
        f"{'No cap' if cap is None else f'Cap: {speech.amount(cap)}'}. At the final clock prices:"
        f" {speech.amount(price)}. Asked for in the clock at: {speech.amount(desk.highest_in_clock.get(package, 0))}."
    )
    if package in desk.drafts and (before := last_line_of(auction, line)):
        found.append(f"It replaces the draft of {speech.amount(desk.drafts[package])}, line {number(before.number)}.")
    found.append("It counts only after the bidder has submitted its list.")
    odd = proportion_warnings(speech, auction, j, (package, line.amount))
    if cap is not None and line.amount > cap:
        by = speech.amount(line.amount - cap)
        odd.append(f"It is above its cap by {by}: a submission of the list as it is then would be refused.")
    return Told(found, odd)


def drop_told(speech: Speech, auction: Auction, line: Line) -> Told:
    """A draft that is taken out of a list."""
    amount = auction.desks[line.bidder - 1].drafts.get(line.package)
    named = f"{speech.package(line.package)}{'' if amount is None else f', {speech.amount(amount)}'}"
    return Told([f"{speech.bidder(line.name)} drops its draft: {named}.", "It counts only after the next submission."])


def submit_told(speech: Speech, auction: Auction, line: Line) -> Told:
    """A list that is submitted."""
    desk = auction.desks[line.bidder - 1]
    total = sum(desk.drafts.values())
    found = [
        f"{speech.bidder(line.name)} submits its list: {count(len(desk.drafts), 'package')}, together"
        f" {speech.amount(total)}."
    ]
    if before := last_line_of(auction, line):
        changes = ", ".join(changes_of(desk.submitted, desk.drafts))
        found.append(f"It replaces the list of line {number(before.number)}: {changes}.")
    if not desk.drafts:
        found.append("The list is empty: only the bidder's clock bids count.")
    warnings = [
        f"{speech.amount(amount)} for {speech.package(package)} is {times_words(amount, price)} its price at the final"
        " clock prices. Is it a typing error?"
        for package, amount in sorted(desk.drafts.items())
        if (price := last_cost(auction, package)) and amount > PROPORTION * price
    ]
    return Told(found, warnings)


def changes_of(before: dict[Package, Gross], after: dict[Package, Gross]) -> Iterator[str]:
    """How a list differs from the one before it."""
    both = before.keys() & after.keys()
    yield f"{count(len(after.keys() - before.keys()), 'package')} new"
    yield f"{sum(before[it] != after[it] for it in both)} with another amount"
    yield f"{len(before.keys() - after.keys())} gone"


KINDS = {"bid": bid_told, "draft": draft_told, "drop": drop_told, "submit": submit_told}
STAGES = {"bid": "clock", "draft": "sealed", "drop": "sealed", "submit": "sealed"}


def told_line(speech: Speech, auction: Auction, line: Line) -> Told:
    """A line in sentences, by the auction before it. A line of another stage or of an unknown bidder has only what it
    says."""
    if line.kind not in KINDS or not line.bidder or auction.stage != STAGES[line.kind]:
        what = f" {counts(line.package)}" if line.package else ""
        return Told([f"{speech.bidder(line.name)}: {line.kind}{what}."] if line.name else [])
    return KINDS[line.kind](speech, auction, line)


def told_lines(speech: Speech, auction: Auction, lines: Sequence[Line]) -> list[Told]:
    """Lines in sentences, each by the auction after the lines before it."""
    going, found = auction.copied(), list[Told]()
    for line in lines:
        found.append(told_line(speech, going, line))
        going.take(line)
    return found
