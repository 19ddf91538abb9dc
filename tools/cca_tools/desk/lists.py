"""The list of one bidder as a table: what is drafted, what its cap is, what the clock has, and what is submitted."""

from __future__ import annotations

from cca_tools.desk.lines import PROPORTION
from cca_tools.desk.tables import NONE, Cell, Column, Row, Table
from cca_tools.desk.told import Speech, last_cost
from cca_tools.page.words import number
from cca_tools.rules.auction import Auction
from cca_tools.rules.reasons import counts
from cca_tools.rules.types import BidderNumber, Gross, Package


def amount_cell(amount: Gross | None, is_odd: bool = False) -> Cell:
    """An amount; a dash if there is none."""
    return Cell(NONE if amount is None else number(amount), "", "warm" if is_odd else "")


def submitted_cell(drafted: Gross | None, submitted: Gross | None) -> Cell:
    """What is submitted, and whether it differs from what is drafted."""
    return Cell(NONE if submitted is None else number(submitted), "", "" if drafted == submitted else "warm")


def cap_cell(auction: Auction, j: BidderNumber, package: Package) -> Cell:
    """The cap of a package, if its bidder's drafts are submitted as they are."""
    drafts = auction.desks[j - 1].drafts
    cap = auction.caps(j).amount(drafts, package)
    is_above = cap is not None and drafts.get(package, 0) > cap
    return Cell("no cap" if cap is None else number(cap), "", "bad" if is_above else "")


def draft_table(auction: Auction, j: BidderNumber, speech: Speech) -> Table:
    """The list of bidder j once the clock has ended: each package that is drafted, submitted or of the clock."""
    desk = auction.desks[j - 1]
    packages = sorted({*desk.drafts, *desk.submitted, *(it for it in desk.highest_in_clock if any(it))})
    rows = []
    for package in packages:
        drafted, price = desk.drafts.get(package), last_cost(auction, package)
        is_odd = drafted is not None and price > 0 and drafted > PROPORTION * price
        cells = [
            Cell(speech.package(package), counts(package)),
            amount_cell(drafted, is_odd),
            submitted_cell(drafted, desk.submitted.get(package)),
            cap_cell(auction, j, package),
            amount_cell(desk.highest_in_clock.get(package)),
            amount_cell(price),
        ]
        rows.append(Row(cells))
    heads = ("Drafted", "Submitted", "Cap", "In the clock", "Final clock price")
    columns = [Column("Package", is_number=False), *map(Column, heads)]
    name = speech.bidder(auction.award.names[j - 1])
    return Table(speech.caption(f"The list of {name}"), columns, rows)


def total_words(auction: Auction, j: BidderNumber, speech: Speech) -> str:
    """How many packages a submitted list has, and the sum of their amounts, for the bidder to compare."""
    submitted = auction.submitted(j)
    total = speech.amount(sum(amount for _, amount in submitted))
    return f"{len(submitted)} submitted, together {total}"
