"""The section about the sale: what is sold, who may bid, and the rules."""

from __future__ import annotations

from collections.abc import Iterator, Sequence

from cca_tools.page.document import Block, Card, Cards, Column, Content, Points, Section, Table, Words, columns
from cca_tools.page.source import Source, given
from cca_tools.page.words import Names, count, listed, number
from cca_tools.rules.award import Award, Step

BESIDE = 8  # the most bidders of a table next to the others; with more it has the whole width


def categories(source: Source) -> Table:
    """What is sold."""
    heads = columns("Category", "Supply #", f"Reserve of a lot{source.unit} #")
    if not source.award:
        book = given(source.book)
        lots = zip(source.names.categories, book.supply, book.reserves)
        rows = [[name, number(supply), number(price)] for name, supply, price in lots]
        return Table("What is sold", heads, rows)
    heads.append(Column("Points of a lot", "number"))
    rows = [
        [name, number(c.supply), number(c.reserve), number(c.points)]
        for name, c in zip(source.names.categories, source.award.categories)
    ]
    return Table("What is sold", heads, rows, note=" ".join(source.long.lots()))


def bidders(award: Award, names: Names) -> Table:
    """Who may bid."""
    rows = [[name, number(b.eligibility), names.package(b.holding)] for name, b in zip(names.bidders, award.bidders)]
    return Table("Who may bid", columns("Bidder", "Points in round 1 #", "Holds already"), rows)


def steps(award: Award, units: str) -> Table:
    """The table of the award's steps: how much a price rises from which excess on."""
    rows: list[list[Content]] = []
    followers: list[Step | None] = [*award.steps[1:], None]
    for step, after in zip(award.steps, followers):
        lots = (
            f"{step.excess}"
            if after and after.excess == step.excess + 1
            else f"{step.excess} to {after.excess - 1}"
            if after
            else f"{step.excess} or more"
        )
        rows.append([lots, f"{step.permille // 10}.{step.permille % 10} %"])
    note = f"Raises are rounded up to a multiple of {number(award.tick)}{units}, and are at least that."
    return Table("How prices rise", columns("Lots asked for above the supply", "Price rises by #"), rows, note=note)


def caps(award: Award, names: Names) -> Iterator[str]:
    """A sentence for each spectrum cap."""
    for place, cap in enumerate(award.caps, 1):
        weights = any(cap.weights) and listed(
            f"{weight:,} for each lot of {name}" for weight, name in zip(cap.weights, names.categories) if weight
        )
        yield (
            f"Spectrum cap {place} counts {weights or 'nothing'}; package and holding together may come to"
            f" {cap.limit:,}."
        )


def rules(award: Award, names: Names) -> Iterator[str]:
    """The rules in sentences."""
    yield (
        "In the clock a bidder may ask for a package of at most as many points as what it asked for in the round"
        " before."
    )
    text = (
        "In the sealed round the relative cap limits each amount by what the bidder asked for in the last round in"
        " which it could have asked for the package"
    )
    yield text + ("; a second cap by the final round limits it too." if award.has_final_cap else ".")
    yield from caps(award, names)


def section(source: Source, for_all: bool = True, more: Sequence[Block] = ()) -> Section:
    """The sale and its rules. Only the report for everybody shows who may bid."""
    if not source.award:
        bids = f"A book of bids, with {count(given(source.book).bidders, 'bidder')}."
        sold = f"{bids} It has no log, so nothing is shown of rounds and lines."
        return Section("sale", "The sale", [Words(sold), Cards([Card("", [categories(source)])])])
    cards = [Card("", [categories(source)]), Card("", [steps(source.award, source.units)])]
    wide: list[Block] = []
    if for_all:
        who = Card("", [bidders(source.award, source.names)])
        if len(source.award.bidders) > BESIDE:
            wide = [Cards([who], size="wide")]
        else:
            cards.insert(1, who)
    told = Points(list(rules(source.award, source.names)))
    return Section("sale", "The sale and its rules", [Cards(cards), *wide, told, *more])
