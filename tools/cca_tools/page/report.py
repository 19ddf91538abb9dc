"""A whole report: its sections in order, for everybody or for one bidder."""

from __future__ import annotations

import os
from collections.abc import Sequence

from cca_tools.page import basis, bidder, findings, lines, prices, rounds, sale, state, winners
from cca_tools.page.document import Links, Page, Section
from cca_tools.page.source import Source, given


def how_far(source: Source, is_stopped: bool) -> str:
    """How far the auction is, in a sentence."""
    if source.auction is None:
        return "A book of bids."
    if is_stopped:
        return "The auction was stopped by a limit."
    return {
        "clock": f"The auction is in round {len(source.auction.rounds) + 1}.",
        "sealed": "The clock has ended, and lists are taken.",
        "closed": "The auction is over.",
    }[source.auction.stage]


def verdict(source: Source) -> str:
    """Where the certificate comes from, and whether it passes."""
    if source.certificate is None:
        return ""
    if not source.is_given:
        return " No certificate was given, so the program worked one out."
    return " The certificate passes all tests." if source.has_prices else " The certificate fails a test."


def title_of(source: Source, name: str) -> str:
    """The title, by the name of the first file."""
    stem = source.long.title or os.path.splitext(source.sums[0].name)[0]
    return f"Auction report for {name}: {stem}" if name else f"Auction report: {stem}"


def foot(source: Source) -> str:
    """What is below each printed page: the first digits of the files' sums."""
    return ", ".join(f"{basis.KINDS[it.kind]} {it.sum[:12]}" for it in source.sums)


def for_all(source: Source, with_program: bool, sheets: Sequence[str]) -> list[Section | None]:
    """The sections of the report for everybody; `sheets` are files of tables in its folder, which it links to."""
    finding = findings.of_award(source) if source.has_prices else ""
    links = [(path, os.path.splitext(os.path.basename(path))[0]) for path in sheets]
    more = [Links("Tables for a spreadsheet (CSV):", links)] if links else []
    first = Section("winners", "Winners and prices", [*winners.result(source), *more], finding)
    logged = [rounds.section(source), lines.section(source)] if source.auction else []
    return [
        state.section(source),
        first,
        prices.section(source),
        sale.section(source),
        *logged,
        winners.book(source),
        basis.section(source, with_program),
    ]


def page(source: Source, name: str = "", with_program: bool = False, sheets: Sequence[str] = ()) -> Page:
    """The report, for everybody or for the bidder of this short name; the former links to the tables of `sheets`."""
    if name:
        name = source.long.bidder(name)
        found: list[Section | None] = [*bidder.sections(source, given(source.award).number_of(name))]
        under = f"{how_far(source, False)} What `{name}` sees of it. {source.amounts()}"
    else:
        found = for_all(source, with_program, sheets)
        now = how_far(source, source.auction is not None and source.auction.limit_stop is not None)
        amounts = "" if source.has_prices and source.winners else f" {source.amounts()}"
        under = " ".join(filter(None, [source.long.occasion(), f"{now}{verdict(source)}{amounts}"]))
    return Page(title_of(source, name), under, [section for section in found if section], foot(source))
