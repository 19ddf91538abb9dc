"""The state of an auction that isn't over: what is posted and asked for, and what a close would do."""

from __future__ import annotations

from cca_tools.page.document import Block, Card, Cards, Cell, Content, Points, Section, Table, Words, columns
from cca_tools.page.source import Source, given
from cca_tools.page.words import commas, count, number
from cca_tools.rules.state import ListState, category_states, clock_states, close_effect, list_states


def categories(source: Source) -> Table:
    """The categories in the open round."""
    heads = columns(
        "Category",
        f"Price{source.unit} #",
        "Asked for, of supply #",
        "Excess #",
        f"Price after a close{source.unit} #",
    )
    rows: list[list[Content]] = []
    for name, it in zip(source.names.categories, category_states(given(source.auction))):
        after = "no round" if it.after is None else number(it.after)
        excess = Cell(number(it.excess), tone="bad" if it.excess else "")
        rows.append([name, number(it.price), f"{number(it.demand)} of {number(it.supply)}", excess, after])
    return Table("What is posted and asked for so far", heads, rows)


def clock_bidders(source: Source) -> Table:
    """The bidders in the open round."""
    heads = columns("Bidder", "Asks for", "Points, of eligible for #", "A close takes #")
    rows: list[list[Content]] = []
    for name, it in zip(source.names.bidders, clock_states(given(source.auction))):
        asks = source.names.cell(it.package) if it.activity == "asks" else Cell(it.activity)
        taken = Cell(count(it.lost, "point"), tone="bad") if it.lost else Cell("\N{EN DASH}")
        rows.append([name, asks, f"{number(it.points)} of {number(it.eligibility)}", taken])
    return Table("What each bidder has done in this round", heads, rows)


def list_words(it: ListState) -> str:
    """Whether a submission of the drafts would change anything, and whether it would be refused."""
    if it.is_refused:
        return "a submission would be refused"
    if it.differences:
        return f"{count(it.differences, 'package')} not as submitted"
    return "as submitted" if it.submitted else "no list"


def list_bidders(source: Source) -> Table:
    """The lists of bidders while they are taken."""
    heads = columns("Bidder", "Drafts #", "Submitted #", "The drafts are")
    rows: list[list[Content]] = []
    for name, it in zip(source.names.bidders, list_states(given(source.auction))):
        words = Cell(list_words(it), it.answer.text() if it.is_refused else "", "bad" if it.is_refused else "")
        rows.append([name, number(it.drafts), number(it.submitted), words])
    return Table("The list of each bidder", heads, rows)


def section(source: Source) -> Section | None:
    """The state of the auction; None once it is over."""
    auction = source.auction
    if auction is None or auction.stage == "closed":
        return None
    effect = close_effect(auction)
    tables = [categories(source), clock_bidders(source)] if auction.stage == "clock" else [list_bidders(source)]
    blocks: list[Block] = [Cards([Card("", [table]) for table in tables if table.rows], size="mid")]
    warnings = [commas(warning) for warning in effect.warnings]
    if effect.is_fatal:
        blocks.insert(0, Words(commas(effect.sentence), "bad"))
    blocks += [Points(warnings)] if warnings else []
    is_open = auction.stage == "clock"
    finding = f"Round {number(auction.running_round.number)} is open" if is_open else "Lists are taken"
    told = finding if effect.is_fatal else f"{finding}. {commas(effect.sentence).rstrip('.')}"
    return Section("state", "Where the auction is", blocks, told)
