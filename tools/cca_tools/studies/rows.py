"""One auction of a study, as a row of its table.

Bidders act by their values and strategies, and the program awards the auction. The row has the result together with the
best possible one. Of every hundredth auction, and of the first one of each process, the certificate is tested by the
rules of this package, as tools/audit does.
"""

from __future__ import annotations

import functools
import os
from collections.abc import Iterator, Mapping, Sequence
from dataclasses import dataclass
from fractions import Fraction
from typing import TypeAlias

from cca_tools.data.numbers import decimal, exact
from cca_tools.data.prices import BY_WIN, Price, Prices, need_program, price, vickrey_prices
from cca_tools.data.references import nearest_to
from cca_tools.rules.award import Award, dot
from cca_tools.rules.book import Book
from cca_tools.rules.money import difference, net_of, total
from cca_tools.rules.stops import LIMIT, Stop
from cca_tools.rules.types import Gross, Net, Package
from cca_tools.studies.awarding import Held, audited, awarded, hold, need_bounds
from cca_tools.pricing.best import best_value, has_tie
from cca_tools.studies.draws import draws_of
from cca_tools.studies.origin import program_sum
from cca_tools.studies.plan import FIELDS, Case, Plan, award_of
from cca_tools.studies.strategies import Strategy
from cca_tools.studies.values import BidderModel, Values, drawn_strategies, drawn_values

AUDITED = 100  # the first auction of each hundred is audited

# The cells of a row by the names of its columns.
Row: TypeAlias = dict[str, str]
# Prices by other rules of the same bids, each by the name of its rule, or the limit that stopped it.
Others: TypeAlias = Mapping[str, Prices | str]

CLOCK = "rounds lines refused clock_revenue".split()
ALL = (
    "winners unsold value best efficiency core core_exact vickrey bids profit raised tie audit found_by stopped"
).split()
MADE = "program tools plan".split()  # what made the row: checksums, and the version of the tools
STRATEGY = "share shade budget".split()
EACH = [*STRATEGY, *"clock clock_won package value bid vickrey price profit regret".split()]
CORE_CELLS = "price profit regret".split()  # of a bidder; empty if no core prices were found


def each_of(plan: Plan) -> list[str]:
    """The columns of a bidder, without its name."""
    return [*EACH, *(f"price_{rule}" for rule in plan.rules)]


def common_of(plan: Plan) -> list[str]:
    """The columns of an auction, without the columns of its bidders and of what made it."""
    categories = [it.name for it in plan.base().categories]
    clock = [f"clock_{what}_{name}" for name in categories for what in ("price", "excess")]
    rules = [f"{what}_{rule}" for rule in plan.rules for what in ("core", "found_by")]
    return ["auction", "seed", *FIELDS, *CLOCK, *clock, *ALL, *rules]


def columns_of(plan: Plan) -> list[str]:
    """The columns of the table of a plan."""
    names = [bidder.name for bidder in plan.base().bidders]
    return [*common_of(plan), *(f"{name}_{what}" for name in names for what in each_of(plan)), *MADE]


@functools.lru_cache(maxsize=64)
def terms_of(plan: Plan, case: Case) -> tuple[Award, list[BidderModel]]:
    """The award of a case, and the model of each of its bidders."""
    award = award_of(plan.base(), case)
    return award, plan.models(case)[: len(award.bidders)]


@dataclass(frozen=True)
class Drawn:
    """An auction of a plan after it was run: its values, its strategies, and how it went."""

    seed: int
    values: Sequence[Values]
    strategies: Sequence[Strategy]
    held: Held


def drawn_auction(plan: Plan, number: int, case: Case) -> Drawn:
    """The auction of this number in a case."""
    award, models = terms_of(plan, case)
    seed = plan.seed + number - 1
    draws = draws_of(seed)
    values = drawn_values(award, models, draws)
    strategies = drawn_strategies(award, models, draws, Strategy(case.share), case.strategies())
    return Drawn(seed, values, strategies, hold(award, values, strategies, case.format == "clock"))


def row_of(plan: Plan, number: int, case: Case) -> Row:
    """The row of an auction. A certificate that fails, or an unforeseen answer of the program, is a `Stop`."""
    drawn = drawn_auction(plan, number, case)
    row: Row = {"auction": str(number), "seed": str(drawn.seed), **{name: str(case.get(name)) for name in FIELDS}}
    row.update(clock_cells(drawn.held))
    try:
        prices = awarded(drawn.held, is_audited=number % AUDITED == 1 or program_sum() not in audited)
    except Stop as stop:
        if stop.status != LIMIT:
            raise
        row["stopped"] = stop.line.removeprefix("cca: ")
        if drawn.held.known is None:
            return row
        return {**row, **priced_cells(drawn, vickrey_prices(drawn.held.book, need_program()), {})}
    need_bounds(prices)
    row["audit"] = "yes" if number % AUDITED == 1 else ""
    return {**row, **priced_cells(drawn, prices, other_prices(plan, drawn.held.book, prices))}


def other_prices(plan: Plan, book: Book, prices: Prices) -> Others:
    """The prices by the other rules of the plan."""
    found: dict[str, Prices | str] = {}
    for rule in plan.rules:
        try:
            found[rule] = price_by(rule, plan, book, prices)
        except Stop as stop:
            if stop.status != LIMIT:
                raise
            found[rule] = stop.line.removeprefix("cca: ")
    return found


def price_by(rule: str, plan: Plan, book: Book, prices: Prices) -> Prices:
    """The prices by another rule: weighted, or nearest to a point of reference."""
    for reference in plan.references:
        if reference == rule:
            return nearest_to(book, prices, reference, need_program())
    return price(book, weights={name: weight for name, weight in plan.weights if name in book.names})


# The cells of a row.


def clock_cells(held: Held) -> Row:
    """The cells of the clock: the prices of its last round, what was asked for beyond the supply there (below 0: what
    nobody asked for), and what the packages of that round cost together."""
    auction = held.auction
    if auction is None:
        return {"rounds": "0", "lines": "0", "refused": "0"}
    cells = {
        "rounds": str(len(auction.rounds)),
        "lines": str(len(auction.lines)),
        "refused": str(sum(not reply.is_ok for reply in auction.replies)),
    }
    if not auction.rounds:
        return cells
    last = auction.rounds[-1]
    for category, cost, asked in zip(held.award.categories, last.prices, last.demand):
        cells[f"clock_price_{category.name}"] = str(cost)
        cells[f"clock_excess_{category.name}"] = str(asked - category.supply)
    return {**cells, "clock_revenue": str(dot(last.prices, last.demand))}


def priced_cells(drawn: Drawn, prices: Prices, others: Others) -> Row:
    """The cells of what came out, for the whole auction and for each bidder. If `cca win` found the prices, they are
    only Vickrey prices, and the cells of the core are empty."""
    row = outcome(drawn.held, drawn.values, prices)
    for rule, found in others.items():
        if isinstance(found, str):
            row[f"found_by_{rule}"] = found
        else:
            row |= {f"core_{rule}": exact(found.revenue), f"found_by_{rule}": found.found_by}
    for k, of_one in enumerate(drawn.values):
        cells = bidder_cells(drawn, k, of_one, prices.rows[k], others)
        row |= {f"{prices.rows[k].bidder}_{what}": cell for what, cell in cells.items()}
    if prices.found_by == BY_WIN:
        names = [f"{it.bidder}_{what}" for it in prices.rows for what in CORE_CELLS]
        row |= dict.fromkeys(["core", "core_exact", "profit", "raised", *names], "")
    return row


def outcome(held: Held, values: Sequence[Values], prices: Prices) -> Row:
    """The cells of the whole auction. Unsold lots are worth their reserves, to the seller."""
    award = held.award
    won = total(of_one[row.package] if row.package else Gross(0) for of_one, row in zip(values, prices.rows))
    kept = dot(award.reserves, award.supply)
    value = kept + net_of(won, sum(row.reserve for row in prices.rows))
    best = kept + best_of_values(award, values)
    sold = sum(sum(row.package or ()) for row in prices.rows)
    return {
        "winners": str(len(prices.winners)),
        "unsold": str(sum(award.supply) - sold),
        "value": str(value),
        "best": str(best),
        "efficiency": decimal(Fraction(value, best) if best else Fraction(1)),
        "core": decimal(prices.revenue),
        "core_exact": exact(prices.revenue),
        "vickrey": str(sum(row.vickrey for row in prices.rows)),
        "bids": str(sum(row.bid for row in prices.rows)),
        "profit": decimal(difference(won, prices.revenue)),
        "raised": "yes" if prices.raised else "no",
        "tie": "yes" if has_tie(held.book) else "no",
        "found_by": prices.found_by,
    }


def best_of_values(award: Award, values: Sequence[Values]) -> Net:
    """The greatest sum of values of an allocation, net of reserves."""
    return best_value(Book(award.supply, award.reserves, list(award.names), [list(it.items()) for it in values]))


def counts_text(package: Package | None) -> str:
    """A package as a cell; none, or the empty one, is an empty cell."""
    return " ".join(map(str, package)) if package and any(package) else ""


def bidder_cells(drawn: Drawn, k: int, values: Values, row: Price, others: Others) -> Row:
    """The cells of a bidder, without its name."""
    worth = values[row.package] if row.package else Gross(0)
    rounds = drawn.held.auction.rounds if drawn.held.auction else []
    asked = counts_text(rounds[-1].packages[k] if rounds else None)
    package = counts_text(row.package)
    is_won = "" if not asked else "yes" if asked == package else "no"
    parts = row.pays, difference(worth, row.pays), row.regret
    amounts = str(worth), str(row.bid), str(row.vickrey), *map(decimal, parts)
    cells = dict(zip(EACH, (*drawn.strategies[k].cells(), asked, is_won, package, *amounts)))
    rules = {f"price_{rule}": exact(it.rows[k].pays) for rule, it in others.items() if isinstance(it, Prices)}
    return {**cells, **rules}


def long_columns_of(plan: Plan) -> list[str]:
    """The columns of the table with a row for each bidder of each auction."""
    return ["auction", "seed", *FIELDS, "bidder", *each_of(plan), "stopped", *MADE]


def long_rows(plan: Plan, row: Row) -> Iterator[Row]:
    """The rows of the bidders of an auction."""
    for name in [bidder.name for bidder in plan.base().bidders][: int(row["bidders"])]:
        own = {what: row.get(f"{name}_{what}", "") for what in each_of(plan)}
        yield {**row, **own, "bidder": name}


# In parts, for those who run them.


@dataclass(frozen=True)
class Job:
    """An auction that is to be run: its number, and its case's number from 0."""

    case: int
    number: int


@dataclass(frozen=True)
class Done:
    """A row that was made, or the line, the status and the reason of a stop; with the checksum of the program that was
    asked, if there was one."""

    job: Job
    row: Row
    stop: tuple[str, int, str] | None = None
    program: str = ""


def rows_of(plan: Plan, jobs: Sequence[Job], program: str | None) -> list[Done]:
    """The rows of some auctions. The program is the one at this path, unless CCA_PROGRAM names another one here. After
    a stop no more auctions are run."""
    if program and not os.environ.get("CCA_PROGRAM"):
        os.environ["CCA_PROGRAM"] = program
    made, total = list[Done](), ""
    for job in jobs:
        try:
            total = program_sum()
            made.append(Done(job, row_of(plan, job.number, plan.cases[job.case]), program=total))
        except Stop as stop:
            made.append(Done(job, {}, (stop.line, stop.status, stop.why), total))
            break
    return made
