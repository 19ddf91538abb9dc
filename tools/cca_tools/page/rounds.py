"""The rounds of the clock: prices, demand, supply and excess of each category, and what each bidder asked for."""

from __future__ import annotations

from collections.abc import Callable, Iterator, Sequence
from fractions import Fraction
from typing import Literal

from cca_tools.page import charts, findings
from cca_tools.page.charts import Activity
from cca_tools.page.document import (
    Block,
    Card,
    Cards,
    Cell,
    Content,
    Heading,
    Key,
    Picture,
    Section,
    Table,
    Words,
    columns,
)
from cca_tools.page.source import Source, given
from cca_tools.page.words import count, number
from cca_tools.rules.auction import Auction
from cca_tools.rules.award import Award
from cca_tools.rules.clock import Round
from cca_tools.rules.types import BidderNumber, Package

ON_ONE_SCALE = (
    "Prices are in per cent of the reserve, on one logarithmic scale: a doubling is equally high for each category."
    " Demand is in per cent of the supply. The numbers at the marks are prices and lots."
)
CATEGORY_KEY = Key(
    [
        ("blue", "line", "price of a lot"),
        ("orange", "hatched", "asked for above the supply"),
        ("greenish", "pale", "asked for within the supply"),
        ("soft", "dashed", "asked for so far, in the open round"),
        ("red", "line", "the supply, 100 %"),
    ]
)
ACTIVITY_KEY = Key([("bluish", "pale", "points of the package"), ("red", "line", "eligibility")])


def shown_rounds(auction: Auction) -> list[Round]:
    """The closed rounds, and the one that is open."""
    return [*auction.rounds, *([auction.open_round] if auction.open_round else [])]


def size(award: Award) -> Literal["", "mid"]:
    """Categories are in pairs where their number lets them."""
    return "mid" if len(award.categories) in (2, 4) else ""


def price_scale(award: Award, rounds: Sequence[Round]) -> float | None:
    """The greatest price in percent of its reserve, if all categories can share a scale, or else None."""
    if not all(award.reserves):
        return None
    most = max(Fraction(price, reserve) for price, reserve in zip(rounds[-1].prices, award.reserves))
    return float(100 * most)


def demand_scale(award: Award, rounds: Sequence[Round]) -> float:
    """The greatest demand in percent of the supply, and 100 at least."""
    return max(100.0, *(100 * lots / supply for closed in rounds for lots, supply in zip(closed.demand, award.supply)))


def category_table(source: Source, supply: int, rounds: Sequence[Round], c: int) -> Table:
    """Price, demand and excess of a category by rounds."""
    open_round, name = given(source.auction).open_round, source.names.categories[c]
    heads = columns("Round", f"Price{source.unit} #", "Asked for, of supply #", "Excess #")
    rows: list[list[Content]] = []
    for closed in rounds:
        excess = closed.excess[c]
        asked = f"{number(closed.demand[c])} of {number(supply)}{' so far' if closed is open_round else ''}"
        rows.append(
            [number(closed.number), number(closed.prices[c]), asked, Cell(number(excess), tone="bad" if excess else "")]
        )
    return Table(f"{name} by round", heads, rows)


def price_about(name: str, rounds: Sequence[Round], c: int) -> str:
    """What a picture of prices shows."""
    first, last = rounds[0], rounds[-1]
    return (
        f"The price of a lot of {name} goes from {number(first.prices[c])} in round {first.number} to"
        f" {number(last.prices[c])} in round {last.number}."
    )


def category_about(name: str, rounds: Sequence[Round], supply: int, c: int) -> str:
    """What a picture of prices and demand shows."""
    first, last = rounds[0], rounds[-1]
    asked = f"{count(first.demand[c], 'lot')} at first and {number(last.demand[c])} at last"
    return f"{price_about(name, rounds, c)} Asked for were {asked}; {number(supply)} are sold."


def is_drawn(rounds: Sequence[Round]) -> bool:
    """Whether there is something to draw: more than one round, and lots that are asked for."""
    return len(rounds) > 1 and any(map(any, (it.demand for it in rounds)))


def categories(source: Source, rounds: Sequence[Round]) -> Iterator[Card]:
    """A card for each category."""
    award, has_open = given(source.award), given(source.auction).open_round is not None
    scales = price_scale(award, rounds), demand_scale(award, rounds), has_open
    for c, category in enumerate(award.categories):
        prices, demand = [closed.prices[c] for closed in rounds], [closed.demand[c] for closed in rounds]
        name = source.names.categories[c]
        title = f"{name}: price and demand by round"
        about = category_about(name, rounds, category.supply, c)
        draw = drawing(c, title, about, prices, demand, category.supply, scales)
        table = category_table(source, category.supply, rounds, c)
        picture = Picture(title, about, draw, table, findings.of_category(rounds, c, has_open, source.units))
        yield Card(
            name,
            [picture if is_drawn(rounds) else table],
            f"{count(category.supply, 'lot')}, reserve {number(category.reserve)}{source.units}",
        )


def drawing(
    c: int,
    title: str,
    about: str,
    prices: list[int],
    demand: list[int],
    supply: int,
    scales: tuple[float | None, float, bool],
) -> Callable[[], str]:
    """How the picture of a category is drawn."""
    return lambda: charts.category(f"rounds{c + 1}", title, about, prices, demand, supply, *scales)


def spells(rounds: Sequence[Round], j: BidderNumber) -> list[tuple[int, int, Package, int]]:
    """The spells of rounds with the same package and eligibility of a bidder, as first and last round with both."""
    found: list[tuple[int, int, Package, int]] = []
    for closed in rounds:
        package, eligibility = closed.packages[j - 1], closed.eligibility[j - 1]
        if found and found[-1][2:] == (package, eligibility) and found[-1][1] == closed.number - 1:
            found[-1] = (found[-1][0], closed.number, package, eligibility)
        else:
            found.append((closed.number, closed.number, package, eligibility))
    return found


def activity_rows(source: Source, rounds: Sequence[Round], j: BidderNumber) -> Iterator[list[Content]]:
    """What a bidder asked for, and its points, by rounds."""
    for first, last, package, eligibility in spells(rounds, j):
        span = number(first) if first == last else f"{first} to {last}"
        points = f"{number(given(source.award).points_of(package))} of {number(eligibility)}"
        yield [span, source.names.package(package), points]


def activity_of(source: Source, rounds: Sequence[Round], j: BidderNumber) -> Activity:
    """A bidder's activity, to be drawn."""
    packages = [it.packages[j - 1] for it in rounds]
    points = [given(source.award).points_of(package) for package in packages]
    eligibility = [it.eligibility[j - 1] for it in rounds]
    return Activity(
        source.names.bidder(j), points, eligibility, [source.names.package(package) for package in packages]
    )


def activity_about(one: Activity, rounds: Sequence[Round]) -> str:
    """What a bidder's activity is, in words."""
    return (
        f"{one.name} may ask for {count(one.eligibility[0], 'point')} in round 1 and for {number(one.eligibility[-1])}"
        f" in round {number(rounds[-1].number)}; it asks for {number(one.points[0])} at first and"
        f" {number(one.points[-1])} at last"
    )


def activity(source: Source, rounds: Sequence[Round], numbers: Sequence[BidderNumber], has_open: bool) -> Card:
    """The activity of these bidders as one picture, on one scale."""
    every = [activity_of(source, rounds, j) for j in numbers]
    most = max(max(one.eligibility) for one in every)
    title = findings.of_activity([one.points for one in every], [one.eligibility for one in every], has_open)
    about = ". ".join(activity_about(one, rounds) for one in every) + "."
    rows = [
        [*([one.name] if len(every) > 1 else []), *row]
        for j, one in zip(numbers, every)
        for row in activity_rows(source, rounds, j)
    ]
    heads = columns(*(["Bidder"] if len(every) > 1 else []), "Round", "Asks for", "Points, of eligible for #")
    table = Table("Points asked for and eligibility by round", heads, rows)
    draw = lambda: charts.activities("activity", title, about, every, most, has_open)  # noqa: E731
    return Card("", [Picture(title, about, draw, table) if len(rounds) > 1 else table])


def how_it_went(source: Source, rounds: Sequence[Round]) -> str:
    """How far the clock is, in a sentence."""
    auction = given(source.auction)
    if auction.stage == "clock":
        return f"The clock runs. Round {rounds[-1].number} is open; what is shown of it is what was asked for so far."
    return f"The clock ended with round {auction.final}, in which no category had more lots asked for than are sold."


def scale_words(award: Award, rounds: Sequence[Round]) -> str:
    """Which scales the pictures have, and why."""
    if price_scale(award, rounds):
        return ON_ONE_SCALE
    return (
        "Prices are drawn each on a scale of its own, since a reserve is 0. Demand is in per cent of the supply, so"
        " that the categories can be compared."
    )


def section(source: Source) -> Section:
    """The rounds of the clock."""
    award, auction = given(source.award), given(source.auction)
    rounds, has_open = shown_rounds(auction), auction.open_round is not None
    blocks: list[Block] = [Words(how_it_went(source, rounds))]
    if is_drawn(rounds):
        blocks += [Words(scale_words(award, rounds))]
        blocks += [Key([mark for mark in CATEGORY_KEY.marks if has_open or mark[1] != "dashed"])]
    blocks += [Cards(list(categories(source, rounds)), size=size(award))]
    if not any(map(any, (it.demand for it in rounds))):
        blocks += [Words("Nobody asked for a lot.")]
    elif len(rounds) == 1:
        blocks += [Heading("What each bidder asked for")]
        blocks += [Cards([activity(source, rounds, range(1, len(award.bidders) + 1), has_open)], size="full")]
    elif award.bidders:
        told = (
            "A column for each round, and a row for each bidder: the points of its package, and the line of its"
            " eligibility. All bidders have one scale."
        )
        numbers = range(1, len(award.bidders) + 1)
        blocks += [Heading("What each bidder asked for"), Words(told), ACTIVITY_KEY]
        blocks += [Cards([activity(source, rounds, numbers, has_open)], size="full")]
    return Section("rounds", "The rounds", blocks, findings.of_clock(rounds, has_open))
