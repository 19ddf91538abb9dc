"""Shows the state of an auction on one screen: the posted prices, demand and supply of each category, what each bidder
asks for and what a close would do. While lists are taken: the drafts and the submitted list of each bidder, whether a
submission would be refused, and each entry above its cap with by how much. Once the auction is closed: ties.

LOG is the log so far; it is read and never changed. To see it while it grows:

    FORCE_COLOR=1 watch --color tools/state AWARD LOG

The names for people are a file of TOML, which no rule reads. Each key may be left out:

    title = "Northland award"
    currency = "EUR"
    unit = 1000                      # an amount of 1 is 1,000 EUR
    [category.p700]
    name = "700 MHz paired"
    mhz = 10                         # of a lot
    start = 703                      # where the band's first lot begins, in MHz; for reports with a placement
    step = 5                         # from a lot to the next, if that isn't mhz: of paired lots
    [bidder.aurora]
    name = "Aurora Telecom plc"

Look before each close. Lines that begin with ! are warnings. Statuses are as in docs/FORMATS.md.
"""

from __future__ import annotations

import argparse
import sys
from collections.abc import Iterator, Sequence
from typing import TypeAlias

from cca_tools.command_line import Parser, run_command
from cca_tools.rules.auction import Auction, replay
from cca_tools.rules.award import read_award
from cca_tools.rules.log import read_log
from cca_tools.rules.names import LongNames, read_names
from cca_tools.rules.reasons import counts
from cca_tools.rules.state import (
    CategoryState,
    ClockState,
    ListState,
    category_states,
    clock_states,
    close_effect,
    list_states,
)
from cca_tools.rules.stops import MOST, load
from cca_tools.rules.ties import tie_sentences, ties_of
from cca_tools.terminal import Colour, given_width, progress, width

Cells: TypeAlias = list[str]
GAP = "  "


def colour_of(line: str) -> Colour | None:
    """Warnings are red, and the head is bold."""
    return "red" if line.startswith("! ") else "bold" if line.startswith("= ") else None


def parser() -> Parser:
    """The arguments of the command."""
    words = Parser("state", __doc__, colour_of=colour_of)
    words.add_file("AWARD", "the terms of the auction")
    words.add_file("LOG", "its lines so far")
    words.add_argument("--names", metavar="FILE", help="a file of names for people")
    return words


def columns() -> int:
    """How wide the screen is. `watch` states it in COLUMNS, since standard output isn't a terminal there."""
    return given_width() or width(sys.stdout)


def amount(value: int) -> str:
    """A number in groups of three."""
    return f"{value:,}"


def widths_of(rows: Sequence[Cells]) -> list[int]:
    """How wide each column is."""
    return [max(map(len, column)) for column in zip(*rows)]


def table(rows: Sequence[Cells]) -> Iterator[str]:
    """Rows of cells as lines: the first column to the left, the others to the right."""
    widths = widths_of(rows)
    for row in rows:
        cells = [f"{row[0]:<{widths[0]}}", *(f"{cell:>{size}}" for cell, size in zip(row[1:], widths[1:]))]
        yield GAP.join(cells).rstrip()


def parts(widths: Sequence[int], most: int) -> Iterator[slice]:
    """The columns after the first in parts that fit next to it, at least one each."""
    start, taken = 1, widths[0]
    for at, size in enumerate(widths[1:], 1):
        if at > start and taken + len(GAP) + size > most:
            yield slice(start, at)
            start, taken = at, widths[0]
        taken += len(GAP) + size
    yield slice(start, len(widths))


def table_within(rows: Sequence[Cells], most: int) -> Iterator[str]:
    """A table. If it is too wide its columns come in parts below one another, each with the first column."""
    for place, part in enumerate(parts(widths_of(rows), most)):
        if place:
            yield ""
        yield from table([[row[0], *row[part]] for row in rows])


def by_category(categories: Sequence[CategoryState]) -> list[Cells]:
    """The categories as columns."""
    rows = [
        ["", *(it.name for it in categories)],
        ["price", *(amount(it.price) for it in categories)],
        ["asked, of supply", *(f"{it.demand} of {it.supply}" for it in categories)],
        ["excess", *(str(it.excess) for it in categories)],
    ]
    after = [it.after for it in categories if it.after is not None]
    return [*rows, ["price after a close", *map(amount, after)]] if after else rows


def category_table(categories: Sequence[CategoryState]) -> Iterator[str]:
    """The categories as columns if the screen is wide enough, and else as rows."""
    rows = by_category(categories)
    is_wide = max(map(len, table(rows))) > columns()
    yield from table_within([list(column) for column in zip(*rows)] if is_wide else rows, columns())


def asks(bidder: ClockState) -> str:
    """What a bidder asks for in the open round: a package, nothing, no line yet, or out."""
    return counts(bidder.package) if bidder.activity == "asks" else bidder.activity


def clock_table(bidders: Sequence[ClockState], ends_clock: bool) -> Iterator[str]:
    """The bidders in the open round, with the room that each spectrum cap leaves, and the points that a close takes
    where it doesn't end the clock."""
    taken = [] if ends_clock else ["a close takes"]
    caps = [f"room in cap {room.number}" for room in bidders[0].rooms] if bidders else []
    rows = [["bidder", "asks for", "points", "may ask for", *taken, "cost", *caps]]
    for it in bidders:
        lost = [] if ends_clock else [str(it.lost) if it.lost else "-"]
        rooms = [f"{room.room} of {room.limit}" for room in it.rooms]
        rows.append([it.name, asks(it), str(it.points), str(it.eligibility), *lost, amount(it.cost), *rooms])
    yield from table_within(rows, columns())


def list_words(bidder: ListState) -> str:
    """Whether a submission of the drafts would change anything, and whether it would be refused."""
    if bidder.is_refused:
        return f"a submission is refused: {bidder.answer.text()}"
    if bidder.differences:
        return f"{bidder.differences} not submitted"
    return "as submitted" if bidder.submitted else "no list"


def list_table(bidders: Sequence[ListState]) -> Iterator[str]:
    """The bidders while lists are taken, and each entry above its cap."""
    rows = [["bidder", "drafts", "submitted", "state"]]
    rows += [[it.name, str(it.drafts), str(it.submitted), list_words(it)] for it in bidders]
    yield from table_within(rows, columns())
    for bidder in bidders:
        for it in bidder.above:
            yield (
                f"! {bidder.name}: entry {it.entry}, {counts(it.package)} for {amount(it.amount)}, is above its cap"
                f" {amount(it.cap)} by {amount(it.by)}"
            )


def last_line(auction: Auction) -> Iterator[str]:
    """The reply to the last line."""
    if auction.lines:
        yield f"last line {auction.lines[-1].number}: {auction.replies[-1].text()}"
    else:
        yield "no line yet"


def closed_words(auction: Auction) -> Iterator[str]:
    """The lines about a closed auction, most of all about a tie."""
    bids = [len(auction.bids(j)) for j in range(1, len(auction.award.bidders) + 1)]
    yield f"The book has {sum(bids)} bids of {sum(map(bool, bids))} bidders."
    book = auction.book()
    progress.step("looking for ties")
    ties = ties_of(book)
    yield from (f"! {sentence}" for sentence in tie_sentences(book, ties))
    if (winners := sum(map(bool, ties.winners))) > MOST["winners"]:
        yield f"{winners} bidders win. `cca award` prices at most {MOST['winners']}: use `tools/price AWARD LOG CERT`."


def names_lines(auction: Auction, names: LongNames) -> Iterator[str]:
    """What the short names of the tables stand for."""
    lots = []
    for category in auction.award.categories:
        mhz = [f"{names.mhz[category.name]:g} MHz a lot"] if category.name in names.mhz else []
        named = [names.categories[category.name]] if category.name in names.categories else []
        if named or mhz:
            lots.append(f"{category.name}: {', '.join([*named, *mhz])}")
    if names.amounts():
        yield f"Amounts are in {names.amounts()}."
    if lots:
        yield "; ".join(lots)
    bidders = [name for name in auction.award.names if name in names.bidders]
    width = max(map(len, bidders), default=0) + 1
    yield from (f"{f'{name}:':<{width}} {names.bidders[name]}" for name in bidders)


def head(auction: Auction) -> str:
    """The stage, in a sentence or two."""
    if auction.stage == "clock":
        return f"Round {auction.running_round.number} is open."
    return f"The clock ended after round {auction.final}. " + (
        "Lists are taken." if auction.stage == "sealed" else "The auction is closed."
    )


def stage_tables(auction: Auction, ends_clock: bool) -> Iterator[str]:
    """What the stage shows of categories and bidders."""
    if auction.stage == "clock":
        yield from category_table(category_states(auction))
        yield ""
        yield from clock_table(clock_states(auction), ends_clock)
    elif auction.stage == "sealed":
        yield from list_table(list_states(auction))
    else:
        yield from closed_words(auction)


def state_lines(auction: Auction, names: LongNames) -> Iterator[str]:
    """The screen."""
    effect = close_effect(auction)
    yield f"= {names.title + ': ' if names.title else ''}{head(auction)}"
    yield from last_line(auction)
    yield ""
    yield from stage_tables(auction, effect.reply.word == "sealed")
    yield ""
    yield ("! " if effect.is_fatal else "") + effect.sentence
    yield from ("! " + warning for warning in effect.warnings)
    if auction.limit_stop:
        yield f"! {auction.limit_stop.line}: {auction.limit_stop.why}. No later line mends this log."
    told = list(names_lines(auction, names))
    yield from ["", *told] if told else []


def state(options: argparse.Namespace) -> str:
    """The state of an auction."""
    award = read_award(load(options.award, "award"))
    names = read_names(options.names, award)
    return "\n".join(state_lines(replay(award, read_log(load(options.log, "log"), award)), names))


def main(argv: Sequence[str]) -> int:
    """Runs the command with these arguments, and returns its status."""
    return run_command(parser(), state, argv)
