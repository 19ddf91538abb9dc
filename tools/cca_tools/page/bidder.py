"""The report for one bidder: its own lines, the closes and the posted prices, and after the award each winner with its
price.

Nothing here is taken from another bidder's line, except for winners once the award is over.
"""

from __future__ import annotations

import dataclasses
from collections.abc import Callable, Iterator, Sequence

from cca_tools.page import basis, charts, findings, lines, prices, rounds, sale, winners
from cca_tools.page.document import (
    Block,
    Card,
    Cards,
    Cell,
    Content,
    Fold,
    Heading,
    Key,
    Picture,
    Points,
    Section,
    Table,
    Tone,
    Words,
    columns,
)
from cca_tools.page.source import Source, given
from cca_tools.page.words import count, number, per_cent, price, price_cell, was
from cca_tools.rules.auction import Auction, Reply
from cca_tools.rules.award import Award
from cca_tools.rules.clock import Round
from cca_tools.rules.log import Line
from cca_tools.rules.money import difference
from cca_tools.rules.types import Amount, Bid, BidderNumber

SHOWN = [
    "your own lines with their replies, numbered as yours",
    "the closes, and the prices that they posted",
    "after the award each winner with its package and its price, and the sums of the three files",
]
HIDDEN = [
    "lines, lists and bids of others, and how many there are",
    "how many lots others asked for, and their points",
    "before the award: who else bids",
]


@dataclasses.dataclass
class View:
    """What a bidder sees of an auction: its own lines and the admitted closes with their replies, numbered as they
    come."""

    source: Source
    j: BidderNumber

    @property
    def award(self) -> Award:
        """The terms of the auction."""
        return given(self.source.award)

    @property
    def auction(self) -> Auction:
        """The auction as far as there are lines."""
        return given(self.source.auction)

    @property
    def name(self) -> str:
        """What the bidder is called."""
        return self.source.names.bidder(self.j)

    @property
    def is_over(self) -> bool:
        """Whether there is an award to show. A certificate that was computed for this report is none."""
        return self.source.has_prices and self.source.is_given

    def seen(self) -> Iterator[tuple[Line, Reply]]:
        """The lines that the bidder sees, with their replies."""
        auction, number_ = self.auction, 0
        for line, reply in zip(auction.lines, auction.replies):
            if reply.is_ok if line.kind == "close" else line.bidder == self.j:
                number_ += 1
                yield dataclasses.replace(line, number=number_, row=number_), reply


def posted_table(view: View, shown: Sequence[Round], c: int) -> Table:
    """The posted price of a category, and what the bidder asked for, by rounds."""
    heads = columns("Round", f"Price{view.source.unit} #", "You asked for #")
    rows = [[number(it.number), number(it.prices[c]), number(it.packages[view.j - 1][c])] for it in shown]
    return Table(f"{view.source.names.categories[c]} by round", heads, rows)


def posted(view: View, shown: Sequence[Round]) -> Iterator[Card]:
    """A card for each category, with its posted prices."""
    scale = rounds.price_scale(view.award, shown)
    for c, category in enumerate(view.award.categories):
        name = view.source.names.categories[c]
        title, about = f"{name}: posted prices", rounds.price_about(name, shown, c)
        draw = drawing(c, title, about, [it.prices[c] for it in shown], scale)
        picture = Picture(
            title, about, draw, posted_table(view, shown, c), findings.of_posted(shown, c, view.source.units)
        )
        yield Card(
            name,
            [picture if len(shown) > 1 else picture.table],
            f"{count(category.supply, 'lot')}, reserve {number(category.reserve)}{view.source.units}",
        )


def drawing(c: int, title: str, about: str, prices: list[Amount], scale: float | None) -> Callable[[], str]:
    """How the picture of a category is drawn."""
    return lambda: charts.posted(f"rounds{c + 1}", title, about, prices, scale)


def round_section(view: View) -> Section:
    """The rounds, as the bidder sees them."""
    award, auction = view.award, view.auction
    shown = rounds.shown_rounds(auction)
    running = f"The clock runs: round {shown[-1].number} is open."
    ended = f"The clock ended with round {auction.final}."
    own = rounds.activity(view.source, shown, [view.j], auction.open_round is not None)
    blocks: list[Block] = [
        Words(running if auction.stage == "clock" else ended),
        *([Key([("blue", "line", "posted price of a lot")])] if len(shown) > 1 else []),
        Cards(list(posted(view, shown)), size=rounds.size(award)),
        Heading("Your package and eligibility"),
        *([rounds.ACTIVITY_KEY] if len(shown) > 1 else []),
    ]
    return Section("rounds", "The rounds", [*blocks, Cards([own], size="full")])


def line_section(view: View) -> Section:
    """The bidder's lines and the closes."""
    seen = list(view.seen())
    if not seen:
        return Section("lines", "Your lines", [Words("You have sent no line yet, and no round was closed.")])
    own = [(line, reply) for line, reply in seen if line.kind != "close"]
    refused = sum(not reply.is_ok for _, reply in own)
    told = f"You sent {count(len(own), 'line')}; {was(refused, 'them')}. A line that is refused changes nothing."
    cards = lines.cards(view.source, [line for line, _ in seen], [reply for _, reply in seen])
    shown = Fold(
        f"The {count(len(seen), 'line')} (to print them too, open them first)", [Cards(list(cards), size="wide")]
    )
    return Section("lines", "Your lines", [Words(told), shown])


def draft_table(view: View, title: str, pairs: Sequence[Bid]) -> Table:
    """A list of the bidder's."""
    heads = columns("No.", "Package", f"Amount{view.source.unit} #")
    rows: list[list[Content]] = [
        [number(entry), view.source.names.cell(package), number(amount)]
        for entry, (package, amount) in enumerate(pairs, 1)
    ]
    return Table(title, heads, rows)


def bids_table(view: View) -> Table:
    """The bidder's bids of the book."""
    source, auction = view.source, view.auction
    won = given(source.certificate).choice[view.j - 1] if view.is_over else 0
    whence = winners.origins(auction, view.j)
    rows: list[list[Content]] = []
    for place, (package, amount) in enumerate(auction.bids(view.j), 1):
        tone: Tone = "good" if place == won else ""
        key = Cell(f"{place}, won" if tone else f"{place}", tone=tone)
        rows.append([key, source.names.cell(package, tone), Cell(number(amount), tone=tone), whence[package]])
    return Table("Your bids", columns("No.", "Package", f"Amount{view.source.unit} #", "From"), rows)


def bid_section(view: View) -> Section:
    """The bidder's bids, or its lists while they can be changed."""
    auction = view.auction
    if auction.stage == "closed":
        told = "Each package that you asked for in the clock or submitted, with its greatest amount. At most one wins."
        found, none = [bids_table(view)], "You have no bid."
    else:
        told = "Your lists may be changed until the sealed round is closed."
        found = [
            draft_table(view, "Your drafts", auction.drafts(view.j)),
            draft_table(view, "Your list as submitted last", auction.submitted(view.j)),
        ]
        none = "You have drafted and submitted nothing."
    cards = [Card("", [table]) for table in found if table.rows]
    blocks: list[Block] = [Words(told), Cards(cards, size="wide")] if cards else [Words(none)]
    return Section("book", "Your bids" if auction.stage == "closed" else "Your lists", blocks)


def winner_table(view: View) -> Table:
    """Each winner with its package and its price."""
    source = view.source
    rows: list[list[Content]] = [
        [
            Cell(source.names.bidder(j), tone="good" if j == view.j else ""),
            source.names.cell(source.won(j)[0]),
            price_cell(source.pays(j)),
        ]
        for j in source.winners
    ]
    return Table(f"Winners and prices{source.unit}, reserves included", columns("Winner", "Won", "Pays #"), rows)


def own_words(view: View) -> Iterator[str]:
    """What the bidder pays and why, without a word of others' bids."""
    source, j = view.source, view.j
    if j not in source.winners:
        yield "You win nothing and pay nothing."
        return
    package, bid = source.won(j)
    pays, vickrey = source.pays(j), source.vickrey(j)
    won = f"You win {source.names.package(package)} with your bid of {number(bid)}{source.units}"
    yield f"{won}, and pay {price(pays)}{source.units}, {per_cent(pays, bid)} of it."
    if pays == vickrey:
        yield "That is your Vickrey price: what the others would offer more for the same lots if you hadn't bid."
        return
    own = f"Your Vickrey price, what the others would offer more if you hadn't bid, is {number(vickrey)}{source.units}."
    yield f"{own} You pay {price(difference(pays, vickrey))}{source.units} more."
    for share in source.reasons.shares(j):
        if share.coalition and share.amount > 0:
            offer = source.reasons.coalitions[share.coalition - 1]
            members = prices.names_of(source, offer.members)
            yield (
                f"Others offered {number(offer.gross)}{source.units} for what {members} win, so these"
                " pay that together. Of the payments of least sum the nearest to the Vickrey prices are taken."
            )


def result_section(view: View) -> Section:
    """The award, once it is published."""
    source, blocks = view.source, list[Block]()
    if view.is_over:
        blocks = (
            [Points(list(own_words(view))), Cards([Card("", [winner_table(view)])], size="wide")]
            if source.winners
            else [Words("Nobody wins.")]
        )
    elif source.fault and source.is_given:
        blocks = [Words("The certificate fails a test, so no winners and no prices are shown.", "bad")]
    elif view.auction.stage == "closed":
        blocks = [Words("The auction is closed. Winners and prices aren't published yet.")]
    else:
        blocks = [Words("The auction isn't over.")]
    return Section("winners", "The award", blocks)


def published(view: View) -> Section:
    """What is shown to this bidder, and what isn't."""
    blocks: list[Block] = [Heading("What is shown here"), Points(SHOWN), Heading("What isn't"), Points(HIDDEN)]
    if view.is_over:
        return basis.section(view.source, more=blocks)
    return Section("basis", "What is published", blocks)


def sections(source: Source, j: BidderNumber) -> list[Section]:
    """The sections of the report for bidder j."""
    view = View(source, j)
    award = view.award.bidders[j - 1]
    own = Words(
        f"You have {number(award.eligibility)} points in round 1, and hold"
        f" {source.names.package(award.holding)} already."
    )
    sold = sale.section(source, for_all=False, more=[own])
    return [result_section(view), sold, round_section(view), line_section(view), bid_section(view), published(view)]
