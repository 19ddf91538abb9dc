"""What each bidder could win with, what it won, and what it pays."""

from __future__ import annotations

import os
import re
from collections.abc import Iterator, Sequence
from fractions import Fraction
from operator import mul

from cca_tools.page import charts, findings, places
from cca_tools.page.charts import Band, Paid
from cca_tools.page.ink import WINNERS
from cca_tools.page.document import (
    Block,
    Card,
    Cards,
    Cell,
    Column,
    Content,
    Fold,
    Heading,
    Key,
    Picture,
    Points,
    Section,
    Table,
    Tone,
    Words,
    columns,
)
from cca_tools.page.source import Source, given
from cca_tools.page.words import count, listed, number, per_cent, price, price_cell, result_cell
from cca_tools.rules.auction import Auction
from cca_tools.rules.money import net_of, net_price_of, price_total, total
from cca_tools.rules.stops import LIMIT
from cca_tools.rules.ties import DECIDES, differences, how_many, ties_of
from cca_tools.rules.types import Amount, BidderNumber, Net, NetPrice, Package

MOST_SHOWN = 60  # bids that the book shows at once
MOST_TIES = 5  # the most other choices of the same net value that are shown one by one


def unsold(source: Source) -> Package:
    """The lots that nobody wins."""
    return given(source.book).left(given(source.certificate).choice)


def unsold_reserve(source: Source) -> Amount:
    """The reserves of the lots that nobody wins."""
    return given(source.book).reserve(unsold(source))


def result_table(source: Source) -> Table:
    """Who won what and pays what: the result, in as few columns as there may be."""
    widths = source.widths
    where = ["Where in the band"] if source.places else []
    heads = columns("Winner", "Won", *where, *(["MHz #"] if widths else []), f"Pays{source.unit} #")
    rows = list[list[Content]]()
    for j in source.winners:
        package = source.won(j)[0]
        wide = [price(sum(map(mul, widths, package), Fraction(0)))] if widths else []
        placed = ["; ".join(places.of_winner(source, j))] if where else []
        own = [source.names.bidder(j), source.names.package(package)]
        rows.append([*own, *placed, *wide, result_cell(source.pays(j))])
    return Table("", heads, rows, is_result=True)


def winner_rows(source: Source) -> Iterator[list[Content]]:
    """A row for each winner."""
    for j in source.winners:
        package, bid = source.won(j)
        pays, clock = source.pays(j), source.clock_price(j)
        yield [
            source.names.bidder(j),
            source.names.cell(package),
            *([] if clock is None else [number(clock)]),
            number(bid),
            number(source.vickrey(j)),
            price_cell(pays, "good"),
            per_cent(pays, bid),
        ]


def winners_table(source: Source) -> Table:
    """Who won what, and what it pays."""
    clock = ["Final clock price #"] if source.auction else []
    heads = columns("Winner", "Won", *clock, "Bid #", "Vickrey price #", "Pays #", "Of its bid #")
    return Table(f"Winners and prices{source.unit}, reserves included", heads, list(winner_rows(source)))


def net_row(name: str, reserve: Amount, bid: Net, vickrey: Net, pays: NetPrice) -> list[Content]:
    """The reserve of a winner's package, and the winner's bid and prices net of it."""
    return [name, number(reserve), number(bid), number(vickrey), price_cell(pays)]


def net_table(source: Source) -> Table:
    """The bids and prices net of reserve."""
    heads = columns("Winner", "Reserve #", "Bid, net #", "Vickrey price, net #", "Pays, net #")
    certificate, rows = given(source.certificate), list[list[Content]]()
    for j in source.winners:
        reserve, bid = source.reserve(j), source.won(j)[1]
        nets = net_of(bid, reserve), net_of(source.vickrey(j), reserve), net_price_of(source.pays(j), reserve)
        rows.append(net_row(source.names.bidder(j), reserve, *nets))
    vickrey, pays = total(map(certificate.vickrey, source.winners)), price_total(map(certificate.pays, source.winners))
    reserves = sum(map(source.reserve, source.winners))
    rows.append(net_row("together", reserves, certificate.value, vickrey, pays))
    return Table(f"The same net of reserve{source.unit}", heads, rows)


def paid_picture(source: Source) -> Picture:
    """What each winner bid and pays, as a picture."""
    names = [source.names.bidder(j) for j in source.winners]
    title = findings.of_payments(source)
    about = "; ".join(
        f"{source.names.bidder(j)} bid {number(source.won(j)[1])} and pays {price(source.pays(j))}"
        for j in source.winners
    )

    def draw() -> str:
        rows = [
            Paid(name, source.reserve(j), source.vickrey(j), source.pays(j), source.won(j)[1], source.clock_price(j))
            for name, j in zip(names, source.winners)
        ]
        return charts.paid("paid", title, about, rows, source.long.amounts() or "amount")

    return Picture(title, about, draw, winners_table(source))


def letters_of(names: Sequence[str]) -> list[str]:
    """A letter or two for each winner: the first one of its name where these differ, else what comes after the letters
    that all names begin with, else the first ones of its first two words, and else A, B, C .."""
    first = [name[:1].upper() for name in names]
    same = len(os.path.commonprefix(list(names)))
    after = [name[same : same + 2] for name in names]
    words = ["".join(word[0] for word in re.split(r"[\W_]+", name) if word)[:2].upper() for name in names]
    for found in first, after, words:
        if len(set(found)) == len(found) and all(it.isalnum() for it in found):
            return found
    return [chr(ord("A") + at) for at in range(len(names))]


def bands_of(source: Source) -> Iterator[Band]:
    """Of each category whose its lots are."""
    widths = source.widths
    for c, name in enumerate(source.names.categories):
        order = {j: place for place, j in enumerate(source.winners, 1)}
        if c in source.places:
            runs = source.places[c]
            parts = [(order.get(run.winner, 0), run.lots) for run in runs]
            yield Band(name, parts, widths[c] if widths else 1, [places.span(source, c, run) for run in runs])
            continue
        sold = [(place, source.won(j)[0][c]) for j, place in order.items()]
        parts = [part for part in [*sold, (0, unsold(source)[c])] if part[1]]
        yield Band(name, parts, widths[c] if widths else 1)


def bands_key(names: Sequence[str], letters: Sequence[str], has_unsold: bool, scale: str = "") -> Key:
    """What the colours, patterns and letters of the lots mean, and how wide a lot is."""
    shapes = [f"w{place % WINNERS + 1}" for place in range(len(names))]
    marks = [(shape, f"lot {shape}", f"{letter}: {name}") for shape, letter, name in zip(shapes, letters, names)]
    return Key(marks + [("soft", "hatched", "\N{EN DASH}: unsold")] * has_unsold, scale)


def bands_card(source: Source) -> Card:
    """Whose each lot is, as a strip for each category."""
    names = [source.names.bidder(j) for j in source.winners]
    letters, every = letters_of(names), list(bands_of(source))
    title = findings.of_lots(source)
    whose = ["unsold", *names]
    about = "; ".join(
        f"{band.name}: {listed(f'{whose[winner]} {lots:,}' for winner, lots in band.parts)}" for band in every
    )
    picture = Picture(
        title, about, lambda: charts.bands("lots", title, about, every, names, letters), lots_table(source)
    )
    scale = (
        "A cell is a lot, as wide as its MHz." if charts.has_widths(every) else "A cell is a lot; all are equally wide."
    )
    if source.places:
        placed = listed(source.names.categories[c] for c in sorted(source.places))
        scale += f" The lots of {placed} are in the order of the band."
    return Card("", [bands_key(names, letters, any(unsold(source)), scale), picture])


def places_blocks(source: Source) -> list[Block]:
    """The places of the lots in their bands, if they were found."""
    if not source.places:
        return []
    cards = [Card("", [table]) for table in places.tables(source)]
    return [Heading("Where in the band"), Words(places.WORDS), Cards(cards, size="mid")]


def lots_table(source: Source) -> Table:
    """Who won how many lots of each category, and what is left at its reserve if anything is."""
    left = unsold(source)
    more = ["Unsold #", f"At reserve{source.unit} #"] if any(left) else []
    heads = columns("Category", "Supply #", "Sold to", *more)
    rows = list[list[Content]]()
    for c, name in enumerate(source.names.categories):
        lots = [(source.names.bidder(j), source.won(j)[0][c]) for j in source.winners]
        sold = [f"{winner}\N{NO-BREAK SPACE}{many:,}" for winner, many in lots if many]
        kept = [number(left[c]), number(left[c] * given(source.book).reserves[c])] if more else []
        rows.append([name, number(given(source.book).supply[c]), ", ".join(sold) or "nobody", *kept])
    stay = f"Unsold lots stay with the seller, here at {number(unsold_reserve(source))}{source.units} in reserves."
    return Table("Where the lots went", heads, rows, note=stay if more else "")


def origins(auction: Auction, j: BidderNumber) -> dict[Package, str]:
    """For each package of a bidder where its greatest amount comes from; of equal ones the last, and a list comes after
    the rounds."""
    named = [(package, amount, f"round {number_}") for number_, package, amount in auction.clock_bids(j)]
    named += [(package, amount, "list") for package, amount in auction.submitted(j)]
    return {package: words for package, _, words in sorted(named, key=lambda it: it[1])}


def bids_table(source: Source, j: BidderNumber) -> Table:
    """The bids of a bidder."""
    heads = columns("No.", "Package", "Amount #", "Net #")
    whence = origins(source.auction, j) if source.auction else {}
    if whence:
        heads.append(Column("From"))
    won = given(source.certificate).choice[j - 1] if source.has_prices else 0
    book, rows = given(source.book), list[list[Content]]()
    for place, ((package, amount), net) in enumerate(zip(book.bids[j - 1], book.net[j - 1]), 1):
        tone: Tone = "good" if place == won else ""
        row: list[Content] = [
            Cell(f"{place}, won" if tone else f"{place}", tone=tone),
            source.names.cell(package, tone),
            Cell(number(amount), tone=tone),
            number(net),
        ]
        rows.append([*row, whence[package]] if whence else row)
    return Table(f"Bids of {source.names.bidder(j)}{source.unit}", heads, rows)


def won_words(source: Source, j: BidderNumber) -> str:
    """How many bids a bidder has, and which one wins."""
    bids = count(len(given(source.book).bids[j - 1]), "bid")
    if not source.has_prices:
        return bids
    number_ = given(source.certificate).choice[j - 1]
    return f"{bids}, wins with number {number_}" if number_ else f"{bids}, wins nothing"


def book_cards(source: Source) -> Iterator[Card]:
    """A card for each bidder that has bids."""
    for j, bids in enumerate(given(source.book).bids, 1):
        if bids:
            yield Card(source.names.bidder(j), [bids_table(source, j)], won_words(source, j))


def silent_words(source: Source) -> list[Block]:
    """Who has no bid, if anybody."""
    silent = [source.names.bidder(j) for j, bids in enumerate(given(source.book).bids, 1) if not bids]
    if len(silent) == given(source.book).bidders:
        return [Words("Nobody has a bid.")]
    return [Words(f"{listed(silent)} {'has' if len(silent) == 1 else 'have'} no bid.")] if silent else []


def paid_key(source: Source) -> Key:
    """What the marks of bids and prices mean."""
    marks = [
        ("bluish", "pale", "what it pays"),
        ("soft", "frame", "what it bid"),
        ("orange", "triangle", "its Vickrey price"),
        ("soft", "dotted", "the reserve of its package"),
    ]
    return Key(marks + [("green", "upright", "its package at the final clock prices")] * (source.auction is not None))


def tied(source: Source) -> list[Block]:
    """The other choices of the same net value, if there are any."""
    book_ = given(source.book)
    ties = ties_of(book_, MOST_TIES, given(source.certificate).table)
    if not ties:
        return []
    told = f"There is a tie: {how_many(ties)} the same net value. {DECIDES}"
    each = [f"{differences(book_, ties, other, source.names.package)}." for other in ties.others]
    return [Words(told, "strong"), Points(each)]


def result(source: Source) -> list[Block]:
    """The blocks that come first: who won what and what it pays."""
    if source.has_prices and source.winners:
        return [
            Cards([Card("", [result_table(source)])], size="wide"),
            Words(" ".join([source.amounts(), *places.paid_words(source)])),
            *tied(source),
            Cards([Card("", [paid_key(source), paid_picture(source)])], size="wide"),
            Cards([bands_card(source)], size="full"),
            *places_blocks(source),
            Cards([Card("", [net_table(source)])], size="wide"),
        ]
    if source.has_prices:
        kept = f"{number(unsold_reserve(source))}{source.units}"
        return [Words(f"There is no bid, so the seller gets nothing. The reserves of the lots come to {kept}.")]
    return [Words(missing(source), "bad" if source.fault else "")]


def missing(source: Source) -> str:
    """The reason for showing no winners and no prices."""
    if source.fault:
        why = findings.capital(source.fault.text())
        return f"The certificate fails a test, so it shows no winners and no prices. {why}."
    if source.stop and source.stop.status == LIMIT:
        return f"The auction was stopped by a limit: `{source.stop.line}`. It has no book, no winners and no prices."
    if source.book is None:
        stage = "the clock runs" if given(source.auction).stage == "clock" else "lists are taken"
        return f"The auction isn't over: {stage}. So there are no winners and no prices yet."
    return "No certificate was given, so no winners and no prices are shown."


def book(source: Source) -> Section | None:
    """The book of bids, if there is one."""
    if source.book is None:
        return None
    told = (
        "What counts as bid: of each bidder each package that it asked for in the clock or submitted, with its greatest"
        " amount. At most one bid of each bidder wins."
        if source.auction
        else "At most one bid of each bidder wins."
    )
    many = sum(map(len, source.book.bids))
    cards: Block = Cards(list(book_cards(source)), size="mid")
    if many > MOST_SHOWN:
        cards = Fold(f"The {count(many, 'bid')} (to print them too, open them first)", [cards])
    return Section("book", "The book of bids", [Words(told), *([cards] if many else []), *silent_words(source)])
