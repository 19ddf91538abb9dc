"""Why these prices: a sentence for winners of one reason, the turns of pricing, the coalitions that raise prices, and
each winner's Vickrey price."""

from __future__ import annotations

from collections.abc import Iterable, Iterator, Mapping

from cca_tools.page import core, findings
from cca_tools.page.document import (
    Block,
    Card,
    Cards,
    Cell,
    Content,
    Fold,
    Heading,
    Key,
    Picture,
    Points,
    Section,
    Table,
    Words,
    columns,
)
from cca_tools.page.source import Source, Turn, given
from cca_tools.page.words import listed, minus, number, price, price_cell
from cca_tools.rules.money import difference, gross_of, gross_price_of, price_total, total
from cca_tools.rules.types import Amount, Bid, BidderNumber, Gross
from cca_tools.rules.why import LEGEND, Offer, offer_of, vickrey_offer

ASKED_FIRST = "Each winner is asked for its Vickrey price"
ASKED_LATER = (
    "Asked is the least sum that meets all demands so far, and of such payments the nearest to the Vickrey prices"
)


def names_of(source: Source, members: Iterable[BidderNumber]) -> str:
    """What some bidders are called."""
    return listed(source.names.bidder(j) for j in members)


def bid_words(source: Source, bid: Bid | None) -> str:
    """A bid in words."""
    return f"{source.names.package(bid[0])} for {number(bid[1])}" if bid else "nothing"


def signed(value: Amount) -> str:
    """An amount with its sign."""
    return minus(f"{value:+,}") if value else "0"


def offer_table(source: Source, offer: Offer, title: str, last: str) -> Table:
    """What the others would bring more without some winners, bidder by bidder."""
    heads = columns("Bidder", "Would win", "In place of", f"Brings more{source.unit} #")
    rows: list[list[Content]] = [
        [source.names.bidder(it.j), bid_words(source, it.then), bid_words(source, it.now), signed(it.more)]
        for it in offer.changes
    ]
    if offer.unsold != offer.unsold_then:
        then, now = (f"keeps {source.names.package(lots)}" for lots in (offer.unsold_then, offer.unsold))
        rows.append(["the seller", then, now, signed(offer.kept)])
    if offer.same:
        rows.append([names_of(source, offer.same), "the same as now", "", "0"])
    rows.append([last, "", "", Cell(number(offer.gross), tone="strong")])
    return Table(title, heads, rows)


def winner_card(source: Source, j: BidderNumber) -> Card:
    """What would win without a winner."""
    name = source.names.bidder(j)
    package, bid = source.won(j)
    table = offer_table(source, vickrey_offer(given(source.certificate), j), f"Without {name}", "its Vickrey price")
    return Card(
        name,
        [table],
        f"wins {source.names.package(package)} with {number(bid)} and pays {price(source.pays(j))}{source.units}",
    )


def turn_words(source: Source, turn: Turn) -> Iterator[str]:
    """A turn of pricing in sentences."""
    gross = {j: gross_price_of(net, source.reserve(j)) for j, net in zip(source.winners, turn.point)}
    each = listed(f"{source.names.bidder(j)} {price(amount)}" for j, amount in gross.items())
    yield f"{ASKED_FIRST if turn.number == 1 else ASKED_LATER}: {each}; together {price(sum(gross.values()))}."
    yield block_words(source, turn) if turn.row else "No coalition blocks these prices, so pricing ends here."


def block_words(source: Source, turn: Turn) -> str:
    """Who offers more for what some winners win, and what these have to pay from then on."""
    offer = offer_of(given(source.certificate), turn.row, turn.choice)
    members, is_one = names_of(source, turn.row), len(turn.row) == 1
    offers = "offers" if len(offer.names) + (offer.kept > 0) < 2 else "offer"
    return (
        f"{source.told(source.reasons.offering(offer))} {offers} {number(offer.gross)} for what"
        f" {members} {'wins' if is_one else 'win'}, and that is {price(turn.excess)} more than is paid for it. So from"
        f" the next turn on {members} {'has' if is_one else 'have'} to pay"
        f" {number(offer.gross)}{'' if is_one else ' together'}."
    )


def turns(source: Source) -> list[Block]:
    """The turns of pricing, as the program has them."""
    if not source.turns:
        return []
    cards = [Card(f"Turn {turn.number}", [Words(text) for text in turn_words(source, turn)]) for turn in source.turns]
    return [Fold("The turns of pricing, one by one", [Cards(cards, size="wide")])]


def coalition_card(source: Source, place: int, offer: Offer) -> Card:
    """A coalition, and how what it asks for is shared."""
    table = offer_table(source, offer, f"What is offered for what {names_of(source, offer.members)} win", "offered")
    vickrey = " + ".join(number(source.vickrey(j)) for j in offer.members)
    sums = f"Their Vickrey prices come to {vickrey} = {number(total(map(source.vickrey, offer.members)))}."
    shared = source.told(source.reasons.sharing(place))
    return Card(f"Coalition {place}", [table, Words(f"{sums} {shared}")])


def coalitions(source: Source) -> list[Block]:
    """The coalitions that raise prices."""
    offers = source.reasons.coalitions
    if not offers:
        return [Words("No coalition asks for more than the Vickrey prices, so each winner pays its own.")]
    cards = [coalition_card(source, place, offer) for place, offer in enumerate(offers, 1)]
    return [Heading("The coalitions that raise prices"), Cards(cards, size="wide")]


def core_table(source: Source, gross: Mapping[core.Group, Gross]) -> Table:
    """What each group of winners has to pay, and pays."""
    heads = columns("Winners", "Have to pay at least #", "Pay #", "More than that #")
    rows: list[list[Content]] = []
    for members, least in gross.items():
        paid = price_total(map(source.pays, members))
        rows.append(
            [
                names_of(source, members),
                number(least),
                price_cell(paid),
                price_cell(difference(paid, least), "" if paid > least else "strong"),
            ]
        )
    return Table(f"What each group of winners has to pay{source.unit}", heads, rows)


def core_picture(source: Source) -> Picture:
    """What the winners could pay that nobody blocks."""
    winners = source.winners
    demands = core.bounds(given(source.book), given(source.certificate).choice, winners)
    names = [source.names.bidder(j) for j in winners]
    low, pays = [source.vickrey(j) for j in winners], [source.pays(j) for j in winners]
    bid = [source.won(j)[1] for j in winners]
    gross = {members: gross_of(least, sum(map(source.reserve, members))) for members, least in demands.items()}
    title = f"What {listed(names)} could pay that nobody blocks"
    paid = f"paid are {listed(map(price, pays))}, of bids of {listed(map(number, bid))}"
    about = f"Vickrey prices {listed(map(number, low))}; {paid}."

    def draw() -> str:
        if len(winners) == 2:
            return core.two("core", title, about, names, low, bid, gross[tuple(winners)], pays)
        first, second, third = winners
        pairs = [gross[first, second], gross[first, third], gross[second, third]]
        return core.three("core", title, about, names, low, bid, pairs, pays)

    return Picture(title, about, draw, core_table(source, gross), findings.of_core(source))


def core_blocks(source: Source) -> list[Block]:
    """The core of two or three winners. Three that pay their Vickrey prices have no sum to share, so no picture."""
    least = price(price_total(map(source.pays, source.winners)))
    if len(source.winners) == 3 and all(source.pays(j) == source.vickrey(j) for j in source.winners):
        blocks: list[Block] = [core_picture(source).table]
        return [Heading("The core"), Words(f"{findings.of_core(source)}."), Cards([Card("", blocks)], size="wide")]
    if len(source.winners) == 2:
        key = [
            ("greenish", "pale", "nobody blocks: the core"),
            ("reddish", "pale", "somebody blocks"),
            ("red", "line", f"the least sum that nobody blocks, {least}"),
            ("orange", "triangle", "Vickrey prices"),
            ("blue", "dot", "what is paid"),
        ]
        told = "Paid is, of the prices of least sum that nobody blocks, the nearest to the Vickrey prices."
        reading = (
            "Each place of the picture is a price for each of the two winners. The numbers of an axis are the winner's"
            " Vickrey price, what it pays, and its bid if that is in the picture."
        )
    else:
        key = [
            ("greenish", "pale", "nobody blocks"),
            ("reddish", "pale", "somebody blocks"),
            ("orange", "triangle", "the Vickrey prices, each raised by the same amount"),
            ("blue", "dot", "what is paid"),
        ]
        told = f"The least sum that nobody blocks is {least}."
        reading = (
            "A place of the picture is how three winners could share it. At a corner one of them pays all that is above"
            " the Vickrey prices. Paid is the green place nearest to the triangle."
        )
    return [Heading("The core"), Words(told), Key(key, reading), Cards([Card("", [core_picture(source)])], size="wide")]


def section(source: Source) -> Section | None:
    """Why these prices, if there are any."""
    if not source.has_prices or not source.winners:
        return None
    blocks: list[Block] = [
        Points([source.told(sentence) for sentence in source.reasons.sentences()]),
        Words(f"{LEGEND} All amounts here include reserves{source.in_unit}."),
        *turns(source),
        *coalitions(source),
    ]
    if len(source.winners) in (2, 3) and core.is_known(given(source.book)):
        blocks += core_blocks(source)
    told = "Each table is the outcome without one winner. Lots that stay unsold count at their reserve."
    blocks += [
        Heading("Vickrey prices"),
        Words(told),
        Cards([winner_card(source, j) for j in source.winners], size="wide"),
    ]
    return Section("why", "Why these prices", blocks, findings.of_prices(source))
