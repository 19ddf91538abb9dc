"""Why the winners of a certificate that passes pay what they pay, in sentences.

A winner's Vickrey price is what the others would bring more without it. A coalition asks the members of a row for what
the bidders of its choice would bring more without them. What is paid above the Vickrey prices follows from the second
multipliers of the rows.
"""

from __future__ import annotations

import itertools
from collections import Counter
from collections.abc import Iterable, Iterator, Sequence
from dataclasses import dataclass
from fractions import Fraction

from cca_tools.rules.book import Book
from cca_tools.rules.certificate import BookCertificate
from cca_tools.rules.money import difference, gross_of, gross_price_of, less, net_of, net_price_of, total
from cca_tools.rules.printing import fraction
from cca_tools.rules.ties import tie_sentences, ties_of
from cca_tools.rules.types import Amount, Bid, BidderNumber, Choice, Gross, GrossPrice, Net, NetPrice, Package


@dataclass
class Change:
    """What bidder j wins with now and would win with then, each a bid or None, and how much more that brings."""

    j: BidderNumber
    now: Bid | None
    then: Bid | None
    more: Amount


@dataclass
class Offer:
    """What some winners have to pay together, since without them the others would bring as much more."""

    members: Sequence[BidderNumber]
    changes: list[Change]  # of each bidder that would win with another bid
    same: list[BidderNumber]  # the winners that would win with the bid that they win with
    unsold: Package  # what stays unsold now
    unsold_then: Package
    kept: Amount  # how much more the lots that stay unsold then are worth at their reserves
    gross: Gross
    net: Net

    @property
    def names(self) -> list[BidderNumber]:
        """The bidders that would win with another bid."""
        return [change.j for change in self.changes if change.then]


@dataclass
class Share:
    """What a winner pays more, or less, because of one row, and the number of its coalition, or 0 if only the winner is
    in the row."""

    amount: Fraction
    coalition: int


def offer_of(certificate: BookCertificate, members: Sequence[BidderNumber], choice: Choice) -> Offer:
    """What these winners have to pay together, since without them the others would win by this choice."""
    book, now = certificate.book, certificate.choice
    others = [j for j in range(1, book.bidders + 1) if j not in members]
    changes = [change_of(book, now, choice, j) for j in others if now[j - 1] != choice[j - 1]]
    changes.sort(key=lambda change: change.more < 0)
    same = [j for j in others if now[j - 1] and now[j - 1] == choice[j - 1]]
    unsold, then = book.left(now), book.left(choice)
    kept = book.reserve(then) - book.reserve(unsold)
    others_win = total(certificate.won(j) for j in certificate.winners if j not in members)
    net = less(book.value(choice), others_win)
    gross = sum(change.more for change in changes) + kept
    return Offer(members, changes, same, unsold, then, kept, Gross(gross), net)


def change_of(book: Book, now: Choice, choice: Choice, j: BidderNumber) -> Change:
    """What would change for bidder j."""
    old, new = book.won(now, j), book.won(choice, j)
    return Change(j, old, new, (new[1] if new else 0) - (old[1] if old else 0))


def vickrey_offer(certificate: BookCertificate, j: BidderNumber) -> Offer:
    """What would win without a winner: its gross sum is the Vickrey price."""
    return offer_of(certificate, [j], certificate.without[j][0])


class Reasons:
    """What `tools/why` says about a certificate, winner by winner and coalition by coalition."""

    def __init__(self, certificate: BookCertificate, weights: Sequence[int] | None = None) -> None:
        self.certificate, self.book = certificate, certificate.book
        self.weights = weights or [1] * self.book.bidders
        self.rows = [row for row in certificate.rows if len(row.members) > 1]
        self.coalitions = [offer_of(certificate, row.members, row.choice) for row in self.rows]

    def reserve(self, j: BidderNumber) -> Amount:
        """The reserve of what a winner wins."""
        return self.book.reserve(self.book.winning(self.certificate.choice, j)[0])

    def vickrey(self, j: BidderNumber) -> Gross:
        """The Vickrey price of a winner, gross."""
        return gross_of(self.certificate.vickrey(j), self.reserve(j))

    def pays(self, j: BidderNumber) -> GrossPrice:
        """What a winner pays, gross."""
        return gross_price_of(self.certificate.pays(j), self.reserve(j))

    def shares(self, j: BidderNumber) -> list[Share]:
        """What a winner pays above its Vickrey price, row by row."""
        rows = [row for row in self.certificate.rows if j in row.members and row.second]
        share = Fraction(self.weights[j - 1], self.certificate.den)
        return [Share(share * row.second, self.rows.index(row) + 1 if row in self.rows else 0) for row in rows]

    def excess(self, offer: Offer) -> Amount:
        """How much more a coalition offers than the Vickrey prices of what it asks for."""
        return less(offer.gross, total(map(self.vickrey, offer.members)))

    # Words.

    def name(self, j: BidderNumber) -> str:
        return self.book.names[j - 1]

    def names(self, numbers: Iterable[BidderNumber]) -> str:
        return listed([self.name(j) for j in numbers])

    def offering(self, offer: Offer) -> str:
        """Whose offer it is. The seller counts at their reserve the lots that more of would stay unsold."""
        seller = ["the seller with its reserve"] if offer.kept > 0 else []
        return listed([self.name(j) for j in offer.names] + seller) or "nobody"

    def asking(self, j: BidderNumber) -> list[int]:
        """The numbers of the coalitions that raise prices and ask a winner for more."""
        return [share.coalition for share in self.shares(j) if share.coalition and share.amount > 0]

    def above(self, j: BidderNumber) -> Fraction:
        """How much more than its Vickrey price a winner pays."""
        return difference(self.pays(j), self.vickrey(j))

    def group_of(self, j: BidderNumber) -> int:
        """What the winners of one reason have in common: 0 if they pay their Vickrey prices and no coalition asks them
        for more, the number of the one coalition that raises their prices, and else a number of each winner's own."""
        asking = self.asking(j)
        if not asking and not self.above(j):
            return 0
        return asking[0] if len(asking) == len(self.shares(j)) == 1 else -j

    def sentences(self) -> Iterator[str]:
        """Why the winners pay what they pay, in a sentence for all winners with the same reason. Only the first
        sentence says what a coalition asks for; a later sentence has the coalition's number."""
        groups = dict[int, list[BidderNumber]]()
        for j in self.certificate.winners:
            groups.setdefault(self.group_of(j), []).append(j)
        asking = [self.asking(members[0]) for members in groups.values()]
        often, told = Counter(itertools.chain.from_iterable(asking)), set[int]()
        for members, numbers in zip(groups.values(), asking):
            new = [self.asked(number, is_numbered=often[number] > 1) for number in numbers if number not in told]
            reason = listed([*new, *asked_before([number for number in numbers if number in told])], "; and since ")
            yield self.sentence(members, reason)
            told.update(numbers)

    def sentence(self, members: Sequence[BidderNumber], reason: str) -> str:
        """Why winners pay what they pay; the reason is what coalitions ask them for, empty if none do."""
        names, pays = [self.name(j) for j in members], [fraction(self.pays(j)) for j in members]
        is_one, above = len(members) == 1, [fraction(self.above(j)) for j in members]
        prices = "its Vickrey price" if is_one else "their Vickrey prices"
        if not reason:
            each = [f"{name} ({paid})" for name, paid in zip(names, pays)]
            start = f"{names[0]} pays {pays[0]}: {prices}" if is_one else f"{listed(each)} pay {prices}"
            cost, paying = ("its winning costs", "it pay") if is_one else ("their winning costs", "them pay")
            return f"{start}, which is what {cost} the others, and no coalition makes {paying} more."
        start = listed([f"{names[0]} pays {pays[0]}", *map(" ".join, zip(names[1:], pays[1:]))])
        if is_one and not self.above(members[0]):
            return (
                f"{start}: {prices}. It pays no more although {reason}: the sum of all payments is least where others"
                " bear that."
            )
        more = f"{above[0]} more{'' if is_one else ' each'}" if len(set(above)) == 1 else f"{listed(above)} more"
        vickrey = listed(str(self.vickrey(j)) for j in members)
        return f"{start}: {prices} of {vickrey}, and {more}, since {reason}."

    def asked(self, number: int, is_numbered: bool) -> str:
        """What a coalition asks for, as the reason of a sentence, with the coalition's number or without."""
        offer = self.coalitions[number - 1]
        verb = "offers" if len(offer.names) + (offer.kept > 0) < 2 else "offer"
        who = f"{self.offering(offer)} (coalition {number})" if is_numbered else self.offering(offer)
        return (
            f"{who} {verb} {offer.gross} for what {self.names(offer.members)} win, and that is {self.excess(offer)}"
            " more than their Vickrey prices"
        )

    def winner_lines(self, j: BidderNumber) -> Iterator[str]:
        """The arithmetic of a winner's sentence."""
        (package, amount), reserve = self.book.winning(self.certificate.choice, j), self.reserve(j)
        offer = vickrey_offer(self.certificate, j)
        whole = ", all that it bid" if self.pays(j) == amount else ""
        paid = both(self.pays(j), net_price_of(self.pays(j), reserve))
        yield (
            f"{self.name(j)} wins {counts(package)} with a bid of {both(amount, net_of(amount, reserve))}, and pays"
            f" {paid}{whole}."
        )
        yield f"  Without {self.name(j)}:"
        yield from self.offer_lines(offer)
        yield (
            f"  So the others would bring {sum_of(offer)}{net_words(offer)} more. This is the Vickrey price of"
            f" {self.name(j)}."
        )
        for share in self.shares(j):
            yield f"  {self.share_text(j, share)}"

    def share_text(self, j: BidderNumber, share: Share) -> str:
        """What a winner pays more or less because of one row."""
        if not share.coalition:
            kind = "more" if share.amount > 0 else "less"
            return (
                f"{fraction(abs(share.amount))} {kind}, since {self.name(j)} pays just its Vickrey price wherever the"
                " sum of all payments is least."
            )
        if share.amount > 0:
            return f"{fraction(share.amount)} more because of coalition {share.coalition} (below)."
        members = self.names(self.coalitions[share.coalition - 1].members)
        return (
            f"{fraction(-share.amount)} less, since {members} pay just what coalition {share.coalition} (below) asks"
            " wherever the sum of all payments is least."
        )

    def offer_lines(self, offer: Offer) -> Iterator[str]:
        """What would change, bidder by bidder."""
        for change in offer.changes:
            now = f"{counts(change.now[0])} for {change.now[1]}" if change.now else "nothing"
            then = f"{counts(change.then[0])} for {change.then[1]}" if change.then else "nothing"
            yield f"    {self.name(change.j)} would win {then} instead of {now}: {more(change.more)}"
        if offer.unsold != offer.unsold_then:
            reserves = self.book.reserve(offer.unsold_then), self.book.reserve(offer.unsold)
            kept = zip((offer.unsold_then, offer.unsold), reserves)
            then, now = (f"{counts(lots)} at the reserve of {cost}" if any(lots) else "nothing" for lots, cost in kept)
            yield f"    the seller would keep {then} instead of {now}: {more(offer.kept)}"
        if offer.same:
            yield f"    {self.names(offer.same)} would win as now"

    def coalition_lines(self, number: int) -> Iterator[str]:
        """What a coalition offers, and how that is shared."""
        offer = self.coalitions[number - 1]
        vickrey, reserves = [self.vickrey(j) for j in offer.members], sum(map(self.reserve, offer.members))
        together = total(vickrey)
        yield f"Coalition {number}: {self.offering(offer)}, for what {self.names(offer.members)} win."
        yield from self.offer_lines(offer)
        members = self.names(offer.members)
        yield f"  That is {sum_of(offer)}{net_words(offer)}. {members} have to pay that much together."
        yield (
            f"  Their Vickrey prices come to {' + '.join(map(str, vickrey))} ="
            f" {both(together, net_of(together, reserves))}: {self.excess(offer)} less."
        )
        yield f"  {self.sharing(number)}"

    def sharing(self, number: int) -> str:
        """How a coalition's demand is shared between the winners that it asks."""
        row, offer = self.rows[number - 1], self.coalitions[number - 1]
        members, weights = offer.members, [self.weights[j - 1] for j in offer.members]
        parts = [Fraction(weight * row.second, self.certificate.den) for weight in weights]
        how = (
            "which is the same for each"
            if len(set(weights)) == 1
            else f"by their weights of {listed(map(str, weights))}"
        )
        if not row.second:
            return "They pay just that, since other coalitions ask it of them already."
        if row.second < 0:
            less = self.bears(members, [-part for part in parts], "less")
            return f"They pay just that and no more, so it takes from what others ask of them: {less}, {how}."
        if sum(parts) == self.excess(offer):
            return f"Because of it {self.bears(members, parts, 'more')}, {how}."
        added = listed([f"{fraction(part)} to the price of {self.name(j)}" for j, part in zip(members, parts)])
        return f"It adds {added}, {how}. With all that is added and taken, {self.ends(members)}."

    def ends(self, members: Sequence[BidderNumber]) -> str:
        """How much more than its Vickrey price each of these pays in the end."""
        above = {j: self.above(j) for j in members}
        return listed(
            [
                f"{self.name(j)} pays {f'{fraction(more)} more than' if more else 'just'} its Vickrey price"
                for j, more in above.items()
            ]
        )

    def bears(self, members: Sequence[BidderNumber], parts: Sequence[Fraction], kind: str) -> str:
        """Who pays how much more, or less."""
        return listed([f"{self.name(j)} pays {fraction(part)} {kind}" for j, part in zip(members, parts)])


def asked_before(numbers: Sequence[int]) -> list[str]:
    """The reason of a sentence for coalitions that an earlier sentence has; empty if there are none."""
    if len(numbers) > 1:
        return [f"coalitions {listed(map(str, numbers))} ask for it"]
    return [f"coalition {numbers[0]} asks for it"] if numbers else []


LEGEND = (
    "A winner's Vickrey price is what the others would bring more if it weren't there. A coalition is a group that"
    " offers more than the Vickrey prices for what some winners win; these have to pay as much, or they could be"
    " outbid."
)


def why_lines(
    certificate: BookCertificate, weights: Sequence[int] | None = None, categories: Sequence[str] = ()
) -> Iterator[str]:
    """All of it: why the winners pay what they pay, ties, then the arithmetic, then the coalitions."""
    reasons = Reasons(certificate, weights)
    if not certificate.winners:
        yield "Nobody wins, so nobody pays."
    yield from reasons.sentences()
    yield from tie_sentences(reasons.book, ties_of(reasons.book))
    yield from ["", LEGEND]
    if categories:
        yield f"A package is written as its counts of {listed(categories)}."
    for j in certificate.winners:
        yield ""
        yield from reasons.winner_lines(j)
    for number in range(1, len(reasons.coalitions) + 1):
        yield ""
        yield from reasons.coalition_lines(number)


def listed(parts: Iterable[str], joint: str = " and ") -> str:
    """Parts with commas between them, and `joint` before the last."""
    parts = list(parts)
    return ", ".join(parts[:-1]) + joint + parts[-1] if len(parts) > 1 else "".join(parts)


def counts(package: Package) -> str:
    """A package in the program's form."""
    return "`" + " ".join(map(str, package)) + "`"


def both(gross: Gross | GrossPrice, net: Net | NetPrice) -> str:
    """An amount, and what it is net of reserve where that differs."""
    return f"{fraction(gross)} ({fraction(net)} net of reserve)" if gross != net else fraction(gross)


def more(amount: Amount) -> str:
    """How much more, or less, something brings."""
    return f"{amount} more" if amount > 0 else f"{-amount} less" if amount else "as much"


def net_words(offer: Offer) -> str:
    """What an offer is net of reserve, where that differs."""
    return f" ({offer.net} net of reserve)" if offer.gross - offer.net else ""


def sum_of(offer: Offer) -> str:
    """The sum of an offer, part by part."""
    parts = [change.more for change in offer.changes] + ([offer.kept] if offer.unsold != offer.unsold_then else [])
    text = "".join((" + " if part >= 0 else " - ") + str(abs(part)) for part in parts)
    return f"{text[3:]} = {offer.gross}" if len(parts) > 1 else str(offer.gross)
