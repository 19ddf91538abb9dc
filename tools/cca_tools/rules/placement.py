"""Placements: the slots of a band with the bidders that are laid side by side in it, and the certificate of a
placement.

Bidders are numbered from 1. A set of bidders is a number M; bit j - 1 of it is bidder j.
"""

from __future__ import annotations

from collections.abc import Sequence
from dataclasses import dataclass, field

from cca_tools.rules.book import Menu
from cca_tools.rules.certificate import Certificate, Reader
from cca_tools.rules.lines import Text
from cca_tools.rules.money import net_of
from cca_tools.rules.stops import MOST, within
from cca_tools.rules.types import BidderNumber, Gross, Net, TableLine


@dataclass
class Slots(Menu[int]):
    """A band of this many slots, and for each bidder its width and its bids for starts, which rise. No start has a
    reserve."""

    band: int
    names: list[str]
    widths: list[int]
    bids: list[list[tuple[int, Gross]]]
    net: list[list[Net]] = field(init=False)

    def __post_init__(self) -> None:
        self.net = [[net_of(amount, 0) for _, amount in bids] for bids in self.bids]

    def width_of(self, members: int) -> int:
        """The widths of a set of bidders together."""
        return sum(width for j, width in enumerate(self.widths) if members >> j & 1)

    def starts(self, order: Sequence[BidderNumber]) -> dict[BidderNumber, int]:
        """Where each bidder begins, for an order that lists each bidder once."""
        widths = [self.widths[j - 1] for j in order]
        return {j: 1 + sum(widths[:at]) for at, j in enumerate(order)}

    def is_order(self, order: Sequence[BidderNumber]) -> bool:
        """Whether each bidder is listed once."""
        return sorted(order) == list(range(1, self.bidders + 1))


def read_slots(data: bytes) -> Slots:
    """The slots that bytes are."""
    text = Text("slots", data)
    text.words("slots 1")
    (band,) = text.numbers(b"band", 1, 1, MOST["band"], "the slots of the band")
    within("lots", band, MOST["lots"])
    slots = Slots(band, [], [], [])
    while (fields := text.line().split(b" ")) != [b"end"]:
        if fields[0] == b"place" and slots.names:
            read_place(text, slots, fields[1:])
        else:
            read_placed(text, slots, fields)
    text.no_more()
    return Slots(band, slots.names, slots.widths, slots.bids)


def read_placed(text: Text, slots: Slots, fields: list[bytes]) -> None:
    """Reads the line of a bidder into the slots."""
    form = "here a line `bidder NAME WIDTH`, `place START AMOUNT` of a bidder or `end` has to be"
    text.need(fields[0] == b"bidder" and len(fields) == 3, form)
    name = text.name(fields[1])
    text.need(name not in slots.names, f"there is a bidder {name} already")
    width = text.number(fields[2], 1, slots.band - sum(slots.widths), "the width (at most what the band has left)")
    within("bidders", len(slots.names) + 1, MOST["placed bidders"])
    slots.names.append(name)
    slots.widths.append(width)
    slots.bids.append([])


def read_place(text: Text, slots: Slots, fields: list[bytes]) -> None:
    """Reads the line of a bid into the slots; `fields` are its fields after `place`."""
    text.need(len(fields) == 2, "here a line `place START AMOUNT` has to be")
    start = text.number(fields[0], 1, slots.band - slots.widths[-1] + 1, "the start (the bidder ends within the band)")
    amount = text.number(fields[1], 0, MOST["amount"], "the amount")
    text.need(
        not slots.bids[-1] or slots.bids[-1][-1][0] < start,
        "the starts of a bidder rise, and this one isn't after the one before it",
    )
    slots.bids[-1].append((start, Gross(amount)))


class PlacedChoice(tuple[int, ...]):
    """The numbers of a choice, with the order that comes before it in the certificate."""

    order: tuple[BidderNumber, ...] = ()


PlaceCertificate = Certificate[Slots, PlacedChoice, TableLine]


def read_places(data: bytes, slots: Slots) -> PlaceCertificate:
    """The certificate of a placement that bytes are, for these slots."""
    return PlaceReader(Text("cert", data), slots).read()


class PlaceReader(Reader[Slots, PlacedChoice, TableLine]):
    """Reads the certificate of a placement, which has other first lines, choices and tables than a book's
    certificate."""

    def first_lines(self) -> list[str]:
        return ["pcert 1"]

    def choice(self) -> PlacedChoice:
        order = self.text.numbers(b"order", self.menu.bidders, 0, MOST["count"], "a bidder")
        choice = PlacedChoice(self.numbers_of_bids())
        choice.order = order
        return choice

    def table(self, word: str) -> TableLine:
        """The entries of a table: at each set of bidders, what those outside it can reach after them at most."""
        self.text.words(word)
        return self.text.signed(b"t", 2**self.menu.bidders)
