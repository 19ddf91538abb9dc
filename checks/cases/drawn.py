"""Small auctions drawn from a number: an award, and a log that ends the clock and the sealed round."""

from __future__ import annotations

import itertools
import random

from cca_tools.rules.auction import Auction, Reply
from cca_tools.rules.award import read_award
from cca_tools.rules.log import Line
from cca_tools.rules.types import Gross, Kind, Package
from cca_tools.rules.view import record_text

NAMES = "east", "west", "north", "south"


def award_of(draw: random.Random, version: int) -> str:
    """The text of an award with two categories, three or four bidders and one spectrum cap. Prices rise fast."""
    supply = draw.randint(2, 4), draw.randint(1, 3)
    lots = [(f"c{c}", count, draw.randint(0, 3), draw.randint(1, 9)) for c, count in enumerate(supply, 1)]
    text = [f"version = {version}", f"tick = {draw.randint(1, 3)}"]
    for name, count, points, reserve in lots:
        text += ["[[category]]", f'name = "{name}"', f"supply = {count}", f"points = {points}", f"reserve = {reserve}"]
    for name in NAMES[: draw.randint(3, 4)]:
        text += ["[[bidder]]", f'name = "{name}"', f"eligibility = {draw.randint(3, 12)}"]
    text += ["[[step]]", "excess = 1", "permille = 200", "[[cap]]", "weight = [1, 1]", f"limit = {draw.randint(3, 7)}"]
    return "\n".join([*text, ""])


class Drawing:
    """An auction that is drawn line by line."""

    def __init__(self, number: int, version: int = 1) -> None:
        self.draw = random.Random(f"{number} {version}")
        self.text = award_of(self.draw, version)
        self.award = read_award(self.text.encode())
        self.auction = Auction(self.award)
        self.packages = list(itertools.product(*(range(count + 1) for count in self.award.supply)))

    def take(self, kind: Kind, j: int = 0, package: Package = (), amount: int = 0) -> Reply:
        """Takes a line, and returns its reply."""
        name = self.award.names[j - 1] if j else ""
        self.auction.take(Line(len(self.auction.lines) + 1, 0, kind, name, j, package, Gross(amount)))
        return self.auction.replies[-1]

    def bidders(self) -> range:
        return range(1, len(self.award.names) + 1)

    def ask(self, j: int, most: int) -> None:
        """One bid of about this many lots that is admitted, if one of six is, then one of at most this many."""
        near = [package for package in self.packages if most - 2 <= sum(package) <= most] or self.packages[:1]
        less = [package for package in self.packages if sum(package) <= most]
        any(self.take("bid", j, self.draw.choice(found)).is_ok for found in [near] * 6 + [less] * 3)

    def clock(self, most_rounds: int = 40) -> None:
        """Rounds until nothing is asked for above the supply."""
        for number in range(most_rounds):
            for j in self.bidders():
                if self.draw.random() < 0.95:
                    self.ask(j, max(0, 5 - number // 2))
            if self.take("close").word == "sealed":
                return
        raise AssertionError("the clock doesn't end")

    def lists(self, above: int = 25) -> None:
        """A submitted list of each bidder: entries that are refused are set to their caps, or dropped."""
        for j in self.bidders():
            for package in self.draw.sample(self.packages, min(len(self.packages), self.draw.randint(0, 6))):
                least = max(self.award.reserve_of(package), self.auction.highest_in_clock(j).get(package, 0))
                self.take("draft", j, package, least + self.draw.randint(0, above))
            self.submit(j)

    def submit(self, j: int) -> None:
        """Submits the list, and changes it until it is admitted."""
        while (reply := self.take("submit", j)).word == "relative-cap":
            entry, most = reply.numbers
            package, _ = self.auction.drafts(j)[entry - 1]
            if not self.take("draft", j, package, max(0, most)).is_ok:
                self.take("drop", j, package)

    def log(self) -> bytes:
        return "".join(record_text(line) + "\n" for line in self.auction.lines).encode()


def drawn(number: int, version: int = 1, above: int = 25) -> tuple[bytes, bytes]:
    """A whole auction: its award and its log, as bytes."""
    drawing = Drawing(number, version)
    drawing.clock()
    drawing.lists(above)
    drawing.take("close")
    return drawing.text.encode(), drawing.log()
