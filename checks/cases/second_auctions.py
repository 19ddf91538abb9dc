"""Drawn auctions, and what the second program in tools/ makes of an auction."""

from __future__ import annotations

import random
from checks.cases.drawn_auctions import log_of, terms_of, text_of

from cca_tools.rules.auction import Auction, replay
from cca_tools.rules.award import Award, read_award
from cca_tools.rules.book import book_text
from cca_tools.rules.log import read_log
from cca_tools.rules.stops import Stop, load
from cca_tools.rules.types import Package


class Desk:
    """Takes the lines of a log that is drawn."""

    def __init__(self, award: Award) -> None:
        self.auction = Auction(award)

    @property
    def stage(self) -> str:
        return self.auction.stage

    def take(self, line: str) -> None:
        for one in read_log(line.encode(), self.auction.award):
            self.auction.take(one)

    def turns(self, j: int, package: Package) -> list[int]:
        """The reserve of a package, what it was asked for at in the clock, and its cap."""
        auction, award = self.auction, self.auction.award
        if auction.final is None or j > len(award.bidders):
            return []
        cap = auction.caps(j).cap(dict(auction.drafts(j)), package)
        caps = [each.by_round for each in (cap, cap.final) if each] if cap else []
        return [award.reserve_of(package), auction.highest_in_clock(j).get(package, 0), *caps, *caps]


def drawn(rng: random.Random) -> tuple[str, str, int]:
    """A right award, and a log for it."""
    terms, supply, bidders = terms_of(rng)
    text = text_of(terms, [key for key in ("category", "bidder", "step", "cap") if rng.random() < 0.1])
    return text, log_of(rng, Desk(read_award(text.encode())), supply, bidders), len(supply)


def second_auction(award_name: str, log_name: str) -> tuple[str, bytes | None, int]:
    """What `auction` has to print, the book that it has to write, and the status."""
    printed: list[str] = []
    try:
        award = read_award(load(award_name, "award"))
        auction = replay(award, read_log(load(log_name, "log"), award))
        printed = [f"{number} {reply.text()}\n" for number, reply in enumerate(auction.replies, 1)]
        return "".join(printed), book_text(auction.need_book()), 0
    except Stop as stop:
        return "".join(printed) + stop.line + "\n", None, stop.status
