"""The auction: each line of a log has a reply by the rules, and the admitted ones lead to the book.

The stage, the rounds and the lists are kept from line to line, so that a line costs little however long the log is.
"""

from __future__ import annotations

import dataclasses
from collections.abc import Iterable
from typing import TypedDict

from cca_tools.rules.award import Award
from cca_tools.rules.book import Book
from cca_tools.rules.clock import Round, cost, first_round, next_round, price_fault, raised_prices
from cca_tools.rules.log import Line, Posted
from cca_tools.rules.sealed import Cap, Caps, caps_of
from cca_tools.rules.stops import MOST, Stop, limit, refused
from cca_tools.rules.types import Bid, BidderNumber, Gross, Kind, Package, Stage

STAGES: dict[Kind, tuple[Stage, ...]] = {
    "bid": ("clock",),
    "draft": ("sealed",),
    "drop": ("sealed",),
    "submit": ("sealed",),
    "close": ("clock", "sealed"),
}
ADMITTED = ("ok", "round", "sealed", "closed")


class Facts(TypedDict, total=False):
    """What was compared for a reply; its reason is made from it."""

    stage: Stage
    count: int
    supply: int
    weighted: int
    points: int
    cap: Cap | None
    amount: Gross


@dataclasses.dataclass(frozen=True)
class Reply:
    """The answer to a line: its word and its numbers, as the program prints them."""

    word: str
    numbers: tuple[int, ...] = ()
    facts: Facts = dataclasses.field(default_factory=lambda: Facts(), compare=False)

    @property
    def is_ok(self) -> bool:
        """Whether the line is admitted."""
        return self.word in ADMITTED

    @property
    def posted(self) -> Posted:
        """What an admitted close posted."""
        return self.numbers[1:] if self.word == "round" else "sealed" if self.word == "sealed" else "closed"

    def text(self) -> str:
        """The reply as the program prints it, without the line's number."""
        return " ".join(map(str, [self.word, *self.numbers]))


OK = Reply("ok")


class Desk:
    """What one bidder has done: its drafts, its submitted list, and the highest amount of each of its packages in the
    clock."""

    def __init__(self) -> None:
        self.drafts: dict[Package, Gross] = {}
        self.submitted: dict[Package, Gross] = {}
        self.highest_in_clock: dict[Package, Gross] = {}
        self.caps: Caps | None = None
        self.tested: Reply | None = None  # the answer to a submission of the drafts as they are

    def listed(self) -> list[Bid]:
        """The draft list, in the order of packages."""
        return sorted(self.drafts.items())

    def copied(self) -> Desk:
        """A desk that goes on apart from this one. Both know the same caps, which don't change any more."""
        copy = Desk()
        copy.drafts, copy.submitted = dict(self.drafts), dict(self.submitted)
        copy.highest_in_clock, copy.caps, copy.tested = dict(self.highest_in_clock), self.caps, self.tested
        return copy


class Auction:
    """An auction as far as lines were taken: its stage, the closed rounds and the open one, and what each bidder has
    done."""

    def __init__(self, award: Award) -> None:
        self.award = award
        self.lines: list[Line] = []
        self.replies: list[Reply] = []
        self.stage: Stage = "clock"
        self.rounds: list[Round] = []
        self.open_round: Round | None = first_round(award)
        self.final: int | None = None  # the number of the last round, once the clock has ended
        self.limit_stop: Stop | None = None  # the first close that a limit refuses
        self.desks = [Desk() for _ in award.bidders]

    def copied(self) -> Auction:
        """An independent auction that goes on from here. Copying costs little compared with taking all lines."""
        copy = Auction(self.award)
        copy.lines, copy.replies, copy.rounds = list(self.lines), list(self.replies), list(self.rounds)
        copy.stage, copy.final, copy.limit_stop = self.stage, self.final, self.limit_stop
        here = self.open_round
        copy.open_round = here and dataclasses.replace(
            here, eligibility=list(here.eligibility), packages=list(here.packages)
        )
        copy.desks = [desk.copied() for desk in self.desks]
        return copy

    @property
    def running_round(self) -> Round:
        """The open round of a clock that is running."""
        assert self.open_round is not None
        return self.open_round

    def take(self, line: Line) -> None:
        """Answers a line, and keeps what an admitted one changes."""
        answer = self.answer(line)
        self.lines.append(line)
        self.replies.append(answer)
        if answer.is_ok:
            self.admit(line, answer)
        elif line.kind == "close" and answer.word != "stage":
            self.limit_stop = self.limit_stop or stop_of(line, answer)

    def answer(self, line: Line) -> Reply:
        """The first reason to refuse the line, in the order of the rules, or that it is admitted."""
        if self.stage not in STAGES[line.kind]:
            return Reply("stage", facts={"stage": self.stage})
        if line.kind == "close":
            return self.answer_close(line)
        if not line.bidder:
            return Reply("unknown")
        desk = self.desks[line.bidder - 1]
        if line.kind == "bid":
            return self.package_fault(line, self.running_round.eligibility[line.bidder - 1]) or OK
        if line.kind == "draft":
            eligibility = self.award.eligibility(line.bidder)
            return self.package_fault(line, eligibility) or self.amount_fault(line, desk) or OK
        if line.kind == "drop":
            return OK if line.package in desk.drafts else Reply("no-draft")
        return self.answer_submit(line, desk)

    def package_fault(self, line: Line, eligibility: int) -> Reply | None:
        """Why a bidder with this many points may not ask for a package, or None."""
        for category, (count, supply) in enumerate(zip(line.package, self.award.supply), 1):
            if count > supply:
                return Reply("supply", (category,), {"count": count, "supply": supply})
        broken = self.award.cap_fault(line.bidder, line.package)
        if broken:
            weighted = self.award.weighted(self.award.caps[broken[0] - 1], line.bidder, line.package)
            return Reply("spectrum-cap", broken, {"weighted": weighted})
        points = self.award.points_of(line.package)
        return Reply("points", (eligibility,), {"points": points}) if points > eligibility else None

    def amount_fault(self, line: Line, desk: Desk) -> Reply | None:
        """Why an amount can't be drafted for a package, or None."""
        if not any(line.package):
            return Reply("empty")
        reserve, asked = self.award.reserve_of(line.package), desk.highest_in_clock.get(line.package, Gross(0))
        if line.amount < reserve:
            return Reply("below-reserve", (reserve,))
        if line.amount < asked:
            return Reply("below-clock", (asked,))
        if line.package not in desk.drafts and len(desk.drafts) >= MOST["drafts"]:
            return Reply("full", (MOST["drafts"],))
        return Reply("amount-top", (MOST["amount"],)) if line.amount > MOST["amount"] else None

    def answer_submit(self, line: Line, desk: Desk) -> Reply:
        """The list is tested against its caps; an unchanged one isn't tested again."""
        desk.tested = desk.tested or self.list_answer(line.bidder, desk)
        return desk.tested

    def list_answer(self, j: BidderNumber, desk: Desk) -> Reply:
        """The answer to a submission of bidder j's drafts."""
        caps, listed = self.caps(j), desk.listed()
        fault = caps.fault(listed)
        if not fault:
            return OK
        package, amount = listed[fault[0] - 1]
        return Reply("relative-cap", fault, {"cap": caps.cap(dict(listed), package), "amount": amount})

    def caps(self, j: BidderNumber) -> Caps:
        """The caps of bidder j, once the clock has ended; they are made once."""
        desk = self.desks[j - 1]
        desk.caps = desk.caps or caps_of(self, j)
        return desk.caps

    def answer_close(self, line: Line) -> Reply:
        """What a close leads to; one of a bidder's own view says that itself."""
        if self.stage == "sealed":
            return Reply("closed")
        if isinstance(line.posted, tuple):
            return Reply("round", (len(self.rounds) + 2, *line.posted))
        if line.posted is not None:
            return Reply("sealed")
        return self.answer_next_round(self.running_round)

    def answer_next_round(self, closing: Round) -> Reply:
        """What a close of this round leads to: the sealed round, or prices that are raised."""
        if not any(closing.excess):
            return Reply("sealed")
        number, prices = closing.number + 1, raised_prices(self.award, closing)
        if number > MOST["rounds"]:
            return Reply("full", (MOST["rounds"],))
        above = price_fault(prices)
        return Reply("price-top", above) if above else Reply("round", (number, *prices))

    def admit(self, line: Line, answer: Reply) -> None:
        """Keeps what an admitted line changes."""
        if line.kind == "close":
            self.admit_close(answer)
        elif line.kind == "bid":
            self.running_round.packages[line.bidder - 1] = line.package
        elif line.kind == "submit":
            desk = self.desks[line.bidder - 1]
            desk.submitted = dict(desk.drafts)
        else:
            self.admit_draft(line, self.desks[line.bidder - 1])

    def admit_draft(self, line: Line, desk: Desk) -> None:
        """Keeps a draft, or drops one."""
        desk.tested = None
        if line.kind == "draft":
            desk.drafts[line.package] = line.amount
        else:
            del desk.drafts[line.package]

    def admit_close(self, answer: Reply) -> None:
        """Closes the round, or the sealed round."""
        if answer.word == "closed":
            self.stage = "closed"
            return
        closed = self.running_round
        self.rounds.append(closed)
        for desk, package in zip(self.desks, closed.packages):
            desk.highest_in_clock[package] = max(cost(closed, package), desk.highest_in_clock.get(package, Gross(0)))
        if answer.word == "round":
            self.open_round = next_round(self.award, closed, answer.numbers[1:])
        else:
            self.stage, self.final, self.open_round = "sealed", closed.number, None

    def drafts(self, j: BidderNumber) -> list[Bid]:
        """The draft list of bidder j, in the order of packages."""
        return self.desks[j - 1].listed()

    def submitted(self, j: BidderNumber) -> list[Bid]:
        """The submitted list of bidder j, in the order of packages."""
        return sorted(self.desks[j - 1].submitted.items())

    def highest_in_clock(self, j: BidderNumber) -> dict[Package, Gross]:
        """The highest amount of each package that bidder j asked for in a closed round."""
        return self.desks[j - 1].highest_in_clock

    def clock_bids(self, j: BidderNumber) -> list[tuple[int, Package, Gross]]:
        """What the bidder asked for in each closed round: the round, the package and its cost."""
        return [(r.number, r.packages[j - 1], cost(r, r.packages[j - 1])) for r in self.rounds]

    def bids(self, j: BidderNumber) -> list[Bid]:
        """The bids of the book: each package that isn't empty, of the clock and of the submitted list, with its
        greatest amount."""
        best: dict[Package, Gross] = {}
        for package, amount in [*self.highest_in_clock(j).items(), *self.submitted(j)]:
            if any(package):
                best[package] = max(amount, best.get(package, Gross(0)))
        return sorted(best.items())

    def book(self) -> Book:
        """The book of the bids so far."""
        bidders = range(1, len(self.award.bidders) + 1)
        return Book(self.award.supply, self.award.reserves, list(self.award.names), [self.bids(j) for j in bidders])

    def need_book(self) -> Book:
        """The book of a log that no limit stops and that is complete."""
        if self.limit_stop:
            raise self.limit_stop
        if self.stage != "closed":
            raise refused("log", len(self.lines) + 1, why="the log isn't complete: no close has ended the sealed round")
        return self.book()


def stop_of(line: Line, answer: Reply) -> Stop:
    """The limit that stops a run for a close that is refused."""
    if answer.word == "full":
        why = f"the close in record {line.number} would post a round after round {MOST['rounds']}"
        return limit("rounds", MOST["rounds"] + 1, why)
    category, price = answer.numbers
    why = (
        f"the close in record {line.number} would post the price {price} for category {category}, and the greatest"
        f" price is {MOST['price']}"
    )
    return limit("price", price, why)


def replay(award: Award, lines: Iterable[Line]) -> Auction:
    """The auction after these lines."""
    auction = Auction(award)
    for line in lines:
        auction.take(line)
    return auction
