"""The state of an auction: what is posted and asked for, what each bidder has done, and what a close would do.

Nothing here is printed. All of it follows from the award and the lines taken so far, by the rules of
`cca_tools.rules.auction`; amounts are gross.
"""

from __future__ import annotations

import dataclasses
from collections.abc import Sequence
from typing import Literal, TypeAlias

from cca_tools.rules.auction import Auction, Reply
from cca_tools.rules.clock import cost
from cca_tools.rules.log import Line
from cca_tools.rules.pricing import winners_warning
from cca_tools.rules.reasons import reason
from cca_tools.rules.stops import MOST
from cca_tools.rules.types import Amount, BidderNumber, Gross, Package

# What a bidder does in the open round: it asks for a package, it asked for nothing, it has sent no line that was
# admitted, or it has no eligibility left.
Activity: TypeAlias = Literal["asks", "nothing", "no line yet", "out"]
CLOSE = Line(0, 0, "close", "", 0)


@dataclasses.dataclass(frozen=True)
class CategoryState:
    """A category in the open round. `after` is the price that a close would post, None if it would post none."""

    name: str
    supply: int
    price: Amount
    demand: int
    excess: int
    after: Amount | None


@dataclasses.dataclass(frozen=True)
class CapRoom:
    """What a spectrum cap leaves to a bidder over what it owns and asks for, weighted."""

    number: int
    room: int
    limit: int


@dataclasses.dataclass(frozen=True)
class ClockState:
    """A bidder in the open round: the points it may ask for, what it asks for, and its eligibility after a close."""

    name: str
    eligibility: int
    activity: Activity
    package: Package
    points: int
    cost: Gross
    rooms: tuple[CapRoom, ...]

    @property
    def lost(self) -> int:
        """The points that a close takes from the bidder for the rest of the clock."""
        return self.eligibility - self.points


@dataclasses.dataclass(frozen=True)
class Above:
    """An entry of a draft list that is above its cap: its number in the order of packages, and by how much."""

    entry: int
    package: Package
    amount: Gross
    cap: Gross

    @property
    def by(self) -> Amount:
        """How far the amount is above the cap."""
        return self.amount - self.cap


@dataclasses.dataclass(frozen=True)
class ListState:
    """A bidder in the sealed round: its draft list, its submitted list, and the reply that a submission would get."""

    name: str
    drafts: int
    submitted: int
    differences: int
    answer: Reply
    above: tuple[Above, ...]

    @property
    def is_refused(self) -> bool:
        """Whether a submission of the draft list would be refused."""
        return not self.answer.is_ok


@dataclasses.dataclass(frozen=True)
class CloseEffect:
    """What a close would do now. `is_fatal` says that a limit refuses it, and that no later line repairs the log
    then."""

    reply: Reply
    sentence: str
    is_fatal: bool
    warnings: tuple[str, ...]


def sent_in_round(auction: Auction) -> set[BidderNumber]:
    """The bidders with an admitted bid in the open round."""
    found = set[BidderNumber]()
    for line, reply in zip(reversed(auction.lines), reversed(auction.replies)):
        if line.kind == "close" and reply.is_ok:
            break
        if line.kind == "bid" and reply.is_ok:
            found.add(line.bidder)
    return found


def category_states(auction: Auction) -> list[CategoryState]:
    """Each category in the open round of a clock that is running."""
    award, here = auction.award, auction.running_round
    reply = auction.answer(CLOSE)
    after: Sequence[Amount | None] = reply.numbers[1:] if reply.word == "round" else [None] * len(award.supply)
    rows = zip(award.categories, award.supply, here.prices, here.demand, here.excess, after)
    return [CategoryState(category.name, *numbers) for category, *numbers in rows]


def activity_of(package: Package, eligibility: int, has_sent: bool) -> Activity:
    """What a bidder does in the open round."""
    if any(package):
        return "asks"
    if has_sent:
        return "nothing"
    return "no line yet" if eligibility else "out"


def clock_states(auction: Auction) -> list[ClockState]:
    """Each bidder in the open round of a clock that is running."""
    award, here, sent = auction.award, auction.running_round, sent_in_round(auction)
    found = []
    for j, (name, may, package) in enumerate(zip(award.names, here.eligibility, here.packages), 1):
        rooms = tuple(
            CapRoom(number, cap.limit - award.weighted(cap, j, package), cap.limit)
            for number, cap in enumerate(award.caps, 1)
        )
        activity = activity_of(package, may, j in sent)
        found.append(ClockState(name, may, activity, package, award.points_of(package), cost(here, package), rooms))
    return found


def entries_above(auction: Auction, j: BidderNumber) -> tuple[Above, ...]:
    """All entries of bidder j's draft list that are above their caps, in the order of packages."""
    caps, drafts, found = auction.caps(j), dict(auction.drafts(j)), list[Above]()
    for entry, (package, amount) in enumerate(sorted(drafts.items()), 1):
        cap = caps.amount(drafts, package)
        if cap is not None and amount > cap:
            found.append(Above(entry, package, amount, cap))
    return tuple(found)


def list_states(auction: Auction) -> list[ListState]:
    """Each bidder once the clock has ended."""
    found = []
    for j, name in enumerate(auction.award.names, 1):
        desk = auction.desks[j - 1]
        differences = len({package for package, _ in desk.drafts.items() ^ desk.submitted.items()})
        answer, above = auction.list_answer(j, desk), entries_above(auction, j)
        found.append(ListState(name, len(desk.drafts), len(desk.submitted), differences, answer, above))
    return found


def names_in(names: Sequence[str]) -> str:
    """Names as a sentence has them: `a`, `a and b`, `a, b and c`."""
    return " and ".join([", ".join(names[:-1]), names[-1]] if len(names) > 1 else names)


def plural(count: int, one: str, many: str) -> str:
    """The form of a word for this count."""
    return one if count == 1 else many


def missing_words(names: Sequence[str], ends_clock: bool) -> str:
    """What a close does to bidders that have sent no line in the open round."""
    few = len(names)
    head = f"{names_in(names)} {plural(few, 'has', 'have')} no line in this round yet: "
    if ends_clock:
        return f"{head}by a close now {plural(few, 'it asks', 'they ask')} for nothing in the final round."
    return f"{head}a close now leaves {plural(few, 'it', 'them')} without eligibility for the rest of the clock."


def nothing_words(names: Sequence[str], ends_clock: bool) -> str:
    """What a close does to bidders that are eligible, and whose last line asks for nothing."""
    few = len(names)
    head = f"{names_in(names)} {plural(few, 'asks', 'ask')} for nothing in this round"
    if ends_clock:
        return f"{head}, which is the final one after a close now."
    return f"{head}: a close now leaves {plural(few, 'it', 'them')} without eligibility for the rest of the clock."


def clock_warnings(auction: Auction, ends_clock: bool = False) -> list[str]:
    """The effects of a close of the open round that the auctioneer may not want. That bidders ask for less is
    expected."""
    states = clock_states(auction)
    missing = [it.name for it in states if it.activity == "no line yet"]
    idle = [it.name for it in states if it.activity == "nothing" and it.eligibility]
    warnings = [missing_words(missing, ends_clock)] if missing else []
    warnings += [nothing_words(idle, ends_clock)] if idle else []
    if not any(any(it.package) for it in states):
        warnings.append(
            "Nobody asks for anything in this round. Was it posted a moment ago? A second close ends the clock."
        )
    return warnings


def list_warnings(auction: Auction) -> list[str]:
    """What a close of the sealed round leaves out."""
    states = list_states(auction)
    without = [it.name for it in states if not it.submitted]
    open_lists = [it.name for it in states if it.submitted and it.differences]
    warnings = []
    if without:
        have = plural(len(without), "has", "have")
        warnings.append(
            f"{names_in(without)} {have} submitted no list: only {plural(len(without), 'its', 'their')} clock bids"
            " count."
        )
    if open_lists:
        warnings.append(
            f"The drafts of {names_in(open_lists)} differ from what was submitted: the submitted list counts."
        )
    return warnings


def close_effect(auction: Auction) -> CloseEffect:
    """What a close would do now, with what the auctioneer may not want of it."""
    effect = stage_effect(auction)
    if effect.reply.word == "stage":
        return effect
    return dataclasses.replace(effect, warnings=(*effect.warnings, *winners_warning(auction.award)))


def stage_effect(auction: Auction) -> CloseEffect:
    """What a close would do now in this stage."""
    reply = auction.answer(CLOSE)
    if reply.word == "stage":
        return CloseEffect(reply, "The auction is closed. No line is taken any more.", False, ())
    if reply.word in ("full", "price-top"):
        why = reason(auction.award, CLOSE, reply)
        sentence = (
            "A close must not be written now: a limit refuses it, and no later line mends the log, which then ends"
            f" with status 7 for ever. {why}"
        )
        return CloseEffect(reply, sentence, True, tuple(clock_warnings(auction)))
    if reply.word == "closed":
        return CloseEffect(reply, "A close now ends the auction.", False, tuple(list_warnings(auction)))
    if reply.word == "sealed":
        sentence = "A close now ends the clock: nothing is asked for above the supply."
        return CloseEffect(reply, sentence, False, tuple(clock_warnings(auction, ends_clock=True)))
    rounds_left = MOST["rounds"] - reply.numbers[0]
    warnings = clock_warnings(auction)
    if rounds_left < 10:
        warnings.append(f"{rounds_left} more {plural(rounds_left, 'round', 'rounds')} can be posted after that.")
    sentence = f"A close now ends round {auction.running_round.number} and posts round {reply.numbers[0]}."
    return CloseEffect(reply, sentence, False, tuple(warnings))
