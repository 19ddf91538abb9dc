"""Mistakes of bidders, mixed into the lines of an auction: lines as people send them by mistake. All of them are
refused but one kind: a draft with a digit too many is taken, its submission refused, and the right draft follows. So
mistakes change no result."""

from __future__ import annotations

import dataclasses
from collections.abc import Callable, Iterable, Iterator, Sequence

from cca_tools.rules.auction import Auction
from cca_tools.rules.award import NAME
from cca_tools.rules.log import Line
from cca_tools.rules.sealed import caps_of
from cca_tools.rules.stops import MOST
from cca_tools.studies.draws import Draws

# What a bidder sends by mistake instead of a line: one line or several, or none if the mistake can't be made here.
Slip = Callable[[Auction, Line, Draws], Sequence[Line]]


def stranger(auction: Auction, line: Line, draws: Draws) -> Sequence[Line]:
    """The bidder's name has a letter too many, or one too few."""
    names = [f"{line.name}{line.name[-1]}", line.name[:-1], f"{line.name[:19]}x", "somebody_else"]
    name = next(it for it in names if NAME.fullmatch(it) and not auction.award.number_of(it))
    return [dataclasses.replace(line, name=name, bidder=0)]


def more_than_sold(auction: Auction, line: Line, draws: Draws) -> Sequence[Line]:
    """More lots of a category than there are."""
    if line.kind == "submit":
        return []
    at = draws.whole(0, len(line.package) - 1)
    package = tuple(auction.award.supply[c] + 1 if c == at else count for c, count in enumerate(line.package))
    return [dataclasses.replace(line, package=package)]


def everything(auction: Auction, line: Line, draws: Draws) -> Sequence[Line]:
    """All lots, which may have too many points or break a spectrum cap."""
    return [] if line.kind == "submit" else [dataclasses.replace(line, package=auction.award.supply)]


def other_stage(auction: Auction, line: Line, draws: Draws) -> Sequence[Line]:
    """A line of another stage."""
    if line.kind == "bid":
        reserve = auction.award.reserve_of(line.package)
        return [dataclasses.replace(line, kind="draft", amount=reserve)]
    package = line.package or auction.rounds[-1].packages[line.bidder - 1]
    return [dataclasses.replace(line, kind="bid", package=package, amount=0)]


def too_little(auction: Auction, line: Line, draws: Draws) -> Sequence[Line]:
    """An amount below the reserves, as one in another unit."""
    return [dataclasses.replace(line, amount=line.amount // 1000)] if line.kind == "draft" else []


def nothing(auction: Auction, line: Line, draws: Draws) -> Sequence[Line]:
    """A draft for a package of nothing."""
    return [dataclasses.replace(line, package=auction.award.nothing)] if line.kind == "draft" else []


def no_draft(auction: Auction, line: Line, draws: Draws) -> Sequence[Line]:
    """A package that isn't on the list is dropped."""
    if line.kind != "draft" or line.package in auction.desks[line.bidder - 1].drafts:
        return []
    return [dataclasses.replace(line, kind="drop", amount=0)]


def a_digit_too_many(auction: Auction, line: Line, draws: Draws) -> Sequence[Line]:
    """A draft at ten times its amount, and a submission that is refused by its cap."""
    if line.kind != "draft" or 10 * line.amount > MOST["amount"]:
        return []
    wrong = dataclasses.replace(line, amount=10 * line.amount)
    listed = sorted({**dict(auction.drafts(line.bidder)), line.package: wrong.amount}.items())
    if not caps_of(auction, line.bidder).fault(listed):
        return []
    return [wrong, dataclasses.replace(line, kind="submit", package=(), amount=0)]


SLIPS: tuple[Slip, ...] = (
    more_than_sold,
    everything,
    other_stage,
    too_little,
    nothing,
    no_draft,
    a_digit_too_many,
    stranger,
)


def slip_before(auction: Auction, line: Line, draws: Draws) -> Sequence[Line]:
    """A mistake before a line that is right: the first, from a drawn one on, that can be made here and is refused."""
    first = draws.of("kind").whole(0, len(SLIPS) - 1)
    for make in SLIPS[first:] + SLIPS[:first]:
        made = make(auction, line, draws.of("part"))
        if len(made) == 2 or made and not auction.answer(made[0]).is_ok:
            return made
    return []


def places_of(lines: Iterable[Line], count: int, draws: Draws) -> list[int]:
    """The places of the mistakes: each comes before a line that isn't a close, and the place is that line's number from
    0 among such lines. A place with several mistakes comes several times."""
    last = sum(line.kind != "close" for line in lines) - 1
    return sorted(draws.of("place", n).whole(0, last) for n in range(1, count + 1)) if last >= 0 else []


def slipping(auction: Auction, lines: Iterable[Line], places: list[int], draws: Draws, at: int = 0) -> Iterator[Line]:
    """The lines, with mistakes before the lines at these places; the place of the first line is `at`. Each line has to
    be taken before the next one is asked for."""
    for line in lines:
        if line.kind != "close":
            for n in range(places.count(at)):
                yield from slip_before(auction, line, draws.of(at, n))
            at += 1
        yield line
