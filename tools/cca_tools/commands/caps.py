"""Says what a bidder may ask for and offer.

While the clock runs: its points, what is left of them, the room in each spectrum cap, and for each package that it has
asked for, or for the one that is given as counts, what it costs and the cap that it would have if the clock ended with
the open round as it is.

While lists are taken: for each package of its draft list, or for the one that is given, the least amount, the cap, by
how much the listed amount is above that, and where the cap comes from. One line for each package, then that in
words:

    package 2 0 4 0 listed 660000 least 506000 round 3 held 1 0 4 0 stands 430000
        prices 231000 275700 18200 300 cap 661000

`round` is the package's constraining round, `held` the package that the bidder asked for in it, `stands` the highest
amount that the bidder named for that package, in the clock or on its list, and `prices` the prices of that round. The
cap is the amount after `stands`, plus the difference of the two packages' costs. In an award of version 2 a line
`final` shows this for the final round, and the lesser cap applies.

--fit prints the greatest list that is admitted with no amount above the drafted one, and the lines that lead to it.

The bidder's own lines and what the closes posted are enough. So LOG may be the whole log, or the bidder's own view of
it: a file of the same form that has only its own lines, and in the third field of each close what it posted, the
prices of the next round, `sealed` or `closed`:

    bid,everest,2 0 4 0,
    close,,220000 262500 16500 200,
    bid,everest,1 0 3 0,
    close,,sealed,
    draft,everest,2 0 4 0,660000

Statuses are as in docs/FORMATS.md; 1 if no list can be fitted. What it doesn't test: that a view has the prices that
were posted, and all lines that the bidder sent.
"""

from __future__ import annotations

import argparse
from collections.abc import Iterator, Mapping, Sequence

from cca_tools.command_line import Parser, run_command
from cca_tools.rules.auction import Auction, replay
from cca_tools.rules.award import read_award
from cca_tools.rules.clock import cost
from cca_tools.rules.log import Line
from cca_tools.rules.reasons import cap_words, counts, reason
from cca_tools.rules.sealed import Cap, caps_if_ended
from cca_tools.rules.state import clock_states
from cca_tools.rules.stops import NO, Stop, load
from cca_tools.rules.types import BidderNumber, Gross, Package
from cca_tools.rules.view import read_log_or_view, record_text, view_text
from cca_tools.rules.words import bidder_of, package_of


def parser() -> Parser:
    """The arguments of the command."""
    forms = "AWARD LOG BIDDER [PACKAGE]", "AWARD LOG BIDDER --fit", "AWARD LOG BIDDER --view"
    words = Parser("caps", __doc__, *forms)
    words.add_file("AWARD", "the terms of the auction")
    words.add_file("LOG", "the whole log, or the bidder's own view of it")
    words.add_argument("bidder", metavar="BIDDER", help="the name of a bidder")
    words.add_argument(
        "package", metavar="PACKAGE", nargs="*", default=[], help='a package by its counts, as "2 0 4 0"'
    )
    words.add_argument("--fit", action="store_true", help="print the greatest list that is admitted")
    words.add_argument("--view", action="store_true", help="print the bidder's own view of a whole log")
    return words


def own(line: Line, name: str) -> bool:
    """Whether a line belongs to a bidder's own view."""
    return line.kind == "close" or line.name == name


def read_auction(award_file: str, log_file: str, name: str) -> Auction:
    """The auction of a log, or of a bidder's own view; the bidder is one of the award."""
    award = read_award(load(award_file, "award"))
    bidder_of(name, award)
    lines, is_view = read_log_or_view(load(log_file, "log"), award)
    return replay(award, [line for line in lines if own(line, name)] if is_view else lines)


def least_of(auction: Auction, j: BidderNumber, package: Package) -> Gross:
    """The least amount that may be drafted for a package: its reserve, and what it was asked for at in the clock."""
    return Gross(max(auction.award.reserve_of(package), auction.highest_in_clock(j).get(package, Gross(0))))


def indented(sentences: str) -> Iterator[str]:
    """Sentences, a line each."""
    yield from ("  " + sentence for sentence in sentences.replace(". ", ".\n").split("\n"))


def listed_words(listed: Mapping[Package, Gross], package: Package, cap: Cap | None) -> str:
    """The amount of a package on the list, and by how much it is above its cap."""
    amount, most = listed.get(package), cap.amount if cap else None
    above = f" above by {amount - most}" if amount is not None and most is not None and amount > most else ""
    return f"listed {'no' if amount is None else amount}{above}"


def package_lines(
    auction: Auction, j: BidderNumber, listed: Mapping[Package, Gross], package: Package
) -> Iterator[str]:
    """What may be offered for a package, as a line and in words."""
    award = auction.award
    name, draft = award.names[j - 1], Line(0, 0, "draft", award.names[j - 1], j, package)
    if fault := auction.package_fault(draft, award.eligibility(j)):
        yield f"package {counts(package)} {listed_words(listed, package, None)} refused {fault.text()}"
        yield f"  {reason(award, draft, fault)}"
    elif not any(package):
        yield f"package {counts(package)} {listed_words(listed, package, None)} refused empty"
        yield "  A package of nothing can't be drafted."
    else:
        cap = auction.caps(j).cap(listed, package)
        assert cap is not None  # the bidder is eligible for the package in round 1
        head = f"package {counts(package)} {listed_words(listed, package, cap)} least {least_of(auction, j, package)}"
        yield from cap_lines(head, cap)
        yield from indented(cap_words(award, name, cap))


def cap_lines(head: str, cap: Cap) -> Iterator[str]:
    """A cap as a line, and in an award of version 2 the cap by the final round as a second one."""
    if cap.amount is None:
        yield f"{head} no cap"
        return
    yield f"{head} {step_line('round', cap)}"
    if cap.final:
        yield step_line("  final", cap.final)


def step_line(word: str, cap: Cap) -> str:
    """What one round shows about a cap."""
    return (
        f"{word} {cap.constraining_round} held {counts(cap.held)} stands {cap.standing} prices {counts(cap.prices)} "
        f"cap {cap.by_round}"
    )


def clock_package_lines(auction: Auction, j: BidderNumber, package: Package) -> Iterator[str]:
    """Whether a package may be asked for in the open round, and its cap as if the clock ended with the round as it
    is."""
    award, here = auction.award, auction.running_round
    bid = Line(0, 0, "bid", award.names[j - 1], j, package)
    points, price = award.points_of(package), cost(here, package)
    fault = auction.package_fault(bid, here.eligibility[j - 1])
    head = f"package {counts(package)} points {points} costs {price}"
    yield f"{head} refused {fault.text()}" if fault else f"{head} left {here.eligibility[j - 1] - points}"
    if fault:
        yield f"  {reason(award, bid, fault)}"
    if not any(package) or auction.package_fault(bid, award.eligibility(j)):
        return
    cap = caps_if_ended(auction, j).cap({}, package)
    assert cap is not None  # the bidder is eligible for the package in round 1
    yield from cap_lines("  if the clock ended now:", cap)
    yield from indented(cap_words(award, bid.name, cap))


def clock_lines(auction: Auction, j: BidderNumber, given: Sequence[Package]) -> Iterator[str]:
    """What a bidder may ask for in the open round: points, room in each spectrum cap, and its packages."""
    here = auction.running_round
    own = clock_states(auction)[j - 1]
    asks = counts(own.package) if own.activity == "asks" else own.activity
    points = f"eligible {own.eligibility} points {own.points} left {own.eligibility - own.points}"
    yield f"{own.name} round {here.number} open asks for {asks} {points}"
    yield from (f"spectrum cap {room.number} room {room.room} of {room.limit}" for room in own.rooms)
    asked = sorted({*auction.highest_in_clock(j), own.package})
    for package in given or [package for package in asked if any(package)]:
        yield from clock_package_lines(auction, j, package)


def fit_lines(auction: Auction, j: BidderNumber) -> Iterator[str]:
    """The greatest list that is admitted and has no amount above the draft list's amount, then the lines that lead to
    it."""
    name, drafts = auction.award.names[j - 1], dict(auction.drafts(j))
    fitted = auction.caps(j).fitted(drafts)
    lowered = {package: amount for package, amount in sorted(fitted.items()) if amount < drafts[package]}
    yield f"{name} list {len(drafts)} lowered {len(lowered)}"
    for package, amount in sorted(drafts.items()):
        by = f" lowered by {amount - lowered[package]}" if package in lowered else ""
        yield f"package {counts(package)} wanted {amount} fits {fitted[package]}{by}"
    yield "the lines that lead to it:"
    lines = [Line(0, 0, "draft", name, j, package, amount) for package, amount in lowered.items()]
    yield from map(record_text, [*lines, Line(0, 0, "submit", name, j)])


def fit(auction: Auction, j: BidderNumber) -> str:
    """The greatest list that is admitted, while lists are taken."""
    if auction.stage != "sealed":
        why = "the clock is running" if auction.stage == "clock" else "the auction is closed"
        raise Stop(f"no list is fitted: {why}", NO)
    return "\n".join(fit_lines(auction, j))


def caps(options: argparse.Namespace) -> str:
    """What a bidder may ask for or offer, the greatest list that is admitted, or its own view of the log."""
    auction = read_auction(options.award, options.log, options.bidder)
    j = auction.award.number_of(options.bidder)
    for flag, is_given in (("--view", options.view), ("--fit", options.fit)):
        if is_given and options.package:
            parser().error(f"{flag} takes no package, and {' '.join(options.package)} is given")
    if options.view and options.fit:
        parser().error("--view and --fit are asked one at a time")
    if options.view:
        return view_text(auction, j).rstrip("\n")
    if options.fit:
        return fit(auction, j)
    given = [package_of(options.package, auction.award)] if options.package else []
    if auction.final is None:
        return "\n".join(clock_lines(auction, j, given))
    listed = dict(auction.drafts(j))
    held = auction.rounds[-1].packages[j - 1]
    lines = [f"{options.bidder} final round {auction.final} held {counts(held)} list {len(listed)}"]
    for package in given or sorted(listed):
        lines += package_lines(auction, j, listed, package)
    return "\n".join(lines)


def main(argv: Sequence[str]) -> int:
    """Runs the command with these arguments, and returns its status."""
    return run_command(parser(), caps, argv)
