"""Runs a whole auction of bidders that follow their values, and writes its lines into LOG, which the program and the
other tools read. VALUES has a model for each bidder, in TOML; values are drawn from the seed, and are the same on every
machine:

    values = 1
    [[bidder]]
    names = ["everest", "harbour"]         # without it, all bidders that no other table has
    model = "additive"
    lot = [[90, 140], 60]                  # of each category the value of a lot, or the range of its draws
    decrease = [10, 30]                    # each further lot is worth this percentage less; without it, all are drawn
    complement = [{ lots = [1, 1], value = [20, 40] }]

`model = "packages"` has tables [[bidder.package]] with `lots` and `value`. `global` has `lot` and `synergy`, by how
many percent each further lot raises the worth of all (20), `local` has `lot`, `a` (320), `b` (10) and `neighbours`,
pairs of categories; in both `most` is the greatest number of lots that is worth something. Each table may also have
`share` (in percent), `shade` and `budget` (amounts): the bidder names that share of its values less the shade, and
never more than the budget.

In the clock each bidder is straightforward: it asks for the package of greatest profit within its points, its spectrum
caps, its budget and the supply; of several for one with the most points, and of these for the first in the order of
packages; for none if no profit is 0 or more. In the sealed round it lists each package (at most 300) with what it names
of its value, and submits. With --fit entries above their caps are lowered to them first; without it such a list is
refused. --share applies to the bidders whose tables have no share.

With --pace the lines come one by one. With --desk the closes are left to you: LOG is watched, and the bidders go on
when it has a close, so that a team can rehearse its day. Slips are lines that people send by mistake; they
are refused, and change no result. Statuses are as in docs/FORMATS.md. It doesn't model bidders that guess at each
other.
"""

from __future__ import annotations

import argparse
import os
import time
from collections.abc import Callable, Iterator, Sequence

from cca_tools.command_line import Parser, run_command
from cca_tools.rules.auction import Auction
from cca_tools.rules.award import Award, read_award
from cca_tools.rules.log import Line, read_log
from cca_tools.rules.printable import printable
from cca_tools.rules.stops import MOST, WRITE_FAULT, Stop, load
from cca_tools.rules.view import record_text
from cca_tools.rules.words import NUMBER
from cca_tools.studies.draws import draws_of
from cca_tools.studies.rehearsal import Rehearsal, held
from cca_tools.studies.slips import places_of, slipping
from cca_tools.studies.strategies import Strategy
from cca_tools.studies.values import Values, drawn_strategies, drawn_values, read_values

POLL = 0.2  # seconds


def parser() -> Parser:
    """The arguments of the command."""
    words = Parser("rehearse", __doc__)
    words.add_file("AWARD", "the terms of the auction")
    words.add_file("VALUES", "the values of its bidders")
    words.add_file("LOG", "where the lines are written; it has none yet")
    words.add_argument("--seed", metavar="N", default="1", help="draw the values and the slips from this number")
    words.add_argument("--fit", action="store_true", help="lower the entries of lists to their caps")
    words.add_argument("--share", metavar="PERCENT", default="100", help="name this share of each value in lists")
    words.add_argument("--pace", metavar="SECONDS", default="0", help="wait so long before each line")
    words.add_argument("--slips", metavar="N", default="0", help="mix in this number of slips")
    words.add_argument("--desk", action="store_true", help="leave the closes to you, and wait for them")
    return words


def whole_of(text: str, option: str, most: int) -> int:
    """The whole number of an option."""
    if not NUMBER.fullmatch(text) or int(text) > most:
        parser().error(f"{option} takes a whole number of at most {most}, and `{text}` isn't that")
    return int(text)


def seconds_of(text: str) -> float:
    """The seconds of --pace."""
    try:
        found = float(text)
    except ValueError:
        found = -1.0
    if not 0 <= found <= 3600:
        parser().error(f"--pace takes seconds from 0 to 3600, and `{text}` isn't that")
    return found


class LogFile:
    """The file that lines are appended to."""

    def __init__(self, name: str) -> None:
        self.name = name

    def append(self, line: Line) -> None:
        """Appends the record of a line."""
        try:
            with open(self.name, "ab") as file:
                file.write(f"{record_text(line)}\n".encode())
        except OSError as fault:
            why = f"`{printable(self.name)}` can't be written: {fault.strerror}"
            raise Stop("cca: write fault log", WRITE_FAULT, why=why) from None

    def lines(self, award: Award) -> list[Line]:
        """The lines that it has up to its last line feed; none if it isn't there."""
        if not os.path.exists(self.name):
            return []
        data = load(self.name, "log")
        return read_log(data[: data.rfind(b"\n") + 1], award)

    def need_empty(self) -> None:
        """Stops if it has lines already."""
        if os.path.exists(self.name) and load(self.name, "log"):
            why = f"`{printable(self.name)}` isn't empty, and a rehearsal begins an auction; name a new file"
            raise Stop("cca: write fault log", WRITE_FAULT, why=why)


def catch_up(auction: Auction, log: LogFile) -> None:
    """Takes the lines of the file that weren't taken yet."""
    for line in log.lines(auction.award)[len(auction.lines) :]:
        auction.take(line)


def stage_of(auction: Auction) -> tuple[str, int]:
    """Which round is open, or that lists are taken, or that all is over."""
    return auction.stage, len(auction.rounds)


def at_the_desk(rehearsal: Rehearsal, log: LogFile, slips: Callable[[Iterator[Line], int], Iterator[Line]]) -> None:
    """Appends what the bidders send, and leaves the closes to the desk: goes on when the file has one."""
    auction, sent = rehearsal.auction, 0
    catch_up(auction, log)
    while auction.stage != "closed" and not auction.limit_stop:
        stage = stage_of(auction)
        for line in slips(rehearsal.turn(), sent):
            if stage_of(auction) != stage:
                break
            log.append(line)
            catch_up(auction, log)
            sent += 1
        while stage_of(auction) == stage and not auction.limit_stop:
            time.sleep(POLL)
            catch_up(auction, log)


def alone(rehearsal: Rehearsal, log: LogFile, slips: Callable[[Iterator[Line], int], Iterator[Line]]) -> None:
    """Appends all lines, the closes too."""
    for line in slips(rehearsal.right_lines(), 0):
        rehearsal.auction.take(line)
        log.append(line)


def paced(lines: Iterator[Line], seconds: float) -> Iterator[Line]:
    """The lines, each after this number of seconds."""
    for line in lines:
        time.sleep(seconds)
        yield line


def summary(auction: Auction, values: Sequence[Values]) -> str:
    """What the log has."""
    refused = sum(not reply.is_ok for reply in auction.replies)
    known = sum(map(len, values))
    lines = [
        f"lines {len(auction.lines)} refused {refused} rounds {len(auction.rounds)} packages with values {known}",
        *(f"{name} {' '.join(map(str, package))}" for name, package in final_packages(auction)),
    ]
    if auction.limit_stop:
        lines.append(f"the auction stopped: {auction.limit_stop.why}")
    return "\n".join(lines)


def final_packages(auction: Auction) -> Iterator[tuple[str, tuple[int, ...]]]:
    """What each bidder asked for in the last round of the clock."""
    if auction.rounds:
        yield from zip(auction.award.names, auction.rounds[-1].packages)


def rehearse(options: argparse.Namespace) -> str:
    """Writes the lines, and says how many there are."""
    if options.log == "-":
        parser().error("LOG is a file, since its lines may be read again")
    seed, count = whole_of(options.seed, "--seed", 2**32 - 1), whole_of(options.slips, "--slips", MOST["records"])
    base, pace = Strategy(whole_of(options.share, "--share", 1000), fit=options.fit), seconds_of(options.pace)
    award = read_award(load(options.award, "award"))
    models, draws = read_values(load(options.values, "values"), award), draws_of(seed)
    values, strategies = drawn_values(award, models, draws), drawn_strategies(award, models, draws, base)
    log, rehearsal, slip_draws = LogFile(options.log), Rehearsal(award, values, strategies), draws.of("slip")
    places = places_of(held(award, values, strategies).lines, count, slip_draws) if count else []

    def slips(lines: Iterator[Line], at: int) -> Iterator[Line]:
        return paced(slipping(rehearsal.auction, lines, places, slip_draws, at), pace)

    if options.desk:
        at_the_desk(rehearsal, log, slips)
    else:
        log.need_empty()
        alone(rehearsal, log, slips)
    return summary(rehearsal.auction, values)


def main(argv: Sequence[str]) -> int:
    """Runs the command with these arguments, and returns its status."""
    return run_command(parser(), rehearse, argv)
