"""The prices of an auction of a study: the program finds them, and this package tests some of their certificates.

An auction with a clock is an award and a log, which the program takes through its own rules. One with only sealed bids
is a book.
"""

from __future__ import annotations

import pathlib
import subprocess
from collections.abc import Sequence
from dataclasses import dataclass

from cca_tools.data.numbers import exact
from cca_tools.data.prices import BY_PROGRAM, BY_TOOL, Prices, is_beyond, need_program, prices_of, stop_of
from cca_tools.pricing.judges import Asked
from cca_tools.pricing.making import make_certificate
from cca_tools.rules.auction import Auction
from cca_tools.rules.award import Award
from cca_tools.rules.book import Book, book_text
from cca_tools.rules.certificate import read_certificate
from cca_tools.rules.certificate_tests import first_fault
from cca_tools.rules.printing import price_lines
from cca_tools.rules.scratch import need_written, scratch_folder
from cca_tools.rules.stops import CRASH, DONE, Stop
from cca_tools.rules.view import record_text
from cca_tools.studies.bidding import sealed_book
from cca_tools.studies.origin import program_sum
from cca_tools.studies.plan import award_text
from cca_tools.studies.rehearsal import held
from cca_tools.studies.strategies import Strategy
from cca_tools.studies.values import Values

# The programs whose auctions this process has audited.
audited = set[str]()


@dataclass(frozen=True)
class Held:
    """An auction after it was run: its clock, or None if all bids were sealed, and its book, None if a limit stopped
    the clock."""

    award: Award
    auction: Auction | None
    known: Book | None

    @property
    def book(self) -> Book:
        """The book. A `Stop` of status 7 if a limit stopped the clock."""
        if self.known is None:
            assert self.auction is not None
            return self.auction.need_book()
        return self.known

    def files(self) -> dict[str, bytes]:
        """The files that the program prices, by their kinds: an award and a log, or a book."""
        if self.auction is None:
            return {"book": book_text(self.book)}
        return {"award": award_text(self.award).encode(), "log": log_text(self.auction)}

    @property
    def command(self) -> str:
        """The command of the program that finds the prices of these files."""
        return "price" if self.auction is None else "award"


def hold(award: Award, values: Sequence[Values], strategies: Sequence[Strategy], has_clock: bool) -> Held:
    """The auction of bidders with these values and strategies."""
    if not has_clock:
        return Held(award, None, sealed_book(award, values, strategies))
    auction = held(award, values, strategies)
    return Held(award, auction, None if auction.limit_stop else auction.need_book())


def log_text(auction: Auction) -> bytes:
    """The log of an auction."""
    return "".join(f"{record_text(line)}\n" for line in auction.lines).encode()


def awarded(found: Held, is_audited: bool) -> Prices:
    """What the program awards, or what `pricing` finds and the program tests if more bidders win than it prices. If the
    auction is audited, this package tests the certificate too."""
    with scratch_folder() as folder:
        return awarded_in(found, folder, is_audited)


def awarded_in(found: Held, folder: pathlib.Path, is_audited: bool) -> Prices:
    """These prices; the files of the auction are written into a folder, and its certificate `cert` if it is audited."""
    paths = [folder / kind for kind in found.files()]
    for path, data in zip(paths, found.files().values()):
        path.write_bytes(data)
    cert, names = folder / "cert", list(map(str, paths))
    words = [need_program(), found.command, *names, str(cert) if is_audited else "/dev/null"]
    run = subprocess.run(words, stdin=subprocess.DEVNULL, capture_output=True)
    lines, found_by = run.stdout.decode("utf-8", "replace").splitlines(), BY_PROGRAM
    need_written(run.returncode)
    if run.returncode != DONE:
        stop = stop_of(lines, run.returncode, run.stderr.decode("utf-8", "replace"))
        if not is_beyond(stop):
            raise stop
        made = make_certificate(Asked(names), found.book, str(cert))
        lines, found_by = made.lines[1:], BY_TOOL
    if is_audited:
        need_pass(found.book, cert.read_bytes(), lines)
        audited.add(program_sum())
    return prices_of(found.award.names, found.award.reserves, lines, found_by)


def need_pass(book: Book, cert: bytes, lines: Sequence[str]) -> None:
    """Stops if a certificate fails, or says other prices than were printed."""
    certificate = read_certificate(cert, book)
    fault = first_fault(book, certificate)
    if fault or list(price_lines(certificate)) != list(lines):
        why = fault.text() if fault else "the certificate has other prices than were printed"
        raise Stop("cca: audit", CRASH, why=f"the independent audit of a certificate fails: {why}")


def need_bounds(prices: Prices) -> None:
    """Stops if a price is below the Vickrey price or above the bid: no core outcome has such a price."""
    for row in prices.winners:
        if not row.reserve <= row.vickrey <= row.pays <= row.bid:
            why = (
                f"{row.bidder} has the reserve {row.reserve}, the Vickrey price {row.vickrey}, the price"
                f" {exact(row.pays)} and the bid {row.bid}, which aren't in this order"
            )
            raise Stop("cca: audit", CRASH, why=why)
