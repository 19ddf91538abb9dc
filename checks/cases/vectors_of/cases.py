"""What takes the cases of vectors/, and what several modules of cases need."""

from __future__ import annotations

from collections.abc import Iterable, Sequence
from typing import Protocol

from cca_tools.rules.book import Book
from checks.cases import small_certs
from checks.cases.samples import Bids, Package, lines
from checks.cases.searches import Bidders


WIDE = 2**120
HEADS = {1: ("cert 1",), 2: ("cert 2", "limits 16 16384")}


class Cases(Protocol):
    """What takes the cases. `auctions` has of each case of `auction` its name, why, award and log."""

    auctions: list[tuple[str, str, bytes, bytes]]

    def case(
        self,
        name: str,
        why: str,
        command: str,
        texts: Sequence[bytes | str],
        answer: str | None = None,
        made: Sequence[tuple[str, int, str]] = (),
    ) -> None:
        """Takes a case of a command: its texts, or names of files as str that are there or missing, and the first line
        of its answer if it is known."""

    def book(self, award: bytes, log: bytes) -> Book | None:
        """The book of an award and a log, or None if there is none."""


def book_certificate(
    supply: Sequence[int], reserves: Sequence[int], bids: Bids, weights: Sequence[int] | None = None
) -> bytes:
    """The certificate of a small book with few winners."""
    made = small_certs.book_certificate(supply, reserves, bids, weights)
    assert made is not None
    return made


def place_certificate(bidders: Bidders) -> bytes:
    """The certificate of slots with few winners."""
    made = small_certs.place_certificate(bidders)
    assert made is not None
    return made


def edited(text: bytes, was: str, put: str) -> bytes:
    """The text with the first place of a part replaced."""
    if was.encode() not in text:
        raise ValueError(f"no {was} in {text!r}")
    return text.replace(was.encode(), put.encode(), 1)


def auction_of(supply: Package, bids: Bids) -> tuple[bytes, bytes]:
    """The award and the log of an auction with this book, without reserves.

    Each bidder asks for its last package at 0. If that is more than the supply in each category all prices rise beyond
    any bid, and then all ask for nothing. If it is within the supply the clock ends, and what is held has no cap.
    """
    asked = [one[-1][0] if one else (0,) * len(supply) for one in bids]
    excess = [sum(package[c] for package in asked) - most for c, most in enumerate(supply)]
    if min(excess) <= 0 < max(excess) or max(excess) <= 0 and any(len(one) > 1 for one in bids):
        raise ValueError(f"no auction of one or two rounds has this book: {supply} {bids}")
    award = "version = 1\ntick = 1000\nstep = [{excess = 1, permille = 1}]\n"
    award += "".join(
        f'[[category]]\nname = "c{c}"\nsupply = {most}\npoints = 0\nreserve = 0\n' for c, most in enumerate(supply)
    )
    award += "".join(f'[[bidder]]\nname = "b{j}"\neligibility = 0\n' for j, _ in enumerate(bids, 1))
    text = [f"bid,b{j},{spaced(package)}," for j, package in enumerate(asked, 1) if any(package)]
    text += ["close,,,"] * (2 if max(excess) > 0 else 1)
    for j, one in enumerate(bids, 1):
        text += [*(f"draft,b{j},{spaced(package)},{amount}" for package, amount in one), f"submit,b{j},,"]
    return award.encode(), lines(" / ".join([*text, "close,,,"]))


def spaced(counts: Iterable[int]) -> str:
    """Counts with a space between them."""
    return " ".join(map(str, counts))


def audits(v: Cases, name: str, why: str, award: bytes, log: str | bytes, cert: bytes, answer: str | None) -> None:
    """A case of `audit`. The log is its bytes, or its lines as one text that ` / ` separates."""
    v.case(name, why, "audit", (award, lines(log) if isinstance(log, str) else log, cert), answer)
