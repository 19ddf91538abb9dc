"""Cases of choices of the same value: the first one wins."""

from __future__ import annotations

from collections.abc import Mapping, Sequence

from checks.cases.samples import Bids, Package, Row, book_of, certificate_of
from checks.cases.vectors_of.cases import Cases, audits, auction_of, book_certificate, edited


IDLE = [[((1,), 0)], [((1,), 5)]]


def of(
    supply: Package,
    bids: Bids,
    choice: Sequence[int],
    without: Mapping[int, Sequence[int]],
    pay: Sequence[int],
    rows: Sequence[Row],
) -> tuple[bytes, bytes]:
    """The book and the certificate of a choice, whole payments and rows."""
    return book_of(supply, bids), certificate_of(supply, bids, choice, without, 1, pay, rows)


def ties_of_bids(v: Cases) -> None:
    """Ties of the bids of one bidder, and of two bidders."""
    own = [[((1,), 5), ((2,), 9)], [((1,), 3)]]
    cert = certificate_of((2,), own, (2, 0), {1: (0, 1)}, 1, (3, 0), [((1,), 1, 0, (0, 1))])
    why = "bid 1 of bidder 1 would be worth more than its bid 2 only if it could win twice"
    v.case("no-tie-with-itself", why, "check", (book_of((2,), own), cert), "yes")
    v.case("no-tie-with-itself-audited", why, "audit", (*auction_of((2,), own), cert), "yes")

    tie = [[((1,), 5), ((2,), 9)], [((1,), 4)]]
    v.case(
        "tie-of-bids",
        "bidder 1 wins with bid 2, and bid 1 with that of bidder 2 is worth as much",
        "check",
        of((2,), tie, (2, 0), {1: (0, 1)}, (4, 0), [((1,), 1, 0, (0, 1))]),
        "no C3 10",
    )
    v.case(
        "tie-first",
        "the first of these choices",
        "check",
        (book_of((2,), tie), book_certificate((2,), (0,), tie)),
        "yes",
    )
    same = [[((1,), 9)], [((1,), 9)]]
    v.case(
        "tie-of-bidders",
        "bidder 2 wins, and bidder 1 offers as much",
        "check",
        of((1,), same, (0, 1), {2: (1, 0)}, (0, 9), [((2,), 1, 0, (1, 0))]),
        "no C3 7",
    )
    v.case(
        "tie-of-bidders-first",
        "of two bidders that offer the same the first wins, and pays its bid",
        "check",
        of((1,), same, (1, 0), {1: (0, 1)}, (9, 0), [((1,), 1, 0, (0, 1))]),
        "* winner b1 1 bid 9 vickrey 9 pays 9",
    )


def ties_of_later_bidders(v: Cases) -> None:
    """A tie at bidder 2, and one with no bid."""
    later = [[((1,), 5)], [((1,), 5), ((2,), 9)], [((1,), 4)]]
    v.case(
        "tie-of-a-later-bidder",
        "the tie is at bidder 2, behind what bidder 1 wins",
        "check",
        of((3,), later, (1, 2, 0), {1: (0, 2, 0), 2: (1, 0, 1)}, (0, 0, 0), []),
        "no C3 18",
    )
    v.case(
        "tie-of-a-later-bidder-audited",
        "the tie is at bidder 2, after what bidder 1 wins",
        "audit",
        (
            *auction_of((3,), later),
            certificate_of((3,), later, (1, 2, 0), {1: (0, 2, 0), 2: (1, 0, 1)}, 1, (0, 0, 0), []),
        ),
        "no C3 18",
    )
    v.case(
        "tie-with-nothing",
        "a bid that is worth 0 comes before no bid: bidder 1 has to win with it",
        "check",
        of((2,), IDLE, (0, 1), {2: (0, 0)}, (0, 0), [((2,), 1, 0, (0, 0))]),
        "no C3 10",
    )
    v.case(
        "tie-with-nothing-first",
        "bidder 1 wins with a bid that is worth 0",
        "check",
        (book_of((2,), IDLE), book_certificate((2,), (0,), IDLE)),
        "* winner b1 1 bid 0 vickrey 0 pays 0",
    )


def ties_in_tables(v: Cases) -> None:
    """A tie with no bid in an auction, and ties that a table doesn't exclude."""
    v.case(
        "tie-with-nothing-audited",
        "a bid that is worth 0 comes before no bid: bidder 1 has to win with it",
        "audit",
        (
            *auction_of((2,), IDLE),
            certificate_of((2,), IDLE, (0, 1), {2: (0, 0)}, 1, (0, 0), [((2,), 1, 0, (0, 0))]),
        ),
        "no C3 10",
    )
    loose = [[((1,), 4), ((2,), 9)], [((1,), 4)]]
    cert = certificate_of((2,), loose, (2, 0), {1: (0, 1)}, 1, (4, 0), [((1,), 1, 0, (0, 1))])
    v.case(
        "no-tie",
        "bid 1 of bidder 1 with that of bidder 2 is worth one less",
        "check",
        (book_of((2,), loose), cert),
        "yes",
    )
    v.case(
        "loose-table-and-tie",
        "a larger entry of the table doesn't show that bid 1 is worth less",
        "check",
        (book_of((2,), loose), edited(cert, "t 0 4 9\nt 0 4 4\n", "t 0 5 9\nt 0 5 4\n")),
        "no C3 10",
    )
    v.case("no-tie-audited", "bid 1 of bidder 1 is worth one less", "audit", (*auction_of((2,), loose), cert), "yes")


def ties_audited(v: Cases) -> None:
    """Ties in auctions: who is first in the award, and which package is first, decides."""
    same, tie = [[((1,), 9)], [((1,), 9)]], [[((1,), 5), ((2,), 9)], [((1,), 4)]]
    first = certificate_of((1,), same, (1, 0), {1: (0, 1)}, 1, (9, 0), [((1,), 1, 0, (0, 1))])
    second = certificate_of((1,), same, (0, 1), {2: (1, 0)}, 1, (0, 9), [((2,), 1, 0, (1, 0))])
    audits(
        v,
        "tie-of-bidders-first-audited",
        "of two bidders that offer the same the first of the award wins",
        *auction_of((1,), same),
        first,
        "yes",
    )
    audits(v, "tie-of-bidders-audited", "the second of them wins", *auction_of((1,), same), second, "no C3 7")
    cert = certificate_of((2,), tie, (2, 0), {1: (0, 1)}, 1, (4, 0), [((1,), 1, 0, (0, 1))])
    audits(
        v,
        "tie-of-bids-audited",
        "bid 1 with that of bidder 2 is worth as much as bid 2",
        *auction_of((2,), tie),
        cert,
        "no C3 10",
    )
    audits(
        v,
        "tie-of-bids-first-audited",
        "the first of these choices",
        *auction_of((2,), tie),
        book_certificate((2,), (0,), tie),
        "yes",
    )
