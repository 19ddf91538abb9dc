"""Cases of certificates that pass, and of similar ones that are refused."""

from __future__ import annotations

from checks.cases.samples import Row, book_of, certificate_of, lines, sample, six_bidders
from checks.cases.vectors_of.cases import Cases, auction_of, book_certificate, edited
from checks.cases.vectors_of.day_cramton import BOOK, CERT, DAY, DAY_BIDS, DAY_WITHOUT


LOCALS = [[((1, 0, 0), 10)], [((0, 1, 0), 10)], [((0, 0, 1), 10)]]


def same_prices(v: Cases) -> None:
    """Certificates of the same prices in other forms."""
    v.case("day-cramton", "the example of docs/CERTIFICATES.md", "check", (BOOK, CERT), "yes")
    scaled = certificate_of((1, 1), DAY_BIDS, DAY, DAY_WITHOUT, 3, (51, 45, 0, 0, 0), [((1, 2), 3, 9, (0, 0, 1, 0, 0))])
    v.case("other-denominator", "the same prices over a denominator of 3", "check", (BOOK, scaled), "yes")
    rows = [((1, 2), 1, 1, (0, 0, 1, 0, 0)), ((1, 2), 0, 2, (0, 0, 1, 0, 0))]
    v.case(
        "row-twice",
        "one row twice, with its multipliers split",
        "check",
        (BOOK, certificate_of((1, 1), DAY_BIDS, DAY, DAY_WITHOUT, 1, (17, 15, 0, 0, 0), rows)),
        "yes",
    )
    v.case(
        "larger-entry",
        "an entry of a table is larger than it has to be",
        "check",
        (BOOK, edited(CERT, "t 0 20 28 48\nt 0 20 14 34\nt 0 12", "t 0 21 28 48\nt 0 20 14 34\nt 0 12")),
        "yes",
    )
    v.case(
        "head-part-of-table",
        "an entry of the last line is above 0",
        "check",
        (BOOK, edited(CERT, "t 0 12 0 12\nt 0 0 0 0\nwithout 1", "t 0 12 0 12\nt 0 0 0 1\nwithout 1")),
        "yes",
    )


def few_winners(v: Cases) -> None:
    """Books where nobody wins, or one bidder."""
    nobody = lines("cert 1 / den 1 / value 0 / choice / table / t 0 0 / pay / rows 0 / lowered / t 0 0 / end")
    v.case("nobody", "a book without a bidder", "check", (lines("book 1 / supply 1 / reserve 0 / end"), nobody), "yes")
    v.case(
        "nobody-with-rows",
        "without a bidder no row is possible, so the count of rows is the faulty line",
        "check",
        (lines("book 1 / supply 1 / reserve 0 / end"), nobody.replace(b"rows 0", b"rows 1")),
        "cca: refused cert 44",
    )
    v.case(
        "nobody-with-rows-audited",
        "without a bidder no row is possible, so the count of rows is the faulty line",
        "audit",
        (*auction_of((1,), []), nobody.replace(b"rows 0", b"rows 1")),
        "cca: refused cert 44",
    )
    v.case(
        "nobody-wins",
        "a bidder without a bid",
        "check",
        (book_of((1,), [[]]), certificate_of((1,), [[]], (0,), {}, 1, (0,), [])),
        "yes",
    )
    solo = lines("book 1 / supply 1 / reserve 50 / bidder solo / bid 1 50 / end")
    v.case(
        "at-reserve",
        "a bid at its reserve is worth 0 net, and wins",
        "check",
        (solo, certificate_of((1,), [[((1,), 50)]], (1,), {1: (0,)}, 1, (0,), [((1,), 1, 0, (0,))], reserves=(50,))),
        "* winner solo 1 bid 50 vickrey 50 pays 50",
    )


def thirds(v: Cases) -> None:
    """Payments that aren't whole numbers."""
    thirds = certificate_of(
        (1, 1, 1),
        [*LOCALS, [((1, 1, 1), 11)]],
        (1, 1, 1, 0),
        {1: (0, 1, 1, 0), 2: (1, 0, 1, 0), 3: (1, 1, 0, 0)},
        3,
        (11, 11, 11, 0),
        [((1, 2, 3), 3, 11, (0, 0, 0, 1))],
    )
    v.case(
        "thirds",
        "payments that aren't whole, and a revenue that is",
        "check",
        (book_of((1, 1, 1), [*LOCALS, [((1, 1, 1), 11)]]), thirds),
        "* winner b1 1 0 0 bid 10 vickrey 0 pays 3+2/3",
    )
    v.case(
        "thirds-audited",
        "an auction in which payments aren't whole",
        "audit",
        (*auction_of((1, 1, 1), [*LOCALS, [((1, 1, 1), 11)]]), thirds),
        "* winner b1 1 0 0 bid 10 vickrey 0 pays 3+2/3",
    )


def sixths_and_signs(v: Cases) -> None:
    """A fraction that is no longer in lowest terms, and a second multiplier below 0."""
    sixths = certificate_of(
        (1, 1, 1),
        [*LOCALS, [((1, 1, 1), 11)]],
        (1, 1, 1, 0),
        {1: (0, 1, 1, 0), 2: (1, 0, 1, 0), 3: (1, 1, 0, 0)},
        6,
        (22, 22, 22, 0),
        [((1, 2, 3), 6, 22, (0, 0, 0, 1))],
    )
    v.case(
        "sixths",
        "a fraction is printed in lowest terms",
        "check",
        (book_of((1, 1, 1), [*LOCALS, [((1, 1, 1), 11)]]), sixths),
        "* winner b1 1 0 0 bid 10 vickrey 0 pays 3+2/3",
    )
    chain = [*LOCALS, [((1, 1, 0), 8)], [((0, 1, 1), 8)]]
    without, first, last = (
        {1: (0, 1, 1, 0, 0), 2: (1, 0, 1, 0, 0), 3: (1, 1, 0, 0, 0)},
        (0, 0, 1, 1, 0),
        (1, 0, 0, 0, 1),
    )
    parts: list[Row] = [((1, 2), 1, 0, first), ((2, 3), 0, 8, last), ((3,), 1, -8, (1, 1, 0, 0, 0))]
    v.case(
        "negative-second",
        "a second multiplier below 0 where the first is above 0",
        "check",
        (
            book_of((1, 1, 1), chain),
            certificate_of((1, 1, 1), chain, (1, 1, 1, 0, 0), without, 1, (0, 8, 0, 0, 0), parts),
        ),
        "yes",
    )


def sizes(v: Cases) -> None:
    """Many winners, the greatest amounts and a larger table."""
    many = [[((1,), 5)]] * 11
    others = {j: tuple(int(k != j) for k in range(1, 12)) for j in range(1, 12)}
    v.case(
        "eleven-winners",
        "as many winners as fit: the check has no limit of winners",
        "check",
        (
            book_of((11,), many),
            certificate_of((11,), many, (1,) * 11, others, 1, (0,) * 11, [(range(1, 12), 1, 0, (0,) * 11)]),
        ),
        "* net 55",
    )
    most = 2**42
    wide = [*[[((1,), most)]] * 2, [((2,), most)]]
    v.case(
        "greatest-amounts", "amounts of 2^42", "check", (book_of((2,), wide), book_certificate((2,), (0,), wide)), "yes"
    )
    v.case(
        "six-bidders", "five winners and a larger table", "check", (sample("six-bidders.book"), six_bidders()), "yes"
    )


def reserves_and_rows(v: Cases) -> None:
    """Prices with their reserves, and as many rows as there may be."""
    reserves = (3, 5)
    bids = [[((0, 1), 9), ((1, 0), 8), ((1, 1), 20)], [((0, 1), 12)], [((1, 0), 11)], [((1, 1), 15)]]
    text = lines(
        "book 1 / supply 1 1 / reserve 3 5 / bidder w / bid 0 1 9 / bid 1 0 8 / bid 1 1 20 / bidder x / "
        "bid 0 1 12 / bidder y / bid 1 0 11 / bidder z / bid 1 1 15 / end"
    )
    v.case(
        "reserves",
        "payments and Vickrey prices are printed with the reserve",
        "check",
        (text, book_certificate((1, 1), reserves, bids)),
        "yes",
    )
    most_rows = [((1,), int(n == 0), 0, (0,)) for n in range(10)]
    v.case(
        "ten-rows",
        "as many rows as there may be",
        "check",
        (book_of((1,), [[((1,), 5)]]), certificate_of((1,), [[((1,), 5)]], (1,), {1: (0,)}, 1, (0,), most_rows)),
        "yes",
    )
