"""Cases of certificates that fail one test at one place and pass all others: a checker without this test accepts
them."""

from __future__ import annotations

from collections.abc import Sequence
from typing import Any

from checks.cases.samples import Row, book_of, certificate_of, lines
from checks.cases.vectors_of.cases import WIDE, Cases, auction_of, book_certificate, edited
from checks.cases.vectors_of.day_cramton import BOOK, CERT, DAY_AWARD, DAY_LOG, day


NIL = [[((1,), 0), ((2,), 9)], [((1,), 4)], [((1,), 0)], [((2,), 3)]]
FREE = [[((1,), 5)], [((1,), 4)]]
PAIR, NONE = ((2,), FREE), (0, 0)


def add(v: Cases, name: str, why: str, book: Any, cert: bytes, answer: str) -> None:
    """Adds a case of a book, and of an auction that has this book; a book is its text, or supply and bids."""
    text, auction = (book, (DAY_AWARD, DAY_LOG)) if book == BOOK else (book_of(*book), auction_of(*book))
    v.case(f"alone-{name}", f"nothing else fails: {why}", "check", (text, cert), answer)
    v.case(f"alone-{name}-audited", f"nothing else fails: {why}", "audit", (*auction, cert), answer)


def of_nil(
    without: Sequence[int] = (0, 1, 1, 0),
    row: Sequence[int] = (0, 1, 1, 0),
    members: Sequence[int] = (1,),
    pay: Sequence[int] = (4, 0, 0, 0),
) -> bytes:
    """A certificate of the book of `NIL`."""
    return certificate_of((2,), NIL, (2, 0, 0, 0), {1: without}, 1, pay, [(members, 1, 0, row)])


def of_pair(*rows: Row) -> bytes:
    """A certificate of the book of `PAIR`, with these rows."""
    return certificate_of((2,), FREE, (1, 1), {1: (0, 1), 2: (1, 0)}, 1, NONE, rows)


def denominators(v: Cases) -> None:
    """C1: the denominator, and its product with the value."""
    zeros = lines("cert 1 / den 0 / value 48 / choice 1 1 0 0 0")
    head = CERT[CERT.index(b"table") : CERT.index(b"pay")]
    tail = lines(
        "pay 0 0 0 0 0 / rows 1 / row 1 2 / mult 0 0 / choice 0 0 1 0 0 / lowered / t 0 0 0 0 / t 0 0 0 "
        "0 / t 0 0 0 0 / t 0 0 0 0 / t 0 0 0 0 / t 0 0 0 0 / end"
    )
    add(
        v,
        "denominator",
        "the denominator is 0, and so are payments and multipliers",
        BOOK,
        zeros + head + tail,
        "no C1 1",
    )
    great = (WIDE - 1) // 49
    for name, den, answer in (("product", great + 1, "no C1 3"), ("greatest-product", great, "yes")):
        cert = day(den=den, pay=(17 * den, 15 * den, 0, 0, 0), rows=[((1, 2), den, 3 * den, (0, 0, 1, 0, 0))])
        if answer == "yes":
            v.case(
                "greatest-denominator",
                "the greatest denominator that C1 allows for this value",
                "check",
                (BOOK, cert),
                answer,
            )
        else:
            add(v, name, "the denominator is greater by one than C1 allows", BOOK, cert, answer)


def choices(v: Cases) -> None:
    """C2: the value and the choice of the head."""
    add(
        v,
        "value",
        "the value is greater by one than the choice is worth, and the multipliers fit that",
        BOOK,
        edited(day(rows=[((1, 2), 1, 4, (0, 0, 1, 0, 0))]), "value 48", "value 49"),
        "no C2 7",
    )
    two = [[((1,), 5)], [((1,), 4)]]
    add(
        v,
        "fit",
        "the choice doesn't fit",
        ((1,), two),
        certificate_of(
            (1,), two, (1, 1), {1: (0, 1), 2: (1, 0)}, 1, (0, 0), [((1,), 1, 0, (0, 1)), ((2,), 1, 0, (1, 0))]
        ),
        "no C2 3",
    )


def heads(v: Cases) -> None:
    """C3: the table of the head."""
    add(
        v,
        "head-bid",
        "the head's table is too low for a bid, at a place that nothing else looks at",
        BOOK,
        edited(CERT, "t 0 20 28 48", "t 0 20 27 48"),
        "no C3 2",
    )
    add(
        v,
        "head-next-line",
        "line 0 of the head's table is below line 1",
        ((2,), [[], [((1,), 5)]]),
        edited(
            book_certificate((2,), (0,), [[], [((1,), 5)]]),
            "t 0 5 5\nt 0 5 5\nt 0 0 0\nwithout",
            "t 0 4 5\nt 0 5 5\nt 0 0 0\nwithout",
        ),
        "no C3 1",
    )
    add(
        v,
        "head-last-line",
        "the last line of the head's table is below 0",
        BOOK,
        edited(CERT, "t 0 0 0 0\nwithout", "t -1 0 0 0\nwithout"),
        "no C3 20",
    )


def parts(v: Cases) -> None:
    """C3 and C4: the last entry of the head's table, and the tables without a winner."""
    add(
        v,
        "head-top",
        "the head's table says more of the whole supply than the value",
        BOOK,
        edited(CERT, "t 0 20 28 48", "t 0 20 28 49"),
        "no C3 24",
    )
    add(
        v,
        "part-bid",
        "the table without bidder 1 is too low for a bid",
        BOOK,
        edited(
            CERT,
            "1 0\ntable\nt 0 20 14 34\nt 0 20 14 34\nt 0 12 14 32\nt 0 12 14 26",
            "1 0\ntable\nt 0 20 14 34\nt 0 20 14 34\nt 0 12 14 32\nt 0 12 13 26",
        ),
        "no C4 1",
    )
    add(
        v,
        "part-last-line",
        "the last line of the table without bidder 2 is below 0",
        BOOK,
        edited(CERT, "t 0 0 0 0\npay", "t 0 0 -1 0\npay"),
        "no C4 2",
    )
    add(
        v,
        "part-top",
        "the table without bidder 2 says more than its choice is worth",
        BOOK,
        edited(CERT, "t 0 12 28 40", "t 0 12 28 41"),
        "no C4 2",
    )


def bids_of_nothing(v: Cases) -> None:
    """C4 and C6: choices with bids that are worth 0."""
    text = book_of((2,), NIL)
    v.case(
        "bids-of-nothing",
        "bids that are worth 0, in the choice of a part and of a row",
        "check",
        (text, of_nil()),
        "yes",
    )
    add(
        v,
        "part-own-bid",
        "the choice without bidder 1 gives it a bid that is worth 0",
        ((2,), NIL),
        of_nil(without=(1, 1, 0, 0)),
        "no C4 1",
    )
    add(
        v,
        "row-own-bid",
        "the choice of a row gives its member a bid that is worth 0",
        ((2,), NIL),
        of_nil(row=(1, 1, 0, 0)),
        "no C6 1",
    )
    add(
        v,
        "row-loser",
        "a member of a row loses, and pays 0",
        ((2,), NIL),
        of_nil(members=(1, 3), row=(0, 1, 0, 0)),
        "no C6 1",
    )


def choices_that_fit(v: Cases) -> None:
    """C4, C5 and C6: choices that don't fit, and payments that are too high."""
    over = [[((1,), 9)], [((1,), 4)], [((1,), 0)]]
    cert = certificate_of((1,), over, (1, 0, 0), {1: (0, 1, 1)}, 1, (4, 0, 0), [((1,), 1, 0, (0, 1, 0))])
    add(
        v,
        "part-fit",
        "the choice without bidder 1 doesn't fit, by a bid that is worth 0",
        ((1,), over),
        cert,
        "no C4 1",
    )
    cert = certificate_of((1,), over, (1, 0, 0), {1: (0, 1, 0)}, 1, (4, 0, 0), [((1,), 1, 0, (0, 1, 1))])
    add(v, "row-fit", "the choice of a row doesn't fit, by a bid that is worth 0", ((1,), over), cert, "no C6 1")
    add(v, "loser-pays", "a loser pays 1", BOOK, edited(CERT, "pay 17 15 0 0 0", "pay 17 15 0 0 1"), "no C5 5")
    add(
        v,
        "demand",
        "a winner pays more than its row asks, and the rest fits that",
        ((1,), [[((1,), 9)], [((1,), 5)]]),
        certificate_of((1,), [[((1,), 9)], [((1,), 5)]], (1, 0), {1: (0, 1)}, 1, (6, 0), [((1,), 1, 1, (0, 1))]),
        "no C6 1",
    )


def signs(v: Cases) -> None:
    """C7 and C8: the signs of multipliers, and their sums."""
    pair, none = PAIR, NONE

    v.case(
        "two-that-pay-nothing",
        "two winners without a competitor",
        "check",
        (book_of(*pair), of_pair(((1, 2), 1, 0, none))),
        "yes",
    )
    add(
        v,
        "first-sign",
        "a first multiplier is below 0, and the sums are right",
        pair,
        of_pair(((1, 2), 2, 0, none), ((1,), -1, 0, (0, 1)), ((2,), -1, 0, (1, 0))),
        "no C7 2",
    )
    add(v, "first-sum", "the first multipliers of bidder 2 come to 0", pair, of_pair(((1,), 1, 0, (0, 1))), "no C7 3")
    add(
        v,
        "second-sign",
        "a second multiplier is below 0 where the first is 0, and the sums are right",
        pair,
        of_pair(((1, 2), 1, 1, none), ((1,), 0, -1, (0, 1)), ((2,), 0, -1, (1, 0))),
        "no C8 2",
    )
    add(
        v,
        "second-sum",
        "the second multipliers come to 1, and nobody pays above its Vickrey price",
        pair,
        of_pair(((1, 2), 1, 1, none)),
        "no C8 2",
    )


def nearest(v: Cases) -> None:
    """C8 and C9: payments that others are nearer than, or that are blocked."""
    cert = day(pay=(14, 18, 0, 0, 0), rows=[((1,), 0, 6, (0, 1, 0, 1, 0)), ((1, 2), 1, -6, (0, 0, 1, 0, 0))])
    add(
        v,
        "second-size",
        "bidder 2's second multiplier is of the right size and of the other sign",
        BOOK,
        cert,
        "no C8 4",
    )
    add(
        v,
        "nearest",
        "the payments have the least sum, and others of that sum are nearer to the Vickrey prices",
        BOOK,
        day(pay=(16, 16, 0, 0, 0)),
        "no C8 2",
    )
    cert = day(pay=(14, 12, 0, 0, 0), rows=[((1,), 1, 0, (0, 1, 0, 1, 0)), ((2,), 1, 0, (1, 0, 0, 0, 1))])
    add(v, "blocked", "the payments are the Vickrey prices, and bidder 3 offers more", BOOK, cert, "no C9 24")
    cert = day(rows=[((1, 2), 1, 5, (0, 0, 1, 0, 0)), ((1, 2), 0, -2, (0, 0, 1, 0, 0))])
    add(
        v,
        "second-sign-of-two",
        "one row twice, the second time with a second multiplier below 0",
        BOOK,
        cert,
        "no C8 2",
    )


def lowered_tables(v: Cases) -> None:
    """C9: the lowered table."""
    add(
        v,
        "lowered-bid",
        "the lowered table is too low for a bid",
        BOOK,
        edited(CERT, "t 0 15 17 32\nt 0 15 14 32", "t 0 14 17 32\nt 0 15 14 32"),
        "no C9 1",
    )
    add(
        v,
        "lowered-last-line",
        "the last line of the lowered table is below 0",
        BOOK,
        edited(CERT, "t 0 0 0 0\nend", "t 0 0 0 -1\nend"),
        "no C9 23",
    )
    add(
        v,
        "lowered-top",
        "the lowered table says one more than all pay",
        BOOK,
        edited(CERT, "t 0 15 17 32", "t 0 15 17 33"),
        "no C9 24",
    )
