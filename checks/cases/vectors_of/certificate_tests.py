"""Cases of certificates that fail a test."""

from __future__ import annotations

import re

from checks.cases.samples import Bids, book_of
from checks.cases.vectors_of.cases import WIDE, Cases, auction_of, book_certificate, edited
from checks.cases.vectors_of.day_cramton import BOOK, CERT, DAY_AWARD, DAY_LOG, both


# For the certificate of Day and Cramton: what is changed, the answer, and why.
TESTS = [
    ("den 1", "den 0", "no C1 1", "the denominator is 0"),
    ("den 1", "den -1", "no C1 1", "the denominator is below 0"),
    ("value 48", "value -1", "no C1 2", "the value is below 0"),
    ("value 48", f"value {WIDE - 1}", "no C1 3", "the denominator times (the value + 1) is 2^120"),
    ("den 1", f"den {2**119}", "no C1 3", "the product leaves 128 bits"),
    ("choice 1 1 0 0 0", "choice 2 1 0 0 0", "no C2 1", "bidder 1 has no second bid"),
    ("choice 1 1 0 0 0", "choice 1 2 0 0 0", "no C2 2", "bidder 2 has no second bid"),
    ("choice 1 1 0 0 0", "choice 1 65535 0 0 0", "no C2 2", "the greatest number that a choice may have names no bid"),
    ("value 48", "value 47", "no C2 7", "the choice is worth more than the value"),
    (
        "t 0 20 28 48\n",
        "t 0 20 28 47\n",
        "no C3 3",
        "line 0 is below line 1 with the bid of bidder 1, at the whole supply",
    ),
    ("t 0 20 14 34", "t 0 20 14 33", "no C3 7", "line 1 is too low at the whole supply"),
    ("t 0 20 14 34", "t 0 20 13 34", "no C3 6", "line 1 is below line 2"),
    ("t 0 0 0 0\nwithout", "t -1 0 0 0\nwithout", "no C3 20", "the last line is below 0 at its first place"),
    ("t 0 0 0 0\nwithout", "t 0 -1 0 0\nwithout", "no C3 21", "the last line is below 0 at its second place"),
    ("t 0 20 28 48", "t 0 20 28 49", "no C3 24", "line 0 at the whole supply is above the value"),
    (
        "choice 0 1 0 1 0",
        "choice 0 1 0 0 0",
        "no C4 1",
        "the table without bidder 1 says more than its choice is worth",
    ),
    ("choice 0 1 0 1 0", "choice 0 9 0 1 0", "no C4 1", "the choice without bidder 1 isn't known"),
    ("choice 0 1 0 1 0", "choice 0 1 2 1 0", "no C4 1", "a choice that needs no bid of bidder 3 names a second one"),
    ("choice 0 1 0 1 0", "choice 0 1 0 1 7", "no C4 1", "a choice that needs no bid of bidder 5 names a seventh one"),
    ("choice 0 1 0 1 0", "choice 1 1 0 0 0", "no C4 1", "the choice without bidder 1 uses it"),
    ("choice 0 1 0 1 0", "choice 0 1 1 0 0", "no C4 1", "the choice without bidder 1 doesn't fit"),
    (
        "1 0\ntable\nt 0 20 14 34\nt 0 20 14 34",
        "1 0\ntable\nt 0 20 14 34\nt 0 20 13 34",
        "no C4 1",
        "the table without bidder 1 is too low",
    ),
    (
        "0 1\ntable\nt 0 12 28 40\nt 0 12 14 32",
        "0 1\ntable\nt 0 12 28 40\nt 0 11 14 32",
        "no C4 2",
        "the table without bidder 2 is too low",
    ),
    ("pay 17 15 0 0 0", "pay 17 15 0 0 1", "no C5 5", "a loser pays"),
    ("pay 17 15 0 0 0", "pay 17 15 -1 0 0", "no C5 3", "a loser is paid"),
    ("pay 17 15 0 0 0", "pay 29 3 0 0 0", "no C5 1", "a winner pays more than it bid"),
    ("pay 17 15 0 0 0", "pay 33 -1 0 0 0", "no C5 1", "of two payments that are wrong the first is told"),
    ("pay 17 15 0 0 0", "pay 17 -1 0 0 0", "no C5 2", "a winner pays less than nothing"),
    ("choice 0 0 1 0 0", "choice 1 0 0 0 0", "no C6 1", "the choice of a row uses a member"),
    ("choice 0 0 1 0 0", "choice 0 0 2 0 0", "no C6 1", "the choice of a row isn't known"),
    ("choice 0 0 1 0 0", "choice 0 0 1 1 0", "no C6 1", "the choice of a row doesn't fit"),
    ("choice 0 0 1 0 0", "choice 0 0 1 2 0", "no C6 1", "the choice of a row names a second bid of bidder 4"),
    ("choice 0 0 1 0 0", "choice 0 0 1 9 0", "no C6 1", "the choice of a row names a ninth bid of bidder 4"),
    ("row 1 2", "row 1 3", "no C6 1", "a member of a row loses"),
    ("row 1 2", "row 1 2 4", "no C6 1", "a member of a row loses and pays nothing, as the choice asks"),
    ("pay 17 15 0 0 0", "pay 17 14 0 0 0", "no C6 1", "the members of a row pay less than its choice asks"),
    ("pay 17 15 0 0 0", "pay 17 16 0 0 0", "no C6 1", "the members of a row pay more than its choice asks"),
    ("mult 1 3", "mult -1 3", "no C7 1", "a first multiplier is below 0"),
    ("mult 1 3", "mult 2 3", "no C7 2", "the first multipliers come to more than the denominator"),
    ("mult 1 3", "mult 0 3", "no C7 2", "the first multipliers come to less than the denominator"),
    (
        "mult 1 3",
        "mult 1 2",
        "no C8 2",
        "the second multipliers come to less than bidder 1 pays above its Vickrey price",
    ),
    ("mult 1 3", "mult 1 -3", "no C8 2", "the second multiplier has the other sign"),
    ("mult 1 3", f"mult 1 {WIDE - 1}", "no C8 2", "the greatest second multiplier"),
    ("mult 1 3", f"mult 1 {1 - WIDE}", "no C8 2", "the least second multiplier"),
    ("t 0 15 17 32", "t 0 15 17 33", "no C9 24", "the lowered table says more than all pay"),
    ("lowered\nt 0 15", "lowered\nt -1 15", "no C9 0", "the lowered table is below 0 where nothing is left"),
    ("t 0 15 17 32\nt 0 15 14 32", "t 0 15 17 32\nt 0 14 14 32", "no C9 5", "the lowered table is too low in line 1"),
    ("t 0 15 14 32\nt 0 12 14 32", "t 0 15 14 32\nt 0 12 14 31", "no C9 11", "the lowered table is too low in line 2"),
]


def certificate_tests(v: Cases) -> None:
    """Each of `TESTS`, after the example itself in an auction."""
    v.case("day-cramton-audited", "an auction with the book of the example", "audit", (DAY_AWARD, DAY_LOG, CERT), "yes")
    for number, (was, put, answer, why) in enumerate(TESTS, 1):
        both(v, f"test-{number}", why, edited(CERT, was, put), answer)


def packed_lines(v: Cases) -> None:
    """Tables for a checker that keeps the entries of a line as one number, with some bits for each."""
    both: Bids = [[((0, 1), 100), ((1, 1), 100)]] * 2
    why = (
        "an entry and a worth are of seven bits each, and their sum is of eight at a place where the package "
        "doesn't fit"
    )
    cert, answer = book_certificate((1, 1), (0, 0), both), "* winner b1 0 1 bid 100 vickrey 100 pays 100"
    v.case("sum-of-eight-bits", why, "check", (book_of((1, 1), both), cert), answer)
    v.case("sum-of-eight-bits-audited", why, "audit", (*auction_of((1, 1), both), cert), answer)
    first, last = CERT.index(b"table\n") + len("table\n"), CERT.index(b"without")
    raised = CERT[:first] + re.sub(rb"\d+", lambda entry: b"%d" % (int(entry[0]) + 1), CERT[first:last]) + CERT[last:]
    why = "each entry is one too high, so that none is 0"
    v.case("no-entry-of-0", why, "check", (BOOK, raised), "no C3 24")
    v.case("no-entry-of-0-audited", why, "audit", (DAY_AWARD, DAY_LOG, raised), "no C3 24")
