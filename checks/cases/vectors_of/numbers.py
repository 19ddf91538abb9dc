"""Cases of numbers near the limits of 128 bits. A checker with numbers of a fixed size may go wrong there."""

from __future__ import annotations

from checks.cases.samples import book_of, certificate_of, lines
from checks.cases.vectors_of.cases import WIDE, Cases, edited
from checks.cases.vectors_of.day_cramton import CERT, both


ONE = [[((1,), 1)]]


def denominators(v: Cases) -> None:
    """Great denominators, and second multipliers that add up to 2^120."""
    book = book_of((1,), ONE)
    for name, den in (("greatest", WIDE // 2 - 1), ("round", 2**100), ("odd", 3**70)):
        v.case(
            f"denominator-{name}",
            f"a denominator of {den}",
            "check",
            (book, certificate_of((1,), ONE, (1,), {1: (0,)}, den, (0,), [((1,), den, 0, (0,))])),
            "yes",
        )
    v.case(
        "denominator-of-nothing",
        "where the value is 0, the denominator may be 2^120 - 1",
        "check",
        (
            lines("book 1 / supply 1 / reserve 0 / end"),
            lines(f"cert 1 / den {WIDE - 1} / value 0 / choice / table / t 0 0 / pay / rows 0 / lowered / t 0 0 / end"),
        ),
        "yes",
    )
    rows = [((1,), 1, WIDE - 1, (0,)), *[((1,), 0, 0, (0,))] * 8, ((1,), 0, 1, (0,))]
    v.case(
        "second-multipliers-that-add",
        "ten second multipliers that come to 2^120",
        "check",
        (book, certificate_of((1,), ONE, (1,), {1: (0,)}, 1, (0,), rows)),
        "no C8 11",
    )


def multipliers(v: Cases) -> None:
    """Great multipliers, entries, payments and values."""
    book = book_of((1,), ONE)
    rows = [((1,), WIDE - 1, 0, (0,))] * 9 + [((1,), 0, 0, (0,))]
    v.case(
        "first-multipliers-that-add",
        "nine first multipliers of 2^120 - 1",
        "check",
        (book, certificate_of((1,), ONE, (1,), {1: (0,)}, 1, (0,), rows)),
        "no C7 11",
    )
    rows = [((1,), 1, WIDE - 1, (0,)), ((1,), 1, 1 - WIDE, (0,)), ((1,), -1, 0, (0,))]
    v.case(
        "multipliers-that-cancel",
        "multipliers at both ends that come to 0, and a first one below 0",
        "check",
        (book, certificate_of((1,), ONE, (1,), {1: (0,)}, 1, (0,), rows)),
        "no C7 3",
    )
    both(
        v,
        "entry-at-the-end",
        "an entry of 2^120 - 1 where an entry may be large",
        edited(CERT, "t 0 20 28 48", f"t {WIDE - 1} 20 28 48"),
        "yes",
    )
    both(
        v,
        "entries-at-the-end",
        "a bid asks for more than 2^120 where the next line is at its end",
        edited(CERT, "t 0 20 28 48\nt 0 20 14 34", f"t {WIDE - 1} 20 {WIDE - 1} 48\nt {WIDE - 1} 20 14 34"),
        "no C3 2",
    )
    both(v, "entry-below", "an entry of 1 - 2^120", edited(CERT, "t 0 20 28 48", f"t {1 - WIDE} 20 28 48"), "no C3 0")
    both(v, "pay-at-the-end", "a payment of 2^120 - 1", edited(CERT, "pay 17", f"pay {WIDE - 1}"), "no C5 1")
    both(v, "value-near-the-end", "a value of 2^119", edited(CERT, "value 48", f"value {2**119}"), "no C2 7")
