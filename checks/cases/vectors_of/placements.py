"""Cases of the placements of a band: those that pass, and those that fail a test."""

from __future__ import annotations

from checks.cases.samples import lines, sample
from checks.cases.vectors_of.cases import WIDE, Cases, edited, place_certificate


SLOTS = sample("band.slots")
PLACED = lines(
    "pcert 1 / den 1 / value 18 / order 1 3 2 / choice 1 1 0 / table / t 18 8 12 0 8 8 0 0 / without 1 / "
    "order 2 3 1 / choice 0 0 1 / table / t 12 8 12 0 8 8 0 0 "
    "/ without 2 / order 2 3 1 / choice 0 0 1 / table / t 12 0 12 0 0 0 0 0 / pay 7 5 0 / rows 1 / row 1 "
    "2 / mult 1 3 / order 2 3 1 / choice 0 0 1 / lowered / t 12 5 12 0 5 5 0 0 / end"
)
PLACE_TESTS = [
    ("den 1", "den 0", "no P1 1", "the denominator is 0"),
    ("value 18", "value -1", "no P1 2", "the value is below 0"),
    ("value 18", f"value {WIDE - 1}", "no P1 3", "the product is 2^120"),
    ("choice 1 1 0", "choice 2 1 0", "no P2 1", "bidder 1 has no second bid"),
    ("choice 1 1 0", "choice 1 2 0", "no P2 2", "bidder 2 has no second bid"),
    ("order 1 3 2", "order 3 1 2", "no P2 4", "bidder 1 doesn't start where its bid does"),
    ("order 1 3 2", "order 1 2 3", "no P2 4", "bidder 2 doesn't start where its bid does"),
    ("order 1 3 2", "order 1 3 3", "no P2 4", "bidder 3 twice"),
    ("order 1 3 2", "order 1 3 65535", "no P2 4", "there is no such bidder"),
    ("order 1 3 2", "order 1 3 0", "no P2 4", "there is no bidder 0"),
    ("value 18", "value 17", "no P2 5", "the choice is worth more than the value"),
    ("t 18 8", "t 17 8", "no P3 0", "the entry of nobody is too low"),
    ("t 18 8 12 0 8 8 0 0", "t 18 8 11 0 8 8 0 0", "no P3 2", "the entry of bidder 2 is too low for bidder 3 next"),
    ("t 18 8 12 0 8 8 0 0", "t 18 7 12 0 8 8 0 0", "no P3 1", "the entry of bidder 1 is below that with bidder 3"),
    ("t 18 8 12 0 8 8 0 0", "t 18 8 12 0 8 8 0 -1", "no P3 7", "the entry of all is below 0"),
    ("t 18 8 12 0 8 8 0 0", "t 19 8 12 0 8 8 0 0", "no P3 8", "the entry of nobody is above the value"),
    ("t 12 8 12", "t 13 8 12", "no P4 1", "the table without bidder 1 says more than its choice is worth"),
    ("t 12 0 12", "t 12 0 11", "no P4 2", "the table without bidder 2 is too low"),
    (
        "order 2 3 1\nchoice 0 0 1\ntable\nt 12 8",
        "order 3 2 1\nchoice 0 0 1\ntable\nt 12 8",
        "no P4 1",
        "the order of a part doesn't allow its choice",
    ),
    ("choice 0 0 1\ntable\nt 12 0", "choice 0 1 0\ntable\nt 12 0", "no P4 2", "the choice without bidder 2 uses it"),
    ("pay 7 5 0", "pay 7 5 1", "no P5 3", "a loser pays"),
    ("pay 7 5 0", "pay 11 1 0", "no P5 1", "a winner pays more than it bid"),
    ("row 1 2", "row 1 3", "no P6 1", "a member of a row loses"),
    ("pay 7 5 0", "pay 7 4 0", "no P6 1", "the members pay less than the row asks"),
    ("mult 1 3\norder 2 3 1", "mult 1 3\norder 1 2 3", "no P6 1", "the order of a row doesn't allow its choice"),
    ("mult 1 3", "mult -1 3", "no P7 1", "a first multiplier is below 0"),
    ("mult 1 3", "mult 2 3", "no P7 2", "the first multipliers come to more than the denominator"),
    ("pay 7 5 0", "pay 8 4 0", "no P8 2", "other payments are nearer"),
    ("mult 1 3", "mult 1 2", "no P8 2", "the second multipliers come to too little"),
    ("t 12 5 12", "t 13 5 12", "no P9 8", "the lowered table says more than all pay"),
    ("t 12 5 12", "t 12 4 12", "no P9 1", "the lowered table is too low"),
    ("pcert 1", "cert 1", "cca: refused cert 0", "the first line of a book's certificate"),
    ("order 1 3 2", "order 1 3", "cca: refused cert 23", "a number too few in an order"),
    ("order 1 3 2", "order 1 3 65536", "cca: refused cert 23", "a number above 65,535 in an order"),
    ("order 1 3 2\n", "", "cca: refused cert 23", "no order"),
    ("t 18 8 12 0 8 8 0 0", "t 18 8 12 0 8 8 0", "cca: refused cert 54", "an entry too few"),
    ("t 18 8 12 0 8 8 0 0", "t 18 8 12 0 8 8 0 0 0", "cca: refused cert 54", "an entry too many"),
    ("row 1 2", "row 1 4", "cca: refused cert 213", "there is no bidder 4"),
    ("end\n", "end\nx\n", "cca: refused cert 287", "a line behind the end"),
]


def placements(v: Cases) -> None:
    """The example, and a band without a bidder."""
    v.case("places", "the example of docs/CERTIFICATES.md", "place-check", (SLOTS, PLACED), "* placed z 3 1")
    v.case(
        "places-nobody",
        "a band without a bidder",
        "place-check",
        (
            lines("slots 1 / band 4 / end"),
            lines("pcert 1 / den 1 / value 0 / order / choice / table / t 0 / pay / rows 0 / lowered / t 0 / end"),
        ),
        "* value 0",
    )
    v.case(
        "places-nobody-with-rows",
        "without a bidder no row is possible",
        "place-check",
        (
            lines("slots 1 / band 4 / end"),
            lines("pcert 1 / den 1 / value 0 / order / choice / table / t 0 / pay / rows 1 / lowered / t 0 / end"),
        ),
        "cca: refused cert 49",
    )


def placements_at_the_ends(v: Cases) -> None:
    """Placements of the same value, and amounts beyond 128 bits that no rule asks for."""
    tie = [(1, [(1, 5), (2, 5)]), (1, [(1, 5), (2, 5)])]
    text = lines("slots 1 / band 2 / bidder a 1 / place 1 5 / place 2 5 / bidder b 1 / place 1 5 / place 2 5 / end")
    cert = place_certificate(tie)
    v.case("places-tie", "of two placements of the same value", "place-check", (text, cert), "yes")
    other = cert.replace(b"order 1 2\nchoice 1 2", b"order 2 1\nchoice 2 1", 1)
    v.case(
        "places-tie-second",
        "the second of them: no test tells which one comes first",
        "place-check",
        (text, other),
        "yes",
    )
    dear = lines("slots 1 / band 40 / bidder a 1 / place 1 5 / place 40 4398046511104 / end")
    great = place_certificate([(1, [(1, 5), (40, 2**42)])])
    v.case(
        "places-beyond", "a bid for a slot where nobody can start is in no rule", "place-check", (dear, great), "yes"
    )
    den = (WIDE - 1) // 6
    rows = certificate_lines(den)
    v.case(
        "places-beyond-128-bits",
        "its amount times the denominator leaves 128 bits, and no rule asks for it",
        "place-check",
        (dear, rows),
        "yes",
    )
    v.case(
        "places-gap",
        "who wins nothing is laid too: bidder 2 starts at 3",
        "place-check",
        (
            lines("slots 1 / band 4 / bidder a 2 / bidder b 1 / place 3 7 / end"),
            place_certificate([(2, []), (1, [(3, 7)])]),
        ),
        "* placed b 3 1",
    )


def certificate_lines(den: int) -> bytes:
    """The certificate of one bidder with a bid of 5 that counts, over a denominator."""
    return lines(
        f"pcert 1 / den {den} / value 5 / order 1 / choice 1 / table / t 5 0 / without 1 / order 1 / "
        f"choice 0 / table / t 0 0 / pay 0 / rows 1 / row 1 / mult {den} 0 / order 1 / choice 0 / lowered "
        "/ t 0 0 / end"
    )


def placement_faults(v: Cases) -> None:
    """Each of `PLACE_TESTS`."""
    for number, (was, put, answer, why) in enumerate(PLACE_TESTS, 1):
        v.case(f"place-test-{number}", why, "place-check", (SLOTS, edited(PLACED, was, put)), answer)
