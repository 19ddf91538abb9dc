"""Cases of weighted prices, and of the texts of weights."""

from __future__ import annotations

from checks.cases.samples import certificate_of, lines
from checks.cases.vectors_of.cases import Cases, edited
from checks.cases.vectors_of.day_cramton import BOOK, CERT, DAY, DAY_BIDS, DAY_WITHOUT, WEIGHTS, day


WEIGHED = certificate_of((1, 1), DAY_BIDS, DAY, DAY_WITHOUT, 2, (31, 33, 0, 0, 0), [((1, 2), 2, 3, (0, 0, 1, 0, 0))])

WEIGHT_FORMS = [
    ("weights 1", "weights 2", 0, "another version"),
    ("b1 1", "b1 0", 10, "a weight of 0"),
    ("b1 1", "b1 21", 10, "a weight of 21"),
    ("b1 1", "b1 01", 10, "a leading zero"),
    ("b1 1", "b1", 10, "no weight"),
    ("b1 1", "b1 1 1", 10, "a field too many"),
    ("weight b1 1\n", "", 10, "a bidder is missing"),
    ("b2 3", "b3 3", 22, "another bidder"),
    ("end\n", "end", 70, "no line feed at the end"),
    ("end\n", "ends", 70, "a letter in place of the last line feed"),
    ("end\n", "weight b6 1\nend\n", 70, "a bidder too many"),
    ("end\n", "end\nend\n", 74, "a line behind the end"),
    ("weight b1", "weights b1", 10, "another word"),
    ("b1 1", "b1 -1", 10, "a sign"),
]


def add(
    v: Cases, name: str, why: str, answer: str, weights: bytes = WEIGHTS, cert: bytes = WEIGHED, book: bytes = BOOK
) -> None:
    """Adds a case of `weigh-check`."""
    v.case(f"weights-{name}", why, "weigh-check", (book, weights, cert), answer)


def weighings(v: Cases) -> None:
    """Certificates of weighted prices."""
    add(
        v,
        "example",
        "weights of 1 and 3: 3 above the one Vickrey price, 9 above the other, over 2",
        "* winner b2 0 1 bid 20 vickrey 12 pays 16+1/2",
    )
    add(v, "of-others", "the certificate of weights of 1", "no C8 3", cert=CERT)
    add(v, "all-1", "weights of 1", "yes", weights=WEIGHTS.replace(b" 3\n", b" 1\n"), cert=CERT)
    add(
        v,
        "all-20",
        "weights that are the same divide alike",
        "yes",
        weights=WEIGHTS.replace(b" 3\n", b" 20\n").replace(b" 1\n", b" 20\n").replace(b"weights 20", b"weights 1"),
        cert=certificate_of(
            (1, 1), DAY_BIDS, DAY, DAY_WITHOUT, 20, (340, 300, 0, 0, 0), [((1, 2), 20, 3, (0, 0, 1, 0, 0))]
        ),
    )
    v.case("weights-left-out", "the weighted certificate, by weights of 1", "check", (BOOK, WEIGHED), "no C8 3")
    add(v, "of-losers", "the weight of a loser changes nothing", "yes", weights=WEIGHTS.replace(b"b3 1", b"b3 20"))


def divisions(v: Cases) -> None:
    """What winners pay above their Vickrey prices, divided by their weights."""
    whole = lines("weights 1 / weight b1 1 / weight b2 2 / weight b3 1 / weight b4 1 / weight b5 1 / end")
    add(
        v,
        "not-divided",
        "what bidder 2 pays above its Vickrey price isn't divided by its weight",
        "no C8 3",
        weights=whole,
    )
    fives = lines("weights 1 / weight b1 5 / weight b2 5 / weight b3 1 / weight b4 1 / weight b5 1 / end")
    add(
        v,
        "remainder",
        (
            "what winners pay above their Vickrey prices isn't their weight times a whole number, though the "
            "quotient is right"
        ),
        "no C8 2",
        weights=fives,
        cert=day(pay=(16, 16, 0, 0, 0), rows=[((1, 2), 1, 0, (0, 0, 1, 0, 0))]),
    )


def weight_forms(v: Cases) -> None:
    """Each of `WEIGHT_FORMS`, and the order of reading files."""
    for number, (was, put, place, why) in enumerate(WEIGHT_FORMS, 1):
        add(v, f"form-{number}", why, f"cca: refused weights {place}", weights=edited(WEIGHTS, was, put))
    add(
        v,
        "before-the-certificate",
        "the weights are read before the certificate",
        "cca: refused weights 0",
        weights=b"",
        cert=b"x",
    )
    add(v, "after-the-book", "the book is read before the weights", "cca: refused book 0", weights=b"", book=b"")
    add(
        v,
        "nobody",
        "no weight for nobody",
        "yes",
        weights=b"weights 1\nend\n",
        book=lines("book 1 / supply 1 / reserve 0 / end"),
        cert=lines("cert 1 / den 1 / value 0 / choice / table / t 0 0 / pay / rows 0 / lowered / t 0 0 / end"),
    )
