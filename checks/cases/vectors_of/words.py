"""Cases of arguments that a command doesn't take, and of files that aren't there."""

from __future__ import annotations

from checks.cases.samples import lines
from checks.cases.vectors_of.cases import Cases
from checks.cases.vectors_of.day_cramton import BOOK, CERT, WEIGHTS
from checks.cases.vectors_of.placements import PLACED, SLOTS
from checks.cases.vectors_of.sales import ROW, SALE


def words(v: Cases) -> None:
    """Too few arguments, too many, and missing files."""
    v.case("words-none", "no file", "check", (), "cca: words")
    v.case("words-one", "a file too few", "check", (BOOK,), "cca: words")
    v.case("words-three", "a file too many", "check", (BOOK, CERT, "more"), "cca: words")
    v.case("words-same", "the same name twice", "check", (BOOK, "day-cramton.book"), "cca: words")
    v.case("words-flag", "a word that begins with a hyphen", "check", (BOOK, "-x"), "cca: words")
    v.case("words-flag-first", "a first word that begins with a hyphen", "check", ("-x", CERT), "cca: words")
    v.case(
        "words-flag-audited", "a first word that begins with a hyphen", "audit", ("-x", lines(ROW), CERT), "cca: words"
    )
    v.case("words-same-audited", "the same name twice", "audit", ("sale.award", "sale.log", "sale.log"), "cca: words")
    v.case("words-help", "no command has a help", "audit", (SALE, lines(ROW), "--help"), "cca: words")
    v.case("words-weigh", "a file too few", "weigh-check", (BOOK, WEIGHTS), "cca: words")
    v.case("words-place", "a file too many", "place-check", (SLOTS, PLACED, "more"), "cca: words")
    v.case("words-audit", "a file too few", "audit", (SALE, lines(ROW)), "cca: words")
    for command, kinds in (
        ("check", ("book", "cert")),
        ("weigh-check", ("book", "weights", "cert")),
        ("place-check", ("slots", "cert")),
        ("audit", ("award", "log", "cert")),
    ):
        given = {"book": BOOK, "weights": WEIGHTS, "slots": SLOTS, "award": SALE, "log": lines(ROW)}
        for at, kind in enumerate(kinds):
            v.case(
                f"missing-{command}-{kind}",
                f"there is no {kind}",
                command,
                [*(given[one] for one in kinds[:at]), f"missing.{kind}", *(f"absent.{one}" for one in kinds[at + 1 :])],
                f"cca: read fault {kind}",
            )
    v.case(
        "missing-after-a-fault",
        "the first file is read whole before the second",
        "check",
        (b"x", "missing.cert"),
        "cca: refused book 0",
    )
