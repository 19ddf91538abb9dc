"""Cases of awards: their rules and their limits."""

from __future__ import annotations

from checks.cases.samples import lines, sample
from checks.cases.vectors_of.cases import Cases, audits, edited
from checks.cases.vectors_of.sales import ROW, SALE, SALE_CERT, UK


AWARDS = [
    ("version = 1", "version = 3", "1 0"),
    ("version = 1", "version = 1.0", "1 0"),
    ("version = 1\n", "", "1 0"),
    ("version = 1", "version = true", "1 0"),
    ("tick = 1", "tick = 1979-05-27", "2 0"),
    ("tick = 1", "tick = 0", "2 0"),
    ("tick = 1", "tick = 68719476737", "2 0"),
    ("tick = 1", 'tick = "1"', "2 0"),
    ("[[category]]", "[category]", "3 0"),
    ('name = "lot"', 'name = "Lot"', "4 1"),
    ('name = "lot"', 'name = ""', "4 1"),
    ('name = "lot"\n', "", "4 1"),
    ('name = "lot"', 'name = "lot\\n"', "4 1"),
    ('name = "lot"', "name = 8", "4 1"),
    ('name = "lot"', 'name = "a23456789012345678901"', "4 1"),
    ("supply = 3", "supply = 0", "5 1"),
    ("supply = 3", "supply = 1000", "5 1"),
    ("supply = 3\n", "", "5 1"),
    ("points = 1", "points = -1", "6 1"),
    ("points = 1", "points = 10001", "6 1"),
    ("reserve = 10", "reserve = 68719476737", "7 1"),
    ("reserve = 10", "reserve = -1", "7 1"),
    ("reserve = 10", 'reserve = 10\nunit = "MHz"', "18 1"),
    ('name = "west"', 'name = "east"', "9 2"),
    ('name = "west"', 'name = "1west"', "9 2"),
    ("eligibility = 2", "eligibility = 1000001", "10 2"),
    ("eligibility = 2", "eligibility = [2]", "10 2"),
    ("eligibility = 2\n", "", "10 2"),
    ("eligibility = 3", "eligibility = 3\nholding = [1, 0]", "11 1"),
    ("eligibility = 3", "eligibility = 3\nholding = [1000]", "11 1"),
    ("eligibility = 3", "eligibility = 3\nholding = 1", "11 1"),
    ("eligibility = 3", "eligibility = 3\nholding = [true]", "11 1"),
    ("eligibility = 3", "eligibility = 3\nheld = 1", "18 1"),
    ("[[step]]\nexcess = 1\npermille = 200\n", "", "12 0"),
    ("excess = 1\n", "excess = 2\n", "13 1"),
    ("permille = 200", "permille = 200\n[[step]]\nexcess = 1\npermille = 300", "13 2"),
    ("permille = 200", "permille = 200\n[[step]]\nexcess = 1001\npermille = 300", "13 2"),
    ("permille = 200", "permille = 0", "14 1"),
    ("permille = 200", "permille = 1001", "14 1"),
    ("permille = 200", "permille = 200\nmost = 1", "18 1"),
    ("permille = 200", "permille = 200\n[[cap]]\nweight = [1, 1]\nlimit = 2", "16 1"),
    ("permille = 200", "permille = 200\n[[cap]]\nweight = [1001]\nlimit = 2", "16 1"),
    ("permille = 200", "permille = 200\n[[cap]]\nweight = [1]\nlimit = 1000001", "17 1"),
    ("permille = 200", "permille = 200\n[[cap]]\nweight = [1]", "17 1"),
    ("permille = 200", "permille = 200\n[cap]\nweight = [1]", "15 0"),
    ("permille = 200", "permille = 200\n" + "[[cap]]\nweight = [1]\nlimit = 2\n" * 21, "15 0"),
    (
        "permille = 200",
        "permille = 200\n" + "".join(f"[[step]]\nexcess = {n}\npermille = 1\n" for n in range(2, 22)),
        "12 0",
    ),
    ('name = "lot"', 'name = "_lot"', "4 1"),
    ('name = "west"', 'name = "_west"', "9 2"),
    ('name = "west"', 'name = "a23456789012345678901"', "9 2"),
    ("eligibility = 2", "eligibility = -1", "10 2"),
    ("eligibility = 3", "eligibility = 3\nholding = [-1]", "11 1"),
    ("points = 1", "points = 1.0", "6 1"),
    ("permille = 200", "permille = 200\n[[step]]\nexcess = 2\npermille = 1001", "14 2"),
    ("permille = 200", "permille = 200\n[[cap]]\nweight = [-1]\nlimit = 2", "16 1"),
    ("permille = 200", "permille = 200\n[[cap]]\nweight = [1]\nlimit = -1", "17 1"),
    ("permille = 200", "permille = 200\n[[cap]]\nweight = [1]\nlimit = 2\nname = 1", "18 1"),
    ("tick = 1", "tick = -1", "2 0"),
    ("tick = 1", "tick = 1\nbidders = 2", "18 0"),
    ("tick = 1", "tick = 1\nbidder = 2", "0 0"),
    ("tick = 1", "tick = 0\nunit = 1", "2 0"),
]


def example_auctions(v: Cases) -> None:
    """The two auctions of the examples."""
    audits(
        v,
        "auction",
        "the small sale of the examples, with two submissions of which the second counts",
        SALE,
        ROW,
        SALE_CERT,
        "* winner west 2 bid 24 vickrey 24 pays 24",
    )
    v.case(
        "spectrum",
        "the sample of the guide",
        "audit",
        (UK, sample("spectrum.log"), sample("spectrum.cert")),
        "* revenue 1436700",
    )


def award_rules(v: Cases) -> None:
    """Each of `AWARDS`, and three limits."""
    for number, (was, put, numbers_) in enumerate(AWARDS, 1):
        field, table = numbers_.split()
        why = (
            "no TOML"
            if field == "0"
            else f"the rule of field {field}" + (f" in table {table} of its list" if table != "0" else "")
        )
        audits(v, f"award-rule-{number}", why, edited(SALE, was, put), "", b"", f"cca: refused award {numbers_}")
    for supply, answer in (
        ((1, 1, 1, 1, 1, 1, 1), "categories 7"),
        ((20, 21), "lots 41"),
        ((7, 7, 7, 7, 4), "states 20480"),
    ):
        more = "".join(
            f'[[category]]\nname = "c{c}"\nsupply = {most}\npoints = 1\nreserve = 0\n' for c, most in enumerate(supply)
        )
        audits(
            v,
            f"award-limit-{answer.split()[0]}",
            f"{answer.split()[1]} {answer.split()[0]}",
            f"version = 1\ntick = 1\n{more}[[step]]\nexcess = 1\npermille = 1\n".encode(),
            "",
            b"",
            f"cca: limit {answer}",
        )


def award_limits(v: Cases) -> None:
    """Too many bidders or bytes, and an award without a bidder."""
    bidders = "".join(f'[[bidder]]\nname = "b{j}"\neligibility = 1\n' for j in range(15)).encode()
    audits(
        v,
        "award-limit-bidders",
        "17 bidders, with the two that are there",
        SALE + bidders,
        "",
        b"",
        "cca: limit bidders 17",
    )
    audits(
        v,
        "award-limit-after-rules",
        "a broken rule comes before a limit",
        (SALE + bidders).replace(b"permille = 200", b"permille = 0"),
        "",
        b"",
        "cca: refused award 14 1",
    )
    audits(
        v,
        "award-no-bidder",
        "a sale without a bidder",
        SALE[: SALE.index(b"[[bidder]]")] + SALE[SALE.index(b"[[step]]") :],
        "close,,, / close,,,",
        lines("cert 1 / den 1 / value 0 / choice / table / t 0 0 0 0 / pay / rows 0 / lowered / t 0 0 0 0 / end"),
        "* net 0",
    )
    v.case(
        "award-65537-bytes",
        "an award with more bytes than the limit",
        "audit",
        ["award-65537-bytes", b"", b""],
        "cca: limit bytes 65537",
        made=[("award-65537-bytes", 65537, "#")],
    )
