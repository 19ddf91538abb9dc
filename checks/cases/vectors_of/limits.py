"""Cases of each limit at the greatest value that it allows, and of several limits at once."""

from __future__ import annotations

from checks.cases.samples import lines
from checks.cases.vectors_of.cases import Cases, audits, book_certificate
from checks.cases.vectors_of.sales import OPEN, ROW, SALE, STEP, category, filled


def awards_at_their_limits(v: Cases) -> None:
    """Awards at their limits, and at their least values: the answer is what comes after them."""
    top = "version = 2\ntick = 68719476736\n"
    bidders = [
        ("bidder", {"name": f'"{"b" * 19}{j:x}"', "eligibility": 1_000_000, "holding": [999]}) for j in range(16)
    ]
    steps = [("step", {"excess": excess, "permille": 1_000}) for excess in [*range(1, 20), 1_000]]
    caps = [("cap", {"weight": [1_000], "limit": 1_000_000})] * 20
    all_ = filled(category("a234567890123456789_", 40, 10_000, 2**36), *bidders, *steps, *caps, top=top)
    audits(v, "award-all-at-their-limits", "each field of an award at its limit", all_, "", b"", "cca: refused log 1")
    for supply in ((1,) * 6, (3, 3, 3, 3, 7, 7), (20, 20)):
        award = filled(*(category(f"c{c}", most) for c, most in enumerate(supply)), STEP)
        why = f"{len(supply)} categories, {sum(supply)} lots"
        audits(v, f"award-of-{'-'.join(map(str, supply))}", why, award, "", b"", "cca: refused log 1")
    least = filled(category("a", 1, 0, 0), ("bidder", {"name": '"b"', "eligibility": 0, "holding": [0]}), STEP)
    cap = filled(("cap", {"weight": [0], "limit": 0}), top="")
    audits(
        v, "award-all-at-their-least", "each field of an award at its least", least + cap, "", b"", "cca: refused log 1"
    )


def amounts_at_their_limits(v: Cases) -> None:
    """Prices, amounts and files at their limits: the answer is what comes after them."""
    sale = SALE.replace(b"reserve = 10", b"reserve = 34359738368").replace(b"permille = 200", b"permille = 1000")
    log = "bid,east,3, / bid,west,2, / close,,, / close,,, / close,,,"
    bids = [[((3,), 3 * 2**35)], [((2,), 2 * 2**35)]]
    audits(
        v,
        "audit-price-at-the-top",
        "a price of 2^36 is posted",
        sale,
        log,
        book_certificate((3,), (2**35,), bids),
        "yes",
    )
    log = OPEN + "draft,east,1,4398046511104 / draft,east,1,4398046511105 / submit,east,, / close,,,"
    bids = [[((1,), 2**42), ((3,), 30)], [((2,), 24)]]
    audits(v, "audit-amount-at-the-top", "an amount of 2^42", SALE, log, book_certificate((3,), (10,), bids), "yes")
    limits: list[tuple[str, int, list[bytes], str]] = [
        ("award", 65_536, [], "cca: refused award 1 0"),
        ("log", 8_388_608, [SALE], "cca: refused log 1"),
        ("cert", 67_108_864, [SALE, lines(ROW)], "cca: refused cert 0"),
    ]
    for kind, count, before, answer in limits:
        name = f"{kind}-{count}-bytes"
        words: list[bytes | str] = [*before, name, *[b""] * (2 - len(before))]
        v.case(
            f"{name}-audited",
            f"as many bytes as the limit of a {kind}",
            "audit",
            words,
            answer,
            made=[(name, count, "#")],
        )


def orders_of_limits(v: Cases) -> None:
    """Awards above several limits: the first one is reported."""
    for supply, bidders, answer in (
        ((9,) * 7, 17, "categories 7"),
        ((9, 9, 9, 9, 5), 17, "lots 41"),
        ((7, 7, 7, 7, 4), 17, "states 20480"),
        ((20, 20), 17, "bidders 17"),
    ):
        tables = [category(f"c{c}", most) for c, most in enumerate(supply)]
        tables += [("bidder", {"name": f'"b{j}"', "eligibility": 1}) for j in range(bidders)]
        why = f"{len(supply)} categories, {sum(supply)} lots, {bidders} bidders"
        audits(v, f"award-order-{answer.split()[0]}", why, filled(*tables, STEP), "", b"", f"cca: limit {answer}")
