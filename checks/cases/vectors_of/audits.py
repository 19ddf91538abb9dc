"""Cases of `audit`: logs whose book depends on a rule, so that a wrong rule leads to another verdict."""

from __future__ import annotations

from checks.cases.samples import Bids, sample
from checks.cases.vectors_of.cases import Cases, audits, book_certificate
from checks.cases.vectors_of.sales import CAP, FULL, ROW, SALE, SALE_CERT, UK


def last_submissions(v: Cases) -> None:
    """Which drafts and bids are in the book."""
    audits(
        v,
        "audit-second-submission",
        "a refused submission leaves the one before it",
        SALE,
        ROW.replace("draft,east,3,44 / submit", "draft,east,3,46 / submit").replace(
            "draft,east,3,45", "draft,east,3,44"
        ),
        SALE_CERT,
        "yes",
    )
    audits(
        v,
        "audit-draft-alone",
        "a draft that isn't submitted isn't in the book",
        SALE,
        ROW.replace("draft,east,3,44 / submit,east,, / close", "draft,east,3,44 / close"),
        SALE_CERT,
        None,
    )
    audits(
        v,
        "audit-drop",
        "a dropped draft isn't in the book",
        SALE,
        ROW.replace("draft,east,3,44", "drop,east,3,"),
        SALE_CERT,
        None,
    )


def other_books(v: Cases) -> None:
    """Records that change the book, or don't."""
    audits(
        v,
        "audit-last-bid",
        "of the bids of a round the last admitted one counts",
        SALE,
        ROW.replace("bid,east,1,", "bid,east,2, / bid,east,1, / bid,east,4,"),
        SALE_CERT,
        "yes",
    )
    audits(
        v,
        "audit-refused-lines",
        "refused lines change nothing",
        SALE,
        f"draft,east,1,99 / bid,north,1, / {ROW} / bid,east,3, / close,,,",
        SALE_CERT,
        "yes",
    )
    audits(
        v,
        "audit-other-book",
        "another amount is another book",
        SALE,
        ROW.replace("draft,east,1,20", "draft,east,1,21"),
        SALE_CERT,
        None,
    )
    audits(
        v,
        "audit-same-book",
        "a record that another replaces may be missing",
        SALE,
        ROW.replace("draft,east,3,45 / submit,east,, / ", ""),
        SALE_CERT,
        "yes",
    )


def limits_of_runs(v: Cases) -> None:
    """A price or a round beyond its limit, and as many rounds as there may be."""
    audits(
        v,
        "audit-incomplete",
        "no close ends the sealed round",
        SALE,
        ROW.removesuffix(" / close,,,"),
        SALE_CERT,
        "cca: refused log 12",
    )
    audits(
        v,
        "audit-price-limit",
        "a price above 2^36 stops the run, also where a later close completes the log",
        SALE.replace(b"reserve = 10", b"reserve = 68719476736"),
        "bid,east,3, / bid,west,2, / close,,, / bid,east,1, / close,,, / close,,,",
        b"",
        "cca: limit price 82463372084",
    )
    audits(
        v,
        "audit-round-limit",
        "a 301st round isn't posted, and the run stops",
        SALE.replace(b"permille = 200", b"permille = 1"),
        " / ".join(["bid,east,3, / bid,west,2, / close,,,"] * 300),
        b"",
        "cca: limit rounds 301",
    )


def other_payments(v: Cases) -> None:
    """Payments that fail a test."""
    audits(
        v,
        "audit-300-rounds",
        "300 rounds",
        SALE.replace(b"permille = 200", b"permille = 1"),
        " / ".join(["bid,east,3, / bid,west,2, / close,,,"] * 299 + ["bid,east,3, / close,,, / close,,,"]),
        b"",
        "cca: refused cert 0",
    )
    audits(
        v,
        "audit-no-C8",
        "other payments of the same sum",
        UK,
        sample("spectrum.log"),
        sample("spectrum.cert").replace(b"pay 47400 30000 32000 6200 60200", b"pay 47400 30000 32000 6100 60300"),
        "no C8 8",
    )
    audits(
        v,
        "audit-no-C6",
        "payments that are too low",
        UK,
        sample("spectrum.log"),
        sample("spectrum.cert").replace(b"pay 47400 30000 32000 6200 60200", b"pay 47400 30000 32000 6000 60000"),
        "no C6 4",
    )


def ticks_and_steps(v: Cases) -> None:
    """Raises by ticks, and by the steps of the excess."""
    raised = SALE.replace(b"tick = 1", b"tick = 7")
    log = "bid,east,3, / bid,west,2, / close,,, / bid,east,1, / bid,west,2, / close,,, / close,,,"
    bids = [[((1,), 17), ((3,), 30)], [((2,), 34)]]
    audits(
        v, "audit-tick", "a raise is a whole number of ticks", raised, log, book_certificate((3,), (10,), bids), "yes"
    )
    steps = SALE.replace(b"permille = 200\n", b"permille = 200\n[[step]]\nexcess = 2\npermille = 500\n")
    bids = [[((1,), 15), ((3,), 30)], [((2,), 30)]]
    audits(
        v,
        "audit-steps",
        "the last step that the excess reaches",
        steps,
        log,
        book_certificate((3,), (10,), bids),
        "yes",
    )


def full_list() -> tuple[str, list[tuple[tuple[int, int], int]]]:
    """The records of a list of 300 drafts, and the bids of its book."""
    packages = [(a, b) for a in range(20) for b in range(20)][1:300] + [(19, 19)]
    drafts = [f"draft,east,{a} {b},{10 * (a + b) + (500 if a == b == 19 else 0)}" for a, b in packages]
    text = " / ".join(
        ["bid,east,19 19,", "close,,,", *drafts, "draft,east,18 18,860", "draft,east,0 1,11", "submit,east,,"]
    )
    of_east = [(package, 10 * sum(package) + (500 if package == (19, 19) else 0)) for package in packages]
    of_east[0] = ((0, 1), 11)
    return text, of_east


def full_lists(v: Cases) -> None:
    """A list of 300 drafts where another package would win by the order of ties, and one of them at another amount."""
    text, of_east = full_list()
    bids: Bids = [of_east, []]
    cert = book_certificate((19, 19), (10, 10), bids)
    audits(
        v,
        "audit-full-list",
        "a draft for which there is no room isn't in the book",
        FULL,
        f"{text} / close,,,",
        cert,
        "yes",
    )
    least = of_east[-1][1] - 100
    lower: Bids = [[*of_east[:-1], ((19, 19), least)], []]
    audits(
        v,
        "audit-replaced-in-a-full-list",
        "a draft of a package that a full list has replaces its amount",
        FULL,
        text.replace("draft,east,0 1,11", f"draft,east,0 1,11 / draft,east,19 19,{least}") + " / close,,,",
        book_certificate((19, 19), (10, 10), lower),
        "yes",
    )
    dropped = text.replace("draft,east,18 18,860", "drop,east,0 2, / draft,east,18 18,860")
    audits(
        v,
        "audit-room-again",
        "a draft takes the room of one that was dropped",
        FULL,
        f"{dropped} / close,,,",
        cert,
        None,
    )


def books_of_replies(v: Cases) -> None:
    """Each auction whose replies are a case, with a close for its end: its book, shown by a certificate."""
    for name, why, award, log in v.auctions:
        text = log + b"close,,,\n"
        book = v.book(award, text)
        if book:
            cert = book_certificate(book.supply, book.reserves, book.bids)
            v.case(f"{name}-audited", f"the book after these replies: {why}", "audit", (award, text, cert), "yes")
    two = (CAP + b"[[cap]]\nweight = [2]\nlimit = 3\n").replace(b"eligibility = 3", b"eligibility = 3\nholding = [0]")
    cert = book_certificate((3,), (10,), [[((1,), 10)], [((1,), 10)]])
    records = "bid,east,1, / bid,east,2, / bid,west,1, / bid,west,2, / close,,, / close,,,"
    audits(v, "audit-second-cap", "the second of two spectrum caps refuses two lots", two, records, cert, "yes")
    held = two.replace(b"holding = [0]", b"holding = [1]")
    cert = book_certificate((3,), (10,), [[], [((1,), 10)]])
    audits(v, "audit-holding", "a holding counts in the second of two spectrum caps", held, records, cert, "yes")
