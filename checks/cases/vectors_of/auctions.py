"""Cases of `auction`: each reply, which is the first reason that applies."""

from __future__ import annotations

from checks.cases.samples import lines
from checks.cases.vectors_of.cases import Cases
from checks.cases.vectors_of.sales import CAP, FULL, OPEN, ROW, SALE


def add(v: Cases, name: str, why: str, award: bytes, log: str, answer: str) -> None:
    """Adds a case of the replies to a log."""
    v.case(f"reply-{name}", why, "auction", (award, lines(log), "/dev/null"), answer)


def clock_replies(v: Cases) -> None:
    """Replies to the small sale, and in the first round."""
    add(
        v, "all-of-a-small-sale", "admitted lines, a refused submission, and closes", SALE, ROW, "* 9 relative-cap 2 44"
    )
    for number, (log, reply) in enumerate(
        [
            ("draft,east,1,20", "1 stage"),
            ("drop,east,1,", "1 stage"),
            ("submit,east,,", "1 stage"),
            ("bid,north,1,", "1 unknown"),
            ("bid,east,4,", "1 supply 1"),
            ("bid,west,3,", "1 points 2"),
            ("bid,east,0,", "1 ok"),
        ],
        1,
    ):
        add(v, f"clock-{number}", f"in the first round: {reply[2:]}", SALE, log, f"* {reply}")


def spectrum_caps(v: Cases) -> None:
    """Replies by spectrum caps."""
    add(
        v,
        "spectrum-cap",
        "package and holding are above the limit of the first spectrum cap",
        CAP,
        "bid,east,3, / bid,east,2,",
        "* 1 spectrum-cap 1 2",
    )
    add(
        v,
        "holding",
        "a holding counts",
        CAP.replace(b"eligibility = 3", b"eligibility = 3\nholding = [1]"),
        "bid,east,2, / bid,east,1, / bid,west,2,",
        "* 1 spectrum-cap 1 2",
    )
    add(
        v,
        "second-cap",
        "the second of two caps",
        CAP + b"[[cap]]\nweight = [2]\nlimit = 3\n",
        "bid,east,2,",
        "* 1 spectrum-cap 2 3",
    )


def sealed_replies(v: Cases) -> None:
    """Replies in the sealed round, and after it."""
    for number, (log, reply) in enumerate(
        [
            ("bid,east,1,", "7 stage"),
            ("draft,north,1,50", "7 unknown"),
            ("draft,east,4,50", "7 supply 1"),
            ("draft,west,3,50", "7 points 2"),
            ("draft,east,0,5", "7 empty"),
            ("draft,east,1,9", "7 below-reserve 10"),
            ("draft,east,1,11", "7 below-clock 12"),
            ("draft,east,1,4398046511105", "7 amount-top 4398046511104"),
            ("draft,east,1,4398046511104", "7 ok"),
            ("drop,east,2,", "7 no-draft"),
            ("drop,north,1,", "7 unknown"),
            ("submit,north,,", "7 unknown"),
            ("submit,east,,", "7 ok"),
        ],
        1,
    ):
        add(v, f"sealed-{number}", f"in the sealed round: {reply[2:]}", SALE, OPEN + log, f"* {reply}")
    for number, log in enumerate(("bid,east,1,", "draft,east,1,20", "submit,east,,", "close,,,", "bid,north,1,"), 1):
        add(v, f"after-{number}", "after the end no line belongs to the stage", SALE, f"{ROW} / {log}", "* 13 stage")


def reasons(v: Cases) -> None:
    """The first of several reasons, and what a bidder is eligible for next."""
    add(
        v,
        "first-reason",
        "of a package that breaks several rules the first is told",
        CAP,
        "bid,north,9, / bid,west,9, / bid,west,3, / draft,north,9,1",
        "* 2 supply 1",
    )
    add(
        v,
        "next-points",
        "in round 2 a bidder is eligible for what it asked for",
        SALE,
        "bid,east,2, / bid,west,2, / close,,, / bid,east,3,",
        "* 4 points 2",
    )
    add(
        v,
        "nothing-asked",
        "who asks for nothing is eligible for nothing in the next round",
        SALE,
        "bid,east,3, / bid,west,2, / bid,west,0, / bid,west,2, / bid,west,0, / bid,east,3, / close,,,",
        "* 7 sealed",
    )
    add(
        v,
        "price-top",
        "a price above 2^36 isn't posted, and the run stops",
        SALE.replace(b"reserve = 10", b"reserve = 68719476736"),
        "bid,east,3, / bid,west,2, / close,,, / bid,east,1, / close,,, / close,,,",
        "* cca: limit price 82463372084",
    )


def full_lists(v: Cases) -> None:
    """The reply to a draft that has no room."""
    packages = [f"{a} {b}" for a in range(20) for b in range(20)][1:302]
    add(
        v,
        "full",
        "the 301st draft has no room",
        FULL,
        " / ".join(["close,,,", *(f"draft,east,{package},999" for package in packages), "draft,east,0 1,999"]),
        "* 302 full 300",
    )


def relative_caps(v: Cases) -> None:
    """Relative caps by the constraining round, and by the final round."""
    two = (
        "version = {}\ntick = 1\n"
        'category = [{{name = "a", supply = 2, points = 1, reserve = 10}}, '
        '{{name = "c", supply = 3, points = 1, reserve = 10}}]\n'
        'bidder = [{{name = "east", eligibility = 3}}, {{name = "west", eligibility = 1}}]\n'
        "step = [{{excess = 1, permille = 1000}}]\n"
    )
    log = (
        "bid,east,2 0, / bid,west,1 0, / close,,, / bid,east,0 1, / bid,west,1 0, / close,,, / draft,east,0 "
        "1,12 / draft,east,2 0,42 / draft,east,0 3,33 / submit,east,,"
    )
    v.case(
        "cap-version-1",
        "the constraining round alone bounds a package",
        "auction",
        (two.format(1).encode(), lines(log), "/dev/null"),
        "* 10 ok",
    )
    v.case(
        "cap-version-2",
        "the final round bounds it too",
        "auction",
        (two.format(2).encode(), lines(log), "/dev/null"),
        "* 10 relative-cap 2 32",
    )
    v.case(
        "cap-of-the-final-package",
        "what is held in the final round has no cap",
        "auction",
        (
            two.format(2).encode(),
            lines(log.replace("0 1,12", "0 1,4398046511104").replace("0 3,33", "0 3,32").replace("2 0,42", "2 0,40")),
            "/dev/null",
        ),
        "* 10 ok",
    )


def raised_caps(v: Cases) -> None:
    """A cap that a higher draft raises, and the cap of a bidder that held nothing."""
    v.case(
        "cap-raised",
        "a higher draft for what was held raises the cap",
        "auction",
        (
            SALE,
            lines(OPEN + "draft,east,1,30 / draft,east,3,54 / submit,east,, / draft,east,3,55 / submit,east,,"),
            "/dev/null",
        ),
        "* 11 relative-cap 2 54",
    )
    v.case(
        "cap-of-nothing",
        "who held nothing in its constraining round is bound by the prices alone",
        "auction",
        (SALE, lines("close,,, / draft,east,2,20 / submit,east,, / draft,east,2,21 / submit,east,,"), "/dev/null"),
        "* 5 relative-cap 1 20",
    )
