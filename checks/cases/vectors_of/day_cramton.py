"""The book and the certificate of Day and Cramton, by their files and by an auction with this book."""

from __future__ import annotations

from collections.abc import Mapping, Sequence

from checks.cases.samples import Row, certificate_of, lines, sample
from checks.cases.vectors_of.cases import Cases


BOOK, CERT, WEIGHTS = (sample(f"day-cramton.{kind}") for kind in ("book", "cert", "weights"))
DAY, DAY_BIDS = (1, 1, 0, 0, 0), [[((1, 0), 28)], [((0, 1), 20)], [((1, 1), 32)], [((1, 0), 14)], [((0, 1), 12)]]
DAY_WITHOUT = {1: (0, 1, 0, 1, 0), 2: (1, 0, 0, 0, 1)}

# An auction with the book of Day and Cramton: all ask for their packages at 0, for nothing at 32, and then submit.
DAY_AWARD = (
    "version = 1\ntick = 32\nstep = [{excess = 1, permille = 1}]\n"
    + "".join(f'[[category]]\nname = "{name}"\nsupply = 1\npoints = 0\nreserve = 0\n' for name in "ac")
    + "".join(f'[[bidder]]\nname = "b{j}"\neligibility = 0\n' for j in range(1, 6))
).encode()
DAY_LOG = lines(
    "bid,b1,1 0, / bid,b2,0 1, / bid,b3,1 1, / bid,b4,1 0, / bid,b5,0 1, / close,,, / close,,, / draft,b1,1 0,28 / "
    "draft,b2,0 1,20 / draft,b3,1 1,32 / draft,b4,1 0,14 / draft,b5,0 1,12 / submit,b1,, / submit,b2,, / "
    "submit,b3,, / submit,b4,, / submit,b5,, / close,,,"
)


def both(v: Cases, name: str, why: str, cert: bytes, answer: str) -> None:
    """A certificate of the book of Day and Cramton, by its book and by its auction."""
    v.case(name, why, "check", (BOOK, cert), answer)
    v.case(f"{name}-audited", why, "audit", (DAY_AWARD, DAY_LOG, cert), answer)


def day(
    choice: Sequence[int] | None = None,
    without: Mapping[int, Sequence[int]] | None = None,
    den: int = 1,
    pay: Sequence[int] = (17, 15, 0, 0, 0),
    rows: Sequence[Row] = (((1, 2), 1, 3, (0, 0, 1, 0, 0)),),
) -> bytes:
    """The certificate of Day and Cramton with some other parts, and tables that are exact for them."""
    other = DAY_WITHOUT if without is None else without
    return certificate_of((1, 1), DAY_BIDS, DAY if choice is None else choice, other, den, pay, rows)
