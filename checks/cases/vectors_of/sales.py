"""The sales of the examples, as texts that cases change."""

from __future__ import annotations

from collections.abc import Mapping

from checks.cases.samples import certificate_of, sample


SALE, UK = sample("sample.award"), sample("spectrum.award")
ROW = (
    "bid,east,3, / bid,west,2, / close,,, / bid,east,1, / bid,west,2, / close,,, / draft,east,1,20 / "
    "draft,east,3,45 / submit,east,, / draft,east,3,44 / submit,east,, / close,,,"
)
OPEN = " / ".join(ROW.split(" / ")[:6]) + " / "
BIDS = [[((1,), 20), ((3,), 44)], [((2,), 24)]]
SALE_CERT = certificate_of(
    (3,), BIDS, (1, 1), {1: (0, 1), 2: (2, 0)}, 1, (0, 4), [([1], 1, 0, (0, 1)), ([2], 1, 0, (2, 0))], reserves=(10,)
)

CAP = SALE + b"[[cap]]\nweight = [1]\nlimit = 2\n"
FULL = (
    SALE.replace(b"supply = 3", b"supply = 19").replace(b"eligibility = 3", b"eligibility = 999")
    + b'[[category]]\nname = "other"\nsupply = 19\npoints = 1\nreserve = 10\n'
)


def filled(*tables: tuple[str, Mapping[str, object]], top: str = "version = 1\ntick = 1\n") -> bytes:
    """An award of these tables: categories and bidders by their fields, and one step."""
    more = "".join(
        f"[[{word}]]\n" + "".join(f"{key} = {value}\n" for key, value in table.items()) for word, table in tables
    )
    return (top + more).encode()


def category(name: str, supply: int, points: int = 1, reserve: int = 0) -> tuple[str, dict[str, object]]:
    """The table of a category, for `filled`."""
    return "category", {"name": f'"{name}"', "supply": supply, "points": points, "reserve": reserve}


STEP = ("step", {"excess": 1, "permille": 1})
