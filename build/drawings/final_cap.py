"""Draws docs/pictures/final-cap.svg from bench/final-cap.csv: what examples/final-cap.plan found, as the page of its
study prints it. The columns are the mean of a difference, whether it is more than two standard errors from 0, and the
values below which 5, 25, 50, 75 and 95 percent of the differences are, in percent of the best value."""

from __future__ import annotations

import csv
import pathlib

from cca_tools.page.words import minus
from cca_tools.studies.measures import Spread
from cca_tools.studies.pictures import ABOVE, BELOW, EVEN, Bar, bars

FOUND = pathlib.Path(__file__).resolve().parents[2] / "bench" / "final-cap.csv"
AUCTIONS = 1000  # of each case, as the plan has them
QUANTILES = ("q5", "q25", "q50", "q75", "q95")


def read_bars() -> list[Bar]:
    """The measures that differ, with their colours."""
    found = list[Bar]()
    with open(FOUND, newline="", encoding="utf-8") as file:
        for it in csv.DictReader(file):
            spread = Spread(AUCTIONS, float(it["mean"]), None, tuple(float(it[name]) for name in QUANTILES))
            colours = EVEN if it["differs"] == "no" else ABOVE if spread.mean > 0 else BELOW
            found.append((it["measure"], spread, colours))
    return found


def draw(folder: pathlib.Path) -> None:
    """Draws the picture in this folder."""
    every = read_bars()
    title, what = "With the final cap against without it, auction by auction", "% of the best value"
    about = minus("; ".join(f"{name} {spread.mean:.2f}" for name, spread, _ in every))
    text = bars("final-cap", title, f"Means in {what}: {about}.", [("", every)], what, line=True, is_file=True)
    folder.mkdir(parents=True, exist_ok=True)
    (folder / "final-cap.svg").write_text(text, encoding="utf-8")
