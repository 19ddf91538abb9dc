"""Draws docs/pictures/rounds.svg: the price of each category of examples/spectrum.award by round, and how many lots of
it are asked for."""

from __future__ import annotations

import csv
import pathlib
import tomllib
from collections.abc import Sequence
from dataclasses import dataclass

from build.drawing import WIDTH, Drawing, draw_key, keep
from build.drawings.printed import EXAMPLES, printed
from cca_tools.page.charts import Frame, doublings, draw_demand, draw_prices

COLUMN, ROW, TOP = WIDTH / 2 + 7, 276, 40  # how wide and how high the part of a category is, and where the first begins


@dataclass(frozen=True)
class Category:
    """A category with its prices and the lots that are asked for, by round."""

    name: str
    supply: int
    prices: Sequence[int]
    demand: Sequence[int]

    def said(self) -> str:
        """A description of what the picture shows of it."""
        verb = "is" if self.supply == 1 else "are"
        prices = ", ".join(f"{price / 1000:g}" for price in self.prices)
        asked = ", ".join(map(str, self.demand))
        return f"{self.name}, of which {self.supply} {verb} sold: prices {prices} in millions, asked for {asked}"


def read_rounds() -> list[Category]:
    """The clock rounds of the sample, as cca replies to its log."""
    award = tomllib.loads((EXAMPLES / "spectrum.award").read_text())
    with open(EXAMPLES / "spectrum.log", newline="") as file:
        log = list(csv.reader(file))
    said = printed("auction", "spectrum.award", "spectrum.log", out="rounds.book").splitlines()
    prices, held = [category["reserve"] for category in award["category"]], dict[str, list[int]]()
    every = [Category(it["name"], it["supply"], [], []) for it in award["category"]]
    rounds = list[tuple[list[int], list[int]]]()
    for (kind, bidder, package, _), reply in zip(log, (line.split(" ")[1:] for line in said)):
        if kind == "bid" and reply[0] == "ok":
            held[bidder] = [int(count) for count in package.split(" ")]
        if kind == "close" and reply[0] in ("round", "sealed"):
            rounds.append((prices, [sum(counts) for counts in zip(*held.values())]))
            prices, held = [int(price) for price in reply[2:]], {}
    return [
        Category(it.name, it.supply, [prices[c] for prices, _ in rounds], [asked[c] for _, asked in rounds])
        for c, it in enumerate(every)
    ]


def draw_category(drawing: Drawing, it: Category, left: float, top: float, most: float, above: float) -> None:
    """The prices of a category as the stairs of reports, and below them the lots asked for."""
    right, count = left + WIDTH / 2 - 11, len(it.prices)
    drawing.text(left, top + 14, it.name, "ink", is_bold=True)
    drawing.text(right, top + 14, f"supply {it.supply}", "red", "end")
    heights = [doublings(price, it.prices[0]) for price in it.prices]
    draw_prices(drawing, Frame(left, right, top + 38, top + 112, 0, most, count), it.prices, heights)
    frame = Frame(left, right, top + 146, top + 240, 0, above, count)
    draw_demand(drawing, frame, it.demand, it.supply, False)
    drawing.line(frame.left, frame.bottom, frame.right, frame.bottom, "soft", 1)
    for number in range(1, count + 1):
        drawing.text(frame.x(number), frame.bottom + 16, "round 1" if number == 1 else str(number), side="middle")


def draw(folder: pathlib.Path) -> None:
    """Draws the picture in this folder."""
    every, drawing = read_rounds(), Drawing("rounds")
    most = max(doublings(it.prices[-1], it.prices[0]) for it in every)
    above = max(100 * asked / it.supply for it in every for asked in it.demand)
    drawing.text(4, 14, "line: price of a lot from its reserve up, on one log scale")
    drawing.text(4, 30, "bars: lots asked for, on a scale of the supply")
    for c, it in enumerate(every):
        draw_category(drawing, it, 4 + COLUMN * (c % 2), TOP + ROW * (c // 2), most, above)
    bottom = TOP + ROW * ((len(every) + 1) // 2)
    draw_key(
        drawing, 4, bottom + 12, [("orangish", "orange", True, "above the supply"), ("red", None, False, "supply")]
    )
    draw_key(drawing, 4, bottom + 30, [("greenish", "green", False, "within the supply")])
    about = "; ".join(it.said() for it in every) + "."
    keep(folder, drawing, bottom + 40, "Prices and demand by round", about)
