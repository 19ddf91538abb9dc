"""Draws docs/pictures/core.svg: which payments of the two winners of examples/day-cramton.book are blocked, and the
ones that pricing finds."""

from __future__ import annotations

import math
import pathlib
import re
from collections.abc import Sequence
from dataclasses import dataclass

from build.drawing import WIDTH, Drawing, keep
from build.drawings.printed import printed
from cca_tools.page.svg import Side

LEFT, TOP, BELOW = 36, 30, 3  # the room for numbers and names, and how far the axes go below the Vickrey prices
HEIGHT = 290


@dataclass(frozen=True)
class Winner:
    """What one of two winners bid and pays, and its Vickrey price, all gross."""

    bid: int
    vickrey: int
    pays: int


@dataclass(frozen=True)
class Core:
    """Both winners, what they have to pay together, and a unit of payment on either axis."""

    first: Winner
    second: Winner
    both: int

    @property
    def unit(self) -> float:
        """The length of a unit of payment, on both axes."""
        return (WIDTH - LEFT - 14) / (self.first.bid - self.left)

    @property
    def left(self) -> int:
        """The least payment of the first winner that is shown."""
        return self.first.vickrey - BELOW - 1

    @property
    def bottom(self) -> int:
        """The least payment of the second winner that is shown."""
        return self.second.vickrey - BELOW

    def at(self, x: float, y: float) -> tuple[float, float]:
        """The place of two payments."""
        return LEFT + (x - self.left) * self.unit, TOP + (self.second.bid + 0.5 - y) * self.unit


def read_core(text: str) -> Core:
    """The prices that `cca price --rounds` prints of two winners."""
    found = re.findall(r"^winner .* bid (\d+) vickrey (\d+) pays (\d+)$", text, re.M)
    first, second = (Winner(*map(int, numbers)) for numbers in found)
    (excess,) = re.findall(r"^round 1 .* row 1 2 .* excess (\d+)$", text, re.M)
    return Core(first, second, first.vickrey + second.vickrey + int(excess))


def draw_areas(drawing: Drawing, core: Core) -> None:
    """What is blocked, the core, and the line of least sum."""
    one, other, at = core.first, core.second, core.at
    frame = [(core.left, core.bottom), (one.bid, core.bottom), (one.bid, other.bid), (core.left, other.bid)]
    drawing.area([at(*place) for place in frame], "reddish")
    ends = [(one.vickrey, core.both - one.vickrey), (core.both - other.vickrey, other.vickrey)]
    corners = [ends[0], (one.vickrey, other.bid), (one.bid, other.bid), (one.bid, other.vickrey), ends[1]]
    drawing.area([at(*place) for place in corners], "greenish", "green", says="core: nobody blocks")
    drawing.line(*at(one.vickrey, core.bottom), *at(one.vickrey, other.bid), "red", 1, "5 4")
    drawing.line(*at(core.left, other.vickrey), *at(one.bid, other.vickrey), "red", 1, "5 4")
    drawing.path([at(*place) for place in ends], "red", 3, f"the least sum: {core.both}")


def draw_arrow(drawing: Drawing, start: tuple[float, float], end: tuple[float, float]) -> None:
    """An arrow from a mark to another."""
    (x, y), (u, v) = start, end
    length = math.hypot(u - x, v - y)
    a, b = (u - x) / length, (v - y) / length
    tip = u - 8 * a, v - 8 * b
    drawing.path([(x + 7 * a, y + 7 * b), tip], "ink", 1.5)
    sides = [(tip[0] - 7 * a + 4 * s * b, tip[1] - 7 * b - 4 * s * a) for s in (1, -1)]
    drawing.path([sides[0], tip, sides[1]], "ink", 1.5)


def draw_axes(drawing: Drawing, core: Core) -> None:
    """Both axes with their numbers and names."""
    one, other, at = core.first, core.second, core.at
    (x, y), (u, v) = at(core.left, core.bottom), at(one.bid, other.bid)
    drawing.line(x, y, u + 8, y, "soft", 1)
    drawing.line(x, y, x, v - 8, "soft", 1)
    for value in (one.vickrey, one.pays, core.both - other.vickrey, one.bid):
        place = at(value, core.bottom)[0]
        drawing.line(place, y, place, y + 4, "soft", 1)
        drawing.text(place, y + 18, str(value), side="middle")
    for value in (other.vickrey, other.pays, core.both - one.vickrey, other.bid):
        place = at(core.left, value)[1]
        drawing.line(x - 4, place, x, place, "soft", 1)
        drawing.text(x - 8, place + 4, str(value), side="end")
    drawing.text(u + 8, y + 36, f"b1 pays, of its bid of {one.bid}", "ink", "end")
    drawing.text(4, 14, f"b2 pays, of its bid of {other.bid}", "ink")


def draw_labels(drawing: Drawing, core: Core) -> None:
    """What the areas and the marks are."""

    def say(lines: Sequence[str], x: float, y: float, role: str, side: Side = "start") -> None:
        for row, words in enumerate(lines):
            drawing.text(core.at(x, y)[0], core.at(x, y)[1] + 14 * row, words, role, side)

    one, other, both = core.first, core.second, core.both
    say(["Vickrey", f"{one.vickrey} and {other.vickrey}"], one.vickrey - 0.3, other.vickrey - 1, "orange", "end")
    paid = [f"paid: {one.pays} and {other.pays}, of", "the least sum nearest", "to the Vickrey prices"]
    say(paid, one.pays + 0.7, other.pays + 1.5, "blue")
    say(["core: nobody blocks"], (one.vickrey + one.bid) / 2 - 2, other.bid - 1.1, "green")
    say([f"least sum: {both},", "which b3 offers"], both - other.vickrey + 0.6, other.vickrey + 1, "red")
    say(["blocked:", "b1 pays", "too little"], core.left + 0.2, other.bid - 0.9, "red")
    say(["blocked: b2 pays less", "than its Vickrey price"], one.bid - 0.2, other.vickrey - 1.2, "red", "end")


def draw(folder: pathlib.Path) -> None:
    """Draws the picture in this folder."""
    core = read_core(printed("price", "day-cramton.book", out="core.cert", flags=("--rounds",)))
    one, other, drawing = core.first, core.second, Drawing("core")
    draw_areas(drawing, core)
    low, paid = core.at(one.vickrey, other.vickrey), core.at(one.pays, other.pays)
    draw_arrow(drawing, low, paid)
    draw_axes(drawing, core)
    draw_labels(drawing, core)
    drawing.triangle(low[0], low[1] - 6, 11, "orange", f"Vickrey prices: {one.vickrey} and {other.vickrey}")
    drawing.dot(*paid, 5, "blue", f"paid: {one.pays} and {other.pays}")
    about = (
        f"The Vickrey prices are {one.vickrey} and {other.vickrey}. b3 offers {core.both} for both lots, so payments"
        f" that come to less are blocked. Of the payments of the least sum, {core.both}, {one.pays} and {other.pays} "
        "are"
        " the nearest to the Vickrey prices: they are paid."
    )
    keep(folder, drawing, HEIGHT, "What b1 and b2 could pay", about)
