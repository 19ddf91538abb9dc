"""The pictures of a study: for each case how the revenue of each rule is spread, and between cases the differences."""

from __future__ import annotations

import math
from collections.abc import Sequence
from typing import TypeAlias

from cca_tools.page.charts import WIDE, shortened
from cca_tools.page.ink import as_file, as_picture
from cca_tools.page.svg import Drawing, width_of
from cca_tools.page.words import minus
from cca_tools.studies.measures import Spread

# The room at both sides for the numbers of the axis; the heights of a bar with its text, of a head, and of the axis.
SIDE, ROW, HEAD, FOOT = 14, 40, 24, 44
# A row of a picture: its name, its spread, and the roles of the box's colour and of its edge's.
Bar: TypeAlias = tuple[str, Spread, tuple[str, str]]
COLOURS = {"core": ("bluish", "blue"), "Vickrey": ("orangish", "orange"), "pay as bid": ("greenish", "green")}
ABOVE, BELOW, EVEN = ("greenish", "green"), ("orangish", "orange"), ("bluish", "blue")

# What the marks mean, below a picture in a file of its own.
KEY = (
    "line: from 5 % to 95 % of the auctions",
    "box: from 25 % to 75 %, with the median",
    "dot: the mean, hollow if it may be chance",
)


def is_even(spread: Spread) -> bool:
    """Whether a difference may be chance: its mean is within two standard errors of 0."""
    return spread.error is None or abs(spread.mean) <= 2 * spread.error


def colour_of(spread: Spread) -> tuple[str, str]:
    """The colours of a difference: by its mean, if that is more than two standard errors from 0."""
    return EVEN if is_even(spread) else ABOVE if spread.mean > 0 else BELOW


class Scale:
    """The scale from values to places across the picture, with room for all values of some spreads."""

    def __init__(self, spreads: Sequence[Spread], has_zero: bool) -> None:
        values = [value for it in spreads for value in (*it.quantiles, it.mean)] + ([0.0] if has_zero else [])
        self.low, high = min(values), max(values)
        self.span = high - self.low or 1.0

    def place(self, value: float) -> float:
        """The place of a value."""
        return SIDE + (WIDE - 2 * SIDE) * (value - self.low) / self.span

    def ticks(self) -> list[float]:
        """Round values, some four of them."""
        power = 10.0 ** math.floor(math.log10(self.span / 4))
        step = next(power * n for n in (1, 2, 5, 10) if power * n * 4.5 >= self.span)
        first = math.ceil(self.low / step)
        return [n * step for n in range(first, math.floor((self.low + self.span) / step) + 1)]


def draw_bar(drawing: Drawing, scale: Scale, y: float, label: str, spread: Spread, colours: tuple[str, str]) -> None:
    """A spread: a line from 5 to 95 percent, a box from 25 to 75 with the median in it, and a point at the mean, which
    is hollow where a difference may be chance."""
    low, left, middle, right, high = map(scale.place, spread.quantiles)
    face, edge = colours
    half = f"half of them from {spread.quantiles[1]:.2f} to {spread.quantiles[3]:.2f}"
    says = minus(f"{label}: mean {spread.mean:.2f}, {half}")
    drawing.line(low, y, high, y, edge, 1.4)
    drawing.rect(left, y - 6, max(right - left, 1), 12, face, edge, says=says)
    drawing.line(middle, y - 6, middle, y + 6, edge, 2)
    drawing.dot(scale.place(spread.mean), y, 3.4, "ink", says)
    if colours == EVEN and is_even(spread):
        drawing.dot(scale.place(spread.mean), y, 2, "ground")


def draw_axis(drawing: Drawing, scale: Scale, y: float, what: str) -> None:
    """The values below the bars, and what they are."""
    drawing.line(SIDE, y, WIDE - SIDE, y, "soft", 1)
    ticks = scale.ticks()
    decimals = max(0, -math.floor(math.log10(ticks[1] - ticks[0]))) if len(ticks) > 1 else 2
    for tick in ticks:
        label = minus(f"{tick + 0:.{decimals}f}")
        half = width_of(label) / 2
        drawing.line(scale.place(tick), y, scale.place(tick), y + 4, "soft", 1)
        drawing.text(min(max(scale.place(tick), half), WIDE - half), y + 16, label, side="middle")
    drawing.text(WIDE / 2, y + 34, what, side="middle")


def draw_zero(drawing: Drawing, scale: Scale, rows: Sequence[float]) -> None:
    """The line at 0, in the row of each bar, so that it crosses no text."""
    for y in rows:
        drawing.line(scale.place(0), y - 11, scale.place(0), y + 11, "soft", 1)


def bars(
    key: str,
    title: str,
    about: str,
    groups: Sequence[tuple[str, Sequence[Bar]]],
    what: str,
    line: bool,
    is_file: bool = False,
) -> str:
    """Groups of bars one below the other, each with its name and its mean above it, and each group with its name; with
    a line at 0 if these are differences."""
    scale = Scale([spread for _, of_one in groups for _, spread, _ in of_one], line)
    drawing, top = Drawing(key), 0.0
    for name, of_one in groups:
        if name:
            drawing.text(0, top + 15, shortened(name, WIDE), "ink", is_bold=True)
            top += HEAD
        if line:
            draw_zero(drawing, scale, [top + ROW * at + 27 for at in range(len(of_one))])
        for label, spread, colours in of_one:
            mean = minus(f"{spread.mean:.2f}")
            drawing.text(0, top + 13, shortened(label, WIDE - width_of(mean) - 8))
            drawing.text(WIDE, top + 13, mean, "ink", "end")
            draw_bar(drawing, scale, top + 27, label, spread, colours)
            top += ROW
    draw_axis(drawing, scale, top + 4, what)
    for row, words in enumerate(KEY if is_file else ()):
        drawing.text(0, top + FOOT + 16 * (row + 1), words)
    size = (WIDE, round(top) + FOOT + (16 * len(KEY) + 8) * is_file)
    draw = as_file if is_file else as_picture
    return draw(key, title, about, size, drawing.inner())
