"""Draws docs/pictures/growth.svg: the CPU times of cca as a book grows, from bench/growth.csv."""

from __future__ import annotations

import csv
import math
import pathlib
from collections.abc import Callable, Sequence
from dataclasses import dataclass

from build.drawing import WIDTH, Drawing, keep

MEASURED = pathlib.Path(__file__).resolve().parents[2] / "bench" / "growth.csv"
FIELDS = ("grown", "bidders", "bids", "states", "win", "price", "check", "winners")
KINDS = {"bidders": "bidders", "bids": "bids of each bidder", "states": "states"}
ROLES = {"win": "green", "price": "orange", "check": "blue"}
LEFT, RIGHT, HIGH, TOP = 58, WIDTH - 48, 92, 50
PART = HIGH + 66  # how high the part of a size is, with its head and its axis
APART = 13  # of the names at the ends of lines


@dataclass(frozen=True)
class Row:
    """What was measured of a book: which size of it grows, its sizes, the CPU time of each command in milliseconds, and
    how many bidders win."""

    grown: str
    sizes: dict[str, int]
    times: dict[str, float]
    winners: int

    def said(self) -> str:
        """A description of the row."""
        spent = ", ".join(f"{command} {time:.0f}" for command, time in self.times.items())
        return (
            f"{self.sizes['bidders']} bidders, {self.sizes['bids']} bids, {self.sizes['states']:,} states, of whom"
            f" {self.winners} win: {spent} ms."
        )


def read_rows(path: pathlib.Path = MEASURED) -> list[Row]:
    """The measured rows, in the order of the file."""
    with open(path, newline="", encoding="utf-8") as file:
        return [
            Row(
                it["grown"],
                {kind: int(it[kind]) for kind in KINDS},
                {command: float(it[command]) for command in ROLES},
                int(it["winners"]),
            )
            for it in csv.DictReader(file)
        ]


def marks(low: float, high: float) -> list[float]:
    """The numbers of a logarithmic scale between two times."""
    every = (digit * 10.0**power for power in range(-2, 6) for digit in (1, 3))
    return [it for it in every if low <= it <= high]


def spread(places: Sequence[float]) -> list[float]:
    """Places of names near these, from the top, so that each has room."""
    order, found = sorted(range(len(places)), key=lambda at: places[at]), list(places)
    for above, here in zip(order, order[1:]):
        found[here] = max(found[here], found[above] + APART)
    return found


def draw_mark(drawing: Drawing, command: str, x: float, y: float, says: str) -> None:
    """The mark of a command: a dot, a triangle or a square, so that lines differ without colours too."""
    if command == "win":
        drawing.dot(x, y, 3.4, ROLES[command], says)
    elif command == "price":
        drawing.triangle(x, y - 5, 9, ROLES[command], says)
    else:
        drawing.rect(x - 3.2, y - 3.2, 6.4, 6.4, ROLES[command], says=says)


def draw_kind(drawing: Drawing, rows: Sequence[Row], kind: str, top: float, height: Callable[[float], float]) -> None:
    """The times of the commands as one size doubles, on scales that double."""
    low, high = (math.log2(row.sizes[kind]) for row in (rows[0], rows[-1]))
    bottom = top + HIGH

    def across(row: Row) -> float:
        return LEFT + 14 + (math.log2(row.sizes[kind]) - low) / (high - low) * (RIGHT - LEFT - 28)

    drawing.text(LEFT, top - 8, KINDS[kind], "ink", is_bold=True)
    drawing.line(LEFT, bottom, RIGHT, bottom, "soft", 1)
    drawing.text(LEFT - 6, bottom + 31, "winners", side="end")
    for row in rows:
        drawing.line(across(row), bottom, across(row), bottom + 4, "soft", 1)
        drawing.text(across(row), bottom + 16, f"{row.sizes[kind]:,}", side="middle")
        drawing.text(across(row), bottom + 31, str(row.winners), side="middle")
    for command, role in ROLES.items():
        drawing.path([(across(row), height(row.times[command]) + top) for row in rows], role)
    for command in ROLES:
        for row in rows:
            says = f"{command}, {row.sizes[kind]:,} {kind}: {row.times[command]:,.0f} ms"
            draw_mark(drawing, command, across(row), height(row.times[command]) + top, says)
    ends = spread([height(rows[-1].times[command]) + top for command in ROLES])
    for (command, role), place in zip(ROLES.items(), ends):
        drawing.text(RIGHT - 4, place + 4, command, role)


def draw(folder: pathlib.Path) -> None:
    """Draws the picture in this folder."""
    rows, drawing = read_rows(), Drawing("growth")
    times = [time for row in rows for time in row.times.values()]
    low, high = math.log10(min(times) / 1.3), math.log10(1.2 * max(times))

    def height(time: float) -> float:
        return HIGH - (math.log10(time) - low) / (high - low) * HIGH

    drawing.text(4, 14, "CPU time in ms as one of three sizes doubles;")
    most = {kind: max(row.sizes[kind] for row in rows) for kind in KINDS}
    drawing.text(4, 29, f"the other two are {most['bidders']} bidders, {most['bids']} bids, {most['states']:,} states")
    for place, kind in enumerate(KINDS):
        top = TOP + 10 + PART * place
        for mark in marks(10**low, 10**high):
            drawing.line(LEFT, top + height(mark), RIGHT - 10, top + height(mark), "rule", 1)
            drawing.text(LEFT - 6, top + height(mark) + 4, f"{mark:g}", side="end")
        draw_kind(drawing, [row for row in rows if row.grown == kind], kind, top, height)
    bottom = TOP + 10 + PART * len(KINDS) - 24
    keep(folder, drawing, bottom, "CPU time of win, price and check as books grow", " ".join(it.said() for it in rows))
