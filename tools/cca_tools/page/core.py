"""What the winners could pay that no coalition blocks, and the pictures of it for two and for three winners."""

from __future__ import annotations

import importlib.util
import math
from collections.abc import Collection, Sequence
from dataclasses import dataclass
from fractions import Fraction
from itertools import combinations
from typing import TypeAlias

from cca_tools.page import words
from cca_tools.page.charts import WIDE, shortened
from cca_tools.page.ink import as_picture
from cca_tools.page.svg import Drawing, width_of
from cca_tools.rules.book import Book
from cca_tools.rules.money import less, total
from cca_tools.rules.types import BidderNumber, Choice, Gross, GrossPrice, Net
from cca_tools.rules.winners import line_before

Number: TypeAlias = int | Fraction
Point: TypeAlias = tuple[Number, Number]
# A set of winners, in order.
Group: TypeAlias = tuple[BidderNumber, ...]
TOP, BOTTOM = 22, 260
MOST_TIMES = 8  # how many times what is paid above the Vickrey prices an axis may have
SMALL = 60_000  # the most states times bids of a book that needs no numpy


def best_without(book: Book, out: Collection[BidderNumber]) -> Net:
    """The greatest net value of a choice without bids of these bidders, by the remaining supplies one bidder after the
    other."""
    import numpy

    best = numpy.zeros([count + 1 for count in book.supply], dtype=numpy.int64)
    for j, (bids, nets) in enumerate(zip(book.bids, book.net), 1):
        before = best.copy()
        for (package, _), net in zip(bids, nets) if j not in out else ():
            into = tuple(slice(count, None) for count in package)
            rest = tuple(slice(0, most + 1 - count) for count, most in zip(package, book.supply))
            numpy.maximum(best[into], before[rest] + net, out=best[into])
    return Net(int(best.flat[-1]))


def best_plainly(book: Book, out: Collection[BidderNumber]) -> Net:
    """This value without numpy, for books that are small enough."""
    line = [0] * book.states
    for j in range(1, book.bidders + 1):
        line = line if j in out else line_before(book, j, line)
    return Net(line[-1])


def effort(book: Book) -> int:
    """About how many steps a greatest value takes."""
    return book.states * sum(map(len, book.bids))


def is_known(book: Book) -> bool:
    """Whether the demands of all sets of winners can be computed here in a few seconds."""
    return effort(book) < 10**6 or importlib.util.find_spec("numpy") is not None


def bounds(book: Book, choice: Choice, winners: Sequence[BidderNumber]) -> dict[Group, Net]:
    """For each set of winners what they have to pay together, since a choice without them offers this much."""
    bid = {j: book.net[j - 1][choice[j - 1] - 1] for j in winners}
    best = best_plainly if effort(book) < SMALL or not importlib.util.find_spec("numpy") else best_without
    sets = [chosen for size in range(1, len(winners) + 1) for chosen in combinations(winners, size)]
    return {chosen: less(best(book, chosen), total(bid[j] for j in winners if j not in chosen)) for chosen in sets}


def clipped(polygon: list[Point], a: int, b: int, least: Number) -> list[Point]:
    """The part of a polygon with a x + b y at least this much."""
    kept: list[Point] = []
    for (x, y), (u, v) in zip(polygon, polygon[1:] + polygon[:1]):
        here, there = a * x + b * y - least, a * u + b * v - least
        if here >= 0:
            kept.append((x, y))
        if here * there < 0:
            part = Fraction(here) / (here - there)
            kept.append((x + part * (u - x), y + part * (v - y)))
    return kept


def corner(lowest: Sequence[Number], highest: Sequence[Number]) -> list[Point]:
    """The corners of the rectangle between two of them."""
    (left, bottom), (right, top) = lowest, highest
    return [(left, bottom), (right, bottom), (right, top), (left, top)]


def window(low: Number, high: Number, span: Number) -> tuple[float, float]:
    """Ends of an axis that leave room around both values, in parts of this span."""
    return float(low - Fraction(span) * 3 / 10), float(high + Fraction(span) * 12 / 100)


def alike(
    xs: tuple[float, float], ys: tuple[float, float], width: float, height: float
) -> tuple[tuple[float, float], tuple[float, float]]:
    """The ends of both axes on one scale, so that the nearest point looks nearest."""
    unit = max((xs[1] - xs[0]) / width, (ys[1] - ys[0]) / height)
    return (xs[0], xs[0] + unit * width), (ys[0], ys[0] + unit * height)


def shown(low: Sequence[Number], bid: Sequence[Number], both: Number) -> list[Number]:
    """The greatest payments of two winners in a picture: up to both bids, unless the payments of least sum would be too
    small then."""
    above = both - low[0] - low[1]
    if above <= 0 or max(high - least for least, high in zip(low, bid)) <= MOST_TIMES * above:
        return list(bid)
    return [min(high, least + 2 * above) for least, high in zip(low, bid)]


@dataclass(frozen=True)
class Stage:
    """A picture with an axis for each of two winners, on one scale: the values at its ends, and its left edge."""

    drawing: Drawing
    xs: tuple[float, float]
    ys: tuple[float, float]
    left: float

    def at(self, x: Number, y: Number) -> tuple[float, float]:
        """The place of two payments."""
        (left, right), (low, high) = self.xs, self.ys
        across, up = (float(x) - left) / (right - left), (float(y) - low) / (high - low)
        return self.left + across * (WIDE - 4 - self.left), BOTTOM - up * (BOTTOM - TOP)

    def area(self, polygon: list[Point], fill: str, edge: str | None = None, says: str = "") -> None:
        """A polygon; one that is no more than a line is drawn as a thick one."""
        if polygon:
            is_line = sum(x * v - u * y for (x, y), (u, v) in zip(polygon, polygon[1:] + polygon[:1])) == 0
            places = [self.at(x, y) for x, y in polygon]
            self.drawing.area(places, fill, edge, 4 if is_line else 1.4, says)

    def points(self, names: Sequence[str], low: Point, pays: Point) -> None:
        """The marks of the Vickrey prices and of what is paid, and the way from these to those."""
        (x, y), (u, v) = self.at(*low), self.at(*pays)
        length = math.hypot(u - x, v - y)
        if length > 16:
            a, b = (u - x) / length, (v - y) / length
            tip = u - 7 * a, v - 7 * b
            self.drawing.path([(x + 6 * a, y + 6 * b), tip], "ink", 1.4)
            sides = [(tip[0] - 6 * a + 3 * s * b, tip[1] - 6 * b - 3 * s * a) for s in (1, -1)]
            self.drawing.path([sides[0], tip, sides[1]], "ink", 1.4)
        told = [f"{names[0]} {words.price(one)}, {names[1]} {words.price(other)}" for one, other in (low, pays)]
        draw_marks(self.drawing, (x, y), (u, v), f"Vickrey prices: {told[0]}", f"paid: {told[1]}")

    def axes(self, names: Sequence[str], xs: Sequence[Number], ys: Sequence[Number]) -> None:
        """The axes with their names, and numbers at these values, the first before the others, if they have room next
        to each other."""
        draw, right = self.drawing, WIDE - 4
        draw.line(self.left, BOTTOM, right, BOTTOM, "soft", 1)
        draw.line(self.left, BOTTOM, self.left, TOP, "soft", 1)
        draw.text(0, TOP - 7, f"{shortened(names[1], WIDE - 50)} pays", "ink")
        draw.text(right, BOTTOM + 34, f"{shortened(names[0], WIDE - 50)} pays", "ink", "end")
        for value, place in self.kept(xs, is_across=True):
            half = width_of(words.price(value)) / 2
            draw.line(place, BOTTOM, place, BOTTOM + 4, "soft", 1)
            draw.text(min(place, WIDE - half), BOTTOM + 17, words.price(value), side="middle")
        for value, place in self.kept(ys, is_across=False):
            draw.line(self.left - 4, place, self.left, place, "soft", 1)
            draw.text(self.left - 6, place + 4, words.price(value), side="end")

    def kept(self, values: Sequence[Number], is_across: bool) -> list[tuple[Number, float]]:
        """The values whose numbers have room, each with its place."""
        found: list[tuple[Number, float, float]] = []
        low, high = self.xs if is_across else self.ys
        for value in dict.fromkeys(values):
            x, y = self.at(value, 0) if is_across else self.at(0, value)
            place, room = (x, width_of(words.price(value)) + 8) if is_across else (y, 15.0)
            if low <= value <= high and all(abs(place - other) >= (room + wide) / 2 for _, other, wide in found):
                found.append((value, place, room))
        return [(value, place) for value, place, _ in found]


def draw_marks(
    drawing: Drawing, low: tuple[float, float], pays: tuple[float, float], low_says: str, pays_says: str
) -> None:
    """The marks of the Vickrey prices and of what is paid. A triangle is large enough to be seen around a dot that lies
    over it."""
    (x, y), (u, v) = low, pays
    size = 10 if math.hypot(u - x, v - y) > 12 else 22
    drawing.triangle(x, y - size * (0.5 if size == 10 else 0.62), size, "orange", low_says)
    drawing.dot(u, v, 4.5, "blue", pays_says)


def stage(key: str, xs: tuple[Number, Number], ys: tuple[Number, Number], marks: Sequence[Number]) -> Stage:
    """An empty picture from below the first value to above the last, with room for these numbers at its left."""
    left = max(width_of(words.price(value)) for value in marks) + 10
    span = max(Fraction(xs[1] - xs[0]), Fraction(ys[1] - ys[0])) or abs(Fraction(xs[1])) or Fraction(1)
    across, up = alike(window(*xs, span), window(*ys, span), WIDE - 4 - left, BOTTOM - TOP)
    return Stage(Drawing(key), across, up, left)


def two(
    key: str,
    title: str,
    about: str,
    names: Sequence[str],
    low: Sequence[Gross],
    bid: Sequence[Gross],
    both: Gross,
    pays: Sequence[GrossPrice],
) -> str:
    """The payments of two winners: Vickrey prices, bids, what they have to pay together, and what they pay."""
    most = shown(low, bid, both)
    made = stage(key, (low[0], most[0]), (low[1], most[1]), [low[1], bid[1], pays[1]])
    left, bottom = Fraction(made.xs[0]), Fraction(made.ys[0])
    ends = [min(Fraction(end), Fraction(high)) for end, high in zip((made.xs[1], made.ys[1]), bid)]
    core = clipped(corner(low, ends), 1, 1, both)
    made.area(corner((left, bottom), ends), "reddish", says="somebody blocks")
    made.area(core, "greenish", "green", "nobody blocks: the core")
    least = sorted(clipped(clipped(core, -1, -1, -sum(pays)), 1, 1, sum(pays)))
    if len(least) > 1:
        line = [made.at(*least[0]), made.at(*least[-1])]
        made.drawing.path(line, "red", 3, f"the least sum that nobody blocks: {words.price(sum(pays))}")
    made.points(names, (low[0], low[1]), (pays[0], pays[1]))
    made.axes(names, [low[0], bid[0], pays[0]], [low[1], bid[1], pays[1]])
    return as_picture(key, title, about, (WIDE, BOTTOM + 42), made.drawing.inner())


@dataclass(frozen=True)
class Triangle:
    """The payments of three winners that are at least their Vickrey prices and have the same total, as a triangle of
    equal sides: at a corner one winner pays all that is above. So all distances are differences of payments, on one
    scale."""

    low: Sequence[Number]
    above: Number

    def at(self, x: Number, y: Number) -> tuple[float, float]:
        """The place of what the first and the second winner pay; the third pays the rest."""
        first, second = (float(Fraction(it - low) / self.above) for it, low in zip((x, y), self.low))
        third = 1 - first - second
        return MIDDLE + SIDE / 2 * (third - second), BASE - SIDE * math.sqrt(3) / 2 * first


# The places of the triangle's corners: its base, the middle of it, and the length of a side.
BASE, MIDDLE, SIDE = 252, WIDE / 2, 220


def three(
    key: str,
    title: str,
    about: str,
    names: Sequence[str],
    low: Sequence[Gross],
    bid: Sequence[Gross],
    demands: Sequence[Gross],
    pays: Sequence[GrossPrice],
) -> str:
    """The payments of least sum of three winners, if that is more than the sum of the Vickrey prices."""
    whole = sum(pays)
    above = whole - sum(low)
    drawing, made = Drawing(key), Triangle(low, above)
    ends = [(low[0] + above, low[1]), (low[0], low[1] + above), (low[0], low[1])]
    core: list[Point] = [*ends]
    drawing.area([made.at(*it) for it in core], "ground", "rule", says="all ways to share the least sum")
    for (a, b), least in zip(((-1, 0), (0, -1), (1, 1)), (-bid[0], -bid[1], whole - bid[2])):
        core = clipped(core, a, b, least)
    drawing.area([made.at(*it) for it in core], "reddish", says="somebody blocks")
    for (a, b), least in zip(((1, 1), (0, -1), (-1, 0)), (demands[0], demands[1] - whole, demands[2] - whole)):
        core = clipped(core, a, b, least)
    if core:
        is_line = sum(x * v - u * y for (x, y), (u, v) in zip(core, core[1:] + core[:1])) == 0
        places = [made.at(*it) for it in core]
        drawing.area(places, "greenish", "green", 4 if is_line else 1.4, "nobody blocks")
    part = Fraction(above, 3)
    told = [f"{name} {words.price(amount)}" for name, amount in zip(names, low)]
    paid = [f"{name} {words.price(amount)}" for name, amount in zip(names, pays)]
    draw_marks(
        drawing,
        made.at(low[0] + part, low[1] + part),
        made.at(pays[0], pays[1]),
        f"Vickrey prices, each raised by the same: {words.listed(told)}",
        f"paid: {words.listed(paid)}",
    )
    label_corners(drawing, made, names)
    return as_picture(key, title, about, (WIDE, BASE + 44), drawing.inner())


def label_corners(drawing: Drawing, made: Triangle, names: Sequence[str]) -> None:
    """At each corner who pays how much there; the other two pay their Vickrey prices."""
    most = [f"pays {words.price(low + made.above)}" for low in made.low]
    drawing.text(MIDDLE, BASE - SIDE * math.sqrt(3) / 2 - 22, shortened(names[0], WIDE), "ink", "middle")
    drawing.text(MIDDLE, BASE - SIDE * math.sqrt(3) / 2 - 7, most[0], side="middle")
    drawing.text(0, BASE + 20, shortened(names[1], WIDE / 2 - 8), "ink")
    drawing.text(0, BASE + 35, most[1])
    drawing.text(WIDE, BASE + 20, shortened(names[2], WIDE / 2 - 8), "ink", "end")
    drawing.text(WIDE, BASE + 35, most[2], side="end")
