"""The pictures of rounds, activity, prices and lots."""

from __future__ import annotations

import math
from collections.abc import Iterator, Sequence
from dataclasses import dataclass
from fractions import Fraction
from itertools import groupby

from cca_tools.page import words
from cca_tools.page.ink import WINNERS, as_picture
from cca_tools.page.svg import Drawing, share, width_of
from cca_tools.rules.types import Amount, Gross, GrossPrice

# The width of a picture in a card: a card on a phone is as wide, so letters have their own size there. Up to FEW
# rounds, each has its number. Up to MANY, each has a mark. Of more, rounds that are alike share a mark.
WIDE, FEW, MANY = 300, 10, 60
ROUND_LINE = 16


def nice_step(span: float, most: int) -> int:
    """The least of the steps 1, 2, 5, 10 .. that fits into a span at most this many times."""
    step, at = 1, 0
    while span / step > most:
        at += 1
        step = (1, 2, 5)[at % 3] * 10 ** (at // 3)
    return step


def ticks(low: float, high: float, most: int) -> list[int]:
    """At most this many places at whole numbers, from low to high."""
    step = nice_step(high - low, most - 1)
    return list(range(step * math.ceil(low / step), math.floor(high) + 1, step))


def round_ticks(count: int, most: int) -> list[int]:
    """The rounds that have their number on an axis."""
    step = nice_step(count, most)
    return list(range(step, count + 1, step))


def shortened(name: str, room: float) -> str:
    """A name in this much room, with an ellipsis if it has more letters."""
    letters = max(2, int(room / width_of("m")))
    return name if len(name) <= letters else name[: letters - 1] + "\N{HORIZONTAL ELLIPSIS}"


@dataclass(frozen=True)
class Frame:
    """Where rounds and heights are in a picture: its sides, and the heights at its bottom and top."""

    left: float
    right: float
    top: float
    bottom: float
    low: float
    high: float
    count: int

    @property
    def slot(self) -> float:
        """How wide a round is."""
        return (self.right - self.left) / self.count

    def x(self, number: float) -> float:
        """The middle of a round."""
        return self.left + (number - 0.5) * self.slot

    def y(self, height: float) -> float:
        """The place of a height."""
        return self.bottom - (height - self.low) / (self.high - self.low) * (self.bottom - self.top)


def draw_scale(drawing: Drawing, frame: Frame, places: Sequence[int], is_log: bool = False) -> None:
    """The numbers of these heights at the left; on a logarithmic scale they are percents. No line goes from them
    through the picture, since it would cross the labels of marks."""
    for place in places:
        y = frame.y(doublings(place, 100) if is_log else place)
        drawing.line(frame.left - 3, y, frame.left, y, "soft", 1)
        drawing.text(frame.left - 6, y + 4, f"{place:,}", side="end")


def draw_rounds(drawing: Drawing, frame: Frame) -> None:
    """The axis of rounds below a frame."""
    drawing.line(frame.left, frame.bottom, frame.right, frame.bottom, "soft", 1)
    drawing.text(frame.left - 5, frame.bottom + 15, "round", side="end")
    for number in round_ticks(frame.count, 8):
        label = f"{number:,}"
        middle = min(frame.x(number), frame.right - width_of(label) / 2)  # of many rounds the last is at the edge
        drawing.text(middle, frame.bottom + 15, label, side="middle")


def margin(places: Sequence[int]) -> float:
    """The room at the left for the word `round` and the numbers of a scale."""
    return max([width_of("round"), *(width_of(f"{place:,}") for place in places)]) + 6


def price_says(number: int, price: Amount, first: Amount) -> str:
    """What a price says under the mouse."""
    more = f", {words.per_cent(price, first)} of the reserve" if first else ""
    return f"round {number}: {price:,}{more}"


def draw_prices(drawing: Drawing, frame: Frame, prices: Sequence[Amount], heights: Sequence[float]) -> None:
    """A stair of prices. They only rise, so a label has room below the stair, and the label of the last price above
    it."""
    path = list[tuple[float, float]]()
    for number, height in enumerate(heights, 1):
        path += [(frame.x(number), frame.y(before)) for before in heights[max(0, number - 2) : number - 1]]
        path.append((frame.x(number), frame.y(height)))
    path.append((frame.right, frame.y(heights[-1])))
    drawing.path(path, "blue", says=f"from {prices[0]:,} to {prices[-1]:,}")
    if len(prices) <= MANY:
        for number, (price, height) in enumerate(zip(prices, heights), 1):
            says = price_says(number, price, prices[0])
            drawing.dot(frame.x(number), frame.y(height), 3 if len(prices) <= 3 * FEW else 1.6, "blue", says)
    label_prices(drawing, frame, prices, heights)


def label_prices(drawing: Drawing, frame: Frame, prices: Sequence[Amount], heights: Sequence[float]) -> None:
    """The labels of all prices if they have room, else of the first and the last; the last label also has the rise."""
    labels = [f"{price:,}" for price in prices]
    last = len(prices) - 1
    below = range(last) if max(map(width_of, labels)) < frame.slot else range(min(1, last))
    if labels[0] != labels[-1]:
        for at in below:
            if at == 0 or labels[at] != labels[at - 1]:
                drawing.text(frame.x(at + 1) + 4, frame.y(heights[at]) + 14, labels[at], "blue")
    rise = f", +{words.per_cent(prices[-1] - prices[0], prices[0])}" if prices[0] and labels[0] != labels[-1] else ""
    drawing.text(frame.right, frame.y(heights[-1]) - 7, labels[-1] + rise, "blue", "end")


def price_part(
    drawing: Drawing, top: float, bottom: float, left: float, prices: Sequence[Amount], most: float | None
) -> Frame:
    """The prices of a category: in percent of its reserve where the categories share a scale up to this many, else on a
    scale of its own. Either begins at the reserve, with room for a label below. The shared scale is logarithmic, so
    that a rise of 10 % can be seen next to one of 300 %."""
    heights = [doublings(price, prices[0]) if most else float(price) for price in prices]
    high = doublings(max(LEAST_RISE, most), 100) if most else max(heights[-1], heights[0] + 1)
    drawing.text(0, top - 6, "price, in % of the reserve (log scale)" if most else "price of a lot, on its own scale")
    frame = Frame(left, WIDE, top + 18, bottom - 18, heights[0], high, len(prices))
    draw_scale(drawing, frame, price_ticks(most), is_log=True)
    draw_prices(drawing, frame, prices, heights)
    return frame


LEAST_RISE = 110.0  # percent of the reserve; a scale ends there or higher
APART = 0.19  # of the scale's height: the room of a number


def doublings(value: float | Fraction, first: float | Fraction) -> float:
    """How often the first value has to be doubled for this one."""
    return math.log2(value / first)


def price_ticks(most: float | None) -> list[int]:
    """The numbers of the shared scale of prices, in percent of the reserve, that have room above each other."""
    if not most:
        return []
    most = max(LEAST_RISE, most)
    round_numbers = [digit * 10**power for power in range(2, 16) for digit in (1, 2, 3, 4, 5)]
    found = [100]
    for place in sorted([110, 120, 150, *round_numbers[1:]]):
        if place <= most and doublings(place, found[-1]) >= APART * doublings(most, 100):
            found.append(place)
    return found


def runs(values: Sequence[object]) -> Iterator[tuple[int, int]]:
    """The first and last place, from 1, of each run of equal values."""
    at = 1
    for _, same in groupby(values):
        count = sum(1 for _ in same)
        yield at, at + count - 1
        at += count


def span(first: int, last: int) -> str:
    """One round, or several, in words."""
    return f"round {first:,}" if first == last else f"rounds {first:,} to {last:,}"


def demand_says(first: int, last: int, lots: int, supply: int, is_open: bool) -> str:
    """What a bar of demand says under the mouse."""
    more = f", {lots - supply:,} too many" if lots > supply else ""
    return f"{span(first, last)}: {lots:,} asked for{' so far' if is_open else ''}, of {supply:,}{more}"


def draw_bar(drawing: Drawing, frame: Frame, first: int, last: int, lots: int, supply: int, is_open: bool) -> None:
    """The demand of rounds as a bar: hatched if it is above the supply, and an outline if the round is open."""
    above = lots > supply
    edge, fill = ("orange", "orangish") if above else ("green", "greenish")
    gap = 0.14 * frame.slot if frame.count <= 3 * FEW else 0
    x, y = frame.x(first) - frame.slot / 2 + gap, frame.y(100 * lots / supply)
    width, height = (last - first + 1) * frame.slot - 2 * gap, frame.bottom - y
    says = demand_says(first, last, lots, supply, is_open)
    if is_open:
        drawing.rect(x + 0.5, y, width - 1, height, "ground", "soft", 1.4, "4 3", says)
        return
    drawing.rect(x, y, width, height, fill, edge if gap else None, 1, "", says)
    if above:
        drawing.rect(x, y, width, height, drawing.hatch(edge), None, 0, "", says)


def label_place(y: float, bottom: float, line: float) -> float:
    """The place of a bar's number, so that a line doesn't cross them: above the bar, in it, or above the line."""
    above, inside = y - 4, y + 13
    if not above - 12 <= line <= above + 3:
        return above
    if bottom - y > 17 and not inside - 12 <= line <= inside + 3:
        return inside
    return line - 5


def draw_demand(drawing: Drawing, frame: Frame, demand: Sequence[int], supply: int, is_open: bool) -> None:
    """Lots asked for in percent of the supply, so that all categories share a scale."""
    count, line = len(demand), frame.y(100)
    closed = demand[:-1] if is_open else demand
    each = [(n, n) for n in range(1, len(closed) + 1)] if count <= MANY else list(runs(closed))
    for first, last in [*each, *([(count, count)] if is_open else [])]:
        if demand[first - 1]:
            draw_bar(drawing, frame, first, last, demand[first - 1], supply, is_open and first == count)
    drawing.line(frame.left, line, frame.right, line, "red", 1.6, "", f"the supply: {supply:,}")
    if is_open:
        tip = frame.y(100 * demand[-1] / supply) - (17 if count <= FEW else 4)
        tip = tip if not tip - 12 <= line <= tip + 3 else line - (19 if count <= FEW else 5)
        drawing.text(frame.right, tip, "so far", side="end")
    if count <= FEW and max(width_of(f"{lots:,}") for lots in demand) < frame.slot:
        for number, lots in enumerate(demand, 1):
            top = frame.y(100 * lots / supply)
            y = label_place(top, frame.bottom, line)
            is_hatched = y > top and lots > supply and not (is_open and number == count)
            drawing.text(frame.x(number), y, f"{lots:,}", "ink", "middle", under="orangish" if is_hatched else "")


def category(
    key: str,
    title: str,
    about: str,
    prices: Sequence[Amount],
    demand: Sequence[int],
    supply: int,
    price_scale: float | None,
    demand_scale: float,
    is_open: bool,
) -> str:
    """The prices and the demand of a category by rounds; the last one may be open."""
    drawing = Drawing(key)
    marks = ticks(0, demand_scale, 4)
    left = margin([*price_ticks(price_scale), *marks])
    price_part(drawing, 18, 136, left, prices, price_scale)
    drawing.text(0, 158, "demand, in % of the supply")
    frame = Frame(left, WIDE, 192, 272, 0, demand_scale, len(prices))
    draw_scale(drawing, frame, marks)
    draw_demand(drawing, frame, demand, supply, is_open)
    draw_rounds(drawing, frame)
    return as_picture(key, title, about, (WIDE, 292), drawing.inner())


def posted(key: str, title: str, about: str, prices: Sequence[Amount], price_scale: float | None) -> str:
    """The prices of a category by rounds."""
    drawing = Drawing(key)
    frame = price_part(drawing, 18, 140, margin(price_ticks(price_scale)), prices, price_scale)
    draw_rounds(drawing, Frame(frame.left, frame.right, frame.top, 142, 0, 1, frame.count))
    return as_picture(key, title, about, (WIDE, 162), drawing.inner())


@dataclass(frozen=True)
class Activity:
    """What a bidder did in each round: the points of its package, those that it was eligible for, and the package in
    words."""

    name: str
    points: Sequence[int]
    eligibility: Sequence[int]
    packages: Sequence[str]


def activity_says(one: Activity, first: int, last: int) -> str:
    """What a bar of points says under the mouse."""
    at = first - 1
    return (
        f"{one.name}, {span(first, last)}: {one.packages[at]}, {one.points[at]:,} of"
        f" {words.count(one.eligibility[at], 'point')}"
    )


def draw_activity(drawing: Drawing, one: Activity, top: float, bottom: float, most: int, is_open: bool) -> None:
    """The points of a bidder's packages as bars below the line of its eligibility, a column for each round."""
    count, scale = len(one.points), (bottom - top) / (most or 1)
    each = [(n, n) for n in range(1, count + 1)] if count <= MANY else runs(list(zip(one.points, one.packages)))
    gap = 0.1 if count <= 3 * FEW else 0
    for first, last in each:
        height, outline = one.points[first - 1] * scale, is_open and first == count
        if height:
            x, width = share((first - 1 + gap) / count), share((last - first + 1 - 2 * gap) / count)
            says = activity_says(one, first, last)
            fill, edge = ("ground", "soft") if outline else ("bluish", "blue" if gap else None)
            drawing.rect(x, bottom - height, width, height, fill, edge, 1, "4 3" if outline else "", says)
    drawing.line(share(0), bottom, share(1), bottom, "soft", 1)
    before = one.eligibility[0]
    for first, last in runs(one.eligibility):
        here = one.eligibility[first - 1]
        x, y = share((first - 1) / count), bottom - here * scale
        drawing.line(x, bottom - before * scale, x, y, "red", 1.6)
        says = f"{one.name}, {span(first, last)}: eligible for {words.count(here, 'point')}"
        drawing.line(x, y, share(last / count), y, "red", 2, "", says)
        before = here


# The most bidders for tall bars of points, and for bars with numbers.
MOST_TALL, MOST_NUMBERED = 8, 12


def activities(key: str, title: str, about: str, every: Sequence[Activity], most: int, is_open: bool) -> str:
    """The points and the eligibility of all bidders, a row for each and a column for each round. The last round may be
    open. Rows of many bidders are lower, so that a sheet has room for all of them."""
    drawing, count = Drawing(key), len(every[0].points)
    widest = max(width_of(f"{points:,}") for one in every for points in one.points)
    has_numbers = count <= FEW and widest < WIDE / count and len(every) <= MOST_NUMBERED
    bar = 32 if len(every) <= MOST_TALL else 16
    high = bar + (44 if has_numbers else 28)
    for row, one in enumerate(every):
        top = row * high + 20
        drawing.text(0, top - 6, shortened(one.name, WIDE), "ink", is_bold=True)
        draw_activity(drawing, one, top, top + bar, most, is_open)
        for number, points in enumerate(one.points if has_numbers else (), 1):
            drawing.text(share((number - 0.5) / count), top + bar + 14, f"{points:,}", "ink", "middle")
    bottom = len(every) * high + 10
    for at, number in enumerate(round_ticks(count, 5)):
        label, place = f"{'' if at else 'round '}{number:,}", (number - 0.5) / count
        if (1 - place) * WIDE < width_of(label) / 2:  # of many rounds the last is at the edge
            drawing.text(share(1), bottom, label, side="end")
        else:
            drawing.text(share(place), bottom, label, side="middle")
    return as_picture(key, title, about, bottom + 6, drawing.inner())


@dataclass(frozen=True)
class Paid:
    """What a winner's package costs in several ways; the last one is its cost at the final prices of the clock, if
    there was a clock."""

    name: str
    reserve: Amount
    vickrey: Gross
    pays: GrossPrice
    bid: Gross
    clock: Gross | None


def draw_paid(drawing: Drawing, one: Paid, top: float, scale: float) -> None:
    """A winner's bid as a bar with what it pays, its Vickrey price, the reserve in it, and the final clock price."""
    name, amount = shortened(one.name, 190), f"pays {words.price(one.pays)}"
    y, high, end = top + 17, 15, float(one.pays) * scale
    drawing.rect(0.5, y, max(1, one.bid * scale - 0.5), high, None, "soft", 1, "", f"{one.name} bid {one.bid:,}")
    says = f"{one.name} pays {words.price(one.pays)}, {words.per_cent(one.pays, one.bid)} of its bid"
    drawing.rect(0.5, y, max(1, end - 0.5), high, "bluish", "blue", 1.4, "", says)
    x = one.reserve * scale
    drawing.line(x, y, x, y + high, "soft", 2, "2 2", f"the reserve of what {one.name} wins: {one.reserve:,}")
    if one.clock is not None:
        x, says = one.clock * scale, f"what {one.name} wins cost {one.clock:,} at the final prices of the clock"
        drawing.line(x, y - 2, x, y + high + 2, "green", 3, "", says)
    x = one.vickrey * scale
    drawing.triangle(x, y + high + 2, 9, "orange", f"the Vickrey price of {one.name}: {one.vickrey:,}")
    drawing.text(0, top + 12, name, "ink", is_bold=True)
    least, width = width_of(name) + 10, width_of(amount)
    drawing.text(min(WIDE, max(end, least + width)), top + 12, amount, "blue", "end")


def paid(key: str, title: str, about: str, winners: Sequence[Paid], unit: str = "amount") -> str:
    """For each winner what it bid and pays, all on one scale in this unit."""
    drawing = Drawing(key)
    most = max(max(one.bid, one.clock or 0) for one in winners) or 1
    scale, bottom = (WIDE - 4) / most, 50 * len(winners) + 4
    for row, one in enumerate(winners):
        draw_paid(drawing, one, 50 * row, scale)
    drawing.line(0, bottom, WIDE, bottom, "soft", 1)
    right = 0.0
    for place in ticks(0, most, 4):
        x, half = place * scale, width_of(f"{place:,}") / 2
        middle = min(max(x, half), WIDE - half)
        if place == 0 or middle - half > right + 6:
            drawing.line(x, bottom, x, bottom + 4, "soft", 1)
            drawing.text(middle, bottom + 17, f"{place:,}", side="middle")
            right = middle + half
    drawing.text(WIDE, bottom + 33, shortened(f"{unit}, reserves included", WIDE), side="end")
    return as_picture(key, title, about, (WIDE, bottom + 40), drawing.inner())


@dataclass(frozen=True)
class Band:
    """The lots of a category: its name, for each part of them whose it is, as the number of a winner or 0 for the
    unsold ones, with how many there are, and how wide a lot is: its MHz, or 1 if they aren't known. If the lots were
    placed, the parts are in the order of the band, and `where` has the place of each."""

    name: str
    parts: Sequence[tuple[int, int]]
    width: Fraction | int = 1
    where: Sequence[str] = ()

    @property
    def supply(self) -> int:
        """How many lots there are."""
        return sum(lots for _, lots in self.parts)


ROW = 30
MOST_IN_ROW = 18  # of the narrowest lots, so that each has room for its letter


@dataclass(frozen=True)
class Strip:
    """How the lots of a category are drawn: the number of rows, the lots in a row, and the width of a lot as a part of
    the whole width."""

    rows: int
    in_row: int
    cell: float


def strips(every: Sequence[Band]) -> list[Strip]:
    """How the lots of categories are drawn on one scale: a cell is as wide as its lot, in MHz or in lots. A lot that is
    too wide for a row of its own gives all lots one width."""
    widths = [band.width for band in every]
    room = MOST_IN_ROW * min(widths)
    if max(widths) > room:
        widths, room = [1] * len(every), MOST_IN_ROW
    rows = [math.ceil(band.supply / (room // width)) for band, width in zip(every, widths)]
    in_rows = [math.ceil(band.supply / many) for band, many in zip(every, rows)]
    longest = max(many * width for many, width in zip(in_rows, widths))
    return [Strip(many, in_row, float(width / longest)) for many, in_row, width in zip(rows, in_rows, widths)]


def has_widths(every: Sequence[Band]) -> bool:
    """Whether cells are as wide as the MHz of their lots."""
    return 1 < len({band.width for band in every}) and max(it.width for it in every) <= MOST_IN_ROW * min(
        it.width for it in every
    )


def draw_cell(drawing: Drawing, x: tuple[float, float], y: float, winner: int, letter: str, says: str) -> None:
    """A lot: the colour, the pattern and the letter of its winner; hatched if it is unsold."""
    place, width = share(x[0]), share(x[1])
    at = (winner - 1) % WINNERS + 1
    fill = f"w{at}" if winner else "ground"
    drawing.rect(place, y, width, ROW - 4, fill, "ground" if winner else "rule", 2, "", says)
    if winner == 0 or at > 1:
        over = drawing.hatch(f"l{at}", at - 1) if winner else drawing.hatch("soft")
        drawing.rect(place, y, width, ROW - 4, over, "ground", 2, "", says)
    for edge in (y + 1.5, y + ROW - 5.5) if winner else ():
        drawing.line(place, edge, share(x[0] + x[1]), edge, f"l{at}", 1.2)
    role = "letter" if winner else "ink"
    drawing.text(share(x[0] + x[1] / 2), y + 17.5, letter, role, "middle", under=fill, is_bold=bool(winner))


def bands(key: str, title: str, about: str, every: Sequence[Band], names: Sequence[str], letters: Sequence[str]) -> str:
    """A strip for each category, with a cell for each lot in the colour of its winner. All strips have one scale, and a
    strip of many lots has several rows."""
    drawing, y = Drawing(key), 0
    for band, strip in zip(every, strips(every)):
        left = sum(lots for winner, lots in band.parts if winner == 0)
        room = "all sold" if not left else f"{left:,} of {band.supply:,} unsold"
        drawing.text(0, y + 13, shortened(band.name, WIDE - width_of(room) - 10), "ink", is_bold=True)
        drawing.text(share(1), y + 13, room, side="end")
        y += 20
        where = [f" ({place})" for place in band.where] or [""] * len(band.parts)
        each = [(*part, place) for part, place in zip(band.parts, where) for _ in range(part[1])]
        for at, (winner, lots, place) in enumerate(each):
            who = f"{names[winner - 1]} wins {lots:,}" if winner else f"{lots:,} stay unsold"
            says = f"{who}{place} of {words.count(band.supply, 'lot')} of {band.name}"
            x = (at % strip.in_row * strip.cell, strip.cell)
            letter = letters[winner - 1] if winner else "\N{EN DASH}"
            draw_cell(drawing, x, y + at // strip.in_row * ROW, winner, letter, says)
        y += strip.rows * ROW + 8
    return as_picture(key, title, about, y, drawing.inner())
