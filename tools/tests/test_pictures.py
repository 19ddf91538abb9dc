"""Pictures: each mark is at the place of its numbers on the scale that the picture itself prints."""
import math
import re
import unittest
from collections.abc import Callable, Mapping, Sequence
from typing import TypeAlias
import xml.etree.ElementTree as ElementTree
from dataclasses import dataclass
from fractions import Fraction
from itertools import groupby

from checks.cases import samples  # noqa: F401, finds cca_tools

from cca_tools.page import charts, core, winners
from cca_tools.page.charts import Activity, Band, Paid
from cca_tools.rules.types import Gross, GrossPrice
from cca_tools.studies import pictures
from cca_tools.studies.measures import Spread

NUMBER = re.compile(r"-?[\d.]+")
Point: TypeAlias = tuple[float, float]
Real: TypeAlias = float | Fraction


@dataclass
class Mark:
    """A mark of a picture: its tag, its attributes, what it says under the mouse, and its letters."""

    tag: str
    at: Mapping[str, str]
    says: str
    letters: str

    def place(self, name: str) -> float:
        """A place in units, or in percent of the width."""
        return float(self.at[name].removesuffix("%"))

    @property
    def colours(self) -> tuple[str | None, str | None]:
        """The roles of the colours inside and of the edge."""
        roles = dict(it.split("-") for it in self.at.get("class", "").split())
        return roles.get("f"), roles.get("s")

    @property
    def points(self) -> list[Point]:
        """The points of a path."""
        numbers = list(map(float, NUMBER.findall(self.at["d"])))
        return list(zip(numbers[::2], numbers[1::2]))

    @property
    def ends(self) -> tuple[float, float, float, float]:
        """Both ends of a line."""
        return self.place("x1"), self.place("y1"), self.place("x2"), self.place("y2")

    @property
    def box(self) -> tuple[float, float, float, float]:
        """The left, top, right and bottom of a rectangle."""
        x, y, width, height = map(self.place, ("x", "y", "width", "height"))
        return x, y, x + width, y + height


def marks_of(picture: str) -> list[Mark]:
    """The marks of a picture, in drawing order."""
    found = []
    for it in ElementTree.fromstring(picture):
        tag = it.tag.rpartition("}")[2]
        if tag not in ("title", "desc", "defs", "style"):
            found.append(Mark(tag, it.attrib, "".join(it.itertext()) if len(it) else "", it.text or ""))
    return found


def gross(amounts: Sequence[int]) -> list[Gross]:
    """Gross amounts."""
    return [Gross(amount) for amount in amounts]


def numbers_of(letters: str) -> list[Fraction]:
    """The number that letters print."""
    letters = letters.replace(",", "")
    return [Fraction(letters)] if re.fullmatch(r"-?[\d.]+", letters) else []


def scale_of(marks: Sequence[Mark], is_across: bool) -> tuple[Callable[[Real], float], list[Fraction]]:
    """The scale that ticks print, each a short line with its number after it: a function from a number to its place,
    and the numbers."""
    found: dict[Fraction, float] = {}
    for line, text in zip(marks, marks[1:]):
        if line.tag == "line" and text.tag == "text" and (number := numbers_of(text.letters)):
            x, y, to_x, to_y = line.ends
            length = round(abs(y - to_y if is_across else x - to_x), 1)
            if (x == to_x if is_across else y == to_y) and length in (3, 4):
                found[number[0]] = x if is_across else y
    (first, at), *_, (last, to) = sorted(found.items())
    return lambda value: at + float((value - first) / (last - first)) * (to - at), list(found)


def log_scale_of(marks: Sequence[Mark]) -> tuple[Callable[[Real], float], list[int]]:
    """The logarithmic scale that ticks print at the left: a function from a number to its place, and the numbers."""
    found: dict[Fraction, float] = {}
    for line, text in zip(marks, marks[1:]):
        if line.tag == "line" and text.tag == "text" and (number := numbers_of(text.letters)):
            x, y, to_x, to_y = line.ends
            if y == to_y and round(abs(x - to_x), 1) == 3:
                found[number[0]] = y
    (first, at), *_, (last, to) = sorted(found.items())
    return lambda value: at + math.log(value / first) / math.log(last / first) * (to - at), sorted(map(int, found))


class Pictures(unittest.TestCase):
    def assert_places(self, found: Sequence[float], expected: Sequence[float], delta: float = 0.02) -> None:
        """The places are these, except for rounding."""
        self.assertEqual(len(found), len(expected))
        for one, other in zip(found, expected):
            self.assertAlmostEqual(one, other, delta=delta)

    def assert_corners(self, found: Sequence[Point], expected: Sequence[Point]) -> None:
        """A polygon has these corners, in whatever order and however often."""
        near = [[abs(x - u) < 0.02 and abs(y - v) < 0.02 for u, v in expected] for x, y in found]
        self.assertTrue(all(map(any, near)), (found, expected))
        self.assertTrue(all(map(any, zip(*near))), (found, expected))

    def one(self, marks: Sequence[Mark], says: str) -> Mark:
        """The mark that says this, the first of equal ones."""
        found = [it for it in marks if it.says == says]
        self.assertTrue(found, says)
        return found[0]


class Scales(Pictures):
    STEPS = [digit * 10**power for power in range(9) for digit in (1, 2, 5)]

    def test_steps(self) -> None:
        """The least step that fits into a span at most this many times."""
        for span in (0, 0.5, 1, 7, 10, 21.3, 99, 100, 101, 12345.6, 10**6):
            for most in (1, 3, 8):
                step = next(step for step in self.STEPS if span / step <= most)
                self.assertEqual(charts.nice_step(span, most), step, (span, most))

    def test_ticks(self) -> None:
        """Every multiple of that step from low to high."""
        for low, high in ((0, 175.0), (100, 121.3), (100.0, 110.0), (97.5, 512), (0, 1), (0, 536000)):
            for most in (3, 4, 9):
                step = next(step for step in self.STEPS if (high - low) / step <= most - 1)
                expected = [at * step for at in range(int(high) + 2) if low <= at * step <= high][: int(high) + 2]
                self.assertEqual(charts.ticks(low, high, most), expected, (low, high, most))

    def test_a_number_isn_t_crossed_by_a_line(self) -> None:
        """Letters reach from 12 above their line to 3 below it."""
        for y in range(200, 272, 3):
            for line in range(190, 272):
                place = charts.label_place(y, 272, line)
                self.assertFalse(place - 12 <= line <= place + 3, (y, line))


class OfACategory(Pictures):
    """a800 of the sample: prices in percent of the reserve, and demand in percent of the supply."""

    PRICES, DEMAND, SUPPLY = (200000, 220000, 231000, 242600), (7, 6, 5, 4), 4

    def setUp(self) -> None:
        made = charts.category("c", "", "", self.PRICES, self.DEMAND, self.SUPPLY, 121.3, 175.0, False)
        marks = marks_of(made)
        half = next(at for at, it in enumerate(marks) if it.letters.startswith("demand"))
        self.prices, self.demand = marks[:half], marks[half:]
        rounds = self.demand[next(at for at, it in enumerate(self.demand) if it.letters == "round") :]
        self.rounds = {int(it.letters): it.place("x") for it in rounds if it.letters.isdigit()}

    def test_rounds_are_equally_wide(self) -> None:
        self.assertEqual(list(self.rounds), [1, 2, 3, 4])
        steps = [self.rounds[n + 1] - self.rounds[n] for n in (1, 2, 3)]
        self.assert_places(steps, steps[:1] * 3)
        self.assertGreater(steps[0], 30)

    def test_prices(self) -> None:
        place, numbers = log_scale_of(self.prices)
        self.assertEqual(numbers, [100, 110, 120])
        heights = [place(Fraction(100 * price, self.PRICES[0])) for price in self.PRICES]
        dots = [it for it in self.prices if it.tag == "circle"]
        self.assertEqual([it.says for it in dots][1::2], ["round 2: 220,000, 110.0 % of the reserve"] + [dots[3].says])
        self.assert_places([it.place("cy") for it in dots], heights)
        self.assert_places([it.place("cx") for it in dots], list(self.rounds.values()))
        (stair,) = [it for it in self.prices if it.tag == "path"]
        self.assertEqual(stair.says, "from 200,000 to 242,600")
        xs = [x for x in self.rounds.values() for _ in (1, 2)][1:]
        self.assert_places([x for x, _ in stair.points[:-1]], xs)
        self.assert_places([y for _, y in stair.points], [heights[at // 2] for at in range(8)])

    def test_each_price_has_its_label(self) -> None:
        letters = [it.letters for it in self.prices if it.colours[0] == "blue" and it.letters]
        self.assertEqual(letters, ["200,000", "220,000", "231,000", "242,600, +21.3 %"])

    def test_each_category_is_seen_beside_a_high_one(self) -> None:
        """A rise of 10 % next to one to 400 % of the reserve; each doubling is equally high."""
        marks = marks_of(charts.category("c", "", "", (200, 220), (3, 2), 2, 400.0, 150.0, False))
        place, numbers = log_scale_of(
            marks[: next(at for at, it in enumerate(marks) if it.letters.startswith("demand"))]
        )
        self.assertEqual(numbers, [100, 150, 200, 300, 400])
        self.assertAlmostEqual(place(100) - place(200), place(200) - place(400), delta=0.02)
        dots = [it.place("cy") for it in marks if it.tag == "circle"]
        self.assert_places(dots, [place(100), place(110)])
        self.assertGreater(dots[0] - dots[1], 5)

    def test_a_price_that_stays_has_one_label(self) -> None:
        marks = marks_of(charts.category("c", "", "", (200, 200, 220), (3, 3, 2), 2, 110.0, 150.0, False))
        letters = [it.letters for it in marks if it.colours[0] == "blue" and it.letters]
        self.assertEqual(letters, ["200", "220, +10.0 %"])

    def test_demand(self) -> None:
        place, _ = scale_of(self.demand, is_across=False)
        shapes = [it for it in self.demand if it.says.startswith("round ")]
        bars = [it for it in shapes if not it.at["fill"].startswith("url(")]
        self.assertEqual(bars[0].says, "round 1: 7 asked for, of 4, 3 too many")
        self.assertEqual(bars[3].says, "round 4: 4 asked for, of 4")
        self.assert_places([it.box[1] for it in bars], [place(Fraction(100 * n, 4)) for n in self.DEMAND])
        self.assert_places([it.box[3] for it in bars], [place(0)] * 4)
        self.assert_places([(it.box[0] + it.box[2]) / 2 for it in bars], list(self.rounds.values()))
        self.assertEqual([it.colours[1] for it in bars], ["orange"] * 3 + ["green"])
        self.assertEqual([it.box for it in shapes if it not in bars], [it.box for it in bars[:3]])
        line = self.one(self.demand, "the supply: 4")
        self.assert_places(line.ends[1::2], [place(100)] * 2)
        numbers = [(it.place("x"), it.letters) for it in self.demand if it.letters and it.colours[0] == "ink"]
        self.assertEqual([letters for _, letters in numbers], list("7654"))
        self.assert_places([x for x, _ in numbers], list(self.rounds.values()))

    def test_an_open_round_is_an_outline(self) -> None:
        marks = marks_of(charts.category("c", "", "", (10, 11), (3, 2), 2, 110.0, 150.0, True))
        bar = self.one(marks, "round 2: 2 asked for so far, of 2")
        self.assertEqual((bar.colours[0], "stroke-dasharray" in bar.at), ("ground", True))
        self.assertIn("so far", [it.letters for it in marks])

    def test_prices_alone(self) -> None:
        marks = marks_of(charts.posted("c", "", "", self.PRICES, 121.3))
        place, _ = log_scale_of(marks)
        dots = [it.place("cy") for it in marks if it.tag == "circle"]
        self.assert_places(dots, [place(Fraction(100 * price, self.PRICES[0])) for price in self.PRICES])
        self.assertEqual([it.letters for it in marks if it.letters.isdigit()][-4:], list("1234"))


class OfActivity(Pictures):
    """harbour of the sample: 68, 48, 48 and 48 points, of 68, 68, 48 and 48; also a bidder of a third of the points."""

    def rows(self, every: Sequence[Activity], most: int) -> tuple[list[Mark], list[list[Mark]], list[list[Mark]]]:
        """For each bidder its bars by what they say, and its lines of eligibility by their rounds."""
        marks = marks_of(charts.activities("a", "", "", every, most, False))
        bars = [[it for it in marks if it.tag == "rect" and it.says.startswith(f"{one.name}, ")] for one in every]
        lines = [[it for it in marks if it.tag == "line" and it.says.startswith(f"{one.name}, ")] for one in every]
        return marks, bars, lines

    def test_bars_and_lines_have_one_scale(self) -> None:
        every = [
            Activity("harbour", (68, 48, 48, 48), (68, 68, 48, 48), ("a", "b", "b", "b")),
            Activity("niche", (20, 0, 17, 10), (24, 20, 20, 17), ("c", "nothing", "d", "e")),
        ]
        marks, bars, lines = self.rows(every, 68)
        for one, bars_of_one, lines_of_one in zip(every, bars, lines):
            full = bars[0][0].box[3] - bars[0][0].box[1]
            rounds = [at for at, points in enumerate(one.points) if points]
            for at, bar in zip(rounds, bars_of_one):
                self.assertIn(f"{one.packages[at]}, {one.points[at]} of {one.eligibility[at]} points", bar.says)
                self.assertAlmostEqual(bar.box[3] - bar.box[1], full * one.points[at] / 68, delta=0.02)
                self.assertTrue(25 * at <= bar.box[0] < bar.box[2] <= 25 * (at + 1), bar.box)
            self.assertEqual(len(bars_of_one), len(rounds))
            for line in lines_of_one:
                x, y, to_x, _ = line.ends
                at, after = round(x / 25), round(to_x / 25)
                said = re.findall(r"for (\d+) point", line.says)[0]
                self.assertEqual(set(one.eligibility[at:after]), {int(said)})
                self.assertAlmostEqual(bars_of_one[0].box[3] - y, full * one.eligibility[at] / 68, delta=0.02)
            self.assertEqual((lines_of_one[0].ends[0], lines_of_one[-1].ends[2]), (0, 100))
        self.assertEqual([it.letters for it in marks if it.letters.isdigit()][-3:], ["2", "3", "4"])

    def test_an_auction_without_points(self) -> None:
        _, bars, lines = self.rows([Activity("harbour", (0, 0), (0, 0), ("a", "b"))], 0)
        self.assertEqual(
            (bars, [it.says for it in lines[0]]), ([[]], ["harbour, rounds 1 to 2: eligible for 0 points"])
        )


class OfPayments(Pictures):
    def test_each_amount_is_at_its_place(self) -> None:
        """tarn of the sample, and a bidder that pays a third."""
        tarn = Paid("tarn", 400000, Gross(460000), GrossPrice(Fraction(460200)), Gross(500000), Gross(485200))
        other = Paid("other", 0, Gross(250000), GrossPrice(Fraction(1000000, 3)), Gross(350000), None)
        marks = marks_of(charts.paid("p", "", "", [tarn, other]))
        place, numbers = scale_of(marks, is_across=True)
        self.assertIn(0, numbers)
        for one in tarn, other:
            bid, pays = (
                next(it for it in marks if it.says.startswith(f"{one.name} {word} ")) for word in ("bid", "pays")
            )
            reserve = next(it for it in marks if it.says.startswith(f"the reserve of what {one.name} wins: "))
            vickrey = next(it for it in marks if it.says.startswith(f"the Vickrey price of {one.name}: "))
            found = [bid.box[2], pays.box[2], reserve.ends[0], vickrey.points[0][0]]
            self.assert_places(found, [place(one.bid), place(one.pays), place(one.reserve), place(one.vickrey)])
            self.assertEqual({bid.box[0], pays.box[0]}, {0.5})
        clock = self.one(marks, "what tarn wins cost 485,200 at the final prices of the clock")
        self.assert_places([clock.ends[0]], [place(485200)])
        self.assertEqual([it.letters for it in marks if it.colours[0] == "blue" and it.letters][0], "pays 460,200")


class OfLots(Pictures):
    NAMES = ["everest", "harbour", "meridian", "niche", "tarn", "upland", "vale"]
    LETTERS = list("EHMNTUV")

    def cells(
        self, band: Band, names: Sequence[str], letters: Sequence[str]
    ) -> tuple[list[Mark], list[list[tuple[Mark, Mark]]]]:
        """Of a strip the rows of cells, each as its mark and its letter."""
        marks = marks_of(charts.bands("b", "", "", [band], names, letters))
        shapes = [it for it in marks if it.tag == "rect" and not it.at["fill"].startswith("url(")]
        written = [it for it in marks if it.tag == "text" and it.at.get("text-anchor") == "middle"]
        self.assertEqual(len(shapes), len(written))
        for shape, letter in zip(shapes, written):
            self.assertAlmostEqual((shape.box[0] + shape.box[2]) / 2, letter.place("x"), delta=0.02)
        rows = [list(row) for _, row in groupby(zip(shapes, written), key=lambda it: it[0].place("y"))]
        return marks, rows

    def test_cells_fill_the_width(self) -> None:
        for supply, row_lengths in ((4, [4]), (18, [18]), (20, [10, 10]), (37, [13, 13, 11])):
            _, rows = self.cells(Band("c", [(1, supply - 1), (0, 1)]), self.NAMES, self.LETTERS)
            self.assertEqual([len(row) for row in rows], row_lengths)
            for row in rows:
                width = 100 / len(rows[0])
                self.assert_places([cell.box[0] for cell, _ in row], [width * at for at in range(len(row))])
                self.assert_places([cell.box[2] for cell, _ in row], [width * (at + 1) for at in range(len(row))])
            self.assertEqual(len({row[0][0].place("y") for row in rows}), len(rows))

    def widths(self, *every: Band) -> list[float]:
        """The width of the first cell of each strip, in percent of the picture."""
        marks = marks_of(charts.bands("b", "", "", every, self.NAMES, self.LETTERS))
        found: dict[str, float] = {}
        for mark in marks:
            if mark.tag == "rect" and not mark.at["fill"].startswith("url("):
                found.setdefault(mark.says.rpartition(" of ")[2], mark.place("width"))
        return [found[band.name] for band in every]

    def test_all_strips_have_one_scale(self) -> None:
        """Equal lots are equally wide in every strip, of 18 in a row at most; by MHz a lot of 20 is twice one of 10."""
        one, many, lots = Band("one", [(1, 1)]), Band("many", [(2, 14)]), Band("lots", [(3, 40)])
        self.assert_places(self.widths(one, many), [100 / 14, 100 / 14])
        self.assert_places(self.widths(one, lots), [100 / 14, 100 / 14])  # three rows of 14, 14 and 12
        wide, five = Band("wide", [(1, 2)], 20), Band("five", [(2, 6)], Fraction(5, 2))
        self.assert_places(self.widths(wide, five), [50, 50 / 8])
        self.assert_places(self.widths(Band("a", [(1, 3)], 100), Band("b", [(1, 4)], 5)), [25, 25])  # 20 to 1

    def test_each_lot_has_its_winner_s_letter_and_the_colour_of_the_key(self) -> None:
        parts = [(1, 2), (2, 1), (3, 1), (6, 2), (7, 1), (0, 2)]
        marks, (row,) = self.cells(Band("c2600", parts), self.NAMES, self.LETTERS)
        owners = [winner for winner, lots in parts for _ in range(lots)]
        key = {words: colour for colour, _, words in winners.bands_key(self.NAMES, self.LETTERS, True).marks}
        for winner, (cell, letter) in zip(owners, row):
            if winner:
                name, sign = self.NAMES[winner - 1], self.LETTERS[winner - 1]
                self.assertEqual((letter.letters, cell.colours[0]), (sign, key[f"{sign}: {name}"]))
                self.assertIn(f"{name} wins {dict(parts)[winner]} of 9 lots of c2600", cell.says)
            else:
                self.assertEqual((letter.letters, cell.colours[0]), ("\N{EN DASH}", "ground"))
                self.assertIn("2 stay unsold of 9 lots of c2600", cell.says)
        over = [it.at["fill"] for it in marks if it.tag == "rect" and it.at["fill"].startswith("url(")]
        # (the first winner, and so the seventh, have no pattern)
        self.assertEqual(over, [f"url(#b-{it}-hatch)" for it in ("l2", "l3", "l6", "l6", "soft", "soft")])
        self.assertIn("2 of 9 unsold", [it.letters for it in marks])


class OfTheCore(Pictures):
    def places(self, marks: Sequence[Mark]) -> tuple[Callable[[Real, Real], Point], set[Fraction], set[Fraction]]:
        """Where two payments are, by the numbers of both axes."""
        across, up = scale_of(marks, is_across=True), scale_of(marks, is_across=False)
        return (lambda x, y: (across[0](x), up[0](y))), set(across[1]), set(up[1])

    def assert_way(self, marks: Sequence[Mark], start: Point, end: Point) -> None:
        """The arrow lies on the way from one mark to the other, and its head is symmetric."""
        shaft, head = [it for it in marks if it.tag == "path" and it.colours == (None, "ink")]
        (x, y), (u, v) = start, end
        for a, b in shaft.points:
            self.assertAlmostEqual((u - x) * (b - y), (v - y) * (a - x), delta=3)
        one, tip, other = head.points
        self.assertEqual(tip, shaft.points[1])
        lengths = [(a - tip[0]) ** 2 + (b - tip[1]) ** 2 for a, b in (one, other)]
        self.assertAlmostEqual(lengths[0], lengths[1], delta=0.3)
        middle = (one[0] + other[0]) / 2 - tip[0], (one[1] + other[1]) / 2 - tip[1]
        self.assertLess(middle[0] * (u - x) + middle[1] * (v - y), 0)

    def two(self, low: Sequence[int], bid: Sequence[int], both: int, pays: Sequence[int]) -> list[Mark]:
        """The marks of a picture of two winners."""
        names, prices = ("b1", "b2"), [GrossPrice(Fraction(it)) for it in pays]
        return marks_of(core.two("k", "", "", names, gross(low), gross(bid), Gross(both), prices))

    def test_two_winners(self) -> None:
        """The example of Day and Cramton: b3 offers 32 for what b1 and b2 win."""
        marks = self.two((14, 12), (28, 20), 32, (17, 15))
        at, across, up = self.places(marks)
        self.assertEqual((across, up), ({14, 17, 28}, {12, 15, 20}))
        right, top, left, bottom = *at(28, 20), *at(14, 12)
        self.assertAlmostEqual((right - left) / 14, (bottom - top) / 8, delta=0.01)  # one scale on both axes
        corners = [(14, 18), (14, 20), (28, 20), (28, 12), (20, 12)]
        self.assert_corners(self.one(marks, "nobody blocks: the core").points, [at(*it) for it in corners])
        right, top = at(28, 20)
        blocked = self.one(marks, "somebody blocks").points
        self.assert_places([max(x for x, _ in blocked), min(y for _, y in blocked)], [right, top])
        least = self.one(marks, "the least sum that nobody blocks: 32")
        self.assert_corners(least.points, [at(14, 18), at(20, 12)])
        low = self.one(marks, "Vickrey prices: b1 14, b2 12")
        paid = self.one(marks, "paid: b1 17, b2 15")
        self.assert_places(low.points[0], (at(14, 12)[0], at(14, 12)[1] - 5))
        self.assert_places((paid.place("cx"), paid.place("cy")), at(17, 15))
        self.assert_way(marks, at(14, 12), at(17, 15))

    def test_winners_of_unequal_size(self) -> None:
        """A bid of 10,000 above would make a demand of 6 invisible: the picture is of what is near the least sum."""
        marks = self.two((14, 12), (10014, 20), 32, (17, 15))
        at, across, up = self.places(marks)
        self.assertEqual((across, up), ({14, 17}, {12, 15, 20}))
        least = self.one(marks, "the least sum that nobody blocks: 32")
        self.assert_corners(least.points, [at(14, 18), at(20, 12)])
        (x, y), (u, v) = least.points
        self.assertAlmostEqual(abs(x - u), abs(y - v), delta=0.02)
        self.assertGreater(abs(x - u), 60)

    def test_the_vickrey_point_is_seen_around_what_is_paid(self) -> None:
        """Both pay their Vickrey prices of 1,000: both marks are at one place, and the triangle is larger."""
        marks = self.two((1000, 1000), (1100, 1100), 2000, (1000, 1000))
        triangle = self.one(marks, "Vickrey prices: b1 1,000, b2 1,000")
        (dot,) = [it for it in marks if it.tag == "circle"]
        self.assertGreater(max(x for x, _ in triangle.points) - dot.place("cx"), dot.place("r") + 3)

    def three(
        self, low: Sequence[int], bid: Sequence[int], demands: Sequence[int], pays: Sequence[Fraction]
    ) -> tuple[list[Mark], Callable[..., Point]]:
        """The marks, and where payments are: the first winner's share is a height, and the others share the width."""
        names, prices = ("b1", "b2", "b3"), [GrossPrice(it) for it in pays]
        marks = marks_of(core.three("k", "", "", names, gross(low), gross(bid), gross(demands), prices))
        second, third, first = sorted(
            self.one(marks, "all ways to share the least sum").points, key=lambda it: (-it[1], it[0])
        )
        lengths = [(a - c) ** 2 + (b - d) ** 2 for (a, b), (c, d) in ((first, second), (second, third), (third, first))]
        self.assertAlmostEqual(lengths[0], lengths[1], delta=20)
        self.assertAlmostEqual(lengths[1], lengths[2], delta=20)
        above = sum(pays) - sum(low)

        def at(*amounts: Real) -> Point:
            shares = [(it - least) / above for it, least in zip(amounts, low)]
            corners = first, second, third
            return (
                sum(float(share) * corner[0] for share, corner in zip(shares, corners)),
                sum(float(share) * corner[1] for share, corner in zip(shares, corners)),
            )

        return marks, at

    def test_three_winners(self) -> None:
        """Three bid 10 each, and another one 11 for all three lots: a pair pays at least 1, and all together 11."""
        third = Fraction(11, 3)
        marks, at = self.three((0, 0, 0), (10, 10, 10), (1, 1, 1), (third, third, third))
        corners = [(1, 0, 10), (10, 0, 1), (10, 1, 0), (1, 10, 0), (0, 10, 1), (0, 1, 10)]
        area = self.one(marks, "nobody blocks")
        self.assert_corners(area.points, [at(*it) for it in corners])
        self.assertEqual(area.at["stroke-width"], "1.4")
        (paid,) = [it for it in marks if it.tag == "circle"]
        self.assert_places((paid.place("cx"), paid.place("cy")), at(third, third, third))
        letters = [it.letters for it in marks if it.tag == "text"]
        self.assertEqual(letters, ["b1", "pays 11", "b2", "pays 11", "b3", "pays 11"])
        triangle = next(it for it in marks if it.says.startswith("Vickrey prices"))
        self.assertGreater(max(x for x, _ in triangle.points) - paid.place("cx"), paid.place("r") + 3)

    def test_what_nobody_blocks_is_no_more_than_a_line(self) -> None:
        """b1 and b2 pay 12 of 13, b1 at most 6 and b2 at most 7: from 5 and 7 to 6 and 6, drawn as a thick line."""
        marks, at = self.three((5, 3, 1), (9, 9, 5), (12, 6, 7), (Fraction(6), Fraction(6), Fraction(1)))
        area = self.one(marks, "nobody blocks")
        self.assert_corners(area.points, [at(5, 7, 1), at(6, 6, 1)])
        self.assertEqual(area.at["stroke-width"], "4")


class OfAStudy(Pictures):
    SPREADS = [
        Spread(9, 52.5, 1.0, (10.0, 40.0, 50.0, 70.0, 95.0)),
        Spread(9, 20.0, 1.0, (-5.0, 10.0, 22.0, 30.0, 41.0)),
    ]

    def test_ticks(self) -> None:
        """Some four round values within the scale, all multiples of a step of 1, 2 or 5."""
        for low, high in (
            (0.0, 1.0),
            (0, 3.9),
            (-5, 95),
            (80.25, 99.75),
            (-0.02, 0.013),
            (0, 99),
            (0, 30),
            (1000, 9000),
            (7, 7),
        ):
            scale = pictures.Scale([Spread(1, low, 0, (high,) * 5)], False)
            ticks = [Fraction(f"{tick:.9f}") for tick in scale.ticks()]
            gap = Fraction(f"{scale.span:.9f}") if len(ticks) < 2 else ticks[1] - ticks[0]
            self.assertIn(len(ticks), (2, 3, 4, 5, 6), (low, high, ticks))
            digits = str(gap.numerator * 10**9 // gap.denominator).strip("0")
            self.assertIn(digits, ("1", "2", "5"), (low, high, ticks))
            self.assertTrue(all(tick % gap == 0 for tick in ticks))
            self.assertTrue(all(low <= tick <= low + scale.span for tick in ticks))

    def test_bars(self) -> None:
        bars = [(name, spread, ("bluish", "blue")) for name, spread in zip(("core", "Vickrey"), self.SPREADS)]
        marks = marks_of(pictures.bars("s", "", "", [("case 1", bars)], "%", True))
        place, numbers = scale_of(marks, is_across=True)
        self.assertGreaterEqual(len(numbers), 2)
        tops, axis = [], max(it.ends[1] for it in marks if it.tag == "line" and it.ends[1] == it.ends[3])
        for name, spread, _ in bars:
            box, dot = [it for it in marks if it.says.startswith(f"{name}: mean {spread.mean:.2f}, half of them from ")]
            low, left, middle, right, high = map(place, spread.quantiles)
            self.assert_places(box.box[::2], (left, right))
            self.assert_places([dot.place("cx")], [place(spread.mean)])
            across = [it.ends for it in marks if it.tag == "line" and it.ends[1] == it.ends[3] == dot.place("cy")]
            self.assert_places(across[0][::2], (low, high))
            median = [it.ends for it in marks if it.tag == "line" and it.ends[1::2] == (box.box[1], box.box[3])]
            self.assert_places(median[0][::2], (middle, middle))
            written = [it for it in marks if it.tag == "text" and it.letters == f"{spread.mean:.2f}"]
            self.assertTrue(box.box[1] - 20 < written[0].place("y") < box.box[1])
            tops += [box.box[1], box.box[3]]
        self.assertEqual(tops, sorted(tops))
        self.assertTrue(0 < tops[0] and tops[-1] < axis, (tops, axis))
        for zero in (it for it in marks[: len(bars)] if it.tag == "line"):
            self.assert_places(zero.ends[::2], (place(0), place(0)))
        names = [(it.letters, it.place("y")) for it in marks if it.letters in ("case 1", "core", "Vickrey")]
        self.assertEqual([letters for letters, _ in names], ["case 1", "core", "Vickrey"])


if __name__ == "__main__":
    unittest.main()
