"""Bidders with strategies of their own: how they bid, plans that vary them, and best answers."""
import csv
import itertools
import os
import pathlib
import random
import tempfile
import unittest
import unittest.mock
from fractions import Fraction
from collections.abc import Mapping, Sequence

from checks.cases.program import PROGRAM, run, with_program
from checks.cases.samples import EXAMPLES, called, sample
from checks.cases.searches import choices_of_book, core_point, winning

import cca_tools
from cca_tools.rules.types import Bid, Gross, Package
from cca_tools.data.prices import price, vickrey_prices
from cca_tools.data.references import REFERENCES, nearest_to
from cca_tools.page import plain
from cca_tools.page.core import best_plainly
from cca_tools.pricing import best
from cca_tools.rules.award import read_award
from cca_tools.rules.book import Book
from cca_tools.rules.stops import Stop
from cca_tools.rules.ties import ties_of
from cca_tools.studies.answers import answers_of, equilibria_of
from cca_tools.studies.bidding import FastStraightforward, Straightforward, sealed_book
from cca_tools.studies.draws import draws_of
from cca_tools.studies.measures import results_of
from cca_tools.studies.pages import page_of, summary
from cca_tools.studies.plan import read_plan
from cca_tools.studies.rows import columns_of, long_columns_of
from cca_tools.studies.strategies import Strategy
from cca_tools.studies.values import drawn_strategies, drawn_values, read_values, values_of_seed
from test_rehearse import ONE, VALUES
from test_study import ORIGIN, PLAN, WithPlan

GRID = (0, 172, 430)


class Bidders(unittest.TestCase):
    def test_what_is_named(self) -> None:
        """90 percent of 205 is 184.5, rounded down, less 30."""
        self.assertEqual(Strategy(90, 30).named(Gross(205)), 154)
        self.assertEqual(Strategy(90, 30, Gross(100)).named(Gross(205)), 100)
        self.assertEqual(Strategy(100, 300).named(Gross(205)), 0)

    def test_a_budget_in_the_clock(self) -> None:
        """At 10 and 5 the package 2 0 costs 20 and gives 40; with 19 to spend, 1 1 for 15 is what is left."""
        award = read_award(ONE)
        east = values_of_seed(award, VALUES, 1)[0]
        asked = [Straightforward(award, east, Strategy(budget=Gross(it))).ask((10, 5), 6) for it in (20, 19, 14)]
        self.assertEqual(asked, [(2, 0), (1, 1), None])

    def test_many_packages(self) -> None:
        """With arrays a bidder asks for the same packages in a whole clock, with a budget too, and with ties."""
        award = read_award(sample("final-cap.award"))
        for seed in range(1, 4):
            for values, budget in zip(
                values_of_seed(award, sample("final-cap.values"), seed), (None, 300, 90, 0, None)
            ):
                strategy = Strategy(budget=None if budget is None else Gross(budget))
                plain_one = Straightforward(award, values, strategy)
                fast = FastStraightforward(award, values, strategy)
                for number in range(40):
                    prices, points = (20 + 3 * number, 20 + 2 * number, 10 + number), 20 - number // 3
                    self.assertEqual(fast.ask(prices, points), plain_one.ask(prices, points), (seed, budget, number))

    def test_sealed_bids_alone(self) -> None:
        """Values of 60, 30 and 4 less 20 are 40, 10 and 0; the last two are below the reserves of 15 and 5."""
        award = read_award(ONE)
        values = values_of_seed(award, VALUES, 1)
        book = sealed_book(award, values, [Strategy(shade=20), Strategy(budget=Gross(12))])
        self.assertEqual(book.bids[0], [((2, 0), 40)])
        self.assertEqual(
            book.bids[1],
            [(it, min(12, worth)) for it, worth in values[1].items() if min(12, worth) >= award.reserve_of(it)],
        )

    def test_of_a_file(self) -> None:
        """Draws of a strategy don't change the values, and what a plan sets wins over the file."""
        award = read_award(ONE)
        more = VALUES + b"share = [50, 90]\nbudget = 70\n"
        models = read_values(more, award)
        self.assertEqual(values_of_seed(award, more, 3), values_of_seed(award, VALUES, 3))
        drawn = [drawn_strategies(award, models, draws_of(seed), Strategy(80)) for seed in range(1, 40)]
        self.assertEqual({east.share for east, _ in drawn}, {80})
        self.assertTrue(all(50 <= west.share <= 90 for _, west in drawn) and len({it[1].share for it in drawn}) > 9)
        (_, west) = drawn_strategies(award, models, draws_of(1), Strategy(80), {"west": {"share": 7, "shade": 2}})
        self.assertEqual(west, Strategy(7, 2, Gross(70)))
        for line in ("share = 0", "shade = -1", "budget = 1.5"):
            with self.assertRaises(Stop) as caught:
                read_values(VALUES + line.encode() + b"\n", award)
            self.assertIn(f"`{line[:5]}", caught.exception.why)


class Plans(WithPlan):
    OWN = PLAN.replace("share = [100, 60]", "shares = { east = [100, 60] }\nshades = { west = [0, 5, 9] }")

    def test_cases(self) -> None:
        plan = read_plan(self.plan(self.OWN))
        self.assertEqual((len(plan.cases), plan.varied), (12, ("version", "east_share", "west_shade")))
        self.assertEqual(plan.cases[1].strategies(), {"east": {"share": 100}, "west": {"shade": 5}})
        self.assertEqual(plan.label(plan.cases[1]), "version 1, east_share 100, west_shade 5")
        self.assertNotEqual(plan.sum(), read_plan(self.plan(self.OWN.replace("9]", "8]"))).sum())

    def test_rules(self) -> None:
        text = PLAN.replace("[vary]", 'rules = ["bids", "zero"]\nweights = { west = 3 }\n[vary]')
        plan = read_plan(self.plan(text))
        self.assertEqual(plan.rules, ("zero", "bids", "weighted"))
        self.assertIn("east_price_weighted", columns_of(plan))
        self.assertIn("price_zero", long_columns_of(plan))

    def test_faults(self) -> None:
        for old, new, why in (
            ("east = [100, 60]", "north = 3", "[vary], `shares`: the key `north` isn't known here"),
            (
                "east = [100, 60]",
                "east = 0",
                "[vary], `shares`: `east` is 0; it has to be a list of whole numbers from 1 to 1000",
            ),
            (
                "[vary]",
                '[vary]\nformat = ["clock", "open"]',
                "[vary]: `format` is ['clock', 'open']; it has to be one of clock, sealed, or a list of these",
            ),
            ("[vary]", 'rules = "core"\n[vary]', "`rules` is 'core'; it has to be one of zero, reserve, bids, or a"),
            ("[vary]", "weights = { east = 21 }\n[vary]", "[weights]: `east` is 21; it has to be a whole number from"),
        ):
            with self.subTest(new), self.assertRaises(Stop) as caught:
                read_plan(self.plan(self.OWN.replace(old, new)))
            self.assertIn(why, caught.exception.why)


class Answers(WithPlan):
    """Two bidders, each with two strategies: the first gains most by its second one, the other by its first."""

    PROFITS = {(0, 0): (1, 5), (0, 9): (1, 4), (4, 0): (3, 5), (4, 9): (2, 1)}

    def setUp(self) -> None:
        super().setUp()
        text = PLAN.replace("version = [1, 2]\nshare = [100, 60]", "shades = { east = [0, 4], west = [0, 9] }")
        plan = read_plan(self.plan(text))
        table = [
            {"auction": str(n), "east_profit": str(east + n), "west_profit": f"{west}.5"}
            for east, west in self.PROFITS.values()
            for n in (1, 2, 3)
        ]
        self.results = results_of(plan, table)

    def test_best_answers(self) -> None:
        found = [(it.bidder, it.others, it.best.label, it.best.profit.mean) for it in answers_of(self.results)]
        self.assertEqual(
            found,
            [
                ("east", "west_shade 0", "shade 4", 5.0),
                ("east", "west_shade 9", "shade 4", 4.0),
                ("west", "east_shade 0", "shade 0", 5.5),
                ("west", "east_shade 4", "shade 0", 5.5),
            ],
        )
        (other, _), *_ = (it.tried for it in answers_of(self.results))
        self.assertEqual((other.gain.mean, other.gain.error), (-2.0, 0.0))

    def test_equilibria(self) -> None:
        (case,) = equilibria_of(self.results, answers_of(self.results))
        self.assertEqual(self.results.plan.label(case), "east_shade 4, west_shade 0")

    def test_the_page(self) -> None:
        for row in (row for rows in self.results.rows.values() for row in rows.values()):
            names = "best core vickrey bids efficiency rounds unsold profit".split()
            row.update(dict.fromkeys(names, "1"), raised="no")
        text = plain.text(page_of(self.results, "name", ORIGIN))
        self.assertIn(
            "All of these bidders answer best in this case: east_shade 4, west_shade 0.", " ".join(text.split())
        )
        self.assertIn(
            "best answer of east, with west_shade 0: shade 4 (ahead of the next by 2.000)", list(summary(self.results))
        )


def local_profit(value: int, bid: int, other: int, both: int) -> Fraction:
    """The profit of a local bidder at the core prices nearest to Vickrey's, by the closed form for two locals and a
    global: each pays what the global offers beyond the other's bid, and half of what is missing."""
    if bid + other < both:
        return Fraction(0)
    own, others = max(0, both - other), max(0, both - bid)
    return value - own - Fraction(max(0, both - own - others), 2)


def one_value(values: Mapping[Package, int]) -> int:
    """The one value of a bidder with one package; 0 if it was drawn."""
    return next(iter(values.values()), 0)


class LocalGlobal(unittest.TestCase):
    """The example of Goeree and Lien: a local's best answer to shading by 3 - 2 sqrt(2) = 0.1716 is just that."""

    def setUp(self) -> None:
        self.award, self.values = read_award(sample("local-global.award")), sample("local-global.values")

    def drawn(self, count: int) -> list[list[int]]:
        models = read_values(self.values, self.award)
        every = (drawn_values(self.award, models, draws_of(seed)) for seed in range(1, count + 1))
        return [[*map(one_value, values)] for values in every]

    def profits(self, drawn: Sequence[Sequence[int]], shade: int) -> list[Fraction]:
        return [local_profit(left, max(0, left - shade), max(0, right - 172), both) for left, right, both in drawn]

    def test_the_closed_form_has_its_best_at_the_shade_of_the_equilibrium(self) -> None:
        plan = read_plan(os.path.join(EXAMPLES, "local-global.plan"))
        drawn = self.drawn(plan.auctions)
        grid = [dict(case.own)["left_shade"] for case in plan.cases]
        self.assertEqual(
            (len(grid) * plan.auctions, min(abs(it / 1000 - (3 - 8**0.5)) for it in grid) < 0.001), (8100, True)
        )
        self.assertEqual(max(grid, key=lambda shade: sum(self.profits(drawn, shade))), 172)

    @with_program
    def test_a_coarser_grid_by_the_study(self) -> None:
        """40 auctions and three amounts: each profit is the closed form's, and so is the best answer."""
        with tempfile.TemporaryDirectory() as name:
            folder = pathlib.Path(name)
            for end in ("award", "values"):
                (folder / f"local-global.{end}").write_bytes(sample(f"local-global.{end}"))
            text = sample("local-global.plan").decode().replace("auctions = 1620", "auctions = 40")
            (folder / "p").write_text(text.replace("[0, 86, 172, 258, 343]", str(list(GRID))))
            printed, status, _ = called("study", str(folder / "p"), "--out", str(folder / "out"))
            with open(folder / "out" / "bidders.csv", newline="") as file:
                rows = list(csv.DictReader(file))
            kept, *_ = called("study", str(folder / "p"), "--out", str(folder / "out"), "--auction", "3")
            words = next(line.split() for line in kept.splitlines() if " check " in line)
            with open(words[2], "rb") as book, open(words[3], "rb") as cert:
                judged = run("check", "book", "cert", book=book.read(), cert=cert.read())
        self.assertEqual((status, "best answer of left: shade 172" in printed), (0, True))
        drawn = self.drawn(40)
        for shade in GRID:
            of_left = [Fraction(row["profit"]) for row in rows if (row["bidder"], row["shade"]) == ("left", str(shade))]
            self.assertEqual(of_left, self.profits(drawn, shade), shade)
        self.assertEqual((judged.printed[:4], kept.count("its row is the same")), ("yes\n", 3))


def drawn_book(draw: random.Random) -> tuple[Package, Package, list[list[Bid]]]:
    """A small book: its supply, its reserves and its bids."""
    supply = tuple(draw.randint(1, 2) for _ in range(draw.randint(2, 3)))
    reserves = tuple(draw.randint(0, 2) for _ in supply)
    packages = [it for it in itertools.product(*(range(count + 1) for count in supply)) if any(it)]
    bids = []
    for _ in range(draw.randint(2, 4)):
        some = sorted(draw.sample(packages, min(len(packages), draw.randint(1, 3))))
        bids.append([(it, Gross(sum(map(int.__mul__, it, reserves)) + draw.randint(0, 20))) for it in some])
    return supply, reserves, bids


def enumerated(
    supply: Package, reserves: Package, bids: Sequence[Sequence[Bid]], reference: str
) -> dict[int, Fraction]:
    """The net payments of the winners by going through all choices, all coalitions and all tight rows."""
    choices = list(choices_of_book(supply, reserves, bids))
    first, most = winning(choices)
    winners = [j for j, number in enumerate(first) if number]
    own = {j: bids[j][first[j] - 1] for j in winners}
    reserve = {j: sum(map(int.__mul__, own[j][0], reserves)) for j in winners}
    net = {j: own[j][1] - reserve[j] for j in winners}
    rows = []
    for members in (it for size in range(1, len(winners) + 1) for it in itertools.combinations(winners, size)):
        top = max(value for choice, value in choices if not any(choice[j] for j in members))
        rows.append(([int(j in members) for j in winners], top - most + sum(net[j] for j in members)))
    points = {"zero": [-reserve[j] for j in winners], "reserve": [0] * len(winners), "bids": [net[j] for j in winners]}
    return dict(zip(winners, core_point(rows, points[reference], [1] * len(winners))))


class References(unittest.TestCase):
    @with_program
    def test_other_points_of_reference(self) -> None:
        """Drawn books against an enumeration; in some the prices differ from those nearest to Vickrey's."""
        draw, differ = random.Random(86), 0
        for number in range(12):
            supply, reserves, bids = drawn_book(draw)
            book = Book(supply, reserves, [f"b{j}" for j, _ in enumerate(bids)], bids)
            prices = price(book)
            for reference in REFERENCES:
                found = nearest_to(book, prices, reference, PROGRAM)
                paid = {j: row.pays_net for j, row in enumerate(found.rows) if row.package}
                self.assertEqual(paid, enumerated(supply, reserves, bids, reference), (number, reference))
                differ += found.rows != prices.rows
        self.assertGreater(differ, 0)

    @with_program
    def test_a_known_case(self) -> None:
        """Two locals that bid 8 and 2 against a global's 6: Vickrey prices are 4 and 0, the core asks for 6. From there
        both pay half of what is missing, from zero each pays 3 but no more than its bid of 2, and from the bids, 8 and
        2, each pays 2 less until the first pays 6."""
        book = Book((1, 1), (0, 0), ["a", "b", "g"], [[((1, 0), Gross(8))], [((0, 1), Gross(2))], [((1, 1), Gross(6))]])
        prices = price(book)
        self.assertEqual([it.pays for it in prices.winners], [5, 1])
        found = {it: [row.pays for row in nearest_to(book, prices, it, PROGRAM).winners] for it in REFERENCES}
        self.assertEqual(found, {"zero": [4, 2], "reserve": [4, 2], "bids": [6, 0]})

    @with_program
    def test_vickrey_prices_have_no_limit(self) -> None:
        for name in ("day-cramton.book", "six-bidders.book"):
            book = cca_tools.read_book(sample(name))
            whole, found = price(book), vickrey_prices(book, PROGRAM)
            self.assertEqual(
                [(it.package, it.bid, it.vickrey) for it in found.rows],
                [(it.package, it.bid, it.vickrey) for it in whole.rows],
            )
            self.assertEqual((found.found_by, found.net), ("cca win", whole.net))


class Best(unittest.TestCase):
    def test_the_greatest_value_and_ties(self) -> None:
        """By all packages at once, and bid by bid, as by going through the bids; with and without ties."""
        draw, tied = random.Random(1), set()
        for number in range(150):
            supply, reserves, bids = drawn_book(draw)
            book = Book(supply, reserves, [f"b{j}" for j, _ in enumerate(bids)], bids)
            expected = best_plainly(book, ()), bool(ties_of(book, 1))
            self.assertEqual((best.best_value(book), best.has_tie(book)), expected, number)
            with unittest.mock.patch.object(best, "pairs_of", lambda supply: None):
                self.assertEqual((best.best_value(book), best.has_tie(book)), expected, number)
            tied.add(expected[1])
        self.assertEqual(tied, {True, False})


if __name__ == "__main__":
    unittest.main()
