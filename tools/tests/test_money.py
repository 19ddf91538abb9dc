"""Gross, net and scaled amounts are types of their own: mypy refuses one where another is due."""

from __future__ import annotations

import os
import pathlib
import re
import shutil
import subprocess
import tempfile
import unittest
from fractions import Fraction
from typing import NamedTuple

from cca_tools.rules.money import difference, gross_of, gross_price_of, less, net_of, net_price_of, price_total
from cca_tools.rules.money import scaled, total, unscaled
from cca_tools.rules.types import Gross, GrossPrice, Net, NetPrice

ROOT = pathlib.Path(__file__).resolve().parents[2]
HEAD = """from cca_tools.commands.what_if import least_amount, least_to_draft, with_bid
from cca_tools.data.prices import Price
from cca_tools.data.references import lowered_bids
from cca_tools.desk.lists import amount_cell
from cca_tools.desk.sheets import Row
from cca_tools.desk.told import last_cost, times_words
from cca_tools.page import charts, core, prices, winners
from cca_tools.page.source import Source, Turn
from cca_tools.pricing.nearest import Demand, Nearest, Point
from cca_tools.pricing.search import Market, lowered_worths, missing
from cca_tools.rules.auction import Auction
from cca_tools.rules.book import Book
from cca_tools.rules.certificate import BookCertificate
from cca_tools.rules.certificate_tests import BookTests
from cca_tools.rules.clock import cost
from cca_tools.rules.log import Line
from cca_tools.rules.money import difference, gross_of, gross_price_of, less, net_of, net_price_of, scaled, total
from cca_tools.rules.types import Bid, Choice, Gross, Net, NetPrice, Package, ScaledNet
from cca_tools.rules.why import both
from cca_tools.rules.winners import winning_choice
from cca_tools.studies.rows import best_of_values
from cca_tools.studies.strategies import Strategy
from cca_tools.studies.values import Values


def is_gross(amount: Gross) -> None: ...
def is_net(amount: Net) -> None: ...
def is_price(price: NetPrice) -> None: ...
def is_bid(bid: Bid) -> None: ...


def program(
    auction: Auction, certificate: BookCertificate, market: Market, point: Point, source: Source, turn: Turn,
    values: Values, package: Package, choice: Choice, reserve: int,
) -> None:
    book, award = certificate.book, auction.award
    bid, net = book.bids[0][0][1], book.net[0][0]
    demand, low, pays = Demand(1, net, choice), source.vickrey(1), source.pays(1)
"""


class Case(NamedTuple):
    """A statement with a gap, what is accepted there and what is refused, and how mypy says that."""

    statement: str
    right: str
    wrong: str
    said: str


def argument(number: int, name: str, found: str, due: str) -> str:
    """What mypy says about an argument of another type than is due."""
    return f'Argument {number} to "{name}" has incompatible type "{found}"; expected "{due}"'


def mixed(name: str) -> str:
    """What mypy says about amounts of two kinds that are summed up or subtracted."""
    return f'Value of type variable "WholeT" of "{name}" cannot be "int"'


def unmatched(one: str, other: str) -> str:
    """What mypy says about the difference of amounts of two kinds."""
    return f'No overload variant of "difference" matches argument types "{one}", "{other}"'


GROSS_ITEM = 'Dict entry 0 has incompatible type "Tuple[int, ...]": "Net"; expected "Tuple[int, ...]": "Gross"'
RULES = (
    Case("is_net(@)", "net_of(bid, reserve)", "bid", argument(1, "is_net", "Gross", "Net")),
    Case("is_net(@)", "certificate.won(1)", "book.winning(choice, 1)[1]", argument(1, "is_net", "Gross", "Net")),
    Case("is_gross(@)", "gross_of(net, reserve)", "net", argument(1, "is_gross", "Net", "Gross")),
    Case("is_gross(@)", "bid", "book.value(choice)", argument(1, "is_gross", "Net", "Gross")),
    Case(
        "is_bid((package, @))",
        "bid",
        "certificate.vickrey(1)",
        argument(1, "is_bid", "Tuple[Tuple[int, ...], Net]", "Tuple[Tuple[int, ...], Gross]"),
    ),
    Case("is_net(@)", "certificate.value", "certificate.pay[0]", argument(1, "is_net", "ScaledNet", "Net")),
    Case("is_price(@)", "certificate.pays(1)", "certificate.pay[0]", argument(1, "is_price", "ScaledNet", "NetPrice")),
    Case("less(certificate.value, @)", "certificate.won(1)", "certificate.lost(1)", mixed("less")),
    Case("total([net, @])", "net_of(bid, reserve)", "bid", mixed("total")),
    Case("difference(pays, @)", "low", "net", unmatched("GrossPrice", "Net")),
    Case("difference(@, certificate.pays(1))", "net", "bid", unmatched("Gross", "NetPrice")),
    Case("net_of(@, reserve)", "bid", "net", argument(1, "net_of", "Net", "Gross")),
    Case("scaled(@, 2)", "net", "certificate.pay[0]", argument(1, "scaled", "ScaledNet", "Net")),
    Case(
        "BookTests(book, certificate).money(@)",
        "certificate.pay[0]",
        "certificate.value",
        argument(1, "money", "Net", "ScaledNet").replace('"money"', '"money" of "Tests"'),
    ),
    Case('Line(1, 1, "draft", "east", 1, package, @)', "bid", "net", argument(7, "Line", "Net", "Gross")),
    Case("auction.caps(1).fitted({package: @})", "cost(auction.rounds[0], package)", "net", GROSS_ITEM),
    Case("both(@, net)", "bid", "net", argument(1, "both", "Net", "Union[Gross, GrossPrice]")),
)
DATA = (
    Case(
        'Price("east", package, reserve, bid, @, pays)',
        "gross_of(certificate.vickrey(1), reserve)",
        "certificate.vickrey(1)",
        argument(5, "Price", "Net", "Gross"),
    ),
    Case(
        'Price("east", package, reserve, bid, bid, @)',
        "gross_price_of(certificate.pays(1), reserve)",
        "certificate.pays(1)",
        argument(6, "Price", "NetPrice", "GrossPrice"),
    ),
    Case(
        "lowered_bids(book, 0, 2, @)",
        "scaled(certificate.won(1), 2)",
        "certificate.won(1)",
        argument(4, "lowered_bids", "Net", "ScaledNet"),
    ),
)
PRICING = (
    Case("Demand(1, @, choice)", "book.value(choice)", "bid", argument(2, "Demand", "Gross", "Net")),
    Case(
        "Nearest([@], [1])",
        "market.vickrey[0]",
        "bid",
        'List item 0 has incompatible type "Gross"; expected "Net"',
    ),
    Case(
        "lowered_worths(market, [@], 2)",
        "scaled(market.won[0], 2)",
        "market.won[0]",
        'List item 0 has incompatible type "Net"; expected "ScaledNet"',
    ),
    Case(
        "missing(demand, [@])",
        "point.pays[0]",
        "gross_price_of(point.pays[0], reserve)",
        'List item 0 has incompatible type "GrossPrice"; expected "NetPrice"',
    ),
)
STUDIES = (
    Case(
        "Strategy().named(@)",
        "values[package]",
        "best_of_values(award, [values])",
        argument(1, "named", "Net", "Gross").replace('"named"', '"named" of "Strategy"'),
    ),
)
PAGE = (
    Case(
        'winners.net_row("east", reserve, @, net, certificate.pays(1))',
        "net_of(source.won(1)[1], reserve)",
        "source.won(1)[1]",
        argument(3, "net_row", "Gross", "Net"),
    ),
    Case(
        'winners.net_row("east", reserve, net, net, @)',
        "net_price_of(source.pays(1), reserve)",
        "source.pays(1)",
        argument(5, "net_row", "GrossPrice", "NetPrice"),
    ),
    Case(
        'charts.Paid("east", reserve, @, pays, bid, None)',
        "source.vickrey(1)",
        "certificate.vickrey(1)",
        argument(3, "Paid", "Net", "Gross"),
    ),
    Case(
        'core.two("", "", "", [], [low], [bid], @, [pays])',
        "gross_of(core.bounds(book, choice, [1])[1,], reserve)",
        "core.bounds(book, choice, [1])[1,]",
        argument(7, "two", "Net", "Gross"),
    ),
    Case("prices.core_table(source, {package: @})", "bid", "core.best_plainly(book, [1])", GROSS_ITEM),
    Case(
        "gross_price_of(@, reserve)",
        "turn.point[0]",
        "source.pays(1)",
        argument(1, "gross_price_of", "GrossPrice", "NetPrice"),
    ),
)
DESK_AND_COMMANDS = (
    Case("times_words(bid, @)", "last_cost(auction, package)", "net", argument(2, "times_words", "Net", "Gross")),
    Case("amount_cell(@)", "bid", "net", argument(1, "amount_cell", "Net", "Optional[Gross]")),
    Case('Row(1, "", package, @)', "bid", "net", argument(4, "Row", "Net", "Gross")),
    Case(
        "least_amount(book, 1, package, @)",
        "least_to_draft(auction, 1, package)",
        "winning_choice(book)[1]",
        argument(4, "least_amount", "Net", "Gross"),
    ),
    Case("with_bid(book, 1, package, @)", "bid", "net", argument(4, "with_bid", "Net", "Gross")),
)
CASES = (*RULES, *DATA, *PRICING, *STUDIES, *PAGE, *DESK_AND_COMMANDS)
ERROR = re.compile(r"program\.py:(\d+): error: (.*)  \[[a-z-]+\]")


class Money(unittest.TestCase):
    def test_reserve_is_added_and_taken_away(self) -> None:
        self.assertEqual(net_of(Gross(28), 10), 18)
        self.assertEqual(gross_of(net_of(Gross(28), 10), 10), 28)
        self.assertEqual(gross_price_of(net_price_of(GrossPrice(Fraction(20, 3)), 3), 3), Fraction(20, 3))

    def test_amounts_are_scaled_and_summed_up(self) -> None:
        self.assertEqual(scaled(Net(7), 3), 21)
        self.assertEqual(unscaled(scaled(Net(7), 3), 6), Fraction(7, 2))
        self.assertEqual((total([Net(7), Net(4)]), total(list[Net]()), less(Net(4), Net(7))), (11, 0, -3))
        self.assertEqual(price_total([NetPrice(Fraction(1, 2)), NetPrice(Fraction(1, 3))]), Fraction(5, 6))
        self.assertEqual(difference(Net(7), NetPrice(Fraction(20, 3))), Fraction(1, 3))

    @unittest.skipUnless(shutil.which("mypy"), "the package mypy isn't installed")
    def test_another_kind_of_amount_is_refused_and_the_right_one_is_accepted(self) -> None:
        """Each case is two lines of one program: mypy accepts the first, and refuses the second."""
        lines = [case.statement.replace("@", value) for case in CASES for value in (case.right, case.wrong)]
        first = HEAD.count("\n") + 1
        refused = [(first + at, case.said) for at, case in zip(range(1, 2 * len(CASES), 2), CASES)]
        self.assertEqual(self.errors(HEAD + "".join(f"    {line}\n" for line in lines)), refused)

    def errors(self, text: str) -> list[tuple[int, str]]:
        """The lines of a program that mypy refuses, and what it says about them."""
        with tempfile.TemporaryDirectory() as folder:
            program = pathlib.Path(folder, "program.py")
            program.write_text(text)
            words = ["mypy", "--strict", "--no-error-summary", "--config-file", str(ROOT / "pyproject.toml")]
            done = subprocess.run(
                [*words, "--cache-dir", os.devnull, str(program)], cwd=ROOT, capture_output=True, text=True
            )
        self.assertEqual((done.returncode, done.stderr), (1, ""))
        return [(int(line), said) for line, said in ERROR.findall(done.stdout)]


if __name__ == "__main__":
    unittest.main()
