"""Bids of tables and of JSON as books, and prices as tables."""
import csv
import json
import os
import pathlib
import re
import subprocess
import sys
import unittest
import unittest.mock
from decimal import Decimal
from fractions import Fraction
from typing import Any
from collections.abc import Callable, Sequence

from checks.cases.program import PROGRAM, with_program
from checks.cases.samples import TOOLS, sample

import cca_tools
from cca_tools.data.bids import Made, csv_text, json_text, read_bids
from cca_tools.data.numbers import Mark
from cca_tools.data.numbers import amount_of, decimal, exact, fraction_of
from cca_tools.data.prices import prices_of, stop_of
from cca_tools.data.raw import Sold
from cca_tools.rules.award import read_award
from cca_tools.rules.book import book_text
from cca_tools.rules.stops import Stop
from cca_tools.rules.types import Gross, Package
from cca_tools.studies.values import values_of_seed
from test_rehearse import ONE

TWO = Sold((2, 6), (Decimal(10), Decimal("2.5")))
# The longest field of csv in a process of its own; tools/audit, which other tests load, allows longer ones.
FIELD = 131_072
# A book of one winner more than is priced.
# Seven of whom each wins a lot, and pays what an eighth offers for one.
SEVEN = (
    "book 1\nsupply 7\nreserve 0\n" + "".join(f"bidder b{n}\nbid 1 5\n" for n in range(7)) + "bidder b7\nbid 1 3\nend\n"
)
# Eleven of whom each needs a row of its own: two together are asked for less than twice the 4 that one is asked for.
ELEVEN = SEVEN.replace("supply 7", "supply 11").replace(
    "bidder b7\nbid 1 3", "".join(f"bidder c{n}\nbid 1 {5 if n < 4 else 8 - n}\n" for n in range(8)).strip()
)


def run(name: str, *words: str, **how: Any) -> tuple[str, int, str]:
    """What a tool prints as a program, its status, and what it says on standard error."""
    made = subprocess.run([sys.executable, f"{TOOLS}/{name}", *words], capture_output=True, text=True, **how)
    return made.stdout, made.returncode, made.stderr


class Bids(unittest.TestCase):
    def made(self, text: str, sold: Sold | None = TWO, mark: Mark = ".") -> tuple[list[str], Made]:
        found = read_bids(text.encode(), sold, mark)
        return book_text(found.book).decode().splitlines()[3:-1], found

    def fault(self, text: str, sold: Sold = TWO, mark: Mark = ".") -> str:
        with self.assertRaises(Stop) as caught:
            read_bids(text.encode(), sold, mark)
        self.assertEqual(caught.exception.status, 3)
        return caught.exception.why

    def test_a_table_with_all_that_is_changed(self) -> None:
        table = (
            "Bidder;L800;L2600;Amount\nNorth Tel;1;4;48,000.50\nNorth Tel;0;4;8000\nNorth Tel;1;4;47000\n"
            "south;2;1;€ 50 000\nsouth;0;0;3\nsouth;1;0;9.99\n"
        )
        lines, made = self.made(table)
        self.assertEqual(
            lines, ["bidder north_tel", "bid 0 4 800000", "bid 1 4 4800050", "bidder south", "bid 2 1 5000000"]
        )
        self.assertEqual((made.scale, made.book.reserves), (100, (1000, 250)))
        self.assertEqual(
            made.changes,
            [
                "`North Tel` is called north_tel",
                "multiplied all amounts and reserves by 100, so that they are whole; `tools/prices --unit 100` prints"
                " prices in the file's unit",
                "left out row 4: row 2 has 48000.50 for 1 4 of the same bidder",
                "left out row 6, a bid for a package of nothing",
                "left out row 7: 9.99 is below the reserve of 1 0, 10",
                "sorted the bids of north_tel by their packages",
            ],
        )

    def test_forms_of_a_table(self) -> None:
        whole = Sold((2, 6), (Decimal(0), Decimal(0)))
        right = ["bidder a", "bid 1 4 1234"]
        for text in (
            "a,1,4,1234",
            "bidder,package,amount\na,1 4,1234\n",
            "amount\tlots\tname\n1'234\t(1, 4)\ta\n",
            '\ufeffbidder,x,y,bid\r\na,1,4,"1,234"\r\n\r\n',
        ):
            lines, made = self.made(text, whole)
            self.assertEqual((lines, made.changes), (right, []), text)
        self.assertEqual(self.made("a;1;4;1.234,5", whole, ",")[0], ["bidder a", "bid 1 4 12345"])

    def test_categories_by_the_names_of_an_award(self) -> None:
        sold = Sold((2, 6), (Decimal(0), Decimal(0)), ("low", "high"))
        lines, made = self.made("bidder,high,low,amount,city\na,4,1,7,Ulm\n", sold)
        self.assertEqual(lines, ["bidder a", "bid 1 4 7"])
        self.assertEqual(made.changes, ["left out the columns city, since these aren't categories of the award"])

    def test_names(self) -> None:
        names = ["A-1", "A 1", "1st", "Ümlaut", "x" * 30]
        _, made = self.made("".join(f"{name},1,0,50\n" for name in names))
        self.assertEqual(made.book.names, ["a_1", "a_1_2", "b_1st", "umlaut", "x" * 20])

    def test_faults_name_the_row(self) -> None:
        self.addCleanup(csv.field_size_limit, csv.field_size_limit(FIELD))
        number = "as the amount, which has to be a number from 0 on, such as 48000.50"
        for text, why in {
            "a,1,7,50": "row 1 asks for 7 lots of category 2, and 6 are sold",
            "a,1,0,50\na,1,0": "row 2 has 3 cells, and the first row has 4",
            "bidder,x,y,amount\na,1,0,many": f"row 2 has `many` in the column `amount` {number}",
            "a,1,0,-5": f"row 1 has `-5` in column 4 {number}",
            "a,1,0,12,5": "row 1 has 5 cells; without a head they are the bidder, 2 counts or one cell with them, and"
            " the amount",
            "a,1 0 3,5": "row 1 has `1 0 3` in column 2 as the package, which is 2 counts with spaces between them",
            "a,x,0,5": "row 1 has `x` in column 2 as a count of lots, which is a whole number",
            "bidder,x,y,price\na,1,0,5": "the head has no column `amount`, and has bidder, x, y, price",
            "bidder,x,y,bid,value\na,1,0,5,9": "the columns `bid` and `value` may each be the amount; leave out all but"
            " one",
            "bidder,x,note,y,amount\na,1,hi,0,5": "the columns `x`, `note` and `y` are taken as counts of lots, and 2"
            " categories are sold; leave out what is no count",
            "bidder,x,y,amount\n,1,0,5": "row 2 has nothing in the column `bidder`, which names the bidder",
            "bidder,x,y,amount\na,1,0,$ 5\na,0,1,5 EUR": "row 2 has an amount in $, and row 3 one in EUR",
            "bidder,x,y,amount": "the table has a head and no bids",
            "bidder amount": "row 1 has one cell alone; a comma, a semicolon or a tab has to be between the columns",
            "": "the table has no rows",
            "a;1;0;1.234,56": f"row 1 has `1.234,56` in column 4 {number}; is its decimal mark `,`? Then say"
            " --decimal ,",
        }.items():
            self.assertEqual(self.fault(text), why)
        for amount in ("4398046511105", "9" * 5000):
            why = "row 1 has an amount above the greatest one, 4398046511104"
            self.assertEqual(self.fault(f"a,1,0,{amount}"), why)
        self.assertIn("10 decimals, and at most 9", self.fault("a,1,0,10.0000000001"))
        above = "the book would have the line `bid 1 0 43980465111040`: `43980465111040` is read as the amount"
        self.assertEqual(self.fault("a,1,0,4398046511104")[: len(above)], above)
        self.assertIn("row 1 isn't CSV", self.fault("a,1,0," + "9" * 200_000))

    def test_json_there_and_back(self) -> None:
        text = json.dumps({"supply": [2, 6], "reserve": [10, 2.5], "bids": [bid("b", [1, 4], 48000.5)]})
        lines, made = self.made(text, None)
        self.assertEqual((lines, made.scale), (["bidder b", "bid 1 4 480005"], 10))
        again = read_bids(json_text(made.book).encode())
        self.assertEqual((book_text(again.book), again.changes), (book_text(made.book), []))
        table = read_bids(csv_text(made.book).encode(), Sold((2, 6), (Decimal(100), Decimal(25))))
        self.assertEqual(book_text(table.book), book_text(made.book))
        one = '{"bids": [{"bidder": "a", "package": %s, "amount": %s}]}'
        for bids, why in {
            '{"bids": 3}': "`bids` is a list of objects with `bidder`, `package` and `amount`; a frame of pandas is"
            ' written by to_json(orient="records")',
            '{"supply": [2], "bids": []}': "the JSON has the supply [2], and the command states [2, 6]",
            '{"reserve": [9, 2], "bids": []}': "the JSON has the reserves 9, 2, and the command states 10, 2.5",
            '{"reserves": [9, 2], "bids": []}': "the JSON has the key `reserves`; its keys are `supply`, `reserve` and"
            ' `bids`; a frame of pandas is written by to_json(orient="records")',
            '{"bids": [], "bids": []}': "an object of the JSON has the key `bids` twice",
            '{"bids": [{"bidder": null, "package": [1, 0], "amount": 5}]}': "bid 1 has no name of a bidder, which is a"
            " text",
            '[{"bidder": "a", "c1": 1, "c2": 0}]': "the head has no column `amount`, and has bidder, c1, c2",
            '[{"name": "a", "c1": 1, "c2": 0, "bid": true}]': "record 1 has true in a cell, which is a number, a text"
            " or a list of counts",
            '{"bids": [{"bidder": "a"}]}': "bid 1 is an object with `bidder`, `package` and `amount`",
            one % ("[1.5, 0]", "3"): "`package of bid 1` is a list of whole numbers",
            one % ("[1, 0]", "true"): "`amount of bid 1` is a list of numbers",
            one % ("[1, 0]", "1e999999"): "bid 1 has an amount above the greatest one, 4398046511104",
            one % ("[1, 0]", "NaN"): "`amount of bid 1` has a number that is below 0 or isn't finite",
        }.items():
            self.assertEqual(self.fault(bids), why)

    def test_the_command(self) -> None:
        printed, status, said = run("book", "-", "--supply", "2 6", "--reserve", "10 2.5", input="N,1,4,50\n")
        self.assertEqual((printed, status), ("book 1\nsupply 2 6\nreserve 100 25\nbidder n\nbid 1 4 500\nend\n", 0))
        self.assertEqual(len(said.splitlines()), 2)
        self.assertEqual(run("book", "-", input="a,1,0,5")[1], 2)
        printed, status, said = run("book", "-", "--supply", "2 6", input="a,9,0,5")
        self.assertEqual((printed, status), ("", 3))
        self.assertIn("Row 1 asks for 9 lots of category 1, and 2 are sold.", said)

    def test_as_values(self) -> None:
        """A table is what bidders value their packages at, once its names are the award's."""
        award = read_award(ONE)
        printed, status, said = run("book", "-", "--supply", "2 2", "--as", "values", input="Wést,1,0,9\neast,0,2,5\n")
        east, west = values_of_seed(award, printed.encode(), 1)
        self.assertEqual((status, east, west), (0, {(0, 2): 5}, {(1, 0): 9}))
        self.assertIn("`Wést` is called west", said)


def bid(name: object, package: object, amount: object) -> dict[str, object]:
    return {"bidder": name, "package": package, "amount": amount}


class Numbers(unittest.TestCase):
    def test_amounts(self) -> None:
        amounts: dict[str, int | str] = {
            "12": 12,
            "1,234.50": "1234.5",
            "1 234": 1234,
            "EUR 5": 5,
            "12'000": 12000,
            "1e+05": 100000,
        }
        for text, amount in amounts.items():
            self.assertEqual(amount_of(text), Decimal(amount))
        for text in ("", "-3", "1,23", "1.2.3", "1 4", "1,00,000", "1e", "٣", "nan"):
            self.assertIsNone(amount_of(text), text)

    def test_what_is_exact(self) -> None:
        """A decimal where one is exact; a third as the program prints it, which isn't a date to a spreadsheet."""
        for value, text in {"41/2": "20.5", "20/3": "6+2/3", "7": "7", "1/8": "0.125", "-7/3": "-2-1/3"}.items():
            self.assertEqual((exact(Fraction(value)), fraction_of(text)), (text, Fraction(value)))

    def test_fractions(self) -> None:
        self.assertEqual(fraction_of("20+1/2"), Fraction(41, 2))
        self.assertEqual(
            [decimal(Fraction(it)) for it in ("41/2", "244/3", "-1/8", "7")], ["20.5", "81.333333", "-0.125", "7"]
        )


class Prices(unittest.TestCase):
    LINES = ["winner b 1 0 bid 28 vickrey 14 pays 20+1/2", "net 20", "revenue 20+1/2"]

    def test_what_the_program_prints(self) -> None:
        found = prices_of(["a", "b"], (3, 1), self.LINES)
        lost, won = found.rows
        self.assertEqual((lost.package, lost.bid, lost.pays), (None, 0, 0))
        self.assertEqual((won.package, won.bid, won.vickrey, won.pays), ((1, 0), 28, 14, Fraction(41, 2)))
        self.assertEqual((won.bid_net, won.vickrey_net, won.pays_net), (25, 11, Fraction(35, 2)))
        self.assertEqual((found.net, found.revenue, found.raised, found.winners), (20, Fraction(41, 2), True, (won,)))

    @with_program
    def test_python(self) -> None:
        found = cca_tools.price(cca_tools.read_book(sample("day-cramton.book")))
        self.assertEqual([(it.bidder, it.pays) for it in found.winners], [("b1", 17), ("b2", 15)])
        self.assertEqual((found.net, found.revenue, len(found.rows)), (48, 32, 5))

    @with_program
    def test_the_python_of_the_page(self) -> None:
        """docs/ECONOMISTS.md, as it is shown."""
        root = f"{TOOLS}/.."
        (block,) = re.findall("```python\n(.*?)```", pathlib.Path(root, "docs/ECONOMISTS.md").read_text(), re.S)
        env = {**os.environ, "PYTHONPATH": "tools", "CCA_PROGRAM": os.path.abspath(PROGRAM)}
        made = subprocess.run([sys.executable, "-c", block], cwd=root, env=env, capture_output=True, text=True)
        self.assertEqual(made.stderr, "")
        first, ties = made.stdout.splitlines()
        self.assertIn("('b1', Fraction(17, 1), Fraction(3, 1))", first)
        self.assertEqual((first[-2:], ties), ("32", "[]"))

    @with_program
    def test_weights_and_faults_in_words(self) -> None:
        """Weights of 1 and 3 share the 6 that the core raises as docs/CERTIFICATES.md has it."""
        book = cca_tools.read_book(sample("day-cramton.book"))
        weighed = cca_tools.price(book, weights={"b1": 1, "b2": 3}, program=os.path.abspath(PROGRAM))
        self.assertEqual([it.pays for it in weighed.winners], [Fraction(31, 2), Fraction(33, 2)])
        calls: list[tuple[Callable[[], object], str]] = [
            (lambda: cca_tools.price(book, weights={"b9": 2}), "`b9` is no bidder of the book"),
            (lambda: cca_tools.price(book, program="/nowhere/cca"), "`/nowhere/cca` can't be run"),
            (
                lambda: cca_tools.price(cca_tools.Book((2,), (0,), ["a"], [[((2,), Gross(5)), ((1,), Gross(3))]])),
                "package",
            ),
        ]
        for call, why in calls:
            with self.assertRaises(Stop) as caught:
                call()
            self.assertIn(why, caught.exception.why)

    @with_program
    def test_each_fault_in_words(self) -> None:
        """By the program that is named, and by the default one."""
        day = cca_tools.read_book(sample("day-cramton.book"))

        def book(
            package: Package = (1,),
            amount: Any = 5,  # (also values that aren't amounts)
            names: Sequence[str] = ("a",),
            supply: Package = (2,),
            reserves: Package = (1,),
        ) -> cca_tools.Book:
            return cca_tools.Book(supply, reserves, list(names), [[(package, amount)]])

        faults: list[tuple[cca_tools.Book, dict[str, Any], str]] = [
            (book((3,)), {}, "`3` is read as a count of category 1"),
            (book((0,)), {}, "a package isn't empty"),
            (book((-1,)), {}, "`-1` is read as a count of category 1"),
            (book((1, 1)), {}, "`bid` is followed by 3 fields"),
            (book(amount=0), {}, "`0` is read as the amount (its least value is the package's reserve)"),
            (book(amount=5.5), {}, "`5.5` is read as the amount"),
            (book(amount=2**42 + 1), {}, "`4398046511105` is read as the amount"),
            (book(names=["North"]), {}, "`North` is no name"),
            (book(names=["a", "b"]), {}, "it has 2 names of bidders, and 1 lists of bids"),
            (book(supply=(41,)), {}, "41 lots are more than the limit of 40"),
            (book(reserves=()), {}, "`reserve` has to be followed by 1 numbers"),
            (day, {"weights": {"b1": 0}}, "`0` is read as a weight, which is a whole number from 1 to 20"),
            (day, {"weights": {"b1": 21}}, "`21` is read as a weight"),
            (day, {"weights": {"b1": 2.5}}, "`2.5` is read as a weight"),
        ]
        programs: list[dict[str, Any]] = [{}, {"program": os.path.abspath(PROGRAM)}]
        for asked, more, why in faults:
            for named in programs:
                with self.subTest(why, named=named), self.assertRaises(Stop) as caught:
                    cca_tools.price(asked, **more, **named)
                self.assertIn(why, caught.exception.why)
        for path, why in (
            ("/bin/true", "`/bin/true` prints no prices, so it isn't the program"),
            ("/bin", "`/bin` can't be run: Permission denied"),
            ("/etc/passwd", "`/etc/passwd` can't be run: Permission denied"),
            ("/bin/false", "the program answers `cca: status 1`"),
        ):
            with self.subTest(path), self.assertRaises(Stop) as caught:
                cca_tools.price(day, program=path)
            self.assertEqual(caught.exception.why, why)
        with unittest.mock.patch.dict(os.environ, CCA_PROGRAM="/nowhere"), self.assertRaises(Stop) as caught:
            cca_tools.price(day)
        self.assertEqual((caught.exception.line, caught.exception.status), ("cca: no program", 70))

    @with_program
    def test_weights_of_many_winners(self) -> None:
        """Seven winners have more weights than the program takes; it tests the prices that are found. All pay what the
        eighth offers, whatever the weights, since that is their Vickrey price and in the core."""
        found = cca_tools.price(cca_tools.read_book(SEVEN.encode()), weights={"b0": 9})
        self.assertEqual(([row.pays for row in found.rows], found.found_by), ([3] * 7 + [0], "tools/price"))

    @with_program
    def test_a_frame(self) -> None:
        try:
            import pandas  # noqa: F401
        except ImportError:
            self.skipTest("the package python3-pandas isn't installed")
        frame = cca_tools.price(cca_tools.read_book(sample("day-cramton.book"))).frame()
        self.assertEqual(list(frame.columns), ["bidder", "package", "bid", "vickrey", "price", "exact"])
        self.assertEqual((frame.price.sum(), frame.exact[0]), (32.0, Fraction(17)))

    @with_program
    def test_the_command(self) -> None:
        book = f"{TOOLS}/../examples/day-cramton.book"
        printed, status, said = run("prices", book, "--unit", "2")
        head, *rows = [line.split(",") for line in printed.splitlines()]
        self.assertEqual((status, said, len(rows), len(head)), (0, "", 5, 15))
        self.assertEqual(rows[0][1:], "b1,1 0,0,14,7,8.5,8.5,14,7,8.5,8.5,no,cca,".split(","))
        self.assertEqual(rows[4][1:], "b5,,0,0,0,0,0,0,0,0,0,no,cca,".split(","))
        printed, status, _ = run("prices", "--json", book)
        first, *_, last = map(json.loads, printed.splitlines())
        self.assertEqual((first["package"], first["price"], first["price_decimal"]), ([1, 0], 17, 17))
        self.assertEqual((last["package"], last["bidder"]), (None, "b5"))
        printed, _, _ = run("prices", "--decimal", ",", "--unit", "8", book)
        self.assertEqual(printed.splitlines()[1].split(";")[1:7], ["b1", "1 0", "0", "3,5", "1,75", "2,125"])
        for unit in ("0", "x", "1.5", str(10**18 + 1), "1" * 5_000):
            printed, status, said = run("prices", book, "--unit", unit)
            self.assertEqual((printed, status), ("", 2))
            self.assertIn("--unit takes a whole number from 1 to 1000000000000000000, and `", said)
        self.assertEqual(run("prices", book, "--unit", str(10**18))[1:], (0, ""))

    @with_program
    def test_thirds(self) -> None:
        """Three winners of 5 each against one bid of 10 for all: each pays a third of 10."""
        lots = ("1 0 0", "0 1 0", "0 0 1")
        bids = "".join(f"bidder b{n}\nbid {lot} 5\n" for n, lot in enumerate(lots))
        book = f"book 1\nsupply 1 1 1\nreserve 0 0 0\n{bids}bidder g\nbid 1 1 1 10\nend\n"
        self.assertEqual(
            run("prices", "-", input=book)[0].splitlines()[1],
            "-,b0,1 0 0,0,5,0,3+1/3,3.333333,5,0,3+1/3,3.333333,no,cca,",
        )
        first = json.loads(run("prices", "--json", "-", input=book)[0].splitlines()[0])
        self.assertEqual((first["bid"], first["price"], first["price_decimal"]), (5, "3+1/3", 3.333333))

    @with_program
    def test_a_limit_of_rows_is_a_stop(self) -> None:
        with self.assertRaises(Stop) as caught:
            cca_tools.price(cca_tools.read_book(ELEVEN.encode()))
        self.assertEqual((caught.exception.line, caught.exception.status), ("cca: limit rows 11", 7))

    @with_program
    def test_more_winners_than_the_program_prices(self) -> None:
        found = cca_tools.price(cca_tools.read_book(SEVEN.encode()))
        self.assertEqual([row.pays for row in found.rows], [3] * 7 + [0])
        self.assertEqual((found.found_by, len(found.winners), found.net), ("tools/price", 7, 35))
        one = cca_tools.price(cca_tools.read_book(sample("tie.book")))
        self.assertEqual(one.found_by, "cca")

    def test_a_program_that_a_signal_ends(self) -> None:
        stop = stop_of([], -9, "")
        self.assertEqual((stop.line, stop.status), ("cca: status -9", 70))

    @with_program
    def test_a_book_beyond_a_limit_doesn_t_stop_the_others(self) -> None:
        printed, status, _ = run("prices", "-", f"{TOOLS}/../examples/tie.book", input=ELEVEN)
        rows = [line.split(",") for line in printed.splitlines()[1:]]
        self.assertEqual((status, {row[-1] for row in rows[:15]}, rows[15][6]), (0, {"limit rows 11"}, "0"))
        # (eleven of them offer 5, the others at most 4, so each Vickrey price is 4)
        first = "-,b0,1,0,5,4,,,5,4,,,no,cca win,limit rows 11".split(",")
        self.assertEqual((rows[0], rows[15][-3]), (first, "yes"))

    @with_program
    def test_who_has_found_the_prices_is_a_column(self) -> None:
        printed, status, _ = run("prices", "-", f"{TOOLS}/../examples/tie.book", input=SEVEN)
        rows = [line.split(",") for line in printed.splitlines()[1:]]
        self.assertEqual([row[-2:] for row in rows], [["tools/price", ""]] * 8 + [["cca", ""]] * 2)

    def test_without_a_program(self) -> None:
        made = run("prices", f"{TOOLS}/../examples/tie.book", env={"PATH": "/usr/bin:/bin", "CCA_PROGRAM": "/nowhere"})
        self.assertEqual(made[:2], ("", 70))
        self.assertIn("CCA_PROGRAM", made[2])


if __name__ == "__main__":
    unittest.main()
