"""Tables of bids as spreadsheets, R and pandas write them: nothing is read as another number, bidder or category."""
import json
import random
import unittest
from collections.abc import Callable

from cca_tools.data.bids import make_book, read_bids
from cca_tools.data.numbers import Mark
from cca_tools.data.raw import Sold
from cca_tools.rules.stops import Stop
from cca_tools.rules.types import Package

TWO = Sold((4, 9))
NAMED = Sold((4, 9), (), ("low", "high"))
NARROW = "\u202f"


def bids_of(text: str, sold: Sold = TWO, mark: Mark | None = None) -> dict[tuple[str, Package], float]:
    """The bids of a table by bidder and package, in its own unit."""
    made = read_bids(text.encode(), sold, mark)
    pairs = zip(made.book.names, made.book.bids)
    return {(name, package): amount / made.scale for name, of_one in pairs for package, amount in of_one}


class Tables(unittest.TestCase):
    def fault(self, text: str, sold: Sold = TWO, mark: Mark | None = None) -> str:
        with self.assertRaises(Stop) as caught:
            bids_of(text, sold, mark)
        return caught.exception.why

    def test_thousands_or_decimals(self) -> None:
        """48.000 may be 48 or 48000; another amount of the table decides, or the option, or nobody."""
        doubt = (
            "row 1 has `{}`, which is {} if its decimal mark is a point, and {} if that is a comma; say --decimal . or"
        )
        doubt += " --decimal ,"
        self.assertEqual(self.fault("a;1;0;48.000"), doubt.format("48.000", "48.000", "48000"))
        self.assertEqual(self.fault('a,1,0,"48,000"'), doubt.format("48,000", "48000", "48.000"))
        self.assertEqual(self.fault("a;1;0;48.000\na;0;1;48,000"), doubt.format("48.000", "48.000", "48000"))
        self.assertEqual(bids_of("a;1;0;48.000", mark="."), {("a", (1, 0)): 48})
        self.assertEqual(bids_of("a;1;0;48.000", mark=","), {("a", (1, 0)): 48000})
        self.assertEqual(bids_of("a;1;0;48.000\na;0;1;48,5"), {("a", (1, 0)): 48000, ("a", (0, 1)): 48.5})
        self.assertEqual(bids_of("a;1;0;48,000\na;0;1;48.5"), {("a", (1, 0)): 48000, ("a", (0, 1)): 48.5})
        self.assertEqual(bids_of("a;1;0;0,125"), {("a", (1, 0)): 0.125})
        why = "column 4 has two decimal marks, a point as `48.5` in row 2, and a comma as `48,5` in row 1"
        self.assertEqual(self.fault("a;1;0;48,5\na;0;1;48.5"), why)

    def test_heads_and_the_names_of_an_award(self) -> None:
        right = {("a", (1, 3)): 5}
        for head in ("low,high", "High,LOW", "c1,c2", "lots 2,lots 1"):
            counts = "3,1" if head in ("High,LOW", "lots 2,lots 1") else "1,3"
            self.assertEqual(bids_of(f"bidder,{head},amount\na,{counts},5", NAMED), right, head)
        advice = "Give these columns the award's names, or the names c1, c2 and so on by its order"
        none = "no column is called {}, as the award's categories are; the others are {}. " + advice
        for head, missing, others in (
            ("high band,low", "`high`", "`high band`"),
            ("800,2600", "`low` and `high`", "`800` and `2600`"),
        ):
            self.assertEqual(self.fault(f"bidder,{head},amount\na,1,3,5", NAMED), none.format(missing, others))
        self.assertEqual(bids_of("bidder,c2,c1,amount\na,3,1,5"), right)

    def test_columns_without_a_name(self) -> None:
        right = {("a", (1, 3)): 5, ("b", (0, 1)): 7}
        rows = "bidder,low,high,amount\n{}a,1,3,5\n{}b,0,1,7"
        for text in (
            rows.format("", ""),
            '"",' + rows.format('"1",', '"2",'),  # the index of pandas, and write.csv of R
            rows.format('"1",', '"2",'),  # write.table of R
            "sep=;\n" + rows.format("", "").replace(",", ";"),  # Excel
        ):
            for sold in (TWO, NAMED):
                self.assertEqual(bids_of(text, sold), right, text)
        # (no names of rows: amounts such as 2,50 without quotes)
        why = "row 2 has 5 cells, and the first row has 4"
        self.assertEqual(self.fault("bidder,low,high,amount\na,1,3,2,50"), why)
        self.assertEqual(self.fault("bidder,low,high,amount\n1,1,3,2,50"), why)

    def test_counts_of_pandas(self) -> None:
        self.assertEqual(bids_of("bidder,low,high,amount\na,1.0,,5.0"), {("a", (1, 0)): 5})
        why = "row 2 has `1.5` in the column `low` as a count of lots, which is a whole number"
        self.assertEqual(self.fault("bidder,low,high,amount\na,1.5,,5.0"), why)

    def test_spellings_of_one_bidder(self) -> None:
        why = (
            "`North` in row 1 and `{}` in row 2 differ in capitals or spaces alone, and would be two bidders; spell one"
        )
        why += " bidder alike, and two so that they differ more"
        for other in ("north", "NORTH"):
            self.assertEqual(self.fault(f"North,1,0,5\n{other},0,1,5"), why.format(other))
        made = read_bids(b"A-1,1,0,5\nA 1,0,1,5", TWO)
        self.assertIn("`A-1` and `A 1` are 2 bidders, a_1, a_1_2; spell them alike if they are one", made.changes)

    def test_json_of_frames(self) -> None:
        right = {("a", (1, 3)): 48.125, ("b", (0, 1)): 7}
        rows = [{"bidder": "a", "low": 1, "high": 3.0, "amount": 48.125}]
        rows.append({"bidder": "b", "low": None, "high": 1, "amount": 7})
        for text in (json.dumps(rows), "\n".join(map(json.dumps, rows))):
            self.assertEqual(bids_of(text, NAMED), right)
        packed = [{"name": "a", "package": [1, 3], "bid": 48.125}, {"name": "b", "package": [0, 1], "bid": 7}]
        self.assertEqual(bids_of(json.dumps(packed)), right)

    def test_reserves_of_json_beside_the_supply_of_the_command(self) -> None:
        text = '{"reserve": [2, 1], "bids": [{"bidder": "a", "package": [1, 0], "amount": 1}]}'
        made = read_bids(text.encode(), TWO)
        self.assertEqual((made.book.reserves, made.book.bids), ((2, 1), [[]]))

    def test_a_dictionary(self) -> None:
        made = make_book((4, 9), {"North": {(1, 3): 48.5, (0, 1): 7}}, reserve=(1, 0))
        self.assertEqual((made.book.names, made.book.bids), (["north"], [[((0, 1), 70), ((1, 3), 485)]]))
        self.assertEqual((made.scale, made.book.reserves), (10, (10, 0)))
        with self.assertRaises(Stop) as caught:
            make_book((4, 9), {"north": {(1, 3): "48"}})
        self.assertEqual(caught.exception.why, "`amount of bid 1` is a list of numbers")


def grouped(amount: int, between: str, mark: str, decimals: int) -> str:
    """An amount in hundredths as a spreadsheet shows it."""
    return f"{amount // 100:,}".replace(",", between) + (f"{mark}{amount % 100:02d}" if decimals else "")


def plain(amount: int) -> str:
    """An amount in hundredths as pandas writes it."""
    return repr(amount / 100)


def by_r(amount: int) -> str:
    """An amount in hundredths as R writes it: the shorter one of fixed and scientific, with 15 digits."""
    fixed = f"{amount / 100:.15g}"
    digits = f"{amount / 100:.14e}".split("e")[0].rstrip("0").rstrip(".")
    short = f"{digits}e+{len(str(amount // 100)) - 1:02d}"
    return short if len(short) < len(fixed) else fixed


class Spellings(unittest.TestCase):
    """300 tables of drawn bids, in the spellings of Excel in three countries, of R and of pandas."""

    FORMS: dict[str, tuple[str, Callable[[int], str], str]] = {
        "Excel, United States": (",", lambda it: '"' + grouped(it, ",", ".", True) + '"', ""),
        "Excel, Germany": (";", lambda it: grouped(it, ".", ",", True), ""),
        "Excel, France": (";", lambda it: grouped(it, NARROW, ",", True), ""),
        "R": (",", by_r, '""'),
        "pandas": (",", plain, "unnamed"),
    }

    def test_drawn_tables(self) -> None:
        draws = random.Random(86)
        for number in range(300):
            form = list(self.FORMS)[number % len(self.FORMS)]
            delimiter, spelt, index = self.FORMS[form]
            names = [f"b{n}" for n in range(1, draws.randint(2, 5))]
            truth = {
                (name, (draws.randint(0, 4), draws.randint(1, 9))): draws.choice(
                    [5, 150, 12_345, 4_800_000, 10**7, 10**8]
                )
                + draws.randint(0, 99) * draws.randint(0, 1)
                for name in names
                for _ in range(draws.randint(1, 4))
            }
            swap = draws.randint(0, 1)
            heads = ["bidder", *(["high", "low"] if swap else ["low", "high"]), "amount"]
            rows: list[list[str]] = [
                [name, *map(str, package[:: -1 if swap else 1]), spelt(it)] for (name, package), it in truth.items()
            ]
            table = [heads, *rows]
            if index:
                table = [[str(at) if at else "" if index == "unnamed" else index, *row] for at, row in enumerate(table)]
            text = "\r\n".join(delimiter.join(row) for row in table)
            with self.subTest(number=number, form=form, text=text):
                found = {key: round(100 * amount) for key, amount in bids_of(text, NAMED).items()}
                self.assertEqual(found, truth)


if __name__ == "__main__":
    unittest.main()
