"""The heads of columns: one fact has one head, on each page and in each table for spreadsheets."""

import os
import unittest

from checks.cases.samples import EXAMPLES
from cca_tools.data.prices import COLUMNS
from cca_tools.desk.ending import price_table
from cca_tools.desk.told import Speech
from cca_tools.page import sale, sheets, source, winners
from cca_tools.page.source import given
from cca_tools.rules.names import LongNames

FILES = [os.path.join(EXAMPLES, f"spectrum.{kind}") for kind in ("award", "log", "cert")]


class Heads(unittest.TestCase):
    def setUp(self) -> None:
        self.facts = source.of_files(FILES)

    def test_winners(self) -> None:
        """The desk and the result have columns of the report's table, and no other ones."""
        every = [column.head for column in winners.winners_table(self.facts).columns]
        self.assertEqual(every, "Winner/Won/Final clock price/Bid/Vickrey price/Pays/Of its bid".split("/"))
        desk = price_table("", Speech(given(self.facts.award), LongNames()))
        result = winners.result_table(self.facts)
        for heads in [it.head for it in desk.columns], [it.head for it in result.columns]:
            self.assertLessEqual(set(heads), set(every))

    def test_net(self) -> None:
        """A column net of reserve is named by the head that it has without."""
        every = [column.head for column in winners.winners_table(self.facts).columns]
        net = [column.head for column in winners.net_table(self.facts).columns]
        self.assertEqual([head for head in net if head.removesuffix(", net") not in [*every, "Reserve"]], [])

    def test_supply(self) -> None:
        where, sold = winners.lots_table(self.facts), sale.categories(self.facts)
        self.assertEqual([table.columns[1].head for table in (where, sold)], ["Supply", "Supply"])

    def test_spreadsheets(self) -> None:
        """The winners of a set have amounts as `tools/prices` has them."""
        heads = list(map(str, next(iter(sheets.winners(self.facts)))))
        self.assertEqual(
            [head for head in heads if head in COLUMNS], "bidder reserve bid vickrey price price_decimal".split()
        )


if __name__ == "__main__":
    unittest.main()
