"""Prints the prices of books as a table, one row for each bidder: package, reserve, bid, Vickrey price and price, each
with the reserve of the package in it, and the last three net of it too. Amounts are exact: `20.5`, or `6+2/3` if no
decimal is exact, and so the price also comes as a decimal with six digits. A loser has no package, and 0 everywhere.
With --json it is one object a line, with numbers. With --decimal , the decimal mark is a comma, and semicolons are
between the cells.

Prices come from the program that CCA_PROGRAM names, or that ./cca has built. If more bidders win than it prices,
tools/price finds the prices and the program tests them; the column `found_by` says `cca` or `tools/price`. `tie` is yes
if several choices have the winning value, so that the order of bidders and packages decides. Books are priced on all
processors, and come in the order of the arguments. A book beyond a limit doesn't stop the others: its rows have the
limit in the column `stopped`, and packages, bids and Vickrey prices by `cca win`, and nothing else. Another fault of a
book ends the run with the status that `cca` has for it. `tools/book` makes books of tables; --unit is what it
multiplied amounts by.
"""

from __future__ import annotations

import argparse
import os
from collections.abc import Sequence
from concurrent.futures import ThreadPoolExecutor

from cca_tools.command_line import Parser, run_command
from cca_tools.data.prices import cells_of_book, csv_text, json_lines, need_program
from cca_tools.data.numbers import MARKS
from cca_tools.rules.book import read_book
from cca_tools.rules.printable import clipped
from cca_tools.rules.stops import MOST, load


def parser() -> Parser:
    """The arguments of the command."""
    words = Parser("prices", __doc__)
    words.add_file("BOOK", "a book of bids", nargs="+")
    words.add_argument("--json", action="store_true", help="print an object of JSON for each bidder, one a line")
    words.add_argument("--unit", metavar="N", default="1", help="divide amounts by N")
    words.add_argument("--decimal", choices=MARKS, default=".", help="the decimal mark of amounts in CSV")
    return words


def unit_of(text: str) -> int:
    """The number that amounts are divided by."""
    most = MOST["draft amount"]
    if not (text.isascii() and text.isdigit() and len(text) <= len(str(most)) and 0 < int(text) <= most):
        parser().error(f"--unit takes a whole number from 1 to {most}, and `{clipped(text)}` isn't that")
    return int(text)


def rows_of(name: str, unit: int) -> list[list[str]]:
    """The rows of a book."""
    return list(cells_of_book(name, read_book(load(name, "book")), unit))


def prices(options: argparse.Namespace) -> str:
    """The rows of all books."""
    unit = unit_of(options.unit)
    if options.json and options.decimal == ",":
        parser().error("--decimal is for CSV, since JSON has points alone")
    need_program()
    with ThreadPoolExecutor(os.cpu_count()) as pool:
        rows = [row for of_one in pool.map(lambda name: rows_of(name, unit), options.book) for row in of_one]
    return json_lines(rows) if options.json else csv_text(rows, options.decimal)


def main(argv: Sequence[str]) -> int:
    """Runs the command with these arguments, and returns its status."""
    return run_command(parser(), prices, argv)
