"""Makes a book of bids in a table or in JSON, and prints it. It reports each change on standard error:
names become lower case, bids are sorted by package, of several bids for one package the greatest is kept, and if
amounts have decimals, all are multiplied by a power of ten.

A table (CSV with `,`, `;` or tabs) has a row for each bid: the bidder, a count for each category or one cell with all
counts, and the amount. A first row with names of columns may come before (`bidder`, `package`, `amount`); without it
the columns are in this order:

    bidder,lots800,lots2600,amount          North Tel;1 4;48,000.50
    North Tel,1,4,"48,000.50"

With --award the columns of counts have the names of its categories, or are called c1, c2 and so on; otherwise they are
in the order of --supply. An amount such as 48.000 may be 48 or 48000: other amounts of the table decide, or --decimal.

JSON is {"supply": [4, 14], "reserve": [10, 2], "bids": [{"bidder": "north", "package": [1, 4], "amount": 48000.5}]}, or
a list of records with the keys of a table's heads, as pandas and R write frames. What is sold comes from --supply, from
--award, or from the JSON. A file that is a book already is read as it is, and --as csv or --as json prints it in the
other forms. --as values prints a file of values for tools/rehearse and tools/study, where each package is worth its
amount.

Statuses are as in docs/FORMATS.md; 3 if a row isn't a bid, and the message names the row. What it doesn't test: whether
a bidder meant what it bid. The order of the bidders is the order of their first rows, and it decides ties.
"""

from __future__ import annotations

import argparse
from collections.abc import Sequence
from decimal import Decimal

from cca_tools.command_line import Parser, run_command, say
from cca_tools.data.bids import Made, csv_text, json_text, read_bids, values_text
from cca_tools.data.jsons import is_json
from cca_tools.data.numbers import MARKS, PLAIN
from cca_tools.data.raw import MOST_DIGITS, Sold
from cca_tools.rules.award import read_award
from cca_tools.rules.book import book_text, read_book
from cca_tools.rules.stops import load

TEXTS = {
    "book": lambda book: book_text(book).decode().rstrip("\n"),
    "csv": csv_text,
    "json": json_text,
    "values": values_text,
}


def parser() -> Parser:
    """The arguments of the command."""
    words = Parser("book", __doc__)
    words.add_file("FILE", "the bids, as CSV, as JSON or as a book")
    words.add_argument("--supply", metavar="COUNTS", help='the lots of each category, as "4 1 14 9"')
    words.add_argument("--reserve", metavar="AMOUNTS", help="the reserve of a lot of each category; 0 where not given")
    words.add_argument("--award", metavar="AWARD", help="an award, instead of --supply and --reserve")
    about = "the decimal mark of a table's amounts; where it isn't given, the amounts decide it"
    words.add_argument("--decimal", choices=MARKS, help=about)
    words.add_argument("--as", dest="form", choices=sorted(TEXTS), default="book", help="what is printed")
    return words


def numbers_of(text: str, option: str) -> list[Decimal]:
    """The numbers of an option."""
    parts = text.split()
    if not parts or not all(map(PLAIN.fullmatch, parts)):
        parser().error(f"{option} takes numbers such as 48000.50 with spaces between them, and `{text}` isn't that")
    return list(map(Decimal, parts))


def sold_of(options: argparse.Namespace) -> Sold | None:
    """The supply and the reserves that the arguments state, or None."""
    if options.award:
        if options.supply or options.reserve:
            parser().error("--award says what is sold, so --supply and --reserve aren't given")
        return Sold.of_award(read_award(load(options.award, "award")))
    if not options.supply:
        if options.reserve:
            parser().error("--reserve needs --supply")
        return None
    supply = numbers_of(options.supply, "--supply")
    if any(count >= 10**MOST_DIGITS for count in supply):
        parser().error(f"--supply takes counts of at most {MOST_DIGITS} digits")
    if any(count != int(count) for count in supply):
        parser().error(f"--supply takes whole numbers, and `{options.supply}` isn't that")
    reserves = numbers_of(options.reserve, "--reserve") if options.reserve else []
    if reserves and len(reserves) != len(supply):
        parser().error(f"--supply has {len(supply)} numbers, and --reserve {len(reserves)}")
    return Sold(tuple(map(int, supply)), tuple(reserves))


def made_of(options: argparse.Namespace) -> Made:
    """The book, with what was changed."""
    data, sold = load(options.file, "bids"), sold_of(options)
    if data.startswith(b"book "):
        return Made(read_book(data), 1)
    if sold is None and not is_json(data):
        parser().error('a table doesn\'t say what is sold: give --supply, as --supply "4 1 14 9", or --award')
    return read_bids(data, sold, options.decimal)


def book(options: argparse.Namespace) -> str:
    """The book, in one of the forms."""
    made = made_of(options)
    for change in made.changes:
        say(f"tools/book: {change}")
    return TEXTS[options.form](made.book)


def main(argv: Sequence[str]) -> int:
    """Runs the command with these arguments, and returns its status."""
    return run_command(parser(), book, argv)
