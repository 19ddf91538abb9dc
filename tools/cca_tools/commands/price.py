"""Finds the prices of a book, or of an auction, with any number of winners within the other limits. It writes their
certificate into a new file, and prints what `cca check`, `cca weigh-check` or `cca audit` prints of that certificate:
`yes` and the prices. The file appears only after that yes; a file that is there is never changed.

`cca price` and `cca award` price up to six winners, and for these it is proved that a certificate is found. Here only
the answer about the certificate is proved: prices that it says yes to are right, for any number of winners.

    cca: limit rows 14    no 10 rows were found that show the prices, which only happens with more than 10 winners
    cca: limit bytes 67108865    the certificate would have too many bytes
    cca: limit digits 38    a number of the certificate would have too many digits

are status 7, and nothing is written. --search SECONDS looks longer for fewer rows; the prices stay the same.
--json and --rounds print what they print for `cca price`: the prices as one line, and a line for each turn.

CCA_PROGRAM names the program; without it the one that ./cca has built is used. If it isn't there, tools/check or
tools/audit tests the certificate, and a line on standard error says so. python3-numpy makes it some ten times as fast.
"""

from __future__ import annotations

import argparse
import json
from collections.abc import Sequence

from cca_tools.command_line import Parser, run_command, say
from cca_tools.data.prices import price_object
from cca_tools.pricing.judges import Asked, Judge
from cca_tools.pricing.making import Made, make_certificate
from cca_tools.rules.auction import replay
from cca_tools.rules.award import read_award
from cca_tools.rules.book import Book, read_book
from cca_tools.rules.log import read_log
from cca_tools.rules.stops import load
from cca_tools.rules.weights import read_weights

MOST_SECONDS = 86_400


def parser() -> Parser:
    """The arguments of the command."""
    options = "[--search SECONDS] [--rounds] [--json]"
    words = Parser(
        "price", __doc__, f"BOOK CERT [--weights WEIGHTS] {options}", f"AWARD LOG CERT {options}", agrees=True
    )
    words.add_file("FIRST", "the book, or the award")
    words.add_file("SECOND", "the certificate of a book, a new file, or the log")
    words.add_file("THIRD", "the certificate of an auction, a new file", nargs="?")
    words.add_argument("--weights", metavar="WEIGHTS", help="the weights of the bidders of a book")
    words.add_argument("--search", metavar="SECONDS", default="0", help="look for fewer rows for so long")
    words.add_argument("--rounds", action="store_true", help="print a line for each turn first")
    words.add_argument("--json", action="store_true", help="print one object of JSON")
    return words


def read_files(options: argparse.Namespace) -> tuple[Asked, Book, list[int] | None]:
    """The files with their book and its weights."""
    if options.third is not None:
        award = read_award(load(options.first, "award"))
        book = replay(award, read_log(load(options.second, "log"), award)).need_book()
        return Asked([options.first, options.second]), book, None
    book = read_book(load(options.first, "book"))
    if options.weights is None:
        return Asked([options.first]), book, None
    weights = read_weights(load(options.weights, "weights"), book)
    return Asked([options.first, options.weights], is_weighted=True), book, weights


def need_words(options: argparse.Namespace) -> int:
    """Tests the arguments together. Returns the seconds of the search for fewer rows."""
    files = [options.first, options.second, options.third, options.weights]
    if "-" in files:
        parser().error("each file is read again by the checker, so none is standard input or output")
    if options.weights is not None and options.third is not None:
        parser().error("--weights goes with a book, and an auction has no weights")
    if options.weights in files[:3] and options.weights is not None:
        parser().error(f"two of the files have the same name, {options.weights}")
    return seconds_of(options.search)


def seconds_of(text: str) -> int:
    """The seconds of the search for fewer rows."""
    if not (text.isascii() and text.isdigit() and len(text) < 10 and int(text) <= MOST_SECONDS):
        parser().error(f"--search takes whole seconds up to {MOST_SECONDS}, and `{text}` isn't that")
    return int(text)


def price(options: argparse.Namespace) -> str:
    """What the checker prints of the certificate that is written."""
    seconds = need_words(options)
    asked, book, weights = read_files(options)
    cert = options.second if options.third is None else options.third
    made = make_certificate(asked, book, cert, weights, seconds)
    say_judge(made.judge)
    return text_of(options, made, book)


def say_judge(judge: Judge) -> None:
    """Says which checker has judged if it isn't the proved program."""
    if judge.name.startswith("tools/"):
        say(f"tools/price: {judge.name} has tested the certificate, since cca isn't built here (./cca builds it).")


def text_of(options: argparse.Namespace, made: Made, book: Book) -> str:
    """What is printed: the answer of the checker, or the object of its prices, with the turns if they are wanted."""
    rounds = list(made.priced.round_lines()) if options.rounds else []
    if not options.json:
        return "\n".join([*rounds, *made.lines])
    found = price_object(book.names, book.reserves, made.lines[1:]) | ({"rounds": rounds} if options.rounds else {})
    return json.dumps(found, separators=(",", ":"), sort_keys=True)


def main(argv: Sequence[str]) -> int:
    """Runs the command with these arguments, and returns its status."""
    return run_command(parser(), price, argv)
