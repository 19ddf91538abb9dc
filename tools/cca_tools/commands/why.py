"""Says why the winners pay what they pay: one sentence for winners of one reason, then for each winner who would win
without it and the sum that is its Vickrey price, then each coalition that asks winners for more, and how that is shared
between them. Amounts are gross, as they are bid and paid, and the amounts net of reserve follow them. The certificate
is tested first; for one that fails the output is what tools/check prints. One file may be `-`, which is standard input.

What it doesn't show: coalitions that ask for no more than others do. What it rests on: what the certificate shows, by
docs/CERTIFICATES.md.
"""

from __future__ import annotations

import argparse
import sys
from collections.abc import Sequence
from typing import NamedTuple

from cca_tools.command_line import Parser, run_command
from cca_tools.rules.auction import replay
from cca_tools.rules.award import read_award
from cca_tools.rules.book import Book, read_book
from cca_tools.rules.certificate import read_certificate
from cca_tools.rules.certificate_tests import first_fault
from cca_tools.rules.log import read_log
from cca_tools.rules.stops import MOST, NO, Stop, load, within
from cca_tools.rules.weights import read_weights
from cca_tools.rules.why import why_lines
from cca_tools.terminal import broken, width

# How wide the text is at most, on a terminal and in a file.
COLUMNS = 80


def parser() -> Parser:
    """The arguments of the command."""
    words = Parser("why", __doc__, "BOOK CERT [WEIGHTS]", "AWARD LOG CERT")
    words.add_file("FIRST", "the book, or the award")
    words.add_file("SECOND", "the certificate, or the log")
    words.add_file("THIRD", "the weights of a book, or the certificate of an award and a log", nargs="?")
    return words


class Files(NamedTuple):
    """What is read before the certificate, the name of its file, and the names of the categories if there is an
    award."""

    book: Book
    cert_file: str
    weights: list[int] | None
    categories: list[str]


def read_files(options: argparse.Namespace) -> Files:
    """The files except for the certificate. A book is reported from an award by how it begins."""
    first = load(options.first, "book")
    is_book = options.third is None or first.startswith(b"book ")
    return from_book(first, options) if is_book else from_log(first, options)


def from_book(data: bytes, options: argparse.Namespace) -> Files:
    """BOOK CERT [WEIGHTS]."""
    book = read_book(data)
    weights = read_weights(load(options.third, "weights"), book) if options.third else None
    return Files(book, options.second, weights, [])


def from_log(data: bytes, options: argparse.Namespace) -> Files:
    """AWARD LOG CERT."""
    within("bytes", len(data), MOST["award bytes"])
    award = read_award(data)
    book = replay(award, read_log(load(options.second, "log"), award)).need_book()
    return Files(book, options.third, None, [category.name for category in award.categories])


def why(options: argparse.Namespace) -> str:
    """Why the winners pay what they pay."""
    files = read_files(options)
    certificate = read_certificate(load(files.cert_file, "cert"), files.book)
    if fault := first_fault(files.book, certificate, files.weights):
        raise Stop(fault.line, NO, why=fault.text())
    columns, lines = width(sys.stdout, COLUMNS), why_lines(certificate, files.weights, files.categories)
    return "\n".join(part for line in lines for part in broken(line, columns))


def main(argv: Sequence[str]) -> int:
    """Runs the command with these arguments, and returns its status."""
    return run_command(parser(), why, argv)
