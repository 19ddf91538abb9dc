"""The auction on one page: its rounds, lines, bids, winners and prices, for a browser without network or script. On a
terminal, or with --text, it is plain text.

A file that begins with "book " is taken as a book. A log may be incomplete: the report is of what there is. Without a
certificate the program makes one, if it is there: CCA_PROGRAM names it, or ./cca has built it here. The program also
reports the turns of pricing; without it the coalitions that raise prices are taken only from the certificate. One file
may be `-`, which is standard input.

What it doesn't test: that the log has what the bidders sent. Statuses are as in docs/FORMATS.md: 0 if the report is
printed, and 1 if its certificate fails a test; its line `no ..` is on standard error.
"""

from __future__ import annotations

import argparse
import sys
from collections.abc import Sequence

from cca_tools.command_line import Parser, run_command, say
from cca_tools.page import places, plain, source
from cca_tools.page.document import Page
from cca_tools.page.report import page
from cca_tools.rules.stops import NO, Stop
from cca_tools.terminal import is_terminal, progress


def parser() -> Parser:
    """The arguments of the command."""
    forms = (
        "[--text] [--program-sum] [--bidder NAME] [--names FILE] [--placed CATEGORY SLOTS CERT].. AWARD LOG [CERT]",
        "[--text] [--program-sum] BOOK [CERT]",
    )
    words = Parser("report", __doc__, *forms)
    words.add_file("FILES", "an award, its log and the certificate, or a book and its certificate", nargs="+")
    words.add_argument("--text", action="store_true", help="print plain text instead of a page")
    words.add_argument(
        "--bidder",
        metavar="NAME",
        help=(
            "print what one bidder sees: its own lines, the closes and the posted prices; winners once the award is"
            " over. LOG may be its own view then, in the form that tools/caps --help has"
        ),
    )
    words.add_argument("--names", metavar="FILE", help="a file of names for people; tools/state --help has its form")
    words.add_argument(
        "--placed",
        nargs=3,
        metavar=("CATEGORY", "SLOTS", "CERT"),
        action="append",
        default=[],
        help=(
            "show where the lots of a category are in its band: the slots, which are its lots with their winners, and"
            " the certificate that `cca place` made of them; the names may have the frequencies"
        ),
    )
    words.add_argument("--program-sum", action="store_true", help="print the sum (SHA-256) of the program too")
    return words


def facts_for(files: Sequence[str], name: str, names: str | None) -> source.Source:
    """What there is to report."""
    facts = source.of_files(files, name, names)
    if name and facts.award is None:
        parser().error("a book has no lines, so a bidder sees nothing of it")
    return facts


def report(options: argparse.Namespace) -> str:
    """The report as a page, or as text."""
    as_text = options.text or is_terminal(sys.stdout)
    if len(options.files) > 3:
        parser().error(f"there are at most three files, and {len(options.files)} are given")
    name = options.bidder or ""
    facts = facts_for(options.files, name, options.names)
    if options.placed and (name or facts.award is None):
        parser().error("--placed is for the report for everybody of an award and its log")
    places.read_all(facts, options.placed)
    progress.step("making the report")
    made = page(facts, name, options.program_sum)
    text = plain.text(made) if as_text else html_page(made)
    if facts.fault:
        say(facts.fault.line, "red")
        raise Stop(text, NO)
    return text


def html_page(made: Page) -> str:
    """The report as a page."""
    from cca_tools.page import html

    progress.step("drawing the page")
    return html.page(made)


def main(argv: Sequence[str]) -> int:
    """Runs the command with these arguments, and returns its status."""
    return run_command(parser(), report, argv)
