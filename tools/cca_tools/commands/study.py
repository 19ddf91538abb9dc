"""Runs many auctions of bidders with drawn values by a plan, and makes a table with a row for each auction and a page
with pictures. The plan is TOML; its files are looked up from its folder:

    plan = 1
    award = "spectrum.award"
    values = "spectrum.values"     # or several; tools/rehearse --help has their form
    auctions = 1000                # of each case
    seed = 1                       # of the first auction; the next one has the next number
    rules = ["zero", "reserve"]    # price the bids also by these points of reference; "bids" is another one
    weights = { elm = 3 }          # price the bids also by weights, 1 to 20, 1 for all others
    [vary]                         # each a number or a list; what isn't here is as the award and the values have it
    version = [1, 2]               # 2 has the final cap
    increment = [50, 100]          # the award's steps of prices, in percent of them
    share = [100, 90]              # what bidders name of their values in the sealed round, in percent
    bidders = [4, 5]               # the first ones of the award
    reserve = 100                  # the award's reserves, in percent of them
    format = ["clock", "sealed"]   # sealed: only sealed bids, without a clock and without caps
    shares = { elm = [100, 90] }   # a bidder's share, whatever its values have
    shades = { elm = [0, 25] }     # how much less a bidder names than that share of its values
    budgets = { elm = [300, 400] } # the most that a bidder asks and bids for

Each choice of what varies is a case. An auction of the same number has the same values in all cases, so differences
between cases are taken auction by auction. If a bidder's strategy varies, the page has its best answers: what gains it
most of what is tried while all else stays as it is. The folder of --out (the plan's name without its end) gets
`table.csv`, `bidders.csv` with a row for each bidder of each auction, `page.html`, its pictures, `rows.jsonl`, and in
`inputs` the plan and its files. Table, page and rows name the program by its SHA-256, the version and commit of the
tools, and the plan. A study that was stopped goes on if it is run again, also with more auctions, by the same program,
tools and plan. A price below the Vickrey price or above the bid stops the study.

--auction N only runs that auction again: for each case, by its number, `auctions/N/1` and so on get its award, log and
certificate (its book and certificate if all bids were sealed), and the command that audits them is printed. If the
folder has the row of the auction, it has to be the same.

In `table.csv` money is gross and in the award's unit. `value` is what all lots are worth where they end, and `best`
what they could be worth, both by true values, with unsold lots at their reserve; `efficiency` is `value` divided by
`best`. `core`, `vickrey` and `bids` are what the winners pay by each rule for the same bids, `raised` is whether the
core raised a price above Vickrey's, `tie` whether several choices have the winning value, so that the order of bidders
and packages decided. `clock_price_` and `clock_excess_` have each category's price in the last round of the clock and
what was asked for beyond its supply (below 0: what nobody asked for), and `clock_revenue` has what all that was asked
for costs at these prices. A bidder has its `share`, `shade` and `budget`, its package of that round (`clock`) and
whether it won just that (`clock_won`); its `profit` is its value less its price, and its `regret` its price less its
Vickrey price, the most that it gains if only it bids otherwise (Day and Milgrom 2008).

`found_by` says what found the prices: `cca`, whose prices are proved; `tools/price` if more bidders win than it prices,
with certificates that `cca` tests; `cca win` if only winners and Vickrey prices are known. `core_zero`, `core_reserve`
and `core_bids` are the core prices nearest to these points instead of Vickrey's (Erdil and Klemperer 2010): `cca win`
finds their blocking coalitions and reports at the end that none is left. Their sum has to be the sum of `core`. Only
the tools compute that they are the nearest. Of every hundredth auction, the first one too, the certificate is tested by
the rules of tools/audit (`audit`); one that fails stops the study. An auction beyond a limit of the program has that in
`stopped`, and no core prices.

Prices come from the program that CCA_PROGRAM names, or that ./cca has built. All processors work, or with --scheduler
the workers of Dask, such as those at tcp://127.0.0.1:8786: each needs python3-distributed and the program, at the same
path or at the path of its own CCA_PROGRAM. Statuses are as in docs/FORMATS.md; 70 if a certificate fails or something
is missing.
"""

from __future__ import annotations

import argparse
import contextlib
import os
import sys
import time
from collections.abc import Iterator, Sequence

from cca_tools.command_line import Parser, run_command, say
from cca_tools.data.numbers import MARKS, Mark
from cca_tools.interrupts import INTERRUPTED
from cca_tools.page import html
from cca_tools.rules.stops import Stop
from cca_tools.rules.words import NUMBER
from cca_tools.studies.kept import keep_auction
from cca_tools.studies.measures import results_of
from cca_tools.studies.origin import origin_of
from cca_tools.studies.pages import drawings, page_of, summary
from cca_tools.studies.plan import read_plan
from cca_tools.studies.runners import here, on_dask
from cca_tools.studies.store import LONG, PAGE, TABLE, Store, long_text, table_text
from cca_tools.terminal import is_terminal

MOST_PROCESSES = 1000
STEPS = 10  # reports of a study's progress if standard error isn't a terminal


def parser() -> Parser:
    """The arguments of the command."""
    words = Parser("study", __doc__)
    words.add_file("PLAN", "what is tried")
    words.add_argument("--out", metavar="FOLDER", help="where the results are written")
    words.add_argument("--scheduler", metavar="ADDRESS", help="a scheduler of Dask, whose workers hold the auctions")
    words.add_argument("--processes", metavar="N", help="hold the auctions in N processes (one for each processor)")
    words.add_argument("--decimal", choices=MARKS, default=".", help="the decimal mark of the tables")
    words.add_argument("--auction", metavar="N", help="write the files of this auction, and hold no other")
    return words


def processes_of(options: argparse.Namespace) -> int | None:
    """The number of processes that the arguments state, or None."""
    text: str | None = options.processes
    if text is None:
        return None
    if options.scheduler:
        parser().error("--processes is for this machine, and --scheduler for the workers of Dask")
    if not (text.isascii() and text.isdigit() and len(text) < 10 and 1 <= int(text) <= MOST_PROCESSES):
        parser().error(f"--processes takes a whole number from 1 to {MOST_PROCESSES}, and `{text}` isn't that")
    return int(text)


def auction_of(options: argparse.Namespace, most: int) -> int | None:
    """The auction whose files are wanted, or None."""
    text: str | None = options.auction
    if text is None:
        return None
    if not NUMBER.fullmatch(text) or not 1 <= int(text) <= most:
        parser().error(f"--auction takes the number of an auction, from 1 to {most}, and `{text}` isn't that")
    return int(text)


def time_text(seconds: float) -> str:
    """A time in few letters."""
    minutes, rest = divmod(round(seconds), 60)
    return f"{minutes} min {rest} s" if minutes else f"{rest} s"


class Count:
    """Says on standard error how many auctions there are, and how long the rest takes."""

    def __init__(self, done: int, every: int) -> None:
        self.start, self.at_start, self.done, self.every = time.monotonic(), done, done, every
        self.said = done * STEPS // every

    def one_more(self) -> None:
        """Counts an auction."""
        self.done += 1
        left = (time.monotonic() - self.start) / (self.done - self.at_start) * (self.every - self.done)
        text = f"tools/study: {self.done:,} of {self.every:,} auctions, {time_text(left)} left"
        if is_terminal(sys.stderr):
            print(f"\r{text}\x1b[K", end="\n" if self.done == self.every else "", file=sys.stderr, flush=True)
        elif self.done * STEPS // self.every > self.said:
            self.said = self.done * STEPS // self.every
            say(text)


def fill(store: Store, scheduler: str | None, processes: int | None) -> None:
    """Runs the auctions that have no row yet."""
    jobs = store.left()
    if not jobs:
        return
    every = len(store.plan.cases) * store.plan.auctions
    counted = Count(every - len(jobs), every)
    total = store.origin.program
    rows = on_dask(store.plan, jobs, scheduler, total) if scheduler else here(store.plan, jobs, processes)
    with contextlib.closing(rows):
        for done in rows:
            if done.stop:
                line, status, why = done.stop
                raise Stop(line, status, why=f"auction {done.job.number} of case {done.job.case + 1}: {why}")
            store.keep(done)
            counted.one_more()


def study(options: argparse.Namespace) -> str:
    """The results in words; the table and the page are files."""
    plan = read_plan(options.plan)
    number, processes = auction_of(options, plan.auctions), processes_of(options)
    title = os.path.splitext(os.path.basename(options.plan))[0]
    store = Store(options.out or title, plan, origin_of(plan))
    if number is not None:
        return "\n".join(keep_auction(store, number))
    try:
        fill(store, options.scheduler, processes)
    except KeyboardInterrupt:
        why = f"{len(store.rows)} auctions are kept; run it again to go on"
        raise Stop("cca: stopped", INTERRUPTED, why=why) from None
    return "\n".join(written_of(store, title, options.decimal))


def written_of(store: Store, title: str, mark: Mark) -> Iterator[str]:
    """Writes the tables, the page and its pictures; the results in words, and what is written."""
    results = results_of(store.plan, store.table())
    yield from summary(results)
    files = [(TABLE, table_text(store, mark)), (LONG, long_text(store, mark))]
    files.append((PAGE, html.page(page_of(results, title, store.origin))))
    files += [(f"{it.key}.svg", it.text(is_file=True)) for it in drawings(results)]
    for name, text in files:
        yield f"written: {store.write(name, text)}"


def main(argv: Sequence[str]) -> int:
    """Runs the command with these arguments, and returns its status."""
    return run_command(parser(), study, argv)
