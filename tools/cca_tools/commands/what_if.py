"""The first form says what another log would lead to: edit a copy of the log, and see which lines are new or gone with
their replies, which other lines get another reply and why, how the book changes, and the winners with their prices
before and after. The edited log is taken through all rules, the caps too.

The second finds the least amount that would win a package for a bidder, with all other bids of the book unchanged. It
reports whether the rules admit this amount on the bidder's submitted list, and if not, on which list they do and what
that list wins. It shows what would be paid. PACKAGE is its counts.

Prices come from the program that CCA_PROGRAM names, or that ./cca has built; without it only the winners are shown. One
file may be `-`, which is standard input. Statuses are as in docs/FORMATS.md; 1 if no amount wins. No file is changed.

What it doesn't say: what the others would have done, had these lines come; it keeps their lines.
"""

from __future__ import annotations

import argparse
from collections.abc import Iterator, Mapping, Sequence
from typing import NamedTuple

from cca_tools.command_line import Parser, run_command
from cca_tools.rules.auction import Auction, replay
from cca_tools.rules.award import Award, read_award
from cca_tools.rules.book import Book
from cca_tools.rules.edits import with_bids
from cca_tools.rules.log import Line, read_log
from cca_tools.rules.matching import matched
from cca_tools.rules.money import gross_of, less, total
from cca_tools.rules.program import MISSING, price_lines, program, wins
from cca_tools.rules.reasons import cap_words, counts, reason
from cca_tools.rules.stops import MOST, NO, Stop, load
from cca_tools.rules.ties import tie_sentences, ties_of
from cca_tools.rules.types import BidderNumber, Gross, Net, Package
from cca_tools.rules.view import record_text
from cca_tools.rules.winners import table_of, winning_choice
from cca_tools.rules.words import bidder_of, package_of
from cca_tools.terminal import Colour, progress


def colour_of(line: str) -> Colour | None:
    """New lines are green and gone ones red."""
    return "green" if line.startswith("+ ") else "red" if line.startswith("- ") else None


def parser() -> Parser:
    """The arguments of the command."""
    forms = "AWARD LOG EDITED-LOG", "AWARD LOG --least BIDDER PACKAGE"
    words = Parser("what-if", __doc__, *forms, colour_of=colour_of)
    words.add_file("AWARD", "the terms of the auction")
    words.add_file("LOG", "its lines")
    words.add_file("EDITED-LOG", "a copy of the log with other lines", nargs="?")
    words.add_argument(
        "--least", nargs="+", metavar=("BIDDER", "PACKAGE"), help="find the least amount with which BIDDER wins PACKAGE"
    )
    return words


def pairs_of(before: Auction, after: Auction) -> Iterator[tuple[int | None, int | None]]:
    """The lines of two logs side by side: both places of a line of both, None on the side that lacks it."""
    i, j = 0, 0
    old, new = [record_text(line) for line in before.lines], [record_text(line) for line in after.lines]
    for i2, j2 in [*matched(old, new), (len(old), len(new))]:
        yield from ((gone, None) for gone in range(i, i2))
        yield from ((None, added) for added in range(j, j2))
        if i2 < len(old):
            yield i2, j2
        i, j = i2 + 1, j2 + 1


def told(auction: Auction, at: int) -> str:
    """A line with its reply."""
    line, reply = auction.lines[at], auction.replies[at]
    return f"{line.number} {record_text(line)}: {reply.text()}"


def why_refused(auction: Auction, at: int) -> Iterator[str]:
    """Why a line is refused, if so."""
    if not auction.replies[at].is_ok:
        yield f"    {reason(auction.award, auction.lines[at], auction.replies[at])}"


def changed_lines(before: Auction, after: Auction) -> Iterator[str]:
    """The lines that are new, gone or have another reply now."""
    for i, j in pairs_of(before, after):
        if j is None:
            assert i is not None
            yield "- " + told(before, i)
        elif i is None:
            yield "+ " + told(after, j)
            yield from why_refused(after, j)
        elif before.replies[i] != after.replies[j]:
            yield f"  {told(after, j)}, before {before.replies[i].text()}"
            yield from why_refused(after, j)


def changed_bids(before: Auction, after: Auction) -> Iterator[str]:
    """The bids that are new, gone or of another amount."""
    for j, name in enumerate(before.award.names, 1):
        old, new = dict(before.bids(j)), dict(after.bids(j))
        for package in sorted(old.keys() | new.keys()):
            if old.get(package) != new.get(package):
                yield f"bid {name} {counts(package)} {new.get(package, 'gone')}, before {old.get(package, 'none')}"


def result(auction: Auction) -> list[str]:
    """The winners and prices and the ties, or the reason for having no book."""
    try:
        book = auction.need_book()
        return [*price_lines(book), *tie_sentences(book, ties_of(book))]
    except Stop as stop:
        return [f"{stop.line}: {stop.why or 'there is no book'}"]


def compare(award: Award, log: bytes, edited: bytes) -> Iterator[str]:
    """What another log would lead to."""
    before, after = replay(award, read_log(log, award)), replay(award, read_edited(edited, award))
    progress.step("comparing the logs")
    parts = {
        "lines": list(changed_lines(before, after)),
        "book": list(changed_bids(before, after)),
        "before": result(before),
        "after": result(after),
    }
    for head, lines in parts.items():
        yield head
        yield from lines or ["nothing changes"]


def read_edited(data: bytes, award: Award) -> list[Line]:
    """The lines of the edited log. A fault says that it is in that."""
    try:
        return read_log(data, award)
    except Stop as stop:
        stop.why += " (in the edited log)"
        raise


def with_bid(book: Book, j: BidderNumber, package: Package, amount: Gross) -> Book:
    """The book with this amount for a package of bidder j."""
    return with_bids(book, j, sorted({**dict(book.bids[j - 1]), package: amount}.items()))


def least_amount(book: Book, j: BidderNumber, package: Package, low: Gross) -> Gross | None:
    """The least amount from `low` on that wins the package for bidder j; None if no amount that may be bid wins it.

    With the amount the package has to bring as much as what would win without it; the order of ties decides whether
    that is enough, or one more is needed.
    """
    others = table_of(with_bids(book, j, []))[0]  # by the supply that is left to them

    def beside(taken: Package) -> Net:
        return Net(others[book.place(most - count for most, count in zip(book.supply, taken))])

    rivals = [total((net, beside(own))) for (own, _), net in zip(book.bids[j - 1], book.net[j - 1]) if own != package]
    needed = less(max([Net(others[-1]), *rivals]), beside(package))
    amount = max(low, gross_of(needed, book.reserve(package)))
    if amount <= MOST["amount"] and not wins(with_bid(book, j, package, amount), j, package):
        amount = Gross(amount + 1)
    return amount if amount <= MOST["amount"] else None


def book_with_list(auction: Auction, j: BidderNumber, listed: Mapping[Package, Gross]) -> Book:
    """The book if bidder j had submitted this list, with all other bids unchanged."""
    clock = auction.highest_in_clock(j)
    nothing = Gross(0)
    amounts = {it: max(clock.get(it, nothing), listed.get(it, nothing)) for it in {*clock, *listed} if any(it)}
    return with_bids(auction.book(), j, sorted(amounts.items()))


def won_words(book: Book, j: BidderNumber, package: Package) -> str:
    """What bidder j wins with a list that has been mended."""
    choice, name = winning_choice(book)[0], book.names[j - 1]
    won = book.won(choice, j)
    if won and won[0] == package:
        return f"With that list {name} wins {counts(package)}."
    return f"With that list {name} wins {f'{counts(won[0])} for {won[1]}' if won else 'nothing'} instead."


def least_to_draft(auction: Auction, j: BidderNumber, package: Package) -> Gross:
    """The least amount that bidder j may draft for a package."""
    return Gross(max(auction.award.reserve_of(package), auction.highest_in_clock(j).get(package, Gross(0))))


def mended_list(auction: Auction, j: BidderNumber, package: Package, amount: Gross) -> dict[Package, Gross] | None:
    """An admitted list with the amount and with the submitted packages. The entries that the package's cap depends on
    are raised by what it needs, and others are changed if their own caps require it. None if no such list exists."""
    caps = auction.caps(j)
    raised = caps.raised(dict(auction.submitted(j)), package, amount)
    if raised is None:
        return None
    mended = caps.fitted(raised)
    has_room = len(mended) <= MOST["drafts"] and max(mended.values()) <= MOST["amount"]
    return mended if has_room and mended.get(package) == amount else None


def change_words(before: Mapping[Package, Gross], after: Mapping[Package, Gross], package: Package) -> str:
    """What a list has otherwise than the submitted one, except for one package."""
    parts = []
    for it in sorted({*before, *after} - {package}):
        if it not in before:
            parts.append(f"with {counts(it)} for {after[it]}")
        elif before[it] != after[it]:
            parts.append(f"with {counts(it)} for {after[it]} instead of {before[it]}")
    return f"They would admit it on that list {', '.join(parts)}."


def refusal_words(auction: Auction, j: BidderNumber, listed: Mapping[Package, Gross], fault: tuple[int, Gross]) -> str:
    """Why a submission of this list is refused."""
    name, caps = auction.award.names[j - 1], auction.caps(j)
    entry = sorted(listed)[fault[0] - 1]
    cap = caps.cap(listed, entry)
    assert cap is not None  # an entry above its cap has one
    return (
        f"The rules would refuse it on the submitted list of {name}: {counts(entry)} for {listed[entry]} would be above"
        f" its cap, {fault[1]}. {cap_words(auction.award, name, cap)}"
    )


class Admission(NamedTuple):
    """Whether the rules admit an amount, in words; the head of the prices that follow, and the book that they are
    of."""

    words: list[str]
    head: str
    book: Book


def admission(auction: Auction, j: BidderNumber, package: Package, amount: Gross) -> Admission:
    """Whether a submission with the amount is admitted, all other entries of the submitted list as they are, and if it
    isn't, a list that is, and what that wins."""
    submitted, name, alone = dict(auction.submitted(j)), auction.award.names[j - 1], "with it, were it admitted"
    listed = {**submitted, package: amount}
    book = book_with_list(auction, j, listed)
    if len(listed) > MOST["drafts"]:
        full = f"The rules would refuse it: the list has {MOST['drafts']} packages already, and this is another one."
        return Admission([full], alone, book)
    fault = auction.caps(j).fault(sorted(listed.items()))
    if not fault:
        admitted = f"The rules would admit it on the submitted list of {name}, with no other entry changed."
        return Admission([admitted], "with it", book)
    refusal, mended = refusal_words(auction, j, listed, fault), mended_list(auction, j, package, amount)
    if mended is None:
        return Admission([refusal, f"No list of {name} with its other packages admits it."], alone, book)
    book = book_with_list(auction, j, mended)
    change = f"{change_words(submitted, mended, package)} {won_words(book, j, package)}"
    return Admission([refusal, change], "with that list", book)


def least(award: Award, log: bytes, name: str, words: Sequence[str]) -> list[str]:
    """The least amount that wins a package for a bidder, whether it is admitted, and the prices with it."""
    j, package = bidder_of(name, award), package_of(words, award)
    auction = replay(award, read_log(log, award))
    if auction.final is None:
        raise Stop("no amount wins yet: the clock is running, and sealed amounts come after it", NO)
    draft = Line(0, 0, "draft", name, j, package)
    if fault := auction.package_fault(draft, award.eligibility(j)):
        raise Stop(f"no amount wins, since the package can't be drafted. {reason(award, draft, fault)}", NO)
    low = least_to_draft(auction, j, package)
    progress.step("looking for the least amount")
    amount = least_amount(auction.book(), j, package, low) if any(package) else None
    if amount is None:
        raise Stop("no amount wins", NO)
    note = ["A sealed amount for this package may not be less, by its reserve and the clock."] if amount == low else []
    told = admission(auction, j, package, amount)
    tied = tie_sentences(told.book, ties_of(told.book))
    head = f"least {name} {counts(package)} {amount}"
    return [head, *note, *told.words, told.head, *price_lines(told.book), *tied]


def what_if(options: argparse.Namespace) -> str:
    """What another log, or another amount, would lead to."""
    if (options.least is None) == (options.edited_log is None):
        parser().error("either an edited log or --least has to be given")
    if options.least and len(options.least) < 2:
        parser().error("--least takes a bidder and a package")
    award = read_award(load(options.award, "award"))
    log = load(options.log, "log")
    if options.least:
        lines = least(award, log, options.least[0], options.least[1:])
    else:
        lines = list(compare(award, log, load(options.edited_log, "log")))
    return "\n".join(lines if program() else [*lines, MISSING])


def main(argv: Sequence[str]) -> int:
    """Runs the command with these arguments, and returns its status."""
    return run_command(parser(), what_if, argv)
