"""Says in words what the answer of a command of `cca` means for its files. COMMAND and FILES are what the command was
called with; what it only writes may be left out:

    tools/explain auction AWARD LOG            each refused line with its reason, then why no book is made, if so
    tools/explain award AWARD LOG              tools/explain audit AWARD LOG CERT
    tools/explain win BOOK                     tools/explain price BOOK           tools/explain check BOOK CERT
    tools/explain weigh BOOK WEIGHTS           tools/explain weigh-check BOOK WEIGHTS CERT
    tools/explain place SLOTS                  tools/explain place-check SLOTS CERT
    tools/explain review BOOK EDITS            each refused edit with its reason

It runs the command's steps by the second program up to the first fault. It prints the line that `cca` prints, its place
for an editor, what was read there and what is allowed. For a test that fails it prints the bidder, the place and both
sides of the comparison. With --bidder it explains why lines of this bidder are refused, and LOG may be the bidder's own
view (tools/caps --help has its form). One file may be `-`, which is standard input. The status is the command's.

What it doesn't explain: faults of writing, a lack of memory, and whether the bids are what the bidders meant.
"""

from __future__ import annotations

import argparse
import dataclasses
import difflib
from collections.abc import Iterator, Sequence

from cca_tools.command_line import Parser, run_command
from cca_tools.rules.auction import Auction, Reply, replay
from cca_tools.rules.award import Award, read_award
from cca_tools.rules.book import Book, read_book
from cca_tools.rules.certificate import read_certificate
from cca_tools.rules.certificate_tests import Fault, first_fault
from cca_tools.rules.edits import edited, read_edits, refusal_of
from cca_tools.rules.log import Line, read_log
from cca_tools.rules.placement import read_places, read_slots
from cca_tools.rules.placement_tests import first_fault as first_place_fault
from cca_tools.rules.reasons import reason
from cca_tools.rules.stops import MOST, NO, WORDS, Stop, limit, load
from cca_tools.rules.telling import told
from cca_tools.rules.view import read_log_or_view, record_text
from cca_tools.rules.weights import read_weights
from cca_tools.rules.winners import winning_choice
from cca_tools.rules.words import bidder_of
from cca_tools.terminal import Colour

# The files of each command, in the order of its arguments; the last one of a command that writes it may be missing.
READ = {
    "auction": ["award", "log"],
    "award": ["award", "log"],
    "audit": ["award", "log", "cert"],
    "win": ["book"],
    "price": ["book"],
    "check": ["book", "cert"],
    "weigh": ["book", "weights"],
    "weigh-check": ["book", "weights", "cert"],
    "place": ["slots"],
    "place-check": ["slots", "cert"],
    "review": ["book", "edits"],
}
PASSES = "The certificate passes all tests."
WRITES = ("auction", "award", "price", "weigh", "place")


def colour_of(line: str) -> Colour | None:
    """A fault is red, and a certificate that passes green."""
    if line.startswith(("cca: ", "no ")):
        return "red"
    return "green" if line == PASSES else None


def parser() -> Parser:
    """The arguments of the command."""
    forms = "COMMAND FILES..", "auction AWARD LOG --bidder NAME"
    words = Parser("explain", __doc__, *forms, agrees=True, colour_of=colour_of)
    words.add_argument("command", metavar="COMMAND", help=f"a command of cca: {', '.join(READ)}")
    words.add_file("FILES", "the files of the command", nargs="*")
    words.add_argument("--bidder", metavar="NAME", help="the bidder of whose lines the refused ones are explained")
    return words


class Steps:
    """The steps of a command, with what each one found."""

    def __init__(self, command: str, files: Sequence[str], bidder: str | None = None) -> None:
        self.command, self.files, self.bidder = command, dict(zip(READ[command], files)), bidder
        self.found: list[str] = []  # sentences about lines and edits
        self.notes: list[str] = []

    def text(self, kind: str) -> bytes:
        """The bytes of one of the files."""
        return load(self.files[kind], kind)

    def take(self) -> str:
        """Takes all steps, and returns what can be said if none of them stops."""
        if "slots" in self.files:
            return self.take_slots()
        if self.bidder is not None:
            return self.take_bidder(self.bidder)
        book = self.book_of_log() if "award" in self.files else read_book(self.text("book"))
        if "edits" in self.files:
            return self.take_edits(book)
        weights = read_weights(self.text("weights"), book) if "weights" in self.files else [1] * book.bidders
        if self.command in ("award", "price", "weigh"):
            need_winners(book, weights)
        if "cert" in self.files:
            certificate = read_certificate(self.text("cert"), book)
            need_passed(first_fault(book, certificate, weights))
            return PASSES
        return f"Nothing is wrong: the book has {book.bidders} bidders and {sum(map(len, book.bids))} bids."

    def take_slots(self) -> str:
        """The steps of a command on the slots of a band."""
        slots = read_slots(self.text("slots"))
        if "cert" in self.files:
            need_passed(first_place_fault(slots, read_places(self.text("cert"), slots)))
            return PASSES
        return f"Nothing is wrong: the band has {slots.band} slots, and there are {slots.bidders} bidders."

    def take_edits(self, book: Book) -> str:
        """The steps of a review: each edit is of the book that those before it left."""
        edits, refused = read_edits(self.text("edits"), book), 0
        for number, edit in enumerate(edits, 1):
            if refusal := refusal_of(book, edit):
                refused += 1
                self.found.append(f"{number} {refusal.text()}: line {edit.row} of the file, `{edit.text()}`")
                self.found.append(f"  {refusal.why}")
            else:
                book = edited(book, edit)
        if refused:
            return (
                f"{refused} of {len(edits)} edits {are(refused)} refused, and"
                f" {'changes' if refused == 1 else 'change'} nothing."
            )
        return f"Nothing is wrong: there are {len(edits)} edits."

    def take_bidder(self, name: str) -> str:
        """The lines of one bidder, in the whole log or in its own view."""
        award = read_award(self.text("award"))
        bidder_of(name, award)
        auction = replay(award, read_log_or_view(self.text("log"), award)[0])
        sent = list(own_lines(auction, name))
        refused = [(line, reply) for line, reply in sent if not reply.is_ok]
        self.found = [text for line, reply in refused for text in own_refused_lines(award, line, reply)]
        return (
            f"{name} has sent {lines_words(len(sent))}, and {len(refused) or 'none'} of them"
            f" {are(len(refused))} refused."
        )

    def book_of_log(self) -> Book:
        """The book of the award and the log. Refused lines are explained, or counted."""
        award = read_award(self.text("award"))
        auction = replay(award, read_log(self.text("log"), award))
        refused = [pair for pair in zip(auction.lines, auction.replies) if not pair[1].is_ok]
        if self.command == "auction":
            self.found = [text for line, reply in refused for text in refused_lines(award, line, reply)]
        elif refused:
            of = f"{lines_words(len(refused))} of the log {are(len(refused))}"
            self.notes = [f"{of} refused: `tools/explain auction AWARD LOG` says why."]
        return auction.need_book()


def lines_words(count: int) -> str:
    """This many lines."""
    return "1 line" if count == 1 else f"{count} lines"


def are(count: int) -> str:
    """`is` for one, else `are`."""
    return "is" if count == 1 else "are"


def own_lines(auction: Auction, name: str) -> Iterator[tuple[Line, Reply]]:
    """The lines of a bidder, numbered as in its own view: the numbers of the log would say how many lines others
    sent."""
    number = 0
    for line, reply in zip(auction.lines, auction.replies):
        if line.name == name:
            number += 1
            yield dataclasses.replace(line, number=number), reply
        elif line.kind == "close" and reply.is_ok:
            number += 1


def own_refused_lines(award: Award, line: Line, reply: Reply) -> Iterator[str]:
    """A refused line of a bidder's own view with its reply, and why."""
    yield f"{line.number} {reply.text()}: record {line.number} of its own view, `{record_text(line)}`"
    yield f"  {reason(award, line, reply)}"


def refused_lines(award: Award, line: Line, reply: Reply) -> Iterator[str]:
    """A refused line with its reply, its place, and the reason."""
    yield f"{line.number} {reply.text()}: record {line.number}, line {line.row} of the file, `{record_text(line)}`"
    yield f"  {reason(award, line, reply)}"


def need_passed(fault: Fault | None) -> None:
    """Stops if a certificate fails."""
    if fault:
        raise Stop(fault.line, NO, why=fault.text())


def need_winners(book: Book, weights: Sequence[int]) -> None:
    """Stops if more bidders win than can be priced."""
    choice, _ = winning_choice(book)
    winners = [j for j, number in enumerate(choice, 1) if number]
    even = all(weights[j - 1] == 1 for j in winners)
    most = MOST["winners" if even else "weighted winners"]
    if len(winners) > most:
        names = ", ".join(book.names[j - 1] for j in winners)
        where = "" if even else " where their weights aren't all 1"
        why = f"{len(winners)} bidders win ({names}), and at most {most} can be priced{where}"
        raise limit("winners", len(winners), why)


def words_fault(command: str, files: Sequence[str], bidder: str | None) -> str:
    """Why the arguments aren't in a command's plain form, or an empty text."""
    if command not in READ:
        near = difflib.get_close_matches(command, READ, 1)
        meant = f"; did you mean `{near[0]}`?" if near else ""
        return f"`{command}` is no command that is explained here{meant}"
    if bidder is not None and command != "auction":
        return f"--bidder is for `auction`, and not for `{command}`"
    size = len(READ[command])
    if len(files) not in ((size, size + 1) if command in WRITES else (size,)):
        return f"`{command}` takes {' '.join(READ[command]).upper()}, and the names given are {len(files)}"
    return ""


def explain(options: argparse.Namespace) -> str:
    """What the answer of a command means."""
    if why := words_fault(options.command, options.files, options.bidder):
        parser().error(why)
    steps = Steps(options.command, options.files, options.bidder)
    try:
        last, status = steps.take(), 0
    except Stop as stop:
        if stop.status == WORDS:
            raise
        last, status = told(stop), stop.status
    text = "\n".join([*steps.found, last, *steps.notes])
    if status:
        raise Stop(text, status)
    return text


def main(argv: Sequence[str]) -> int:
    """Runs the command with these arguments, and returns its status."""
    return run_command(parser(), explain, argv)
