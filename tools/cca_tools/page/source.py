"""The source of a report: the files, the results of the second program, and what the program says if it is there."""

from __future__ import annotations

import dataclasses
import functools
import hashlib
import os
import pathlib
import re
import subprocess
from collections.abc import Sequence
from dataclasses import dataclass, field
from fractions import Fraction
from typing import TYPE_CHECKING, TypeVar

from cca_tools.page.words import Names, commas
from cca_tools.rules.auction import Auction, replay
from cca_tools.rules.award import Award, read_award
from cca_tools.rules.book import Book, book_text, read_book
from cca_tools.rules.certificate import BookCertificate, read_certificate
from cca_tools.rules.certificate_tests import Fault, first_fault
from cca_tools.rules.clock import cost
from cca_tools.rules.log import read_log
from cca_tools.rules.money import gross_of, gross_price_of
from cca_tools.rules.names import NO_NAMES, LongNames, read_names
from cca_tools.rules.program import program
from cca_tools.rules.scratch import need_written, scratch_folder
from cca_tools.rules.stops import MOST, WORDS, Stop, load, unread, within
from cca_tools.rules.types import Amount, Bid, BidderNumber, Choice, Gross, GrossPrice, NetPrice
from cca_tools.rules.view import read_log_or_view
from cca_tools.rules.why import Reasons
from cca_tools.rules.words import bidder_of

if TYPE_CHECKING:
    from cca_tools.page.places import Run

NAME = 0xE000
TURN = re.compile(r"round (\d+) point ((?:\S+ )*?)(?:row ((?:\d+ )+)choice ((?:\d+ )+)excess (\S+)|end)")


@dataclass(frozen=True)
class Turn:
    """A step of pricing: the net price of each winner in order, and the choice that blocks with the winners that have
    to pay more."""

    number: int
    point: tuple[NetPrice, ...]
    row: tuple[BidderNumber, ...] = ()
    choice: Choice = ()
    excess: Fraction = Fraction(0)


@dataclass
class Sum:
    """A file: its kind, the name that is shown for it, and its SHA-256."""

    kind: str
    name: str
    sum: str


Given = TypeVar("Given")


def given(value: Given | None) -> Given:
    """What has to be there where this is asked."""
    assert value is not None
    return value


@dataclass
class Source:
    """What there is to report: of a book no award and no auction, of an auction that isn't over no book, without one no
    certificate."""

    sums: list[Sum]
    names: Names
    award: Award | None = None
    auction: Auction | None = None
    stop: Stop | None = None  # why a log gives no book
    book: Book | None = None
    certificate: BookCertificate | None = None
    fault: Fault | None = None  # the test that the certificate fails
    is_given: bool = True  # whether the certificate was given, or was made for this report
    turns: list[Turn] = field(default_factory=list)
    said: str = ""  # the first line of the program about the certificate
    program: str = ""  # the program's path
    long: LongNames = NO_NAMES  # the names for people, which are in award, auction and book already
    places: dict[int, list[Run]] = field(default_factory=dict)  # of categories that are placed, from 0

    @property
    def has_prices(self) -> bool:
        """Whether there are winners and prices to show."""
        return self.certificate is not None and self.fault is None

    @property
    def winners(self) -> list[BidderNumber]:
        """The winners, in order."""
        return given(self.certificate).winners

    @property
    def widths(self) -> list[Fraction]:
        """The MHz of a lot of each category; empty unless all of them are named."""
        wide = {self.long.category(name): Fraction(str(mhz)) for name, mhz in self.long.mhz.items()}
        names = self.names.categories
        return [wide[name] for name in names] if all(name in wide for name in names) else []

    @property
    def short_categories(self) -> list[str]:
        """The short names of the categories."""
        short = {long: name for name, long in self.long.categories.items()}
        return [short.get(name, name) for name in self.names.categories]

    def short_bidder(self, j: BidderNumber) -> str:
        """The short name of a bidder."""
        return self.long.short.get(self.names.bidder(j), self.names.bidder(j))

    def frequencies(self, c: int) -> tuple[Fraction, Fraction] | None:
        """Where the first lot of a category begins, and how far the next one is, in MHz; None unless it is named."""
        name = self.short_categories[c]
        step = self.long.step.get(name, self.long.mhz.get(name))
        if name not in self.long.start or step is None:
            return None
        return Fraction(str(self.long.start[name])), Fraction(str(step))

    @property
    def unit(self) -> str:
        """What amounts are in, as it follows a head: `, thousand EUR`; empty if no currency is named."""
        return f", {self.long.amounts()}" if self.long.amounts() else ""

    @property
    def units(self) -> str:
        """What an amount is in, as it follows the amount in a sentence: ` thousand EUR`; empty without a currency."""
        return f" {self.long.amounts()}" if self.long.amounts() else ""

    @property
    def in_unit(self) -> str:
        """In what amounts are, as it ends a sentence: `, in thousand EUR`; empty without a currency."""
        return f", in {self.long.amounts()}" if self.long.amounts() else ""

    def amounts(self) -> str:
        """What amounts are in, in sentences."""
        unit = [f"Amounts are in {self.long.amounts()}."] if self.long.amounts() else []
        return " ".join([*unit, "Amounts include reserves, unless net is said."])

    def won(self, j: BidderNumber) -> Bid:
        """The winning bid of a winner."""
        return given(self.book).winning(given(self.certificate).choice, j)

    def reserve(self, j: BidderNumber) -> Amount:
        """The reserve of what a winner wins."""
        return given(self.book).reserve(self.won(j)[0])

    def vickrey(self, j: BidderNumber) -> Gross:
        """The Vickrey price of a winner, gross as all that is shown."""
        return gross_of(given(self.certificate).vickrey(j), self.reserve(j))

    def pays(self, j: BidderNumber) -> GrossPrice:
        """What a winner pays, gross."""
        return gross_price_of(given(self.certificate).pays(j), self.reserve(j))

    def clock_price(self, j: BidderNumber) -> Gross | None:
        """What a winner's package costs at the final prices of the clock, if there was a clock."""
        return cost(self.auction.rounds[-1], self.won(j)[0]) if self.auction and self.auction.rounds else None

    @functools.cached_property
    def reasons(self) -> Reasons:
        """Why the winners pay what they pay."""
        return MarkedReasons(given(self.certificate))

    def told(self, text: str) -> str:
        """A text of the reasons, with the names of bidders, commas in its numbers and fractions as people write
        them."""
        return commas(text).translate({NAME + j: name for j, name in enumerate(self.names.bidders, 1)})


class MarkedReasons(Reasons):
    """The reasons with a letter of private use for each bidder's name, so that no number is taken for a part of it."""

    def name(self, j: BidderNumber) -> str:
        return chr(NAME + j)


def fraction(text: str) -> Fraction:
    """The fraction that the program prints like this."""
    whole, _, rest = text.partition("+")
    return int(whole) + Fraction(rest or 0)


def turns_of(text: str) -> list[Turn]:
    """The turns of pricing that the program printed."""
    found = []
    for number, point, row, choice, excess in TURN.findall(text):
        members, numbers = tuple(map(int, row.split())), tuple(map(int, choice.split()))
        prices = tuple(NetPrice(fraction(price)) for price in point.split())
        found.append(Turn(int(number), prices, members, numbers, fraction(excess or "0")))
    return found


def run(path: str, *words: str) -> str:
    """What the program prints. Raises `Stop` if it can't write its certificate."""
    done = subprocess.run([path, *words], stdin=subprocess.DEVNULL, stdout=subprocess.PIPE, stderr=subprocess.DEVNULL)
    need_written(done.returncode)
    return done.stdout.decode(errors="replace")


def first_line(text: str) -> str:
    """The first line of a text."""
    return text.partition("\n")[0]


def visible(word: str) -> str:
    """A file's own name without its folder, in letters that can be shown."""
    name = "standard input" if word == "-" else os.path.basename(word)
    letters = os.fsencode(name).decode("utf-8", "replace")
    return "".join(letter if letter.isprintable() and letter != "`" else "?" for letter in letters)


def first_text(word: str) -> tuple[str, bytes]:
    """The bytes of the first file and its kind: a book is known by how it begins."""
    try:
        with open(0 if word == "-" else word, "rb") as file:
            start = file.read(5)
            kind = "book" if start == b"book " else "award"
            data = start + file.read(MOST[f"{kind} bytes"] - 4)
    except OSError as fault:
        raise unread(word, "award", fault) from None
    within("bytes", len(data), MOST[f"{kind} bytes"])
    return kind, data


def of_files(words: Sequence[str], bidder: str = "", names: str | None = None) -> Source:
    """The facts of AWARD LOG, AWARD LOG CERT, BOOK or BOOK CERT; for a bidder LOG may be its own view.

    `names` is a file of names for people, which are shown instead of the short ones; a book has none.
    """
    first, data = first_text(words[0])
    kinds = ("book", "cert") if first == "book" else ("award", "log", "cert")
    if len(words) > len(kinds) or first == "award" and len(words) < 2:
        takes = "AWARD LOG or AWARD LOG CERT" if first == "award" else "BOOK or BOOK CERT"
        why = f"the first file is {'an award' if first == 'award' else 'a book'}, so the files are {takes}"
        raise Stop("cca: words", WORDS, why=why)
    texts = {first: data, **{kind: load(word, kind) for kind, word in zip(kinds[1:], words[1:])}}
    sums = [Sum(kind, visible(word), hashlib.sha256(texts[kind]).hexdigest()) for kind, word in zip(kinds, words)]
    if names and first == "book":
        raise Stop("cca: words", WORDS, why="a book has no award, so no names for people")
    source = of_auction(sums, texts, bidder, names) if first == "award" else of_book(sums, data)
    source.program = program() or ""
    if source.book:
        read_prices(source, source.book, texts, bidder)
    return source


def read_prices(source: Source, book: Book, texts: dict[str, bytes], bidder: str) -> None:
    """The certificate, tested, and what the program says. A bidder is shown none that the program has computed."""
    if "cert" in texts or not bidder:
        ask_program(source, book, texts)
    if "cert" in texts:
        source.certificate = read_certificate(texts["cert"], book)
        source.fault = first_fault(book, source.certificate)


def of_auction(sums: list[Sum], texts: dict[str, bytes], bidder: str, names_file: str | None) -> Source:
    """What an award and a log, or a bidder's own view of it, have to report. The bidder is one of the award."""
    award = read_award(texts["award"])
    if bidder:
        bidder_of(bidder, award)
    long = read_names(names_file, award)
    lines, is_view = read_log_or_view(texts["log"], award) if bidder else (read_log(texts["log"], award), False)
    if is_view and "cert" in texts:
        why = "a bidder's own view has no certificate, since it has the bids of one bidder alone"
        raise Stop("cca: words", WORDS, why=why)
    award = long.award(award)
    auction = replay(award, long.lines(lines))
    names = Names(award.names, [category.name for category in award.categories])
    try:
        return Source(sums, names, award, auction, book=auction.need_book(), long=long)
    except Stop as stop:
        return Source(sums, names, award, auction, stop, long=long)


def of_book(sums: list[Sum], data: bytes) -> Source:
    """What a book has to report."""
    book = read_book(data)
    return Source(sums, Names(book.names, width=len(book.supply)), book=book)


def ask_program(source: Source, book: Book, texts: dict[str, bytes]) -> None:
    """Has the program price the book turn by turn and test the certificate. If none was given, takes the program's
    own."""
    if not source.program:
        return
    with scratch_folder() as folder:
        paths = {kind: str(folder / kind) for kind in ("award", "log", "book", "cert", "own")}
        plain = dataclasses.replace(book, names=[f"b{j}" for j in range(1, book.bidders + 1)])
        for kind, data in {**texts, "book": book_text(plain)}.items():
            pathlib.Path(paths[kind]).write_bytes(data)
        source.turns = turns_of(run(source.program, "price", paths["book"], paths["own"], "--rounds"))
        if "cert" in texts:
            words = ("audit", paths["award"], paths["log"]) if "award" in texts else ("check", paths["book"])
            source.said = first_line(run(source.program, *words, paths["cert"]))
        elif source.turns:
            source.is_given, texts["cert"] = False, pathlib.Path(paths["own"]).read_bytes()
