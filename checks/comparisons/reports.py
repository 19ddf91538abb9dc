"""Compares what a report says with what the program prints, on drawn auctions and books.

For each of NUMBER drawn auctions the program prices the book, and the report has to agree: every reply; for each winner
its package, its bid, its Vickrey price and what it pays; a sum of what the others would bring more that equals the
Vickrey price; the revenue and the net value; as many turns as the program has. And for each bidder, from the whole log
and from only its own view, the same report. It has to agree on NUMBER drawn books too, and there no group of winners
may pay less than it has to. Every tenth is made as a page too. It needs the program; the status is 1 if something
differs.
"""

from __future__ import annotations

import collections
import os
import pathlib
import random
import subprocess
from collections.abc import Iterator, Sequence
from typing import Any, TypeAlias

from checks.cases.drawn_auctions import log_of, terms_of, text_of
from checks.cases.limit_books import CCA, OUT, build_cca

from cca_tools.page import html, plain, source
from cca_tools.page.document import Page
from cca_tools.page.report import page
from cca_tools.page.words import price
from cca_tools.rules.auction import Auction
from cca_tools.rules.award import Award, read_award
from cca_tools.rules.log import read_log
from cca_tools.rules.types import Package
from cca_tools.rules.view import view_text

# A cell has its text, its form and its tone; a table has rows of cells. Counts say how often each text came.
Cell: TypeAlias = tuple[str, str, str]
Rows: TypeAlias = list[list[Cell]]
Counts: TypeAlias = collections.Counter[str]
FOLDER = pathlib.Path(OUT, "told")
WINNERS = "Winners and prices, reserves included"


class Desk:
    """Takes the lines of a log that is drawn."""

    def __init__(self, award: Award) -> None:
        self.auction = Auction(award)

    @property
    def stage(self) -> str:
        return self.auction.stage

    def take(self, line: str) -> None:
        for one in read_log(line.encode(), self.auction.award):
            self.auction.take(one)

    def turns(self, j: int, package: Package) -> list[int]:
        return (
            [self.auction.award.reserve_of(package)]
            if self.auction.final and j <= len(self.auction.award.bidders)
            else []
        )


def printed(*words: str | pathlib.Path) -> list[str]:
    return subprocess.run([CCA, *words], stdin=subprocess.DEVNULL, stdout=subprocess.PIPE).stdout.decode().splitlines()


def tables(made: Page, key: str) -> Iterator[tuple[str, Rows]]:
    """The tables of a section in order, each with its title and the texts and the forms of its cells."""
    left: list[Any] = [block for section in made.sections if section.key == key for block in section.blocks]
    while left:
        block = left.pop(0)
        left += [
            *getattr(block, "blocks", ()),
            *(inner for card in getattr(block, "cards", ()) for inner in card.blocks),
        ]
        table = getattr(block, "table", block)
        if hasattr(table, "rows"):
            yield table.title, [[html.parts(cell) for cell in row] for row in table.rows]


def table(made: Page, key: str, title: str) -> Rows:
    """The rows of the one table of this title, or none."""
    return next((rows for found, rows in tables(made, key) if found == title), [])


def plainly(text: str) -> str:
    """A number as the program prints it, of one as a page shows it."""
    return text.replace(",", "").replace("\N{MINUS SIGN}", "-")


def exactly(cell: Cell) -> str:
    """A number of a cell in the program's form."""
    words, form = cell[:2]
    return plainly(form or words)


def winner_lines(made: Page) -> Iterator[str]:
    """The winners of a report, as the program prints them."""
    for name, won, *_, bid, vickrey, pays, _ in table(made, "winners", WINNERS):
        yield f"winner {name[0]} {won[1]} bid {exactly(bid)} vickrey {exactly(vickrey)} pays {exactly(pays)}"


def sums_of_all_differ(made: Page, net: str, revenue: str) -> bool:
    """Whether a report's net value, or the revenue in its title, isn't what the program prints."""
    (title,) = [section.finding for section in made.sections if section.key == "winners"]
    together = table(made, "winners", "The same net of reserve")[-1]
    return plainly(together[2][0]) != net or f" {price(source.fraction(revenue))} for " not in title


def turns(made: Page) -> list[bool]:
    """For each turn of a report, whether no coalition blocks in it."""
    blocks: list[Any] = [block for section in made.sections for block in section.blocks]
    unfolded = [it for block in blocks for it in getattr(block, "blocks", (block,))]
    cards = [card for block in unfolded for card in getattr(block, "cards", ())]
    return [card.blocks[1].text.startswith("No coalition blocks") for card in cards if card.title.startswith("Turn ")]


def sums_differ(made: Page) -> bool:
    """Whether some sum of what the others would bring more differs from the Vickrey price in the table of winners."""
    own, prices = dict(tables(made, "why")), {
        row[0][0]: int(exactly(row[-3])) for row in table(made, "winners", WINNERS)
    }
    more = {name: [int(plainly(row[-1][0])) for row in own[f"Without {name}"]] for name in prices}
    return any(more[name][-1] != price or sum(more[name][:-1]) != price for name, price in prices.items())


def replies(made: Page) -> list[str]:
    return [row[2][1] for _, rows in tables(made, "lines") for row in rows]


def view_differs(files: Sequence[pathlib.Path], facts: source.Source) -> bool:
    """Whether some bidder's report from its own view isn't the one from the whole log, before the award."""
    if facts.award is None or facts.auction is None:
        raise ValueError("a report of no auction")
    for j, name in enumerate(facts.award.names, 1):
        own = FOLDER / "log.own"
        own.write_text(view_text(facts.auction, j))
        texts = [plain.text(page(source.of_files([str(files[0]), str(log)], name), name)) for log in (files[1], own)]
        if texts[0] != texts[1]:
            return True
    return False


def compared(number: int, rng: random.Random, counts: Counts) -> Iterator[str]:
    """A description of what differs for one drawn auction."""
    terms, supply, bidders = terms_of(rng)
    text = text_of(terms)
    files = [FOLDER / "award", FOLDER / "log", FOLDER / "cert"]
    files[0].write_text(text)
    files[1].write_text(log_of(rng, Desk(read_award(text.encode())), supply, bidders))
    files[2].unlink(missing_ok=True)
    prices = printed("award", *files, "--rounds")
    facts = source.of_files([str(it) for it in files if it.exists()])
    made = page(facts)
    counts["turns of two and more"] += len(facts.turns) > 1
    counts[prices[-1].split(" ")[0] if prices[-1].startswith("revenue") else " ".join(prices[-1].split(" ")[:3])] += 1
    if number % 10 == 0:
        html.page(made)
    (FOLDER / "book").unlink(missing_ok=True)
    lines = [
        line.partition(" ")[2]
        for line in printed("auction", *files[:2], FOLDER / "book")
        if not line.startswith("cca: ")
    ]
    if replies(made) != lines:
        yield "replies"
    if facts.has_prices:
        yield from priced_differs(made, prices, facts)
    elif files[2].exists():
        yield "no prices"
    if view_differs(files, facts):
        yield "a bidder's view"


def drawn_book(rng: random.Random) -> str:
    """A book of few lots with packages that meet, so that coalitions block."""
    supply = [rng.randint(1, 2) for _ in range(rng.randint(2, 4))]
    reserve = [rng.choice([0, 0, 5]) for _ in supply]
    lines = [
        "book 1",
        " ".join(map(str, ["supply", *supply])),
        " ".join(map(str, ["reserve", *reserve])),
    ]
    for j in range(1, rng.randint(3, 8)):
        packages = {
            tuple(rng.randint(0, most) * (rng.random() < 0.6) for most in supply) for _ in range(rng.randint(1, 3))
        }
        lines.append(f"bidder b{j}")
        for package in sorted(it for it in packages if any(it)):
            amount = sum(lots * (10 + least) for lots, least in zip(package, reserve)) + rng.randint(0, 12)
            lines.append(" ".join(map(str, ["bid", *package, amount])))
    return "\n".join([*lines, "end"]) + "\n"


def book_differs(number: int, rng: random.Random, counts: Counts) -> Iterator[str]:
    """A description of what differs for one drawn book."""
    book, cert = FOLDER / "drawn.book", FOLDER / "drawn.cert"
    book.write_text(drawn_book(rng))
    cert.unlink(missing_ok=True)
    prices = printed("price", book, cert, "--rounds")
    if not prices[-1].startswith("revenue"):
        counts["books of too many winners"] += 1
        return
    facts = source.of_files([str(book), str(cert)])
    made = page(facts)
    counts["books"] += 1
    counts["turns of two and more"] += len(facts.turns) > 1
    if number % 10 == 0:
        html.page(made)
    yield from priced_differs(made, prices, facts)
    groups = table(made, "why", "What each group of winners has to pay")
    counts["books with a picture of the core"] += bool(groups)
    if any(row[3][0].startswith("-") for row in groups):
        yield "a group that pays too little"


def priced_differs(made: Page, prices: Sequence[str], facts: source.Source) -> Iterator[str]:
    if list(winner_lines(made)) != [line for line in prices if line.startswith("winner ")]:
        yield "winners"
    if facts.winners and sums_of_all_differ(made, *(line.split(" ")[1] for line in prices[-2:])):
        yield "net value or revenue"
    if sums_differ(made):
        yield "sums of Vickrey prices"
    if facts.winners and turns(made) != [line.endswith(" end") for line in prices if line.startswith("round ")]:
        yield "turns"


def main(number: int, seed: int) -> int:
    build_cca()
    FOLDER.mkdir(parents=True, exist_ok=True)
    os.environ["CCA_PROGRAM"] = CCA
    rng, differ = random.Random(seed), 0
    counts: Counts = collections.Counter()
    for at in range(number):
        found = [*compared(at, rng, counts), *book_differs(at, rng, counts)]
        differ += bool(found)
        if found:
            print(f"auction or book {at} of seed {seed}: {', '.join(found)}")
    print(
        f"{number} auctions and books, {differ} differ; "
        + ", ".join(f"{count} {word}" for word, count in counts.most_common())
    )
    return 1 if differ else 0
