"""The prices of a book, with exact fractions, for Python and as tables.

The program finds them. If more bidders win than it prices, `pricing` finds them, and the program tests them.
"""

from __future__ import annotations

import csv
import io
import json
import re
import subprocess
from collections.abc import Iterable, Iterator, Mapping, Sequence
from dataclasses import dataclass
from fractions import Fraction
from typing import Any

from cca_tools.data.numbers import Mark, decimal, exact, fraction_of
from cca_tools.pricing.best import has_tie
from cca_tools.pricing.judges import Asked
from cca_tools.pricing.making import make_certificate
from cca_tools.rules.book import Book, book_text, read_book
from cca_tools.rules.money import difference, gross_of, less, net_of, net_price_of, price_total
from cca_tools.rules.program import program
from cca_tools.rules.scratch import scratch_folder
from cca_tools.rules.stops import CRASH, DONE, LIMIT, NO, Stop, refused
from cca_tools.rules.types import Amount, Gross, GrossPrice, Net, NetPrice, Package
from cca_tools.rules.weights import read_weights

BY_PROGRAM, BY_TOOL, BY_WIN = "cca", "tools/price", "cca win"
NO_PROGRAM = "prices are found by the program; build it with ./cca, or say where it is with CCA_PROGRAM=PATH"


@dataclass(frozen=True)
class Price:
    """What a bidder wins and pays, reserves included (gross): a loser has no package, and 0 everywhere."""

    bidder: str
    package: Package | None
    reserve: Amount = 0
    bid: Gross = Gross(0)
    vickrey: Gross = Gross(0)
    pays: GrossPrice = GrossPrice(Fraction(0))

    @property
    def regret(self) -> Fraction:
        """The price less the Vickrey price: the most that the winner gains if only it bids otherwise (Day and Milgrom
        2008)."""
        return difference(self.pays, self.vickrey)

    @property
    def bid_net(self) -> Net:
        """The bid less the reserve of its package."""
        return net_of(self.bid, self.reserve)

    @property
    def vickrey_net(self) -> Net:
        """The Vickrey price less the reserve of the package."""
        return net_of(self.vickrey, self.reserve)

    @property
    def pays_net(self) -> NetPrice:
        """The price less the reserve of the package."""
        return net_price_of(self.pays, self.reserve)


@dataclass(frozen=True)
class Prices:
    """The prices of a book: one for each of its bidders, in their order."""

    rows: tuple[Price, ...]
    net: Net  # the value of the winning choice
    found_by: str = BY_PROGRAM

    @property
    def winners(self) -> tuple[Price, ...]:
        """The prices of those that win."""
        return tuple(row for row in self.rows if row.package is not None)

    @property
    def revenue(self) -> GrossPrice:
        """What all winners pay, reserves included."""
        return price_total(row.pays for row in self.rows)

    @property
    def raised(self) -> bool:
        """Whether the core raises prices above Vickrey's."""
        return any(row.pays > row.vickrey for row in self.rows)

    def frame(self) -> Any:
        """The prices as a frame of pandas, amounts as numbers with decimals, and the price also exact; an ImportError
        where pandas isn't there (apt-get install python3-pandas)."""
        import pandas

        columns = ["bidder", "package", "bid", "vickrey", "price", "exact"]
        rows = [[row.bidder, row.package, row.bid, row.vickrey, float(row.pays), row.pays] for row in self.rows]
        return pandas.DataFrame(rows, columns=columns)


def need_program() -> str:
    """The path of the program."""
    path = program()
    if not path:
        raise Stop("cca: no program", CRASH, why=NO_PROGRAM)
    return path


def stop_of(lines: Sequence[str], status: int, said: str) -> Stop:
    """The stop of a run of the program that isn't done."""
    last = lines[-1] if lines else f"cca: status {status}"
    # (prices have no verdict `no`, and without a line of a stop the program didn't run to its end)
    is_stop = bool(lines) and last.startswith("cca: ") and status > NO
    return Stop(last, status if is_stop else CRASH, why=f"the program answers `{last}`{said and f': {said.strip()}'}")


def price(book: Book, *, weights: Mapping[str, int] | None = None, program: str | None = None) -> Prices:
    """The winners of a book and their prices, by the program at this path, or by the one that `need_program` finds. If
    more bidders win than it prices, `pricing` finds the prices, and the program tests them.

    With weights (1 to 20, and 1 for a bidder that has none) a price is as much above the Vickrey price as they say. A
    `Stop` says in words what is wrong with the book, or that no program can be found, or that no prices are found, for
    example since they need more than ten rows (`cca: limit rows 11`)."""
    if len(book.names) != len(book.bids):
        raise refused("book", why=f"it has {len(book.names)} names of bidders, and {len(book.bids)} lists of bids")
    read_book(book_text(book))
    path = program or need_program()
    text = None if weights is None else weights_text(book, weights)
    try:
        return price_by_program(book, text, path)
    except Stop as stop:
        if not is_beyond(stop):
            raise
        return price_beyond(book, text, path)


def price_by_program(book: Book, weights: bytes | None, path: str) -> Prices:
    """The prices that the program at this path finds, by the bytes of a file of weights if there is one."""
    if weights is None:
        return prices_of(book.names, book.reserves, lines_of([path, "price", "/dev/stdin", "/dev/null"], book))
    with scratch_folder() as folder:
        file = folder / "weights"
        file.write_bytes(weights)
        words = [path, "weigh", "/dev/stdin", str(file), "/dev/null"]
        return prices_of(book.names, book.reserves, lines_of(words, book))


def weights_text(book: Book, weights: Mapping[str, int]) -> bytes:
    """The file of weights. A `Stop` if one is of no bidder of the book, or isn't a weight."""
    if unknown := [name for name in weights if name not in book.names]:
        raise refused("weights", why=f"`{unknown[0]}` is no bidder of the book, and they are {', '.join(book.names)}")
    lines = [f"weight {name} {weights.get(name, 1)}" for name in book.names]
    text = "\n".join(["weights 1", *lines, "end", ""]).encode()
    read_weights(text, book)
    return text


def lines_of(words: Sequence[str], book: Book, last: str = "revenue") -> list[str]:
    """What the program prints for a book on standard input: lines, the last of which begins with this word."""
    try:
        run = subprocess.run(words, input=book_text(book), capture_output=True)
    except OSError as fault:
        raise Stop("cca: no program", CRASH, why=f"`{words[0]}` can't be run: {fault.strerror}") from None
    lines = run.stdout.decode("utf-8", "replace").splitlines()
    if run.returncode != DONE:
        raise stop_of(lines, run.returncode, run.stderr.decode("utf-8", "replace"))
    if not lines or not lines[-1].startswith(f"{last} "):
        raise Stop("cca: no program", CRASH, why=f"`{words[0]}` prints no prices, so it isn't the program")
    return lines


def price_beyond(book: Book, weights: bytes | None, path: str) -> Prices:
    """The prices of a book with any number of winners, tested by the program at this path."""
    with scratch_folder() as folder:
        names = [folder / "book"] if weights is None else [folder / "book", folder / "weights"]
        for name, data in zip(names, (book_text(book), weights or b"")):
            name.write_bytes(data)
        asked = Asked(list(map(str, names)), weights is not None, path)
        known = None if weights is None else read_weights(weights, book)
        made = make_certificate(asked, book, str(folder / "cert"), known)
    return prices_of(book.names, book.reserves, made.lines[1:], BY_TOOL)


@dataclass(frozen=True)
class Won:
    """What the program's winners win, by their numbers from 0, and the value of their choice, net."""

    packages: dict[int, tuple[Package, Gross]]
    net: Net


def winners_of(book: Book, path: str) -> Won:
    """The winners of a book by `cca win`, which has no limit of winners."""
    numbers = {name: k for k, name in enumerate(book.names)}
    packages, net = dict[int, tuple[Package, Gross]](), Net(0)
    for line in lines_of([path, "win", "/dev/stdin"], book, "net"):
        word, *fields = line.split(" ")
        if word == "winner":
            package = tuple(map(int, fields[1:-1]))
            packages[numbers[fields[0]]] = package, Gross(int(fields[-1]))
        elif word == "net":
            net = Net(int(fields[0]))
    return Won(packages, net)


def vickrey_prices(book: Book, path: str) -> Prices:
    """The winners and their Vickrey prices, by `cca win` of the book and of the book without each winner: these have no
    limit of winners or of rows. A price in the core isn't known here, so each winner's is its Vickrey price."""
    won, rows = winners_of(book, path), [Price(name, None) for name in book.names]
    for k, (package, bid) in won.packages.items():
        reserve = book.reserve(package)
        bids = [[] if j == k else of_one for j, of_one in enumerate(book.bids)]
        others = winners_of(Book(book.supply, book.reserves, book.names, bids), path)
        vickrey = gross_of(less(others.net, less(won.net, net_of(bid, reserve))), reserve)
        rows[k] = Price(book.names[k], package, reserve, bid, vickrey, GrossPrice(Fraction(vickrey)))
    return Prices(tuple(rows), won.net, BY_WIN)


def is_beyond(stop: Stop) -> bool:
    """Whether the program stopped because more bidders win than it prices."""
    return stop.line.startswith("cca: limit winners ")


def prices_of(
    names: Sequence[str], reserves: Sequence[Amount], lines: Iterable[str], found_by: str = BY_PROGRAM
) -> Prices:
    """The prices of what the program prints of these bidders."""
    won, net = dict[str, Price](), Net(0)
    for line in lines:
        word, *fields = line.split(" ")
        if word == "winner":
            name, package = fields[0], tuple(map(int, fields[1 : 1 + len(reserves)]))
            bid, vickrey, pays = fields[len(reserves) + 2 :: 2]
            reserve = sum(count * price for count, price in zip(package, reserves))
            won[name] = Price(
                name, package, reserve, Gross(int(bid)), Gross(int(vickrey)), GrossPrice(fraction_of(pays))
            )
        elif word == "net":
            net = Net(int(fields[0]))
    return Prices(tuple(won.get(name) or Price(name, None) for name in names), net, found_by)


def price_object(names: Sequence[str], reserves: Sequence[Amount], lines: Sequence[str]) -> dict[str, object]:
    """The object that `cca price --json` prints of the lines of prices."""
    prices, words = prices_of(names, reserves, lines), [line.split(" ") for line in lines]
    winners = [
        {"bid": it.bid, "name": it.bidder, "package": it.package, "pays": fields[-1], "vickrey": it.vickrey}
        for it, fields in zip(prices.winners, words)
    ]
    return {"net": prices.net, "revenue": words[-1][-1], "winners": winners}


# As tables.

COLUMNS = (
    "book bidder package reserve bid vickrey price price_decimal"
    " bid_net vickrey_net price_net price_net_decimal tie found_by stopped"
).split()

NUMBERS = COLUMNS[3:-3]
NUMBER = re.compile(r"-?[0-9]+(\.[0-9]+)?")
VICKREY_CELLS = (0, 1, 2, 5, 6)  # of the amounts, those that need no core price
# A decimal that is a whole cell.
DECIMAL = re.compile(r"^(-?[0-9]+)\.([0-9]+)$")


def cells_of(name: str, row: Price, unit: int, last: Sequence[str]) -> list[str]:
    """The cells of a bidder, amounts divided by the unit, with these last ones. Prices that aren't known are empty."""
    package = " ".join(map(str, row.package)) if row.package else ""
    gross: list[int | Fraction] = [row.reserve, row.bid, row.vickrey, row.pays]
    net: list[int | Fraction] = [row.bid_net, row.vickrey_net, row.pays_net]
    parts, nets = ([Fraction(value) / unit for value in values] for values in (gross, net))
    amounts = [*map(exact, parts), decimal(parts[3]), *map(exact, nets), decimal(nets[2])]
    if last[1] == BY_WIN:
        amounts = [cell if at in VICKREY_CELLS else "" for at, cell in enumerate(amounts)]
    return [name, row.bidder, package, *amounts, *last]


def cells_of_book(name: str, book: Book, unit: int = 1) -> Iterator[list[str]]:
    """The cells of each bidder of a book. A book beyond a limit has the limit in its last ones, and of the others only
    packages, bids and Vickrey prices."""
    try:
        found, stopped = price(book), ""
    except Stop as stop:
        if stop.status != LIMIT:
            raise
        found, stopped = vickrey_prices(book, need_program()), stop.line.removeprefix("cca: ")
    last = ["yes" if has_tie(book) else "no", found.found_by, stopped]
    yield from (cells_of(name, row, unit, last) for row in found.rows)


def csv_text(rows: Iterable[Sequence[str]], mark: Mark = ".") -> str:
    """Rows of cells as CSV with heads. With decimal commas there are semicolons between the cells, as spreadsheets of
    many countries have it."""
    return table_text(COLUMNS, rows, mark).rstrip("\n")


def table_text(heads: Sequence[str], rows: Iterable[Sequence[str]], mark: Mark = ".") -> str:
    """Heads and rows of cells as CSV with this decimal mark."""
    out = io.StringIO()
    writer = csv.writer(out, lineterminator="\n", delimiter=";" if mark == "," else ",")
    writer.writerow(heads)
    writer.writerows([DECIMAL.sub(r"\1,\2", cell) for cell in row] if mark == "," else row for row in rows)
    return out.getvalue()


def json_lines(rows: Iterable[Sequence[str]]) -> str:
    """Rows of cells as an object of JSON in each line: packages as lists, and amounts as numbers; one that no decimal
    states exactly is a text such as `6+2/3`."""
    return "\n".join(object_text(dict(zip(COLUMNS, row))) for row in rows)


def object_text(row: dict[str, str]) -> str:
    """The object of a row: what a book beyond a limit doesn't have is left out. Numbers keep all of their digits."""
    members = {
        name: cell if name in NUMBERS and NUMBER.fullmatch(cell) else json.dumps(cell) for name, cell in row.items()
    }
    members = {name: text for name, text in members.items() if row[name]}
    members["package"] = json.dumps([int(count) for count in row["package"].split()] if row["package"] else None)
    return "{" + ", ".join(f'"{name}": {text}' for name, text in members.items()) + "}"
