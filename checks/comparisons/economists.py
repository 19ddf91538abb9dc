"""Compares what economists use with an enumeration, with other spellings, and with one machine.

BOOKS drawn books: winners, prices and Vickrey prices of tools/prices, prices nearest to other points of reference, the
greatest value and ties, against a program that visits all choices and coalitions. TABLES drawn tables, each in the
spellings of spreadsheets of three countries, of R and of pandas: tools/book has to read the same bids in all. AUCTIONS
auctions of a study on workers of Dask. One worker is killed, one has another program, one has none, and the scheduler
is killed once: table, bidders and page have to be the same as on one machine, byte for byte.
"""

from __future__ import annotations

import contextlib
import csv
import io
import itertools
import json
import os
import pathlib
import random
import subprocess
import sys
import tempfile
import time
from collections.abc import Callable, Iterator, Sequence
from decimal import Decimal
from fractions import Fraction

from checks.cases.limit_books import build_cca
from checks.cases.samples import EXAMPLES, TOOLS, called
from checks.cases.searches import CoreRow, choices_of_book, core_point, prices_of, winning

from cca_tools.data.bids import read_bids, read_frame
from cca_tools.data.numbers import fraction_of
from cca_tools.data.prices import price
from cca_tools.data.raw import Sold
from cca_tools.data.references import REFERENCES, nearest_to
from cca_tools.rules.book import Book, book_text
from cca_tools.rules.program import program
from cca_tools.rules.types import Gross
from cca_tools.pricing.best import best_value, has_tie

Package = tuple[int, int]
Bids = dict[str, dict[Package, Decimal]]
WAIT = 3600.0

# Books against an enumeration.


def drawn_book(draw: random.Random) -> Book:
    """A small book; its amounts are small too, so that there are ties."""
    supply = tuple(draw.randint(1, 2) for _ in range(draw.randint(2, 3)))
    reserves = tuple(draw.randint(0, 2) for _ in supply)
    packages = [it for it in itertools.product(*(range(count + 1) for count in supply)) if any(it)]
    bids = []
    for _ in range(draw.randint(2, 4)):
        some = sorted(draw.sample(packages, min(len(packages), draw.randint(1, 3))))
        bids.append([(it, Gross(sum(map(int.__mul__, it, reserves)) + draw.randint(0, 20))) for it in some])
    return Book(supply, reserves, [f"b{j}" for j, _ in enumerate(bids)], bids)


class Enumerated:
    """A book by going through all of its choices and all coalitions of winners."""

    def __init__(self, book: Book) -> None:
        self.book, self.choices = book, list(choices_of_book(book.supply, book.reserves, book.bids))
        self.first, self.most = winning(self.choices)
        self.winners = [j for j, number in enumerate(self.first) if number]
        self.own = {j: book.net[j][self.first[j] - 1] for j in self.winners}
        self.reserve = {j: book.reserve(book.bids[j][self.first[j] - 1][0]) for j in self.winners}

    def is_tied(self) -> bool:
        """Whether several choices have the greatest value."""
        return sum(value == self.most for _, value in self.choices) > 1

    def prices(self) -> list[list[str | Fraction]]:
        """Each bidder with its package, its bid, its Vickrey price and its price, gross."""
        own = [self.own.get(j, 0) for j in range(self.book.bidders)]
        priced = prices_of(self.choices, own, [1] * self.book.bidders)
        found = {j: (Fraction(vickrey), pays) for j, vickrey, pays in priced}
        rows: list[list[str | Fraction]] = []
        for j, name in enumerate(self.book.names):
            if j not in found:
                rows.append([name, "", Fraction(0), Fraction(0), Fraction(0)])
                continue
            package, bid = self.book.bids[j][self.first[j] - 1]
            gross = [Fraction(bid), *(part + self.reserve[j] for part in found[j])]
            rows.append([name, " ".join(map(str, package)), *gross])
        return rows

    def nearest(self, reference: str) -> dict[int, Fraction]:
        """What the winners pay, net, at the core prices of least sum that are nearest to a point of reference."""
        rows: list[CoreRow] = []
        for members in (
            it for size in range(1, len(self.winners) + 1) for it in itertools.combinations(self.winners, size)
        ):
            most = max(value for choice, value in self.choices if not any(choice[j] for j in members))
            bound = most - self.most + sum(self.own[j] for j in members)
            rows.append(([int(j in members) for j in self.winners], bound))
        point = [{"zero": -self.reserve[j], "reserve": 0, "bids": self.own[j]}[reference] for j in self.winners]
        return dict(zip(self.winners, core_point(rows, point, [1] * len(self.winners))))


def book_faults(book: Book, folder: str) -> Iterator[str]:
    """What differs between a book's prices and its enumeration."""
    known, name = Enumerated(book), os.path.join(folder, "book")
    pathlib.Path(name).write_bytes(book_text(book))
    printed, status, said = called("prices", name)
    rows = list(csv.DictReader(io.StringIO(printed)))
    cells = [
        [row["bidder"], row["package"], *(fraction_of(row[it]) for it in ("bid", "vickrey", "price"))] for row in rows
    ]
    if (status, said, cells) != (0, "", known.prices()):
        yield f"tools/prices prints {printed}{said}, and the enumeration has {known.prices()}"
    if best_value(book) != known.most:
        yield f"the greatest value is {best_value(book)}, and of all choices {known.most}"
    if has_tie(book) != known.is_tied():
        yield f"a tie: {has_tie(book)}, and by all choices {known.is_tied()}"
    path, prices = program(), price(book)
    assert path is not None
    for reference in REFERENCES:
        found = nearest_to(book, prices, reference, path)
        paid = {j: row.pays_net for j, row in enumerate(found.rows) if row.package}
        if paid != known.nearest(reference):
            yield f"nearest to {reference}: {paid}, and by the enumeration {known.nearest(reference)}"


# Tables in other spellings.


def drawn_bids(draw: random.Random) -> Bids:
    """Bids of two or three bidders for packages of two categories; some amounts decide the decimal mark."""
    packages = [it for it in itertools.product(range(4), range(3)) if any(it)]
    names = draw.sample(["North Tel", "Süd", "Öst AG", "b 7", "west", "Île"], draw.randint(2, 3))
    bids: Bids = {}
    for name in names:
        some = draw.sample(packages, draw.randint(1, 5))
        bids[name] = {it: Decimal(draw.choice([100_000, 1_000, 48_000, 250, 7])) * draw.randint(1, 30) for it in some}
    first = next(iter(bids[names[0]]))
    bids[names[0]][first] = Decimal(draw.randint(1_000_000, 9_999_999)) / 100 + Decimal("0.01")
    return bids


def rows_of(bids: Bids) -> list[tuple[str, int, int, Decimal]]:
    """The bids as rows."""
    return [(name, *package, amount) for name, of_one in bids.items() for package, amount in of_one.items()]


def sorted_bids(bids: Bids) -> list[list[tuple[Package, Decimal]]]:
    """The bids of each bidder in the order of packages, as a book has them."""
    return [sorted(of_one.items()) for of_one in bids.values()]


def csv_of(
    rows: Sequence[Sequence[object]], heads: Sequence[str], delimiter: str, quoting: int, mark: str = ""
) -> bytes:
    """Rows as CSV with these heads; lines end as on Windows."""
    out = io.StringIO()
    writer = csv.writer(out, delimiter=delimiter, quoting=quoting)
    writer.writerow(heads)
    writer.writerows(rows)
    return f"{mark}{out.getvalue()}".encode()


def spreadsheet(bids: Bids, delimiter: str, thousands: str, decimal: str) -> bytes:
    """A table of a spreadsheet, with a byte order mark and thousands apart."""
    marks = str.maketrans(",.", thousands + decimal)
    rows = [[name, low, high, f"{amount:,.2f}".translate(marks)] for name, low, high, amount in rows_of(bids)]
    return csv_of(rows, ["Bidder", "Low", "High", "Amount"], delimiter, csv.QUOTE_MINIMAL, "\ufeff")


def number_of_r(amount: Decimal) -> str:
    """A number as R prints it with 15 digits: with an exponent if that is shorter."""
    fixed = f"{amount.normalize():f}"
    digits = amount.normalize().as_tuple().digits
    mantissa = f"{digits[0]}{'.' if len(digits) > 1 else ''}{''.join(map(str, digits[1:]))}"
    scientific = f"{mantissa}e+{amount.adjusted():02d}"
    return scientific if len(scientific) < len(fixed) else fixed


def r_table(bids: Bids) -> bytes:
    """What R's write.csv makes of a frame: names of rows, quoted texts, and exponents."""
    lines = ['"","bidder","low","high","amount"']
    for at, (name, low, high, amount) in enumerate(rows_of(bids), 1):
        lines.append(f'"{at}","{name}",{low},{high},{number_of_r(amount)}')
    return "\n".join([*lines, ""]).encode()


def pandas_tables(bids: Bids) -> dict[str, bytes]:
    """What pandas makes of a frame: CSV with its index, counts that became floats, and records of JSON."""
    import pandas

    frame = pandas.DataFrame(rows_of(bids), columns=["bidder", "low", "high", "amount"])
    frame["amount"] = frame["amount"].astype(float)
    floats = frame.astype({"low": float, "high": float})
    return {
        "pandas, CSV": frame.to_csv().encode(),
        "pandas, floats": floats.to_csv(index=False).encode(),
        "pandas, records": frame.to_json(orient="records").encode(),
    }


SPREADSHEETS = {
    "Excel, Germany": (";", ".", ","),
    "Excel, France": (";", "\u202f", ","),
    "Excel, United Kingdom": (",", ",", "."),
}


def table_faults(bids: Bids) -> Iterator[str]:
    """What differs between the books of a table in all spellings."""
    sold = Sold((3, 2), names=("low", "high"))
    texts = {name: spreadsheet(bids, *marks) for name, marks in SPREADSHEETS.items()}
    texts |= {"R": r_table(bids), **pandas_tables(bids)}
    amounts = sorted_bids(bids)
    for name, text in texts.items():
        made = read_bids(text, sold)
        found = [[(package, Decimal(amount) / made.scale) for package, amount in of_one] for of_one in made.book.bids]
        if found != amounts:
            yield f"{name}: {text!r} is read as {found}"


def frame_faults(bids: Bids) -> Iterator[str]:
    """What differs if a frame of pandas is read directly."""
    import pandas

    frame = pandas.DataFrame(rows_of(bids), columns=["bidder", "low", "high", "amount"]).astype({"amount": float})
    made = read_frame(frame, Sold((3, 2), names=("low", "high")))
    found = [[(package, Decimal(amount) / made.scale) for package, amount in of_one] for of_one in made.book.bids]
    if found != sorted_bids(bids):
        yield f"a frame is read as {found}"


# Studies on workers of Dask.


class Cluster:
    """A scheduler of Dask and workers, each with its own program."""

    def __init__(self, folder: pathlib.Path, name: str, programs: Sequence[str]) -> None:
        self.where = folder / f"{name}.json"
        words = ["--scheduler-file", str(self.where), "--no-dashboard", "--host", "127.0.0.1"]
        worker = ["distributed.cli.dask_worker", "--no-nanny", "--nthreads", "1", *words]
        self.scheduler = self.started(folder, ["distributed.cli.dask_scheduler", "--port", "0", *words], {})
        self.workers = [self.started(folder, worker, {"CCA_PROGRAM": it}) for it in programs]

    @staticmethod
    def started(folder: pathlib.Path, words: Sequence[str], variables: dict[str, str]) -> subprocess.Popen[bytes]:
        """A process that finds the package only through the study."""
        env = {name: it for name, it in os.environ.items() if name != "PYTHONPATH"} | variables
        quiet = subprocess.DEVNULL
        return subprocess.Popen([sys.executable, "-m", *words], cwd=folder, env=env, stdout=quiet, stderr=quiet)

    def address(self) -> str:
        """The address of the scheduler, once it is there."""
        end = time.monotonic() + WAIT
        while time.monotonic() < end:
            with contextlib.suppress(OSError, ValueError):
                return str(json.loads(self.where.read_text())["address"])
            time.sleep(0.1)
        raise AssertionError("the scheduler doesn't start")

    def end(self) -> None:
        """Ends what is left."""
        for process in [*self.workers, self.scheduler]:
            process.kill()
            process.wait()


def study(folder: pathlib.Path, out: str, *more: str) -> subprocess.Popen[str]:
    """A study that runs."""
    words = [sys.executable, os.path.join(TOOLS, "study"), str(folder / "p.plan"), "--out", str(folder / out), *more]
    return subprocess.Popen(words, stdout=subprocess.DEVNULL, stderr=subprocess.PIPE, text=True)


def wait_until(is_done: Callable[[], bool], running: subprocess.Popen[str]) -> None:
    """Waits until something is so, as long as a study runs."""
    end = time.monotonic() + WAIT
    while time.monotonic() < end and running.poll() is None and not is_done():
        time.sleep(0.05)


def kept(folder: pathlib.Path) -> int:
    """How many rows a study has."""
    path = folder / "rows.jsonl"
    return max(0, path.read_bytes().count(b"\n") - 1) if path.exists() else 0


def dask_faults(folder: pathlib.Path, auctions: int) -> Iterator[str]:
    """What differs between a study on workers that are killed and one on this machine."""
    for end in ("award", "values"):
        (folder / f"local-global.{end}").write_bytes(pathlib.Path(EXAMPLES, f"local-global.{end}").read_bytes())
    text = pathlib.Path(EXAMPLES, "local-global.plan").read_text()
    text = text.replace("auctions = 1620", f"auctions = {auctions // 2}").replace("[0, 86, 172, 258, 343]", "[0, 172]")
    (folder / "p.plan").write_text(text)
    path, other = os.path.abspath(program() or ""), folder / "other"
    other.write_bytes(pathlib.Path(path).read_bytes() + b"\n")
    other.chmod(0o755)
    with study(folder, "alone") as alone:
        yield from cluster_faults(folder, auctions, path, str(other))
        alone.communicate()
    for name in ("table.csv", "bidders.csv", "page.html"):
        made = [folder / out / name for out in ("dask", "alone")]
        if not all(it.exists() for it in made) or made[0].read_bytes() != made[1].read_bytes():
            yield f"{name} differs"


def cluster_faults(folder: pathlib.Path, auctions: int, path: str, other: str) -> Iterator[str]:
    """What is wrong with a study on three workers. One of them and then their scheduler is killed. The study goes on
    with three others, and two of these can't run it."""
    out, first = folder / "dask", Cluster(folder, "first", [path, path, path])
    try:
        with study(folder, "dask", "--scheduler", first.address()) as running:
            wait_until(lambda: kept(out) > auctions // 4, running)
            first.workers[0].kill()
            wait_until(lambda: kept(out) > auctions // 2, running)
            first.scheduler.kill()
            _, said = running.communicate()
            if running.returncode != 70 or "is gone" not in said:
                yield f"without its scheduler the study ends with {running.returncode}: {said}"
            print(
                f"{kept(out)} rows when the scheduler was killed: {said.splitlines()[-1] if said else ''}", flush=True
            )
    finally:
        first.end()
    second = Cluster(folder, "second", [path, other, "/nowhere/cca"])
    try:
        with study(folder, "dask", "--scheduler", second.address()) as running:
            _, said = running.communicate()
            if running.returncode != 0:
                yield f"the study ends with {running.returncode}: {said}"
            left_out = [line for line in said.splitlines() if "is left out" in line]
            print("\n".join(left_out or ["no worker was left out"]), flush=True)
    finally:
        second.end()


def told(kind: str, found: Sequence[str]) -> int:
    """Prints what differs."""
    for fault in found:
        print(f"{kind}: {fault}")
    return len(found)


def main(books: int, tables: int, auctions: int, seed: int) -> int:
    build_cca()
    draw, wrong = random.Random(seed), 0
    with tempfile.TemporaryDirectory() as name:
        tied = 0
        for _ in range(books):
            book = drawn_book(draw)
            tied += has_tie(book)
            wrong += told("book", list(book_faults(book, name)))
        print(f"{books} books, {tied} with ties", flush=True)
        spellings = 0
        for _ in range(tables):
            bids = drawn_bids(draw)
            wrong += told("table", [*table_faults(bids), *frame_faults(bids)])
            spellings += len(SPREADSHEETS) + 5
        print(f"{tables} tables, {spellings} spellings", flush=True)
        if auctions:
            wrong += told("auctions", list(dask_faults(pathlib.Path(name), auctions)))
        print(f"{auctions} auctions\n{books + tables + auctions} compared, {wrong} differ")
    return 1 if wrong else 0
