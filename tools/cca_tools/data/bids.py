"""Bids from a table, from JSON or from a frame, as a book: names are lower-cased, equal packages merged, packages
sorted and decimals scaled. Each change is reported."""

from __future__ import annotations

import csv
import io
import json
import numbers
import operator
import re
import unicodedata
from collections.abc import Iterator, Mapping, Sequence
from dataclasses import dataclass, field
from fractions import Fraction
from decimal import Decimal
from typing import Any, SupportsIndex

from cca_tools.data.jsons import is_json, json_of, of_bids, rows_of, sold_of
from cca_tools.data.numbers import Mark, decimal, decimals_of
from cca_tools.data.raw import RawBid, Sold, fault, listed
from cca_tools.data.tables import bids_of_rows, table_of
from cca_tools.rules.award import NAME
from cca_tools.rules.book import Book, book_text, read_book
from cca_tools.rules.printable import clipped
from cca_tools.rules.stops import MOST, LineSpot, Stop, within
from cca_tools.rules.types import Bid, Gross, Package

LONGEST, MOST_DECIMALS = 20, 9
MISSING = ("None", "nan", "<NA>", "NaT")  # what a frame has in cells without a value


@dataclass
class Made:
    """A book, how many of its units are one of the file's, and what was changed."""

    book: Book
    scale: int
    changes: list[str] = field(default_factory=list)


# To a book.


def plain_name(text: str) -> str:
    """A name of the book's form that is like the given one; letters lose their accents."""
    letters = (it for it in unicodedata.normalize("NFKD", text.casefold()) if not unicodedata.combining(it))
    name = re.sub(r"[^a-z0-9]+", "_", "".join(letters)).strip("_")
    return (name if name[:1].isalpha() else f"b_{name}" if name else "b")[:LONGEST]


def need_one_spelling(bids: Sequence[RawBid]) -> None:
    """Stops if two names differ only in capitals and spaces: they would be two bidders, who can both win."""
    first: dict[str, RawBid] = {}
    for bid in bids:
        known = first.setdefault(" ".join(bid.bidder.casefold().split()), bid)
        if known.bidder != bid.bidder:
            fault(
                f"`{clipped(known.bidder)}` in {known.place} and `{clipped(bid.bidder)}` in {bid.place} differ in"
                " capitals or spaces alone, and would be two bidders; spell one bidder alike, and two so that they"
                " differ more"
            )


def names_of(bids: Sequence[RawBid], changes: list[str]) -> dict[str, str]:
    """For each name of the file, in order, the name in the book."""
    need_one_spelling(bids)
    found: dict[str, str] = {}
    alike: dict[str, list[str]] = {}
    taken: set[str] = set()
    for given in dict.fromkeys(bid.bidder for bid in bids):
        within("bidders", len(found) + 1, MOST["bidders"])
        name = given if NAME.fullmatch(given) else plain_name(given)
        alike.setdefault(plain_name(given), []).append(given)
        number = 1
        while name in taken:
            number += 1
            name = f"{plain_name(given)[: LONGEST - 1 - len(str(number))]}_{number}"
        found[given] = name
        taken.add(name)
        if name != given:
            changes.append(f"`{clipped(given)}` is called {name}")
    for names in alike.values():
        if len(names) > 1:
            numbers = ", ".join(found[name] for name in names)
            changes.append(f"{listed(names)} are {len(names)} bidders, {numbers}; spell them alike if they are one")
    return found


def scale_of(bids: Sequence[RawBid], sold: Sold, changes: list[str]) -> int:
    """By how much amounts are multiplied so that all are whole."""
    for bid in bids:
        if bid.amount > MOST["amount"]:
            fault(f"{bid.place} has an amount above the greatest one, {MOST['amount']}")
    places = max((decimals_of(amount) for amount in [*sold.reserves, *(bid.amount for bid in bids)]), default=0)
    if places > MOST_DECIMALS:
        fault(f"an amount has {places} decimals, and at most {MOST_DECIMALS} are read")
    if places:
        changes.append(
            f"multiplied all amounts and reserves by {10**places}, so that they are whole; `tools/prices --unit"
            f" {10**places}` prints prices in the file's unit"
        )
    return int(10**places)


def merged(bids: Sequence[RawBid], sold: Sold, changes: list[str]) -> Iterator[RawBid]:
    """The bids that a book can have: the greatest of each bidder for each package."""
    best: dict[tuple[str, Package], RawBid] = {}
    for bid in bids:
        words, key = " ".join(map(str, bid.package)), (bid.bidder, bid.package)
        for category, (count, supply) in enumerate(zip(bid.package, sold.supply), 1):
            if count > supply:
                fault(f"{bid.place} asks for {count} lots of category {category}, and {supply} are sold")
        reserve = sum((count * price for count, price in zip(bid.package, sold.reserves)), Decimal(0))
        if not any(bid.package):
            changes.append(f"left out {bid.place}, a bid for a package of nothing")
        elif bid.amount < reserve:
            changes.append(
                f"left out {bid.place}: {bid.amount:f} is below the reserve of {words}, {decimal(Fraction(reserve))}"
            )
        elif key not in best:
            best[key] = bid
        else:
            more, less = (bid, best[key]) if bid.amount > best[key].amount else (best[key], bid)
            changes.append(f"left out {less.place}: {more.place} has {more.amount:f} for {words} of the same bidder")
            best[key] = more
    yield from best.values()


def book_of(bids: Sequence[RawBid], sold: Sold, changes: list[str]) -> Made:
    """The book of bids, within the limits; bidders are in the order of their first bids, which decides ties."""
    names, scale = names_of(bids, changes), scale_of(bids, sold, changes)
    listed: dict[str, list[Bid]] = {name: [] for name in names.values()}
    for bid in merged(bids, sold, changes):
        listed[names[bid.bidder]].append((bid.package, Gross(int(bid.amount * scale))))
    for name, of_one in listed.items():
        if of_one != sorted(of_one):
            changes.append(f"sorted the bids of {name} by their packages")
            of_one.sort()
    reserves = tuple(int(price * scale) for price in sold.reserves)
    book = Book(sold.supply, reserves, list(listed), list(listed.values()))
    try:
        return Made(read_book(book_text(book)), scale, changes)
    except Stop as stop:
        if not isinstance(stop.spot, LineSpot):
            raise
        fault(f"the book would have the line `{stop.spot.read}`: {stop.why}")


def read_bids(data: bytes, sold: Sold | None = None, mark: Mark | None = None) -> Made:
    """The book of bytes that are a table or JSON. What is sold has to be given, unless the JSON says it; `mark` is the
    decimal mark of amounts in a table, which decide it themselves if it is None. A `Stop` names what isn't clear."""
    changes: list[str] = []
    if not is_json(data):
        return book_of(list(bids_of_rows(table_of(data), need_sold(sold), mark, changes)), need_sold(sold), changes)
    found = json_of(data)
    if isinstance(found, list):
        return book_of_records(found, sold, mark)
    if not isinstance(found, dict):
        fault("the JSON is an object with `bids` or a list of records")
    sold = need_sold(sold_of(found, sold))
    return book_of(list(of_bids(found.get("bids"), len(sold.supply), changes)), sold, changes)


def need_sold(sold: Sold | None) -> Sold:
    """What is sold, which something has to state."""
    return sold or fault("nothing says what is sold")


def book_of_records(records: Sequence[object], sold: Sold | None, mark: Mark | None = None) -> Made:
    """The book of records, each with a bidder, a package or its counts, and an amount."""
    changes: list[str] = []
    bids = bids_of_rows(list(rows_of(records)), need_sold(sold), mark, changes)
    return book_of(list(bids), need_sold(sold), changes)


def read_frame(frame: Any, sold: Sold) -> Made:
    """The book of a frame of pandas or polars with a column for the bidder, for each category or for the package, and
    for the amount. Its numbers have the value that is printed for them, and a missing cell is empty."""
    records = frame.to_dict("records") if hasattr(frame, "to_json") else frame.to_dicts()
    return book_of_records([{key: cell_of_frame(it) for key, it in record.items()} for record in records], sold)


def cell_of_frame(value: object) -> object:
    """A cell of a frame as JSON would have it: a missing value is null, and a tuple a list."""
    if isinstance(value, tuple):
        return [plain_number(it) for it in value]
    is_missing = not isinstance(value, str) and str(value) in MISSING
    return None if is_missing else plain_number(value)


def make_book(
    supply: Sequence[int], bids: Mapping[str, Mapping[Package, object]], reserve: Sequence[object] = ()
) -> Made:
    """The book of bids by their bidders and packages, such as `{"north": {(1, 4): 48000.5}}`, by the rules of a file:
    amounts are whole numbers, decimals or floats, and a float has the value that is printed for it. A `Stop` names what
    isn't clear."""
    members: dict[str, object] = {"supply": [plain_number(count) for count in supply]}
    if reserve:
        members["reserve"] = [plain_number(price) for price in reserve]
    sold, changes = need_sold(sold_of(members, None)), list[str]()
    listed_bids = [
        {"bidder": name, "package": [plain_number(count) for count in package], "amount": plain_number(amount)}
        for name, of_one in bids.items()
        for package, amount in of_one.items()
    ]
    return book_of(list(of_bids(listed_bids, len(sold.supply), changes)), sold, changes)


def plain_number(value: object) -> object:
    """A number as JSON would have it, also one of numpy; anything else is as it was."""
    if isinstance(value, bool) or isinstance(value, Decimal):
        return value
    if isinstance(value, SupportsIndex):
        return operator.index(value)
    is_float = isinstance(value, numbers.Real) and not isinstance(value, numbers.Rational)
    return Decimal(str(value)) if is_float else value


# From a book.


def csv_text(book: Book) -> str:
    """The bids of a book as a table with a column for each category."""
    out = io.StringIO()
    writer = csv.writer(out, lineterminator="\n")
    writer.writerow(["bidder", *(f"c{c}" for c, _ in enumerate(book.supply, 1)), "amount"])
    for name, bids in zip(book.names, book.bids):
        writer.writerows([name, *package, amount] for package, amount in bids)
    return out.getvalue().rstrip("\n")


def json_text(book: Book) -> str:
    """A book as JSON, of the form that is read."""
    bids = [
        {"bidder": name, "package": list(package), "amount": amount}
        for name, of_one in zip(book.names, book.bids)
        for package, amount in of_one
    ]
    return json.dumps({"supply": list(book.supply), "reserve": list(book.reserves), "bids": bids})


def values_text(book: Book) -> str:
    """A file of values: each package is worth to its bidder what the bidder bids for it in the book."""
    lines = ["values = 1"]
    for name, bids in zip(book.names, book.bids):
        lines += ["", "[[bidder]]", f'names = "{name}"', 'model = "packages"', "package = ["]
        lines += [f"  {{ lots = {list(package)}, value = {amount} }}," for package, amount in bids]
        lines.append("]")
    return "\n".join(lines)
