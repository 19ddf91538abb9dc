"""Bids of a table: which of its columns is what, and the bid of each row."""

from __future__ import annotations

import csv
import io
import re
from collections.abc import Iterator, Sequence
from dataclasses import dataclass
from decimal import Decimal
from typing import TypeAlias

from cca_tools.data.numbers import MARKS, Mark, amount_of, currency_of
from cca_tools.data.raw import MOST_DIGITS, RawBid, Sold, fault, listed
from cca_tools.rules.printable import clipped
from cca_tools.rules.types import Package

BIDDER, PACKAGE, AMOUNT = ("bidder", "name"), ("package", "lots", "counts"), ("amount", "bid", "value")
BETWEEN = re.compile(r"[\s\-/|x;,]+")
# A count, which pandas writes as 1.0 in a column that had an empty cell.
COUNT = re.compile(r"([0-9]+)([.,]0{1,2})?")
NUMBERED = re.compile(r"([a-z_ ]*)([0-9]+)")
SEPARATOR = re.compile(r"sep=([;,\t])\r?\n", re.I)
MARK_NAMES = {".": "a point", ",": "a comma"}
# A cell: a text, or a number of JSON or of a frame.
Cell: TypeAlias = str | Decimal


@dataclass(frozen=True)
class Row:
    """A row of a table: its place, such as `row 3`, and its cells."""

    place: str
    cells: Sequence[Cell]


# Rows of CSV.


def table_of(data: bytes) -> list[Row]:
    """The rows of CSV, cells without spaces around them; between them is a tab, `;` or `,`."""
    try:
        text = data.decode("utf-8-sig")
    except UnicodeDecodeError as what:
        fault(f"the table isn't UTF-8 from its byte {what.start} on; save it as `CSV UTF-8`")
    separator = SEPARATOR.match(text)
    first = re.sub('"[^"]*"', "", text.partition("\n")[0])
    delimiter = separator[1] if separator else next((mark for mark in "\t;," if mark in first), ",")
    reader = csv.reader(io.StringIO(text, newline=""), delimiter=delimiter)
    try:
        rows = [Row(f"row {reader.line_num}", [cell.strip() for cell in row]) for row in reader]
    except csv.Error as what:
        fault(f"row {reader.line_num} isn't CSV: {what}")
    rows = [row for row in rows[1 if separator else 0 :] if any(row.cells)]
    if rows and len(rows[0].cells) == 1:
        fault(f"{rows[0].place} has one cell alone; a comma, a semicolon or a tab has to be between the columns")
    return rows


def with_row_names(rows: list[Row]) -> list[Row]:
    """The rows with an empty head for the column of row names, since R's `write.table` writes none: 1, 2 and so on
    before a column of names that aren't numbers."""
    head, *others = rows
    numbers = [str(number) for number, _ in enumerate(others, 1)]
    if not others or any(len(row.cells) != len(head.cells) + 1 for row in others):
        return rows
    if [row.cells[0] for row in others] != numbers or all(str(row.cells[1]).isdigit() for row in others):
        return rows
    return [Row(head.place, ["", *head.cells]), *others]


# Which column is what.


@dataclass(frozen=True)
class Columns:
    """The places of the bidder, of the amount, and of the package or of its counts, and the heads, if there are any."""

    bidder: int
    amount: int
    counts: tuple[int, ...]
    heads: tuple[str, ...] = ()
    is_packed: bool = False  # whether one cell has all counts

    def name(self, at: int) -> str:
        """A column in words."""
        return f"the column `{clipped(self.heads[at])}`" if self.heads else f"column {at + 1}"


def is_head(cells: Sequence[Cell], mark: Mark) -> bool:
    """Whether a row has names of columns: one names the column of bidders, and another names the column of amounts or
    the last cell isn't an amount."""
    names = [cell.lower() for cell in cells if isinstance(cell, str)]
    has_amount = any(name in AMOUNT for name in names) or value_of(cells[-1], mark) is None
    return has_amount and any(name in BIDDER for name in names)


def column_of(heads: Sequence[str], names: Sequence[str], what: str) -> int | None:
    """The place of the one head that is among these names; None if there is none."""
    found = [at for at, head in enumerate(heads) if head in names]
    if len(found) > 1:
        fault(f"the columns {listed([heads[at] for at in found])} may each be {what}; leave out all but one")
    return found[0] if found else None


def columns_of(row: Row, sold: Sold, changes: list[str]) -> Columns:
    """The columns by their heads. The columns of an award's categories have its names, and are taken in its order."""
    given = tuple(map(str, row.cells))
    heads = [cell.lower() for cell in given]
    bidder, amount = column_of(heads, BIDDER, "the bidder"), column_of(heads, AMOUNT, "the amount")
    package = column_of(heads, PACKAGE, "the package")
    if bidder is None or amount is None:
        fault(f"the head has no column `{'bidder' if bidder is None else 'amount'}`, and has {', '.join(heads)}")
    others = [at for at, head in enumerate(heads) if at not in (bidder, amount, package)]
    unnamed = [at for at in others if not heads[at]]
    named = [at for at in others if heads[at]]
    if unnamed:
        changes.append(f"left out column {', '.join(str(at + 1) for at in unnamed)}, which has no name")
    counts = [package] if package is not None else counted(heads, named, sold)
    taken_as_counts = set(counts)
    if left := [given[at] for at in named if at not in taken_as_counts]:
        why = "there is a column for the package" if package is not None else "these aren't categories of the award"
        changes.append(f"left out the columns {', '.join(left)}, since {why}")
    columns = Columns(bidder, amount, tuple(counts), given, package is not None)
    if package is None and len(counts) != len(sold.supply):
        names = listed([given[at] for at in counts])
        taken = (
            f"the columns {names} are" if len(counts) > 1 else f"the column {names} is" if counts else "no column is"
        )
        fault(
            f"{taken} taken as counts of lots, and {len(sold.supply)} categories are sold; leave out what is no count"
        )
    return columns


def counted(heads: Sequence[str], places: Sequence[int], sold: Sold) -> list[int]:
    """The columns with counts, in the order of the categories: by the award's names, by numbers as in c1, c2, or as
    they come if no award names the categories."""
    at_number = numbered(heads, places)
    missing = [name for name in sold.names if name not in heads]
    if sold.names and not missing:
        if twice := [name for name in sold.names if heads.count(name) > 1]:
            fault(f"two columns are called {listed(twice[:1])}")
        return [heads.index(name) for name in sold.names]
    if at_number or not sold.names:
        return at_number or list(places)
    others = [heads[at] for at in places if heads[at] not in sold.names]
    fault(
        f"no column is called {listed(missing)}, as the award's categories are; the others are"
        f" {listed(others) or 'none'}. Give these columns the award's names, or the names c1, c2 and so on by its order"
    )


def numbered(heads: Sequence[str], places: Sequence[int]) -> list[int]:
    """The columns by their numbers, if all have one name with the numbers from 1 on; otherwise none."""
    found = {at: NUMBERED.fullmatch(heads[at]) for at in places}
    parts = {at: (match[1], int(match[2])) for at, match in found.items() if match}
    is_all = sorted(number for _, number in parts.values()) == list(range(1, len(places) + 1))
    if not is_all or len({name for name, _ in parts.values()}) != 1:
        return []
    return sorted(places, key=lambda at: parts[at][1])


def columns_by_place(row: Row, sold: Sold) -> Columns:
    """The columns of a table without heads: the bidder, the package or its counts, and the amount."""
    width, size = len(row.cells), len(sold.supply)
    if width not in (3, size + 2):
        fault(
            f"{row.place} has {width} cells; without a head they are the bidder, {size} counts or one cell with them,"
            " and the amount"
        )
    return Columns(0, width - 1, tuple(range(1, width - 1)), is_packed=width == 3)


# The bids of rows.


def value_of(cell: Cell, mark: Mark) -> Decimal | None:
    """The amount of a cell, or None. A number is its own, whatever the decimal mark is."""
    if isinstance(cell, Decimal):
        return cell if cell.is_finite() and cell >= 0 else None
    return amount_of(cell, mark)


def mark_of(cells: Sequence[tuple[str, Cell]], columns: Columns, changes: list[str]) -> Mark:
    """The decimal mark of a column of amounts, each with the place of its row: the one that is the only way to read
    some amount. Stops if amounts have both, or if one would be another number by the other mark and nothing decides."""
    deciding: dict[Mark, str] = {}
    doubtful = ""
    for place, cell in cells:
        point, comma = (value_of(cell, mark) for mark in MARKS)
        if point == comma:
            continue
        if point is None or comma is None:
            deciding.setdefault("," if point is None else ".", f"`{clipped(str(cell))}` in {place}")
        elif not doubtful:
            doubtful = f"{place} has `{clipped(str(cell))}`, which is {point:f} if its decimal mark is a point, and"
            doubtful += f" {comma:f} if that is a comma; say --decimal . or --decimal ,"
    if len(deciding) == 2:
        fault(
            f"{columns.name(columns.amount)} has two decimal marks, a point as {deciding['.']}, and a comma as"
            f" {deciding[',']}"
        )
    if not deciding and doubtful:
        fault(doubtful)
    if "," in deciding:
        changes.append(f"took the comma for the decimal mark, as {deciding[',']} has it")
    return next(iter(deciding), ".")


def need_one_currency(cells: Sequence[tuple[str, Cell]]) -> None:
    """Stops if amounts have several currencies."""
    found: dict[str, str] = {}
    for place, cell in cells:
        if isinstance(cell, str) and (currency := currency_of(cell)):
            found.setdefault(currency, place)
    if len(found) > 1:
        (one, first), (other, second) = [*found.items()][:2]
        fault(f"{first} has an amount in {one}, and {second} one in {other}")


def package_of(row: Row, columns: Columns, size: int) -> Package:
    """The package of a row."""
    parts = [(at, str(row.cells[at])) for at in columns.counts]
    if columns.is_packed:
        ((at, text),) = parts
        parts = [(at, part) for part in BETWEEN.split(text.strip("()[] ")) if part]
        if len(parts) != size:
            what = f"`{clipped(text)}` in {columns.name(at)} as the package"
            fault(f"{row.place} has {what}, which is {size} counts with spaces between them")
    return tuple(count_of(row.place, columns.name(at), part) for at, part in parts)


def count_of(place: str, column: str, text: str) -> int:
    """The count of a cell; an empty one is 0."""
    found = COUNT.fullmatch(text or "0")
    if not found or not text.isascii():
        fault(f"{place} has `{clipped(text)}` in {column} as a count of lots, which is a whole number")
    if len(found[1]) > MOST_DIGITS:
        fault(f"{place} has `{clipped(text)}` as a count, and a count has at most {MOST_DIGITS} digits")
    return int(found[1])


def bid_of(row: Row, columns: Columns, size: int, mark: Mark) -> RawBid:
    """The bid of a row."""
    cell = row.cells[columns.amount]
    amount = value_of(cell, mark)
    if amount is None:
        text = clipped(str(cell))
        other: Mark = "," if mark == "." else "."
        hint = (
            f"; is its decimal mark `{other}`? Then say --decimal {other}" if value_of(cell, other) is not None else ""
        )
        fault(
            f"{row.place} has `{text}` in {columns.name(columns.amount)} as the amount, which has to be a number from"
            f" 0 on, such as 48000.50{hint}"
        )
    if not (bidder := str(row.cells[columns.bidder])):
        fault(f"{row.place} has nothing in {columns.name(columns.bidder)}, which names the bidder")
    return RawBid(row.place, bidder, package_of(row, columns, size), amount)


def bids_of_rows(rows: list[Row], sold: Sold, mark: Mark | None, changes: list[str]) -> Iterator[RawBid]:
    """The bids of rows; the first row may be a head. `mark` is the decimal mark; with None the amounts decide."""
    if not rows:
        fault("the table has no rows")
    has_head = is_head(rows[0].cells, mark or ".")
    if has_head:
        head, *rows = with_row_names(rows)
        width, columns = len(head.cells), columns_of(head, sold, changes)
        if not rows:
            fault("the table has a head and no bids")
    else:
        width, columns = len(rows[0].cells), columns_by_place(rows[0], sold)
    for row in rows:
        if len(row.cells) != width:
            fault(f"{row.place} has {len(row.cells)} cells, and the first row has {width}")
    amounts = [(row.place, row.cells[columns.amount]) for row in rows]
    need_one_currency(amounts)
    known = mark or mark_of(amounts, columns, changes)
    yield from (bid_of(row, columns, len(sold.supply), known) for row in rows)
