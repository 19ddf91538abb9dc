"""Lists of a bidder as CSV, as a file or pasted: the text of a file, the bids of its rows, and all faults at once, each
by its line of the list.

A file is read in memory. Its name and the type that a browser states for it are ignored.
"""

from __future__ import annotations

import codecs
import contextlib
import csv
import re
from collections.abc import Collection, Mapping, Sequence
from dataclasses import dataclass

from cca_tools.desk.lines import NotLines, amount_of, counts_of
from cca_tools.desk.pasting import Fault, why_not
from cca_tools.page.words import count
from cca_tools.rules.award import Award
from cca_tools.rules.names import LongNames
from cca_tools.rules.printable import clipped
from cca_tools.rules.reasons import counts
from cca_tools.rules.types import BidderNumber, Gross, Package

MOST_FILE, MOST_ROW = 1 << 18, 1_000  # bytes of a file, characters of a row
SEPARATORS = "\t;,"
LINE_END = re.compile(r"\r\n|\r|\n")
SEPARATOR_LINE = re.compile(r'"?sep=(.)"?')
QUOTED = re.compile(r'"[^"]*"')
CONTROL = re.compile(r"[\x00-\x08\x0b\x0c\x0e-\x1f\x7f]")
SAVE = "Save the list as CSV in the spreadsheet, and choose that file."
OTHER_FILES = {
    b"PK\x03\x04": "a workbook (.xlsx or .ods)",
    b"\xd0\xcf\x11\xe0": "a workbook (.xls)",
    b"%PDF": "a PDF",
}


def text_of(data: bytes) -> str:
    """The text of a file. Raises `NotLines`."""
    if not data:
        raise NotLines("The file is empty.", "file")
    for start, kind in OTHER_FILES.items():
        if data.startswith(start):
            raise NotLines(f"The file is {kind}, not CSV. {SAVE}", "file")
    if len(data) > MOST_FILE:
        raise NotLines(f"The file has {len(data):,} bytes, and a list has at most {MOST_FILE:,}.", "file")
    text = decoded(data)
    if found := CONTROL.search(text):
        place = f"its character {found.start() + 1:,} is U+{ord(found[0]):04X}"
        raise NotLines(f"The file isn't plain text: {place}. {SAVE}", "file")
    return text


def decoded(data: bytes) -> str:
    """Text in UTF-16 or UTF-8, or else in Windows-1252, as older spreadsheets write it. Raises `NotLines`."""
    is_wide = data.startswith((codecs.BOM_UTF16_LE, codecs.BOM_UTF16_BE))
    for encoding in ("utf-16",) if is_wide else ("utf-8-sig", "cp1252"):
        with contextlib.suppress(UnicodeDecodeError):
            return data.decode(encoding)
    raise NotLines(f"The file isn't text in UTF-8, UTF-16 or Windows-1252. {SAVE}", "file")


@dataclass(frozen=True)
class Row:
    """A row of a list that is a bid: the number of its line, that line, and the bid."""

    number: int
    text: str
    package: Package
    amount: Gross


@dataclass(frozen=True)
class Sheet:
    """A list as it was handed in: what is before its rows, the rows that are bids, and the faults of the others."""

    head: Sequence[str]
    rows: Sequence[Row]
    faults: Sequence[Fault]

    @property
    def bids(self) -> dict[Package, Gross]:
        """The packages with their amounts, in the order of the list."""
        return {it.package: it.amount for it in self.rows}

    def records(self, bidder: str) -> dict[str, Row]:
        """The rows by the drafts that they become in the log."""
        return {draft_of(bidder, it): it for it in self.rows}

    def lines(self, bidder: str, drafts: Mapping[Package, Gross], is_whole: bool, submits: bool) -> str:
        """The lines of the log: drafts to be dropped if the list is the whole one, then drafts, then a submission."""
        gone = sorted(drafts.keys() - self.bids.keys()) if is_whole else []
        found = [f"drop,{bidder},{counts(package)},\n" for package in gone]
        found += [f"{record}\n" for record in self.records(bidder)]
        return "".join([*found, *([f"submit,{bidder},,\n"] if submits else [])])

    def rest(self, bidder: str, written: Collection[str]) -> str:
        """The rows that aren't among the written lines, with what is before the rows; empty if no row is left."""
        left = {it.number: it.text for record, it in self.records(bidder).items() if record not in written}
        left |= {it.row: it.text for it in self.faults}
        return "".join(f"{it}\n" for it in [*self.head, *(left[row] for row in sorted(left))]) if left else ""


def draft_of(bidder: str, row: Row) -> str:
    """The line of the log that a row becomes."""
    return f"draft,{bidder},{counts(row.package)},{row.amount}"


def separator_of(rows: Sequence[str]) -> str:
    """The separator of a table: the one that its first line names, or the first of tab, semicolon and comma that it has
    outside of quotes."""
    if named := SEPARATOR_LINE.fullmatch(rows[0]):
        return named[1]
    bare = QUOTED.sub("", "\n".join(rows))
    return next((it for it in SEPARATORS if it in bare), ",")


def cells_of(text: str, separator: str) -> list[str]:
    """The cells of a row, without spaces around them and without empty ones at its end. Raises `NotLines`."""
    if len(text) > MOST_ROW:
        raise NotLines(f"a row has at most {MOST_ROW:,} characters, and this one has {len(text):,}.")
    try:
        (cells,) = csv.reader([text], delimiter=separator, strict=True)
    except csv.Error:
        raise NotLines("a quote isn't closed in this line, or more follows after a closing one.") from None
    cells = [it.strip() for it in cells]
    while len(cells) > 1 and not cells[-1]:
        cells.pop()
    return cells


def places_of(award: Award, names: LongNames) -> dict[str, int]:
    """The place of each category by its short and its long name, without capitals."""
    short = {it.name.casefold(): place for place, it in enumerate(award.categories)}
    return {**{names.category(it.name).casefold(): place for place, it in enumerate(award.categories)}, **short}


def is_head(cells: Sequence[str], award: Award, names: LongNames) -> bool:
    """Whether a row is a head: each cell has letters, and one of two cells that names no category has no digit."""
    if not all(re.search(r"[^\W\d_]", it) for it in cells):
        return False
    return len(cells) != 2 or cells[0].casefold() in places_of(award, names) or not re.search(r"\d", "".join(cells))


def order_of(head: Sequence[str], award: Award, names: LongNames) -> list[int]:
    """Which category each column of a head is of; the last column has the amounts. Raises `NotLines`."""
    known = places_of(award, names)
    if len(head) == 2 and head[0].casefold() not in known:
        return []
    unknown = [it for it in head[:-1] if it.casefold() not in known]
    if unknown:
        raise NotLines(f"The head names `{clipped(unknown[0])}`, which is no category of the award.", "list")
    order = [known[it.casefold()] for it in head[:-1]]
    if sorted(order) != list(range(len(award.categories))):
        raise NotLines("The head has to name each category once, and then the amounts.", "list")
    return order


def package_of(cells: Sequence[str], order: Sequence[int], width: int) -> Package:
    """The package of a row. Raises `NotLines`."""
    if len(cells) != width + 1 and (len(cells) != 2 or order):
        raise NotLines(
            f"a row has a package and an amount, or a column for each of the {width} categories and an amount; this one"
            f" has {count(len(cells), 'column')}."
        )
    numbers = [it for cell in cells[:-1] for it in counts_of(cell).split(" ")]
    if len(numbers) != width:
        has, wanted = count(len(numbers), "count"), count(width, "category", "categories")
        raise NotLines(f"the package has {has}, and the award has {wanted}.")
    placed = dict(zip(order or range(width), map(int, numbers)))
    return tuple(placed[it] for it in range(width))


def row_of(number: int, text: str, cells: Sequence[str], order: Sequence[int], award: Award) -> Row:
    """A row that is a bid. Raises `NotLines`."""
    package = package_of(cells, order, len(award.categories))
    row = Row(number, text, package, Gross(int(amount_of(cells[-1]))))
    if why := why_not(draft_of(award.names[0], row), award, False):
        raise NotLines(why)
    return row


@dataclass(frozen=True)
class Head:
    """What is before the rows of a list: its lines except for blank ones, which category each column is of (empty if no
    head says it), the separator, and how many lines that takes."""

    lines: Sequence[str]
    order: Sequence[int]
    separator: str
    length: int


def head_of(texts: Sequence[str], award: Award, names: LongNames) -> Head:
    """What is before the rows of a list. Raises `NotLines` for a wrong head."""
    separator, begin = separator_of(texts), int(bool(SEPARATOR_LINE.fullmatch(texts[0])))
    blank = f"{separator} \t"
    at = next((place for place, it in enumerate(texts) if place >= begin and it.strip(blank)), begin)
    first, plain = "".join(texts[at : at + 1]), Head(texts[:begin], [], separator, begin)
    try:
        cells = cells_of(first, separator)
    except NotLines:  # (its row says so)
        return plain
    if not any(cells) or not is_head(cells, award, names):
        return plain
    return Head([*texts[:begin], first], order_of(cells, award, names), separator, at + 1)


def sheet_of(text: str, award: Award, names: LongNames) -> Sheet:
    """Reads a list as a spreadsheet writes it: separated by tabs, semicolons or commas, with or without a head, and
    with thousands set off or not. Raises `NotLines` for a wrong head, and for a list without rows."""
    texts = LINE_END.split(text.removeprefix("\ufeff"))
    head, rows, faults = head_of(texts, award, names), list[Row](), list[Fault]()
    for number, line in enumerate(texts[head.length :], head.length + 1):
        try:
            cells = cells_of(line, head.separator)
            if any(cells):
                rows.append(another_row(rows, row_of(number, line, cells, head.order, award)))
        except NotLines as fault:
            faults.append(Fault(number, line, str(fault)))
    if not rows and not faults:
        raise NotLines("The list has no row with a package and an amount.", "list")
    return Sheet(head.lines, rows, faults)


def another_row(rows: Sequence[Row], row: Row) -> Row:
    """A row whose package no row before it has. Raises `NotLines`."""
    if before := next((it for it in rows if it.package == row.package), None):
        raise NotLines(f"the package {counts(row.package)} is in line {before.number} already.")
    return row


@dataclass(frozen=True)
class Handed:
    """A list that a bidder has handed in: whether it is the whole one, and whether the bidder submits it. A list with
    faults in some rows is neither: its other rows only become drafts."""

    bidder: str
    sheet: Sheet
    is_whole: bool
    submits: bool

    def lines(self, drafts: Mapping[Package, Gross]) -> str:
        """The lines of the log."""
        has_all = not self.sheet.faults
        return self.sheet.lines(self.bidder, drafts, self.is_whole and has_all, self.submits and has_all)

    def place(self, record: str) -> str:
        """The place of a log's line in the list."""
        row = self.sheet.records(self.bidder).get(record)
        return f"Line {row.number}, `{clipped(row.text)}`," if row else f"`{record}`"

    def rest(self, written: bytes) -> str:
        """The rows that aren't among the written lines."""
        return self.sheet.rest(self.bidder, written.decode().splitlines())


def bidder_in(award: Award, name: str) -> BidderNumber:
    """The number of the bidder that a list is of. Raises `NotLines`."""
    if number := award.number_of(name):
        return number
    raise NotLines("Choose the bidder of the list.", "bidder-list")
