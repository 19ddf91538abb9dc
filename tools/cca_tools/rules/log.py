"""The log: records of CSV. Each states one line of the auction.

`read_log` returns the lines, or stops at the first record that states none.
"""

from __future__ import annotations

import dataclasses
import re
from collections.abc import Callable, Iterator
from typing import Literal, TypeAlias, cast, get_args

from cca_tools.rules.award import NAME, Award
from cca_tools.rules.stops import MOST, RecordSpot, refused, within
from cca_tools.rules.types import BidderNumber, Gross, Kind, Package, Prices

MARK = b"\xef\xbb\xbf"
NUMBER = re.compile(rb"0|[1-9][0-9]{0,18}")  # no number of a log has more than 19 digits
BLANK = re.compile(rb"[\r\n]*")
END = re.compile(rb"\r\n|\r|\n")
# A field: quoted, with what comes after its closing quote, or plain. A quote that is never closed takes the rest of the
# text.
FIELD = re.compile(rb'"((?:[^"]+|"")*)(?:"|\Z)([^,\r\n]*)|([^,\r\n]*)')
# A record has four fields. One more is read of a longer one, which is refused whatever follows.
FIELDS = 4
# This much of a faulty record is looked at for its sentence.
MOST_SHOWN = 1000

# What a close posted, in a bidder's own view.
Posted: TypeAlias = Prices | Literal["sealed", "closed"]


@dataclasses.dataclass(frozen=True)
class Line:
    """A line of the auction, as a record states it."""

    number: int  # of the record
    row: int  # of the line in an editor where the record begins
    kind: Kind
    name: str  # "" of a close
    bidder: BidderNumber  # 0 for a stranger, and for a close
    package: Package = ()  # of a bid, a draft and a drop
    amount: Gross = Gross(0)  # of a draft
    posted: Posted | None = None  # of a close in a bidder's own view


LineOf: TypeAlias = Callable[[int, int, list[bytes], Award], Line]


class Faulty(Exception):
    """The field of a record that isn't of its form, what was read there, and the rule that it breaks."""

    def __init__(self, field: str, part: bytes, rule: str) -> None:
        super().__init__(field, part, rule)
        self.field, self.part, self.rule = field, part, rule


class FaultyNumber(Faulty):
    """A faulty field that has to be a number."""


def field_at(data: bytes, at: int) -> tuple[bytes, int]:
    """The field that begins at a byte, and the byte after it."""
    found = FIELD.match(data, at)
    assert found is not None  # a field may be empty
    quoted, after, plain = found.groups()
    return plain if quoted is None else quoted.replace(b'""', b'"') + after, found.end()


def record_at(data: bytes, at: int) -> tuple[list[bytes], int]:
    """The fields of the record that begins at a byte, at most one too many, and the byte after these."""
    field, at = field_at(data, at)
    fields = [field]
    while data[at : at + 1] == b"," and len(fields) <= FIELDS:
        field, at = field_at(data, at + 1)
        fields.append(field)
    return fields, at


def record_end(data: bytes, at: int) -> int:
    """The byte after a record, from one after any of its fields."""
    while data[at : at + 1] == b",":
        _, at = field_at(data, at + 1)
    return at


def records(data: bytes) -> Iterator[tuple[int, bytes, list[bytes]]]:
    """Each record: the line of the text where it begins, its bytes and its fields, both up to one field too many.

    Blank lines are none, and no bytes are refused.
    """
    data = data.removeprefix(MARK)
    at, row = 0, 1
    while True:
        blank = BLANK.match(data, at)
        start = blank.end() if blank else at
        row += len(END.findall(data, at, start))
        if start == len(data):
            return
        fields, at = record_at(data, start)
        yield row, data[start:at], fields
        at = record_end(data, at)
        row += len(END.findall(data, start, at))


def number_of(text: bytes, greatest: int, field: str, rule: str) -> int:
    """The number that a field, or a part of one, states."""
    if not NUMBER.fullmatch(text) or int(text) > greatest:
        raise FaultyNumber(field, text, rule)
    return int(text)


def counts_of(text: bytes, categories: int) -> Package:
    """The package that a field states."""
    counts = text.split(b" ", categories)
    if len(counts) != categories:
        rule = f"a package has a count for each category, here {categories}, with one space between them"
        raise Faulty("package", text, rule)
    rule = f"counts are whole numbers of at most {MOST['count']}"
    return tuple(number_of(count, MOST["count"], "package", rule) for count in counts)


def need_empty(kind: str, **fields: bytes) -> None:
    """Stops at the first of these fields that isn't empty."""
    for name, text in fields.items():
        if text:
            raise Faulty(name, text, f"a {kind} has no {name}")


def amount_of(text: bytes) -> Gross:
    """The amount that a field states."""
    rule = f"an amount is a whole number of at most {MOST['draft amount']}"
    return Gross(number_of(text, MOST["draft amount"], "amount", rule))


def name_of(text: bytes) -> str:
    """The bidder that a field states."""
    name = text.decode("latin-1")
    if not NAME.fullmatch(name):
        raise Faulty("bidder", text, "a name is 1 to 20 of a to z, 0 to 9 and _, a letter first")
    return name


def kind_of(text: bytes) -> Kind:
    """The kind that a field states."""
    kind = text.decode("latin-1")
    if kind not in get_args(Kind):
        raise Faulty("kind", text, "a kind is bid, draft, drop, submit or close")
    return cast(Kind, kind)


def line_of(number: int, row: int, fields: list[bytes], award: Award) -> Line:
    """The line that a record states."""
    if len(fields) != FIELDS:
        has = len(fields) if len(fields) < FIELDS else "more"
        rule = f"a record has four fields, kind, bidder, package and amount, and this one has {has}"
        raise Faulty("fields", b",".join(fields), rule)
    first, bidder, package, amount = fields
    kind = kind_of(first)
    if kind == "close":
        need_empty(kind, bidder=bidder, package=package, amount=amount)
        return Line(number, row, kind, "", 0)
    name = name_of(bidder)
    if kind == "submit":
        need_empty(kind, package=package, amount=amount)
        return Line(number, row, kind, name, award.number_of(name))
    counts = counts_of(package, len(award.categories))
    if kind != "draft":
        need_empty(kind, amount=amount)
    named = amount_of(amount) if kind == "draft" else Gross(0)
    return Line(number, row, kind, name, award.number_of(name), counts, named)


def decoded(text: bytes) -> str:
    """The beginning of what was read, as text."""
    return text[:MOST_SHOWN].decode("utf-8", "replace")


def read_log(data: bytes, award: Award, line_of: LineOf = line_of) -> list[Line]:
    """The lines that the bytes of a log state, each by `line_of`."""
    lines = []
    for number, (row, text, fields) in enumerate(records(data), 1):
        within("records", number, MOST["records"])
        try:
            lines.append(line_of(number, row, fields, award))
        except Faulty as fault:
            is_number = isinstance(fault, FaultyNumber)
            spot = RecordSpot(row, decoded(text), fault.field, decoded(fault.part), is_number)
            raise refused("log", number, why=fault.rule, spot=spot) from None
    return lines
