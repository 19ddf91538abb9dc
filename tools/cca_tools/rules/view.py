"""A bidder's own view of an auction: its own lines, and the closes with what each one posted.

The form is the same as a log's, except for the closes. The third field of a close has the prices that it posted, one
for each category, or `sealed` if it ended the clock, or `closed` if it ended the sealed round.
"""

from __future__ import annotations

import dataclasses
from typing import TYPE_CHECKING

from cca_tools.rules.award import Award
from cca_tools.rules.log import Faulty, Line, Posted, line_of, number_of, read_log
from cca_tools.rules.stops import MOST, RecordSpot, Stop, refused
from cca_tools.rules.types import BidderNumber, Stage

if TYPE_CHECKING:
    from cca_tools.rules.auction import Auction


def posted_of(text: bytes, award: Award) -> Posted:
    """What a close posted, by its third field."""
    if text == b"sealed":
        return "sealed"
    if text == b"closed":
        return "closed"
    size = len(award.categories)
    rule = f"a close of a bidder's own view has a price for each category, here {size}; or sealed, or closed"
    prices = text.split(b" ", size)
    if len(prices) != size:
        raise Faulty("package", text, rule)
    return tuple(number_of(price, MOST["price"], "package", rule) for price in prices)


def view_line_of(number: int, row: int, fields: list[bytes], award: Award) -> Line:
    """The line that a record of a log or of a view states."""
    if len(fields) == 4 and fields[0] == b"close" and fields[2]:
        line = line_of(number, row, [fields[0], fields[1], b"", fields[3]], award)
        return dataclasses.replace(line, posted=posted_of(fields[2], award))
    return line_of(number, row, fields, award)


def fits(line: Line, stage: Stage) -> bool:
    """Whether a close of a view says what a close of the stage can do."""
    return line.posted is not None and (line.posted == "closed") == (stage == "sealed")


def read_log_or_view(data: bytes, award: Award) -> tuple[list[Line], bool]:
    """The lines, and whether they are a view's: some close says in it what it posted."""
    lines = read_log(data, award, view_line_of)
    is_view = any(line.posted is not None for line in lines)
    stage: Stage = "clock"
    for line in lines if is_view else []:
        if line.kind == "close" and not fits(line, stage):
            raise misfit(line)
        if line.posted == "sealed" or line.posted == "closed":
            stage = line.posted
    return lines, is_view


def misfit(line: Line) -> Stop:
    """The stop of a close that says what no close of its stage can do."""
    why = (
        "each close of a bidder's own view says what it posted: prices, sealed where it ended the clock, closed where"
        " it ended the sealed round"
    )
    return refused("log", line.number, why=why, spot=RecordSpot(line.row, close_text(line.posted), "fields", ""))


def close_text(posted: Posted | None) -> str:
    """The record of a close that posted this."""
    return f"close,,{posted if isinstance(posted, str) else ' '.join(map(str, posted or ()))},"


def view_text(auction: Auction, j: BidderNumber) -> str:
    """The view of bidder j, as text."""
    text = []
    for line, reply in zip(auction.lines, auction.replies):
        if line.kind == "close" and reply.is_ok:
            text.append(close_text(reply.posted))
        elif line.kind != "close" and line.bidder == j:
            text.append(record_text(line))
    return "".join(line + "\n" for line in text)


def record_text(line: Line) -> str:
    """The record that states a line."""
    package = " ".join(map(str, line.package))
    return f"{line.kind},{line.name},{package},{line.amount if line.kind == 'draft' else ''}"
