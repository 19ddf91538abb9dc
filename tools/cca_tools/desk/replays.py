"""What the logs of a journal lead to by the second program: a log grows, is cut, and grows again."""

from __future__ import annotations

import contextlib
from collections.abc import Mapping, Sequence
from dataclasses import dataclass, replace
from typing import NamedTuple

from cca_tools.rules.auction import Auction, replay
from cca_tools.rules.award import Award
from cca_tools.rules.log import MARK, read_log
from cca_tools.rules.seals import closed_lengths, line_ends
from cca_tools.rules.stops import MOST, Stop, refused, within

MOST_MARKS = 64


@dataclass(frozen=True)
class Replayed:
    """A log: the bytes up to and with each admitted close, whether the last one ends the auction, and the reply to the
    record that begins in each line, by the line's number in an editor."""

    closes: Sequence[int]
    is_over: bool
    replies: Mapping[int, str]


def replayed_log(award: Award, log: bytes) -> Replayed:
    """What the second program finds in a log. Raises `Stop` if it isn't one."""
    auction = replay(award, read_log(log, award))
    replies = {line.row: reply.text() for line, reply in zip(auction.lines, auction.replies)}
    return Replayed(closed_lengths(log, auction), auction.stage == "closed", replies)


class Mark(NamedTuple):
    """Whole lines at the beginning of a log: how many bytes, lines and records they are, their closes, and the auction
    that they lead to, without its lines."""

    length: int
    rows: int
    records: int
    closes: Sequence[int]
    auction: Auction


class Replays:
    """Replays each log of a journal from a place before the cut, so that many cuts of a long log cost little."""

    def __init__(self, award: Award) -> None:
        self.award, self.marks = award, [Mark(0, 0, 0, (), Auction(award))]

    def replayed(self, log: bytearray, start: int) -> Replayed:
        """What a log leads to; the next log begins with the first `start` bytes of this one. The result has the replies
        to all lines that the last log didn't have, and may lack others. Raises `Stop` if it isn't a log.
        """
        try:
            parts = [self.part(log, end) for end in [*self.places(log, start), len(log)]]
            replies = {row: reply for part in parts for row, reply in part.replies.items()}
            found = replace(parts[-1], replies=replies)
        except Stop:
            found = replayed_log(self.award, bytes(log))
        self.marks = [it for it in self.marks if it.length <= start]
        with contextlib.suppress(Stop):
            for end in self.places(log, start):
                self.part(log, end)
        del self.marks[1:-MOST_MARKS]
        return found

    def places(self, log: bytearray, start: int) -> list[int]:
        """Ends of lines after the last mark and up to a byte, each half as far from it as the one before, so that a log
        that is cut line by line isn't replayed from its beginning each time."""
        found, first = list[int](), self.marks[-1].length
        rest = start - first
        while rest > 0:
            rest //= 2
            end = log.rfind(b"\n", first, start - rest) + 1
            if end > (found[-1] if found else first):
                found.append(end)
        return found

    def part(self, log: bytearray, end: int) -> Replayed:
        """What a log leads to up to a byte, with the replies to the lines after the last mark. Whole lines get a mark.
        Raises `Stop` if these aren't lines by themselves."""
        mark = self.marks[-1]
        data = bytes(log[mark.length : end])
        if mark.length and data.startswith(MARK):
            raise refused("log")
        auction, lines = mark.auction.copied(), read_log(data, self.award)
        within("records", mark.records + len(lines), MOST["records"])
        for line in lines:
            auction.take(line)
        closes = [*mark.closes, *(mark.length + it for it in closed_lengths(data, auction))]
        replies = {mark.rows + line.row: reply.text() for line, reply in zip(lines, auction.replies)}
        auction.lines, auction.replies = [], []
        if data.endswith(b"\n"):
            rows = mark.rows + len(line_ends(data))
            self.marks.append(Mark(end, rows, mark.records + len(lines), closes, auction))
        return Replayed(closes, auction.stage == "closed", replies)
