"""All lines of the log, by bidder, stage, reply and text."""

from __future__ import annotations

from collections.abc import Iterator, Mapping, Sequence
from dataclasses import dataclass, fields

from cca_tools.desk.control import Desk, Moment
from cca_tools.desk.views import LineView, Option, Times, line_view
from cca_tools.page.words import count, number
from cca_tools.rules.auction import Reply
from cca_tools.rules.log import Line
from cca_tools.rules.seals import line_ends
from cca_tools.rules.view import record_text

MOST = 500  # lines on a page
STRANGERS = "?"


@dataclass(frozen=True)
class Wanted:
    """Which lines are asked for; an empty field asks for all."""

    bidder: str = ""
    part: str = ""  # the number of a round, or `lists`
    reply: str = ""  # `admitted` or `refused`
    text: str = ""
    after: str = ""  # the number of the line after which the page begins

    @staticmethod
    def of(args: Mapping[str, str]) -> Wanted:
        """What the fields of the form ask for."""
        return Wanted(*(args.get(it.name, "") for it in fields(Wanted)))

    def has(self, part: str, line: Line, reply: Reply) -> bool:
        """Whether a line of this part of the log is asked for."""
        is_theirs = not line.bidder and line.kind != "close" if self.bidder == STRANGERS else line.name == self.bidder
        return (
            (not self.bidder or is_theirs)
            and self.part in ("", part)
            and self.reply in ("", "admitted" if reply.is_ok else "refused")
            and self.text.strip().lower() in f"{record_text(line)} {reply.text()}"
        )


@dataclass(frozen=True)
class Found:
    """The lines that were found, the fields of the form, and where the next page begins."""

    words: str
    lines: Sequence[LineView]
    bidders: Sequence[Option]
    parts: Sequence[Option]
    replies: Sequence[Option]
    wanted: Wanted
    after: int


def parts_of(moment: Moment) -> Iterator[str]:
    """For each line the part of the log that it is in: the number of a round, or `lists`."""
    closes, last = 0, moment.auction.final
    for line, reply in zip(moment.auction.lines, moment.auction.replies):
        yield str(closes + 1) if last is None or closes < last else "lists"
        closes += line.kind == "close" and reply.is_ok


def options(values: Mapping[str, str], chosen: str) -> list[Option]:
    """The choices of a field."""
    return [Option(value, label, value == chosen) for value, label in values.items()]


def found_lines(desk: Desk, moment: Moment, wanted: Wanted) -> Found:
    """The lines that are asked for, with the times when they came in."""
    auction, parts = moment.auction, list(parts_of(moment))
    rows = list(zip(auction.lines, auction.replies, parts))
    hits = [(line, reply) for line, reply, part in rows if wanted.has(part, line, reply)]
    start = int(wanted.after) if wanted.after.isascii() and wanted.after.isdecimal() else 0
    shown = [it for it in hits if it[0].number > start][:MOST]
    times, ends = Times(desk.log.answered_at()), line_ends(moment.data)
    lines = [
        line_view(auction.award, line, reply, line.number, times.of(ends[line.row - 1])[0]) for line, reply in shown
    ]
    last = shown[-1][0].number if shown else 0
    names = {name: desk.names.bidder(name) for name in desk.award.names}
    labels = {it: "Lists" if it == "lists" else f"Round {it}" for it in dict.fromkeys(parts)}
    return Found(
        words=f"{count(len(hits), 'line')} of {number(len(rows))}.",
        lines=lines,
        bidders=options({"": "all", **names, STRANGERS: "not of the award"}, wanted.bidder),
        parts=options({"": "all", **labels}, wanted.part),
        replies=options({"": "all", "admitted": "admitted", "refused": "refused"}, wanted.reply),
        wanted=wanted,
        after=last if any(line.number > last for line, _ in hits) and shown else 0,
    )
