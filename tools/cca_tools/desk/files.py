"""Texts and files that are given out: the announcement of a close, the views of all bidders, the protocol, and the
lines that a cut took away."""

from __future__ import annotations

import contextlib
import io
import zipfile
from collections.abc import Iterator

from cca_tools.commands.journal import protocol as protocol_of
from cca_tools.desk.control import Close, Desk, Moment, closes_of
from cca_tools.desk.disk import Refused, read_file
from cca_tools.desk.faults import whole_lines
from cca_tools.page.words import number
from cca_tools.rules.auction import Auction
from cca_tools.rules.view import view_text


def close_sentences(auction: Auction, close: Close) -> Iterator[str]:
    """What a close did, in sentences."""
    if close.reply.word == "round":
        yield f"Round {close.number} is closed. Round {number(close.reply.numbers[0])} is open."
    elif close.reply.word == "sealed":
        yield f"Round {close.number} is closed, and the clock has ended. Lists are taken."
    else:
        yield "The auction is closed."


def price_lines(desk: Desk, auction: Auction, close: Close, with_demand: bool) -> Iterator[str]:
    """The prices that a close posted, and what was asked for in the round that it closed."""
    names = [desk.names.category(it.name) for it in desk.award.categories]
    if close.reply.word == "round":
        yield f"{desk.speech.caption('Posted prices of a lot')}:"
        yield from (f"  {name}: {number(price)}" for name, price in zip(names, close.reply.numbers[1:]))
    if with_demand and close.number <= len(auction.rounds):
        yield f"Lots asked for in round {close.number}:"
        demand = auction.rounds[close.number - 1].demand
        rows = zip(names, demand, auction.award.supply)
        yield from (f"  {name}: {asked} of {sold}" for name, asked, sold in rows)


def announcement(desk: Desk, moment: Moment, record: int, with_demand: bool) -> str:
    """The text for all bidders about the close in this record; empty if the record isn't one."""
    close = next((it for it in closes_of(moment.data, moment.auction) if it.record == record), None)
    row = desk.row_of(close.number) if close else None
    if close is None or row is None:
        return ""
    lines = [
        desk.names.title or "The auction",
        "",
        *close_sentences(moment.auction, close),
        *price_lines(desk, moment.auction, close, with_demand),
        "",
        "The posted line. Note it:",
        f"  {row.text()}",
    ]
    return "\n".join(lines) + "\n"


def views_zip(desk: Desk, moment: Moment, with_demand: bool) -> bytes:
    """The view of each bidder as a file, and the announcement of the last close."""
    data = io.BytesIO()
    closes = closes_of(moment.data, moment.auction)
    with zipfile.ZipFile(data, "w", zipfile.ZIP_DEFLATED) as file:
        for j, name in enumerate(desk.award.names, 1):
            file.writestr(f"{name}.view", view_text(moment.auction, j))
        if closes:
            file.writestr("announcement.txt", announcement(desk, moment, closes[-1].record, with_demand))
    return data.getvalue()


def protocol(desk: Desk) -> str:
    """The journal as a protocol with lines for signatures. Raises `Refused`."""
    return protocol_of(desk.log.journal_data())


def cut_lines(desk: Desk, moment: Moment) -> str:
    """The lines of the open round, or of the lists, that the last cut took away, if nothing was written after it."""
    kept = desk.log.last_cut()
    if kept is None:
        return ""
    found = list[bytes]()
    with contextlib.suppress(Refused):
        data = whole_lines(read_file(kept))
        if not data.startswith(moment.data):
            return ""
        for line in data[len(moment.data) :].splitlines(True):
            if line.startswith(b"close"):
                break
            found.append(line)
    return b"".join(found).decode("ascii", "replace")
