"""Every line of the log with its reply in words."""

from __future__ import annotations

from collections.abc import Callable, Iterator, Sequence

from cca_tools.page.document import Card, Cards, Cell, Content, Fold, Section, Table, Tone, Words, columns
from cca_tools.page.source import Source, given
from cca_tools.page.words import Names, commas, count, joined, number, was
from cca_tools.rules.auction import Auction, Reply
from cca_tools.rules.award import dot
from cca_tools.rules.log import Line
from cca_tools.rules.reasons import reason
from cca_tools.rules.sealed import Cap
from cca_tools.rules.view import record_text

HEADS = columns("Line", "What was sent", "Reply")
# Lines with their replies.
Part = list[tuple[Line, Reply]]
# What is shown as the place of a line.
PlaceOf = Callable[[Line], Content]
TOGETHER = 100  # rows of a table, so that a browser can show the first of many at once


def sent(line: Line, names: Names) -> str:
    """What was sent, in words."""
    if line.kind == "close":
        return "The auctioneer closes the round"
    if line.kind == "submit":
        return f"{line.name} submits its list"
    package = names.package(line.package)
    if line.kind == "bid":
        return f"{line.name} asks for {package}"
    if line.kind == "draft":
        return f"{line.name} drafts {package} for {number(line.amount)}"
    return f"{line.name} drops {package} from its list"


def admitted(line: Line, reply: Reply, source: Source) -> str:
    """What an admitted line led to."""
    if reply.word == "round":
        return f"Round {reply.numbers[0]} is posted: {source.names.prices(reply.numbers[1:])}"
    if reply.word == "sealed":
        return "The clock has ended, and lists are taken now"
    if reply.word == "closed":
        return "The auction is closed"
    return {
        "bid": "Taken",
        "draft": "Taken into the list",
        "drop": "Taken out of the list",
        "submit": "The list is submitted",
    }[line.kind]


def refused_list(line: Line, reply: Reply, cap: Cap, source: Source) -> Cell:
    """A list that is refused, with the arithmetic of the cap of its first entry above it."""
    entry, most = reply.numbers
    package, names = source.names.package(cap.package), source.names
    caps = [cap, *([cap.final] if cap.final else [])]
    more = [dot(it.prices, it.package) - dot(it.prices, it.held) for it in caps]
    by_round = [
        f"{it.standing:,} {'-' if cost < 0 else '+'} {abs(cost):,} = {it.by_round:,}" for it, cost in zip(caps, more)
    ]
    rows: list[tuple[str, ...]] = [
        ("last round with the points", *(f"round {it.constraining_round}" for it in caps)),
        ("asked for there", *(names.package(it.held) for it in caps)),
        ("highest amount named for that", *(number(it.standing) for it in caps)),
        ("what the package costs more there", *(f"{cost:+,}" for cost in more)),
        ("cap", *by_round),
    ]
    if cap.final:
        rows = [("", "by that round", "by the final round"), *rows, ("the lesser holds", number(most))]
    amount = number(reply.facts["amount"])
    told = f"Refused. Entry {entry} of the list, {package} for {amount}, is above its cap of {number(most)}."
    return Cell(told, reply.text(), "bad", tuple(rows))


def answer(line: Line, reply: Reply, source: Source) -> Cell:
    """The reply in words, and in the program's form."""
    if reply.word == "relative-cap" and reply.facts["cap"]:
        return refused_list(line, reply, reply.facts["cap"], source)
    if not reply.is_ok:
        told = commas(reason(given(source.award), line, reply)).rstrip(".")
        return Cell(f"Refused. {joined(told)}.", reply.text(), "bad")
    tone: Tone = "strong" if line.kind == "close" else ""
    return Cell(admitted(line, reply, source), reply.text(), tone)


def place(line: Line) -> Content:
    """The number of a line, and its row in the file if that is another number."""
    return number(line.number) if line.row == line.number else Cell(number(line.number), f"row {line.row} of the file")


def sections_of(lines: Sequence[Line], replies: Sequence[Reply]) -> Iterator[Part]:
    """The lines up to each admitted close, that one included."""
    part: Part = []
    for line, reply in zip(lines, replies):
        part.append((line, reply))
        if line.kind == "close" and reply.is_ok:
            yield part
            part = []
    if part:
        yield part


def title(place: int, auction: Auction) -> str:
    """What a part of the log is called."""
    rounds = len(auction.rounds)
    if place <= rounds or auction.final is None:
        return f"Round {place}"
    return "The sealed round" if place == rounds + 1 else "After the close"


def tables(source: Source, part: Part, place_of: PlaceOf) -> list[Table]:
    """The lines of a part, each a row: no more than this many in one table."""
    rows: list[list[Content]] = [
        [
            place_of(line),
            Cell(sent(line, source.names), record_text(source.long.as_sent(line))),
            answer(line, reply, source),
        ]
        for line, reply in part
    ]
    parts = [rows[at : at + TOGETHER] for at in range(0, len(rows), TOGETHER)]
    return [Table(f"Part {at}" if len(parts) > 1 else "", HEADS, it, is_full=True) for at, it in enumerate(parts, 1)]


def cards(source: Source, lines: Sequence[Line], replies: Sequence[Reply], place_of: PlaceOf = place) -> Iterator[Card]:
    """A card for each part of the log."""
    for number_, part in enumerate(sections_of(lines, replies), 1):
        refused = sum(not reply.is_ok for _, reply in part)
        note = f"{count(len(part), 'line')}, {refused or 'none'} refused"
        yield Card(title(number_, given(source.auction)), tables(source, part, place_of), note)


def section(source: Source) -> Section:
    """Every line with its reply."""
    auction = given(source.auction)
    refused = sum(not reply.is_ok for reply in auction.replies)
    told = (
        f"The log has {count(len(auction.lines), 'line')}, and {was(refused, 'them')}. A line that is refused changes"
        " nothing."
    )
    if not auction.lines:
        return Section("lines", "The lines", [Words("The log has no line.")])
    return Section(
        "lines",
        "The lines",
        [
            Words(told),
            Words(
                "Each line is in words and, below, as the log has it; each reply in words and as the program"
                " prints it."
            ),
            Fold(
                f"The {count(len(auction.lines), 'line')} of the log (to print them too, open them first)",
                [Cards(list(cards(source, auction.lines, auction.replies)), size="wide")],
            ),
        ],
    )
