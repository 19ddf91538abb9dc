"""What each page of the desk shows, as plain values: texts that are ready, tables, and fields with what was typed.

No markup is here and nothing is written. Amounts are gross; numbers have commas as in the report.
"""

from __future__ import annotations

import bisect
import datetime
from collections.abc import Mapping, Sequence
from dataclasses import dataclass, replace
from typing import Any, TypeAlias

from cca_tools.desk.control import NOT_COMPARED, Answered, Close, Desk, Moment, closes_of
from cca_tools.desk.faults import common_length, whole_lines
from cca_tools.desk.lines import KINDS, Typed, close_words, cut_words
from cca_tools.desk.lists import draft_table, total_words
from cca_tools.desk.sheets import MOST_FILE, Handed
from cca_tools.desk.tables import NONE, Cell, Column, Row, Table, Tone
from cca_tools.desk.told import Speech, list_warnings, told_lines
from cca_tools.page.words import commas, count, joined, number
from cca_tools.rules.auction import Auction, Reply
from cca_tools.rules.award import Award
from cca_tools.rules.log import Line
from cca_tools.rules.names import LongNames
from cca_tools.rules.pricing import most_winners
from cca_tools.rules.reasons import counts, reason
from cca_tools.rules.seals import VOIDING, grouped, line_ends
from cca_tools.rules.state import (
    CategoryState,
    ClockState,
    CloseEffect,
    ListState,
    category_states,
    clock_states,
    close_effect,
    list_states,
)
from cca_tools.rules.stops import MOST
from cca_tools.rules.types import BidderNumber, Stage
from cca_tools.rules.view import record_text

Entries: TypeAlias = Sequence[tuple[str, str, int]]
LAST, ROUNDS, ROOM_ROUNDS = 8, 9, 3
NO_CLOSE = (
    "Write no close. Ask the bidders for other packages in the same round: if nothing is asked for above the supply, a"
    " close ends the clock. If they keep to theirs, the auction can't be ended under this award: tell all, and begin"
    " again with a larger tick, greater steps or another unit."
)
KIND_WORDS = {"bid": "asks for (bid)", "draft": "drafts", "drop": "drops", "submit": "submits"}
HEADS: dict[Stage, str] = {"sealed": "Lists are taken", "closed": "The auction is closed"}
CLOCK_BASIS = (
    "Posted prices, prices after a close and the replies below: by both programs, alike. Points, what a close takes,"
    " demand and room in spectrum caps: by the second program; before a close, points and caps are compared with the"
    " program's."
)
LIST_BASIS = (
    "The replies below: by both programs, alike. Whether a submission would be refused, and entries above caps: by the"
    " second program; before a close, caps are compared with the program's."
)


@dataclass(frozen=True)
class LineView:
    """A line and its reply; `number` is empty if it has none here, `time` if the journal doesn't have it."""

    number: str
    record: str
    reply: str
    words: str
    is_ok: bool
    time: str = ""
    mark: str = ""
    told: Sequence[str] = ()
    warnings: Sequence[str] = ()


@dataclass(frozen=True)
class Option:
    """A choice of a field."""

    value: str
    label: str
    is_chosen: bool


@dataclass(frozen=True)
class FormFault:
    """What is wrong in a form: the field, the sentences, and how many lines of a paste have no fault."""

    field: str = ""
    sentences: Sequence[str] = ()
    good: int = 0


@dataclass(frozen=True)
class Form:
    """The form of a line, with what was typed."""

    kinds: Sequence[Option]
    bidders: Sequence[Option]
    typed: Typed
    order: str
    nothing: str
    has_amount: bool
    unit: str
    fault: FormFault


@dataclass(frozen=True)
class Waiting:
    """The lines of a rehearsal that wait."""

    words: str
    next: str
    count: int


@dataclass(frozen=True)
class Given:
    """A posted line, and since which line it is void and why; empty if it isn't."""

    text: str
    void: str = ""


@dataclass(frozen=True)
class Home:
    """The page of a stage."""

    stage: Stage
    title: str
    lead: str
    tables: Sequence[Table]
    basis: str
    effect: str
    warnings: Sequence[str]
    last: Sequence[LineView]
    found: str
    as_of: str
    given: Sequence[Given]
    alarms: Sequence[str]
    plain_sum: str
    raw: str
    form: Form | None
    fault: FormFault
    waiting: Waiting | None


@dataclass(frozen=True)
class Priced:
    """Whether the winners can be priced, in sentences; empty if that is certain."""

    words: str
    tone: Tone


@dataclass(frozen=True)
class ClosePage:
    """The question of a close. `words` is the text to type; None if the page has no button."""

    title: str
    lead: str
    warnings: Sequence[str]
    tables: Sequence[Table]
    words: str | None
    label: str
    button: str
    basis: str
    priced: Priced
    advice: str


@dataclass(frozen=True)
class Preview:
    """The replies that lines would get. `warning` is empty if none is refused; `admitted` has the admitted lines and
    `refused` the others, if there are some of each; the last four are what can be done."""

    title: str
    lines: Sequence[LineView]
    tables: Sequence[Table]
    basis: str
    warning: str
    admitted: str
    refused: str
    write: str
    write_admitted: str
    correct: str
    drop: str
    readback: str


@dataclass(frozen=True)
class WrittenPage:
    """What was written, and what is given out after a close."""

    title: str
    lead: str
    lines: Sequence[LineView]
    more: str
    seal: str
    seal_name: str
    bidders: Sequence[str]
    given: Given | None


@dataclass(frozen=True)
class Figure:
    """A number of a bidder with its name."""

    name: str
    text: str


@dataclass(frozen=True)
class BidderPage:
    """What one bidder may see."""

    name: str
    long_name: str
    head: str
    figures: Sequence[Figure]
    tables: Sequence[Table]
    notes: Sequence[str]
    lines: Sequence[LineView]
    given: Sequence[Given]
    news: str


@dataclass(frozen=True)
class Posted:
    """What everybody may know: nothing of it changes between closes."""

    title: str
    head: str
    table: Table
    given: Sequence[Given]
    news: str


@dataclass(frozen=True)
class Choice:
    """A close after which the log can be cut."""

    record: int
    words: str
    cuts: str
    typed: str


@dataclass(frozen=True)
class Again:
    """The choices of a round that is run again."""

    choices: Sequence[Choice]


@dataclass(frozen=True)
class Void:
    """A close that was cut, with the seal that was given out for it."""

    name: str
    seal: str


@dataclass(frozen=True)
class CutDone:
    """What a cut has done, and what bidders are shown of it."""

    kept: str
    why: str
    voids: Sequence[Void]
    seal: str
    seal_name: str
    given: Given | None
    news: str


def head_of(auction: Auction) -> str:
    """The stage in a few words."""
    return HEADS.get(auction.stage) or f"Round {number(auction.running_round.number)} is open"


def named(names: LongNames, short: str) -> str:
    """The long name of a bidder if it has one that differs, to be shown below the short one."""
    long = names.bidder(short)
    return "" if long == short else long


def category_heads(award: Award, names: LongNames, *, with_supply: bool = False) -> list[Column]:
    """A column for each category."""
    heads = []
    for it in award.categories:
        long = names.category(it.name)
        notes = [] if long == it.name else [long]
        heads.append(Column(it.name, ", ".join([*notes, *([count(it.supply, "lot")] if with_supply else [])])))
    return heads


def clock_table(states: Sequence[CategoryState], speech: Speech) -> Table:
    """The categories in the open round, a column each."""
    rises = [None if it.after is None else it.after - it.price for it in states]
    rows = [
        Row([Cell("Posted price"), *(Cell(number(it.price)) for it in states)]),
        Row([Cell("Asked for"), *(Cell(number(it.demand)) for it in states)]),
        Row([Cell("Supply"), *(Cell(number(it.supply)) for it in states)]),
        Row(
            [
                Cell("Excess"),
                *(Cell(number(it.excess) if it.excess else NONE, "", "warm" if it.excess else "") for it in states),
            ]
        ),
        Row([Cell("Rise by a close"), *(Cell(f"+{number(rise)}" if rise else NONE) for rise in rises)], "soft"),
        Row(
            [Cell("Price after a close"), *(Cell("none" if it.after is None else number(it.after)) for it in states)],
            "next",
        ),
    ]
    heads = category_heads(speech.award, speech.names)
    return Table(speech.caption("Prices and demand"), [Column("Category", is_number=False), *heads], rows)


def asks(state: ClockState) -> Cell:
    """What a bidder asks for: a package, nothing, no line yet, or out."""
    if state.activity == "asks":
        return Cell(counts(state.package))
    return Cell(state.activity, "", "warm" if state.activity == "no line yet" else "soft")


def bidder_row(state: ClockState, goes_on: bool, names: LongNames) -> Row:
    """A bidder in the open round. A close takes points only where the clock goes on after it."""
    lost = state.lost if goes_on else 0
    takes_all = lost and lost == state.eligibility
    cells = [
        Cell(state.name, named(names, state.name), link=f"bidder/{state.name}"),
        Cell(number(state.eligibility)),
        asks(state),
        Cell(number(state.points) if state.activity in ("asks", "nothing") else NONE),
        Cell(f"\N{MINUS SIGN}{number(lost)}" if lost else NONE, "", "warm" if takes_all else ""),
        Cell(number(state.cost) if state.cost else NONE),
        *(Cell(number(room.room)) for room in state.rooms),
    ]
    return Row(cells, "soft" if state.activity == "out" else "")


def bidder_table(auction: Auction, speech: Speech) -> Table:
    """The bidders in the open round."""
    names = speech.names
    columns = [Column("Bidder", is_number=False), *map(Column, ("May ask for", "Asks for", "Points", "A close takes"))]
    caps = [
        Column(f"Room in cap {place}", f"of {number(cap.limit)}") for place, cap in enumerate(auction.award.caps, 1)
    ]
    goes_on = any(it.after is not None for it in category_states(auction))
    rows = [bidder_row(state, goes_on, names) for state in clock_states(auction)]
    return Table("Bidders", [*columns, Column("Cost", speech.unit), *caps], rows)


def list_state(state: ListState) -> Cell:
    """Whether what is drafted is submitted."""
    if state.differences:
        return Cell(f"{count(state.differences, 'package')} not as submitted", "", "warm")
    return Cell("as submitted", "", "good") if state.submitted else Cell("no list", "", "soft")


def list_notes(state: ListState, speech: Speech) -> list[str]:
    """Whether a submission would be refused, and every entry above its cap."""
    if not state.is_refused:
        return []
    notes = [f"A submission would be refused: {state.answer.text()}."]
    for it in state.above:
        words = f"Entry {it.entry}, {counts(it.package)} for {number(it.amount)}, is above its cap {number(it.cap)}"
        notes.append(f"{words} by {speech.amount(it.by)}.")
    return notes


def list_table(auction: Auction, speech: Speech) -> Table:
    """The lists of the bidders."""
    columns = [
        Column("Bidder", is_number=False),
        Column("Drafts"),
        Column("Submitted"),
        Column("The drafts are", is_number=False),
    ]
    rows = []
    for state in list_states(auction):
        head = Cell(state.name, named(speech.names, state.name), link=f"bidder/{state.name}")
        cells = [head, Cell(number(state.drafts)), Cell(number(state.submitted)), list_state(state)]
        rows.append(Row(cells, notes=list_notes(state, speech)))
    return Table("Lists. The page of a bidder has its list", columns, rows)


def stage_tables(auction: Auction, speech: Speech) -> list[Table]:
    """What the stage shows of categories and bidders."""
    if auction.stage == "clock":
        return [clock_table(category_states(auction), speech), bidder_table(auction, speech)]
    return [list_table(auction, speech)] if auction.stage == "sealed" else []


def line_view(award: Award, line: Line, reply: Reply, place: int | None, time: str = "", mark: str = "") -> LineView:
    """A line with its reply in words."""
    words = joined(commas(reason(award, line, reply)))
    return LineView(number(place) if place else "", record_text(line), reply.text(), words, reply.is_ok, time, mark)


def answered_views(award: Award, answered: Answered) -> list[LineView]:
    """Lines with their replies, by the numbers of the log."""
    return [line_view(award, line, reply, line.number) for line, reply in zip(answered.lines, answered.replies)]


class Times:
    """When each line came in, by the journal: its entries have the length of the log after them."""

    def __init__(self, entries: Entries) -> None:
        self.entries = entries

    def of(self, end: int) -> tuple[str, str]:
        """The time of the line that ends at this byte, and what the entry is of; empty if none has it."""
        for place in range(len(self.entries) - 1, -1, -1):
            before = self.entries[place - 1][2] if place else 0
            if before < end <= self.entries[place][2]:
                return clock_time(self.entries[place][0]), self.entries[place][1]
        return "", ""


def clock_time(text: str) -> str:
    """A time of the journal with its date and its zone."""
    try:
        return datetime.datetime.fromisoformat(text).strftime("%Y-%m-%d %H:%M:%S %z")
    except ValueError:
        return ""


def time_now() -> str:
    """The time of this machine with its date and its zone."""
    return datetime.datetime.now().astimezone().strftime("%Y-%m-%d %H:%M:%S %z")


def last_views(moment: Moment, entries: Entries) -> list[LineView]:
    """The last lines, the latest first."""
    auction, ends, times, found = moment.auction, line_ends(moment.data), Times(entries), list[LineView]()
    for line, reply in zip(auction.lines[: -LAST - 1 : -1], auction.replies[: -LAST - 1 : -1]):
        time, what = times.of(ends[line.row - 1])
        mark = "not answered when written" if what == "found" else ""
        found.append(line_view(auction.award, line, reply, line.number, time, mark))
    return found


BY_WHOM = "Another hand wrote there, or the desk was ended before it could answer"


def found_words(moment: Moment, entries: Entries) -> str:
    """A sentence about the lines at the log's end that came into it without a reply by a desk; empty if there are
    none."""
    if not entries or entries[-1][1] != "found":
        return ""
    ends = line_ends(moment.data)
    before = entries[-2][2] if len(entries) > 1 else 0
    first, last = bisect.bisect_right(ends, before) + 1, bisect.bisect_right(ends, entries[-1][2])
    if first == last:
        return f"Line {first} of the log had no answer yet. {BY_WHOM}. Tell the bidder the reply below."
    which = f"Lines {first} to {last} of the log"
    return f"{which} had no answer yet. {BY_WHOM}. Tell the bidders the replies below."


def form_of(moment: Moment, typed: Typed, speech: Speech, fault: FormFault) -> Form:
    """The form of a line."""
    names = speech.names
    award, kinds = moment.auction.award, KINDS[moment.auction.stage]
    options = [Option(kind, KIND_WORDS[kind], kind == typed.kind) for kind in kinds]
    bidders = [
        Option(name, f"{name}, {long}" if (long := named(names, name)) else name, name == typed.bidder)
        for name in award.names
    ]
    order = ", ".join(category.name for category in award.categories)
    is_list = moment.auction.stage == "sealed"
    return Form(options, bidders, typed, order, counts(award.nothing), is_list, speech.unit, fault)


def waiting_of(lines: Sequence[bytes]) -> Waiting | None:
    """The lines of a rehearsal that wait."""
    if not lines:
        return None
    words = f"{count(len(lines), 'line')} of the rehearsal {'waits' if len(lines) == 1 else 'wait'}."
    return Waiting(words, lines[0].decode("ascii", "replace").rstrip("\n"), len(lines))


def effect_words(effect: CloseEffect) -> str:
    """What a close would do, in a sentence."""
    return commas(effect.sentence)


def seal_view(desk: Desk, moment: Moment, close: Close) -> tuple[str, str]:
    """The seal of a close in groups of four, and the close that it is of."""
    row = desk.row_of(close.number)
    return (grouped(row.seal), f"close {close.number}") if row else ("", "")


def given_lines(desk: Desk) -> list[Given]:
    """The posted lines, the latest first, and which of them are void."""
    public = desk.given()
    head = [Given(text) for text in desk.head_lines()]
    return [*head, *(Given(row.text(), public.void_words(row.number)) for row in public.rows)][::-1]


def last_given(desk: Desk) -> Given | None:
    """The line that was posted last."""
    rows = desk.given().rows
    return Given(rows[-1].text()) if rows else None


def news(desk: Desk, auction: Auction) -> str:
    """What everybody has to know for as long as the last line is about a round that is run again, or a changed log."""
    public = desk.given()
    row = next((it for it in reversed(public.rows) if it.kind in VOIDING), None)
    # (closes of a changed log are posted at once, and the news stays)
    given_again = sum(by == row.number for by in public.voids.values()) if row and row.kind == "changed" else 0
    if row is None or len(public.rows) - row.number > given_again:
        return ""
    after = f"everything after close {row.close}" if row.close else "everything before"
    is_clock = auction.stage == "clock"
    if row.kind == "changed":
        return f"The log was changed after it was answered. The auction goes on with it: {after} is void. {row.why}"
    if row.kind == "reopened":
        again = f"Round {auction.running_round.number} is open" if is_clock else "Lists are taken"
        return f"Close {row.close + 1} is taken back. {again} again, and all its lines stay. Reason: {row.why}"
    held = f"Round {auction.running_round.number} is held again" if is_clock else "Lists are taken again"
    return f"{held}: {after} is void. Send those lines again. Reason: {row.why}"


def alarms(desk: Desk) -> list[str]:
    """What is wrong with the program or the clock of the machine."""
    found = [] if desk.mark.is_proved else [f"{desk.mark.text}. Run no auction with it."]
    if back := round(desk.log.clock_back()):
        found.append(f"The clock of this machine was set back by {number(back)} seconds. The journal says so. Set it.")
    if desk.copy_fault:
        found.append(f"{desk.copy_fault} The next line or close tries again.")
    if desk.log.is_shared():
        found.append("Another desk has this log open too. Nothing is lost by that, but end one of them.")
    return found


def home(desk: Desk, moment: Moment, typed: Typed, waiting: Sequence[bytes], fault: FormFault = FormFault()) -> Home:
    """The page of the stage."""
    auction, entries = moment.auction, desk.log.answered_at()
    effect = close_effect(auction)
    records = len(auction.lines)
    return Home(
        stage=auction.stage,
        title=head_of(auction),
        lead=f"{count(records, 'line')} in the log.",
        tables=stage_tables(auction, desk.speech),
        basis={"clock": CLOCK_BASIS, "sealed": LIST_BASIS, "closed": ""}[auction.stage],
        effect=effect_words(effect),
        warnings=[commas(it) for it in effect.warnings],
        last=last_views(moment, entries),
        found=found_words(moment, entries),
        as_of=f"As of line {number(records)}, {time_now()}",
        given=given_lines(desk),
        alarms=alarms(desk),
        plain_sum=moment.base.sum,
        raw=typed.raw,
        form=form_of(moment, typed, desk.speech, fault) if auction.stage != "closed" else None,
        fault=fault,
        waiting=waiting_of(waiting),
    )


def lost_table(auction: Auction, names: LongNames) -> list[Table]:
    """The eligibility that a close takes, where it takes any."""
    columns = [Column("Bidder", is_number=False), Column("Now"), Column("After the close")]
    rows = []
    for state in clock_states(auction):
        if state.lost:
            after = Cell(number(state.points)) if state.points else Cell("0, out", "", "warm")
            rows.append(Row([Cell(state.name, named(names, state.name)), Cell(number(state.eligibility)), after]))
    return [Table("Eligibility that is lost for the rest of the clock", columns, rows)] if rows else []


def final_table(auction: Auction, speech: Speech) -> Table:
    """What each bidder asks for in the round that would be the final one."""
    names = speech.names
    columns = [Column("Bidder", is_number=False), Column("Asks for"), Column("Cost", speech.unit)]
    rows = [
        Row([Cell(it.name, named(names, it.name)), asks(it), Cell(number(it.cost) if it.cost else NONE)])
        for it in clock_states(auction)
    ]
    return Table("What each asks for in the final round, from which caps come", columns, rows)


def close_tables(auction: Auction, effect: CloseEffect, speech: Speech) -> list[Table]:
    """What is looked at before a close."""
    if effect.reply.word == "round":
        return [clock_table(category_states(auction), speech), *lost_table(auction, speech.names)]
    if effect.reply.word == "sealed":
        return [final_table(auction, speech)]
    return [list_table(auction, speech)] if effect.reply.word == "closed" else []


def compared_words(effect: CloseEffect) -> str:
    """That both programs agree on points and caps, where all were compared."""
    if any(NOT_COMPARED in it for it in effect.warnings):
        return ""
    return "The points and caps of each bidder are compared, and alike by both programs."


def close_page(desk: Desk, moment: Moment, effect: CloseEffect, waiting: Sequence[bytes]) -> ClosePage:
    """The question of a close."""
    auction, word, words = moment.auction, effect.reply.word, close_words(moment.auction, effect.reply)
    warnings = [commas(it) for it in effect.warnings]
    if waiting:
        warnings.append(f"{count(len(waiting), 'line')} of the rehearsal would come too late.")
    if desk.copy_fault:
        warnings.append(desk.copy_fault)
    if word == "closed":
        for j in range(1, len(auction.award.names) + 1):
            warnings += list_warnings(desk.speech, auction, j)
    by_round = f"Close round {words}?"
    return ClosePage(
        title={"round": by_round, "sealed": "End the clock?", "closed": "End the auction?"}.get(word, "No close now"),
        lead=effect_words(effect),
        warnings=warnings,
        tables=close_tables(auction, effect, desk.speech),
        words=words,
        label="Type the number of the round that you close" if word == "round" else f"Type: {words}",
        button={"round": "Close the round", "sealed": "End the clock"}.get(word, "End the auction"),
        basis=compared_words(effect) if words is not None else "",
        priced=priced_words(desk, moment) if word == "closed" else Priced("", ""),
        advice=NO_CLOSE if words is None and word != "stage" else "",
    )


def priced_words(desk: Desk, moment: Moment) -> Priced:
    """Which command can price the winners of the book as it is, and what can still be done if none can. The text
    doesn't name the winners."""
    most = MOST["winners"]
    if most_winners(desk.award) <= most:
        return Priced("", "")
    found = desk.winners(moment)
    if found is None:
        return Priced(
            "A limit stops the search for the winners of the bids as they are. There may be no prices.", "bad"
        )
    if found <= most:
        return Priced("By the bids as they are, `cca award` can price the winners.", "good")
    more = f"By the bids as they are, more than {most} bidders win, and `cca award` makes no certificate then."
    if desk.has_pricer:
        return Priced(f"{more} `tools/price` is for that: the desk runs it after the award has met the limit.", "warm")
    return Priced(
        f"{more} There is no `tools/price` here either, so the auction would end without prices. Until this close"
        " bidders may still change and submit lists; the last close can also be taken back. Ask whoever decides on"
        " the rules before you end the auction.",
        "bad",
    )


def preview_page(desk: Desk, moment: Moment, answered: Answered, handed: Handed | None = None) -> Preview:
    """The replies that lines would get. Of a list that was handed in, only drafts can be written without the others."""
    many, refused = len(answered.lines), answered.refused
    if many == 1:
        title = "It would be refused" if refused else "It would be admitted"
    else:
        title = f"{number(refused)} of {many} would be refused" if refused else f"All {many} would be admitted"
    admitted = records_of(answered, is_ok=True) if refused and refused < many else ""
    if handed:
        admitted = "".join(it for it in admitted.splitlines(True) if not it.startswith("submit,"))
    return Preview(
        title=title,
        lines=previewed_views(desk, moment, answered),
        tables=list_after(desk, moment, answered),
        basis=f"Both programs give {'this reply' if many == 1 else 'these replies'}.",
        warning=refused_words(many) if refused else "",
        admitted=admitted,
        refused=records_of(answered, is_ok=False) if admitted else "",
        write=write_words(many, refused),
        write_admitted=f"Write only the {count(admitted.count(chr(10)), 'admitted line')}",
        correct="Correct the list" if handed else "Correct it" if many == 1 else "Correct them",
        drop="Drop it" if many == 1 else "Drop them",
        readback=readback_words(desk, handed) if handed else "",
    )


def readback_words(desk: Desk, handed: Handed) -> str:
    """By what a bidder confirms its list before it is written."""
    bids, speech = handed.sheet.bids, desk.speech
    total = speech.amount(sum(bids.values()))
    most, amount = max(bids.items(), key=lambda it: it[1])
    return (
        f"Read this back to {speech.bidder(handed.bidder)} before you write it: {count(len(bids), 'package')}, together"
        f" {total}; the highest amount is {speech.amount(amount)} for {speech.package(most)}."
    )


def records_of(answered: Answered, *, is_ok: bool) -> str:
    """The lines that would be admitted, or the others, as text."""
    pairs = zip(answered.lines, answered.replies)
    return "".join(f"{record_text(line)}\n" for line, reply in pairs if reply.is_ok is is_ok)


def previewed_views(desk: Desk, moment: Moment, answered: Answered) -> list[LineView]:
    """Lines with their replies, and what each of them does in sentences."""
    told = told_lines(desk.speech, moment.auction, answered.lines)
    return [
        replace(view, told=it.sentences, warnings=it.warnings)
        for view, it in zip(answered_views(moment.auction.award, answered), told)
    ]


def list_after(desk: Desk, moment: Moment, answered: Answered) -> list[Table]:
    """The list after these lines, while lists are taken and if the lines are of one bidder."""
    bidders = {line.bidder for line in answered.lines}
    if moment.auction.stage != "sealed" or len(bidders) != 1 or 0 in bidders:
        return []
    after = moment.auction.copied()
    for line in answered.lines:
        after.take(line)
    return [draft_table(after, bidders.pop(), desk.speech)]


def refused_words(many: int) -> str:
    """When to write lines although some of them would be refused."""
    stays = "A refused line stays in the log forever. Write"
    if many == 1:
        return f"{stays} it only if the bidder sent just this; correct a slip of your own."
    return f"{stays} these {many} lines only if the bidders sent just these; correct slips of your own."


def write_words(many: int, refused: int) -> str:
    """What the button says that writes these lines."""
    if refused:
        return "The bidder sent this: write it" if many == 1 else "The bidders sent these: write them"
    return "Write it" if many == 1 else f"Write {many} lines"


def written_page(desk: Desk, moment: Moment, first: int, last: int, was_there: bool) -> WrittenPage:
    """What was written: the lines with these numbers."""
    auction = moment.auction
    shown = Answered(auction.lines[first - 1 : last], auction.replies[first - 1 : last])
    more = len(auction.lines) - last
    closes = [it for it in closes_of(moment.data, auction) if first <= it.record <= last]
    seal, seal_name = seal_view(desk, moment, closes[-1]) if closes else ("", "")
    named_in = {line.name for line in shown.lines if line.bidder}
    bidders = list(named_in) if len(named_in) == 1 else []
    title, lead = "Written and synced", ""
    if was_there:
        title = "It is in the log already" if first == last else "They are in the log already"
        lead = f"{'It was' if first == last else 'They were'} written before, and not a second time. "
    return WrittenPage(
        title=title,
        lead=f"{lead}Both programs reply:",
        lines=answered_views(auction.award, shown),
        more=f"{count(more, 'more line')} {'is' if more == 1 else 'are'} after it now." if more > 0 else "",
        seal=seal,
        seal_name=seal_name,
        bidders=bidders,
        given=last_given(desk) if closes and closes[-1].record == len(auction.lines) else None,
    )


def own_lines(auction: Auction, j: BidderNumber) -> list[LineView]:
    """A bidder's own lines under numbers of their own, and the closes; the latest first."""
    found, place = list[LineView](), 0
    for line, reply in zip(auction.lines, auction.replies):
        if line.kind == "close":
            if reply.is_ok:
                found.append(line_view(auction.award, line, reply, None))
        elif line.bidder == j:
            place += 1
            found.append(line_view(auction.award, line, reply, place))
    return found[::-1]


def bidder_figures(auction: Auction, j: BidderNumber, speech: Speech) -> list[Figure]:
    """The numbers of a bidder in the stage."""
    if auction.stage != "clock":
        state = list_states(auction)[j - 1]
        return [Figure("Drafts", number(state.drafts)), Figure("Submitted", total_words(auction, j, speech))]
    row = clock_states(auction)[j - 1]
    rooms = [
        Figure(f"Room in spectrum cap {it.number}", f"{number(it.room)} of {number(it.limit)}") for it in row.rooms
    ]
    return [
        Figure("May ask for", count(row.eligibility, "point")),
        Figure("Asks for", speech.package(row.package) if row.activity == "asks" else row.activity),
        Figure("Points", number(row.points)),
        Figure("Cost", speech.amount(row.cost)),
        *rooms,
    ]


@dataclass(frozen=True)
class ListForm:
    """The form for a list as CSV, with what was typed."""

    bidders: Sequence[Option]
    heads: str
    text: str
    unit: str
    most: str
    is_whole: bool
    submits: bool


def list_form(desk: Desk, typed: Mapping[str, str]) -> ListForm:
    """The form for a list as CSV."""
    names, chosen = desk.names, typed.get("bidder", "")
    bidders = [Option(it, desk.speech.bidder(it), it == chosen) for it in desk.award.names]
    heads = ";".join([*(names.category(it.name) for it in desk.award.categories), "amount"])
    is_new = not typed
    return ListForm(
        bidders=bidders,
        heads=heads,
        text=typed.get("list", ""),
        unit=desk.speech.unit,
        most=number(MOST_FILE),
        is_whole=is_new or "whole" in typed,
        submits=is_new or "submit" in typed,
    )


@dataclass(frozen=True)
class Readback:
    """What a bidder has sent, to be compared by it and signed."""

    title: str
    name: str
    head: str
    sentences: Sequence[str]
    tables: Sequence[Table]


def readback(desk: Desk, moment: Moment, j: BidderNumber) -> Readback:
    """What a bidder asks for in the open round, or its list."""
    auction, speech, name = moment.auction, desk.speech, desk.award.names[j - 1]
    if auction.stage == "clock":
        state = clock_states(auction)[j - 1]
        asked = speech.package(state.package) if state.activity == "asks" else state.activity
        sentences = [f"Asked for: {asked}.", f"Cost at the posted prices: {speech.amount(state.cost)}."]
    else:
        sentences = [f"The list: {total_words(auction, j, speech)}."]
    return Readback(
        title=desk.names.title or "The auction",
        name=speech.bidder(name),
        head=f"{head_of(auction)}. {time_now()}.",
        sentences=sentences,
        tables=own_list(auction, j, speech),
    )


def own_list(auction: Auction, j: BidderNumber, speech: Speech) -> list[Table]:
    """The list of a bidder, once lists are taken."""
    return [] if auction.stage == "clock" else [draft_table(auction, j, speech)]


def price_rows(auction: Auction, most: int, with_demand: bool) -> list[Row]:
    """The rounds with the prices that were posted, the latest first; with the demand of closed ones if it is shown."""
    found = list[Row]()
    for it in round_list(auction)[::-1][:most]:
        is_open = it is auction.open_round
        asked = [
            f"{many} of {sold}" if with_demand and not is_open else ""
            for many, sold in zip(it.demand, auction.award.supply)
        ]
        cells = [Cell(number(price), note) for price, note in zip(it.prices, asked)]
        found.append(Row([Cell(number(it.number)), *cells], "next" if is_open else ""))
    return found


def price_table(auction: Auction, speech: Speech, most: int, with_demand: bool = False) -> Table:
    """The posted prices of the last rounds, and below each what was asked for at it."""
    columns = [Column("Round", is_number=False), *category_heads(auction.award, speech.names, with_supply=True)]
    caption = f"Posted price of a lot{' and lots asked for' if with_demand and auction.rounds else ''}"
    return Table(speech.caption(caption), columns, price_rows(auction, most, with_demand))


def bidder_page(desk: Desk, moment: Moment, j: BidderNumber) -> BidderPage:
    """What a bidder may see: nothing of others, and no number of the log."""
    auction, name = moment.auction, desk.award.names[j - 1]
    notes = list_notes(list_states(auction)[j - 1], desk.speech) if auction.stage == "sealed" else []
    return BidderPage(
        name=name,
        long_name=named(desk.names, name),
        head=f"{head_of(auction)}.",
        figures=bidder_figures(auction, j, desk.speech),
        tables=[*own_list(auction, j, desk.speech), price_table(auction, desk.speech, ROUNDS)],
        notes=notes,
        lines=own_lines(auction, j),
        given=given_lines(desk),
        news=news(desk, auction),
    )


def posted(desk: Desk, moment: Moment, with_demand: bool) -> Posted:
    """What everybody may know."""
    auction = moment.auction
    return Posted(
        title=desk.names.title or "The auction",
        head=head_of(auction),
        table=price_table(auction, desk.speech, ROOM_ROUNDS, with_demand),
        given=given_lines(desk),
        news=news(desk, auction),
    )


def again_page(moment: Moment) -> Again:
    """The closes after which the log can be cut, the latest first, then its beginning."""
    records, found = len(moment.auction.lines), list[Choice]()
    if last := last_close(moment):
        words = f"Everything except close {last.number}: only this close is taken back, and the lines before it stay"
        found.append(Choice(last.record - 1, words, cuts_words(1), cut_words(last.record - 1)))
    for close in reversed(closes_of(moment.data, moment.auction)):
        if close.record < records:
            words = f"Close {close.number}, line {number(close.record)}: {close_outcome(close.reply)}"
            found.append(Choice(close.record, words, cuts_words(records - close.record), cut_words(close.record)))
    if records:
        found.append(Choice(0, "Nothing: the auction begins again", cuts_words(records), cut_words(0)))
    return Again(found)


def last_close(moment: Moment) -> Close | None:
    """The last close, if only it can be taken back: nothing is after it, and the line before it isn't a close."""
    closes = closes_of(moment.data, moment.auction)
    if not closes or closes[-1].record < len(moment.auction.lines):
        return None
    before = closes[-2].record if len(closes) > 1 else 0
    return closes[-1] if closes[-1].record > before + 1 else None


def changes(desk: Desk) -> list[str]:
    """What changes if the auctioneer goes on with a log that somebody has changed, in sentences. Raises `NoLine` and
    `Refused`."""
    answered, data = desk.log.answered(), whole_lines(desk.log.read())
    before, after, start = desk.answered(answered), desk.answered(data), common_length(answered, data)
    public, found = desk.given(), list[str]()
    holds = sum(close.length <= start for close in closes_of(answered, before))
    for place, _ in public.counting[holds:]:
        row = public.rows[place - 1]
        found.append(f"The posted line {place} ({row.event}) becomes void, and everybody sees that.")
    if head_of(before) != head_of(after):
        found.append(f"The stage: {head_of(before)}; it becomes: {head_of(after)}.")
    old, new = ({it.number: it.prices for it in round_list(auction)} for auction in (before, after))
    for it in sorted({*old, *new}):
        if old.get(it) != new.get(it):
            one, other = price_words(old.get(it)), price_words(new.get(it))
            found.append(f"Posted prices of round {it}: {one}; they become {other}.")
    found += eligibility_changes(before, after)
    gone, come, line = (it.count(b"\n") for it in (answered[start:], data[start:], answered[:start]))
    found.append(f"From line {line + 1} on: answered lines that go away: {gone}; lines that are new: {come}.")
    return found


def round_list(auction: Auction) -> list[Any]:
    """All rounds, with the open one."""
    return [*auction.rounds, *([auction.open_round] if auction.open_round else [])]


def price_words(prices: Sequence[int] | None) -> str:
    """The prices of a round."""
    return " ".join(map(number, prices)) if prices else "none"


def eligibility_changes(before: Auction, after: Auction) -> list[str]:
    """Whose eligibility differs, if both are in the clock."""
    if "clock" not in (before.stage, after.stage) or before.stage != after.stage:
        return []
    pairs = zip(clock_states(before), clock_states(after))
    return [
        f"{one.name} may ask for {number(one.eligibility)} points; it becomes {number(other.eligibility)}."
        for one, other in pairs
        if one.eligibility != other.eligibility
    ]


def cuts_words(lines: int) -> str:
    """How many lines a cut takes."""
    return f"cuts {count(lines, 'line')}"


def close_outcome(reply: Reply) -> str:
    """What a close did, in a few words."""
    if reply.word == "round":
        return f"posted round {number(reply.numbers[0])}"
    return "ended the clock" if reply.word == "sealed" else "ended the auction"


def cut_done(desk: Desk, before: Moment, length: int, kept: str, why: str) -> CutDone:
    """What a cut has done, by the log as it was before."""
    closes = closes_of(before.data, before.auction)
    public = desk.given()
    last = public.rows[-1].number if public.rows else 0
    voids = [
        Void(public.rows[it - 1].event, grouped(public.rows[it - 1].seal))
        for it, by in public.voids.items()
        if by == last
    ]
    counting = [it for it in closes if it.length <= length]
    seal, seal_name = seal_view(desk, before, counting[-1]) if counting else ("", "")
    return CutDone(kept, why, voids, seal, seal_name, last_given(desk), news(desk, desk.now().auction))
