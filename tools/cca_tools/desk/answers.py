"""The replies of both programs to a log, compared reply by reply. No web is here."""

from __future__ import annotations

import dataclasses
import itertools
from collections.abc import Sequence
from pathlib import Path

from cca_tools.desk.disk import sum_of
from cca_tools.desk.probes import Probes, groups
from cca_tools.desk.sealed_program import Ended, NoProgram, Program
from cca_tools.rules.auction import Auction
from cca_tools.rules.award import Award, read_award
from cca_tools.rules.book import book_text
from cca_tools.rules.log import END, MARK, Line, read_log
from cca_tools.rules.mark import mark_of
from cca_tools.rules.state import CLOSE
from cca_tools.rules.stops import DONE, MOST, REFUSED, Stop, load, within
from cca_tools.rules.telling import told
from cca_tools.rules.view import record_text

__all__ = ["Answers", "Differ", "NoLine", "NoProgram"]

KEPT = 4  # logs whose auctions are kept: the log itself, and previews of it
MOST_PROBES = 20_000  # lines in one run of the program


class Differ(Exception):
    """The two programs replied differently: the desk stops."""


class NoLine(Exception):
    """A record that isn't a line, or a limit of the log. With it the whole log would have no replies."""


@dataclasses.dataclass(frozen=True)
class Known:
    """A log, its auction, and the replies to it, as the program prints them."""

    data: bytes
    auction: Auction
    replies: Sequence[str]

    def begins(self, data: bytes) -> bool:
        """Whether a log continues this one by whole records. A byte order mark is one only at the beginning."""
        if not self.data or self.data == data:
            return True
        return self.data.endswith(b"\n") and data.startswith(self.data) and not data.startswith(MARK, len(self.data))


class Answers:
    """Both programs, by the bytes of award and program as they were read at the start.

    `pins` has the SHA-256 of "award" and "program".
    """

    def __init__(self, award_path: Path, program: Path) -> None:
        """Reads award and program once. Raises `cca_tools.rules.stops.Stop` for an award that can't be read or breaks a
        rule, and `NoProgram`."""
        self.award_data = load(str(award_path.absolute()), "award")
        self.award: Award = read_award(self.award_data)
        try:
            data = program.read_bytes()
        except OSError as fault:
            raise NoProgram(f"The program {program} can't be read: {fault.strerror}.") from None
        self.pins = {"award": sum_of(self.award_data), "program": sum_of(data)}
        self.mark = mark_of(data)
        self._program, self._probes = Program(data, self.award_data), Probes(self.award)
        self._kept = [Known(b"", Auction(self.award), [])]

    def auction(self, data: bytes) -> Auction:
        """The auction after a log; callers may not change it. Both programs have given the same replies to the whole
        log. Raises `Differ`, `NoLine` and `NoProgram`."""
        return self._known(data).auction

    def _known(self, data: bytes) -> Known:
        """What is known of a log. It is kept, and the one that was asked for longest ago is forgotten."""
        try:
            within("bytes", len(data), MOST["log bytes"])
            known = self._replayed(data)
        except Stop as stop:
            need_alike(Ended([stop.line], stop.status, b""), self._program.auction(data))
            raise NoLine(told(stop)) from None
        if not any(it is known for it in self._kept[1:]):
            need_alike(expected(known), self._program.auction(data))
        self._kept[1:] = [known, *(it for it in self._kept[1:] if it is not known)][:KEPT]
        return known

    def _replayed(self, data: bytes) -> Known:
        """The log by the rules, from the longest kept one that it goes on from. Raises `Stop`."""
        before = max((it for it in self._kept if it.begins(data)), key=lambda it: len(it.data))
        if data and before.data == data:
            return before
        auction = before.auction.copied()
        for line in self._new_lines(before, data):
            auction.take(line)
        first = len(before.replies)
        replies = [f"{n} {it.text()}" for n, it in enumerate(auction.replies[first:], first + 1)]
        return Known(data, auction, [*before.replies, *replies])

    def _new_lines(self, before: Known, data: bytes) -> list[Line]:
        """The lines after a kept log's lines, with their numbers in the whole. Raises `Stop`."""
        records, rows = len(before.auction.lines), len(END.findall(before.data))
        try:
            new = read_log(data[len(before.data) :], self.award)
            within("records", records + len(new), MOST["records"])
        except Stop:
            if before.data:
                read_log(data, self.award)  # (raises the stop of the whole, with the number of the record there)
            raise
        return [dataclasses.replace(it, number=records + it.number, row=rows + it.row) for it in new]

    def winners(self, data: bytes) -> int | None:
        """How many bidders win by the bids of a log as it is; None if a limit stops the program. Raises as `auction`
        does."""
        return self._program.winners(book_text(self._known(data).auction.book()))

    def probe(self, data: bytes) -> list[str]:
        """Compares each bidder's points and caps, now and after a close, by lines that get replies and are never
        written. Returns the differences in sentences. Raises as `auction` does."""
        if data and not data.endswith(b"\n"):
            raise NoLine("The last line of the log has no line feed.")
        now = self._known(data)
        found = self._probed(now, "now")
        if now.auction.answer(CLOSE).is_ok:
            found += self._probed(self._known(data + record_text(CLOSE).encode() + b"\n"), "after a close")
        return found

    def _probed(self, known: Known, when: str) -> list[str]:
        """The differences in what both programs answer to the probing lines of a log."""
        of_bidders = [self._probes.lines(known.auction, j) for j in range(1, len(self.award.names) + 1)]
        room = min(MOST["records"] - len(known.replies), MOST_PROBES)
        found = []
        for group in groups(of_bidders, room):
            names, lines = [self.award.names[place] for place in group], [
                it for place in group for it in of_bidders[place]
            ]
            text = known.data + b"".join(record_text(line).encode() + b"\n" for line in lines)
            if len(lines) > room or len(text) > MOST["log bytes"]:
                found.append(f"{', '.join(names)}: not compared {when}, since the log has no room for probing lines.")
            elif lines:
                found += self._differences(known, lines, text, when)
        return found

    def _differences(self, known: Known, lines: Sequence[Line], text: bytes, when: str) -> list[str]:
        """The first difference of each bidder."""
        auction = known.auction.copied()
        for line in lines:
            auction.take(line)
        first = len(known.replies)
        own = [f"{n} {it.text()}" for n, it in enumerate(auction.replies[first:], first + 1)]
        printed = self._program.auction(text).lines[first:]
        found = dict[str, str]()
        for line, one, other in zip(lines, itertools.chain(printed, itertools.repeat("nothing")), own):
            if one != other:
                sentence = f"{line.name}, {when}: to `{record_text(line)}` {both_say(one, other)}"
                found.setdefault(line.name, sentence)
        return list(found.values())


def expected(known: Known) -> Ended:
    """What `cca auction` has to answer to a log."""
    auction = known.auction
    if auction.limit_stop:
        return Ended([*known.replies, auction.limit_stop.line], auction.limit_stop.status, b"")
    if auction.stage != "closed":
        return Ended([*known.replies, f"cca: refused log {len(known.replies) + 1}"], REFUSED, b"")
    return Ended(known.replies, DONE, book_text(auction.book()))


def both_say(printed: str, own: str) -> str:
    """What both programs say, as the end of a sentence."""
    return f"the program says `{printed}`, and the second program `{own}`."


def need_alike(own: Ended, ended: Ended) -> None:
    """Tests that the program gave the same replies as the second program. Raises `Differ`."""
    if own == ended:
        return
    for row, (printed, said) in enumerate(itertools.zip_longest(ended.lines, own.lines, fillvalue="nothing"), 1):
        if printed != said:
            raise Differ(f"In line {row} of the replies {both_say(printed, said)}")
    if ended.status != own.status:
        raise Differ(f"The program ends with status {ended.status}, and by the second program it is {own.status}.")
    raise Differ("The program writes another book of the bids than the second program.")
