"""The desk of one auction: its state, the reply that a line would get, and what is written. The web pages are
elsewhere.

Both programs reply to a line before it is written. What a close does is compared, under the lock of the log, with what
was typed for it. If the programs differ, or nobody can say what the disk has, the desk stops.
"""

from __future__ import annotations

import contextlib
import dataclasses
import hashlib
from collections.abc import Callable, Mapping, Sequence
from pathlib import Path

from cca_tools.desk.answers import Answers, Differ, NoLine, NoProgram
from cca_tools.desk.feed import Feed
from cca_tools.desk.told import Speech
from cca_tools.desk.lines import CLOSE, NotLines, agrees, close_words, closes_in
from cca_tools.desk.record import public_of_rows
from cca_tools.desk.logfile import Base, Busy, LogFile, Mend, Refused, Stop, Unsure, Written
from cca_tools.rules.auction import Auction, Reply
from cca_tools.rules.log import Line
from cca_tools.rules.names import NO_NAMES, LongNames
from cca_tools.rules.mark import Mark
from cca_tools.rules.seals import Public, Row, closed_lengths, head_rows, line_ends, read_posted, sum_of
from cca_tools.rules.state import CloseEffect, close_effect
from cca_tools.rules.stops import MOST
from cca_tools.rules.stops import Stop as FormStop
from cca_tools.version import commit, version

PRICER = Path(__file__).resolve().parents[2] / "price"
SAFE = "What was answered is in the log and in its journal. Nothing is written now."
NOT_COMPARED = ": not compared "
NOBODY: Mapping[str, str] = {}
AGAIN = "End the desk by Ctrl-C on its terminal, and start it again with the same words."


class Stopped(Exception):
    """The desk can't write or reply now."""

    def __init__(self, stop: Stop) -> None:
        super().__init__(stop.why)
        self.stop = stop


class WrongWords(Refused):
    """A close for which somebody typed other text than it asks for."""


@dataclasses.dataclass(frozen=True)
class Moment:
    """The log as it is, the auction after it, and the base of a page that is made of it."""

    data: bytes
    auction: Auction
    base: Base


@dataclasses.dataclass(frozen=True)
class Answered:
    """Lines with the replies that both programs give."""

    lines: Sequence[Line]
    replies: Sequence[Reply]

    @property
    def refused(self) -> int:
        """How many of the lines are refused."""
        return sum(not reply.is_ok for reply in self.replies)


@dataclasses.dataclass(frozen=True)
class Close:
    """An admitted close: its number, its record's number, its reply, and the bytes of the log up to and with it."""

    number: int
    record: int
    reply: Reply
    length: int


def closes_of(data: bytes, auction: Auction) -> list[Close]:
    """The admitted closes of a log, in order."""
    found, lengths = list[Close](), line_ends(data)
    for line, reply in zip(auction.lines, auction.replies):
        if line.kind == "close" and reply.is_ok:
            found.append(Close(len(found) + 1, line.number, reply, lengths[line.row - 1]))
    return found


class Pin:
    """A file that may not change while the desk runs, by its SHA-256. It is read again if its state shows that it was
    written since. The first state was taken before the file was read."""

    def __init__(self, kind: str, path: Path, total: str, state: tuple[int, ...]) -> None:
        self.kind, self.path, self.sum, self._seen = kind, path, total, state

    def holds(self) -> bool:
        """Whether the file still has the bytes with this sum."""
        state = state_of(self.path)
        if state and state != self._seen:
            try:
                is_same = hashlib.sha256(self.path.read_bytes()).hexdigest() == self.sum
            except OSError:
                return False
            self._seen = state if is_same else self._seen
            return is_same
        return bool(state)


def state_of(path: Path) -> tuple[int, ...]:
    """What changes when a file is written or replaced; nothing if it isn't there."""
    try:
        stat = path.stat()
    except OSError:
        return ()
    return stat.st_dev, stat.st_ino, stat.st_size, stat.st_mtime_ns, stat.st_ctime_ns


class Files:
    """The award and the program of a desk, read once, and both programs by them."""

    def __init__(self, award: Path, program: Path) -> None:
        """Raises `Stop` of the rules for an award that breaks one, and `NoProgram`."""
        self.award, self.program = award, program
        states = {kind: state_of(path) for kind, path in (("award", award), ("program", program))}
        self.answers = Answers(award, program)
        self.mark: Mark = self.answers.mark
        sums = self.answers.pins
        self.pins = [
            Pin("award", award, sums["award"], states["award"]),
            Pin("program", program, sums["program"], states["program"]),
        ]


class Desk:
    """The files of one auction and both programs' answers to them."""

    def __init__(
        self,
        files: Files,
        log_path: Path,
        *,
        names: LongNames = NO_NAMES,
        copies: Path | None = None,
        feed: Path | None = None,
    ) -> None:
        """Raises `Refused` and `Unsure` as `LogFile` does."""
        self.award_path, self.program, self.log_path = files.award, files.program, log_path
        self.answers, self.pins = files.answers, files.pins
        self.mark = files.mark
        about = {"program": self.mark.text, "tools": f"version {version()}, commit {commit() or 'unknown'}"}
        self.log = LogFile(log_path, self.answers.pins, copies, about, self.takes)
        self.award, self.names = self.answers.award, names
        self.speech, self.has_pricer = Speech(self.award, names), PRICER.exists()
        self.feed = Feed(feed) if feed else None
        self.copy_fault = ""
        self._halt: Stop | None = None
        self._compared: tuple[bytes, list[str]] | None = None  # the log whose points and caps were compared last
        self._has_copies = copies is not None
        if self.log.stop() is None:
            with contextlib.suppress(Stopped):  # (the first page says it)
                self.settle()

    def takes(self, data: bytes) -> bool:
        """Whether each record of a log states a line. If the programs differ, or one of them doesn't answer, the page
        that follows says so."""
        try:
            self.answers.auction(data)
        except NoLine:
            return False
        except (Differ, NoProgram):
            return True
        return True

    def settle(self, is_publish: bool = False) -> None:
        """Posts what is due, and that the set is made. Nothing is written to the log before that is done. Raises
        `Stopped`."""
        try:
            self.log.post(self.closes_now, is_publish)
        except Busy:
            pass  # the next page posts it
        except (Refused, NoLine) as fault:
            raise Stopped(Stop(str(fault), SAFE, "Mend that by hand, and load this page again.", "none")) from None
        except Unsure as fault:
            raise self.unsure(fault) from None

    def closes_now(self, data: bytes) -> tuple[list[int], bool]:
        """The bytes of a log up to and with each admitted close, and whether the last one ends the auction."""
        auction = self.answered(data)
        return closed_lengths(data, auction), auction.stage == "closed"

    def head_lines(self) -> list[str]:
        """The lines that are posted before the first line of the log: the checksums of key and award."""
        return head_rows(sum_of(self.log.key), self.answers.pins["award"])

    def given(self) -> Public:
        """What follows from the posted lines, by LOG.posted. Raises `Stopped`."""
        try:
            return public_of_rows(read_posted(self.log.posted()))
        except (Refused, FormStop) as fault:
            raise Stopped(Stop(str(fault), SAFE, "Put the copy of LOG.posted back.", "none")) from None

    def now(self) -> Moment:
        """The log as it is. Raises `Stopped`."""
        self.need_running()
        try:
            data = self.log.read()
            return Moment(data, self.answered(data), self.log.base(data))
        except NoLine as fault:
            stop = self.line_stop() or Stop(
                f"The log isn't taken. {fault}", SAFE, "Mend by hand how that record is written.", "none"
            )
        except Refused as fault:
            stop = Stop(str(fault), SAFE, "Mend that by hand, and load this page again.", "none")
        raise Stopped(stop)

    def line_stop(self) -> Stop | None:
        """The stop of a log that has something other than a line after its noted lines; None if it has nothing like
        that."""
        try:
            data, length = self.log.read(), self.log.answered_length()
            if len(data) <= length:
                return None
            self.answered(data)
        except NoLine as fault:
            todo = "Take out what isn't answered: nobody had a reply to it, and a copy of it is kept."
            return Stop(f"The log has something that is no line. {words_of_typed(fault)}", SAFE, todo, "take out")
        except Refused:
            return None
        return None

    def noted(self) -> Moment:
        """The log as it is, after its lines that no desk has replied to are noted. Raises `Stopped`."""
        moment = self.now()
        try:
            self.log.note_found()
        except Busy:
            pass  # the next page notes them
        except Refused as fault:
            raise Stopped(Stop(str(fault), SAFE, "Mend that by hand, and load this page again.", "none")) from None
        except Unsure as fault:
            raise self.unsure(fault) from None
        self.settle()
        return moment

    def need_running(self) -> None:
        """Stops if the log differs from its journal, or a pinned file was changed."""
        stop = self._halt or self.log.stop() or self.pin_fault()
        if stop:
            raise Stopped(stop)

    def pin_fault(self) -> Stop | None:
        """The stop of an award or a program that was changed since the desk was started."""
        for pin in self.pins:
            if not pin.holds():
                why = f"The {pin.kind} isn't the one with which this desk was started: {pin.path} was changed."
                todo = f"Put the first file in its place again; its SHA-256 is {pin.sum}."
                return Stop(why, SAFE, todo, "none")
        return None

    def differs(self, why: str) -> Stopped:
        """Stops until the desk is started again, since the programs differ."""
        todo = f"Keep all files, and find out which program is right before you go on. {AGAIN}"
        self._halt = Stop(f"The programs differ. {why}", SAFE, todo, "none")
        return Stopped(self._halt)

    def unsure(self, fault: Unsure) -> Stopped:
        """Stops until the log is started again."""
        stop = self.log.stop()
        if stop is None:
            stop = self._halt = Stop(str(fault), SAFE, AGAIN, "none")
        return Stopped(stop)

    def answered(self, data: bytes) -> Auction:
        """The auction of a log by both programs. Raises `NoLine` and `Stopped`."""
        try:
            return self.answers.auction(data)
        except Differ as fault:
            raise self.differs(str(fault)) from None
        except NoProgram as fault:
            raise no_program(fault) from None

    def preview(self, moment: Moment, text: bytes) -> Answered:
        """The replies that lines would get now. Raises `Refused` and `Stopped`."""
        if len(moment.data) + len(text) > MOST["log bytes"]:
            raise Refused(f"The log would be longer than {MOST['log bytes']:,} bytes, and none is taken then.")
        known = len(moment.auction.lines)
        try:
            after = self.answered(moment.data + text)
        except NoLine as fault:
            raise Refused(words_of_typed(fault)) from None
        found = Answered(after.lines[known:], after.replies[known:])
        if len(found.lines) != text.count(b"\n"):
            raise Refused("Each line that is typed has to be one record of the log.")
        return found

    def effect(self, moment: Moment) -> CloseEffect:
        """What a close would do now. Before it the second program's points and caps are compared with the program's;
        what has no room for that is a warning. Raises `Stopped`."""
        effect = close_effect(moment.auction)
        if close_words(moment.auction, effect.reply) is None:
            return effect
        return dataclasses.replace(effect, warnings=(*effect.warnings, *self.not_compared(moment.data)))

    def winners(self, moment: Moment) -> int | None:
        """How many bidders win by the bids as they are; None if a limit stops the program. Raises `Stopped`."""
        try:
            return self.answers.winners(moment.data)
        except Differ as fault:
            raise self.differs(str(fault)) from None
        except NoProgram as fault:
            raise no_program(fault) from None

    def not_compared(self, data: bytes) -> list[str]:
        """Compares points and caps of both programs, once for a log, and says which bidders' weren't. Raises
        `Stopped`."""
        if self._compared and self._compared[0] == data:
            return self._compared[1]
        try:
            found = self.answers.probe(data)
        except Differ as fault:
            raise self.differs(str(fault)) from None
        except NoProgram as fault:
            raise no_program(fault) from None
        differences = [it for it in found if NOT_COMPARED not in it]
        if differences:
            raise self.differs(" ".join(differences))
        self._compared = data, found
        return found

    def write(self, base: Base, text: bytes) -> Written:
        """Writes lines onto the log that a page was made of. Raises `NotLines`, `Refused` and its kinds, and
        `Stopped`."""
        if closes_in(text):
            raise NotLines("A close is written on its own page.")
        written = self.append(base, text, lambda before: None)
        self.copy_out()
        return written

    def close(self, base: Base, typed: str, people: Mapping[str, str] = NOBODY) -> Written:
        """Writes a close if somebody typed the text that it asks for. `people` has the names of who asked for it and
        who approved it, for the journal. Raises as `write` does, and `WrongWords`."""
        written = self.append(base, CLOSE, lambda before: need_words(before, typed), people)
        self.settle()
        self.copy_out()
        if self.feed and not written.was_there:
            with contextlib.suppress(OSError):  # (the next page does it again, and says why)
                self.feed.follow(self.answered(written.log))
        return written

    def append(
        self, base: Base, text: bytes, need: Callable[[Auction], None], people: Mapping[str, str] = NOBODY
    ) -> Written:
        """Appends lines after both programs have replied to them and `need` has accepted the auction before them."""
        self.need_running()
        self.settle()

        def check(wanted: bytes) -> Sequence[str]:
            before = self.answered(wanted[: base.length])
            need(before)
            return [reply.text() for reply in self.preview(Moment(wanted[: base.length], before, base), text).replies]

        try:
            return self.log.append(base, text, check, people)
        except Unsure as fault:
            raise self.unsure(fault) from None

    def copy_out(self) -> None:
        """Copies the files. What failed is kept for the pages, and the next write makes up for it."""
        self.copy_fault = ""
        try:
            if self._has_copies:
                self.log.copy_out()
        except (Refused, Unsure) as fault:
            self.copy_fault = f"The log is written, and the copies aren't. {fault}"

    def waiting(self, moment: Moment) -> list[bytes]:
        """The lines of a rehearsal that wait; it goes on where its file lacks a close. Raises `Refused`."""
        if not self.feed:
            return []
        try:
            self.feed.follow(moment.auction)
            return self.feed.waiting(moment.auction)
        except OSError as fault:
            raise Refused(f"The file of the rehearsal can't be used: {fault.strerror}") from None

    def cut(self, base: Base, length: int, why: str, stay: bool = False, people: Mapping[str, str] = NOBODY) -> Path:
        """Cuts the log, so that a round can be run again, or takes back only a close (`stay`). Raises `Refused` and
        `Stopped`."""
        self.need_running()
        self.settle()
        try:
            kept = self.log.cut(base, length, why, stay, people)
        except Unsure as fault:
            raise self.unsure(fault) from None
        self.settle()
        self.copy_out()
        return kept

    def mend(self, mend: Mend, why: str, people: Mapping[str, str] = NOBODY) -> None:
        """Repairs the log as a stop says. Raises `Refused` and `Stopped`."""
        try:
            if mend == "take out":
                self.log.take_out(why)
            else:
                self.log.mend(mend, why, people)
        except Unsure as fault:
            raise self.unsure(fault) from None
        if self.log.stop() is None:
            with contextlib.suppress(Stopped):  # (the page that follows says it)
                self.settle()
                self.copy_out()

    def row_of(self, number: int) -> Row | None:
        """The posted line of a close that counts, by its number in the log."""
        public = self.given()
        return public.rows[public.counting[number - 1][0] - 1] if number <= len(public.counting) else None


def words_of_typed(fault: NoLine) -> str:
    """What is wrong with lines that were typed, without the sentences about a log that already has such lines."""
    of_logs = "cca: ", "No line of the log counts"
    return "\n".join(line for line in str(fault).split("\n") if not line.startswith(of_logs))


def no_program(fault: NoProgram) -> Stopped:
    """The stop of a program that doesn't answer."""
    return Stopped(Stop(str(fault), SAFE, "See that the program is there and runs; then load this page again.", "none"))


def need_words(auction: Auction, typed: str) -> None:
    """Stops a close that isn't written, or whose typed text isn't the one that it asks for now."""
    effect = close_effect(auction)
    words = close_words(auction, effect.reply)
    if words is None:
        raise Refused(f"This close isn't written. {effect.sentence}")
    if not agrees(typed, words):
        raise WrongWords("Nothing was written: what you typed isn't what this close asks for.")
