"""The log on the disk, and its journal. The rules of auctions and the web pages are elsewhere.

A line is written onto the bytes that its writer has seen (`Base`), once, under the lock, and synced; the journal has it
before anybody sees its reply. Nothing is lost: what is taken from the log is kept in a file in the same folder, and the
journal names that file.
"""

from __future__ import annotations

import contextlib
import os
import re
import secrets
import stat
from collections.abc import Callable, Iterator, Mapping, Sequence
from dataclasses import dataclass, replace
from pathlib import Path

from cca_tools.desk import disk
from cca_tools.desk.disk import Busy, Missing, Refused, Unsure, read_file, read_open, sum_of
from cca_tools.desk.faults import (
    ANSWERED,
    IN_JOURNAL,
    Mend,
    Stop,
    begun_cut,
    changed_log,
    common_length,
    fault_of,
    lost_feed,
    torn_line,
    whole_lines,
)
from cca_tools.desk.journal import (
    VERSION,
    Entry,
    Journal,
    entry,
    is_older,
    need_version,
    now,
    replayed,
    seconds_back,
)
from cca_tools.desk.record import is_publish_line, posted_text, public_of, seconds
from cca_tools.rules import stops
from cca_tools.rules.seals import Event, Row, Sealer, key_of, new_key

__all__ = ["Base", "Busy", "Grown", "LogFile", "Mend", "Refused", "Stop", "Unsure", "Written", "warnings_of"]

BASE = re.compile(r"([0-9a-f]{16})\.(0|[1-9][0-9]{0,11})\.([0-9a-f]{64})")
NOBODY_ELSE = "Only you may be able to write there: `chmod go-w` takes that from others."
FIRST_PORT, PORTS = 20_000, 10_000  # (the system draws ports from 32,768 on)
LATEST = 200  # entries among which the latest time is looked for
Check = Callable[[bytes], Sequence[str]]
# The bytes of a log up to and with each admitted close, and whether the last one ends the auction.
Closes = Callable[[bytes], tuple[Sequence[int], bool]]


class Grown(Refused):
    """The log has lines after those that the page was made of: answer again."""


@dataclass(frozen=True)
class Base:
    """The log that a page was made of: its epoch (new after each cut), its length in bytes and its SHA-256."""

    epoch: str
    length: int
    sum: str

    def text(self) -> str:
        """As a page has it: `epoch.length.sum`."""
        return f"{self.epoch}.{self.length}.{self.sum}"

    @staticmethod
    def of(text: str) -> Base:
        """The base that a page names. Raises `Refused` for any other text."""
        found = BASE.fullmatch(text)
        if not found:
            raise Refused("The page doesn't say of which log it was made. Nothing was written; load it again.")
        return Base(found[1], int(found[2]), found[3])

    def begins(self, data: bytes) -> bool:
        """Whether a log begins with the one that the page was made of."""
        return len(data) >= self.length and sum_of(data[: self.length]) == self.sum


@dataclass(frozen=True)
class Written:
    """The log up to and with the lines that were written, and whether they were in it before, on this very base."""

    log: bytes
    was_there: bool


def new_epoch() -> str:
    """An epoch that no page has."""
    return secrets.token_hex(8)


def beside(path: Path, kind: str) -> Path:
    """The path of a file in the log's folder: the log's name with `.kind` after it."""
    return path.with_name(f"{path.name}.{kind}")


def need_base(base: Base, data: bytes, last: Entry) -> None:
    """Tests that a page was made of this log, or of a prefix of it. Raises `Refused`."""
    if base.epoch != last.epoch:
        raise Refused("A round was held again since this page was made. Nothing was written; load it again.")
    if not base.begins(data):
        raise Refused(
            "The log isn't the one that this page was made of: lines in it were changed. Nothing was written; load it"
            " again."
        )


def shortened(what: str, epoch: str, data: bytes, length: int, **more: object) -> Entry:
    """The entry of a log that is cut to a length."""
    return entry(what, epoch, data[:length], length, whole=[len(data), sum_of(data)], **more)


def kept_more(*copies: Path) -> dict[str, object]:
    """What an entry has about the files that keep what was taken away: their names and checksums."""
    return {"kept": [it.name for it in copies], "kept_sums": [sum_of(read_file(it)) for it in copies]}


class LogFile:
    """The log under its lock, with its journal (`LOG.desk`), its key (`LOG.key`), the posted lines (`LOG.posted`) and
    what was taken away next to it.

    It has no memory of the log: each call reads what the disk has, so that several desks may run, and a kill changes
    nothing. `key` has the bytes of the key's file.
    """

    def __init__(
        self,
        path: Path,
        pins: Mapping[str, str],
        copies: Path | None = None,
        about: Mapping[str, str] | None = None,
        takes: Callable[[bytes], bool] = lambda data: True,
    ) -> None:
        """Makes the files that don't exist, and notes the lines of the log that no desk has replied to.

        `pins` are the checksums of award and program by name, and `about` is what else the journal's first entry says
        about them. `takes` says whether each record of a log states a line. Anything else is never noted, so that it
        can be taken out. Raises `Refused` if locks don't work, a file is a link, the key is lost, or the journal began
        with other pins; `Unsure` if a new file can't be synced.
        """
        self.path, self.copies, self.key = path, copies, b""
        self._key_path, self._journal = beside(path, "key"), Journal(beside(path, "desk"))
        self.posted_path, self._about = beside(path, "posted"), dict(about or {})
        self._pins, self._unsure, self._found, self._takes = dict(pins), "", 0, takes
        self._need_copies()
        self._start()
        self._presence = disk.presence(self._key_path)

    # What the disk has

    def is_shared(self) -> bool:
        """Whether another desk has this log open."""
        return disk.is_shared(self._presence)

    def read(self) -> bytes:
        """The log as it is. Raises `Refused` if it can't be read."""
        return read_file(self.path)

    def base(self, data: bytes) -> Base:
        """The base of a page that is made of this log."""
        return Base(self._last().epoch, len(data), sum_of(data))

    def answered_at(self) -> list[tuple[str, str, int]]:
        """Each entry of the journal: its time (UTC, ISO 8601), what it is of, and the bytes of the log after it."""
        return [(it.at, it.what, it.length) for it in self._journal.entries() if it.what != "posted"]

    def journal_data(self) -> bytes:
        """The bytes of the journal. Raises `Missing` or `Refused`."""
        return read_file(self._journal.path)

    def last_cut(self) -> Path | None:
        """The file that keeps the log before the last cut, if nothing was written after it."""
        for it in reversed(self._journal.entries()):
            if it.what == "cut" and it.names("kept"):
                return self.path.with_name(it.names("kept")[0])
            if it.what not in ("posted", "cut ended", "started again", "other tools"):
                return None
        return None

    def usual_port(self) -> int:
        """A port that this log has at each start: it comes from the journal's first entry."""
        return FIRST_PORT + int(self._journal.entries()[0].epoch, 16) % PORTS

    def answered(self) -> bytes:
        """The log after the newest entry of the journal. Raises `Missing` or `Refused`."""
        return replayed(self._journal.entries())

    def posted(self) -> bytes:
        """The posted lines, which the journal has too. Raises `Missing` or `Refused`."""
        return self._need_prefix(read_file(self.posted_path), self._posted_text())

    def clock_back(self) -> float:
        """By how many seconds the clock of the machine is before the latest time of the journal; 0 if it isn't."""
        return max(seconds_back(it.at, now()) for it in self._journal.entries()[-LATEST:])

    def stop(self) -> Stop | None:
        """What is wrong now with log, journal and key, or None."""
        try:
            try:
                with disk.locked(self.path) as handle:
                    return self._stop(read_open(handle, self.path.name))
            except Busy:
                return self._stop(self.read())
        except Missing as fault:
            return Stop(
                str(fault), IN_JOURNAL, "Start the desk again: it writes the log as it was answered.", "restart"
            )
        except Refused as fault:
            return Stop(str(fault), "Nothing was written.", "Mend that by hand, and load this page again.", "none")

    def _last(self) -> Entry:
        """The newest entry of the journal."""
        if found := self._journal.last():
            return found
        raise Refused(f"{self._journal.path.name} is no journal of a desk. Put its copy back.")

    def _stop(self, data: bytes) -> Stop | None:
        """What is wrong with this log, its journal or its key."""
        if self._unsure:
            return Stop(self._unsure, ANSWERED, "Start the desk again, and see which lines the log has.", "restart")
        try:
            last = self._last()
        except Missing as fault:
            return Stop(
                str(fault),
                "The log is as it was.",
                "Put the journal back where you moved it, or its copy. If it is lost, start the desk again: all lines"
                " then count as lines that no desk had answered.",
                "restart",
            )
        return self._log_stop(data, last) or self._key_stop()

    def _log_stop(self, data: bytes, last: Entry) -> Stop | None:
        """What is wrong with this log."""
        fault = fault_of(data, last)
        if fault == "changed":
            return changed_log(data, self._journal.entries())
        if fault == "torn":
            return torn_line(data)
        if fault == "cut":
            return begun_cut(last)
        return lost_feed() if fault == "feed" else None

    def _key_stop(self) -> Stop | None:
        """The stop of a key's file that isn't what it was."""
        try:
            if read_file(self._key_path) == self.key:
                return None
            why = f"{self._key_path.name} was changed: it isn't the key whose checksum was posted."
        except Missing as fault:
            why = str(fault)
        return Stop(
            why,
            "This desk has the key as long as it runs.",
            "Don't end the desk. Start it again by this button: it writes the key again.",
            "restart",
        )

    # Starts

    def _need_copies(self) -> None:
        """Tests that copies can be made, and overwrite nothing."""
        if self.copies is None:
            return
        if not self.copies.is_dir():
            raise Refused(f"{self.copies} is no folder: copies of the log can't be written there.")
        if os.path.samefile(self.copies, self.path.absolute().parent):
            raise Refused(f"{self.copies} is the folder of the log itself: copies are for another one.")
        with contextlib.suppress(Missing):
            copy = read_file(self.copies / self._journal.path.name)
            try:
                own = read_file(self._journal.path)
            except Missing:
                raise Refused(
                    f"{self._journal.path.name} isn't there, and {self.copies} has a copy of it. Put it back, or move"
                    " it away if it is that of another auction."
                ) from None
            if copy.split(b"\n")[0] != own.split(b"\n")[0]:
                raise Refused(f"{self.copies} has copies of another auction, and they are never overwritten.")

    def _start(self, why: str | None = None) -> None:
        """Makes the files that don't exist, tests the others, and notes the lines that no desk has replied to."""
        is_new = disk.new_file(self.path, b"") if not self._has_journal() else self._restored()
        with self._held() as handle:
            disk.need_locks(self.path, handle)
            self._begin()
            if is_new and self._last().length:
                self._note_again("restored", why="the log wasn't there, and was written from the journal")
            self._note_found(read_open(handle, self.path.name), self._last())
            self._need_posted(self._posted_text())
            disk.write_again(self.posted_path, 0)
            self._unsure = ""
            if why is not None and not self._log_stop(read_open(handle, self.path.name), self._last()):
                self._note_again("started again", why=why)

    def _has_journal(self) -> bool:
        """Whether there is a journal with an entry."""
        try:
            return self._journal.last() is not None
        except Missing:
            return False

    def _restored(self) -> bool:
        """Writes the log from the journal if the log doesn't exist. Returns whether it wrote it."""
        try:
            self.read()
            return False
        except Missing:
            return disk.new_file(self.path, replayed(self._journal.entries()))

    def _begin(self) -> None:
        """Tests the key and the journal of an earlier start, or makes them."""
        if not self._has_journal():
            self._take_key("")
            more: dict[str, object] = {"pins": self._pins, "key": sum_of(self.key), "about": self._about}
            first = entry("begun", new_epoch(), b"", 0, version=VERSION, **more)
            if not disk.new_file(self._journal.path, first.line() + b"\n"):
                self._begin_in_empty(first)
            return
        entries = self._journal.entries()
        need_version(entries[0])
        replayed(entries)
        self._need_pins(entries[0])
        self._take_key(str(entries[0].more.get("key")))
        self._journal.settle()
        known = [it.more["about"] for it in entries if "about" in it.more]
        if self._about and known[-1:] != [self._about]:
            self._note_again("other tools", about=self._about)

    def _begin_in_empty(self, first: Entry) -> None:
        """The first entry of a journal that is there and has nothing in it."""
        if data := read_file(self._journal.path):
            name = self._journal.path.name
            if is_older(data.split(b"\n")[0]):
                raise Refused(f"{name} was begun by an older version of the desk. End this auction with that version.")
            raise Refused(f"{name} is no journal of a desk, and is never overwritten. Move it away.")
        self._journal.note(first)

    def _need_pins(self, first: Entry) -> None:
        """Tests that the award and the program are the same as at the first start."""
        pins = first.more.get("pins")
        known = pins if isinstance(pins, dict) else {}
        for name in sorted({*known, *self._pins}):
            if known.get(name) != self._pins.get(name):
                raise Refused(
                    f"The {name} isn't the one that this auction began with: its SHA-256 was {known.get(name)} at"
                    f" {first.at}, and is {self._pins.get(name)} now. Put the first one back."
                )

    def _take_key(self, known: str) -> None:
        """Takes the key from its file. Makes the file if no journal has its checksum. Writes it again if this desk has
        the key already.

        Raises `Refused` if it is lost.
        """
        name = self._key_path.name
        try:
            data = read_file(self._key_path)
        except Missing:
            if known and not self.key:
                raise Refused(f"{name} isn't there, and its checksum was posted. Put its copy back.") from None
            data = self.key or new_key()
            disk.new_file(self._key_path, data)
            data = read_file(self._key_path)
        if self.key and data != self.key:
            disk.kept(self._key_path, "other", data)
            disk.replaced(self._key_path, self.key)
            data = self.key
        if known and sum_of(data) != known:
            raise Refused(f"{name} isn't the key whose checksum was posted ({len(data)} bytes). Put its copy back.")
        try:
            key_of(data)
        except stops.Stop as fault:
            raise Refused(f"{name} is no key: {fault.why}. It has {len(data)} bytes.") from None
        self.key = data

    # Lines

    @contextlib.contextmanager
    def _held(self) -> Iterator[int]:
        """The log under its lock. After an `Unsure`, nothing more is written until the next start."""
        try:
            with disk.locked(self.path) as handle:
                yield handle
        except Unsure as fault:
            self._unsure = str(fault)
            raise

    def _ready(self, handle: int) -> tuple[bytes, Entry]:
        """The log, if nothing is wrong with it, and the newest entry of its journal."""
        data = read_open(handle, self.path.name)
        if stop := self._stop(data):
            raise Refused(f"{stop.why} Nothing was written.")
        return data, self._last()

    def _note_again(self, what: str, **more: object) -> None:
        """Notes an event that didn't change the log."""
        last = self._last()
        self._journal.note(replace(last, at=now(), what=what, start=last.length, text=b"", more=more))

    def _note_found(self, data: bytes, last: Entry) -> Entry:
        """Notes the lines of this log, a prefix of the one on the disk, that no desk has replied to. Returns the newest
        entry after that."""
        if fault_of(data, last):
            return last
        if last.what == "cut":  # (the process that cut was killed, or couldn't sync it)
            disk.write_again(self.path, last.length)
            self._note_again("cut ended")
        if len(data) <= last.length or not self._takes(data):
            return last
        disk.write_again(self.path, last.length)
        found = entry("found", last.epoch, data, last.length)
        self._journal.note(found)
        self._found += data[last.length :].count(b"\n")
        return found

    def note_found(self) -> int:
        """Notes the lines that no desk has replied to. Returns how many were noted since the last call."""
        with self._held() as handle:
            if not self._unsure:
                self._note_found(read_open(handle, self.path.name), self._last())
        found, self._found = self._found, 0
        return found

    def append(self, base: Base, text: bytes, check: Check, people: Mapping[str, str] | None = None) -> Written:
        """Writes lines, each with its line feed, onto the log that the base names, once, and notes their replies.

        `check` is called under the lock with the log as it would be, before anything is written. It returns the replies
        for the journal, and may raise. Raises `Refused`, `Grown` or `Busy` if nothing was written, and `Unsure`.
        """
        if not text.endswith(b"\n"):
            raise Refused("A line without its line feed can't be written.")
        with self._held() as handle:
            data, last = self._ready(handle)
            need_base(base, data, last)
            wanted = data[: base.length] + text
            was_there = data.startswith(wanted)
            if not was_there and len(data) > base.length:
                raise Grown("The log has grown since this page was made. Nothing was written; here is the answer now.")
            if not was_there or last.length < len(wanted):
                last = self._note_found(wanted[: base.length], last)
                replies = check(wanted)
                if was_there:
                    # (its writer was killed before it had the reply, and maybe before the line was synced)
                    disk.write_again(self.path, last.length)
                else:
                    self._write(handle, wanted, text)
                more = dict(people or {})
                self._note_line(entry("line", last.epoch, wanted, last.length, replies=list(replies), **more))
            return Written(wanted, was_there)

    def _write(self, handle: int, wanted: bytes, text: bytes) -> None:
        """Puts the text at the end of the log, so that it is the one that is wanted."""
        disk.append_once(handle, text, self.path.name)
        if not disk.is_named(handle, self.path):
            raise Unsure(f"What was sent was written, but another file has taken the place of {self.path.name}.")
        if read_open(handle, self.path.name) != wanted:
            raise Unsure(
                f"{self.path.name} doesn't have what was written to it: another program writes without asking for the"
                " lock."
            )

    def _note_line(self, new: Entry) -> None:
        """Notes lines that the log has."""
        try:
            self._journal.note(new)
        except Refused as fault:
            raise Unsure(f"What was sent is in the log, but the journal couldn't be written. {fault}") from None

    # Posted lines

    def _posted_text(self) -> bytes:
        """All lines that the journal posts."""
        return posted_text(self._journal.entries(), sum_of(self.key), self._pins["award"])

    def _need_prefix(self, data: bytes, wanted: bytes) -> bytes:
        """The bytes of `LOG.posted`, if the lines that the journal posts begin with them. Raises `Refused`."""
        if wanted.startswith(data):
            return data
        row = data[: common_length(data, wanted)].count(b"\n") + 1
        raise Refused(
            f"{self.posted_path.name} was changed by hand: its line {row} isn't the one that the journal posted. Put"
            " its copy back, or move it away and start the desk again: it writes the lines of the journal."
        )

    def _need_posted(self, wanted: bytes) -> None:
        """Completes `LOG.posted` if a kill has left it shorter than the lines that the journal posts: nobody has seen
        more than the file had. Raises `Refused` if it has anything else."""
        path = self.posted_path
        try:
            data = self._need_prefix(read_file(path), wanted)
        except Missing:
            disk.new_file(path, wanted)
            return
        if len(data) < len(wanted):
            with disk.opened(path, disk.APPEND) as handle:
                disk.append_once(handle, wanted[len(data) :], path.name)

    def post(self, closes_of: Closes, is_publish: bool = False) -> int:
        """Posts what is due: notes in the journal, and then adds to `LOG.posted`, a line for each public event of this
        log that has none; `is_publish` is whether the set is made now. Returns how many. Raises `Refused` and
        `Unsure`."""
        with self._held() as handle:
            data, last = self._ready(handle)
            last = self._note_found(data, last)
            entries = self._journal.entries()
            posted = self._posted_text()
            self._need_posted(posted)
            try:
                due = public_of(entries).due(*closes_of(data))
            except ValueError as fault:
                raise Refused(f"The journal and the log don't agree: {fault}.") from None
            if is_publish and (due or not is_publish_line(entries[-1])):
                due.append(Event("publish", 0, len(data)))
            sealer = Sealer(self.key, self._pins["award"])
            for event in due:
                at = now()
                row = sealer.row(event, seconds(at), data, self._journal.head(), posted)
                self._post_row(replace(last, at=at), row, event.length)
                posted += f"{row.text()}\n".encode()
            return len(due)

    def _post_row(self, last: Entry, row: Row, length: int) -> None:
        """Posts a line. Once the journal has it a start completes `LOG.posted`, so a kill loses no line, and no number
        is used twice."""
        more = {"line": row.text(), "upto": length}
        self._journal.note(replace(last, what="posted", start=last.length, text=b"", more=more))
        with disk.opened(self.posted_path, disk.APPEND) as handle:
            try:
                disk.append_once(handle, f"{row.text()}\n".encode(), self.posted_path.name)
            except Refused as fault:
                raise Unsure(f"A line is noted in the journal and not posted yet. {fault}") from None

    # Cuts and repairs

    def cut(
        self, base: Base, length: int, why: str, stay: bool = False, people: Mapping[str, str] | None = None
    ) -> Path:
        """Cuts the log to its first `length` bytes, so that a round can be run again. `stay` is whether only a close is
        taken back. Returns the file that keeps the longer log."""
        with self._held() as handle:
            data, last = self._ready(handle)
            need_base(base, data, last)
            if base.length != len(data):
                raise Grown("The log has grown since this page was made. Nothing was cut.")
            if not 0 <= length < len(data) or data[:length] != whole_lines(data[:length]):
                raise Refused(f"The log has {len(data)} bytes, and no line to cut begins at byte {length}.")
            self._note_found(data, last)
            return self._cut(handle, data, length, why, stay, dict(people or {}))

    def _cut(self, handle: int, data: bytes, length: int, why: str, stay: bool, people: Mapping[str, object]) -> Path:
        """Keeps the log, notes the cut, and cuts."""
        copy = disk.kept(self.path, "cut", data)
        more = {**kept_more(copy), **({"stay": True} if stay else {}), **people}
        self._journal.note(shortened("cut", new_epoch(), data, length, why=why, **more))
        self._shorten(handle, length)
        with contextlib.suppress(Refused):  # (it is noted before the next line then)
            self._note_again("cut ended")
        return copy

    def _shorten(self, handle: int, length: int) -> None:
        """Cuts the log to a length."""
        disk.shorten(handle, length, self.path.name)
        if not disk.is_named(handle, self.path):
            raise Unsure(f"The log was cut, but another file has taken the place of {self.path.name}.")

    def mend(self, mend: Mend, why: str, people: Mapping[str, str] | None = None) -> None:
        """Does the repair that a stop names, under the lock. Keeps a copy of what it takes away, and notes it in the
        journal.

        Raises `Refused` if the log doesn't have this fault any more, and `Unsure`. `end line` doesn't test that the
        line then states something: replay the log with the line feed first.
        """
        stop = self.stop()
        if stop is None or mend == "none" or not stop.allows(mend):
            raise Refused("The log doesn't have this fault any more. Load the page again.")
        if mend == "restart":
            self._need_copies()
            return self._start(why)
        with self._held() as handle:
            data = read_open(handle, self.path.name)
            stop = self._stop(data)
            if stop is None or not stop.allows(mend):
                raise Refused("The log doesn't have this fault any more. Load the page again.")
            self._mended(handle, data, mend, why, dict(people or {}))

    def _mended(self, handle: int, data: bytes, mend: Mend, why: str, people: Mapping[str, object]) -> None:
        """Repairs a log that has the fault that this repair is for."""
        match mend:
            case "take back":
                self._take_back(handle, data, why)
            case "end line":
                self._end_line(handle, data, why)
            case "cut again":
                last = self._last()
                again = {it: last.more[it] for it in ("by", "approved") if it in last.more}
                self._cut(handle, data, last.length, why, last.more.get("stay") is True, again)
            case "put back":
                self._put_back(handle, data, why)
            case "keep changed log":
                self._keep_changed(data, why, people)

    def answered_length(self) -> int:
        """The length in bytes of the log after the newest entry: lines with replies, or noted as found."""
        return self._last().length

    def take_out(self, why: str) -> None:
        """Takes out what is after the noted lines and isn't a line, and keeps a copy. Raises `Refused` and `Unsure`."""
        with self._held() as handle:
            data, last = read_open(handle, self.path.name), self._last()
            if fault_of(data, last) not in (None, "torn") or len(data) <= last.length:
                raise Refused("The log doesn't have this fault any more. Load the page again.")
            self._take_away(handle, data, data[: last.length], why)

    def _take_back(self, handle: int, data: bytes, why: str) -> None:
        """Takes a torn last line out of the log, and keeps it."""
        lines = whole_lines(data)
        self._note_found(lines, self._last())
        self._take_away(handle, data, lines, why)

    def _take_away(self, handle: int, data: bytes, lines: bytes, why: str) -> None:
        """Cuts the log to its noted lines, and keeps what was after them."""
        last = self._last()
        copy = disk.kept(self.path, "torn", data[len(lines) :])
        self._journal.note(shortened("taken back", last.epoch, data, len(lines), why=why, **kept_more(copy)))
        self._shorten(handle, len(lines))

    def _end_line(self, handle: int, data: bytes, why: str) -> None:
        """Adds the line feed to the last line."""
        last = self._last()
        disk.write_again(self.path, min(last.length, len(data)))
        self._write(handle, data + b"\n", b"\n")
        self._note_line(entry("ended", last.epoch, data + b"\n", last.length, why=why))

    def _put_back(self, handle: int, data: bytes, why: str) -> None:
        """Restores the log from the journal, and keeps the changed one. A kill in between leaves a changed log, which
        can be put back again."""
        answered = self.answered()
        self._note_again("put back", why=why, **kept_more(disk.kept(self.path, "changed", data)))
        start = common_length(answered, data)
        self._shorten(handle, start)
        if answered[start:]:
            self._write(handle, answered, answered[start:])

    def _keep_changed(self, data: bytes, why: str, people: Mapping[str, object]) -> None:
        """Continues with a log that was changed by hand. Keeps a copy of it and of the log by the journal. No older
        page fits."""
        answered, lines = replayed(self._journal.entries()), whole_lines(data)
        copies = [disk.kept(self.path, kind, log) for kind, log in (("changed", data), ("answered", answered))]
        start = common_length(answered, lines)
        disk.write_again(self.path, start)
        whole: dict[str, object] = {"whole": [len(answered), sum_of(answered)]}
        more = {**kept_more(*copies), **whole, **people}
        self._journal.note(entry("changed", new_epoch(), lines, start, why=why, **more))

    def copy_out(self) -> None:
        """Copies log, journal and key to the folder for copies, synced. Raises `Refused` if that can't be done; the
        older copies are whole then."""
        if self.copies is None:
            return
        with self._held() as handle:
            data, _ = self._ready(handle)
            own = self._journal.path, self.posted_path
            files = {self._key_path: self.key, **{path: read_file(path) for path in own}, self.path: data}
            for path, copy in files.items():
                disk.replaced(self.copies / path.name, copy)


def warnings_of(path: Path, copies: Path | None = None) -> list[str]:
    """What isn't safe about the folders and files of a log, in sentences: others may write or read there."""
    found = []
    for folder in (path.absolute().parent, *([] if copies is None else [copies.absolute()])):
        found += folder_warnings(folder)
    for file in (path, beside(path, "desk"), beside(path, "key"), beside(path, "posted")):
        with contextlib.suppress(OSError):
            if os.stat(file, follow_symlinks=False).st_mode & (stat.S_IRWXG | stat.S_IRWXO):
                found.append(f"Others may read or change {file.name}. `chmod 600` takes that from them.")
    return found


def folder_warnings(folder: Path) -> list[str]:
    """What isn't safe about a folder."""
    with contextlib.suppress(OSError):
        state = os.stat(folder)
        if state.st_mode & (stat.S_IWGRP | stat.S_IWOTH):
            return [f"Others may put files into {folder}, and take files away. {NOBODY_ELSE}"]
        if state.st_uid not in (0, os.geteuid()):
            return [f"{folder} is another user's, who may put files there, and take files away."]
    return []
