"""The record of an auction's day: which log a journal leads to, what was posted, and whether all of it agrees.

Nothing here writes to the disk, and nothing knows the pages.
"""

from __future__ import annotations

import bisect
import datetime
import hmac
import math
from collections.abc import Callable, Mapping, Sequence
from dataclasses import dataclass, replace

from cca_tools.desk.disk import Refused, Unreadable, sum_of
from cca_tools.desk.journal import KINDS, Damaged, Entry, LogOfEntries, chained, need_version, replayed, seconds_back
from cca_tools.desk.replays import Replayed, Replays, replayed_log
from cca_tools.rules.award import Award, read_award
from cca_tools.rules.seals import (
    NO_JOURNAL,
    VOIDING,
    Event,
    Kind,
    Public,
    Row,
    Sealer,
    event_of,
    head_text,
    line_ends,
    reason_of,
    row_of,
)
from cca_tools.rules.stops import NO, READ_FAULT, Stop
from cca_tools.rules.sums import Sums

NOWHERE = 1 << 62  # the bytes up to a line that belongs to no log here
SHORTENING = "cut", "changed"
CLOSE = b"close,,,\n"


def seconds(at: str) -> str:
    """A time of the journal in whole seconds, as a posted line has it."""
    return datetime.datetime.fromisoformat(at).isoformat(timespec="seconds")


def posted_of(entry: Entry) -> tuple[Row, Event]:
    """The line that an entry posts, and its event. Raises `Damaged`."""
    line, length = entry.more.get("line"), entry.more.get("upto")
    row = row_of(line) if isinstance(line, str) else None
    if row is None or type(length) is not int:
        raise Damaged(f"The journal was changed by hand: its entry of {entry.at} has no posted line.")
    return row, Event(row.kind, row.close, length, row.why)


def public_of(entries: Sequence[Entry]) -> Public:
    """What follows from the lines that a journal posts. Raises `Damaged`."""
    public = Public()
    for entry in entries:
        take(public, entry)
    return public


def take(public: Public, entry: Entry) -> None:
    """Takes an entry that posts a line, or after which one is due."""
    why = str(entry.more.get("why", ""))
    if entry.what == "cut":
        kind: Kind = "reopened" if entry.more.get("stay") is True else "back"
        public.shorten(kind, entry.start, why)
    elif entry.what == "changed":
        public.shorten("changed", entry.start, why)
    elif entry.what == "posted":
        public.add(*posted_of(entry))


def is_publish_line(entry: Entry) -> bool:
    """Whether an entry posts that the published set is made."""
    return entry.what == "posted" and posted_of(entry)[0].kind == "publish"


def posted_text(entries: Sequence[Entry], key_sum: str, award_sum: str) -> bytes:
    """All lines that a journal posts, by the checksums of key and award: what LOG.posted has to be."""
    rows = (posted_of(it)[0] for it in entries if it.what == "posted")
    return head_text(key_sum, award_sum) + "".join(f"{row.text()}\n" for row in rows).encode()


def public_of_rows(rows: Sequence[Row]) -> Public:
    """What follows from posted lines."""
    public = Public()
    for row in rows:
        public.add(row, Event(row.kind, row.close, 0, row.why))
    return public


def stop_of(fault: Refused) -> Stop:
    """The stop of a record that is refused: no, or that a file of it can't be read."""
    if isinstance(fault, Unreadable):
        return Stop("cca: read fault kept", READ_FAULT, why=str(fault).rstrip("."))
    return Stop(f"no\n{fault}", NO)


@dataclass(frozen=True)
class Record:
    """A record whose parts agree: its entries, the log that they lead to, what was posted, and the text of that."""

    entries: Sequence[Entry]
    log: bytes
    public: Public
    posted: bytes

    @property
    def times_back(self) -> int:
        """How often the clock of the machine was set back."""
        return sum("back" in it.more for it in self.entries)


class Tester:
    """Tests a journal by the bytes of the award and of the key's file: its chain, its first entry, each log that it
    leads to, each reply, and each line that it posts. Each fault raises `Refused` with its sentence."""

    def __init__(self, award: bytes, key: bytes) -> None:
        self.award_data, self.key, self.award = award, key, read_award(award)
        self.sealer = Sealer(key, sum_of(award))
        self.posted, self.public, self.log = Sums(self.sealer.head()), Public(), LogOfEntries()

    def record(self, journal: bytes) -> Record:
        """The record of a journal. Raises `Refused`."""
        entries = chained(journal)
        if not entries:
            raise Refused("The journal has no entry.")
        self.need_first(entries[0])
        replayed(entries)
        logs = iter(self.logs(entries))
        now = next(logs)
        for number, entry in enumerate(entries, 1):
            if entry.what in SHORTENING:
                self.need_all_posted(number, now)
                now = next(logs)
            self.step(number, entry, now)
        self.need_all_posted(len(entries) + 1, now)
        if self.public.pending:
            raise Refused("The journal ends with a cut or a change that was never posted.")
        return Record(entries, bytes(self.log.text.data), self.public, bytes(self.posted.data))

    def step(self, number: int, entry: Entry, now: Replayed) -> None:
        """Tests the replies that an entry has, and what it posts."""
        self.log.take(entry)
        if entry.what == "line":
            self.need_replies(number, entry, self.log.first(entry), now)
        if entry.what == "posted":
            self.need_row(number, entry, now)
        else:
            take(self.public, entry)

    def need_first(self, first: Entry) -> None:
        """Tests that a journal begins with this award and this key."""
        need_version(first)
        pins = first.more.get("pins")
        if not isinstance(pins, dict) or pins.get("award") != sum_of(self.award_data):
            raise Refused("The award isn't the one that the journal began with.")
        if first.more.get("key") != sum_of(self.key):
            raise Refused("The key isn't the one that the journal began with.")

    def need_form(self, number: int, entry: Entry, before: Entry | None) -> None:
        """Tests the kind of an entry, and that it says so if its time is earlier than the time before it."""
        if entry.what not in KINDS or (entry.what == "begun") != (number == 1):
            raise Refused(f"The journal's entry {number} is of a kind that has no place there: `{entry.what}`.")
        back = seconds_back(before.at, entry.at) if before else 0
        if entry.more.get("back", 0) != back:
            raise Refused(f"The journal's entry {number} is {back:g} seconds before the last one, and doesn't say so.")

    def need_nothing_away(self, number: int, entry: Entry, before: Entry | None, log: Sums) -> None:
        """Tests that only a cut or a change, which are posted, take lines away from the log before it, and that a cut
        does nothing else than it says."""
        away = bytes(log.data[entry.start :])
        if entry.what not in SHORTENING and away:
            raise Refused(f"The journal's entry {number} takes answered lines away, and it is no cut and no change.")
        if entry.what == "cut" and entry.text:
            raise Refused(f"The journal's entry {number} is a cut, and puts lines into the log.")
        if before and before.what == entry.what == "cut" and same_cut(before, entry):
            return  # (a kill has interrupted the cut, which is noted a second time and keeps the same log)
        if entry.what == "cut" and entry.names("kept_sums") != [log.sum()]:
            raise Refused(f"The journal's entry {number} is a cut, and another log than the cut one was kept.")
        if entry.more.get("stay") is True and (entry.what, away) != ("cut", CLOSE):
            raise Refused(
                f"The journal's entry {number} says that it takes back a close alone, and does something else."
            )

    def need_replies(self, number: int, entry: Entry, first: int, now: Replayed) -> None:
        """Tests the replies that bidders had."""
        rows = range(first, first + entry.text.count(b"\n"))
        if entry.names("replies") != [now.replies[row] for row in rows if row in now.replies]:
            raise Refused(f"The journal's entry {number} has other replies than its lines of the log lead to.")

    def logs(self, entries: Sequence[Entry]) -> list[Replayed]:
        """Each log that was cut or changed, and the last one. Tests what each entry does to its log. Raises
        `Refused`."""
        found, log, replays = list[Replayed](), Sums(), Replays(self.award)
        for number, entry in enumerate(entries, 1):
            before = entries[number - 2] if number > 1 else None
            self.need_form(number, entry, before)
            self.need_nothing_away(number, entry, before, log)
            if entry.what in SHORTENING:
                found.append(replays.replayed(log.data, entry.start))
            log.cut(entry.start)
            log.add(entry.text)
        return [*found, replays.replayed(log.data, len(log.data))]

    def need_all_posted(self, number: int, now: Replayed) -> None:
        """Tests that each close of a log was posted before the log was cut, or by the end of the journal."""
        for event in self.due(number, now):
            if event.kind not in VOIDING:
                raise Refused(f"Close {event.close} of the log was never posted before the journal's entry {number}.")

    def due(self, number: int, now: Replayed) -> list[Event]:
        """The events that have to be posted before an entry."""
        try:
            return self.public.due(now.closes, now.is_over)
        except ValueError as fault:
            raise Refused(f"Before the journal's entry {number}, {fault}.") from None

    def need_row(self, number: int, entry: Entry, now: Replayed) -> None:
        """Tests a line that is posted."""
        row, event = posted_of(entry)
        due = self.due(number, now)
        if row.kind == "publish" and now.is_over and not due:
            due = [Event("publish", 0, len(self.log.text.data))]
        place = f"The line that the journal's entry {number} posts"
        wanted = (due[0].text(), reason_of(due[0].why), due[0].length) if due else None
        if wanted != (row.event, row.why, event.length) or event.length > len(self.log.text.data):
            raise Refused(f"{place}, `{row.event}`, isn't the one that was due.")
        if row.number != len(self.public.rows) + 1 or row.time != seconds(entry.at):
            raise Refused(f"{place} has another number or time than its entry.")
        seal = self.sealer.seal(row.unsealed(), self.log.text.sum(event.length), entry.prev, self.posted.sum())
        if not hmac.compare_digest(seal, row.seal):
            raise Refused(
                f"{place} has a seal that isn't made of this award, key, log and journal and the lines before it."
            )
        self.posted.add(f"{row.text()}\n".encode())
        self.public.add(row, due[0])


def same_cut(one: Entry, other: Entry) -> bool:
    """Whether two entries cut the log to the same length, and keep the same bytes."""
    return cut_of(one) == cut_of(other)


def cut_of(entry: Entry) -> tuple[object, ...]:
    """What a cut does and keeps."""
    return entry.start, entry.length, entry.names("kept_sums"), entry.more.get("stay")


def need_published(record: Record, journal: bytes) -> None:
    """Tests that a journal ends with the line that is posted when the set is made, and that nothing is after it. Raises
    `Refused`."""
    if not is_publish_line(record.entries[-1]):
        raise Refused("The journal doesn't end with the posted line `publish`, which the desk adds as the set is made.")
    if not journal.endswith(record.entries[-1].line() + b"\n"):
        raise Refused("The journal has something after the posted line `publish`.")


def kept_files(entries: Sequence[Entry]) -> dict[str, str]:
    """The files that keep what was taken away from the log, and their checksums, by the journal. Raises `Refused`."""
    found = dict[str, str]()
    for entry in entries:
        names, sums = entry.names("kept"), entry.names("kept_sums")
        if len(names) != len(sums):
            raise Refused(f"The journal's entry of {entry.at} has not one checksum for each file that was kept.")
        for name, total in zip(names, sums):
            if "/" in name or name.startswith(".") or found.get(name, total) != total:
                raise Refused(f"The journal names a kept file `{name}` twice, or outside its folder.")
            found[name] = total
    return found


def need_kept(entries: Sequence[Entry], read: Callable[[str], bytes]) -> Mapping[str, bytes]:
    """The files that keep what was taken away, tested. Raises `Refused`."""
    files = dict[str, bytes]()
    for name, total in kept_files(entries).items():
        files[name] = read(name)
        if sum_of(files[name]) != total:
            raise Refused(f"{name} isn't what the journal says was kept in it.")
    return files


@dataclass(frozen=True)
class Log:
    """A log, with the bytes of it up to and with each of its lines and each admitted close, and whether the last close
    ends the auction."""

    text: Sums
    line_ends: Sequence[int]
    closes: Sequence[int]
    is_over: bool


def log_of(award: Award, log: bytes) -> Log:
    """What is known of the bytes of a log. Raises `Stop` if it isn't one."""
    found = replayed_log(award, log)
    return Log(Sums(log), line_ends(log), found.closes, found.is_over)


class ByHand:
    """Lines that were posted by hand, without a journal: each seal is tried on the log as it is, and on each longer or
    other one that was kept."""

    def __init__(self, award: bytes, key: bytes, logs: Sequence[bytes]) -> None:
        """The first log is the one that counts."""
        rules = read_award(award)
        self.sealer = Sealer(key, sum_of(award))
        self.head = self.sealer.head()
        self.text = Sums(self.head)
        self.logs = [log_of(rules, log) for log in logs]
        self.public, self.foreign = Public(), set[int]()

    @property
    def posted(self) -> bytes:
        """All posted lines, as the file has them."""
        return bytes(self.text.data)

    def take(self, rows: Sequence[Row]) -> None:
        """Takes posted lines. `foreign` has those whose seal fits none of the logs."""
        own = set[int]()
        for row in rows:
            length = self.length_of(row, self.logs[:1])
            if length is not None:
                own.add(row.number)
            else:
                length = self.length_of(row, self.logs[1:])
            if length is None:
                self.foreign.add(row.number)
            self.public.add(row, Event(row.kind, row.close, NOWHERE if length is None else length, row.why))
            self.text.add(f"{row.text()}\n".encode())
        # (a line that isn't of the past belongs to the log that counts, and to no other one)
        self.foreign |= {row.number for row in rows} - self.past() - own

    def past(self) -> set[int]:
        """The lines whose seals cover a log that a later line has made void."""
        found, back_to = set(self.public.voids), math.inf  # the earliest close that a later line goes back to
        for row in reversed(self.public.rows):
            kind, close = event_of(row.event)
            if back_to < (close if kind in VOIDING else math.inf if kind == "publish" else 0):
                found.add(row.number)
            if kind in VOIDING:
                back_to = min(back_to, close)
        return found

    def length_of(self, row: Row, logs: Sequence[Log]) -> int | None:
        """The bytes of the log that a line's seal covers, if that is one of these; the lines before it were taken."""
        before = self.text.sum()
        for log in logs:
            for length in self.lengths(row, log):
                if self.is_sealed(row, log.text.sum(length), before):
                    return length
        return None

    def lengths(self, row: Row, log: Log) -> Sequence[int]:
        """How many bytes of a log the seal of a line may cover."""
        closes = log.closes
        if row.kind == "publish":
            return log.line_ends[bisect.bisect_left(log.line_ends, closes[-1]) :] if closes else []
        number = len(closes) if row.kind == "end" else row.close
        return [closes[number - 1] if number else 0] if number <= len(closes) else []

    def is_sealed(self, row: Row, log: str, before: str) -> bool:
        """Whether a line has the seal of a log after posted lines, by their checksums."""
        return hmac.compare_digest(self.sealer.seal(row.unsealed(), log, NO_JOURNAL, before), row.seal)

    def due(self, why: str, is_publish: bool = False) -> list[Event]:
        """The events that have to be posted now: the closes that weren't posted. Before them comes an event that voids
        the closes that the log doesn't have any more. After them comes `publish`, if `is_publish` and the auction is
        over."""
        closes, is_over = self.logs[0].closes, self.logs[0].is_over
        ends = [end for _, end in self.public.counting]
        same = next((at for at, end in enumerate(ends) if [end] != list(closes[at : at + 1])), len(ends))
        if same < len(ends):
            start = ends[same - 1] if same else 0
            self.public.shorten("reopened" if self.is_taken_back(same, start) else "back", start, why)
        due = self.public.due(closes, is_over)
        if is_publish and is_over and (due or not self.is_published()):
            due.append(Event("publish", 0, len(self.logs[0].text.data)))
        return due

    def is_taken_back(self, same: int, start: int) -> bool:
        """Whether the last posted close is void and the lines before it are in the log still."""
        counting, log = self.public.counting, self.logs[0]
        if same != len(counting) - 1:
            return False
        row = self.public.rows[counting[same][0] - 1]
        after = sum(len(f"{it.text()}\n".encode()) for it in self.public.rows[row.number - 1 :])
        before = self.text.sum(len(self.text.data) - after)
        ends = log.line_ends[bisect.bisect_right(log.line_ends, start) :]
        return any(self.is_sealed(row, log.text.sum(end, CLOSE), before) for end in ends)

    def is_published(self) -> bool:
        """Whether the last posted line says that the set of this very log is made."""
        rows, log = self.public.rows, self.logs[0]
        if not rows or rows[-1].kind != "publish":
            return False
        before = self.text.sum(len(self.text.data) - len(f"{rows[-1].text()}\n".encode()))
        return self.is_sealed(rows[-1], log.text.sum(), before)

    def next_row(self, event: Event, time: str) -> Row:
        """Posts the next line."""
        row = Row(len(self.public.rows) + 1, time, event.text(), "", reason_of(event.why))
        log = self.logs[0].text.sum(event.length)
        row = replace(row, seal=self.sealer.seal(row.unsealed(), log, NO_JOURNAL, self.text.sum()))
        self.public.add(row, event)
        self.text.add(f"{row.text()}\n".encode())
        return row
