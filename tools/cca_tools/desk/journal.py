"""The journal of the log: each reply with its time, and everything that was done to the log, one JSON object on each
line. docs/FORMATS.md has its form.

Each entry has the text that it put after the first `from` bytes of the log, and the length and the checksum of the log
after it. So the journal is enough to restore the log. A line that isn't an entry is ignored: a kill or a power cut left
it, and nobody has seen the rest.

Each entry has in `prev` the checksum of the line before it, so that the checksum of a line binds all lines before it,
and each seal covers it. If torn lines are between two entries, the checksum is of the last entry's line with them.
"""

from __future__ import annotations

import contextlib
import dataclasses
import datetime
import hmac
import json
import os
from collections.abc import Iterator, Mapping, Sequence
from pathlib import Path
from typing import cast

from cca_tools.desk.disk import APPEND, Refused, append_once, opened, read_file, sum_of, write_again
from cca_tools.rules.sums import Sums

BLOCK = 65_536
# Added to a torn line so that it isn't an entry, even if only its line feed was missing. Nothing of it is taken away.
TORN = b" (torn)\n"
NO_LINE = "0" * 64
VERSION = 1
KINDS = frozenset(
    (
        "begun",
        "line",
        "posted",
        "cut",
        "cut ended",
        "changed",
        "put back",
        "taken back",
        "ended",
        "found",
        "restored",
        "started again",
        "other tools",
    )
)


@dataclasses.dataclass(frozen=True)
class Entry:
    """An entry: its time, what it is of, the epoch, and the log after it: `text` after the first `start` bytes of the
    log before it, and the length and the checksum of all of it. `more` has replies, reasons and names of kept files."""

    at: str
    what: str
    epoch: str
    start: int
    text: bytes
    length: int
    sum: str
    more: Mapping[str, object]
    prev: str = NO_LINE

    def line(self) -> bytes:
        """As the journal has it, without its line feed."""
        fields = {
            "prev": self.prev,
            "at": self.at,
            "what": self.what,
            "epoch": self.epoch,
            "bytes": self.length,
            "sum": self.sum,
        }
        return json.dumps({**fields, "from": self.start, "text": self.text.decode("latin-1"), **self.more}).encode()

    @staticmethod
    def of(line: bytes) -> Entry | None:
        """The entry of a line, or None."""
        try:
            more = json.loads(line)
            fields = [more.pop(name) for name in ("at", "what", "epoch", "from", "text", "bytes", "sum", "prev")]
            at, what, epoch, start, text, length, total, prev = fields
            forms = [
                (prev, str),
                (at, str),
                (what, str),
                (epoch, str),
                (start, int),
                (text, str),
                (length, int),
                (total, str),
            ]
            if not all(type(field) is form for field, form in forms):
                return None
            return Entry(at, what, epoch, start, text.encode("latin-1"), length, total, more, prev)
        except (ValueError, KeyError, AttributeError, TypeError, RecursionError):
            return None

    def names(self, key: str) -> list[str]:
        """The texts of a list in `more`."""
        found = self.more.get(key, [])
        return [str(name) for name in cast(Sequence[object], found)] if isinstance(found, list) else []

    def whole(self) -> tuple[int, str] | None:
        """The length and the sum of the longer log that the entry's text was cut out of, or None."""
        found = self.more.get("whole")
        if isinstance(found, list) and len(found) == 2 and type(found[0]) is int and type(found[1]) is str:
            return found[0], found[1]
        return None


def now() -> str:
    """The time as an entry has it."""
    return datetime.datetime.now().astimezone().isoformat(timespec="milliseconds")


def seconds_back(before: str, after: str) -> float:
    """How many seconds `after` is earlier than `before`; 0 if it isn't earlier."""
    try:
        first, second = map(datetime.datetime.fromisoformat, (before, after))
        return max(0.0, round((first - second).total_seconds(), 3))
    except (ValueError, TypeError):
        return 0.0


def entry(what: str, epoch: str, log: bytes, start: int, **more: object) -> Entry:
    """An entry of now: after it the log is this one, as it was before up to byte `start`."""
    return Entry(now(), what, epoch, start, log[start:], len(log), sum_of(log), more)


class Damaged(Refused):
    """The journal doesn't lead to the logs whose checksums it has: somebody has changed it."""


def need_version(first: Entry) -> None:
    """Tests that a journal is of the form that this desk writes. Raises `Refused`."""
    if first.more.get("version") != VERSION:
        raise Refused(f"The journal is of version {first.more.get('version')}, and these tools read version {VERSION}.")


def is_older(line: bytes) -> bool:
    """Whether a line is an entry of a desk of before version 1, which had no chain."""
    try:
        found = json.loads(line)
    except (ValueError, RecursionError):
        return False
    return isinstance(found, dict) and "what" in found and "prev" not in found


class Journal:
    """The journal at a path. Only a process that has locked the log may note something."""

    def __init__(self, path: Path) -> None:
        self.path = path
        self._known: tuple[bytes, list[Entry]] = b"", []  # what was read last, up to an entry

    def entries(self) -> list[Entry]:
        """All entries, oldest first. Raises `Missing` or `Refused`."""
        data, (known, found) = read_file(self.path), self._known
        if known and data.startswith(known):
            found = [*found, *chained(data[len(known) :], found[-1].line(), known.count(b"\n"))]
        else:
            found = chained(data)
        if found and data.endswith(found[-1].line() + b"\n"):
            self._known = data, found
        return list(found)

    def last(self) -> Entry | None:
        """The newest entry, read from the end of the file. Raises `Missing` or `Refused`."""
        with self._open(os.O_RDONLY) as handle:
            size, taken = os.fstat(handle).st_size, BLOCK
            while True:
                lines = os.pread(handle, taken, max(0, size - taken)).split(b"\n")
                # (after the last line feed is nothing, or a torn line; the first line may be the end of one)
                whole = lines[0 if taken >= size else 1 : -1]
                if found := next(filter(None, map(Entry.of, reversed(whole))), None):
                    return found
                if taken >= size:
                    return None
                taken *= 8

    def head(self) -> str:
        """The checksum of the last line, which binds all lines. Raises `Missing` or `Refused`."""
        with self._open(os.O_RDONLY) as handle:
            return line_sum(self._last_lines(handle))

    def note(self, new: Entry) -> None:
        """Adds an entry after the last line, synced. Raises `Refused` if nothing was written, and `Unsure`."""
        last = self.last()
        back = seconds_back(last.at, new.at) if last else 0
        with self._open(APPEND) as handle:
            size = os.fstat(handle).st_size
            is_torn = size > 0 and os.pread(handle, 1, size - 1) != b"\n"
            more: dict[str, object] = dict(new.more)
            if back:
                more["back"] = back
            line = dataclasses.replace(new, more=more, prev=line_sum(self._last_lines(handle))).line()
            append_once(handle, (TORN if is_torn else b"") + line + b"\n", self.path.name)

    def _last_lines(self, handle: int) -> bytes | None:
        """The last entry's line and the torn ones after it, without their last line feed; None if there is none."""
        size, taken = os.fstat(handle).st_size, BLOCK
        while size:
            data = os.pread(handle, taken, max(0, size - taken))
            lines = (data[:-1] if data.endswith(b"\n") else data + TORN[:-1]).split(b"\n")
            for place in range(len(lines) - 1, -1 if taken >= size else 0, -1):
                if Entry.of(lines[place]) or (place == 0 and taken >= size):
                    return b"\n".join(lines[place:])
            taken *= 8
        return None

    @contextlib.contextmanager
    def _open(self, flags: int) -> Iterator[int]:
        """The open journal. A fault of reading raises `Refused`."""
        with opened(self.path, flags) as handle:
            try:
                yield handle
            except OSError as fault:
                raise Refused(f"{self.path.name} can't be read: {fault.strerror}.") from None

    def settle(self) -> None:
        """Makes certain that the disk has the newest entry, whose sync may have failed or never come."""
        data = read_file(self.path)
        end = data.rfind(b"\n")
        write_again(self.path, data.rfind(b"\n", 0, max(0, end)) + 1)


def line_sum(line: bytes | None) -> str:
    """The checksum of a line of the journal, as the next one has it; zeros before the first."""
    return NO_LINE if line is None else sum_of(line)


def chained(data: bytes, before: bytes | None = None, lines: int = 0) -> list[Entry]:
    """The entries of a journal, or of its rest after an entry's line and that many lines, oldest first. Raises
    `Damaged` for one without the checksum of the line before it, and for a line that no desk has written."""
    found, parts = list[Entry](), [] if before is None else [before]
    for number, line in enumerate(data.split(b"\n")[:-1], lines + 1):
        new = Entry.of(line)
        if new and not hmac.compare_digest(new.prev.encode(), line_sum(b"\n".join(parts) if parts else None).encode()):
            raise Damaged(changed_words(number, f"of {new.at}, doesn't have the checksum of the line before it"))
        # (one text has one reading, so no line says one thing to this reader and another to a person)
        if new.line() != line if new else not line.endswith(TORN[:-1]):
            raise Damaged(changed_words(number, "isn't as a desk writes it"))
        found += [new] if new else []
        if new:
            parts.clear()
        parts.append(line)
    return found


def changed_words(number: int, what: str) -> str:
    """The sentence about a journal that somebody has changed."""
    return f"The journal was changed by hand: its line {number}, {what}. Put its copy back."


class LogOfEntries:
    """The log that the entries of a journal lead to, one after another, with the number of its lines."""

    def __init__(self) -> None:
        self.text, self.lines = Sums(), 0

    def take(self, entry: Entry) -> bytes:
        """Takes an entry, and returns what it takes away from the end of the log."""
        away = bytes(self.text.data[entry.start :])
        self.text.cut(entry.start)
        self.text.add(entry.text)
        self.lines += entry.text.count(b"\n") - away.count(b"\n")
        return away

    def first(self, entry: Entry) -> int:
        """The number of the first line of the entry that was taken last."""
        return self.lines - entry.text.count(b"\n") + 1


def replayed(entries: Sequence[Entry]) -> bytes:
    """The log after these entries. Raises `Damaged`."""
    log = Sums()
    for number, found in enumerate(entries, 1):
        log.cut(found.start)
        is_next = found.start == len(log.data)
        log.add(found.text)
        if not is_next or (len(log.data), log.sum()) != (found.length, found.sum):
            raise Damaged(
                f"The journal was changed by hand: its entry {number}, of {found.at}, doesn't follow from those before"
                " it. Put its copy back."
            )
    return bytes(log.data)
