"""The lines that are posted on the day of an auction, and their seals. docs/FORMATS.md has the form of LOG.posted.

Each seal binds the award, the log, the journal and all posted lines before it, and reveals no bid before the end: the
plain checksum of a log would let a bidder find the bids of others by trying, and the key prevents that until it is
published.
"""

from __future__ import annotations

import dataclasses
import hashlib
import hmac
import re
import secrets
from collections.abc import Sequence
from typing import Literal, TypeAlias

from cca_tools.rules.auction import Auction
from cca_tools.rules.printable import printable
from cca_tools.rules.stops import refused

VERSION = 1
FORM = f"cca posted {VERSION}"
KEY = re.compile(rb"[0-9a-f]{64}\n")
DIGITS = r"[0-9a-f]{4}(?: [0-9a-f]{4}){15}"
TIME = r"\d{4}-\d\d-\d\dT\d\d:\d\d:\d\d[+-]\d\d:\d\d"
NUMBER = r"0|[1-9]\d{0,3}"
HEAD = re.compile(rf"(key|award) ({DIGITS})")
EVENT = (
    rf"end|publish|close (?:{NUMBER})(?: taken back)?|(?:back to|log changed after) (?:the start|close (?:{NUMBER}))"
)
LINE = re.compile(rf"([1-9]\d{{0,5}}) ({TIME}) ({EVENT}) ({DIGITS})(?:: (.+))?")
NO_JOURNAL = "-"
VOIDING = "back", "reopened", "changed"

Kind: TypeAlias = Literal["close", "end", "publish", "back", "reopened", "changed"]


@dataclasses.dataclass(frozen=True)
class Event:
    """A public event: its kind, the number of the close that it is of or goes back to (0 for the start), the bytes of
    the log up to and with it, and its reason."""

    kind: Kind
    close: int
    length: int
    why: str = ""

    def text(self) -> str:
        """The event as a posted line names it."""
        place = f"close {self.close}" if self.close else "the start"
        match self.kind:
            case "close":
                return f"close {self.close}"
            case "back":
                return f"back to {place}"
            case "reopened":
                return f"close {self.close + 1} taken back"
            case "changed":
                return f"log changed after {place}"
            case _:
                return self.kind


def event_of(text: str) -> tuple[Kind, int]:
    """The kind of an event that a posted line names, and its close: 0 for the start, for `end` and for `publish`."""
    number = int(next(iter(re.findall(r"\d+", text)), "0"))
    if text.startswith("back to"):
        return "back", number
    if text.startswith("log changed"):
        return "changed", number
    if text.endswith("taken back"):
        return "reopened", number - 1
    if text.startswith("close"):
        return "close", number
    if text == "end":
        return "end", 0
    return "publish", 0


@dataclasses.dataclass(frozen=True)
class Row:
    """A posted line of a public event."""

    number: int
    time: str
    event: str
    seal: str
    why: str = ""

    @property
    def kind(self) -> Kind:
        """The kind of the event."""
        return event_of(self.event)[0]

    @property
    def close(self) -> int:
        """The number of the close that an event is of or goes back to; 0 for the end, whose number isn't posted."""
        return event_of(self.event)[1]

    def unsealed(self) -> str:
        """The line without its seal, as the seal covers it."""
        return f"{self.number} {self.time} {self.event}" + (f": {self.why}" if self.why else "")

    def text(self) -> str:
        """The line."""
        return f"{self.number} {self.time} {self.event} {grouped(self.seal)}" + (f": {self.why}" if self.why else "")

    def cause(self) -> str:
        """What an event that makes earlier lines void has done, in words."""
        place = f"close {self.close}" if self.close else "the start"
        words = {
            "back": f"the auction went back to {place}",
            "reopened": f"close {self.close + 1} was taken back, and the lines of its round stay",
            "changed": f"the log was changed after {place}",
        }
        return words.get(self.kind, self.event) + (f": {self.why}" if self.why else "")


def grouped(checksum: str) -> str:
    """A checksum in groups of four digits, to be compared by eye and by voice."""
    return " ".join(checksum[at : at + 4] for at in range(0, len(checksum), 4))


def new_key() -> bytes:
    """The bytes of a new key's file."""
    return secrets.token_hex(32).encode() + b"\n"


def key_of(data: bytes) -> bytes:
    """The key that the bytes of its file state. Raises `Stop`."""
    if not KEY.fullmatch(data):
        raise refused("key", why="a key is one line of 64 digits 0 to 9 and a to f, as `tools/seal new` makes it")
    return bytes.fromhex(data.decode())


def sum_of(data: bytes) -> str:
    """The checksum (SHA-256) of bytes: of a key's file, an award, a log, a line of the journal."""
    return hashlib.sha256(data).hexdigest()


def line_ends(data: bytes) -> list[int]:
    """The bytes of a log up to and with each of its lines."""
    ends, at = list[int](), 0
    for line in data.splitlines(True):
        at += len(line)
        ends.append(at)
    return ends


def closed_lengths(data: bytes, auction: Auction) -> list[int]:
    """The bytes of the log up to and with each admitted close, if the auction is the log's. Raises `Stop`."""
    ends, found = line_ends(data), list[int]()
    for line, reply in zip(auction.lines, auction.replies):
        if line.kind == "close" and reply.is_ok:
            if not data[: ends[line.row - 1]].endswith(b"\n"):
                raise refused("log", line.number, why=f"the close in record {line.number} has no line feed at its end")
            found.append(ends[line.row - 1])
    return found


def head_rows(key_sum: str, award_sum: str) -> list[str]:
    """The two lines that are posted before the first line of the log, by the checksums of key and award."""
    return [f"key {grouped(key_sum)}", f"award {grouped(award_sum)}"]


def head_text(key_sum: str, award_sum: str) -> bytes:
    """The beginning of LOG.posted, by the checksums of key and award."""
    return "".join(f"{row}\n" for row in (FORM, *head_rows(key_sum, award_sum))).encode()


def reason_of(text: str) -> str:
    """A reason as it is posted: on one line, with an escape for each character that can't be seen."""
    return printable(" ".join(text.split()))


@dataclasses.dataclass(frozen=True)
class Sealer:
    """What makes seals: the bytes of the key's file, and the checksum of the award."""

    key: bytes
    award: str

    def head(self) -> bytes:
        """The beginning of LOG.posted."""
        return head_text(sum_of(self.key), self.award)

    def seal(self, row: str, log: str, journal: str, before: str) -> str:
        """The seal of a posted line, by the checksums of the log, of the journal's last line and of LOG.posted before
        the line."""
        sums = f"award {self.award}\nlog {log}\njournal {journal}\nposted {before}"
        return hmac.digest(key_of(self.key), f"cca seal 1\n{sums}\n{row}\n".encode(), "sha256").hex()

    def row(self, event: Event, time: str, log: bytes, journal: str, before: bytes) -> Row:
        """The next posted line."""
        number = before.count(b"\n") - self.head().count(b"\n") + 1
        made = Row(number, time, event.text(), "", reason_of(event.why))
        seal = self.seal(made.unsealed(), sum_of(log[: event.length]), journal, sum_of(before))
        return dataclasses.replace(made, seal=seal)


def row_of(text: str) -> Row | None:
    """The posted line of a public event, or None for any other text."""
    found = LINE.fullmatch(text)
    return Row(int(found[1]), found[2], found[3], found[4].replace(" ", ""), found[5] or "") if found else None


def read_posted(data: bytes) -> list[Row]:
    """The posted lines of public events, by the bytes of LOG.posted. Raises `Stop`."""
    texts = data.decode("utf-8", "replace").split("\n")
    if texts[0] != FORM or len(texts) < 2:
        raise refused("posted", 1, why=f"the first line has to be `{FORM}`: these tools read this version alone")
    for at, kind in enumerate(("key", "award"), 1):
        found = HEAD.fullmatch(texts[at]) if at < len(texts) - 1 else None
        if not found or found[1] != kind:
            raise refused("posted", at + 1, why=f"this line has to be `{kind} CHECKSUM`, 64 digits in groups of four")
    rows = list[Row]()
    for number, text in enumerate(texts[3:-1], 1):
        row = row_of(text)
        if row is None or row.number != number:
            why = f"this line has to be `{number} TIME EVENT SEAL`, as `tools/seal --help` shows it"
            raise refused("posted", number + 3, why=why)
        rows.append(row)
    if texts[-1]:
        raise refused("posted", len(texts), why="the last line has no line feed")
    return rows


class Public:
    """What follows from the posted lines: which lines are void and since which later line, and which closes count."""

    def __init__(self) -> None:
        self.rows: list[Row] = []
        self.voids: dict[int, int] = {}  # a line's number, and the number of the line that made it void
        self.counting: list[tuple[int, int]] = []  # for each close that counts: its line, and the bytes of the log
        self.pending: Event | None = None  # a cut or a change that isn't posted yet

    def shorten(self, kind: Kind, length: int, why: str) -> None:
        """The log is unchanged up to this byte, and other bytes may be after it."""
        counting = sum(end <= length for _, end in self.counting)
        kinds = {kind, self.pending.kind} if self.pending else {kind}
        kind = "changed" if "changed" in kinds else "back" if "back" in kinds else kind
        counting = min(counting, self.pending.close) if self.pending else counting
        end = self.counting[counting - 1][1] if counting else 0
        self.pending = Event(kind, counting, end, why)

    def due(self, closes: Sequence[int], is_over: bool) -> list[Event]:
        """The events that have to be posted now, if these are the closes of the log; `is_over` is whether the last one
        ends the auction. Raises `ValueError` if other closes were posted."""
        found = [] if self.pending is None else [self.pending]
        kept = [end for _, end in self.counting][: self.pending.close if self.pending else None]
        if list(closes[: len(kept)]) != kept:
            raise ValueError("the closes that were posted aren't those of the log")
        for number in range(len(kept) + 1, len(closes) + 1):
            is_end = is_over and number == len(closes)
            found.append(Event("end" if is_end else "close", number, closes[number - 1]))
        return found

    def add(self, row: Row, event: Event) -> None:
        """Takes the posted line of an event."""
        if event.kind in VOIDING:
            for number, _ in self.counting[event.close :]:
                self.voids[number] = row.number
            del self.counting[event.close :]
            self.pending = None
        elif event.kind != "publish":
            self.counting.append((row.number, event.length))
        self.rows.append(row)

    def void_words(self, number: int) -> str:
        """Since which line a line is void, and why; nothing for a line that isn't."""
        if number not in self.voids:
            return ""
        by = self.rows[self.voids[number] - 1]
        return f"void since line {by.number}: {by.cause()}"
