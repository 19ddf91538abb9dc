"""Notes, posted lines and journals that grow in one dimension."""

from __future__ import annotations

import hashlib
import hmac
import json
from collections.abc import Iterator

from bench.grown.form import Grown, between, numbered
from cca_tools.rules.stops import MOST

KEY = b"0123456789abcdef" * 4 + b"\n"
# A note up to the part that grows.
NOTE = b"noted on the day\n"
TIME, ZEROS = "2026-12-01T19:20:00+01:00", "0" * 64
NOBODY = "bid,nobody,1 0 0 0,\n"
CLOSE = "close,,,\n"


def noted() -> Iterator[Grown]:
    """What a witness noted, and the lines that were posted."""
    room, seal = MOST["noted bytes"] - 100, b" ".join([b"0123"] * 16)
    line = b"1 2026-12-01T19:20:00+01:00 close 1 " + seal + b"\n"
    for dimension, size, text in (
        ("lines", len(line), lambda n: NOTE + line * n),
        ("lines of other seals", 120, lambda n: NOTE + b"".join(map(other_line, range(1, n + 1)))),
        ("lines without number and time", 88, lambda n: NOTE + (b"close 1 " + seal + b"\n") * n),
        ("bytes of a line", 1, lambda n: NOTE + b"x" * n + b"\n"),
        ("spaces", 1, lambda n: NOTE + b"close 1" + b" " * n + b"0"),
        ("spaces between digits", 2, lambda n: NOTE + b"close 1: " + b"0 " * n),
        ("digits", 1, lambda n: NOTE + b"0" * n + b"\n"),
        ("numbers", 2, lambda n: NOTE + b"1 " * n),
        ("events without a seal", 8, lambda n: NOTE + b"close 1 " * n),
        ("blank lines", 1, lambda n: NOTE + b"\n" * n),
        ("bytes of a reason", 1, lambda n: NOTE + line[:-1] + b": " + b"x" * n + b"\n"),
    ):
        yield Grown("noted", dimension, room // size, text)


def grouped(checksum: str) -> str:
    return " ".join(checksum[at : at + 4] for at in range(0, 64, 4))


def other_line(number: int) -> bytes:
    """A line with a seal that looks like any other one."""
    return f"{number} {TIME} close 1 {grouped(hashlib.sha256(b'%d' % number).hexdigest())}\n".encode()


def posted_head(award: bytes) -> bytes:
    """The beginning of the posted lines."""
    sums = (grouped(hashlib.sha256(data).hexdigest()) for data in (KEY, award))
    return "cca posted 1\nkey {}\naward {}\n".format(*sums).encode()


def posted(award: bytes) -> Iterator[Grown]:
    head, seal = posted_head(award), b" ".join([b"0123"] * 16)

    def line(number: int, why: bytes = b"") -> bytes:
        kind = b"close %d" % ((number + 1) // 2) if number % 2 else b"back to the start"
        return b"%d 2026-12-01T19:20:00+01:00 %s %s" % (number, kind, seal) + why + b"\n"

    room = MOST["posted bytes"] - len(head) - 200
    yield Grown("posted", "lines", room // 130, lambda n: head + b"".join(map(line, range(1, n + 1))))
    yield Grown("posted", "lines of one day", room // 130, lambda n: head + b"".join(posted_lines(award, n)))
    yield Grown("posted", "bytes of a reason", room, lambda n: head + line(2, b": " + b"x" * n))
    yield Grown("posted", "bytes of a line", room, lambda n: head + b"x" * n + b"\n")
    yield Grown("posted", "blank lines", room, lambda n: head + b"\n" * n)


class Sealed:
    """Posted lines with their seals. Each seal covers the checksum of the lines before it."""

    def __init__(self, award: bytes) -> None:
        self.award, self.count = hashlib.sha256(award).hexdigest(), 0
        self.before = hashlib.sha256(posted_head(award))

    def line(self, event: str, log: str, journal: str) -> str:
        """The next line, by the checksums of the log and of the journal's last line."""
        self.count += 1
        words = f"{self.count} {TIME} {event}"
        sums = f"award {self.award}\nlog {log}\njournal {journal}\nposted {self.before.hexdigest()}"
        seal = hmac.digest(bytes.fromhex(KEY.decode()), f"cca seal 1\n{sums}\n{words}\n".encode(), "sha256").hex()
        text = f"{words} {grouped(seal)}"
        self.before.update(f"{text}\n".encode())
        return text


def sum_of(text: str) -> str:
    return hashlib.sha256(text.encode()).hexdigest()


def posted_lines(award: bytes, count: int) -> Iterator[bytes]:
    """Lines of a clock that is closed and started again, over and over; by hand, without a journal."""
    sealed = Sealed(award)
    for number in range(count):
        event, log = ("back to the start", "") if number % 2 else ("close 1", CLOSE)
        yield f"{sealed.line(event, sum_of(log), '-')}\n".encode()


class Day:
    """A journal that is written entry by entry, as docs/FORMATS.md has its form."""

    def __init__(self, award: bytes) -> None:
        self.lines, self.sealed, self.prev = list[bytes](), Sealed(award), ZEROS
        about: dict[str, object] = {"version": 1, "pins": {"award": self.sealed.award, "program": ZEROS}}
        about |= {"key": hashlib.sha256(KEY).hexdigest(), "about": {"program": "-", "tools": "-"}}
        self.add("begun", 0, "", sum_of(""), **about)

    def add(self, what: str, start: int, text: str, total: str, **more: object) -> None:
        """The next entry: `text` after the first bytes of the log, and the checksum of the log then."""
        fields = {"prev": self.prev, "at": "2026-12-01T19:20:00.000+01:00", "what": what, "epoch": "0" * 16}
        at_end = {"bytes": start + len(text), "sum": total, "from": start, "text": text}
        self.lines.append(json.dumps({**fields, **at_end, **more}).encode())
        self.prev = hashlib.sha256(self.lines[-1]).hexdigest()

    def post(self, event: str, length: int, total: str) -> None:
        """The next posted line, which covers the log of this length and checksum."""
        self.add("posted", length, "", total, line=self.sealed.line(event, total, self.prev), upto=length)

    def text(self) -> bytes:
        return b"".join(line + b"\n" for line in self.lines)


def journal_of(award: bytes, count: int, text: str) -> bytes:
    """A journal of this many entries, each with these lines of the log, which are refused as `unknown`."""
    day, log, size = Day(award), hashlib.sha256(), 0
    for _ in range(count):
        log.update(text.encode())
        day.add("line", size, text, log.hexdigest(), replies=["unknown"] * text.count("\n"))
        size += len(text)
    return day.text()


def posting_journal(award: bytes, count: int) -> bytes:
    """A journal of this many posted lines: a clock that is closed and started again, over and over."""
    day, empty, closed = Day(award), sum_of(""), sum_of(CLOSE)
    for number in range(count):
        if number % 2:
            day.add("cut", 0, "", empty, why="", kept_sums=[closed])
            day.post("back to the start", 0, empty)
        else:
            day.add("line", 0, CLOSE, closed, replies=["sealed"])
            day.post("close 1", len(CLOSE), closed)
    return day.text()


def cut_journal(award: bytes, count: int) -> bytes:
    """A journal of this many cuts: each time two lines come, and one is cut off."""
    day, log, size, empty = Day(award), hashlib.sha256(), 0, sum_of("")
    for _ in range(count):
        log.update(NOBODY.encode())
        size += len(NOBODY)
        whole = log.copy()
        whole.update(NOBODY.encode())
        day.add("line", size - len(NOBODY), NOBODY * 2, whole.hexdigest(), replies=["unknown"] * 2)
        day.add("cut", size, "", log.hexdigest(), why="", kept_sums=[whole.hexdigest()])
        day.add("posted", size, "", log.hexdigest(), line=day.sealed.line("back to the start", empty, day.prev), upto=0)
    return day.text()


def journals(award: bytes) -> Iterator[Grown]:
    room = MOST["journal bytes"]
    begun = journal_of(award, 0, "")
    yield Grown("journal", "entries", MOST["records"], lambda n: journal_of(award, n, NOBODY))
    yield Grown("journal", "lines of an entry", MOST["records"], lambda n: journal_of(award, 1, NOBODY * n))
    yield Grown("journal", "posted lines", 100_000, lambda n: posting_journal(award, n))
    yield Grown("journal", "cuts of a growing log", MOST["records"], lambda n: cut_journal(award, n))
    yield Grown("journal", "torn lines", room // 10, lambda n: begun + b"{} (torn)\n" * n)
    for dimension, size, text in (
        ("bytes of a line", 1, lambda n: b"x" * n),
        ("depth of lists", 2, lambda n: b"[" * n + b"]" * n),
        ("depth of objects", 6, lambda n: b'{"a":' * n + b"1" + b"}" * n),
        ("digits of a number", 1, lambda n: b'{"at": ' + b"1" * n + b"}"),
        ("bytes of a text", 1, lambda n: b'{"at": "' + b"x" * n + b'"}'),
        ("escapes of a text", 6, lambda n: b'{"at": "' + b"\\u0041" * n + b'"}'),
        ("keys", 14, lambda n: b"{" + numbered(b'"k%d":1,', n)[:-1] + b"}"),
        ("blank lines", 1, lambda n: b"\n" * n),
    ):
        yield Grown("journal", dimension, room // size, between(begun, text, b"\n"))
