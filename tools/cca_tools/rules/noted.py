"""The posted lines that somebody noted on the day, and what is found about each of them.

A note may have any of the lines, in any order, with other text between them, in capitals, over several lines or without
spaces between the digits. Number, time and reason may be left out, and no digit of a seal.
"""

from __future__ import annotations

import collections
import dataclasses
import hmac
import re
from collections.abc import Mapping

from cca_tools.rules.printable import clipped
from cca_tools.rules.seals import EVENT, TIME, Public, Row
from cca_tools.rules.stops import refused

WORDS = EVENT.replace(" ", r"\s+")
SEAL = r"[0-9a-f](?:\s*[0-9a-f]){63}(?![0-9a-f])"
FOUND = re.compile(
    rf"(?:\b(?P<number>\d{{1,6}})\.?\s+)?(?:(?P<time>{TIME})\s+)?\b(?P<event>key|award|{WORDS})[:\s]\s*(?P<seal>{SEAL})"
    r"(?:\s?:[^\S\n]*(?P<why>[^\n]*))?",
    re.IGNORECASE,
)
# Digits that look like a seal's, in what is left of a note.
LOOKS_LIKE = re.compile(r"(?:[0-9a-f]{4}\s){3}|[0-9a-f]{12}", re.IGNORECASE)
NEAR = 12  # digits


@dataclasses.dataclass(frozen=True)
class Noted:
    """A line as somebody noted it: the line of `key` or `award` has its checksum as `seal`; what wasn't noted is
    empty."""

    number: str
    time: str
    event: str
    seal: str
    why: str

    def name(self) -> str:
        """The line's name in an answer."""
        return f"line {self.number} ({self.event})" if self.number else self.event

    def agrees(self, row: Row) -> bool:
        """Whether everything that was noted is in the posted line."""
        return (
            hmac.compare_digest(self.seal, row.seal)
            and self.event == row.event
            and self.number in ("", str(row.number))
            and self.time in ("", row.time)
            and " ".join(self.why.split()) in ("", row.why)
        )


@dataclasses.dataclass(frozen=True)
class Verdict:
    """What is found about a noted line: whether these files have posted it, a sentence, and the number of the posted
    line (0 for `key` and `award`)."""

    is_posted: bool
    text: str
    row: int = 0


def read_noted(data: bytes) -> list[Noted]:
    """The lines that somebody noted, in any order. Raises `Stop` for one that isn't whole."""
    text, found, rest, at = data.decode("utf-8", "replace"), list[Noted](), list[str](), 0
    for it in FOUND.finditer(text):
        found.append(noted_of(it))
        rest.append(text[at : it.start()])
        rest.append(re.sub(r"[^\n]", "", it[0]))
        at = it.end()
    for row, left in enumerate("".join([*rest, text[at:]]).split("\n"), 1):
        if LOOKS_LIKE.search(left):
            digits = len(re.findall("[0-9a-f]", re.sub(rf"(?i)^.*?\b(?:key|award|{WORDS})\s", "", left.lower())))
            form = "`key CHECKSUM`, `award CHECKSUM` or `N TIME EVENT SEAL`"
            why = f"`{clipped(left.strip())}` isn't a whole line: a posted line is {form}, with 64 digits, not {digits}"
            raise refused("noted", row, why=why)
    return found


def noted_of(found: re.Match[str]) -> Noted:
    """A line that was found in a note."""
    number = (found["number"] or "").lstrip("0")
    event, seal = " ".join(found["event"].lower().split()), "".join(found["seal"].lower().split())
    if event in ("key", "award"):
        return Noted("", "", event, seal, "")
    return Noted(number, (found["time"] or "").upper(), event, seal, (found["why"] or "").strip())


class Judge:
    """Finds what is to be said about noted lines, by the posted lines, and by the checksums of key and award.

    The posted lines are found by their seals, and those that resemble a seal by its groups of digits: two seals that
    differ in at most `NEAR` digits have a group in common.
    """

    def __init__(self, public: Public, heads: Mapping[str, str]) -> None:
        self.public, self.heads = public, heads
        self.rows = {row.seal: row for row in reversed(public.rows)}
        self.alike = collections.defaultdict[tuple[int, str], list[Row]](list)
        for row in self.rows.values():
            for group in groups(row.seal):
                self.alike[group].append(row)

    def verdict(self, noted: Noted) -> Verdict:
        """What is found about a noted line."""
        if noted.event in self.heads:
            total = self.heads[noted.event]
            if hmac.compare_digest(noted.seal, total):
                return Verdict(True, "agrees")
            hint = near(noted.seal, total)
            return Verdict(False, f"NOT of these files: the {noted.event} has another checksum{hint}")
        row = self.rows.get(noted.seal)
        if row is None:
            return Verdict(False, f"NOT of these files: no posted line has this seal{self.nearest(noted)}")
        if not noted.agrees(row):
            return Verdict(False, f"NOT of these files: the seal is the one of `{row.unsealed()}`")
        if void := self.public.void_words(row.number):
            return Verdict(True, f"posted as line {row.number}, {void}", row.number)
        return Verdict(True, f"agrees (line {row.number})" if not noted.number else "agrees", row.number)

    def nearest(self, noted: Noted) -> str:
        """The posted line that is close enough to a seal for a misread digit; empty if no line is."""
        rows = {row.number: row for group in groups(noted.seal) for row in self.alike.get(group, ())}
        row = min(rows.values(), key=lambda it: (differing(noted.seal, it.seal), it.number), default=None)
        hint = near(noted.seal, row.seal) if row else ""
        return f"{hint} in line {row.number}" if row and hint else ""


def groups(seal: str) -> list[tuple[int, str]]:
    """The groups of four digits of a seal, each with its place."""
    return [(at, seal[at : at + 4]) for at in range(0, len(seal), 4)]


def near(noted: str, posted: str) -> str:
    """How a noted checksum differs from a posted one, if only a few digits do: they may be misread."""
    if not 0 < differing(noted, posted) <= NEAR:
        return ""
    groups = [(noted[at : at + 4], posted[at : at + 4], at // 4 + 1) for at in range(0, len(posted), 4)]
    places = [
        f"group {place} is `{one}` here and was posted as `{other}`" for one, other, place in groups if one != other
    ]
    return f"; look at what you noted again: {', '.join(places)}"


def differing(one: str, other: str) -> int:
    """How many digits of two checksums differ."""
    return sum(a != b for a, b in zip(one, other))
