"""What is typed at the desk: a line in a form, lines as text, and the text that a close or a cut asks for.

Lines become bytes as the log has them: ASCII, one record to a line, each with its line feed, without quotes, blank
lines and carriage returns. So no record goes around a button, and each line that is sent is one record. The web pages
are elsewhere.
"""

from __future__ import annotations

import dataclasses
import re
import unicodedata
from collections.abc import Mapping
from typing import NoReturn

from cca_tools.rules.auction import Auction, Reply
from cca_tools.rules.printable import clipped
from cca_tools.rules.types import Kind, Stage

CLOSE = b"close,,,\n"
KINDS: dict[Stage, tuple[Kind, ...]] = {"clock": ("bid",), "sealed": ("draft", "drop", "submit"), "closed": ()}
# Signs that people, and the desk itself, put between thousands; all signs in a number are the same.
THOUSANDS = re.compile(r"\d{1,3}([,' \u00a0\u2009\u202f])\d{3}(?:\1\d{3})*")
PROPORTION = 10  # an amount of this many times another one may be a typing error
COUNTS = re.compile(r"\d+(?: \d+)*")
FOREIGN = re.compile(r"[^\x20-\x7e\n]|\"")


class NotLines(Exception):
    """What was typed isn't text of lines: why, in a sentence for the page, and the field that it was typed into."""

    def __init__(self, why: str, field: str = "") -> None:
        super().__init__(why)
        self.field = field


@dataclasses.dataclass(frozen=True)
class Typed:
    """What a form has, as it was typed: a line by its fields, or lines as text in `raw`."""

    kind: str = ""
    bidder: str = ""
    package: str = ""
    amount: str = ""
    raw: str = ""

    @staticmethod
    def of(form: Mapping[str, str]) -> Typed:
        """What a form that was sent has."""
        return Typed(*(form.get(field.name, "") for field in dataclasses.fields(Typed)))

    def text(self) -> bytes:
        """The lines that were typed. Raises `NotLines`."""
        return pasted(self.raw) if self.raw else self.record()

    def record(self) -> bytes:
        """The line that the fields of the form state."""
        if not any(self.kind in kinds for kinds in KINDS.values()):
            raise NotLines("Choose what was sent.", "kind")
        if not self.bidder:
            raise NotLines("Choose the bidder.", "bidder")
        package = "" if self.kind == "submit" else counts_of(self.package)
        amount = amount_of(self.amount) if self.kind == "draft" else ""
        return plain(f"{self.kind},{self.bidder},{package},{amount}\n")


def counts_of(text: str) -> str:
    """The counts of a package with one space between them."""
    counts = " ".join(text.split())
    if not COUNTS.fullmatch(counts):
        raise NotLines(
            "A package is a count for each category with a space between them, 0 for none. "
            f"{'It is empty' if not counts else f'`{clipped(counts)}` is typed'}.",
            "package",
        )
    return counts


def amount_of(text: str) -> str:
    """The digits of an amount; what sets off its thousands is left out."""
    amount = text.strip()
    digits = re.sub(r"\D", "", amount) if THOUSANDS.fullmatch(amount) else amount
    if not (digits.isascii() and digits.isdecimal()):
        typed = f"`{clipped(amount)}` is typed" if amount else "It is empty"
        raise NotLines(f"An amount is a whole number. {typed}.", "amount")
    return digits


def pasted(raw: str) -> bytes:
    """The lines of a text that was pasted. A browser ends each line of it with two characters."""
    text = raw.replace("\r\n", "\n").strip("\n")
    if not text:
        raise NotLines("No line is typed.")
    return plain(text + "\n")


def plain(text: str) -> bytes:
    """The bytes of a text of lines, which has nothing but printable ASCII without quotes, and no blank line."""
    if found := FOREIGN.search(text):
        foreign(text, found.start())
    if not text.endswith("\n"):
        raise NotLines("The last line has no line feed.")
    for row, line in enumerate(text[:-1].split("\n"), 1):
        if not line.strip():
            raise NotLines(f"Line {row} is blank. A log has a record on each line.")
    return text.encode("ascii")


def foreign(text: str, at: int) -> NoReturn:
    """Says which character no line has."""
    row, column = text.count("\n", 0, at) + 1, at - text.rfind("\n", 0, at)
    name = unicodedata.name(text[at], "").lower() or "a control character"
    raise NotLines(
        f"Line {row} has a character that no line of the log may have: U+{ord(text[at]):04X}, {name}, its character"
        f" {column}. Lines are plain text without quotes."
    )


def closes_in(text: bytes) -> int:
    """How many of these lines are closes, or would be except for spaces."""
    return sum(line.split(b",")[0].strip() == b"close" for line in text.splitlines())


def need_alone(text: bytes) -> None:
    """Stops at a close among other lines."""
    if closes_in(text) and text != CLOSE:
        raise NotLines("A close is written alone, as `close,,,`, on its own page. Take the other lines first.")


def close_words(auction: Auction, reply: Reply) -> str | None:
    """What is typed for a close that would get this reply: the number of the open round, or that it ends the clock or
    the auction; None if it isn't written."""
    if reply.word == "round":
        return str(auction.running_round.number)
    return {"sealed": "end the clock", "closed": "end the auction"}.get(reply.word)


def cut_words(record: int) -> str:
    """What is typed for a cut after a record."""
    return f"cut after {record}"


def agrees(typed: str, words: str) -> bool:
    """Whether `typed` is this text; capitals and extra spaces don't matter."""
    return " ".join(typed.split()).lower() == words
