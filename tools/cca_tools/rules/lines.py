"""A text that is read line by line: the book, the weights, the slots and both certificates.

Fields are separated by one space, each line ends with one line feed, and a number is decimal digits without a leading
zero. The first line that isn't as it has to be stops the reading with the byte where it begins.
"""

from __future__ import annotations

import re

from cca_tools.rules.printable import shown
from cca_tools.rules.stops import MOST, LineSpot, Stop, refused

NUMBER = re.compile(rb"0|[1-9][0-9]*")
SIGNED_LINE = re.compile(rb"[a-z]+(?: (?:0|-?[1-9][0-9]*))*")
NAME = re.compile(rb"[a-z][a-z0-9_]{0,19}")
# Signed numbers are strictly between -2^120 and 2^120. No number that any field allows has more bytes than these.
WIDE = 2**120
LONGEST = len(str(-WIDE))
# This much of a faulty line is looked at for its sentence.
MOST_SHOWN = 1000


class Text:
    """A text, and how far it is read: `start` and `row` are of the line that was read last, `end` is where the next one
    begins."""

    def __init__(self, kind: str, data: bytes) -> None:
        self.kind, self.data, self.start, self.end, self.row = kind, data, 0, 0, 0

    def need(self, right: bool, why: str) -> None:
        """Stops at this line if it isn't right."""
        if not right:
            raise self.fault(why)

    def fault(self, why: str) -> Stop:
        """The stop of this line."""
        read = self.data[self.start : self.start + MOST_SHOWN].split(b"\n", 1)[0]
        spot = LineSpot(self.row, read.decode("utf-8", "replace"))
        return refused(self.kind, self.start, why=space_fault(read) or why, spot=spot)

    def line(self) -> bytes:
        """The next line, without its line feed."""
        self.start, self.row = self.end, self.row + 1
        feed = self.data.find(b"\n", self.start)
        ends = "the text ends before this line is whole: each line ends with a line feed, the last one, `end`, too"
        self.need(feed >= 0, ends)
        self.end, line = feed + 1, self.data[self.start : feed]
        # A line of a certificate may be long, and isn't split if it has more fields than any of them.
        is_short = self.kind != "cert" or line.count(b" ") <= MOST["states"]
        self.need(is_short, "no line of a certificate has so many fields")
        return line

    def fields(self, word: bytes, least: int, form: str) -> list[bytes]:
        """The fields after the word of the next line, at least this many."""
        first, *fields = self.line().split(b" ")
        self.need(first == word and len(fields) >= least, f"here a line `{form}` has to be")
        return fields

    def number(self, field: bytes, low: int, high: int, what: str) -> int:
        """A whole number of this range."""
        allowed = f"`{shown(field)}` is read as {what}, which is a whole number from {low} to {high}, in digits alone"
        self.need(bool(NUMBER.fullmatch(field)) and len(field) <= LONGEST, allowed)
        self.need(low <= int(field) <= high, allowed)
        return int(field)

    def need_count(self, word: bytes, fields: list[bytes], count: int) -> None:
        """Stops if a line hasn't this many numbers."""
        other = " (is this the certificate of another book?)" if self.kind == "cert" else ""
        why = f"`{shown(word)}` has to be followed by {count} numbers, and not by {len(fields)}{other}"
        self.need(len(fields) == count, why)

    def numbers(self, word: bytes, count: int, low: int, high: int, what: str) -> tuple[int, ...]:
        """The numbers of a line that is a word and this many numbers."""
        fields = self.fields(word, 0, f"{shown(word)} ..")
        self.need_count(word, fields, count)
        return tuple(self.number(field, low, high, what) for field in fields)

    def signed(self, word: bytes, count: int) -> list[int]:
        """The signed numbers of such a line. A certificate has millions, so a line is tested as a whole."""
        line = self.line()
        first, *fields = line.split(b" ")
        self.need(first == word, f"here a line `{shown(word)} ..` has to be")
        self.need_count(word, fields, count)
        form = "a number is digits without a leading zero, with `-` before it where it is below 0"
        self.need(bool(SIGNED_LINE.fullmatch(line)), form)
        between = "a number isn't strictly between -2^120 and 2^120"
        self.need(max(map(len, fields), default=0) <= LONGEST, between)
        numbers = list(map(int, fields))
        self.need(-WIDE < min(numbers, default=0) and max(numbers, default=0) < WIDE, between)
        return numbers

    def name(self, field: bytes) -> str:
        """The name of a bidder."""
        form = f"`{shown(field)}` is no name: 1 to 20 of a to z, 0 to 9 and _, a letter first"
        self.need(bool(NAME.fullmatch(field)), form)
        return field.decode()

    def words(self, text: str) -> None:
        """Reads a line that is just this one."""
        self.need(self.line() == text.encode(), f"here the line `{text}` has to be")

    def no_more(self) -> None:
        """Stops if the text goes on."""
        self.start, self.row = self.end, self.row + 1
        self.need(self.end == len(self.data), "the text is over with the line before, and nothing may come after it")


def space_fault(line: bytes) -> str:
    """What is wrong with the spaces of a faulty line, or nothing: this isn't seen in an editor."""
    if line.endswith(b"\r"):
        return "the line ends with a carriage return, as some editors write it, and a line feed alone has to end it"
    if b"\t" in line:
        return "there is a tab in the line, and fields are separated by one space"
    if line != line.strip(b" ") or b"  " in line:
        return (
            "there is a space too many: fields are separated by one space, and none is at the beginning or the end of "
            "a line"
        )
    return ""
