"""TOML 1.1, the form of awards. The reader of Python's library knows only TOML 1.0.

`read_toml` returns the table that a text states, or raises NoToml. Dates and times are read but not distinguished,
since no rule allows one. Arrays and inline tables are at most 80 deep in one another, a key has at most 80 parts, a
whole number has 64 bits with its sign, and a float fits into 64 bits.
"""

from __future__ import annotations

import math
import re
from collections.abc import Mapping
from dataclasses import dataclass
from typing import Literal, TypeAlias

from cca_tools.rules.printable import clipped

DEEP, GREATEST = 80, 2**63
SIGN = r"\t\x20-\x7e\x80-\U0010ffff"  # of a comment or a string: no control character but the tab
BASIC, LITERAL = r"[\t !#-\[\]-~\x80-\U0010ffff]", r"[\t\x20-&(-~\x80-\U0010ffff]"
LINE_END = r"\r?\n"
ESCAPE = r'\\(?:[befnrt"\\]|x[0-9A-Fa-f]{2}|u[0-9A-Fa-f]{4}|U[0-9A-Fa-f]{8})'
# A line that goes on after its end. It takes all the space there is, so that there is one way to match a string of many
# of them.
FOLD = rf"\\[ \t]*{LINE_END}(?:[ \t]|{LINE_END})*(?![ \t]|{LINE_END})"
STRINGS = {
    '"': re.compile(rf'"((?:{BASIC}|{ESCAPE})*)"'),
    "'": re.compile(rf"'({LITERAL}*)'"),
    '"""': re.compile(rf'"""(?:{LINE_END})?((?:{BASIC}|{ESCAPE}|{FOLD}|{LINE_END}|"{{1,2}}(?!"))*"{{0,2}})"""(?!")'),
    "'''": re.compile(rf"'''(?:{LINE_END})?((?:{LITERAL}|{LINE_END}|'{{1,2}}(?!'))*'{{0,2}})'''(?!')"),
}
LETTERS = {"b": "\b", "e": "\x1b", "f": "\f", "n": "\n", "r": "\r", "t": "\t", '"': '"', "\\": "\\"}
SPACE = re.compile(r"[ \t]*")
BLANK = re.compile(rf"(?:[ \t]|{LINE_END}|#[{SIGN}]*)*")
BARE = re.compile(r"[A-Za-z0-9_-]+")
WORD = re.compile(r"[A-Za-z0-9_+.:-]+(?: [0-9][A-Za-z0-9_+.:-]*)?")  # a space may be between a date and a time
DATE, TIME = r"(\d{4})-(\d\d)-(\d\d)", r"(\d\d):(\d\d)(?::(\d\d)(?:\.\d+)?)?"
MOMENT = re.compile(rf"{TIME}|{DATE}(?:[Tt ]{TIME}(?:[Zz]|[+-](\d\d):(\d\d))?)?", re.A)
WHOLE = re.compile(
    r"[+-]?(?:0|[1-9](?:_?\d)*)|0x[0-9A-Fa-f](?:_?[0-9A-Fa-f])*|0o[0-7](?:_?[0-7])*|0b[01](?:_?[01])*", re.A
)
FLOAT = re.compile(r"[+-]?(?:inf|nan|(?:0|[1-9](?:_?\d)*)(?:\.\d(?:_?\d)*)?(?:[eE][+-]?\d(?:_?\d)*)?)", re.A)


Value: TypeAlias = object
Origin: TypeAlias = Literal["passed", "dotted", "header"]


class NoToml(ValueError):
    """A text that isn't TOML: the reason, with the line and the column."""

    def __init__(self, text: str, at: int, why: str) -> None:
        row = text.count("\n", 0, at) + 1
        super().__init__(f"{why} (line {row}, column {at - text.rfind(chr(10), 0, at)})")


@dataclass(frozen=True)
class Moment:
    """A date, a time or both."""

    text: str

    def __str__(self) -> str:
        return self.text


class Table(dict[str, Value]):
    """A table that may still grow: one that a header only passed through, that a dotted key made, or that a header
    defined."""

    origin: Origin = "passed"


class Tables(list[Table]):
    """An array of tables; a header in double brackets began each."""


class Reader:
    """Reads a text from its beginning; `at` is the place of the next character."""

    def __init__(self, text: str) -> None:
        self.text, self.at = text, 0

    def fault(self, why: str) -> NoToml:
        """The fault that the text isn't TOML here."""
        return NoToml(self.text, self.at, why)

    def need(self, right: bool, why: str) -> None:
        if not right:
            raise self.fault(why)

    def found(self, match: re.Match[str] | None, why: str) -> re.Match[str]:
        """What was found here, or a fault."""
        if match is None:
            raise self.fault(why)
        return match

    def skip(self, form: re.Pattern[str]) -> None:
        """Goes on after what has this form, which may be nothing."""
        match = form.match(self.text, self.at)
        self.at = match.end() if match else self.at

    def next_is(self, signs: str) -> bool:
        return self.text.startswith(signs, self.at)

    def take(self, signs: str) -> bool:
        """Whether these signs are here; they are read."""
        found = self.next_is(signs)
        self.at += len(signs) if found else 0
        return found

    def string(self, mark: str) -> str:
        """The string that begins here with this mark."""
        why = "here a string isn't closed, or has a sign or an escape that none has"
        found = self.found(STRINGS[mark].match(self.text, self.at), why)
        content = re.sub(rf"{ESCAPE}|{FOLD}", self.unescaped, found[1]) if mark[0] == '"' else found[1]
        self.at = found.end()
        return content

    def unescaped(self, found: re.Match[str]) -> str:
        letter, digits = found[0][1], found[0][2:]
        if letter in "xuU":
            code = int(digits, 16)
            self.need(code < 0xD800 or 0xE000 <= code <= 0x10FFFF, "here a string has an escape that is no character")
            return chr(code)
        return LETTERS.get(letter, "")

    def key(self) -> list[str]:
        """The parts of a key, and the space after it."""
        parts = [self.part()]
        while self.take("."):
            self.skip(SPACE)
            parts.append(self.part())
            self.need(len(parts) <= DEEP, "here a key has too many parts")
        return parts

    def part(self) -> str:
        mark = self.text[self.at : self.at + 1]
        if mark in ('"', "'"):
            part = self.string(mark)
        else:
            part = self.found(BARE.match(self.text, self.at), "here a key has to be")[0]
            self.at += len(part)
        self.skip(SPACE)
        return part

    def pair(self, deep: int) -> tuple[list[str], Value]:
        """A key and its value."""
        parts = self.key()
        self.need(self.take("="), "here `=` has to be")
        self.skip(SPACE)
        return parts, self.value(deep)

    def value(self, deep: int) -> Value:
        """A value, with arrays and inline tables at most so deep."""
        if self.next_is("[") or self.next_is("{"):
            self.need(deep > 0, "here an array or an inline table is too deep in others")
            if self.take("["):
                return self.array(deep - 1)
            self.take("{")
            return self.inline_table(deep - 1)
        mark = next((mark for mark in ('"""', "'''", '"', "'") if self.next_is(mark)), None)
        return self.string(mark) if mark else self.word()

    def array(self, deep: int) -> list[Value]:
        found: list[Value] = []
        while not self.ends("]"):
            found.append(self.value(deep))
            self.need_comma("]", "here a comma or `]` has to be")
        return found

    def inline_table(self, deep: int) -> dict[str, Value]:
        found = Table()
        while not self.ends("}"):
            parts, value = self.pair(deep)
            self.put(found, parts, value)
            self.need_comma("}", "here a comma or `}` has to be")
        return dict(found)

    def ends(self, mark: str) -> bool:
        self.skip(BLANK)
        return self.take(mark)

    def need_comma(self, mark: str, why: str) -> None:
        self.skip(BLANK)
        self.need(self.take(",") or self.next_is(mark), why)

    def word(self) -> Value:
        """A number, a truth value, a date or a time."""
        word = self.found(WORD.match(self.text, self.at), "here a value has to be")[0]
        value = scalar(word)
        self.need(value is not None, f"`{word[:40]}` is no value")
        self.at += len(word)
        return value

    def put(self, table: Table, parts: list[str], value: Value) -> None:
        """Puts a value at a key, through tables that dotted keys make."""
        for part in parts[:-1]:
            inner = table.setdefault(part, Table())
            if not isinstance(inner, Table) or inner.origin == "header":
                raise self.fault(f"`{clipped(part)}` is there already, and nothing is added to it")
            inner.origin, table = "dotted", inner
        self.need(parts[-1] not in table, f"`{clipped(parts[-1])}` is there twice")
        table[parts[-1]] = value

    def header(self, root: Table) -> Table:
        """The table that a header begins."""
        is_array, table = self.take("[["), root
        self.need(is_array or self.take("["), "here a header has to be")
        self.skip(SPACE)
        *path, last = self.key()
        self.need(self.take("]]" if is_array else "]"), "here the header has to be closed")
        for part in path:
            inner = table.setdefault(part, Table())
            inner = inner[-1] if isinstance(inner, Tables) else inner
            if not isinstance(inner, Table):
                raise self.fault(f"`{clipped(part)}` is a value, and no header goes through it")
            table = inner
        return self.next_table(table, last) if is_array else self.own_table(table, last)

    def own_table(self, table: Table, name: str) -> Table:
        found = table.setdefault(name, Table())
        if not isinstance(found, Table) or found.origin != "passed":
            name = clipped(name)
            raise self.fault(f"`{name}` is there already; where there are several, each begins with [[{name}]]")
        found.origin = "header"
        return found

    def next_table(self, table: Table, name: str) -> Table:
        tables = table.setdefault(name, Tables())
        if not isinstance(tables, Tables):
            name = clipped(name)
            raise self.fault(f"`{name}` is there already, and is no list of tables that begin with [[{name}]]")
        tables.append(Table())
        return tables[-1]

    def document(self) -> Table:
        """The table of the whole text."""
        root = table = Table()
        self.skip(BLANK)
        while self.at < len(self.text):
            if self.next_is("["):
                table = self.header(root)
            else:
                self.put(table, *self.pair(DEEP))
            self.skip(SPACE)
            self.need(self.at == len(self.text) or self.text[self.at] in "#\r\n", "here the line has to end")
            self.skip(BLANK)
        return root


def scalar(word: str) -> Value:
    """The value of a word, or None if it is none."""
    if word in ("true", "false"):
        return word == "true"
    if re.match(r"\d+[-:]", word, re.A):
        return Moment(word) if is_moment(word) else None
    if WHOLE.fullmatch(word):
        return whole(word.replace("_", ""))
    found = float(word.replace("_", "")) if FLOAT.fullmatch(word) else None
    return found if found is not None and (math.isfinite(found) or word.lstrip("+-") in ("inf", "nan")) else None


def whole(word: str) -> int | None:
    """A whole number, or None if it doesn't fit into 64 bits."""
    # A number of 64 bits has fewer digits than those that Python refuses to read.
    number = int(word, 0) if len(word) < 80 else GREATEST
    return number if -GREATEST <= number < GREATEST else None


def is_moment(word: str) -> bool:
    """Whether a word is a date, a time or both."""
    found = MOMENT.fullmatch(word)
    if not found:
        return False
    parts = [int(part or 0) for part in found.groups()]
    year, month, day = parts[3:6]
    is_day = not found[4] or 1 <= month <= 12 and 1 <= day <= days_of(year, month)
    # Of a time, of that after a date, and of the offset. A minute may have a leap second.
    hours, minutes, seconds = (max(parts[n] for n in places) for places in ((0, 6, 9), (1, 7, 10), (2, 8)))
    return is_day and hours < 24 and minutes < 60 and seconds <= 60


def days_of(year: int, month: int) -> int:
    """How many days a month has."""
    if month == 2:
        return 29 if year % 4 == 0 and (year % 100 or year % 400 == 0) else 28
    return 30 if month in (4, 6, 9, 11) else 31


def read_toml(data: bytes) -> Mapping[str, Value]:
    """The table that bytes are; a byte order mark at the beginning is left out."""
    return Reader(data.decode().removeprefix("\ufeff")).document()
