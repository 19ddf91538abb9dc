"""What depends on the terminal: its width, colours, and a line on standard error where a run takes long."""

from __future__ import annotations

import os
import shutil
import sys
import threading
import unicodedata
from collections.abc import Iterator
from types import TracebackType
from typing import IO, Literal, TypeAlias

Colour: TypeAlias = Literal["red", "green", "bold"]
CODES: dict[Colour, str] = {"red": "31", "green": "32", "bold": "1"}
NARROWEST = 40
LONGEST = 6  # digits of a width that is believed
SECONDS = 2.0  # a run that takes less reports nothing
NO_COLUMN = ("Mn", "Me", "Cf")  # the kinds of marks that have no column of their own


def is_terminal(stream: IO[str] | None) -> bool:
    """Whether a stream goes to a terminal; a stream that was closed is None, and goes nowhere."""
    return stream is not None and stream.isatty()


def width(stream: IO[str] | None, most: int = 10_000) -> int:
    """How many columns a text has: the terminal's, at most `most`; `most` if the text goes to a file."""
    return max(NARROWEST, min(most, shutil.get_terminal_size().columns)) if is_terminal(stream) else most


def given_width() -> int | None:
    """How many columns the variable COLUMNS states; None if it states no number."""
    given = os.environ.get("COLUMNS", "")
    is_number = given.isascii() and given.isdecimal() and len(given) <= LONGEST
    return max(NARROWEST, int(given)) if is_number else None


def screen(stream: IO[str] | None) -> int | None:
    """How many columns the stream's screen has: a terminal, or the screen of `watch --color`, which states its width in
    COLUMNS. None if the stream doesn't go to a screen."""
    if is_terminal(stream):
        return width(stream)
    return given_width() if os.environ.get("FORCE_COLOR") else None


def has_colours(stream: IO[str] | None) -> bool:
    """Whether a stream takes colours: a terminal does, any stream does if FORCE_COLOR is set, and none does if NO_COLOR
    is set."""
    if os.environ.get("NO_COLOR"):
        return False
    return bool(os.environ.get("FORCE_COLOR")) or is_terminal(stream) and os.environ.get("TERM") != "dumb"


def painted(text: str, colour: Colour, stream: IO[str] | None) -> str:
    """The text in a colour, where the stream takes it."""
    if not has_colours(stream):
        return text
    return f"\x1b[{CODES[colour]}m{text}\x1b[0m"


def broken(line: str, columns: int) -> list[str]:
    """The line in parts that have room, broken between words; all but the first are indented by two more than it."""
    if columns_of(line) <= columns:
        return [line]
    start = " " * (len(line) - len(line.lstrip()))
    parts = [""]
    for word in line.split():
        longer = f"{parts[-1]} {word}" if parts[-1] else f"{start}{'  ' * (len(parts) > 1)}{word}"
        if parts[-1] and columns_of(longer) > columns:
            parts.append(f"{start}  {word}")
        else:
            parts[-1] = longer
    return parts


def columns_of(text: str) -> int:
    """How many columns of a terminal a text takes: letters of East Asia and most emoji take two, and marks over a
    letter none."""
    if text.isascii():
        return len(text)
    letters = [it for it in unicodedata.normalize("NFC", text) if unicodedata.category(it) not in NO_COLUMN]
    return len(letters) + sum(unicodedata.east_asian_width(it) in "WF" for it in letters)


def padded(text: str, columns: int, to_right: bool = False) -> str:
    """The text filled with spaces up to this many columns: after it, or before it if it is aligned to the right."""
    spaces = " " * (columns - columns_of(text))
    return spaces + text if to_right else text + spaces


def pieces(word: str, columns: int) -> Iterator[str]:
    """A word in pieces of at most this many columns."""
    piece = ""
    for letter in word:
        if piece and columns_of(piece + letter) > columns:
            yield piece
            piece = ""
        piece += letter
    yield piece


def filled(text: str, columns: int, first: str = "", later: str = "") -> list[str]:
    """Breaks a text into lines of this many columns, with these beginnings, and returns the lines. Breaks a word that
    is wider. Words end at a space, but not at a no-break space. A text without words has no lines."""
    lines, is_begun = [first], False
    for word in filter(None, text.split(" ")):
        for piece in pieces(word, max(1, columns - columns_of(later))):
            longer = f"{lines[-1]} {piece}" if is_begun else lines[-1] + piece
            if is_begun and columns_of(longer) > columns:
                lines.append(later + piece)
            else:
                lines[-1] = longer
            is_begun = True
    return lines if is_begun else []


class Progress:
    """Reports on standard error what is being done, once a run takes more than two seconds, if standard error is a
    terminal."""

    def __init__(self) -> None:
        self.name, self.doing, self.is_late = "", "", False

    def step(self, doing: str) -> None:
        """Sets what is done from now on, such as `drawing the page`."""
        self.doing = doing
        if self.is_late:
            self.say()

    def say(self) -> None:
        """Writes the line."""
        if self.doing and is_terminal(sys.stderr):
            print(f"{self.name}: {self.doing} ..", file=sys.stderr, flush=True)

    def late(self) -> None:
        """What is done when the time is over."""
        self.is_late = True
        self.say()

    def of(self, name: str) -> Watch:
        """A block of work of a tool with this name."""
        self.name, self.doing, self.is_late = name, "reading the files", False
        return Watch(self)


class Watch:
    """A block of work that is watched."""

    def __init__(self, progress: Progress) -> None:
        self.timer = threading.Timer(SECONDS, progress.late)
        self.timer.daemon = True

    def __enter__(self) -> Watch:
        if is_terminal(sys.stderr):
            self.timer.start()
        return self

    def __exit__(
        self, kind: type[BaseException] | None, fault: BaseException | None, trace: TracebackType | None
    ) -> None:
        self.timer.cancel()


progress = Progress()
